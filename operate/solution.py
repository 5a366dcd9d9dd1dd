#!/usr/bin/env python3
"""Prints what has to be handed in of a credit that is a block, for whoever has to do it by himself.

    solution.py LEDGER EVENT
    solution.py LEDGER EVENT --to 127.0.0.1:8442

A pool sends its provider each block that it books. One that is killed right behind its answer to the
miner has booked a block that nobody was sent; and a provider that had gone was sent none.

EVENT is the credit's number, as `read-ledger.py`, `report.py` and `payouts.py` have it. The lines are
the block's hash, its height, its header, its coinbase as it stands in the block, the merkle path beside
the coinbase, the template's id, and SubmitSolution, the message for the provider that gave the template.
All are in hexadecimal, hashes but for the block's as they stand in a header. Of a miner's own job there
is no template and no message: that miner has the block's transactions, and hands it in.

With --to the message is sent to the provider there, which has to know the template still. `node.py`
does for some time, says what the node made of the block, and keeps it in a file.

Nothing of it is proved.

Status 0: it was printed, and sent where that was asked. 1: the file couldn't be read, or the provider
not reached. 2: the words are wrong. 3: the bytes are no ledger, the event is no block, or the provider
speaks something else.
"""
import argparse
import sys

from lib.addresses import dial
from lib.commands import parser_of, status_of
from lib.events import Credit
from lib.frames import (
    SETUP_SUCCESS, TEMPLATE_DISTRIBUTION, BadFrame, Frames, Solution, constraints, setup,
)
from lib.history import Block, History
from lib.ledger import Defect, LedgerFile

SECONDS = 10.0
# What this pool says of its outputs.
SIZE, SIGOPS = 109, 400


def found_at(path: str, number: int) -> tuple[Block, Credit]:
    """The block that is booked at an event, and the event."""
    history = History()
    for entry in LedgerFile(path).new_entries():
        booked = history.tell(entry)
        if entry.number == number:
            if booked is None or not isinstance(entry.event, Credit):
                raise Defect(f"event {number} is no credit, but {type(entry.event).__name__}")
            if booked.block is None:
                raise Defect(f"event {number} is a credit that is no block")
            return booked.block, entry.event
    raise Defect(f"the ledger has no event {number}")


def coinbase_of(block: Block) -> bytes:
    return block.share.job.coinbase(block.share.extranonce)


def solution_of(block: Block, credit: Credit) -> Solution | None:
    """The message for the provider, where the job is one of a template."""
    number = block.share.job.template_id
    if number is None:
        return None
    return Solution(number, credit.version, credit.ntime, credit.nonce, coinbase_of(block))


def print_solution(block: Block, solution: Solution | None) -> None:
    print(f"block {block.hash}")
    print(f"height {'unknown' if block.height is None else block.height}")
    print(f"reward {block.reward}")
    print(f"account {block.share.account}")
    print(f"header {block.share.header.hex()}")
    print(f"coinbase {coinbase_of(block).hex()}")
    print(f"path {' '.join(one.hex() for one in block.share.job.path) or 'none'}")
    if solution is None:
        print("template none: the job was that miner's own")
    else:
        print(f"template {solution.template_id}")
        print(f"message {solution.frame().hex()}")


def hand_in(address: str, solution: Solution) -> None:
    """Sends a solution to a provider, as the pool does."""
    with dial(address, SECONDS) as connection:
        frames = Frames(connection)
        frames.put(setup(TEMPLATE_DISTRIBUTION) + constraints(SIZE, SIGOPS))
        answer = frames.take()
        if answer is None or answer.kind != SETUP_SUCCESS:
            raise BadFrame("it doesn't accept the setup")
        frames.put(solution.frame())
    print(f"sent to {address}")


def work(words: argparse.Namespace) -> None:
    block, credit = found_at(words.ledger, words.event)
    solution = solution_of(block, credit)
    print_solution(block, solution)
    if words.to is None:
        return
    if solution is None:
        raise Defect("nothing was sent: no provider gave this job")
    try:
        hand_in(words.to, solution)
    except BadFrame as bad:
        raise Defect(f"the provider at {words.to} isn't one: {bad}") from None


def main() -> int:
    parser = parser_of(__doc__)
    parser.add_argument("ledger", metavar="LEDGER", help="the ledger's file, of either form")
    parser.add_argument("event", metavar="EVENT", type=int, help="the credit's number")
    parser.add_argument("--to", metavar="ADDRESS", help="the provider that it is sent to")
    words = parser.parse_args()
    return status_of(lambda: work(words))


if __name__ == "__main__":
    sys.exit(main())
