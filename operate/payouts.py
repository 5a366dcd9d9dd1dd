#!/usr/bin/env python3
"""Says what a ledger's blocks owe to whom, as CSV.

    payouts.py LEDGER                        a line for each block and account
    payouts.py LEDGER --totals               a line for each account
    payouts.py LEDGER --paid paid.csv        the same, with what was paid and what is still owed

A line of the first kind has the block's hash, height, time (that of its header, UTC) and event, its
job, its reward, the account, the work that counts for the block by the pool's rule, and satoshis.
Behind each block's accounts stands the line of "the pool", which has what is left: the fee, and less
than a satoshi for each account. The totals are those of `audit`.

The job is "template", or "own" for one that a miner proposed: then the reward is that miner's word
alone, and what the ledger owes for it may never have been there. Nothing may be paid for a block
before it is seen in the chain with the pool's output, and has matured.

With --without HASH, as often as wanted, a block counts nothing: one that was orphaned, or never
handed in. The parts of all other blocks stay as the ledger has them: the work of such a round isn't
carried into the next one.

paid.csv has a line ACCOUNT,SATOSHIS for each payment, and anything behind that; a first line of heads
is passed over. What was paid beyond what is owed is a negative number.

Nothing of it is proved.

Status 0: it was written. 1: a file couldn't be read. 2: the words are wrong. 3: the bytes are no
ledger, no block has such a hash, or paid.csv has a line that is none.
"""
import argparse
import csv
import sys
from collections.abc import Iterable

from lib.commands import parser_of, status_of
from lib.history import Block, History, history_of
from lib.ledger import Defect, LedgerFile
from lib.words import time_words

# No account's name has a blank.
POOL = "the pool"
HEADS = ("block", "height", "time", "event", "job", "reward", "account", "work", "satoshis")
TOTAL_HEADS = ("account", "work", "satoshis")
PAID_HEADS = ("paid", "owed")


def counted(history: History, without: Iterable[str]) -> list[Block]:
    """The blocks, but for those that count nothing."""
    left_out = {hash_.lower() for hash_ in without}
    unknown = left_out - {block.hash for block in history.blocks}
    if unknown:
        raise Defect(f"no block of this ledger has the hash {min(unknown)}")
    return [block for block in history.blocks if block.hash not in left_out]


def lines_of(block: Block) -> Iterable[tuple]:
    """A block's lines: one for each account, and the pool's."""
    begin = (
        block.hash, "" if block.height is None else block.height, time_words(block.share.time),
        block.share.number, "own" if block.own else "template", block.reward,
    )
    for account, satoshis in block.payouts.items():
        yield *begin, account, block.weights[account], satoshis
    yield *begin, POOL, "", block.pool_part()


def totals_of(history: History, blocks: list[Block]) -> Iterable[tuple[str, int | str, int]]:
    """A line for each account with a credit, in the order of their first, and the pool's."""
    for name, account in history.accounts.items():
        yield name, account.work, sum(block.payouts.get(name, 0) for block in blocks)
    yield POOL, "", sum(block.pool_part() for block in blocks)


def paid_in(path: str) -> dict[str, int]:
    """What a file says was paid to each account."""
    paid: dict[str, int] = {}
    with open(path, encoding="utf-8", newline="") as file:
        for number, line in enumerate(csv.reader(file)):
            if not line:
                continue
            digits = line[1].strip() if len(line) > 1 else ""
            if digits.isascii() and digits.isdigit():
                account = line[0].strip()
                paid[account] = paid.get(account, 0) + int(digits)
            elif number > 0:
                raise Defect(f"line {number + 1} of {path} isn't ACCOUNT,SATOSHIS")
    return paid


def with_paid(totals: Iterable[tuple], paid: dict[str, int]) -> Iterable[tuple]:
    """The totals with what was paid and what is owed; who is no account of the ledger comes last."""
    left = dict(paid)
    for account, work, satoshis in totals:
        was_paid = left.pop(account, 0)
        yield account, work, satoshis, was_paid, satoshis - was_paid
    for account, was_paid in left.items():
        print(f"{account} was paid, and has no credit in this ledger", file=sys.stderr)
        yield account, 0, 0, was_paid, -was_paid


def write(words: argparse.Namespace) -> None:
    history = history_of(LedgerFile(words.ledger))
    blocks = counted(history, words.without)
    heads: tuple[str, ...] = HEADS
    lines: Iterable[tuple] = (line for block in blocks for line in lines_of(block))
    if words.totals or words.paid:
        heads, lines = TOTAL_HEADS, totals_of(history, blocks)
    if words.paid:
        heads, lines = heads + PAID_HEADS, with_paid(lines, paid_in(words.paid))
    writer = csv.writer(sys.stdout, lineterminator="\n")
    writer.writerow(heads)
    writer.writerows(lines)


def main() -> int:
    parser = parser_of(__doc__)
    parser.add_argument("ledger", metavar="LEDGER", help="the ledger's file, of either form")
    parser.add_argument("--totals", action="store_true", help="a line for each account")
    parser.add_argument("--paid", metavar="FILE", help="what was paid so far; with it come the totals")
    parser.add_argument(
        "--without", metavar="HASH", action="append", default=[], help="a block that counts nothing",
    )
    words = parser.parse_args()
    return status_of(lambda: write(words))


if __name__ == "__main__":
    sys.exit(main())
