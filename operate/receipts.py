#!/usr/bin/env python3
"""Looks each share that a miner was told to be credited up in the ledger that the pool gives out.

    receipts.py shares.log pool.ledger

shares.log is what `vardiff.py --receipts` wrote on the miner's own side: each share that the pool
answered true, with the header that was rebuilt from what the miner was told. The ledger is a copy of the
pool's. By code of its own it computes the ledger's chain of hashes, and the header of each credit in it,
whosoever it is, and checks that its hash meets the class that the credit is booked with: so nobody is
credited with work that wasn't done.

A line for each share says at which event it is credited, for which account and with how much work, or
that it is NOT THERE. Behind them stand the sums, and what the ledger owes to each account of these shares
by the documented quotients. Compare the head with what other miners see: ledgers with the same head are
the same.

A share may be missing of a copy that is older than the share: take a copy, and then the log as it was
before. Nothing of it is proved.

Status 0: all is there and well. 1: a file couldn't be read. 2: the words are wrong. 3: the bytes are no
ledger, or a hash is wrong, or the log has a line that is none. 4: a share isn't there, or a credit's
header doesn't meet its class.
"""
import argparse
import json
import sys
from dataclasses import dataclass, field

from lib.bitcoin import displayed, zero_bits
from lib.commands import parser_of, status_of
from lib.history import Booked, History
from lib.ledger import Defect, LedgerFile
from lib.words import coin_words, count_words, time_words


@dataclass(slots=True)
class Receipt:
    """A share that the pool answered true."""

    line: int
    time: float
    worker: str
    header: bytes | None
    difficulty: float


@dataclass(slots=True)
class Looked:
    """What was found in the ledger."""

    found: dict[bytes, Booked] = field(default_factory=dict)
    weak: list[int] = field(default_factory=list)


def receipts_in(path: str) -> list[Receipt]:
    receipts = []
    with open(path, encoding="utf-8") as file:
        for number, line in enumerate(file, 1):
            try:
                said = json.loads(line)
                header = bytes.fromhex(said["header"]) if said["header"] is not None else None
                receipts.append(Receipt(
                    number, said["time"], str(said["worker"]), header, said["difficulty"],
                ))
            except (KeyError, TypeError, ValueError):
                raise Defect(f"line {number} of {path} is no share") from None
    return receipts


def look_up(headers: set[bytes], ledger: LedgerFile, history: History) -> Looked:
    """Goes over the credits of a ledger, and finds these among them."""
    looked = Looked()
    for booked in history.tell_all(ledger.all_entries()):
        if zero_bits(booked.hash) < booked.class_:
            looked.weak.append(booked.number)
        if booked.header in headers:
            looked.found[booked.header] = booked
    return looked


def line_of(receipt: Receipt, booked: Booked | None, base: int | None) -> str:
    """What is said of a share."""
    begin = f"share {receipt.line} of {receipt.worker}, {time_words(receipt.time)}:"
    if receipt.header is None:
        return f"{begin} its header couldn't be rebuilt"
    if booked is None:
        return f"{begin} NOT THERE, header {receipt.header.hex()}"
    told = "" if base is None or booked.work >= receipt.difficulty * 2**base else (
        f", LESS than its difficulty of {receipt.difficulty:g} said"
    )
    block = f", a block {displayed(booked.hash)}" if booked.block else ""
    return f"{begin} event {booked.number}, account {booked.account}, work {booked.work}{told}{block}"


def summary(receipts: list[Receipt], looked: Looked, ledger: LedgerFile, history: History) -> list[str]:
    there = [looked.found[one.header] for one in receipts if one.header in looked.found]
    missing = sum(one.header is not None and one.header not in looked.found for one in receipts)
    lines = [
        f"{count_words(len(there))} of {count_words(len(receipts))} shares are credited, with "
        f"{count_words(sum(booked.work for booked in there))} of work; {count_words(missing)} are not there",
        f"the ledger has {count_words(history.credits)} credits, of which "
        f"{count_words(len(looked.weak))} have a header that doesn't meet its class",
    ]
    for name in dict.fromkeys(booked.account for booked in there):
        account = history.accounts[name]
        lines.append(
            f"account {name}: {count_words(account.credits)} credits, {count_words(account.work)} of work, "
            f"{count_words(account.balance)} satoshis owed ({coin_words(account.balance)} BTC)"
        )
    if ledger.row.head:
        lines.append(f"the head is {ledger.row.head.hex()}")
    return lines


def check(words: argparse.Namespace) -> int:
    receipts = receipts_in(words.log)
    ledger, history = LedgerFile(words.ledger), History()
    looked = look_up({one.header for one in receipts if one.header}, ledger, history)
    missing = False
    for receipt in receipts:
        booked = looked.found.get(receipt.header) if receipt.header else None
        missing = missing or (receipt.header is not None and booked is None)
        if booked is None or not words.missing:
            print(line_of(receipt, booked, words.v1_base))
    for number in looked.weak:
        print(f"event {number}: THE HEADER DOESN'T MEET the class that it is credited with")
    print("\n".join(summary(receipts, looked, ledger, history)))
    return 4 if missing or looked.weak else 0


def main() -> int:
    parser = parser_of(__doc__)
    parser.add_argument("log", metavar="LOG", help="the shares, as vardiff.py --receipts wrote them")
    parser.add_argument("ledger", metavar="LEDGER", help="a copy of the pool's ledger, of either form")
    parser.add_argument("--missing", action="store_true", help="no line for a share that is there")
    parser.add_argument(
        "--v1-base", type=int, metavar="CLASS",
        help="the pool's v1_base: say where a share's work is less than its difficulty said",
    )
    words = parser.parse_args()
    return status_of(lambda: check(words))


if __name__ == "__main__":
    sys.exit(main())
