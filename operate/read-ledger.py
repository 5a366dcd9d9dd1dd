#!/usr/bin/env python3
"""Prints each event of a ledger as a line of words, so that anybody can look into one.

It needs Python 3 alone, and nothing of this pool's program: what it knows of a ledger is what
docs/POOL.md says under "The ledger" and "A durable ledger". Both formats are read, and durable
ledgers, of which it changes nothing: of one that a pool has open, or that a crash left, it shows the
events that would be found. Hashes and other bytes are printed in hexadecimal as they stand in the
ledger, versions and nbits as numbers of eight hex digits.

The last line says how many events there are, and in format 2 the hash behind the last of them, the
head: two copies of a ledger with the same head are the same, and one whose end was cut off has another.

It says where the bytes are no ledger, and in format 2 where a hash isn't that of what stands before
it; nothing behind such a place is looked at. It doesn't judge whether an event was legal.

Status 0: all of it was read. 1: the file couldn't be read. 2: the words are wrong. 3: the bytes are
no ledger, or a hash is wrong.
"""
import sys

from lib.commands import parser_of, status_of
from lib.events import Teller
from lib.ledger import LedgerFile, format_of


def print_events(path: str) -> None:
    """Prints all events up to the first defect, which is raised, and behind them how many there are."""
    print(f"format {format_of(path)}")
    ledger, teller = LedgerFile(path), Teller()
    for entry in ledger.all_entries():
        print(f"{entry.number} at {entry.place}: {teller.words(entry.event)}")
    head = ledger.row.head
    hashes = f"each with its hash; the head is {head.hex()}" if head else "without hashes"
    print(f"{ledger.row.count} events, {hashes}")


def main() -> int:
    parser = parser_of(__doc__)
    parser.add_argument("ledger", metavar="LEDGER", help="the ledger's file, of either form")
    words = parser.parse_args()
    return status_of(lambda: print_events(words.ledger), defects=sys.stdout)


if __name__ == "__main__":
    sys.exit(main())
