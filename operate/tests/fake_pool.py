"""Stands in for the program in the tests of `keep.py`: a pool whose runs were written down before.

    fake_pool.py PLAN durable serve SETTINGS LEDGER

PLAN is a JSON file: a list of runs, each a list of steps: ["append", RECORDS IN HEX..], ["sleep", SECONDS],
["exit", STATUS], ["say", TEXT]. Each start of it does the next run; behind the last it ends with 2. Behind
its last step a run goes on until it is killed.
"""
import hashlib
import json
import os
import sys
import time

from writing import number


def append(ledger: str, record: bytes) -> None:
    """Appends a record to a durable ledger, by the steps of docs/POOL.md."""
    with open(ledger, "r+b") as file:
        content = file.read()
        first = len(content) < 10
        chain = hashlib.sha256(b"SV2LEDG2").digest() if first else content[-33:-1]
        piece = record + hashlib.sha256(chain + record).digest()
        if first:
            content, piece = b"SV2DISK1\0", b"SV2LEDG2" + piece
        file.seek(0)
        file.write(content + number(len(piece), 4) + piece + b"\0")
        file.flush()
        file.seek(len(content) - 1)
        file.write(b"\1")


def main() -> int:
    plan, ledger = sys.argv[1], sys.argv[-1]
    with open(plan, encoding="utf-8") as file:
        runs = json.load(file)
    with open(f"{plan}.runs", "a", encoding="utf-8") as file:
        file.write(f"{os.getpid()}\n")
    with open(f"{plan}.runs", encoding="utf-8") as file:
        run = len(file.readlines()) - 1
    for step, *words in runs[run] if run < len(runs) else [["exit", 2]]:
        if step == "append":
            for record in words:
                append(ledger, bytes.fromhex(record))
        elif step == "sleep":
            time.sleep(words[0])
        elif step == "say":
            print(words[0], flush=True)
        else:
            return words[0]
    time.sleep(60)
    return 0


if __name__ == "__main__":
    sys.exit(main())
