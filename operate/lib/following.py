"""A ledger that is read on as it grows, and whether a pool has it open."""
import os
from collections.abc import Iterator
from dataclasses import dataclass

from lib.history import Booked, History
from lib.ledger import Entry, LedgerFile, Replaced


@dataclass(slots=True)
class Read:
    """An event that is new, and what it was booked for where it is a credit."""

    entry: Entry
    booked: Booked | None


class Follower:
    """A ledger and its history so far. Where the ledger is replaced by another one it begins again."""

    def __init__(self, path: str) -> None:
        self.path = path
        self.generation = 0
        self._begin()

    def poll(self) -> Iterator[Read]:
        """What is new since the last time; nothing where there is no ledger yet."""
        try:
            for entry in self.ledger.new_entries():
                yield Read(entry, self.history.tell(entry))
        except FileNotFoundError:
            return
        except Replaced:
            self.generation += 1
            self._begin()
            yield from self.poll()

    def _begin(self) -> None:
        self.ledger = LedgerFile(self.path)
        self.history = History()


def is_held(path: str) -> bool | None:
    """Whether a process has locked this file, as a pool does with its durable ledger; None where the
    system doesn't tell."""
    try:
        found = os.stat(path)
        with open("/proc/locks", encoding="ascii") as locks:
            lines = [line.split() for line in locks]
    except OSError:
        return None
    device = f"{os.major(found.st_dev):02x}:{os.minor(found.st_dev):02x}:{found.st_ino}"
    return any(line[1] == "FLOCK" and device in line for line in lines)
