"""Reads a pool's ledger, of either form, also while it is written.

The plain form (formats 1 and 2) is what `serve` and `solo` write, the durable form what
`durable serve` does; docs/POOL.md says what they are under "The ledger" and "A durable ledger".
Nothing of a ledger is ever changed here.
"""
import hashlib
from collections.abc import Iterator
from dataclasses import dataclass
from typing import BinaryIO

from lib.events import BODY_LIMIT, KINDS, Event, NoRecord, event_of

MAGICS = {b"SV2LEDG1": 1, b"SV2LEDG2": 2}
DURABLE_MAGIC = b"SV2DISK1"
MAGIC_LENGTH = 8
HEAD_LENGTH = 4
HASH_LENGTH = 32
ENTRY_LIMIT = 300_100
# So much is read at once: more than any record or entry has.
PIECE = 1 << 20


class Defect(Exception):
    """Where and why bytes are no ledger, or a hash isn't that of what stands before it."""


class Replaced(Exception):
    """What was read from the file doesn't stand there any more."""


@dataclass(slots=True)
class Entry:
    """An event as it stands in a ledger: its number, the place of its record, and the hash behind it."""

    number: int
    place: int
    record: bytes
    event: Event
    hash: bytes


def format_of(path: str) -> int:
    """The format of a ledger's file, by the bytes that it begins with; a durable one has format 2."""
    with open(path, "rb") as file:
        magic = file.read(MAGIC_LENGTH)
    if magic == DURABLE_MAGIC:
        return 2
    if magic not in MAGICS:
        raise Defect("not a ledger at 0: it doesn't begin with SV2LEDG1 or SV2LEDG2")
    return MAGICS[magic]


def split_record(content: bytes) -> tuple[type, int]:
    """The kind of the record that begins here, and the length of its body."""
    if len(content) < HEAD_LENGTH:
        raise NoRecord(f"only {len(content)} of the 4 bytes of kind and length are there")
    kind, length = content[0], int.from_bytes(content[1:HEAD_LENGTH], "little")
    if kind >= len(KINDS):
        raise NoRecord(f"no event has the kind {kind:02x}")
    if length > BODY_LIMIT:
        raise NoRecord(f"its length says {length} bytes, over {BODY_LIMIT}")
    return KINDS[kind], length


class Row:
    """The bytes of a ledger of format 1 or 2, which come in pieces, and the events in them.

    `rest` is what came and is no whole record yet.
    """

    def __init__(self) -> None:
        self.format = 0
        self.place = 0
        self.count = 0
        self.head = b""
        self.rest = b""

    def feed(self, piece: bytes) -> Iterator[Entry]:
        """The events that are whole with this piece. What is no ledger is refused by a Defect."""
        self.rest += piece
        if self.format == 0 and len(self.rest) >= MAGIC_LENGTH:
            self._begin()
        content, at = self.rest, 0
        try:
            while self.format:
                entry = self._entry_in(content, at)
                if entry is None:
                    break
                at += len(entry.record) + len(entry.hash)
                yield entry
        finally:
            self.rest = content[at:]

    def finish(self) -> None:
        """Refuses what is left behind the last whole record."""
        if self.format == 0:
            raise Defect("not a ledger at 0: it doesn't begin with SV2LEDG1 or SV2LEDG2")
        if not self.rest:
            return
        try:
            kind, length = split_record(self.rest)
            body = self.rest[HEAD_LENGTH:HEAD_LENGTH + length]
            if len(body) < length:
                raise NoRecord(f"only {len(body)} of its {length} bytes are there")
            event_of(kind, body)
            left = len(self.rest) - HEAD_LENGTH - length
            raise NoRecord(f"only {left} of the 32 bytes of hash behind it are there")
        except NoRecord as defect:
            raise self._defect(defect) from None

    def _begin(self) -> None:
        magic, self.rest = self.rest[:MAGIC_LENGTH], self.rest[MAGIC_LENGTH:]
        if magic not in MAGICS:
            raise Defect("not a ledger at 0: it doesn't begin with SV2LEDG1 or SV2LEDG2")
        self.format = MAGICS[magic]
        self.place = MAGIC_LENGTH
        if self.format == 2:
            self.head = hashlib.sha256(magic).digest()

    def _entry_in(self, content: bytes, at: int) -> Entry | None:
        """The event whose record begins at a place of these bytes, once all of it is there."""
        if len(content) < at + HEAD_LENGTH:
            return None
        try:
            kind, length = split_record(content[at:at + HEAD_LENGTH])
            end = at + HEAD_LENGTH + length
            if len(content) < end + len(self.head):
                return None
            event = event_of(kind, content[at + HEAD_LENGTH:end])
        except NoRecord as defect:
            raise self._defect(defect) from None
        record, found = content[at:end], content[end:end + len(self.head)]
        self._chain(record, found)
        entry = Entry(self.count, self.place, record, event, found)
        self.count += 1
        self.place += len(record) + len(found)
        return entry

    def _chain(self, record: bytes, found: bytes) -> None:
        if self.format == 1:
            return
        self.head = hashlib.sha256(self.head + record).digest()
        if found != self.head:
            raise Defect(
                f"broken chain {self.count}: the hash behind the record at {self.place} "
                f"is {found.hex()}, and should be {self.head.hex()}"
            )

    def _defect(self, defect: NoRecord) -> Defect:
        return Defect(f"not a ledger at {self.place}: {defect}")


class LedgerFile:
    """A ledger's file, from front to back; each reading gives the events that are new since the last.

    An event that is half written is read once it is whole. Where what was read has been replaced,
    by a new ledger or by a pool that took back an event which it couldn't keep, `Replaced` is raised.
    """

    def __init__(self, path: str) -> None:
        self.path = path
        self.row = Row()
        self.durable = False
        # Whether each entry of a durable ledger is one event, as a pool writes it.
        self.regular = True
        # The place in the file up to which it was read, and the bytes there that were read last.
        self._place = 0
        self._last = b""

    def new_entries(self) -> Iterator[Entry]:
        with open(self.path, "rb") as file:
            self._look_back(file)
            if self._place == 0:
                magic = file.read(MAGIC_LENGTH)
                if len(magic) < MAGIC_LENGTH:
                    return
                self.durable = magic == DURABLE_MAGIC
            step = self._new_in_durable if self.durable else self._new_in_plain
            read = -1
            while read != self._place:
                read = self._place
                file.seek(self._place)
                yield from step(file.read(PIECE))

    def all_entries(self) -> Iterator[Entry]:
        """The events of a ledger that nobody writes: what stands behind them is a Defect."""
        yield from self.new_entries()
        if self.row.format == 0 and self.durable:
            # No entry at all stands for the history without events.
            yield from self.row.feed(b"SV2LEDG2")
        self.row.finish()

    def content(self) -> bytes:
        """The bytes of the ledger as far as it was read, as those of a plain one."""
        with open(self.path, "rb") as file:
            found = file.read(self._place)
        if not self.durable:
            return found
        return b"".join(found[at:end] for at, end in entries_in(found + b"\0")) or b"SV2LEDG2"

    def _look_back(self, file: BinaryIO) -> None:
        file.seek(self._place - len(self._last))
        if file.read(len(self._last)) != self._last:
            raise Replaced(f"{self.path} isn't what it was")
        file.seek(0)

    def _read_up_to(self, place: int, last: bytes) -> None:
        self._place, self._last = place, last

    def _new_in_plain(self, piece: bytes) -> Iterator[Entry]:
        # What isn't whole yet may be cut off again, so nothing of it is kept.
        self.row.rest = b""
        for entry in self.row.feed(piece):
            place = entry.place + len(entry.record) + len(entry.hash)
            self._read_up_to(place, entry.record + entry.hash)
            yield entry
        if self._place == 0 and self.row.format:
            self._read_up_to(MAGIC_LENGTH, piece[:MAGIC_LENGTH])

    def _new_in_durable(self, piece: bytes) -> Iterator[Entry]:
        if self._place == 0:
            self._read_up_to(MAGIC_LENGTH, DURABLE_MAGIC)
            return
        begin = self._place
        for at, end in entries_in(piece, 0):
            self._read_up_to(begin + end, piece[at - 5:end])
            count = self.row.count
            yield from self.row.feed(piece[at:end])
            if self.row.rest or self.row.count != count + 1:
                self.regular = False


def entries_in(content: bytes, at: int = MAGIC_LENGTH) -> Iterator[tuple[int, int]]:
    """Where the entries of a durable ledger begin and end, up to the first place where none is."""
    while content[at:at + 1] == b"\1":
        length = int.from_bytes(content[at + 1:at + 5], "little")
        end = at + 5 + length
        if length > ENTRY_LIMIT or len(content) <= end:
            return
        yield at + 5, end
        at = end
