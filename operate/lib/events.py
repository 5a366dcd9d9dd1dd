"""The twelve events of a pool's history, and how a record's body spells each.

The forms are those of docs/POOL.md, "The ledger". Each field stands once, with its name, its form and
how it is shown; reading, words and the page of `report.py` go by these.
"""
import json
from collections.abc import Callable
from dataclasses import dataclass, field, fields
from typing import Any, NamedTuple

BODY_LIMIT = 300_000


class NoRecord(Exception):
    """Why a body is none of its kind."""


class Body:
    """Reads the fields of a body from front to back."""

    def __init__(self, content: bytes) -> None:
        self.content = content
        self.at = 0

    def take(self, length: int) -> bytes:
        if length > self.left():
            raise NoRecord("passes the end of the body")
        self.at += length
        return self.content[self.at - length:self.at]

    def number(self, length: int) -> int:
        return int.from_bytes(self.take(length), "little")

    def left(self) -> int:
        return len(self.content) - self.at


class Wire(NamedTuple):
    """A field's form: its name, how it is read, how its value is shown, and the words for its numbers
    where it is one of a few."""

    name: str
    read: Callable[[Body], Any]
    words: Callable[[Any], str]
    choices: tuple[str, ...] = ()


def hexadecimal(content: bytes) -> str:
    return content.hex() or "none"


def number(length: int, words: Callable[[int], str] = str, name: str = "") -> Wire:
    return Wire(name or f"u{8 * length}", lambda body: body.number(length), words)


def short_bytes(body: Body) -> bytes:
    return body.take(body.number(1))


def at_most_32(body: Body) -> bytes:
    length = body.number(1)
    if length > 32:
        raise NoRecord(f"says {length} bytes, over 32")
    return body.take(length)


def text_in(body: Body) -> str:
    try:
        return short_bytes(body).decode("utf-8")
    except UnicodeDecodeError:
        raise NoRecord("isn't UTF-8") from None


def texts_in(body: Body) -> tuple[str, ...]:
    return tuple(text_in(body) for _ in range(body.number(2)))


def hashes_in(body: Body) -> tuple[bytes, ...]:
    return tuple(body.take(32) for _ in range(body.number(1)))


def one_of(*values: Any, words: Callable[[Any], str] = str) -> Wire:
    """A byte that is the number of one of these values."""

    def read(body: Body) -> Any:
        place = body.number(1)
        if place >= len(values):
            raise NoRecord(f"is {place}, over {len(values) - 1}")
        return values[place]

    return Wire("choice", read, words, tuple(map(words, values)))


U8, U16, U32, U64 = number(1), number(2), number(4), number(8)
DIGITS = number(4, lambda value: f"{value:08x}", "digits")
HASH = Wire("hash", lambda body: body.take(32), hexadecimal)
B0_255 = Wire("b0_255", short_bytes, hexadecimal)
B0_64K = Wire("b0_64k", lambda body: body.take(body.number(2)), hexadecimal)
B0_32 = Wire("b0_32", at_most_32, hexadecimal)
# In quotes, with all but plain characters escaped.
TEXT = Wire("text", text_in, json.dumps)
TEXTS = Wire("texts", texts_in, lambda texts: " ".join(map(json.dumps, texts)) or "all")
PATH = Wire("path", hashes_in, lambda path: " ".join(one.hex() for one in path) or "none")
BOOLEAN = one_of(False, True, words=lambda value: "yes" if value else "no")
RULE = one_of("proportional", "pplns")
ROLE = one_of("Miner", "Feed", "Solo")
CHANNEL_KIND = one_of("standard", "extended", "V1")


def wired(wire: Wire) -> Any:
    return field(metadata={"wire": wire})


@dataclass(slots=True)
class Start:
    pool_script: bytes = wired(B0_255)
    least_class: int = wired(U8)
    fee: int = wired(U16)
    rule: str = wired(RULE)
    window: int = wired(U64)
    ntime_window: int = wired(U32)
    credit_limit: int = wired(U32)
    version_rolling: bool = wired(BOOLEAN)
    users: tuple[str, ...] = wired(TEXTS)


@dataclass(slots=True)
class Enter:
    worker: int = wired(U32)
    role: str = wired(ROLE)
    flags: int = wired(U32)


@dataclass(slots=True)
class Template:
    session: int = wired(U32)
    template_id: int = wired(U64)
    future: bool = wired(BOOLEAN)
    version: int = wired(DIGITS)
    coinbase_version: int = wired(U32)
    coinbase_prefix: bytes = wired(B0_255)
    input_sequence: int = wired(DIGITS)
    value: int = wired(U64)
    outputs_count: int = wired(U32)
    outputs: bytes = wired(B0_64K)
    lock_time: int = wired(U32)
    path: tuple[bytes, ...] = wired(PATH)


@dataclass(slots=True)
class Tip:
    session: int = wired(U32)
    template_id: int = wired(U64)
    prev_hash: bytes = wired(HASH)
    timestamp: int = wired(U32)
    nbits: int = wired(DIGITS)
    target: bytes = wired(HASH)


@dataclass(slots=True)
class Open:
    session: int = wired(U32)
    kind: str = wired(CHANNEL_KIND)
    account: str = wired(TEXT)
    class_: int = wired(U8)
    lead: bytes = wired(B0_32)


@dataclass(slots=True)
class Name:
    session: int = wired(U32)
    channel: int = wired(U32)
    account: str = wired(TEXT)


@dataclass(slots=True)
class Class:
    session: int = wired(U32)
    channel: int = wired(U32)
    class_: int = wired(U8)


@dataclass(slots=True)
class Close:
    session: int = wired(U32)
    channel: int = wired(U32)


@dataclass(slots=True)
class Leave:
    session: int = wired(U32)


@dataclass(slots=True)
class Credit:
    session: int = wired(U32)
    channel: int = wired(U32)
    job: int = wired(U32)
    nonce: int = wired(U32)
    ntime: int = wired(U32)
    version: int = wired(DIGITS)
    extranonce: bytes = wired(B0_32)


@dataclass(slots=True)
class Grant:
    session: int = wired(U32)
    account: str = wired(TEXT)
    fixed: bool = wired(BOOLEAN)
    path: tuple[bytes, ...] = wired(PATH)


@dataclass(slots=True)
class Custom:
    session: int = wired(U32)
    channel: int = wired(U32)
    token: bytes = wired(B0_255)
    version: int = wired(DIGITS)
    prev_hash: bytes = wired(HASH)
    min_ntime: int = wired(U32)
    nbits: int = wired(DIGITS)
    coinbase_version: int = wired(U32)
    coinbase_prefix: bytes = wired(B0_255)
    input_sequence: int = wired(DIGITS)
    outputs: bytes = wired(B0_64K)
    lock_time: int = wired(U32)
    path: tuple[bytes, ...] = wired(PATH)


Event = (
    Start | Enter | Template | Tip | Open | Name | Class | Close | Leave | Credit | Grant | Custom
)
# By the number of their kind.
KINDS: tuple[type, ...] = (
    Start, Enter, Template, Tip, Open, Name, Class, Close, Leave, Credit, Grant, Custom,
)
# The numbers that events get by their order: what is numbered, by which kinds, and from where.
NUMBERED: tuple[tuple[str, tuple[type, ...], int], ...] = (
    ("session", (Enter,), 0), ("channel", (Open,), 1), ("job", (Template, Custom), 1),
    ("token", (Grant,), 1),
)
# Of each kind, its fields' attributes, names and forms.
FIELDS: dict[type, tuple[tuple[str, str, Wire], ...]] = {
    kind: tuple((one.name, one.name.rstrip("_"), one.metadata["wire"]) for one in fields(kind))
    for kind in KINDS
}


def event_of(kind: type, content: bytes) -> Event:
    """The event of a kind that a body spells."""
    body = Body(content)
    values = []
    for _, name, wire in FIELDS[kind]:
        try:
            values.append(wire.read(body))
        except NoRecord as defect:
            raise NoRecord(f"{name} of the {kind.__name__} {defect}") from None
    if body.left() > 0:
        raise NoRecord(f"the {kind.__name__} ends {body.left()} bytes before its body does")
    event = kind(*values)
    if isinstance(event, Start) and event.rule == "proportional" and event.window != 0:
        raise NoRecord("the Start has the proportional rule and a window")
    if isinstance(event, Grant) and not event.fixed and event.path:
        raise NoRecord("the Grant isn't fixed and has a path")
    return event


class Teller:
    """Puts events into words, one after the other from the first on: the kind, the fields by their
    names, and the number that the event gets."""

    def __init__(self) -> None:
        self.numbers = {what: first for what, _, first in NUMBERED}

    def words(self, event: Event) -> str:
        kind = type(event)
        shown = (f"{name} {wire.words(getattr(event, at))}" for at, name, wire in FIELDS[kind])
        words = " ".join([kind.__name__, *shown])
        for what, kinds, _ in NUMBERED:
            if kind in kinds:
                words += f", {what} {self.numbers[what]}"
                self.numbers[what] += 1
        return words
