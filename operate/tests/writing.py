"""Writes ledgers for tests, by the forms of docs/POOL.md ("The ledger", "A durable ledger").

It shares nothing with what reads them, so that both have to agree with the description.
"""
import hashlib
from collections.abc import Iterable, Iterator

KINDS = "Start Enter Template Tip Open Name Class Close Leave Credit Grant Custom".split()
MINER, FEED, SOLO = 0, 1, 2
STANDARD, EXTENDED, V1 = 0, 1, 2

# What a test's jobs are made of, where it doesn't say otherwise.
SCRIPT = b"\x51"
PREFIX = b"\x51\x51"
PREVIOUS = b"\x11" * 32
TIME = 1_000_000
VERSION = 0x20000000
NBITS = 0x207FFFFF
ANY_HASH = b"\xff" * 32


def number(value: int, length: int) -> bytes:
    return value.to_bytes(length, "little")


def short(content: bytes) -> bytes:
    return number(len(content), 1) + content


def long(content: bytes) -> bytes:
    return number(len(content), 2) + content


def hashes(path: Iterable[bytes]) -> bytes:
    path = list(path)
    return number(len(path), 1) + b"".join(path)


def record(kind: str, *fields: bytes) -> bytes:
    body = b"".join(fields)
    return number(KINDS.index(kind), 1) + number(len(body), 3) + body


def start(
    fee: int = 0, window: int = 0, least_class: int = 0, credit_limit: int = 100,
    users: Iterable[bytes] = (), script: bytes = SCRIPT,
) -> bytes:
    users = list(users)
    return record(
        "Start", short(script), number(least_class, 1), number(fee, 2), number(window > 0, 1),
        number(window, 8), number(600, 4), number(credit_limit, 4), number(1, 1),
        number(len(users), 2), *map(short, users),
    )


def enter(worker: int, role: int, flags: int = 0) -> bytes:
    return record("Enter", number(worker, 4), number(role, 1), number(flags, 4))


def opening(session: int, kind: int, account: bytes, lead: bytes, class_: int = 0) -> bytes:
    return record(
        "Open", number(session, 4), number(kind, 1), short(account), number(class_, 1), short(lead)
    )


def name(session: int, channel: int, account: bytes) -> bytes:
    return record("Name", number(session, 4), number(channel, 4), short(account))


def class_set(session: int, channel: int, value: int) -> bytes:
    return record("Class", number(session, 4), number(channel, 4), number(value, 1))


def close(session: int, channel: int) -> bytes:
    return record("Close", number(session, 4), number(channel, 4))


def leave(session: int) -> bytes:
    return record("Leave", number(session, 4))


def template(
    session: int, template_id: int, future: bool, value: int, path: Iterable[bytes] = (),
    outputs: bytes = b"", count: int = 0, prefix: bytes = PREFIX,
) -> bytes:
    return record(
        "Template", number(session, 4), number(template_id, 8), number(future, 1),
        number(VERSION, 4), number(2, 4), short(prefix), b"\xff" * 4, number(value, 8),
        number(count, 4), long(outputs), number(0, 4), hashes(path),
    )


def tip(
    session: int, template_id: int, previous: bytes = PREVIOUS, target: bytes = ANY_HASH,
    time: int = TIME,
) -> bytes:
    return record(
        "Tip", number(session, 4), number(template_id, 8), previous, number(time, 4),
        number(NBITS, 4), target,
    )


def credit(
    session: int, channel: int, job: int, nonce: int, rolled: bytes, time: int = TIME,
) -> bytes:
    return record(
        "Credit", number(session, 4), number(channel, 4), number(job, 4), number(nonce, 4),
        number(time, 4), number(VERSION, 4), short(rolled),
    )


def grant(session: int, account: bytes = b"a", fixed: int = 0, path: Iterable[bytes] = ()) -> bytes:
    return record("Grant", number(session, 4), short(account), number(fixed, 1), hashes(path))


def custom(
    session: int, channel: int, token: int, value: int, path: Iterable[bytes] = (),
    prefix: bytes = PREFIX,
) -> bytes:
    output = number(value, 8) + short(SCRIPT)
    return record(
        "Custom", number(session, 4), number(channel, 4), short(number(token, 8)),
        number(VERSION, 4), PREVIOUS, number(TIME, 4), number(NBITS, 4), number(2, 4),
        short(prefix), b"\xff" * 4, long(output), number(0, 4), hashes(path),
    )


def pieces(records: Iterable[bytes]) -> Iterator[bytes]:
    """What is kept: each record with the hash over all so far, the first with the magic before it."""
    magic = b"SV2LEDG2"
    chain = hashlib.sha256(magic).digest()
    for count, one in enumerate(records):
        chain = hashlib.sha256(chain + one).digest()
        yield (magic if count == 0 else b"") + one + chain


def plain(records: Iterable[bytes]) -> bytes:
    return b"".join(pieces(records))


def of_format_1(records: Iterable[bytes]) -> bytes:
    return b"SV2LEDG1" + b"".join(records)


def durable(records: Iterable[bytes]) -> bytes:
    entries = (b"\1" + number(len(piece), 4) + piece for piece in pieces(records))
    return b"SV2DISK1" + b"".join(entries) + b"\0"


def records_in(ledger: bytes) -> list[bytes]:
    """The records of a ledger of format 2."""
    records, at = [], 8
    while at < len(ledger):
        end = at + 4 + int.from_bytes(ledger[at + 1:at + 4], "little")
        records.append(ledger[at:end])
        at = end + 32
    return records
