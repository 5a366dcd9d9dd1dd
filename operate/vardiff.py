#!/usr/bin/env python3
"""Stands before a pool's doors and asks for each miner's difficulty, by Stratum V1.

    vardiff.py 0.0.0.0:3334 127.0.0.1:3333
    vardiff.py 127.0.0.1:3335 pool.example:3333 --keep-difficulty --receipts shares.log

Miners dial the first address; each has a connection of its own to the pool at the second. Each line is
sent on as it is, in both directions. Beside them the relay asks the pool, as the miner might, for the
difficulty at which that miner has some ten shares a minute (mining.suggest_difficulty): without it one
S21 sends 46,566 shares a second at difficulty 1, and a ledger has room for 16,777,215 in all. A miner
whose password says d=N gets that difficulty for good. A pool gives powers of two, and none below its
least_class; a difficulty counts for the jobs that come after it, and a lower one is told to the miner
with the next job.

A line is printed for each miner that comes and goes, with its address; for its worker's name; for each
difficulty that is asked for; and for each share that is refused, with the reason.

With --receipts FILE each share that the pool answered true is written there, a line of JSON each, with
the header that was rebuilt from what the miner was told. A miner may run this on his own side, without
touching the difficulty; `receipts.py` then looks each share up in the ledger that the pool gives out.

A connection whose first byte is no { is sent on as it is, bytes for bytes. Nothing of it is proved.

Status 0: it was ended. 1: it can't listen there. 2: the words are wrong.
"""
import argparse
import asyncio
import json
import signal
import sys
import time
from dataclasses import dataclass
from typing import TextIO

from lib.addresses import split_address
from lib.commands import parser_of, status_of
from lib.relaying import Relay
from lib.stratum_v1 import LINE_LIMIT
from lib.words import time_words

TICK = 1.0


@dataclass(slots=True)
class Doors:
    """What all connections have in common."""

    pool: tuple[str, int]
    a_minute: float | None
    start: int | None
    receipts: TextIO | None

    def say(self, words: str) -> None:
        print(f"{time_words(time.time())} {words}", flush=True)

    def keep(self, receipt: dict) -> None:
        if self.receipts is not None:
            self.receipts.write(json.dumps(receipt) + "\n")
            self.receipts.flush()


class Connection:
    """A miner's connection, and the one to the pool that is its own."""

    def __init__(self, doors: Doors, reader: asyncio.StreamReader, writer: asyncio.StreamWriter) -> None:
        self.doors = doors
        self.reader, self.writer = reader, writer
        host, port = writer.get_extra_info("peername")[:2]
        self.name = f"{host}:{port}"

    async def serve(self) -> None:
        try:
            self.from_pool, self.to_pool = await asyncio.open_connection(
                *self.doors.pool, limit=LINE_LIMIT,
            )
        except OSError as error:
            self.doors.say(f"{self.name} is sent away: the pool isn't reached: {error.strerror or error}")
            return
        self.doors.say(f"{self.name} is here")
        try:
            await self._relay()
        except OSError as error:
            self.doors.say(f"{self.name} has left: {error.strerror or error}")
        finally:
            self.to_pool.close()

    async def _relay(self) -> None:
        begin = await self._first_byte()
        if begin == b"{":
            relay = Relay(self.name, self.doors, time.monotonic())
            pumps = [self._up(relay, begin), self._down(relay), self._tick(relay)]
        else:
            self.to_pool.write(begin)
            pumps = [pour(self.reader, self.to_pool), pour(self.from_pool, self.writer)]
        tasks = [asyncio.create_task(pump) for pump in pumps]
        try:
            await asyncio.wait(tasks, return_when=asyncio.FIRST_COMPLETED)
        finally:
            for task in tasks:
                task.cancel()
            ends = await asyncio.gather(*tasks, return_exceptions=True)
        failed = [str(end) for end in ends if isinstance(end, Exception)]
        shares = f", after {relay.counts()}" if begin == b"{" else ""
        self.doors.say(f"{self.name} has left{shares}{': ' if failed else ''}{'; '.join(failed)}")

    async def _first_byte(self) -> bytes:
        """What the miner begins with; nothing where the pool, or it, has gone before."""
        first = asyncio.create_task(self.reader.read(1))
        while not self.from_pool.at_eof() and self.from_pool.exception() is None:
            done, _ = await asyncio.wait([first], timeout=TICK)
            if done:
                return await first
        first.cancel()
        return b""

    async def _up(self, relay: Relay, begin: bytes) -> None:
        """From the miner to the pool."""
        while line := begin + await self.reader.readline():
            begin = b""
            relay.from_miner(line)
            self.to_pool.write(line)
            await self._ask(relay)

    async def _down(self, relay: Relay) -> None:
        """From the pool to the miner."""
        while line := await self.from_pool.readline():
            for told in relay.from_pool(line):
                self.writer.write(told)
            await self.writer.drain()
            await self._ask(relay)

    async def _tick(self, relay: Relay) -> None:
        while True:
            await asyncio.sleep(TICK)
            relay.measure(time.monotonic())
            await self._ask(relay)

    async def _ask(self, relay: Relay) -> None:
        for line in relay.asked():
            self.to_pool.write(line)
        await self.to_pool.drain()


async def pour(reader: asyncio.StreamReader, writer: asyncio.StreamWriter) -> None:
    while piece := await reader.read(65_536):
        writer.write(piece)
        await writer.drain()


async def serve(address: str, doors: Doors) -> None:
    """Serves whoever dials the address, until it is told to end."""
    ending = asyncio.Event()
    for number in (signal.SIGTERM, signal.SIGINT):
        asyncio.get_running_loop().add_signal_handler(number, ending.set)

    async def let_in(reader: asyncio.StreamReader, writer: asyncio.StreamWriter) -> None:
        try:
            await Connection(doors, reader, writer).serve()
        except asyncio.CancelledError:
            # The relay ends, and with it all connections.
            pass
        finally:
            writer.close()

    host, port = split_address(address)
    server = await asyncio.start_server(let_in, host, port, limit=LINE_LIMIT)
    port = server.sockets[0].getsockname()[1]
    doors.say(f"miners come to {host}:{port}, and go on to {doors.pool[0]}:{doors.pool[1]}")
    await ending.wait()
    server.close()


def run(words: argparse.Namespace) -> None:
    a_minute = None if words.keep_difficulty else words.shares_a_minute
    receipts = open(words.receipts, "a", encoding="utf-8") if words.receipts else None
    doors = Doors(split_address(words.pool), a_minute, words.start, receipts)
    try:
        asyncio.run(serve(words.address, doors))
    finally:
        if receipts is not None:
            receipts.close()


def address_in(text: str) -> str:
    try:
        split_address(text)
    except ValueError as error:
        raise argparse.ArgumentTypeError(str(error)) from None
    return text


def main() -> int:
    parser = parser_of(__doc__)
    parser.add_argument("address", metavar="ADDRESS", type=address_in, help="where miners come")
    parser.add_argument("pool", metavar="POOL", type=address_in, help="where the pool's doors are")
    parser.add_argument(
        "--shares-a-minute", type=float, default=10.0, metavar="N", help="how many a miner should have (10)",
    )
    parser.add_argument("--start", type=int, metavar="N", help="the difficulty to ask for at first")
    parser.add_argument(
        "--keep-difficulty", action="store_true", help="ask for none, also where a password does",
    )
    parser.add_argument("--receipts", metavar="FILE", help="write each share that was credited there")
    words = parser.parse_args()
    if words.shares_a_minute <= 0 or (words.start is not None and words.start < 1):
        parser.error("a difficulty is from 1 on, and shares a minute are more than none")
    return status_of(lambda: run(words))


if __name__ == "__main__":
    sys.exit(main())
