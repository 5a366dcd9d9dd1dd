#!/usr/bin/env python3
"""Keeps a pool running: begins it, follows its ledger, and begins it anew where it has to.

    keep.py -- crates/pool_cli/out/pool_cli durable serve settings.json pool.ledger

The program dials its provider once, and goes on without it: it credits shares on a tip that is old, and
blocks that nobody is sent. So where the provider's session has left, or none has begun within --patience
of the doors' opening, the program is ended, and begun anew after --wait seconds, again and again until
the provider is back; its miners come again by themselves. It is begun anew too where it ended by itself,
with 0, 4, 5, 6, 7 or 8, or was killed; but not after 2, 9 and 11, which no waiting mends: then this ends
with the same status. No credit that a miner was told of is lost by any of it: the ledger is durable.

Each line that it prints begins with the time, UTC, and says what an operator wants to hear: the
provider's coming and going, tips, miners by their accounts, blocks, and why the program was refused.
SIGTERM or SIGINT ends both. `maqefwi.service` beside this is a unit for systemd.

Nothing of it is proved.

Status 0: it was ended. 2: the words are wrong. 2, 9, 11: the program ended so.
"""
import signal
import subprocess
import sys
import tempfile
import threading
import time
from dataclasses import dataclass

from lib.addresses import is_listened_at
from lib.checking import causes_of
from lib.commands import parser_of, status_of
from lib.following import Follower
from lib.narrating import Narrator
from lib.settings import NoSettings, settings_in
from lib.words import time_words

FOR_GOOD = (2, 9, 11)
CAUSES = {
    0: "all sessions are over, and no door is asked any more", 2: "the words are none of the program's",
    4: "a read of the settings failed", 5: "a write of its report failed",
    6: "the ledger's file failed", 7: "something couldn't be opened", 8: "there was no memory",
    9: "the settings are invalid", 11: "the ledger isn't of these settings",
}
# How often it looks; how long it reads a ledger before it begins the program all the same; and after
# how long a cause that stays is said again.
LOOK = 0.2
READ_FIRST = 2.0
SAY_AGAIN = 300.0
TO_END = 10.0


def say(words: str) -> None:
    print(f"{time_words(time.time())} {words}", flush=True)


@dataclass(slots=True)
class Command:
    """The program's words, and how long is waited."""

    words: list[str]
    wait: float
    patience: float

    @property
    def settings(self) -> str:
        return self.words[-2]

    @property
    def ledger(self) -> str:
        return self.words[-1]

    def address(self) -> str | None:
        """Where the settings say that miners come."""
        try:
            with open(self.settings, "rb") as file:
                return settings_in(file.read()).address
        except (OSError, NoSettings):
            return None


class Reading:
    """The ledger as far as it was read; what is new is said, but for what was there before."""

    def __init__(self, path: str) -> None:
        self.follower = Follower(path)
        self.narrator = Narrator(self.follower)
        self.generation = 0
        self.caught_up = False

    def read_on(self, seconds: float, quietly: bool = False) -> None:
        """Reads what is new, for no longer than so many seconds."""
        last = time.monotonic() + seconds
        for read in self.follower.poll():
            if self.generation != self.follower.generation:
                self.generation, self.caught_up = self.follower.generation, False
            words = self.narrator.words(read)
            if words is not None and self.caught_up and not quietly:
                say(words)
            if time.monotonic() > last:
                return
        if not self.caught_up and not quietly:
            say(f"the ledger is read; {self.narrator.state()}")
        self.caught_up = True


class Provider:
    """Whether the provider of one run of the program is gone."""

    def __init__(self, reading: Reading, command: Command) -> None:
        self.reading = reading
        self.address = command.address()
        self.patience = command.patience
        # Sessions before this one are of earlier runs. Where the ledger isn't read to its end yet, the
        # program has long ended those by the time that it is.
        self.first = len(reading.follower.history.sessions) if reading.caught_up else 0
        self.was_here = False
        self.alone_since: float | None = None

    def is_gone(self, now: float) -> bool:
        if not self.reading.caught_up:
            return False
        present = self.reading.follower.history.present.values()
        if any(one.role == "Feed" and one.number >= self.first for one in present):
            self.was_here, self.alone_since = True, None
            return False
        if self.was_here:
            return True
        if self.alone_since is None and self.address and is_listened_at(self.address):
            self.alone_since = now
        return self.alone_since is not None and now > self.alone_since + self.patience


class Keeper:
    """Runs the program again and again."""

    def __init__(self, command: Command) -> None:
        self.command = command
        self.ending = threading.Event()
        self.reading = Reading(command.ledger)
        self._last_cause = ""
        self._said_at = 0.0

    def run(self) -> int:
        for number in (signal.SIGTERM, signal.SIGINT):
            signal.signal(number, lambda *_: self.ending.set())
        self.reading.read_on(READ_FIRST, quietly=True)
        while not self.ending.is_set():
            status = self._run_once()
            if status in FOR_GOOD:
                return status
            self.ending.wait(self.command.wait)
        say("ended")
        return 0

    def _run_once(self) -> int | None:
        """Runs the program up to its end, or to that of its provider. Answers the status with which it
        ended by itself."""
        with tempfile.TemporaryFile() as report:
            program = subprocess.Popen(
                self.command.words, stdin=subprocess.DEVNULL, stdout=report, start_new_session=True,
            )
            try:
                status = self._follow(program)
            finally:
                self._end(program)
            self.reading.read_on(LOOK)
            if status is None:
                return None
            report.seek(0)
            ends = [line.decode() for line in report if line.startswith(b"feed ")]
        self._say_cause(status, ends)
        return status

    def _follow(self, program: subprocess.Popen) -> int | None:
        """Follows a run until it ends by itself, or has to be ended."""
        provider = Provider(self.reading, self.command)
        while not self.ending.wait(LOOK):
            self.reading.read_on(LOOK)
            status = program.poll()
            if status is not None:
                return status
            if provider.is_gone(time.monotonic()):
                say("THE PROVIDER IS GONE: the program is ended, and begun anew")
                return None
        return None

    def _end(self, program: subprocess.Popen) -> None:
        if program.poll() is not None:
            return
        program.terminate()
        try:
            program.wait(TO_END)
        except subprocess.TimeoutExpired:
            program.kill()
            program.wait()

    def _say_cause(self, status: int, ends: list[str]) -> None:
        """Why the program ended; where it is as before, not each time."""
        known = CAUSES.get(status, f"it was killed by signal {-status}" if status < 0 else "no cause is known")
        causes = causes_of(status, self.command.settings, self.command.ledger)
        causes += [f"the provider's session ended with {end.split()[1]}" for end in ends]
        words = f"the program ended with {status}: {'; '.join([known, *causes])}"
        now = time.monotonic()
        if words != self._last_cause or now > self._said_at + SAY_AGAIN:
            again = "" if status in FOR_GOOD else f"; it is begun anew each {self.command.wait:g} seconds"
            say(words + again)
            self._last_cause, self._said_at = words, now


def main() -> int:
    parser = parser_of(__doc__)
    parser.add_argument(
        "--wait", type=float, default=2.0, metavar="SECONDS", help="before it is begun anew (2)",
    )
    parser.add_argument(
        "--patience", type=float, default=30.0, metavar="SECONDS",
        help="how long a provider's session may be missing, once the doors are open (30)",
    )
    parser.add_argument("program", metavar="PROGRAM", help="the pool's program")
    parser.add_argument("words", nargs=4, metavar="WORD", help="durable serve SETTINGS LEDGER")
    words = parser.parse_args()
    if words.words[:2] != ["durable", "serve"]:
        parser.error("the program's words are: durable serve SETTINGS LEDGER")
    command = Command([words.program, *words.words], words.wait, words.patience)
    return status_of(lambda: Keeper(command).run())


if __name__ == "__main__":
    sys.exit(main())
