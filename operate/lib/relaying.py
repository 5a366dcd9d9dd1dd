"""A miner's lines and a pool's, between which a relay stands: what it understands of them, and what it asks
the pool for beside them."""
import json
import re
import time
from collections import deque
from typing import Protocol

from lib.pace import Pace
from lib.stratum_v1 import Talk, line_of, object_in, params_of

# What the ids of the relay's own requests begin with.
OWN = "maqefwi-vardiff-"
FIXED = re.compile(r"(?:^|[,; ])d=(\d{1,18})(?:$|[,; ])")


class Doors(Protocol):
    """Where a relay says and keeps what happens."""

    a_minute: float | None
    start: int | None

    def say(self, words: str) -> None: ...

    def keep(self, receipt: dict) -> None: ...


class Relay:
    """Hears the lines of both sides."""

    def __init__(self, name: str, doors: Doors, now: float) -> None:
        self.name = name
        self.doors = doors
        self.talk = Talk()
        self.worker = ""
        self.pace = None if doors.a_minute is None else Pace(doors.a_minute, now)
        self.credited = self.refused = 0
        # Requests of the miner that wait for their answers, by their ids.
        self._waiting: dict[str, deque[dict]] = {}
        self._to_ask: list[bytes] = []
        self._asked = 0
        # A lower difficulty, which is told with the next job.
        self._held: bytes | None = None

    def counts(self) -> str:
        return f"{self.credited} shares, and {self.refused} that were refused"

    def from_miner(self, line: bytes) -> None:
        """Hears a line of the miner's, which is sent on."""
        said = object_in(line)
        if said is not None and isinstance(said.get("method"), str):
            self._waiting.setdefault(json.dumps(said.get("id")), deque()).append(said)

    def from_pool(self, line: bytes) -> list[bytes]:
        """Hears a line of the pool's, and says what the miner is told of it."""
        said = object_in(line)
        if said is None:
            return [line]
        method = said.get("method")
        if method == "mining.set_difficulty":
            return self._hear_difficulty(line, params_of(said))
        if method == "mining.notify":
            return self._hear_job(line, params_of(said))
        if method is not None:
            return [line]
        if isinstance(said.get("id"), str) and said["id"].startswith(OWN):
            return []
        self._hear_answer(said)
        return [line]

    def measure(self, now: float) -> None:
        """Asks for another difficulty where the miner has too many shares, or too few."""
        if self.pace is None or not self.talk.difficulty:
            return
        wish = self.pace.wish(now, self.talk.difficulty)
        if wish is not None:
            self._ask(wish)

    def asked(self) -> list[bytes]:
        """The requests that the relay makes now."""
        lines, self._to_ask = self._to_ask, []
        return lines

    def _ask(self, difficulty: int) -> None:
        self._asked += 1
        self.doors.say(f"{self._who()}: difficulty {difficulty} is asked for")
        self._to_ask.append(line_of({
            "id": f"{OWN}{self._asked}", "method": "mining.suggest_difficulty", "params": [difficulty],
        }))

    def _who(self) -> str:
        return f"{self.name} {self.worker}".rstrip()

    def _hear_difficulty(self, line: bytes, params: list) -> list[bytes]:
        before = self.talk.difficulty
        self.talk.hear_difficulty(params)
        if self.talk.jobs and self.talk.difficulty < before:
            self._held = line
            return []
        self._held = None
        return [line]

    def _hear_job(self, line: bytes, params: list) -> list[bytes]:
        self.talk.hear_job(params)
        held, self._held = self._held, None
        return [line] if held is None else [held, line]

    def _hear_answer(self, said: dict) -> None:
        waiting = self._waiting.get(json.dumps(said.get("id")))
        if not waiting:
            return
        request = waiting.popleft()
        if not waiting:
            del self._waiting[json.dumps(said.get("id"))]
        method, error = request["method"], said.get("error")
        if method == "mining.submit":
            self._hear_share(params_of(request), said.get("result"), error)
        elif error is None:
            self.talk.hear_answer(method, said.get("result"))
            self._go_on(method, params_of(request))
        else:
            self.doors.say(f"{self._who()}: {method} is refused: {refusal(error)}")

    def _go_on(self, method: str, params: list) -> None:
        """What follows once a request was granted."""
        if method == "mining.subscribe" and self.doors.start is not None and self.pace is not None:
            self._ask(self.doors.start)
        if method != "mining.authorize" or not params:
            return
        self.worker = str(params[0])
        self.doors.say(f"{self._who()}: is authorized")
        fixed = FIXED.search(str(params[1])) if len(params) > 1 else None
        if fixed and int(fixed[1]) >= 1 and self.pace is not None:
            self.pace = None
            self._ask(int(fixed[1]))

    def _hear_share(self, params: list, result: object, error: object) -> None:
        if error is not None or result is not True:
            self.refused += 1
            self.doors.say(f"{self._who()}: a share is refused: {refusal(error)}")
            return
        self.credited += 1
        header, difficulty = self.talk.header_of(params) or (None, self.talk.difficulty)
        if self.pace is not None:
            self.pace.share(difficulty)
        self.doors.keep({
            "time": round(time.time(), 3), "worker": params[0] if params else None,
            "job": params[1] if len(params) > 1 else None, "difficulty": difficulty,
            "header": header.hex() if header else None,
        })


def refusal(error: object) -> str:
    """An error's text, with its code."""
    if isinstance(error, list) and len(error) > 1:
        return f"{error[1]} ({error[0]})"
    return json.dumps(error)
