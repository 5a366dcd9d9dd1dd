"""What of Stratum V1 a relay has to understand: lines, jobs, and the header of a submission."""
import json
from dataclasses import dataclass
from typing import Any

from lib.bitcoin import double_hash, header, root_from

LINE_LIMIT = 1 << 20


def object_in(line: bytes) -> dict | None:
    """The JSON object that a line is, if it is one."""
    try:
        said = json.loads(line)
    except (ValueError, RecursionError):
        return None
    return said if isinstance(said, dict) else None


def line_of(said: dict) -> bytes:
    return json.dumps(said, separators=(",", ":")).encode() + b"\n"


def params_of(said: dict) -> list:
    params = said.get("params")
    return params if isinstance(params, list) else []


@dataclass(slots=True)
class Job:
    """What `mining.notify` tells of a job."""

    number: str
    previous: bytes
    first: bytes
    last: bytes
    branch: list[bytes]
    version: int
    nbits: int
    clean: bool

    @classmethod
    def of(cls, params: list) -> "Job | None":
        """The job of these parameters, or None where they aren't ones."""
        try:
            number, previous, first, last, branch, version, nbits, _, clean = params
            words = bytes.fromhex(previous)
            # Each word of four bytes is told with its bytes reversed.
            turned = b"".join(words[at:at + 4][::-1] for at in range(0, 32, 4))
            return cls(
                str(number), turned, bytes.fromhex(first), bytes.fromhex(last),
                [bytes.fromhex(one) for one in branch], int(version, 16), int(nbits, 16), bool(clean),
            )
        except (TypeError, ValueError):
            return None

    def header(self, extranonce: bytes, ntime: int, nonce: int, version: int) -> bytes:
        """The header of a share of this job."""
        root = root_from(double_hash(self.first + extranonce + self.last), self.branch)
        return header(version, self.previous, root, ntime, self.nbits, nonce)


class Talk:
    """What a miner was told so far: enough to rebuild the header of each of its submissions."""

    def __init__(self) -> None:
        self.lead = b""
        self.mask = 0
        self.difficulty: float = 0
        # By their numbers, each with the difficulty that was told before it.
        self.jobs: dict[str, tuple[Job, float]] = {}

    def hear_answer(self, method: str, result: Any) -> None:
        """Hears what the pool answers to a request."""
        try:
            if method == "mining.subscribe":
                self.lead = bytes.fromhex(result[1])
            elif method == "mining.configure" and result.get("version-rolling") is True:
                self.mask = int(result["version-rolling.mask"], 16)
        except (AttributeError, IndexError, KeyError, TypeError, ValueError):
            return

    def hear_difficulty(self, params: list) -> None:
        if params and isinstance(params[0], int | float):
            self.difficulty = params[0]

    def hear_job(self, params: list) -> None:
        job = Job.of(params)
        if job is None:
            return
        if job.clean:
            self.jobs.clear()
        self.jobs[job.number] = (job, self.difficulty)

    def header_of(self, params: list) -> tuple[bytes, float] | None:
        """The header that a submission says, and the difficulty of its job; None where it names no job
        that was told, or isn't one."""
        try:
            _, number, rolled, ntime, nonce, *bits = params
            job, difficulty = self.jobs[number]
            version = job.version
            if bits:
                version = version & ~self.mask | int(bits[0], 16)
            extranonce = self.lead + bytes.fromhex(rolled)
            return job.header(extranonce, int(ntime, 16), int(nonce, 16), version), difficulty
        except (KeyError, OverflowError, TypeError, ValueError):
            return None
