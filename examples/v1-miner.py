#!/usr/bin/env python3
"""A miner of Stratum V1 that hashes for real, to try a pool with. Plain Python, nothing to install.

    v1-miner.py ADDRESS USER DIFFICULTY COUNT [BASE]

It dials the pool at ADDRESS, as 127.0.0.1:3333, and asks it for four things, each once the one before was answered: to
roll bits of the version (those of the mask 1fffe000), to subscribe, to mine for USER, and for shares of DIFFICULTY.
Then it hashes headers of the newest job until one meets the job's target, submits it, and goes on once the pool has
credited it, so that one share waits at a time. After COUNT credits it prints `mined COUNT`, and leaves.

The headers come in runs of 4,096 nonces, each run with other bits of the version or another extranonce2, and a share
ends its run. The first extranonce2 is drawn at random, since a miner may be given the extranonce1 of one that has
left, and no header is credited twice. Between two runs it listens. A new job is hashed from the next run on; where it
is a clean one, no share of an older job is submitted any more.

A job's shares have the difficulty that was told last before the job, since a new difficulty counts from the next job
on, here as in the pool. Difficulty 1 stands for a hash below 2^(256 - BASE), as a number whose first byte is the
lowest, and a difficulty D for one below 2^(256 - BASE) / D. BASE is what the pool's settings have as `v1_base`, from 0
to 60, which no line tells: 32 where it isn't said. DIFFICULTY is a whole number from 1 to 2^60, COUNT one from 1 to
1,000,000.

Status 0: COUNT shares were credited. 1: the pool wasn't reached, refused a request, sent a line that is malformed, or
closed the connection; standard error says which. 2: the words are wrong.
"""
import hashlib
import json
import secrets
import select
import socket
import sys

# The bits of the version that are asked for.
MASK = 0x1fffe000
# How many headers a run has, and how many runs in a row have the same extranonce2, each with a version of its own.
NONCES = 4096
VERSIONS = 16
# The most jobs that are held, and the most bytes of a line.
JOB_LIMIT = 64
LINE_LIMIT = 1 << 20


class Failure(Exception):
    """Why the run ends before its last credit."""


class Malformed(Exception):
    """Why a line isn't what it has to be."""


def wanted(holds, what):
    """Refuses a line unless this holds of it."""
    if not holds:
        raise Malformed(what)


def text_in(value, what):
    wanted(isinstance(value, str), f"{what} is no text")
    return value


def whole_in(value, what):
    wanted(isinstance(value, int) and not isinstance(value, bool), f"{what} is no whole number")
    return value


def bytes_in(value, what, length=None):
    """The bytes that a text says in hexadecimal, so many where their number is known."""
    try:
        content = bytes.fromhex(text_in(value, what))
    except ValueError:
        raise Malformed(f"{what} isn't hexadecimal") from None
    wanted(length in (None, len(content)), f"{what} hasn't {length} bytes")
    return content


def number_in(value, what):
    """The number that eight hexadecimal digits say."""
    return int.from_bytes(bytes_in(value, what, 4), "big")


def double_hash(content):
    return hashlib.sha256(hashlib.sha256(content).digest()).digest()


def spread(number, mask):
    """The lowest bits of a number, at the places of a mask's bits."""
    bits = 0
    for place in range(32):
        if mask >> place & 1:
            bits |= (number & 1) << place
            number >>= 1
    return bits


class Job:
    """What `mining.notify` tells, and the target that its shares have to meet."""

    def __init__(self, params, target):
        wanted(len(params) == 9, "a job hasn't nine parameters")
        number, previous, first, last, branch, version, nbits, ntime, clean = params
        self.number = text_in(number, "a job's number")
        # Each word of four bytes is told with its bytes reversed.
        words = bytes_in(previous, "a previous hash", 32)
        self.previous = b"".join(words[at:at + 4][::-1] for at in range(0, 32, 4))
        self.first = bytes_in(first, "a coinbase's first part")
        self.last = bytes_in(last, "a coinbase's last part")
        wanted(isinstance(branch, list), "a branch is no array")
        self.branch = [bytes_in(one, "a hash of the branch", 32) for one in branch]
        self.version = number_in(version, "a version")
        self.nbits = number_in(nbits, "nbits")
        self.ntime = number_in(ntime, "ntime")
        wanted(isinstance(clean, bool), "clean_jobs is neither true nor false")
        self.clean = clean
        self.target = target

    def root(self, extranonce):
        """The merkle root of a block whose coinbase has this extranonce."""
        root = double_hash(self.first + extranonce + self.last)
        for one in self.branch:
            root = double_hash(root + one)
        return root

    def nonce(self, version, extranonce):
        """The first nonce of a run whose header meets the target, or None."""
        header = version.to_bytes(4, "little") + self.previous + self.root(extranonce)
        header += self.ntime.to_bytes(4, "little") + self.nbits.to_bytes(4, "little")
        # All headers of a run begin with the same 64 bytes, which are hashed once.
        begun, rest = hashlib.sha256(header[:64]), header[64:]
        for nonce in range(NONCES):
            inner = begun.copy()
            inner.update(rest + nonce.to_bytes(4, "little"))
            if int.from_bytes(hashlib.sha256(inner.digest()).digest(), "little") <= self.target:
                return nonce
        return None


class Lines:
    """A connection to a pool, whose lines are JSON objects."""

    def __init__(self, connection):
        self.connection = connection
        self.held = b""

    def put(self, line):
        self.connection.sendall(json.dumps(line, separators=(",", ":")).encode() + b"\n")

    def has_come(self):
        """Whether a read would find something."""
        return b"\n" in self.held or bool(select.select([self.connection], [], [], 0)[0])

    def take(self):
        """The next line, which is waited for."""
        while b"\n" not in self.held:
            if len(self.held) > LINE_LIMIT:
                raise Failure(f"the pool sent more than {LINE_LIMIT:,} bytes without the end of a line")
            piece = self.connection.recv(65536)
            if not piece:
                raise Failure("the pool closed the connection")
            self.held += piece
        line, self.held = self.held.split(b"\n", 1)
        return line


class Miner:
    """What a miner has said to its pool, and what it was told."""

    def __init__(self, lines, user, base):
        self.lines = lines
        self.user = user
        self.base = base
        self.asked = 0
        self.waits = False
        self.difficulty = 1
        # The jobs that shares may be submitted for, the newest last.
        self.jobs = []
        # How many runs there were, and the extranonce2 of the first of them, as a number.
        self.runs = 0
        self.begin = secrets.randbits(256)

    def hear(self, line):
        """Hears a line: its object where it answers the request that waits, and None for a notice."""
        try:
            said = json.loads(line)
            wanted(isinstance(said, dict), "it is no object")
            if "method" in said:
                self.hear_notice(said)
                return None
            wanted(all(key in said for key in ("id", "error", "result")), "it is neither an answer nor a notice")
            wanted(self.waits and said["id"] == self.asked, "it answers no request that waits")
            return said
        except (ValueError, RecursionError, Malformed) as defect:
            shown = line[:200].decode("utf-8", "backslashreplace")
            raise Failure(f"the pool sent a line that is malformed ({defect}): {shown}") from None

    def hear_notice(self, said):
        """Takes a difficulty or a job. Other notices ask for nothing of a miner."""
        method, params = said["method"], said.get("params")
        if method not in ("mining.set_difficulty", "mining.notify"):
            return
        wanted(isinstance(params, list), "its parameters are no array")
        if method == "mining.set_difficulty":
            wanted(len(params) == 1 and whole_in(params[0], "a difficulty") >= 1, "a difficulty isn't from 1 on")
            self.difficulty = params[0]
        else:
            job = Job(params, (2 ** (256 - self.base) - 1) // self.difficulty)
            self.jobs = [job] if job.clean else (self.jobs + [job])[-JOB_LIMIT:]

    def ask(self, method, params, take):
        """Makes a request, hears all up to its answer, and gives what `take` makes of its result."""
        self.asked += 1
        self.lines.put({"id": self.asked, "method": method, "params": params})
        self.waits, said = True, None
        while said is None:
            said = self.hear(self.lines.take())
        self.waits, error = False, said["error"]
        if error is not None:
            code = " ".join(str(word) for word in error[:2]) if isinstance(error, list) else error
            raise Failure(f"the pool refused {method}: {code}")
        try:
            return take(said["result"])
        except Malformed as defect:
            raise Failure(f"the pool's answer to {method} is malformed ({defect}): {json.dumps(said)}") from None

    def join(self, difficulty):
        """Makes the four requests that come before shares."""
        options = {"version-rolling.mask": f"{MASK:08x}", "version-rolling.min-bit-count": 2}
        self.mask = self.ask("mining.configure", [["version-rolling"], options], rolled_mask)
        self.lead, self.size = self.ask("mining.subscribe", ["v1-miner.py"], subscription)
        self.ask("mining.authorize", [self.user, "x"], agreed)
        self.ask("mining.suggest_difficulty", [difficulty], agreed)

    def listen(self):
        """Hears the notices that have come. Where there is no job, it waits for them."""
        while not self.jobs or self.lines.has_come():
            self.hear(self.lines.take())

    def share(self):
        """Hashes until a header meets its job's target, and gives what is submitted for it."""
        mask = self.mask or 0
        versions = min(VERSIONS, 2 ** bin(mask).count("1"))
        while True:
            self.listen()
            job = self.jobs[-1]
            bits = spread(self.runs % versions, mask)
            number = (self.begin + self.runs // versions) % 256 ** self.size
            rolled = number.to_bytes(self.size, "big")
            self.runs += 1
            nonce = job.nonce(job.version & ~mask | bits, self.lead + rolled)
            if nonce is None:
                continue
            self.listen()
            if job in self.jobs:
                share = [self.user, job.number, rolled.hex(), f"{job.ntime:08x}", f"{nonce:08x}"]
                return share if self.mask is None else share + [f"{bits:08x}"]


def rolled_mask(result):
    """The bits of the version that may be rolled, or None."""
    wanted(isinstance(result, dict), "it is no object")
    if result.get("version-rolling") is not True:
        return None
    mask = number_in(result.get("version-rolling.mask"), "the mask")
    wanted(mask & ~MASK == 0, "the mask has bits that weren't asked for")
    return mask


def subscription(result):
    """The first bytes of the extranonce, and how many are rolled behind them."""
    wanted(isinstance(result, list) and len(result) == 3, "it has not three parts")
    size = whole_in(result[2], "the size of extranonce2")
    wanted(0 <= size <= 32, "the size of extranonce2 is not from 0 to 32")
    return bytes_in(result[1], "extranonce1"), size


def agreed(result):
    wanted(result is True, "it isn't true")


def mine(address, user, difficulty, count, base):
    host, _, port = address.rpartition(":")
    with socket.create_connection((host.strip("[]"), int(port))) as connection:
        connection.setsockopt(socket.IPPROTO_TCP, socket.TCP_NODELAY, 1)
        miner = Miner(Lines(connection), user, base)
        miner.join(difficulty)
        for _ in range(count):
            miner.ask("mining.submit", miner.share(), agreed)


def whole(word, least, most):
    """Whether a word is a number of a range, in digits."""
    return word.isascii() and word.isdigit() and len(word) < 20 and least <= int(word) <= most


def main(words):
    base = words[4:] or ["32"]
    if not (len(words) in (4, 5) and whole(words[0].rpartition(":")[2], 1, 65535) and whole(words[2], 1, 2 ** 60)
            and whole(words[3], 1, 1_000_000) and whole(base[0], 0, 60)):
        print("usage: v1-miner.py ADDRESS USER DIFFICULTY COUNT [BASE]", file=sys.stderr)
        return 2
    try:
        mine(words[0], words[1], int(words[2]), int(words[3]), int(base[0]))
    except Failure as failure:
        print(f"v1-miner.py: {failure}", file=sys.stderr)
        return 1
    except OSError as error:
        print(f"v1-miner.py: the connection to {words[0]} failed: {error}", file=sys.stderr)
        return 1
    print(f"mined {words[3]}")
    return 0


if __name__ == "__main__":
    sys.exit(main(sys.argv[1:]))
