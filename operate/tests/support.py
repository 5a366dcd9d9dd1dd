"""What several tests share: files of their own, shares that are hashed, and the tools as programs."""
import hashlib
import os
import subprocess
import sys
import tempfile
import threading
import unittest
from collections.abc import Iterator

from tests import writing
from tests.writing import NBITS, PREVIOUS, SCRIPT, TIME, VERSION, number

OPERATE = os.path.dirname(os.path.dirname(os.path.abspath(__file__)))
WORKED = os.path.join(os.path.dirname(OPERATE), "examples", "worked.ledger")
# The worked session's coinbase before and behind its extranonce, but for the value.
COINBASE_FRONT = bytes.fromhex("02000000 01" + "00" * 32 + "ffffffff 0e 5151")


class WithFolder(unittest.TestCase):
    """A test with a folder of its own."""

    def setUp(self) -> None:
        folder = tempfile.TemporaryDirectory()
        self.addCleanup(folder.cleanup)
        self.folder = folder.name

    def begin(self, *words: str) -> subprocess.Popen[str]:
        """Begins a script of this folder, which is ended with the test, or after half a minute."""
        program = subprocess.Popen(
            [sys.executable, os.path.join(OPERATE, words[0]), *words[1:]], stdout=subprocess.PIPE,
            stderr=subprocess.STDOUT, text=True,
        )
        limit = threading.Timer(30.0, program.kill)
        limit.start()
        self.addCleanup(program.stdout.close)
        self.addCleanup(limit.cancel)
        self.addCleanup(program.wait)
        self.addCleanup(program.terminate)
        return program

    def line_of(self, program: subprocess.Popen[str], words: str) -> str:
        """The next line that a script says with these words in it."""
        for line in program.stdout:
            if words in line:
                return line
        raise AssertionError(f"nothing was said of {words!r}")

    def file(self, name: str, content: bytes | str = b"") -> str:
        path = os.path.join(self.folder, name)
        with open(path, "wb") as file:
            file.write(content.encode() if isinstance(content, str) else content)
        return path


def tool(name: str, *words: str, **options) -> subprocess.CompletedProcess[str]:
    """Runs a tool as a program of its own, to its end."""
    return subprocess.run(
        [sys.executable, os.path.join(OPERATE, name), *words], capture_output=True, text=True,
        timeout=60, check=False, **options,
    )


def double_hash(content: bytes) -> bytes:
    return hashlib.sha256(hashlib.sha256(content).digest()).digest()


def coinbase_of(value: int, extranonce: bytes, script: bytes = SCRIPT) -> bytes:
    """The coinbase of a template of `writing`, by the form of docs/POOL.md."""
    output = number(value, 8) + number(len(script), 1) + script
    return COINBASE_FRONT + extranonce + bytes.fromhex("ffffffff 01") + output + bytes(4)


def header_of(value: int, extranonce: bytes, nonce: int, time: int = TIME) -> bytes:
    """The header of a share of a template without path, behind the tip of `writing`."""
    root = double_hash(coinbase_of(value, extranonce))
    return (
        number(VERSION, 4) + PREVIOUS + root + number(time, 4) + number(NBITS, 4) + number(nonce, 4)
    )


def nonces(value: int, extranonce: bytes, zeros: int, below: int = 257) -> Iterator[int]:
    """The nonces whose header's hash is displayed with so many zero bits in front, and fewer than
    so many."""
    for nonce in range(1 << 24):
        found = int.from_bytes(double_hash(header_of(value, extranonce, nonce)), "little")
        if zeros <= 256 - found.bit_length() < below:
            yield nonce


def begun(value: int, target: bytes = writing.ANY_HASH, **rules) -> list[bytes]:
    """The records of a pool whose provider has given a template with this value, and its tip: session 0
    is the provider's, job 1 the template's."""
    return [
        writing.start(**rules), writing.enter(0, writing.FEED),
        writing.template(0, 5, True, value), writing.tip(0, 5, target=target),
    ]
