"""Frames of Stratum V2, and the messages of template distribution (docs/POOL.md, "The wire").

They are plain: without encryption, as this pool speaks them.
"""
import socket
from dataclasses import dataclass

from lib.bitcoin import little

SETUP, SETUP_SUCCESS, SETUP_ERROR = 0x00, 0x01, 0x02
CONSTRAINTS, NEW_TEMPLATE, SET_NEW_PREV_HASH, SUBMIT_SOLUTION = 0x70, 0x71, 0x72, 0x76
TEMPLATE_DISTRIBUTION = 2
VERSION = 2
HEAD_LENGTH = 6
PAYLOAD_LIMIT = 262_144


class BadFrame(Exception):
    """Why a peer isn't one to go on with."""


@dataclass(slots=True)
class Frame:
    kind: int
    payload: bytes
    # Whether it is of an extension, which says nothing here.
    extension: bool = False


def frame(kind: int, payload: bytes) -> bytes:
    return bytes([0, 0, kind]) + little(len(payload), 3) + payload


def text(content: str) -> bytes:
    return bytes([len(content.encode())]) + content.encode()


def setup(protocol: int) -> bytes:
    """SetupConnection with version 2, without flags and texts."""
    versions = little(VERSION, 2) * 2
    return frame(SETUP, bytes([protocol]) + versions + bytes(4) + bytes(1) + bytes(2) + bytes(4))


def constraints(size: int, sigops: int) -> bytes:
    """CoinbaseOutputConstraints: what a pool's outputs take in a coinbase."""
    return frame(CONSTRAINTS, little(size, 4) + little(sigops, 2))


@dataclass(slots=True)
class Solution:
    """SubmitSolution: a template's block that was found."""

    template_id: int
    version: int
    ntime: int
    nonce: int
    coinbase: bytes

    def frame(self) -> bytes:
        numbers = (little(number, 4) for number in (self.version, self.ntime, self.nonce))
        size = little(len(self.coinbase), 2)
        return frame(SUBMIT_SOLUTION, little(self.template_id, 8) + b"".join(numbers) + size + self.coinbase)

    @classmethod
    def read(cls, payload: bytes) -> "Solution":
        if len(payload) < 22 or len(payload) != 22 + int.from_bytes(payload[20:22], "little"):
            raise BadFrame("a SubmitSolution of it is no message")
        version, ntime, nonce = (int.from_bytes(payload[at:at + 4], "little") for at in (8, 12, 16))
        return cls(int.from_bytes(payload[:8], "little"), version, ntime, nonce, payload[22:])


def head_in(head: bytes) -> tuple[int, int, bool]:
    """What the six bytes before a payload say: its kind, its length, and whether it is of an extension."""
    length = int.from_bytes(head[3:HEAD_LENGTH], "little")
    if length > PAYLOAD_LIMIT:
        raise BadFrame(f"it says a frame of {length:,} bytes")
    return head[2], length, bool(int.from_bytes(head[:2], "little") & 0x7FFF)


class Frames:
    """A connection whose bytes are frames."""

    def __init__(self, connection: socket.socket) -> None:
        self.connection = connection
        self._held = b""

    def put(self, content: bytes) -> None:
        self.connection.sendall(content)

    def take(self) -> Frame | None:
        """The next frame, or None where the peer sends no more; a `TimeoutError` where none came in time,
        behind which it can be asked again."""
        if not self._fill(HEAD_LENGTH):
            return None
        kind, length, extension = head_in(self._held[:HEAD_LENGTH])
        if not self._fill(HEAD_LENGTH + length):
            raise BadFrame("it ended within a frame")
        payload = self._held[HEAD_LENGTH:HEAD_LENGTH + length]
        self._held = self._held[HEAD_LENGTH + length:]
        return Frame(kind, payload, extension)

    def _fill(self, count: int) -> bool:
        """Reads until so many bytes are held; whether they came."""
        while len(self._held) < count:
            piece = self.connection.recv(65_536)
            if not piece:
                if self._held:
                    raise BadFrame("it ended within a frame")
                return False
            self._held += piece
        return True
