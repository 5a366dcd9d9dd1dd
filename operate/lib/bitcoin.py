"""What of Bitcoin's public formats the tools need: hashes, headers, merkle paths, coinbases."""
import hashlib
from collections.abc import Iterable, Sequence

# An output whose script begins so is the commitment to a block's witnesses (BIP 141).
COMMITMENT = bytes.fromhex("6a24aa21a9ed")
# The witness of a coinbase: one item of 32 zero bytes.
COINBASE_WITNESS = b"\x01\x20" + bytes(32)
SATOSHIS = 100_000_000


def double_hash(content: bytes) -> bytes:
    return hashlib.sha256(hashlib.sha256(content).digest()).digest()


def little(number: int, length: int) -> bytes:
    return number.to_bytes(length, "little")


def displayed(hash_: bytes) -> str:
    """A hash as it is shown: its last byte first."""
    return hash_[::-1].hex()


def from_display(text: str) -> bytes:
    return bytes.fromhex(text)[::-1]


def zero_bits(hash_: bytes) -> int:
    """With how many leading zero bits a hash is displayed."""
    return 256 - int.from_bytes(hash_, "little").bit_length()


def meets(hash_: bytes, target: bytes) -> bool:
    """Whether a hash is at most a target, both with their lowest byte first."""
    return int.from_bytes(hash_, "little") <= int.from_bytes(target, "little")


def compact_size(number: int) -> bytes:
    if number < 253:
        return bytes([number])
    if number < 1 << 16:
        return b"\xfd" + little(number, 2)
    if number < 1 << 32:
        return b"\xfe" + little(number, 4)
    return b"\xff" + little(number, 8)


def read_compact_size(content: bytes, at: int) -> tuple[int, int]:
    """The number that is spelled at a place, and the place behind it."""
    wide = {253: 2, 254: 4, 255: 8}.get(content[at], 0)
    if not wide:
        return content[at], at + 1
    return int.from_bytes(content[at + 1:at + 1 + wide], "little"), at + 1 + wide


def outputs_in(content: bytes) -> list[tuple[int, bytes]]:
    """The values and scripts of serialized outputs."""
    outputs, at = [], 0
    while at < len(content):
        size, begin = read_compact_size(content, at + 8)
        outputs.append((int.from_bytes(content[at:at + 8], "little"), content[begin:begin + size]))
        at = begin + size
    return outputs


def header(version: int, previous: bytes, root: bytes, ntime: int, nbits: int, nonce: int) -> bytes:
    return (
        little(version, 4) + previous + root + little(ntime, 4) + little(nbits, 4) + little(nonce, 4)
    )


def root_from(txid: bytes, path: Iterable[bytes]) -> bytes:
    """The merkle root to which a path leads from the first transaction of a block."""
    for sibling in path:
        txid = double_hash(txid + sibling)
    return txid


def path_beside_first(ids: Sequence[bytes]) -> list[bytes]:
    """The merkle path beside the first transaction of a block, from the ids of the others."""
    path, level = [], list(ids)
    while level:
        path.append(level[0])
        rest = level[1:]
        if len(rest) % 2:
            rest.append(rest[-1])
        level = [double_hash(rest[at] + rest[at + 1]) for at in range(0, len(rest), 2)]
    return path


def height_push(height: int) -> bytes:
    """How a coinbase says its block's height (BIP 34): a script that pushes the number."""
    if height == 0:
        return b"\x00"
    if height <= 16:
        return bytes([0x50 + height])
    # The highest bit of the last byte is a sign.
    content = little(height, height.bit_length() // 8 + 1)
    return bytes([len(content)]) + content


def height_in(script: bytes) -> int | None:
    """The height that a coinbase's script begins with, where it does."""
    if script[:1] and 0x51 <= script[0] <= 0x60:
        return script[0] - 0x50
    if script[:1] and 1 <= script[0] <= 5 and len(script) > script[0]:
        height = int.from_bytes(script[1:1 + script[0]], "little")
        return height if height_push(height) == script[:1 + script[0]] else None
    return None


def with_witness(coinbase: bytes) -> bytes:
    """A coinbase in the form that stands in a block: marker and flag, and its witness."""
    return coinbase[:4] + b"\x00\x01" + coinbase[4:-4] + COINBASE_WITNESS + coinbase[-4:]


def without_witness(coinbase: bytes) -> bytes:
    """A coinbase of this form in that of which the id is the hash."""
    if coinbase[4:6] != b"\x00\x01":
        return coinbase
    begin = len(coinbase) - 4 - len(COINBASE_WITNESS)
    if begin < 6 or coinbase[begin:-4] != COINBASE_WITNESS:
        raise ValueError("its witness isn't one item of 32 zero bytes")
    return coinbase[:4] + coinbase[6:begin] + coinbase[-4:]
