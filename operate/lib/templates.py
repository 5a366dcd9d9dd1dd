"""Templates of a node as messages of Stratum V2, and blocks put together of them."""
from dataclasses import dataclass, replace

from lib.bitcoin import (
    COMMITMENT, compact_size, displayed, double_hash, from_display, header, height_push, little, meets,
    path_beside_first, root_from, without_witness,
)
from lib.frames import NEW_TEMPLATE, SET_NEW_PREV_HASH, Solution, frame

COINBASE_VERSION = 2
SEQUENCE = 0xFFFFFFFF


class BadTemplate(Exception):
    """Why a node's answer is no template, or a solution none of a template's blocks."""


@dataclass(slots=True, frozen=True)
class Template:
    """A block without its coinbase, as a node proposes it."""

    id: int
    previous: bytes
    height: int
    version: int
    nbits: int
    target: bytes
    time: int
    value: int
    commitment: bytes
    path: tuple[bytes, ...]
    transactions: tuple[bytes, ...]

    @classmethod
    def of(cls, id_: int, said: dict) -> "Template":
        """The template that `getblocktemplate` answers with (BIP 22, 23 and 145)."""
        try:
            found = said["transactions"]
            ids = [from_display(one["txid"]) for one in found]
            commitment = commitment_to([from_display(one["hash"]) for one in found])
            wanted = said.get("default_witness_commitment")
            template = cls(
                id_, from_display(said["previousblockhash"]), said["height"],
                said["version"] & 0xFFFFFFFF, int(said["bits"], 16), from_display(said["target"]),
                said["curtime"], said["coinbasevalue"], commitment, tuple(path_beside_first(ids)),
                tuple(bytes.fromhex(one["data"]) for one in found),
            )
        except (KeyError, TypeError, ValueError) as error:
            raise BadTemplate(f"the node's template isn't one: {error!r}") from None
        if wanted is not None and bytes.fromhex(wanted) != commitment:
            raise BadTemplate("the node's template has another commitment to its witnesses")
        return template

    def with_id(self, id_: int) -> "Template":
        return replace(self, id=id_)

    def same_block(self, other: "Template") -> bool:
        return self.previous == other.previous

    def message(self, future: bool) -> bytes:
        """NewTemplate. The pool puts its output before the commitment."""
        prefix = height_push(self.height)
        outputs = bytes(8) + compact_size(len(self.commitment)) + self.commitment
        return frame(NEW_TEMPLATE, b"".join((
            little(self.id, 8), bytes([future]), little(self.version, 4), little(COINBASE_VERSION, 4),
            bytes([len(prefix)]), prefix, little(SEQUENCE, 4), little(self.value, 8), little(1, 4),
            little(len(outputs), 2), outputs, little(0, 4), bytes([len(self.path)]), *self.path,
        )))

    def tip(self) -> bytes:
        """SetNewPrevHash, which makes this template the one to mine on."""
        return frame(SET_NEW_PREV_HASH, b"".join((
            little(self.id, 8), self.previous, little(self.time, 4), little(self.nbits, 4), self.target,
        )))

    def block(self, solution: Solution) -> "Block":
        """The block that a solution says."""
        try:
            txid = double_hash(without_witness(solution.coinbase))
        except ValueError as error:
            raise BadTemplate(f"a solution's coinbase isn't one: {error}") from None
        head = header(
            solution.version, self.previous, root_from(txid, self.path), solution.ntime, self.nbits,
            solution.nonce,
        )
        count = compact_size(1 + len(self.transactions))
        content = head + count + solution.coinbase + b"".join(self.transactions)
        return Block(content, displayed(double_hash(head)), meets(double_hash(head), self.target))


@dataclass(slots=True)
class Block:
    """A block's bytes, its hash as it is displayed, and whether that meets the target."""

    content: bytes
    hash: str
    meets_target: bool


def commitment_to(witness_ids: list[bytes]) -> bytes:
    """The script of the output that commits a block to its witnesses (BIP 141), of which the coinbase's
    counts as zeros, as does the value beside the root."""
    root = root_from(bytes(32), path_beside_first(witness_ids))
    return COMMITMENT + double_hash(root + bytes(32))
