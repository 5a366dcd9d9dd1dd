"""Templates of a node, and blocks put together of them, against recorded answers."""
import asyncio
import json
import os
import socket
import sys
import time
import unittest
from unittest import mock

import node
from lib.bitcoin import displayed, zero_bits
from lib.events import Template as TemplateEvent, Tip, event_of
from lib.frames import NEW_TEMPLATE, SET_NEW_PREV_HASH, Frames, Solution
from lib.rpc import Node, NodeError, Refused, result_in
from lib.templates import BadTemplate, Template
from tests.support import OPERATE, WithFolder, double_hash, tool
from tests.writing import number

try:
    import bitcoin.core
except ImportError:
    # Debian's package is Debian's Python's.
    sys.path.append("/usr/lib/python3/dist-packages")
    try:
        import bitcoin.core
    except ImportError:
        bitcoin = None

ANSWERS = os.path.join(OPERATE, "tests", "data", "node.json")
SETUP = bytes.fromhex("000000100000 02 0200 0200 00000000 00 0000 00 00 00 00")
CONSTRAINTS = bytes.fromhex("000070060000 6d000000 9001")
SUCCESS = bytes.fromhex("0200 00000000")
SCRIPT = bytes.fromhex("0014751e76e8199196d454941c45d1b3a323f1433bd6")


def answers() -> list[dict]:
    with open(ANSWERS, encoding="utf-8") as file:
        return json.load(file)["templates"]


def said_in(message: bytes) -> TemplateEvent | Tip:
    """The fields of a message 71 or 72, which are those of its event behind the session."""
    kind = {NEW_TEMPLATE: TemplateEvent, SET_NEW_PREV_HASH: Tip}[message[2]]
    assert int.from_bytes(message[3:6], "little") == len(message) - 6
    return event_of(kind, bytes(4) + message[6:])


def coinbase_of(said: TemplateEvent, extranonce: bytes) -> bytes:
    """The coinbase that a pool makes of a template, by docs/POOL.md, as it stands in a block."""
    script = said.coinbase_prefix + extranonce
    return b"".join((
        number(said.coinbase_version, 4), b"\0\1", b"\1", bytes(32), b"\xff" * 4, bytes([len(script)]),
        script, number(said.input_sequence, 4), bytes([1 + said.outputs_count]), number(said.value, 8),
        bytes([len(SCRIPT)]), SCRIPT, said.outputs, b"\1\x20", bytes(32), number(said.lock_time, 4),
    ))


def solved(template: Template, said: TemplateEvent) -> Solution:
    """A solution of a template of a test network."""
    coinbase = coinbase_of(said, bytes(range(12)))
    for nonce in range(1_000):
        solution = Solution(said.template_id, said.version, template.time, nonce, coinbase)
        if template.block(solution).meets_target:
            return solution
    raise AssertionError("no block was found")


class Templates(unittest.TestCase):
    def test_a_nodes_answer_as_messages(self) -> None:
        for answer in answers():
            template = Template.of(2**60, answer)
            said = said_in(template.message(future=True))
            self.assertEqual((said.template_id, said.future, said.version, said.value, said.lock_time),
                             (2**60, True, answer["version"], answer["coinbasevalue"], 0))
            script = bytes.fromhex(answer["default_witness_commitment"])
            self.assertEqual((said.outputs_count, said.outputs), (1, bytes(8) + b"\x26" + script))
            self.assertEqual(said.coinbase_prefix, b"\3" + number(answer["height"], 3))
            self.assertFalse(said_in(template.message(future=False)).future)
            tip = said_in(template.tip())
            self.assertEqual(
                (tip.template_id, displayed(tip.prev_hash), tip.timestamp, f"{tip.nbits:x}",
                 displayed(tip.target)),
                (2**60, answer["previousblockhash"], answer["curtime"], answer["bits"], answer["target"]),
            )

    def test_what_is_no_template_is_refused(self) -> None:
        for key, value in (("previousblockhash", None), ("bits", "x"), ("transactions", [{}]),
                           ("default_witness_commitment", "6a24aa21a9ed" + "00" * 32)):
            with self.assertRaises(BadTemplate):
                Template.of(1, {**answers()[0], key: value})

    def test_a_block_is_the_header_the_coinbase_and_the_transactions(self) -> None:
        answer = answers()[0]
        template = Template.of(7, answer)
        solution = solved(template, said_in(template.message(True)))
        block = template.block(Solution.read(solution.frame()[6:]))
        self.assertEqual(block.content[80:], b"\5" + solution.coinbase
                         + b"".join(bytes.fromhex(one["data"]) for one in answer["transactions"]))
        self.assertEqual(block.content[4:36][::-1].hex(), answer["previousblockhash"])
        self.assertEqual(block.hash, double_hash(block.content[:80])[::-1].hex())
        self.assertGreaterEqual(zero_bits(double_hash(block.content[:80])), 1)

    @unittest.skipIf(bitcoin is None, "Debian's python3-bitcoinlib isn't there, which checks blocks")
    def test_blocks_are_ones_to_another_library(self) -> None:
        bitcoin.SelectParams("regtest")
        for answer in answers():
            template = Template.of(7, answer)
            said = said_in(template.message(True))
            content = template.block(solved(template, said)).content
            block = bitcoin.core.CBlock.deserialize(content)
            self.assertEqual(block.serialize(), content)
            bitcoin.core.CheckBlock(block, cur_time=answer["curtime"] + 1)
            self.assertEqual([displayed(one.GetTxid()) for one in block.vtx[1:]],
                             [one["txid"] for one in answer["transactions"]])
            self.assertEqual(block.vtx[0].vout[0].nValue, answer["coinbasevalue"])
            # With another coinbase it isn't one.
            other = coinbase_of(said, bytes(12))
            with self.assertRaises(bitcoin.core.CheckBlockError):
                bitcoin.core.CheckBlock(bitcoin.core.CBlock.deserialize(
                    content[:81] + other + content[81 + len(other):],
                ), fCheckPoW=False, cur_time=answer["curtime"] + 1)


class FakeNode:
    """A node whose answers are at hand."""

    def __init__(self) -> None:
        self.templates = answers()
        self.at = 0
        self.fails = False
        self.submitted: list[str] = []

    def call(self, method: str, *params: object) -> object:
        if self.fails:
            raise NodeError("the node isn't reached")
        if method == "submitblock":
            self.submitted.append(params[0])
            return None
        answer = self.templates[self.at]
        return answer["previousblockhash"] if method == "getbestblockhash" else answer


class Providers(WithFolder):
    def setUp(self) -> None:
        super().setUp()
        self.node = FakeNode()
        self.provider = node.Provider(self.node, self.folder)
        self.published: list[Template] = []
        self.provider.sessions.publish = self.published.append
        self.said: list[str] = []
        patches = [mock.patch("node.say", self.said.append)]
        for patch in patches:
            patch.start()
            self.addCleanup(patch.stop)

    def look(self) -> None:
        asyncio.run(self.provider.look())

    def test_a_template_comes_at_each_new_tip_and_each_thirty_seconds(self) -> None:
        with mock.patch("time.monotonic") as now:
            for at, changed, count in ((100, 0, 1), (101, 0, 1), (129.9, 0, 1), (130, 1, 2), (140, 2, 3),
                                       (169, 2, 3), (170, 2, 4)):
                now.return_value, self.node.at = at, changed
                self.look()
                self.assertEqual(len(self.published), count, at)
        heights = [template.height for template in self.published]
        self.assertEqual(heights, [100_001, 100_001, 125_553, 125_553])
        ids = [template.id for template in self.published]
        self.assertEqual(ids, sorted(set(ids)))
        self.assertGreater(node.Provider(self.node, self.folder).next_id(), ids[-1])

    def test_a_solution_is_kept_and_handed_in(self) -> None:

        async def work() -> None:
            await self.provider.look()
            template = self.published[0]
            solution = solved(template, said_in(template.message(True)))
            await self.provider.solved(solution)
            await self.provider.end()
            block = template.block(solution)
            self.assertEqual(self.node.submitted, [block.content.hex()])
            with open(os.path.join(self.folder, f"{block.hash}.block"), encoding="ascii") as file:
                self.assertEqual(file.read(), block.content.hex() + "\n")
            solution.nonce += 1
            while template.block(solution).meets_target:
                solution.nonce += 1
            await self.provider.solved(solution)
            solution.template_id += 1
            await self.provider.solved(solution)
            solution.template_id -= 1
            solution.coinbase = solution.coinbase[:-5] + b"\1" + solution.coinbase[-4:]
            await self.provider.solved(solution)

        asyncio.run(work())
        self.assertEqual(len(self.node.submitted), 1)
        for words, said in zip(("A BLOCK at height 100001", "the node accepts", "a solution for template",
                                "A SOLUTION for template", "a solution for template"), self.said[1:]):
            self.assertTrue(said.startswith(words), said)

    def test_a_block_is_handed_in_once_the_node_answers_again(self) -> None:

        async def work() -> None:
            await self.provider.look()
            template = self.published[0]
            self.node.fails = True
            await self.provider.solved(solved(template, said_in(template.message(True))))
            await asyncio.sleep(0.1)
            self.node.fails = False
            await self.provider.end()

        asyncio.run(work())
        self.assertEqual(len(self.node.submitted), 1)
        self.assertTrue(any("isn't handed in yet" in words for words in self.said))

    def test_a_node_that_doesnt_answer_is_given_up_after_a_minute(self) -> None:
        with mock.patch("time.monotonic", return_value=100.0) as now:
            self.assertFalse(self.provider.is_answered())
            self.look()
            self.node.fails = True
            for at, answered in ((150.0, True), (159.0, True), (161.0, False)):
                now.return_value = at
                self.look()
                self.assertEqual(self.provider.is_answered(), answered)
            self.provider.give_up()
            self.node.fails = False
            self.look()
            self.assertTrue(self.provider.is_answered())
        self.assertEqual(len(self.published), 2)
        self.assertEqual(self.said.count("the node isn't reached"), 1)


class WithNode(WithFolder):
    """A test with a node that is a file."""

    def setUp(self) -> None:
        super().setUp()
        self.cookie = self.file("cookie", "__cookie__:secret")
        self.recorded = self.begin(os.path.join("tests", "recorded_node.py"), ANSWERS, self.cookie,
                                   os.path.join(self.folder, "port"), self.folder)
        self.rpc = f"127.0.0.1:{self.read_when_there('port')}"

    def read_when_there(self, name: str) -> str:
        path, last = os.path.join(self.folder, name), time.monotonic() + 20
        while not os.path.exists(path):
            self.assertLess(time.monotonic(), last, f"there is no {name}")
            time.sleep(0.02)
        with open(path, encoding="utf-8") as file:
            return file.read()


class Program(WithNode):
    """The program itself, between such a node and a pool that is this test."""

    def setUp(self) -> None:
        super().setUp()
        program = self.begin("node.py", self.rpc, "127.0.0.1:0", "--cookie", self.cookie, "--blocks",
                             self.folder)
        line = self.line_of(program, "pools are served at")
        self.address = ("127.0.0.1", int(line.rsplit(":", 1)[1]))

    def dial(self, setup: bytes = SETUP + CONSTRAINTS) -> Frames:
        connection = socket.create_connection(self.address, timeout=20)
        self.addCleanup(connection.close)
        connection.sendall(setup)
        return Frames(connection)

    def told(self, frames: Frames) -> TemplateEvent | Tip:
        taken = frames.take()
        return said_in(bytes([0, 0, taken.kind]) + number(len(taken.payload), 3) + taken.payload)

    def test_a_pool_is_given_templates_and_hands_a_block_in(self) -> None:
        pool = self.dial()
        self.assertEqual(pool.take().payload, SUCCESS)
        said, tip = self.told(pool), self.told(pool)
        self.assertEqual((said.future, said.template_id), (True, tip.template_id))
        solution = solved(Template.of(said.template_id, answers()[0]), said)
        pool.put(solution.frame())
        block = Template.of(1, answers()[0]).block(solution)
        self.assertEqual(self.read_when_there("submitted"), block.content.hex() + "\n")
        self.assertEqual(self.read_when_there(f"{block.hash}.block"), block.content.hex() + "\n")
        # Two steps to the template of another tip; another pool is told of that alone.
        for _ in range(2):
            self.file("next")
            while os.path.exists(os.path.join(self.folder, "next")):
                time.sleep(0.02)
        fresh, turned = self.told(pool), self.told(pool)
        self.assertEqual((fresh.future, turned.template_id), (True, fresh.template_id))
        self.assertGreater(fresh.template_id, said.template_id)
        self.assertEqual(displayed(turned.prev_hash), answers()[2]["previousblockhash"])
        other = self.dial()
        other.take()
        again = self.told(other)
        self.assertEqual((again.future, again.value), (True, fresh.value))
        self.assertGreater(again.template_id, fresh.template_id)

    def test_who_wants_something_else_is_sent_away(self) -> None:
        for setup, code in (
            (bytes.fromhex("000000100000 00 0200 0200 00000000 00 0000 00 00 00 00"), b"unsupported-protocol"),
            (bytes.fromhex("000000100000 02 0300 0400 00000000 00 0000 00 00 00 00"),
             b"protocol-version-mismatch"),
        ):
            refused = self.dial(setup)
            answer = refused.take()
            self.assertEqual((answer.kind, answer.payload[5:]), (2, code))
            self.assertIsNone(refused.take())
        self.assertIsNone(self.dial(b"\xff" * 64).take())


class Requests(WithNode):
    def test_a_node_is_asked_as_its_user_or_by_its_cookie(self) -> None:
        best = answers()[0]["previousblockhash"]
        for asked in (Node(self.rpc, cookie=self.cookie), Node(self.rpc, "__cookie__:secret")):
            self.assertEqual(asked.call("getbestblockhash"), best)

    def test_why_a_node_gives_no_answer(self) -> None:
        well = Node(self.rpc, cookie=self.cookie)

        def refusal(asked: Node) -> str:
            with self.assertRaises(NodeError) as refused:
                asked.call("getbestblockhash")
            return str(refused.exception)

        self.assertIn("refuses the user or the cookie", refusal(Node(self.rpc, "user:wrong")))
        none = os.path.join(self.folder, "none")
        self.assertIn("cookie can't be read", refusal(Node(self.rpc, cookie=none)))
        self.file("silent")
        self.assertIn("answers no JSON, with status 503", refusal(well))
        self.recorded.terminate()
        self.recorded.wait()
        self.assertIn("isn't reached", refusal(well))

    def test_what_a_node_says_against_a_request(self) -> None:
        said = b'{"result":null,"error":{"code":-10,"message":"Bitcoin Core is in initial sync"},"id":0}'
        with self.assertRaisesRegex(Refused, "initial sync"):
            result_in(said, 500)

    def test_words(self) -> None:
        for words in ((), ("127.0.0.1:1",), ("x", "127.0.0.1:0"), ("127.0.0.1:1", "x"),
                      ("127.0.0.1:1", "127.0.0.1:0", "--blocks", os.path.join(self.folder, "none"))):
            self.assertEqual(tool("node.py", *words).returncode, 2)


if __name__ == "__main__":
    unittest.main()
