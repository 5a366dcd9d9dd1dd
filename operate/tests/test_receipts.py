"""A miner's shares are looked up in a ledger."""
import json
import os
import unittest

from tests import writing
from tests.support import WithFolder, begun, header_of, nonces, tool
from tests.writing import EXTENDED, MINER

EIGHT_ZEROS = b"\xff" * 31 + b"\0"
LEAD = bytes(4)


class Receipts(WithFolder):
    def setUp(self) -> None:
        super().setUp()
        found = nonces(1_000, LEAD + bytes(8), 4, 8)
        self.nonces = [next(found) for _ in range(5)] + [next(nonces(1_000, LEAD + bytes(8), 8))]
        start, provider, *job = begun(1_000, EIGHT_ZEROS, fee=100)
        self.records = [
            start, provider, writing.enter(1, MINER), writing.opening(1, EXTENDED, b"alice", LEAD, 4), *job,
            *(writing.credit(1, 1, 1, nonce, bytes(8)) for nonce in self.nonces),
        ]
        self.log = self.file("shares.log", "".join(
            json.dumps({
                "time": 1_000_000 + at, "worker": "alice.rig", "job": "1", "difficulty": 1,
                "header": header_of(1_000, LEAD + bytes(8), nonce).hex(),
            }) + "\n" for at, nonce in enumerate(self.nonces)
        ))

    def looked(self, records: list[bytes], *words: str) -> tuple[int, list[str]]:
        done = tool("receipts.py", self.log, self.file("ledger", writing.durable(records)), *words)
        self.assertEqual(done.stderr, "")
        return done.returncode, done.stdout.splitlines()

    def test_each_share_is_there(self) -> None:
        status, lines = self.looked(self.records)
        self.assertEqual((status, len(lines)), (0, 10))
        self.assertEqual(lines[0], "share 1 of alice.rig, 1970-01-12 13:46:40: event 6, account alice, "
                         "work 16")
        self.assertTrue(lines[5].startswith("share 6 of alice.rig, 1970-01-12 13:46:45: event 11, account "
                                            "alice, work 16, a block 00"))
        self.assertEqual(lines[6:9], [
            "6 of 6 shares are credited, with 96 of work; 0 are not there",
            "the ledger has 6 credits, of which 0 have a header that doesn't meet its class",
            "account alice: 6 credits, 96 of work, 990 satoshis owed (0.00000990 BTC)",
        ])

    def test_a_credit_that_was_taken_out_is_named(self) -> None:
        # All hashes behind it are computed again.
        status, lines = self.looked(self.records[:8] + self.records[9:], "--missing")
        header = header_of(1_000, LEAD + bytes(8), self.nonces[2]).hex()
        self.assertEqual(status, 4)
        self.assertEqual(lines[:2], [
            f"share 3 of alice.rig, 1970-01-12 13:46:42: NOT THERE, header {header}",
            "5 of 6 shares are credited, with 80 of work; 1 are not there",
        ])

    def test_a_credit_without_its_work_is_named(self) -> None:
        weak = next(nonces(1_000, LEAD + bytes(8), 0, 4))
        status, lines = self.looked(
            self.records + [writing.credit(1, 1, 1, weak, bytes(8))], "--missing",
        )
        self.assertEqual((status, lines[0]), (
            4, "event 12: THE HEADER DOESN'T MEET the class that it is credited with",
        ))

    def test_less_work_than_was_told(self) -> None:
        for base, less in (("4", False), ("5", True)):
            _, lines = self.looked(self.records, "--v1-base", base)
            self.assertEqual("LESS than its difficulty of 1 said" in lines[0], less)

    def test_what_cant_be_looked_up(self) -> None:
        broken = bytearray(writing.plain(self.records))
        broken[-40] ^= 1
        bad_log = self.file("bad.log", '{"time":1}\n')
        ledger = self.file("ledger", writing.plain(self.records))
        for status, words in (
            (3, (self.log, self.file("broken", bytes(broken)))), (3, (bad_log, ledger)),
            (1, (os.path.join(self.folder, "none"), ledger)), (2, (self.log,)),
        ):
            self.assertEqual(tool("receipts.py", *words).returncode, status)
        unknown = self.file("unknown.log", json.dumps({
            "time": 0, "worker": "a", "job": "9", "difficulty": 1, "header": None,
        }))
        done = tool("receipts.py", unknown, ledger)
        self.assertEqual(done.returncode, 0)
        self.assertIn("its header couldn't be rebuilt", done.stdout)


if __name__ == "__main__":
    unittest.main()
