"""What blocks owe, as `payouts.py` lists it, and blocks to hand in, as `solution.py` prints them."""
import csv
import io
import os
import socket
import threading
import unittest

from tests import writing
from tests.support import WORKED, WithFolder, begun, coinbase_of, double_hash, header_of, nonces, tool
from tests.writing import EXTENDED, MINER, SOLO

EIGHT_ZEROS = b"\xff" * 31 + b"\0"
# The worked session's block, and its message (docs/POOL.md).
BLOCK = double_hash(header_of(1_000, bytes(12), 0))[::-1].hex()
MESSAGE = ("000076610000" "0500000000000000" "00000020" "40420f00" "00000000" "4b00"
           + coinbase_of(1_000, bytes(12)).hex())


def rows(text: str) -> list[list[str]]:
    return list(csv.reader(io.StringIO(text)))


def two_blocks() -> list[bytes]:
    """By the proportional rule with a fee of 1 percent: a 1, a 2, b 4 and a block of b's, as in the worked
    rows of docs/POOL.md, and behind that a block of a's."""
    start, provider, *job = begun(1_000, EIGHT_ZEROS, fee=100)
    leads = [place.to_bytes(4, "big") for place in range(3)]
    # The channels are older than the job, so that their classes count for it.
    openings = [
        writing.opening(1, EXTENDED, account, lead, class_)
        for account, lead, class_ in zip((b"a", b"a", b"b"), leads, range(3))
    ]
    # Of each share its channel, and how many zero bits its hash has: at least, and fewer than.
    shares = ((1, 0, 8), (2, 1, 8), (3, 8, 257), (1, 8, 257))
    credits = [
        writing.credit(1, at, 1, next(nonces(1_000, leads[at - 1] + bytes(8), zeros, below)), bytes(8))
        for at, zeros, below in shares
    ]
    return [start, provider, writing.enter(1, MINER), *openings, *job, *credits]


class Payouts(WithFolder):
    def listed(self, *words: str) -> list[list[str]]:
        done = tool("payouts.py", *words)
        self.assertEqual((done.returncode, done.stderr), (0, ""))
        return rows(done.stdout)

    def test_a_line_for_each_block_and_account(self) -> None:
        begin = [BLOCK, "1", "1970-01-12 13:46:40", "5", "template", "1000"]
        self.assertEqual(self.listed(WORKED), [
            ["block", "height", "time", "event", "job", "reward", "account", "work", "satoshis"],
            [*begin, "a", "1", "990"], [*begin, "the pool", "", "10"],
        ])

    def test_the_documented_quotients_and_their_totals(self) -> None:
        path = self.file("ledger", writing.plain(two_blocks()))
        lines = self.listed(path)[1:]
        self.assertEqual([line[6:] for line in lines], [
            ["a", "3", "424"], ["b", "4", "565"], ["the pool", "", "11"],
            ["a", "1", "990"], ["the pool", "", "10"],
        ])
        self.assertEqual(self.listed(path, "--totals"), [
            ["account", "work", "satoshis"], ["a", "4", "1414"], ["b", "4", "565"],
            ["the pool", "", "21"],
        ])

    def test_a_block_that_counts_nothing(self) -> None:
        path = self.file("ledger", writing.durable(two_blocks()))
        first = self.listed(path)[1][0]
        self.assertEqual(self.listed(path, "--totals", "--without", first.upper())[1:], [
            ["a", "4", "990"], ["b", "4", "0"], ["the pool", "", "10"],
        ])
        self.assertEqual([line[6] for line in self.listed(path, "--without", first)[1:]],
                         ["a", "the pool"])
        done = tool("payouts.py", path, "--without", "00" * 32)
        self.assertEqual((done.returncode, done.stdout), (3, ""))

    def test_what_is_still_owed(self) -> None:
        path = self.file("ledger", writing.plain(two_blocks()))
        paid = self.file("paid.csv", "account,satoshis,when\na,400,monday\nb,600\n\na,14,tuesday\n")
        self.assertEqual(self.listed(path, "--paid", paid), [
            ["account", "work", "satoshis", "paid", "owed"], ["a", "4", "1414", "414", "1000"],
            ["b", "4", "565", "600", "-35"], ["the pool", "", "21", "0", "21"],
        ])
        other = self.file("other.csv", "a,5\nzoe,7\n")
        done = tool("payouts.py", path, "--paid", other)
        self.assertEqual(rows(done.stdout)[-1], ["zoe", "0", "0", "7", "-7"])
        self.assertIn("zoe was paid, and has no credit", done.stderr)
        bad = self.file("bad.csv", "account,satoshis\na,1.5\n")
        self.assertEqual(tool("payouts.py", path, "--paid", bad).returncode, 3)

    def test_a_block_on_a_miners_own_job_is_marked(self) -> None:
        records = [
            writing.start(), writing.enter(0, SOLO, 2), writing.opening(0, EXTENDED, b"a", bytes(4)),
            writing.template(0, 5, True, 1_000), writing.tip(0, 5), writing.grant(0),
            writing.custom(0, 1, 1, 1_088_516_511_498, prefix=bytes.fromhex("0340d10c")),
            writing.credit(0, 1, 2, 1, bytes(8)),
        ]
        line = self.listed(self.file("ledger", writing.plain(records)))[1]
        self.assertEqual(line[1:2] + line[4:], ["840000", "own", "1088516511498", "a", "1",
                                                "1088516511498"])
        done = tool("solution.py", self.file("ledger", writing.plain(records)), "7")
        self.assertIn("template none", done.stdout)
        self.assertNotIn("message", done.stdout)

    def test_statuses(self) -> None:
        for status, words in ((1, [os.path.join(self.folder, "none")]), (2, []),
                              (3, [self.file("other", b"x")])):
            self.assertEqual(tool("payouts.py", *words).returncode, status)


class Solutions(WithFolder):
    def test_what_is_handed_in(self) -> None:
        done = tool("solution.py", WORKED, "5")
        self.assertEqual((done.returncode, done.stdout.splitlines()), (0, [
            f"block {BLOCK}", "height 1", "reward 1000", "account a",
            f"header {header_of(1_000, bytes(12), 0).hex()}",
            f"coinbase {coinbase_of(1_000, bytes(12)).hex()}", "path none", "template 5",
            f"message {MESSAGE}",
        ]))

    def test_it_is_sent_to_a_provider(self) -> None:
        heard = []
        with socket.create_server(("127.0.0.1", 0)) as listener:

            def serve() -> None:
                connection, _ = listener.accept()
                with connection, connection.makefile("rb") as stream:
                    heard.append(stream.read(22 + 12))
                    connection.sendall(bytes.fromhex("000001060000020000000000"))
                    heard.append(stream.read())

            thread = threading.Thread(target=serve)
            thread.start()
            address = f"127.0.0.1:{listener.getsockname()[1]}"
            done = tool("solution.py", WORKED, "5", "--to", address)
            thread.join()
        self.assertEqual((done.returncode, done.stdout.splitlines()[-1]), (0, f"sent to {address}"))
        self.assertEqual(heard[0].hex(), "00000010000002020002000000000000000000000000"
                         + "000070060000" + "6d000000" + "9001")
        self.assertEqual(heard[1].hex(), MESSAGE)

    def test_what_is_no_block(self) -> None:
        path = self.file("ledger", writing.plain(two_blocks()))
        for event, words in (("4", "no credit, but Open"), ("8", "a credit that is no block"), ("99", "has no event")):
            done = tool("solution.py", path, event)
            self.assertEqual((done.returncode, done.stdout), (3, ""))
            self.assertIn(words, done.stderr)
        self.assertEqual(tool("solution.py", path).returncode, 2)


if __name__ == "__main__":
    unittest.main()
