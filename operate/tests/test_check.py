"""Why a pool wouldn't begin, as `check.py` says it."""
import contextlib
import fcntl
import json
import os
import socket
import threading
import unittest
from collections.abc import Iterator
from unittest import mock

from lib import checking
from lib.lasting import Lasting, least_class_for
from tests import writing
from tests.support import WithFolder, tool

SUCCESS = bytes.fromhex("000001060000 0200 00000000")
# F3 and F4 of the worked session of docs/POOL.md: a template and its tip.
TEMPLATE = bytes.fromhex("0000712b0000 0500000000000000 01 00000020 02000000 025151 ffffffff "
                         "e803000000000000 00000000 0000 00000000 00")
TIP = bytes.fromhex("000072500000 0500000000000000" + "11" * 32 + "40420f00 ffff7f20" + "ff" * 32)
SETUP = bytes.fromhex("000000100000 02 0200 0200 00000000 00 0000 00 00 00 00")


@contextlib.contextmanager
def provider(*said: bytes, closes: bool = True) -> Iterator[tuple[str, list[bytes]]]:
    """A provider that hears a setup, and says this; its address, and what it heard."""
    heard: list[bytes] = []
    done = threading.Event()
    with socket.create_server(("127.0.0.1", 0)) as listener:

        def serve() -> None:
            connection, _ = listener.accept()
            with connection:
                heard.append(connection.recv(100))
                connection.sendall(b"".join(said))
                if not closes:
                    done.wait(10)

        thread = threading.Thread(target=serve)
        thread.start()
        try:
            yield f"127.0.0.1:{listener.getsockname()[1]}", heard
        finally:
            done.set()
            thread.join()


class Checked(WithFolder):
    def settings(self, **said: object) -> str:
        every = {"pool_script": "51", "least_class": 0, "fee": 0, "rule": "proportional",
                 "ntime_window": 600, "credit_limit": 100, "address": "127.0.0.1:0", **said}
        return self.file("settings.json", json.dumps(every))

    def causes(self, path: str, **said: object) -> list[tuple[int, str]]:
        """What is found of settings and a ledger, without the network."""
        found = checking.Found()
        checking.check_ledger(path, checking.read_settings(self.settings(**said), found), found)
        return found.causes


class Ledgers(Checked):
    def test_a_ledger_that_fits(self) -> None:
        records = [writing.start(), writing.enter(0, 1)]
        for content in (writing.durable(records), writing.durable([]), b"", b"12345678"):
            self.assertEqual(self.causes(self.file("ledger", content)), [])
        self.assertEqual(self.causes(os.path.join(self.folder, "none")), [])

    def test_each_key_that_differs_is_named(self) -> None:
        path = self.file("ledger", writing.durable([writing.start(users=[b"a", b"b"], fee=5)]))
        begun = "the ledger was begun with other settings: "
        self.assertEqual(self.causes(path, rule="pplns", window=7, version_rolling=False,
                                     users=["b", "a"], pool_script="5252", least_class=1), [
            (11, begun + "pool_script is 5252, and was 51"),
            (11, begun + "least_class is 1, and was 0"), (11, begun + "fee is 0, and was 5"),
            (11, begun + "rule is pplns, and was proportional"),
            (11, begun + "window is 7, and was 0"),
            (11, begun + "version_rolling is False, and was True"),
            (11, begun + "users is b, a, and was a, b"),
        ])
        self.assertEqual(self.causes(path, users=["a", "b"], fee=5, ntime_window=601, credit_limit=99), [
            (11, begun + "ntime_window is 601, and was 600"),
            (11, begun + "credit_limit is 99, and was 100"),
        ])
        # What isn't a rule may change.
        self.assertEqual(self.causes(path, users=["a", "b"], fee=5, v1_base=3, workers=9, feed="x:1"), [])

    def test_what_is_no_durable_ledger(self) -> None:
        start = writing.start()
        broken = bytearray(writing.durable([start]))
        broken[-3] ^= 1
        two = b"".join(writing.pieces([start, writing.enter(0, 1)]))
        for content, words in (
            (writing.plain([start]), "the ledger is a ledger of plain `serve`"),
            (b"123456789", "the ledger is no ledger"),
            (bytes(broken), "the ledger's events are no history: broken chain 0"),
            (writing.durable([start, writing.leave(0)]), "the ledger's events are no history: illegal"),
            (b"SV2DISK1\1" + writing.number(len(two), 4) + two + b"\0", "the ledger's entries are cut"),
        ):
            found = self.causes(self.file("ledger", content))
            self.assertEqual([(status, one[:len(words)]) for status, one in found], [(11, words)])

    def test_what_cant_be_opened(self) -> None:
        for path in (self.folder, os.path.join(self.folder, "no", "ledger")):
            self.assertEqual([status for status, _ in self.causes(path)], [7])
        held = self.file("ledger", writing.durable([writing.start()]))
        with open(held, "rb") as file:
            fcntl.flock(file, fcntl.LOCK_EX)
            self.assertEqual(self.causes(held), [
                (7, "another process has the ledger open: a pool runs with it already"),
            ])
        self.assertEqual(self.causes(held), [])


class Places(Checked):
    def found_of(self, check, **said: object) -> checking.Found:
        found = checking.Found()
        settings = checking.read_settings(self.settings(**said), found)
        check(settings, found)
        return found

    def test_an_address(self) -> None:
        with socket.create_server(("127.0.0.1", 0)) as taken:
            address = f"127.0.0.1:{taken.getsockname()[1]}"
            causes = self.found_of(checking.check_address, address=address).causes
            self.assertEqual(causes[0][0], 7)
            self.assertIn("Address already in use", causes[0][1])
        self.assertEqual(self.found_of(checking.check_address, address=address).causes, [])
        self.assertEqual(len(self.found_of(checking.check_address, address="x").causes), 1)

    def test_descriptors(self) -> None:
        for allowed, count in ((208, 0), (207, 1)):
            with mock.patch("resource.getrlimit", return_value=(allowed, allowed)):
                found = self.found_of(checking.check_descriptors, workers=64)
                self.assertEqual(len(found.causes), count)

    def test_providers(self) -> None:
        error = bytes.fromhex("000002060000 00000000 01 78")
        for said, closes, status, words in (
            ((SUCCESS, TEMPLATE, TIP), True, None, "gives a template and its tip"),
            ((SUCCESS, TEMPLATE), False, None, "gives no template and tip within five seconds"),
            ((), True, 7, "it may insist on encryption"), ((), False, 7, "it may insist on encryption"),
            ((error,), True, 7, "it refuses the setup"),
            ((b"\xff" * 64,), True, 7, "it says a frame of 16,777,215 bytes"),
        ):
            with self.subTest(words), mock.patch("lib.checking.SECONDS", 0.5):
                with provider(*said, closes=closes) as (address, heard):
                    found = self.found_of(checking.check_provider, feed=address)
                self.assertEqual(heard, [SETUP])
                self.assertEqual([one for one, _ in found.causes], [status] if status else [])
                self.assertIn(words, (found.words(7) or found.well)[-1])

    def test_nobody_at_the_providers_address(self) -> None:
        with socket.create_server(("127.0.0.1", 0)) as taken:
            address = f"127.0.0.1:{taken.getsockname()[1]}"
        self.assertIn("Connection refused", self.found_of(checking.check_provider, feed=address).words(7)[0])


class Lengths(unittest.TestCase):
    def test_how_long_credits_last(self) -> None:
        # 2^24 - 1 credits of 2^32 hashes, at 2^32 hashes a second.
        self.assertEqual(Lasting(16_777_215, 2.0**32).seconds(32), 16_777_215)

    def test_the_least_class_for_a_time(self) -> None:
        month = 30.4375 * 86_400
        for months in (1, 6, 12, 48):
            for rate in (1e12, 2e14, 8e15, 1e17):
                lasting = Lasting(16_777_215, rate)
                best = least_class_for(lasting, months)
                self.assertGreaterEqual(lasting.seconds(best), months * month)
                self.assertLess(lasting.seconds(best - 1), months * month)
        self.assertEqual(least_class_for(Lasting(16_777_215, 1.0), 1), 0)
        self.assertEqual(least_class_for(Lasting(0, 1.0), 1), 60)


class Program(Checked):
    def test_statuses_and_lines(self) -> None:
        settings = self.settings()
        none = os.path.join(self.folder, "none")
        done = tool("check.py", settings, none, "--no-dial", "--hash-rate", "200T")
        self.assertEqual((done.returncode, done.stderr), (0, ""))
        self.assertIn("note: no least_class lets them last for 12 months", done.stdout)
        done = tool("check.py", settings, none, "--no-dial", "--hash-rate", "50MH", "--smallest", "1M")
        self.assertIn("100 credits are left; at 50.0 MH/s", done.stdout)
        # 50,000,000 hashes a second for 31,557,600 seconds are 2^50.5, of which a credit is a hundredth.
        self.assertIn("for 12 months least_class has to be 44 (difficulty 2^12)", done.stdout)
        # 2^44 hashes at a million a second.
        self.assertIn("a miner of 1.00 MH/s then has a share each 203 d 14 h", done.stdout)
        done = tool("check.py", self.file("bad", "{}"), self.file("other", bytes(9)), "--no-dial")
        self.assertEqual((done.returncode, [line[:3] for line in done.stdout.splitlines()]),
                         (3, ["9: "] * 4 + ["11:"]))
        self.assertEqual(tool("check.py", settings).returncode, 2)
        self.assertEqual(tool("check.py", settings, none, "--hash-rate", "x").returncode, 2)
        self.assertIn("\n7: the settings can't be opened", tool("check.py", none, none, "--no-dial").stdout)


if __name__ == "__main__":
    unittest.main()
