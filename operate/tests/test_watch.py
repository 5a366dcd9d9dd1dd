"""What `watch.py` shows of a pool, by its own clock."""
import fcntl
import json
import os
import re
import shutil
import subprocess
import unittest
import urllib.error
import urllib.request

from lib.watching import Watch
from lib.words import duration_words, rate_words
from tests import writing
from tests.support import WORKED, WithFolder, begun, tool
from tests.writing import MINER, V1

CHROMIUM = shutil.which("chromium")
# When a ledger's file was written last, and when it is looked at first.
WRITTEN, FIRST = 1_000_000.0, 1_000_100.0


def mined(nonces: range, session: int = 1, channel: int = 1) -> list[bytes]:
    return [writing.credit(session, channel, 1, nonce, bytes(8)) for nonce in nonces]


class Watched(WithFolder):
    """A ledger that grows, and what is seen of it."""

    def setUp(self) -> None:
        super().setUp()
        self.records: list[bytes] = []
        self.grow([])
        self.watch = Watch(self.path)

    def grow(self, records: list[bytes]) -> None:
        self.records += records
        self.path = self.file("ledger", writing.plain(self.records))
        os.utime(self.path, (WRITTEN, WRITTEN))

    def seen(self, now: float) -> dict:
        self.watch.look(now)
        return self.watch.snapshot(now)


class Providers(Watched):
    def test_what_was_there_before_is_no_younger_than_the_file(self) -> None:
        self.grow(begun(1_000))
        now = self.seen(FIRST)
        self.assertEqual(now["provider"], {"here": True, "since": WRITTEN, "age": 100.0, "exact": False})
        self.assertEqual((now["tip"]["seen"], now["tip"]["exact"], now["tip"]["previous"]),
                         (WRITTEN, False, "11" * 32))
        self.assertEqual((now["template"]["id"], now["template"]["reward"]), (5, 1_000))

    def test_a_provider_that_leaves_is_gone_since_then(self) -> None:
        self.grow(begun(1_000))
        self.seen(FIRST)
        self.grow([writing.leave(0)])
        self.seen(FIRST + 10)
        now = self.seen(FIRST + 75)
        self.assertEqual(now["provider"], {"here": False, "since": FIRST + 10, "age": 65.0, "exact": True})
        self.grow([writing.enter(0, writing.FEED), writing.template(2, 6, True, 2_000), writing.tip(2, 6)])
        now = self.seen(FIRST + 80)
        self.assertEqual((now["provider"]["here"], now["provider"]["since"]), (True, FIRST + 80))
        self.assertEqual((now["template"]["id"], now["template"]["age"], now["tip"]["age"]), (6, 0, 0))

    def test_a_ledger_that_is_replaced_is_looked_at_anew(self) -> None:
        self.grow(begun(1_000) + [writing.enter(1, MINER)])
        self.assertEqual(self.seen(FIRST)["miners"], 1)
        self.records = []
        self.grow(begun(1_000, fee=5))
        now = self.seen(FIRST + 1)
        self.assertEqual((now["miners"], now["events"], now["measured"]), (0, 4, 0))


class Rates(Watched):
    def setUp(self) -> None:
        super().setUp()
        self.grow(begun(1_000, bytes(31) + b"\0", fee=100, credit_limit=1_000) + [
            writing.enter(1, MINER), writing.opening(1, V1, b"", bytes(4), 4),
            writing.name(1, 1, b"alice"), writing.enter(2, MINER),
            writing.opening(2, V1, b"", b"\0\0\0\1", 10),
        ] + mined(range(5)))

    def test_miners_and_their_accounts(self) -> None:
        now = self.seen(FIRST)
        self.assertEqual(now["miners"], 2)
        self.assertEqual([(one["name"], one["miners"]) for one in now["accounts"]],
                         [("alice", 1), ("", 1)])

    def test_rates_are_those_since_it_looks(self) -> None:
        self.assertEqual(self.seen(FIRST)["rates"], {"1": None, "10": None, "60": None})
        self.grow(mined(range(5, 10)))
        now = self.seen(FIRST + 20)
        # Five shares of 2^4 hashes in 20 seconds.
        self.assertEqual(now["rates"]["1"], {"seconds": 20, "shares": 5, "hashes": 4.0})
        self.assertEqual(now["accounts"][0]["rates"]["60"], now["rates"]["1"])
        self.assertEqual((now["credits"], now["credit_limit"]), (10, 1_000))
        # 990 more, a share each four seconds.
        self.assertEqual(now["limit_in"], 990 * 4)

    def test_each_span_has_its_own_rate(self) -> None:
        self.seen(FIRST)
        for minute in range(1, 21):
            # One share in each of the first ten minutes, and ten in each of the next.
            count = 1 if minute <= 10 else 10
            self.grow(mined(range(100 * minute, 100 * minute + count)))
            now = self.seen(FIRST + 60 * minute)
        shares = {window: rate["shares"] for window, rate in now["rates"].items()}
        self.assertEqual(shares, {"1": 10, "10": 100, "60": 110})
        self.assertEqual(now["rates"]["10"]["hashes"], 100 * 16 / 600)
        self.assertEqual(now["rates"]["60"]["seconds"], 1_200)
        self.assertEqual(now["minutes"], [16 / 60] * 10 + [160 / 60] * 10)

    def test_samples_older_than_an_hour_go(self) -> None:
        self.seen(FIRST)
        for at in range(10, 8_000, 10):
            self.seen(FIRST + at)
        self.assertLessEqual(len(self.watch.meter.as_json()), 3_600 // 10 + 1)
        self.assertEqual(self.seen(FIRST + 8_000)["rates"]["60"]["seconds"], 3_600)

    def test_what_an_account_would_get_of_a_block_now(self) -> None:
        self.assertEqual(self.seen(FIRST)["accounts"][0]["of_a_block_now"], 990)

    def test_another_watch_goes_on_with_what_it_remembers(self) -> None:
        self.seen(FIRST)
        self.grow([writing.leave(0)])
        self.seen(FIRST + 10)
        remembered = json.loads(json.dumps(self.watch.remember()))
        self.grow(mined(range(20, 23)))
        self.watch = Watch(self.path)
        self.watch.recall(remembered)
        now = self.seen(FIRST + 60)
        self.assertEqual(now["rates"]["1"], {"seconds": 60, "shares": 3, "hashes": 3 * 16 / 60})
        self.assertEqual(now["provider"], {"here": False, "since": FIRST + 10, "age": 50.0, "exact": True})

    def test_what_is_remembered_of_another_ledger_counts_nothing(self) -> None:
        self.seen(FIRST)
        remembered = self.watch.remember()
        self.records[0] = writing.start(fee=7)
        self.grow([])
        self.watch = Watch(self.path)
        self.watch.recall(remembered)
        self.assertEqual(self.seen(FIRST + 60)["rates"]["1"], None)


class Words(unittest.TestCase):
    def test_numbers(self) -> None:
        for rate, words in ((0, "0 H/s"), (1.5, "2 H/s"), (999.4, "999 H/s"), (1_000, "1.00 kH/s"),
                            (123_456, "123 kH/s"), (2e14, "200 TH/s"), (9.994e9, "9.99 GH/s")):
            self.assertEqual(rate_words(rate), words)
        for seconds, words in ((0, "0 s"), (59.9, "59 s"), (60, "1 min"), (3_661, "1 h 1 min"),
                               (90_000, "1 d 1 h"), (86_401, "1 d 1 s")):
            self.assertEqual(duration_words(seconds), words)


class Program(WithFolder):
    def test_one_look(self) -> None:
        done = tool("watch.py", WORKED, "--once", "--json")
        now = json.loads(done.stdout)
        self.assertEqual((done.returncode, now["credits"], now["blocks"], now["pool_part"]), (0, 1, 1, 10))
        self.assertEqual((now["accounts"][0]["owed"], now["last_blocks"][0]["height"]), (990, 1))
        line = tool("watch.py", WORKED, "--once").stdout
        self.assertRegex(line, r"provider GONE since before .*, 1 of 3 credits, 0\.00000990 BTC owed")

    def test_a_durable_ledger_that_nobody_has_open(self) -> None:
        for records, words in ((begun(1_000), "THE POOL DOESN'T RUN, 0 miners"),
                               (begun(1_000) + [writing.leave(0)],
                                "THE POOL DOESN'T RUN, provider GONE since before ")):
            ledger = self.file("ledger", writing.durable(records))
            self.assertIn(words, tool("watch.py", ledger, "--once").stdout)
            with open(ledger, "rb") as held:
                fcntl.flock(held, fcntl.LOCK_EX)
                self.assertNotIn("RUN", tool("watch.py", ledger, "--once").stdout)

    def test_a_monitor_keeps_what_it_knows(self) -> None:
        state = os.path.join(self.folder, "state")
        ledger = self.file("ledger", writing.plain(begun(1_000)))
        for _ in range(2):
            done = tool("watch.py", ledger, "--once", "--json", "--state", state)
        self.assertGreater(json.loads(done.stdout)["rates"]["1"]["seconds"], 0)

    def test_a_ledger_that_isnt_there_yet_is_waited_for(self) -> None:
        done = tool("watch.py", os.path.join(self.folder, "none"), "--once")
        self.assertEqual((done.returncode, done.stdout.endswith("no ledger yet\n")), (0, True))

    def test_statuses(self) -> None:
        for status, words in (
            (1, [self.folder, "--once"]), (2, []), (2, [WORKED, "--serve", "0.0.0.0:8080"]),
            (2, [WORKED, "--serve", "x"]), (3, [self.file("other", b"no ledger"), "--once"]),
        ):
            self.assertEqual(tool("watch.py", *words).returncode, status, words)

    def serve(self, ledger: str) -> str:
        """Begins a page, and answers where it is."""
        program = self.begin("watch.py", ledger, "--serve", "0")
        return re.search(r"http://127\.0\.0\.1:\d+/", self.line_of(program, "the page is at"))[0]

    def test_the_page_and_its_json(self) -> None:
        url = self.serve(WORKED)
        with urllib.request.urlopen(url, timeout=10) as answer:
            self.assertIn("The pool now", answer.read().decode())
        now = None
        while now is None:
            with urllib.request.urlopen(url + "now.json", timeout=10) as answer:
                now = json.load(answer)
        self.assertEqual(now["credits"], 1)
        with self.assertRaises(urllib.error.HTTPError) as refused:
            urllib.request.urlopen(url + "../watch.py", timeout=10)
        refused.exception.close()
        self.assertEqual(refused.exception.code, 404)

    @unittest.skipUnless(CHROMIUM, "there is no browser (chromium) to open the page with")
    def test_the_page_in_a_browser(self) -> None:
        url = self.serve(WORKED)
        shown = subprocess.run(
            [CHROMIUM, "--headless", "--no-sandbox", "--disable-gpu", "--virtual-time-budget=3000",
             f"--user-data-dir={self.folder}/browser", "--dump-dom", url],
            capture_output=True, text=True, timeout=60, check=False,
        ).stdout
        for words in ("The provider is GONE since before", "1 of 3", "0.00000990", ">a</td>"):
            self.assertTrue(words in shown, words)


if __name__ == "__main__":
    unittest.main()
