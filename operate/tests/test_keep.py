"""A pool is begun anew where it has to, and an operator hears what for."""
import configparser
import json
import os
import re
import signal
import socket
import subprocess
import sys
import time
import unittest

from tests import writing
from tests.support import OPERATE, WithFolder, begun, tool
from tests.writing import FEED, MINER

FAKE = os.path.join(OPERATE, "tests", "fake_pool.py")
SETTINGS = '{"pool_script":"51","least_class":0,"fee":0,"rule":"proportional","address":"127.0.0.1:0"%s}'


class Kept(WithFolder):
    def keep(self, runs: list[list[list]], more: str = "", *options: str) -> subprocess.Popen[str]:
        """Begins `keep.py` over a program that does these runs."""
        self.plan = self.file("plan", json.dumps(runs))
        self.ledger = self.file("ledger") if not hasattr(self, "ledger") else self.ledger
        settings = self.file("settings.json", SETTINGS % more)
        program = self.file("program", f'#!/bin/sh\nexec {sys.executable} {FAKE} {self.plan} "$@"\n')
        os.chmod(program, 0o755)
        self.kept = self.begin(
            "keep.py", "--wait", "0.1", *options, "--", program, "durable", "serve", settings, self.ledger,
        )
        return self.kept

    def said(self) -> list[str]:
        """What was said up to the end, without the times."""
        output, _ = self.kept.communicate(timeout=30)
        lines = output.splitlines()
        for line in lines:
            self.assertRegex(line, r"^\d{4}-\d\d-\d\d \d\d:\d\d:\d\d ")
        return [line[20:] for line in lines]

    def runs(self) -> list[int]:
        """The processes that were begun."""
        try:
            with open(f"{self.plan}.runs", encoding="utf-8") as file:
                return [int(line) for line in file]
        except FileNotFoundError:
            return []

    def wait_for_runs(self, count: int) -> None:
        last = time.monotonic() + 20
        while len(self.runs()) < count:
            self.assertLess(time.monotonic(), last, f"there were no {count} runs")
            time.sleep(0.05)


def appended(records: list[bytes]) -> list[str]:
    return ["append", *(record.hex() for record in records)]


class Ends(Kept):
    def test_it_is_begun_anew_but_for_what_no_waiting_mends(self) -> None:
        statuses = [0, 4, 5, 6, 7, 8, 10]
        kept = self.keep([[["exit", status]] for status in [*statuses, 9]], ',"fee":7')
        said = self.said()
        self.assertEqual((kept.returncode, len(self.runs())), (9, len(statuses) + 1))
        self.assertEqual([re.match(r"the program ended with (\d+):", line)[1] for line in said],
                         [str(status) for status in [*statuses, 9]])

    def test_each_cause_in_words(self) -> None:
        start = writing.start(fee=3)
        kept = self.keep([[["say", "feed idle-out"], ["exit", 0]], [["exit", 7]],
                          [appended([start]), ["exit", 11]]], ',"ntime_window":600,"credit_limit":100')
        self.assertEqual(self.said(), [
            "the program ended with 0: all sessions are over, and no door is asked any more; the "
            "provider's session ended with idle-out; it is begun anew each 0.1 seconds",
            "the program ended with 7: something couldn't be opened; the provider isn't reached at "
            "127.0.0.1:8442; it is begun anew each 0.1 seconds",
            "the program ended with 11: the ledger isn't of these settings; the ledger was begun with "
            "other settings: fee is 0, and was 3",
        ])
        self.assertEqual(kept.returncode, 11)

    def test_a_cause_that_stays_is_said_once(self) -> None:
        kept = self.keep([[["exit", 7]]] * 4)
        self.assertEqual([line[:24] for line in self.said()],
                         ["the program ended with 7", "the program ended with 2"])
        self.assertEqual(kept.returncode, 2)

    def test_invalid_settings_are_named(self) -> None:
        kept = self.keep([[["exit", 9]]], ',"workers":65')
        self.assertEqual(self.said(), [
            "the program ended with 9: the settings are invalid; settings: workers is 65, and not from "
            "1 to 64",
        ])
        self.assertEqual(kept.returncode, 9)

    def test_a_signal_ends_both(self) -> None:
        for number in (signal.SIGTERM, signal.SIGINT):
            kept = self.keep([[]])
            self.wait_for_runs(1)
            kept.send_signal(number)
            self.assertEqual(self.said(), ["ended"])
            self.assertEqual(kept.returncode, 0)
            with self.assertRaises(ProcessLookupError):
                os.kill(self.runs()[0], 0)
            os.remove(f"{self.plan}.runs")

    def test_other_words_are_refused(self) -> None:
        for words in ((), ("--", "program", "serve", "a", "b"), ("--", "p", "durable", "audit", "a", "b")):
            self.assertEqual(tool("keep.py", *words).returncode, 2)


class Providers(Kept):
    def test_a_pool_whose_provider_has_left_is_begun_anew(self) -> None:
        miner = [writing.enter(1, MINER), writing.opening(1, writing.EXTENDED, b"alice", bytes(4)),
                 writing.enter(2, MINER), writing.opening(2, writing.V1, b"", b"\0\0\0\1"),
                 writing.name(2, 2, b"bob"), writing.credit(1, 1, 1, 0, bytes(8))]
        again = [writing.leave(1), writing.leave(2), writing.enter(0, FEED),
                 writing.template(3, 6, True, 2_000), writing.tip(3, 6)]
        kept = self.keep([
            [appended(begun(1_000)), appended(miner), ["sleep", 1], appended([writing.leave(0)])],
            [["exit", 7]], [["sleep", 0.5], appended(again)],
        ])
        self.wait_for_runs(3)
        time.sleep(1.5)
        kept.terminate()
        said = self.said()
        block = [line for line in said if line.startswith("A BLOCK at height 1 of alice: ")]
        self.assertEqual(len(block), 1)
        self.assertIn("0.00001000 BTC; event 9, which", block[0])
        said.remove(block[0])
        self.assertEqual(said, [
            "the provider is here", "a new tip: blocks at height 1 are mined, for 0.00001000 BTC",
            "a miner of alice is here; 1 miner", "a miner of bob is here; 2 miners",
            "the provider's session is over",
            "THE PROVIDER IS GONE: the program is ended, and begun anew",
            "the program ended with 7: something couldn't be opened; the provider isn't reached at "
            "127.0.0.1:8442; it is begun anew each 0.1 seconds",
            "a miner of alice has left; 1 miner", "a miner of bob has left; 0 miners",
            "the provider is here", "a new tip: blocks at height 1 are mined, for 0.00002000 BTC", "ended",
        ])

    def test_a_leave_of_an_earlier_run_is_none_of_this_one(self) -> None:
        self.ledger = self.file("ledger", writing.durable(begun(1_000)))
        kept = self.keep([[["sleep", 0.4], appended([writing.leave(0)]), ["sleep", 0.4],
                           appended([writing.enter(0, FEED)])]])
        self.wait_for_runs(1)
        time.sleep(1.8)
        kept.terminate()
        self.assertEqual(self.said(), ["the provider's session is over", "the provider is here", "ended"])
        self.assertEqual(len(self.runs()), 1)

    def test_a_provider_that_never_begins_a_session(self) -> None:
        with socket.create_server(("127.0.0.1", 0)) as doors:
            address = f',"address":"127.0.0.1:{doors.getsockname()[1]}"'
            kept = self.keep([[appended([writing.start()])], []], address, "--patience", "0.5")
            self.wait_for_runs(2)
            kept.terminate()
            self.assertEqual(self.said()[0],
                             "THE PROVIDER IS GONE: the program is ended, and begun anew")


class Units(unittest.TestCase):
    def service(self, name: str) -> configparser.SectionProxy:
        unit = configparser.ConfigParser(interpolation=None, strict=False)
        unit.optionxform = str
        unit.read(os.path.join(OPERATE, name))
        return unit["Service"]

    def test_the_units_begin_what_is_there(self) -> None:
        for name in ("maqefwi.service", "maqefwi-node.service", "maqefwi-relay.service"):
            script = self.service(name)["ExecStart"].split()[1].removeprefix("/opt/maqefwi/operate/")
            self.assertTrue(os.path.exists(os.path.join(OPERATE, script)), script)

    def test_the_pools_unit_begins_nothing_anew_that_no_waiting_mends(self) -> None:
        service = self.service("maqefwi.service")
        words = service["ExecStart"].split()
        self.assertEqual(words[2:3] + words[4:], ["--", "durable", "serve", "settings.json", "pool.ledger"])
        self.assertEqual(service["RestartPreventExitStatus"].split(), ["2", "9", "11"])


if __name__ == "__main__":
    unittest.main()
