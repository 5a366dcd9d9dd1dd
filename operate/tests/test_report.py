"""The page that `report.py` makes of a ledger."""
import base64
import json
import os
import re
import shutil
import subprocess
import unittest
from unittest import mock

import report
from lib.ledger import LedgerFile
from tests import writing
from tests.support import WORKED, WithFolder, begun, double_hash, header_of, tool

CHROMIUM = shutil.which("chromium")


def rows_of(page: str, name: str) -> list[list[str]]:
    """The rows of a table of the page."""
    found = re.search(f'id="{name}".*?<script type="application/json">(.*?)</script>', page, re.DOTALL)
    return json.loads(found[1])


class Pages(WithFolder):
    def page(self, *words: str) -> str:
        done = tool("report.py", *words)
        self.assertEqual((done.returncode, done.stderr), (0, ""))
        return done.stdout

    def test_what_is_owed_stands_with_its_blocks(self) -> None:
        page = self.page(WORKED)
        with open(WORKED, "rb") as file:
            content = file.read()
        self.assertEqual(rows_of(page, "parts"), [[
            '<a href="#event-5">5</a>', "1", '<span class="name">a</span>', "1", "100.00%", "990",
            "0.00000990",
        ]])
        hash_ = double_hash(header_of(1_000, bytes(12), 0))[::-1].hex()
        block = rows_of(page, "blocks")[0]
        self.assertEqual(block[:2] + block[3:6], [
            '<a href="#event-5">5</a>', "1", "1970-01-12 13:46:40", '<span class="name">a</span>',
            "0.00001000",
        ])
        self.assertEqual(block[2], f'<span class="hash">{hash_}</span>')
        for words in ("<dt>BTC owed</dt><dd>0.00000990</dd>",
                      f'<span class="hash">{content[-32:].hex()}</span>'):
            self.assertTrue(words in page, words)
        self.assertFalse("paid" in page)

    def test_each_event_is_there_unless_it_is_asked_not_to(self) -> None:
        with open(WORKED, "rb") as file:
            content = base64.b64encode(file.read()).decode()
        for words, is_there in (((WORKED,), True), ((WORKED, "--no-events"), False)):
            page = self.page(*words)
            self.assertEqual(content in page, is_there)

    def test_of_a_large_ledger_events_and_older_lines_are_left_out(self) -> None:
        path = self.file("ledger", writing.plain([writing.start()] + [writing.enter(1, 0)] * 5))
        with mock.patch("report.EVENT_LIMIT", 5), mock.patch("report.LINE_LIMIT", 3):
            page = report.page_of(LedgerFile(path), None)
            with_events = report.page_of(LedgerFile(path), True)
        self.assertTrue('id="ledger"></script>' in page)
        self.assertTrue("2 older lines are left out" in page)
        self.assertEqual([row[0] for row in rows_of(page, "sessions")], ["4", "3", "2"])
        self.assertFalse('id="ledger"></script>' in with_events)

    def test_a_block_on_a_miners_own_job_is_marked(self) -> None:
        records = [
            writing.start(), writing.enter(0, writing.SOLO, 2),
            writing.opening(0, writing.EXTENDED, b"<i>&", bytes(4)), writing.template(0, 5, True, 1_000),
            writing.tip(0, 5), writing.grant(0, b"<i>&"), writing.custom(0, 1, 1, 9 * 10**11),
            writing.credit(0, 1, 2, 1, bytes(8)),
        ]
        page = self.page(self.file("ledger", writing.durable(records)))
        row = rows_of(page, "blocks")[0]
        self.assertIn("a miner's own job", row[2])
        self.assertEqual(row[4:6], ['<span class="name">&lt;i&gt;&amp;</span>', "9,000.00000000"])

    def test_no_page_is_made_of_what_is_no_ledger(self) -> None:
        for status, words in (
            (1, [os.path.join(self.folder, "nothing")]), (2, []), (3, [self.file("other", b"abc")]),
            (3, [self.file("illegal", writing.plain(begun(1) + [writing.close(0, 1)]))]),
        ):
            done = tool("report.py", *words)
            self.assertEqual((done.returncode, done.stdout), (status, ""))

    @unittest.skipUnless(CHROMIUM, "there is no browser (chromium) to open the page with")
    def test_the_pages_script_computes_the_chain_and_says_each_event(self) -> None:
        records = begun(1_000, users=[b"a"]) + [
            writing.enter(1, 0, 2), writing.opening(1, 1, b"a", bytes(4)),
            writing.credit(1, 1, 1, 2**32 - 1, bytes(8)), writing.class_set(1, 1, 9),
            writing.grant(1, b"a", 1, [b"\x33" * 32]), writing.leave(1),
        ]
        ledger = self.file("ledger", writing.durable(records))
        page = self.file("page.html", self.page(ledger))
        shown = subprocess.run(
            [CHROMIUM, "--headless", "--no-sandbox", "--disable-gpu", "--virtual-time-budget=5000",
             f"--user-data-dir={self.folder}/browser", "--dump-dom", f"file://{page}"],
            capture_output=True, text=True, timeout=60, check=False,
        ).stdout
        self.assertTrue("The chain of hashes holds" in shown)
        lines = tool("read-ledger.py", ledger).stdout.splitlines()[1:-1]
        self.assertEqual(len(lines), len(records))
        for line in lines:
            words = line.split(": ", 1)[1]
            self.assertTrue(f">{words}</td>" in shown, words)


if __name__ == "__main__":
    unittest.main()
