#!/usr/bin/env python3
"""Writes what a ledger says as one page, for anybody with a browser.

    report.py LEDGER > report.html

The page stands by itself: it asks no network and no library, and its own script computes the chain of
hashes again from the records that it shows. It needs Python 3 alone, and nothing of this pool's
program: what it knows of a ledger, of blocks and of rewards is what docs/POOL.md says. Both formats
are read, and durable ledgers.

A page has each event, of which a credit takes some 93 bytes: 100,000 of them make 9 MB. Beyond
50,000 events they are left out, as with --no-events; --events has them all the same. The head, which
is the hash over all of the ledger, is there in any case. Of sessions, channels and the parts of blocks
the last 20,000 lines are shown; `payouts.py` lists all parts of all blocks.

It doesn't judge whether an event was legal; `audit LEDGER` does. Nothing of it is proved.

Status 0: the page was written. 1: the file couldn't be read. 2: the words are wrong. 3: the bytes are
no ledger, or a hash is wrong; then no page is written.
"""
import argparse
import base64
import json
import os
import sys

from lib.charts import Axis, Chart, Place, bar
from lib.commands import parser_of, status_of
from lib.events import FIELDS, KINDS, NUMBERED
from lib.history import Block, History
from lib.ledger import LedgerFile
from lib.pages import assembled, name_words, table
from lib.words import coin_words, count_words, escaped, time_words

# A chart has so many columns, and so many accounts of their own beside the others.
COLUMNS = 60
BLOCK_COLUMNS = 120
SHOWN_ACCOUNTS = 8
# The most lines of a table, and the most events of a page that isn't asked to have them.
LINE_LIMIT = 20_000
EVENT_LIMIT = 50_000
OWN_JOB = '<span class="warning">a miner\'s own job: the reward is that miner\'s word alone</span>'


class Report:
    """What a ledger says, and the parts of a page that show it."""

    def __init__(self, ledger: LedgerFile) -> None:
        self.history = History()
        self.times: list[Place] = []
        self.credits: list[tuple[Place, str, int]] = []
        for booked in self.history.tell_all(ledger.all_entries()):
            place = Place(booked.number, booked.time)
            self.times.append(place)
            self.credits.append((place, booked.account, booked.work))
        self.axis = Axis(self.times)

    def summary(self) -> str:
        history = self.history
        owed = sum(account.balance for account in history.accounts.values())
        lines = [
            ("events", count_words(history.events)), ("sessions", count_words(len(history.sessions))),
            ("channels", count_words(len(history.channels))), ("credits", count_words(history.credits)),
            ("blocks", count_words(len(history.blocks))),
            ("accounts", count_words(len(history.accounts))),
            ("satoshis owed", count_words(owed)), ("BTC owed", coin_words(owed)),
            ("satoshis that stay with the pool", count_words(history.pool_part())),
        ]
        cards = "".join(f"<div><dt>{word}</dt><dd>{count}</dd></div>" for word, count in lines)
        return f"<dl>{cards}</dl>{self._rule_words()}"

    def _rule_words(self) -> str:
        rules = self.history.rules
        if rules is None:
            return ""
        window = f" with a window of {count_words(rules.window)}" if rules.window else ""
        return (
            f"<p>The rule is {rules.rule}{window}, and the fee {rules.fee / 100:.2f} percent of each "
            f"reward. The pool pays nobody by itself: what is shown is owed by this ledger.</p>"
        )

    def accounts(self) -> str:
        accounts = self.history.accounts
        work = max((account.work for account in accounts.values()), default=0)
        balance = max((account.balance for account in accounts.values()), default=0)
        rows = [
            [
                name_words(name), count_words(account.credits),
                count_words(account.work) + bar(account.work, work, 0),
                count_words(account.balance) + bar(account.balance, balance, 1),
                coin_words(account.balance),
            ]
            for name, account in accounts.items()
        ]
        heads = ("account", "credits>", "work>", "owed, satoshis>", "owed, BTC>")
        return "<p>In the order of their first credits.</p>" + table("accounts", heads, rows)

    def blocks(self) -> str:
        blocks = self.history.blocks
        if not blocks:
            return "<p>There are none.</p>"
        names = {1: "owed to accounts", 2: "the pool's part"}
        chart = Chart(self.axis, BLOCK_COLUMNS, "Rewards in satoshis", names)
        for block in blocks:
            place = Place(block.share.number, block.share.time)
            chart.add(place, 1, block.owed())
            chart.add(place, 2, block.pool_part())
        heads = (
            "event", "height>", "hash", "time of its header, UTC", "found by", "reward, BTC>",
            "owed, satoshis>", "pool's part, satoshis>",
        )
        return chart.page_part() + table("blocks", heads, [block_row(block) for block in blocks])

    def parts(self) -> str:
        blocks = self.history.blocks
        if not blocks:
            return "<p>There are none.</p>"
        rows = [row for block in reversed(blocks) for row in part_rows(block)]
        heads = (
            "event", "height>", "account", "weight>", "part>", "owed, satoshis>", "owed, BTC>",
        )
        return (
            "<p>The last block first, and of each its accounts in the order of their first credits. "
            "The weight is the work that counts for the block by the rule.</p>"
            + table("parts", heads, rows, LINE_LIMIT, "an account")
        )

    def work(self) -> str:
        if not self.credits:
            return "<p>There are none.</p>"
        accounts = self.history.accounts
        by_work = sorted(accounts, key=lambda name: -accounts[name].work)
        names = dict(enumerate(by_work[:SHOWN_ACCOUNTS]))
        colours = {name: colour for colour, name in names.items()}
        if len(by_work) > SHOWN_ACCOUNTS:
            names[SHOWN_ACCOUNTS] = f"{count_words(len(by_work) - SHOWN_ACCOUNTS)} others"
        chart = Chart(self.axis, COLUMNS, "Work by account", names)
        for place, account, work in self.credits:
            chart.add(place, colours.get(account, SHOWN_ACCOUNTS), work)
        return chart.page_part()

    def sessions(self) -> str:
        rows = [
            [
                str(session.number), str(session.worker), session.role, link(session.entered),
                link(session.left), count_words(len(session.channels)), count_words(session.credits),
            ]
            for session in self.history.sessions
        ]
        heads = ("session>", "worker>", "role", "Enter>", "Leave>", "channels>", "credits>")
        return table("sessions", heads, rows[::-1], LINE_LIMIT)

    def channels(self) -> str:
        rows = [
            [
                str(channel.number), str(channel.session), channel.kind, name_words(channel.account),
                channel.lead.hex(), str(channel.class_), link(channel.opened), link(channel.closed),
                count_words(channel.credits), count_words(channel.work),
            ]
            for channel in self.history.channels
        ]
        heads = (
            "channel>", "session>", "kind", "account", "lead", "class>", "Open>", "end>", "credits>",
            "work>",
        )
        return table("channels", heads, rows[::-1], LINE_LIMIT)


def link(number: int | None) -> str:
    """An event's number, which shows the event."""
    return "" if number is None else f'<a href="#event-{number}">{number}</a>'


def height_words(height: int | None) -> str:
    return "unknown" if height is None else str(height)


def block_row(block: Block) -> list[str]:
    share, count = block.share, len(block.payouts)
    return [
        link(share.number), height_words(block.height),
        f'<span class="hash">{block.hash}</span>{OWN_JOB if block.own else ""}',
        time_words(share.time), name_words(share.account), coin_words(block.reward),
        f"{count_words(block.owed())}<br>to {count_words(count)} account{'s' if count > 1 else ''}",
        count_words(block.pool_part()),
    ]


def part_rows(block: Block) -> list[list[str]]:
    whole = sum(block.weights.values())
    return [
        [
            link(block.share.number), height_words(block.height), name_words(name),
            count_words(block.weights[name]), f"{100 * block.weights[name] / whole:.2f}%",
            count_words(payout), coin_words(payout),
        ]
        for name, payout in block.payouts.items()
    ]


def kinds_as_json() -> str:
    """The fields of each kind of event, by which the page's script puts records into words."""
    kinds = [
        {
            "name": kind.__name__,
            "fields": [[name, wire.name, wire.choices] for _, name, wire in FIELDS[kind]],
            "numbers": [[what, first] for what, kinds, first in NUMBERED if kind in kinds],
        }
        for kind in KINDS
    ]
    return json.dumps(kinds)


def head_words(ledger: LedgerFile) -> str:
    row = ledger.row
    if row.format == 1:
        return "This ledger is of format 1, which has no hashes."
    return (
        f"The head, which is the hash behind the last of {count_words(row.count)} events, is "
        f'<span class="hash">{row.head.hex()}</span>. Compare it with the head of a copy: a ledger '
        f"whose end was cut off has another."
    )


def page_of(ledger: LedgerFile, has_events: bool | None) -> str:
    """The page of a ledger, with its events, or without, or with those of a small one alone."""
    report = Report(ledger)
    if has_events is None:
        has_events = ledger.row.count <= EVENT_LIMIT
    return assembled("report.html", {
        "NAME": escaped(os.path.basename(ledger.path)), "HEAD": head_words(ledger),
        "SUMMARY": report.summary(), "ACCOUNTS": report.accounts(), "BLOCKS": report.blocks(),
        "PARTS": report.parts(), "CREDITS": report.work(), "SESSIONS": report.sessions(),
        "CHANNELS": report.channels(), "KINDS": kinds_as_json(),
        "LEDGER": base64.b64encode(ledger.content()).decode("ascii") if has_events else "",
    })


def write_page(words: argparse.Namespace) -> None:
    page = page_of(LedgerFile(words.ledger), words.events)
    sys.stdout.buffer.write(page.encode("utf-8"))


def main() -> int:
    parser = parser_of(__doc__)
    parser.add_argument("ledger", metavar="LEDGER", help="the ledger's file, of either form")
    parser.add_argument(
        "--events", action=argparse.BooleanOptionalAction,
        help=f"have each event, or none; without it those of at most {EVENT_LIMIT:,}",
    )
    words = parser.parse_args()
    return status_of(lambda: write_page(words))


if __name__ == "__main__":
    sys.exit(main())
