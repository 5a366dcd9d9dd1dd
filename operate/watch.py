#!/usr/bin/env python3
"""Shows what a pool does now, from its ledger alone, reading only what is new.

    watch.py LEDGER                              a line a second
    watch.py LEDGER --serve 8080                 a page at http://127.0.0.1:8080/ that renews itself
    watch.py LEDGER --once --json --state FILE   one look, for monitoring

It shows whether the provider is here, the miners and accounts that are connected, shares and hash rate
over 1, 10 and 60 minutes, the tip's and the template's age, blocks, how far credits are from their
limit, and what each account would get of a block that is found now (of which the share that finds it
would count too).

Times are those of its own clock, since a ledger has none but those that miners choose. So rates are
counted from when it was begun, and of what was in the ledger before it says no more than that it is no
younger than the file. With --state it keeps what it knows of times in FILE, and the next one goes on
with it: so rates are known to a monitor that looks once a minute.

The page is for this machine alone: an address of others wants --to-anybody. It says what the ledger
says, to everybody who asks; /now.json has the same as JSON.

Whether the pool runs is known of a durable ledger, which a pool locks. Nothing of this is proved.

Status 0: it was ended, or --once looked. 1: a file couldn't be read, or the page's address isn't free.
2: the words are wrong. 3: the bytes are no ledger, or a hash is wrong.
"""
import argparse
import ipaddress
import json
import os
import sys
import time

from lib.board import Board, serve_page
from lib.commands import parser_of, status_of
from lib.watching import Watch
from lib.words import coin_words, count_words, duration_words, rate_words, time_words


def rates_words(rates: dict) -> str:
    """Hash rates over the three spans, where they are known."""
    known = [
        f"{rate_words(rate['hashes'])} ({window} min)" for window, rate in rates.items() if rate
    ]
    return " ".join(known) or "no rate yet"


def age_words(seen: dict) -> str:
    age = duration_words(seen["age"])
    return age if seen["exact"] else f"{age} or more"


def provider_words(now: dict) -> str:
    provider = now["provider"]
    # A pool that was killed has left nobody's leaving in its ledger.
    stopped = "THE POOL DOESN'T RUN" if now["pool_runs"] is False else ""
    if provider["here"]:
        return stopped or "provider here"
    words = "provider NOT HERE YET"
    if provider["since"] is not None:
        by = "since" if provider["exact"] else "since before"
        words = f"provider GONE {by} {time_words(provider['since'])}"
    return f"{stopped}, {words}" if stopped else words


def credits_words(now: dict) -> str:
    words = f"{count_words(now['credits'])} of {count_words(now['credit_limit'] or 0)} credits"
    if now["limit_in"] is not None:
        words += f", full in {duration_words(now['limit_in'])}"
    return words


def line_of(now: dict) -> str:
    """All of it in one line."""
    if now["events"] == 0:
        return f"{time_words(now['time'])} no ledger yet"
    accounts = sum(account["miners"] > 0 for account in now["accounts"] if account["name"])
    parts = [
        provider_words(now),
        f"{now['miners']} miners of {accounts} accounts", rates_words(now["rates"]),
        f"tip {age_words(now['tip'])}" if now["tip"] else "no tip",
        f"template {age_words(now['template'])}" if now["template"] else "no template",
        f"{count_words(now['blocks'])} blocks", credits_words(now),
        f"{coin_words(sum(account['owed'] for account in now['accounts']))} BTC owed",
    ]
    return f"{time_words(now['time'])} {', '.join(parts)}"


def recall(watch: Watch, state: str | None) -> None:
    if state is None:
        return
    try:
        with open(state, encoding="utf-8") as file:
            watch.recall(json.load(file))
    except (FileNotFoundError, ValueError):
        return


def remember(watch: Watch, state: str | None) -> None:
    if state is None:
        return
    # Whoever reads it finds all of it, also where this is ended meanwhile.
    with open(f"{state}.new", "w", encoding="utf-8") as file:
        json.dump(watch.remember(), file)
    os.replace(f"{state}.new", state)


def run(words: argparse.Namespace) -> None:
    watch, board = Watch(words.ledger), Board()
    recall(watch, words.state)
    if words.serve is not None:
        print(f"the page is at {serve_page(board, *words.serve)}", flush=True)
    while True:
        now = time.time()
        watch.look(now)
        snapshot = watch.snapshot(now)
        board.show(snapshot)
        if words.serve is None:
            print(json.dumps(snapshot) if words.json else line_of(snapshot), flush=True)
        remember(watch, words.state)
        if words.once:
            return
        time.sleep(words.every)


def address_in(text: str) -> tuple[str, int]:
    host, _, port = text.rpartition(":")
    if not (port.isascii() and port.isdigit() and int(port) < 65_536):
        raise argparse.ArgumentTypeError(f"{text} is no port, nor an address with one")
    return host.strip("[]") or "127.0.0.1", int(port)


def is_loopback(host: str) -> bool:
    try:
        return ipaddress.ip_address(host).is_loopback
    except ValueError:
        return host == "localhost"


def main() -> int:
    parser = parser_of(__doc__)
    parser.add_argument("ledger", metavar="LEDGER", help="the ledger's file, of either form")
    parser.add_argument("--once", action="store_true", help="look once, and end")
    parser.add_argument("--json", action="store_true", help="say all of it as a line of JSON")
    parser.add_argument("--every", type=float, default=1.0, metavar="SECONDS", help="how often it looks")
    parser.add_argument("--state", metavar="FILE", help="keep what it knows of times in this file")
    parser.add_argument(
        "--serve", type=address_in, metavar="[HOST:]PORT", help="serve a page there, and print no lines",
    )
    parser.add_argument(
        "--to-anybody", action="store_true", help="let the page's address be another than a loopback one",
    )
    words = parser.parse_args()
    if words.serve and not (words.to_anybody or is_loopback(words.serve[0])):
        parser.error(f"{words.serve[0]} is an address of others: they would see the page (--to-anybody)")
    return status_of(lambda: run(words))


if __name__ == "__main__":
    sys.exit(main())
