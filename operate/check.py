#!/usr/bin/env python3
"""Says what a pool's silence would mean, before it is begun with `durable serve SETTINGS LEDGER`.

    check.py settings.json pool.ledger
    check.py settings.json pool.ledger --hash-rate 2P --smallest 1T --months 12

It looks at what the program's statuses 7, 9 and 11 come from, and gives each cause in words: which key
of the settings is wrong and why; whether the ledger goes on with these settings, and which key differs;
whether the address is free, the descriptors suffice, and the provider answers. Nothing is changed. The
provider is dialled, unless --no-dial is said: `feed` serves its first caller alone.

With a hash rate it says how long the ledger's credits last, and which least_class to choose: one that
lets them last for --months, and at which the smallest miner still has a share now and then. Rates are
numbers with k, M, G, T, P or E: 200T is one S21.

Whether the ledger's events are legal it doesn't judge; `durable audit` does, of a copy.

Status 0: nothing was found that keeps the pool from beginning. 2: the words are wrong. 3: something
was, and each line of it begins with the status that the program would end with.
"""
import argparse
import sys

from lib.checking import (
    Found, check_address, check_descriptors, check_ledger, check_provider, read_settings,
)
from lib.commands import parser_of, status_of
from lib.lasting import MONTH, Lasting, least_class_for
from lib.settings import Settings
from lib.words import count_words, duration_words, rate_words

EXAMPLE_SCRIPT = "0014751e76e8199196d454941c45d1b3a323f1433bd6"
UNITS = {"": 1, "k": 10**3, "M": 10**6, "G": 10**9, "T": 10**12, "P": 10**15, "E": 10**18}
TURNS_A_SECOND = 10


def rate_in(text: str) -> float:
    """The hash rate that is said, as 200T or 1.5PH/s."""
    number = text.removesuffix("/s").removesuffix("H")
    unit = number[-1:] if number[-1:] in UNITS else ""
    try:
        rate = float(number.removesuffix(unit)) * UNITS[unit]
    except ValueError:
        raise argparse.ArgumentTypeError(f"{text} is no hash rate, as 200T is") from None
    if not 0 < rate < 1e30:
        raise argparse.ArgumentTypeError(f"{text} is no hash rate of miners")
    return rate


def advice(settings: Settings) -> list[str]:
    """What is no mistake to the program, and may be one of the operator's."""
    notes = []
    if settings.pool_script.lower() == EXAMPLE_SCRIPT:
        notes.append("pool_script is that of the examples, whose key everybody knows: put your own")
    days = 86_400 * TURNS_A_SECOND
    if settings.door_turns < 7 * days:
        hours = duration_words(settings.door_turns / TURNS_A_SECOND)
        notes.append(f"a door to which nobody came for {hours} (door_turns) opens no more")
    if settings.users:
        notes.append(f"only {count_words(len(settings.users))} accounts may mine (users), for good")
    if settings.address.startswith(("127.", "localhost", "[::1]")):
        notes.append(f"only miners on this machine reach {settings.address}")
    return notes


def lasting_words(settings: Settings, used: int, words: argparse.Namespace) -> list[str]:
    """How long the credits last, and which least_class to choose."""
    lasting = Lasting(settings.credit_limit - used, words.hash_rate)
    at = settings.least_class
    lines = [
        f"{count_words(lasting.credits)} credits are left; at {rate_words(words.hash_rate)}, and if all "
        f"mine at least_class {at}, they last {duration_words(lasting.seconds(at))}"
    ]
    best = least_class_for(lasting, words.months)
    if lasting.seconds(best) < words.months * MONTH:
        return lines + [f"no least_class lets them last for {words.months:g} months"]
    lines.append(
        f"for {words.months:g} months least_class has to be {best} (difficulty 2^{best - 32}), where "
        f"they last {duration_words(lasting.seconds(best))}"
    )
    if words.smallest:
        seconds = 2**best / words.smallest
        lines.append(
            f"a miner of {rate_words(words.smallest)} then has a share each {duration_words(seconds)}"
        )
    return lines


def check(words: argparse.Namespace) -> int:
    found = Found()
    settings = read_settings(words.settings, found)
    history = check_ledger(words.ledger, settings, found)
    if settings is not None:
        check_address(settings, found)
        check_descriptors(settings, found)
        if words.dial:
            check_provider(settings, found)
    for line in found.well:
        print(f"well: {line}")
    for line in advice(settings) if settings else []:
        print(f"note: {line}")
    if settings is not None and words.hash_rate:
        for line in lasting_words(settings, history.credits if history else 0, words):
            print(f"note: {line}")
    for status, line in found.causes:
        print(f"{status}: {line}")
    return 3 if found.causes else 0


def main() -> int:
    parser = parser_of(__doc__)
    parser.add_argument("settings", metavar="SETTINGS", help="the settings' file")
    parser.add_argument("ledger", metavar="LEDGER", help="the durable ledger's file")
    parser.add_argument("--no-dial", dest="dial", action="store_false", help="leave the provider alone")
    parser.add_argument("--hash-rate", type=rate_in, metavar="RATE", help="of all miners together")
    parser.add_argument("--smallest", type=rate_in, metavar="RATE", help="of the smallest miner")
    parser.add_argument(
        "--months", type=float, default=12.0, help="how long the ledger should last (12)",
    )
    words = parser.parse_args()
    return status_of(lambda: check(words))


if __name__ == "__main__":
    sys.exit(main())
