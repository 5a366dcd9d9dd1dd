"""How the tools show numbers, times and names."""
import html
import time

from lib.bitcoin import SATOSHIS

RATES = ("H/s", "kH/s", "MH/s", "GH/s", "TH/s", "PH/s", "EH/s", "ZH/s")
UNITS = ((86_400, "d"), (3_600, "h"), (60, "min"), (1, "s"))


def count_words(number: int) -> str:
    return f"{number:,}"


def coin_words(satoshis: int) -> str:
    """An amount in BTC."""
    sign = "-" if satoshis < 0 else ""
    return f"{sign}{abs(satoshis) // SATOSHIS:,}.{abs(satoshis) % SATOSHIS:08d}"


def time_words(at: float) -> str:
    return time.strftime("%Y-%m-%d %H:%M:%S", time.gmtime(at))


def rate_words(rate: float) -> str:
    """A hash rate, with three digits and the unit that they want."""
    place = 0
    while rate >= 999.5 and place + 1 < len(RATES):
        rate /= 1000
        place += 1
    digits = 0 if rate >= 99.95 or place == 0 else 1 if rate >= 9.995 else 2
    return f"{rate:.{digits}f} {RATES[place]}"


def duration_words(seconds: float) -> str:
    """A span of time in its two greatest units."""
    left = max(0, int(seconds))
    parts: list[str] = []
    for size, unit in UNITS:
        if left >= size or (size == 1 and not parts):
            parts.append(f"{left // size} {unit}")
            left %= size
    return " ".join(parts[:2])


def escaped(text: object) -> str:
    return html.escape(str(text))
