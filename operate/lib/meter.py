"""Hash rates, by the clock of who looks: a ledger has no times but those that miners choose."""
from bisect import bisect_right
from collections.abc import Mapping
from dataclasses import dataclass

from lib.history import Account

LONGEST = 3_600.0
# Between two samples pass so many seconds at least.
STEP = 5.0

# Each account's credits and work so far.
Sums = dict[str, tuple[int, int]]


@dataclass(slots=True)
class Rate:
    """What came in a span of time: the seconds that it has, shares, and hashes a second."""

    seconds: float
    shares: int
    hashes: float


class Meter:
    """Samples of what each account has, over the last hour."""

    def __init__(self) -> None:
        self._samples: list[tuple[float, Sums]] = []

    def note(self, now: float, accounts: Mapping[str, Account]) -> None:
        """Takes a sample, where the last one isn't too young."""
        if self._samples and now < self._samples[-1][0] + STEP:
            return
        sums = {name: (account.credits, account.work) for name, account in accounts.items()}
        self._samples.append((now, sums))
        while len(self._samples) > 1 and self._samples[1][0] <= now - LONGEST:
            del self._samples[0]

    def measured(self, now: float) -> float:
        """Over how many seconds there are samples."""
        return now - self._samples[0][0] if self._samples else 0.0

    def rate(self, now: float, accounts: Mapping[str, Account], window: float) -> Rate | None:
        """What came in the last so many seconds, or since the first sample where that is less; of all
        these accounts together. None where nothing was measured yet."""
        base = self._sample_at(now - window)
        if base is None or now <= base[0]:
            return None
        shares = work = 0
        for name, account in accounts.items():
            credits_before, work_before = base[1].get(name, (0, 0))
            shares += account.credits - credits_before
            work += account.work - work_before
        return Rate(now - base[0], shares, work / (now - base[0]))

    def minutes(self, count: int) -> list[float]:
        """The hash rate of all accounts in each of the last so many minutes, the last one last; fewer
        where fewer were measured."""
        rates: list[float] = []
        if not self._samples:
            return rates
        end, sums = self._samples[-1]
        after = sum(work for _, work in sums.values())
        while len(rates) < count and end > self._samples[0][0]:
            begin, sums = self._sample_at(end - 60) or self._samples[0]
            before = sum(work for _, work in sums.values())
            rates.append((after - before) / (end - begin))
            end, after = begin, before
        return rates[::-1]

    def as_json(self) -> list:
        return [[at, sums] for at, sums in self._samples]

    @classmethod
    def from_json(cls, samples: list) -> "Meter":
        meter = cls()
        for at, sums in samples:
            sums = {name: (credits, work) for name, (credits, work) in sums.items()}
            meter._samples.append((at, sums))
        return meter

    def _sample_at(self, at: float) -> tuple[float, Sums] | None:
        """The youngest sample that is no younger than this, or else the oldest."""
        place = bisect_right(self._samples, at, key=lambda sample: sample[0])
        return self._samples[max(0, place - 1)] if self._samples else None
