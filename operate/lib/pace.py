"""How hard a miner's shares should be for it to have so many a minute."""
import math

# A rate is known by so many shares, or after so many seconds; and not within the first ones.
ENOUGH = 20
LONG = 120.0
SHORT = 2.0


class Pace:
    """Measures a miner by the shares that were credited, and says which difficulty to ask for."""

    def __init__(self, a_minute: float, now: float) -> None:
        self.a_minute = a_minute
        self._asked = 0
        self._begin(now)

    def share(self, difficulty: float) -> None:
        """A share of a job of this difficulty was credited."""
        self._shares += 1
        self._work += difficulty

    def wish(self, now: float, difficulty: float) -> int | None:
        """Which difficulty to ask for, where the present one is wrong by half or more: a power of two,
        as the pool gives them. It isn't asked for twice in a row."""
        seconds = now - self._since
        if seconds < SHORT or (self._shares < ENOUGH and seconds < LONG):
            return None
        wanted = self._work / seconds * 60 / self.a_minute
        if self._shares == 0:
            # Nothing says how far off it is.
            wanted = difficulty / 4
        self._begin(now)
        nearest = 2 ** max(0, round(math.log2(max(wanted, 1.0))))
        if difficulty / 2 < wanted < difficulty * 2 or nearest in (difficulty, self._asked):
            return None
        self._asked = nearest
        return nearest

    def _begin(self, now: float) -> None:
        self._since = now
        self._shares = 0
        self._work = 0.0
