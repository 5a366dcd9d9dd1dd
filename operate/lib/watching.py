"""What a pool does now, from its ledger alone."""
import os
from dataclasses import asdict, dataclass

from lib.bitcoin import displayed
from lib.events import Enter, Leave, Template, Tip
from lib.following import Follower, Read, is_held
from lib.history import Session
from lib.meter import LONGEST, Meter, Rate

WINDOWS = (60, 600, 3_600)
SHOWN_BLOCKS = 20
MINUTES = 60


@dataclass(slots=True)
class Moment:
    """When something was seen: at this time, or, where it was there before anybody looked, no later."""

    at: float
    exact: bool


class Watch:
    """A ledger that is looked into from time to time."""

    def __init__(self, path: str) -> None:
        self.follower = Follower(path)
        self.meter = Meter()
        self.generation = 0
        self._looked = False
        self._recalled: dict = {}
        self._forget()

    def recall(self, remembered: dict) -> None:
        """Goes on, at the first look, with what an earlier watch of the same ledger knew of times."""
        self._recalled = remembered

    def remember(self) -> dict:
        """What a later watch can go on with, as JSON has it."""
        row = self.follower.ledger.row
        moments = {name: asdict(moment) for name, moment in self._seen.items()}
        blocks = {str(at): asdict(moment) for at, moment in self._blocks_seen.items()}
        return {
            "events": row.count, "head": row.head.hex(), "samples": self.meter.as_json(),
            "seen": moments, "blocks": blocks,
        }

    def look(self, now: float) -> None:
        """Reads what is new."""
        was_first = not self._looked
        try:
            written = os.stat(self.follower.path).st_mtime
        except FileNotFoundError:
            written = now
        moment = Moment(min(now, written), False) if was_first else Moment(now, True)
        for read in self.follower.poll():
            if self.generation != self.follower.generation:
                self._begin_again()
            self._see(read, moment)
        self._looked = self.follower.ledger.row.count > 0 or not was_first
        self.meter.note(now, self.follower.history.accounts)

    def snapshot(self, now: float) -> dict:
        """All that is shown, as JSON has it. Times are seconds since 1970, and ages seconds."""
        history, row = self.follower.history, self.follower.ledger.row
        limit = history.rules.credit_limit if history.rules else None
        return {
            "time": now, "ledger": self.follower.path, "events": row.count, "head": row.head.hex(),
            "pool_runs": is_held(self.follower.path) if self.follower.ledger.durable else None,
            "provider": self._provider(now), "tip": self._tip(now), "template": self._template(now),
            "miners": sum(session.role != "Feed" for session in history.present.values()),
            "measured": self.meter.measured(now), "rates": self._rates(now, history.accounts),
            "minutes": self.meter.minutes(MINUTES),
            "credits": history.credits, "credit_limit": limit, "limit_in": self._limit_in(now, limit),
            "accounts": self._accounts(now),
            "blocks": len(history.blocks), "pool_part": history.pool_part(),
            "last_blocks": self._last_blocks(now),
        }

    def _forget(self) -> None:
        # When what was seen: the provider's coming or going, the tip, the template, and the blocks.
        self._seen: dict[str, Moment] = {}
        self._blocks_seen: dict[int, Moment] = {}

    def _begin_again(self) -> None:
        """The ledger is another one."""
        self.generation = self.follower.generation
        self.meter = Meter()
        self._forget()

    def _see(self, read: Read, moment: Moment) -> None:
        match read.entry.event:
            case Enter() as event if event.role != "Miner":
                self._seen["provider"] = moment
            case Leave() as event if self._is_provider(event.session):
                self._seen["provider"] = moment
            case Template():
                self._seen["template"] = moment
            case Tip():
                self._seen["tip"] = moment
        if read.booked is not None and read.booked.block is not None:
            self._blocks_seen[read.booked.number] = moment
        if read.entry.number + 1 == self._recalled.get("events"):
            self._go_on(read.entry.hash.hex())

    def _is_provider(self, session: int) -> bool:
        return self.follower.history.sessions[session].role != "Miner"

    def _go_on(self, head: str) -> None:
        """Takes what is recalled, where it is of this ledger."""
        if head == self._recalled["head"]:
            self.meter = Meter.from_json(self._recalled["samples"])
            self._seen = {name: Moment(**one) for name, one in self._recalled["seen"].items()}
            blocks = self._recalled["blocks"].items()
            self._blocks_seen = {int(at): Moment(**one) for at, one in blocks}
        self._recalled = {}

    def _provider(self, now: float) -> dict:
        sessions = self.follower.history.present.values()
        here = any(session.role != "Miner" for session in sessions)
        return {"here": here, **seen_words("since", self._seen.get("provider"), now)}

    def _tip(self, now: float) -> dict | None:
        tip = self.follower.history.tip
        if tip is None:
            return None
        seen = seen_words("seen", self._seen.get("tip"), now)
        return {"previous": displayed(tip.prev_hash), "timestamp": tip.timestamp, **seen}

    def _template(self, now: float) -> dict | None:
        job = self.follower.history.newest_job()
        if job is None:
            return None
        seen = seen_words("seen", self._seen.get("template"), now)
        return {"id": job.template_id, "height": job.height, "reward": job.reward, **seen}

    def _rates(self, now: float, accounts: dict) -> dict[str, dict | None]:
        rates = {str(window // 60): self.meter.rate(now, accounts, window) for window in WINDOWS}
        return {window: asdict(rate) if rate else None for window, rate in rates.items()}

    def _limit_in(self, now: float, limit: int | None) -> float | None:
        """In how many seconds the credits reach their limit, as fast as they came in the last hour."""
        rate: Rate | None = self.meter.rate(now, self.follower.history.accounts, LONGEST)
        if limit is None or rate is None or rate.shares == 0:
            return None
        return (limit - self.follower.history.credits) * rate.seconds / rate.shares

    def _accounts(self, now: float) -> list[dict]:
        """All accounts with a credit, and those of miners that are here."""
        history = self.follower.history
        miners = connected(list(history.present.values()))
        owed_now = history.owed_now()
        names = dict.fromkeys([*history.accounts, *sorted(miners)])
        return [
            {
                "name": name, "miners": miners.get(name, 0),
                "credits": account.credits if account else 0, "work": account.work if account else 0,
                "owed": account.balance if account else 0, "of_a_block_now": owed_now.get(name, 0),
                "rates": self._rates(now, {name: account} if account else {}),
            }
            for name, account in ((name, history.accounts.get(name)) for name in names)
        ]

    def _last_blocks(self, now: float) -> list[dict]:
        return [
            {
                "event": block.share.number, "hash": block.hash, "height": block.height,
                "reward": block.reward, "own_job": block.own, "account": block.share.account,
                "time": block.share.time,
                **seen_words("seen", self._blocks_seen.get(block.share.number), now),
            }
            for block in self.follower.history.blocks[:-SHOWN_BLOCKS - 1:-1]
        ]


def seen_words(name: str, moment: Moment | None, now: float) -> dict:
    """When something was seen and how long ago that is; or, where it isn't known exactly, that it was no
    later, and is no younger."""
    if moment is None:
        return {name: None, "age": None, "exact": False}
    return {name: moment.at, "age": max(0.0, now - moment.at), "exact": moment.exact}


def connected(sessions: list[Session]) -> dict[str, int]:
    """By account the sessions of miners that have an open channel for it; by the empty name those
    without an account."""
    miners: dict[str, int] = {}
    for session in sessions:
        if session.role == "Feed":
            continue
        names = {channel.account for channel in session.channels if channel.closed is None} - {""}
        for name in names or {""}:
            miners[name] = miners.get(name, 0) + 1
    return miners
