"""What the events of a ledger say together: who is there, which shares are blocks, what is owed.

The rules are those of docs/POOL.md. An event is taken as it stands: whether it was legal isn't judged
(`audit` does), but one that is about something which no event before it made is refused.
"""
import hashlib
from collections import deque
from collections.abc import Iterable, Iterator
from dataclasses import dataclass, field

from lib.bitcoin import (
    COMMITMENT, compact_size, displayed, double_hash, header, height_in, little, meets, outputs_in,
    root_from, with_witness,
)
from lib.events import (
    Class, Close, Credit, Custom, Enter, Event, Leave, Name, Open, Start, Template, Tip,
)
from lib.ledger import Defect, Entry, LedgerFile

STANDARD_ROLLED = bytes(8)


class Job:
    """A template's or a miner's own job: its coinbase without the extranonce, path and reward.

    Own jobs are those that a miner proposed; they have no template's id, and nobody but their miner
    says what their blocks bring.
    """

    def __init__(self, number: int, place: int, said: Template | Custom, script: bytes) -> None:
        outputs = outputs_in(said.outputs)
        self.number = number
        self.since = place
        self.own = isinstance(said, Custom)
        self.template_id = said.template_id if isinstance(said, Template) else None
        self.version = said.version
        self.path = said.path
        self.height = height_in(said.coinbase_prefix)
        self.reward = sum(value for value, _ in outputs)
        if isinstance(said, Template):
            outputs.insert(0, (said.value, script))
            self.reward = said.value
        self.commits = any(one.startswith(COMMITMENT) for _, one in outputs)
        self.prefix = (
            little(said.coinbase_version, 4) + b"\x01" + bytes(32) + b"\xff" * 4
            + bytes([12 + len(said.coinbase_prefix)]) + said.coinbase_prefix
        )
        written = (little(value, 8) + compact_size(len(one)) + one for value, one in outputs)
        self.suffix = (
            little(said.input_sequence, 4) + compact_size(len(outputs)) + b"".join(written)
            + little(said.lock_time, 4)
        )
        self._begun = hashlib.sha256(self.prefix)

    def coinbase(self, extranonce: bytes) -> bytes:
        """The coinbase as it stands in a block."""
        plain = self.prefix + extranonce + self.suffix
        return with_witness(plain) if self.commits else plain

    def root(self, extranonce: bytes) -> bytes:
        begun = self._begun.copy()
        begun.update(extranonce + self.suffix)
        return root_from(hashlib.sha256(begun.digest()).digest(), self.path)


@dataclass(slots=True)
class Session:
    number: int
    worker: int
    role: str
    entered: int
    left: int | None = None
    channels: list["Channel"] = field(default_factory=list)
    credits: int = 0


@dataclass(slots=True)
class Channel:
    """A channel, from its Open to its Close or its session's Leave."""

    number: int
    session: int
    kind: str
    account: str
    lead: bytes
    opened: int
    # The places at which its class was set, and the classes.
    classes: list[tuple[int, int]]
    closed: int | None = None
    credits: int = 0
    work: int = 0

    @property
    def class_(self) -> int:
        return self.classes[-1][1]

    def class_at(self, job: Job) -> int:
        """The class of the last event that set one before the job was live, or the opening's."""
        for place, value in reversed(self.classes):
            if place < job.since:
                return value
        return self.classes[0][1]

    def extranonce(self, rolled: bytes) -> bytes:
        return self.lead + (STANDARD_ROLLED if self.kind == "standard" else rolled)


@dataclass(slots=True)
class Account:
    credits: int = 0
    work: int = 0
    balance: int = 0


@dataclass(slots=True)
class Booked:
    """A credit with what it was booked for, and its block where it is one."""

    number: int
    account: str
    channel: Channel
    job: Job
    class_: int
    time: int
    header: bytes
    hash: bytes
    extranonce: bytes
    block: "Block | None" = None

    @property
    def work(self) -> int:
        return 1 << self.class_


@dataclass(slots=True)
class Block:
    """A share that is a block, and what came of its reward: what its accounts' credits weigh in it, and
    what each of them is owed."""

    share: Booked
    weights: dict[str, int]
    payouts: dict[str, int]

    @property
    def hash(self) -> str:
        return displayed(self.share.hash)

    @property
    def height(self) -> int | None:
        return self.share.job.height

    @property
    def reward(self) -> int:
        return self.share.job.reward

    @property
    def own(self) -> bool:
        """Whether its job was a miner's own."""
        return self.share.job.own

    def owed(self) -> int:
        return sum(self.payouts.values())

    def pool_part(self) -> int:
        return self.reward - self.owed()


class Weights:
    """What each account's credits weigh at a block, whose own credit is the last one."""

    def __init__(self, window: int | None) -> None:
        self.window = window
        self._credits: deque[tuple[str, int]] = deque()
        self._sums: dict[str, int] = {}
        self._sum = 0

    def add(self, account: str, work: int) -> None:
        self._sums[account] = self._sums.get(account, 0) + work
        self._sum += work
        if self.window is None:
            return
        self._credits.append((account, work))
        # A credit none of which is among the last units of work.
        while self._sum - self._credits[0][1] >= self.window:
            old, gone = self._credits.popleft()
            self._sum -= gone
            self._sums[old] -= gone
            if self._sums[old] == 0:
                del self._sums[old]

    def now(self) -> dict[str, int]:
        """Each account's weight; of the oldest credit in the window what is left of it."""
        sums = dict(self._sums)
        if self.window is not None and self._sum > self.window:
            sums[self._credits[0][0]] -= self._sum - self.window
        return {account: weight for account, weight in sums.items() if weight}

    def settled(self) -> None:
        """A block ends a round of the proportional rule."""
        if self.window is None:
            self._sums, self._sum = {}, 0


def quotients(reward: int, fee: int, weights: dict[str, int]) -> dict[str, int]:
    """What each weight gets of a reward, behind a fee in basis points."""
    shared = reward - reward * fee // 10_000
    whole = sum(weights.values())
    return {account: shared * weight // whole for account, weight in weights.items()}


class NotThere(Exception):
    """An event is about something that no event before it made."""


def numbered(items: list, number: int):
    """The item with a number, from 1."""
    if number == 0:
        raise NotThere
    return items[number - 1]


class History:
    """What is known behind the events that were told, one after the other."""

    def __init__(self) -> None:
        self.rules: Start | None = None
        self.events = 0
        self.credits = 0
        self.sessions: list[Session] = []
        # Of each worker the session that is there.
        self.present: dict[int, Session] = {}
        self.channels: list[Channel] = []
        self.accounts: dict[str, Account] = {}
        self.blocks: list[Block] = []
        self.tip: Tip | None = None
        # The jobs that shares may be for, and those that a tip may make so.
        self.jobs: dict[int, Job] = {}
        self._future: dict[int, Job] = {}
        self._jobs_ever = 0
        self._weights = Weights(None)

    def tell(self, entry: Entry) -> Booked | None:
        """Takes an event. Answers what a credit was booked for."""
        booked = None
        try:
            if isinstance(entry.event, Credit):
                booked = self._book(entry.number, entry.event)
            else:
                self._tell(entry.number, entry.event)
        except (ArithmeticError, LookupError, NotThere, ValueError) as reason:
            raise Defect(f"illegal event {entry.number}: it can't follow those before it") from reason
        self.events += 1
        return booked

    def tell_all(self, entries: Iterable[Entry]) -> Iterator[Booked]:
        """Takes events, and answers what their credits were booked for."""
        for entry in entries:
            booked = self.tell(entry)
            if booked is not None:
                yield booked

    def pool_part(self) -> int:
        return sum(block.pool_part() for block in self.blocks)

    def newest_job(self) -> Job | None:
        """The newest job of a template that shares may be for."""
        live = [job for job in self.jobs.values() if not job.own]
        return max(live, key=lambda job: job.since) if live else None

    def owed_now(self) -> dict[str, int]:
        """What each account would get of a block of the newest template, by the credits so far."""
        job = self.newest_job()
        if job is None or self.rules is None:
            return {}
        return quotients(job.reward, self.rules.fee, self._weights_now())

    def _tell(self, place: int, event: Event) -> None:
        match event:
            case Start():
                self.rules = event
                self._weights = Weights(event.window or None)
            case Enter():
                session = Session(len(self.sessions), event.worker, event.role, place)
                self.sessions.append(session)
                self.present[event.worker] = session
            case Leave():
                self._leave(place, self.sessions[event.session])
            case Open():
                self._open(place, event)
            case Name():
                self._channel(event.channel).account = event.account
            case Class():
                self._channel(event.channel).classes.append((place, event.class_))
            case Close():
                self._channel(event.channel).closed = place
            case Template() | Custom():
                self._offer(place, event)
            case Tip():
                self._turn_to(place, event)

    def _channel(self, number: int) -> Channel:
        return numbered(self.channels, number)

    def _leave(self, place: int, session: Session) -> None:
        session.left = place
        for channel in session.channels:
            if channel.closed is None:
                channel.closed = place
        if self.present.get(session.worker) is session:
            del self.present[session.worker]

    def _open(self, place: int, said: Open) -> None:
        channel = Channel(
            len(self.channels) + 1, said.session, said.kind, said.account, said.lead, place,
            [(place, said.class_)],
        )
        self.channels.append(channel)
        self.sessions[said.session].channels.append(channel)

    def _offer(self, place: int, said: Template | Custom) -> None:
        """A job: a template's, or one of a miner's own."""
        if self.rules is None:
            raise NotThere
        self._jobs_ever += 1
        job = Job(self._jobs_ever, place, said, self.rules.pool_script)
        if isinstance(said, Template) and said.future:
            self._future[said.template_id] = job
        else:
            self.jobs[job.number] = job

    def _turn_to(self, place: int, tip: Tip) -> None:
        """A tip makes its job live, and every other one stale."""
        job = self._future[tip.template_id]
        job.since = place
        self.tip = tip
        self.jobs, self._future = {job.number: job}, {}

    def _book(self, place: int, said: Credit) -> Booked:
        channel, job, tip = self._channel(said.channel), self.jobs[said.job], self.tip
        if tip is None or self.rules is None:
            raise NotThere
        extranonce = channel.extranonce(said.extranonce)
        head = header(
            said.version, tip.prev_hash, job.root(extranonce), said.ntime, tip.nbits, said.nonce,
        )
        booked = Booked(
            place, channel.account, channel, job, channel.class_at(job), said.ntime, head,
            double_hash(head), extranonce,
        )
        self._count(booked, self.sessions[said.session])
        if meets(booked.hash, tip.target):
            self._settle(booked, self.rules)
        return booked

    def _count(self, booked: Booked, session: Session) -> None:
        account = self.accounts.setdefault(booked.account, Account())
        account.credits += 1
        account.work += booked.work
        booked.channel.credits += 1
        booked.channel.work += booked.work
        session.credits += 1
        self.credits += 1
        self._weights.add(booked.account, booked.work)

    def _weights_now(self) -> dict[str, int]:
        """The weights, in the order of the accounts' first credits."""
        weights = self._weights.now()
        return {name: weights[name] for name in self.accounts if name in weights}

    def _settle(self, booked: Booked, rules: Start) -> None:
        weights = self._weights_now()
        payouts = quotients(booked.job.reward, rules.fee, weights)
        booked.block = Block(booked, weights, payouts)
        for name, payout in payouts.items():
            self.accounts[name].balance += payout
        self.blocks.append(booked.block)
        self._weights.settled()


def history_of(ledger: LedgerFile) -> History:
    """The history of a ledger that nobody writes."""
    history = History()
    for entry in ledger.all_entries():
        history.tell(entry)
    return history
