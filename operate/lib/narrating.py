"""Events that an operator wants to hear of, in words."""
from lib.events import Enter, Event, Leave, Name, Open, Tip
from lib.following import Follower, Read
from lib.history import Block, Job
from lib.watching import connected
from lib.words import coin_words


class Narrator:
    """Says what new events of a ledger mean: who comes and goes, tips and blocks."""

    def __init__(self, follower: Follower) -> None:
        self.follower = follower
        # The accounts of each session that were said.
        self._said: dict[int, set[str]] = {}

    def words(self, read: Read) -> str | None:
        """What is said of an event, where anything is."""
        if read.booked is None:
            return self._other(read.entry.event)
        return None if read.booked.block is None else self._block(read.booked.block)

    def state(self) -> str:
        """Who is here."""
        history = self.follower.history
        miners = connected(list(history.present.values()))
        names = ", ".join(f"{name or 'no account yet'} {count}" for name, count in miners.items())
        return f"{self._miners()} ({names})" if names else self._miners()

    def _other(self, event: Event) -> str | None:
        history = self.follower.history
        match event:
            case Enter(role="Feed"):
                return "the provider is here"
            case Open() | Name() if event.account:
                return self._came(event.session, event.account)
            case Leave():
                return self._left(event.session)
            case Tip():
                return self._tip(history.newest_job())
        return None

    def _came(self, session: int, account: str) -> str | None:
        said = self._said.setdefault(session, set())
        if account in said:
            return None
        said.add(account)
        return f"a miner of {account} is here; {self._miners()}"

    def _left(self, session: int) -> str:
        if self.follower.history.sessions[session].role == "Feed":
            return "the provider's session is over"
        accounts = ", ".join(sorted(self._said.pop(session, set()))) or "no account"
        return f"a miner of {accounts} has left; {self._miners()}"

    def _tip(self, job: Job | None) -> str | None:
        if job is None:
            return None
        height = "" if job.height is None else f" at height {job.height}"
        return f"a new tip: blocks{height} are mined, for {coin_words(job.reward)} BTC"

    def _miners(self) -> str:
        count = sum(one.role != "Feed" for one in self.follower.history.present.values())
        return f"{count} miner{'' if count == 1 else 's'}"

    def _block(self, block: Block) -> str:
        height = "" if block.height is None else f" at height {block.height}"
        own = ", on a miner's own job" if block.own else ""
        return (
            f"A BLOCK{height} of {block.share.account}{own}: {block.hash}, {coin_words(block.reward)} BTC; "
            f"event {block.share.number}, which solution.py prints"
        )
