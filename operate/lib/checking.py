"""Why a pool doesn't begin: what its statuses 7, 9 and 11 mean with these settings and this ledger."""
import os
import resource
from dataclasses import dataclass, field

from lib.addresses import dial, listen
from lib.events import Start
from lib.following import is_held
from lib.frames import (
    NEW_TEMPLATE, SET_NEW_PREV_HASH, SETUP_ERROR, SETUP_SUCCESS, TEMPLATE_DISTRIBUTION, BadFrame, Frames,
    setup,
)
from lib.history import History
from lib.ledger import DURABLE_MAGIC, MAGIC_LENGTH, MAGICS, Defect, LedgerFile
from lib.settings import NoSettings, Settings, settings_in

CANT_OPEN, BAD_SETTINGS, BAD_LEDGER = 7, 9, 11
# The keys that a ledger's Start has; they stand for good.
RULES = (
    "pool_script", "least_class", "fee", "rule", "window", "ntime_window", "credit_limit",
    "version_rolling", "users",
)
SECONDS = 5.0
# Descriptors beside those of doors and callers, with some to spare.
OWN_DESCRIPTORS = 16


@dataclass(slots=True)
class Found:
    """What was found: causes, each with the status that the program would end with; and what is well."""

    causes: list[tuple[int, str]] = field(default_factory=list)
    well: list[str] = field(default_factory=list)

    def cause(self, status: int, words: str) -> None:
        self.causes.append((status, words))

    def words(self, status: int) -> list[str]:
        return [words for one, words in self.causes if one == status]


def read_settings(path: str, found: Found) -> Settings | None:
    try:
        with open(path, "rb") as file:
            settings = settings_in(file.read())
    except OSError as error:
        found.cause(CANT_OPEN, f"the settings can't be opened: {error.strerror}: {path}")
        return None
    except NoSettings as none:
        for defect in none.defects:
            found.cause(BAD_SETTINGS, f"settings: {defect}")
        return None
    found.well.append("the settings are in order")
    return settings


def check_opening(path: str, found: Found) -> bool:
    """Whether the ledger's file is there and can be opened."""
    if not os.path.exists(path):
        check_folder(path, found)
        return False
    if not os.access(path, os.R_OK | os.W_OK) or os.path.isdir(path):
        found.cause(CANT_OPEN, f"the ledger can't be read and written: {path}")
        return False
    if is_held(path):
        found.cause(CANT_OPEN, "another process has the ledger open: a pool runs with it already")
    return True


def check_ledger(path: str, settings: Settings | None, found: Found) -> History | None:
    """Whether `durable serve` can begin or go on with this ledger; and its history, where it has one."""
    if not check_opening(path, found):
        return None
    with open(path, "rb") as file:
        begin = file.read(MAGIC_LENGTH + 1)
    if len(begin) <= MAGIC_LENGTH:
        found.well.append("the ledger has no event yet; it will be begun with these settings")
        return None
    if not begin.startswith(DURABLE_MAGIC):
        plain = begin[:MAGIC_LENGTH] in MAGICS
        kind = "a ledger of plain `serve`, which `durable serve` can't go on with" if plain else "no ledger"
        found.cause(BAD_LEDGER, f"the ledger is {kind}")
        return None
    return check_events(path, settings, found)


def check_folder(path: str, found: Found) -> None:
    folder = os.path.dirname(path) or "."
    if os.path.isdir(folder) and os.access(folder, os.W_OK | os.X_OK):
        found.well.append("there is no ledger yet; it will be made")
    else:
        found.cause(CANT_OPEN, f"the ledger can't be made: nothing can be written in {folder}")


def check_events(path: str, settings: Settings | None, found: Found) -> History | None:
    ledger, history = LedgerFile(path), History()
    try:
        for entry in ledger.all_entries():
            history.tell(entry)
    except Defect as defect:
        found.cause(BAD_LEDGER, f"the ledger's events are no history: {defect}")
        return None
    if not ledger.regular:
        found.cause(BAD_LEDGER, "the ledger's entries are cut otherwise than a pool writes them")
    if history.rules is None:
        return None
    differing = differences(settings, history.rules) if settings else []
    for words in differing:
        found.cause(BAD_LEDGER, f"the ledger was begun with other settings: {words}")
    if settings and not differing:
        found.well.append(f"the ledger goes on with these settings; it has {history.events:,} events")
    return history


def rule_of(settings: Settings, key: str) -> object:
    """A rule of the settings, as a Start has it."""
    value = getattr(settings, key)
    if key == "pool_script":
        return bytes.fromhex(value)
    return value or 0 if key == "window" else value


def shown(value: object) -> str:
    if isinstance(value, bytes):
        return value.hex()
    if isinstance(value, tuple):
        return ", ".join(value) or "all"
    return str(value)


def differences(settings: Settings, start: Start) -> list[str]:
    """The keys whose value isn't that of the Start; the order of accounts counts too."""
    return [
        f"{key} is {shown(rule_of(settings, key))}, and was {shown(getattr(start, key))}"
        for key in RULES if rule_of(settings, key) != getattr(start, key)
    ]


def check_address(settings: Settings, found: Found) -> None:
    try:
        listen(settings.address).close()
    except (OSError, ValueError) as error:
        found.cause(CANT_OPEN, f"the pool can't listen at {settings.address}: {reason(error)}")
    else:
        found.well.append(f"the address {settings.address} is free")


def check_descriptors(settings: Settings, found: Found) -> None:
    """A door has a descriptor of its own, and a caller two."""
    wanted = OWN_DESCRIPTORS + 3 * settings.workers
    allowed, _ = resource.getrlimit(resource.RLIMIT_NOFILE)
    words = f"{wanted} descriptors are wanted, and {allowed:,} are allowed"
    if allowed < wanted:
        found.cause(CANT_OPEN, f"{words}: `ulimit -n {wanted}` allows them")
    else:
        found.well.append(words)


def check_provider(settings: Settings, found: Found) -> None:
    """Dials the provider and sets a connection up, as the pool does."""
    try:
        with dial(settings.feed, SECONDS) as connection:
            words = greeted(Frames(connection))
    except (OSError, ValueError) as error:
        found.cause(CANT_OPEN, f"the provider isn't reached at {settings.feed}: {reason(error)}")
    except BadFrame as bad:
        found.cause(CANT_OPEN, f"the provider at {settings.feed} speaks something else: {bad}")
    else:
        found.well.append(f"the provider at {settings.feed} answers, and {words}")


def greeted(frames: Frames) -> str:
    """What a provider does behind a setup. One that answers nothing is refused."""
    frames.put(setup(TEMPLATE_DISTRIBUTION))
    try:
        answer = frames.take()
    except TimeoutError:
        answer = None
    if answer is None:
        raise BadFrame("it answers nothing to a plain setup; it may insist on encryption")
    if answer.kind == SETUP_ERROR:
        raise BadFrame("it refuses the setup")
    if answer.kind != SETUP_SUCCESS:
        raise BadFrame(f"it answers a setup by a message of kind {answer.kind:02x}")
    missing = {NEW_TEMPLATE, SET_NEW_PREV_HASH}
    try:
        while missing and (given := frames.take()) is not None:
            missing.discard(given.kind)
    except TimeoutError:
        pass
    return "gives no template and tip within five seconds" if missing else "gives a template and its tip"


def causes_of(status: int, settings_path: str, ledger_path: str) -> list[str]:
    """Why `durable serve` has just ended with 7, 9 or 11, in words. Nobody is dialled: where nothing else
    is found, it was the provider."""
    found = Found()
    settings = read_settings(settings_path, found)
    if status == BAD_LEDGER:
        check_ledger(ledger_path, settings, found)
    elif status == CANT_OPEN:
        check_opening(ledger_path, found)
        if settings is not None:
            check_address(settings, found)
            check_descriptors(settings, found)
            if not found.causes:
                found.cause(CANT_OPEN, f"the provider isn't reached at {settings.feed}")
    return found.words(status)


def reason(error: Exception) -> str:
    return getattr(error, "strerror", None) or str(error)
