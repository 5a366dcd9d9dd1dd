"""A pool's settings file, and what is wrong with one (docs/COMMANDS.md, "The settings file")."""
import json
from collections.abc import Callable
from dataclasses import dataclass, fields
from typing import Any

SIZE_LIMIT = 65_536
USER_LIMIT = 1_000
NESTED_LIMIT = 127


@dataclass(slots=True)
class Settings:
    pool_script: str
    least_class: int
    fee: int
    rule: str
    window: int | None = None
    ntime_window: int = 7_200
    credit_limit: int = 16_777_215
    users: tuple[str, ...] = ()
    version_rolling: bool = True
    v1_base: int = 32
    idle_turns: int = 36_000
    door_turns: int = 36_000
    workers: int = 4
    address: str = "127.0.0.1:3333"
    feed: str = "127.0.0.1:8442"


KEYS = tuple(one.name for one in fields(Settings))
REQUIRED = ("pool_script", "least_class", "fee", "rule")
# The least and the most that a number may be.
RANGES = {
    "least_class": (0, 60), "fee": (0, 10_000), "window": (1, 2**64 - 1), "ntime_window": (0, 86_400),
    "credit_limit": (1, 16_777_215), "v1_base": (0, 60), "idle_turns": (1, 2**63 - 1),
    "door_turns": (1, 2**63 - 1), "workers": (1, 64),
}


class NoSettings(Exception):
    """Why a file is no settings: each defect in words."""

    def __init__(self, defects: list[str]) -> None:
        super().__init__("; ".join(defects))
        self.defects = defects


def settings_in(content: bytes) -> Settings:
    """The settings that a file says."""
    if len(content) > SIZE_LIMIT:
        raise NoSettings([f"it has {len(content):,} bytes, over {SIZE_LIMIT:,}"])
    try:
        said = json.loads(
            content.decode("utf-8"), parse_constant=refuse, parse_int=whole, parse_float=real,
            object_pairs_hook=last_of_each,
        )
    except UnicodeDecodeError as error:
        raise NoSettings([f"byte {error.start} isn't UTF-8"]) from None
    except RecursionError:
        raise NoSettings(["it is nested too deeply"]) from None
    except ValueError as error:
        raise NoSettings([f"it is no JSON: {error}"]) from None
    if not isinstance(said, dict):
        raise NoSettings(["it is no JSON object"])
    defects = defects_in(said)
    if defects:
        raise NoSettings(defects)
    said["users"] = tuple(said.get("users", ()))
    return Settings(**said)


def refuse(text: str) -> None:
    raise ValueError(f"{text} is no number")


def whole(text: str) -> int | float:
    # A number with a minus and no value is none of the whole ones.
    return -0.0 if text == "-0" else int(text)


def real(text: str) -> float:
    value = float(text)
    if value in (float("inf"), float("-inf")):
        raise ValueError(f"{text} is out of range")
    return value


def last_of_each(pairs: list[tuple[str, Any]]) -> dict[str, Any]:
    """An object, of which the last value of each key counts; what no key of it may have is refused."""
    for key, value in pairs:
        if not is_text(key) or has_bad_text(value) or depth(value) >= NESTED_LIMIT:
            raise ValueError(f"what stands at {json.dumps(key)} is no UTF-8, or nested too deeply")
    return dict(pairs)


def is_text(text: str) -> bool:
    try:
        text.encode("utf-8")
    except UnicodeEncodeError:
        return False
    return True


def has_bad_text(value: Any) -> bool:
    if isinstance(value, list):
        return any(map(has_bad_text, value))
    return isinstance(value, str) and not is_text(value)


def depth(value: Any) -> int:
    items = value.values() if isinstance(value, dict) else value if isinstance(value, list) else None
    return 0 if items is None else 1 + max(map(depth, items), default=0)


def defects_in(said: dict[str, Any]) -> list[str]:
    """What is wrong with each key, in words."""
    defects = [f"{key} is missing" for key in REQUIRED if key not in said]
    for key, value in said.items():
        if key not in KEYS:
            near = [known for known in KEYS if known.lower() == key.lower()]
            hint = f"; {near[0]} is spelled so" if near else ""
            defects.append(f"{json.dumps(key)} is no key of a settings file{hint}")
        elif (defect := defect_of(key, value)) is not None:
            defects.append(f"{key} {defect}")
    if said.get("rule") == "pplns" and "window" not in said:
        defects.append('window is missing, which the rule "pplns" needs')
    if said.get("rule") == "proportional" and "window" in said:
        defects.append('window is there, which the rule "proportional" has none of')
    return defects


def defect_of(key: str, value: Any) -> str | None:
    """What is wrong with the value of a key, or None."""
    if value is None:
        return "is null, which is no value"
    if key in RANGES:
        return number_defect(value, *RANGES[key])
    return OTHERS[key](value)


def number_defect(value: Any, least: int, most: int) -> str | None:
    if isinstance(value, bool) or not isinstance(value, int):
        return f"is {json.dumps(value)}, and no whole number without point, exponent or quotes"
    if not least <= value <= most:
        return f"is {value}, and not from {least:,} to {most:,}"
    return None


def script_defect(value: Any) -> str | None:
    digits = "0123456789abcdefABCDEF"
    if not isinstance(value, str) or not all(digit in digits for digit in value):
        return "isn't a text of hex digits"
    if not 2 <= len(value) <= 200 or len(value) % 2:
        return f"has {len(value)} hex digits, and not an even number of them from 2 to 200"
    return None


def rule_defect(value: Any) -> str | None:
    return None if value in ("proportional", "pplns") else 'is neither "proportional" nor "pplns"'


def rolling_defect(value: Any) -> str | None:
    return None if isinstance(value, bool) else "is neither true nor false"


def address_defect(value: Any) -> str | None:
    if not isinstance(value, str) or not 1 <= len(value.encode()) <= 255:
        return "isn't a text of 1 to 255 bytes"
    return None


def users_defect(value: Any) -> str | None:
    if not isinstance(value, list) or not all(isinstance(user, str) for user in value):
        return "isn't an array of texts"
    if len(value) > USER_LIMIT:
        return f"has {len(value):,} accounts, over {USER_LIMIT:,}"
    for user in value:
        if not 1 <= len(user) <= 255 or not all("!" <= letter <= "~" for letter in user):
            return f"has {json.dumps(user)}, which isn't 1 to 255 visible letters of ASCII"
        if "." in user:
            return f"has {user}, and no account has a point"
    doubled = next((user for user in value if value.count(user) > 1), None)
    return None if doubled is None else f"has {doubled} twice"


OTHERS: dict[str, Callable[[Any], str | None]] = {
    "pool_script": script_defect, "rule": rule_defect, "version_rolling": rolling_defect,
    "address": address_defect, "feed": address_defect, "users": users_defect,
}
