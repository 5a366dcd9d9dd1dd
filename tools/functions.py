"""Which function of a source a place stands in, as the prover names it.

Sources are formatted, so a function ends with the first brace that closes at its own indentation.
"""
import pathlib
import re
from dataclasses import dataclass

FUNCTION = re.compile(r"^( *)(?:pub(?:\([a-z]+\))? )?(?:const )?(?:unsafe )?fn (\w+)")
BLOCK = re.compile(r"^(?:unsafe )?(?:impl|pub trait|trait)\b.*")


@dataclass(frozen=True)
class Function:
    """A function: its path below the crate, and the lines that it takes, counted from 1."""

    path: str
    first: int
    last: int


def module_of(file):
    """The path of the module that a file under src/ is."""
    parts = pathlib.PurePath(file).with_suffix("").parts[1:]
    return [part for part in parts if part not in ("lib", "main", "mod")]


def without_generics(text):
    depth, kept = 0, []
    for place, letter in enumerate(text):
        if letter == "<":
            depth += 1
        elif letter == ">" and text[place - 1:place] != "-":
            depth -= 1
        elif depth == 0:
            kept.append(letter)
    return "".join(kept)


def owner_of(head):
    """The name of an impl's or a trait's functions: the type's, with the trait's behind it."""
    words = without_generics(head.split("{")[0].split(" where ")[0])
    words = re.sub(r"^(unsafe |pub )*(impl|trait)\b", "", words).split(":")[0] if "trait" in head.split("<")[0] else re.sub(r"^(unsafe )?impl", "", words)
    trait, _, of = words.partition(" for ")
    last = lambda name: name.strip().lstrip("&").split("::")[-1].strip()
    return last(of) + last(trait) if of else last(trait)


def functions_of(file, text):
    """Each function of a source, in its order."""
    lines, owner, found, at = text.split("\n"), None, [], 0
    while at < len(lines):
        line = lines[at]
        if BLOCK.match(line):
            owner = owner_of(line)
        elif line == "}":
            owner = None
        match = FUNCTION.match(line)
        if match is None:
            at += 1
            continue
        end = at
        if not line.endswith(("}", ";")):
            closing = match[1] + "}"
            while end < len(lines) - 1 and lines[end] != closing and not (lines[end].endswith(";") and is_signature(lines[at:end + 1])):
                end += 1
        path = [*module_of(file), *([owner] if owner and match[1] else []), match[2]]
        found.append(Function("::".join(path), at + 1, end + 1))
        at = end + 1
    return found


def is_signature(lines):
    """Whether these lines are a function of a trait without a body: none of its braces is a body's."""
    indent = len(lines[0]) - len(lines[0].lstrip())
    return all(line.strip() != "{" or len(line) - len(line.lstrip()) > indent for line in lines)


def function_at(file, text, place):
    """The function that a place of a source stands in; none where it stands in no function."""
    line = text.count("\n", 0, place) + 1
    return next((it for it in functions_of(file, text) if it.first <= line <= it.last), None)
