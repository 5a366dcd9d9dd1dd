"""The repository's wrong bodies: edits of a crate's code that its contract, or a test, refuses.

They stand in the crate that they change: those under crates/CRATE/must-fail are tried by the gate, at each
run; those under crates/CRATE/wrong-bodies by hand, with tools/try-edits. What was tried, and against which contract,
stands in tools/tried-edits.
"""
import hashlib
import pathlib
import re
from dataclasses import dataclass

TOP = pathlib.Path(__file__).resolve().parent.parent
RECORD = TOP / "tools" / "tried-edits"
RECORD_HEAD = """\
# Which wrong bodies were tried, a crate a line: its name, the sum of its contract and of its wrong bodies
# when they were tried, how many were tried, how many were refused, and the day. tools/try-edits writes it;
# tools/edits --stale prints the crates whose sums have changed since.
"""


@dataclass(frozen=True)
class WrongBody:
    """An edit: the crate that it changes, who tries it, what it breaks, what refuses it, and its changes."""

    path: pathlib.Path
    crate: str
    is_by_gate: bool
    promise: str
    refused_by: str
    changes: tuple[tuple[str, str, str], ...]

    @property
    def name(self):
        return self.path.stem

    @property
    def is_refused_by_run(self):
        """Whether a test, the stored run or a script of examples refuses it, and no clause."""
        return self.refused_by.startswith(("test ", "the stored run")) or self.is_refused_by_script

    @property
    def is_refused_by_script(self):
        """Whether a script of examples refuses it, which runs the program."""
        return self.refused_by.startswith("examples/")

    def texts(self, folder):
        """The files that it changes in a crate's folder, as they are then; None where it can't be applied."""
        found = {}
        for file, old, new in self.changes:
            text = found.get(file)
            if text is None:
                path = folder / file
                text = path.read_text() if path.is_file() else ""
            if text.count(old) != 1:
                return None
            found[file] = text.replace(old, new)
        return found or None


def read_body(path, is_by_gate):
    """The wrong body of a file: `# promise:`, `# refused by:`, and then lines `file:`, `old:` and `new:`."""
    promise, refused_by, file, changes = "-", "-", "", []
    old = None
    for line in path.read_text().splitlines():
        if line.startswith("# promise:"):
            promise = line[len("# promise:"):].strip()
        elif line.startswith("# refused by:"):
            refused_by = line[len("# refused by:"):].strip()
        elif line.startswith("file: "):
            file = line[len("file: "):].strip()
        elif line.startswith("old: "):
            old = line[len("old: "):]
        elif line.startswith("new:"):
            changes.append((file, old, line[len("new:"):].removeprefix(" ")))
    crate = path.parts[-3]
    if refused_by.startswith("crate::"):
        refused_by = refused_by.replace("crate", crate, 1)
    return WrongBody(path, crate, is_by_gate, promise, refused_by, tuple(changes))


def all_bodies(crates=()):
    """The wrong bodies of these crates, or of all, by crate; those that the gate tries come first."""
    found = [read_body(path, True) for path in TOP.glob("crates/*/must-fail/*.edit")]
    found += [read_body(path, False) for path in TOP.glob("crates/*/wrong-bodies/*.edit")]
    chosen = [body for body in found if not crates or body.crate in crates]
    return sorted(chosen, key=lambda body: (body.crate, not body.is_by_gate, body.name))


CLAUSE = re.compile(r"\b(fn|requires|ensures|ghost)\b\*?\s*(\w*)")


def code_of(text):
    """A source without its comments, so that a word of one is no clause."""
    return re.sub(r"(?m)(?<![:\w])//.*$", "", text)


def closing(text, at):
    """The place behind the brace that closes the one that opens at or behind a place."""
    depth = 0
    for place in range(at, len(text)):
        if text[place] == "{":
            depth += 1
        elif text[place] == "}":
            depth -= 1
            if depth == 0:
                return place + 1
    return len(text)


def clauses_of(text):
    """Each clause and ghost member of a source, behind the name of the function that stood before it."""
    text = code_of(text)
    found, function, at = [], "", 0
    while match := CLAUSE.search(text, at):
        word, name = match[1], match[2]
        at = match.end()
        if word == "fn":
            function = name
        elif word == "ghost" and name != "use":
            at = text.find(";", closing(text, at) - 1)
            at = len(text) if at < 0 else at
            found.append(f"{function} {text[match.start():at]}")
        elif word in ("requires", "ensures"):
            at = closing(text, at)
            found.append(f"{function} {text[match.start():at]}")
    return [" ".join(clause.split()) for clause in found]


def is_of_tests(path):
    return path.stem == "tests" or path.stem.endswith("_tests")


def definitions_of(text):
    """Each definition of a specification, without comments, layout and imports: wherever it moves, it says
    the same."""
    text = re.sub(r"(?m)^\s*--.*\n|\s+-- .*$", "", text)
    text = re.sub(r"(?m)^(pub )?(use|mod)\b[^{\n]*(\{[^}]*\})?.*\n?", "", text)
    return [" ".join(part.split()) for part in re.split(r"\n\s*\n", text) if part.strip()]


def contract_of(crate):
    """The lines of which a crate's contract is made: its definitions, clauses and ghost members, in whichever
    files they stand."""
    folder = TOP / "crates" / crate
    found = [line for path in folder.glob("specs/**/*.antt") for line in definitions_of(path.read_text())]
    for path in folder.glob("src/**/*.rt"):
        if not is_of_tests(path):
            found += clauses_of(path.read_text())
    return sorted(found)


def sum_of(lines):
    return hashlib.sha256("\n".join(lines).encode()).hexdigest()[:16]


def sum_of_contract(crate):
    return sum_of(contract_of(crate))


def sum_of_bodies(bodies):
    """The sum of what wrong bodies change, whoever tries them."""
    return sum_of(repr((body.name, body.changes)) for body in sorted(bodies, key=lambda body: body.name))


@dataclass(frozen=True)
class Tried:
    """What became of a crate's wrong bodies when they were last tried."""

    contract: str
    bodies: str
    tried: int
    refused: int
    day: str


def read_record():
    """What was tried, by crate."""
    found = {}
    for line in RECORD.read_text().splitlines() if RECORD.is_file() else []:
        if line and not line.startswith("#"):
            crate, contract, bodies, tried, refused, day = line.split()
            found[crate] = Tried(contract, bodies, int(tried), int(refused), day)
    return found


def write_record(record):
    lines = [
        f"{crate} {it.contract} {it.bodies} {it.tried} {it.refused} {it.day}\n"
        for crate, it in sorted(record.items())
    ]
    RECORD.write_text(RECORD_HEAD + "".join(lines))
