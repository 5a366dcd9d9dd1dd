"""Checks of edited crates over libraries that `rt ci` proved on this machine.

The toolchain's own command keeps what each of its runs proved. Here that is given to a copy of the
repository, and what is edited there is checked function by function, each in a process of its own.
"""
import importlib.machinery
import importlib.util
import os
import pathlib
import re
import shutil
import subprocess
import sys
import tempfile
from dataclasses import dataclass

KIT_BIN = pathlib.Path("/opt/rattle/bin")


def toolchain():
    """The toolchain's command, as a module."""
    sys.path.insert(0, str(KIT_BIN))
    loader = importlib.machinery.SourceFileLoader("rt_command", str(KIT_BIN / "rt"))
    made = importlib.util.module_from_spec(importlib.util.spec_from_loader("rt_command", loader))
    loader.exec_module(made)
    return made


@dataclass(frozen=True)
class Said:
    """What a check said: its status, and its lines."""

    status: int
    lines: list[str]

    @property
    def is_verdict(self):
        """Whether the prover was reached and came to an end."""
        last = self.lines[-1] if self.lines else ""
        return last.startswith(("only=", "logic="))

    def is_proved(self, function):
        """Whether a function is said to be proved; None where nothing is said of it."""
        found = [line for line in self.lines if re.match(rf"fn \w+::{re.escape(function)}: ", line)]
        return found[0].endswith(": proved") if found else None


class Prover:
    """The crates of a copy of the repository, with the libraries below them as they were proved."""

    def __init__(self, room):
        self.rt = toolchain()
        self.room = room
        os.chdir(room)
        self.rt.Crate.allowed = self.rt.handles_of(str(room))
        found = self.rt.crates_of(str(room))
        self.crates = {crate.name: crate for crate in found}
        self.kept = self.rt.Kept(list(found))
        self.words = {}

    def below(self, crates):
        """The libraries below these crates, the lowest first."""
        below = {dep.name: dep for name in crates for dep in self.crates[name].below()}
        return sorted(below.values(), key=lambda crate: len(crate.below()))

    def give_libraries(self, crates):
        """Gives each library below these crates what was proved of it; proves those that never were."""
        for crate in self.below(crates):
            if not self.is_given(crate):
                subprocess.run(["rt", "ci", crate.name], cwd=self.room, stdout=subprocess.DEVNULL, check=True)
                if not self.is_given(crate):
                    raise SystemExit(f"{crate.name} isn't proved")
        for name in crates:
            # Whoever computes these words catches signals, which only the main thread may.
            self.words[name] = self.crates[name].words(["--jobs", "1"], keeps=False)

    def is_given(self, crate):
        # What lies there would be taken for a check's own, and what is kept be dropped.
        shutil.rmtree(f"{crate.folder}/out", ignore_errors=True)
        key = self.kept.key(crate)
        if not os.path.isdir(self.kept.place(crate, False, key)) or not self.kept.give(crate, False, key):
            return False
        self.kept.is_built(crate)
        return True

    def check(self, name, texts, functions=()):
        """Checks a crate with these texts in place of its own; these functions alone, where any are named."""
        folder = pathlib.Path(self.crates[name].folder)
        with tempfile.TemporaryDirectory() as made:
            for part in ("src", "specs", "proofs"):
                if (folder / part).is_dir():
                    shutil.copytree(folder / part, pathlib.Path(made, part))
            for path, text in texts.items():
                pathlib.Path(made, path).write_text(text)
            only = [word for function in functions for word in ("--only", function)]
            ran = subprocess.run(
                [self.rt.rtlib.RATTLE, "check", *self.words[name], *only],
                cwd=made, stdin=subprocess.DEVNULL, stdout=subprocess.PIPE, stderr=subprocess.STDOUT, errors="replace",
            )
        return Said(ran.returncode, ran.stdout.rstrip("\n").split("\n"))
