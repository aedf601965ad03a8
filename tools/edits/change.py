"""What a change touches, and the steps that tell a developer whether it is right."""

from __future__ import annotations

import argparse
import os
import re
import subprocess
import tempfile
import time
from typing import IO, Callable, Dict, List, Sequence, Set

from edits import crate as one
from edits import kit, record
from edits.edit import FOLDERS

# How much is shown of what a failed command said.
SHOWN = 40
LIST = "crates.txt"


def read_words(words: Sequence[str]) -> argparse.Namespace:
    parser = argparse.ArgumentParser(prog="tools/check-change", description="Checks the crates that a change touches.")
    parser.add_argument("base", nargs="?", default="HEAD", metavar="BASE", help="the revision that the change is since (HEAD)")
    parser.add_argument("--all-tests", action="store_true", help="also tests of what stands on a crate and doesn't name it")
    parser.add_argument("--jobs", type=int, default=0, help="how many processes share a proof (as the kit chooses)")
    return parser.parse_args(words)


def git(top: str, *words: str) -> List[str]:
    """The lines that git says."""
    ran = subprocess.run(["git", "-C", top, *words], stdout=subprocess.PIPE, check=True)
    return ran.stdout.decode().splitlines()


def touched(top: str, base: str) -> Set[str]:
    """The names of the crates of which a file, or the line of crates.txt, isn't as in a revision."""
    files = [*git(top, "diff", "--name-only", base), *git(top, "ls-files", "--others", "--exclude-standard")]
    found = {it[1] for it in (re.match(r"crates/(\w+)/", file) for file in files) if it}
    if LIST in files:
        with open(f"{top}/{LIST}", encoding="utf-8") as text:
            lines = set(text.read().splitlines()) ^ set(git(top, "show", f"{base}:{LIST}"))
        found.update(re.split(r"[\s:]", line)[0] for line in lines)
    return found


def names_any(crate: kit.Crate, names: Set[str]) -> bool:
    """Whether a source of the crate names one of these crates."""
    return bool(names & set(re.findall(r"\b(\w+)::", kit.rt().rtlib.code_of(crate.folder))))


class Steps:
    """The steps of a change, told one by one."""

    def __init__(self, top: str, options: argparse.Namespace) -> None:
        self.top = top
        self.jobs = ["--jobs", str(options.jobs)] if options.jobs else []
        self.is_well = True

    def tell(self, what: str, step: Callable[[], bool]) -> bool:
        """Goes a step, and tells whether it went well and its seconds."""
        start = time.monotonic()
        is_well = step()
        kit.say(f"{what}: {'ok' if is_well else 'FAILED'} ({time.monotonic() - start:.0f} s)")
        self.is_well = self.is_well and is_well
        return is_well

    def run(self, crate: kit.Crate, *words: str) -> bool:
        """Runs a command of the kit in a crate's folder, and shows the end of what it said where it failed."""
        with tempfile.TemporaryFile("w+", errors="replace") as said:
            how = {"cwd": crate.folder, "stdin": subprocess.DEVNULL, "stdout": said, "stderr": said}
            ran = subprocess.run(["rt", *words, *self.jobs], check=False, **how)
            self.show(said, ran.returncode)
        return ran.returncode == 0

    def layout(self, crate: kit.Crate) -> bool:
        with tempfile.TemporaryFile("w+", errors="replace") as said:
            status: int = kit.rt().rtlib.fmt(crate.folder, "--check", said)
            self.show(said, status)
        return status == 0

    def show(self, said: IO[str], status: int) -> None:
        """Shows the end of what a command said that failed."""
        said.seek(0)
        lines = said.readlines()[-SHOWN:] if status else []
        if lines:
            kit.say("".join(lines).rstrip())

    def check(self, crate: kit.Crate) -> bool:
        """Checks a crate: its layout, its proofs, and those of its edits for which the record doesn't hold."""
        self.tell(f"{crate.name}: layout", lambda: self.layout(crate))
        if not self.tell(f"{crate.name}: proofs", lambda: self.run(crate, "lib" if crate.makes_rlib() else "check")):
            return False
        hashes = record.Hashes([crate])
        void = hashes.void(crate, FOLDERS, record.read(self.top))
        if void:
            self.tell(f"{crate.name}: edits", lambda: not one.try_edits(self.top, crate, void, kit.Lanes(0), hashes).failed)
        return True

    def test(self, crate: kit.Crate) -> None:
        self.tell(f"{crate.name}: tests", lambda: self.run(crate, "test"))


def main(top: str, words: Sequence[str]) -> int:
    """Checks the crates that a change touches, lowest first, and returns the exit status."""
    options = read_words(words)
    kit.start()
    os.chdir(top)
    names = touched(top, options.base)
    crates = kit.crates(top)
    steps = Steps(top, options)
    kit.say(f"touched: {' '.join(it.name for it in crates if it.name in names) or 'no crate'}")
    # What stands on a library that isn't proved can't be checked.
    if not all(steps.check(it) for it in crates if it.name in names):
        return 1
    above: Dict[str, Set[str]] = {it.name: {below.name for below in it.below()} & names for it in crates}
    for it in crates:
        is_named = it.name in names or (names_any(it, names) if not options.all_tests else bool(above[it.name]))
        if is_named and it.has_tests():
            steps.test(it)
    return 0 if steps.is_well else 1
