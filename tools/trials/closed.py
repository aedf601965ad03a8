"""A start with standard input, output or error closed: what the program says is written over no file. And one into a full device."""

from __future__ import annotations

import os
import subprocess
import tempfile
from typing import Sequence

from trials.program import PATIENCE, Ended, Key, Program
from trials.report import expect

# What each closing leaves of a run that is asked for key 2: without an input nothing is asked.
CLOSINGS = (("<&-", False), (">&-", True), ("2>&-", True))

SHELL = ("sh", "-c")


def run_closed(program: Program, closing: str, *words: str, lines: str = "") -> Ended:
    """Runs a command whose standard input, output or error is closed."""
    return program.run(*words, lines=lines, before=(*SHELL, f'exec "$0" "$@" {closing}'))


def try_closed(program: Program, folder: str) -> None:
    """Runs, makings and renewals behind each closing."""
    for closing, is_asked in CLOSINGS:
        file = os.path.join(folder, f"file{len(closing)}{closing[0]}".replace("<", "in").replace(">", "out"))
        program.make(file, 4)
        expect(program.run("run", file, lines="add 1\n"), Ended("yes\n", 0), "a run")
        run_closed(program, closing, "run", file, lines="add 2\n")
        keys = [Key(0, 1), Key(0, 2)] if is_asked else [Key(0, 1)]
        expect(program.members(file), keys, f"the members behind a run with {closing}")
        expect(run_closed(program, closing, "make", file, "4").status, 3, f"making it again with {closing}")
        expect(program.members(file), keys, f"the members behind a making with {closing}")
        listed = f"{file}-listed"
        made = run_closed(program, closing, "make", listed, "4", "--keys", lines="7\n")
        # A list that is closed isn't one that is empty.
        expect(made.status, 0 if is_asked else 1, f"making a list's file with {closing}")
        expect(os.path.exists(listed), is_asked, f"whether there is a list's file with {closing}")
        if is_asked:
            expect(program.members(listed), [Key(0, 7)], f"the members of a list's file with {closing}")
        else:
            expect(made.text, "noread\n", "what it says")
        renewed = f"{file}-renewed"
        expect(run_closed(program, closing, "renew", file, renewed, "8").status, 0, f"renewing it with {closing}")
        expect(program.members(file), keys, f"the old file's members behind a renewal with {closing}")
        expect(program.members(renewed), keys, f"the new file's members behind a renewal with {closing}")


def try_full(program: Program) -> None:
    """Standard output is a device that is full: help, version and a service's port that nobody gets have failed, and what else is
    wrong keeps its own status."""
    with tempfile.TemporaryDirectory() as folder:
        file = os.path.join(folder, "f")
        program.make(file, 2)
        try_into_full(program, ["serve", file, "0", "1"], 1)
    for words, status in ((["--help"], 1), (["help", "run"], 1), (["--version"], 1), (["dig"], 2), (["check", "/nowhere/at-all"], 3)):
        try_into_full(program, words, status)


def try_into_full(program: Program, words: Sequence[str], status: int) -> None:
    with open("/dev/full", "wb") as full:
        ended = subprocess.run([program.path, *words], stdout=full, stderr=subprocess.DEVNULL, timeout=PATIENCE)
    expect(ended.returncode, status, f"the status of {' '.join(words)} into a full device")
