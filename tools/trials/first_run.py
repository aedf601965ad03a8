"""The first run in a copy of the tree, with a stand-in for the kit, and a release made of what it leaves."""

from __future__ import annotations

import os
import re
import shutil
import signal
import subprocess
from dataclasses import dataclass
from typing import List

from trials.installs import expect_named_pages, needs
from trials.program import PATIENCE, Program
from trials.report import Wrong, expect

# What stands for the kit: it proves nothing, says so of each crate, and leaves the built program.
KIT = """#!/usr/bin/env python3
import os
import shutil
import time


class Crate:
    compile_by = None


def processors():
    return 1


def free():
    return 0


def in_lanes(tasks):
    return {{}}


def main(words):
    assert words == ["ci"]
    with open("crates.txt") as file:
        for line in file:
            print("rt: " + line.split(":")[0] + " proved")
    time.sleep({seconds})
    os.makedirs("crates/lazyset/out", exist_ok=True)
    shutil.copy({program!r}, "crates/lazyset/out/lazyset")
    print({last!r})
    return 0
"""


@dataclass
class Copy:
    """A copy of the tree, beside a kit and an empty folder for temporary files."""

    folder: str

    @property
    def tree(self) -> str:
        return os.path.join(self.folder, "tree")

    @property
    def room(self) -> str:
        return os.path.join(self.folder, "room")

    def make(self, top: str) -> None:
        shutil.copytree(top, self.tree, symlinks=True, ignore=shutil.ignore_patterns(".git", "out", "dist", "__pycache__"))
        os.mkdir(self.room)

    def give_kit(self, program: Program, last: str, seconds: int = 0) -> None:
        path = os.path.join(self.folder, "bin", "rt")
        os.makedirs(os.path.dirname(path), exist_ok=True)
        with open(path, "w", encoding="utf-8") as file:
            file.write(KIT.format(program=program.path, last=last, seconds=seconds))
        os.chmod(path, 0o755)

    def start(self, *words: str) -> "subprocess.Popen[str]":
        path = os.pathsep.join([os.path.join(self.folder, "bin"), os.environ.get("PATH", os.defpath)])
        return subprocess.Popen(
            words,
            cwd=self.tree,
            env={**os.environ, "PATH": path, "TMPDIR": self.room},
            stdout=subprocess.PIPE,
            stderr=subprocess.STDOUT,
            text=True,
            start_new_session=True,
            # What was started in the background ignores an interruption, and a shell that ignores it can't heed it.
            preexec_fn=lambda: signal.signal(signal.SIGINT, signal.SIG_DFL),
        )

    def run(self, *words: str, status: int = 0) -> List[str]:
        """The lines that a command of the tree prints. It leaves no temporary file."""
        with self.start(*words) as process:
            printed, _ = process.communicate(timeout=PATIENCE)
        if process.returncode != status:
            raise Wrong(f"{words}: status {process.returncode}, {printed[-400:]!r}")
        expect(os.listdir(self.room), [], f"what {words} leaves of temporary files")
        return printed.splitlines()


def try_first_run(program: Program, folder: str, top: str) -> None:
    """It says where it is and how long it took, fails where a proof fails, and takes the program of dist/ for the same sources."""
    copy = Copy(folder)
    copy.make(top)
    copy.give_kit(program, "0 passed, 1 failed")
    copy.run("./first-run", "--prove", status=1)
    copy.give_kit(program, "1 passed, 0 failed")
    lines = copy.run("./first-run", "--prove")
    told = [re.match(r"crate (\d+) of (\d+): \w+ proved, after \d+ min \d+ s$", line) for line in lines]
    numbers = [(int(it[1]), int(it[2])) for it in told if it]
    crates = len(copy.run("tools/crates-below", "lazyset"))
    expect(numbers, [(number, crates) for number in range(1, crates + 1)], "the crates that it tells")
    if not re.match(r"done in \d+ min \d+ s on \d+ processors \(.+\) and \d+ GB of memory$", lines[-2]):
        raise Wrong(f"its end: {lines[-2:]}")
    copy.run("tools/release", "--built")
    expect("nothing was proved" in copy.run("./first-run")[0], True, "that it takes the program of dist/")
    with open(os.path.join(copy.tree, "crates", "lazyset", "src", "main.rt"), "a", encoding="utf-8") as file:
        file.write("\n")
    expect(copy.run("./first-run")[0].startswith(f"proving {crates} crates"), True, "that it proves other sources")


def try_interrupted(program: Program, folder: str, top: str) -> None:
    """A first run that is interrupted while it proves leaves no temporary file."""
    copy = Copy(folder)
    copy.make(top)
    copy.give_kit(program, "1 passed, 0 failed", seconds=round(PATIENCE))
    with copy.start("./first-run", "--prove") as process:
        assert process.stdout is not None
        for line in process.stdout:
            if line.startswith("crate 1 of"):
                break
        os.killpg(process.pid, signal.SIGINT)
        expect(process.wait(PATIENCE / 4) != 0, True, "that it ends")
    expect(os.listdir(copy.room), [], "what it leaves of temporary files")


def try_tar(program: Program, folder: str, top: str) -> None:
    """The tar file of a release has a first run, which takes its program, and what `make install` takes."""
    needs("make", "tar")
    copy = Copy(folder)
    copy.make(top)
    built = os.path.join(copy.tree, "crates", "lazyset", "out")
    os.makedirs(built)
    shutil.copy(program.path, os.path.join(built, "lazyset"))
    copy.run("tools/release", "--built")
    packed = copy.run("tools/release", "--tar", folder)[-1]
    copy.run("tar", "-xf", packed, "-C", folder)
    release = os.path.join(folder, os.path.basename(packed)[: -len(".tar.gz")])
    first_run = os.path.join(release, "first-run")
    for _ in range(2):
        lines = copy.run(first_run)
        expect(lines[0], "took the program of dist/, which is the release's; nothing was proved here", "what a first run of the release says")
        expect(Program(lines[-1].partition("the program is ")[2]).run("--version"), program.run("--version"), "the program that it leaves")
    copy.run(first_run, "--prove", status=1)
    copy.run("make", "-s", "-C", release, "install", f"PREFIX={folder}/there")
    expect_named_pages(os.path.join(folder, "there", "share", "doc", "lazyset"))
    ended = Program(os.path.join(folder, "there", "bin", "lazyset")).run("--version")
    expect(ended, program.run("--version"), "the program that is installed")
