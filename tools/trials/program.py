"""The program's commands, and its service as a process."""

from __future__ import annotations

import os
import re
import signal
import subprocess
from dataclasses import dataclass
from typing import IO, List, NamedTuple, Optional, Sequence, Tuple, Union

from trials.report import Wrong, expect

# How long any command may take that has an end.
PATIENCE = 60.0

# What stands before a line of a log that has its time.
TIME = re.compile(r"^\d{4}-\d\d-\d\dT\d\d:\d\d:\d\dZ ", re.M)


def untimed(log: str) -> str:
    """What a log says, without the times of its lines."""
    return TIME.sub("", log)


class Key(NamedTuple):
    """A key, in the order of keys."""

    room: int
    number: int

    @classmethod
    def read(cls, text: str) -> Key:
        room, colon, number = text.rpartition(":")
        return cls(int(room) if colon else 0, int(number))

    def __str__(self) -> str:
        return f"{self.room}:{self.number}" if self.room else f"{self.number}"


class Ended(NamedTuple):
    """What a command printed, and its status."""

    text: str
    status: int


def not_within(name: str, number: int, most: int) -> Ended:
    """What is said of a number of the command line that isn't 1 to the most."""
    return Ended(f"error: invalid value '{number}' for '{name}': {number} is not in 1..={most}\n\nFor more information, try '--help'.\n", 2)


@dataclass(frozen=True)
class Program:
    """The built program."""

    path: str

    def run(self, *words: str, lines: Union[str, bytes] = "", before: Sequence[str] = (), patience: float = PATIENCE) -> Ended:
        """Runs a command to its end, behind the words of another program where some are given."""
        return self.run_loud(*words, lines=lines, before=before, patience=patience)[0]

    def run_loud(
        self, *words: str, lines: Union[str, bytes] = "", before: Sequence[str] = (), patience: float = PATIENCE
    ) -> Tuple[Ended, str]:
        """The same, and what the command says on standard error."""
        ended = subprocess.run(
            [*before, self.path, *words],
            input=lines.encode("ascii") if isinstance(lines, str) else lines,
            stdout=subprocess.PIPE,
            stderr=subprocess.PIPE,
            timeout=patience,
        )
        return Ended(ended.stdout.decode("ascii"), ended.returncode), os.fsdecode(ended.stderr)

    def make(self, file: str, slots: int, form: Optional[int] = None) -> None:
        """Makes a file, of the format that stands where none is named, or of this one."""
        words = ("--format", str(form)) if form else ()
        expect(self.run("make", file, str(slots), *words), Ended(f"made {slots}\n", 0), "make")

    def members(self, file: str) -> List[Key]:
        """The keys that a file holds, ascending."""
        text, status = self.run("check", file)
        lines = text.splitlines()
        if status != 0 or lines[-1:] != ["good"]:
            raise Wrong(f"check: status {status}, {text[-200:]!r}")
        return sorted(Key.read(line.split(" key ")[1]) for line in lines[:-1])

    def judge(self, file: str) -> Ended:
        return self.run("judge", file)


class Service:
    """The program serving a file, as a process of its own. Without passes, or without a port too, it chooses them."""

    def __init__(
        self,
        program: Program,
        file: str,
        passes: Optional[int],
        *options: str,
        before: Sequence[str] = (),
        log: Union[int, IO[str]] = subprocess.DEVNULL,
        kept: Sequence[int] = (),
        port: str = "0",
    ) -> None:
        self.process = subprocess.Popen(
            [*before, program.path, "serve", file, *filter(None, (port, "" if passes is None else str(passes))), *options],
            stdout=subprocess.PIPE,
            stderr=log,
            text=True,
            start_new_session=True,
            pass_fds=kept,
        )
        assert self.process.stdout is not None
        self.told = self.process.stdout.readline()
        place = self.told.partition("listening ")[2].rstrip("\n")
        self.port = int(place) if place.isdigit() else 0

    def __enter__(self) -> Service:
        return self

    def __exit__(self, *_: object) -> None:
        self.kill()

    def kill(self) -> None:
        """Kills it, with whatever it was started behind, where it goes on yet."""
        if self.process.poll() is None:
            os.killpg(self.process.pid, signal.SIGKILL)
        self.wait()

    def wait(self) -> Optional[int]:
        """Waits for its end, and gives its status."""
        status = self.process.wait(PATIENCE)
        if self.process.stdout is not None:
            self.process.stdout.close()
        return status
