"""The lines that tell how each trial went, and their count."""

from __future__ import annotations

import enum
import inspect
import os
import sys
import time
import traceback
from dataclasses import dataclass, field
from typing import Callable, List, Sequence


class Wrong(Exception):
    """What a trial found wrong."""


class Skip(Exception):
    """What a trial needs and this machine hasn't."""


def expect(found: object, wanted: object, what: str) -> None:
    """Ends the trial where something else was found than wanted."""
    if found != wanted:
        raise Wrong(f"{what}: found {found!r:.400}, wanted {wanted!r:.400}")


def said_of(trial: Callable[[], None]) -> str:
    """The first sentence of what the function that a trial calls says of itself; empty where it says nothing."""
    known = inspect.getclosurevars(trial)
    modules = [it for it in known.globals.values() if inspect.ismodule(it)]
    named = [getattr(module, name, None) for module in modules for name in trial.__code__.co_names]
    texts = [inspect.getdoc(it) or "" for it in (*known.nonlocals.values(), *named) if inspect.isfunction(it)]
    text = next(filter(None, texts), "")
    return " ".join(text.split()).partition(". ")[0].rstrip(".")


class End(enum.IntEnum):
    """How a trial ended, as the status of its process."""

    PASSED = 0
    FAILED = 1
    SKIPPED = 2


def end_of(name: str, trial: Callable[[], None]) -> End:
    """Runs one trial, and tells its end in a line."""
    start = time.monotonic()
    try:
        trial()
    except Skip as missing:
        print(f"skipped  {name}: {missing}")
        return End.SKIPPED
    except Exception as error:
        print(f"FAILED   {name}: {type(error).__name__}: {error}")
        if not isinstance(error, Wrong):
            traceback.print_exc(file=sys.stdout)
        return End.FAILED
    print(f"passed   {name}, {time.monotonic() - start:.1f} s")
    return End.PASSED


@dataclass
class Report:
    """How many trials passed, failed and were skipped, and which are tried at all. One that lists runs none.

    Each trial has a process of its own, and as many run side by side as there are lanes. One whose name has a word of `quiet`, as it measures
    time or memory, has no other beside it.
    """

    only: str = ""
    lists: bool = False
    lanes: int = 1
    quiet: Sequence[str] = ()
    ends: List[End] = field(default_factory=list)
    running: int = 0
    left_out: List[str] = field(default_factory=list)

    def run(self, name: str, trial: Callable[[], None]) -> None:
        """Begins one trial, once there is a lane for it."""
        if self.only not in name:
            self.left_out.append(name)
            return
        if self.lists:
            said = said_of(trial)
            print(f"{name}: {said}" if said else name)
            return
        is_quiet = any(word in name for word in self.quiet)
        self.wait(0 if is_quiet else self.lanes - 1)
        sys.stdout.flush()
        if os.fork() == 0:
            end = End.FAILED
            try:
                end = end_of(name, trial)
            finally:
                sys.stdout.flush()
                os._exit(end)
        self.running += 1
        if is_quiet:
            self.wait(0)

    def wait(self, most: int) -> None:
        """Waits until at most this many trials run."""
        while self.running > most:
            _, status = os.wait()
            self.running -= 1
            known = os.WIFEXITED(status) and os.WEXITSTATUS(status) in [*End]
            self.ends.append(End(os.WEXITSTATUS(status)) if known else End.FAILED)

    @property
    def failed(self) -> int:
        return self.ends.count(End.FAILED)

    def closing_line(self) -> str:
        skipped = self.ends.count(End.SKIPPED)
        counts = f"{self.ends.count(End.PASSED)} passed, {self.failed} failed"
        return f"{counts}, {skipped} skipped" if skipped else counts
