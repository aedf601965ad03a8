"""The kit: its `rt`, whose crates, checks and words these tools take."""

from __future__ import annotations

import contextlib
import dataclasses
import functools
import heapq
import importlib.machinery
import importlib.util
import itertools
import os
import re
import resource
import shutil
import subprocess
import sys
import threading
import time
import types
from typing import Any, Dict, Iterator, List, Optional, Sequence, Tuple

# A crate as the kit reads it (rtlib.Crate): name, folder, deps, below(), is_built(), build_rlib().
Crate = Any

# What a check says of an item: `fn lz_slot::slot::key: proved`.
ITEM = re.compile(r"^(?:fn|struct|enum|impl|trait) (\S+): (.*)$", re.M)
# Said of a function that may be right, as what it calls is refused; and of an impl, as one of its methods is.
OF_ANOTHER = re.compile(r"(not proved;|no proof:) it (calls|waits for the proof of) ")
# Said of an item on whose proof the prover came to no end.
NO_VERDICT = "could not tell"
# A place that a check names, and what it says there.
PLACE = re.compile(r"(?:note: )?(?:\./)?((?:src|specs|proofs)/\S+?):(\d+):\d+: ?(.*)")
# Said of a proof file that names what an edit took away: it tells nothing of a contract.
OF_A_NAME = re.compile(r"has no field|is not in scope|has no `|was not admitted")
# What a check over kept work takes of the memory of one from nothing; how much of the free memory checks may take; and what a
# proof takes in one process (2.7 GB were seen).
OVER_KEPT, OF_FREE, MEMORY_OF_A_PROOF = 0.7, 0.85, 3_000_000_000
PRINTING = threading.Lock()


def say(text: str) -> None:
    """Prints a line; several threads may."""
    with PRINTING:
        print(text, flush=True)


@functools.lru_cache(maxsize=None)
def rt() -> types.ModuleType:
    """The kit's `rt` as a module."""
    place = shutil.which("rt")
    if place is None:
        sys.exit("the kit's command rt isn't on the path")
    loader = importlib.machinery.SourceFileLoader("rt_of_the_kit", os.path.realpath(place))
    spec = importlib.util.spec_from_loader(loader.name, loader)
    assert spec is not None
    made = importlib.util.module_from_spec(spec)
    loader.exec_module(made)
    return made


def start() -> None:
    """Has the kit's commands end when this process ends. Only the main thread may call it."""
    rt().rtlib.guarded()


def logic() -> str:
    """The sum of the kit's logic, by which it accepts a proof: the end of what `rt version` says. Its release stands before it."""
    with open(f"{rt().KIT}/KIT-ID", encoding="utf-8") as file:
        return file.read().split()[-1]


def crates(top: str) -> List[Crate]:
    """The crates of a repository, each after those that it stands on."""
    found: List[Crate] = rt().rtlib.crates_below(top)
    return found


def one_job_a_proof() -> None:
    """Has `rt ci` give each proof one job, where there is memory for one on each processor: so told, it doesn't look at the memory."""
    if rt().free() >= rt().processors() * MEMORY_OF_A_PROOF:
        os.environ.setdefault("RT_JOBS", str(rt().processors()))


def processor_seconds() -> float:
    """The processor time of all commands that have ended."""
    used = resource.getrusage(resource.RUSAGE_CHILDREN)
    return used.ru_utime + used.ru_stime


def tokens(paths: Sequence[str]) -> Optional[List[str]]:
    """The kit's tokens of files, one text for each, or None where one can't be read."""
    words = [rt().rtlib.RATTLE, "fmt", "--tokens", *paths]
    ran = subprocess.run(words, stdout=subprocess.PIPE, stderr=subprocess.DEVNULL, check=False)
    found = re.split(r"(?m)^file \d+\n", ran.stdout.decode("utf-8"))[1:]
    return None if ran.returncode or len(found) != len(paths) else found


def built(libraries: Sequence[Crate], lanes: int, is_after_ci: bool) -> Optional[Crate]:
    """Builds the libraries that aren't built, in lanes as below, and returns the first that isn't proved.

    `rt ci` leaves libraries with their statements alone, and no stamp: those fit each other, and are taken as they are.
    """
    if is_after_ci and all(os.path.isdir(it.rlib) and not os.path.exists(f"{it.folder}/out/rlib/stamp") for it in libraries):
        return None
    if all(it.is_built() for it in libraries):
        return None

    def build(library: Crate, given: Dict[Any, bool], jobs: int) -> bool:
        is_above_proved = all(given[it.name, "proof"] for it in library.below())
        return is_above_proved and not library.build_rlib(["--jobs", str(jobs)], anew=False)

    def task(library: Crate) -> Tuple[Any, ...]:
        waits = [(it.name, "proof") for it in library.below()]
        return waits, library.count(rb"\n"), rt().need(library), functools.partial(build, library)

    if lanes:
        os.environ["RT_JOBS"] = str(lanes)
    held = rt().rtlib.lock(libraries)
    try:
        given = rt().in_lanes({(it.name, "proof"): task(it) for it in libraries})
    finally:
        for it in held:
            os.close(it)
    return next((it for it in libraries if not given[it.name, "proof"]), None)


class Lanes:
    """Lanes in which checks go side by side: each takes one, as memory allows, and those of the longest crate come first."""

    def __init__(self, lanes: int, minutes: Optional[float] = None) -> None:
        """So many lanes, or (0) one a processor, for so many minutes, if there is an end."""
        self.idle, self.memory = lanes or rt().processors(), OF_FREE * rt().free()
        self.until = None if minutes is None else time.monotonic() + 60 * minutes
        self.running, self.is_closed = 0, False
        self.changed = threading.Condition()
        self.tickets = itertools.count()
        self.waiting: List[Tuple[float, int]] = []

    @contextlib.contextmanager
    def opened(self) -> Iterator[None]:
        """Has those who wait for a lane give up at the end, however it comes."""
        try:
            yield
        finally:
            with self.changed:
                self.is_closed = True
                self.changed.notify_all()

    @contextlib.contextmanager
    def lane(self, length: float, memory: float) -> Iterator[None]:
        """Waits for a lane. A check that takes more memory than there is goes by itself."""
        with self.changed:
            ticket = (-length, next(self.tickets))
            heapq.heappush(self.waiting, ticket)
            self.changed.wait_for(lambda: self.is_closed or self.waiting[0] == ticket and self.has_room(memory))
            if self.is_closed:
                raise InterruptedError
            heapq.heappop(self.waiting)
            self.take(1, memory)
        try:
            yield
        finally:
            with self.changed:
                self.take(-1, -memory)

    def are_over(self) -> bool:
        """Whether no further check is to begin."""
        return self.until is not None and time.monotonic() >= self.until

    def has_room(self, memory: float) -> bool:
        return self.idle > 0 and (not self.running or memory <= self.memory)

    def take(self, lanes: int, memory: float) -> None:
        self.idle, self.memory, self.running = self.idle - lanes, self.memory - memory, self.running + lanes
        self.changed.notify_all()


@dataclasses.dataclass
class Check:
    """What a check of a crate, with some texts in place of its own, came to."""

    status: int
    lines: List[str]
    said: Dict[str, str]
    # The first line on a text that the prover couldn't read.
    unread: str
    seconds: float

    def is_judged(self) -> bool:
        """Whether the prover read all, and came to a verdict."""
        is_refused = self.status == 1 and self.lines[-1].startswith("logic=not-proved")
        return not self.unread and (self.status == 0 or is_refused)

    def is_proved(self) -> bool:
        return self.status == 0

    def unproved(self) -> Dict[str, str]:
        """What isn't `proved`, nor proved with a remark (`proved, may wait`)."""
        return {it: said for it, said in self.said.items() if not re.match(r"proved\b", said)}

    def refused(self) -> Dict[str, str]:
        """What is refused for itself, and not with what it calls or has as a method."""
        return {it: said for it, said in self.unproved().items() if not OF_ANOTHER.match(said) and said != NO_VERDICT}


def check(crate: Crate, texts: Dict[str, str], kept: str) -> Check:
    """Checks a copy of a crate with these texts, over the work that is kept in a folder, and keeps its own there."""
    start = time.monotonic()
    ran = rt().checked(crate, texts, ["--jobs", "1"], kept)
    lines = ran.stdout.rstrip("\n").split("\n")
    stale = rt().rtlib.STALE.search(ran.stdout)
    unread = stale[0] if stale else next((it for it in lines if rt().unread(it, texts)), "")
    return Check(ran.returncode, lines, dict(ITEM.findall(ran.stdout)), unread, time.monotonic() - start)


def link_kept(start: str, end: str) -> None:
    """Gives a folder what another keeps. A check replaces the files that it keeps and writes over none, so links will do."""

    def link(old: str, new: str) -> None:
        try:
            os.link(old, new)
        except OSError:
            shutil.copy2(old, new)

    shutil.copytree(start, end, copy_function=link, dirs_exist_ok=True)
