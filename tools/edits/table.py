"""What each crate has and costs: lines of its sources, specs and proofs, and seconds of a processor for its proofs."""

from __future__ import annotations

import os
import re
import threading
from typing import Dict, Iterator, Tuple

from edits import kit
from edits.citations import files

PARTS = ("src", "specs", "proofs")
# How often the processes are looked at, in seconds: what a process takes after the last look isn't seen.
PAUSE = 1.0
# The lines of each crate's proofs when the program of dist/ was made (tools/release), and by which part they may grow unnamed.
WRITTEN, MOST_GROWTH = os.path.join("tools", "proof-budget"), 0.05


class Watch:
    """Looks at the processes that begin meanwhile in a crate's folder: there the kit proves the crate, and its tests."""

    def __init__(self, top: str) -> None:
        self.top = os.path.realpath(top)
        self.before = set(self.processes())
        # The crate and the ticks of each process, by its number and start.
        self.seen: Dict[Tuple[str, str], Tuple[str, int]] = {}
        self.is_over = threading.Event()
        self.thread = threading.Thread(target=self.run, daemon=True)

    def __enter__(self) -> Watch:
        self.thread.start()
        return self

    def __exit__(self, *_: object) -> None:
        self.is_over.set()
        self.thread.join()

    def run(self) -> None:
        while not self.is_over.wait(PAUSE):
            self.seen.update({key: told for key, told in self.processes().items() if key not in self.before})

    def processes(self) -> Dict[Tuple[str, str], Tuple[str, int]]:
        return dict(self.found())

    def found(self) -> Iterator[Tuple[Tuple[str, str], Tuple[str, int]]]:
        """The processes in the folders of crates, with the crate and the ticks of each. There are none where no /proc is."""
        for number in filter(str.isdigit, os.listdir("/proc") if os.path.isdir("/proc") else ()):
            try:
                where = os.path.relpath(os.readlink(f"/proc/{number}/cwd"), self.top).split(os.sep)
                with open(f"/proc/{number}/stat", encoding="ascii", errors="replace") as text:
                    fields = text.read().rpartition(")")[2].split()
            except OSError:
                continue
            if where[0] == "crates" and len(where) == 2:
                yield (number, fields[19]), (where[1], int(fields[11]) + int(fields[12]))

    def seconds(self, name: str) -> float:
        return sum(ticks for crate, ticks in self.seen.values() if crate == name) / os.sysconf("SC_CLK_TCK")


def lines_of(crate: kit.Crate, part: str) -> int:
    """How many lines the files in a part of a crate have."""
    found = 0
    for path in files(crate.folder, (part,)):
        with open(f"{crate.folder}/{path}", "rb") as text:
            found += text.read().count(b"\n")
    return found


def rows(top: str, watch: Watch) -> Iterator[str]:
    """A table of the crates, each after those that it stands on. A crate of which the kit kept an earlier proof has no seconds."""
    yield f"{'crate':24}" + "".join(f"{it:>9}" for it in (*PARTS, "seconds"))
    crates = kit.crates(top)
    counts = [[lines_of(it, part) for part in PARTS] for it in crates]
    seconds = [watch.seconds(it.name) for it in crates]
    for name, lines, took in zip([*(it.name for it in crates), "all"], [*counts, map(sum, zip(*counts))], [*seconds, sum(seconds)]):
        yield f"{name:24}" + "".join(f"{it:9}" for it in lines) + (f"{took:9.0f}" if took else f"{'kept':>9}")


def grown(top: str) -> Iterator[str]:
    """The crates whose proofs have grown since they were written down."""
    path = os.path.join(top, WRITTEN)
    if not os.path.exists(path):
        return
    with open(path, encoding="ascii") as text:
        before = {name: int(lines) for name, lines in re.findall(r"^(\w+) (\d+)$", text.read(), re.M)}
    for crate in kit.crates(top):
        lines, then = lines_of(crate, "proofs"), before.get(crate.name, 0)
        if then and lines > then * (1 + MOST_GROWTH):
            yield f"{crate.name} has {lines} lines of proofs, and had {then} when the program of dist/ was made"
