"""What the system keeps of a file in memory, and never got to its disk: an open reads what is on the disk."""

from __future__ import annotations

import os
import re
from typing import List

from trials.faults import needs_strace
from trials.files import bytes_in, put
from trials.fuse_disk import FuseDisk, mounted
from trials.program import Ended, Program
from trials.report import Skip, expect

# For each format the write to the disk which opens the slot of an addition.
OPENINGS = ((1, 2), (2, 2), (3, 2), (4, 1))


def try_order(program: Program, folder: str) -> None:
    """An open locks the file, syncs it, has the system forget what it keeps of it, and then reads it whole."""
    needs_strace()
    file, log = os.path.join(folder, "f"), os.path.join(folder, "log")
    for form in (2, 4):
        for words in (("run", file), ("grow", file, "9"), ("renew", file, f"{file}.new", "9")):
            for path in (file, f"{file}.new"):
                put(path, b"")
            program.make(file, 8, form)
            expect(program.run(*words, before=["strace", "-f", "-qq", "-o", log, "-P", file]).status, 0, words[0])
            calls = calls_in(log)
            before, after = calls[: calls.index("fdatasync")], calls[calls.index("fdatasync") :]
            expect("flock" in before, True, f"that {words[0]} has locked the file by then")
            expect((after[1], "flock" in after, "pread64" in after), ("fadvise64", False, True), f"what follows the first sync of {words[0]}: {after}")
            expect(calls.count("fadvise64"), 1, f"how often {words[0]} has the system forget")


def calls_in(log: str) -> List[str]:
    with open(log, encoding="ascii", errors="replace") as traced:
        return re.findall(r"^\d+ +(flock|fdatasync|fadvise64|pread64)\(", traced.read(), re.M)


def try_failed_sync(program: Program, folder: str) -> None:
    """A sync fails over the kernel's own cache, which keeps the bytes. The next open tells what the disk holds, and a loss of power
    changes nothing of that."""
    if os.getuid() != 0:
        raise Skip("only root may mount a file system")
    for form, opening in OPENINGS:
        made = os.path.join(folder, f"made-{form}")
        program.make(made, 4, form)
        disk = FuseDisk(bytes_in(made))
        with mounted(disk, os.path.join(folder, f"disk-{form}")) as file:
            disk.fails_from = opening
            expect(program.run("run", file, lines="add 1\n"), Ended("halted\n", 1), f"an addition over a disk that fails, in format {form}")
            expect(disk.writes, opening, "how many writes got to the disk")
            disk.fails_from = None
            expect(program.run("run", file, lines="has 1\nadd 2\n"), Ended("no\nyes\n", 0), f"what the next life tells in format {form}")
        left = os.path.join(folder, f"left-{form}")
        put(left, bytes(disk.data))
        expect([str(key) for key in program.members(left)], ["2"], f"what a loss of power leaves in format {form}")


TRIALS = (
    ("an open reads the disk", try_order),
    ("an open after a sync that failed", try_failed_sync),
)
