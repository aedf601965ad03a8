"""Lists of keys that come in a stream: one that never ends, one at fault whose writer waits, and one that breaks off."""

from __future__ import annotations

import os
import resource
import subprocess
from subprocess import PIPE
from typing import Tuple

from trials.program import PATIENCE, Ended, Program
from trials.report import expect

# What the program's address space may take: a list that is kept whole doesn't fit.
MEMORY = 64 << 20

# More than the program may take of an endless list: 65,536 keys, what one read takes, and what a pipe holds.
MOST_TAKEN = 1 << 20

# The beginnings of lists, and what is told of them while their writer keeps the pipe open.
AT_FAULT: Tuple[Tuple[bytes, str], ...] = (
    (b"x\n", "line 1\n"),
    (b"17\n5\n\n", "line 3\n"),
    (b"17\n5\n0:17\nx\n", "twice 3\n"),
    (b"17\n" + b"1" * 23, "line 2\n"),
    (b"15:999999999999999999\r\n15:999999999999999999\r\n\n", "twice 2\n"),
)

# Lists whose writer repeats them without end: keys that stand twice are looked for each time that there are four times as many.
REPEATED: Tuple[Tuple[bytes, str], ...] = (
    (b"17\n", "twice 2\n"),
    (b"".join(b"%d\n" % key for key in range(1, 1001)), "twice 1001\n"),
)


def limit() -> None:
    resource.setrlimit(resource.RLIMIT_AS, (MEMORY, MEMORY))


def start(program: Program, folder: str, given: int) -> subprocess.Popen[bytes]:
    words = (program.path, "make", os.path.join(folder, "f"), "5", "--keys")
    return subprocess.Popen(words, stdin=given, stdout=PIPE, stderr=subprocess.DEVNULL, preexec_fn=limit)


def end(process: subprocess.Popen[bytes]) -> Ended:
    """What it printed, and its status, while its input stays as it is."""
    assert process.stdout is not None
    with process.stdout as output:
        status = process.wait(PATIENCE)
        return Ended(output.read().decode("ascii"), status)


def pour(process: subprocess.Popen[bytes], piece: bytes) -> int:
    """Writes the piece again and again, up to the reader's end, and tells how many bytes were taken."""
    assert process.stdin is not None
    taken = 0
    try:
        while taken < 2 * MOST_TAKEN:
            taken += os.write(process.stdin.fileno(), piece)
    except BrokenPipeError:
        pass
    return taken


def try_endless(program: Program, folder: str) -> None:
    """A line without an end is refused at its first bytes, in little memory."""
    with open("/dev/zero", "rb") as zeros:
        expect(end(start(program, folder, zeros.fileno())), Ended("line 1\n", 3), "NULs without end")
    for piece in (b"y" * 4096, b"1" * 4096, b"\r" * 4096):
        process = start(program, folder, PIPE)
        taken = pour(process, piece)
        expect(end(process), Ended("line 1\n", 3), f"{piece[:1]!r} without end")
        expect(taken < MOST_TAKEN, True, f"{taken} bytes were taken")


def try_repeated(program: Program, folder: str) -> None:
    """A list that repeats its lines without end is refused at the first that stands twice."""
    for piece, told in REPEATED:
        process = start(program, folder, PIPE)
        taken = pour(process, piece * (4096 // len(piece) + 1))
        expect(end(process), Ended(told, 3), f"{piece[:8]!r} without end")
        expect(taken < MOST_TAKEN, True, f"{taken} bytes were taken")


def try_early(program: Program, folder: str) -> None:
    """A line at fault is told before the list ends, and so is a key above it that stands twice."""
    for text, told in AT_FAULT:
        process = start(program, folder, PIPE)
        assert process.stdin is not None
        with process.stdin as pipe:
            os.write(pipe.fileno(), text)
            expect(end(process), Ended(told, 3), f"{text!r}, and no end")


def try_broken(program: Program, folder: str) -> None:
    """A list that breaks off within a line isn't made, and neither is one that can't be read."""
    for text, told in ((b"17\n5", "line 2\n"), (b"1" * 22, "line 1\n"), (b"17\n" * 2 + b"5", "twice 2\n")):
        expect(program.run("make", os.path.join(folder, "f"), "5", "--keys", lines=text), Ended(told, 3), f"{text!r}, broken off")
    place = os.open(folder, os.O_RDONLY)
    try:
        expect(end(start(program, folder, place)), Ended("noread\n", 1), "a folder for a list")
    finally:
        os.close(place)


def try_streams(program: Program, folder: str) -> None:
    for trial in (try_endless, try_repeated, try_early, try_broken):
        trial(program, folder)
