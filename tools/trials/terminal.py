"""What a terminal shows of work that takes its time: the share that is done, of which nothing is left."""

from __future__ import annotations

import os
import pty
import re
import subprocess
import threading
from contextlib import contextmanager, suppress
from typing import Iterator, List, Tuple

from trials.copied_shapes import PAGES, ROWS
from trials.copies import endless, told
from trials.faults import needs_strace
from trials.files import put
from trials.plain import held
from trials.plain_frames import bulk
from trials.program import PATIENCE, Ended, Key, Program, untimed
from trials.report import expect

# Slots that take eight reads, each of which is slowed by so many microseconds.
SLOTS, SLOW = 2048, 400_000

# What the start of a line and its emptying look like.
CLEARED = "\r\x1b[K"


@contextmanager
def terminal() -> Iterator[Tuple[int, List[str]]]:
    """A terminal to write to, and what was written to it, once its writers have ended."""
    ours, theirs = pty.openpty()
    written: List[str] = []

    def read_all() -> None:
        with suppress(OSError):
            for piece in iter(lambda: os.read(ours, 65_536), b""):
                written.append(piece.decode())

    thread = threading.Thread(target=read_all)
    thread.start()
    try:
        yield theirs, written
    finally:
        os.close(theirs)
        thread.join(PATIENCE)
        os.close(ours)


def expect_shares(text: str, name: str, what: str) -> None:
    """Some shares are shown, none is less than one before it, and the line is empty again."""
    found = [int(share) for share in re.findall(rf"\r{re.escape(name)}: (\d+) %\x1b\[K", text)]
    expect((len(found) > 1, found == sorted(found), max(found, default=0) < 100), (True, True, True), f"that {found} are the shares of {what}")
    expect(text.rindex(CLEARED) > text.rindex(f"{found[-1]} %"), True, f"that the shares of {what} are gone")


def try_fault(program: Program, folder: str) -> None:
    """A command line that isn't understood is told once where both outputs are a terminal, and on both where they aren't."""
    ended, said = program.run_loud("frob")
    first = ended.text.splitlines()[0]
    expect((ended.status, said), (2, f"lazyset: {first}\n"), "a fault without a terminal")
    with terminal() as (theirs, written):
        subprocess.run([program.path, "frob"], stdin=subprocess.DEVNULL, stdout=theirs, stderr=theirs, timeout=PATIENCE)
    expect("".join(written), ended.text.replace("\n", "\r\n"), "what a terminal shows")


def slowed() -> List[str]:
    return ["strace", "-f", "-qq", "-o", os.devnull, "-e", "trace=pread64", "-e", f"inject=pread64:delay_exit={SLOW}"]


def try_run(program: Program, folder: str) -> None:
    """The opening of a run shows its share on a terminal, and nowhere else."""
    needs_strace()
    file = os.path.join(folder, "f")
    put(file, held(4, SLOTS, [Key(0, key) for key in range(5)]))
    words = [*slowed(), program.path, "run", file]
    with terminal() as (theirs, written):
        ended = subprocess.run(words, input=b"has 4\n", stdout=subprocess.PIPE, stderr=theirs, timeout=PATIENCE)
    expect((ended.stdout, ended.returncode), (b"yes\n", 0), "a run whose reads are slow")
    expect_shares("".join(written), file, "a run")
    expect(program.run_loud("run", file, lines="has 4\n", before=slowed()), (Ended("yes\n", 0), ""), "a run without a terminal")


def try_serve(program: Program, folder: str) -> None:
    """The opening of each kind of service shows its share, and its log stays whole."""
    needs_strace()
    file = os.path.join(folder, "f")
    control = f"{file}.control"
    put(file, held(4, SLOTS, [Key(0, key) for key in range(5)]))
    for words in (("0", "1"), ("0", "2", "--connections", "3"), ("0",), ("0", "--text=adopt")):
        what = f"a service {' '.join(words)}"
        with terminal() as (theirs, written):
            command = [*slowed(), program.path, "serve", file, *words, "--control", control]
            process = subprocess.Popen(command, stdin=subprocess.DEVNULL, stdout=subprocess.PIPE, stderr=theirs, text=True, start_new_session=True)
            assert process.stdout is not None
            expect(process.stdout.readline()[:10], "listening ", what)
            expect(program.run("stop", control), Ended("", 0), "the stop")
            expect(process.wait(PATIENCE), 0, f"the status of {what}")
            process.stdout.close()
        text = "".join(written)
        expect_shares(text, file, what)
        lines = untimed(re.sub(r"\r[^\r\n]*\x1b\[K", "", text.replace("\r\n", "\n"))).splitlines()
        begins = [line.replace(f"{file}: ", "").split(" ")[0] for line in lines]
        expect(begins, ["opening", "opened", "serving:", "asked", "stopped:"], f"the log of {what}")


def try_copy(program: Program, folder: str) -> None:
    """A copy shows how far the service was asked, on a terminal and nowhere else."""
    file = os.path.join(folder, "f")
    pages = (told(10, 3), *map(told, range(20, 70, 10)), *PAGES)
    for replies, words in (((bulk(ROWS), *pages), ()), (pages, ("70",)), ((bulk(ROWS), *pages), ("--replace",))):
        if not words or words[0] != "--replace":
            put(file, None)
        with terminal() as (theirs, written), endless(replies, 0.5) as port:
            command = [program.path, "copy", str(port), file, *words]
            ended = subprocess.run(command, stdin=subprocess.DEVNULL, stdout=subprocess.PIPE, stderr=theirs, timeout=PATIENCE)
        expect((ended.stdout, ended.returncode), (b"copied 3\n", 0), f"a slow copy {words}")
        expect_shares("".join(written), str(port), f"a copy {words}")
    put(file, None)
    with endless((bulk(ROWS), *pages), 0.5) as port:
        expect(program.run_loud("copy", str(port), file), (Ended("copied 3\n", 0), ""), "a copy without a terminal")


TRIALS = (
    ("what a terminal shows of a fault", try_fault),
    ("what a terminal shows of a run", try_run),
    ("what a terminal shows of a service", try_serve),
    ("what a terminal shows of a copy", try_copy),
)
