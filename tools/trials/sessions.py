"""Sessions of a run: stored transcripts, whole and in pieces, and lines at each limit."""

from __future__ import annotations

import os
import random
import subprocess
from contextlib import suppress
from typing import List, Tuple

from trials import transcripts
from trials.files import bytes_in, changed, put
from trials.plain import FORMATS, MOST_BUCKETS, Plain, Survey
from trials.program import PATIENCE, Ended, Program, Service, not_within
from trials.report import Skip, expect
from trials.transcripts import Transcript

MILLION = 10**6

# A made file of one slot.
EMPTY = Plain(2, 1).file()

# Texts that aren't lines of words each, and what they are answered.
TEXTS = (
    (b"", ""),
    (b"\n", "bad 2\n"),
    (b"has \n", "bad 3\n"),
    (b"has 1", "bad 5\n"),
    (b"has 1\r", "bad 5\n"),
    (b"quit", "bad 5\n"),
    (b"quit\r\n", ""),
    (b"add 3\nquit\nadd 4\n", "yes\n"),
    (b"add 17\nremove 17", "yes\nbad 5\n"),
    (b"a" * MILLION, "bad 5\n"),
    (b"a" * MILLION + b"\nhas 1\n", "bad 1\nno\n"),
    (b"has " + b"1" * 60 + b"\r\n", "bad 4\n"),
    (b"has " + b"1" * 61 + b"\r\n", "bad 1\n"),
)


def run_in_pieces(program: Program, words: List[str], text: bytes, step: int, folder: str) -> Ended:
    """Runs a command whose reads of its input give so many bytes each: a pipe that keeps each write by itself."""
    if not hasattr(os, "O_DIRECT"):
        raise Skip("no pipe keeps writes apart here")
    into, out_of = os.pipe2(os.O_DIRECT | os.O_CLOEXEC)
    with open(os.path.join(folder, "printed"), "w+b") as printed:
        with subprocess.Popen([program.path, *words], stdin=into, stdout=printed, stderr=subprocess.DEVNULL) as process:
            os.close(into)
            with os.fdopen(out_of, "wb", buffering=0) as pipe, suppress(BrokenPipeError):
                for start in range(0, len(text), step):
                    pipe.write(text[start : start + step])
            status = process.wait(PATIENCE)
        printed.seek(0)
        return Ended(printed.read().decode("ascii"), status)


def expect_answered(program: Program, folder: str, made: Tuple[int, int], text: bytes, told: str) -> None:
    """A run over a new file answers so, over one list of keys and over seven, whole and in pieces, and leaves the file that the
    plain set leaves."""
    form, slots = made
    file = os.path.join(folder, "session")
    plain = Plain(form, slots)
    empty = plain.file()
    expect(plain.replies(text), told, f"the plain set's replies to {text[:200]!r}")
    for buckets, step in ((1, 0), (7, 0), (1, 1), (7, 3), (4096, 0)):
        words = ["run", file, "--buckets", str(buckets)]
        with open(file, "wb") as new:
            new.write(empty)
        if step and len(text) < MILLION:
            ended = run_in_pieces(program, words, text, step, folder)
        else:
            ended = program.run(*words, lines=text)
        what = f"{text[:200]!r}, {buckets} lists, pieces of {step}"
        expect(ended, Ended(told, 0), what)
        with open(file, "rb") as left:
            expect(left.read(), plain.file(), f"the file behind {what}")
        expect(program.run("check", file), Ended(*Survey(plain.file()).checked()), f"a check behind {what}")


def try_transcript(program: Program, folder: str, transcript: Transcript, draw: random.Random) -> None:
    """The whole and a beginning, with lines that end by a line feed alone or by both characters."""
    for form in transcript.formats:
        for count, ending in ((None, "\n"), (None, "\r\n"), (draw.randint(1, len(transcript.exchanges)), "\n")):
            asked, told = transcript.first(count, ending)
            expect_answered(program, folder, (form, transcript.slots), asked.encode(), told)


def try_sessions(program: Program, folder: str, seed: int) -> None:
    """Each of the stored sessions, and texts that aren't lines of words."""
    draw = random.Random(seed)
    for transcript in transcripts.stored("sessions"):
        try_transcript(program, folder, transcript, draw)
    for text, told in TEXTS:
        for form in FORMATS:
            expect_answered(program, folder, (form, 2), text, told)


def try_other_lists(program: Program, folder: str) -> None:
    """What was added over four lists of keys is found over any other number of them."""
    file = os.path.join(folder, "lists")
    program.make(file, 8)
    added = program.run("run", file, "--buckets", "4", lines="add 3\nadd 4\nadd 7\n")
    expect(added, Ended("yes\nyes\nyes\n", 0), "additions over four lists")
    for buckets in (1, 2, 4, 7, 4095, 4096):
        found = program.run("run", file, "--buckets", str(buckets), lines="has 3\nhas 4\nhas 7\nhas 8\n")
        expect(found, Ended("yes\nyes\nyes\nno\n", 0), f"look-ups over {buckets} lists")


def no_buckets(buckets: int, most: int) -> Ended:
    """What is said of more lists than there may be, or of none."""
    return not_within("--buckets <B>", buckets, most)


def try_most_lists(program: Program, folder: str) -> None:
    """A file of format 3 may have a million lists, the others 4,096. More are refused as the command line refuses a number, once
    the file is open, and nothing is answered; a file with a fault in its head is refused for that."""
    file = os.path.join(folder, "most-lists")
    lines, told = "add 17\nhas 17\nhas 1048593\n", "yes\nyes\nno\n"
    for form, buckets in ((form, buckets) for form in FORMATS for buckets in (0, 4_096, 4_097, 1_048_576, 1_048_577)):
        plain = Plain(form, 2)
        wanted = Ended(told, 0)
        if not 1 <= buckets <= MOST_BUCKETS[3]:
            wanted = no_buckets(buckets, MOST_BUCKETS[3])
        elif buckets > MOST_BUCKETS[form]:
            wanted = no_buckets(buckets, MOST_BUCKETS[form])
        else:
            plain.replies(lines.encode())
        put(file, Plain(form, 2).file())
        what = f"{buckets} lists over a file of format {form}"
        expect(program.run("run", file, "--buckets", str(buckets), lines=lines), wanted, f"a run with {what}")
        expect(bytes_in(file), plain.file(), f"the file behind a run with {what}")
        if wanted.status:
            expect(program.run("serve", file, "0", "2", "--buckets", str(buckets)), wanted, f"a service with {what}")
        else:
            with Service(program, file, 2, "--buckets", str(buckets)) as service:
                expect(service.told.split()[:1], ["listening"], f"a service with {what}")
    for text in (b"", changed(EMPTY, 7, 0x39), EMPTY + b"\0", changed(EMPTY, 15, 0), changed(EMPTY, 0, 0)):
        put(file, text)
        expect(program.run("run", file, "--buckets", "4097"), Ended(*Survey(text).opened()), f"a run with 4,097 lists on {text!r}")
