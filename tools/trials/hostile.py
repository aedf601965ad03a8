"""Lines, files, lists, scripts and histories of every length and byte pattern. Each has the answer that docs/FORMATS.md says."""

from __future__ import annotations

import os
import re
import socket
from collections import Counter
from dataclasses import dataclass
from typing import Counter as Count
from typing import Optional

from trials import guests
from trials.explained import story_of, unexplained
from trials.files import bytes_in, put
from trials.noise import KINDS as NOISE_KINDS
from trials.noise import Noise
from trials.plain import FORMATS, MOST_LINE, VERBS, Plain, Survey, head_of, made_of_list, read_key, read_range, renewed
from trials.program import Ended, Program, Service
from trials.report import Wrong, expect
from trials.verdicts import MOST_ACTORS, judged

# How many inputs of each kind there are where another number isn't asked for.
INPUTS = 5000

# So many inputs of lines are one session's.
BATCH = 10

SLOTS = 2

MOST_TURNS = 1_000_000
MOST_PART = 9_999

KINDS = [kind.encode() for kind in NOISE_KINDS]

KEY = r"(?:\d+:)?\d+"

# What a line of a rehearsal may be.
SEEN = re.compile(
    rf"call \d+ \d+ (?:add|remove|has) {KEY}|answer \d+ (?:yes|no)|refused \d+ (?:full|worn|oldfile)|(?:halted|device|busy) \d+"
    rf"|stop|crash|open fault 7|(?:open|show)(?: {KEY})*"
)


@dataclass
class Drawn:
    """How many inputs there are, and what they are drawn from; how often each status came."""

    count: int
    seed: int

    def noise(self, kind: int) -> Noise:
        return Noise(self.seed * 8 + kind)


def tell(what: str, came: Count[str]) -> None:
    """Says how often each kind of answer came."""
    counts = ", ".join(f"{count} {name}" for name, count in sorted(came.items()))
    print(f"         {what}: {counts}", flush=True)


def expect_all(came: Count[str], names: str, count: int) -> None:
    """Each of these kinds came, where there were many inputs."""
    missing = [name for name in names.split() if not came[name]]
    if missing and count >= 500:
        raise Wrong(f"no input was answered {missing}")


def try_lines(program: Program, folder: str, drawn: Drawn) -> None:
    """Sessions of many inputs, and of one: replies and files are those of a plain set, over one list of keys or over several; a
    service answers as the run does."""
    noise = drawn.noise(1)
    came: Count[str] = Counter()
    file = os.path.join(folder, "lines")
    for number in range(drawn.count):
        form, buckets = noise.draw.choice(FORMATS), noise.draw.choice((1, 7))
        batch = [noise.ended_lines() for _ in range(BATCH - 1)] if number % 8 else []
        text = b"".join([*batch, noise.lines()])
        plain = Plain(form, SLOTS)
        put(file, plain.file())
        told = plain.replies(text)
        ended = program.run("run", file, "--buckets", str(buckets), lines=text)
        expect(ended, Ended(told, 0), f"input {number}, {text!r}")
        expect(bytes_in(file), plain.file(), f"the file behind input {number}, {text!r}")
        came.update(reply.replace(" ", "_") for reply in told.splitlines())
    expect_all(came, "yes no full oldfile bad_1 bad_2 bad_3 bad_4 bad_5 bad_6", drawn.count)
    tell(f"{drawn.count} sessions of {sum(came.values())} lines", came)


def try_served_lines(program: Program, folder: str, drawn: Drawn, *options: str) -> None:
    """Sessions of a service, one behind the other on one file: the replies are those of a plain set."""
    noise = drawn.noise(2)
    file = os.path.join(folder, "served")
    plain = Plain(2, SLOTS)
    put(file, plain.file())
    with Service(program, file, 1, "--buckets", "7", *options) as service:
        for number in range(drawn.count // 2):
            text = noise.lines()
            with guests.connect(service.port) as connection:
                connection.sendall(text)
                connection.shutdown(socket.SHUT_WR)
                expect(guests.received(connection).decode("ascii"), plain.replies(text), f"input {number}, {text!r}")
    expect(bytes_in(file), plain.file(), "the file behind all sessions")


def try_files(program: Program, folder: str, drawn: Drawn) -> None:
    """Each file is checked, opened, and now and then renewed: as it is read by an independent reader."""
    noise = drawn.noise(3)
    came: Count[str] = Counter()
    old, new = os.path.join(folder, "old"), os.path.join(folder, "new")
    before: Optional[bytes] = None
    for number in range(drawn.count):
        text = noise.file()
        survey = Survey(text)
        put(old, text)
        what = f"file {number}, {text[:400]!r}"
        expect(program.run("check", old), Ended(*survey.checked()), f"a check of {what}")
        expect(program.run("check", old, "--keys"), Ended(*survey.listed()), f"the keys of {what}")
        expect(program.run("info", old), Ended(*survey.counted()), f"an info of {what}")
        expect(program.run("run", old), Ended(*survey.opened()), f"a run on {what}")
        if before is not None and number % 4 == 0:
            put(new, before)
            compared = Survey(before).compared(survey)
            expect(program.run("check", new, "--of", old), Ended(*compared), f"{before!r} beside {what}")
            slots, form = noise.draw.randrange(6), noise.draw.choice((2, 3))
            told, left = renewed(text, before, slots, form)
            ended = program.run("renew", old, new, str(slots), "--format", str(form))
            expect(ended, Ended(told, 0 if told.startswith("renewed") else 3), f"renewing {what} onto {before!r}")
            expect(bytes_in(new), left, f"the new file behind renewing {what}")
        expect(bytes_in(old), text, f"{what} behind the commands")
        came[survey.checked()[0].splitlines()[-1].replace(" ", "_")] += 1
        before = text if noise.one_in(2) else b""
    expect_all(came, "good damaged refused_1 refused_2 refused_3 refused_4", drawn.count)
    tell(f"{drawn.count} files", came)


# What a making may find, beside no file: nothing, a first byte that was written, zeros, a longer file, and a set.
FOUND = (b"", b"\xa5", bytes(48), bytes(1000), head_of(2, 1) + bytes(16))


def try_lists(program: Program, folder: str, drawn: Drawn) -> None:
    """Each list makes a file of its keys, or is refused and makes none, as an independent reader says."""
    noise = drawn.noise(6)
    came: Count[str] = Counter()
    file = os.path.join(folder, "listed")
    for number in range(drawn.count):
        listed, form, slots = noise.list(), noise.draw.choice(FORMATS), noise.draw.randrange(12)
        before = noise.draw.choice(FOUND) if noise.one_in(4) else None
        put(file, before)
        told, left = made_of_list(before or b"", form, slots, listed)
        ended = program.run("make", file, str(slots), "--format", str(form), "--keys", lines=listed)
        what = f"list {number}, {listed!r}, in {slots} slots of format {form} over {before!r}"
        expect(ended, Ended(told, 0 if told.startswith("made") else 3), what)
        is_there = before is not None or ended.status == 0
        expect(bytes_in(file) if os.path.exists(file) else None, left if is_there else None, f"the file behind {what}")
        came["_".join(told.split()[: 2 if told.startswith("refused") else 1])] += 1
    expect_all(came, "made line twice refused_1 refused_2 refused_4 refused_9", drawn.count)
    tell(f"{drawn.count} lists", came)


def reads(line: bytes) -> bool:
    """Whether a line of a script reads."""
    words = line.split(b" ")
    if len(line) > MOST_LINE or line in (b"trip", b"stop", b"open", b"show"):
        return len(line) <= MOST_LINE
    if words[0] == b"crash" and len(words) == 3 and words[1] == b"part":
        return read_range(words[2], 0, MOST_PART) is not None
    if words[0] == b"crash" and len(words) == 2:
        return words[1] in (b"old", b"new") or re.fullmatch(rb"[0-9a-f]{2}", words[1]) is not None
    if len(words) < 2 or read_range(words[1], 1, MOST_ACTORS) is None:
        return False
    if words[0] == b"call" and len(words) == 4:
        return words[2] in VERBS and not isinstance(read_key(words[3]), int)
    if words[0] == b"turn" and len(words) == 3:
        return read_range(words[2], 1, MOST_TURNS) is not None
    if words[0] == b"until" and len(words) == 3:
        return words[2] in KINDS
    return words[0] == b"finish" and len(words) == 2


def first_unread(script: bytes) -> int:
    """The number of a script's first line that doesn't read; 0 where each does."""
    lines = script.split(b"\n")
    for number, line in enumerate(lines[:-1], 1):
        if not reads(line):
            return number
    return len(lines) if lines[-1] else 0


def expect_rehearsed(script: bytes, ended: Ended, what: str) -> str:
    """What was told of a script is of its form, and a history that a plain set explains. Gives the kind of its end."""
    unread = first_unread(script)
    if unread:
        expect(ended, Ended(f"line {unread}\n", 3), what)
        return "unread"
    lines = ended.text.splitlines()
    is_cut = bool(lines) and lines[-1].startswith("line ")
    expect(ended.status, 3 if is_cut else 0, f"the status of {what}, which told {ended.text!r}")
    if is_cut and read_range(lines.pop()[len("line ") :].encode(), 1, script.count(b"\n")) is None:
        raise Wrong(f"{what}: told {ended.text!r}")
    odd = [line for line in lines if not SEEN.fullmatch(line)]
    expect(odd, [], f"lines of no form that were told of {what}")
    told = "".join(f"{line}\n" for line in lines)
    if judged(told.encode())[1] == 3:
        raise Wrong(f"{what}: what was told is no history: {ended.text!r}")
    expect(unexplained(story_of(told)), [], f"what no plain set explains of {what}, which told {ended.text!r}")
    return "unlawful" if is_cut else "played"


def try_scripts(program: Program, drawn: Drawn) -> None:
    """Each script is told in the stated form, up to its first line that isn't lawful, and a plain set explains it; one that doesn't
    read isn't played."""
    noise = drawn.noise(4)
    came: Count[str] = Counter()
    for number in range(drawn.count):
        script = noise.script()
        if not first_unread(script):
            script += b"stop\nopen\n"
        size = (noise.draw.choice("12"), "--buckets", noise.draw.choice("12"), "--format", noise.draw.choice("123"))
        ended = program.run("rehearse", *size, lines=script)
        came[expect_rehearsed(script, ended, f"script {number}, {size}, {script!r}")] += 1
    expect_all(came, "played unlawful unread", drawn.count)
    tell(f"{drawn.count} scripts", came)


def try_histories(program: Program, folder: str, drawn: Drawn) -> None:
    """Each history, that of a rehearsal or of any answers, is judged as an independent judge judges it."""
    noise = drawn.noise(5)
    came: Count[str] = Counter()
    file = os.path.join(folder, "history")
    for number in range(drawn.count):
        if noise.one_in(2):
            told = program.run("rehearse", "2", lines=noise.formed_script()).text
            text = noise.rehearsed_history(told)
        else:
            text = noise.history()
        put(file, text)
        verdict = judged(text)
        expect(program.judge(file), Ended(*verdict), f"history {number}, {text!r}")
        came["_".join(verdict[0].split()[: 2 if verdict[1] == 4 else 1])] += 1
    expect_all(came, "good line flaw_1 flaw_3 flaw_4 flaw_5", drawn.count)
    tell(f"{drawn.count} histories", came)
