"""The file of a service that forgets: which starts are refused, its marks, the sweeping of its rooms, and its copies."""

from __future__ import annotations

import os
import time
from typing import Dict, List, NamedTuple, Sequence, Set, Tuple

from trials.forgetting import SLOTS, expect_listens, forgetting, side_by_side
from trials.frames import replies
from trials.marks import ADOPT, MARK, NUMBERS, PLAIN, TEXT, made, started
from trials.plain_frames import array, integer
from trials.program import Ended, Key, Program
from trials.remembered import OF_MARKS, Period
from trials.report import Wrong, expect
from trials.secrets import OTHER, SECRET, kept, marked_by, number_of
from trials.stops import control_of

PERIOD = Period(50)

# The first numbers of the marks of periods and of epochs, and what a room or so many epochs count for in them.
PERIODS, EPOCHS, STEP = 3 * 10**15, 4 * 10**15, 10**13

# What a start is told over a file of another kind.
OTHERS = ("othertext", "othernumbers", "othersecret", "otherperiod")

# How long the sweep of a room may take once nothing of it is remembered.
SWEEPS_WITHIN = 2.0


def period_mark(period: Period) -> Key:
    return Key(15, PERIODS + period.epochs * STEP + period.seconds)


def epoch_mark(room: int, second: int) -> Key:
    return Key(15, EPOCHS + room * STEP + 1_000 * second)


class Held(NamedTuple):
    """What a file holds: keys by their rooms, when the epochs of rooms began, and the other marks."""

    texts: Dict[int, Set[int]]
    began: Dict[int, int]
    others: List[Key]


def held(program: Program, file: str) -> Held:
    texts: Dict[int, Set[int]] = {}
    began: Dict[int, int] = {}
    others: List[Key] = []
    for key in program.members(file):
        if key.room != 15:
            texts.setdefault(key.room, set()).add(key.number)
        elif key.number >= EPOCHS:
            room, time_ms = divmod(key.number - EPOCHS, STEP)
            began[room] = max(time_ms // 1_000, began.get(room, 0))
        else:
            others.append(key)
    return Held(texts, began, others)


def forgets(period: Period = PERIOD, *more: str) -> Sequence[str]:
    """The words of a start with two passes."""
    return (*TEXT, *period.words(), *more)


def refused(program: Program, file: str, words: Sequence[str], what: str, *lines: str) -> None:
    """A start is refused by a line, one of these if some are named, with words and status 3, and writes nothing."""
    with open(file, "rb") as text:
        before = text.read()
    told, said, status = started(program, file, words)
    line = told.rstrip("\n")
    if status != 3 or line not in (lines or OTHERS):
        raise Wrong(f"{what}: {' '.join(words)} is told {told!r}, with status {status}")
    last = said.splitlines()[-1] if said else ""
    expect(last.startswith(f"lazyset: serve {file}: {line}: "), True, f"that {last!r} are the words of a refusal: {what}")
    with open(file, "rb") as text:
        expect(text.read() == before, True, f"that nothing is written: {what}")


def taken(program: Program, file: str, words: Sequence[str], what: str) -> None:
    told, said, status = started(program, file, words)
    expect((told[:10], status), ("listening ", 0), f"{what}: {' '.join(words)}, which says {said[-300:]!r}")


def try_starts(program: Program, folder: str) -> None:
    """A file that forgets is served by the same period, epochs and secret alone; any other start as a service of texts or of Redis's numbers is refused."""
    file, one, other = os.path.join(folder, "f"), kept(folder, SECRET), kept(folder, OTHER, name="other")
    for secret, own in (((), b""), (("--secret", one), SECRET)):
        if os.path.exists(file):
            os.remove(file)
        program.make(file, 100, 4)
        with forgetting(program, file, PERIOD, *secret) as service:
            expect_listens(service, "the first start")
            expect(replies(service.port, array(b"SADD", b"s", b"a", b"b")), integer(2), "two texts")
        expect_marked(program, file, own)
        for period in (Period(49), Period(51), Period(50, 2), Period(50, 4), Period(50, 12), Period(500), Period(5)):
            refused(program, file, forgets(period, *secret), "another period", "otherperiod")
        for words in (TEXT, (*TEXT, *secret), ADOPT, PLAIN, ("--connections", "4", "--resp")):
            refused(program, file, words, "a start that doesn't forget")
        for words in (("--secret", other), () if secret else ("--secret", one)):
            refused(program, file, forgets(PERIOD, *words), "another secret, or another one than none", "othersecret")
        for words in (NUMBERS, ("--connections", "4")):
            taken(program, file, words, "marks that are taken for keys")
        for words in (forgets(PERIOD, *secret), (*TEXT, "--forget", "50", "--epochs", "3", *secret)):
            taken(program, file, words, "the same period")
        with forgetting(program, file, PERIOD, *secret) as service:
            expect(replies(service.port, array(b"SMISMEMBER", b"s", b"a", b"b", b"c")), b"*3\r\n:1\r\n:1\r\n:0\r\n", "the texts after all starts")


def expect_marked(program: Program, file: str, secret: bytes) -> None:
    """Both texts are in the room of an epoch that has just begun, and the file's marks are there."""
    found, now = held(program, file), int(time.time())
    numbers = {number_of(secret, b"s", member) for member in (b"a", b"b")}
    expect(list(found.texts.values()), [numbers], "the texts, in one room")
    room = next(iter(found.texts))
    expect((room < 14, now - 20 <= found.began.get(room, 0) <= now + 1), (True, True), f"whether room {room} has its mark: {found.began}")
    expect(found.others, sorted([MARK, period_mark(PERIOD), *([marked_by(secret)] if secret else [])]), "the other marks")


def try_files(program: Program, folder: str) -> None:
    """A file of plain texts or of numbers is refused, and one of an older format; an empty one, and one with the mark of texts alone, is taken and marked."""
    file, one = os.path.join(folder, "f"), kept(folder, SECRET)
    own, second = period_mark(PERIOD), int(time.time())
    text = Key(0, number_of(b"", b"s", b"m"))
    for what, keys, form, words, line in (
        *(("none", (), form, (), "") for form in (2, 3, 4)),
        *(("the mark of texts", (MARK,), form, (), "") for form in (2, 3, 4)),
        ("both marks", (MARK, own), 4, (), ""),
        ("an epoch", (MARK, own, epoch_mark(3, second), Key(3, 7)), 4, (), ""),
        ("an epoch long ago", (MARK, own, epoch_mark(3, second - 10**6), Key(3, 7)), 4, (), ""),
        ("an epoch of the future", (MARK, own, epoch_mark(3, second + 10**6), Key(3, 7)), 4, (), ""),
        ("format 1", (), 1, (), "oldfile"),
        ("texts", (MARK, text), 4, (), "othertext"),
        ("texts without a mark", (text,), 4, (), "othernumbers"),
        ("numbers", (Key(3, 5),), 4, (), "othernumbers"),
        ("numbers of room 15", (Key(15, 5),), 4, (), "othernumbers"),
        ("texts under a secret", (MARK, marked_by(SECRET), text), 4, ("--secret", one), "othertext"),
        ("another period", (MARK, period_mark(Period(51))), 4, (), "otherperiod"),
        ("another number of epochs", (MARK, period_mark(Period(50, 4))), 4, (), "otherperiod"),
        ("two periods", (MARK, own, period_mark(Period(51))), 4, (), "otherperiod"),
    ):
        made(program, file, keys, 10, form)
        if line:
            refused(program, file, forgets(PERIOD, *words), what, line)
            continue
        with forgetting(program, file, PERIOD, *words) as service:
            expect_listens(service, what)
            expect(replies(service.port, array(b"SADD", b"s", b"m")), integer(1), f"a claim over {what}")
            expect({MARK, own} <= {*program.members(file)}, True, f"that the marks are there: {what}")


def claimed(port: int, seconds: float) -> List[Tuple[float, bytes]]:
    """Claims a new key each few moments: when, and which."""
    claims, ends = [], time.monotonic() + seconds
    while time.monotonic() < ends:
        key = b"key %d" % len(claims)
        expect(replies(port, array(b"SETNX", key, b"1")), integer(1), "the claim of a new key")
        claims.append((time.monotonic(), key))
        time.sleep(0.05)
    return claims


def try_sweeps(program: Program, folder: str) -> None:
    """Rooms by turns have the keys, each with its mark, as a kill shows. What isn't remembered any more is soon swept, and its room loses its marks, while keys
    come and without."""

    def sweep(period: Period) -> str:
        file, what, began = os.path.join(folder, f"f{period.epochs}"), f"{period.seconds} s in {period.epochs} epochs", int(time.time())
        program.make(file, SLOTS, 4)
        with forgetting(program, file, period) as service:
            claims = claimed(service.port, period.most + SWEEPS_WITHIN + 1)
            ended = program.run("copy", str(service.port), f"{file}.copy")
            expect(ended, Ended(f"copied {len(program.members(f'{file}.copy'))}\n", 0), f"copy: {what}")
            now = time.monotonic()
            service.kill()
        found = held(program, file)
        expect_swept(found, claims, now, period, what)
        if period.length >= 1:
            expect(all(began - 1 <= second <= time.time() + 1 for second in found.began.values()), True, f"the seconds of marks: {found.began}")
        with forgetting(program, file, period) as service:
            time.sleep(period.most + period.length + OF_MARKS + SWEEPS_WITHIN)
            expect(replies(service.port, array(b"DBSIZE")), integer(0), f"DBSIZE once all is swept: {what}")
            expect(program.run("stop", control_of(file)), Ended("", 0), f"stop: {what}")
            expect(service.wait(), 0, f"the status: {what}")
        last = held(program, file)
        expect((last.texts, last.others), ({}, sorted([MARK, period_mark(period)])), f"what is left once all is swept: {what}")
        expect(len(last.began) <= period.epochs + 2, True, f"that {last.began} are the marks of rooms that are remembered: {what}")
        return f"{what}: {len(claims)} keys claimed, {sum(map(len, found.texts.values()))} of them in rooms {sorted(found.texts)} at once"

    side_by_side([lambda period=period: sweep(period) for period in (Period(2), Period(1, 12))])


def expect_swept(found: Held, claims: Sequence[Tuple[float, bytes]], now: float, period: Period, what: str) -> None:
    """The rooms have each key that is remembered, in one of them, and none that was to be swept."""
    numbers = [number for texts in found.texts.values() for number in texts]
    must = {number_of(b"", b"", key) for at, key in claims if now < at + period.seconds - 0.5}
    may = {number_of(b"", b"", key) for at, key in claims if now < at + period.most + SWEEPS_WITHIN}
    expect(len({*numbers}), len(numbers), f"keys that are in two rooms: {what}")
    expect(must <= {*numbers}, True, f"that each key which is remembered is there: {what}")
    expect({*numbers} <= may, True, f"that no key is there which was to be swept: {what}")
    expect({*found.texts} <= {*found.began} <= {*range(14)}, True, f"that rooms {sorted(found.texts)} have marks: {found.began}: {what}")
    expect(len(found.began) <= period.epochs + 2, True, f"that swept rooms have lost their marks: {found.began}: {what}")


def try_copies(program: Program, folder: str) -> None:
    """A copy, a renewal and a growth forget as the file does: by the same period alone, and they know its keys."""
    file, copy, new = (os.path.join(folder, name) for name in ("f", "g", "h"))
    program.make(file, 50, 4)
    with forgetting(program, file, PERIOD) as service:
        expect(replies(service.port, array(b"SADD", b"s", b"m")), integer(1), "a claim")
        expect(program.run("copy", str(service.port), copy)[1], 0, "copy")
    count = len(program.members(file))
    expect(program.run("renew", file, new, "60", "--format", "4"), Ended(f"renewed {count}\n", 0), "renew")
    expect(program.run("grow", file, "70"), Ended(f"grown {count}\n", 0), "grow")
    for other in (file, copy, new):
        refused(program, other, forgets(Period(51)), "another period", "otherperiod")
        refused(program, other, TEXT, "a start that doesn't forget")
        with forgetting(program, other, PERIOD) as service:
            expect_listens(service, other)
            expect(replies(service.port, array(b"SADD", b"s", b"m", b"n")), integer(1), f"claims of {other}")


TRIALS = (
    ("starts over a file that forgets", try_starts),
    ("files that a service which forgets is started over", try_files),
    ("rooms that a service which forgets has swept", try_sweeps),
    ("copies of a service that forgets", try_copies),
)
