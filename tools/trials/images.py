"""What a loss of power may leave: images of the file, from the system calls that a run makes, each read by an independent reader."""

from __future__ import annotations

import os
import random
import re
from typing import Dict, FrozenSet, Iterable, Iterator, List, NamedTuple, Sequence, Tuple

from trials.faults import needs_strace
from trials.plain import FORMATS, SLOT_SIZE, Plain, Survey
from trials.program import Ended, Key, Program
from trials.report import Wrong, expect

SLOTS = 3
LINES = 24
VERBS = ("add", "add", "remove", "has")
NUMBERS = (0, 7, 8, 10**18 - 1)
CALLS = re.compile(r'^(pwrite64|write|fdatasync|fsync)\((\d+)<([^>]*)>(?:, "((?:\\x[0-9a-f]{2})*)", \d+(?:, (\d+))?)?\) += (-?\d+)')
STRACE = ("strace", "-y", "-xx", "-s", "65536", "-e", "trace=pwrite64,write,fdatasync,fsync,rename")

# How many bytes that may be old or new are gone through in each combination, and else how many draws are made.
ALL_OF = 10
DRAWS = 60

Members = FrozenSet[Key]


class Call(NamedTuple):
    """A write of the file at a place; a write of standard output, a sync, or a rename, which have none. Whether it failed."""

    at: int
    text: bytes = b""
    has_failed: bool = False


SYNC, TOLD, RENAMED = -1, -2, -3


def traced(program: Program, words: Sequence[str], file: str, log: str, lines: str = "", inject: str = "") -> Tuple[Ended, List[Call]]:
    """How a command ends, and the calls that it makes on a file, in their order. It writes no other file. Where something is to be injected strace
    has a call fail, or kills the command there."""
    before = [*STRACE, "-o", log, *(("-e", f"inject={inject}") if inject else ())]
    ended = program.run(*words, lines=lines, before=before)
    with open(log, encoding="ascii", errors="surrogateescape") as told:
        return ended, list(calls_in(told, os.path.realpath(file)))


def calls_in(log: Iterable[str], file: str) -> Iterator[Call]:
    """The calls on a file of which strace tells, in their order. One that was under way at a kill isn't told."""
    for line in log:
        found = CALLS.match(line)
        if line.startswith("rename(") and line.endswith("= 0\n"):
            yield Call(RENAMED)
        if not found:
            continue
        name, number, path, text, at, gave = found.groups()
        written, is_there = unescaped(text or ""), unescaped(path) == os.fsencode(file)
        if name == "pwrite64":
            expect((is_there, gave in ("-1", str(len(written)))), (True, True), f"that {file} is written, and all of the bytes: {line:.200}")
            yield Call(int(at), written, gave == "-1")
        elif name != "write" and is_there:
            yield Call(SYNC, b"", gave == "-1")
        elif (name, number) == ("write", "1"):
            yield Call(TOLD, written)


def unescaped(text: str) -> bytes:
    """The bytes of which strace tells. Not each strace escapes those of a path."""
    return bytes.fromhex(text.replace("\\x", "")) if text.startswith("\\x") else os.fsencode(text)


class Disk:
    """A disk of bytes: those that are durable, and at each place those that were written there since."""

    def __init__(self, text: bytes, is_bytewise: bool) -> None:
        self.sure = bytearray(text)
        self.seen = bytearray(text)
        self.loose: Dict[int, List[int]] = {}
        self.is_bytewise = is_bytewise

    def take(self, call: Call) -> None:
        if call.at == SYNC:
            self.sure, self.loose = bytearray(self.seen), {}
        elif call.at >= 0:
            for place, byte in enumerate(call.text, call.at):
                self.seen[place] = byte
                self.loose.setdefault(place, []).append(byte)

    def images(self, draw: random.Random) -> Iterator[bytes]:
        """Texts that a crash may leave: at each place that isn't synced the old byte or one that was written, or any byte where the disk
        isn't bytewise."""
        choices = {place: sorted({self.sure[place], *written}) for place, written in self.loose.items()}
        open_places = [place for place, bytes_there in choices.items() if len(bytes_there) > 1]
        yield bytes(self.sure)
        yield bytes(self.seen)
        if self.is_bytewise and self.loose:
            yield from self._byte_by_byte()
            yield from self._slot_by_slot(choices, draw)
        if len(open_places) <= ALL_OF and all(len(choices[place]) == 2 for place in open_places):
            for mask in range(1 << len(open_places)):
                yield self._with({place: choices[place][mask >> bit & 1] for bit, place in enumerate(open_places)})
        for _ in range(DRAWS):
            yield self._with({place: draw.choice(choices[place]) for place in open_places})
            if not self.is_bytewise:
                yield self._with({place: draw.choice((*choices[place], draw.randrange(256), 0xA5)) for place in self.loose})

    def _byte_by_byte(self) -> Iterator[bytes]:
        """What isn't synced is as it was but for one byte of each slot, or as read but for that byte."""
        for lone in range(SLOT_SIZE):
            yield self._with({place: self.seen[place] for place in self.loose if place % SLOT_SIZE == lone})
            yield self._with({place: self.seen[place] for place in self.loose if place % SLOT_SIZE != lone})

    def _slot_by_slot(self, choices: Dict[int, List[int]], draw: random.Random) -> Iterator[bytes]:
        """Each slot that isn't synced is as it was, as read, or mixed."""
        for _ in range(DRAWS):
            hows = [draw.randrange(3) for _ in range(len(self.seen) // SLOT_SIZE)]
            mixed = {place: (self.sure[place], self.seen[place], draw.choice(written)) for place, written in choices.items()}
            yield self._with({place: three[hows[place // SLOT_SIZE]] for place, three in mixed.items()})

    def _with(self, chosen: Dict[int, int]) -> bytes:
        image = bytearray(self.sure)
        for place, byte in chosen.items():
            image[place] = byte
        return bytes(image)


def sets_of(begun: Members, lines: Sequence[str]) -> List[Members]:
    """The members before the first line and after each."""
    members = [begun]
    for verb, key in (line.split() for line in lines):
        change, now = {Key.read(key)}, members[-1]
        if verb == "add" and len(now) < SLOTS:
            now = now | change
        members.append(now - change if verb == "remove" else now)
    return members


def expect_explained(image: bytes, members: Sequence[Members], told: int, what: str) -> None:
    """The image holds the set after what was told, or with the next line done too."""
    survey = Survey(image)
    if not survey.holds():
        raise Wrong(f"{what}: a crash leaves a damaged file: {image.hex()}")
    if frozenset(survey.members) not in members[told : told + 2]:
        raise Wrong(f"{what}: after {told} replies a crash leaves {sorted(survey.members)}: {image.hex()}")


def try_run(program: Program, folder: str, form: int, start: bytes, draw: random.Random) -> Tuple[int, bytes]:
    """A run of drawn lines over a file. How many images a crash may leave of it were read, and one that is left in its midst."""
    file = os.path.join(folder, "imaged")
    rooms = ("",) if form == 1 else ("", "3:")
    lines = [f"{draw.choice(VERBS)} {draw.choice(rooms)}{draw.choice(NUMBERS)}" for _ in range(LINES)]
    with open(file, "wb") as new:
        new.write(start)
    disk, left = Disk(start, form == 4), start
    members, told, count = sets_of(frozenset(Survey(start).members), lines), 0, 0
    ended, calls = traced(program, ("run", file), file, os.path.join(folder, "calls"), "".join(f"{line}\n" for line in lines))
    expect(ended.status, 0, f"the status of a run of {lines}")
    for call in calls:
        told += call.text.count(b"\n") if call.at == TOLD else 0
        disk.take(call)
        images = list(disk.images(draw))
        for image in images:
            expect_explained(image, members, told, f"{lines}, format {form}")
        count += len(images)
        if disk.loose and draw.randrange(4) == 0:
            left = draw.choice(images)
    expect(told, len(lines), "how many lines were answered")
    return count, left


def try_images(program: Program, folder: str, seed: int, runs: int) -> None:
    """Whatever a loss of power leaves in the midst of a run holds the set after the replies, or with the next line done too. Each run but
    the first goes on with a file that one has left."""
    needs_strace()
    draw, counts = random.Random(seed), {form: 0 for form in FORMATS}
    for form in FORMATS:
        left = Plain(form, SLOTS).file()
        for _ in range(runs):
            count, left = try_run(program, folder, form, left, draw)
            counts[form] += count
    print("         " + ", ".join(f"format {form}: {count} images" for form, count in counts.items()), flush=True)
