"""Clearings of a room that are cut off: by a stop, a device that fails, a kill, or a loss of power. No key of another room is lost."""

from __future__ import annotations

import os
import random
import re
import time
from typing import List, Sequence

from trials.clearing import COUNT, FEW, LARGE, OTHERS, ROOM, asked, asking, clear, expect_left, expect_told, filled, keys_in
from trials.faults import failing, needs_strace
from trials.files import bytes_in
from trials.frames import HALTED, by_frames
from trials.guests import received
from trials.images import SYNC, Call, Disk
from trials.marks import made
from trials.plain import Survey
from trials.plain_frames import integer
from trials.planned import REFUSED_FRAME
from trials.program import Ended, Key, Program, Service
from trials.report import Wrong, expect
from trials.served_images import CALLS, events_in
from trials.stops import control_of

EARLY = re.compile(rb"-ERR the room isn't cleared: (\d+) of its keys were removed\r\n")

# After how many seconds a stop is asked for, and within how many a kill comes.
STOPS, LATEST_KILL = (0.02, 0.05, 0.1), 0.15

# Which call of the device fails.
FAILS = (("fdatasync", 4), ("fdatasync", 12), ("pwrite64", 3), ("pwrite64", 40))

# Keys of the room, and of each other one, of which images are read.
IMAGED, OTHERS_IMAGED = 60, 10


def left_of(program: Program, file: str, room: Sequence[Key], others: Sequence[Key], what: str) -> List[Key]:
    """The keys of the room that a file has yet. It has each key of the other rooms, and none that wasn't there."""
    found = {*program.members(file)}
    expect(sorted({*others} - found), [], f"keys of other rooms that are missing: {what}")
    expect(sorted(found - {*others} - {*room}), [], f"keys that were never there: {what}")
    return sorted(found & {*room})


def expect_counted(told: bytes, removed: int, what: str) -> None:
    """A clearing that ended early is told by an error, which counts no more keys than are gone, or by the end of its connection. One that wasn't begun as
    the service stops is refused as other frames are."""
    early = EARLY.fullmatch(told)
    if early:
        expect(int(early[1]) <= removed, True, f"that the {early[1].decode()} keys that are told are among the {removed} that are gone: {what}")
    elif told == REFUSED_FRAME:
        expect(removed, 0, f"the keys that are gone, though nothing was done: {what}")
    elif told:
        raise Wrong(f"{what}: the client is told {told!r}")


def expect_rest(program: Program, file: str, left: Sequence[Key], others: Sequence[Key], what: str) -> None:
    """The next service removes what is left."""
    with Service(program, file, 16, *by_frames(4)) as service:
        expect(asked(service.port, clear(ROOM)), integer(len(left)), f"what the next service removes: {what}")
    expect_left(program, file, others, what)


def try_stopped(program: Program, folder: str) -> None:
    """A service that is asked to stop in the midst of a clearing ends soon, with status 0; who asked is told that the room isn't cleared, or its connection
    ends. What is left is removed by the next service."""
    for number, pause in enumerate(STOPS):
        file, loops = os.path.join(folder, f"f{number}"), str(1 + number % 2)
        what = f"a stop after {pause} s, {loops} loops"
        room, others = filled(program, file, 4, LARGE)
        with Service(program, file, 16, "--loops", loops, "--control", control_of(file), *by_frames(4)) as service, asking(service.port) as client:
            time.sleep(pause)
            began = time.monotonic()
            expect(program.run("stop", control_of(file)), Ended("", 0), what)
            expect((service.wait(), time.monotonic() - began < 10), (0, True), f"the service's status, and that it ends soon: {what}")
            told = received(client)
        left = left_of(program, file, room, others, what)
        expect_counted(told, len(room) - len(left), what)
        if not left:
            raise Wrong(f"{what}: it came after the clearing")
        expect_rest(program, file, left, others, what)
        print(f"         {what}: {len(room) - len(left)} of {len(room)} keys are gone, and {told!r} is told", flush=True)


def try_failed(program: Program, folder: str) -> None:
    """The device fails in the midst of a clearing: who asked is told so, or that the room isn't cleared, or its connection ends. The service ends with
    status 1, and what is left is removed by the next one."""
    needs_strace()
    for form in (2, 4):
        for call, number in FAILS:
            file, what = os.path.join(folder, f"f{form}-{call}-{number}"), f"{call} {number} fails, format {form}"
            room, others = filled(program, file, form)
            with Service(program, file, 16, *by_frames(4), before=failing(file, call, number)) as service, asking(service.port) as client:
                told = received(client)
                expect(service.wait(), 1, f"the service's status: {what}")
            left = left_of(program, file, room, others, what)
            if not left:
                raise Wrong(f"{what}: all keys are gone")
            if told != HALTED:
                expect_counted(told, len(room) - len(left), what)
            expect_rest(program, file, left, others, what)


def try_kills(program: Program, folder: str, kills: int) -> None:
    """Services that are killed in the midst of a clearing: no key of another room is missing, and the next service removes what is left."""
    draw, partly = random.Random(kills), 0
    for number in range(kills):
        form, loops = (2, 3, 4, 4)[number % 4], str(1 + number % 2)
        file, what = os.path.join(folder, f"f{number}"), f"kill {number}, format {form}"
        room, others = filled(program, file, form)
        with Service(program, file, 16, "--loops", loops, *by_frames(4)) as service, asking(service.port):
            time.sleep(draw.uniform(0, LATEST_KILL))
            service.kill()
        left = left_of(program, file, room, others, what)
        partly += 0 < len(left) < len(room)
        expect_rest(program, file, left, others, what)
        os.remove(file)
    if not partly:
        raise Wrong(f"none of {kills} kills came in the midst of a clearing")
    print(f"         {kills} clearings killed, {partly} in their midst", flush=True)


def try_killed_after(program: Program, folder: str) -> None:
    """A service that is killed as soon as a clearing was told: nothing of the room is there."""
    for form, passes, many in ((2, 16, COUNT), (3, 16, COUNT), (4, 16, COUNT), (4, 64, COUNT), (2, 1, FEW), (4, 1, FEW)):
        file = os.path.join(folder, f"f{form}-{passes}")
        room, others = filled(program, file, form, many)
        with Service(program, file, passes, *by_frames(4)) as service, asking(service.port) as client:
            expect_told(client, integer(len(room)), "the reply")
            service.kill()
        expect_left(program, file, others, f"a kill right after the reply, format {form}, {passes} passes")


def try_images(program: Program, folder: str) -> None:
    """Whatever a loss of power leaves in the midst of a clearing has each key of the other rooms, and none that wasn't there. Once the reply is being sent
    it has no key of the room."""
    needs_strace()
    draw, count = random.Random(7), 0
    room, others = {*keys_in([ROOM], range(IMAGED))}, {*keys_in(OTHERS, range(OTHERS_IMAGED))}
    for passes in (2, 16, 64):
        file, log = os.path.join(folder, f"f{passes}"), os.path.join(folder, f"calls-{passes}")
        disk = Disk(made(program, file, draw.sample(sorted(room | others), len(room | others)), IMAGED + 3 * OTHERS_IMAGED, 4), True)
        traced = ["strace", "-f", "-qq", "-o", log, "-xx", "-s", "65536", "-e", f"trace={','.join(CALLS)}"]
        with Service(program, file, passes, *by_frames(4), before=traced) as service:
            expect(asked(service.port, clear(ROOM)), integer(len(room)), f"the reply, {passes} passes")
        is_told = False
        for event in events_in(log):
            if event.name in ("write", "sync"):
                disk.take(Call(SYNC) if event.name == "sync" else Call(event.number, event.text))
            is_told |= event == ("reply", event.number, integer(len(room)))
            if event.name not in ("write", "sync", "reply"):
                continue
            for image in disk.images(draw):
                survey, count = Survey(image), count + 1
                held = {*survey.members}
                if not survey.holds() or not others <= held <= others | room or (is_told and held != others):
                    raise Wrong(f"{passes} passes: {'after' if is_told else 'before'} the reply a loss of power leaves {sorted(held)}: {image.hex()}")
        expect(is_told, True, "that the reply was sent")
        expect(bytes_in(file), bytes(disk.seen), "the file, as the calls have it")
    print(f"         {count} images of clearings", flush=True)


TRIALS = (
    ("a stop while a room is cleared", try_stopped),
    ("a device that fails while a room is cleared", try_failed),
    ("a kill once a room was cleared", try_killed_after),
    ("what a loss of power may leave of a room that is cleared", try_images),
)
