"""Frames over a set that is full, or nearly: what each reply counts is what was added, and a full set is told at once."""

from __future__ import annotations

import os
import random
import statistics
import time
from typing import BinaryIO, List, Set

from trials.frames import by_frames
from trials.guests import connect
from trials.hostile import Drawn
from trials.plain_frames import array
from trials.program import Program, Service
from trials.report import Wrong, expect

SLOTS, KEYS = 20, 32

# The most members of a frame, and within how many seconds it is told of a set without a slot that is free.
MOST_MEMBERS, AT_ONCE = 40, 0.05


def members(lines: BinaryIO) -> Set[int]:
    """What an answer to SMISMEMBER of all keys tells."""
    expect(lines.readline(), b"*%d\r\n" % KEYS, "how many answers come")
    return {key for key in range(KEYS) if lines.readline() == b":1\r\n"}


def try_pass(program: Program, file: str, passes: int, draw: random.Random, frames: int) -> List[float]:
    """Frames of one client: what the set holds after each is what its reply says. It gives the seconds that each took that was told full."""
    took: List[float] = []
    before: Set[int] = set()
    with Service(program, file, passes, *by_frames(2)) as service, connect(service.port) as client, client.makefile("rb") as lines:
        for _ in range(frames):
            name = draw.choice((b"SADD", b"SADD", b"SREM"))
            keys = [draw.randrange(KEYS) for _ in range(draw.randint(1, MOST_MEMBERS))]
            begun = time.monotonic()
            client.sendall(array(name, b"0", *(b"%d" % key for key in keys)))
            told = lines.readline()
            seconds = time.monotonic() - begun
            client.sendall(array(b"SMISMEMBER", b"0", *(b"%d" % key for key in range(KEYS))))
            after = members(lines)
            wanted = before | set(keys) if name == b"SADD" else before - set(keys)
            if len(wanted) > SLOTS:
                took.append(seconds)
                expect((len(after), before <= after, after <= wanted), (SLOTS, True, True), "a set that was filled, with members that were there")
                expect(told, b"-FULL no slot is free; %d of %d were added\r\n" % (len(after - before), len(keys)), f"the reply to {keys} in {before}")
            else:
                expect((told, after), (b":%d\r\n" % len(before ^ after), wanted), f"the reply to {name!r} of {keys} in {before}, and the members")
            before = after
    return took


def try_full(program: Program, folder: str, drawn: Drawn) -> None:
    """Over one pass and over many."""
    for passes in (1, 4, 64):
        file = os.path.join(folder, f"f{passes}")
        program.make(file, SLOTS)
        took = try_pass(program, file, passes, random.Random(drawn.seed * 8 + passes), max(20, drawn.count // 50))
        if not took or statistics.median(took) > AT_ONCE:
            raise Wrong(f"{passes} passes: {len(took)} frames were told full, after {statistics.median(took) if took else 0:.3f} seconds")
        print(f"         {passes} passes: {len(took)} frames were told full, after {1000 * statistics.median(took):.1f} milliseconds", flush=True)
