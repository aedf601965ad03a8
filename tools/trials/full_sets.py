"""When a set is told as full: once its members and the additions under way fill it, and not while slots wait for calls that end."""

from __future__ import annotations

import statistics
import time
from typing import List

import lazyset
from lazyset import Lazyset
from trials.crowd import Crowd
from trials.guests import PATIENCE, connect, served
from trials.program import Program
from trials.report import Wrong, expect

PASSES = 8

# The most members that there are at once, and as many slots as docs/OPERATIONS.md asks for.
MEMBERS = 320
SLOTS = MEMBERS + PASSES

# How often each client removes each of its keys and adds it again.
ROUNDS = 5

# How many exchanges with all clients there are.
EXCHANGES = 20

# Within how many seconds a set that is full of members is told as full.
AT_ONCE = 0.05

# How many additions one connection sends at once to a full set, and within how many seconds all are told.
FLOOD, SOON = 1_000, 1.0


def try_room(program: Program, folder: str, clients: int, *options: str) -> None:
    """Clients that fill a set up to its most members, and remove and add their keys all at once: each addition finds a slot."""
    own = [range(client, MEMBERS, clients) for client in range(clients)]
    texts = ["".join(f"remove {key}\nadd {key}\n" for key in keys).encode() * ROUNDS for keys in own]
    with served(program, folder, "room", SLOTS, PASSES, "--buckets", "256", *options) as service, Crowd(service.port, clients) as crowd:
        told = crowd.exchange(["".join(f"add {key}\n" for key in keys).encode() for keys in own])
        expect(told, [b"yes\n" * len(keys) for keys in own], "the first additions")
        for _ in range(EXCHANGES):
            told = crowd.exchange(texts)
            full = sum(replies.count(b"full\n") for replies in told)
            expect(full, 0, f"additions of {EXCHANGES * ROUNDS * MEMBERS} that were told full")
            expect(told, [b"yes\n" * text.count(b"\n") for text in texts], "removals and additions")


def try_full(program: Program, folder: str, *options: str) -> None:
    """A set each of whose slots has a member is told as full at once, and has room again after a removal."""
    took: List[float] = []
    with served(program, folder, "full", PASSES, PASSES, *options) as service, Lazyset(service.port, timeout=PATIENCE) as keys:
        for key in range(PASSES):
            expect(keys.add(key), True, "an addition to a set with room")
        for _ in range(9):
            begun = time.monotonic()
            try:
                raise Wrong(f"an addition to a full set was told {keys.add(PASSES)}")
            except lazyset.Full:
                took.append(time.monotonic() - begun)
        expect((keys.remove(0), keys.add(PASSES)), (True, True), "a removal, and an addition after it")
    if statistics.median(took) > AT_ONCE:
        raise Wrong(f"a full set was told as full after {statistics.median(took)} seconds")


def try_flood(program: Program, folder: str) -> None:
    """Many additions that one connection sends at once to a full set are all told soon, though each waits for the line before it."""
    took: List[float] = []
    with served(program, folder, "flood", PASSES, FLOOD + 1, "--connections", "2") as service, connect(service.port) as client, client.makefile("rb") as lines:
        client.sendall(b"".join(b"add %d\n" % key for key in range(PASSES)))
        expect([lines.readline() for _ in range(PASSES)], [b"yes\n"] * PASSES, "additions that fill a set")
        for _ in range(5):
            begun = time.monotonic()
            client.sendall(b"".join(b"add %d\n" % (PASSES + key) for key in range(FLOOD)))
            expect([lines.readline() for _ in range(FLOOD)], [b"full\n"] * FLOOD, "additions to a full set")
            took.append(time.monotonic() - begun)
    if statistics.median(took) > SOON:
        raise Wrong(f"{FLOOD} additions to a full set were told after {statistics.median(took)} seconds")
