"""Rooms that are cleared while other clients change other rooms, or the same one: each reply is right, and each key is counted once."""

from __future__ import annotations

import os
import random
import select
import statistics
import threading
import time
from contextlib import contextmanager
from typing import Iterator, List, Sequence, Set, Union

from trials.changing import frame_of, number
from trials.clearing import COUNT, FEW, IN_OTHERS, LARGE, OTHERS, ROOM, asked, asking, clear, expect_left, expect_told, filled, keys_in, listed
from trials.frames import by_frames
from trials.guests import connect
from trials.marks import made
from trials.plain_frames import array, integer
from trials.program import PATIENCE, Program, Service
from trials.report import Wrong, expect

# Clients of other rooms, each of its own, how many keys each of them changes, and by how many at once.
GUESTS, OWN_KEYS, AT_ONCE = range(4, 12), 300, 16

# Clients that change the room that is cleared, new keys that each of them adds at most, and where those begin.
CHANGERS, MOST_NEW, FIRST_NEW = 4, 5_000, 10**12

# Within how many seconds half of a client's lookups are answered beside a clearing, and how many there are at least.
QUICK, LOOKUPS = 0.05, 20


class Guest:
    """A client in a room of its own, that keeps books of it: each reply is what they say."""

    def __init__(self, port: int, room: int) -> None:
        self.port, self.room = port, room
        self.members: Set[int] = set()
        self.draw = random.Random(room)
        self.made = 0

    def talk(self, ends: threading.Event) -> None:
        with connect(self.port) as client, client.makefile("rb") as stream:
            client.settimeout(PATIENCE)
            while not ends.is_set():
                verb = self.draw.choice((b"SADD", b"SREM", b"SMISMEMBER"))
                some = self.draw.sample(range(OWN_KEYS), self.draw.randint(1, AT_ONCE))
                client.sendall(frame_of(verb, keys_in([self.room], some)))
                are = [key in self.members for key in some]
                if verb == b"SADD":
                    expect(number(stream, b":"), are.count(False), f"keys that are added to room {self.room}")
                    self.members.update(some)
                elif verb == b"SREM":
                    expect(number(stream, b":"), are.count(True), f"keys that are removed from room {self.room}")
                    self.members.difference_update(some)
                else:
                    expect(number(stream, b"*"), len(some), "how many answers come")
                    expect([number(stream, b":") == 1 for _ in some], are, f"which of {some} are in room {self.room}")
                self.made += 1


class Changer:
    """A client in the room that is cleared, that removes keys which were there, and adds new ones: what it was told of each."""

    def __init__(self, port: int, at: int, before: int) -> None:
        self.port, self.at, self.before = port, at, before
        self.came = self.went = 0
        self.new: List[int] = []

    def talk(self, ends: threading.Event) -> None:
        draw = random.Random(self.at)
        with connect(self.port) as client, client.makefile("rb") as stream:
            client.settimeout(PATIENCE)
            while not ends.is_set():
                leaving = [self.at + CHANGERS * draw.randrange(self.before // CHANGERS) for _ in range(8)]
                coming = [FIRST_NEW + MOST_NEW * self.at + len(self.new) + more for more in range(8 if len(self.new) + 8 <= MOST_NEW else 0)]
                self.new.extend(coming)
                leaving.extend(draw.sample(self.new, min(4, len(self.new))))
                client.sendall(frame_of(b"SREM", keys_in([ROOM], leaving)) + frame_of(b"SADD", keys_in([ROOM], coming)))
                self.went += number(stream, b":")
                if coming:
                    expect(number(stream, b":"), len(coming), "how many new keys were added")
                    self.came += len(coming)


Talker = Union[Guest, Changer]


@contextmanager
def talking(clients: Sequence[Talker]) -> Iterator[None]:
    """Clients that talk meanwhile, each in a thread; what went wrong with one of them is raised."""
    ends = threading.Event()
    failures: List[BaseException] = []

    def talk(client: Talker) -> None:
        try:
            client.talk(ends)
        except BaseException as failure:
            failures.append(failure)

    threads = [threading.Thread(target=talk, args=(client,)) for client in clients]
    for thread in threads:
        thread.start()
    try:
        time.sleep(0.2)
        yield
        time.sleep(0.1)
    finally:
        ends.set()
        for thread in threads:
            thread.join()
    for failure in failures:
        raise failure


def try_beside(program: Program, folder: str) -> None:
    """Eight clients in other rooms are answered rightly, before, during and after a clearing, and each of them goes on meanwhile."""
    for form, passes, loops, count in ((2, 16, "1", COUNT), (4, 64, "2", 4 * COUNT), (4, 2, "1", FEW)):
        file = os.path.join(folder, f"f{form}-{passes}")
        room, others = filled(program, file, form, count, 4_000)
        with Service(program, file, passes, "--loops", loops, *by_frames(12)) as service:
            guests = [Guest(service.port, own) for own in GUESTS]
            with talking(guests):
                before, began = [guest.made for guest in guests], time.monotonic()
                expect(asked(service.port, clear(ROOM)), integer(len(room)), "the reply beside eight clients")
                seconds, meanwhile = time.monotonic() - began, [guest.made - first for guest, first in zip(guests, before)]
            # In a shorter time a client may have had no turn of this machine.
            expect(min(meanwhile) > 0 or seconds < 0.5, True, f"that each of them goes on: {meanwhile} exchanges in {seconds:.2f} s")
        own = [key for guest in guests for key in keys_in([guest.room], sorted(guest.members))]
        expect_left(program, file, sorted([*others, *own]), "beside eight clients")
        print(f"         format {form}, {passes} passes: {len(room)} keys in {seconds:.2f} s, beside {sum(meanwhile)} exchanges of others", flush=True)


def try_changed(program: Program, folder: str) -> None:
    """Others remove keys of the room, and add new ones, while it is cleared. No key that was there is left, and each key is counted once: by the clearing,
    or by the client that removed it."""
    for form, passes, loops, count in ((2, 16, "1", COUNT), (4, 64, "2", 4 * COUNT), (4, 1, "1", FEW)):
        file = os.path.join(folder, f"f{form}-{passes}")
        made(program, file, [*keys_in([ROOM], range(count)), *keys_in(OTHERS, range(IN_OTHERS))], 50_000, form)
        with Service(program, file, passes, "--loops", loops, *by_frames(8)) as service:
            changers = [Changer(service.port, at, count) for at in range(CHANGERS)]
            with talking(changers):
                told = asked(service.port, clear(ROOM))
                expect(told[:1], b":", f"the reply {told!r} beside others that change the room")
            left = {key.number for key in listed(service.port, [ROOM])}
        came, went, cleared = sum(it.came for it in changers), sum(it.went for it in changers), int(told[1:])
        what = f"{count} keys that were there, and {came} that came, less {went} that others and {cleared} that the clearing removed"
        expect(sorted(left & {*range(count)}), [], "keys that were there before, and are left")
        expect(left <= {key for it in changers for key in it.new}, True, "that what is left was added meanwhile")
        expect(count + came - went - cleared, len(left), what)
        expect_left(program, file, sorted([*keys_in(OTHERS, range(IN_OTHERS)), *keys_in([ROOM], sorted(left))]), "a room that others change")


def try_quick(program: Program, folder: str) -> None:
    """One client's lookups are answered soon while a large room is cleared."""
    for loops in ("1", "2"):
        file = os.path.join(folder, f"f{loops}")
        room, others = filled(program, file, 4, LARGE)
        taken: List[float] = []
        with Service(program, file, 16, "--loops", loops, *by_frames(4)) as service, connect(service.port) as client, asking(service.port) as first:
            while not select.select([first], [], [], 0)[0]:
                began = time.monotonic()
                client.sendall(array(b"SISMEMBER", b"0", b"%d" % others[0].number))
                expect_told(client, integer(1), "a lookup")
                taken.append(time.monotonic() - began)
                time.sleep(0.002)
            expect_told(first, integer(len(room)), "the reply")
        middle, longest = 1000 * statistics.median(taken), 1000 * max(taken)
        told = f"{loops} loops: of {len(taken)} lookups half took {middle:.1f} ms, and the longest {longest:.1f}"
        print(f"         {told}", flush=True)
        if middle > 1000 * QUICK or len(taken) < LOOKUPS:
            raise Wrong(told)


TRIALS = (
    ("clients beside a room that is cleared", try_beside),
    ("a room that others change while it is cleared", try_changed),
    ("lookups while a room is cleared", try_quick),
)
