"""Clients that add and remove keys while others list them, and what is known of the members meanwhile."""

from __future__ import annotations

import random
import threading
from collections import Counter
from contextlib import contextmanager
from dataclasses import dataclass, field
from typing import BinaryIO, Iterable, Iterator, List, Sequence, Set

from trials.guests import connect
from trials.plain_frames import array
from trials.program import PATIENCE, Key
from trials.report import expect

# Keys that a client changes at once, at most.
AT_ONCE = 32


@dataclass
class Known:
    """What is known of a while: the keys that were members at each moment of it, and those that may have been one at some moment."""

    members: Set[Key]
    may: Set[Key]

    def begin(self, leaving: Iterable[Key], coming: Iterable[Key]) -> None:
        """From here on these may be removed, and those may be added."""
        self.members.difference_update(leaving)
        self.may.update(coming)

    def flaws(self, told: Iterable[Key]) -> List[str]:
        """What is wrong with a list of members that was made in this while."""
        times = Counter(told)
        found = [f"{key}, a member all the while, is told {times[key]} times" for key in sorted(self.members) if times[key] != 1]
        return found + [f"{key}, at no moment a member, is told" for key in sorted(times.keys() - self.may)]

    def expect_noticed(self, told: Sequence[Key]) -> None:
        """Lists that are spoiled are found wrong: by a key that is left out, one told twice, and one that never was there."""
        some = min(self.members)
        for spoiled in ([key for key in told if key != some], [*told, some], [*told, Key(15, 10**18 - 1)]):
            expect(len(self.flaws(spoiled)), 1, "the flaws of a spoiled list")


@dataclass
class Changes:
    """What clients change without end, each of them keys of its own."""

    port: int
    now: Known
    whiles: List[Known] = field(default_factory=list)
    made: int = 0
    failures: List[BaseException] = field(default_factory=list)
    ends: threading.Event = field(default_factory=threading.Event)
    # Whether the service may be killed.
    may_fail: bool = False
    lock: threading.Lock = field(default_factory=threading.Lock)

    @contextmanager
    def watched(self) -> Iterator[Known]:
        """What will be known of the while up to the end of what is done with it."""
        with self.lock:
            known = Known(set(self.now.members), set(self.now.may))
            self.whiles.append(known)
        try:
            yield known
        finally:
            with self.lock:
                self.whiles = [other for other in self.whiles if other is not known]

    def change(self, keys: Sequence[Key], draw: random.Random) -> None:
        """Changes keys of one room, some at once, until all ends. None of them is changed by others."""
        try:
            with connect(self.port) as client, client.makefile("rb") as stream:
                client.settimeout(PATIENCE)
                while not self.ends.is_set():
                    some = draw.sample(keys, draw.randint(1, min(AT_ONCE, len(keys))))
                    leaving, coming = ([key for key in some if (key in self.now.members) is is_member] for is_member in (True, False))
                    with self.lock:
                        for known in (self.now, *self.whiles):
                            known.begin(leaving, coming)
                    client.sendall(frame_of(b"SREM", leaving) + frame_of(b"SADD", coming))
                    for those in filter(None, (leaving, coming)):
                        expect(number(stream, b":"), len(those), "how many keys were changed")
                    with self.lock:
                        self.now.members.update(coming)
                        self.now.may.difference_update(leaving)
                        self.made += len(some)
        except BaseException as error:
            if not self.may_fail:
                self.failures.append(error)


def frame_of(verb: bytes, keys: Sequence[Key]) -> bytes:
    """A frame that changes these keys of one room, or nothing where there are none."""
    return array(verb, b"%d" % keys[0].room, *(b"%d" % key.number for key in keys)) if keys else b""


def number(stream: BinaryIO, kind: bytes) -> int:
    """The number on a line of this kind."""
    line = stream.readline()
    expect((line[:1], line[-2:]), (kind, b"\r\n"), f"a line of a reply: {line!r}")
    return int(line[1:-2])


@contextmanager
def changing(port: int, clients: Sequence[Sequence[Key]], members: Iterable[Key], seed: int) -> Iterator[Changes]:
    """Clients that change these keys of a service, each its own, of one room; the service has these members before."""
    changes = Changes(port, Known(set(members), set(members)))
    threads = [threading.Thread(target=changes.change, args=(keys, random.Random(seed * 100 + at))) for at, keys in enumerate(clients)]
    for thread in threads:
        thread.start()
    try:
        yield changes
    finally:
        changes.ends.set()
        for thread in threads:
            thread.join()
    expect(changes.failures, [], "what went wrong with those that change keys")
