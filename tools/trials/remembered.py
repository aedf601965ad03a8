"""What clients of a service that forgets may be told, by the times around their calls alone: a judge, and clients whose calls it judges."""

from __future__ import annotations

import random
import socket
import threading
import time
from bisect import bisect_left, bisect_right
from collections import defaultdict
from contextlib import suppress
from typing import Dict, Iterator, List, NamedTuple, Optional, Sequence, Tuple

from trials.guests import connect
from trials.plain_frames import array
from trials.report import Wrong

# What a call asks of a key.
CLAIM, HAS, REMOVE, LEFT = "claim", "has", "remove", "left"

# For how long an epoch may wait for its end, for the mark of the next one among others. And how much longer a key of a life before may be remembered,
# besides an epoch more: no mark tells when the last epoch ended.
SLACK, OF_MARKS = 1.0, 2.0

# How long an answer may take, and for how many seconds clients ask for one key that is another one after them.
PATIENCE, MOMENT = 30.0, 0.004


class Call(NamedTuple):
    """What a client asked of a key, when it was sent, and when its answer was there or its connection had ended, and what it was told: 1 or 0, or how many
    milliseconds are left (-2 of a key that isn't there), in units of so many. None has no answer: it may have been done."""

    verb: str
    key: bytes
    sent: float
    heard: float
    told: Optional[int]
    life: int = 0
    unit: int = 1


class Period(NamedTuple):
    """After how many seconds a service forgets, and how many epochs it remembers."""

    seconds: int
    epochs: int = 3

    @property
    def length(self) -> float:
        """For how long an epoch takes keys."""
        return self.seconds / (self.epochs - 1)

    @property
    def most(self) -> float:
        """For how long a key is remembered at most."""
        return self.seconds + self.length

    def words(self) -> List[str]:
        """Those of a service's command line. Three epochs needn't be named."""
        return ["--forget", str(self.seconds), *(("--epochs", str(self.epochs)) if self.epochs != 3 else ())]


class OneKey:
    """All calls on one key, in any order. Each is so at some moment between its two times."""

    def __init__(self, period: Period, calls: Sequence[Call]) -> None:
        self.period, self.calls = period, calls
        # Claims that may have added it, and those that have.
        self.added = sorted((call for call in calls if call.verb == CLAIM and call.told != 0), key=lambda call: call.sent)
        self.news = [call for call in self.added if call.told]
        self.by_end = sorted(self.news, key=lambda call: call.heard)
        self.added_sent, self.news_sent = [call.sent for call in self.added], [call.sent for call in self.news]
        self.news_heard = [call.heard for call in self.by_end]
        # Removals that may have removed it: when they began and ended.
        removals = [call for call in calls if call.verb == REMOVE]
        self.begins = sorted(call.sent for call in removals if call.told != 0)
        self.ends = sorted(call.heard for call in removals if call.told != 0)
        # After an answered removal it is no member: when each was sent, and when the first ended of those that were sent no earlier.
        told = sorted((call.sent, call.heard) for call in removals if call.told is not None)
        self.gone_sent, self.first_gone = [sent for sent, _ in told], [heard for _, heard in told]
        for at in range(len(told) - 2, -1, -1):
            self.first_gone[at] = min(self.first_gone[at], self.first_gone[at + 1])

    def removals_in(self, begin: float, end: float) -> int:
        """How many removals may have been done between these times."""
        return bisect_right(self.begins, end) - bisect_left(self.ends, begin)

    def flaws(self) -> Iterator[str]:
        yield from self.too_early()
        yield from self.too_many_removals()
        for call in self.calls:
            if call.told is None:
                continue
            was_member = call.told == 0 if call.verb == CLAIM else call.told > 0 or (call.verb == LEFT and call.told == 0)
            if was_member and not any(self.members_by(call)):
                yield f"remembered, though nothing that may be remembered was claimed: {call}"
            elif was_member and call.verb == LEFT and not any(self.leaves(add, call) for add in self.members_by(call)):
                yield f"no claim leaves so much time: {call}"
            elif not was_member and call.verb != CLAIM:
                yield from self.forgotten(call)

    def too_early(self) -> Iterator[str]:
        """Of the claims within less than the period one alone is new, and one more for each removal."""
        for first in self.news:
            count = 0
            for call in self.by_end[bisect_left(self.news_heard, first.heard) :]:
                if call.heard >= first.sent + self.period.seconds:
                    break
                count += call.sent >= first.sent
                if count > 1 + self.removals_in(first.sent, call.heard):
                    yield f"new again after {call.heard - first.sent:.3f} s at most: {first}, {call}"
                    break

    def too_many_removals(self) -> Iterator[str]:
        """Each addition is removed once."""
        done = sorted(call.heard for call in self.calls if call.verb == REMOVE and call.told)
        for count, heard in enumerate(done, 1):
            if count > bisect_right(self.added_sent, heard):
                yield f"removed {count} times by {heard}, and added fewer times"
                return

    def members_by(self, call: Call) -> Iterator[Call]:
        """The claims by which it may be a member at a moment of the call, the last one first."""
        for at in range(bisect_right(self.added_sent, call.heard) - 1, -1, -1):
            add = self.added[at]
            if call.sent - add.heard > self.most(add, call):
                continue
            gone = bisect_right(self.gone_sent, add.heard)
            if gone == len(self.gone_sent) or self.first_gone[gone] >= call.sent:
                yield add

    def most(self, add: Call, call: Call) -> float:
        """For how long what this claim added may be remembered at the call. The start of a later life reads when an epoch began, and not when it ended."""
        return self.period.most + SLACK + (self.period.length + OF_MARKS if add.life != call.life else 0)

    def leaves(self, add: Call, call: Call) -> bool:
        """Whether so much time may be left of what this claim added."""
        assert call.told is not None
        least = add.sent + self.period.seconds - call.heard - SLACK
        most = add.heard + self.most(add, call) - call.sent
        return (call.told + call.unit) / 1000 >= least and call.told / 1000 <= most

    def forgotten(self, call: Call) -> Iterator[str]:
        """Each claim that was new less than the period ago was taken away by a removal of its own."""
        count = 0
        for at in range(bisect_left(self.news_sent, call.sent) - 1, -1, -1):
            add = self.news[at]
            if call.heard >= add.sent + self.period.seconds:
                return
            count += add.heard < call.sent
            if count > self.removals_in(add.sent, call.heard):
                yield f"forgotten {call.heard - add.sent:.3f} s after its claim, at most: {add}, {call}"
                return


def flaws(period: Period, calls: Sequence[Call]) -> List[str]:
    """What is wrong with the answers to these calls."""
    by_key: Dict[bytes, List[Call]] = defaultdict(list)
    for call in calls:
        by_key[call.key].append(call)
    return [flaw for own in by_key.values() for flaw in OneKey(period, own).flaws()]


def expect_judged(period: Period, calls: Sequence[Call], what: str) -> str:
    """Nothing is wrong with the answers, and something is once they are spoiled: by a claim that is new twice, and by a key that is remembered twice as long.
    Tells how many there are of each kind."""
    found = flaws(period, calls)
    if found:
        raise Wrong(f"{what}: {len(found)} flaws: {'; '.join(found[:3])}")
    news = [call for call in calls if call.verb == CLAIM and call.told]
    known = [call for call in calls if call.verb == CLAIM and call.told == 0]
    lost = sum(call.told is None for call in calls)
    if not news or not known:
        raise Wrong(f"{what}: {len(news)} claims are new, and {len(known)} are not")
    removals = [call for call in calls if call.verb == REMOVE]
    some = next(call for call in news if not any(it.key == call.key and it.heard >= call.sent and it.sent <= call.heard + 0.001 for it in removals))
    last = max((call for call in calls if call.verb == CLAIM and call.told != 0), key=lambda call: call.heard)
    late = last.heard + 2 * period.most + period.length + OF_MARKS + SLACK
    twice, later = some._replace(sent=some.heard, heard=some.heard + 0.001), last._replace(sent=late, heard=late, told=0)
    for spoiled in (twice, later):
        if not flaws(period, [*calls, spoiled]):
            raise Wrong(f"{what}: nothing is wrong with a call more: {spoiled}")
    return f"{len(calls)} calls, {len(news)} new, {len(known)} known, {lost} without an answer"


# What a frame asks, and of how many milliseconds each is that it is told.
Frame = Tuple[str, Sequence[bytes], int]

TOLD = {b"+OK\r\n": 1, b"$-1\r\n": 0, b":1\r\n": 1, b":0\r\n": 0}


def claims_of(period: Period) -> List[Sequence[bytes]]:
    """The words of each kind of claim, whose key stands where there is a K; all of them claim the same key."""
    seconds, moments = b"%d" % period.seconds, b"%d" % (1000 * period.seconds)
    return [
        *((b"SET", b"K", b"1", b"NX"), (b"SETNX", b"K", b"1"), (b"SADD", b"", b"K")),
        *((b"SET", b"K", b"1", b"NX", b"EX", seconds), (b"SET", b"K", b"1", b"EX", seconds, b"NX")),
        *((b"set", b"K", b"", b"px", moments, b"nx"), (b"SET", b"K", b"1", b"NX", b"PX", moments)),
    ]


OTHERS: Dict[str, Sequence[Tuple[Sequence[bytes], int]]] = {
    HAS: (((b"EXISTS", b"K"), 1), ((b"SISMEMBER", b"", b"K"), 1)),
    REMOVE: (((b"DEL", b"K"), 1), ((b"UNLINK", b"K"), 1), ((b"SREM", b"", b"K"), 1)),
    LEFT: (((b"TTL", b"K"), 1000), ((b"PTTL", b"K"), 1)),
}


def drawn_frame(draw: random.Random, period: Period, verb: str) -> Frame:
    """One of the frames that ask this."""
    words, unit = (draw.choice(claims_of(period)), 1) if verb == CLAIM else draw.choice(OTHERS[verb])
    return verb, words, unit


class Caller:
    """A client that asks one thing after the other, and notes each call."""

    def __init__(self, port: int, life: int = 0) -> None:
        self.connection = connect(port)
        self.life = life
        self.calls: List[Call] = []
        self.connection.settimeout(PATIENCE)
        self.connection.setsockopt(socket.IPPROTO_TCP, socket.TCP_NODELAY, 1)
        self.stream = self.connection.makefile("rb")

    def ask(self, frame: Frame, key: bytes) -> Optional[int]:
        """What is told; None where the connection has ended, or the service stops."""
        verb, words, unit = frame
        line, sent = b"", time.monotonic()
        with suppress(ConnectionError):
            self.connection.sendall(array(*(key if word == b"K" else word for word in words)))
            line = self.stream.readline()
        heard = time.monotonic()
        told = None
        if line.endswith(b"\n") and not line.startswith(b"-ERR stopping"):
            if line not in TOLD and not (verb == LEFT and line[:1] == b":" and line[1:-2].lstrip(b"-").isdigit()):
                raise Wrong(f"{words} of {key!r} is told {line!r}")
            told = int(line[1:-2]) if verb == LEFT else TOLD[line]
        if verb == LEFT and told is not None and told >= 0:
            told *= unit
        self.calls.append(Call(verb, key, sent, heard, told, self.life, unit))
        return told

    def close(self) -> None:
        self.stream.close()
        self.connection.close()


class Load:
    """Clients that draw what they ask, each on a connection of its own, until they are told to end or have no answer. Without keys all of them ask for one
    key, and for another one every few moments."""

    def __init__(self, port: int, period: Period, keys: Sequence[bytes], verbs: Sequence[str], clients: int, seed: int, life: int = 0) -> None:
        self.period, self.keys, self.verbs = period, keys, verbs
        self.enough = threading.Event()
        self.failures: List[BaseException] = []
        self.callers = [Caller(port, life) for _ in range(clients)]
        self.threads = [threading.Thread(target=self.run, args=(caller, random.Random(seed * 64 + at)), daemon=True) for at, caller in enumerate(self.callers)]
        for thread in self.threads:
            thread.start()

    def run(self, caller: Caller, draw: random.Random) -> None:
        try:
            while not self.enough.is_set():
                key = draw.choice(self.keys) if self.keys else b"at %d" % (time.monotonic() / MOMENT)
                if caller.ask(drawn_frame(draw, self.period, draw.choice(self.verbs)), key) is None:
                    return
        except BaseException as failure:
            self.failures.append(failure)

    def end(self) -> List[Call]:
        """All calls, once each client has ended."""
        self.enough.set()
        for thread in self.threads:
            thread.join(2 * PATIENCE)
        for caller in self.callers:
            caller.close()
        for failure in self.failures:
            raise failure
        return [call for caller in self.callers for call in caller.calls]
