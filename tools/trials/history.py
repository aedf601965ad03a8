"""What clients saw of a service, and a place for each call in an order that explains it.

Nothing here is trusted: the order that is found is written into the history, and the program's judge decides. A call's
interval lies between two stamps: one that its client took before it sent the line, and one after it had the reply."""

from __future__ import annotations

import itertools
from collections import defaultdict
from dataclasses import dataclass, field
from typing import Dict, FrozenSet, Iterator, List, Optional, Sequence, Set, Tuple

from lazyset import Reply, Verb
from trials.program import Key

# Later than any stamp.
NEVER = 1 << 62

# Stamps are drawn in one order for all clients. (A draw is one step of the interpreter, so no two are equal.)
_stamps = itertools.count(1)


def stamp() -> int:
    return next(_stamps)


@dataclass(eq=False)
class Call:
    """A call of an actor; without an end it was under way when its life ended."""

    actor: int
    verb: Verb
    key: Key
    called: int
    ended: int = NEVER
    reply: Optional[Reply] = None

    def is_answered(self) -> bool:
        return self.reply in (Reply.YES, Reply.NO)

    def is_refused(self) -> bool:
        return self.reply in (Reply.FULL, Reply.OLD_FILE, Reply.WORN)

    def last_stamp(self) -> int:
        """Before which stamp it took place, where it did."""
        return self.ended if self.is_answered() else NEVER


@dataclass
class Life:
    """The calls of a life, how it ended, and the keys that were found behind it."""

    calls: List[Call]
    end: str
    found: List[Key]


@dataclass
class History:
    """Lives from the empty set on."""

    lives: List[Life] = field(default_factory=list)

    def text(self) -> str:
        """Its lines, with a point for each call that is found to have been done."""
        lines: List[str] = []
        numbers = itertools.count(1)
        points = itertools.count(1)
        held: Set[Key] = set()
        for life in self.lives:
            names = {call: number for number, call in zip(numbers, _by_call(life.calls))}
            lines += _marks(life.calls, names)
            lines += [life.end, " ".join(["open", *map(str, life.found)])]
            placed = _placed(life, held)
            lines += [f"point {names[call]} {next(points)}" for call in placed]
            held = set(life.found)
        return "\n".join(lines) + "\n"


def _by_call(calls: Sequence[Call]) -> List[Call]:
    return sorted(calls, key=lambda call: call.called)


def _marks(calls: Sequence[Call], names: Dict[Call, int]) -> Iterator[str]:
    marks: List[Tuple[int, str]] = []
    for call in calls:
        number = names[call]
        marks.append((call.called, f"call {number} {call.actor} {call.verb.value} {call.key}"))
        if call.is_answered() and call.reply is not None:
            marks.append((call.ended, f"answer {number} {call.reply.value}"))
        elif call.is_refused() and call.reply is not None:
            marks.append((call.ended, f"refused {number} {call.reply.value}"))
        elif call.reply is Reply.HALTED:
            marks.append((call.ended, f"halted {number}"))
    return (text for _, text in sorted(marks))


def _placed(life: Life, held: Set[Key]) -> List[Call]:
    """The calls that were done, in an order for all keys that is made of one for each key.

    Within its key's order each call takes place as early as it can: behind its own first stamp, and behind the calls
    before it. That is before its last stamp, as the order of a key keeps the order in time."""
    of_key: Dict[Key, List[Call]] = defaultdict(list)
    for call in _by_call(life.calls):
        if not call.is_refused():
            of_key[call.key].append(call)
    found = set(life.found)
    moments: List[Tuple[int, int, Call]] = []
    for key, calls in of_key.items():
        moment = 0
        for place, call in enumerate(_order_of_key(calls, key in held, key in found)):
            moment = max(moment, call.called)
            moments.append((moment, place, call))
    moments.sort(key=lambda entry: entry[:2])
    return [call for _, _, call in moments]


def _after(call: Call, is_member: bool) -> Tuple[Reply, bool]:
    """What a plain set answers to a call, and whether the key is a member then."""
    if call.verb is Verb.HAS:
        return (Reply.YES if is_member else Reply.NO), is_member
    wanted = call.verb is Verb.ADD
    return (Reply.YES if is_member is not wanted else Reply.NO), wanted


@dataclass(frozen=True)
class _Point:
    """How far a search has come: all calls below `low` are placed or given up, and some above it."""

    low: int
    beyond: FrozenSet[int]
    is_member: bool


# From which point a search came to another, and which call it placed.
_Trail = Dict[_Point, Tuple[Optional[_Point], Optional[int]]]


def _order_of_key(calls: Sequence[Call], before: bool, after: bool) -> List[Call]:
    """An order of one key's calls that keeps time, gives each answer, and leads from `before` to `after`. Calls without
    an answer may be left out. Where there is none, the answered calls by their answers: the judge tells the flaw."""
    start = _Point(0, frozenset(), before)
    open_points = [start]
    trail: _Trail = {start: (None, None)}
    while open_points:
        point = open_points.pop()
        if point.low == len(calls):
            if point.is_member is after:
                return _path(calls, trail, point)
            continue
        for placed, following in _next_points(calls, point):
            if following not in trail:
                trail[following] = (point, placed)
                open_points.append(following)
    answered = [call for call in calls if call.is_answered()]
    return sorted(answered, key=lambda call: call.ended)


def _path(calls: Sequence[Call], trail: _Trail, end: _Point) -> List[Call]:
    order: List[Call] = []
    point: Optional[_Point] = end
    while point is not None:
        point, placed = trail[point]
        if placed is not None:
            order.append(calls[placed])
    return order[::-1]


def _next_points(
    calls: Sequence[Call], point: _Point
) -> Iterator[Tuple[Optional[int], _Point]]:
    """Where a search may go on: by placing a call before whose call nothing open was answered, or by giving up the lowest
    one, where it has no answer."""
    if not calls[point.low].is_answered():
        yield None, _moved(point, point.low, point.is_member)
    limit = NEVER
    for index in range(point.low, len(calls)):
        call = calls[index]
        if call.called > limit:
            return
        if index in point.beyond:
            continue
        limit = min(limit, call.last_stamp())
        reply, is_member = _after(call, point.is_member)
        if not call.is_answered() or reply is call.reply:
            yield index, _moved(point, index, is_member)


def _moved(point: _Point, index: int, is_member: bool) -> _Point:
    beyond = set(point.beyond) | {index}
    low = point.low
    while low in beyond:
        beyond.remove(low)
        low += 1
    return _Point(low, frozenset(beyond), is_member)
