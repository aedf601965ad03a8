"""What a judge has to say of a history: an independent model, written from docs/FORMATS.md."""

from __future__ import annotations

from typing import Dict, Iterator, List, NamedTuple, Optional, Set, Tuple

from trials.plain import VERBS, read_key, read_range
from trials.program import Key

MOST_CALLS = 100_000
MOST_BYTES = 4_194_304
MOST_ACTORS = 64
MOST_PLACE = 999_999_999_999
MOST_U64 = 2**64 - 1

ANSWERS = (b"yes", b"no")
REFUSALS = (b"full", b"worn", b"oldfile")


class Unread(Exception):
    """A line that doesn't read."""


def number_in(word: bytes, low: int, high: int) -> int:
    number = read_range(word, low, high)
    if number is None:
        raise Unread
    return number


def key_in(word: bytes) -> Key:
    key = read_key(word)
    if isinstance(key, int):
        raise Unread
    return key


def keys_in(words: List[bytes]) -> List[Key]:
    keys = [key_in(word) for word in words]
    if any(after <= before for before, after in zip(keys, keys[1:])):
        raise Unread
    return keys


class Seen:
    """A call, as the text tells of it."""

    def __init__(self, number: int, life: int, verb: str, key: Key, begun: int) -> None:
        self.number, self.life, self.verb, self.key, self.begun = number, life, verb, key, begun
        self.ended: Optional[int] = None
        self.answer: Optional[str] = None
        self.is_refused = False


class Opened(NamedTuple):
    """An open's keys, and the number of the life that it begins."""

    life: int
    keys: List[Key]


class Story:
    """A history, read line by line."""

    def __init__(self) -> None:
        self.calls: Dict[int, Seen] = {}
        self.opens: List[Opened] = []
        self.points: List[Tuple[int, int]] = []
        self.life: Optional[int] = 0
        self.lives = 0
        self.open_calls: Dict[int, Seen] = {}
        self.line = 0

    def read(self, line: bytes) -> None:
        """Notes a line; Unread where it has no place."""
        self.line += 1
        word, *rest = line.split(b" ")
        if line in (b"stop", b"crash"):
            self.life = None
            self.open_calls.clear()
        elif word == b"call" and len(rest) == 4:
            self._call(*rest)
        elif word in (b"answer", b"refused") and len(rest) == 2 and rest[1] in (ANSWERS if word == b"answer" else REFUSALS):
            call = self._end(rest[0])
            call.answer = rest[1].decode() if word == b"answer" else None
            call.is_refused = word == b"refused"
        elif word in (b"halted", b"device") and len(rest) == 1:
            self._end(rest[0])
        elif word == b"open" and rest[:1] == [b"fault"] and len(rest) == 2:
            number_in(rest[1], 1, 8)
        elif word == b"open":
            self._open(keys_in(rest))
        elif word == b"show":
            keys_in(rest)
        elif word == b"busy" and len(rest) == 1:
            number_in(rest[0], 1, MOST_ACTORS)
        elif word == b"point" and len(rest) == 2:
            self.points.append((number_in(rest[0], 1, MOST_U64), number_in(rest[1], 0, MOST_PLACE)))
        else:
            raise Unread

    def _call(self, number: bytes, actor: bytes, verb: bytes, key: bytes) -> None:
        name, by = number_in(number, 1, MOST_U64), number_in(actor, 1, MOST_ACTORS)
        asked = key_in(key)
        if verb not in VERBS or self.life is None or name in self.calls or by in self.open_calls:
            raise Unread
        if len(self.calls) == MOST_CALLS:
            raise Unread
        call = Seen(name, self.life, verb.decode(), asked, self.line)
        self.calls[name] = self.open_calls[by] = call

    def _end(self, number: bytes) -> Seen:
        name = number_in(number, 1, MOST_U64)
        for actor, call in self.open_calls.items():
            if call.number == name:
                del self.open_calls[actor]
                call.ended = self.line
                return call
        raise Unread

    def _open(self, keys: List[Key]) -> None:
        if self.life is not None:
            raise Unread
        self.lives += 1
        self.life = self.lives
        self.opens.append(Opened(self.life, keys))


def flaws(story: Story) -> Iterator[Tuple[int, Set[int]]]:
    """The kinds of flaws in the judge's order, and the numbers of which each is told."""
    places: Dict[int, int] = {}
    twice: Set[int] = set()
    for number, place in story.points:
        if number in places:
            twice.add(number)
        places[number] = place
    calls = story.calls.values()
    yield 2, set(places) - set(story.calls)
    yield 6, twice
    yield 7, {call.number for call in calls if call.is_refused and call.number in places}
    yield 1, {call.number for call in calls if call.answer and call.number not in places}
    placed = [call for call in calls if call.number in places]
    yield 3, set(misplaced(placed, places))
    listed = sorted(placed, key=lambda call: places[call.number])
    yield 4, set(wrongly_answered(listed))
    yield 5, set(wrongly_found(listed, story.opens))


def misplaced(placed: List[Seen], places: Dict[int, int]) -> Iterator[int]:
    """Calls with an earlier partner in the text whose place isn't below their own and has to be."""
    for at, later in enumerate(placed):
        for call in placed[:at]:
            is_before = call.life < later.life or (call.answer and call.ended is not None and call.ended < later.begun)
            here, there = places[call.number], places[later.number]
            if here == there or (is_before and here > there):
                yield later.number


def after(call: Seen, members: Set[Key]) -> str:
    """What a plain set answers to a call, which it then has done."""
    is_member = call.key in members
    if call.verb == "add":
        members.add(call.key)
    elif call.verb == "remove":
        members.discard(call.key)
    return "yes" if is_member != (call.verb == "add") else "no"


def wrongly_answered(listed: List[Seen]) -> Iterator[int]:
    """Calls that were answered otherwise than the list of them answers."""
    members: Set[Key] = set()
    for call in listed:
        told = after(call, members)
        if call.answer and call.answer != told:
            yield call.number


def wrongly_found(listed: List[Seen], opens: List[Opened]) -> Iterator[int]:
    """Opens, counted from 1, that found other keys than those after the calls of the lives before."""
    for number, opened in enumerate(opens, 1):
        members: Set[Key] = set()
        for call in listed:
            if call.life < opened.life:
                after(call, members)
        if sorted(members) != opened.keys:
            yield number


def judged(text: bytes) -> Tuple[str, int]:
    """What a judge prints of a history, and its status."""
    story, read = Story(), 0
    lines = text.split(b"\n")
    for number, line in enumerate(lines, 1):
        is_rest = number == len(lines)
        if is_rest and not line:
            break
        read += len(line) + 1
        try:
            if is_rest or read > MOST_BYTES:
                raise Unread
            story.read(line)
        except Unread:
            return f"line {number}\n", 3
    for kind, numbers in flaws(story):
        if numbers:
            return f"flaw {kind} {min(numbers)}\n", 4
    return "good\n", 0
