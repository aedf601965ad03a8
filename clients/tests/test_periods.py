"""Periods: whether a key is told new once in each, however claims interleave, and whether it is forgotten."""

from __future__ import annotations

import functools
import itertools
import os
import random
import subprocess
import sys
import threading
import time
import unittest
from typing import Any, Dict, FrozenSet, Iterator, List, NamedTuple, Optional, Sequence, Tuple
from unittest import mock

import lazyset
from lazyset import Late, Lazyset, Periods, RespKeys
from lazyset.periods import ROOMS, Calendar
from lazyset.sweeper import sweep

from .service import AgainstTheProgram
from .test_resp import BY_REDIS

PACKAGES = os.path.join(os.path.dirname(os.path.dirname(os.path.abspath(__file__))), "python")

SECONDS, GUARD = 100, 10
CALENDAR = Calendar(SECONDS, GUARD)


class Next(Exception):
    """The command that a claim asks next."""


class Replay:
    """Stands in for a connection: it has given these answers, and then tells what is asked next."""

    def __init__(self, answers: Tuple[bool, ...] = ()) -> None:
        self.answers = list(answers)

    def ask(self, verb: str, room: int) -> bool:
        if not self.answers:
            raise Next(verb, room)
        return self.answers.pop(0)

    def add(self, number: int, room: int = 0) -> bool:
        return self.ask("add", room)

    def remove(self, number: int, room: int = 0) -> bool:
        return self.ask("remove", room)

    def has(self, number: int, room: int = 0) -> bool:
        return self.ask("has", room)


class Model:
    """A set in memory."""

    def __init__(self) -> None:
        self.rooms: Dict[int, List[int]] = {}

    def add(self, number: int, room: int = 0) -> bool:
        is_new = not self.has(number, room)
        if is_new:
            self.rooms.setdefault(room, []).append(number)
        return is_new

    def remove(self, number: int, room: int = 0) -> bool:
        return self.remove_all([number], room) == 1

    def has(self, number: int, room: int = 0) -> bool:
        return number in self.rooms.get(room, [])

    def remove_all(self, numbers: Sequence[int], room: int = 0) -> int:
        gone = [number for number in numbers if self.has(number, room)]
        self.rooms[room] = [number for number in self.rooms.get(room, []) if number not in gone]
        return len(gone)

    def pages(self, room: int) -> Iterator[List[int]]:
        yield list(self.rooms.get(room, []))
        yield []


@functools.lru_cache(maxsize=None)
def asks(moment: float, answers: Tuple[bool, ...]) -> object:
    """What a claim of that moment sends next after these answers, or its own answer."""
    try:
        return Periods(Replay(answers), SECONDS, GUARD, lambda: moment).is_new(17)
    except Next as asked:
        return asked.args


# Claims, with what each was answered, and the rooms that have the key.
Claims = Tuple[Tuple[float, Tuple[bool, ...]], ...]


def outcomes(claims: Claims, rooms: FrozenSet[int] = frozenset()) -> Iterator[List[object]]:
    """The answers that claims get, in each order in which their commands may be carried out."""
    sent = [asks(*claim) for claim in claims]
    if not any(isinstance(it, tuple) for it in sent):
        yield sent
    for place, (claim, asked) in enumerate(zip(claims, sent)):
        if isinstance(asked, tuple):
            verb, room = asked
            answer = (room in rooms) == (verb == "has")
            after = (*claims[:place], (claim[0], (*claim[1], answer)), *claims[place + 1 :])
            yield from outcomes(after, rooms | {room} if verb == "add" else rooms)


class Rooms(unittest.TestCase):
    def test_the_rooms_of_a_claim(self) -> None:
        for moment, rooms in ((250, [1, 2]), (289, [1, 2]), (291, [1, 2, 3]), (309, [1, 2, 3]), (310, [2, 3]), (1650, [15, 0])):
            asked: List[Tuple[str, int]] = []
            while True:
                sent: Any = asks(moment, tuple(verb == "add" for verb, _ in asked))
                if sent is True:
                    break
                asked.append(sent)
            self.assertEqual(asked, [("has", rooms[0]), *(("add", room) for room in rooms[1:])], moment)

    def test_claims_at_once_tell_a_key_new_to_one(self) -> None:
        """As long as their clocks and times differ by two guards at most: by one for the clocks, and one that a claim takes."""
        change = 3 * SECONDS
        fine, coarse = (range(change - 3 * GUARD, change + 3 * GUARD + 1, step) for step in (GUARD // 2, GUARD))
        for moments in [*itertools.combinations_with_replacement(fine, 2), *itertools.combinations_with_replacement(coarse, 3)]:
            if moments[-1] - moments[0] <= 2 * GUARD:
                for told in outcomes(tuple((moment, ()) for moment in moments)):
                    self.assertEqual(sorted(map(bool, told)), [False] * (len(moments) - 1) + [True], moments)

    def test_a_key_is_known_for_a_period_and_forgotten_after_two(self) -> None:
        for began in range(1000, 1000 + SECONDS):
            model, now = Model(), [began]
            keys = Periods(model, SECONDS, GUARD, lambda: now[0])
            self.assertTrue(keys.is_new(17))
            for now[0] in range(began, began + 2 * SECONDS + 2 * GUARD + 1, 5):
                sweep(model, CALENDAR, lambda: now[0])
                self.assertTrue(keys.is_known(17) or now[0] > began + SECONDS)
            self.assertFalse(keys.is_known(17))
            self.assertTrue(keys.is_new(17))

    def test_a_claim_that_is_late(self) -> None:
        for ended in (250 + GUARD + 1, 249):
            times = [250, ended]
            with self.assertRaises(Late):
                Periods(Model(), SECONDS, GUARD, lambda: times.pop(0)).is_new(17)

    def test_what_is_no_guard(self) -> None:
        for seconds, guard in ((100, 0), (100, 26), (0, 0), (100, float("nan"))):
            with self.assertRaises(ValueError):
                Periods(Model(), seconds, guard)


class Sweeps(unittest.TestCase):
    def swept(self, moment: float) -> List[int]:
        """The rooms that a sweep leaves empty."""
        model = Model()
        for room in range(ROOMS):
            model.add(room, room)
        removed = sweep(model, CALENDAR, lambda: moment)
        empty = [room for room in range(ROOMS) if not model.rooms[room]]
        self.assertEqual(removed, len(empty))
        return empty

    def test_the_rooms_that_are_swept(self) -> None:
        """All but those of the last period, of this one and of the next, and those of both around a change."""
        self.assertEqual(self.swept(450), [it for it in range(ROOMS) if it not in (3, 4, 5)])
        self.assertEqual(self.swept(1500), [it for it in range(ROOMS) if it not in (13, 14, 15, 0)])

    def test_a_sweep_that_lasts_over_a_change(self) -> None:
        """It removes no page of a room whose period was the next one when the page was listed."""
        for changes_at in range(60):
            model, steps = Model(), [0]
            for room in range(ROOMS):
                model.add(room, room)

            def clock() -> float:
                steps[0] += 1
                return 450 if steps[0] < changes_at else 550

            def pages(room: int) -> Iterator[List[int]]:
                listed, is_live = list(model.rooms[room]), room in CALENDAR.live_rooms(clock())
                yield listed
                self.assertFalse(is_live and not model.rooms[room], (changes_at, room))

            with mock.patch.object(model, "pages", pages):
                sweep(model, CALENDAR, clock)
        self.assertEqual([room for room in range(ROOMS) if model.rooms[room]], [3, 4, 5])


class Told(NamedTuple):
    """When a claim was made and answered, and how: None where it was late."""

    asked: float
    heard: float
    is_new: Optional[bool]


class OverTheProgram(AgainstTheProgram):
    """Threads claim the same keys again and again, beside the sweeper."""

    slots = 300
    passes = 16
    options = BY_REDIS
    seconds, guard, lasts = 2.0, 0.2, 20.0
    threads, keys = 8, 40

    def claim_on(self, seed: int, told: Dict[int, List[Told]]) -> None:
        draw = random.Random(seed)
        end = time.time() + self.lasts
        with RespKeys(self.service.port) as connection:
            periods = Periods(connection, self.seconds, self.guard)
            while time.time() < end:
                number, asked, is_new = draw.randrange(self.keys), time.time(), None
                try:
                    is_new = periods.is_new(number)
                except Late:
                    pass
                told[number].append(Told(asked, time.time(), is_new))
                time.sleep(0.002)

    def sweeper(self, *words: str) -> "subprocess.Popen[str]":
        return subprocess.Popen(
            [sys.executable, "-B", "-m", "lazyset.sweeper", str(self.service.port), str(self.seconds), "--guard", str(self.guard), *words],
            env={**os.environ, "PYTHONPATH": PACKAGES},
            stdout=subprocess.PIPE,
            stderr=subprocess.PIPE,
            text=True,
        )

    def members(self) -> int:
        with RespKeys(self.service.port) as keys:
            return sum(len(page) for room in range(ROOMS) for page in keys.pages(room))

    def test_each_key_is_told_new_once_in_a_period(self) -> None:
        told: Dict[int, List[Told]] = {number: [] for number in range(self.keys)}
        threads = [threading.Thread(target=self.claim_on, args=(seed, told)) for seed in range(self.threads)]
        with self.sweeper() as sweeper:
            for thread in threads:
                thread.start()
            most = 0
            while any(thread.is_alive() for thread in threads):
                most = max(most, self.members())
                time.sleep(0.1)
            sweeper.kill()
            self.assertEqual(sweeper.communicate()[1], "")
        self.judge(told)
        # The keys of three periods, and around a change those of the next one too.
        self.assertLessEqual(most, 4 * self.keys)

    def judge(self, told: Dict[int, List[Told]]) -> None:
        """No key is told new again within a period, and none is refused once two are over (and a guard before and after each change)."""
        self.assertGreater(sum(map(len, told.values())), 1000)
        for number, answers in told.items():
            news = sorted(it for it in answers if it.is_new)
            self.assertGreater(len(news), 1, number)
            for one, other in zip(news, news[1:]):
                self.assertGreaterEqual(other.heard, one.asked + self.seconds, number)
            for refused in (it for it in answers if it.is_new is False):
                latest = max(it.heard for it in answers if it.is_new is not False and it.asked < refused.heard)
                self.assertLess(refused.asked, latest + 2 * (self.seconds + self.guard), number)

    def test_a_sweep_at_once(self) -> None:
        calendar = Calendar(self.seconds, self.guard)
        with RespKeys(self.service.port) as keys:
            old = (calendar.periods(time.time())[0] - 4) % ROOMS
            for number in range(100):
                keys.add(number, old)
        with self.sweeper("--once") as sweeper:
            self.assertEqual((*sweeper.communicate(), sweeper.returncode), ("swept 100\n", "", 0))
        self.assertEqual(self.members(), 0)

    def test_a_service_that_is_gone(self) -> None:
        self.service.kill()
        with self.sweeper("--once") as once:
            said = once.communicate()[1]
            self.assertEqual((once.returncode, said.count("no connection")), (1, 1), said)
        with self.sweeper() as sweeper:
            assert sweeper.stdout is not None and sweeper.stderr is not None
            self.assertIn("no connection", sweeper.stderr.readline())
            self.service.start(self.service.port)
            self.assertEqual(sweeper.stdout.readline(), "swept 0\n")
            sweeper.kill()


class ByLines(AgainstTheProgram):
    slots = 100

    def test_claims_by_lines(self) -> None:
        with Lazyset(self.service.port) as first, lazyset.Pool(self.service.port, 2) as second:
            self.assertEqual([Periods(keys, 86400).is_new(17) for keys in (first, second, first)], [True, False, False])
            self.assertTrue(Periods(second, 86400).is_known(17))
            self.assertFalse(Periods(second, 86400).is_known(18))
