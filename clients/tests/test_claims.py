"""Claims: to whom a key is given, however the commands of several workers interleave and whichever of their replies are lost."""

from __future__ import annotations

import functools
import threading
import unittest
from dataclasses import dataclass, replace
from typing import Any, FrozenSet, Iterator, List, Optional, Set, Tuple
from unittest import mock

import lazyset
from lazyset import InDoubt, Lazyset, Pool
from lazyset.claims import claim

from .service import AgainstTheProgram

# What a worker sends: its verb and its room, of the one key that is claimed.
Sent = Tuple[str, int]

# How many workers there are, how often each may claim, and how many replies are lost in all.
CASES = ((2, 3, 3), (3, 2, 1))


class Next(Exception):
    """The command that a claim asks next."""


class Replay:
    """Stands in for a connection: it has given these answers, and then tells what is asked next."""

    def __init__(self, answers: Tuple[bool, ...]) -> None:
        self.answers = list(answers)

    def ask(self, verb: str, room: int) -> bool:
        if not self.answers:
            raise Next(verb, room)
        return self.answers.pop(0)

    def add(self, number: int, room: int = 0) -> bool:
        return self.ask("add", room)

    def remove(self, number: int, room: int = 0) -> bool:
        return self.ask("remove", room)

    def has(self, number: int, room: int = 0) -> bool:
        return self.ask("has", room)


@dataclass(frozen=True)
class Worker:
    """A worker within a try: what its commands were answered. Between tries it has an outcome: True, False, "doubt" or "lost"."""

    tries: int
    answers: Tuple[bool, ...] = ()
    outcome: Optional[object] = None


@dataclass(frozen=True)
class World:
    """The rooms that have the key, the worker that added it (0 before), what is carried out later, and the workers."""

    workers: Tuple[Worker, ...]
    losses: int
    rooms: FrozenSet[int] = frozenset()
    adder: int = 0
    late: Tuple[Tuple[int, Sent], ...] = ()
    has_lost: FrozenSet[int] = frozenset()

    def done(self, number: int, sent: Sent) -> Tuple["World", bool]:
        """After a worker's command was carried out, and what it is answered."""
        verb, room = sent
        is_member = room in self.rooms
        if verb == "has":
            return self, is_member
        rooms = self.rooms | {room} if verb == "add" else self.rooms - {room}
        adder = number if verb == "add" and room == 0 and not is_member else self.adder
        return replace(self, rooms=rooms, adder=adder), is_member != (verb == "add")

    def with_worker(self, number: int, worker: Worker) -> "World":
        return replace(self, workers=self.workers[: number - 1] + (worker,) + self.workers[number:])


@functools.lru_cache(maxsize=None)
def asks(number: int, answers: Tuple[bool, ...]) -> object:
    """What a worker sends next after these answers, or its outcome where the try has ended."""
    try:
        return claim(Replay(answers), 17, number)
    except InDoubt:
        return "doubt"
    except Next as asked:
        return asked.args


def after(world: World) -> Iterator[World]:
    """The worlds that may be next."""
    for place, (number, sent) in enumerate(world.late):
        yield replace(world, late=world.late[:place] + world.late[place + 1 :]).done(number, sent)[0]
    for number, worker in enumerate(world.workers, 1):
        if worker.outcome is not None:
            if worker.tries:
                yield world.with_worker(number, Worker(worker.tries))
            continue
        asked: Any = asks(number, worker.answers)
        if not isinstance(asked, tuple):
            yield world.with_worker(number, Worker(worker.tries - 1, (), asked))
            continue
        sent = (asked[0], asked[1])
        done, answer = world.done(number, sent)
        yield done.with_worker(number, replace(worker, answers=worker.answers + (answer,)))
        if world.losses:
            lost = Worker(worker.tries - 1, (), "lost")
            late = replace(world, late=tuple(sorted(world.late + ((number, sent),))))
            for left in (done, world, late):
                without = replace(left, losses=world.losses - 1, has_lost=world.has_lost | {number})
                yield without.with_worker(number, lost)


class Interleaved(unittest.TestCase):
    def test_a_key_is_given_to_the_worker_that_added_it_and_to_no_other(self) -> None:
        """In each world that so many lost replies and tries of the workers lead to."""
        for workers, tries, losses in CASES:
            asks.cache_clear()
            with mock.patch("lazyset.claims.MOST_WORKERS", workers):
                outcomes = self.explore(World((Worker(tries),) * workers, losses))
            self.assertEqual(outcomes, {None, True, False, "doubt", "lost"})

    def explore(self, first: World) -> Set[object]:
        """Looks at each world after this one, and gives the outcomes that came."""
        seen, waiting = {first}, [first]
        outcomes: Set[object] = set()
        while waiting:
            world = waiting.pop()
            for number, worker in enumerate(world.workers, 1):
                outcomes.add(worker.outcome)
                if worker.outcome is True:
                    self.assertEqual(world.adder, number, world)
                if worker.outcome is False:
                    self.assertNotIn(world.adder, (0, number), world)
            if not world.late and all(it.outcome is not None for it in world.workers) and len(world.has_lost) == 1:
                self.expect_an_end(world)
            for then in after(world):
                if then not in seen:
                    seen.add(then)
                    waiting.append(then)
        return outcomes

    def expect_an_end(self, world: World) -> None:
        """Where one worker alone lost replies and all claims have ended, its next claim tells the truth, or leaves the key to the other."""
        (number,) = world.has_lost
        answers: Tuple[bool, ...] = ()
        while True:
            sent: Any = asks(number, answers)
            if not isinstance(sent, tuple):
                break
            world, answer = world.done(number, (sent[0], sent[1]))
            answers += (answer,)
        self.assertIn(sent, (True,) if world.adder == number else (False, "doubt"), world)


class OverTheProgram(AgainstTheProgram):
    slots = 4000
    passes = 15

    def test_each_key_is_given_to_one_of_fifteen_workers(self) -> None:
        given: List[List[int]] = [[] for _ in range(lazyset.MOST_WORKERS)]
        with Pool(self.service.port, size=15) as keys:

            def claims(worker: int) -> None:
                given[worker - 1] = [number for number in range(100) if keys.claim(number, worker)]

            threads = [threading.Thread(target=claims, args=(worker,)) for worker in range(1, 16)]
            for thread in threads:
                thread.start()
            for thread in threads:
                thread.join()
            self.assertEqual(sorted(number for numbers in given for number in numbers), list(range(100)))
            held = [[number for number in range(100) if keys.has(number, worker)] for worker in range(1, 16)]
        self.assertEqual(held, given, "the intents that are left")

    def test_a_claim_again(self) -> None:
        with Lazyset(self.service.port) as keys:
            self.assertTrue(keys.claim(17, 1))
            self.assertTrue(keys.claim(17, 1))
            self.assertFalse(keys.claim(17, 2))
            self.assertFalse(keys.claim(17, 2))

    def test_a_claim_in_doubt(self) -> None:
        with Lazyset(self.service.port) as keys:
            self.assertEqual([keys.add(17, 2), keys.add(17, 5), keys.add(17)], [True] * 3)
            with self.assertRaises(InDoubt) as caught:
                keys.claim(17, 2)
            self.assertEqual((caught.exception.number, caught.exception.workers), (17, [5]))
            self.assertTrue(keys.remove(17, 5))
            self.assertTrue(keys.claim(17, 2))

    def test_what_is_no_worker(self) -> None:
        with Lazyset(self.service.port) as keys:
            for worker in (0, 16, -1):
                with self.assertRaises(ValueError):
                    keys.claim(17, worker)
            no_workers: List[Any] = [True, 1.0, "1", None]
            for no_worker in no_workers:
                with self.assertRaises(TypeError):
                    keys.claim(17, no_worker)
            self.assertFalse(keys.has(17))
