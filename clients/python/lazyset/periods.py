"""Keys that are forgotten: the rooms of a file stand for periods, by turns."""

from __future__ import annotations

import time
from dataclasses import dataclass
from typing import Callable, Set, Tuple

from .claims import Keys
from .commands import MOST_ROOM
from .errors import Late

ROOMS = MOST_ROOM + 1

# How many seconds the clocks of two clients may differ, where nothing else is given, and how long a claim may take.
GUARD = 60.0


@dataclass(frozen=True)
class Calendar:
    """The periods, counted from 1970: each is as many seconds long, and has the room of its number modulo 16.

    Around a change of period, by `guard` seconds before and after it, both periods are used: no two clocks differ by more, and no claim
    takes longer."""

    seconds: float
    guard: float = GUARD

    def __post_init__(self) -> None:
        if not 0 < self.guard <= self.seconds / 4:
            raise ValueError(f"a guard is more than 0 and up to a quarter of a period ({self.seconds} seconds), not {self.guard}")

    def periods(self, moment: float) -> Tuple[int, int]:
        """The period of a moment by a clock that is late by the guard, and by one that is early by it."""
        return int((moment - self.guard) // self.seconds), int((moment + self.guard) // self.seconds)

    def live_rooms(self, moment: float) -> Set[int]:
        """The rooms in which a claim of that moment looks or adds, and that of the next period."""
        first, second = self.periods(moment)
        return {period % ROOMS for period in range(first - 1, second + 2)}

    def next_change(self, moment: float) -> float:
        """When the next period has begun by each clock."""
        return (self.periods(moment)[0] + 1) * self.seconds + self.guard


class Periods:
    """Tells each key new once in a period, and forgets it after one to two periods. `keys` is a `Lazyset`, a `Pool` or a `RespKeys`.

    A claim looks in the room of the last period, and adds the key to the room of this one. It is new where the first says no and the second
    yes. Around a change of period the key is added to the old room and then to the new one, and is new where both say yes. So of two claims
    at the same time one alone is told so. Each stops at the first answer that says otherwise, so one of them is told so unless a reply is lost.

    All clients have the same `seconds` and `guard`, and a sweeper (`lazyset.sweeper`) removes what is in the rooms of older periods. The file
    has nothing but these keys, and slots for three periods. docs/RECIPES.md, "Forgetting"."""

    def __init__(self, keys: Keys, seconds: float, guard: float = GUARD, clock: Callable[[], float] = time.time) -> None:
        self._keys = keys
        self._calendar = Calendar(seconds, guard)
        self._clock = clock

    def is_new(self, number: int) -> bool:
        """Whether this claim of the key is its first one within a period. True comes to one claim alone, and to none where its reply is lost.

        `Late`: it took longer than the guard, so it isn't known."""
        began = self._clock()
        first, second = self._calendar.periods(began)
        if self._keys.has(number, (first - 1) % ROOMS):
            return False
        for period in range(first, second + 1):
            if not self._keys.add(number, period % ROOMS):
                return False
        took = self._clock() - began
        if not 0 <= took <= self._calendar.guard:
            raise Late(number, took)
        return True

    def is_known(self, number: int) -> bool:
        """Whether the key was told new within a period, or is just being told so. It claims nothing."""
        first, second = self._calendar.periods(self._clock())
        return any(self._keys.has(number, period % ROOMS) for period in range(second, first - 2, -1))
