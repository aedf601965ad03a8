"""Which of several workers a key is given to, also where replies are lost."""

from __future__ import annotations

from typing import Protocol

from .commands import MOST_ROOM
from .errors import InDoubt

# Each worker has a room of its own, beside room 0.
MOST_WORKERS = MOST_ROOM


class Keys(Protocol):
    """What a claim asks: a connection, or a pool."""

    def add(self, number: int, room: int = 0) -> bool: ...

    def remove(self, number: int, room: int = 0) -> bool: ...

    def has(self, number: int, room: int = 0) -> bool: ...


def claim(keys: Keys, number: int, worker: int) -> bool:
    """See `Lazyset.claim`.

    The key is a member of room 0 once it was given to somebody, and it is the worker's own whose addition made it one. Each worker first
    adds the key to its own room, and takes it out again only where this was new and its one addition after it was answered no: then it
    isn't the worker that added it. So the room of the worker that did has the key, from before its addition, for good. A worker whose
    earlier addition had no answer looks into all rooms after its addition was answered no. Where no other one has the key, it was its
    own addition."""
    if isinstance(worker, bool) or not isinstance(worker, int):
        raise TypeError(f"a worker is an int, not {worker!r}")
    if not 1 <= worker <= MOST_WORKERS:
        raise ValueError(f"a worker is 1 to {MOST_WORKERS}, not {worker}")
    is_first_try = keys.add(number, worker)
    if keys.add(number):
        return True
    if is_first_try:
        keys.remove(number, worker)
        return False
    others = [room for room in range(1, MOST_WORKERS + 1) if room != worker and keys.has(number, room)]
    if others:
        raise InDoubt(number, others)
    return True
