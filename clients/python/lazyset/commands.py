"""The commands that a client sends, and the replies that it reads."""

from __future__ import annotations

import enum
from dataclasses import dataclass

MOST_NUMBER = 10**18 - 1
MOST_ROOM = 15


class Verb(enum.Enum):
    """What a command does with its key."""

    ADD = "add"
    REMOVE = "remove"
    HAS = "has"


class Reply(enum.Enum):
    """What the service answers to a command that reads."""

    YES = "yes"
    NO = "no"
    FULL = "full"
    OLD_FILE = "oldfile"
    WORN = "worn"
    HALTED = "halted"
    STOPPING = "stopping"


@dataclass(frozen=True)
class Command:
    """One command, on the key of that number in that room.

    TypeError where a number or a room is no int (True and 1.0 aren't), ValueError where it is out of range."""

    verb: Verb
    number: int
    room: int = 0

    def __post_init__(self) -> None:
        if not isinstance(self.verb, Verb):
            raise TypeError(f"a command's verb is a Verb, not {self.verb!r}")
        _expect_int("a key's number", self.number, MOST_NUMBER)
        _expect_int("a room", self.room, MOST_ROOM)

    @classmethod
    def add(cls, number: int, room: int = 0) -> Command:
        return cls(Verb.ADD, number, room)

    @classmethod
    def remove(cls, number: int, room: int = 0) -> Command:
        return cls(Verb.REMOVE, number, room)

    @classmethod
    def has(cls, number: int, room: int = 0) -> Command:
        return cls(Verb.HAS, number, room)

    def __str__(self) -> str:
        key = "%d:%d" % (self.room, self.number) if self.room else "%d" % self.number
        return f"{self.verb.value} {key}"

    def line(self) -> bytes:
        """The line that asks for it."""
        return f"{self}\n".encode("ascii")


def _expect_int(what: str, value: object, most: int) -> None:
    if isinstance(value, bool) or not isinstance(value, int):
        raise TypeError(f"{what} is an int, not {value!r}")
    if not 0 <= value <= most:
        raise ValueError(f"{what} is 0 to {most}, not {value}")
