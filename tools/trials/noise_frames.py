"""Noise of Redis's protocol that a seed determines: frames of commands, as arrays and as lines, whole and spoiled, long ones, and
the pieces in which they are sent."""

from __future__ import annotations

from typing import Iterator, List, Sequence

from trials.noise import NUMBERS, Noise
from trials.plain_frames import MOST_FRAME, MOST_VALUE, MOST_WORD, MOST_WORDS, array

# What a frame of noise is put together from.
FRAME_WORDS = (
    *("*1\r\n", "*2\r\n", "*3\r\n", "*0\r\n", "*-1\r\n", "*8193\r\n", "*", "$1\r\n", "$4\r\n", "$0\r\n", "$513\r\n", "$-1\r\n", "$"),
    *("SADD", "PING", "QUIT", "0", "17", "x", " ", "\t", "\r", "\n", "\r\n", "\r\n", "\r\n", "'", '"', "-", "-0", "01"),
)

MEMBERS = tuple(b"%d" % number for number in range(8))
ROOMS = (b"0", b"0", b"0", b"3", b"15")

# Words of all kinds, for where a member, a room or a value stands.
WORDS = (
    *(number.encode() for number in NUMBERS),
    *(b"", b"x", b"myset", b"element:000000412558", b"two words", b"a\r\nb", b"a\nb", b"\0", b"\xff", b"'", b'"', b"*1", b"-1", b"0x1", b"1e3", b" 1", b"1 "),
)

IN_SET = (b"SADD", b"SADD", b"SREM", b"SISMEMBER", b"SMISMEMBER")
IN_ROOM = (b"EXISTS", b"DEL", b"UNLINK")

# Commands that aren't there, or have a word too many or too few.
OTHERS = (
    *((b"GET", b"1"), (b"SADD",), (b"SADD", b"0"), (b"SISMEMBER", b"0", b"1", b"2"), (b"EXISTS",), (b"SETNX", b"1"), (b"SET", b"1", b"1")),
    *((b"SET", b"1", b"1", b"XX"), (b"SET", b"1", b"1", b"NX", b"GET"), (b"SELECT",), (b"SELECT", b"0", b"0"), (b"PING", b"1", b"2"), (b"ECHO",)),
    *((b"",), (b"sad",), (b"SADDS", b"0", b"1"), (b"\xc5ADD", b"0", b"1"), (b"NO\r\nSUCH", b"a\r\nb"), (b"WATCH", b"1"), (b"SMEMBERS", b"0")),
    *((b"MULTI", b"1"), (b"EXEC",), (b"EXEC",), (b"EXEC", b"1"), (b"DISCARD",), (b"DISCARD",), (b"DISCARD", b"1"), (b"RESET", b"0")),
    *((b"DBSIZE", b"0"), (b"SHUTDOWN",), (b"SHUTDOWN", b"Save"), (b"SHUTDOWN", b"abort"), (b"SHUTDOWN", b"nosave", b"now")),
)

# How far beyond a limit its frames go.
OVER = (-1, 0, 1, 2)


def long_array(length: int) -> bytes:
    """An array of so many bytes in all, which has some 64 KiB."""
    words = [b"a" * MOST_WORD] * 125 + [b"a" * 200]
    # The length of a word of three digits takes two bytes more than that of none.
    return array(*words, b"a" * (length - len(array(*words, b"")) - 2))


class FrameNoise(Noise):
    """Draws frames."""

    rooms: Sequence[bytes] = ROOMS

    # What asks for no key.
    others: Sequence[Sequence[bytes]] = (*OTHERS, (b"DBSIZE",), (b"DBSIZE",), (b"RESET",))

    # What ends a transaction.
    ends: Sequence[bytes] = (b"EXEC", b"DISCARD", b"RESET")

    def talk(self) -> bytes:
        """What a client sends on one connection."""
        return self.text(FRAME_WORDS, b"".join(self.frames()))

    def frames(self) -> Iterator[bytes]:
        """Some frames, the last of which may be QUIT."""
        for _ in range(self.draw.randrange(24)):
            yield self.spelled(self.command())
        if self.one_in(6):
            yield from self.transaction()
        if self.one_in(4):
            yield self.spelled([b"quit"])
        if self.one_in(8):
            yield self.at_limits()

    def transaction(self) -> Iterator[bytes]:
        """One that is ended, or isn't, and frames in it and after it."""
        yield self.spelled([b"multi"])
        for words in ([], [] if self.one_in(4) else [self.draw.choice(self.ends)]):
            if words:
                yield self.spelled(words)
            for _ in range(self.draw.randrange(6)):
                yield self.spelled(self.command())

    def command(self) -> List[bytes]:
        """The words of a frame, most of which ask for something."""
        draw, kind = self.draw, self.draw.randrange(16)
        if kind < 7:
            name = draw.choice(IN_SET)
            return [name, self.room(), *self.members(1 if name == b"SISMEMBER" else self.few())]
        if kind < 10:
            return [draw.choice(IN_ROOM), *self.members(self.few())]
        if kind < 12:
            return [b"SETNX", *self.members(1), self.value()]
        if kind == 12:
            return [b"SET", *self.members(1), self.value(), self.cased(b"nx")]
        if kind == 13:
            return [b"SELECT", self.room()]
        if kind == 14:
            return [b"PING", *self.some_word()] if self.one_in(2) else [b"ECHO", self.word()]
        return list(draw.choice(self.others))

    def few(self) -> int:
        return 1 + self.draw.randrange(1 + self.draw.randrange(6))

    def members(self, number: int) -> List[bytes]:
        return [self.word() if self.one_in(24) else self.draw.choice(MEMBERS) for _ in range(number)]

    def room(self) -> bytes:
        return self.word() if self.one_in(16) else self.draw.choice(self.rooms)

    def value(self) -> bytes:
        return b"v" * (MOST_VALUE - 1 + self.draw.randrange(3)) if self.one_in(8) else b"1"

    def word(self) -> bytes:
        if self.one_in(8):
            return bytes(self.draw.randrange(256) for _ in range(self.draw.randrange(200)))
        return self.draw.choice(WORDS)

    def some_word(self) -> Sequence[bytes]:
        return [self.word()] if self.one_in(2) else []

    def cased(self, word: bytes) -> bytes:
        """The word with some of its letters in capitals."""
        return bytes(letter ^ 32 if self.one_in(2) and chr(letter).isalpha() else letter for letter in word)

    def spelled(self, words: List[bytes]) -> bytes:
        """A frame of these words: an array, or a line where that says the same."""
        words = [self.cased(words[0]), *words[1:]]
        line = b" ".join(words)
        if self.one_in(3) and line.split() == words and line[:1] != b"*" and b"'" not in line and b'"' not in line:
            return self.draw.choice((b" ", b"\t", b" \x0b\x0c ")).join(words) + self.draw.choice((b"\n", b"\r\n", b" \r\n"))
        return array(*words)

    def at_limits(self) -> bytes:
        """A frame with a word, a number of words or a length that is the most, or near it."""
        draw, over = self.draw, self.draw.choice(OVER)
        kind = draw.randrange(6)
        if kind == 0:
            return array(b"ECHO", b"e" * (MOST_WORD + over))
        if kind == 1:
            return array(b"SMISMEMBER", draw.choice(self.rooms), *[draw.choice(MEMBERS)] * (MOST_WORDS - 2 + over))
        if kind == 2:
            return b"PING " + b"p" * (MOST_WORD + over) + b"\r\n"
        if kind == 3:
            return b"EXISTS" + b" 1" * (MOST_WORDS - 1 + over) + b"\n"
        if kind == 4:
            return b" " * (MOST_FRAME - 5 + over) + b"PING\n"
        return long_array(MOST_FRAME + over)

    def pieces(self, text: bytes) -> Iterator[bytes]:
        """The text in pieces: whole, byte by byte, or cut anywhere."""
        kind = self.draw.randrange(8)
        most = len(text) if kind < 4 else 1 if kind == 4 and len(text) < 200 else max(1, len(text) // self.draw.choice((2, 3, 8)))
        start = 0
        while start < len(text):
            end = start + (most if kind <= 4 else 1 + self.draw.randrange(most))
            yield text[start:end]
            start = end
