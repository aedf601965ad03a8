"""Noise that Redis and a service answer alike: the same frames to both, and the replies are the same byte by byte."""

from __future__ import annotations

from typing import Iterator, List

from trials.beside_redis import framed, redis_server
from trials.frames import sent_in_pieces
from trials.hostile import Drawn
from trials.noise_frames import IN_ROOM, IN_SET, FrameNoise
from trials.plain import MOST_ROOM
from trials.plain_frames import MOST_VALUE, MOST_WORD, array
from trials.program import Program
from trials.report import expect

# Members of sets are below this, and keys without a set from it on: in a service they are keys of one kind.
FIRST_KEY = 100

# What no command can be made of, told in the same words.
NOT_CARRIED_OUT = (
    *((b"SADD",), (b"SADD", b"0"), (b"SISMEMBER", b"0", b"1", b"2"), (b"EXISTS",), (b"SETNX", b"1"), (b"SET", b"1")),
    *((b"EXEC",), (b"DISCARD",), (b"DISCARD", b"1"), (b"MULTI", b"1")),
    *((b"SELECT",), (b"SELECT", b"0", b"0"), (b"PING", b"1", b"2"), (b"ECHO",), (b"",), (b"sad",), (b"\xc5ADD", b"0", b"1"), (b"NO\r\nSUCH", b"a\r\nb")),
    *((b"x" * 200, b"y" * 100, b"z" * 100, b"w"), (b"nosuch", *[b"ab"] * 60), *((b"nosuch", b"y" * length, b"z") for length in (124, 125, 126, 127))),
)

# What goes on in no frame, told in the same words, and what isn't whole.
SPOILED = (
    *(b"*x\r\n", b"*-0\r\n", b"*01\r\n", b"*+1\r\n", b"* 1\r\n", b"*1 \r\n", b"*\r\n", b"*-\r\n", b"*99999999999999999999\r\n"),
    *(b"*1\r\n$x\r\n", b"*1\r\n$-1\r\n", b"*1\r\n$04\r\nPING\r\n", b"*1\r\n$ 4\r\n", b"*1\r\n$\r\n", b"*1\r\nPING\r\n", b"*1\r\n\r\n"),
    *(b"*1\r\n$4\r\nPI", b"*2\r\n$4\r\nECHO\r\n", b"PIN", b"*1\r\n$4", b"*"),
)


class CommonNoise(FrameNoise):
    """Draws frames that both know. In Redis a set belongs to a database: sets are asked for only where the first one is selected."""

    room_selected = 0

    def talk(self) -> bytes:
        self.room_selected = 0
        text = b"".join(self.frames())
        if self.one_in(3):
            text += self.draw.choice(SPOILED) + (array(b"PING") if self.one_in(2) else b"")
        return text

    def command(self) -> List[bytes]:
        draw, kind = self.draw, self.draw.randrange(16)
        if kind < 7 and self.room_selected == 0:
            name = draw.choice(IN_SET)
            return [name, b"%d" % draw.randint(0, MOST_ROOM), *(self.member() for _ in range(1 if name == b"SISMEMBER" else self.few()))]
        if kind < 10:
            return [draw.choice(IN_ROOM), *(self.key() for _ in range(self.few()))]
        if kind < 12:
            return [b"SETNX", self.key(), b"v" * draw.randint(0, MOST_VALUE)]
        if kind == 12:
            return [b"SET", self.key(), b"1", self.cased(b"nx")]
        if kind == 13:
            return self.selection()
        if kind == 14:
            return [b"PING", *[self.bytes()] * draw.randrange(2)] if self.one_in(2) else [b"ECHO", self.bytes()]
        return list(draw.choice(NOT_CARRIED_OUT))

    def transaction(self) -> Iterator[bytes]:
        """None: Redis carries out what stands in one."""
        return iter(())

    def selection(self) -> List[bytes]:
        """A database that there is, or one too many."""
        room = self.draw.randrange(MOST_ROOM + 2)
        if room <= MOST_ROOM:
            self.room_selected = room
        return [b"SELECT", b"%d" % room]

    def member(self) -> bytes:
        return b"%d" % self.draw.randrange(20)

    def key(self) -> bytes:
        return b"%d" % (FIRST_KEY + self.draw.randrange(8))

    def bytes(self) -> bytes:
        return bytes(self.draw.randrange(256) for _ in range(self.draw.randrange(300)))

    def spelled(self, words: List[bytes]) -> bytes:
        frame = super().spelled(words)
        # In a line Redis takes these for other than bytes of a word, or than blanks.
        return frame if frame.startswith(b"*") or not any(byte in frame for byte in b"\x0b\x0c\0\\") else array(*words)

    def at_limits(self) -> bytes:
        return array(b"ECHO", b"e" * (MOST_WORD - self.draw.randrange(3)))


def try_common(program: Program, folder: str, drawn: Drawn) -> None:
    """The same to a service and to redis-server, one client after the other."""
    noise, count = CommonNoise(drawn.seed * 8 + 3), 0
    with redis_server(folder) as redis, framed(program, folder) as port:
        for _ in range(drawn.count // 4):
            text = noise.talk()
            told, wanted = (sent_in_pieces(target, noise, text) for target in (port, redis))
            expect(told, wanted, f"{text!r:.2000}")
            count += wanted.count(b"\r\n")
    print(f"         {drawn.count // 4} clients had {count} lines of replies", flush=True)
