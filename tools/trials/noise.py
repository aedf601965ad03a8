"""Noise that a seed determines: lines, files, lists, scripts and histories, as bytes of all kinds, as the words of a form in any order,
and in the form itself, whole and spoiled."""

from __future__ import annotations

import random
from typing import Sequence

from trials.plain import FORMATS, HEAD_SIZE, OPEN, SLOT_SIZE, head_of, slot_of
from trials.program import Key

COMMANDS = ("add", "remove", "has")

KEYS = ("1", "2", "3", "1:2")

# The texts of numbers, good and bad.
NUMBERS = (
    *("0", "64", "65", "007", "+1", "-1", "15:0", "16:1", ":", "1:", ":1", "2:2:2", "05:1", "0:1"),
    *("999999999999999999", "1000000000000000000", "18446744073709551616"),
)

ENDINGS = ("\n", "\n", "\n", "\n", "\r\n", " \n")

KINDS = (
    *("Pin", "Hop", "Reserve", "WriteKey", "Claim", "Check", "WriteOpen", "Link", "WriteClose", "Mark", "Release", "Sync"),
    *("Settle", "Unlink", "Retire", "SeePin", "Answer", "Halt", "Invoke"),
)

PICKS = ("old", "new", "a5", "00", "37", "part 1", "part 2")

LINE_WORDS = ("add ", "remove ", "has ", "quit", " ", "1", "17", "\r", "\n", "\n")

SCRIPT_WORDS = (
    *("call ", "turn ", "until ", "finish ", "trip", "stop", "crash ", "open", "show", "add ", "remove ", "has ", "old"),
    *("part ", "WriteOpen", " ", "1", "2", "\n", "\n"),
)

HISTORY_WORDS = (
    *("call ", "answer ", "refused ", "halted ", "device ", "stop", "crash", "open", "open fault ", "show", "busy ", "point "),
    *("add ", " yes", " full", " ", "1", "2", "\n", "\n"),
)

FILE_WORDS = ("\0", "LZYSET", "1", "2", "3", "\0\0\0\0\0\0\0")

LIST_WORDS = ("1", "17", "0:", "2:", "16:", " ", "\r", "\n", "\n", "\n")


class Noise:
    """Draws texts."""

    def __init__(self, seed: int) -> None:
        self.draw = random.Random(seed)

    def one_in(self, count: int) -> bool:
        """Whether one case in so many has come."""
        return self.draw.randrange(count) == 0

    def text(self, words: Sequence[str], formed: bytes) -> bytes:
        """A text of all bytes, of words, or of a form, which is spoiled at times."""
        kind = self.draw.randrange(8)
        if kind == 0:
            return self.draw.getrandbits(8 * 200).to_bytes(200, "big")[: self.draw.randrange(200)]
        if kind in (1, 2):
            return self._words(words)
        return self._spoiled(formed) if kind in (3, 4) else formed

    def _words(self, words: Sequence[str]) -> bytes:
        """Words in any order, and now and then a byte between them."""
        text = b""
        for _ in range(self.draw.randrange(40)):
            text += self.draw.choice(words).encode()
            if self.one_in(16):
                text += bytes([self.draw.randrange(256)])
        return text

    def _spoiled(self, formed: bytes) -> bytes:
        """The text with a few bytes changed, left out or put in, or with its end cut off."""
        text = bytearray(formed)
        for _ in range(self.draw.randrange(4)):
            place, byte = self.draw.randint(0, len(text)), self.draw.randrange(256)
            how = self.draw.randrange(4)
            if how == 0:
                del text[place:]
            elif how == 1:
                del text[place : place + 1]
            elif how == 2:
                text.insert(place, byte)
            else:
                text[place : place + 1] = bytes([byte]) if place < len(text) else b""
        return bytes(text)

    def _key(self) -> str:
        if self.one_in(64):
            return str(10 ** self.draw.randrange(50, 70))
        return self.draw.choice(NUMBERS if self.one_in(4) else KEYS)

    def lines(self) -> bytes:
        """Lines of a session."""
        formed = "".join(
            f"{self.draw.choice(COMMANDS)} {self._key()}{self.draw.choice(ENDINGS)}" for _ in range(self.draw.randrange(40))
        )
        return self.text(LINE_WORDS, formed.encode())

    def ended_lines(self) -> bytes:
        """Lines of a session that doesn't end with them."""
        text = b"\n".join(line for line in self.lines().split(b"\n") if line.rstrip(b"\r") != b"quit")
        return text if text.endswith(b"\n") or not text else text + b"\n"

    def list(self) -> bytes:
        """Keys, one a line, most of which stand there once."""
        keys = [self._listed_key(number) for number in self.draw.sample(range(99), self.draw.randrange(9))]
        if keys and self.one_in(4):
            keys.append(self.draw.choice(keys))
        return self.text(LIST_WORDS, "".join(f"{key}{self.draw.choice(ENDINGS[:5])}" for key in keys).encode())

    def _listed_key(self, number: int) -> str:
        if self.one_in(32):
            return self._key()
        return f"{self.draw.randrange(16)}:{number}" if self.one_in(4) else str(number)

    def formed_script(self) -> str:
        """A script, of which most lines are lawful."""
        return "".join(self._steps() for _ in range(self.draw.randrange(20)))

    def _steps(self) -> str:
        draw = self.draw
        actor, turns = draw.randint(1, 3), draw.randint(1, 20)
        call = f"call {actor} {draw.choice(COMMANDS)} {draw.choice(KEYS)}\n"
        kind = draw.randrange(32)
        if kind < 3:
            return f"{call}turn {actor} {turns}\n"
        if kind < 5:
            return f"{call}until {actor} {draw.choice(KINDS)}\n"
        if kind < 7:
            return f"finish {actor}\n"
        if kind == 7:
            return f"turn {actor} {turns}\n"
        if kind < 10:
            return f"crash {draw.choice(PICKS)}\nopen\n"
        if kind < 12:
            return "stop\nopen\n"
        if kind == 12:
            return "trip\n"
        return "show\n" if kind < 15 else f"{call}finish {actor}\n"

    def script(self) -> bytes:
        """Lines of a rehearsal."""
        return self.text(SCRIPT_WORDS, self.formed_script().encode())

    def with_points(self, told: str) -> str:
        """The history that a rehearsal told, with points for most of its calls."""
        lines = [line for line in told.splitlines() if not line.startswith("line ")]
        calls = sum(line.startswith("call ") for line in lines)
        for number in range(1, calls + 1):
            place = self.draw.randrange(4) if self.one_in(16) else number
            if not self.one_in(16):
                lines.append(f"point {number} {place}")
        return "".join(f"{line}\n" for line in lines)

    def _marks(self, call: int) -> str:
        draw = self.draw
        begun = f"call {call} {draw.randint(1, 3)} {draw.choice(COMMANDS)} {draw.choice(KEYS)}\n"
        kind = draw.randrange(16)
        if kind == 0:
            return f"stop\nopen {draw.choice(KEYS)}\n"
        if kind == 1:
            return "crash\nopen\n"
        if kind in (2, 3):
            return begun + (f"halted {call}\n" if kind == 3 else "")
        return f"{begun}answer {call} {draw.choice(('yes', 'yes', 'no'))}\npoint {call} {call}\n"

    def history(self) -> bytes:
        """Lines of a history of any answers."""
        return self.text(HISTORY_WORDS, "".join(self._marks(call) for call in range(1, 9)).encode())

    def rehearsed_history(self, told: str) -> bytes:
        """Lines of a history that a rehearsal told."""
        return self.text(HISTORY_WORDS, self.with_points(told).encode())

    def _whole_slot(self, index: int) -> bytes:
        """The bytes of a slot of format 4: those of a key, often with zeros or other bytes among them."""
        draw = self.draw
        slot = bytearray(slot_of(Key(draw.randrange(16), draw.randrange(4) if self.one_in(4) else index), 4))
        if self.one_in(2):
            for place in draw.sample(range(SLOT_SIZE), draw.randrange(1, SLOT_SIZE + 1)):
                slot[place] = 0
        if self.one_in(16):
            slot[draw.randrange(SLOT_SIZE)] = draw.randrange(256)
        return bytes(slot)

    def _slot(self, form: int, index: int) -> bytes:
        """The bytes of a slot: most of them of a key, behind a gate that is open or not."""
        if form == 4:
            return self._whole_slot(index)
        draw = self.draw
        slot = bytearray(SLOT_SIZE)
        slot[0] = OPEN if self.one_in(2) else draw.randrange(256)
        slot[14:] = index.to_bytes(2, "big")
        if self.one_in(8):
            slot[1] = draw.randrange(17)
        if self.one_in(4):
            slot[15] = draw.randrange(4)
        if self.one_in(16):
            slot[8] = draw.randrange(256)
        if self.one_in(64):
            slot[draw.randrange(2, 8)] = draw.randrange(256)
        return bytes(slot)

    def file(self) -> bytes:
        """A file: of a few slots or of many, whole or spoiled, or bytes of all kinds."""
        slots = self.draw.randrange(1024) if self.one_in(64) else self.draw.randrange(5)
        form = self.draw.choice(FORMATS)
        formed = head_of(form, slots) + b"".join(self._slot(form, index) for index in range(slots))
        return self.text(FILE_WORDS, formed if len(formed) > HEAD_SIZE or self.one_in(4) else formed + self._slot(form, 0))
