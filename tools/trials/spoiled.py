"""A disk that changes bytes which nobody writes: what an open tells of one flipped bit, and of a spoiled sector, in each format."""

from __future__ import annotations

import os
import random
from typing import Dict, NamedTuple

from trials.files import put
from trials.plain import FORMATS, MOST_NUMBER, MOST_ROOM, SLOT_SIZE, head_of, slot_of
from trials.program import Key, Program
from trials.report import expect

KEY = Key(0, 17)
BITS = 8 * SLOT_SIZE
# A sector, and how many of them are spoiled.
SECTOR, SECTORS = 512, 64


class Opens(NamedTuple):
    """Of how many files the open was refused, told each key right, or told a key otherwise without a word."""

    refused: int
    right: int
    wrong: int


def flips_of(form: int) -> Opens:
    """What docs/FORMATS.md says of each flip of the slot: of its gate, of the room, of the bytes that are zero, of the number."""
    if form == 4:
        return Opens(BITS, 0, 0)
    rooms = sum(KEY.room ^ 1 << bit <= (0 if form == 1 else MOST_ROOM) for bit in range(8))
    numbers = sum(KEY.number ^ 1 << bit <= MOST_NUMBER for bit in range(64))
    wrong = 8 + rooms + numbers
    return Opens(BITS - wrong, 0, wrong)


def opened(program: Program, file: str, keys: Dict[Key, str]) -> str:
    """How a run over the file tells these keys: `refused`, `right` or `wrong`."""
    ended = program.run("run", file, lines="".join(f"has {key}\n" for key in keys))
    if ended.text.startswith("refused 5 ") or ended.text.startswith("refused 6 "):
        return "refused"
    expect(ended.status, 0, "the status of a run over a spoiled file")
    return "right" if ended.text.split() == [*keys.values()] else "wrong"


def count(told: Dict[str, int]) -> Opens:
    return Opens(told.get("refused", 0), told.get("right", 0), told.get("wrong", 0))


def try_flips(program: Program, folder: str) -> None:
    """One bit of an open slot flips. In format 4 each such file is refused, in the others more than half open without the key."""
    file = os.path.join(folder, "f")
    for form in FORMATS:
        told: Dict[str, int] = {}
        for bit in range(BITS):
            slot = int.from_bytes(slot_of(KEY, form), "big") ^ 1 << bit
            put(file, head_of(form, 1) + slot.to_bytes(SLOT_SIZE, "big"))
            end = opened(program, file, {KEY: "yes"})
            told[end] = told.get(end, 0) + 1
        expect(count(told), flips_of(form), f"opens over a slot of format {form} with a flipped bit")


def try_sectors(program: Program, folder: str) -> None:
    """A sector of keys turns into random bytes, or into zeros. Format 4 refuses random bytes, the others mostly not; each opens over zeros."""
    file, drawn = os.path.join(folder, "f"), random.Random(17)
    keys = {Key(0, number): "yes" for number in range(1, 3 * SECTOR // SLOT_SIZE)}
    for form in FORMATS:
        text = head_of(form, len(keys)) + b"".join(slot_of(key, form) for key in keys)
        random_bytes: Dict[str, int] = {}
        for _ in range(SECTORS):
            put(file, text[:SECTOR] + drawn.getrandbits(8 * SECTOR).to_bytes(SECTOR, "big") + text[2 * SECTOR :])
            end = opened(program, file, keys)
            random_bytes[end] = random_bytes.get(end, 0) + 1
        told = count(random_bytes)
        if form == 4:
            expect(told, Opens(SECTORS, 0, 0), "opens of format 4 over a sector of random bytes")
        else:
            expect((told.right, told.wrong > SECTORS // 2), (0, True), f"opens of format {form} over a sector of random bytes: {told}")
        put(file, text[:SECTOR] + bytes(SECTOR) + text[2 * SECTOR :])
        expect(opened(program, file, keys), "wrong", f"an open of format {form} over a sector of zeros")
        print(f"         of {SECTORS} files of format {form} with a sector of random bytes {told.refused} were refused, {told.wrong} opened with keys lost")


TRIALS = (
    ("a bit that flips in a slot", try_flips),
    ("a sector that is spoiled", try_sectors),
)
