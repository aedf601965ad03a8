"""Slots of format 4 that a crash has torn: a check and an info count them, and a key that is put there takes one."""

from __future__ import annotations

import os
from typing import Tuple

from trials.files import CLOSED, TORN, TWO_SLOTS, WHOLE_17, WHOLE_IN_ROOM_3, bytes_in, changed, of_format, put
from trials.plain import GATED, Survey, head_of
from trials.program import Ended, Program
from trials.report import expect

# The head of a file of format 4 with two slots, and one whose slots are read in two pieces.
HEAD_4 = of_format(4, TWO_SLOTS[:16])

LONG_HEAD_4 = head_of(4, 1_500)

# Files, and how many of their slots a crash has torn.
TORN_FILES: Tuple[Tuple[bytes, int], ...] = (
    (of_format(4, TWO_SLOTS), 0),
    (HEAD_4 + WHOLE_17 + WHOLE_IN_ROOM_3, 0),
    (HEAD_4 + TORN + WHOLE_17, 1),
    (HEAD_4 + TORN * 2, 2),
    # One byte of sixteen is enough.
    (HEAD_4 + changed(CLOSED, 15, 1) + changed(WHOLE_17, 0, 0), 2),
    # Beside what is damaged too.
    (HEAD_4 + TORN + b"\xff" * 16, 1),
    # Those of the other formats are closed, whatever their bytes are.
    *((of_format(form, TWO_SLOTS[:16]) + TORN * 2, 0) for form in GATED),
    (LONG_HEAD_4 + TORN * 1_500, 1_500),
    (LONG_HEAD_4 + CLOSED * 1_023 + TORN * 2 + WHOLE_17 + CLOSED * 473 + TORN, 3),
)


def words_for(file: str, torn: int) -> str:
    """What is said of a file with so many torn slots."""
    if torn == 1:
        return f"lazyset: {file}: 1 slot is torn: a crash left it so, and it is free\n"
    return f"lazyset: {file}: {torn} slots are torn: a crash left them so, and they are free\n" if torn else ""


def try_torn(program: Program, folder: str) -> None:
    """A check and an info say how many slots are torn, and print what they print of other files. A key that is put there takes one."""
    file, other = os.path.join(folder, "torn"), os.path.join(folder, "other")
    put(other, HEAD_4 + WHOLE_17 + CLOSED)
    for text, torn in TORN_FILES:
        put(file, text)
        survey = Survey(text)
        expect(survey.torn, torn, f"the model's torn slots of {text[:64]!r}")
        for words, (told, status) in (
            (("check", file), survey.checked()),
            (("check", file, "--keys"), survey.listed()),
            (("check", file, "--of", other), survey.compared(Survey(bytes_in(other)))),
            (("info", file), survey.counted()),
        ):
            expect(program.run_loud(*words), (Ended(told, status), words_for(file, torn)), f"{words} of {text[:64]!r}")
        expect(bytes_in(file), text, "a file with torn slots")
    put(file, HEAD_4 + TORN * 2)
    # The file that is compared with isn't counted.
    expect(program.run_loud("check", other, "--of", file), (Ended("slot 0 key 17\ngood\nflaw 10 0\n", 4), ""), "a check beside a torn file")
    for key, torn in ((17, 1), (18, 0)):
        expect(program.run("run", file, lines=f"add {key}\n"), Ended("yes\n", 0), "an addition over a torn slot")
        expect(program.run_loud("info", file)[1], words_for(file, torn), "what is torn yet")
    expect(program.run("check", file), Ended("slot 0 key 17\nslot 1 key 18\ngood\n", 0), "the file then")
