"""Arguments that aren't UTF-8."""

from __future__ import annotations

import os

from trials.program import Ended, Program
from trials.report import expect

# A byte that begins no character, as the system hands it to the program.
BYTE = os.fsdecode(b"\xff")

NOT_TEXT = Ended("an argument isn't UTF-8\n", 2)


def try_bytes(program: Program, folder: str) -> None:
    """Such an argument is a fault of the command line in each place, and no file is made or changed."""
    file = os.path.join(folder, "f")
    program.make(file, 2)
    for words in (("check", BYTE), ("make", file + BYTE, "2"), ("make", file, BYTE), ("run", file, BYTE), (BYTE, file)):
        expect(program.run(*words), NOT_TEXT, f"{words!r}")
    expect(program.members(file), [], "the members of the file")
    expect(os.listdir(folder), ["f"], "the files of the folder")
