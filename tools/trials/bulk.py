"""Files that are made of a list of keys: good lists, each fault of one, and a set that is moved by its list."""

from __future__ import annotations

import os
import random
import subprocess
from subprocess import DEVNULL, PIPE
from typing import Optional, Tuple

from trials.files import CLOSED, IN_ROOM_3, LARGEST, RENEWED, TWO_SLOTS, bytes_in, changed, of_format, put
from trials.plain import held, made_of_list
from trials.program import PATIENCE, Ended, Key, Program
from trials.report import expect
from trials.sessions import run_in_pieces

EMPTY = of_format(2, TWO_SLOTS)

# A file's bytes or none, the format and the slots that are asked for, a list, what is printed, and the bytes that are left.
LISTS: Tuple[Tuple[Optional[bytes], int, int, bytes, str, bytes], ...] = (
    (None, 2, 2, b"17\n5\n", "made 2\n", RENEWED),
    (None, 3, 2, b"17\n5\n", "made 2\n", of_format(3, RENEWED)),
    (b"", 1, 2, b"17\n5\n", "made 2\n", of_format(1, RENEWED)),
    (b"\xa5", 2, 2, b"17\n5\n", "made 2\n", RENEWED),
    (bytes(48), 2, 2, b"17\n5\n", "made 2\n", RENEWED),
    (changed(RENEWED, 0, 0), 2, 2, b"", "made 2\n", EMPTY),
    (None, 2, 2, b"", "made 2\n", EMPTY),
    # One carriage return before the line feed doesn't count, and room 0 may be named.
    (None, 2, 2, b"17\r\n0:5\r\n", "made 2\n", RENEWED),
    (None, 2, 2, b"3:17\n", "made 2\n", EMPTY[:16] + IN_ROOM_3 + CLOSED),
    (None, 3, 2, b"999999999999999999\n3:17\n", "made 2\n", of_format(3, EMPTY)[:16] + LARGEST + IN_ROOM_3),
    (RENEWED, 2, 2, b"1\n", "refused 1\n", RENEWED),
    (TWO_SLOTS, 3, 9, b"", "refused 1\n", TWO_SLOTS),
    (b"", 2, 0, b"", "refused 2\n", b""),
    (b"", 2, 65_537, b"1\n", "refused 2\n", b""),
    (b"", 3, 16_777_217, b"1\n", "refused 2\n", b""),
    (bytes(49), 2, 2, b"1\n", "refused 4\n", bytes(49)),
    (b"", 2, 2, b"1\n2\n3\n", "refused 9 3 2\n", b""),
    (None, 2, 1, b"1\n2\n", "refused 9 2 1\n", b""),
    (b"", 2, 2, b"17\n5\n17\n", "twice 3\n", b""),
    (b"", 2, 2, b"17\n0:17\n", "twice 2\n", b""),
    (b"", 2, 4, b"3:17\n17\n4:17\n3:17\r\n", "twice 4\n", b""),
    (b"", 1, 2, b"5\n3:17\n", "line 2\n", b""),
    # The first line at fault is told, and a line before what has no room.
    (b"", 2, 2, b"17\n17\nx\n", "twice 2\n", b""),
    (b"", 2, 2, b"x\n17\n17\n", "line 1\n", b""),
    (b"", 2, 1, b"1\n2\n3\nx\n", "line 4\n", b""),
    (b"", 2, 1, b"1\n2\n2\n", "twice 3\n", b""),
    # A last line that doesn't end doesn't read.
    (b"", 2, 2, b"17\n5", "line 2\n", b""),
    (b"", 2, 2, b"17\n5\r", "line 2\n", b""),
)

# Lines that hold no key.
NO_KEYS = (
    *(b"", b" ", b"\r", b"17 ", b" 17", b"17\r\r", b"1\r7", b"+17", b"-1", b"017", b"1.0", b"0x11", b"1000000000000000000"),
    *(b"16:1", b"01:1", b":1", b"1:", b"1:2:3", b"1: 2", b"add 17", b"slot 0 key 17", b"good", b"damaged", b"17\0", b"\xff"),
    b"1" * 1_000_000,
)

# So many keys, in any order.
MANY = 100_000


def make(program: Program, file: str, form: int, slots: int, listed: bytes) -> Ended:
    """Makes a file of the keys of a list."""
    return program.run("make", file, str(slots), "--format", str(form), "--keys", lines=listed)


def try_lists(program: Program, folder: str) -> None:
    """Each list, whole and in pieces, makes a file of these bytes or none at all, and leaves no file where there was none then."""
    file = os.path.join(folder, "listed")
    faults = tuple((None, 2, 9, b"1\n%b\n3\n" % line, "line 2\n", b"") for line in NO_KEYS)
    for before, form, slots, listed, told, left in (*LISTS, *faults):
        ended = Ended(told, 0 if told.startswith("made") else 3)
        what = f"making {slots} slots of format {form} of the list {listed[:100]!r}"
        expect(made_of_list(before or b"", form, slots, listed), (told, left), f"the model's {what}")
        words = ["make", file, str(slots), "--format", str(form), "--keys"]
        for step in (0, 1, 3):
            put(file, before)
            if step and len(listed) < 1000:
                expect(run_in_pieces(program, words, listed, step, folder), ended, f"{what} in pieces of {step}")
            else:
                expect(program.run(*words, lines=listed), ended, what)
            is_there = before is not None or ended.status == 0
            expect(bytes_in(file) if os.path.exists(file) else None, left if is_there else None, f"the file behind {what}")


def try_unread(program: Program, folder: str) -> None:
    """Where the file can't be had nothing of the list is waited for. A list that can't be read makes nothing."""
    for file in (os.path.join(folder, "absent", "file"), folder):
        words = [program.path, "make", file, "2", "--keys"]
        with subprocess.Popen(words, stdin=PIPE, stdout=PIPE, stderr=DEVNULL) as process:
            assert process.stdout is not None
            expect((process.stdout.read(), process.wait(PATIENCE)), (b"nofile\n", 3), f"a making of {file} whose list doesn't end")
    file = os.path.join(folder, "unread")
    ended = program.run("make", file, "2", "--keys", before=("sh", "-c", 'exec "$0" "$@" < /'))
    expect(ended, Ended("noread\n", 1), "a list that can't be read")
    expect(program.run("make", file, "2"), Ended("made 2\n", 0), "a making behind a list that can't be read")


def try_many(program: Program, folder: str, seed: int) -> None:
    """A long list makes the file of its keys, in its order. What a check prints of that makes the same file again."""
    file, copy = os.path.join(folder, "many"), os.path.join(folder, "copy")
    keys = [Key(number % 16, number * 7_919) for number in range(MANY)]
    random.Random(seed).shuffle(keys)
    listed = "".join(f"{key}\n" for key in keys)
    slots = 2 * MANY
    expect(make(program, file, 3, slots, listed.encode()), Ended(f"made {slots}\n", 0), f"a list of {MANY} keys")
    expect(bytes_in(file) == held(3, slots, keys), True, f"that the file of {MANY} keys is right")
    dumped = program.run("check", file, "--keys")
    expect(dumped == Ended(listed, 0), True, f"that {MANY} keys are listed as they were given")
    expect(make(program, copy, 3, slots, dumped.text.encode()), Ended(f"made {slots}\n", 0), "what a check prints, as a list")
    expect(bytes_in(copy) == bytes_in(file), True, "that the copy is the file")


def try_moves(program: Program, folder: str) -> None:
    """A set that was changed is moved by its list into each format that has its rooms. That of a damaged file is refused."""
    old, new = os.path.join(folder, "old"), os.path.join(folder, "new")
    program.make(old, 4)
    lines = "add 17\nadd 4\nadd 3:17\nadd 5\nremove 4\nadd 15:999999999999999999\n"
    expect(program.run("run", old, lines=lines), Ended("yes\n" * 6, 0), "the old file's members")
    listed = program.run("check", old, "--keys")
    expect(listed, Ended("17\n15:999999999999999999\n3:17\n5\n", 0), "the old file's list")
    for form, slots, told in ((2, 4, "made 4\n"), (3, 65_537, "made 65537\n"), (1, 4, "line 2\n")):
        put(new, None)
        ended = make(program, new, form, slots, listed.text.encode())
        expect(ended, Ended(told, 0 if told.startswith("made") else 3), f"the list in a file of format {form}")
        if ended.status == 0:
            compared = program.run("check", new, "--of", old)
            expect((compared.text.endswith("good\nsame\n"), compared.status), (True, 0), f"the file of format {form} beside the old one")
    for damage, told in ((changed(RENEWED, 20, 1), "line 2\n"), (changed(RENEWED, 0, 0), "line 1\n")):
        put(old, damage)
        put(new, None)
        listed = program.run("check", old, "--keys")
        expect(make(program, new, 3, 9, listed.text.encode()), Ended(told, 3), f"the list {listed.text!r}")
        expect(os.path.exists(new), False, "that a file is made of a damaged one's list")
