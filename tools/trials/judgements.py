"""Histories, and what the judge says of each."""

from __future__ import annotations

import os
from typing import Iterator, Sequence, Tuple

from trials.program import Ended, Program
from trials.report import expect
from trials.verdicts import MOST_BYTES, MOST_CALLS, judged

# Points of a history, each the number of a call and its place, and what is said of them.
Verdict = Tuple[str, str]

SLOT_USED_AGAIN = (
    "call 1 1 add 9; answer 1 yes; call 2 3 has 9; call 3 1 remove 9; answer 3 yes; "
    "call 4 2 add 9; answer 4 yes; answer 2 no; crash; open 9"
)

# A caller makes a removal sure that another one began.
UNDER_WAY = "call 1 1 add 9; call 2 2 remove 9; call 3 3 has 9; answer 3 no; crash; open"

FLAWED = (
    "call 1 1 add 1; answer 1 yes; call 2 1 add 2; refused 2 full; "
    "call 3 1 add 3; answer 3 yes; call 4 1 has 3; answer 4 no; crash; open 7"
)

LIVES = "call 1 1 add 1; stop; open 1; call 2 1 remove 1; crash; open fault 7; open; call 3 1 has 1; answer 3 no"

FOUND = "call 1 1 add 1; stop; open 1; stop; open 1 2; stop; open 2"

JUDGED: Tuple[Tuple[str, Sequence[Verdict]], ...] = (
    (SLOT_USED_AGAIN, (("1 1, 3 2, 2 3, 4 4", "good"), ("1 1, 3 2, 2 5, 4 4", "flaw 4 2"))),
    (
        UNDER_WAY,
        (
            ("1 1, 2 2, 3 3", "good"),
            ("3 1", "good"),
            ("1 1, 3 2", "flaw 4 3"),
            ("3 2, 1 5", "flaw 5 1"),
            ("1 1", "flaw 1 3"),
            ("9 1", "flaw 2 9"),
        ),
    ),
    # Of several flaws the first in the judge's order is told, and of one kind the least call.
    (
        FLAWED,
        (
            ("9 1, 8 2, 1 1, 1 2", "flaw 2 8"),
            ("3 3, 3 4, 1 1, 1 2, 2 3", "flaw 6 1"),
            ("2 1, 2 2, 1 2", "flaw 6 2"),
            ("2 1, 1 2", "flaw 7 2"),
            ("1 5, 3 2", "flaw 1 4"),
            ("3 2", "flaw 1 1"),
            ("1 5, 3 2, 4 1", "flaw 3 3"),
            ("1 1, 3 2, 4 2", "flaw 3 4"),
            ("1 1, 3 2, 4 3", "flaw 4 4"),
            ("4 3, 3 2, 1 1", "flaw 4 4"),
        ),
    ),
    # Over lives: a call lies above those of the lives before its own, and each open is compared with the list.
    (
        LIVES,
        (
            ("1 1, 2 2, 3 3", "good"),
            ("1 2, 2 1, 3 3", "flaw 3 2"),
            ("1 2, 3 2", "flaw 3 3"),
            ("2 2, 3 3", "flaw 5 1"),
            ("1 1, 3 3", "flaw 4 3"),
        ),
    ),
    (FOUND, (("1 1", "flaw 5 2"),)),
)

# Lines of each kind that read.
GOOD = (
    "",
    "show; show 1 2 999999999999999999; busy 1; busy 64",
    "open fault 1; stop; open fault 8; open; stop; crash; open",
    "call 1 64 add 0; halted 1; call 2 64 remove 999999999999999999; device 2",
    "call 1 1 add 5; refused 1 worn; call 2 1 has 5; refused 2 full",
    "point 18446744073709551615 1; call 18446744073709551615 1 has 9; answer 18446744073709551615 no",
    "call 1 1 add 9; point 1 999999999999; answer 1 yes; stop; show 5; busy 2; open 9",
    "call 1 1 add 9; stop; open; call 2 1 add 9; answer 2 yes; point 2 0",
    "call 1 1 has 9; call 2 2 has 9; answer 1 no; call 3 1 has 9; answer 2 no; answer 3 no; point 1 1; point 3 2; point 2 3",
    "call 1 1 add 3:17; refused 1 oldfile; call 2 1 add 15:0; answer 2 yes; point 2 1; stop; open 15:0; show 7 15:0",
)

# Texts of which the first line doesn't read.
UNREAD = (
    *("call 1 1 add 9", "stop", "\n", "stop\r\n", "stop \n", " stop\n", "Stop\n", "line 3\n", "call 1  1 add 9\n"),
    *("call 01 1 add 9\n", "call +1 1 add 9\n", "call 0 1 add 9\n", "call 1 0 add 9\n", "call 1 65 add 9\n", "call 1 1 put 9\n"),
    *("call 1 1 add\n", "call 1 1 add 9 9\n", "call 1 1 add 1000000000000000000\n", "call 18446744073709551616 1 add 9\n"),
    *("answer 1 yes\n", "answer 1 maybe\n", "refused 1 full\n", "refused 1 empty\n", "halted 1\n", "device 1\n", "open\n"),
    *("open 2 1\n", "open fault 0\n", "open fault 9\n", "open fault\n", "show 1 1\n", "busy 0\n", "busy 65\n", "point 0 1\n"),
    *("point 1 1000000000000\n", "call 1 1 add 16:9\n", "show 1:0 5\n"),
)

# Histories of which a later line doesn't read.
LATER_UNREAD = (
    ("call 1 1 add 9; call 1 2 add 9", 2),
    ("call 1 1 add 9; call 2 1 add 8", 2),
    ("call 1 1 add 9; stop; open; call 1 1 add 9", 4),
    ("call 1 1 add 9; answer 1 yes; answer 1 yes", 3),
    ("call 1 1 add 9; halted 1; device 1", 3),
    ("call 1 1 add 9; stop; open; answer 1 yes", 4),
    ("call 1 1 add 9; crash; answer 1 yes", 3),
    ("stop; call 1 1 add 9", 2),
    ("stop; open; open; what", 3),
)


def text_of(history: str, points: str = "") -> str:
    """The lines of a history, with these points behind it."""
    lines = [line for line in history.split("; ") if line]
    return "".join(f"{line}\n" for line in (*lines, *(f"point {point}" for point in points.split(", ") if point)))


def rows() -> Iterator[Tuple[str, str]]:
    """Texts, and what is said of each."""
    for history, verdicts in JUDGED:
        yield from ((text_of(history, points), verdict) for points, verdict in verdicts)
    yield from ((text_of(history), "good") for history in GOOD)
    yield from ((text, "line 1") for text in UNREAD)
    yield from ((text_of(history), f"line {line}") for history, line in LATER_UNREAD)


def long_rows() -> Iterator[Tuple[str, str]]:
    """As many calls and bytes as a history may have, and more; sixty thousand calls with points, in which keys come and go."""
    for calls, verdict in ((MOST_CALLS, "good"), (MOST_CALLS + 1, f"line {3 * MOST_CALLS + 1}")):
        yield "".join(f"call {number} 1 has 1\nstop\nopen\n" for number in range(1, calls + 1)), verdict
    stops = (MOST_BYTES - len("show 100\n")) // len("stop\n")
    yield "stop\n" * stops + "show 100\n", "good"
    yield "stop\n" * stops + "show 1000\n", f"line {stops + 1}"
    changes = ((number + 1, ("add", "remove")[number % 2], number // 2 % 1000) for number in range(60_000))
    yield "".join(f"call {n} 1 {verb} {key}\nanswer {n} yes\npoint {n} {n}\n" for n, verb, key in changes), "good"


def status_of(verdict: str) -> int:
    """The status with which the judge says this."""
    return {"good": 0, "line": 3, "flaw": 4}[verdict.split()[0]]


def expect_judged(program: Program, folder: str, text: str, verdict: str) -> None:
    file = os.path.join(folder, "history")
    with open(file, "w", encoding="ascii", newline="") as history:
        history.write(text)
    expect(program.judge(file), Ended(f"{verdict}\n", status_of(verdict)), f"the history {text[:400]!r}")


def try_rows(program: Program, folder: str) -> None:
    """Each of the rows; the model of the judge says the same of them."""
    for text, verdict in rows():
        expect(judged(text.encode()), (f"{verdict}\n", status_of(verdict)), f"the model's verdict of {text!r}")
        expect_judged(program, folder, text, verdict)
    for text, verdict in long_rows():
        expect_judged(program, folder, text, verdict)
