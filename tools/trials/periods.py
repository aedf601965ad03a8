"""Which services that forget a command line may ask for (`serve --text --forget SECONDS --epochs E`): the bounds, and what may stand beside."""

from __future__ import annotations

import os
from typing import Sequence, Tuple

from trials.at_path import socket_of
from trials.chosen import MORE, NEEDS, serving
from trials.frames import by_frames, replies
from trials.guests import PATIENCE
from trials.marks import ADOPT, NUMBERS, PLAIN, TEXT, made
from trials.plain_frames import OK, PONG, array, unknown
from trials.program import Ended, Program, Service
from trials.report import expect
from trials.secrets import SECRET, kept

SECONDS, EPOCHS = "--forget <SECONDS>", "--epochs <E>"
NO_DIGIT, TOO_LARGE = "invalid digit found in string", "number too large to fit in target type"
LATE = f"error: the argument '--text=adopt' cannot be used with '{SECONDS}': older texts have no epochs{MORE}"

# What is no number of seconds, and none of epochs, and why.
NO_SECONDS: Tuple[Tuple[str, str], ...] = (
    *((number, f"{number} is not in 1..=100000000") for number in ("0", "100000001", "18446744073709551615")),
    *((text, NO_DIGIT) for text in ("x", "1.5", "60s", "0x10", "1e3", "60 ")),
    *(("18446744073709551616", TOO_LARGE), ("9" * 40, TOO_LARGE)),
)
NO_EPOCHS: Tuple[Tuple[str, str], ...] = (
    *((number, f"{number} is not in 2..=12") for number in ("0", "1", "13", "258", "18446744073709551615")),
    *((text, NO_DIGIT) for text in ("x", "2.5", "3,4")),
    ("18446744073709551616", TOO_LARGE),
)

# The least and the most of each, the epochs left out, and each form of an option.
GIVEN: Tuple[Sequence[str], ...] = (
    *(("--forget", "1"), ("--forget", "100000000"), ("--forget=3600",), ("--forget", "0060")),
    *(("--forget", "1", "--epochs", "2"), ("--forget", "1", "--epochs", "12"), ("--epochs=3", "--forget=100000000")),
    *(("--forget", "100000000", "--epochs", "12"), ("--forget", "100000000", "--epochs", "2")),
)

FORGETS, EPOCHED = ("--forget", "60"), ("--forget", "60", "--epochs", "4")


def expect_fault(program: Program, file: str, words: Sequence[str], *wanted: str) -> None:
    """The command line's fault, which is told in these words."""
    ended = program.run("serve", file, *words, patience=PATIENCE)
    found = (ended.text[:7], [text for text in wanted if text not in ended.text], ended.status)
    expect(found, ("error: ", [], 2), f"a service {' '.join(words)}: {ended.text!r}")


def try_bounds(program: Program, folder: str) -> None:
    """SECONDS are 1 to 100,000,000, and E is 2 to 12; what isn't is told by its option, and nothing is written."""
    file = os.path.join(folder, "f")
    before = made(program, file, (), 8, 4)
    for named, faults in ((SECONDS, NO_SECONDS), (EPOCHS, NO_EPOCHS)):
        option = named.split()[0]
        beside = FORGETS if named == EPOCHS else ()
        for text, why in faults:
            wanted = Ended(f"error: invalid value '{text}' for '{named}': {why}{MORE}", 2)
            for words in (("0", "--text", *beside, option, text), ("0", "2", *TEXT, *beside, f"{option}={text}")):
                expect(program.run("serve", file, *words, patience=PATIENCE), wanted, f"a service {' '.join(words)}")
        expect_fault(program, file, ("0", "--text", *beside, option))
        expect_fault(program, file, ("0", "--text", *beside, option, "-5"))
        expect_fault(program, file, ("0", "--text", *EPOCHED, option, "5"), named)
    with open(file, "rb") as text:
        expect(text.read(), before, "what is left")


def try_words(program: Program, folder: str) -> None:
    """--forget needs --text, without `adopt`, and no lines or numbers beside; --epochs needs --forget. Each fault is told, and nothing is written."""
    file, path = os.path.join(folder, "f"), kept(folder, SECRET)
    before = made(program, file, (), 8, 4)
    for given in (FORGETS, EPOCHED):
        for words in (("0",), ("0", "--resp"), ("0", "2", *PLAIN)):
            expect_fault(program, file, (*words, *given), NEEDS, "--text")
        expect_fault(program, file, ("0", "2", "--text", *given), NEEDS, "--resp", "--connections <C>")
        expect_fault(program, file, ("0", "2", "--resp", "--text", *given), NEEDS, "--connections <C>")
        expect_fault(program, file, ("0", "2", "--connections", "4", "--text", *given), NEEDS, "--resp")
        for words in (("0", "--lines"), ("0", "--text", "--lines"), ("0", "--numbers"), ("0", "--text", "--numbers"), ("0", "2", *NUMBERS)):
            expect_fault(program, file, (*words, *given), "cannot be used with", words[-1])
        for words in (("0", "--text=adopt"), ("0", "2", *ADOPT)):
            expect(program.run("serve", file, *words, *given, patience=PATIENCE), Ended(LATE, 2), f"a service {' '.join(words)}")
        expect_fault(program, file, ("0", "--text=adopt", "--secret", path, *given), "--text=adopt")
    for words in (("0",), ("0", "--text"), ("0", "2", *TEXT), ("0", "--text", "--secret", path)):
        expect_fault(program, file, (*words, "--epochs", "4"), NEEDS, SECONDS)
    for words in (("0", "--lines"), ("0", "--numbers"), ("0", "--text", "--lines"), ("0", "2", *NUMBERS)):
        expect_fault(program, file, (*words, "--epochs", "4"), "cannot be used with", words[-1])
    for command in (("run", file), ("make", f"{file}2", "4"), ("renew", file, f"{file}2", "4"), ("grow", file, "9"), ("check", file), ("info", file)):
        for option in ("--forget", "--epochs"):
            ended = program.run(*command, option, "5")
            expect((ended.text.partition(" found")[0], ended.status), (f"error: unexpected argument '{option}'", 2), f"{' '.join(command)} {option}")
    with open(file, "rb") as text:
        expect(text.read(), before, "what is left")
    expect(sorted(os.listdir(folder)), ["f", "secret"], "what stands there")


def try_given(program: Program, folder: str) -> None:
    """Each number within the bounds is served, with PASSES or without, under a secret or not, on a port and at a path. Frames alone are spoken."""
    file, path = os.path.join(folder, "f"), kept(folder, SECRET)
    lines = b"add 5\nhas 3:5\nremove 15:1000000000000000\nPING\nquit\n"
    told = b"".join(unknown(line.split()) for line in lines.splitlines()[:3]) + PONG + OK
    for at, given in enumerate(GIVEN):
        for words in (given, (*given, "--secret", path)):
            made(program, file, (), 32, (2, 3, 4)[at % 3])
            with Service(program, file, 2, *by_frames(4), "--text", *words) as service:
                expect(service.told[:10], "listening ", f"what a service says {' '.join(words)}")
                expect(replies(service.port, lines), told, f"lines on its port {' '.join(words)}")
            made(program, file, (), 32, (2, 3, 4)[at % 3])
            with serving(program, file, "--text", *words) as service:
                expect(service.told[:10], "listening ", f"what one says that chooses {' '.join(words)}")
                expect(replies(service.port, lines), told, f"lines on the port of one that chooses {' '.join(words)}")
                expect(replies(service.port, array(b"PING")), PONG, f"a frame on its port {' '.join(words)}")
            expect([key for key in program.members(file) if key.room < 15], [], f"the keys but marks {' '.join(words)}")
    made(program, file, (), 32, 4)
    at_path = socket_of(file)
    with serving(program, file, "--text", *EPOCHED, "--socket", at_path, port="") as service:
        expect(service.told, f"listening {at_path}\n", "where one at a path listens")


TRIALS = (
    ("the bounds of --forget and --epochs", try_bounds),
    ("the words of --forget", try_words),
    ("services that are to forget", try_given),
)
