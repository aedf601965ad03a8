"""Rehearsals: stored transcripts, which lines of a script read, and which are lawful where no service is open."""

from __future__ import annotations

import random
from typing import Iterator, Sequence, Tuple

from trials import transcripts
from trials.program import Ended, Program
from trials.plain import FORMATS, GATED
from trials.report import expect
from trials.sessions import no_buckets
from trials.transcripts import Transcript

STORED = ("turns", "crashes", "failures", "lawful", "limits", "reuse", "whole")

MOST_LINES = 100_000

# A call that ends by itself, where none of the kinds that are awaited comes, or none but its last.
KINDS_THAT_DO_NOT_COME = ("Invoke", "WriteClose", "Mark", "Unlink", "Retire", "SeePin", "Answer", "Halt")

# Lives that have ended, and what isn't lawful behind them.
ENDED = (
    ("call 1 add 9", "turn 1 3", "stop"),
    ("call 1 add 9", "turn 1 3", "crash new"),
    ("call 1 add 9", "stop", "trip", "open"),
    ("call 1 add 9", "crash old", "trip", "open", "trip"),
    ("stop", "trip", "open", "crash a5", "stop"),
)

WITHOUT_SERVICE = ("show", "call 1 add 9", "call 2 has 9", "turn 1 1", "until 1 Pin", "finish 1")

# A life that was opened again, and what isn't lawful there: no call comes back with it.
OPENED_AGAIN = ("call 1 add 9", "turn 1 3", "stop", "open")

BEHIND_AN_OPEN = ("turn 1 1", "until 1 Sync", "finish 1", "open")

WORDS_THAT_DO_NOT_READ = (
    *("", "\r", " ", "show\r", "show ", " show", "show 9", "Show", "shown", "trip 1", "stop now", "open 9", "quit", "busy 1"),
    *("line 1", "call", "call 1", "call 1 add", "call 1 add ", "call 1 put 9", "call 1 Add 9", "call 1 add 9 9"),
    *("call  1 add 9", "call 1  add 9", "call 1 add  9", "call add 1 9", "turn 1", "turn 1  1", "finish", "finish\t1"),
    "finish 1 ",
)

NUMBERS_THAT_DO_NOT_READ = (
    *("turn 1 01", "turn 01 1", "finish 01", "call 1 add 09", "turn 1 +1", "turn +1 1", "finish +1", "call 1 add +9"),
    *("call 1 add -9", "call 1 add 9a", "call 0 add 9", "call 65 add 9", "turn 0 1", "turn 65 1", "until 0 Pin"),
    *("until 65 Pin", "finish 0", "finish 65", "finish 18446744073709551617", "turn 1 0", "turn 1 1000001"),
    *("turn 1 18446744073709551617", "call 1 add 1000000000000000000", "call 1 remove 1234567890123456789"),
    *("call 1 has 0000000000000000009", "call 1 add 18446744073709551625", "call 1 add 16:1", "call 1 add :1"),
)

KINDS_AND_PICKS_THAT_DO_NOT_READ = (
    *("until 1", "until 1 ", "until 1 Walk", "until 1 pin", "until 1 Pins", "until 1 Write", "until 1 Sync 0"),
    *("until 1  Pin", "crash", "crash ", "crash A5", "crash a", "crash a5a", "crash 0g", "crash Old", "crash part 10000"),
    "crash  a5",
)

TOO_LONG = (*("finish " + "0" * count for count in (64, 65, 1000)), "a" * 7_000_000)

# Scripts of which an earlier line isn't lawful, or another one doesn't read either.
FIRST_UNREAD = (
    ("show\nwhat\nturn 1 0\n", 2),
    ("turn 1 0\nshow\nwhat\n", 1),
    ("finish 1\nwhat\n", 2),
    ("open\nopen\nopen\n\n", 4),
    ("show\nshow\nfinish 0\nshow", 3),
)

# What follows the last line feed is a line that doesn't read, whatever it is.
RESTS = ("show", "call 1 add 9", "s", "\r")

BEFORE = "call 1 add 9\nfinish 1\n"


def rehearse(program: Program, size: Tuple[int, int, int], script: str) -> Ended:
    """Rehearses a script on so many slots and buckets, in a file of this format."""
    slots, buckets, form = map(str, size)
    return program.run("rehearse", slots, "--buckets", buckets, "--format", form, lines=script)


def expect_rehearsed(program: Program, size: Tuple[int, int, int], script: str, told: str, what: str) -> None:
    """A rehearsal prints this. Its status is 3 where the last line names one of the script."""
    status = 3 if told.rpartition("\n")[0].rpartition("\n")[2].startswith("line ") else 0
    expect(rehearse(program, size, script), Ended(told, status), f"{what}: {script[:400]!r}")


def try_whole(program: Program, transcript: Transcript, formats: Sequence[int] = GATED) -> None:
    """A transcript prints what stands in it."""
    asked, told = transcript.first()
    for form in formats:
        expect_rehearsed(program, (transcript.slots, transcript.buckets[0], form), asked, told, transcript.name)


def alike(transcript: Transcript) -> Sequence[int]:
    """The formats in which a transcript prints what stands in it: format 4 makes other device calls, which a crash or a trip shows."""
    shows = any(asked.split()[0] in ("trip", "crash") for asked, _ in transcript.exchanges)
    return [form for form in transcript.formats if form in GATED] if shows and len(transcript.formats) > 1 else transcript.formats


def try_beginnings(program: Program, transcript: Transcript, form: int) -> None:
    """The first lines alone print what stands below them."""
    for count in range(1, len(transcript.exchanges)):
        asked, told = transcript.first(count)
        expect_rehearsed(program, (transcript.slots, transcript.buckets[0], form), asked, told, transcript.name)


def ends_at(transcript: Transcript, line: str) -> Transcript:
    """The transcript, and a line behind it that isn't lawful there."""
    transcript.ask(line, f"line {len(transcript.exchanges) + 1}")
    return transcript


def ended_life(lines: Sequence[str]) -> Transcript:
    """A life of one call that ends so. No open that a trip is set for succeeds."""
    transcript = Transcript("a life that has ended", 2, (1,))
    is_tripped = False
    for line in lines:
        word = line.split()[0]
        told = {"call": ["call 1 1 add 9"], "stop": ["stop"], "crash": ["crash"]}.get(word, [])
        if word == "open":
            told = ["open fault 7" if is_tripped else "open"]
        is_tripped = word == "trip"
        transcript.ask(line, *told)
    return transcript


def unlawful() -> Iterator[Transcript]:
    """Lives behind which a line isn't lawful."""
    for life in ENDED:
        yield from (ends_at(ended_life(life), line) for line in WITHOUT_SERVICE)
    yield from (ends_at(ended_life(OPENED_AGAIN), line) for line in BEHIND_AN_OPEN)


def awaited() -> Iterator[Transcript]:
    """Calls whose turns end with the call."""
    for kind in KINDS_THAT_DO_NOT_COME:
        transcript = Transcript(kind, 2, (1,))
        transcript.ask("call 1 add 9", "call 1 1 add 9")
        transcript.ask(f"until 1 {kind}", "answer 1 yes")
        yield transcript


def try_stored(program: Program, seed: int) -> None:
    """Each stored transcript, whole in each of its formats, and each of its beginnings in one."""
    draw = random.Random(seed)
    for name in STORED:
        for transcript in transcripts.stored(name):
            formats = alike(transcript)
            try_whole(program, transcript, formats)
            try_beginnings(program, transcript, draw.choice(formats))
    for transcript in (*unlawful(), *awaited()):
        try_whole(program, transcript)


def expect_unread(program: Program, text: str) -> None:
    """A script with this line doesn't read, as the first line and as the third. Nothing before it is rehearsed."""
    expect_rehearsed(program, (2, 1, 2), text, "line 1\n", "a line that doesn't read")
    expect_rehearsed(program, (2, 1, 1), BEFORE + text, "line 3\n", "a line that doesn't read")


def try_reading(program: Program) -> None:
    """Lines that don't read, and the most that does."""
    for line in (*WORDS_THAT_DO_NOT_READ, *NUMBERS_THAT_DO_NOT_READ, *KINDS_AND_PICKS_THAT_DO_NOT_READ, *TOO_LONG):
        expect_unread(program, f"{line}\n")
    for rest in RESTS:
        expect_unread(program, rest)
    for script, number in FIRST_UNREAD:
        expect_rehearsed(program, (2, 1, 2), script, f"line {number}\n", "the first line that doesn't read")
    for form in FORMATS:
        expect_rehearsed(program, (2, 1, form), "", "", "no lines")
        expect_rehearsed(program, (1, 1, form), "trip\n" * MOST_LINES, "", "as many lines as a script may have")
        more = f"line {MOST_LINES + 1}\n"
        expect_rehearsed(program, (1, 1, form), "trip\n" * (MOST_LINES + 1), more, "a line more than a script may have")
    for size in ((0, 1, 2), (65, 1, 2), (65, 1, 3), (1, 0, 2), (1, 4097, 1), (1, 4097, 2), (1, 1_048_577, 3), (1, 1, 5)):
        expect(rehearse(program, size, "").status, 2, f"the status of a rehearsal of so many slots and lists, of a format: {size}")
    for buckets, form in ((4097, 1), (4097, 2), (1_048_576, 2)):
        expect(rehearse(program, (1, buckets, form), ""), no_buckets(buckets, 4096), f"a rehearsal of {buckets} lists, format {form}")
    for buckets, form in ((4097, 3), (1_048_576, 3), (1_048_576, 4)):
        expect(rehearse(program, (1, buckets, form), "show\n"), Ended("show\n", 0), f"a rehearsal of {buckets} lists, format {form}")


def try_rooms(program: Program) -> None:
    """Keys are shown by room and then by number; a key of another room than 0 is refused in a file of format 1."""
    script = "call 1 add 1:0\nfinish 1\ncall 1 add 999999999999999999\nfinish 1\nshow\n"
    both, one = ("answer 1 yes", "999999999999999999 1:0"), ("refused 1 oldfile", "999999999999999999")
    for form, (answer, shown) in ((4, both), (3, both), (2, both), (1, one)):
        told = f"call 1 1 add 1:0\n{answer}\ncall 2 1 add 999999999999999999\nanswer 2 yes\nshow {shown}\n"
        expect_rehearsed(program, (2, 1, form), script, told, "rooms")
