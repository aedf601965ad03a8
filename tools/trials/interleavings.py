"""Commands on one key that are cut off after each count of their turns: by a crash, by another actor's command, by the device.

What the rehearsals have to print is what a plain set of one key answers."""

from __future__ import annotations

import random
from dataclasses import dataclass
from typing import Iterator, NamedTuple, Tuple

from trials.plain import GATED
from trials.program import Program
from trials.rehearsals import rehearse, try_whole
from trials.report import Wrong
from trials.transcripts import Transcript

# What a crash picks for a loose gate: the byte that is sure, the one that is read, an open gate, or a closed one.
PICKS = ("old", "new", "a5", "37")

# What ends the life behind a failure: each pick of a crash, or a stop.
ENDS = (*(f"crash {pick}" for pick in (*PICKS, "00", "part 1")), "stop")

ADDITION = "Pin Hop Hop Reserve WriteKey Sync Hop Claim Check WriteOpen Link Release Sync Settle Answer"

REMOVAL = "Pin Hop Hop Hop Hop Claim Check WriteClose Mark Sync Settle Unlink Release Retire Answer"

# Each of these commands, alone, has so many turns.
TURNS = 15


@dataclass(frozen=True)
class Change:
    """A command that changes the set of nine alone, or the empty one: its turns, and after how many of them its gate is sure, and
    its last device call is made."""

    verb: str
    is_held: bool
    kinds: str
    sure: int
    last: int

    @property
    def number(self) -> int:
        """The number of its call: the set of nine was made by one before it."""
        return 2 if self.is_held else 1

    def first(self, kind: str) -> int:
        """After how many turns the first one of this kind was taken."""
        return self.kinds.split().index(kind) + 1

    @property
    def gate(self) -> int:
        """After how many turns its gate is written."""
        return self.first("WriteClose" if self.is_held else "WriteOpen")


CHANGES = (Change("add", False, ADDITION, 13, 13), Change("remove", True, REMOVAL, 10, 10))


def ask(verb: str, is_member: bool) -> Tuple[str, bool]:
    """What a plain set answers that has nine or doesn't, and whether it has nine then."""
    if verb == "has":
        return ("yes" if is_member else "no"), is_member
    changes = is_member == (verb == "remove")
    return ("yes" if changes else "no"), is_member != changes


def left(change: Change, is_member: bool, turns: int, pick: str) -> bool:
    """What a crash leaves of nine after so many turns of a change, before which it was a member or not. Before the gate is
    written the change isn't done, once it is sure it is, and between the two the crash picks."""
    after = ask(change.verb, is_member)[1]
    if turns < change.gate:
        return is_member
    if turns >= change.sure:
        return after
    return {"old": is_member, "new": after}.get(pick, pick == "a5")


def begun(change: Change, turns: int, answer: str, name: str) -> Transcript:
    """The lines that make the set, and so many turns of the change, which has this answer."""
    transcript = Transcript(f"{name}, after {turns} turns of {change.verb}", 2, (1,))
    if change.is_held:
        transcript.ask("call 64 add 9", "call 1 64 add 9")
        transcript.ask("finish 64", "answer 1 yes")
    transcript.ask(f"call 1 {change.verb} 9", f"call {change.number} 1 {change.verb} 9")
    if turns:
        transcript.ask(f"turn 1 {turns}", *([f"answer {change.number} {answer}"] if turns == TURNS else []))
    return transcript


def crash(transcript: Transcript, pick: str, is_member: bool) -> Transcript:
    """A crash that picks so, and what is found behind it."""
    found = " 9" if is_member else ""
    transcript.ask(f"crash {pick}", "crash")
    transcript.ask("open", f"open{found}")
    transcript.ask("show", f"show{found}")
    return transcript


def crashes() -> Iterator[Transcript]:
    """A crash after each count of turns."""
    for change in CHANGES:
        for pick in PICKS:
            for turns in range(TURNS + 1):
                is_member = left(change, change.is_held, turns, pick)
                yield crash(begun(change, turns, "yes", pick), pick, is_member)


class Answers(NamedTuple):
    """What a plain set answers to a change and to a command, in their order, and whether nine is a member in the end and between
    the two."""

    change: str
    command: str
    is_member: bool
    between: bool


@dataclass(frozen=True)
class Meeting:
    """A change by actor 1, and a command of actor 2 that is called after some of its turns. The command comes first on the plain
    set up to the turn `after`, and behind the change from there on; up to the turn `until` it waits for a lock."""

    change: Change
    verb: str
    after: str
    until: str

    def comes_first(self, turns: int) -> bool:
        return turns < self.change.first(self.after)

    def waits(self, turns: int) -> bool:
        return not self.comes_first(turns) and turns < self.change.first(self.until)

    def answers(self, turns: int) -> Answers:
        if self.comes_first(turns):
            command, between = ask(self.verb, self.change.is_held)
            change, is_member = ask(self.change.verb, between)
        else:
            change, between = ask(self.change.verb, self.change.is_held)
            command, is_member = ask(self.verb, between)
        return Answers(change, command, is_member, between)

    def begun(self, turns: int, name: str) -> Transcript:
        """The turns of the change, and then those of the command up to its answer, or to the lock that is taken."""
        answers = self.answers(turns)
        transcript = begun(self.change, turns, answers.change, name)
        number = self.change.number + 1
        transcript.ask(f"call 2 {self.verb} 9", f"call {number} 2 {self.verb} 9")
        transcript.ask("finish 2", "busy 2" if self.waits(turns) else f"answer {number} {answers.command}")
        return transcript

    def both(self, turns: int, pick: str) -> Transcript:
        """Both end, the change first, and then a crash comes."""
        transcript, answers = self.begun(turns, pick), self.answers(turns)
        number = self.change.number
        if turns < TURNS:
            transcript.ask("finish 1", f"answer {number} {answers.change}")
        if self.waits(turns):
            transcript.ask("finish 2", f"answer {number + 1} {answers.command}")
        transcript.ask("show", "show 9" if answers.is_member else "show")
        return crash(transcript, pick, answers.is_member)

    def one(self, turns: int, pick: str) -> Transcript:
        """The change never goes on, and a crash comes once the command has answered."""
        transcript, answers = self.begun(turns, pick), self.answers(turns)
        if self.comes_first(turns):
            return crash(transcript, pick, left(self.change, answers.between, turns, pick))
        return transcript if self.waits(turns) else crash(transcript, pick, answers.is_member)


ADD, REMOVE = CHANGES

MEETINGS = (
    Meeting(ADD, "add", "Claim", "Link"),
    Meeting(ADD, "remove", "Link", "Release"),
    Meeting(ADD, "has", "Link", "Link"),
    Meeting(REMOVE, "remove", "Claim", "Mark"),
    Meeting(REMOVE, "add", "Mark", "Release"),
    Meeting(REMOVE, "has", "Mark", "Mark"),
)


def meetings() -> Iterator[Transcript]:
    """Two commands after each count of turns of the first one, and each pick of a crash: they answer as a plain set does, one
    after the other, and each crash keeps what they answered."""
    for meeting in MEETINGS:
        for pick in PICKS:
            for turns in range(TURNS + 1):
                yield meeting.both(turns, pick)
                yield meeting.one(turns, pick)


def awaited_kinds() -> Iterator[Transcript]:
    """Where the first turn of a kind was awaited, so many turns end the call, and fewer don't."""
    for change in CHANGES:
        for kind in change.kinds.split():
            rest = TURNS - change.first(kind)
            transcript = begun(change, 0, "", kind)
            answer = f"answer {change.number} yes"
            transcript.ask(f"until 1 {kind}", *([] if rest else [answer]))
            if rest > 1:
                transcript.ask(f"turn 1 {rest - 1}")
            if rest:
                transcript.ask("turn 1 1", answer)
            yield transcript


def try_crashes(program: Program) -> None:
    for transcript in (*crashes(), *awaited_kinds()):
        try_whole(program, transcript)


def try_meetings(program: Program, seed: int) -> None:
    draw = random.Random(seed)
    for transcript in meetings():
        try_whole(program, transcript, [draw.choice(GATED)])


def failed(change: Change, turns: int, end: str) -> Transcript:
    """The next device call behind so many turns of the change fails, and the life ends so. What is found then is left open."""
    transcript = begun(change, turns, "yes", end)
    is_cut = turns < change.last
    transcript.ask("trip")
    transcript.ask("finish 1", f"{'device' if is_cut else 'answer'} {change.number}{'' if is_cut else ' yes'}")
    transcript.ask(end, end.split()[0])
    return transcript


def found_behind(program: Program, transcript: Transcript, form: int) -> bool:
    """Whether nine is found behind a life that has ended."""
    asked, told = transcript.first()
    ended = rehearse(program, (2, 1, form), f"{asked}open\nshow\n")
    for is_member, found in ((True, " 9"), (False, "")):
        if ended == (f"{told}open{found}\nshow{found}\n", 0):
            return is_member
    raise Wrong(f"{transcript.name}: {ended}")


def try_failures(program: Program, seed: int) -> None:
    """Each device call of a change fails in turn. The set after it is found where it was answered, that before it where its gate
    wasn't written yet, and one of the two else."""
    draw = random.Random(seed)
    for change in CHANGES:
        # An addition writes and syncs its key before its gate.
        before_gate = 0 if change.is_held else change.first("Sync")
        for turns in range(TURNS):
            for end in ENDS:
                transcript = failed(change, turns, end)
                is_found = found_behind(program, transcript, draw.choice(GATED))
                is_done = is_found != change.is_held
                if is_done and turns < before_gate or not is_done and turns >= change.last:
                    raise Wrong(f"{transcript.name}, {end}: nine is {'' if is_found else 'not '}found")
