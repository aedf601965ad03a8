"""What the gate tries beside `rt ci`: the wrong bodies for which the record doesn't hold, and others by turns."""

from __future__ import annotations

from typing import Dict, List, NamedTuple, Sequence, Tuple

from edits import kit, record
from edits.crate import length, seconds_of
from edits.edit import FOLDERS, WRONG_BODIES, files_of

TURNS = 8

# Seconds of a processor, by the record, that the gate gives to edits that are void: all of them take four times as long.
MOST_SECONDS = 1800.0
# For this part of all edits the record has to hold.
LEAST_HELD = 0.8


class Choice(NamedTuple):
    """The wrong bodies of a crate that are tried, as they are void or as it is their turn; those that are void and wait for another
    turn, as all take too long; and those that are left out."""

    void: List[str]
    in_turn: List[str]
    waiting: List[str]
    left_out: List[str]


class Holding(NamedTuple):
    """For how many of all edits the record holds."""

    held: int
    edits: int

    def is_enough(self) -> bool:
        return self.held >= LEAST_HELD * self.edits


def within(crates: Sequence[kit.Crate], void: Dict[str, List[str]], lines: Dict[record.Key, record.Line], turn: int) -> Dict[str, List[str]]:
    """As many of the edits that are void as there is time for, and one at least: each turn begins with another crate."""
    chosen: Dict[str, List[str]] = {it.name: [] for it in crates}
    spent, start = 0.0, turn % max(len(crates), 1)
    for crate in [*crates[start:], *crates[:start]]:
        for path in void[crate.name]:
            before = 0.0 if chosen[crate.name] else length(crate, (), lines)
            takes = before + seconds_of(crate, path, lines)
            if not spent or spent + takes <= MOST_SECONDS:
                chosen[crate.name].append(path)
                spent += takes
    return chosen


def turns(crates: Sequence[kit.Crate], lines: Dict[record.Key, record.Line]) -> List[Dict[str, List[str]]]:
    """All wrong bodies, in parts that take about as long as each other: those of a crate stand together."""
    parts: List[Dict[str, List[str]]] = [{it.name: [] for it in crates} for _ in range(TURNS)]
    edits = [(it, path, seconds_of(it, path, lines)) for it in crates for path in files_of(it, (WRONG_BODIES,))]
    total, before = sum(seconds for _, _, seconds in edits), 0.0
    for crate, path, seconds in edits:
        parts[min(int(TURNS * (before + seconds / 2) / max(total, 1.0)), TURNS - 1)][crate.name].append(path)
        before += seconds
    return parts


def choose(top: str, crates: Sequence[kit.Crate], hashes: record.Hashes, turn: int) -> Dict[str, Choice]:
    """What is tried of each crate."""
    lines = record.read(top)
    void = {it.name: hashes.void(it, (WRONG_BODIES,), lines) for it in crates}
    tried, part = within(crates, void, lines, turn), turns(crates, lines)[turn % TURNS]
    chosen = {}
    for crate in crates:
        name = crate.name
        others = [it for it in files_of(crate, (WRONG_BODIES,)) if it not in void[name]]
        in_turn = [it for it in others if it in part[name]]
        waiting = [it for it in void[name] if it not in tried[name]]
        chosen[name] = Choice(tried[name], in_turn, waiting, [it for it in others if it not in in_turn])
    return chosen


def holding(top: str, crates: Sequence[kit.Crate], hashes: record.Hashes) -> Holding:
    """For how many edits of these crates, must-fail included, the record holds."""
    lines = record.read(top)
    edits = sum(len(files_of(it, FOLDERS)) for it in crates)
    return Holding(edits - sum(len(hashes.void(it, FOLDERS, lines)) for it in crates), edits)


def tell(choices: Dict[str, Choice], held: Holding, turn: int) -> None:
    """Says how many wrong bodies are tried, and how many not, and why."""
    kit.say("wrong bodies by crate; those of must-fail were tried by rt ci. Tried: void, as the record doesn't hold for them, and in turn")
    kit.say(f"(the turn is {turn % TURNS} of 0 to {TURNS - 1}). Not tried: waiting, void too, after {MOST_SECONDS / 60:.0f} minutes of a processor; left out")
    for name, choice in choices.items():
        counts: Tuple[int, ...] = tuple(map(len, choice))
        if sum(counts):
            kit.say(f"  {name}: {counts[0]} void, {counts[1]} in turn, {counts[2]} waiting, {counts[3]} left out")
    kit.say(f"the record holds for {held.held} of {held.edits} edits")
    if not held.is_enough():
        kit.say(f"FAILED: that is less than {LEAST_HELD:.0%} of them; tools/try-edits --void writes the lines that are missing")
