"""All edits of one crate: what is needed before they are tried, and the lines of the record after it."""

from __future__ import annotations

import dataclasses
import os
import tempfile
from typing import Callable, Dict, List, Optional, Sequence

from edits import kit, record
from edits.edit import Edit, Sources, name_of
from edits.group import Trial

# Seconds, roughly: of the proof of a line, and of an edit where the record has no line.
SECONDS_OF_A_LINE, SECONDS_OF_AN_EDIT = 0.1, 12.0


@dataclasses.dataclass
class Outcome:
    """How many edits of a crate were refused, how many failed, and the seconds of all checks in sum."""

    refused: int
    failed: int
    seconds: float


def seconds_of(crate: kit.Crate, path: str, lines: Dict[record.Key, record.Line]) -> float:
    """How long an edit may take."""
    line = lines.get((crate.name, name_of(path)))
    return line.seconds if line else SECONDS_OF_AN_EDIT


def length(crate: kit.Crate, paths: Sequence[str], lines: Dict[record.Key, record.Line]) -> float:
    """How long these edits may take, in seconds."""
    return SECONDS_OF_A_LINE * crate.count(rb"\n") + sum(seconds_of(crate, it, lines) for it in paths)


def plan(crate: kit.Crate, paths: Sequence[str]) -> int:
    """Says the groups of edits, as they are where all is refused at once, and returns how many can't be applied."""
    sources = Sources(crate.folder)
    edits = sources.edits(paths)
    trial = Trial(crate, sources, "", kit.Lanes(1), 0, lambda _: None)
    trial.tell_bad(edits)
    for group in trial.groups(edits):
        kit.say(f"{crate.name} {len(group)}: {' '.join(it.name for it in group)}")
    return len(trial.failed)


def keeping(top: str, crate: kit.Crate, hashes: record.Hashes) -> Callable[[List[Edit]], None]:
    """What writes lines of the record, for edits whose hashes are what they were."""
    known = hashes.of(crate)

    def keep(refused: List[Edit]) -> None:
        now = hashes.of(crate)
        same = [it for it in refused if known.get(it.name) and now.get(it.name) == known[it.name]]
        record.write(top, {(crate.name, name_of(it.name)): record.Line(known[it.name], it.seconds) for it in same})
        for it in refused:
            if it not in same:
                kit.say(f"{crate.name}/{it.name} was changed meanwhile, or what it rests on, so it isn't recorded")

    return keep


def try_edits(
    top: str, crate: kit.Crate, paths: Sequence[str], lanes: kit.Lanes, hashes: Optional[record.Hashes] = None
) -> Outcome:
    """Tries edits of a crate, and writes the record's lines of those that were refused.

    Without hashes it is after `rt ci`: the crate is known to be proved, and the record is left alone.
    """
    is_after_ci = hashes is None
    keep = keeping(top, crate, hashes) if hashes else lambda _: None
    sources = Sources(crate.folder)
    edits = sources.edits(paths)
    kept = f"{crate.folder}/out/incremental"
    with tempfile.TemporaryDirectory(prefix="try-edits-") as room:
        trial = Trial(crate, sources, room, lanes, length(crate, paths, record.read(top)), keep)
        if os.path.isdir(kept):
            kit.link_kept(kept, room)
        # One group from nothing proves what is left of the crate on its way.
        is_proved = (os.path.isdir(kept) and crate.is_built()) or (is_after_ci and len(trial.groups(edits)) < 2)
        if is_proved or trial.prove(edits):
            trial.run(edits)
    refused, late = len(trial.refused), len(trial.late)
    failed = len(edits) - refused - late
    outcome = Outcome(refused, failed, sum(trial.checks))
    untried = f", {late} not tried, for lack of time" * bool(late)
    kit.say(f"{crate.name}: {refused} refused, {failed} failed{untried}, in {len(trial.checks)} checks and {outcome.seconds:.0f} s")
    return outcome
