"""The command line of tools/try-edits."""

from __future__ import annotations

import argparse
import sys
import time
from concurrent.futures import ThreadPoolExecutor
from typing import List, Optional, Sequence, Tuple

from edits import crate as one
from edits import gate, kit, record
from edits.edit import FOLDERS, MUST_FAIL, WRONG_BODIES, files_of

OF = {MUST_FAIL: (MUST_FAIL,), WRONG_BODIES: (WRONG_BODIES,), "all": FOLDERS}
SECONDS_OF_A_DAY = 86400
# A crate, and edits of it.
Chosen = Tuple[kit.Crate, List[str]]


def read_words(words: Sequence[str]) -> argparse.Namespace:
    parser = argparse.ArgumentParser(prog="tools/try-edits", description="Tries wrong bodies, many in one check.")
    parser.add_argument("--of", choices=list(OF), default="all", help="whose edits (all)")
    parser.add_argument("--lanes", type=int, default=0, help="checks side by side (a processor less than there are, at most 3)")
    parser.add_argument("--plan", action="store_true", help="say what would be tried, and try nothing")
    parser.add_argument("--void", action="store_true", help="only edits for which the record doesn't hold")
    parser.add_argument("--gate", action="store_true", help="after rt ci: wrong bodies for which the record doesn't hold, others by turns")
    parser.add_argument("--minutes", type=float, default=None, help="no check begins after so many (no end)")
    parser.add_argument("--turn", type=int, default=None, help="with --gate, whose turn it is (the day's number)")
    parser.add_argument("crates", nargs="*", metavar="CRATE")
    options = parser.parse_args(words)
    if options.gate and (options.crates or options.void):
        parser.error("--gate chooses the edits")
    return options


def named(crates: List[kit.Crate], names: Sequence[str], folders: Sequence[str]) -> List[kit.Crate]:
    """The crates that have edits in these folders, or those of them that are named."""
    unknown = set(names) - {it.name for it in crates}
    if unknown:
        sys.exit(f"crates.txt names no crate {', '.join(sorted(unknown))}")
    return [it for it in crates if files_of(it, folders) and (not names or it.name in names)]


def try_all(
    top: str, edits: Sequence[Chosen], lanes: int, minutes: Optional[float], hashes: Optional[record.Hashes]
) -> Tuple[int, int]:
    """Tries edits of crates, so many checks side by side and for so many minutes, and returns how many were refused and how many failed.

    Without hashes it is after `rt ci`."""
    below = list(dict.fromkeys(library for it, _ in edits for library in it.below()))
    unproved = kit.built(below, lanes, hashes is None)
    if unproved:
        sys.exit(f"the library {unproved.name} isn't proved, so no edit was tried")
    shared = kit.Lanes(lanes, minutes)
    with ThreadPoolExecutor(max(len(edits), 1)) as pool, shared.opened():
        outcomes = [*pool.map(lambda it: one.try_edits(top, it[0], it[1], shared, hashes), edits)]
    kit.say(f"processor time: {kit.processor_seconds() / 60:.1f} minutes")
    return sum(it.refused for it in outcomes), sum(it.failed for it in outcomes)


def main(top: str, words: Sequence[str]) -> int:
    """Tries edits of the repository at `top`, and returns the exit status."""
    options = read_words(words)
    kit.start()
    folders = OF[WRONG_BODIES if options.gate else options.of]
    everything = kit.crates(top)
    crates = named(everything, options.crates, folders)
    lanes = options.lanes or (0 if options.gate else min(3, max(kit.rt().processors() - 1, 1)))
    hashes, is_enough = record.Hashes(everything if options.gate else crates), True
    if options.gate:
        turn = int(time.time()) // SECONDS_OF_A_DAY if options.turn is None else options.turn
        choices, held = gate.choose(top, crates, hashes, turn), gate.holding(top, everything, hashes)
        gate.tell(choices, held, turn)
        is_enough = held.is_enough()
        edits = [(it, choices[it.name].void + choices[it.name].in_turn) for it in crates]
    elif options.void:
        lines = record.read(top)
        edits = [(it, hashes.void(it, folders, lines)) for it in crates]
        kit.say(f"void: {sum(len(paths) for _, paths in edits)} of {sum(len(files_of(it, folders)) for it in crates)} edits")
    else:
        edits = [(it, files_of(it, folders)) for it in crates]
    edits = [(it, paths) for it, paths in edits if paths]
    if options.plan:
        bad = sum(one.plan(it, paths) for it, paths in edits)
        return 0 if not bad and is_enough else 1
    refused, failed = try_all(top, edits, lanes, options.minutes, None if options.gate else hashes)
    failed += not is_enough
    kit.say(f"{refused} refused, {failed} failed")
    return 1 if failed else 0
