"""Groups of edits that share a check, and the verdict on each."""

from __future__ import annotations

import contextlib
import os
import re
import tempfile
import time
from concurrent.futures import ThreadPoolExecutor
from typing import Callable, Dict, FrozenSet, Iterator, List, Optional, Sequence, Set

from edits import kit
from edits.edit import Edit, Place, Sources, read_source

MOST = 16


def is_of(item: str, crate: str, place: Place) -> bool:
    """Whether a check's name for an item is that of a function, or of a closure in it.

    The name of a method has the module of its type, which may be another than that of the file, and then the type with its
    parameters and its trait.
    """
    module = re.sub(r"^src/|(/mod)?\.rt$", "", place.file).replace("/", "::")
    way = "" if module in ("lib", "main") else f"{re.escape(module)}::"
    owner, trait, name = map(re.escape, place.name)
    if not owner:
        pattern = rf"{way}(?:{name}|fn::{name}::.*)"
    elif not trait:
        pattern = rf"(?:\w+::)*(?:{owner}(?:\+[^:]*)?::{name}|fn::{owner}(?:\+[^:]*)?::{name}::.*)"
    else:
        pattern = rf"(?:\w+::)*(?:fn::)?{owner}[^:]*{trait}[^:]*::{name}(?:::.*)?"
    return bool(re.fullmatch(rf"{re.escape(crate)}::{pattern}", item))


class Trial:
    """The edits of one crate, tried over the work that a check of the crate itself kept in a folder."""

    def __init__(
        self, crate: kit.Crate, sources: Sources, room: str, lanes: kit.Lanes, length: float, keep: Callable[[List[Edit]], None]
    ) -> None:
        """Of crates that share lanes the longest comes first. What a check refuses is given to `keep`."""
        self.crate, self.sources, self.room = crate, sources, room
        self.lanes, self.length, self.keep = lanes, length, keep
        self.refused: List[str] = []
        self.failed: List[str] = []
        # Those for which no time was left.
        self.late: List[str] = []
        # The seconds of each check.
        self.checks: List[float] = []

    def prove(self, edits: Sequence[Edit]) -> bool:
        """Proves the crate itself, before these edits, and keeps its work."""
        with self.lane(kit.rt().need(self.crate)):
            if self.lanes.are_over():
                self.late = [it.name for it in edits]
                return False
            said = kit.check(self.crate, {}, self.room)
        if not said.is_proved():
            refused = [f"{it}: {why}" for it, why in said.unproved().items()] or said.lines
            kit.say(f"{self.crate.name} NOT PROVED, so no edit was tried: {refused[0][:200]}")
        return said.is_proved()

    def tell_bad(self, edits: Sequence[Edit]) -> None:
        """Tells which edits can't be applied."""
        for edit in edits:
            if edit.fault:
                self.tell("BAD EDIT", edit, edit.fault)

    def run(self, edits: Sequence[Edit]) -> None:
        """Tries all edits, their groups side by side. What is unclear in a group comes again after them."""
        self.tell_bad(edits)
        waiting = [it for it in edits if not it.fault]
        while waiting:
            groups = self.groups(waiting)
            with ThreadPoolExecutor(len(groups)) as pool:
                waiting = [edit for again in pool.map(self.judge, groups) for edit in again]

    def groups(self, edits: Sequence[Edit]) -> List[List[Edit]]:
        """The groups, as they are where all is refused at once."""
        found: List[List[Edit]] = []
        waiting = [it for it in edits if not it.fault]
        while waiting:
            found.append(self.group_of(waiting))
            waiting = [it for it in waiting if it not in found[-1]]
        return found

    def group_of(self, waiting: Sequence[Edit]) -> List[Edit]:
        """The first edits that can share a check: of different functions, each with its texts there once."""
        group: List[Edit] = []
        for edit in waiting:
            most = min([MOST, edit.most, *(it.most for it in group)])
            if not group or len(group) < most and self.fits(edit, group):
                group.append(edit)
        return group

    def fits(self, edit: Edit, group: List[Edit]) -> bool:
        is_plain = bool(edit.functions and group[0].functions)
        taken = {place for it in group for place in it.functions | it.added}
        is_apart = not (edit.functions | edit.added) & taken
        return is_plain and is_apart and self.sources.applied([*group, edit]) is not None

    def judge(self, group: List[Edit]) -> List[Edit]:
        """Tries a group, tells the verdicts that are clear, and returns the others."""
        texts = self.sources.applied(group)
        assert texts is not None
        said = self.check(texts)
        if said is None:
            self.late += [it.name for it in group]
            return []
        for edit in group:
            edit.seconds += said.seconds / len(group)
        again = self.verdicts(group, said, texts)
        refused = [it for it in group if it.name in self.refused]
        if refused:
            self.keep(refused)
        return again

    def verdicts(self, group: List[Edit], said: kit.Check, texts: Dict[str, str]) -> List[Edit]:
        """Tells the verdicts of a check that are clear, and returns the other edits."""
        if len(group) == 1:
            self.judge_one(group[0], said, texts)
            return []
        edited = {item for it in group for item in self.items_of(it.functions | it.added, said)}
        others = sorted(said.refused().keys() - edited)
        if not said.is_judged() or others:
            why = said.unread or " ".join(others) or said.lines[-1]
            kit.say(f"  {self.crate.name}: {len(group)} in one check, which isn't clear: {why[:200]}")
            return self.halved(group)
        return [it for it in group if not self.judge_in_group(it, said, texts)]

    def check(self, texts: Dict[str, str]) -> Optional[kit.Check]:
        """Checks the crate with these texts, unless the lanes' time is over. What it keeps isn't for the checks after it, but where they have
        nothing."""
        needs = kit.rt().need(self.crate)
        if not os.listdir(self.room):
            with self.lane(needs):
                return None if self.lanes.are_over() else kit.check(self.crate, texts, self.room)
        with self.lane(kit.OVER_KEPT * needs), tempfile.TemporaryDirectory(prefix="try-edits-") as kept:
            if self.lanes.are_over():
                return None
            kit.link_kept(self.room, kept)
            return kit.check(self.crate, texts, kept)

    @contextlib.contextmanager
    def lane(self, memory: float) -> Iterator[None]:
        """Waits for a lane for a check, and notes the check's seconds."""
        with self.lanes.lane(self.length, memory):
            start = time.monotonic()
            try:
                yield
            finally:
                self.checks.append(time.monotonic() - start)

    def halved(self, group: List[Edit]) -> List[Edit]:
        for edit in group:
            edit.most = max(len(group) // 2, 1)
        return group

    def judge_in_group(self, edit: Edit, said: kit.Check, texts: Dict[str, str]) -> bool:
        """Tells whether an edit is refused in its group, and returns whether that is clear."""
        own = self.items_of(edit.functions, said)
        refused = sorted(own & said.refused().keys())
        if refused:
            self.tell_refused(edit, refused, said, texts)
        elif not own & said.unproved().keys():
            # It is right by the contracts of what it calls, whatever else was changed.
            edit.most = 1
        return bool(refused)

    def judge_one(self, edit: Edit, said: kit.Check, texts: Dict[str, str]) -> None:
        """Tells the verdict on an edit that was tried alone."""
        own = self.items_of(edit.functions, said) if edit.functions else said.said.keys()
        refused = sorted(own & said.refused().keys())
        if not said.is_judged():
            self.tell("BAD EDIT", edit, said.unread or f"status {said.status}: {' / '.join(said.lines[:3])}")
        elif said.status == 0:
            self.tell("NOT REFUSED", edit, "the crate is still proved")
        elif refused:
            self.tell_refused(edit, refused, said, texts)
        elif edit.functions:
            self.tell("NOT REFUSED", edit, f"its function isn't, but {' '.join(sorted(said.unproved())) or said.lines[-1]}")
        else:
            self.tell("refused", edit, next(iter(said.unproved().values()), said.lines[-1]))

    def tell_refused(self, edit: Edit, refused: Sequence[str], said: kit.Check, texts: Dict[str, str]) -> None:
        for item in refused:
            why = self.meant(item, said, texts)
            if why:
                self.tell("refused", edit, f"{item.partition('::')[2]}, {why}")
                return
        self.tell("ONLY BY NAME", edit, f"{refused[0].partition('::')[2]}: a proof names what the edit took away")

    def tell(self, verdict: str, edit: Edit, why: str) -> None:
        (self.refused if verdict == "refused" else self.failed).append(edit.name)
        kit.say(f"{verdict} {self.crate.name}/{edit.name}: {why[:200]}")

    def items_of(self, places: FrozenSet[Place], said: kit.Check) -> Set[str]:
        """A check's names for these functions."""
        return {it for it in said.said for place in places if is_of(it, self.crate.name, place)}

    def meant(self, item: str, said: kit.Check, texts: Dict[str, str]) -> str:
        """Why an item is refused for what it means; empty where a proof only names what isn't there."""
        told = [it for it in map(kit.PLACE.match, said.lines) if it and self.is_on(item, it[1], int(it[2]), texts)]
        told = [it for it in told if it[0].startswith("note: ") or it[3].startswith("error")]
        meant = [it for it in told if not (it[1].startswith("proofs/") and kit.OF_A_NAME.search(it[3]))]
        if meant or not told:
            return meant[0][0] if meant else said.said[item]
        return ""

    def is_on(self, item: str, file: str, line: int, texts: Dict[str, str]) -> bool:
        """Whether a place that a check names is in a function's text or in its proof."""
        if file.startswith("proofs/"):
            return file.startswith("proofs/" + "/".join(item.split("::")[1:]) + "/")
        source = read_source(texts[file]) if file in texts else None
        name = source.function_on(line) if source else None
        return name is not None and is_of(item, self.crate.name, Place(file, name))
