"""The record: of each edit the hash under which it was last refused.

The hash is of what a refusal rests on: the edit, the functions that it changes, all that their check can know of others (`citations`), and
the kit's logic. No comment is in it, no other body, no proof, and no release of the kit: where its logic is the same, what has no proof
has none.
"""

from __future__ import annotations

import fcntl
import hashlib
import os
import re
import threading
from typing import Dict, List, NamedTuple, Optional, Sequence, Tuple

from edits import kit
from edits.citations import Cited, Tree, files
from edits.edit import FOLDERS, ONE_FILE, Edit, Sources, files_of, name_of

PLACE = os.path.join("tools", "edits", "record.txt")
HEAD = "# Each edit that was refused, by its crate and its name: the hash of what that rests on, and seconds.\n"
# The crate and the name of an edit.
Key = Tuple[str, str]


class Line(NamedTuple):
    """What the record says of an edit."""

    hash: str
    seconds: float


def read(top: str) -> Dict[Key, Line]:
    """The lines of a repository's record, by crate and edit."""
    try:
        with open(os.path.join(top, PLACE), encoding="utf-8") as text:
            rows = re.findall(r"^(\w+) (\S+) ([0-9a-f]+) (\d+\.\d)$", text.read(), re.M)
    except FileNotFoundError:
        return {}
    return {(crate, name): Line(known, float(seconds)) for crate, name, known, seconds in rows}


def write(top: str, lines: Dict[Key, Line]) -> None:
    """Sets lines, and drops those of edits that are gone. Several runs may write side by side."""
    os.makedirs(os.path.dirname(os.path.join(top, PLACE)), exist_ok=True)
    with open(os.path.join(top, PLACE), "a", encoding="utf-8") as text:
        fcntl.flock(text, fcntl.LOCK_EX)
        there = {(crate.name, name_of(it)) for crate in kit.crates(top) for it in files_of(crate, FOLDERS)}
        kept = {key: line for key, line in {**read(top), **lines}.items() if key in there}
        text.truncate(0)
        text.write(HEAD)
        text.writelines(f"{crate} {name} {it.hash} {it.seconds:.1f}\n" for (crate, name), it in sorted(kept.items()))


class Hashes:
    """The hashes of the edits of crates, as the tree is now. They are computed again only where a file was changed."""

    def __init__(self, crates: Sequence[kit.Crate]) -> None:
        self.crates: List[kit.Crate] = list(dict.fromkeys(it for crate in crates for it in [*crate.below(), crate]))
        self.lock = threading.Lock()
        self.stamp: Optional[List[Tuple[str, int, int]]] = None
        self.tree: Optional[Tree] = None
        self.known: Dict[str, Dict[str, str]] = {}

    def of(self, crate: kit.Crate) -> Dict[str, str]:
        """The hash of each edit of a crate, by its path. One that can't be applied has none."""
        with self.lock:
            now = self.stamp_now()
            if now != self.stamp or self.tree is None:
                self.stamp, self.tree, self.known = now, Tree(self.crates), {}
            if crate.name not in self.known:
                edits = Sources(crate.folder).edits(files_of(crate, FOLDERS))
                self.known[crate.name] = {it.name: "" if it.fault else hash_of(self.tree, crate, it) for it in edits}
            return self.known[crate.name]

    def stamp_now(self) -> List[Tuple[str, int, int]]:
        """By which a change of a file is seen."""
        paths = [f"{it.folder}/{path}" for it in self.crates for path in [*files(it.folder, ("src", "specs", *FOLDERS)), ONE_FILE]]
        found = [(it, os.stat(it)) for it in paths if os.path.exists(it)]
        return [(path, it.st_mtime_ns, it.st_size) for path, it in found]

    def void(self, crate: kit.Crate, folders: Sequence[str], lines: Dict[Key, Line]) -> List[str]:
        """The edits in these folders of a crate for which the record doesn't hold, as paths."""
        known = self.of(crate)
        held = {it for it in known if known[it] and lines.get((crate.name, name_of(it)), Line("", 0)).hash == known[it]}
        return [it for it in files_of(crate, folders) if it not in held]


def hash_of(tree: Tree, crate: kit.Crate, edit: Edit) -> str:
    """The hash of what an edit's refusal rests on."""
    start, bodies = start_of(tree, crate.name, edit)
    settings = sorted((key, value) for key, value in crate.said.items() if key != "deps")
    found = hashlib.sha256(repr((kit.logic(), settings, name_of(edit.name), edit.text.rstrip("\n"), bodies)).encode())
    for place, known in sorted(tree.hashed(tree.closure(crate.name, start))):
        found.update(f"{place} {known}\n".encode())
    return found.hexdigest()[:32]


def start_of(tree: Tree, crate: str, edit: Edit) -> Tuple[Cited, List[str]]:
    """What an edit's functions cite, with the bodies that it gives them, and their bodies; of an edit of more than bodies all of the crate's."""
    units = [it for it in tree.units.values() if it.crate == crate]
    known = {(unit.path, name): piece for unit in units for name, piece in unit.functions.items()}
    own = [known[it] for it in edit.functions] if all(it in known for it in edit.functions) else []
    pieces = own or [it for unit in units for it in unit.pieces]
    cited = Cited({*pieces})
    for piece in pieces:
        tree.cite(piece.unit, piece.owner, piece.body, cited)
    for file, name, body in edit.bodies:
        tree.cite(tree.units[crate, file], (name.type, name.trait), body, cited)
    bodies = sorted(f"{it.place} {it.body!r} {tree.cited_by_body(it)}" for it in pieces)
    return cited, bodies if own else [*bodies, *sorted(repr((it.path, it.tokens)) for it in units)]
