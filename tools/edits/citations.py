"""Citations: by names, what a function's check can know of other functions, types and definitions, in its crate and those below.

Names stand for what the prover would find, and never for less: a method counts by its name alone, of each type that is cited too.
"""

from __future__ import annotations

import dataclasses
import hashlib
import os
import re
from typing import Dict, FrozenSet, Iterator, List, NamedTuple, Sequence, Set, Tuple, Union

from edits import kit
from edits.imports import ALL, Path
from edits.source import Token
from edits.unit import Piece, Unit, unit_of, unread

# A piece, or the path of what isn't the repository's.
Node = Union[Piece, str]
WORD = re.compile(r"[^\W\d]\w*")
LITERAL = re.compile(r"(b|br|r|c)?#*(\\\"|'.)")
CONSTANTS = "TheConstants"
LIST_OF_SPECS = "specs/Lib.antt"


class Reference(NamedTuple):
    """A name with the modules or the type before it; whether it is a clause's, is a method of a value, or is called."""

    path: Path
    is_of_clause: bool
    is_method: bool = False
    is_called: bool = False


@dataclasses.dataclass(eq=False)
class Cited:
    """What a text cites: pieces; and names of functions, of whatever type (after a dot: of those with a `self`)."""

    nodes: Set[Node] = dataclasses.field(default_factory=set)
    names: Set[str] = dataclasses.field(default_factory=set)

    def key(self) -> str:
        return repr((sorted(map(place_of, self.nodes)), sorted(self.names)))


def place_of(node: Node) -> str:
    return node if isinstance(node, str) else node.place


def references(tokens: Sequence[Token]) -> Iterator[Reference]:
    """What tokens name."""
    at = 0
    while at < len(tokens):
        is_code, text = tokens[at]
        at += 1
        if not is_code:
            parts = tuple(text[1:-1].split("."))
            if parts[0] and not LITERAL.match(text[1:-1]):
                yield Reference(parts, True)
        elif WORD.match(text):
            before = "".join(it.text for it in tokens[max(at - 3, 0) : at - 1] if it.is_code)
            path = [text]
            while is_path(tokens, at):
                path.append(tokens[at + 2].text)
                at += 3
            then = tokens[at].text if at < len(tokens) else ""
            if before.endswith(".") and not before.endswith(".."):
                if then in ("(", ":"):
                    yield Reference(tuple(path), False, True, True)
            else:
                # After the brackets of a type its functions have no name before them.
                is_of_type = before.endswith("::")
                yield Reference(("", *path) if is_of_type else tuple(path), False, False, then in ("(", "!"))


def is_path(tokens: Sequence[Token], at: int) -> bool:
    """Whether a path goes on here."""
    after = tokens[at : at + 3]
    return len(after) == 3 and after[0] == after[1] == (True, ":") and after[2].is_code and bool(WORD.match(after[2].text))


class Tree:
    """The crates of a repository, cut into pieces, and what each cites."""

    def __init__(self, crates: Sequence[kit.Crate]) -> None:
        self.below = {it.name: frozenset([it.name, *(library.name for library in it.below())]) for it in crates}
        self.units = read_units(crates)
        self.modules: Dict[Path, Unit] = {}
        # Pieces by their bare names.
        self.bare: Dict[str, List[Piece]] = {}
        for unit in self.units.values():
            self.modules.setdefault(unit.module, unit)
            if unit.path == LIST_OF_SPECS:
                self.modules[(*unit.module, "Lib")] = unit
            for name, pieces in unit.names.items():
                self.bare.setdefault(name, []).extend(pieces)
        self.walked: Dict[Path, Tuple[FrozenSet[Node], Path]] = {}
        self.cited: Dict[Piece, Cited] = {}
        self.hashes: Dict[Piece, str] = {}
        # What goes with a type; functions by their types; and functions, with their types, by their names.
        self.attached: Dict[Piece, List[Piece]] = {}
        self.methods: Dict[Piece, Dict[str, List[Piece]]] = {}
        self.by_name: Dict[str, List[Tuple[Piece, FrozenSet[Piece]]]] = {}
        for unit in self.units.values():
            for piece in [*unit.impls, *unit.functions.values()]:
                self.attach(unit, piece)
        self.rests = {it: it.piece("rest", it.rest) for it in self.units.values() if it.rest}

    def attach(self, unit: Unit, piece: Piece) -> None:
        """Gives an impl or a function to its type; or to its trait where the type isn't the repository's."""
        types, traits = ([*self.types(unit, it)] if it else [] for it in piece.owner)
        owners = frozenset(types or traits)
        if piece.name and piece.owner[0]:
            self.by_name.setdefault(piece.name, []).append((piece, owners))
        if not owners and not piece.name:
            unit.rest += piece.tokens
        for owner in owners:
            # What the kit's traits ask for is called without its name too.
            if not piece.name or (piece.owner[1] and not traits):
                self.attached.setdefault(owner, []).append(piece)
            if piece.name:
                self.methods.setdefault(owner, {}).setdefault(piece.name, []).append(piece)

    def types(self, unit: Unit, name: str) -> Iterator[Piece]:
        """The types and traits that a name may mean in a file."""
        nodes, _ = self.found(unit, (name,))
        for it in nodes or self.by_bare_name(unit, name):
            if isinstance(it, Piece) and not it.name:
                yield it

    def by_bare_name(self, unit: Unit, name: str) -> List[Piece]:
        return [it for it in self.bare.get(name, ()) if it.unit.crate in self.below[unit.crate]]

    def found(self, unit: Unit, path: Path, is_of_clause: bool = False) -> Tuple[FrozenSet[Node], Path]:
        """What a path leads to from a file, and what of it is left; nothing where the file doesn't know it."""
        nodes: Set[Node] = set()
        left: Path = ()
        for whole in self.wholes(unit, path, is_of_clause):
            more, left_of = self.walk(whole)
            nodes |= more
            left = left_of or left
        return frozenset(nodes), left

    def wholes(self, unit: Unit, path: Path, is_of_clause: bool) -> Iterator[Path]:
        """A path from its crate on, as often as the file gives its first name."""
        first = path[0]
        if first in unit.names:
            yield (*unit.module, *path)
        for it in unit.imports.get(first, ()):
            yield self.absolute(unit, (*it, *path[1:]))
        # A clause's `self.now` is no path: there a dot stands before a field too.
        is_module = first in ("crate", "self", "super") or (*unit.module, first) in self.modules or first in self.below[unit.crate]
        if first not in unit.imports and len(path) > 1 and (first == "Rattle" if is_of_clause else is_module):
            yield self.absolute(unit, path)

    def absolute(self, unit: Unit, path: Path) -> Path:
        """The path of an import, from its crate on."""
        first = path[0]
        if first == "Rattle":
            return path[1:]
        if first == "crate":
            return (unit.crate, *path[1:])
        if first in ("self", "super"):
            ups = sum(it == "super" for it in path)
            return (*unit.module[: max(len(unit.module) - ups, 1)], *path[max(ups, 1) :])
        is_inner = unit.path.endswith(".rt") and ((*unit.module, first) in self.modules or first in unit.names)
        return (*unit.module, *path) if is_inner else path

    def walk(self, path: Path) -> Tuple[FrozenSet[Node], Path]:
        """What a path from a crate on leads to, and what is left of it after a type."""
        if path not in self.walked:
            # A circle of imports ends here.
            self.walked[path] = frozenset(), ()
            self.walked[path] = self.walk_on(path)
        return self.walked[path]

    def walk_on(self, path: Path) -> Tuple[FrozenSet[Node], Path]:
        if not path or path[0] not in self.below or path[1:2] == ("proofs",):
            return frozenset([".".join(path)]), ()
        if path[1:3] == ("specs", "declared"):
            path = (path[0], *path[3:])
        end = next((it for it in range(len(path), 0, -1) if path[:it] in self.modules), 0)
        whole = frozenset(it for one in self.units.values() if one.crate == path[0] for it in one.pieces)
        if not end:
            return whole, ()
        unit, left = self.modules[path[:end]], path[end:]
        left = left[1:] if left[:1] == (CONSTANTS,) else left
        if not left:
            return frozenset(unit.pieces) or whole, ()
        if left[0] in unit.names:
            return frozenset(unit.names[left[0]]), left[1:]
        ways = [(*it, *left[1:]) for it in unit.imports.get(left[0], ())] or [(*it, *left) for it in unit.imports.get(ALL, ())]
        if ways:
            ends = [self.walk(self.absolute(unit, it)) for it in ways]
            return frozenset(it for nodes, _ in ends for it in nodes), next((it for _, it in ends if it), ())
        known = [it for it in self.bare.get(left[0], ()) if it.unit.crate == path[0]]
        return frozenset(known or unit.pieces) or whole, left[1:]

    def cite(self, unit: Unit, owner: Tuple[str, str], tokens: Sequence[Token], cited: Cited) -> None:
        """Adds what tokens in a file, perhaps in a type's impl, cite."""
        for path, is_of_clause, is_method, is_called in references(tokens):
            if is_method:
                cited.names.add(f".{path[0]}")
            elif path[0] == "" or (path[0] == "Self" and len(path) > 1 and not owner[0]):
                cited.names.add(path[1])
            elif path[0] == "Self":
                self.cite_of(unit, frozenset(self.types(unit, owner[0])), path[1:], cited)
            else:
                nodes, left = self.found(unit, path, is_of_clause)
                self.cite_path(unit, path, is_called, cited, nodes, left)
        for glob in unit.imports.get(ALL, ()):
            cited.nodes |= self.walk(self.absolute(unit, glob))[0]

    def cite_path(self, unit: Unit, path: Path, is_called: bool, cited: Cited, nodes: FrozenSet[Node], left: Path) -> None:
        """Adds what a path led to; where the file doesn't know it, what has its name."""
        if not nodes and (path[0][0].isupper() or is_called):
            nodes, left = frozenset(self.by_bare_name(unit, path[0])), path[1:]
        if nodes:
            self.cite_of(unit, nodes, left, cited)
        elif len(path) > 1 and is_called:
            # Of a type that isn't the repository's.
            cited.names.add(f"?{path[-1]}")

    def cite_of(self, unit: Unit, nodes: FrozenSet[Node], left: Path, cited: Cited) -> None:
        """Adds what a path led to, and what its rest means there, by the crates below."""
        cited.nodes |= nodes
        if left:
            found = [it for one in nodes if isinstance(one, Piece) for it in self.methods.get(one, {}).get(left[0], ())]
            functions = [it for it in found if it.unit.crate in self.below[unit.crate]]
            cited.nodes.update(functions)
            if not functions:
                cited.names.add(left[0])

    def of(self, piece: Piece) -> Cited:
        """What a piece cites, of a function its head."""
        if piece not in self.cited:
            self.cited[piece] = Cited()
            self.cite(piece.unit, piece.owner, piece.tokens, self.cited[piece])
            self.cited[piece].nodes.update(self.types(piece.unit, piece.owner[0]) if piece.name and piece.owner[0] else ())
            self.cited[piece].nodes.update([self.rests[piece.unit]] if piece.unit in self.rests else ())
        return self.cited[piece]

    def hash(self, node: Node) -> str:
        """The hash of a piece, and of what its names mean."""
        if isinstance(node, str):
            return ""
        if node not in self.hashes:
            known = f"{node.tokens!r} {self.of(node).key()}"
            self.hashes[node] = hashlib.sha256(known.encode()).hexdigest()
        return self.hashes[node]

    def cited_by_body(self, piece: Piece) -> str:
        cited = Cited()
        self.cite(piece.unit, piece.owner, piece.body, cited)
        return cited.key()

    def hashed(self, nodes: Set[Node]) -> List[Tuple[str, str]]:
        """Nodes by their places, with their hashes."""
        return [(place_of(it), self.hash(it)) for it in nodes]

    def closure(self, crate: str, start: Cited) -> Set[Node]:
        """All that is cited from here on. A method counts where its name and its type are cited."""
        inside, found, called = self.below[crate], set(), set()
        unread_units = [self.rests[it] for it in self.units.values() if not it.is_read]
        waiting: List[Node] = [*start.nodes, *unread_units]
        names = [*start.names]
        while waiting or names:
            while names:
                name = names.pop()
                if name not in called:
                    called.add(name)
                    for piece, owners in self.by_name.get(name.lstrip(".?"), ()):
                        is_cited = bool(owners & found) and (name[0] not in ".?" or (name[0] == "." and piece.has_self))
                        waiting += [piece] if is_cited or not owners else ()
            node = waiting.pop() if waiting else ""
            if not node or node in found or (isinstance(node, Piece) and node.unit.crate not in inside):
                continue
            found.add(node)
            if isinstance(node, Piece):
                waiting += [*self.of(node).nodes, *self.attached.get(node, ())]
                names += self.of(node).names - called
                for name, pieces in self.methods.get(node, {}).items():
                    waiting += [it for it in pieces if name in called or (it.has_self and f".{name}" in called)]
        return found


def read_units(crates: Sequence[kit.Crate]) -> Dict[Tuple[str, str], Unit]:
    """The files of crates, by their crates and their paths."""
    paths = [(it, path) for it in crates for path in files(it.folder, ("src", "specs"))]
    rows = kit.tokens([f"{it.folder}/{path}" for it, path in paths])
    found = {}
    for at, (crate, path) in enumerate(paths):
        with open(f"{crate.folder}/{path}", "rb") as file:
            text = file.read()
        alone = [rows[at]] if rows else kit.tokens([f"{crate.folder}/{path}"])
        is_known = alone is not None and path.endswith((".rt", ".antt"))
        found[crate.name, path] = unit_of(crate.name, path, text, alone[0]) if alone and is_known else unread(crate.name, path, text)
    return found


def files(folder: str, parts: Sequence[str]) -> Iterator[str]:
    """The files in these parts of a folder, as paths below it."""
    for part in parts:
        for at, folders, names in os.walk(f"{folder}/{part}"):
            folders.sort()
            yield from (os.path.relpath(f"{at}/{name}", folder) for name in sorted(names))
