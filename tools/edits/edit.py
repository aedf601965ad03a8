"""Edits: how they are read, applied, and which functions they change."""

from __future__ import annotations

import collections
import dataclasses
import glob
import os
import re
import sys
import tempfile
from typing import Dict, FrozenSet, List, NamedTuple, Optional, Sequence, Tuple

from edits import kit
from edits.source import Function, Name, Source, Token, source_of

MUST_FAIL, WRONG_BODIES = "must-fail", "wrong-bodies"
FOLDERS = (MUST_FAIL, WRONG_BODIES)
# The file of a crate that may hold the edits of the second folder, one after the other, each after a line with its name.
ONE_FILE = f"{WRONG_BODIES}.edits"
HEAD = re.compile(r"(?m)^edit: (.*)\n")


class Pair(NamedTuple):
    """A text of a file and what is put in its place."""

    file: str
    old: str
    new: str


class Place(NamedTuple):
    """A function of a crate: its file and its name there."""

    file: str
    name: Name


@dataclasses.dataclass(eq=False)
class Edit:
    """A wrong body. One that changes more than bodies has no functions here, and is tried alone."""

    # Its path below the crate.
    name: str
    pairs: List[Pair]
    text: str = ""
    # The functions whose bodies it changes, and those that it adds.
    functions: FrozenSet[Place] = frozenset()
    added: FrozenSet[Place] = frozenset()
    # What it gives both: file, name, and the tokens of signature, clauses and body.
    bodies: List[Tuple[str, Name, Tuple[Token, ...]]] = dataclasses.field(default_factory=list)
    # Why it can't be applied.
    fault: str = ""
    # How many may share a check with it, itself counted.
    most: int = sys.maxsize
    # Its share of the seconds of its checks.
    seconds: float = 0.0


def sections(folder: str) -> Dict[str, str]:
    """The edits that stand in a crate's one file: their texts by the paths that they would have in the folder."""
    place = f"{folder}/{ONE_FILE}"
    try:
        with open(place, encoding="utf-8") as file:
            before, *parts = HEAD.split(file.read())
    except FileNotFoundError:
        return {}
    paths = [f"{WRONG_BODIES}/{name}.edit" for name in parts[::2]]
    counts = collections.Counter([*paths, *(os.path.relpath(it, folder) for it in glob.glob(f"{folder}/{WRONG_BODIES}/*.edit"))])
    twice = [it for it in paths if counts[it] > 1]
    if before.strip() or twice:
        sys.exit(f"{place}: {'it begins with no line `edit: NAME`' if before.strip() else f'{twice[0]} stands twice'}")
    return {path: text.rstrip("\n") + "\n" for path, text in zip(paths, parts[1::2])}


def files_of(crate: kit.Crate, folders: Sequence[str]) -> List[str]:
    """The edits in these folders of a crate, as paths below it. Those of its one file count as of the folder."""
    found = [os.path.relpath(it, crate.folder) for part in folders for it in glob.glob(f"{crate.folder}/{part}/*.edit")]
    found += sections(crate.folder) if WRONG_BODIES in folders else ()
    return sorted(found, key=lambda it: (folders.index(os.path.dirname(it)), it))


def read(folder: str, path: str) -> Tuple[str, Optional[Dict[str, str]], str]:
    """The text of an edit of the crate in a folder, the files as it makes them, and in the kit's words why it can't be applied."""
    text = sections(folder).get(path)
    if text is not None:
        try:
            texts, fault = kit.rt().edited(text, folder)
        except (OSError, ValueError) as error:
            texts, fault = None, f"{kit.rt().UNREAD} ({error})"
        return text, texts, stray_line(text) or fault or ""
    with open(f"{folder}/{path}", encoding="utf-8", errors="replace") as file:
        text = file.read()
    texts, fault = kit.rt().read_edit(f"{folder}/{path}", folder)
    return text, texts, fault or ""


def stray_line(text: str) -> str:
    """Says of a line that nobody reads, as the second of a text, that it is one; empty where there is none."""
    stray = [it for it in text.split("\n") if it.strip() and not re.match(r"file: |old: |new:", it)]
    return f"the line '{stray[0].strip()}' is read by nobody: a text has one line" if stray else ""


def name_of(path: str) -> str:
    """An edit's name, by its path: the crate has one of it."""
    return os.path.basename(path)[: -len(".edit")]


def twin_of(folder: str, path: str) -> str:
    """Says of an edit whose name stands in the other folder too that it does; empty where it doesn't."""
    at, file = os.path.split(path)
    other = MUST_FAIL if at == WRONG_BODIES else WRONG_BODIES
    is_there = os.path.exists(f"{folder}/{other}/{file}") or (other == WRONG_BODIES and f"{other}/{file}" in sections(folder))
    return f"its name stands in {other} too" if is_there else ""


def pairs_of(text: str) -> List[Pair]:
    """The pairs of an edit, as `rt must-fail` reads them."""
    found, file, old = [], "", ""
    for line in text.split("\n"):
        if line.startswith("file: "):
            file = line[len("file: ") :].strip()
        elif line.startswith("old: "):
            old = line[len("old: ") :]
        elif line.startswith("new:"):
            found.append(Pair(file, old, re.sub(r"\A ", "", line[len("new:") :])))
    return found


class Sources:
    """The files of a crate, as they are and as edits make them."""

    def __init__(self, folder: str) -> None:
        self.folder = folder
        self.texts: Dict[str, str] = {}
        self.sources: Dict[str, Optional[Source]] = {}
        # The sources that edits make, by their texts.
        self.made: Dict[str, Optional[Source]] = {}

    def text(self, file: str) -> str:
        if file not in self.texts:
            with open(f"{self.folder}/{file}", encoding="utf-8") as source:
                self.texts[file] = source.read()
        return self.texts[file]

    def source(self, file: str) -> Optional[Source]:
        """A source file's functions, or None where the kit can't read it."""
        if file not in self.sources:
            self.sources[file] = read_source(self.text(file))
        return self.sources[file]

    def applied(self, edits: Sequence[Edit]) -> Optional[Dict[str, str]]:
        """The files that edits change, by their paths, or None where an old text doesn't stand there once."""
        texts: Dict[str, str] = {}
        for edit in edits:
            for file, old, new in edit.pairs:
                text = texts.get(file) or self.text(file)
                if text.count(old) != 1:
                    return None
                texts[file] = text.replace(old, new)
        return texts

    def edits(self, paths: Sequence[str]) -> List[Edit]:
        """Reads edits of the crate."""
        found = [read(self.folder, it) for it in paths]
        sources = [text for _, texts, _ in found for file, text in (texts or {}).items() if file.startswith("src/")]
        self.made.update(zip(sources, read_sources(sources)))
        return [self.edit_of(path, *it) for path, it in zip(paths, found)]

    def edit_of(self, path: str, text: str, texts: Optional[Dict[str, str]], fault: str) -> Edit:
        """An edit, by its own text and those that it makes of files."""
        edit = Edit(path, pairs_of(text), text, fault=fault or twin_of(self.folder, path))
        changes = [(file, *self.changes(file, text)) for file, text in (texts or {}).items()]
        if all(changed for _, changed, _ in changes):
            edit.functions = frozenset(Place(file, it.name) for file, changed, _ in changes for it in changed)
            edit.added = frozenset(Place(file, it.name) for file, _, added in changes for it in added)
            edit.bodies = [(file, it.name, it.head + it.body) for file, changed, added in changes for it in changed + added]
        return edit

    def changes(self, file: str, text: str) -> Tuple[List[Function], List[Function]]:
        """The functions of a file whose bodies this text changes, and those that it adds, as it gives them; none where it changes more."""
        old, new = (self.source(file), self.made[text]) if file.startswith("src/") else (None, None)
        if old is None or new is None:
            return [], []
        added = new.functions.keys() - old.functions.keys()
        if old.without(frozenset()) != new.without(frozenset(added)):
            return [], []
        changed = [new.functions[name] for name, it in old.functions.items() if it.body != new.functions[name].body]
        return changed, [it for name, it in new.functions.items() if name in added]


def read_sources(texts: Sequence[str]) -> List[Optional[Source]]:
    """The functions of source texts, or None for each that the kit can't read."""
    with tempfile.TemporaryDirectory(prefix="try-edits-") as room:
        paths = [f"{room}/{number}.rt" for number in range(len(texts))]
        for path, text in zip(paths, texts):
            with open(path, "w", encoding="utf-8") as file:
                file.write(text)
        rows = kit.tokens(paths) if texts else []
        alone = [[it] for it in rows] if rows is not None else [kit.tokens([it]) for it in paths]
    return [source_of(it[0]) if it else None for it in alone]


def read_source(text: str) -> Optional[Source]:
    """The functions of a source text, or None where the kit can't read it."""
    return read_sources([text])[0]
