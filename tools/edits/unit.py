"""Units: the files of src/ and specs/, cut into the pieces that others can cite."""

from __future__ import annotations

import dataclasses
import re
from typing import Dict, Iterator, List, NamedTuple, Sequence, Tuple

from edits.imports import ALL, Path, imports_of, spellings
from edits.source import CLOSING, OPENING, ROW, Name, Source, Token, end_of_braces, owner_of, source_of

# What may stand before the name of a definition.
BEFORE_A_NAME = ("pub", "abbrev", "unfoldable", "private", "axiom", "opaque")
WITH_BRACES, WITHOUT_BRACES = ("struct", "enum", "union"), ("const", "static", "type")
BRACKETS = {**dict.fromkeys((*OPENING, "{"), 1), **dict.fromkeys((*CLOSING, "}"), -1)}


@dataclasses.dataclass(eq=False)
class Piece:
    """What others cite as one: a definition, a type or a constant, the rest of an `impl`, or a function's head."""

    place: str
    unit: Unit
    tokens: List[Token]
    # The type and the trait, where it is an `impl` or in one.
    owner: Tuple[str, str] = ("", "")
    # A function's own: its name and its body, and whether it has a `self`.
    name: str = ""
    body: Tuple[Token, ...] = ()
    has_self: bool = False


@dataclasses.dataclass(eq=False)
class Unit:
    """A file: its pieces by their names, and what it imports."""

    crate: str
    path: str
    # From the crate on.
    module: Path
    names: Dict[str, List[Piece]] = dataclasses.field(default_factory=dict)
    imports: Dict[str, List[Path]] = dataclasses.field(default_factory=dict)
    functions: Dict[Name, Piece] = dataclasses.field(default_factory=dict)
    impls: List[Piece] = dataclasses.field(default_factory=list)
    pieces: List[Piece] = dataclasses.field(default_factory=list)
    # What belongs to no piece, and so to each.
    rest: List[Token] = dataclasses.field(default_factory=list)
    tokens: Tuple[Token, ...] = ()
    # Whether the kit can read it. If not, its bytes are its rest, and its whole crate rests on it.
    is_read: bool = True

    def piece(self, what: str, tokens: Sequence[Token] = ()) -> Piece:
        """A new piece, told from those of the same name."""
        place = f"{self.crate}/{self.path}:{what}"
        twice = sum(it.place.partition(" again ")[0] == place for it in self.pieces)
        self.pieces.append(Piece(f"{place} again {twice}" if twice else place, self, [*tokens]))
        return self.pieces[-1]

    def give(self, name: str, piece: Piece) -> None:
        for it in spellings(name):
            self.names.setdefault(it, []).append(piece)

    def take(self, words: Sequence[str]) -> None:
        """Takes the imports of a `use`."""
        for name, path in imports_of(words):
            self.imports.setdefault(name, []).append(path)

    def globs(self) -> List[Path]:
        return self.imports.get(ALL, [])


def module_of(crate: str, path: str) -> Path:
    """The module that a file of a crate is, from the crate on."""
    part, _, name = path.partition("/")
    names = re.sub(r"(^|/)(mod|lib|main)\.rt$|(^|/)Lib\.antt$|\.(rt|antt)$", "", name).split("/")
    return (crate, *(it for it in ("specs" * (part == "specs"), *names) if it))


def unread(crate: str, path: str, text: bytes) -> Unit:
    """A file that can't be read: it counts whole."""
    return Unit(crate, path, module_of(crate, path), rest=[Token(False, repr(text))], is_read=False)


def unit_of(crate: str, path: str, text: bytes, rows: str) -> Unit:
    """Reads a file by its text and its tokens."""
    made = Unit(crate, path, module_of(crate, path))
    if path.endswith(".rt"):
        source = source_of(rows)
        made.tokens = source.tokens
        Items(made, source).cut()
    else:
        lines = [Word(*columns(text, int(start)), Token(False, it)) for _, start, _, _, it in ROW.findall(rows)]
        made.tokens = tuple(it.token for it in lines)
        Definitions(made).cut(lines)
    return made


def columns(text: bytes, start: int) -> Tuple[bool, int]:
    """Whether a token is the first of its line, and how far in it stands."""
    begin = text.rfind(b"\n", 0, start) + 1
    return not text[begin:start].strip(), start - begin


class Word(NamedTuple):
    """A token of a file of definitions, and where it stands."""

    is_first: bool
    column: int
    token: Token

    def text(self) -> str:
        return self.token.text[1:-1]


class Definitions:
    """Cuts a file of definitions."""

    def __init__(self, unit: Unit) -> None:
        self.unit = unit

    def cut(self, words: Sequence[Word]) -> None:
        chunks = [*self.chunks(words)]
        others = [it for it in chunks if not self.declares(it)]
        for chunk in others:
            # A line of a definition by cases.
            known = self.unit.names.get(chunk[0].text(), ()) if chunk[0].column == 0 else ()
            for piece in known:
                piece.tokens += [it.token for it in chunk]
            if not known:
                self.unit.rest += [it.token for it in chunk]

    def chunks(self, words: Sequence[Word]) -> Iterator[List[Word]]:
        """The parts that begin as far in as the first word."""
        found: List[Word] = []
        for word in words:
            if found and word.is_first and word.column <= words[0].column and word.text() not in (*CLOSING, "}"):
                yield found
                found = []
            found.append(word)
        if found:
            yield found

    def declares(self, chunk: List[Word]) -> bool:
        """Reads an import or a declaration, and returns whether it is one."""
        texts = [it.text() for it in chunk]
        if self.imports(texts):
            return True
        names = [*self.names_of(texts)]
        if texts[0] == "module":
            begin = next((at for at, it in enumerate(chunk) if at and it.is_first), len(chunk))
            for inner in self.chunks(chunk[begin:]):
                inside = [it.text() for it in inner]
                names += self.names_of(inside) if not self.imports(inside) else ()
        if names:
            piece = self.unit.piece(names[0], [it.token for it in chunk])
            for name in dict.fromkeys(names):
                self.unit.give(name, piece)
        return bool(names)

    def imports(self, texts: List[str]) -> bool:
        words = texts[1:] if texts[0] == "pub" else texts
        if words[0] == "use":
            parts = [part for it in words[1:] for part in (it.split(".") if it != "." else ()) if part]
            self.unit.take(parts)
        return words[0] in ("use", "mod")

    def names_of(self, texts: List[str]) -> Iterator[str]:
        """The names that a chunk declares: those before its colon; and of a record or a datatype its own, and its cases."""
        at = next((at for at, it in enumerate(texts) if it not in BEFORE_A_NAME), len(texts))
        words = texts[at:]
        if words[:1] in (["record"], ["data"]):
            yield from words[1:2]
            yield from (before for before, it in zip(words[2:], words[3:]) if it == ":" and words[0] == "data")
        elif ":" in words and (at or words[1:2] == [":"]):
            yield from words[: words.index(":")]


class Items:
    """Cuts a source."""

    def __init__(self, unit: Unit, source: Source) -> None:
        self.unit, self.tokens = unit, source.tokens
        self.starts = {start: (name, body, end) for name, (start, body, end) in source.places.items()}

    def cut(self) -> None:
        # What stands before an item, as its attributes.
        before = at = 0
        while at < len(self.tokens):
            end, is_item = self.read(before, at)
            if is_item:
                before = end
            at = end
        self.unit.rest += self.tokens[before:]

    def read(self, before: int, at: int) -> Tuple[int, bool]:
        """Reads what begins here, and returns where it ends and whether an item ends with it."""
        word, then = self.word(at), self.word(at + 1)
        if at in self.starts:
            return self.function(before, at), True
        if word == "use" or (word == "ghost" and then == "use"):
            return self.imports(at), True
        if word == "mod" and self.word(at + 2) in (";", "{"):
            return at + 3, True
        if word == "}":
            return at + 1, True
        if word == "#":
            end = self.end_of_brackets(at + 1 + (then == "!"))
            self.unit.rest += self.tokens[at:end] if then == "!" else ()
            return end, then == "!"
        if word in ("impl", "trait"):
            return self.block(before, at), True
        if word in WITH_BRACES or word in WITHOUT_BRACES or word == "macro_rules":
            return self.item(before, at), True
        if word in ("pub", "unsafe", "("):
            return (self.end_of_brackets(at) if word == "(" else at + 1), False
        self.unit.rest += self.tokens[before : at + 1]
        return at + 1, True

    def word(self, at: int) -> str:
        """A token's text, a clause's without its quotes."""
        it = self.tokens[at] if at < len(self.tokens) else Token(True, "")
        return it.text if it.is_code else it.text[1:-1]

    def function(self, before: int, at: int) -> int:
        name, body, end = self.starts[at]
        self.add_function(name, min(before, at), body, end)
        return end

    def add_function(self, name: Name, start: int, body: int, end: int) -> None:
        piece = self.unit.piece(f"fn {' '.join(it for it in name if it)}", self.tokens[start:body])
        piece.owner, piece.name, piece.body = (name.type, name.trait), name.name, self.tokens[body:end]
        piece.has_self = Token(True, "self") in piece.tokens
        self.unit.functions[name] = piece
        if not name.type:
            self.unit.give(name.name, piece)

    def imports(self, at: int) -> int:
        end = self.until(at, False)
        words = [self.word(it) for it in range(at, end - 1)]
        begin = words.index("use") + 1
        self.unit.take([part for it in words[begin:] for part in (it.split(".") if it not in ".:" else ()) if part])
        return end

    def item(self, before: int, at: int) -> int:
        """A type, a constant or a macro. A `const fn` counts whole."""
        has_braces = self.word(at) in WITH_BRACES or self.word(at + 1) in ("fn", "unsafe")
        name = at + 1 + sum(self.word(it) in ("fn", "unsafe", "!", "mut") for it in (at + 1, at + 2))
        if self.word(at) == "macro_rules":
            first = next((it for it in range(at, len(self.tokens)) if self.tokens[it].opens()), len(self.tokens))
            end = end_of_braces(self.tokens, first)
        else:
            end = self.until(at, has_braces)
        self.unit.give(self.word(name), self.unit.piece(self.word(name), self.tokens[before:end]))
        return end

    def block(self, before: int, at: int) -> int:
        """An `impl` or a trait: its functions, and the rest of it."""
        first = next((it for it in range(at, len(self.tokens)) if self.tokens[it].opens()), len(self.tokens))
        end = end_of_braces(self.tokens, first)
        owner = owner_of(self.tokens[at:first])
        texts = [*self.tokens[before:first]]
        place = first
        while place < end:
            if place in self.starts:
                name, body, then = self.starts[place]
                self.add_function(name, place, body, then)
            elif self.word(place) == "use" and self.word(place - 1) in ("ghost", "{", "}", ";"):
                then = self.imports(place)
                texts = texts[:-1] if self.word(place - 1) == "ghost" else texts
            else:
                then = place + 1
                texts.append(self.tokens[place])
            place = then
        if self.word(at) == "trait":
            self.unit.give(owner[0], self.unit.piece(owner[0], texts))
        else:
            piece = self.unit.piece(f"impl {' '.join(owner)}", texts)
            piece.owner = owner
            self.unit.impls.append(piece)
        return end

    def until(self, at: int, has_braces: bool) -> int:
        """The place after the semicolon that ends what begins here, or after its braces."""
        depth = 0
        for place in range(at, len(self.tokens)):
            token = self.tokens[place]
            depth += BRACKETS.get(token.text, 0) if token.is_code else 0
            if not depth and token.is_code and (token.text == ";" or (has_braces and token.text == "}")):
                return place + 1
        return len(self.tokens)

    def end_of_brackets(self, at: int) -> int:
        depth = 0
        for place in range(at, len(self.tokens)):
            depth += BRACKETS.get(self.tokens[place].text, 0) if self.tokens[place].is_code else 0
            if not depth:
                return place + 1
        return len(self.tokens)
