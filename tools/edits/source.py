"""A source text by the kit's own tokens: its functions, and what stands outside of their bodies."""

from __future__ import annotations

import dataclasses
import re
from typing import Dict, FrozenSet, List, NamedTuple, Optional, Sequence, Tuple

ROW = re.compile(r"^(\d+) (\d+) (\d+) (\w+) (.*)$", re.M)
OPENING, CLOSING = ("(", "["), (")", "]")
# What may stand before `fn` in a function's own line.
BEFORE = ("pub", "unsafe")


class Token(NamedTuple):
    """A token: is it code (else a literal, or of a clause), and its text, a literal's as the kit quotes it."""

    is_code: bool
    text: str

    def opens(self) -> bool:
        return self.is_code and self.text == "{"

    def closes(self) -> bool:
        return self.is_code and self.text == "}"


class Name(NamedTuple):
    """A function's name in its file: its type and trait are empty where it is free."""

    type: str
    trait: str
    name: str


@dataclasses.dataclass(frozen=True)
class Function:
    """A function with its signature and clauses (its head) and its body."""

    name: Name
    head: Tuple[Token, ...]
    body: Tuple[Token, ...]


@dataclasses.dataclass(frozen=True)
class Source:
    """A source text: its functions, and the places of each in the list of its tokens."""

    tokens: Tuple[Token, ...]
    functions: Dict[Name, Function]
    # Start, start of the body and end of each function.
    places: Dict[Name, Tuple[int, int, int]]
    # The line of each token.
    lines: Tuple[int, ...]

    def function_on(self, line: int) -> Optional[Name]:
        """The function that holds a line."""
        for name, (start, _, end) in self.places.items():
            if self.lines[start] <= line <= self.lines[end - 1]:
                return name
        return None

    def without(self, names: FrozenSet[Name]) -> List[Token]:
        """The tokens that are in no body, which is what others can know of the functions, and not in the heads of these."""
        found, at = [], 0
        for name, (start, body, end) in self.places.items():
            found += self.tokens[at : start if name in names else body]
            at = end
        return [*found, *self.tokens[at:]]


def read_rows(rows: Sequence[Tuple[str, ...]]) -> Tuple[Token, ...]:
    """The tokens that `rattle fmt --tokens` printed for one file, by their rows."""
    return tuple(Token(True, text[1:-1]) if kind == "Code" else Token(False, text) for _, _, _, kind, text in rows)


def source_of(rows: str) -> Source:
    """Reads a source by its tokens. Outside of bodies it leaves what a type may name, a `const fn`, and what it can't place."""
    found = ROW.findall(rows)
    tokens = read_rows(found)
    functions: Dict[Name, Function] = {}
    places: Dict[Name, Tuple[int, int, int]] = {}
    # The type and trait of each open brace.
    owners: List[Tuple[str, str]] = [("", "")]
    at = 0
    while at < len(tokens):
        token = tokens[at]
        if token == (True, "impl") or token == (True, "trait"):
            end = next((it for it in range(at, len(tokens)) if tokens[it].opens()), len(tokens))
            owners.append(owner_of(tokens[at:end]))
            at = end
        elif token == (True, "macro_rules"):
            at = end_of_braces(tokens, next(it for it in range(at, len(tokens)) if tokens[it].opens())) - 1
        elif token == (True, "fn") and at + 1 < len(tokens) and tokens[at + 1].text not in OPENING:
            name = Name(*owners[-1], tokens[at + 1].text)
            body = body_of(tokens, at)
            end = at + 1 if body is None else end_of_braces(tokens, body)
            is_const = at > 0 and tokens[at - 1] == (True, "const")
            if body is not None and name not in functions and not is_const:
                start = start_of(tokens, at)
                functions[name] = Function(name, tokens[start:body], tokens[body:end])
                places[name] = (start, body, end)
            at = end - 1
        elif token.opens():
            owners.append(owners[-1])
        elif token.closes() and len(owners) > 1:
            owners.pop()
        at += 1
    lines = tuple(int(row[0]) for row in found)
    return Source(tokens, functions, places, lines)


def start_of(tokens: Tuple[Token, ...], at: int) -> int:
    """Where the function begins whose `fn` is here: with `pub` and the like."""
    while at and tokens[at - 1].is_code:
        before = tokens[at - 1].text
        is_limit = before == ")" and at > 3 and [it.text for it in tokens[at - 4 : at - 2]] == ["pub", "("]
        if before not in BEFORE and not is_limit:
            break
        at -= 4 if is_limit else 1
    return at


def body_of(tokens: Tuple[Token, ...], at: int) -> Optional[int]:
    """Where the body begins of the function whose `fn` is here, or None where it has none. A clause's braces are no code."""
    depth = 0
    for place in range(at, len(tokens)):
        is_code, text = tokens[place]
        if is_code:
            depth += (text in OPENING) - (text in CLOSING)
            if not depth and text in "{;":
                return place if text == "{" else None
    return None


def end_of_braces(tokens: Tuple[Token, ...], at: int) -> int:
    """The place after the brace that closes the one here."""
    depth = 0
    for place in range(at, len(tokens)):
        depth += tokens[place].opens() - tokens[place].closes()
        if not depth:
            return place + 1
    return len(tokens)


def owner_of(header: Tuple[Token, ...]) -> Tuple[str, str]:
    """The type and the trait that an `impl`, or a `trait` (as a type), is of."""
    words: List[str] = []
    angles = 0
    for place, (is_code, text) in enumerate(header):
        is_arrow = text == ">" and header[place - 1].text in "-="
        angles += is_code * ((text == "<") - (text == ">" and not is_arrow))
        if is_code and not angles and re.fullmatch(r"\w+", text):
            words.append(text)
    words = words[1 : words.index("where") if "where" in words else len(words)]
    if "for" in words:
        cut = words.index("for")
        return words[-1], words[cut - 1] if cut else ""
    return (words[-1] if header[0].text == "impl" else words[0]) if words else "", ""
