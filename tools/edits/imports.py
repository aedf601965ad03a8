"""Imports: what a file takes from others, in Rust's form (`use a::{b as c};`) and in the prover's (`use Rattle.a.{b as c}`)."""

from __future__ import annotations

from typing import List, NamedTuple, Sequence, Tuple

# A name with its modules before it.
Path = Tuple[str, ...]
# The name of an import of all that a module has.
ALL = "*"
# What stands for an operand in an operator's name.
OPERAND = "◌"


class Import(NamedTuple):
    """The name that a file gives, and what it gives it to."""

    name: str
    path: Path


def imports_of(words: Sequence[str]) -> List[Import]:
    """The imports of a `use`, by its words after that one, without the colons or dots between them."""
    found: List[Import] = []
    at = 0
    while at < len(words):
        at = max(read_tree(words, at, (), found), at + 1)
    return found


def read_tree(words: Sequence[str], at: int, path: Path, found: List[Import]) -> int:
    """Reads what begins here, below a path, and returns where it ends."""
    while at < len(words) and words[at] not in ("{", "}", ",", "as"):
        path, at = (*path, words[at]), at + 1
    if at < len(words) and words[at] == "{":
        at += 1
        while at < len(words) and words[at] != "}":
            at = at + 1 if words[at] in (",", "as") else read_tree(words, at, path, found)
        return at + 1
    if path[-1:] in (("self",), (ALL,)):
        name, path = (ALL if path[-1] == ALL else path[-2] if len(path) > 1 else ""), path[:-1]
    else:
        name = path[-1] if path else ""
    if at + 1 < len(words) and words[at] == "as":
        name, at = words[at + 1], at + 2
    if path and name:
        found.extend(Import(it, path) for it in spellings(name))
    return at


def spellings(name: str) -> List[str]:
    """How a name is written where it is used: an operator's by its parts, between its operands."""
    return [it for it in name.split(OPERAND) if it] if OPERAND in name else [name]
