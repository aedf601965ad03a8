"""Tests of what an edit's refusal rests on: of each change it is told whose hashes change. Nothing is proved."""

from __future__ import annotations

import os
import sys
import tempfile
import unittest
from typing import Dict, Set

sys.dont_write_bytecode = True
sys.path.insert(0, os.path.dirname(os.path.dirname(os.path.abspath(__file__))))

from edits import kit, record  # noqa: E402
from edits.edit import name_of  # noqa: E402
from edits.imports import Import, imports_of  # noqa: E402

PRELUDE = "ghost use Rattle.std.specs.Prelude.{◌≡◌, ◌+◌, ◌≤◌, ℕ};\n"
LOW = """#![tactic(auto)]
mod parts;
pub use parts::{Part, halve as half};
"""
PARTS = PRELUDE + """ghost use Rattle.low.specs.Lib.{bound as most};
ghost use Rattle.low.specs.Sizes as sizes;

pub struct Part { size: usize }

pub enum Fault { Large }

impl Part {
    const fn highest() -> usize { 9 }

    pub fn new() -> Part { Part { size: 0 } }

    pub fn size(&self) -> usize ensures { result ≤ most } { self.size }

    pub fn grow(&mut self) ensures { sizes.grown self.old self.new } { self.size += 1; }
}

pub trait Cut {
    fn cut(&self) -> usize ensures { result ≡ 1 };
}

impl Cut for Part {
    fn cut(&self) -> usize { self.size() }
}

/// Half.
pub fn halve(x: usize) -> usize ensures { result ≤ x } { x / 2 }

pub fn other(x: usize) -> usize ensures { result ≤ x + 0 } { x }
"""
SIZES = """use Rattle.std.specs.Prelude.{ℕ, ◌+◌, ◌≡◌}
use Rattle.low.specs.declared.parts.Part.{Part}

-- the step
abbrev pub step : ℕ
step = 1

abbrev pub bound : ℕ
bound = 9

abbrev pub unused : ℕ
unused = 3

abbrev pub grown : Part → Part → Type 0
grown a b = b.size ≡ a.size + step
"""
HIGH = PRELUDE + """use low::{Part, half};
use low::parts::Cut;

const TWO: usize = 2;

pub fn third(x: usize) -> usize requires { x ≤ 9 } ensures { result ≤ x } { half(x) }

pub fn grows(part: &mut Part) -> usize ensures { result ≡ 1 } { part.grow(); 1 }

pub fn cuts<C: Cut>(part: &C) -> usize ensures { result ≡ 1 } { part.cut() }

pub fn sizes() -> usize ensures { result ≡ 0 } { Part::new().size() + TWO - 2 }

pub fn alone(x: usize) -> usize ensures { result ≡ x } { let _ = "half(x)"; x }
"""
FILES = {
    "crates.txt": "low:\nhigh: low\n",
    "crates/low/src/lib.rt": LOW,
    "crates/low/src/parts.rt": PARTS,
    "crates/low/specs/Lib.antt": "pub mod Sizes\npub use Rattle.low.specs.Sizes.{bound}\n",
    "crates/low/specs/Sizes.antt": SIZES,
    "crates/high/src/lib.rt": HIGH,
}
# An edit of each function, by the function's name; and one of a constant. Each has an old text and a new one.
EDITS = {
    "low": {
        "size": ("{ self.size }", "{ 7 }"),
        "grow": ("self.size += 1;", "self.size += 7;"),
        "cut": ("{ self.size() }", "{ self.size() + 7 }"),
        "halve": ("{ x / 2 }", "{ x }"),
        "other": ("{ x }", "{ 7 }"),
    },
    "high": {
        "third": ("{ half(x) }", "{ x + 7 }"),
        "grows": ("part.grow(); 1", "part.grow(); 7"),
        "cuts": ("part.cut()", "7"),
        "sizes": ("- 2", "- 1"),
        "alone": ("; x }", "; 7 }"),
        "two": ("usize = 2", "usize = 7"),
    },
}
LOWER, UPPER = set(EDITS["low"]), set(EDITS["high"])


class CitationsTest(unittest.TestCase):
    """A test with a repository of two crates, and an edit of each function."""

    def setUp(self) -> None:
        folder = tempfile.TemporaryDirectory(prefix="test-citations-")
        self.addCleanup(folder.cleanup)
        self.top = folder.name
        for path, text in FILES.items():
            self.write(path, text)
        for crate, edits in EDITS.items():
            file = {"low": "src/parts.rt", "high": "src/lib.rt"}[crate]
            texts = [f"edit: {name}\nfile: {file}\nold: {old}\nnew: {new}\n" for name, (old, new) in edits.items()]
            self.write(f"crates/{crate}/wrong-bodies.edits", "\n".join(texts))
        self.known = self.hashes()
        self.assertEqual(set(self.known), LOWER | UPPER)
        self.assertNotIn("", self.known.values())

    def write(self, path: str, text: str) -> None:
        whole = os.path.join(self.top, path)
        os.makedirs(os.path.dirname(whole), exist_ok=True)
        with open(whole, "w", encoding="utf-8") as file:
            file.write(text)

    def hashes(self) -> Dict[str, str]:
        crates = kit.crates(self.top)
        hashes = record.Hashes(crates)
        return {name_of(path): known for it in crates for path, known in hashes.of(it).items()}

    def void(self, path: str, *changes: str) -> Set[str]:
        """The edits whose hashes aren't what they were, after old texts of a file are replaced by new ones; the file is then as before."""
        text = FILES.get(path, "")
        for old, new in zip(changes[::2], changes[1::2]):
            self.assertEqual(text.count(old), 1, old)
            text = text.replace(old, new)
        self.write(path, text if changes else "\n")
        now = self.hashes()
        if path in FILES:
            self.write(path, FILES[path])
        return {it for it in self.known if now[it] != self.known[it]}

    def test_nothing(self) -> None:
        """A comment, a proof, another body and a clause of what isn't cited void nothing."""
        self.assertEqual(self.void("crates/low/src/parts.rt", "/// Half.", "/// A half."), set())
        self.assertEqual(self.void("crates/low/specs/Sizes.antt", "-- the step", "-- a step"), set())
        self.assertEqual(self.void("crates/low/proofs/halve/Answers.antt"), set())
        self.assertEqual(self.void("crates/low/src/parts.rt", "Part { size: 0 }", "Part { size: 0 + 0 }"), set())
        self.assertEqual(self.void("crates/low/specs/Sizes.antt", "unused = 3", "unused = 4"), set())
        self.assertEqual(self.void("crates.txt", "high: low", "high: low memchr"), set())

    def test_own_body(self) -> None:
        """A body voids the edit of its function, and no other; and so does a clause that nobody calls."""
        self.assertEqual(self.void("crates/low/src/parts.rt", "{ x / 2 }", "{ x / 2 + 0 }"), {"halve"})
        self.assertEqual(self.void("crates/low/src/parts.rt", "result ≤ x + 0", "result ≤ 0 + x"), {"other"})
        self.assertEqual(self.void("crates/high/src/lib.rt", "requires { x ≤ 9 }", "requires { x ≤ 8 }"), {"third", "two"})

    def test_called(self) -> None:
        """A clause of a function voids the edits of its callers: by an import of another name, as a method, by its type."""
        self.assertEqual(self.void("crates/low/src/parts.rt", "ensures { result ≤ x }", "ensures { x ≤ result }"), {"halve", "third", "two"})
        self.assertEqual(self.void("crates/low/src/parts.rt", "result ≤ most", "most ≤ result"), {"size", "cut", "sizes", "two"})
        self.assertEqual(self.void("crates/low/src/parts.rt", "pub fn new()", "pub(crate) fn new()"), {"sizes", "two"})

    def test_definitions(self) -> None:
        """A definition voids what cites it: through another, through a name for its module, through an import that is handed on."""
        self.assertEqual(self.void("crates/low/specs/Sizes.antt", "step = 1", "step = 2"), {"grow", "grows", "two"})
        self.assertEqual(self.void("crates/low/specs/Sizes.antt", "bound = 9", "bound = 8"), {"size", "cut", "sizes", "two"})
        prelude = "ℕ, ◌+◌, ◌≡◌"
        self.assertEqual(self.void("crates/low/specs/Sizes.antt", prelude, "ℕ, ◌+◌}\nuse Rattle.std.specs.Other.{◌≡◌"), {"grow", "grows", "two"})

    def test_types(self) -> None:
        """A field of a type voids what names the type; a clause of a trait's method what calls it for any type."""
        of_parts = {"size", "grow", "cut", "grows", "sizes", "two"}
        self.assertEqual(self.void("crates/low/src/parts.rt", "struct Part { size: usize }", "struct Part { size: usize, more: u8 }"), of_parts)
        self.assertEqual(self.void("crates/low/src/parts.rt", "usize { 9 }", "usize { 8 }"), of_parts)
        self.assertEqual(self.void("crates/low/src/parts.rt", "ensures { result ≡ 1 };", "ensures { 1 ≡ result };"), of_parts | {"cuts"})
        self.assertEqual(self.void("crates/low/src/parts.rt", "enum Fault { Large }", "enum Fault { Large, Small }"), set())

    def test_constant(self) -> None:
        """An edit of a constant goes with its whole crate; the constant with what names it."""
        self.assertEqual(self.void("crates/high/src/lib.rt", "x }\n", "x + 0 }\n"), {"alone", "two"})
        self.assertEqual(self.void("crates/high/src/lib.rt", "TWO: usize", "TWO : u64"), {"sizes", "two"})

    def test_unreadable(self) -> None:
        """A file that the kit can't read goes with all edits of its crate, and of those above."""
        self.write("crates/low/src/more.rt", '"')
        now = self.hashes()
        self.assertEqual({it for it in self.known if now[it] != self.known[it]}, LOWER | UPPER)


class ImportsTest(unittest.TestCase):
    """How imports are read."""

    def test_groups(self) -> None:
        words = "a b { c d { e , f as g } , self , h { * } , } ".split()
        paths = {it.name: "::".join(it.path) for it in imports_of(words)}
        self.assertEqual(paths, {"e": "a::b::c::d::e", "g": "a::b::c::d::f", "b": "a::b", "*": "a::b::h"})

    def test_operator(self) -> None:
        """An operator is known by its parts."""
        self.assertEqual(imports_of(["a", "{", "◌++◌", "}"]), [Import("++", ("a", "◌++◌"))])


if __name__ == "__main__":
    unittest.main()
