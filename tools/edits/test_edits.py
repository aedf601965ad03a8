"""Tests of tools/try-edits, over small crates that the kit proves: python3 tools/edits/test_edits.py"""

from __future__ import annotations

import contextlib
import io
import os
import re
import shutil
import sys
import tempfile
import time
import unittest
import unittest.mock
from concurrent.futures import ThreadPoolExecutor
from typing import Dict, List, Optional, Sequence, Tuple

sys.dont_write_bytecode = True
sys.path.insert(0, os.path.dirname(os.path.dirname(os.path.abspath(__file__))))

from edits import change, command, gate, kit, record, table, test_citations  # noqa: E402
from edits.crate import Outcome, keeping, try_edits  # noqa: E402
from edits.edit import FOLDERS, MUST_FAIL, ONE_FILE, WRONG_BODIES, Place, Sources, files_of, name_of, read_source, sections  # noqa: E402
from edits.group import is_of  # noqa: E402
from edits.source import Name  # noqa: E402

LOW = """//! Small functions.
#![tactic(auto)]

ghost use Rattle.std.specs.Prelude.{◌≡◌, ◌+◌, ◌<◌, ◌≤◌};

/// One more.
pub fn next(x: usize) -> usize
    requires { x < 1000 }
    ensures { result ≡ x + 1 }
{
    x + 1
}

/// Two more.
pub fn second(x: usize) -> usize
    requires { x < 900 }
    ensures { result ≡ x + 2 }
{
    next(next(x))
}

/// A number up to the first.
pub fn least(x: usize, y: usize) -> usize
    ensures { result ≤ x }
{
    if x < y { x } else { y }
}

/// A number up to the first, by another function.
pub fn lower(x: usize, y: usize) -> usize
    ensures { result ≤ x }
{
    least(x, y)
}

/// Three.
pub fn corners() -> usize
    ensures { result ≡ 3 }
{
    3
}

/// What has sides.
pub trait Shape {
    /// How many.
    fn sides(&self) -> usize
        ensures { result ≡ 3 };
}

/// Three corners.
#[derive(Clone, Copy)]
pub struct Triangle {}

impl Shape for Triangle {
    fn sides(&self) -> usize {
        corners()
    }
}
"""
# A proof by a person, of the name that a call's result has.
LOWER = """use Rattle.low.proofs.lower.Goals as goal

pub returns : goal.returns
returns c = c.least.ensures
"""
HIGH = """//! A function over another crate's.
#![tactic(auto)]

ghost use Rattle.std.specs.Prelude.{◌≡◌, ◌+◌, ◌<◌};

/// Three more.
pub fn third(x: usize) -> usize
    requires { x < 800 }
    ensures { result ≡ x + 3 }
{
    low::next(low::second(x))
}
"""
METHODS = """impl<T: Copy> Shape<T> for Round<'_, T> {
    fn size(&self) -> u8
        ensures { result ≡ 1 }
    {
        1
    }
}

impl Round {
    pub(crate) fn new() -> Round {
        Round {}
    }

    const fn most() -> u8 {
        9
    }
}
"""
FILES = {
    "crates.txt": "low:\nhigh: low\n",
    "HANDLES": "Handles allowed: none.\n",
    "crates/low/src/lib.rt": LOW,
    "crates/low/proofs/lower/Answers.antt": LOWER,
    "crates/high/src/lib.rt": HIGH,
}
NEXT_IS_TWO_MORE = ("    x + 1", "    x + 1 + 1")
SECOND_IS_ITSELF = ("next(next(x))", "next(x) + 1")
LEAST_IS_THE_SECOND = ("if x < y { x } else { y }", "y")
LOWER_IS_TURNED = ("    least(x, y)", "    least(y, x)")
CORNERS_ARE_FOUR = ("    3", "    4")
TRIANGLE_OF_FOUR = ("        corners()", "        4")
LOWER_WITHOUT_A_CALL = ("    least(x, y)", "    if x < y { x } else { y }")
# A wrong body before the right one, which has another name then.
NEXT = "pub fn next(x: usize) -> usize requires { x < 1000 } ensures { result ≡ x + 1 }"
NO_SUCH_TEXT = ("x - 1", "x - 2")
THIRD_IS_SECOND = ("low::next(low::second(x))", "low::second(x)")
QUOTES_A_COMMENT = """file: src/lib.rt
old: /// Three more.
new: /// Two more.
old: low::next(low::second(x))
new: low::second(x)
"""


class Repository:
    """A repository in a folder for temporary files."""

    def __init__(self, top: str, built: Optional[Repository] = None) -> None:
        """Writes the crates, or copies those of another repository with what is built of them."""
        self.top = top
        if built:
            shutil.copytree(built.top, top, dirs_exist_ok=True)
        for path, text in FILES.items() if not built else ():
            self.write(path, text)

    def write(self, path: str, text: str) -> None:
        whole = os.path.join(self.top, path)
        os.makedirs(os.path.dirname(whole), exist_ok=True)
        with open(whole, "w", encoding="utf-8") as file:
            file.write(text)

    def put_edits(self, crate: str, edits: Dict[str, Tuple[str, str]], folder: str = WRONG_BODIES) -> None:
        for name, (old, new) in edits.items():
            self.put_edit(crate, name, f"file: src/lib.rt\nold: {old}\nnew: {new}\n", folder)

    def put_edit(self, crate: str, name: str, text: str, folder: str = WRONG_BODIES) -> None:
        """Puts an edit into a file of its own, or among the others of the crate."""
        if not (IS_ONE_FILE and folder == WRONG_BODIES):
            self.write(f"crates/{crate}/{folder}/{name}.edit", text)
            return
        known = {**sections(f"{self.top}/crates/{crate}"), f"{folder}/{name}.edit": text}
        whole = "\n".join(f"edit: {os.path.basename(path)[: -len('.edit')]}\n{it}" for path, it in known.items())
        self.write(f"crates/{crate}/{ONE_FILE}", whole)

    def crate(self, name: str) -> kit.Crate:
        return next(it for it in kit.crates(self.top) if it.name == name)

    def hashes(self, name: str) -> Dict[str, str]:
        """The hashes of a crate's edits, by their names."""
        crate = self.crate(name)
        return {name_of(path): known for path, known in record.Hashes([crate]).of(crate).items()}


# Whether wrong bodies stand in one file a crate. The tests are run with both.
IS_ONE_FILE = False

# The repository that each test gets a copy of, and what was seen when its lower crate was proved.
BUILT: List[Repository] = []
WATCHED: List[table.Watch] = []


def setUpModule() -> None:
    kit.start()
    folder = tempfile.TemporaryDirectory(prefix="test-edits-")
    unittest.addModuleCleanup(folder.cleanup)
    BUILT.append(Repository(folder.name))
    with table.Watch(folder.name) as watch:
        kit.built([BUILT[0].crate("low")], 1, is_after_ci=False)
    WATCHED.append(watch)


class EditsTest(unittest.TestCase):
    """A test with a repository of two crates, of which the lower one is built."""

    def setUp(self) -> None:
        folder = tempfile.TemporaryDirectory(prefix="test-edits-")
        self.addCleanup(folder.cleanup)
        self.repository = Repository(folder.name, BUILT[0])

    def tried(self, crate: str, folders: Tuple[str, ...] = FOLDERS, minutes: Optional[float] = None) -> Tuple[Outcome, List[str]]:
        """What came of a crate's edits, and the lines that were printed."""
        found = self.repository.crate(crate)
        self.assertIsNone(kit.built(found.below(), 1, is_after_ci=False))
        with contextlib.redirect_stdout(io.StringIO()) as said:
            outcome = try_edits(self.repository.top, found, files_of(found, folders), kit.Lanes(2, minutes), record.Hashes([found]))
        return outcome, said.getvalue().split("\n")

    def assert_said(self, start: str, lines: List[str]) -> None:
        self.assertTrue(any(it.startswith(start) for it in lines), f"no line begins with {start}: {lines}")


class VerdictTest(EditsTest):
    """What is said of edits."""

    def test_group(self) -> None:
        """Of a group the right body fails, and a wrong caller of a wrong function is found in a later check."""
        self.repository.put_edits("low", {
            "least_is_the_second": LEAST_IS_THE_SECOND,
            "lower_is_turned": LOWER_IS_TURNED,
            "next_is_two_more": NEXT_IS_TWO_MORE,
            "second_is_itself": SECOND_IS_ITSELF,
            "triangle_of_four": TRIANGLE_OF_FOUR,
        })
        outcome, lines = self.tried("low")
        self.assertEqual((outcome.refused, outcome.failed), (4, 1), lines)
        told = [line.partition("/")[0] + line.partition("wrong-bodies")[2].partition(".edit")[0] for line in lines[:5]]
        first = ["refused low/least_is_the_second", "refused low/next_is_two_more", "refused low/triangle_of_four"]
        self.assertEqual(told[:3], first)
        self.assertEqual(sorted(told[3:]), ["NOT REFUSED low/second_is_itself", "refused low/lower_is_turned"])
        names = ["least_is_the_second", "lower_is_turned", "next_is_two_more", "triangle_of_four"]
        lines = record.read(self.repository.top)
        self.assertEqual([*lines], [("low", it) for it in names])
        self.assertEqual([it.hash for it in lines.values()], [self.repository.hashes("low")[it] for it in names])
        self.assertLessEqual(sum(it.seconds for it in lines.values()), outcome.seconds + 0.1 * len(lines))

    def test_impl(self) -> None:
        """An impl is refused with its method, and a method with what it calls: one check will do."""
        self.repository.put_edits("low", {"corners_are_four": CORNERS_ARE_FOUR, "next_is_two_more": NEXT_IS_TWO_MORE})
        outcome, lines = self.tried("low")
        self.assertEqual((outcome.refused, outcome.failed), (2, 0), lines)
        self.assert_said("low: 2 refused, 0 failed, in 1 checks", lines)

    def test_vanished_name(self) -> None:
        """A right body that is refused as a proof cites what isn't there any more."""
        self.repository.put_edits("low", {"lower_without_a_call": LOWER_WITHOUT_A_CALL, "next_is_two_more": NEXT_IS_TWO_MORE})
        outcome, lines = self.tried("low")
        self.assertEqual((outcome.refused, outcome.failed), (1, 1), lines)
        self.assert_said("ONLY BY NAME low/wrong-bodies/lower_without_a_call.edit", lines)

    def test_bad_edit(self) -> None:
        self.repository.put_edits("low", {"no_such_text": NO_SUCH_TEXT, "twice": ("pub fn", "fn")})
        outcome, lines = self.tried("low")
        self.assertEqual((outcome.refused, outcome.failed), (0, 2), lines)
        self.assert_said("BAD EDIT low/wrong-bodies/no_such_text.edit", lines)
        self.assert_said("BAD EDIT low/wrong-bodies/twice.edit", lines)

    def test_text_of_two_lines(self) -> None:
        """Where edits stand in one file, a line that nobody would read is no edit's."""
        self.repository.write("crates/low/wrong-bodies.edits", "edit: two_lines\nfile: src/lib.rt\nold: x + 1\n}\nnew: x + 2\n}\n")
        outcome, lines = self.tried("low")
        self.assertEqual((outcome.refused, outcome.failed), (0, 1), lines)
        self.assert_said("BAD EDIT low/wrong-bodies/two_lines.edit: the line '}'", lines)

    def test_contract(self) -> None:
        """An edit of a contract is tried alone, and so is what isn't proved without an edit."""
        self.repository.put_edits("high", {"third_promises_four": ("ensures { result ≡ x + 3 }", "ensures { result ≡ x + 4 }")})
        outcome, lines = self.tried("high")
        self.assertEqual((outcome.refused, outcome.failed), (1, 0), lines)
        self.repository.write("crates/high/src/lib.rt", HIGH.replace("x + 3", "x + 5"))
        outcome, lines = self.tried("high")
        self.assertEqual((outcome.refused, outcome.failed), (0, 1), lines)
        self.assert_said("high NOT PROVED", lines)


class LanesTest(EditsTest):
    """Checks side by side."""

    def test_lanes(self) -> None:
        """So many go at once as there are lanes and memory for, the longest first, and at the end nobody waits any more."""
        lanes = kit.Lanes(2)
        lanes.memory = 10
        told: List[str] = []

        def takes(name: str, length: float, memory: float) -> None:
            with lanes.lane(length, memory):
                told.append(f"{name} begins")
                time.sleep(0.05)
                told.append(f"{name} ends")

        def waits(count: int) -> None:
            while len(lanes.waiting) < count:
                time.sleep(0.01)

        with ThreadPoolExecutor(8) as pool:
            with lanes.lane(0, 1), lanes.lane(0, 1):
                for call in (("short", 1, 3), ("long", 4, 3), ("large", 2, 11), ("other", 3, 3)):
                    pool.submit(takes, *call)
                waits(4)
            pool.shutdown()
        self.assertEqual(sorted(told[:2]), ["long begins", "other begins"])
        self.assertEqual(sorted(told[2:4]), ["long ends", "other ends"])
        self.assertEqual(told[4:], ["large begins", "large ends", "short begins", "short ends"])
        with ThreadPoolExecutor(1) as pool, lanes.lane(0, 1), lanes.lane(0, 1):
            late = pool.submit(takes, "late", 1, 1)
            waits(1)
            with lanes.opened():
                pass
            self.assertIsInstance(late.exception(), InterruptedError)

    def test_crates(self) -> None:
        """The edits of two crates are tried, and each has its line in the record; then none is void, and of a new one just it is tried."""
        self.repository.put_edits("low", {"next_is_two_more": NEXT_IS_TWO_MORE, "corners_are_four": CORNERS_ARE_FOUR})
        self.repository.put_edits("high", {"third_is_second": THIRD_IS_SECOND})
        with contextlib.redirect_stdout(io.StringIO()) as said:
            status = command.main(self.repository.top, ["--lanes", "2"])
        self.assertEqual((status, said.getvalue().split("\n")[-2]), (0, "3 refused, 0 failed"))
        lines = [("high", "third_is_second"), ("low", "corners_are_four"), ("low", "next_is_two_more")]
        self.assertEqual([*record.read(self.repository.top)], lines)
        self.repository.put_edits("low", {"least_is_the_second": LEAST_IS_THE_SECOND})
        with contextlib.redirect_stdout(io.StringIO()) as said:
            status = command.main(self.repository.top, ["--lanes", "2", "--void"])
        told = said.getvalue().split("\n")
        self.assertEqual((status, told[0], told[-2]), (0, "void: 1 of 4 edits", "1 refused, 0 failed"))


class FilledTest(EditsTest):
    """A test with a record."""

    def fill(self, names: Sequence[str] = ("low", "high")) -> None:
        """Writes the lines of these crates' edits, as if they were refused."""
        hashes = {(crate, edit): known for crate in names for edit, known in self.repository.hashes(crate).items()}
        record.write(self.repository.top, {key: record.Line(known, 1.25) for key, known in hashes.items()})


class RecordTest(FilledTest):
    """The record."""

    def test_lines(self) -> None:
        """A line has an edit's crate, name, hash and seconds, and goes when the edit is gone."""
        top = self.repository.top
        self.repository.put_edits("high", {"third_is_second": THIRD_IS_SECOND})
        self.repository.put_edits("low", {"next_is_two_more": NEXT_IS_TWO_MORE})
        self.fill()
        with open(os.path.join(top, record.PLACE), encoding="utf-8") as text:
            lines = text.read().splitlines()
        known = self.repository.hashes("low")["next_is_two_more"]
        self.assertEqual(len(lines), 3)
        self.assertEqual(lines[2], f"low next_is_two_more {known} 1.2")
        self.assertEqual(record.read(top)["low", "next_is_two_more"], record.Line(known, 1.2))
        for path in files_of(self.repository.crate("high"), FOLDERS):
            whole = f"{top}/crates/high/{path}"
            os.remove(whole if os.path.exists(whole) else f"{top}/crates/high/{ONE_FILE}")
        self.fill(["low"])
        self.assertEqual([*record.read(top)], [("low", "next_is_two_more")])

    def test_two_of_a_name(self) -> None:
        """A name that stands in both folders is no edit's."""
        for folder in FOLDERS:
            self.repository.put_edits("low", {"next_is_two_more": NEXT_IS_TWO_MORE}, folder)
        low = self.repository.crate("low")
        faults = [it.fault for it in Sources(low.folder).edits(files_of(low, FOLDERS))]
        self.assertEqual(faults, ["its name stands in wrong-bodies too", "its name stands in must-fail too"])
        self.assertEqual(record.Hashes([low]).void(low, FOLDERS, {}), files_of(low, FOLDERS))

    def test_changed_meanwhile(self) -> None:
        """An edit isn't recorded where what it rests on was changed while it was tried."""
        self.repository.put_edits("low", {"next_is_two_more": NEXT_IS_TWO_MORE, "lower_is_turned": LOWER_IS_TURNED})
        low = self.repository.crate("low")
        keep, sources = keeping(self.repository.top, low, record.Hashes([low])), Sources(low.folder)
        edits = sources.edits(files_of(low, FOLDERS))
        self.repository.write("crates/low/src/lib.rt", LOW.replace("result ≡ x + 1", "result ≡ 1 + x"))
        with contextlib.redirect_stdout(io.StringIO()) as said:
            keep(edits)
        self.assertEqual([*record.read(self.repository.top)], [("low", "lower_is_turned")])
        self.assertIn("low/wrong-bodies/next_is_two_more.edit was changed meanwhile", said.getvalue())


class GateTest(FilledTest):
    """The choice of the gate."""

    def chosen(self, turn: int) -> Dict[str, gate.Choice]:
        crates = kit.crates(self.repository.top)
        return gate.choose(self.repository.top, crates, record.Hashes(crates), turn)

    def test_choice(self) -> None:
        """Void edits are tried at each turn, and the others once in all turns."""
        self.repository.put_edits("low", {"next_is_two_more": NEXT_IS_TWO_MORE, "lower_is_turned": LOWER_IS_TURNED})
        self.repository.put_edits("high", {"third_is_second": THIRD_IS_SECOND})
        self.assertEqual([len(self.chosen(0)[it].void) for it in ("low", "high")], [2, 1])
        self.fill()
        for turn in range(gate.TURNS):
            self.assertEqual([self.chosen(turn)[it].void for it in ("low", "high")], [[], []])
        tried = [it for turn in range(gate.TURNS) for name in ("low", "high") for it in self.chosen(turn)[name].in_turn]
        self.assertEqual(sorted(map(name_of, tried)), ["lower_is_turned", "next_is_two_more", "third_is_second"])
        self.repository.write("crates/low/src/lib.rt", LOW.replace("result ≤ x", "x ≥ result", 1))
        self.assertEqual([*map(name_of, self.chosen(0)["low"].void)], ["lower_is_turned"])
        self.assertEqual(self.chosen(0)["high"].void, [])

    def test_quoted_comment(self) -> None:
        """No comment is in a hash, but an edit that quotes one can't be applied when it is another."""
        self.repository.put_edit("high", "third_is_second", QUOTES_A_COMMENT)
        self.fill()
        self.assertEqual(self.chosen(0)["high"].void, [])
        self.repository.write("crates/high/src/lib.rt", HIGH.replace("/// Three more.", "/// Three added."))
        self.assertEqual(len(self.chosen(0)["high"].void), 1)

    def test_most_seconds(self) -> None:
        """Of the void edits the gate takes those that it has time for, each turn from another crate on, and one at least."""
        crates = [self.repository.crate(name) for name in ("low", "high")]
        paths = {"low": ["wrong-bodies/a.edit", "wrong-bodies/b.edit"], "high": ["wrong-bodies/c.edit"]}

        def taken(part: float, turn: int) -> List[str]:
            seconds = gate.MOST_SECONDS * part
            lines = {(name, name_of(it)): record.Line("", seconds) for name in paths for it in paths[name]}
            return [name_of(it) for edits in gate.within(crates, paths, lines, turn).values() for it in edits]

        self.assertEqual(gate.within([], {}, {}, 5), {})
        self.assertEqual([taken(0.3, turn) for turn in (0, 1)], [["a", "b", "c"]] * 2)
        self.assertEqual([taken(0.4, turn) for turn in (0, 1)], [["a", "b"], ["a", "c"]])
        self.assertEqual([taken(4, turn) for turn in (0, 1)], [["a"], ["c"]])

    def test_floor(self) -> None:
        """The gate says for how many of all edits the record holds, and fails below the floor, here four fifths of them."""
        edits = {"next_is_two_more": NEXT_IS_TWO_MORE, "lower_is_turned": LOWER_IS_TURNED, "corners_are_four": CORNERS_ARE_FOUR}
        self.repository.put_edits("low", edits)
        self.repository.put_edits("low", {"least_is_the_second": LEAST_IS_THE_SECOND}, MUST_FAIL)
        self.repository.put_edits("high", {"third_is_second": THIRD_IS_SECOND})

        def planned() -> Tuple[int, str, bool]:
            with contextlib.redirect_stdout(io.StringIO()) as said, unittest.mock.patch.object(gate, "LEAST_HELD", 0.8):
                status = command.main(self.repository.top, ["--gate", "--plan"])
            told = said.getvalue()
            return status, next(it for it in told.split("\n") if it.startswith("the record holds")), "FAILED: " in told

        self.assertEqual(planned(), (1, "the record holds for 0 of 5 edits", True))
        self.fill(["low"])
        self.assertEqual(planned(), (0, "the record holds for 4 of 5 edits", False))
        self.repository.write("crates/low/src/lib.rt", LOW.replace("result ≡ x + 1", "result ≡ 1 + x"))
        self.assertEqual(planned(), (1, "the record holds for 3 of 5 edits", True))

    def test_no_time(self) -> None:
        """An edit for which no time is left is neither refused nor a failure, and isn't recorded."""
        self.repository.put_edits("high", {"third_is_second": THIRD_IS_SECOND})
        outcome, said = self.tried("high", minutes=0)
        self.assertEqual((outcome.refused, outcome.failed), (0, 0))
        self.assert_said("high: 0 refused, 0 failed, 1 not tried", said)
        self.assertEqual(record.read(self.repository.top), {})


class ChangeTest(EditsTest):
    """What tools/check-change does."""

    def test_change(self) -> None:
        """Of a changed crate it tells the layout, the proofs and the edits, and fails where an edit isn't refused."""
        top = self.repository.top
        self.repository.write(".gitignore", "out/\n")
        for words in (("init", "-q"), ("add", "."), ("-c", "user.name=a", "-c", "user.email=a", "commit", "-qm", "all")):
            change.git(top, *words)
        self.assertEqual(change.touched(top, "HEAD"), set())
        self.repository.put_edits("low", {"second_is_itself": SECOND_IS_ITSELF})
        self.assertEqual(change.touched(top, "HEAD"), {"low"})
        self.repository.write("crates.txt", "low:\nhigh: low memchr\n")
        self.assertEqual(change.touched(top, "HEAD"), {"low", "high"})
        self.repository.write("crates.txt", FILES["crates.txt"])
        with contextlib.redirect_stdout(io.StringIO()) as said:
            status = change.main(top, [])
        self.assertEqual(status, 1)
        told = re.sub(r" \(\d+ s\)", "", said.getvalue()).split("\n")
        steps = [it for it in told if re.fullmatch(r"touched.*|low: \w+: \w+", it)]
        self.assertEqual(steps, ["touched: low", "low: layout: ok", "low: proofs: ok", "low: edits: FAILED"])


class ReadingTest(EditsTest):
    """How sources and edits are read."""

    def test_functions(self) -> None:
        source = read_source(METHODS)
        assert source is not None
        self.assertEqual(list(source.functions), [Name("Round", "Shape", "size"), Name("Round", "", "new")])
        self.assertEqual(source.function_on(3), Name("Round", "Shape", "size"))
        left = " ".join(it.text for it in source.without(frozenset()))
        self.assertIn('"ensures" "{" "result"', left)
        self.assertNotIn("Round { }", left)
        self.assertIn("most ( ) -> u8 {".replace("->", "- >"), left)

    def test_names(self) -> None:
        free = Place("src/a/mod.rt", Name("", "", "size"))
        self.assertTrue(is_of("low::a::size", "low", free))
        self.assertTrue(is_of("low::a::fn::size::map+FnMut::call_mut", "low", free))
        self.assertFalse(is_of("low::b::size", "low", free))
        self.assertFalse(is_of("low::a::Round::size", "low", free))
        method = Place("src/a.rt", Name("Round", "", "size"))
        self.assertTrue(is_of("low::b::Round::size", "low", method))
        self.assertTrue(is_of("low::b::Round+Disk::size", "low", method))
        self.assertFalse(is_of("low::b::Rounded::size", "low", method))
        self.assertFalse(is_of("low::b::RoundShape::size", "low", method))
        self.assertTrue(is_of("low::b::RoundShape::size", "low", Place("src/a.rt", Name("Round", "Shape", "size"))))

    def test_changed_functions(self) -> None:
        """An edit of bodies names their functions; one of more than bodies names none."""
        self.repository.put_edits("low", {
            "body": NEXT_IS_TWO_MORE,
            "renamed": ("pub fn next(x: usize) -> usize", f"{NEXT} {{ x }} fn next_in_truth(x: usize) -> usize"),
            "clause": ("result ≡ x + 1", "result ≡ x + 2"),
        })
        sources = Sources(self.repository.crate("low").folder)

        def changed(name: str) -> Tuple[List[str], List[str]]:
            edit = sources.edits([f"{WRONG_BODIES}/{name}.edit"])[0]
            return [it.name.name for it in edit.functions], [it.name.name for it in edit.added]

        self.assertEqual(changed("body"), (["next"], []))
        self.assertEqual(changed("renamed"), (["next"], ["next_in_truth"]))
        self.assertEqual(changed("clause"), ([], []))


class TableTest(EditsTest):
    """The gate's table of crates."""

    def test_rows(self) -> None:
        """Lines of each crate and of all; seconds of the one that was proved meanwhile."""
        head, high, low, all_crates = sorted(table.rows(self.repository.top, WATCHED[0]), key=lambda it: "chla".index(it[0]))
        self.assertEqual(head.split(), ["crate", "src", "specs", "proofs", "seconds"])
        specs = {name: sum(text.count("\n") for path, text in FILES.items() if path.startswith(f"crates/{name}/specs/")) for name in ("low", "high")}
        self.assertEqual(low.split()[:3], ["low", str(LOW.count("\n")), str(specs["low"])])
        self.assertEqual((high.split()[1], high.split()[4]), (str(HIGH.count("\n")), "kept"))
        self.assertEqual(all_crates.split()[1], str((LOW + HIGH).count("\n")))
        self.assertGreater(WATCHED[0].seconds("low"), 0)

    def test_grown(self) -> None:
        """A crate is named whose proofs have more than a twentieth more lines than when the program was made."""
        self.assertEqual([*table.grown(self.repository.top)], [])
        self.repository.write("crates/low/proofs/Lib.antt", "\n" * 100)
        lines = table.lines_of(self.repository.crate("low"), "proofs")
        for then, names in ((lines - 10, ["low"]), (lines - 1, []), (0, [])):
            self.repository.write(table.WRITTEN, f"low {then}\nhigh 1000\n")
            self.assertEqual([it.split()[0] for it in table.grown(self.repository.top)], names)


class InOneFile(EditsTest):
    """A test whose wrong bodies stand in one file a crate."""

    def in_one_file(self, is_one_file: bool) -> None:
        global IS_ONE_FILE
        IS_ONE_FILE = is_one_file

    def setUp(self) -> None:
        super().setUp()
        self.in_one_file(True)
        self.addCleanup(self.in_one_file, False)


class OneFileTest(InOneFile):
    """Wrong bodies of a crate in one file."""

    def test_same_as_a_file_each(self) -> None:
        """The edits have the same names, texts, faults and hash as in files of their own, and the kit's own edits stay apart."""
        edits = {"next_is_two_more": NEXT_IS_TWO_MORE, "no_such_text": NO_SUCH_TEXT, "corners_are_four": CORNERS_ARE_FOUR}
        low = self.repository.crate("low")

        def state() -> Tuple[object, ...]:
            paths = files_of(low, FOLDERS)
            found = Sources(low.folder).edits(paths)
            return paths, [(it.name, it.pairs, it.fault, it.functions) for it in found], self.repository.hashes("low")

        self.repository.put_edits("low", {"kept_by_the_kit": SECOND_IS_ITSELF}, MUST_FAIL)
        self.repository.put_edits("low", edits)
        in_one = state()
        self.assertEqual(os.path.isdir(f"{low.folder}/{WRONG_BODIES}"), False)
        os.remove(f"{low.folder}/{ONE_FILE}")
        self.in_one_file(False)
        self.repository.put_edits("low", edits)
        self.assertEqual(state(), in_one)
        self.assertEqual(len(files_of(low, FOLDERS)), 4)

    def test_verdicts(self) -> None:
        """They are tried as the others are."""
        self.repository.put_edits("low", {"next_is_two_more": NEXT_IS_TWO_MORE, "second_is_itself": SECOND_IS_ITSELF})
        outcome, lines = self.tried("low")
        self.assertEqual((outcome.refused, outcome.failed), (1, 1), lines)
        self.assert_said("refused low/wrong-bodies/next_is_two_more.edit", lines)
        self.assert_said("NOT REFUSED low/wrong-bodies/second_is_itself.edit", lines)

    def test_faulty(self) -> None:
        """What stands before the first name, or under a name that is there before, isn't read over."""
        text = "edit: a\nfile: src/lib.rt\nold: x + 1\nnew: x + 2\n"
        for whole in (f"file: src/lib.rt\n{text}", f"{text}\n{text}"):
            self.repository.write(f"crates/low/{ONE_FILE}", whole)
            with self.assertRaises(SystemExit):
                files_of(self.repository.crate("low"), FOLDERS)
        self.repository.write(f"crates/low/{ONE_FILE}", text)
        self.repository.write(f"crates/low/{WRONG_BODIES}/a.edit", text)
        with self.assertRaises(SystemExit):
            files_of(self.repository.crate("low"), FOLDERS)


class RecordOfOneFileTest(InOneFile, RecordTest):
    """The record, over edits in one file."""


class GateOfOneFileTest(InOneFile, GateTest):
    """The choice of the gate, over edits in one file."""


def load_tests(loader: unittest.TestLoader, tests: unittest.TestSuite, _: Optional[str]) -> unittest.TestSuite:
    """These tests, and after them those of what a refusal rests on."""
    return unittest.TestSuite([tests, loader.loadTestsFromModule(test_citations)])


if __name__ == "__main__":
    unittest.main()
