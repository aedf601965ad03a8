"""Tests of tools/ways, over a copy of the sources in which a way is changed: python3 tools/test_ways.py"""

from __future__ import annotations

import glob
import os
import shutil
import subprocess
import sys
import tempfile
import unittest
from typing import Tuple

sys.dont_write_bytecode = True
TOP = os.path.dirname(os.path.dirname(os.path.abspath(__file__)))
READ = ["tools/ways", "docs/ARCHITECTURE.md"]


class Ways(unittest.TestCase):
    def setUp(self) -> None:
        folder = tempfile.TemporaryDirectory(prefix="lazyset-ways-")
        self.addCleanup(folder.cleanup)
        self.top = folder.name
        sources = glob.glob(os.path.join(TOP, "crates", "lz_*", "src", "**", "*.rt"), recursive=True)
        for file in READ + [os.path.relpath(source, TOP) for source in sources]:
            os.makedirs(os.path.dirname(os.path.join(self.top, file)), exist_ok=True)
            shutil.copy(os.path.join(TOP, file), os.path.join(self.top, file))

    def change(self, file: str, old: str, new: str) -> None:
        path = os.path.join(self.top, file)
        with open(path, encoding="utf-8") as source:
            text = source.read()
        self.assertIn(old, text)
        with open(path, "w", encoding="utf-8") as source:
            source.write(text.replace(old, new))

    def run_ways(self) -> Tuple[int, str]:
        words = [sys.executable, os.path.join(self.top, "tools", "ways")]
        ran = subprocess.run(words, stdout=subprocess.PIPE, stderr=subprocess.STDOUT, text=True, check=False)
        return ran.returncode, ran.stdout

    def assert_differs(self, difference: str, failed: int) -> None:
        status, said = self.run_ways()
        self.assertEqual(status, 1, said)
        self.assertIn(f"  differs: {difference}", said)
        self.assertTrue(said.endswith(f"\n{8 - failed} passed, {failed} failed\n"), said)

    def test_sources_as_they_are(self) -> None:
        status, said = self.run_ways()
        self.assertEqual(status, 0, said)
        self.assertTrue(said.endswith("\n8 passed, 0 failed\n"), said)

    def test_a_function_with_another_name(self) -> None:
        self.change("crates/lz_resp/src/reading.rt", "read_bulk(", "read_string(")
        self.assert_differs("frame 24, read_bulk (lz_resp/src/reading.rt), isn't there", 1)

    def test_a_call_of_another_function(self) -> None:
        self.change("crates/lz_yard/src/plays.rt", "$parts.play_write_key(", "$parts.play_link(")
        self.assert_differs("frame 8, Yard::step (lz_yard/src/yard.rt), doesn't call Parts::play_write_key (lz_yard/src/plays.rt)", 2)

    def test_a_function_of_another_type(self) -> None:
        self.change("crates/lz_serve/src/reader.rt", "impl FrameReader {", "impl PieceReader {")
        self.assert_differs("frame 12, FrameReader::feed (lz_serve/src/reader.rt), isn't there", 1)

    def test_another_stop_on_the_page(self) -> None:
        self.change("docs/ARCHITECTURE.md", "| 6 | `play_joined` |", "| 6 | `play_alone` |")
        self.assert_differs("stop 6 of the page is play_alone (lz_refinement/src/playing.rt), and not play_joined", 2)

    def test_a_table_with_a_row_less(self) -> None:
        self.change("docs/ARCHITECTURE.md", "| 9 | | `push_lines` |", "| | | `push_lines` |")
        self.assert_differs("the page has no such table, or its numbers don't go from 1", 1)


if __name__ == "__main__":
    unittest.main()
