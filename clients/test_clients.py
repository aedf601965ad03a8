#!/usr/bin/env python3
"""Tests of the clients, against the program itself and against servers that answer wrongly, late or not at all.

usage: test_clients.py [PROGRAM] [words for unittest, as -v or a test's name]

PROGRAM is $LAZYSET where it isn't given, or else crates/lazyset/out/lazyset. It needs Python 3.8 and its standard library
alone; what a test needs further (nc, bash, pip, mypy) and this machine hasn't is skipped. The last line but one is unittest's `Ran N tests`.
"""

from __future__ import annotations

import os
import sys
import unittest

sys.dont_write_bytecode = True
HERE = os.path.dirname(os.path.abspath(__file__))
sys.path[:0] = [HERE, os.path.join(HERE, "python"), os.path.join(HERE, "python", "examples")]


def load_tests(loader: unittest.TestLoader, _: object, __: object) -> unittest.TestSuite:
    return loader.discover(os.path.join(HERE, "tests"), top_level_dir=HERE)


if __name__ == "__main__":
    built = os.path.join(HERE, "..", "crates", "lazyset", "out", "lazyset")
    if len(sys.argv) > 1 and os.path.exists(sys.argv[1]):
        os.environ["LAZYSET"] = os.path.abspath(sys.argv.pop(1))
    os.environ.setdefault("LAZYSET", built)
    if not os.access(os.environ["LAZYSET"], os.X_OK):
        print(f"no program at {os.environ['LAZYSET']}: ./first-run builds it")
        sys.exit(2)
    unittest.main()
