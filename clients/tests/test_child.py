"""The program as a child: `Lazyset.open`."""

from __future__ import annotations

import glob
import os
import shutil
import signal
import subprocess
import sys
import tempfile
import time
import unittest
from contextlib import AbstractContextManager
from typing import List, Optional
from unittest import mock

import lazyset
from lazyset import Command, Lazyset, NotServed, Reply

from .test_periods import PACKAGES

# How long the end of a process is waited for.
PATIENCE = 20.0

# A program that opens a file, adds a key, and another one at each Ctrl-C, and ends at a line.
PARENT = """
import signal
import sys
from lazyset import Lazyset

with Lazyset.open(sys.argv[1], program=sys.argv[2]) as keys:
    signal.signal(signal.SIGINT, lambda *_: print(keys.add(18), flush=True))
    print(keys.add(17), flush=True)
    sys.stdin.readline()
"""


def services_of(file: str) -> List[int]:
    """The processes that serve a file."""
    found = []
    for path in glob.glob("/proc/[0-9]*/cmdline"):
        try:
            with open(path, "rb") as words:
                if words.read().split(b"\0")[1:3] == [b"serve", os.fsencode(file)]:
                    found.append(int(path.split(os.sep)[2]))
        except OSError:
            pass
    return found


class Opened(unittest.TestCase):
    def setUp(self) -> None:
        self.folder = tempfile.mkdtemp(prefix="lazyset-child-")
        self.addCleanup(shutil.rmtree, self.folder)
        self.file = os.path.join(self.folder, "f")
        self.room = os.path.join(self.folder, "room")
        os.mkdir(self.room)
        for patched in (mock.patch.dict(os.environ, TMPDIR=self.room), mock.patch.object(tempfile, "tempdir", None)):
            patched.start()
            self.addCleanup(patched.stop)

    def tearDown(self) -> None:
        """Nothing is left, neither a process nor a temporary file."""
        self.assertEqual((services_of(self.file), os.listdir(self.room)), ([], []))

    def opened(self, slots: Optional[int] = 1000) -> "AbstractContextManager[Lazyset]":
        return Lazyset.open(self.file, slots, program=os.environ["LAZYSET"])

    def refused(self, **words: object) -> str:
        """What is said where the file can't be opened."""
        with self.assertRaises(NotServed) as caught:
            with Lazyset.open(self.file, **{"program": os.environ["LAZYSET"], **words}):  # type: ignore[arg-type]
                self.fail("it was opened")
        return str(caught.exception)

    def test_a_set_that_stays(self) -> None:
        with self.opened() as keys:
            self.assertTrue(keys.add(17))
            self.assertEqual(keys.batch([Command.add(number) for number in range(900)]).count(Reply.YES), 899)
            os.stat(os.path.join(self.room, *os.listdir(self.room), "socket"))
            self.assertEqual(os.stat(os.path.join(self.room, *os.listdir(self.room))).st_mode & 0o777, 0o700)
        with self.assertRaises(lazyset.Closed):
            keys.has(17)
        with self.opened(slots=None) as keys:
            self.assertFalse(keys.add(17))
            keys.reconnect()
            self.assertTrue(keys.has(899))

    def test_the_program_on_the_path(self) -> None:
        os.symlink(os.environ["LAZYSET"], os.path.join(self.folder, "lazyset"))
        with mock.patch.dict(os.environ, PATH=self.folder), Lazyset.open(self.file, 10) as keys:
            self.assertTrue(keys.add(17))

    def test_two_at_once(self) -> None:
        with self.opened() as keys:
            self.assertIn("another process has it open", self.refused())
            self.assertTrue(keys.add(17))

    def test_what_is_no_set(self) -> None:
        self.assertIn("No such file or directory", self.refused())
        self.assertIn("refused 2", self.refused(slots=0))
        self.assertFalse(os.path.exists(self.file))
        with open(self.file, "w", encoding="ascii") as file:
            file.write("text")
        self.assertIn("it isn't a set", self.refused(slots=10))
        self.assertIn("No such file or directory: 'nowhere'", self.refused(program="nowhere"))

    def test_a_child_that_is_not_ready_in_time(self) -> None:
        slow = os.path.join(self.folder, "slow")
        with open(slow, "w", encoding="ascii") as script:
            script.write("#!/bin/sh\nexec sleep 60\n")
        os.chmod(slow, 0o755)
        began = time.monotonic()
        self.assertIn("within 0.2 seconds", self.refused(program=slow, start_timeout=0.2))
        self.assertLess(time.monotonic() - began, PATIENCE)

    def test_an_error_of_the_block_is_raised(self) -> None:
        with self.assertRaises(ZeroDivisionError), self.opened():
            1 // 0

    def test_a_child_that_was_killed(self) -> None:
        with self.opened() as keys:
            self.assertTrue(keys.add(17))
            os.kill(services_of(self.file)[0], signal.SIGKILL)
            with self.assertRaises(lazyset.LostConnection):
                keys.has(17)
        with self.opened() as keys:
            self.assertTrue(keys.has(17))

    def test_a_child_that_ends_badly(self) -> None:
        with self.assertRaises(NotServed) as caught:
            with self.opened() as keys:
                os.remove(self.file)
                with self.assertRaises(lazyset.Halted):
                    keys.add(17)
        self.assertEqual(caught.exception.status, 1)
        self.assertIn("ended badly", str(caught.exception))

    def test_a_process_that_is_forked_off(self) -> None:
        with self.opened() as keys:
            self.assertTrue(keys.add(17))
            pid = os.fork()
            if pid == 0:
                try:
                    keys.reconnect()
                    is_known = keys.has(17)
                    keys.close()
                finally:
                    os._exit(0 if is_known else 1)
            self.assertEqual(os.waitpid(pid, 0)[1], 0)
            self.assertTrue(keys.has(17))


class Parents(unittest.TestCase):
    """What becomes of the child where its parent is ended from outside."""

    def setUp(self) -> None:
        self.folder = tempfile.mkdtemp(prefix="lazyset-child-")
        self.addCleanup(shutil.rmtree, self.folder)
        self.file = os.path.join(self.folder, "f")
        subprocess.run([os.environ["LAZYSET"], "make", self.file, "100"], check=True, stdout=subprocess.DEVNULL)

    def parent(self) -> "subprocess.Popen[str]":
        words = [sys.executable, "-B", "-c", PARENT, self.file, os.environ["LAZYSET"]]
        variables = {**os.environ, "PYTHONPATH": PACKAGES, "TMPDIR": self.folder}
        return subprocess.Popen(words, env=variables, stdin=subprocess.PIPE, stdout=subprocess.PIPE, text=True, start_new_session=True)

    def test_a_kill_of_the_parent_ends_the_child(self) -> None:
        with self.parent() as parent:
            assert parent.stdout is not None
            self.assertEqual(parent.stdout.readline(), "True\n")
            self.assertEqual(len(services_of(self.file)), 1)
            parent.kill()
        latest = time.monotonic() + PATIENCE
        while services_of(self.file) and time.monotonic() < latest:
            time.sleep(0.02)
        with Lazyset.open(self.file, program=os.environ["LAZYSET"]) as keys:
            self.assertTrue(keys.has(17))

    def test_an_interruption_is_the_parents(self) -> None:
        with self.parent() as parent:
            assert parent.stdout is not None
            self.assertEqual(parent.stdout.readline(), "True\n")
            os.killpg(parent.pid, signal.SIGINT)
            self.assertEqual(parent.stdout.readline(), "True\n")
            parent.communicate("\n", timeout=PATIENCE)
            self.assertEqual((parent.returncode, services_of(self.file)), (0, []))
