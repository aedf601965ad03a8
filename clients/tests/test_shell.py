"""The client for the shell: what it prints, what it says on standard error, and its status."""

from __future__ import annotations

import os
import shutil
import socket
import subprocess
import tempfile
import time
import unittest
from typing import Dict, List, NamedTuple

from .fake import AgainstAFake, answers
from .service import AgainstTheProgram

# What `ask` calls, beside what it connects by.
NEEDS = ("timeout", "sed", "tr", "wc", "grep", "cat")

ASK = os.path.join(os.path.dirname(os.path.dirname(os.path.abspath(__file__))), "shell", "ask")


class Said(NamedTuple):
    status: int
    replies: List[str]
    message: str


class Asking(unittest.TestCase):
    """What is asked by one of the tools that `ask` may connect by; the others aren't on the path."""

    tool = "nc"

    def setUp(self) -> None:
        super().setUp()
        needed = [self.tool, *NEEDS]
        missing = [name for name in needed if shutil.which(name) is None]
        if missing:
            self.skipTest(f"{' '.join(missing)} isn't installed")
        self.path = tempfile.mkdtemp(prefix="lazyset-ask-")
        self.addCleanup(shutil.rmtree, self.path)
        for name in needed:
            os.symlink(str(shutil.which(name)), os.path.join(self.path, name))

    def ask(self, *words: str) -> Said:
        variables: Dict[str, str] = {**os.environ, "PATH": self.path}
        ended = subprocess.run([ASK, *words], env=variables, stdout=subprocess.PIPE, stderr=subprocess.PIPE, text=True, timeout=20)
        return Said(ended.returncode, ended.stdout.splitlines(), ended.stderr)


def closed_port() -> str:
    with socket.create_server(("127.0.0.1", 0)) as listener:
        return str(listener.getsockname()[1])


class OverTheProgram(Asking, AgainstTheProgram):
    passes = 1

    def setUp(self) -> None:
        super().setUp()
        self.port = str(self.service.port)

    def test_lines_that_are_answered(self) -> None:
        said = self.ask(self.port, "add 17", "has 17", "add 17", "has 3:17")
        self.assertEqual(said, Said(0, ["yes", "yes", "no", "no"], ""))
        self.assertEqual(self.ask(self.port, "has 17", "quit", "has 17"), Said(0, ["yes"], ""))

    def test_a_line_that_is_no_command(self) -> None:
        said = self.ask(self.port, "has 17", "add", "has x")
        self.assertEqual((said.status, said.replies), (4, ["no", "bad 2", "bad 3"]))
        self.assertIn("line 2", said.message)
        self.assertIn("bad 2", said.message)

    def test_a_full_file(self) -> None:
        said = self.ask(self.port, "add 1", "add 2", "add 3")
        self.assertEqual((said.status, said.replies), (1, ["yes", "yes", "full"]))
        self.assertIn("line 3", said.message)

    def test_all_passes_are_taken(self) -> None:
        with socket.create_connection(("127.0.0.1", self.service.port)) as taken:
            taken.sendall(b"has 1\n")
            taken.recv(99)
            began = time.monotonic()
            said = self.ask("-t", "1", self.port, "has 1")
            self.assertEqual((said.status, said.replies), (5, []))
            self.assertIn("0 of 1 replies", said.message)
            self.assertLess(time.monotonic() - began, 10)

    def test_a_service_that_was_killed(self) -> None:
        self.service.kill()
        said = self.ask(self.port, "has 1")
        self.assertEqual((said.status, said.replies), (3, []))
        self.assertIn(self.port, said.message)
        self.service.start()


class OverRedisProtocol(Asking, AgainstTheProgram):
    """A service with `--resp`, which is asked by its commands."""

    options = ("--connections", "4", "--resp")

    def setUp(self) -> None:
        super().setUp()
        self.port = str(self.service.port)

    def test_commands_that_are_answered(self) -> None:
        self.assertEqual(self.ask(self.port, "SADD 0 17", "SISMEMBER 0 17", "SET 17 1 NX"), Said(0, [":1", ":1", "$-1"], ""))
        self.assertEqual(self.ask(self.port, "PING", "", "QUIT", "PING"), Said(0, ["+PONG"], ""))

    def test_replies_of_several_lines(self) -> None:
        said = self.ask(self.port, "SMISMEMBER 0 1 2", "INFO", "HELLO", "SSCAN 0 0", "EXISTS 0")
        self.assertEqual((said.status, said.message), (0, ""))
        self.assertEqual((said.replies[:3], said.replies[-1]), (["*2", ":0", ":0"], ":0"))

    def test_a_line_of_the_other_protocol(self) -> None:
        said = self.ask(self.port, "EXISTS 0", "has 17")
        self.assertEqual((said.status, said.replies[0], len(said.replies)), (4, ":0", 2))
        self.assertIn("line 2", said.message)
        self.assertIn("SISMEMBER", said.message)

    def test_what_is_no_command(self) -> None:
        for line in ("GET 17", "SADD 0 x", "SADD 0 'x"):
            said = self.ask(self.port, line, "PING")
            self.assertEqual(said.status, 4, line)
            self.assertIn("line 1 is no command: ERR", said.message)

    def test_a_full_file(self) -> None:
        said = self.ask(self.port, "SADD 0 1 2 3", "EXISTS 1")
        self.assertEqual((said.status, said.replies[1]), (1, ":1"))
        self.assertIn("line 1 was answered FULL", said.message)


class OverAFake(Asking, AgainstAFake):
    def test_replies_that_are_cut_off(self) -> None:
        for script in (answers(b"yes\nn"), answers(b"yes\n")):
            said = self.ask(str(self.fake(script).port), "has 1", "has 2", "has 3")
            self.assertEqual((said.status, said.replies), (6, ["yes"]))
            self.assertIn("after 1 of 3 replies", said.message)

    def test_a_device_that_failed(self) -> None:
        said = self.ask(str(self.fake(answers(b"yes\nhalted\n")).port), "has 1", "has 2", "has 3")
        self.assertEqual((said.status, said.replies), (1, ["yes", "halted"]))
        self.assertIn("line 2", said.message)

    def test_a_service_that_stops(self) -> None:
        said = self.ask(str(self.fake(answers(b"yes\nstopping\nstopping\n")).port), "has 1", "has 2", "has 3")
        self.assertEqual((said.status, said.replies), (1, ["yes", "stopping", "stopping"]))
        self.assertIn("line 2 was answered stopping", said.message)
        said = self.ask(str(self.fake(answers(b":1\r\n-ERR stopping; nothing was done\r\n+OK\r\n")).port), "EXISTS 1", "EXISTS 2")
        self.assertEqual(said.status, 1)
        self.assertIn("line 2 was answered ERR stopping", said.message)

    def test_the_same_by_redis_protocol(self) -> None:
        for replies in (b":1\r\n", b":1\r\n$5\r\nhel", b":1\r\n*2\r\n:1\r\n"):
            said = self.ask(str(self.fake(answers(replies)).port), "EXISTS 1", "EXISTS 2")
            self.assertEqual((said.status, said.replies[0]), (6, ":1"), replies)
            self.assertIn("after 1 of 2 replies", said.message)
        said = self.ask(str(self.fake(answers(b"-FULL no slot is free; 0 of 1 were added\r\n-HALTED the device failed\r\n")).port), *["SADD 0 1"] * 3)
        self.assertEqual(said.status, 1)
        self.assertIn("line 2 was answered HALTED", said.message)

    def test_another_service(self) -> None:
        said = self.ask(str(self.fake(answers(b"SSH-2.0\r\n")).port), "has 1")
        self.assertEqual(said.status, 4)
        self.assertIn("no reply of a set service", said.message)

    def test_the_command_line(self) -> None:
        for words in ((), ("7000",), ("-t",), ("-t", "x", "7000", "has 1"), ("-t", "1"), ("-t", "1", "7000")):
            said = self.ask(*words)
            self.assertEqual((said.status, said.replies), (2, []), words)
            self.assertTrue(said.message, words)

    def test_a_closed_port(self) -> None:
        said = self.ask(closed_port(), "has 1")
        self.assertEqual((said.status, said.replies), (3, []))
        self.assertTrue(said.message)

    def test_no_tool_to_connect_by(self) -> None:
        os.remove(os.path.join(self.path, self.tool))
        said = self.ask("7000", "has 1")
        self.assertEqual((said.status, said.replies), (2, []))
        self.assertIn("bash", said.message)


class ByBash(OverTheProgram):
    tool = "bash"


class ByBashOverRedisProtocol(OverRedisProtocol):
    tool = "bash"


class ByBashOverAFake(OverAFake):
    tool = "bash"
