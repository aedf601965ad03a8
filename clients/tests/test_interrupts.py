"""Calls that are cut off by an exception of the caller's own: no later call is ever answered wrongly."""

from __future__ import annotations

import os
import signal
import socket
import sys
import threading
from types import FrameType
from typing import Any, Callable, List, Optional

import lazyset
from lazyset import Command, Lazyset, Reply

from .fake import AgainstAFake, Fake, lines_of, one_is_member

PACKAGE = os.path.dirname(os.path.abspath(lazyset.__file__))
SOON = 0.02


class Deadline(Exception):
    """What a caller's signal handler may raise."""


def interrupt_at(line: int) -> Any:
    """A trace function that raises at so many lines of the client."""
    seen = 0

    def trace(frame: FrameType, event: str, _: object) -> Any:
        nonlocal seen
        if not frame.f_code.co_filename.startswith(PACKAGE):
            return None
        if event == "line":
            seen += 1
            if seen == line:
                raise Deadline
        return trace

    return trace


def main_thread() -> int:
    ident = threading.main_thread().ident
    assert ident is not None
    return ident


def has_until(keys: Lazyset, line: int) -> Optional[bool]:
    """The answer of `has(1)`, or None where it was cut off at the line, or by its timeout."""
    sys.settrace(interrupt_at(line))
    try:
        return keys.has(1)
    except (Deadline, lazyset.TimedOut):
        return None
    finally:
        sys.settrace(None)


class Late(AgainstAFake):
    """A server that answers the first line of a connection late, when it is told to. Where a test handles signals, the server
    signals when it has that line, until it was handled: the client is between its sending and its receiving then."""

    def setUp(self) -> None:
        self.release = threading.Event()
        self.addCleanup(self.release.set)
        self.handled = threading.Event()
        self.handled.set()

    def late(self, connection: socket.socket) -> None:
        lines = lines_of(connection)
        while not self.handled.wait(SOON):
            signal.pthread_kill(main_thread(), signal.SIGALRM)
        self.release.wait(20)
        connection.sendall(b"".join(b"yes\n" if line == b"has 1" else b"no\n" for line in lines))
        one_is_member(connection)

    def handle(self, act: Callable[[], None]) -> None:
        """Has the next signal call this, and all further ones nothing."""

        def handler(*_: object) -> None:
            if not self.handled.is_set():
                self.handled.set()
                act()

        self.handled.clear()
        signal.signal(signal.SIGALRM, handler)
        self.addCleanup(signal.signal, signal.SIGALRM, signal.SIG_IGN)

    def test_each_exception_closes_the_connection(self) -> None:
        for kind in (Deadline, KeyboardInterrupt, MemoryError, SystemExit, GeneratorExit):
            self.release.clear()
            keys = self.connected(self.late)

            def raises() -> None:
                raise kind

            self.handle(raises)
            with self.assertRaises(kind):
                keys.has(1)
            self.release.set()
            for _ in range(2):
                with self.assertRaises(lazyset.LostConnection) as caught:
                    self.fail(f"2 isn't a member, and has(2) was answered {keys.has(2)}")
                self.assertIsInstance(caught.exception, lazyset.Closed)
            keys.reconnect()
            self.assertFalse(keys.has(2))
            self.assertTrue(keys.has(1))

    def test_a_call_within_a_call_is_refused(self) -> None:
        keys = self.connected(self.late)
        within: List[object] = []

        def calls() -> None:
            try:
                within.append(keys.has(2))
            except lazyset.Closed as error:
                within.append(error.command)
            self.release.set()

        self.handle(calls)
        with self.assertRaises(lazyset.LostConnection):
            keys.has(1)
        self.assertEqual(within, [Command.has(2)])

    def test_an_interrupted_timeout_is_no_answer_either(self) -> None:
        """The call times out, and its clearing up is cut off at each of its lines in turn."""
        line = cut = 0
        while True:
            line += 1
            self.release.clear()
            keys = Lazyset(self.fake(self.late).port, timeout=SOON)
            sys.settrace(interrupt_at(line))
            try:
                keys.has(1)
            except lazyset.TimedOut:
                break
            except Deadline:
                cut += 1
            finally:
                sys.settrace(None)
                self.release.set()
            try:
                self.assertFalse(keys.has(2), f"cut off at line {line}")
            except lazyset.LostConnection:
                pass
            keys.close()
        keys.close()
        self.assertGreater(cut, 20)


class AtEachLine(AgainstAFake):
    def test_has(self) -> None:
        line, cut = 0, 0
        server: Fake = self.fake(one_is_member)
        while True:
            line += 1
            keys = Lazyset(server.port, timeout=20)
            answer = has_until(keys, line)
            for number, is_member in ((2, False), (1, True), (3, False)):
                try:
                    self.assertEqual(keys.has(number), is_member, f"cut off at line {line}")
                except lazyset.Closed:
                    keys.reconnect()
            keys.close()
            if answer is not None:
                break
            cut += 1
        self.assertTrue(answer)
        self.assertGreater(cut, 20)

    def test_batch(self) -> None:
        server: Fake = self.fake(one_is_member)
        commands = [Command.has(1), Command.has(1), Command.has(2)]
        for line in range(1, 120, 3):
            keys = Lazyset(server.port, timeout=20)
            sys.settrace(interrupt_at(line))
            try:
                keys.batch(commands)
            except Deadline:
                pass
            finally:
                sys.settrace(None)
            try:
                self.assertEqual(keys.batch([Command.has(2), Command.has(1)]), [Reply.NO, Reply.YES], f"line {line}")
            except lazyset.Closed:
                pass
            keys.close()


class Forked(AgainstAFake):
    def test_a_child_has_no_connection_and_the_parent_keeps_its_own(self) -> None:
        keys = self.connected(one_is_member)
        self.assertTrue(keys.has(1))
        child = os.fork()
        if child == 0:
            status = 1
            try:
                keys.has(2)
            except lazyset.Closed:
                keys.close()
                status = 0
            finally:
                os._exit(status)
        self.assertEqual(os.waitpid(child, 0)[1], 0)
        self.assertTrue(keys.has(1))
        self.assertFalse(keys.has(2))
