"""No call waits for ever, unless it was told to."""

from __future__ import annotations

import inspect
import socket
import threading
import time
from typing import Callable, List

import lazyset
from lazyset import Lazyset

from .fake import AgainstAFake, one_is_member
from .service import AgainstTheProgram


def ends_within(seconds: float, call: Callable[[], object]) -> bool:
    """Whether a call ends within so many seconds; one that doesn't is left behind."""
    thread = threading.Thread(target=call, daemon=True)
    thread.start()
    thread.join(seconds)
    return not thread.is_alive()


class AllPassesTaken(AgainstTheProgram):
    passes = 1

    def test_close_does_not_wait_for_a_pass(self) -> None:
        with Lazyset(self.service.port) as first:
            self.assertTrue(first.add(1))
            waiting = Lazyset(self.service.port)
            self.assertTrue(ends_within(5, waiting.close))

    def test_a_call_does_not_wait_for_a_pass_longer_than_its_timeout(self) -> None:
        with Lazyset(self.service.port) as first:
            self.assertTrue(first.add(1))
            waiting = Lazyset(self.service.port, timeout=0.2)
            with self.assertRaises(lazyset.TimedOut):
                waiting.has(1)

    def test_close_frees_the_pass(self) -> None:
        for number in range(2):
            with Lazyset(self.service.port, timeout=10) as keys:
                self.assertTrue(keys.add(number))


class Close(AgainstAFake):
    def test_it_does_not_wait_for_a_service_that_goes_on(self) -> None:
        def never_ends(connection: socket.socket) -> None:
            while connection.recv(4096):
                connection.sendall(b"yes\n")

        keys = Lazyset(self.fake(never_ends).port)
        self.assertTrue(keys.has(1))
        self.assertTrue(ends_within(5, keys.close))

    def test_it_ends_the_call_of_another_thread(self) -> None:
        asked = threading.Event()
        ended: List[type] = []

        def is_silent(connection: socket.socket) -> None:
            connection.recv(4096)
            asked.set()
            connection.recv(4096)

        keys = Lazyset(self.fake(is_silent).port, timeout=None)

        def waits() -> None:
            try:
                keys.has(1)
            except lazyset.LostConnection as error:
                ended.append(type(error))

        thread = threading.Thread(target=waits, daemon=True)
        thread.start()
        self.assertTrue(asked.wait(10))
        self.assertTrue(ends_within(5, keys.close))
        thread.join(5)
        self.assertEqual(ended, [lazyset.LostConnection])


class Limits(AgainstAFake):
    def test_there_is_a_limit_where_none_is_given(self) -> None:
        words = inspect.signature(Lazyset).parameters
        self.assertEqual(words["timeout"].default, 30.0)
        self.assertEqual(words["connect_timeout"].default, 10.0)

    def test_what_is_no_limit(self) -> None:
        server = self.fake(one_is_member)
        for seconds in (0, -1, float("nan")):
            with self.assertRaises(ValueError):
                Lazyset(server.port, timeout=seconds)
            with self.assertRaises(ValueError):
                Lazyset(server.port, connect_timeout=seconds)

    def test_a_reply_that_trickles_is_timed_out(self) -> None:
        def trickles(connection: socket.socket) -> None:
            connection.recv(4096)
            for byte in b"oldfile\n":
                time.sleep(0.1)
                connection.sendall(bytes([byte]))

        keys = self.connected(trickles, timeout=0.3)
        with self.assertRaises(lazyset.TimedOut):
            keys.add(1)

    def test_a_full_queue_is_no_connection_in_time(self) -> None:
        with socket.create_server(("127.0.0.1", 0), backlog=0) as listener:
            port = listener.getsockname()[1]
            waiting: List[Lazyset] = []
            began = time.monotonic()
            with self.assertRaises(lazyset.NoConnection):
                for _ in range(10):
                    waiting.append(Lazyset(port, connect_timeout=0.2))
            self.assertLess(time.monotonic() - began, 5)
            for keys in waiting:
                keys.close()
