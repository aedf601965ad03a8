"""Servers that stand in for the service, and answer as a test wants it."""

from __future__ import annotations

import socket
import threading
import unittest
from typing import Callable, List

from lazyset import Lazyset

Script = Callable[[socket.socket], None]


class Fake:
    """A server whose connections each follow a script, in a thread of their own."""

    def __init__(self, script: Script) -> None:
        self.script = script
        self.listener = socket.create_server(("127.0.0.1", 0))
        self.port = int(self.listener.getsockname()[1])
        self.opened = 0
        self.open_now = 0
        self.most_open = 0
        self._lock = threading.Lock()
        threading.Thread(target=self._accept, daemon=True).start()

    def _accept(self) -> None:
        while True:
            try:
                connection, _ = self.listener.accept()
            except OSError:
                return
            with self._lock:
                self.opened += 1
                self.open_now += 1
                self.most_open = max(self.most_open, self.open_now)
            threading.Thread(target=self._play, args=(connection,), daemon=True).start()

    def _play(self, connection: socket.socket) -> None:
        try:
            with connection:
                self.script(connection)
        except OSError:
            pass
        with self._lock:
            self.open_now -= 1

    def end(self) -> None:
        # A thread that waits in `accept` is woken by the shutdown.
        self.listener.shutdown(socket.SHUT_RDWR)
        self.listener.close()


def answers(replies: bytes) -> Script:
    """Answers the first piece with these bytes, and ends."""

    def play(connection: socket.socket) -> None:
        connection.recv(4096)
        connection.sendall(replies)

    return play


def lines_of(connection: socket.socket) -> List[bytes]:
    """The lines of the next piece."""
    return connection.recv(1 << 16).splitlines()


def one_is_member(connection: socket.socket) -> None:
    """A set whose one member is 1, for whoever asks `has`."""
    while True:
        lines = lines_of(connection)
        if not lines or b"quit" in lines:
            return
        connection.sendall(b"".join(b"yes\n" if line == b"has 1" else b"no\n" for line in lines))


class AgainstAFake(unittest.TestCase):
    def fake(self, script: Script) -> Fake:
        server = Fake(script)
        self.addCleanup(server.end)
        return server

    def connected(self, script: Script, timeout: float = 20) -> Lazyset:
        keys = Lazyset(self.fake(script).port, timeout=timeout)
        self.addCleanup(keys.close)
        return keys
