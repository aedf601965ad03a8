"""Many lines at once: how they are sent, and how their replies are read."""

from __future__ import annotations

import socket
import threading
import time
from unittest import mock

import lazyset
from lazyset import Command, Lazyset, Reply
from lazyset.connection import WINDOW

from .fake import AgainstAFake, Script

# More lines than the buffers of a connection hold, where they are small, and more replies.
MANY, SMALL = 60_000, 1 << 15


def obeys(connection: socket.socket) -> None:
    """Answers each piece before it reads the next one, as the service does: it waits where its replies aren't read."""
    while True:
        piece = connection.recv(4096)
        if not piece or b"quit" in piece:
            return
        connection.sendall(b"oldfile\n" * piece.count(b"\n"))


class Batches(AgainstAFake):
    def narrow(self, script: Script) -> Lazyset:
        """A connection with small buffers on both sides, which a script serves."""

        def play(connection: socket.socket) -> None:
            connection.setsockopt(socket.SOL_SOCKET, socket.SO_RCVBUF, SMALL)
            connection.setsockopt(socket.SOL_SOCKET, socket.SO_SNDBUF, SMALL)
            script(connection)

        keys = self.connected(play, timeout=2)
        assert keys._socket is not None
        keys._socket.setsockopt(socket.SOL_SOCKET, socket.SO_RCVBUF, SMALL)
        keys._socket.setsockopt(socket.SOL_SOCKET, socket.SO_SNDBUF, SMALL)
        return keys

    def test_more_lines_than_the_buffers_hold(self) -> None:
        """All are sent at once, and nobody waits for the other to read."""
        keys = self.narrow(obeys)
        with mock.patch("lazyset.connection.WINDOW", 2 * MANY):
            replies = keys.batch([Command.has(0)] * MANY)
        self.assertEqual(replies, [Reply.OLD_FILE] * MANY)
        with self.assertRaises(lazyset.OldFile):
            keys.has(1)

    def test_how_many_are_under_way(self) -> None:
        """Never more than WINDOW, and further ones are sent before the last of them is answered."""
        most = [0]
        refilled = threading.Event()

        def hears_all_first(connection: socket.socket) -> None:
            heard = answered = 0
            while heard < 3 * WINDOW:
                heard += connection.recv(1 << 20).count(b"\n")
                most[0] = max(most[0], heard - answered)
                if heard - answered == WINDOW:
                    connection.sendall(b"yes\n" * (WINDOW // 2))
                    answered += WINDOW // 2
                if heard > WINDOW:
                    refilled.set()
            connection.sendall(b"yes\n" * (heard - answered))
            connection.recv(16)

        self.assertEqual(self.connected(hears_all_first).batch([Command.has(1)] * (3 * WINDOW)), [Reply.YES] * (3 * WINDOW))
        self.assertTrue(refilled.is_set())
        self.assertEqual(most[0], WINDOW)

    def test_replies_that_come_in_pieces(self) -> None:
        def in_pieces(connection: socket.socket) -> None:
            connection.recv(4096)
            for piece in (b"y", b"es\nn", b"o\nfull", b"\n", b"yes\nno\n"):
                time.sleep(0.02)
                connection.sendall(piece)
            connection.recv(16)

        replies = self.connected(in_pieces).batch([Command.add(number) for number in range(5)])
        self.assertEqual(replies, [Reply.YES, Reply.NO, Reply.FULL, Reply.YES, Reply.NO])

    def test_slow_replies_are_in_time(self) -> None:
        """The limit of time is that of one reply, however many there are."""

        def slowly(connection: socket.socket) -> None:
            connection.recv(4096)
            for _ in range(8):
                time.sleep(0.1)
                connection.sendall(b"yes\n")
            connection.recv(16)

        keys = self.connected(slowly, timeout=0.4)
        self.assertEqual(keys.batch([Command.add(number) for number in range(8)]), [Reply.YES] * 8)

    def test_a_service_that_reads_no_further(self) -> None:
        """A batch that can't be sent whole is timed out, with the replies that came."""
        release = threading.Event()
        self.addCleanup(release.set)

        def stops_reading(connection: socket.socket) -> None:
            connection.recv(16)
            connection.sendall(b"no\n")
            release.wait(20)

        keys = self.narrow(stops_reading)
        with mock.patch("lazyset.connection.WINDOW", 2 * MANY), self.assertRaises(lazyset.TimedOut) as caught:
            keys.batch([Command.has(0)] * MANY)
        self.assertEqual((caught.exception.replies, caught.exception.command), ([Reply.NO], Command.has(0)))

    def test_what_was_answered_before_the_connection_was_cut(self) -> None:
        """The replies that had come are read, though the lines after them could not be sent."""

        def halts(connection: socket.socket) -> None:
            connection.recv(16)
            connection.sendall(b"yes\nhalted\n")

        keys = self.narrow(halts)
        with mock.patch("lazyset.connection.WINDOW", 2 * MANY), self.assertRaises(lazyset.Unfinished) as caught:
            keys.batch([Command.has(0)] * MANY)
        self.assertIs(type(caught.exception), lazyset.Halted)
        self.assertEqual(caught.exception.replies, [Reply.YES])

    def test_a_reply_before_its_line(self) -> None:
        """What comes before its line was sent is no reply."""

        def is_early(connection: socket.socket) -> None:
            connection.sendall(b"yes\n" * (WINDOW + 1))
            connection.recv(16)

        keys = self.connected(is_early)
        with self.assertRaises(lazyset.BadReply):
            keys.batch([Command.has(1)] * WINDOW)
        self.assertEqual(self.connected(obeys).batch([]), [])
