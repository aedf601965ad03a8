"""The Python client's connection to a service that speaks Redis's protocol."""

from __future__ import annotations

import os
import socket
import threading
import time
from typing import List

import lazyset
from lazyset import Command, RespKeys
from lazyset.resp import PAGE

from .fake import AgainstAFake, answers
from .service import AgainstTheProgram

BY_REDIS = ("--connections", "10", "--resp")


class ByRedisProtocol(AgainstTheProgram):
    slots = 2
    options = BY_REDIS

    def test_a_set_of_keys(self) -> None:
        with RespKeys(self.service.port) as keys:
            self.assertFalse(keys.has(17))
            self.assertTrue(keys.add(17))
            self.assertFalse(keys.add(17))
            self.assertTrue(keys.has(17))
            self.assertFalse(keys.has(17, room=15))
            self.assertTrue(keys.remove(17))
            self.assertFalse(keys.remove(17))

    def test_full_changes_nothing_and_names_its_command(self) -> None:
        with RespKeys(self.service.port) as keys:
            self.assertTrue(keys.add(1) and keys.add(2))
            with self.assertRaises(lazyset.Full) as caught:
                keys.add(3, room=1)
            self.assertEqual(caught.exception.command, Command.add(3, room=1))
            self.assertFalse(keys.has(3, room=1))

    def test_a_path_in_place_of_a_port(self) -> None:
        path = os.path.join(self.service.folder, "s")
        self.service.kill()
        self.service.start_at(path)
        with RespKeys(path) as keys:
            self.assertTrue(keys.add(17))
        self.service.kill()
        with self.assertRaises(lazyset.NoConnection):
            RespKeys(path)
        self.service.start()

    def test_an_answer_lasts_over_a_kill(self) -> None:
        keys = RespKeys(self.service.port)
        self.addCleanup(keys.close)
        self.assertTrue(keys.add(17))
        self.service.kill()
        with self.assertRaises(lazyset.LostConnection) as caught:
            keys.has(17)
        self.assertEqual(caught.exception.command, Command.has(17))
        self.service.start(self.service.port)
        with self.assertRaises(lazyset.Closed):
            keys.has(17)
        keys.reconnect()
        self.assertTrue(keys.has(17))

    def test_what_is_no_key(self) -> None:
        with RespKeys(self.service.port) as keys:
            with self.assertRaises(ValueError):
                keys.add(-1)
            with self.assertRaises(ValueError):
                keys.remove_all([1] * (PAGE + 1))
            with self.assertRaises(ValueError):
                list(keys.pages(16))
            with self.assertRaises(ValueError):
                keys.clear(16)
            self.assertEqual(keys.remove_all([]), 0)
            self.assertFalse(keys.has(17))


class Rooms(AgainstTheProgram):
    slots = 5000
    options = BY_REDIS

    def test_the_members_of_a_room(self) -> None:
        with RespKeys(self.service.port) as keys:
            for number in range(600):
                keys.add(number, room=number % 2 * 7)
            pages = list(keys.pages(7))
            self.assertEqual(sorted(sum(pages, [])), list(range(1, 600, 2)))
            self.assertEqual([keys.remove_all(page, 7) for page in pages], [len(page) for page in pages])
            self.assertEqual(sum(keys.pages(7), []), [])
            self.assertEqual(len(sum(keys.pages(0), [])), 300)

    def test_a_room_that_is_cleared(self) -> None:
        with RespKeys(self.service.port, timeout=10) as keys, RespKeys(self.service.port) as others:
            for number in range(600):
                keys.add(number, room=number % 2 * 7)
            self.assertEqual(keys.clear(7), 300)
            self.assertEqual((sum(others.pages(7), []), len(sum(others.pages(0), []))), ([], 300))
            self.assertEqual((keys.clear(7), keys.clear(15)), (0, 0))
            self.assertTrue(keys.add(1, room=7))
            self.assertEqual(keys.clear(7, timeout=10), 1)
            self.assertEqual(keys.clear(0), 300)

    def test_eight_threads_share_one_connection(self) -> None:
        told: List[bool] = []
        with RespKeys(self.service.port) as keys:

            def add_all() -> None:
                told.extend([keys.add(number) for number in range(100)])

            threads = [threading.Thread(target=add_all) for _ in range(8)]
            for thread in threads:
                thread.start()
            for thread in threads:
                thread.join()
        self.assertEqual((told.count(True), told.count(False)), (100, 700))


class Answers(AgainstAFake):
    def raised(self, replies: bytes, timeout: float = 20) -> lazyset.LazysetError:
        """What a call raises that is answered so. The connection is closed after it."""
        keys = RespKeys(self.fake(answers(replies)).port, timeout=timeout)
        with self.assertRaises(lazyset.LazysetError) as caught:
            keys.has(1)
        with self.assertRaises(lazyset.Closed):
            keys.has(1)
        return caught.exception

    def test_what_is_no_reply(self) -> None:
        for replies in (b"yes\r\n", b":x\r\n", b":-1\r\n", b"+OK\r\n", b"*1\r\n:1\r\n", b"$-1\r\n", b"-ERR unknown command\r\n"):
            self.assertIs(type(self.raised(replies)), lazyset.BadReply, replies)

    def test_replies_that_are_cut_off(self) -> None:
        for replies in (b"", b":1", b":1\r", b"*2\r\n:1\r\n", b"$5\r\nhel"):
            self.assertIs(type(self.raised(replies)), lazyset.LostConnection, replies)

    def test_a_device_that_failed(self) -> None:
        error = self.raised(b"-HALTED the device failed\r\n")
        self.assertIs(type(error), lazyset.Halted)

    def test_a_service_that_stops(self) -> None:
        error = self.raised(b"-ERR stopping; nothing was done\r\n")
        assert isinstance(error, lazyset.Stopping)
        self.assertEqual((error.replies, error.command), ([], Command.has(1)))

    def test_clearings_that_are_refused_or_end_early(self) -> None:
        """The connection goes on: the next call is asked on it."""
        told = [b"-ERR a room is being cleared: try again after it\r\n", b"-ERR the room isn't cleared: 17 of its keys were removed\r\n", b":5\r\n"]

        def tells(connection: socket.socket) -> None:
            for reply in told:
                self.assertEqual(connection.recv(4096), b"*2\r\n$8\r\nLZ.CLEAR\r\n$1\r\n3\r\n")
                connection.sendall(reply)

        keys = RespKeys(self.fake(tells).port)
        with self.assertRaises(lazyset.BeingCleared) as busy:
            keys.clear(3)
        self.assertEqual(busy.exception.room, 3)
        with self.assertRaises(lazyset.NotCleared) as early:
            keys.clear(3)
        self.assertEqual((early.exception.room, early.exception.removed), (3, 17))
        self.assertEqual(keys.clear(3), 5)

    def test_clearings_that_have_no_count(self) -> None:
        rows = {
            **{b"-ERR unknown command 'LZ.CLEAR'\r\n": lazyset.BadReply, b"-ERR texts are not kept\r\n": lazyset.BadReply, b"$1\r\n5\r\n": lazyset.BadReply},
            **{b"-ERR stopping; nothing was done\r\n": lazyset.Stopping, b"-HALTED the device failed\r\n": lazyset.Halted, b"": lazyset.LostConnection},
        }
        for reply, kind in rows.items():
            keys = RespKeys(self.fake(answers(reply)).port)
            with self.assertRaises(lazyset.LazysetError) as caught:
                keys.clear(3)
            self.assertIs(type(caught.exception), kind, reply)
            with self.assertRaises(lazyset.Closed):
                keys.clear(3)

    def test_a_clearing_that_takes_longer(self) -> None:
        """It is awaited for longer than another reply, unless it has a limit of its own."""

        def is_slow(connection: socket.socket) -> None:
            for _ in range(2):
                connection.recv(4096)
                time.sleep(0.5)
                connection.sendall(b":7\r\n")

        keys = RespKeys(self.fake(is_slow).port, timeout=0.2)
        self.assertEqual(keys.clear(3), 7)
        with self.assertRaises(lazyset.TimedOut):
            keys.has(1)
        keys = RespKeys(self.fake(is_slow).port)
        with self.assertRaises(lazyset.TimedOut) as caught:
            keys.clear(3, timeout=0.2)
        self.assertIn("within 0.2 seconds", str(caught.exception))
        with self.assertRaises(lazyset.Closed):
            keys.has(1)

    def test_a_page_that_is_none(self) -> None:
        for replies in (b":1\r\n", b"*1\r\n:1\r\n", b"*2\r\n:1\r\n*0\r\n", b"*2\r\n$1\r\n0\r\n*1\r\n$1\r\nx\r\n"):
            with self.assertRaises(lazyset.BadReply):
                list(RespKeys(self.fake(answers(replies)).port).pages(0))

    def test_no_reply_in_time(self) -> None:
        release = threading.Event()
        self.addCleanup(release.set)

        def is_silent(connection: socket.socket) -> None:
            connection.recv(4096)
            release.wait(20)

        keys = RespKeys(self.fake(is_silent).port, timeout=0.2)
        with self.assertRaises(lazyset.TimedOut):
            keys.has(1)
        with self.assertRaises(lazyset.Closed):
            keys.has(1)
