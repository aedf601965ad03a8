"""The Python client's calls against the program."""

from __future__ import annotations

import os
import signal
import threading
from typing import List

import lazyset
from lazyset import Command, Lazyset, Reply

from .service import AgainstTheProgram


class Small(AgainstTheProgram):
    def test_a_set_of_keys(self) -> None:
        with Lazyset(self.service.port) as keys:
            self.assertFalse(keys.has(17))
            self.assertTrue(keys.add(17))
            self.assertFalse(keys.add(17))
            self.assertTrue(keys.has(17))
            self.assertTrue(keys.remove(17))
            self.assertFalse(keys.remove(17))
            self.assertFalse(keys.has(17))

    def test_a_path_in_place_of_a_port(self) -> None:
        path = os.path.join(self.service.folder, "s")
        self.service.kill()
        self.service.start_at(path)
        with Lazyset(path) as keys:
            self.assertTrue(keys.add(17))
            keys.reconnect()
            self.assertFalse(keys.add(17))
        with lazyset.Pool(path, 2) as pool:
            self.assertTrue(pool.has(17))
            self.assertTrue(pool.remove(17))
        self.service.kill()
        with self.assertRaises(lazyset.NoConnection):
            Lazyset(path)
        self.service.start()

    def test_rooms_are_apart(self) -> None:
        with Lazyset(self.service.port) as keys:
            self.assertTrue(keys.add(lazyset.MOST_NUMBER, room=15))
            self.assertFalse(keys.has(lazyset.MOST_NUMBER))
            self.assertTrue(keys.has(lazyset.MOST_NUMBER, room=15))

    def test_full_changes_nothing_and_names_its_command(self) -> None:
        with Lazyset(self.service.port) as keys:
            self.assertTrue(keys.add(1))
            self.assertTrue(keys.add(2))
            with self.assertRaises(lazyset.Full) as caught:
                keys.add(3, room=1)
            self.assertEqual(caught.exception.command, Command.add(3, room=1))
            self.assertFalse(keys.has(3, room=1))
            self.assertFalse(keys.add(2))
            replies = keys.batch([Command.add(3), Command.remove(1), Command.add(3)])
            self.assertEqual(replies, [Reply.FULL, Reply.YES, Reply.YES])

    def test_an_answer_lasts_over_a_kill(self) -> None:
        keys = Lazyset(self.service.port)
        self.addCleanup(keys.close)
        self.assertTrue(keys.add(17))
        self.service.kill()
        with self.assertRaises(lazyset.LostConnection):
            keys.has(17)
        with self.assertRaises(lazyset.LostConnection):
            keys.has(17)
        self.service.start(self.service.port)
        with self.assertRaises(lazyset.Closed):
            keys.has(17)
        keys.reconnect()
        self.assertFalse(keys.add(17))
        self.assertTrue(keys.has(17))

    def test_a_stopped_service_is_timed_out(self) -> None:
        with Lazyset(self.service.port) as first, Lazyset(self.service.port, timeout=0.2) as keys:
            self.assertTrue(first.add(17))
            self.service.process.send_signal(signal.SIGSTOP)
            # All its threads have stopped when the system says so.
            os.waitpid(self.service.process.pid, os.WUNTRACED)
            with self.assertRaises(lazyset.TimedOut) as caught:
                keys.has(17)
            self.assertEqual(caught.exception.command, Command.has(17))
            self.service.process.send_signal(signal.SIGCONT)

    def test_no_service_is_no_connection(self) -> None:
        self.service.kill()
        with self.assertRaises(lazyset.NoConnection):
            Lazyset(self.service.port)
        self.service.start()


class Large(AgainstTheProgram):
    slots = 20000

    def test_a_batch_is_answered_in_its_order(self) -> None:
        count = 3000
        commands: List[Command] = []
        for number in range(count):
            commands += [Command.add(number), Command.has(number), Command.remove(number)]
        with Lazyset(self.service.port) as keys:
            self.assertEqual(keys.batch(commands), [Reply.YES] * (3 * count))
            self.assertEqual(keys.batch([Command.has(1), Command.add(1)]), [Reply.NO, Reply.YES])
            self.assertEqual(keys.batch([]), [])

    def test_eight_connections_share_one_set(self) -> None:
        told: List[int] = [0] * 8

        def add_all(index: int) -> None:
            with Lazyset(self.service.port) as keys:
                replies = keys.batch(Command.add(number) for number in range(500))
                told[index] = replies.count(Reply.YES)

        threads = [threading.Thread(target=add_all, args=(index,)) for index in range(8)]
        for thread in threads:
            thread.start()
        for thread in threads:
            thread.join()
        self.assertEqual(sum(told), 500)

    def test_two_threads_share_one_connection(self) -> None:
        lookups = 3000
        right: List[int] = [0, 0]
        with Lazyset(self.service.port) as keys:
            self.assertTrue(keys.add(1))

            def look_up(number: int, is_member: bool) -> None:
                right[number] = sum(keys.has(number) is is_member for _ in range(lookups))

            threads = [threading.Thread(target=look_up, args=words) for words in ((0, False), (1, True))]
            for thread in threads:
                thread.start()
            for thread in threads:
                thread.join()
        self.assertEqual(right, [lookups, lookups])


class Old(AgainstTheProgram):
    file_format = 1

    def test_an_old_file_knows_room_0(self) -> None:
        with Lazyset(self.service.port) as keys:
            with self.assertRaises(lazyset.OldFile) as caught:
                keys.add(17, room=3)
            self.assertEqual(caught.exception.command, Command.add(17, room=3))
            self.assertFalse(keys.has(17, room=3))
            self.assertTrue(keys.add(17))
            replies = keys.batch([Command.add(5, 1), Command.has(17)])
            self.assertEqual(replies, [Reply.OLD_FILE, Reply.YES])
