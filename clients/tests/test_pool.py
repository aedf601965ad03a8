"""The pool: connections for many threads, which are made again when they were lost."""

from __future__ import annotations

import threading
import time
from typing import List

import lazyset
from lazyset import Command, Pool, Reply

from .fake import AgainstAFake, answers, one_is_member
from .service import AgainstTheProgram


class OverTheProgram(AgainstTheProgram):
    slots = 1000
    passes = 3

    def test_calls(self) -> None:
        with Pool(self.service.port, 2) as keys:
            self.assertTrue(keys.add(1, room=2))
            self.assertFalse(keys.has(1))
            self.assertTrue(keys.has(1, room=2))
            self.assertTrue(keys.remove(1, room=2))
            self.assertEqual(keys.batch([Command.add(5), Command.has(5)]), [Reply.YES, Reply.YES])
            with keys.connection() as one:
                self.assertTrue(one.has(5))

    def test_many_threads(self) -> None:
        threads_count, each = 8, 100
        right: List[int] = [0] * threads_count
        with Pool(self.service.port, 3) as keys:

            def call(index: int) -> None:
                for number in range(index * each, (index + 1) * each):
                    right[index] += keys.has(number) is False
                    right[index] += keys.add(number) is True
                    right[index] += keys.has(number) is True

            threads = [threading.Thread(target=call, args=(index,)) for index in range(threads_count)]
            for thread in threads:
                thread.start()
            for thread in threads:
                thread.join()
        self.assertEqual(right, [3 * each] * threads_count)

    def test_it_connects_again_after_a_kill(self) -> None:
        with Pool(self.service.port, 2) as keys:
            self.assertTrue(keys.add(1))
            port = self.service.port
            self.service.kill()
            with self.assertRaises(lazyset.NoConnection):
                keys.has(1)
            self.service.start(port)
            for _ in range(3):
                self.assertTrue(keys.has(1))


class OverAFake(AgainstAFake):
    def test_a_broken_connection_is_dropped(self) -> None:
        server = self.fake(answers(b"yes\nno"))
        with Pool(server.port, 1, timeout=20) as keys:
            for _ in range(3):
                with self.assertRaises(lazyset.LostConnection) as caught:
                    keys.batch([Command.add(1), Command.add(2)])
                self.assertEqual(caught.exception.replies, [Reply.YES])
        self.assertEqual(server.opened, 3)

    def test_an_exception_of_the_block_keeps_the_connection(self) -> None:
        server = self.fake(one_is_member)
        with Pool(server.port, 1, timeout=20) as keys:
            for _ in range(3):
                with self.assertRaises(KeyError), keys.connection() as one:
                    self.assertTrue(one.has(1))
                    raise KeyError
        self.assertEqual(server.opened, 1)

    def test_no_more_connections_than_its_size(self) -> None:
        server = self.fake(one_is_member)
        right: List[bool] = []
        with Pool(server.port, 2, timeout=20) as keys:

            def call(number: int) -> None:
                right.extend(keys.has(number) is (number == 1) for _ in range(50))

            threads = [threading.Thread(target=call, args=(number,)) for number in range(6)]
            for thread in threads:
                thread.start()
            for thread in threads:
                thread.join()
        self.assertEqual(right, [True] * 300)
        self.assertLessEqual(server.most_open, 2)

    def test_it_waits_for_a_free_one_no_longer_than_its_timeout(self) -> None:
        server = self.fake(one_is_member)
        with Pool(server.port, 1, timeout=0.2) as keys, keys.connection():
            began = time.monotonic()
            with self.assertRaises(lazyset.NoConnection):
                keys.has(1)
            self.assertLess(time.monotonic() - began, 5)

    def test_closed(self) -> None:
        server = self.fake(one_is_member)
        keys = Pool(server.port, 1, timeout=20)
        ended: List[type] = []

        def waits() -> None:
            try:
                keys.has(1)
            except lazyset.LazysetError as error:
                ended.append(type(error))

        with keys.connection() as one:
            thread = threading.Thread(target=waits)
            thread.start()
            keys.close()
            self.assertTrue(one.has(1))
        thread.join(10)
        self.assertEqual(ended, [lazyset.Closed])
        with self.assertRaises(lazyset.Closed):
            one.has(1)
        with self.assertRaises(lazyset.Closed):
            keys.has(1)

    def test_a_pool_of_none(self) -> None:
        with self.assertRaises(ValueError):
            Pool(1, 0)
