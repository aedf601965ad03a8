"""What is no command is never sent; what fails says how far it came."""

from __future__ import annotations

import socket
from typing import Any, Iterator, List, Tuple

import lazyset
from lazyset import Command, Lazyset, Reply

from .fake import AgainstAFake, answers, lines_of, one_is_member

# A number, a room, and what a client says of them.
NO_KEYS: List[Tuple[Any, Any, type]] = [
    (True, 0, TypeError),
    (1.0, 0, TypeError),
    ("1", 0, TypeError),
    (None, 0, TypeError),
    (1, True, TypeError),
    (1, 1.0, TypeError),
    (1, None, TypeError),
    (-1, 0, ValueError),
    (10**18, 0, ValueError),
    (1, 16, ValueError),
    (1, -1, ValueError),
]


class NotSent(AgainstAFake):
    def setUp(self) -> None:
        self.received: List[bytes] = []

    def counts(self, connection: socket.socket) -> None:
        while True:
            piece = connection.recv(4096)
            if not piece or piece == b"quit\n":
                return
            self.received.append(piece)
            connection.sendall(b"yes\n" * piece.count(b"\n"))

    def test_what_is_no_key(self) -> None:
        keys = self.connected(self.counts)
        for number, room, error in NO_KEYS:
            for call in (keys.add, keys.remove, keys.has):
                with self.assertRaises(error, msg=f"{number!r}, {room!r}"):
                    call(number, room)
            with self.assertRaises(error):
                keys.batch([Command.add(5), Command.add(number, room)])
        self.assertEqual(self.received, [])
        self.assertTrue(keys.add(10**18 - 1, room=15))
        self.assertEqual(self.received, [b"add 15:999999999999999999\n"])

    def test_what_is_no_batch(self) -> None:
        keys = self.connected(self.counts)
        no_batches: List[Any] = [[Command.add(1), "add 2"], [Command.add(1), None], [Command.add(1), 2], 5]
        for commands in no_batches:
            with self.assertRaises(TypeError):
                keys.batch(commands)
        no_verb: Any = "add"
        with self.assertRaises(TypeError):
            Command(no_verb, 1)
        self.assertEqual(self.received, [])
        self.assertTrue(keys.add(1))

    def test_a_batch_whose_commands_end_with_an_error(self) -> None:
        keys = self.connected(self.counts)

        def many() -> Iterator[Command]:
            for number in range(2000):
                yield Command.add(number)
            raise KeyError("no more")

        with self.assertRaises(KeyError):
            keys.batch(many())
        self.assertEqual(self.received, [])
        self.assertTrue(keys.add(1))


class Told(AgainstAFake):
    """Replies that a healthy program doesn't give, within a batch of five."""

    commands = [Command.add(number) for number in range(5)]

    def told(self, replies: bytes, timeout: float = 20) -> lazyset.Unfinished:
        """How a batch ends that is answered so; afterwards the connection is closed."""
        keys = self.connected(answers(replies), timeout)
        with self.assertRaises(lazyset.Unfinished) as caught:
            keys.batch(self.commands)
        with self.assertRaises(lazyset.Closed):
            keys.has(1)
        return caught.exception

    def test_each_error_carries_the_replies_and_its_command(self) -> None:
        rows: List[Tuple[bytes, type, List[Reply]]] = [
            (b"yes\nno\nhalted\n", lazyset.Halted, [Reply.YES, Reply.NO]),
            (b"yes\nstopping\nstopping\nstopping\nstopping\n", lazyset.Stopping, [Reply.YES]),
            (b"yes\nfull\nno", lazyset.LostConnection, [Reply.YES, Reply.FULL]),
            (b"", lazyset.LostConnection, []),
            (b"yes\nworn\noldfile\nbad 3\nyes\n", lazyset.Bad, [Reply.YES, Reply.WORN, Reply.OLD_FILE]),
            (b"no\nHTTP/1.1 400 Bad Request\r\n", lazyset.BadReply, [Reply.NO]),
            (b"no\n" + b"x" * 100, lazyset.BadReply, [Reply.NO]),
            (b"bad x\n", lazyset.BadReply, []),
            (b"\xff\n", lazyset.BadReply, []),
        ]
        for text, kind, replies in rows:
            error = self.told(text)
            self.assertIs(type(error), kind)
            self.assertEqual(error.replies, replies)
            self.assertEqual(error.command, self.commands[len(replies)])
            self.assertIn(f"add {len(replies)}", str(error))

    def test_bad_has_its_number(self) -> None:
        error = self.told(b"bad 3\n")
        assert isinstance(error, lazyset.Bad)
        self.assertEqual(error.number, 3)

    def test_more_replies_than_commands_are_no_replies(self) -> None:
        error = self.told(b"yes\n" * 6)
        self.assertIs(type(error), lazyset.BadReply)
        self.assertEqual((error.replies, error.command), ([Reply.YES] * 5, None))

    def test_a_timeout_carries_them_too(self) -> None:
        def stops(connection: socket.socket) -> None:
            connection.sendall(b"yes\nn")
            while connection.recv(4096):
                pass

        keys = self.connected(stops, timeout=0.1)
        with self.assertRaises(lazyset.TimedOut) as caught:
            keys.batch(self.commands)
        self.assertEqual((caught.exception.replies, caught.exception.command), ([Reply.YES], Command.add(1)))

    def test_worn_is_raised_and_leaves_the_connection(self) -> None:
        def is_worn(connection: socket.socket) -> None:
            while lines_of(connection) not in ([], [b"quit"]):
                connection.sendall(b"worn\n")

        keys = self.connected(is_worn)
        for _ in range(2):
            with self.assertRaises(lazyset.Worn) as caught:
                keys.add(1)
            self.assertEqual(caught.exception.command, Command.add(1))

    def test_closed_sends_nothing(self) -> None:
        server = self.fake(one_is_member)
        keys = Lazyset(server.port)
        keys.close()
        keys.close()
        with self.assertRaises(lazyset.Closed) as caught:
            keys.batch(self.commands)
        self.assertEqual((caught.exception.replies, caught.exception.command), ([], self.commands[0]))
        keys.reconnect()
        self.assertTrue(keys.has(1))
        keys.close()
