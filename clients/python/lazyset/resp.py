"""A connection to a service that speaks Redis's protocol (`serve --resp`)."""

from __future__ import annotations

import re
import socket
import threading
from types import TracebackType
from typing import IO, Any, Iterator, List, Optional, Sequence, Type, Union

from .commands import Command, Verb
from .connection import CONNECT_TIMEOUT, REPLY_TIMEOUT
from .errors import (
    BadReply,
    BeingCleared,
    Closed,
    Full,
    Halted,
    LostConnection,
    NoConnection,
    NotCleared,
    OldFile,
    Stopping,
    TimedOut,
    Unfinished,
    Worn,
)

# How many keys a page of a room has at most: a service gives no more.
PAGE = 256

_WORDS = {Verb.ADD: "SADD", Verb.REMOVE: "SREM", Verb.HAS: "SISMEMBER"}
_REFUSED = {"FULL": Full, "OLDFILE": OldFile, "WORN": Worn}

# The error of a service that ends and has begun nothing of what was asked.
_STOPPING = "ERR stopping"

# The errors of a clearing that wasn't begun, since another one is under way, and of one that ended early.
_BEING_CLEARED = "ERR a room is being cleared"
_NOT_CLEARED = re.compile(r"ERR the room isn't cleared: ([0-9]+) of its keys were removed")


class ErrorReply(str):
    """What a service answers in place of a reply."""


class RespKeys:
    """A connection to a service with `--resp`, on a port or on the Unix socket at a path.

    It asks for keys as a `Lazyset` does, one command after the other, and lists the members of a room besides, or removes them all. Threads may
    share it. Each client of Redis may be used in its place. Whatever ends a call before its reply was read closes the connection, and each later
    call raises `Closed`, until `reconnect()`."""

    def __init__(
        self,
        port: Union[int, str],
        host: str = "127.0.0.1",
        timeout: Optional[float] = REPLY_TIMEOUT,
        connect_timeout: Optional[float] = CONNECT_TIMEOUT,
    ) -> None:
        self._address = port if isinstance(port, str) else (host, port)
        self._timeout = timeout
        self._connect_timeout = connect_timeout
        self._lock = threading.Lock()
        self._socket: Optional[socket.socket] = None
        self._received: Optional[IO[bytes]] = None
        self.reconnect()

    def __enter__(self) -> RespKeys:
        return self

    def __exit__(
        self,
        kind: Optional[Type[BaseException]],
        error: Optional[BaseException],
        trace: Optional[TracebackType],
    ) -> None:
        self.close()

    def add(self, number: int, room: int = 0) -> bool:
        """As `Lazyset.add`."""
        return self._count(Command.add(number, room)) == 1

    def remove(self, number: int, room: int = 0) -> bool:
        """As `Lazyset.remove`."""
        return self._count(Command.remove(number, room)) == 1

    def has(self, number: int, room: int = 0) -> bool:
        """As `Lazyset.has`."""
        return self._count(Command.has(number, room)) == 1

    def remove_all(self, numbers: Sequence[int], room: int = 0) -> int:
        """Makes up to `PAGE` keys of a room no members, and gives how many were. Each of them is removed by itself."""
        commands = [Command.remove(number, room) for number in numbers]
        if len(commands) > PAGE:
            raise ValueError(f"{PAGE} keys at most, not {len(commands)}")
        return self._count(commands[0], *map(str, numbers[1:])) if commands else 0

    def pages(self, room: int) -> Iterator[List[int]]:
        """The members of a room, page by page: each that was one all the while, and none that never was. A page may be empty."""
        some_key = Command.has(0, room)
        cursor = "0"
        while True:
            reply = self._ask(some_key, "SSCAN", str(room), cursor, "COUNT", str(PAGE))
            try:
                next_cursor, members = reply
                cursor, page = next_cursor.decode("ascii"), [int(member) for member in members]
            except (AttributeError, TypeError, ValueError) as error:
                raise self._no_reply(reply) from error
            yield page
            if cursor == "0":
                return

    def clear(self, room: int, timeout: Optional[float] = None) -> int:
        """Removes all members of a room, and gives how many it removed: docs/PROTOCOL.md, "A clearing". The service is of release 1.19 or later.

        A large room takes its time, so the reply is awaited without a limit unless `timeout` sets one, in seconds. The room is cleared also where
        the connection is lost. `BeingCleared`: one is being cleared already. `NotCleared`: it ended early, and has removed so many."""
        some_key = Command.has(0, room)
        reply = self._exchange(some_key, ("LZ.CLEAR", str(room)), timeout)
        if isinstance(reply, ErrorReply):
            if reply.startswith(_BEING_CLEARED):
                raise BeingCleared(room)
            early = _NOT_CLEARED.match(reply)
            if early:
                raise NotCleared(room, int(early[1]))
        return self._number(self._unless_error(some_key, reply))

    def close(self) -> None:
        """Ends the connection."""
        with self._lock:
            self._drop()

    def reconnect(self) -> None:
        """Connects again, to the same port or path; a connection that is still open is closed first."""
        with self._lock:
            self._drop()
            try:
                self._connect()
            except OSError as error:
                self._drop()
                raise NoConnection(f"no connection to {self._address}: {error}") from error

    def _connect(self) -> None:
        if isinstance(self._address, str):
            self._socket = socket.socket(socket.AF_UNIX, socket.SOCK_STREAM)
            self._socket.settimeout(self._connect_timeout)
            self._socket.connect(self._address)
        else:
            self._socket = socket.create_connection(self._address, self._connect_timeout)
            self._socket.setsockopt(socket.IPPROTO_TCP, socket.TCP_NODELAY, 1)
        self._received = self._socket.makefile("rb")

    def _count(self, command: Command, *further: str) -> int:
        return self._number(self._ask(command, _WORDS[command.verb], str(command.room), str(command.number), *further))

    def _number(self, reply: object) -> int:
        if not isinstance(reply, int):
            raise self._no_reply(reply)
        return reply

    def _ask(self, command: Command, *words: str) -> Any:
        """The reply to these words, which ask for what a command asks."""
        return self._unless_error(command, self._exchange(command, words, self._timeout))

    def _unless_error(self, command: Command, reply: Any) -> Any:
        if isinstance(reply, ErrorReply):
            kind = reply.split(" ")[0]
            if kind in _REFUSED:
                raise _REFUSED[kind](command)
            self.close()
            if reply.startswith(_STOPPING):
                raise Stopping(reply, (), command)
            raise Halted(reply, (), command) if kind == "HALTED" else BadReply(reply, (), command)
        return reply

    def _exchange(self, command: Command, words: Sequence[str], timeout: Optional[float]) -> Any:
        """Sends the words and reads their reply, as the only call on this connection."""
        with self._lock:
            if self._socket is None or self._received is None:
                raise Closed("the connection is closed", (), command)
            try:
                self._socket.settimeout(timeout)
                self._socket.sendall(frame(words))
                return read_reply(self._received)
            except BaseException as error:
                self._drop()
                if isinstance(error, socket.timeout):
                    raise TimedOut(f"no reply within {timeout} seconds", (), command) from error
                if isinstance(error, OSError):
                    raise LostConnection(f"no reply: {error}", (), command) from error
                if isinstance(error, Unfinished):
                    error.command = command
                raise

    def _no_reply(self, reply: object) -> BadReply:
        self.close()
        return BadReply(f"no reply of a set service: {reply!r}")

    def _drop(self) -> None:
        if self._received is not None:
            self._received.close()
            self._received = None
        if self._socket is not None:
            self._socket.close()
            self._socket = None


def frame(words: Sequence[str]) -> bytes:
    """An array of these words."""
    texts = [word.encode("ascii") for word in words]
    return b"*%d\r\n" % len(texts) + b"".join(b"$%d\r\n%s\r\n" % (len(text), text) for text in texts)


def read_reply(received: IO[bytes]) -> Any:
    """A number, a text, an array of these, or what is answered in place of a reply."""
    line = received.readline()
    if not line.endswith(b"\r\n"):
        raise LostConnection("the connection ended")
    kind, rest = line[:1], line[1:-2]
    if kind == b"-":
        return ErrorReply(rest.decode("utf-8", "replace"))
    if kind not in (b":", b"$", b"*") or not rest.isdigit():
        raise BadReply(f"no reply of a set service: {line!r}")
    number = int(rest)
    if kind == b"*":
        return [read_reply(received) for _ in range(number)]
    if kind == b"$":
        text = received.read(number + 2)
        if len(text) < number + 2:
            raise LostConnection("the connection ended")
        return text[:-2]
    return number
