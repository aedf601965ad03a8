"""A connection to a set service."""

from __future__ import annotations

import os
import selectors
import socket
import threading
import time
from contextlib import contextmanager
from types import TracebackType
from typing import Iterable, Iterator, List, Optional, Sequence, Type, Union

from .child import START_TIMEOUT, Child
from .claims import claim
from .commands import Command, Reply
from .errors import (
    Bad,
    BadReply,
    Closed,
    Full,
    Halted,
    LostConnection,
    NoConnection,
    OldFile,
    Stopping,
    TimedOut,
    Unfinished,
    Worn,
)

# How long a reply may take, in seconds, where nothing else is given. A command waits for two syncs of a disk, and a first one
# until a pass of the service is free: 30 seconds are far more than a working disk needs, and an end where a service has stopped.
REPLY_TIMEOUT = 30.0

# How long connecting may take. The service listens on its own machine: it takes no time, unless the queue of those that wait
# for a pass is full.
CONNECT_TIMEOUT = 10.0

# How long close() may wait, for another thread's call and for the service.
CLOSE_TIMEOUT = 1.0

# How many commands of a batch are under way at most: so many may be in doubt where the connection is lost. Further ones are sent
# where half of them were answered.
WINDOW = 512

# What waits for a connection. select() knows no descriptor above 1,023, and not each system has poll().
_Selector = getattr(selectors, "PollSelector", selectors.SelectSelector)

# No reply is longer.
MOST_REPLY = 64

_REFUSED = {Reply.FULL: Full, Reply.OLD_FILE: OldFile, Reply.WORN: Worn}


class Lazyset:
    """A connection to the service on a port, or on the Unix socket at a path, which stands in place of the port then.

    Threads may share it: their calls go one after the other. (A `Pool` has several under way at once.)

    `timeout` is how many seconds a reply may take, from the moment its command was sent or the reply before it came; `TimedOut`
    then. `connect_timeout` is how many seconds connecting may take; `NoConnection` then. None is no limit: then a call waits
    for as long as all passes of the service are taken.

    Whatever ends a call between its first byte sent and its last reply read (a lost connection, a timeout, Ctrl-C, an
    exception that a signal handler raises) closes the connection, so that no reply is ever taken for that of another command.
    From then on each call raises `Closed`, until `reconnect()`."""

    def __init__(
        self,
        port: Union[int, str],
        host: str = "127.0.0.1",
        timeout: Optional[float] = REPLY_TIMEOUT,
        connect_timeout: Optional[float] = CONNECT_TIMEOUT,
    ) -> None:
        self._address = port if isinstance(port, str) else (host, port)
        self._timeout = _limit(timeout)
        self._connect_timeout = _limit(connect_timeout)
        self._lock = threading.RLock()
        self._process = os.getpid()
        self._socket: Optional[socket.socket] = None
        # Whether each command that was sent has had its reply. It is so before and after each call, and never within one.
        self._is_in_step = False
        self._has_a_pass = False
        self._received = b""
        self.reconnect()

    @classmethod
    @contextmanager
    def open(
        cls,
        file: Union[str, "os.PathLike[str]"],
        slots: Optional[int] = None,
        program: str = "lazyset",
        timeout: Optional[float] = REPLY_TIMEOUT,
        start_timeout: Optional[float] = START_TIMEOUT,
    ) -> Iterator[Lazyset]:
        """The set in a file, for a `with` block: a child of this process serves it, and ends with it. No port, and no other user of the machine.

        `slots` makes the file, of format 4, where there is none. `program` is the path of lazyset, or its name. Opening may take `start_timeout`
        seconds. `NotServed`: there is no such file, another process has it, or what else the program says. A process that is forked off may
        `reconnect()`; the child goes on for as long as one of them lives, or until the block ends in this one."""
        with Child(file, slots, program, start_timeout) as child, cls(child.path, timeout=timeout) as keys:
            yield keys

    def __enter__(self) -> Lazyset:
        return self

    def __exit__(
        self,
        kind: Optional[Type[BaseException]],
        error: Optional[BaseException],
        trace: Optional[TracebackType],
    ) -> None:
        self.close()

    def add(self, number: int, room: int = 0) -> bool:
        """Makes the key a member, for good. True where it wasn't one."""
        return self._ask(Command.add(number, room))

    def remove(self, number: int, room: int = 0) -> bool:
        """Makes the key no member, for good. True where it was one."""
        return self._ask(Command.remove(number, room))

    def has(self, number: int, room: int = 0) -> bool:
        """Whether the key is a member."""
        return self._ask(Command.has(number, room))

    def claim(self, number: int, worker: int) -> bool:
        """Whether a key is given to this worker, 1 to 15: True for one worker at most, ever, also where connections and replies are lost.

        True: it is this worker's. False: it is another's. `InDoubt`: an earlier claim of this worker had no answer, and others claimed the
        key too. Each other error leaves the claim without an answer: make it again.

        Each worker has a number of its own, and makes one claim of a key at a time. The key itself is in room 0, and `worker` is the room
        of its intents. Nobody removes a key that was claimed, from either; both take a slot. docs/RECIPES.md, "Whose addition it was"."""
        return claim(self, number, worker)

    def batch(self, commands: Iterable[Command]) -> List[Reply]:
        """Carries out the commands in their order, with many under way at once, and gives the reply of each.

        Replies are read while lines are sent, so neither side waits for the other to read, however many commands there are. All
        commands are taken before the first one is sent, so what is no command (TypeError) leaves nothing done."""
        taken = list(commands)
        for command in taken:
            if not isinstance(command, Command):
                raise TypeError(f"a batch is of Command, not {command!r}")
        return self._exchange(taken)

    def close(self) -> None:
        """Ends the session, and waits until the service has ended it too, so that its pass is free.

        It never takes longer than two seconds: it doesn't wait for a session that never got a pass, ends a call under way
        in another thread (with `LostConnection` there), and gives up where the service doesn't answer."""
        self._leave_parent()
        if not self._lock.acquire(timeout=CLOSE_TIMEOUT):
            self._abort()
            return
        try:
            self._finish()
        finally:
            self._lock.release()

    def reconnect(self) -> None:
        """Connects again, to the same port or path; a connection that is still open is closed first."""
        self._leave_parent()
        with self._lock:
            self._finish()
            try:
                self._connect()
            except OSError as error:
                self._drop()
                raise NoConnection(f"no connection to {self._address}: {error}") from error
            self._received = b""
            self._has_a_pass = False
            self._is_in_step = True

    def _connect(self) -> None:
        if isinstance(self._address, str):
            self._socket = socket.socket(socket.AF_UNIX, socket.SOCK_STREAM)
            self._socket.settimeout(self._connect_timeout)
            self._socket.connect(self._address)
        else:
            self._socket = socket.create_connection(self._address, self._connect_timeout)
            self._socket.setsockopt(socket.IPPROTO_TCP, socket.TCP_NODELAY, 1)
        self._socket.setblocking(False)

    def is_usable(self) -> bool:
        """Whether the connection is open, as far as this side knows without asking."""
        self._leave_parent()
        with self._lock:
            if self._socket is None or not self._is_in_step:
                return False
            try:
                # Between calls there is nothing to read: an end is the service's, and bytes are no reply of ours.
                self._socket.settimeout(0)
                self._socket.recv(1, socket.MSG_PEEK)
                return False
            except (BlockingIOError, InterruptedError):
                return True
            except OSError:
                return False

    def _ask(self, command: Command) -> bool:
        reply = self._exchange([command])[0]
        if reply in _REFUSED:
            raise _REFUSED[reply](command)
        return reply is Reply.YES

    def _exchange(self, commands: Sequence[Command]) -> List[Reply]:
        """Sends the commands and reads their replies, as the only call on this connection."""
        self._leave_parent()
        with self._lock:
            connection = self._socket
            if connection is None or not self._is_in_step:
                # Within another call too, where a signal handler calls: that one loses its connection.
                self._drop()
                raise Closed("the connection is closed", (), commands[0] if commands else None)
            self._is_in_step = False
            try:
                replies = self._converse(connection, commands)
            except BaseException:
                self._drop()
                raise
            self._is_in_step = True
            return replies

    def _converse(self, connection: socket.socket, commands: Sequence[Command]) -> List[Reply]:
        replies: List[Reply] = []
        # How many commands were handed on to be sent, and what of their lines wasn't sent yet.
        asked, unsent = 0, b""
        latest = self._latest()
        try:
            while len(replies) < len(commands):
                if asked < len(commands) and asked - len(replies) <= WINDOW // 2:
                    more = commands[asked : len(replies) + WINDOW]
                    asked, unsent = asked + len(more), unsent + b"".join(command.line() for command in more)
                unsent = self._send_and_receive(connection, unsent, latest)
                while len(replies) < asked - unsent.count(b"\n") and b"\n" in self._received:
                    replies.append(self._reply())
                    latest = self._latest()
                self._expect_no_more(len(replies) == asked - unsent.count(b"\n"))
        except Unfinished as error:
            error.replies = replies
            error.command = commands[len(replies)] if len(replies) < len(commands) else None
            raise
        return replies

    def _send_and_receive(self, connection: socket.socket, unsent: bytes, latest: Optional[float]) -> bytes:
        """Receives a piece, and sends what can be sent until it comes. Gives what couldn't."""
        while True:
            try:
                if unsent:
                    unsent = unsent[connection.send(unsent) :]
            except (BlockingIOError, InterruptedError):
                pass
            except OSError:
                # The service reads no more, but what it answered may still come.
                unsent = b""
            try:
                piece = connection.recv(4096)
            except (BlockingIOError, InterruptedError):
                self._wait(connection, selectors.EVENT_READ | (selectors.EVENT_WRITE if unsent else 0), latest)
            except OSError as error:
                raise LostConnection(f"no reply: {error}") from error
            else:
                if not piece:
                    raise LostConnection("the connection ended")
                self._received += piece
                return unsent

    def _wait(self, connection: socket.socket, events: int, latest: Optional[float]) -> None:
        """Waits until the connection can be read or written, or the time is over."""
        left = None if latest is None else latest - time.monotonic()
        if left is not None and left <= 0:
            raise TimedOut(f"no reply within {self._timeout} seconds")
        try:
            with _Selector() as selector:
                selector.register(connection, events)
                selector.select(left)
        except (OSError, ValueError) as error:
            # A signal handler's call may have closed it.
            raise LostConnection(f"no reply: {error}") from error

    def _reply(self) -> Reply:
        """Takes the first line of what was received for a reply."""
        word, self._received = self._received.split(b"\n", 1)
        if word.startswith(b"bad ") and word[4:].isdigit():
            raise Bad(int(word[4:]))
        try:
            reply = Reply(word.decode("ascii"))
        except ValueError as error:
            raise BadReply(f"no reply of a set service: {word!r}") from error
        if reply is Reply.HALTED:
            raise Halted("the service's device failed")
        if reply is Reply.STOPPING:
            raise Stopping("the service is stopping, and nothing was done")
        self._has_a_pass = True
        return reply

    def _expect_no_more(self, are_all_answered: bool) -> None:
        """Whether what was received beside whole replies may be the beginning of one."""
        if self._received and are_all_answered:
            raise BadReply(f"more than was asked for: {self._received!r}")
        if len(self._received) > MOST_REPLY and b"\n" not in self._received:
            raise BadReply(f"no reply of a set service: {self._received!r}")

    def _latest(self) -> Optional[float]:
        """When the next reply has to be there."""
        return None if self._timeout is None else time.monotonic() + self._timeout

    def _finish(self) -> None:
        """Ends the session where each command has had its reply, and the connection."""
        connection, is_in_step = self._socket, self._is_in_step
        self._is_in_step = False
        try:
            if connection is not None and is_in_step:
                latest = time.monotonic() + CLOSE_TIMEOUT
                connection.settimeout(CLOSE_TIMEOUT)
                connection.sendall(b"quit\n")
                connection.settimeout(_until(latest))
                while self._has_a_pass and connection.recv(4096):
                    connection.settimeout(_until(latest))
        except OSError:
            pass
        finally:
            self._drop()

    def _drop(self) -> None:
        self._is_in_step = False
        connection = self._socket
        if connection is not None:
            connection.close()
            self._socket = None

    def _abort(self) -> None:
        """Ends the connection under another thread's call, which notices it."""
        connection = self._socket
        if connection is not None:
            try:
                connection.shutdown(socket.SHUT_RDWR)
            except OSError:
                pass

    def _leave_parent(self) -> None:
        """In a process that was forked off: the connection is the parent's. Only this process's copy is closed."""
        if self._process != os.getpid():
            self._lock = threading.RLock()
            self._drop()
            self._process = os.getpid()


def _limit(seconds: Optional[float]) -> Optional[float]:
    if seconds is not None and not seconds > 0:
        raise ValueError(f"a timeout is more than 0 seconds, or None, not {seconds}")
    return seconds


def _until(latest: Optional[float]) -> Optional[float]:
    """How many seconds are left."""
    return None if latest is None else max(latest - time.monotonic(), 1e-6)
