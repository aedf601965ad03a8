"""A pool of connections."""

from __future__ import annotations

import queue
from contextlib import contextmanager
from types import TracebackType
from typing import Iterable, Iterator, List, Optional, Type, Union

from .claims import claim
from .commands import Command, Reply
from .connection import CONNECT_TIMEOUT, REPLY_TIMEOUT, Lazyset
from .errors import Closed, NoConnection


class Pool:
    """Up to `size` connections to the service on a port, or at a path in its place, for any number of threads.

    A connection is made when it is first wanted, and made again when it was lost: the call that met the loss raises it, since
    what it asked for may have been done, and the next one finds a new connection. Nothing is asked twice by itself.

    Each open connection holds a pass of the service, so `size` is at most its PASSES, less what others need. Where all are in
    use a call waits for one, for `timeout` seconds at most, and then raises `NoConnection`. `timeout` and `connect_timeout` are
    also those of each connection. Make a pool in the process that uses it, after any fork."""

    def __init__(
        self,
        port: Union[int, str],
        size: int,
        host: str = "127.0.0.1",
        timeout: Optional[float] = REPLY_TIMEOUT,
        connect_timeout: Optional[float] = CONNECT_TIMEOUT,
    ) -> None:
        if size < 1:
            raise ValueError(f"a pool has at least 1 connection, not {size}")
        self._port = port
        self._host = host
        self._size = size
        self._timeout = timeout
        self._connect_timeout = connect_timeout
        self._is_closed = False
        # One for each connection that isn't in use; None stands for one that isn't made.
        self._idle: "queue.LifoQueue[Optional[Lazyset]]" = queue.LifoQueue()
        for _ in range(size):
            self._idle.put(None)

    def __enter__(self) -> Pool:
        return self

    def __exit__(
        self,
        kind: Optional[Type[BaseException]],
        error: Optional[BaseException],
        trace: Optional[TracebackType],
    ) -> None:
        self.close()

    @contextmanager
    def connection(self) -> Iterator[Lazyset]:
        """A connection for the calls of a `with` block alone."""
        try:
            held = self._idle.get(timeout=self._timeout)
        except queue.Empty:
            raise NoConnection(f"all {self._size} connections of the pool are in use") from None
        try:
            if self._is_closed:
                raise Closed("the pool is closed")
            held = self._usable(held)
            yield held
        finally:
            self._idle.put(held)
            if self._is_closed:
                self._close_idle()

    def add(self, number: int, room: int = 0) -> bool:
        """As `Lazyset.add`, on any connection."""
        with self.connection() as keys:
            return keys.add(number, room)

    def remove(self, number: int, room: int = 0) -> bool:
        """As `Lazyset.remove`, on any connection."""
        with self.connection() as keys:
            return keys.remove(number, room)

    def has(self, number: int, room: int = 0) -> bool:
        """As `Lazyset.has`, on any connection."""
        with self.connection() as keys:
            return keys.has(number, room)

    def claim(self, number: int, worker: int) -> bool:
        """As `Lazyset.claim`, on any connections."""
        return claim(self, number, worker)

    def batch(self, commands: Iterable[Command]) -> List[Reply]:
        """As `Lazyset.batch`, on any connection."""
        with self.connection() as keys:
            return keys.batch(commands)

    def close(self) -> None:
        """Closes the connections: those in use when they come back. Each later call raises `Closed`, as one that waits does."""
        self._is_closed = True
        self._close_idle()

    def _usable(self, held: Optional[Lazyset]) -> Lazyset:
        if held is None:
            return Lazyset(self._port, self._host, self._timeout, self._connect_timeout)
        if not held.is_usable():
            held.reconnect()
        return held

    def _close_idle(self) -> None:
        closed = 0
        try:
            while True:
                held = self._idle.get_nowait()
                closed += 1
                if held is not None:
                    held.close()
        except queue.Empty:
            pass
        for _ in range(closed):
            self._idle.put(None)
