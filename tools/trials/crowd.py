"""Many connections to one service, which one thread holds open."""

from __future__ import annotations

import resource
import selectors
import socket
import time
from typing import List, Optional, Sequence

from trials.report import Skip, Wrong, expect

# How long all connections of a crowd may take for one exchange.
PATIENCE = 20.0

# Descriptors that a process needs beside its connections.
SPARE = 64


def needs_descriptors(count: int) -> None:
    """Lets this process, and those that it starts, have so many connections, or skips the trial."""
    soft, hard = resource.getrlimit(resource.RLIMIT_NOFILE)
    wanted = count + SPARE
    if hard != resource.RLIM_INFINITY and hard < wanted:
        raise Skip(f"no more than {hard} descriptors may be had here")
    if soft != resource.RLIM_INFINITY and soft < wanted:
        resource.setrlimit(resource.RLIMIT_NOFILE, (wanted, hard))


class Talk:
    """What is sent on one connection, and what has come, up to so many lines, or to its end, which may be a reset."""

    def __init__(self, connection: socket.socket, text: bytes, lines: Optional[int], may_be_reset: bool = False) -> None:
        self.connection = connection
        self._may_be_reset = may_be_reset
        self.received = bytearray()
        self._rest = memoryview(text)
        self._lines = lines
        self._is_ended = False

    def events(self) -> int:
        """What it waits for; nothing once it is done."""
        if self._is_ended or (self._lines is not None and not self._rest and self.received.count(b"\n") >= self._lines):
            return 0
        return selectors.EVENT_READ | (selectors.EVENT_WRITE if self._rest else 0)

    def go_on(self, events: int) -> None:
        if events & selectors.EVENT_WRITE:
            self._rest = self._rest[self.connection.send(self._rest) :]
        if events & selectors.EVENT_READ:
            piece = self._piece()
            self.received += piece
            self._is_ended = not piece

    def _piece(self) -> bytes:
        try:
            return self.connection.recv(65536)
        except ConnectionResetError:
            if self._may_be_reset:
                return b""
            raise


class Crowd:
    """Connections that are open at once."""

    def __init__(self, port: int, count: int) -> None:
        self.connections: List[socket.socket] = []
        try:
            for _ in range(count):
                self.connections.append(socket.create_connection(("127.0.0.1", port), PATIENCE))
        except OSError:
            self.close()
            raise
        for connection in self.connections:
            connection.setsockopt(socket.IPPROTO_TCP, socket.TCP_NODELAY, 1)
            connection.setblocking(False)

    def __enter__(self) -> Crowd:
        return self

    def __exit__(self, *_: object) -> None:
        self.close()

    def __len__(self) -> int:
        return len(self.connections)

    def close(self) -> None:
        for connection in self.connections:
            connection.close()

    def send(self, texts: Sequence[bytes]) -> None:
        """Sends a short text on each."""
        for connection, text in zip(self.connections, texts):
            connection.sendall(text)

    def shut(self) -> None:
        """Tells the service that nothing more is sent."""
        for connection in self.connections:
            connection.shutdown(socket.SHUT_WR)

    def exchange(self, texts: Sequence[bytes], lines: Optional[int] = None) -> List[bytes]:
        """Sends a text on each, and gives what came: so many lines, or as many as the text has."""
        return self._talk([Talk(it, text, lines or text.count(b"\n")) for it, text in zip(self.connections, texts)])

    def last(self, texts: Sequence[bytes] = (), may_be_reset: bool = False) -> List[bytes]:
        """Sends a text on each, if any, and gives what comes until the service ends the connection."""
        sent = texts or [b""] * len(self)
        return self._talk([Talk(it, text, None, may_be_reset) for it, text in zip(self.connections, sent)])

    def quit_one(self) -> None:
        """Ends one session, and forgets its connection."""
        with self.connections.pop() as connection:
            connection.sendall(b"quit\n")
            connection.settimeout(PATIENCE)
            expect(connection.recv(4096), b"", "what comes after the end of a session")

    def answered(self, seconds: float) -> int:
        """On how many connections something comes, or the end, within this time."""
        with selectors.DefaultSelector() as selector:
            for connection in self.connections:
                selector.register(connection, selectors.EVENT_READ)
            time.sleep(seconds)
            return len(selector.select(0))

    def _talk(self, talks: Sequence[Talk]) -> List[bytes]:
        latest = time.monotonic() + PATIENCE
        with selectors.DefaultSelector() as selector:
            for talk in talks:
                if talk.events():
                    selector.register(talk.connection, talk.events(), talk)
            while selector.get_map():
                ready = selector.select(max(latest - time.monotonic(), 0))
                if not ready:
                    raise Wrong(f"{len(selector.get_map())} of {len(talks)} connections wait for {PATIENCE} seconds")
                for key, events in ready:
                    key.data.go_on(events)
                    if not key.data.events():
                        selector.unregister(key.fileobj)
                    elif key.events != key.data.events():
                        selector.modify(key.fileobj, key.data.events(), key.data)
        return [bytes(talk.received) for talk in talks]
