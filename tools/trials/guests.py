"""Clients of all sorts, and what they may do to each other."""

from __future__ import annotations

import os
import socket
import struct
import threading
from contextlib import contextmanager
from typing import Callable, Iterator, List

from lazyset import Command, Lazyset, Reply
from trials.program import Key, Program, Service
from trials.report import Wrong, expect

CLIENTS = 8
OWN_KEYS = 100
PATIENCE = 10.0
MEGABYTE = 1 << 20


@contextmanager
def served(program: Program, folder: str, name: str, slots: int, passes: int, *options: str) -> Iterator[Service]:
    """A service over a new file."""
    file = os.path.join(folder, name)
    program.make(file, slots)
    with Service(program, file, passes, *options) as service:
        yield service


def try_eight(program: Program, folder: str) -> None:
    """Eight clients add keys of their own and one that all add: each key is told once as added, and the file holds all."""
    told: List[int] = [0] * CLIENTS

    def add_all(index: int, port: int) -> None:
        own = [Command.add(1 + index * OWN_KEYS + number) for number in range(OWN_KEYS)]
        with Lazyset(port, timeout=PATIENCE) as keys:
            told[index] = keys.batch([*own, Command.add(0)]).count(Reply.YES)

    with served(program, folder, "eight", 1000, 4) as service:
        threads = [threading.Thread(target=add_all, args=(i, service.port)) for i in range(CLIENTS)]
        for thread in threads:
            thread.start()
        for thread in threads:
            thread.join(PATIENCE)
    wanted = [Key(0, number) for number in range(CLIENTS * OWN_KEYS + 1)]
    expect(sum(told), len(wanted), "keys told as added")
    expect(program.members(os.path.join(folder, "eight")), wanted, "the keys of the file")


def try_sessions(program: Program, folder: str) -> None:
    """A service of one pass and two sessions ends with status 0, and what was answered is in its file."""
    file = os.path.join(folder, "sessions")
    program.make(file, 2)
    with Service(program, file, 1, "--sessions", "2") as service:
        for number in (5, 6):
            with Lazyset(service.port, timeout=PATIENCE) as keys:
                expect(keys.add(number), True, "an addition")
        expect(service.wait(), 0, "the status of a service that ended")
    expect(program.members(file), [Key(0, 5), Key(0, 6)], "the keys of the file")


def try_idle(program: Program, folder: str) -> None:
    """A service of one pass ends a session in which nothing was sent, or no reply is taken, and goes on with the next one."""
    file = os.path.join(folder, "idle")
    program.make(file, 2)
    with Service(program, file, 1, "--idle", "1") as service, connect(service.port) as silent:
        silent.sendall(b"add 5\nadd 6")
        expect(received(silent), b"yes\n", "a silent client's replies")
        with Lazyset(service.port, timeout=PATIENCE) as keys:
            expect((keys.has(5), keys.has(6)), (True, False), "lookups by the next client")
        never_reads(service.port)


def connect(port: int) -> socket.socket:
    return socket.create_connection(("127.0.0.1", port), PATIENCE)


def received(connection: socket.socket) -> bytes:
    """All that comes until the other side ends."""
    text = b""
    while piece := connection.recv(4096):
        text += piece
    return text


def resets(port: int) -> None:
    """Asks, and resets the connection without reading."""
    send_and_reset(port, b"has 1\n" * 50)


def send_and_reset(port: int, text: bytes) -> None:
    with connect(port) as connection:
        connection.sendall(text)
        connection.setsockopt(socket.SOL_SOCKET, socket.SO_LINGER, struct.pack("ii", 1, 0))


def sends_a_megabyte(port: int) -> None:
    """Sends a megabyte without a line end."""
    with connect(port) as connection:
        connection.sendall(b"x" * MEGABYTE)
        connection.shutdown(socket.SHUT_WR)
        reply = received(connection)
    if reply not in (b"bad 1\n", b"bad 5\n"):
        raise Wrong(f"a megabyte without a line end was answered {reply!r}")


def ends_in_a_line(port: int) -> None:
    """Ends within a line."""
    with connect(port) as connection:
        connection.sendall(b"add 1\nadd 2")
        connection.shutdown(socket.SHUT_WR)
        expect(received(connection), b"yes\nbad 5\n", "a session that ended within a line")


def sends_bytes(port: int) -> None:
    """Sends every byte, as one line and one in each line."""
    with connect(port) as connection:
        connection.sendall(bytes(range(256)) + b"\n" + b"\n".join(bytes([n]) for n in range(256)))
        connection.shutdown(socket.SHUT_WR)
        words = received(connection).split(b"\n")
    if set(words) - {b"bad 1", b"bad 2", b"bad 5", b""}:
        raise Wrong(f"bytes were answered {set(words)!r}")


def never_reads(port: int) -> None:
    """Asks until nothing more is taken, and reads no reply."""
    with connect(port) as connection:
        connection.settimeout(0.5)
        try:
            for _ in range(1000):
                connection.sendall(b"has 1\n" * 10000)
        except socket.timeout:
            expect_served(port)
            return
    raise Wrong("a client that never reads could send without an end")


def expect_served(port: int) -> None:
    """Another client is served."""
    with Lazyset(port, timeout=PATIENCE) as keys:
        expect(keys.has(1), False, "another client's lookup")


def try_guest(program: Program, folder: str, guest: Callable[[int], None], *options: str) -> None:
    """While a client does its worst another is served, and afterwards both passes are free."""
    name = guest.__name__
    with served(program, folder, name, 4, 2, *options) as service:
        guest(service.port)
        with Lazyset(service.port, timeout=PATIENCE) as one, Lazyset(service.port, timeout=PATIENCE) as other:
            one.remove(1)
            expect(one.add(17), True, "an addition behind it")
            expect(other.has(17), True, "another session's lookup")
            expect(other.has(1), False, "a lookup")


QUICK_GUESTS = (resets, sends_a_megabyte, ends_in_a_line, sends_bytes)
GUESTS = (*QUICK_GUESTS, never_reads)
