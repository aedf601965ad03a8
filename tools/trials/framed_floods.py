"""Clients that send frames without an end and read nothing, while others are served."""

from __future__ import annotations

import contextlib
import os
import socket
import time
from typing import List

from trials.crowd import Crowd
from trials.frames import by_frames
from trials.guests import connect
from trials.loops import FLOODS, MOST_GROWTH, MOST_SENT, PASSES, come_to_rest
from trials.plain_frames import MOST_WORD, MOST_WORDS, array
from trials.process import memory
from trials.program import Program, Service
from trials.report import Wrong, expect

# What is sent again and again: frames whose replies are longer than they are, many of them, or as long.
REPEATED = {
    "short lines": b"x\n" * 30_000,
    "lines of many words": (b"SMISMEMBER 0" + b" 1" * (MOST_WORDS - 2) + b"\n") * 30,
    "echoes": array(b"ECHO", b"e" * MOST_WORD) * 120,
    "pings": array(b"PING") * 4_000,
    "what it tells of itself": b"INFO\n" * 12_000,
}

# Frames without a word, to which there is no reply: they are read without an end, and others are served.
WORDLESS = b"\n" * 30_000 + b"*0\r\n" * 5_000


class Flood:
    """A connection on which a text is sent again and again."""

    def __init__(self, connection: socket.socket, text: bytes) -> None:
        self.connection = connection
        self.text = memoryview(text)
        self.place = 0

    def push(self) -> int:
        """Sends what is taken of the next piece, and gives its length."""
        try:
            taken = self.connection.send(self.text[self.place :])
        except BlockingIOError:
            return 0
        self.place = (self.place + taken) % len(self.text)
        return taken


def push_all(floods: List[Flood], seconds: float) -> int:
    taken, latest = 0, time.monotonic() + seconds
    while time.monotonic() < latest:
        taken += sum(flood.push() for flood in floods)
        time.sleep(0.001)
    return taken


def expect_prompt(port: int, turns: int) -> None:
    """Another client's commands are answered, each within a second."""
    with contextlib.closing(connect(port)) as client:
        client.settimeout(1.0)
        for _ in range(turns):
            for name in (b"SADD", b"SISMEMBER", b"SREM"):
                client.sendall(array(name, b"0", b"0"))
                expect(client.recv(64), b":1\r\n", f"another client's {name!r}")


def try_floods(program: Program, folder: str) -> None:
    """Clients that never read send until nothing more is taken. The service's memory is bounded, it rests, another client is served, and after
    they went away as many are served again."""
    for name, text in REPEATED.items():
        file = os.path.join(folder, name)
        program.make(file, 4)
        with Service(program, file, PASSES, *by_frames(FLOODS + 1)) as service:
            with Crowd(service.port, FLOODS) as crowd:
                crowd.exchange([b"ping\n"] * FLOODS)
                before = memory(service)
                floods = [Flood(it, text) for it in crowd.connections]
                come_to_rest(service, lambda: push_all(floods, 0.5), MOST_SENT * len(floods))
                grown = memory(service) - before
                expect_prompt(service.port, 10)
            with Crowd(service.port, FLOODS + 1) as crowd:
                expect(crowd.exchange([b"ping\n"] * len(crowd)), [b"+PONG\r\n"] * len(crowd), "replies to as many clients as are served at once")
        print(f"         {name}: {grown / FLOODS / 1024:.0f} KiB of memory for each client that never reads", flush=True)
        if grown > MOST_GROWTH:
            raise Wrong(f"{name}: the service's memory grew by {grown} bytes under {FLOODS} clients")


def try_wordless(program: Program, folder: str) -> None:
    """Clients that send frames without a word, and never pause, are read on, and another one is served beside them."""
    file = os.path.join(folder, "f")
    program.make(file, 4)
    with Service(program, file, PASSES, *by_frames(FLOODS + 1)) as service, Crowd(service.port, FLOODS) as crowd:
        floods = [Flood(it, WORDLESS) for it in crowd.connections]
        before, taken, latest = memory(service), 0, time.monotonic() + 20
        while taken <= MOST_SENT:
            taken += push_all(floods, 0.05)
            expect_prompt(service.port, 1)
            if time.monotonic() > latest:
                raise Wrong(f"no more than {taken} bytes are read")
        if memory(service) - before > MOST_GROWTH:
            raise Wrong(f"the service's memory grew by {memory(service) - before} bytes")


TRIALS = (
    ("frames of clients that never read", try_floods),
    ("frames without words", try_wordless),
)
