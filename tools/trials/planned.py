"""A service with many connections that is asked to stop."""

from __future__ import annotations

import os
import select
import socket
import threading
from contextlib import suppress
from time import monotonic, sleep
from typing import List, Optional, Tuple

from trials.faults import needs_strace
from trials.guests import PATIENCE, connect, received
from trials.loop_faults import slow
from trials.loops import at_once
from trials.plain_frames import array
from trials.program import Ended, Key, Program, Service
from trials.report import Wrong, expect
from trials.stops import control_of

PASSES = 4

# Clients that have sent all before the stop, in each room one, how many keys each of them adds, and by how many a frame.
ROOMS, KEYS, MEMBERS = 8, 300, 20

# Clients that send one line after the other, how many keys each has, and after how many seconds the stop is asked for.
ONE_BY_ONE, OWN_KEYS, BUSY = 8, 8_000, 0.4

# Whatever is told a client that sent a line, or a frame, of which nothing was done.
REFUSED_LINE, REFUSED_FRAME = b"stopping\n", b"-ERR stopping; nothing was done\r\n"

# How much a client goes on sending that reads late, and within how many seconds a stop ends beside it.
FLOOD, SOON = 1 << 20, 10.0


def stop(program: Program, service: Service, file: str) -> None:
    expect(program.run("stop", control_of(file)), Ended("", 0), "the stop")
    expect(service.wait(), 0, "the service's status")


def try_flood(program: Program, folder: str) -> None:
    """A client that goes on sending is not reset before it has read what it was told, and the stop ends soon."""
    needs_strace()
    file = os.path.join(folder, "flood")
    program.make(file, 1000)
    told: List[bytes] = []
    with Service(program, file, PASSES, *at_once(4), "--control", control_of(file), before=slow(file, 0.1)) as service, connect(service.port) as client:

        def flood() -> None:
            with suppress(OSError):
                # Each of the first 900 waits for a sync, so most are left when the stop comes.
                client.sendall(b"".join(b"add %d\n" % (number % 900) for number in range(FLOOD // 8)))
                client.shutdown(socket.SHUT_WR)

        sender = threading.Thread(target=flood)
        sender.start()
        sleep(0.5)
        began = monotonic()
        stop(program, service, file)
        expect(monotonic() - began < SOON, True, "that it ends soon")
        sender.join(SOON)
        told.append(received(client))
    answered, refused = parted(told[0], REFUSED_LINE)
    expect(len(answered) > 1 and refused > 0, True, "that some were answered, and some refused")
    expect(answered, [b"yes\n"] * len(answered), "what it was told before")


def parted(told: bytes, refusal: bytes) -> Tuple[List[bytes], int]:
    """The replies before the first refusal, and how many refusals came, after which there may be nothing else."""
    lines = told.splitlines(keepends=True)
    answered = lines[: lines.index(refusal)] if refusal in lines else lines
    expect(set(lines[len(answered) :]) <= {refusal}, True, "that nothing but refusals follows a refusal")
    return answered, len(lines) - len(answered)


def try_doubt(program: Program, folder: str) -> None:
    """Each command that clients had sent is answered, or told that nothing of it was done, and so it is. A frame of which a member was begun is
    carried out whole."""
    needs_strace()
    for loops in (1, 2):
        try_sent(program, os.path.join(folder, f"lines-{loops}"), loops, 1)
        try_sent(program, os.path.join(folder, f"frames-{loops}"), loops, MEMBERS)
        try_one_by_one(program, os.path.join(folder, f"one-by-one-{loops}"), loops)


def try_sent(program: Program, file: str, loops: int, members: int) -> None:
    """All was sent before the stop: by lines of one key each, or by frames of so many."""
    program.make(file, ROOMS * KEYS)
    words = [*at_once(ROOMS), "--loops", str(loops), "--control", control_of(file), *(["--resp"] if members > 1 else [])]
    asked = KEYS // members
    refusal = REFUSED_FRAME if members > 1 else REFUSED_LINE
    with Service(program, file, 16, *words, before=slow(file, 0.05)) as service:
        clients = [connect(service.port) for _ in range(ROOMS)]
        for room, client in enumerate(clients):
            client.sendall(b"".join(additions(room, start, members) for start in range(0, KEYS, members)))
        sleep(BUSY)
        stop(program, service, file)
        told = [parted(received(client), refusal) for client in clients]
        for client in clients:
            client.close()
    counts = [len(answered) for answered, _ in told]
    expect([count + refused for count, (_, refused) in zip(counts, told)], [asked] * ROOMS, "how many replies each client got")
    expect(sum(counts) not in (0, ROOMS * asked), True, "that the stop came in between")
    yes = b":%d\r\n" % members if members > 1 else b"yes\n"
    expect([set(answered) <= {yes} for answered, _ in told], [True] * ROOMS, "that what was answered was added")
    wanted = [Key(room, number) for room, count in enumerate(counts) for number in range(count * members)]
    expect(program.members(file), wanted, "the keys of the file")


def additions(room: int, start: int, members: int) -> bytes:
    """What asks for so many additions at once."""
    if members == 1:
        return b"add %d:%d\n" % (room, start)
    return array(b"SADD", b"%d" % room, *[b"%d" % number for number in range(start, start + members)])


def try_one_by_one(program: Program, file: str, loops: int) -> None:
    """Clients that wait for each reply, and send on at once: the last one is told, unless the connection had ended before it was sent."""
    program.make(file, ONE_BY_ONE * OWN_KEYS)
    added: List[int] = [0] * ONE_BY_ONE
    last: List[Optional[bytes]] = [b""] * ONE_BY_ONE

    def add_all(index: int, port: int) -> None:
        with connect(port) as client:
            replies = client.makefile("rb")
            for number in range(OWN_KEYS):
                if has_ended(client):
                    last[index] = None
                    return
                client.sendall(b"add %d:%d\n" % (index, number))
                last[index] = replies.readline()
                if last[index] != b"yes\n":
                    return
                added[index] += 1

    words = [*at_once(ONE_BY_ONE), "--loops", str(loops), "--control", control_of(file)]
    with Service(program, file, 16, *words) as service:
        threads = [threading.Thread(target=add_all, args=(index, service.port)) for index in range(ONE_BY_ONE)]
        for thread in threads:
            thread.start()
        sleep(BUSY)
        stop(program, service, file)
        for thread in threads:
            thread.join(PATIENCE)
    if not set(last) <= {REFUSED_LINE, None}:
        raise Wrong(f"the last commands were told {last}")
    expect(program.members(file), [Key(index, number) for index, count in enumerate(added) for number in range(count)], "the keys of the file")


def has_ended(client: socket.socket) -> bool:
    """Whether the service has ended the connection, as far as this side knows."""
    return bool(select.select([client], [], [], 0)[0])
