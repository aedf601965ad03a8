"""Loops where something is slow or missing: a device whose syncs take long or fail, memory, descriptors, clients that leave late."""

from __future__ import annotations

import os
import re
import signal
import socket
import subprocess
import tempfile
import time
from typing import List, Sequence, Tuple

from trials.crowd import Crowd, needs_descriptors
from trials.faults import needs_strace
from trials.guests import connect, received
from trials.loops import at_once, read_exactly
from trials.process import memory
from trials.program import PATIENCE, Key, Program, Service, untimed
from trials.report import Skip, Wrong, expect

# Connections of one crowd, and how much memory each may keep in the service once it was answered.
MANY, MOST_KEPT = 2000, 6000

# A piece of lines with no words, each of which is answered by six bytes.
PIECE = b"\n" * 4095

# Room for so many clients is asked for at once: more than a service may have under some of these limits, in kilobytes.
ROOMY, LIMITS = 10_000, range(2400, 12_000, 100)

MANY_FILES = "Too many open files (os error 24)"


def slow(file: str, seconds: float, *words: str) -> List[str]:
    """The words behind which a program's syncs of the file take so much longer: all of them, or as these words say."""
    inject = ":".join(["inject=fdatasync", f"delay_enter={int(seconds * 1e6)}", *words])
    return ["strace", "-f", "-qq", "-o", os.devnull, "-P", file, "-e", "trace=fdatasync", "-e", inject]


def try_slow_sync(program: Program, folder: str) -> None:
    """One client's addition waits 3.5 seconds for its sync. Another one sends a line byte by byte meanwhile, and is not idle, though nothing
    is read of it for so long."""
    needs_strace()
    file = os.path.join(folder, "slow")
    program.make(file, 4)
    with Service(program, file, 2, "--idle", "1", *at_once(4), before=slow(file, 3.5, "when=2")) as service:
        with connect(service.port) as adds, connect(service.port) as types:
            types.sendall(b"h")
            time.sleep(0.1)
            adds.sendall(b"add 1\n")
            try:
                for byte in (b"a", b"s", b" ", b"1", b"\n"):
                    time.sleep(0.6)
                    types.sendall(byte)
                told = types.recv(16)
            except OSError:
                told = b""
            expect(told in (b"yes\n", b"no\n"), True, f"that a client is answered that sent a byte each 0.6 seconds: {told!r}")
            expect(adds.recv(16), b"yes\n", "what the client is told that added")


def try_batch(program: Program, folder: str) -> None:
    """Sixty-four additions in one piece, each of whose syncs takes 35 milliseconds: their replies come as they are answered."""
    needs_strace()
    file, count = os.path.join(folder, "batch"), 64
    program.make(file, count + 8)
    with Service(program, file, 2, *at_once(4), before=slow(file, 0.035)) as service, connect(service.port) as client:
        began = time.monotonic()
        client.sendall("".join(f"add {key}\n" for key in range(count)).encode())
        expect(client.recv(4, socket.MSG_WAITALL), b"yes\n", "the first reply")
        first = time.monotonic() - began
        expect(read_exactly(client, 4 * count - 4), b"yes\n" * (count - 1), "the other replies")
        whole = time.monotonic() - began
    if first > whole / 4:
        raise Wrong(f"the first of {count} replies came after {first:.2f} seconds, the last after {whole:.2f}")
    expect(program.members(file), [Key(0, key) for key in range(count)], "the keys of the file")


def try_pieces(program: Program, folder: str) -> None:
    """Two thousand clients, each of which has sent a piece of 4,095 lines and read the replies, cost the service little memory."""
    needs_descriptors(MANY)
    file = os.path.join(folder, "pieces")
    program.make(file, 4)
    with Service(program, file, 4, *at_once(MANY + 1)) as service, Crowd(service.port, MANY) as crowd:
        expect(crowd.exchange([b"has 1\n"] * MANY), [b"no\n"] * MANY, "lookups of all clients")
        before = memory(service)
        for connection in crowd.connections:
            connection.settimeout(PATIENCE)
            connection.sendall(PIECE)
            expect(read_exactly(connection, 6 * len(PIECE)), b"bad 2\n" * len(PIECE), "that each line with no words is answered")
        grown = memory(service) - before
        if grown > MOST_KEPT * MANY:
            raise Wrong(f"the service keeps {grown // MANY} bytes for each of {MANY} clients that have nothing to do")
        print(f"         {grown / MANY:.0f} bytes for each of {MANY} clients", flush=True)


def limited(limit: str) -> List[str]:
    """The words behind which a program has no more than so much."""
    before = ["sh", "-c", f'ulimit {limit} && exec "$@"', "sh"]
    if subprocess.run([*before, "true"], stderr=subprocess.DEVNULL).returncode:
        raise Skip("no limit can be set")
    return before


def ended(program: Program, file: str, options: Sequence[str], before: Sequence[str]) -> Tuple[str, int, str]:
    """What a service says, its status and its log, where it ends at once; status -1 where it serves a client."""
    with tempfile.TemporaryFile("w+") as log:
        with Service(program, file, 4, *options, before=before, log=log) as service:
            if service.port:
                try:
                    with connect(service.port) as client:
                        client.settimeout(2)
                        client.sendall(b"has 1\n")
                        if client.recv(16) == b"no\n":
                            return service.told, -1, ""
                except OSError:
                    pass
            told = service.told
            try:
                status = service.process.wait(0.5)
            except subprocess.TimeoutExpired:
                status = -2
        log.seek(0)
        return told, status, untimed(log.read())


def try_memory(program: Program, folder: str) -> None:
    """A service without memory for its clients, though it has enough to listen, ends with status 1 and says why."""
    file = os.path.join(folder, "memory")
    program.make(file, 4)
    limited("-v 1000000")
    lacking = 0
    for kilobytes in LIMITS:
        try:
            told, status, log = ended(program, file, at_once(ROOMY), limited(f"-v {kilobytes}"))
        except Skip:
            continue
        if status == -1 or not told.startswith("listening"):
            continue
        lacking += 1
        expect(status, 1, f"the status of a service that listened with {kilobytes} kilobytes and served nobody")
        expect("out of memory" in log, True, f"that its log says why: {log!r}")
    if lacking == 0:
        raise Skip("no limit leaves a service enough to listen and too little for its clients")
    print(f"         {lacking} services listened without memory for clients", flush=True)


def try_descriptors(program: Program, folder: str) -> None:
    """A service that may have few descriptors serves a client, or its log says why not: it may end then, with status 1."""
    file = os.path.join(folder, "descriptors")
    program.make(file, 4)
    for options in (at_once(4), [*at_once(4), "--loops", "2"]):
        for count in range(6, 14):
            told, status, log = ended(program, file, options, limited(f"-n {count}"))
            if status == -1 or not told.startswith("listening"):
                continue
            expect(status in (1, -2), True, f"the status {status} of a service with {count} descriptors")
            expect(MANY_FILES in log, True, f"that the log of a service with {count} descriptors says why it serves nobody: {log!r}")


def try_halt(program: Program, folder: str) -> None:
    """The device fails while nine clients' lines wait for the one pass: all ten are told, the one that waits with two lines once."""
    needs_strace()
    file, count = os.path.join(folder, "halt"), 10
    program.make(file, 2 * count)
    before = slow(file, 1.0, "error=EIO", "when=2")
    with Service(program, file, 1, *at_once(count + 1), before=before) as service, Crowd(service.port, count + 1) as crowd:
        # One that waits in the queue of the system is told nothing.
        expect(crowd.exchange([b"has 1\n"] * len(crowd)), [b"no\n"] * len(crowd), "the first replies")
        crowd.connections[0].sendall(b"add 0\n")
        time.sleep(0.2)
        crowd.send([b"", *(f"dig\nadd {key}\nhas 1\n".encode() for key in range(1, count)), b"add 1"])
        told = crowd.last()
        expect(service.wait(), 1, "the status of a service whose device failed")
    expect(told, [b"halted\n", *[b"bad 2\nhalted\n"] * (count - 1), b""], "what the clients are told, the last of which has sent half a line")
    expect(program.members(file) in ([], [Key(0, 0)]), True, "that no other key is in the file")


def try_late_closers(program: Program, folder: str) -> None:
    """A hundred clients over twenty places, who keep their connections when their sessions have ended: nobody waits long."""
    file, count = os.path.join(folder, "late"), 100
    program.make(file, 4)
    with Service(program, file, 4, *at_once(20)) as service:
        began = time.monotonic()
        with Crowd(service.port, count) as crowd:
            expect(crowd.last([b"has 1\nquit\n"] * count), [b"no\n"] * count, "replies")
        taken = time.monotonic() - began
    if taken > 3:
        raise Wrong(f"{count} short sessions over 20 places took {taken:.1f} seconds, since their clients close late")


def connections_of(service: Service) -> List[int]:
    """How many connections each loop of a service waits for, ascending."""
    folder = f"/proc/{service.process.pid}/fdinfo"
    counts = []
    try:
        for name in os.listdir(folder):
            with open(os.path.join(folder, name), encoding="ascii") as facts:
                watched = len(re.findall(r"^tfd:", facts.read(), re.MULTILINE))
            if watched:
                # One of them is the listener.
                counts.append(watched - 1)
    except OSError:
        raise Skip("no system tells the descriptors of a process here") from None
    return sorted(counts)


def try_burst(program: Program, folder: str) -> None:
    """Sixty-four clients connect while four loops, any of which has room for all of them, are stopped: none has more than half of them."""
    count = 64
    for turn in range(5):
        file = os.path.join(folder, f"burst-{turn}")
        program.make(file, 4)
        with Service(program, file, 4, "--loops", "4", *at_once(4 * count)) as service:
            service.process.send_signal(signal.SIGSTOP)
            with Crowd(service.port, count) as crowd:
                service.process.send_signal(signal.SIGCONT)
                expect(crowd.exchange([b"has 1\n"] * count), [b"no\n"] * count, "lookups")
                loads = connections_of(service)
        expect((len(loads), sum(loads)), (4, count), "how many loops and connections there are")
        if loads[-1] > count // 2:
            raise Wrong(f"of {count} connections over four loops the loops have {loads}")


TRIALS = (
    ("a client that types during a long sync", try_slow_sync),
    ("replies to many additions at once", try_batch),
    ("what clients keep that have nothing to do", try_pieces),
    ("no memory for clients", try_memory),
    ("no descriptors for clients", try_descriptors),
    ("lines that wait when the device fails", try_halt),
    ("clients that close late", try_late_closers),
    ("clients that come at once", try_burst),
)
