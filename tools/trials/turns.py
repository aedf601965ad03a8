"""What a turn of a loop gives each of its clients: one beside large frames, one that sends an urgent byte, and frames at a device's failure."""

from __future__ import annotations

import multiprocessing
import os
import socket
import time
from contextlib import ExitStack, closing, contextmanager
from typing import Iterator, List

from trials.crowd import Crowd
from trials.faults import needs_strace
from trials.frames import HALTED, by_frames
from trials.guests import PATIENCE, connect, received
from trials.loop_faults import slow
from trials.loops import MOST_PASSES, PASSES, at_once, read_exactly
from trials.plain_frames import array
from trials.process import memory
from trials.program import Program, Service
from trials.report import Wrong, expect

# How many members a large frame has, how many clients send one again and again, and for how many seconds another one asks beside them.
MEMBERS, CROWDS, SECONDS = 1000, (20, 100), 3.0

# How much longer half of its lookups may take beside large frames than beside as many small ones, and what is counted as quick beside those.
MOST_SLOWER, QUICK = 5.0, 0.01

LARGE = array(b"SMISMEMBER", b"0", *(b"%d" % (1_000_000 + member) for member in range(MEMBERS)))
SMALL = b"".join(array(b"SMISMEMBER", b"0", b"%d" % (1_000_000 + member)) for member in range(MEMBERS))

# What comes of each, in lines.
LARGE_LINES, SMALL_LINES = MEMBERS + 1, 2 * MEMBERS

# The reply to a large one.
ZEROS = b"*%d\r\n" % MEMBERS + b":0\r\n" * MEMBERS

# How many clients have their frame under way as the device fails, and how many connections in turn send a large one.
HALTS, IN_TURN = 24, 400

# What memory each connection may keep that has sent one.
MOST_KEPT = 6000

# Lines into which an urgent byte is put, which belongs to none of them, and what they are told.
URGED, ANSWERS = b"add 17\nhas 17\nhas 18\n", b"yes\nyes\nno\n"


def press(port: int, count: int, text: bytes, lines: int) -> None:
    """Sends a text on each of so many connections, and again once its replies have come, without an end."""
    with Crowd(port, count) as crowd:
        while True:
            crowd.exchange([text] * count, lines)


@contextmanager
def pressed(port: int, count: int, text: bytes, lines: int) -> Iterator[None]:
    """A process beside this one does that."""
    crowd = multiprocessing.get_context("fork").Process(target=press, args=(port, count, text, lines), daemon=True)
    crowd.start()
    try:
        time.sleep(1.0)
        yield
        expect(crowd.is_alive(), True, "that the crowd beside goes on")
    finally:
        crowd.terminate()
        crowd.join(PATIENCE)


def median(port: int) -> float:
    """In how many seconds half of a client's lookups are answered: slower ones tell of the machine too."""
    taken: List[float] = []
    latest = time.monotonic() + SECONDS
    with closing(connect(port)) as client:
        client.setsockopt(socket.IPPROTO_TCP, socket.TCP_NODELAY, 1)
        while time.monotonic() < latest:
            began = time.monotonic()
            client.sendall(array(b"SISMEMBER", b"0", b"1"))
            expect(client.recv(64), b":0\r\n", "a lookup")
            taken.append(time.monotonic() - began)
            time.sleep(0.002)
    return sorted(taken)[len(taken) // 2]


def try_large_frames(program: Program, folder: str) -> None:
    """Beside clients that ask for a thousand members at once, again and again, another one's lookups take no more than some times as long as beside
    as many that ask for a thousand one by one."""
    for passes in (PASSES, MOST_PASSES):
        for count in CROWDS:
            file = os.path.join(folder, f"{passes}-{count}")
            program.make(file, 2 * MEMBERS)
            times = []
            for text, lines in ((SMALL, SMALL_LINES), (LARGE, LARGE_LINES)):
                with Service(program, file, passes, "--buckets", "1000", *by_frames(count + 1)) as service:
                    with pressed(service.port, count, text, lines):
                        times.append(median(service.port))
            told = f"{passes} passes, {count} clients: {times[0] * 1000:.1f} ms beside small frames, {times[1] * 1000:.1f} beside large ones"
            print(f"         {told}", flush=True)
            if times[1] > MOST_SLOWER * max(times[0], QUICK):
                raise Wrong(told)


def try_urgent(program: Program, folder: str) -> None:
    """Clients send one byte as urgent, as telnet does at Ctrl-C, at each place of their lines. It is lost, and all that comes before and
    after it is read: each line is answered, and so are later ones."""
    file, count = os.path.join(folder, "urgent"), len(URGED) + 1
    program.make(file, 40)
    with Service(program, file, PASSES, *at_once(count)) as service:
        for place in range(count):
            with closing(connect(service.port)) as client:
                client.setsockopt(socket.IPPROTO_TCP, socket.TCP_NODELAY, 1)
                client.sendall(URGED[:place])
                client.send(b"!", socket.MSG_OOB)
                client.sendall(URGED[place:])
                expect(read_exactly(client, len(ANSWERS)), ANSWERS, f"the replies to lines with an urgent byte at {place}")
                time.sleep(0.01)
                client.sendall(b"remove 17\nquit\n")
                expect(received(client), b"yes\n", f"the replies to later lines, at {place}")


def try_frames_at_halt(program: Program, folder: str) -> None:
    """The device fails under clients each of which has sent frames of several members: each one is told so, once, and its connection ends."""
    needs_strace()
    for passes in (1, PASSES, 64):
        file = os.path.join(folder, f"halt-{passes}")
        program.make(file, 10 * HALTS)
        # The first sync is of the look for a mark, the second the open's.
        before = slow(file, 1.0, "error=EIO", "when=3")
        with Service(program, file, passes, *by_frames(HALTS), before=before) as service:
            with Crowd(service.port, HALTS) as crowd:
                # One that waits in the queue of the system is told nothing.
                expect(crowd.exchange([array(b"PING")] * HALTS, 1), [b"+PONG\r\n"] * HALTS, "the first replies")
                frames = [array(b"SADD", b"0", *(b"%d" % (10 * client + key) for key in range(2 + client % 7))) for client in range(HALTS)]
                crowd.send([2 * frame for frame in frames])
                # A service that ends leaves what came after it unread, so the system may end a connection by a reset, after the reply.
                told = crowd.last(may_be_reset=True)
            expect(told, [HALTED] * HALTS, f"what clients are told whose device failed, with {passes} passes")
            expect(service.wait(), 1, "the status of a service whose device failed")


def try_kept(program: Program, folder: str) -> None:
    """Connections that have sent one frame of a thousand members, one after the other, and stay: each keeps little of the service's memory."""
    file = os.path.join(folder, "kept")
    program.make(file, 2 * MEMBERS)
    with Service(program, file, PASSES, "--buckets", "1000", *by_frames(IN_TURN)) as service, ExitStack() as stack:
        clients = [stack.enter_context(connect(service.port)) for _ in range(IN_TURN)]
        for client in clients:
            client.sendall(array(b"PING"))
            expect(client.recv(64), b"+PONG\r\n", "a first reply")
        before = memory(service)
        for client in clients:
            client.sendall(LARGE)
            expect(read_exactly(client, len(ZEROS)), ZEROS, "the reply to a large frame")
        time.sleep(0.5)
        kept = (memory(service) - before) / IN_TURN
    print(f"         {kept:.0f} bytes a connection", flush=True)
    if kept > MOST_KEPT:
        raise Wrong(f"a connection that has sent a large frame keeps {kept:.0f} bytes")


TRIALS = (
    ("a client beside large frames", try_large_frames),
    ("an urgent byte", try_urgent),
    ("frames that wait when the device fails", try_frames_at_halt),
    ("what clients keep that sent a large frame", try_kept),
)
