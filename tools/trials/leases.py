"""A service with a lease: it answers nothing unless a sync that began a short while ago has succeeded."""

from __future__ import annotations

import os
import signal
import subprocess
import time
from typing import IO, Iterator, List, Sequence, Tuple

from trials.faults import needs_strace
from trials.guests import connect
from trials.loop_faults import slow
from trials.program import PATIENCE, Ended, Program, Service
from trials.report import Wrong, expect
from trials.stops import lines_of

# A lease, in milliseconds, and for how many seconds clients look up.
MILLIS, LOOKS_FOR = 200, 1.5

# How many syncs there are in that time at most, and how many at least on a busy machine.
MOST_SYNCS, FEWEST_SYNCS = 8, 3

# What a service speaks, and in how many loops, with a lookup and its reply.
KINDS = (
    (("--connections", "8"), b"has 1\n", b"yes\n"),
    (("--connections", "8", "--loops", "4"), b"has 1\n", b"yes\n"),
    (("--connections", "8", "--loops", "2", "--resp"), b"*3\r\n$9\r\nSISMEMBER\r\n$1\r\n0\r\n$1\r\n1\r\n", b":1\r\n"),
)

LOST, UNTIL_OPENED = "the lease is lost: ", ": nothing is answered until the file is opened again"


def filled(program: Program, file: str, form: int) -> None:
    program.make(file, 8, form)
    expect(program.run("run", file, lines="add 1\n"), Ended("yes\n", 0), "an addition")


def traced(log: str) -> List[str]:
    """The words behind which a program's syncs are written down."""
    return ["strace", "-f", "-qq", "-o", log, "-e", "trace=fdatasync"]


def syncs_in(log: str) -> int:
    with open(log, encoding="ascii", errors="replace") as text:
        return sum("fdatasync(" in line for line in text)


def syncs_of_open(program: Program, folder: str, file: str, kind: Sequence[str]) -> int:
    """How many syncs a service makes before it has a client."""
    log = os.path.join(folder, "open.log")
    with Service(program, file, 4, *kind, before=traced(log)):
        return syncs_in(log)


def look_up(port: int, request: bytes, reply: bytes, seconds: float) -> None:
    """Looks up without a pause for so long."""
    with connect(port) as client, client.makefile("rb") as replies:
        ends = time.monotonic() + seconds
        while time.monotonic() < ends:
            client.sendall(request)
            expect(replies.read(len(reply)), reply, "a lookup under a lease")


def try_traffic(program: Program, folder: str) -> None:
    """While there are lookups there is a sync each MS milliseconds at most; without them there is none. A pause doesn't lengthen a lease."""
    needs_strace()
    for number, (kind, request, reply) in enumerate(KINDS):
        file, log = os.path.join(folder, f"f{number}"), os.path.join(folder, f"log{number}")
        filled(program, file, 2 + 2 * (number % 2))
        with Service(program, file, 4, *kind, "--lease", str(MILLIS), before=traced(log)) as service:
            before = syncs_in(log)
            look_up(service.port, request, reply, LOOKS_FOR)
            made = syncs_in(log) - before
            if not FEWEST_SYNCS <= made <= MOST_SYNCS:
                raise Wrong(f"{made} syncs in {LOOKS_FOR} seconds under a lease of {MILLIS} ms: {kind}")
            time.sleep(3 * MILLIS / 1000)
            expect(syncs_in(log) - before, made, f"syncs without a client: {kind}")
            os.killpg(service.process.pid, signal.SIGSTOP)
            time.sleep(2 * MILLIS / 1000)
            os.killpg(service.process.pid, signal.SIGCONT)
            look_up(service.port, request, reply, 0.0)
            with connect(service.port) as client:
                client.sendall(request)
                expect(client.recv(16), reply, "a lookup after a pause")
            expect(syncs_in(log) - before, made + 1, f"syncs after a pause: {kind}")


def told_after(service: Service, request: bytes) -> bytes:
    """What a client is told that looks up, and one that has sent nothing, up to the end of their connections."""
    told = b""
    with connect(service.port) as silent, connect(service.port) as client:
        client.sendall(request)
        for socket in (client, silent):
            try:
                piece = socket.recv(64)
                while piece:
                    told += piece
                    piece = socket.recv(64)
            except ConnectionResetError:
                pass
    return told


def losses(program: Program, folder: str, file: str, kind: Sequence[str]) -> Iterator[Tuple[List[str], str]]:
    """The words behind which a lease is lost, and what the log says of it. Each sync takes long, or, since strace counts those of each thread, of one
    loop those after the open's fail."""
    yield slow(file, 2.5 * MILLIS / 1000), "a sync took "
    if "--loops" not in kind:
        inject = f"inject=fdatasync:error=EIO:when={syncs_of_open(program, folder, file, kind) + 1}+"
        yield ["strace", "-f", "-qq", "-o", os.devnull, "-P", file, "-e", "trace=fdatasync", "-e", inject], "a sync failed: Input/output error (os error 5)"


def try_loss(program: Program, folder: str) -> None:
    """A sync that fails, or takes as long as the lease, ends the service: no client has another reply, and the status is 1."""
    needs_strace()
    for number, (kind, request, _) in enumerate(KINDS):
        file = os.path.join(folder, f"f{number}")
        filled(program, file, 2 + 2 * (number % 2))
        for before, why in losses(program, folder, file, kind):
            log_path = f"{file}.log"
            with open(log_path, "w", encoding="utf-8") as log:
                try_end(program, file, (*kind, "--lease", str(MILLIS)), before, log, request)
            with open(log_path, encoding="utf-8") as log:
                lines = lines_of(log, file)
            lost = [line for line in lines if line.startswith(LOST)]
            expect(len(lost), 1, f"how often the log says that the lease is lost: {lines}")
            expect((lost[0].startswith(LOST + why), lost[0].endswith(UNTIL_OPENED)), (True, True), f"how it says so: {lost[0]}")
            expect(lines[-1].split(":")[0], "ended", "the last line")
        expect(program.members(file) != [], True, "that the key is there")


def try_end(program: Program, file: str, options: Sequence[str], before: Sequence[str], log: IO[str], request: bytes) -> None:
    with Service(program, file, 4, *options, before=before, log=log) as service:
        expect(told_after(service, request), b"", f"what clients are told once the lease is lost: {options}")
        try:
            expect(service.process.wait(PATIENCE), 1, f"the status: {options}")
        except subprocess.TimeoutExpired as error:
            raise Wrong(f"it goes on without its lease: {options}") from error


def try_changes(program: Program, folder: str) -> None:
    """Changes are answered under a lease as without one, and a stop ends the service with status 0."""
    file, control = os.path.join(folder, "f"), os.path.join(folder, "control")
    program.make(file, 64, 4)
    with Service(program, file, 4, "--connections", "8", "--loops", "2", "--lease", str(MILLIS), "--control", control) as service:
        with connect(service.port) as client, client.makefile("rb") as replies:
            for key in range(32):
                client.sendall(b"add %d\nhas %d\n" % (key, key))
                expect(replies.read(8), b"yes\nyes\n", "an addition and a lookup")
                time.sleep(0.02)
        expect(program.run("stop", control), Ended("", 0), "a stop")
        expect(service.wait(), 0, "the status after a stop")
    expect(len(program.members(file)), 32, "the members of the file")


def try_words(program: Program, folder: str) -> None:
    """A lease has 100 to 60,000 milliseconds, and a service with loops."""
    file = os.path.join(folder, "f")
    program.make(file, 4)
    for millis in (0, 99, 60_001):
        told = f"error: invalid value '{millis}' for '--lease <MS>': {millis} is not in 100..=60000\n\nFor more information, try '--help'.\n"
        expect(program.run("serve", file, "0", "4", "--connections", "8", "--lease", str(millis)), Ended(told, 2), f"a lease of {millis} ms")
    expect(program.run("serve", file, "0", "4", "--lease", "100").status, 2, "a lease without connections")
    for millis in (100, 60_000):
        with Service(program, file, 4, "--connections", "8", "--lease", str(millis)) as service, connect(service.port) as client:
            client.sendall(b"has 1\n")
            expect(client.recv(8), b"no\n", f"a lookup under a lease of {millis} ms")


TRIALS = (
    ("a lease and its syncs", try_traffic),
    ("a lease that is lost", try_loss),
    ("changes under a lease", try_changes),
    ("words for a lease", try_words),
)
