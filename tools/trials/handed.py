"""A service that is handed a listening socket, as systemd does it (sd_listen_fds(3))."""

from __future__ import annotations

import contextlib
import os
import shutil
import socket
import subprocess
import sys
import tempfile
import time
from typing import IO, Iterator, List, Sequence, Tuple, Union

from trials.faults import failing, needs_strace
from trials.program import PATIENCE, Ended, Program, Service
from trials.report import Skip, expect
from trials.stops import KINDS, control_of, lines_of

# A process that puts a descriptor where systemd does, says so, and becomes the program.
HAND = (
    "import os, sys; fd, count, *words = sys.argv[1:]; os.dup2(int(fd), 3); fd == '3' or os.close(int(fd));"
    " os.execve(words[0], words, {**os.environ, 'LISTEN_PID': str(os.getpid()), 'LISTEN_FDS': count})"
)

NO_SOCKET = "descriptor 3 is no listening TCP socket"
NOT_ONE = "LISTEN_FDS isn't 1, and one socket is served"


def hand(fd: int, count: str = "1") -> List[str]:
    """The words before a program that is handed this descriptor."""
    return [sys.executable, "-c", HAND, str(fd), count]


def handed(
    program: Program, file: str, listener: socket.socket, *options: str, before: Sequence[str] = (), log: Union[int, IO[str]] = subprocess.DEVNULL
) -> Service:
    """A service of two passes that is handed this listener."""
    fd = listener.fileno()
    return Service(program, file, 2, *options, before=[*before, *hand(fd)], log=log, kept=[fd])


def listeners() -> Iterator[socket.socket]:
    """A listener over IPv4, and one over IPv6 where this machine has it."""
    for family, host in ((socket.AF_INET, "127.0.0.1"), (socket.AF_INET6, "::1")):
        with contextlib.suppress(OSError):
            yield socket.create_server((host, 0), family=family)


def client_of(listener: socket.socket, lines: bytes) -> socket.socket:
    """A client that has sent these lines, accepted or not."""
    client = socket.create_connection(listener.getsockname()[:2], PATIENCE)
    client.sendall(lines)
    return client


def replies_to(client: socket.socket, count: int) -> bytes:
    with client, client.makefile("rb") as replies:
        return b"".join(replies.readline() for _ in range(count))


def try_served(program: Program, folder: str) -> None:
    """Clients that connect before the service are served, at the socket's own port. It isn't shut down with the service: who connects
    after the end is served by the next one, whichever kind that is."""
    for listener in listeners():
        with listener:
            file = os.path.join(folder, f"f{listener.family}")
            program.make(file, 100)
            for turn, kind in enumerate([*KINDS, *KINDS]):
                try_turn(program, file, listener, turn, kind)


def try_turn(program: Program, file: str, listener: socket.socket, turn: int, kind: Sequence[str]) -> None:
    early = [client_of(listener, b"add %d\nhas %d\n" % (turn, turn)) for _ in range(2)]
    with tempfile.TemporaryFile("w+") as log, handed(program, file, listener, *kind, "--control", control_of(file), log=log) as service:
        expect(service.port, listener.getsockname()[1], "the port that it tells")
        told = sorted(replies_to(client, 2) for client in early)
        expect(told, [b"no\nyes\n", b"yes\nyes\n"], "the replies to those who came early")
        expect(replies_to(client_of(listener, b"has 99\n"), 1), b"no\n", "the reply to one who came later")
        # It waits for a connection more than once, and says nothing of that.
        time.sleep(1.5)
        expect(program.run("stop", control_of(file)), Ended("", 0), "the stop")
        expect(service.wait(), 0, "the service's status")
        expect(lines_of(log, file)[3:], ["asked to stop", f"stopped: sessions 3, members {turn + 1} of 100 slots"], "the end of its log")


def try_waiting(program: Program, folder: str) -> None:
    """Clients that wait behind those who have all passes are left to the next service."""
    file = os.path.join(folder, "f")
    program.make(file, 8)
    with socket.create_server(("127.0.0.1", 0)) as listener:
        silent = [client_of(listener, b"add 1\n") for _ in range(2)]
        with handed(program, file, listener, "--control", control_of(file)) as service:
            expect(sorted(client.recv(4) for client in silent), [b"no\n", b"yes\n"], "the replies to those who have the passes")
            waiting = [client_of(listener, b"has 1\n") for _ in range(4)]
            expect(program.run("stop", control_of(file)), Ended("", 0), "the stop")
            expect(service.wait(), 0, "the service's status")
        expect([replies_to(client, 1) for client in silent], [b"", b""], "what these are told then")
        with handed(program, file, listener):
            expect([replies_to(client, 1) for client in waiting], [b"yes\n"] * 4, "the next service's replies to those who wait")


def try_halted(program: Program, folder: str) -> None:
    """A service whose device failed ends, and the socket stays: who waits there is served by the next one."""
    needs_strace()
    for number, kind in enumerate(KINDS):
        file = os.path.join(folder, f"f{number}")
        program.make(file, 8)
        with socket.create_server(("127.0.0.1", 0)) as listener:
            with handed(program, file, listener, *kind, before=failing(file, "fdatasync", 2)) as service:
                expect(replies_to(client_of(listener, b"add 1\n"), 1), b"halted\n", "the reply")
                expect(service.wait(), 1, "the service's status")
            waiting = client_of(listener, b"has 7\n")
            with handed(program, file, listener, *kind):
                expect(replies_to(waiting, 1), b"no\n", "the next service's reply")


def unfit(folder: str) -> Iterator[Tuple[str, socket.socket]]:
    """Sockets that aren't TCP sockets that listen."""
    with socket.create_server(("127.0.0.1", 0)) as listener, client_of(listener, b"") as client:
        yield "a connected socket", client
        accepted, _ = listener.accept()
        with accepted:
            accepted.setblocking(False)
            with contextlib.suppress(BlockingIOError):
                while True:
                    accepted.send(bytes(65536))
            yield "a connected socket that can't be written", accepted
    with socket.socket() as bound:
        yield "a new socket", bound
        bound.bind(("127.0.0.1", 0))
        yield "a bound socket", bound
    with socket.socket(type=socket.SOCK_DGRAM) as datagrams:
        datagrams.bind(("127.0.0.1", 0))
        yield "a socket of UDP", datagrams
    with socket.socket(socket.AF_UNIX) as local:
        local.bind(os.path.join(folder, "local"))
        local.listen()
        yield "a Unix socket that listens", local


def try_unfit(program: Program, folder: str) -> None:
    """What can't be served is `noport`, and told in words. Another process's descriptors aren't taken."""
    file = os.path.join(folder, "f")
    program.make(file, 2)

    def told(fd: int, count: str = "1") -> Tuple[Ended, str]:
        words = [*hand(fd, count), program.path, "serve", file, "0", "1"]
        ended = subprocess.run(words, stdout=subprocess.PIPE, stderr=subprocess.PIPE, text=True, timeout=PATIENCE, pass_fds=[fd])
        return Ended(ended.stdout, ended.returncode), ended.stderr.splitlines()[-1]

    def refused(words: str) -> Tuple[Ended, str]:
        return Ended("noport\n", 1), f"lazyset: serve {file}: noport: {words}"

    for name, unfit_one in unfit(folder):
        expect(told(unfit_one.fileno()), refused(NO_SOCKET), name)
    with open(file, "rb") as other:
        expect(told(other.fileno()), refused(NO_SOCKET), "a file")
    reader, writer = os.pipe()
    expect(told(reader), refused(NO_SOCKET), "an empty pipe")
    os.close(reader)
    os.close(writer)
    with socket.create_server(("127.0.0.1", 0)) as listener:
        for count in ("0", "2", "-1", "one", ""):
            expect(told(listener.fileno(), count), refused(NOT_ONE), f"LISTEN_FDS={count}")
        closed = ["env", "LISTEN_FDS=1", "sh", "-c", 'exec 3>&-; export LISTEN_PID=$$; exec "$@"', "sh"]
        ended, said = program.run_loud("serve", file, "0", "1", before=closed)
        expect((ended, said.splitlines()[-1]), refused(NO_SOCKET), "a closed descriptor")
        for others in (["LISTEN_FDS=1"], ["LISTEN_PID=1", "LISTEN_FDS=1"], ["LISTEN_PID=x", "LISTEN_FDS=1"]):
            with Service(program, file, 1, before=["env", *others], kept=[listener.fileno()]) as service:
                expect(service.port not in (0, listener.getsockname()[1]), True, f"a port of its own, with {others}")
    expect(program.run("check", file), Ended("good\n", 0), "the file after all that")


def try_systemd(program: Program, folder: str) -> None:
    """systemd's own helper, which listens, and starts the service as its first client connects."""
    if shutil.which("systemd-socket-activate") is None:
        raise Skip("systemd-socket-activate isn't installed")
    file = os.path.join(folder, "f")
    program.make(file, 2)
    with socket.create_server(("127.0.0.1", 0)) as free:
        host, port = free.getsockname()
    words = ["systemd-socket-activate", "-l", f"{host}:{port}", program.path, "serve", file, "0", "1", "--sessions", "1"]
    with subprocess.Popen(words, stdout=subprocess.PIPE, stderr=subprocess.DEVNULL, text=True) as service:
        try:
            client = patient_client(host, port)
            expect(replies_to(client, 1), b"yes\n", "the reply to the first client")
            said, _ = service.communicate(timeout=PATIENCE)
            expect((said, service.returncode), (f"listening {port}\n", 0), "what the service says, and its status")
        finally:
            service.kill()


def patient_client(host: str, port: int) -> socket.socket:
    """A client that asks and quits, once somebody listens there."""
    latest = time.monotonic() + PATIENCE
    while True:
        try:
            client = socket.create_connection((host, port), PATIENCE)
        except OSError:
            if time.monotonic() > latest:
                raise
            time.sleep(0.05)
        else:
            client.sendall(b"add 1\nquit\n")
            return client


TRIALS = (
    ("a listening socket that is handed over", try_served),
    ("a listening socket with clients that wait", try_waiting),
    ("a listening socket after a device failed", try_halted),
    ("what is handed over and isn't a listening socket", try_unfit),
    ("a listening socket of systemd's helper", try_systemd),
)
