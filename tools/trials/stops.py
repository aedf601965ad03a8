"""A service that is asked to stop, and one that says when it is ready."""

from __future__ import annotations

import fcntl
import os
import re
import signal
import socket
import stat
import subprocess
import tempfile
import threading
import time
from datetime import datetime, timezone
from typing import IO, List, Sequence

from trials.faults import needs_strace
from trials.program import PATIENCE, TIME, Ended, Program, Service, untimed
from trials.report import expect

# With a thread for each pass, and with loops.
KINDS: Sequence[Sequence[str]] = ((), ("--connections", "20"), ("--connections", "20", "--loops", "2"))


def lines_of(log: IO[str], file: str) -> List[str]:
    log.seek(0)
    return [line.replace(f"{file}: ", "") for line in untimed(log.read()).splitlines()]


def control_of(file: str) -> str:
    return f"{file}.control"


def try_stops(program: Program, folder: str) -> None:
    """No further command is begun, those under way are answered, and both end with status 0."""
    for number, kind in enumerate(KINDS):
        try_idle(program, os.path.join(folder, f"idle-{number}"), *kind)
        try_busy(program, os.path.join(folder, f"busy-{number}"), *kind)
        try_input(program, os.path.join(folder, f"input-{number}"), *kind)
    try_leftover(program, os.path.join(folder, "leftover"))
    try_slow(program, os.path.join(folder, "slow"))
    missing = os.path.join(folder, "missing")
    absent, hint = "No such file or directory (os error 2)", ": PATH is the control socket, as FILE.control"
    for path, way_out in ((missing, ""), ("7000", hint), ("7000.control", "")):
        expect(program.run_loud("stop", path), (Ended("nofile\n", 3), f"lazyset: {path}: {absent}{way_out}\n"), f"a stop by {path}, where nobody listens")


def try_idle(program: Program, file: str, *kind: str) -> None:
    """A service with silent clients ends at once, and leaves no socket."""
    program.make(file, 8)
    control = control_of(file)
    with tempfile.TemporaryFile("w+") as log, Service(program, file, 2, *kind, "--control", control, log=log) as service:
        expect(stat.S_IMODE(os.stat(control).st_mode), 0o600, "the socket's mode")
        expect(program.run("serve", file, "0", "1", "--control", control), Ended("nofile\n", 3), "a second service")
        with socket.create_connection(("127.0.0.1", service.port), PATIENCE) as client:
            client.sendall(b"add 1\nha")
            expect(client.recv(4), b"yes\n", "a reply")
            began = time.monotonic()
            expect(program.run("stop", control), Ended("", 0), "the stop")
            expect(time.monotonic() - began < 5, True, "that it ends soon")
            expect(client.recv(4), b"", "what the client is told then")
        expect(service.wait(), 0, "the service's status")
        expect(lines_of(log, file)[-2:], ["asked to stop", "stopped: sessions 1, members 1 of 8 slots"], "the log")
    expect(os.path.exists(control), False, "whether the socket is there yet")
    expect(program.run("run", file, lines="has 1\n"), Ended("yes\n", 0), "what the file holds")


def try_busy(program: Program, file: str, *kind: str) -> None:
    """Under load each key whose addition was answered is in the file, and no other but none or one a client, whose reply was lost."""
    program.make(file, 4000)
    control, clients = control_of(file), 6
    answered: List[List[int]] = [[] for _ in range(clients)]
    under_way = [0] * clients

    def add_all(client: int, port: int) -> None:
        with socket.create_connection(("127.0.0.1", port), PATIENCE) as stream:
            replies = stream.makefile("rb")
            for turn in range(600):
                key = turn * clients + client
                try:
                    stream.sendall(f"add {key}\n".encode())
                    reply = replies.readline()
                except OSError:
                    reply = b""
                if reply != b"yes\n":
                    under_way[client] = 1
                    return
                answered[client].append(key)

    with Service(program, file, 4, *kind, "--control", control) as service:
        threads = [threading.Thread(target=add_all, args=(client, service.port)) for client in range(clients)]
        for thread in threads:
            thread.start()
        time.sleep(0.3)
        expect(program.run("stop", control), Ended("", 0), "the stop")
        expect(service.wait(), 0, "the service's status")
        for thread in threads:
            thread.join(PATIENCE)
    kept = {key.number for key in program.members(file)}
    told = {key for keys in answered for key in keys}
    # A planned stop leaves no reply in doubt: a command that was begun was answered.
    expect(kept, told, "the keys of the file, and those that were answered")


def try_input(program: Program, file: str, *kind: str) -> None:
    """The end of standard input is such a stop too."""
    program.make(file, 8)
    process = subprocess.Popen(
        [program.path, "serve", file, "0", "2", *kind, "--until-eof"],
        stdin=subprocess.PIPE,
        stdout=subprocess.PIPE,
        stderr=subprocess.DEVNULL,
    )
    assert process.stdin is not None and process.stdout is not None
    port = int(process.stdout.readline().split()[1])
    with socket.create_connection(("127.0.0.1", port), PATIENCE) as client:
        process.stdin.write(b"what is read is thrown away\n")
        process.stdin.flush()
        client.sendall(b"add 1\n")
        expect(client.recv(4), b"yes\n", "a reply after some input")
        process.stdin.close()
        expect(process.wait(PATIENCE), 0, "the service's status")
    process.stdout.close()
    expect(program.run("run", file, lines="has 1\n"), Ended("yes\n", 0), "what the file holds")


def try_leftover(program: Program, file: str) -> None:
    """The socket of a service that was killed doesn't stop the next one, and another's file does."""
    program.make(file, 2)
    control = control_of(file)
    with Service(program, file, 1, "--control", control):
        pass
    expect(os.path.exists(control), True, "whether a killed service has left its socket")
    with Service(program, file, 1, "--control", control) as service:
        expect(program.run("stop", control), Ended("", 0), "the stop")
        expect(service.wait(), 0, "the service's status")
    with open(control, "w", encoding="ascii") as other:
        other.write("mine")
    expect(program.run("serve", file, "0", "1", "--control", control).status, 1, "a service whose socket can't be made")
    with open(control, encoding="ascii") as other:
        expect(other.read(), "mine", "that file")


def try_slow(program: Program, file: str) -> None:
    """Where the service doesn't end in time, who asked is told so, and it ends later."""
    needs_strace()
    program.make(file, 2)
    control = control_of(file)
    before = ["strace", "-f", "-qq", "-o", os.devnull, "-e", "trace=fdatasync", "-e", "inject=fdatasync:delay_enter=4000000:when=2+"]
    with Service(program, file, 1, "--control", control, before=before) as service:
        with socket.create_connection(("127.0.0.1", service.port), PATIENCE) as client:
            client.sendall(b"add 1\n")
            time.sleep(0.5)
            ended, words = program.run_loud("stop", control, "--within", "1")
            expect(ended, Ended("", 1), "a stop that doesn't wait long enough")
            expect(words, f"lazyset: stop {control}: it hasn't ended after 1 s\n", "what it says")
            expect(client.recv(4), b"yes\n", "the reply of the command that was under way")
        expect(service.wait(), 0, "the service's status")


def try_resumed(program: Program, folder: str) -> None:
    """A stop that is itself stopped and resumed (Ctrl-Z, fg) goes on waiting: it ends when the service has."""
    needs_strace()
    file = os.path.join(folder, "resumed")
    program.make(file, 2)
    control = control_of(file)
    before = ["strace", "-f", "-qq", "-o", os.devnull, "-e", "trace=fdatasync", "-e", "inject=fdatasync:delay_enter=3000000:when=2+"]
    with Service(program, file, 1, "--control", control, before=before) as service:
        with socket.create_connection(("127.0.0.1", service.port), PATIENCE) as client:
            client.sendall(b"add 1\n")
            time.sleep(0.3)
            with subprocess.Popen([program.path, "stop", control], stdout=subprocess.DEVNULL, stderr=subprocess.DEVNULL) as stop:
                for number in (signal.SIGSTOP, signal.SIGCONT):
                    time.sleep(0.3)
                    stop.send_signal(number)
                time.sleep(0.5)
                expect(stop.poll(), None, "whether the stop has ended before the service")
                expect(stop.wait(PATIENCE), 0, "the stop")
                with open(file, "rb") as free:
                    fcntl.flock(free, fcntl.LOCK_EX | fcntl.LOCK_NB)
        expect(service.wait(), 0, "the service's status")


def threadless(number: int) -> List[str]:
    """The words behind which a program's thread of that number can't be made."""
    calls = "clone,clone3"
    return ["strace", "-f", "-qq", "-o", os.devnull, "-e", f"trace={calls}", "-e", f"inject={calls}:error=EAGAIN:when={number}"]


def try_deaf(program: Program, folder: str) -> None:
    """Where no thread can be made that hears, the log says so, the service goes on, and a stop is refused at once. Where none can be made
    for a loop, the service ends with status 1."""
    needs_strace()
    file = os.path.join(folder, "deaf")
    program.make(file, 4)
    control, said = control_of(file), "no thread can be made for {}: it can't be asked to stop so"
    with tempfile.TemporaryFile("w+") as log, Service(program, file, 1, "--control", control, log=log, before=threadless(1)) as service:
        expect(ask(service.port), b"yes\n", "a reply")
        expect(said.format("--control") in lines_of(log, file), True, "that the log says so")
        began = time.monotonic()
        expect(program.run("stop", control), Ended("nofile\n", 3), "a stop that nobody hears")
        expect(time.monotonic() - began < 5, True, "that it is refused at once")
    os.remove(control)
    with tempfile.TemporaryFile("w+") as log, Service(program, file, 1, "--until-eof", log=log, before=threadless(1)) as service:
        expect(ask(service.port), b"no\n", "a reply")
        expect(said.format("--until-eof") in lines_of(log, file), True, "that the log says so")
    with tempfile.TemporaryFile("w+") as log:
        with Service(program, file, 2, "--connections", "20", "--loops", "2", log=log, before=threadless(1)) as service:
            expect(service.wait(), 1, "the status of a service without all its loops")
        said_last = lines_of(log, file)[-2:]
        expect(said_last, ["no thread can be made for a loop: the service ends", "ended: sessions 0, members 1 of 4 slots"], "the log")


def ask(port: int) -> bytes:
    with socket.create_connection(("127.0.0.1", port), PATIENCE) as client:
        client.sendall(b"add 1\n")
        return client.recv(16)


def try_ready(program: Program, folder: str) -> None:
    """It tells systemd once it listens, by a path or by an abstract name."""
    file = os.path.join(folder, "f")
    program.make(file, 2)
    for name in (os.path.join(folder, "notify"), f"@lazyset-{os.getpid()}"):
        with socket.socket(socket.AF_UNIX, socket.SOCK_DGRAM) as heard:
            heard.bind("\0" + name[1:] if name.startswith("@") else name)
            heard.settimeout(PATIENCE)
            with Service(program, file, 1, before=["env", f"NOTIFY_SOCKET={name}"]):
                expect(heard.recv(100), b"READY=1", f"what is told to {name}")


def try_times(program: Program, folder: str) -> None:
    """The log of loops has the time of each line, in UTC, unless the journal reads it. That of threads has none."""
    file = os.path.join(folder, "f")
    program.make(file, 4)
    for number, (passes, kind) in enumerate(((2, ()), (2, ("--connections", "4")), (None, ()), (None, ("--lines",)))):
        for journal in (False, True):
            with tempfile.TemporaryFile("w+") as log:
                facts = os.fstat(log.fileno())
                stream = f"{facts.st_dev}:{facts.st_ino if journal else facts.st_ino + 1}"
                began = datetime.now(timezone.utc).replace(microsecond=0)
                before = ["env", f"JOURNAL_STREAM={stream}", "TZ=America/New_York"]
                words = (*kind, "--sessions", "1")
                with Service(program, file, passes, *words, before=before, log=log) as service:
                    for _ in range(passes if passes and not kind else 1):
                        with socket.create_connection(("127.0.0.1", service.port), PATIENCE) as client:
                            client.sendall(b"has 1\nquit\n")
                            expect(client.makefile().read(), "no\n", "the reply")
                    expect(service.wait(), 0, "the service's status")
                ends = datetime.now(timezone.utc)
                log.seek(0)
                lines = log.read().splitlines()
            found = [TIME.match(line) for line in lines]
            what = f"that a line of {kind} has a time, where the journal reads {journal}"
            expect([it is not None for it in found], [number > 0 and not journal] * len(lines), what)
            expect(len(lines), 4, "how many lines there are")
            for it in found:
                if it is not None:
                    moment = datetime.strptime(it[0], "%Y-%m-%dT%H:%M:%SZ ").replace(tzinfo=timezone.utc)
                    expect(began <= moment <= ends, True, f"that {it[0]} is a moment of the service")


def try_levels(program: Program, folder: str) -> None:
    """Where the journal reads the log each line has its level, and else none has."""
    file = os.path.join(folder, "f")
    program.make(file, 1)
    for journal in (True, False):
        with tempfile.TemporaryFile("w+") as log:
            facts = os.fstat(log.fileno())
            stream = f"{facts.st_dev}:{facts.st_ino if journal else facts.st_ino + 1}"
            with Service(program, file, 2, "--sessions", "1", before=["env", f"JOURNAL_STREAM={stream}"], log=log) as service:
                with socket.create_connection(("127.0.0.1", service.port), PATIENCE) as client:
                    client.sendall(b"add 1\nadd 2\nremove 1\nquit\n")
                    expect(client.makefile().read(), "yes\nfull\nyes\n", "replies")
            log.seek(0)
            levels = [re.sub(r"^(<\d>)?.*", r"\1", line.rstrip("\n")) for line in log]
            # opening, opened in, serving; 95 % full; full
            expect(levels[:5], ["<6>", "<6>", "<6>", "<4>", "<4>"] if journal else [""] * 5, "the levels")
