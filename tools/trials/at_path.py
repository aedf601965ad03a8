"""A service that listens on a Unix socket at a path, in place of a port."""

from __future__ import annotations

import contextlib
import os
import re
import signal
import socket
import stat
import subprocess
import tempfile
import threading
import time
from typing import IO, List, Sequence, Tuple, Union

from trials.faults import needs_strace
from trials.program import PATIENCE, Ended, Program, Service
from trials.report import expect
from trials.stops import KINDS, control_of, lines_of

IN_USE = "address in use"


def socket_of(file: str) -> str:
    return f"{file}.socket"


def served(program: Program, file: str, *options: str, path: str = "", log: Union[int, IO[str]] = subprocess.DEVNULL, before: Sequence[str] = ()) -> Service:
    """A service of two passes at a path."""
    return Service(program, file, 2, "--socket", path or socket_of(file), *options, port="-", log=log, before=before)


def client_at(path: str, lines: bytes) -> socket.socket:
    """A client that has sent these lines."""
    client = socket.socket(socket.AF_UNIX)
    client.settimeout(PATIENCE)
    client.connect(path)
    client.sendall(lines)
    return client


def replies_at(path: str, lines: bytes) -> bytes:
    """All replies to these lines, the last of which is `quit`."""
    with client_at(path, lines + b"quit\n") as client, client.makefile("rb") as replies:
        return replies.read()


def modes_of(path: str, is_over: threading.Event, modes: List[int]) -> None:
    """Notes the modes that the file has, from its first moment on."""
    while not is_over.is_set():
        with contextlib.suppress(FileNotFoundError):
            mode = stat.S_IMODE(os.stat(path).st_mode)
            if mode not in modes:
                modes.append(mode)


def try_served(program: Program, folder: str) -> None:
    """Its owner alone can connect, from the first moment on. Clients are answered, it stops as any service does, and no socket is left."""
    for number, kind in enumerate(KINDS):
        file = os.path.join(folder, f"f{number}")
        path, is_over = socket_of(file), threading.Event()
        modes: List[int] = []
        program.make(file, 8)
        watching = threading.Thread(target=modes_of, args=(path, is_over, modes))
        watching.start()
        loose = ["sh", "-c", 'umask 0; exec "$@"', "sh"]
        with tempfile.TemporaryFile("w+") as log, served(program, file, *kind, "--control", control_of(file), log=log, before=loose) as service:
            expect(service.told, f"listening {path}\n", "what it says")
            expect(replies_at(path, b"add 1\nhas 1\nhas 2\nnonsense\n"), b"yes\nyes\nno\nbad 2\n", "the replies to a client")
            with client_at(path, b"add 2\n") as silent:
                expect(silent.recv(4), b"yes\n", "the reply to a client that stays")
                expect(replies_at(path, b"has 2\n"), b"yes\n", "the reply to one beside it")
                began = time.monotonic()
                expect(program.run("stop", control_of(file)), Ended("", 0), "the stop")
                expect(time.monotonic() - began < 5, True, "that it ends soon")
                expect(silent.recv(4), b"", "what the client that stayed is told then")
            expect(service.wait(), 0, "the service's status")
            expect(lines_of(log, file)[-2:], ["asked to stop", "stopped: sessions 3, members 2 of 8 slots"], "the end of its log")
        is_over.set()
        watching.join(PATIENCE)
        expect(modes, [0o600], "the modes that the socket had")
        expect(os.path.lexists(path), False, "whether the socket is there yet")
        expect(program.run("run", file, lines="has 2\n"), Ended("yes\n", 0), "what the file holds")


# A mode that is named, and which it is.
MODES: Sequence[Tuple[str, int]] = (("0660", 0o660), ("660", 0o660), ("0600", 0o600), ("777", 0o777), ("0622", 0o622))

# What is no mode of a file.
NO_MODES = ("8", "0668", "1777", "0o660", "+660", "-1", "rw", "77777777777777777777")


def try_modes(program: Program, folder: str) -> None:
    """The sockets get the mode that is named, whatever the umask, before anybody can connect, and have no wider one before."""
    for number, (word, mode) in enumerate(MODES):
        for umask in ("0", "077"):
            file = os.path.join(folder, f"f{number}-{umask}")
            paths = [socket_of(file), control_of(file)]
            program.make(file, 8)
            is_over = threading.Event()
            modes: List[List[int]] = [[] for _ in paths]
            watching = [threading.Thread(target=modes_of, args=(path, is_over, noted)) for path, noted in zip(paths, modes)]
            for thread in watching:
                thread.start()
            before = ["sh", "-c", f'umask {umask}; exec "$@"', "sh"]
            words = (*KINDS[number % len(KINDS)], "--control", control_of(file), "--socket-mode", word)
            with served(program, file, *words, before=before) as service:
                expect([stat.S_IMODE(os.stat(path).st_mode) for path in paths], [mode] * 2, f"the modes of {words} under {umask}")
                expect(replies_at(socket_of(file), b"add 1\n"), b"yes\n", "the reply to a client")
                expect(program.run("stop", control_of(file)), Ended("", 0), "the stop")
                expect(service.wait(), 0, "the service's status")
            is_over.set()
            for thread in watching:
                thread.join(PATIENCE)
            for noted in modes:
                expect(set(noted) <= {0o600, mode}, True, f"that the socket had no other mode: {noted}")
            expect([os.path.lexists(path) for path in paths], [False] * 2, "whether the sockets are there yet")
    try_order(program, os.path.join(folder, "order"))
    try_group(program)


def try_order(program: Program, file: str) -> None:
    """Each socket listens once it has its mode. Where it can't get that it is taken away, and nobody is served."""
    needs_strace()
    trace = f"{file}.trace"
    program.make(file, 8)
    before = ["strace", "-f", "-qq", "-o", trace, "-e", "trace=bind,chmod,fchmodat,?fchmodat2,listen"]
    with served(program, file, "--socket-mode", "0660", before=before):
        pass
    with open(trace, encoding="ascii", errors="replace") as lines:
        calls = [found[0] for found in (re.findall(r"(\w+)\(", line) for line in lines) if found]
    expect([call.replace("fchmodat", "chmod").replace("chmod2", "chmod") for call in calls], ["bind", "chmod", "listen"], "the calls for its socket")
    refuses = ["strace", "-f", "-qq", "-o", os.devnull, "-e", "trace=chmod,fchmodat,?fchmodat2", "-e", "inject=chmod,fchmodat,?fchmodat2:error=EPERM"]
    # A file of its own: the service before it may have that one for a moment more.
    other = f"{file}.other"
    program.make(other, 8)
    words = ("serve", other, "-", "2", "--socket", socket_of(other), "--socket-mode", "0660")
    ended, said = program.run_loud(*words, before=refuses)
    why = f"lazyset: serve {other}: noport: Operation not permitted (os error 1)"
    expect((ended, said.splitlines()[-1]), (Ended("noport\n", 1), why), "a mode that can't be had")
    expect(os.path.lexists(socket_of(other)), False, "whether its socket is there yet")


# Somebody else's number.
OTHER = 65_534


def try_group(program: Program) -> None:
    """Another user of the socket's group can connect where the mode says so, and else none. Only root can try that."""
    if os.geteuid() != 0:
        return
    with tempfile.TemporaryDirectory() as folder:
        os.chmod(folder, 0o711)
        file = os.path.join(folder, "f")
        program.make(file, 8)
        for word, group, is_let_in in (("0660", os.getegid(), True), ("0660", OTHER, False), ("0600", os.getegid(), False), ("0666", OTHER, True)):
            with served(program, file, "--socket-mode", word):
                expect(connects_as(group, socket_of(file)), is_let_in, f"that one of group {group} can connect at mode {word}")


def connects_as(group: int, path: str) -> bool:
    """Whether another user, of this group alone, can connect there. A process of its own tries it."""
    child = os.fork()
    if child == 0:
        try:
            os.setgroups([])
            os.setgid(group)
            os.setuid(OTHER)
            socket.socket(socket.AF_UNIX).connect(path)
            os._exit(0)
        finally:
            os._exit(1)
    return os.waitpid(child, 0)[1] == 0


def try_crowd(program: Program, folder: str) -> None:
    """Clients for whom no place is free wait, and the log says so, where there are any."""
    for number, kind in enumerate([(), ("--connections", "2")]):
        file = os.path.join(folder, f"f{number}")
        program.make(file, 100)
        with tempfile.TemporaryFile("w+") as log, served(program, file, *kind, log=log):
            here = [client_at(socket_of(file), b"add %d\n" % key) for key in range(2)]
            expect([client.recv(4) for client in here], [b"yes\n"] * 2, "the replies to those who have a place")
            time.sleep(2.5)
            expect([line for line in lines_of(log, file) if "wait" in line], [], "what its log says of nobody who waits")
            waiting = [client_at(socket_of(file), b"has 1\nquit\n") for _ in range(40)]
            time.sleep(2.5)
            expect(lines_of(log, file)[-1], "all 2 places are taken, further connections wait", "what it says of those who wait")
            for client in here:
                client.close()
            expect([client.recv(4) for client in waiting], [b"yes\n"] * 40, "the replies to those who waited")
            for client in waiting:
                client.close()


def try_taken_over(program: Program, folder: str) -> None:
    """The socket of a service that was killed is taken over."""
    for number, kind in enumerate(KINDS):
        file = os.path.join(folder, f"f{number}")
        program.make(file, 8)
        with served(program, file, *kind) as service:
            expect(replies_at(socket_of(file), b"add 5\n"), b"yes\n", "the first service's reply")
            service.process.send_signal(signal.SIGKILL)
            service.wait()
        expect(stat.S_ISSOCK(os.stat(socket_of(file)).st_mode), True, "that its socket is there yet")
        with served(program, file, *kind):
            expect(replies_at(socket_of(file), b"has 5\n"), b"yes\n", "the next service's reply")
            expect(stat.S_IMODE(os.stat(socket_of(file)).st_mode), 0o600, "the mode of its socket")


def try_refused(program: Program, folder: str) -> None:
    """A socket on which somebody answers is refused, and so is any other file. Either is left as it is."""
    file, other = os.path.join(folder, "f"), os.path.join(folder, "g")
    program.make(file, 8)
    program.make(other, 8)

    def refused(path: str, words: str, what: str) -> None:
        ended, said = program.run_loud("serve", other, "-", "2", "--socket", path)
        expect((ended, said.splitlines()[-1]), (Ended("noport\n", 1), f"lazyset: serve {other}: noport: {words}"), what)

    with served(program, file):
        refused(socket_of(file), IN_USE, "the socket of another service")
        expect(replies_at(socket_of(file), b"add 1\n"), b"yes\n", "that service's reply")
    busy = os.path.join(folder, "busy")
    with socket.socket(socket.AF_UNIX) as listener, contextlib.ExitStack() as clients:
        listener.bind(busy)
        listener.listen(0)
        clients.enter_context(client_at(busy, b""))
        refused(busy, IN_USE, "the socket of one that is busy")
    regular = os.path.join(folder, "regular")
    with open(regular, "w", encoding="ascii") as text:
        text.write("kept")
    refused(regular, IN_USE, "a regular file")
    with open(regular, encoding="ascii") as text:
        expect(text.read(), "kept", "what it holds")
    refused(folder, IN_USE, "a folder")
    os.symlink(regular, os.path.join(folder, "link"))
    refused(os.path.join(folder, "link"), IN_USE, "a symbolic link")
    refused(os.path.join(folder, "missing", "s"), "No such file or directory (os error 2)", "a folder that isn't there")
    refused(os.path.join(folder, "s" * 108), "path must be shorter than SUN_LEN", "a long path")
    expect(sorted(os.listdir(folder)), ["busy", "f", "f.socket", "g", "link", "regular"], "what is left")


def try_ends(program: Program, folder: str) -> None:
    """No socket is left by a service that ends by itself, nor by one whose file is refused. Another file at its path stays."""
    file = os.path.join(folder, "f")
    path = socket_of(file)
    program.make(file, 8)
    with served(program, file, "--connections", "5", "--sessions", "1") as service:
        expect(replies_at(path, b"add 1\n"), b"yes\n", "the reply")
        expect(service.wait(), 0, "the service's status")
        expect(os.path.lexists(path), False, "whether its socket is there yet")
    with served(program, file, "--connections", "5", "--sessions", "1") as service:
        with client_at(path, b"add 2\n") as client:
            expect(client.recv(4), b"yes\n", "the reply")
            os.unlink(path)
            with open(path, "w", encoding="ascii"):
                pass
        expect(service.wait(), 0, "the service's status")
        expect(os.path.isfile(path), True, "whether the file that replaced its socket is there yet")
    os.unlink(path)
    unmade = os.path.join(folder, "unmade")
    with open(unmade, "w", encoding="ascii") as text:
        text.write("no set")
    expect(program.run("serve", unmade, "-", "2", "--socket", path), Ended("refused 1\n", 3), "a file that isn't a set")
    expect(os.path.lexists(path), False, "whether a socket was left there")


def try_words(program: Program, folder: str) -> None:
    """A path goes with - in place of a port, and with nothing else."""
    file = os.path.join(folder, "f")
    program.make(file, 2)
    more = "\n\nFor more information, try '--help'.\n"
    for port in ("0", "7000", "x"):
        text = f"error: invalid value '{port}' for '<PORT>'\n  [possible values: -]{more}"
        expect(program.run("serve", file, port, "1", "--socket", f"{file}.s"), Ended(text, 2), f"the port {port} beside a path")
        expect(program.run("serve", file, port, "1", f"--socket={file}.s"), Ended(text, 2), f"the port {port} beside a path, in one word")
    for word in NO_MODES:
        text = f"error: invalid value '{word}' for '--socket-mode <MODE>': a mode is octal, 0 to 777, as 0660{more}"
        for words in (("-", "1", "--socket", f"{file}.s"), ("0", "1", "--control", f"{file}.c"), ()):
            expect(program.run("serve", file, *words, f"--socket-mode={word}"), Ended(text, 2), f"{words} of the mode {word}")
    text = "error: '--socket-mode <MODE>' needs '--socket <PATH>' or '--control <PATH>'\n"
    expect(program.run("serve", file, "0", "1", "--socket-mode", "0660"), Ended(text, 2), "a mode of no socket")
    text = f"error: invalid value '-' for '<PORT>': invalid digit found in string{more}"
    expect(program.run("serve", file, "-", "1"), Ended(text, 2), "no port, and no path")
    expect(sorted(os.listdir(folder)), ["f"], "what is left")


TRIALS = (
    ("a socket at a path", try_served),
    ("the mode of a service's sockets", try_modes),
    ("a socket at a path with clients that wait", try_crowd),
    ("a socket at a path that nobody answers on", try_taken_over),
    ("a path that is taken", try_refused),
    ("a socket at a path after the service", try_ends),
    ("the words of a socket at a path", try_words),
)
