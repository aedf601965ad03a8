"""A service that waits for a file which another process has: it serves that once it can be had, and never a file without a name."""

from __future__ import annotations

import fcntl
import os
import signal
import socket
import subprocess
import threading
import time
from typing import Callable, List, Optional, Sequence, Set, Tuple

from trials.faults import needs_strace
from trials.locks import ILL, NO_FILE, WITHOUT, ask, unlocked, words_of
from trials.program import PATIENCE, Ended, Key, Program, Service
from trials.report import Wrong, expect
from trials.stops import KINDS, lines_of

WAITING = "another process has it: waiting"
STOPPED = [WAITING, "asked to stop", "stopped: it never had the file"]

# Within how many seconds a service that waits ends where it is asked to, on a busy machine too, and serves a file that is free.
SOON, SERVES_WITHIN = 2.0, 20.0

# For how many microseconds a lock is held up, and when what happens meanwhile is done, in seconds after the look before.
HELD_UP, MEANWHILE = 3_000_000, 1.5


class Standby:
    """A service that waits, as a process of its own. Its log and its control socket lie beside the file."""

    def __init__(
        self, program: Program, file: str, name: str, *options: str, port: str = "0", passes: Optional[int] = 4, before: Sequence[str] = ()
    ) -> None:
        self.file = file
        self.control = f"{file}.{name}"
        self._log = f"{file}.{name}.log"
        with open(self._log, "w", encoding="utf-8") as log:
            self.process = subprocess.Popen(
                [*before, program.path, "serve", file, port, *([] if passes is None else [str(passes)]), "--standby", "--control", self.control, *options],
                stdin=subprocess.PIPE,
                stdout=subprocess.PIPE,
                stderr=log,
                text=True,
                start_new_session=True,
            )

    def __enter__(self) -> Standby:
        return self

    def __exit__(self, *_: object) -> None:
        if self.process.poll() is None:
            os.killpg(self.process.pid, signal.SIGKILL)
        self.ended()

    def lines(self) -> List[str]:
        with open(self._log, encoding="utf-8") as log:
            return lines_of(log, self.file)

    def expect_waits(self) -> None:
        """It says so once, and has a control socket by then."""
        until(lambda: self.lines() != [], "the log's first line")
        expect(self.lines(), [WAITING], "the log of a service that waits")
        expect(os.path.exists(self.control), True, "whether it has a control socket while it waits")

    def place(self) -> str:
        """Where it listens, once it does."""
        assert self.process.stdout is not None
        told = self.process.stdout.readline()
        if not told.startswith("listening "):
            raise Wrong(f"it says {told!r} in place of where it listens, and in its log {self.lines()}")
        return told[10:].rstrip("\n")

    def port(self) -> int:
        return int(self.place())

    def is_served(self) -> bool:
        return any(line.startswith("serving: ") for line in self.lines())

    def ended(self) -> Ended:
        """What it has printed since, and its status."""
        assert self.process.stdin is not None and self.process.stdout is not None
        status = self.process.wait(PATIENCE)
        if not self.process.stdin.closed:
            self.process.stdin.close()
        text = "" if self.process.stdout.closed else self.process.stdout.read()
        self.process.stdout.close()
        return Ended(text, status)


def until(holds: Callable[[], bool], what: str, seconds: float = SERVES_WITHIN) -> None:
    ends = time.monotonic() + seconds
    while not holds():
        if time.monotonic() > ends:
            raise Wrong(f"{what}: not within {seconds} s")
        time.sleep(0.02)


def filled(program: Program, file: str, *keys: int) -> None:
    program.make(file, 8, 4)
    expect(program.run("run", file, lines="".join(f"add {key}\n" for key in keys)), Ended("yes\n" * len(keys), 0), "additions")


def add_all(port: int, answered: Set[int]) -> None:
    """Adds one key after the other until the service is gone, and notes which were answered."""
    with socket.create_connection(("127.0.0.1", port), PATIENCE) as client, client.makefile("rb") as replies:
        for key in range(100_000):
            try:
                client.sendall(b"add %d\n" % key)
                reply = replies.readline()
            except OSError:
                return
            if reply != b"yes\n":
                return
            answered.add(key)


def try_takeovers(program: Program, folder: str) -> None:
    """It waits while another service has the file, and takes over, on the same port, once that is stopped or killed: each answered key is there."""
    for number, kind in enumerate(KINDS):
        for is_killed in (False, True):
            try_takeover(program, os.path.join(folder, f"f{number}-{is_killed}"), kind, is_killed)


def try_takeover(program: Program, file: str, kind: Sequence[str], is_killed: bool) -> None:
    program.make(file, 4_000, 4)
    first, what = f"{file}.first", f"{kind}, where the first one is {'killed' if is_killed else 'stopped'}"
    answered: Set[int] = set()
    with Service(program, file, 4, *kind, "--control", first) as service, Standby(program, file, "second", *kind, port=str(service.port)) as standby:
        standby.expect_waits()
        adding = threading.Thread(target=add_all, args=(service.port, answered))
        adding.start()
        time.sleep(0.5)
        if is_killed:
            service.kill()
        else:
            expect(program.run("stop", first), Ended("", 0), f"a stop: {what}")
        began = time.monotonic()
        expect(standby.port(), service.port, f"the port: {what}")
        expect(time.monotonic() - began < SERVES_WITHIN, True, f"that it serves soon: {what}")
        adding.join(PATIENCE)
        expect(len(answered) > 0, True, f"that keys were added: {what}")
        expect(ask(service.port, *(f"has {key}" for key in sorted(answered))), "yes\n" * len(answered), f"each answered key: {what}")
        expect(standby.lines()[:2], [WAITING, "opening"], f"the log: {what}")
        expect(standby.lines().count(WAITING), 1, f"how often it says that it waits: {what}")
        expect(program.run("stop", standby.control), Ended("", 0), f"a stop of the one that waited: {what}")
        expect(standby.ended().status, 0, f"its status: {what}")
        expect(os.path.exists(standby.control), False, f"whether its socket is there yet: {what}")
    kept = {key.number for key in program.members(file)}
    expect((answered <= kept, len(kept - answered) <= is_killed), (True, True), f"the keys of the file: {what}")


def try_paths(program: Program, folder: str) -> None:
    """At a path it listens where the other service did, also where a killed one has left its socket."""
    for is_killed in (False, True):
        file = os.path.join(folder, f"f{is_killed}")
        path, first = f"{file}.socket", f"{file}.first"
        filled(program, file, 1)
        words = ("--socket", path)
        with Service(program, file, 2, *words, "--control", first, port="-") as service, Standby(program, file, "second", *words, port="-") as standby:
            standby.expect_waits()
            if is_killed:
                service.kill()
            else:
                expect(program.run("stop", first), Ended("", 0), "a stop")
            expect(standby.place(), path, "where it listens")
            with socket.socket(socket.AF_UNIX) as client:
                client.connect(path)
                client.sendall(b"has 1\nhas 2\nquit\n")
                expect(client.makefile().read(), "yes\nno\n", "what it serves")


def try_two(program: Program, folder: str) -> None:
    """Of two that wait one serves, and the other one waits on until that is killed."""
    file = os.path.join(folder, "f")
    filled(program, file, 1)
    with Service(program, file, 2) as service, Standby(program, file, "a") as one, Standby(program, file, "b") as other:
        one.expect_waits()
        other.expect_waits()
        service.kill()
        until(lambda: one.is_served() or other.is_served(), "that one serves")
        serving, waiting = (one, other) if one.is_served() else (other, one)
        expect(ask(serving.port(), "has 1", "add 2"), "yes\nyes\n", "replies of the first that serves")
        time.sleep(1)
        expect(waiting.lines(), [WAITING], "the log of the other one")
        serving.process.kill()
        expect(ask(waiting.port(), "has 1", "has 2"), "yes\nyes\n", "replies of the second that serves")


def try_replaced(program: Program, folder: str) -> None:
    """Where another file is renamed to the path while it waits it serves that one, once nobody has it."""
    file, new = os.path.join(folder, "f"), os.path.join(folder, "g")
    filled(program, file, 1)
    filled(program, new, 2)
    with Service(program, file, 1, "--control", f"{file}.first") as service, Standby(program, file, "second") as standby:
        standby.expect_waits()
        os.rename(new, file)
        program.run("stop", f"{file}.first")
        service.kill()
        expect(ask(standby.port(), "has 1", "has 2", "add 3"), "no\nyes\nyes\n", "what it serves")
    expect(program.members(file), [Key(0, 2), Key(0, 3)], "the keys of the file that has the name")
    # As a growth does it: the new file is locked before it has the name, and the old one is free first.
    filled(program, new, 4)
    with open(file, "rb") as old, open(new, "rb") as locked:
        for each in (old, locked):
            fcntl.flock(each, fcntl.LOCK_EX)
        with Standby(program, file, "third") as standby:
            standby.expect_waits()
            os.rename(new, file)
            fcntl.flock(old, fcntl.LOCK_UN)
            time.sleep(1)
            expect(standby.lines(), [WAITING], "the log while the new file is locked")
            fcntl.flock(locked, fcntl.LOCK_UN)
            expect(ask(standby.port(), "has 2", "has 4"), "no\nyes\n", "what it serves then")


def held_up(file: str) -> List[str]:
    """The words behind which a program's second try for a lock is held up after the file was opened."""
    return ["strace", "-f", "-qq", "-o", os.devnull, "-e", "trace=flock", "-e", f"inject=flock:delay_enter={HELD_UP}:when=2", "-P", file]


def try_nameless(program: Program, folder: str) -> None:
    """A file that loses its name between the look and the lock isn't served, though it may have another one: it looks again. Where there is none
    then it says `nofile`."""
    needs_strace()
    for is_moved in (False, True):
        file = os.path.join(folder, f"f{is_moved}")
        new, old = f"{file}.new", f"{file}.old"
        filled(program, file, 1)
        filled(program, new, 2)
        with Service(program, file, 1) as service, Standby(program, file, "second", before=held_up(file)) as standby:
            expect_held_up(standby)
            if is_moved:
                os.rename(file, old)
            os.rename(new, file)
            service.kill()
            expect(ask(standby.port(), "has 1", "has 2", "add 3"), "no\nyes\nyes\n", f"what it serves, where the other file was moved: {is_moved}")
        expect(program.members(file), [Key(0, 2), Key(0, 3)], "the keys of the file that has the name")
        if is_moved:
            expect(program.members(old), [Key(0, 1)], "the keys of the other one")
    file = os.path.join(folder, "f")
    filled(program, file, 1)
    with Service(program, file, 1) as service, Standby(program, file, "second", before=held_up(file)) as standby:
        expect_held_up(standby)
        os.remove(file)
        service.kill()
        expect(standby.ended(), NO_FILE, "what is said where the file was deleted")
        expect(standby.lines(), [WAITING, f"lazyset: {words_of('ENOENT')}"], "its words")
        expect(os.path.exists(standby.control), False, "whether its control socket is there yet")


def expect_held_up(standby: Standby) -> None:
    """It has opened the file once more, and tries the lock."""
    standby.expect_waits()
    time.sleep(MEANWHILE)
    expect(standby.lines(), [WAITING], "the log before the second lock")


def try_stopped(program: Program, folder: str) -> None:
    """A stop, or the end of standard input with --until-eof, ends the wait at once with status 0. The other service goes on."""
    file = os.path.join(folder, "f")
    filled(program, file, 1)
    with Service(program, file, 1) as service:
        for number, kind in enumerate((*KINDS, ("--until-eof",), ("--connections", "20", "--until-eof"))):
            with Standby(program, file, f"wait-{number}", *kind) as standby:
                standby.expect_waits()
                end_wait(program, standby, "--until-eof" in kind)
                expect(standby.lines(), STOPPED, f"the log: {kind}")
                expect(os.path.exists(standby.control), False, f"whether its control socket is there yet: {kind}")
        expect(ask(service.port, "has 1"), "yes\n", "a reply of the other service")
        words = ("serve", file, "0", "1", "--standby", "--control", f"{file}.empty", "--until-eof")
        expect(program.run(*words), Ended("", 0), "a wait whose standard input is empty")


def end_wait(program: Program, standby: Standby, by_input: bool) -> None:
    assert standby.process.stdin is not None
    if by_input:
        standby.process.stdin.write("what is read is thrown away\n" * 100)
        standby.process.stdin.flush()
    with socket.socket(socket.AF_UNIX) as client:
        client.connect(standby.control)
        client.sendall(b"nothing that is known\n")
    said = f"lazyset: clear {standby.control}: the room isn't cleared: 0 of its keys were removed\n"
    expect(program.run_loud("clear", standby.control, "3"), (Ended("", 1), said), "a clearing while it waits")
    time.sleep(0.5)
    expect((standby.process.poll(), standby.lines()), (None, [WAITING]), "whether it waits on")
    began = time.monotonic()
    if by_input:
        standby.process.stdin.close()
    else:
        expect(program.run_loud("stop", standby.control), (Ended("", 0), ""), "a stop while it waits")
    expect(standby.ended(), Ended("", 0), "how it ends")
    expect(time.monotonic() - began < SOON, True, "that it ends at once")


def try_words(program: Program, folder: str) -> None:
    """Without --control, or with --no-lock, the command line is refused. A service that can't be had after the wait leaves no socket."""
    file, control = os.path.join(folder, "f"), os.path.join(folder, "control")
    filled(program, file, 1)
    for words, told in (
        ((), "error: the following required arguments were not provided:\n  --control <PATH>\n"),
        (("0", "1"), "error: the following required arguments were not provided:\n  --control <PATH>\n"),
        (("--control", control, "--no-lock"), "error: the argument '--no-lock' cannot be used with '--standby'\n"),
    ):
        ended = program.run("serve", file, *words, "--standby")
        expect((ended.status, ended.text.partition("\nUsage")[0]), (2, told), f"the words {words}")
    later: Tuple[Tuple[Sequence[str], Ended], ...] = (
        (("0", "4", "--connections", "4", "--resp", "--text"), Ended("othernumbers\n", 3)),
        (("0", "4", "--connections", "4", "--resp", "--text", "--forget", "60"), Ended("othernumbers\n", 3)),
    )
    for words, wanted in later:
        expect(program.run("serve", file, *words, "--standby", "--control", control), wanted, f"a start with {words}")
        expect(os.path.exists(control), False, f"whether its control socket is there yet: {words}")
    program.make(os.path.join(folder, "old"), 8, 2)
    words = ("serve", os.path.join(folder, "old"), "0", "1", "--buckets", "5000", "--standby", "--control", control)
    expect(program.run(*words).status, 2, "more buckets than the file's format has")
    missing = os.path.join(folder, "missing")
    expect(program.run("serve", missing, "0", "1", "--standby", "--control", control), NO_FILE, "a file that isn't there")
    expect(os.path.exists(control), False, "whether a control socket is there yet")
    with Service(program, file, 1, "--control", control) as service:
        expect(program.run("serve", file, "0", "1", "--standby", "--control", control).status, 1, "the control socket of another service")
        expect(ask(service.port, "has 1"), "yes\n", "a reply of that")
        expect(program.run("stop", control), Ended("", 0), "a stop of that")
    with Standby(program, file, "free", passes=None) as standby:
        expect(ask(standby.port(), "has 1"), "yes\n", "a reply where the file was free")
        expect(standby.lines()[0], "opening", "the log where the file was free")


def try_locks(program: Program, folder: str) -> None:
    """A lock that fails otherwise is no wait, and neither is a file system without locks: both are told."""
    needs_strace()
    file, control = os.path.join(folder, "f"), os.path.join(folder, "control")
    filled(program, file, 1)
    reasons = [(error, "its lock failed, so another process may have it open") for error in ILL]
    reasons += [(error, "it can't be locked, so nothing tells whether another process has it") for error in WITHOUT]
    for error, why in reasons:
        ended, said = program.run_loud("serve", file, "0", "1", "--standby", "--control", control, before=unlocked(file, error))
        expect((ended, said), (NO_FILE, f"lazyset: {file}: {why}: {words_of(error)}\n"), error)
        expect(os.path.exists(control), False, f"whether a control socket is there after {error}")


def try_ready(program: Program, folder: str) -> None:
    """systemd is told once it serves, and not while it waits."""
    file, name = os.path.join(folder, "f"), os.path.join(folder, "notify")
    filled(program, file, 1)
    with socket.socket(socket.AF_UNIX, socket.SOCK_DGRAM) as heard:
        heard.bind(name)
        heard.settimeout(1)
        with Service(program, file, 1) as service, Standby(program, file, "second", before=["env", f"NOTIFY_SOCKET={name}"]) as standby:
            standby.expect_waits()
            try:
                raise Wrong(f"{heard.recv(100)!r} is told while it waits")
            except socket.timeout:
                pass
            service.kill()
            heard.settimeout(PATIENCE)
            expect(heard.recv(100), b"READY=1", "what is told once it serves")
            expect(standby.port() > 0, True, "whether it listens")


TRIALS = (
    ("a service that stands by and takes over", try_takeovers),
    ("a service that stands by at a path", try_paths),
    ("two services that stand by", try_two),
    ("a file that is replaced while a service stands by", try_replaced),
    ("a file that loses its name while a service stands by", try_nameless),
    ("a stop of a service that stands by", try_stopped),
    ("words for a service that stands by", try_words),
    ("locks that fail while a service stands by", try_locks),
    ("a service that stands by and is ready", try_ready),
)
