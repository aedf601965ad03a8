"""Two processes on one file: the second one is refused, and changes nothing."""

from __future__ import annotations

import errno
import fcntl
import os
import socket
from typing import List, Tuple

from trials.faults import needs_strace
from trials.files import CLOSED, TORN, bytes_in, put
from trials.program import PATIENCE, Ended, Program, Service
from trials.report import expect
from trials.torn import HEAD_4, words_for

NO_FILE = Ended("nofile\n", 3)

# By what a lock fails where there are none, and by what a file system that has some tells that it is ill or has none left.
WITHOUT, ILL = ("ENOSYS", "EOPNOTSUPP"), ("ENOTCONN", "ESTALE", "ENOLCK", "EIO")

NO_LOCK_HINT = "; where surely none has, give it --no-lock"

# What the commands that read a file tell of one with four slots and the key 1.
READINGS = (("info", "format 2\nslots 4\nmembers 1\nfree 3\ngood\n"), ("check", "slot 0 key 1\ngood\n"))


def taken(path: str) -> Tuple[Ended, str]:
    return NO_FILE, f"lazyset: {path}: another process has it open\n"


def beside(path: str) -> str:
    """What is said of a file that was read while another process had it to itself, where the system tells of locks."""
    with open("/proc/locks", encoding="ascii") as table:
        is_told = f":{os.stat(path).st_ino} " in table.read()
    return f"lazyset: {path}: another process has it open: what is told is of no one moment\n" if is_told else ""


def ask(port: int, *lines: str) -> str:
    with socket.create_connection(("127.0.0.1", port), PATIENCE) as client:
        client.sendall("".join(f"{line}\n" for line in (*lines, "quit")).encode())
        return client.makefile().read()


def try_locks(program: Program, folder: str) -> None:
    """While a service has the file no other command may write it, and those that read it may."""
    file, other, new = (os.path.join(folder, name) for name in ("served", "other", "new"))
    program.make(file, 4)
    program.make(other, 4)
    with Service(program, file, 1) as service:
        expect(ask(service.port, "add 1"), "yes\n", "a reply")
        before = bytes_in(file)
        for words in (("run", file), ("serve", file, "0", "1"), ("make", file, "8"), ("make", file, "8", "--keys"), ("grow", file, "8")):
            expect(program.run_loud(*words), taken(file), f"{words[0]} of a file that is served")
        expect(program.run_loud("renew", other, file, "8"), taken(file), "a renewal into a file that is served")
        expect(program.run_loud("renew", file, new, "8"), taken(file), "a renewal of a file that is served")
        expect(os.path.exists(new), False, "whether that made a file")
        for words, told in READINGS:
            expect(program.run_loud(words, file), (Ended(told, 0), beside(file)), words)
        expect(program.run_loud("check", other, "--of", file), (Ended("good\nflaw 9 0\n", 4), beside(file)), "a check beside the file that is served")
        expect(bytes_in(file), before, "the file's bytes")
        expect(ask(service.port, "has 1", "add 2"), "yes\nyes\n", "replies")
    expect(program.run("run", file, lines="has 1\nhas 2\n"), Ended("yes\nyes\n", 0), "a run after the service")
    expect(program.run_loud("info", file), (Ended("format 2\nslots 4\nmembers 2\nfree 2\ngood\n", 0), ""), "info after the service")
    try_torn(program, os.path.join(folder, "torn"))
    try_shared(program, file, os.path.join(folder, "renewed"))
    try_itself(program, file)


def try_torn(program: Program, file: str) -> None:
    """Of a file that is served, and has a torn slot, both is said; its other slots are told as ever."""
    put(file, HEAD_4 + TORN + CLOSED)
    counted = "format 4\nslots 2\nmembers {}\nfree {}\ngood\n"
    with Service(program, file, 1) as service:
        expect(program.run_loud("info", file), (Ended(counted.format(0, 2), 0), beside(file) + words_for(file, 1)), "info of a torn file that is served")
        expect(ask(service.port, "add 17"), "yes\n", "an addition over a torn slot")
        for words, told in ((("check", file), "slot 0 key 17\ngood\n"), (("check", file, "--keys"), "17\n"), (("info", file), counted.format(1, 1))):
            expect(program.run_loud(*words), (Ended(told, 0), beside(file)), f"{words[0]} beside the service")
    expect(program.run_loud("check", file), (Ended("slot 0 key 17\ngood\n", 0), ""), "a check after the service")


def try_shared(program: Program, old: str, new: str) -> None:
    """A renewal reads a file that others only read, and keeps those away who would write it."""
    with open(old, "rb") as reading:
        fcntl.flock(reading, fcntl.LOCK_SH)
        expect(program.run("renew", old, new, "8"), Ended("renewed 2\n", 0), "a renewal beside a reader")
        expect(program.run_loud("run", old), taken(old), "a run beside a reader")
    with open(old, "rb") as writing:
        fcntl.flock(writing, fcntl.LOCK_EX)
        expect(program.run_loud("renew", old, new, "8"), taken(old), "a renewal beside a writer")


def unlocked(file: str, error: str) -> List[str]:
    """The words behind which a program's lock of the file fails so."""
    return ["strace", "-f", "-qq", "-o", os.devnull, "-P", file, "-e", "trace=flock", "-e", f"inject=flock:error={error}"]


def words_of(error: str) -> str:
    number = getattr(errno, error)
    return f"{os.strerror(number)} (os error {number})"


def try_failing(program: Program, folder: str) -> None:
    """Where a file system has no locks a command goes on, and says so. Any other failure refuses it, unless --no-lock is given."""
    needs_strace()
    file = os.path.join(folder, "f")
    program.make(file, 4)
    before = bytes_in(file)
    for error in ILL:
        why = f"lazyset: {file}: its lock failed, so another process may have it open: {words_of(error)}"
        for command in (("run", file), ("serve", file, "0", "1")):
            told = NO_FILE, f"{why}{NO_LOCK_HINT}\n"
            expect(program.run_loud(*command, lines="add 1\n", before=unlocked(file, error)), told, f"{command[0]} where a lock fails by {error}")
        for command in (("make", file, "8"), ("grow", file, "8"), ("renew", file, f"{file}.new", "8")):
            expect(program.run_loud(*command, before=unlocked(file, error)), (NO_FILE, f"{why}\n"), f"{command[0]} where a lock fails by {error}")
        expect(bytes_in(file), before, "the file's bytes")
    for error, option in (*((error, ()) for error in WITHOUT), *((error, ("--no-lock",)) for error in ILL)):
        said = f"lazyset: {file}: it can't be locked, so see that nothing else opens it: {words_of(error)}\n"
        ended = program.run_loud("run", file, *option, lines="has 1\n", before=unlocked(file, error))
        expect(ended, (Ended("no\n", 0), said), f"a run without locks by {error}")
    with Service(program, file, 1, "--no-lock", before=unlocked(file, "ENOLCK")) as service:
        expect(ask(service.port, "add 1"), "yes\n", "a reply of a service without a lock")
    with Service(program, file, 1):
        expect(program.run_loud("run", file, "--no-lock"), taken(file), "a run with --no-lock of a file that is served")


def try_itself(program: Program, file: str) -> None:
    """A file isn't kept away from itself."""
    expect(program.run("renew", file, file, "8"), Ended("refused new 1\n", 3), "a renewal into itself")
