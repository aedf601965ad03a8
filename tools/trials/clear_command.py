"""`lazyset clear PATH R`: a service clears a room whose control socket is at PATH, whatever its clients speak."""

from __future__ import annotations

import os
import re
import socket
import subprocess
import threading
import time
from contextlib import ExitStack, contextmanager, suppress
from typing import Iterator, Optional, Sequence, Tuple

from trials.at_path import socket_of
from trials.clearing import BUSY, LARGE, ROOM, asked, clear, expect_left, expect_told, filled
from trials.closed import try_into_full
from trials.cut_clearings import expect_rest, left_of
from trials.frames import by_frames
from trials.guests import connect
from trials.loops import at_once
from trials.marks import MARK, TEXT, made
from trials.plain_frames import array, integer
from trials.program import PATIENCE, Ended, Key, Program, Service
from trials.report import Wrong, expect
from trials.secrets import SECRET, kept, marked_by, under
from trials.stops import control_of

IS_BUSY = "a room is being cleared: try again after it"
NO_ROOMS = "this service clears no room: it has no loops, or its keys are texts"
HAS_ENDED = "the connection ended: a service before 1.19 clears no room, or it has ended"
EARLY = r"the room isn't cleared: (\d+) of its keys were removed"

# The passes and words of services that have loops; one without passes chooses them.
SERVED: Sequence[Tuple[Optional[int], Sequence[str]]] = (
    *((16, by_frames(4)), (16, at_once(4)), (16, (*at_once(4), "--loops", "2")), (1, at_once(4))),
    *((None, ()), (None, ("--lines",)), (None, ("--resp",)), (None, ("--loops", "3"))),
)

# What is no room, and why.
NO_ROOM = (
    *(("16", "16 is not in 0..=15"), ("18446744073709551615", "18446744073709551615 is not in 0..=15"), ("x", "invalid digit found in string")),
    *(("3:5", "invalid digit found in string"), ("", "cannot parse integer from empty string"), ("9" * 20, "number too large to fit in target type")),
)

MORE = "\n\nFor more information, try '--help'.\n"


def cleared(count: int) -> Tuple[Ended, str]:
    return Ended(f"cleared {count}\n", 0), ""


def said(control: str, why: str) -> Tuple[Ended, str]:
    """What is printed, and said, where a room isn't cleared."""
    return Ended("", 1), f"lazyset: clear {control}: {why}\n"


def lines_of(port: int, *lines: bytes) -> bytes:
    """The replies to lines."""
    with connect(port) as client, client.makefile("rb") as replies:
        client.sendall(b"\n".join(lines) + b"\nquit\n")
        return replies.read()


def try_command(program: Program, folder: str) -> None:
    """Services of frames, of lines and of both, on a port and at a path, clear the room: the count is printed, and a second time it is 0. They go on, and
    are stopped at the same socket."""
    for at, (passes, words) in enumerate(SERVED):
        file, what = os.path.join(folder, f"f{at}"), f"{passes} passes {' '.join(words)}"
        control = control_of(file)
        named = ("--control", control) if passes else ()
        room, others = filled(program, file, (4, 2)[at % 2])
        with Service(program, file, passes, *words, *named) as service:
            expect(program.run_loud("clear", control, str(ROOM)), cleared(len(room)), f"the first one: {what}")
            expect(program.run_loud("clear", control, str(ROOM)), cleared(0), f"the second one: {what}")
            expect(program.run_loud("clear", control, "7"), cleared(0), f"a room that had no keys: {what}")
            try_into_full(program, ("clear", control, "7"), 1)
            if "--resp" not in words:
                lines = (b"has %d:%d" % room[0], b"has %d:%d" % others[0], b"add %d:%d" % room[0])
                expect(lines_of(service.port, *lines), b"no\nyes\nyes\n", f"lines after it: {what}")
                expect(program.run_loud("clear", control, str(ROOM)), cleared(1), f"the key that was added: {what}")
            expect(program.run("stop", control), Ended("", 0), f"the stop: {what}")
            expect(service.wait(), 0, f"the service's status: {what}")
        expect_left(program, file, others, what)
    file = os.path.join(folder, "at-path")
    room, others = filled(program, file, 4)
    with Service(program, file, 16, "--socket", socket_of(file), "--control", control_of(file), *at_once(4), port="-"):
        expect(program.run_loud("clear", control_of(file), str(ROOM)), cleared(len(room)), "a service at a path")
        for other in (0, 15):
            expect(program.run_loud("clear", control_of(file), str(other)), cleared(len(others) // 2), f"room {other} of a service at a path")
    expect_left(program, file, [], "a service at a path")


def try_refused(program: Program, folder: str) -> None:
    """A service of texts, or of a thread for each connection, clears no room, says so, and goes on."""
    path = kept(folder, SECRET)
    keys, marks = [Key(3, 5), Key(0, 5)], [MARK, marked_by(SECRET)]
    for at, (passes, words, held) in enumerate(
        (
            *((4, (), keys), (1, (), keys), (64, (), keys)),
            *((4, TEXT, marks[:1]), (4, under(path), marks), (None, ("--text",), marks[:1]), (None, ("--text", "--secret", path), marks)),
        )
    ):
        file, what = os.path.join(folder, f"f{at}"), f"{passes} passes {' '.join(words)}"
        control = control_of(file)
        made(program, file, held, 100, 4)
        with Service(program, file, passes, *words, "--control", control) as service:
            for room in (3, 0, 15):
                expect(program.run_loud("clear", control, str(room)), said(control, NO_ROOMS), f"the clearing of room {room}: {what}")
            with connect(service.port) as client:
                client.sendall(b"has 3:5\n" if held == keys else array(b"PING"))
                expect_told(client, b"yes\n" if held == keys else b"+PONG\r\n", f"a client after it: {what}")
            expect(program.run("stop", control), Ended("", 0), f"the stop: {what}")
        expect_left(program, file, sorted(held), what)


def try_words(program: Program, folder: str) -> None:
    """What is no room is refused by the command line, and a path where nobody listens as `stop` refuses it. A service of an earlier release, which ends the
    connection, is told of."""
    missing = os.path.join(folder, "missing")
    absent, hint = "No such file or directory (os error 2)", ": PATH is the control socket, as FILE.control"
    for path, way_out in ((missing, ""), ("7000", hint), ("7000.control", "")):
        for command in (("stop", path), ("clear", path, "3")):
            wanted = Ended("nofile\n", 3), f"lazyset: {path}: {absent}{way_out}\n"
            expect(program.run_loud(*command), wanted, f"{' '.join(command)}, where nobody listens")
    for room, why in NO_ROOM:
        told, words = program.run_loud("clear", missing, room)
        first = told.text.partition("\n")[0]
        expect((told.status, words), (2, f"lazyset: {first}\n"), f"the room {room!r}")
        expect(bool(re.fullmatch(rf"error: invalid value '{room}' for '<\w+>': {re.escape(why)}", first)), True, f"that {first!r} tells of {room!r}")
        expect(told.text[len(first) :], MORE, f"how it ends of {room!r}")
    for given in ((), (missing,), (missing, "3", "4"), (missing, "-1"), (missing, "3", "--within", "5")):
        expect(program.run("clear", *given).status, 2, f"the status of clear {' '.join(given)}")
    for count in (1, 5, 4096):
        path = os.path.join(folder, f"earlier-{count}")
        with ending_after(path, count):
            expect(program.run_loud("clear", path, "3"), said(path, HAS_ENDED), f"a service that ends the connection after {count} bytes")


@contextmanager
def ending_after(path: str, count: int) -> Iterator[None]:
    """A socket where a connection ends once up to so many bytes have come, one at least: where none is awaited the client may not write any more."""
    with socket.socket(socket.AF_UNIX) as listener:
        listener.bind(path)
        listener.listen(1)

        def end() -> None:
            with suppress(OSError):
                client, _ = listener.accept()
                with client:
                    client.recv(count)

        thread = threading.Thread(target=end)
        thread.start()
        yield
        thread.join(PATIENCE)


def begun(program: Program, control: str) -> "subprocess.Popen[str]":
    """A clearing that goes on."""
    process = subprocess.Popen([program.path, "clear", control, str(ROOM)], stdout=subprocess.PIPE, stderr=subprocess.PIPE, text=True)
    time.sleep(0.3)
    return process


def ended(process: "subprocess.Popen[str]") -> Tuple[Ended, str]:
    text, words = process.communicate(timeout=PATIENCE)
    return Ended(text, process.returncode), words


def try_at_once(program: Program, folder: str) -> None:
    """While a room is cleared a second clearing is refused, whether the command or a client asks for either, and `stop` ends the service all the same."""
    file = os.path.join(folder, "f")
    control = control_of(file)
    room, others = filled(program, file, 4, LARGE)
    with Service(program, file, 16, "--control", control, *by_frames(4)) as service:
        with begun(program, control) as first:
            expect(program.run_loud("clear", control, "0"), said(control, IS_BUSY), "a second command")
            expect(asked(service.port, clear(ROOM)), BUSY, "a client beside the command")
            expect(ended(first), cleared(len(room)), "the first one")
        expect(asked(service.port, clear(ROOM)), integer(0), "a client after it")
    expect_left(program, file, others, "after it")
    file = os.path.join(folder, "g")
    control = control_of(file)
    filled(program, file, 4, LARGE)
    with Service(program, file, 16, "--control", control, *by_frames(4)) as service, ExitStack() as stack:
        client = stack.enter_context(connect(service.port))
        client.settimeout(PATIENCE)
        client.sendall(clear(ROOM))
        time.sleep(0.3)
        expect(program.run_loud("clear", control, str(ROOM)), said(control, IS_BUSY), "the command beside a client")
        expect_told(client, integer(len(room)), "what the client is told")
        expect(program.run_loud("clear", control, str(ROOM)), cleared(0), "the command after it")
    expect_left(program, file, others, "after it")


def try_stopped(program: Program, folder: str) -> None:
    """A service of lines that is asked to stop, or killed, while it clears a room: the command says so, with status 1, and the file has all other keys."""
    for name in ("stop", "kill"):
        file = os.path.join(folder, name)
        control = control_of(file)
        room, others = filled(program, file, 4, LARGE)
        with Service(program, file, 16, "--control", control, *at_once(4)) as service, begun(program, control) as process:
            if name == "stop":
                expect(program.run("stop", control), Ended("", 0), "the stop")
                expect(service.wait(), 0, "the service's status")
            else:
                service.kill()
            told, words = ended(process)
        expect(told, Ended("", 1), f"what is printed at a {name}")
        left = left_of(program, file, room, others, f"a {name}")
        why = re.fullmatch(rf"lazyset: clear {re.escape(control)}: (?:{EARLY}|{re.escape(HAS_ENDED)})\n", words)
        if not why or not left:
            raise Wrong(f"at a {name} that leaves {len(left)} keys {words!r} is said")
        expect(int(why[1] or 0) <= len(room) - len(left), True, f"that {words!r} counts no more keys than are gone: {len(room) - len(left)}")
        expect_rest(program, file, left, others, f"a {name}")


TRIALS = (
    ("the command that clears a room", try_command),
    ("services that clear no room", try_refused),
    ("the words of clear", try_words),
    ("the command that clears a room, twice at once", try_at_once),
    ("a stop while the command clears a room", try_stopped),
)
