"""What a service says in its log, and how it ends once the device has failed."""

from __future__ import annotations

import os
import re
import shutil
import socket
import subprocess
import tempfile
import time
from contextlib import contextmanager
from typing import IO, Callable, Iterator, List, Sequence

from lazyset import Halted, Lazyset
from trials.faults import CAUSES, DEVICE_FAILED, failing, needs_strace
from trials.files import put
from trials.plain import held
from trials.program import PATIENCE, Ended, Key, Program, Service
from trials.report import Skip, expect
from trials.stops import lines_of

THREADLESS = "no thread can be made: the one that starts the others serves in its place"


@contextmanager
def logged(program: Program, file: str, passes: int, *options: str, before: Sequence[str] = ()) -> Iterator["Logged"]:
    """A service whose log is kept."""
    with tempfile.TemporaryFile("w+") as log, Service(program, file, passes, *options, before=before, log=log) as service:
        yield Logged(service, log, file)


class Logged:
    """A service and its log."""

    def __init__(self, service: Service, log: IO[str], file: str) -> None:
        self.service = service
        self.port = service.port
        self._log = log
        self._file = file

    def all_lines(self) -> List[str]:
        """The lines, without the file's name."""
        return lines_of(self._log, self._file)

    def lines(self) -> List[str]:
        """Those after the lines of the start."""
        lines = self.all_lines()
        begins = [line.split(" ")[0].rstrip(":") for line in lines[:3]]
        expect(begins, ["opening", "opened", "serving"], "the log's first words")
        return lines[3:]

    def ask(self, *lines: str) -> List[str]:
        """The replies of a session."""
        with socket.create_connection(("127.0.0.1", self.port), PATIENCE) as client:
            client.sendall("".join(f"{line}\n" for line in (*lines, "quit")).encode())
            return client.makefile().read().split()


def members_file(file: str, form: int, count: int, slots: int = 0) -> None:
    put(file, held(form, slots or count, [Key(0, key) for key in range(count)]))


def try_lists(program: Program, folder: str) -> None:
    """Lists of more than 64 members are told, and how to make them shorter: by as many buckets as the file's format allows."""
    file = os.path.join(folder, "long")
    hint = "long lists make commands slow: give it --buckets {} at the next start"
    for form, members, buckets, advised in (
        *((2, 64, 1, None), (2, 65, 1, 65), (1, 200, 3, 200), (2, 200, 4, None), (2, 5000, 70, 4096), (1, 5000, 70, 4096)),
        *((3, 5000, 70, 5000), (3, 5000, 4096, None)),
    ):
        members_file(file, form, members)
        with logged(program, file, 1, "--buckets", str(buckets)) as service:
            wanted = [hint.format(advised)] if advised else []
            expect(service.lines(), wanted, f"the log over {members} members of format {form} in {buckets} lists")
        told = f"lazyset: {file}: {hint.format(advised)}\n" if advised else ""
        found = program.run_loud("run", file, "--buckets", str(buckets), lines="has 0\n")
        expect(found, (Ended("yes\n", 0), told), f"a run over {members} members of format {form} in {buckets} lists")


def try_full(program: Program, folder: str, *options: str) -> None:
    """A share of the slots that is reached is told once, and `full` each time that it becomes so again."""
    file = os.path.join(folder, "full")
    members_file(file, 2, 0, 20)
    full = "full: no slot was free for a new key"
    with logged(program, file, 2, *options) as service:
        expect(service.ask(*(f"add {key}" for key in range(15))), ["yes"] * 15, "replies")
        expect(service.lines(), [], "the log before")
        expect(service.ask(*(f"add {key}" for key in range(15, 20))), ["yes"] * 5, "replies")
        shares = [f"{share} % full: {members} members in 20 slots" for share, members in ((80, 16), (90, 18), (95, 19))]
        expect(service.lines(), shares, "the log of the shares")
        expect(service.ask("add 20", "add 21"), ["full", "full"], "replies")
        expect(service.ask("add 20"), ["full"], "another client's reply")
        expect(service.lines(), [*shares, full], "the log")
        expect(service.ask("remove 0", "add 20"), ["yes", "yes"], "replies once a twentieth was free")
        expect(service.ask("add 21"), ["full"], "a reply after that")
        expect(service.lines(), [*shares, full, full], "the log after it was full again")


def try_one(program: Program, folder: str) -> None:
    """What there is one of is told so: a member, a slot, a place, and a connection that waits."""
    file = os.path.join(folder, "one")
    program.make(file, 1)
    with logged(program, file, 1, "--sessions", "2") as service:
        with socket.create_connection(("127.0.0.1", service.port), PATIENCE) as first:
            first.sendall(b"add 1\n")
            expect(first.recv(4), b"yes\n", "a reply")
            with socket.create_connection(("127.0.0.1", service.port), PATIENCE) as second:
                time.sleep(2.5)
                said = ["95 % full: 1 member in 1 slot", "the only place is taken, 1 connection waits"]
                expect(service.lines(), said, "the log while one waits")
                first.close()
                second.sendall(b"has 1\nquit\n")
                expect(second.recv(4), b"yes\n", "the reply to the one who waited")
        expect(service.service.wait(), 0, "the status")
        expect(service.lines(), [*said, "ended: sessions 2, members 1 of 1 slot"], "the log at the end")


def replaces(file: str) -> None:
    shutil.copy(file, f"{file}.copy")
    os.replace(f"{file}.copy", file)


def cuts(file: str) -> None:
    os.truncate(file, 20)


CHANGES = (
    (os.remove, "the file was deleted, or another one put in its place"),
    (replaces, "the file was deleted, or another one put in its place"),
    (cuts, "the file's length was changed"),
)


def try_changes(program: Program, folder: str, *options: str) -> None:
    """A file that is deleted, replaced or cut under a service is told once, at the next connection, and the next change is `halted`."""
    for number, (change, why) in enumerate(CHANGES):
        try_change(program, os.path.join(folder, f"file-{number}"), change, why, *options)


def try_change(program: Program, file: str, change: Callable[[str], None], why: str, *options: str) -> None:
    """The file is changed under a service, which says why once."""
    program.make(file, 4)
    with logged(program, file, 2, *options) as service:
        expect(service.ask("add 1"), ["yes"], "a reply")
        expect(service.lines(), [], "the log before")
        change(file)
        expect(service.ask("has 1"), ["yes"], "a lookup after that")
        expect(service.ask("add 2", "add 3"), ["halted"], "a change after that")
        expect(service.service.wait(), 1, "the status")
        ends = service.lines()
        expect(ends[:3], [f"{why}: no further change is answered", DEVICE_FAILED, f"lazyset: {why}"], "the log")


# The file's length with one of its two slots, and the formats: in 4 writes are gathered up to a sync.
ONE_SLOT, FORMATS = 32, (1, 2, 3, 4)


def try_cut(program: Program, folder: str, *options: str) -> None:
    """A file is cut between two additions of one connection, the second of which writes where it ended: it isn't made longer again, and no
    answer is given that the file doesn't hold. What made it shorter may have put it right by then: it has failed all the same."""
    for form, is_mended in ((form, is_mended) for form in FORMATS for is_mended in (False, True)):
        file = os.path.join(folder, f"cut-{form}-{is_mended}")
        program.make(file, 2, form)
        with logged(program, file, 2, *options) as service, Lazyset(service.port, timeout=PATIENCE) as keys:
            expect(keys.add(1), True, "the first addition")
            os.truncate(file, ONE_SLOT)
            expect_halted(keys, 2, f"an addition to a cut file of format {form}")
            if is_mended:
                os.truncate(file, ONE_SLOT + 16)
            expect(service.service.wait(), 1, "the status")
            expect(service.lines()[:2], [DEVICE_FAILED, "lazyset: the file's length was changed"], "the log")
        expect(os.path.getsize(file), ONE_SLOT + 16 * is_mended, "the file's length")
    try_cut_run(program, os.path.join(folder, "run"))


def expect_halted(keys: Lazyset, number: int, what: str) -> None:
    try:
        told: object = keys.add(number)
    except Halted:
        told = "halted"
    expect(told, "halted", what)


def try_cut_run(program: Program, file: str) -> None:
    """So it is of `run`."""
    program.make(file, 2)
    process = subprocess.Popen([program.path, "run", file], stdin=subprocess.PIPE, stdout=subprocess.PIPE, stderr=subprocess.PIPE, text=True)
    assert process.stdin is not None and process.stdout is not None
    process.stdin.write("add 1\n")
    process.stdin.flush()
    expect(process.stdout.readline(), "yes\n", "the first addition of a run")
    os.truncate(file, ONE_SLOT)
    told, words = process.communicate("add 2\n", timeout=PATIENCE)
    expect((told, process.returncode), ("halted\n", 1), "an addition of a run to a cut file")
    expect(f"lazyset: {file}: the file's length was changed\n" in words, True, f"what it says: {words!r}")


def try_threads(program: Program, folder: str) -> None:
    """Where two of three further threads can't be made the log says so, and the thread that makes them serves in their place."""
    needs_strace()
    file = os.path.join(folder, "threads")
    program.make(file, 4)
    calls = "clone,clone3"
    before = ["strace", "-f", "-qq", "-o", os.devnull, "-e", f"trace={calls}", "-e", f"inject={calls}:error=EAGAIN:when=2+"]
    with logged(program, file, 4, "--sessions", "1", before=before) as service:
        for key in (1, 2, 3, 4):
            expect(service.ask(f"add {key}"), ["yes"], "a reply")
        expect(service.service.wait(), 0, "the status of a service without all its threads")
        expect(service.lines()[:2], [THREADLESS] * 2, "the log")


def try_end(program: Program, folder: str) -> None:
    """Once a client was told that the device failed the service ends, though its other passes have no client."""
    needs_strace()
    file = os.path.join(folder, "ended")
    program.make(file, 4)
    with logged(program, file, 8, before=failing(file, "fdatasync", 2)) as service:
        with Lazyset(service.port, timeout=PATIENCE) as keys:
            try:
                keys.add(1)
            except Halted:
                pass
        began = time.monotonic()
        expect(service.service.wait(), 1, "the status of a service whose device failed")
        expect(time.monotonic() - began < 10, True, "that it ends at once")
        expect(service.lines()[:2], [DEVICE_FAILED, f"lazyset: {CAUSES['fdatasync']}"], "the log")


def try_pauses(program: Program, folder: str) -> None:
    """A pass that can't accept for want of descriptors tries again ever more seldom."""
    needs_strace()
    file, trace = os.path.join(folder, "pauses"), os.path.join(folder, "trace")
    program.make(file, 4)
    before = ["sh", "-c", 'ulimit -n 7 && exec "$@"', "sh", "strace", "-f", "-qq", "-o", trace, "-e", "trace=accept,accept4"]
    if subprocess.run([*before[:4], "true"]).returncode:
        raise Skip("no limit can be set")
    with logged(program, file, 1, before=before) as service:
        with socket.create_connection(("127.0.0.1", service.port), PATIENCE):
            time.sleep(2.5)
    with open(trace, encoding="ascii", errors="replace") as traced:
        tries = len(re.findall(r"EMFILE", traced.read()))
    # After 20, 40, 80, .. milliseconds: seven within 2.5 seconds, and no more than two from a second on.
    expect(4 <= tries <= 9, True, f"that {tries} tries are few")
