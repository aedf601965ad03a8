"""A service that waits for a file and writes it anew before it opens it: in format 4 in its own place, and else into a new file that takes its name."""

from __future__ import annotations

import fcntl
import os
import re
import signal
import subprocess
import time
from typing import Dict, List, Sequence, Tuple

from trials.faults import CAUSES, FAILURES, REFUSED_DEVICE, needs_strace
from trials.files import bytes_in, changed, of_format, put
from trials.locks import ask
from trials.plain import FORMATS, GATED, HEAD_SIZE, SLOT_SIZE, head_of, slot_of
from trials.program import PATIENCE, Ended, Key, Program, Service
from trials.report import Wrong, expect
from trials.standby import WAITING, Standby, until
from trials.stops import KINDS

# More slots than are written at once, and some keys of theirs.
SLOTS = 5_000
KEYS = [Key(0, number) for number in range(1, 200)]

# The calls of the system by which a rewriting changes files, folders and what of them is durable.
CALLS = ("pwrite64", "fdatasync", "fsync", "rename", "unlink", "chmod", "fchmod", "flock")

UNWRITTEN = "it couldn't be written anew"
ANEW = f"written anew: {SLOTS} slots"

# What a write of the system is told as by strace: where it begins, and how many bytes were written.
WRITE = re.compile(r"pwrite64\(\d+, .*, \d+, (\d+)\)\s*= (\d+)$")


def filled(program: Program, file: str, form: int) -> None:
    put(file, head_of(form, SLOTS) + b"".join(slot_of(key, form) for key in KEYS) + bytes(SLOT_SIZE * (SLOTS - len(KEYS))))
    expect(program.members(file), KEYS, "the keys of a file that was put together")


def form_in(file: str) -> int:
    return bytes_in(file)[7] - 0x30


def expect_anew(program: Program, file: str, form: int, before: bytes, inode: int, what: str) -> None:
    """Expects the file's keys, in format 4 in the very bytes and the very file, and else in another one, which has all rooms."""
    expect(program.members(file), KEYS, f"the keys: {what}")
    expect(form_in(file), max(form, 2), f"the format: {what}")
    expect(len(bytes_in(file)), HEAD_SIZE + SLOT_SIZE * SLOTS, f"the length: {what}")
    expect(os.stat(file).st_ino == inode, form == 4, f"whether it is the file that was there: {what}")
    if form == 4:
        expect(bytes_in(file) == before, True, f"whether its bytes are those that were there: {what}")
    expect(os.path.exists(f"{file}.grow"), False, f"whether a file stands beside it: {what}")


def try_takeovers(program: Program, folder: str) -> None:
    """It waits, takes over from a killed service, and writes the file anew, in each format. Its log says so."""
    for form in FORMATS:
        for number, kind in enumerate(KINDS[:2]):
            file = os.path.join(folder, f"f{form}-{number}")
            filled(program, file, form)
            what = f"format {form}, {kind}"
            before, inode = bytes_in(file), os.stat(file).st_ino
            with Service(program, file, 4, *kind) as service, Standby(program, file, "second", "--rewrite", *kind) as standby:
                standby.expect_waits()
                service.kill()
                port = standby.port()
                expect_anew(program, file, form, before, inode, what)
                log = standby.lines()
                expect((log[0], log.count(ANEW), log.index("opening") - log.index(ANEW)), (WAITING, 1, 1), f"the log: {what}: {log}")
                expect(ask(port, "has 17", "has 200", "add 200"), "yes\nno\nyes\n", f"what it serves: {what}")
                expect(program.run("run", file), Ended("nofile\n", 3), f"a run while it serves: {what}")
                expect(program.run("stop", standby.control), Ended("", 0), f"a stop: {what}")
                expect(standby.ended().status, 0, f"its status: {what}")
            expect(program.members(file), [*KEYS, Key(0, 200)], f"the keys after it: {what}")


def try_two(program: Program, folder: str) -> None:
    """Of two that wait one writes the file anew and serves it, and the other one waits on. Nobody gets the lock of the file that was there."""
    for form in (2, 4):
        file, what = os.path.join(folder, f"f{form}"), f"format {form}"
        filled(program, file, form)
        with open(file, "rb") as old, Service(program, file, 2) as service:
            with Standby(program, file, "a", "--rewrite") as one, Standby(program, file, "b", "--rewrite") as other:
                one.expect_waits()
                other.expect_waits()
                service.kill()
                until(lambda: one.is_served() or other.is_served(), "that one serves")
                serving, waiting = (one, other) if one.is_served() else (other, one)
                expect(ask(serving.port(), "has 17", "add 300"), "yes\nyes\n", f"replies of the first that serves: {what}")
                time.sleep(1)
                expect(waiting.lines(), [WAITING], f"the log of the other one: {what}")
                try:
                    fcntl.flock(old, fcntl.LOCK_EX | fcntl.LOCK_NB)
                    raise Wrong(f"the file that was there can be locked: {what}")
                except BlockingIOError:
                    pass
                serving.process.kill()
                expect(ask(waiting.port(), "has 17", "has 300"), "yes\nyes\n", f"replies of the second that serves: {what}")


def traced(program: Program, file: str, form: int, log: str) -> List[str]:
    """The calls of a service that writes this file anew, before it listens."""
    filled(program, file, form)
    before = ["strace", "-f", "-qq", "-o", log, "-s", "16", "-e", f"trace={','.join(CALLS)},write"]
    with Standby(program, file, "only", "--rewrite", before=before) as standby:
        standby.port()
        expect(program.run("stop", standby.control), Ended("", 0), "a stop of a traced service")
        standby.ended()
    with open(log, encoding="ascii", errors="replace") as text:
        lines = [line.partition(" ")[2].lstrip() for line in text]
    served = next(number for number, line in enumerate(lines) if "listening " in line)
    return [line.rstrip() for line in lines[:served]]


def try_written(program: Program, folder: str) -> None:
    """Before it listens it has written each byte of the file in format 4, between two syncs; and in another one all of a new file, which takes the name."""
    needs_strace()
    for form in FORMATS:
        calls = traced(program, os.path.join(folder, f"f{form}"), form, os.path.join(folder, "log"))
        writes = [(number, int(found.group(1)), int(found.group(2))) for number, line in enumerate(calls) for found in [WRITE.search(line)] if found]
        syncs = [number for number, line in enumerate(calls) if line.startswith("fdatasync(")]
        reached = 0
        for _, start, count in sorted(writes, key=lambda write: write[1]):
            if start > reached:
                raise Wrong(f"format {form}: the bytes from {reached} to {start} aren't written")
            reached = max(reached, start + count)
        expect(reached, HEAD_SIZE + SLOT_SIZE * SLOTS, f"how far format {form} is written")
        expect(syncs[0] < writes[0][0] and syncs[-1] > writes[-1][0], True, f"whether the writes of format {form} are between two syncs")
        expect(any(line.startswith("rename(") for line in calls), form != 4, f"whether a file gets the name in format {form}")


def counted(program: Program, folder: str, form: int) -> Dict[str, int]:
    """How often each of the calls is made before it listens."""
    calls = traced(program, os.path.join(folder, f"counted{form}"), form, os.path.join(folder, "log"))
    return {call: sum(line.startswith(f"{call}(") for line in calls) for call in CALLS}


def begun_behind(program: Program, file: str, call: str, inject: str) -> Tuple[subprocess.CompletedProcess[str], str]:
    """A service that writes the file anew behind strace, to its end."""
    control = f"{file}.control"
    words = [program.path, "serve", file, "0", "2", "--standby", "--rewrite", "--control", control]
    before = ["strace", "-f", "-qq", "-o", os.devnull, "-e", f"trace={call}", "-e", f"inject={call}:{inject}"]
    return subprocess.run([*before, *words], stdout=subprocess.PIPE, stderr=subprocess.PIPE, text=True, timeout=PATIENCE), control


def try_kills(program: Program, folder: str) -> None:
    """It is killed before each call by which it writes the file anew: the keys are the same, in format 4 in the very bytes."""
    needs_strace()
    for form in (2, 4):
        counts = counted(program, folder, form)
        for call, count in counts.items():
            for number in drawn(count):
                file = os.path.join(folder, f"f{form}-{call}-{number}")
                filled(program, file, form)
                before, what = bytes_in(file), f"format {form}, killed before {call} {number}"
                ended, _ = begun_behind(program, file, call, f"signal=KILL:when={number}")
                expect(ended.returncode, -signal.SIGKILL, what)
                expect(program.members(file), KEYS, f"the keys: {what}")
                if form == 4:
                    expect(bytes_in(file) == before, True, f"whether the bytes are those that were there: {what}")
                with Standby(program, file, "next", "--rewrite") as standby:
                    expect(ask(standby.port(), "has 17", "has 200"), "yes\nno\n", f"what another one serves then: {what}")
                os.remove(file)


def drawn(count: int) -> Sequence[int]:
    """Of many calls the first ones, some, and the last ones: a new file has a write for each slot."""
    return [number for number in range(1, count + 1) if number < 9 or number > count - 4 or number % 1_000 == 0]


def try_faults(program: Program, folder: str) -> None:
    """A write or a sync fails: it says so, as an open does whose device failed, and serves nothing. The file is as it was."""
    needs_strace()
    for form in (2, 4):
        counts = counted(program, folder, form)
        for call, error in FAILURES.items():
            # The last sync is the one of the open that follows.
            for number in drawn(counts[call] - (call == "fdatasync")):
                file = os.path.join(folder, f"f{form}-{call}-{number}")
                filled(program, file, form)
                before, what = bytes_in(file), f"format {form}, where {call} {number} fails"
                ended, control = begun_behind(program, file, call, f"error={error}:when={number}")
                expect(Ended(ended.stdout, ended.returncode), REFUSED_DEVICE, what)
                expect((CAUSES[call] in ended.stderr, UNWRITTEN in ended.stderr), (True, True), f"{what}: {ended.stderr!r}")
                expect(os.path.exists(control), False, f"whether its socket is there yet: {what}")
                expect(bytes_in(file) == before, True, f"whether the bytes are those that were there: {what}")
                expect(os.path.exists(f"{file}.grow"), False, f"whether a file stands beside it: {what}")
                os.remove(file)


def try_damaged(program: Program, folder: str) -> None:
    """A damaged file, and what is none, stays as it is, and is refused as without --rewrite."""
    file, control = os.path.join(folder, "f"), os.path.join(folder, "control")
    for form in FORMATS:
        slot = slot_of(Key(0, 17), form)
        whole = head_of(form, 2) + slot + slot_of(Key(0, 5), form)
        spoiled = changed(slot, 8, slot[8] ^ 0x80)
        for text, told in (
            (b"", "refused 1\n"),
            (changed(whole, 0, 0), "refused 1\n"),
            (changed(whole, 3, 0), "refused 2\n"),
            (whole[:-1], "refused 3\n"),
            (whole + b"\0", "refused 3\n"),
            (head_of(form, 0), "refused 4\n"),
            (head_of(form, 2) + spoiled + slot, "refused 5 0\n"),
            (head_of(form, 2) + slot + slot, "refused 6 0 1\n"),
        ):
            put(file, text)
            inode, what = os.stat(file).st_ino, f"format {form}, {text.hex()}"
            ended = program.run("serve", file, "0", "1", "--standby", "--rewrite", "--control", control)
            expect(ended, Ended(told, 3), what)
            expect((bytes_in(file), os.stat(file).st_ino), (text, inode), f"what is there then: {what}")
            expect((os.path.exists(control), os.path.exists(f"{file}.grow")), (False, False), f"what stands beside it: {what}")


def try_beside(program: Program, folder: str) -> None:
    """Where no new file can be made beside it says `nofile`; a file in format 4 needs none. A link stays one."""
    for form in (*GATED, 4):
        file, link = os.path.join(folder, f"f{form}"), os.path.join(folder, f"link{form}")
        filled(program, file, form)
        put(f"{file}.grow", b"somebody's\n")
        control = f"{file}.control"
        words = ("serve", file, "0", "1", "--standby", "--rewrite", "--control", control)
        if form != 4:
            expect(program.run(*words), Ended("nofile\n", 3), f"a start beside another file, format {form}")
            expect(program.members(file), KEYS, f"the keys then, format {form}")
            expect(os.path.exists(control), False, f"whether its socket is there yet, format {form}")
        expect(bytes_in(f"{file}.grow"), b"somebody's\n", f"the other file, format {form}")
        os.remove(f"{file}.grow")
        os.chmod(file, 0o640)
        os.symlink(file, link)
        with Standby(program, link, "only", "--rewrite") as standby:
            expect(ask(standby.port(), "has 17"), "yes\n", f"what it serves at a link, format {form}")
        expect((os.path.islink(link), os.stat(file).st_mode & 0o777), (True, 0o640), f"whether a link is one yet, and the mode, format {form}")


def try_words(program: Program, folder: str) -> None:
    """Without --standby the command line is refused, and so are the words that don't go with that."""
    file, control = os.path.join(folder, "f"), os.path.join(folder, "control")
    put(file, of_format(4, head_of(4, 1) + bytes(SLOT_SIZE)))
    needs = "error: the following required arguments were not provided:\n"
    for words, told in (
        ((), f"{needs}  --control <PATH>\n  --standby\n"),
        (("0", "1", "--control", control), f"{needs}  --standby\n"),
        (("0", "1", "--no-lock"), f"{needs}  --control <PATH>\n  --standby\n"),
        (("--standby",), f"{needs}  --control <PATH>\n"),
        (("--standby", "--control", control, "--no-lock"), "error: the argument '--standby' cannot be used with '--no-lock'\n"),
    ):
        ended = program.run("serve", file, *words, "--rewrite")
        expect((ended.status, ended.text.partition("\nUsage")[0]), (2, told), f"the words {words}")


TRIALS = (
    ("a service that writes its file anew", try_takeovers),
    ("two services that write their file anew", try_two),
    ("the calls by which a file is written anew", try_written),
    ("a service that is killed while it writes its file anew", try_kills),
    ("a device that fails while a file is written anew", try_faults),
    ("a damaged file that is to be written anew", try_damaged),
    ("what stands beside a file that is written anew", try_beside),
    ("words for a service that writes its file anew", try_words),
)
