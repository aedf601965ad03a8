"""Growths that are killed before each call of the system: the name's file holds its set whole, and a second growth ends the work."""

from __future__ import annotations

import fcntl
import os
import re
import shutil
import signal
import stat
import subprocess
from typing import Dict, List

from trials.faults import needs_strace
from trials.files import TWO_SLOTS, bytes_in, changed, put, said_of_others
from trials.plain import FORMATS, MOST_SLOTS
from trials.program import PATIENCE, Ended, Program
from trials.report import Wrong, expect

# The calls of the system by which a growth changes files, folders and what of them is durable.
CALLS = ("openat", "ftruncate", "fchown", "chown", "fchmod", "chmod", "flock", "pwrite64", "fdatasync", "fsync", "rename", "unlink")

# What a growth that was cut off leaves: a file that isn't made yet.
LEFT = changed(TWO_SLOTS, 0, 0)

OLD_SLOTS, NEW_SLOTS = 3, 5
KEYS = "17\n3:17\n5\n"
GROWN = Ended("grown 3\n", 0)


def words(file: str) -> List[str]:
    return ["grow", file, str(NEW_SLOTS)]


def made(program: Program, file: str) -> str:
    """A file with a few keys, and a copy of it."""
    expect(program.run("make", file, str(OLD_SLOTS), "--keys", lines=KEYS), Ended(f"made {OLD_SLOTS}\n", 0), "make --keys")
    copy = f"{file}.copy"
    shutil.copy(file, copy)
    return copy


def slots_of(program: Program, file: str) -> int:
    """How many slots a file has, which is good."""
    ended = program.run("info", file)
    found = re.search(r"^slots (\d+)$", ended.text, re.M)
    if ended.status or not found:
        raise Wrong(f"info: {ended}")
    return int(found.group(1))


def expect_whole(program: Program, file: str, copy: str, what: str) -> int:
    """Expects the set of the copy, and gives the file's slots."""
    ended = program.run("check", file, "--of", copy)
    expect((ended.text.splitlines()[-2:], ended.status), (["good", "same"], 0), what)
    return slots_of(program, file)


def count_calls(program: Program, folder: str) -> Dict[str, int]:
    """How often a growth to its end makes each of the calls."""
    file, log = os.path.join(folder, "counted"), os.path.join(folder, "log")
    copy = made(program, file)
    # What a growth that was cut off left is taken away first.
    put(f"{file}.grow", LEFT)
    before = ["strace", "-f", "-qq", "-o", log, "-e", f"trace={','.join(CALLS)}"]
    expect(program.run(*words(file), before=before), GROWN, "a growth")
    expect(expect_whole(program, file, copy, "a grown file"), NEW_SLOTS, "its slots")
    with open(log, encoding="ascii", errors="replace") as traced:
        text = traced.read()
    return {call: len(re.findall(rf"\b{call}\(", text)) for call in CALLS}


def kill_at(program: Program, folder: str, call: str, number: int) -> int:
    """Kills a growth before its call of that number, and gives how many slots the file has then."""
    file = os.path.join(folder, f"{call}-{number}")
    copy = made(program, file)
    put(f"{file}.grow", LEFT)
    what = f"a growth that was killed before {call} {number}"
    inject = f"{call}:signal=KILL:when={number}"
    before = ["strace", "-f", "-qq", "-o", os.devnull, "-e", f"trace={call}", "-e", f"inject={inject}"]
    ended = subprocess.run([*before, program.path, *words(file)], stdout=subprocess.PIPE, stderr=subprocess.PIPE, timeout=PATIENCE)
    expect(ended.returncode, -signal.SIGKILL, what)
    slots = expect_whole(program, file, copy, what)
    expect(program.run(*words(file)), GROWN, f"a growth after {what}")
    expect(expect_whole(program, file, copy, f"the file after a growth after {what}"), NEW_SLOTS, "its slots")
    expect(os.path.exists(f"{file}.grow"), False, "whether the new file stands beside the old one")
    return slots


def try_kills(program: Program, folder: str) -> None:
    """A growth is killed before each call of the system: the file is as it was or grown, and never less."""
    needs_strace()
    counts = count_calls(program, folder)
    if min(counts[call] for call in ("openat", "pwrite64", "fdatasync", "fsync", "rename", "unlink")) < 1:
        raise Wrong(f"too few calls to be killed at: {counts}")
    found = [kill_at(program, folder, call, number) for call, count in counts.items() for number in range(1, count + 1)]
    told = ", ".join(f"{count} of {call}" for call, count in counts.items() if count)
    print(f"         killed in turn: {told}; the old file was left {found.count(OLD_SLOTS)} times", flush=True)
    # A kill after the rename leaves the grown file: before the sync of the folder, at least.
    if set(found) != {OLD_SLOTS, NEW_SLOTS}:
        raise Wrong(f"the slots after the kills are always {set(found)}")


def try_faults(program: Program, folder: str) -> None:
    """Each write, sync and rename fails once: nothing is lost, the cause is told, and nothing stays beside the file."""
    needs_strace()
    counts = count_calls(program, folder)
    for call, error in (("pwrite64", "ENOSPC"), ("fdatasync", "EIO"), ("rename", "EIO")):
        for number in range(1, counts[call] + 1):
            file = os.path.join(folder, f"failed-{call}-{number}")
            copy = made(program, file)
            inject = f"{call}:error={error}:when={number}"
            before = ["strace", "-f", "-qq", "-o", os.devnull, "-e", f"trace={call}", "-e", f"inject={inject}"]
            ended, said = program.run_loud(*words(file), before=before)
            what = f"a growth whose {call} {number} fails"
            told = ("refused old 7\n", "refused new 3\n")
            expect((ended.text in told, ended.status, "os error" in said), (True, 1, True), f"{what}: {ended} {said!r}")
            expect(expect_whole(program, file, copy, what), OLD_SLOTS, f"the slots after {what}")
            expect(os.path.exists(f"{file}.grow"), False, f"whether a file stands beside after {what}")
    try_last_sync(program, folder, counts["fsync"])


def try_last_sync(program: Program, folder: str, number: int) -> None:
    """The folder's sync after the rename fails: the file is grown, but that isn't known to last, and it isn't said to."""
    file = os.path.join(folder, "unsynced")
    copy = made(program, file)
    before = ["strace", "-f", "-qq", "-o", os.devnull, "-e", "trace=fsync", "-e", f"inject=fsync:error=EIO:when={number}"]
    expect(program.run(*words(file), before=before), Ended("refused new 3\n", 1), "a growth whose last sync fails")
    expect(expect_whole(program, file, copy, "the file after it"), NEW_SLOTS, "its slots")


def try_names(program: Program, folder: str) -> None:
    """A link stays a link, and its file has its mode; a file that another process has isn't grown; a refused growth leaves nothing."""
    file, link = os.path.join(folder, "itself"), os.path.join(folder, "link")
    copy = made(program, file)
    os.chmod(file, 0o640)
    os.symlink("itself", link)
    expect(program.run(*words(link)), GROWN, "a growth through a link")
    expect((os.path.islink(link), expect_whole(program, file, copy, "the link's file")), (True, NEW_SLOTS), "the link and its file")
    expect(stat.S_IMODE(os.stat(file).st_mode), 0o640, "the mode of the grown file")
    expect(program.run("grow", file, "2"), Ended("refused 9 3 2\n", 3), "a growth into too few slots")
    expect(program.run("grow", file, "0"), Ended("refused new 2\n", 3), "a growth into no slots")
    expect(program.run("grow", os.path.join(folder, "absent"), "5"), Ended("nofile\n", 3), "a growth of no file")
    expect(program.run("grow", folder, "5"), Ended("nofile\n", 3), "a growth of a folder")
    expect(sorted(os.listdir(folder)), ["itself", "itself.copy", "link"], "what stands in the folder")
    with open(file, "rb") as held:
        fcntl.flock(held, fcntl.LOCK_SH)
        ended, said = program.run_loud(*words(file))
        expect((ended, "another process has it open" in said), (Ended("nofile\n", 3), True), "a growth of a locked file")


def try_beside(program: Program, folder: str) -> None:
    """A growth takes away what another one has left beside the file, and nothing else."""
    file, other = os.path.join(folder, "f"), os.path.join(folder, "other")
    copy, beside = made(program, file), os.path.join(folder, "f.grow")
    put(other, b"mine\n")
    for text in (b"x", b"mine\n", bytes(48), changed(TWO_SLOTS, 7, 0x39), b"x" * 1000):
        put(beside, text)
        said = said_of_others(beside, text)
        expect(program.run_loud(*words(file)), (Ended("nofile\n", 3), said), f"a growth beside {text[:16]!r}")
        expect((bytes_in(beside), expect_whole(program, file, copy, "the file")), (text, OLD_SLOTS), "what is left")
    os.remove(beside)
    os.symlink("other", beside)
    expect(program.run_loud(*words(file)), (Ended("nofile\n", 3), f"lazyset: {beside}: it isn't a regular file\n"), "a growth beside a link")
    expect((os.path.islink(beside), bytes_in(other)), (True, b"mine\n"), "the link, and what it leads to")
    os.remove(beside)
    for text in (b"", b"\0", LEFT, TWO_SLOTS, LEFT[:20]):
        put(beside, text)
        expect(program.run(*words(file)), GROWN, f"a growth beside {text[:20]!r}")
        expect((os.path.exists(beside), expect_whole(program, file, copy, "the grown file")), (False, NEW_SLOTS), "what is left")


def form_of(program: Program, file: str) -> int:
    """The format of a file."""
    return int(program.run("info", file).text.split()[1])


def try_formats(program: Program, folder: str) -> None:
    """A grown file has the format of the old one, where that has all rooms and so many slots; else one that has, which is said."""
    file, many = os.path.join(folder, "f"), MOST_SLOTS[2] + 1
    for form in FORMATS:
        for slots, options, grown in (
            *((many - 1, (), max(form, 2)), (many, (), form if form > 2 else 4), (many - 1, ("--format", "3"), 3), (many, ("--format", "3"), 3)),
            *((9, ("--format", "2"), 2), (9, (), max(form, 2))),
        ):
            put(file, None)
            program.make(file, 3, form)
            ended, said = program.run_loud("grow", file, str(slots), *options)
            changes = not options and grown != form
            told = f"lazyset: {file}: the new file is of format {grown}, in place of {form}\n" if changes else ""
            what = f"a file of format {form}, grown to {slots} slots {' '.join(options)}"
            expect((ended, said), (Ended("grown 0\n", 0), told), what)
            expect((form_of(program, file), slots_of(program, file)), (grown, slots), f"the format and the slots of {what}")
        for slots in (0, MOST_SLOTS[4] + 1):
            expect(program.run("grow", file, str(slots)), Ended("refused new 2\n", 3), f"a file of format {form}, grown to {slots} slots")
    expect(program.run("grow", file, str(many), "--format", "2"), Ended("refused new 2\n", 3), "a growth into a format that has fewer slots")
    # Where the old file is at fault, that is told, also for many slots.
    put(file, changed(TWO_SLOTS, 7, 0x39))
    expect(program.run("grow", file, str(many)), Ended("refused old 2\n", 3), "a growth of a file with a spoiled head")
