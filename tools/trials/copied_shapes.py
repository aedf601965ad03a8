"""Copies that have the slots and the format of the service's file, and copies that replace another one (`copy --replace`)."""

from __future__ import annotations

import fcntl
import os
import re
import signal
import stat
import subprocess
from typing import Dict, Iterable, List, Sequence

from trials.copies import NO_READ, NO_REPLY, answering, copied, endless, told
from trials.faults import needs_strace
from trials.files import TWO_SLOTS, bytes_in, changed, put, said_of_others
from trials.frames import by_frames
from trials.growing import CALLS, form_of, slots_of
from trials.plain_frames import bulk
from trials.program import PATIENCE, Ended, Key, Program, Service
from trials.report import Wrong, expect
from trials.scans import added

MANY = 65_537

# What a service tells of its file, as a scripted one tells it, and a scan of its one page.
ROWS = b"# Lazyset\r\nlazyset_version:1.17\r\nformat:3\r\nslots:70\r\nmembers:2\r\n"
PAGES = (told(0, 17, 5),)

# What isn't told so, or no whole row of it.
NO_ROWS = (
    *(b"", b"format:3\r\n", b"format:3\r\nslots:x\r\n", b"format:3\nslots:70\n", b"format:3\r\nxslots:70\r\n", b"format:3\r\nslots: 70\r\n"),
    *(b"format:3\r\nslots:070\r\n", b"format:3\r\nslots:70", b"FORMAT:3\r\nSLOTS:70\r\n", b"slots:70\r\nformat:-3\r\n"),
)

# The keys of an older copy, and of the set that is copied over it.
OLDER, NEWER = [Key(0, 1), Key(3, 2)], [Key(0, 7), Key(0, 8), Key(15, 9)]


def copy(program: Program, address: object, new: str, *options: str) -> Ended:
    return program.run("copy", str(address), new, *options)


def made(program: Program, file: str, keys: Iterable[Key], slots: int = 5, form: int = 2) -> None:
    listed = "".join(f"{key}\n" for key in keys)
    ended = program.run("make", file, str(slots), "--format", str(form), "--keys", lines=listed)
    expect(ended, Ended(f"made {slots}\n", 0), "make --keys")


def shape(program: Program, file: str) -> List[int]:
    return [form_of(program, file), slots_of(program, file)]


def try_shapes(program: Program, folder: str) -> None:
    """Without SLOTS a copy has the slots and the format of the service's file; with SLOTS its format is by those."""
    file, new = os.path.join(folder, "f"), os.path.join(folder, "new")
    for form, slots, options, wanted in (
        *((1, 9, (), [2, 9]), (2, 9, (), [2, 9]), (3, 9, (), [3, 9]), (4, 9, (), [4, 9]), (3, MANY, (), [3, MANY]), (4, MANY, (), [4, MANY])),
        *((4, 9, ("--format", "2"), [2, 9]), (1, 9, ("--format", "4"), [4, 9])),
        *((4, 9, ("8",), [2, 8]), (2, 9, (str(MANY - 1),), [2, MANY - 1]), (2, 9, (str(MANY),), [4, MANY])),
        (2, 9, (str(MANY), "--format", "3"), [3, MANY]),
    ):
        what = f"a copy of {slots} slots of format {form} with {options}"
        put(file, None)
        put(new, None)
        program.make(file, slots, form)
        with Service(program, file, 2, *by_frames(4)) as service:
            added(service.port, 0, [17, 5])
            expect(copy(program, service.port, new, *options), copied(2), what)
        expect((shape(program, new), program.members(new)), (wanted, [Key(0, 5), Key(0, 17)]), f"what it makes: {what}")
    put(new, None)


def try_told(program: Program, folder: str) -> None:
    """What a service tells of its file is read in whole rows, or nothing is made."""
    new = os.path.join(folder, "new")
    with endless([bulk(ROWS), *PAGES]) as port:
        expect(copy(program, port, new), copied(2), "a scripted service")
    expect((shape(program, new), program.members(new)), ([3, 70], [Key(0, 5), Key(0, 17)]), "what it makes")
    put(new, None)
    # A format that no release had yet: one by the slots.
    with endless([bulk(ROWS.replace(b"format:3", b"format:9")), *PAGES]) as port:
        expect(copy(program, port, new), copied(2), "a service of another format")
    expect(shape(program, new), [2, 70], "what it makes")
    put(new, None)
    others = (b"-ERR no\r\n", b"+OK\r\n", b"bad 2\n", bulk(ROWS) + b"+", b"*1\r\n" + bulk(ROWS), b"$99999999999\r\n", b"x" * 100_000)
    for text in (*map(bulk, NO_ROWS), *others):
        with endless([text, *PAGES]) as port:
            ended, said = program.run_loud("copy", str(port), new)
        why = "it doesn't tell its slots, or a page of keys: the service has to speak Redis's protocol (--resp beside PASSES), by release 1.17 or a later one"
        expect((ended, said), (NO_REPLY, f"lazyset: copy {port} {new}: noreply: {why}\n"), f"a service that tells {text[:60]!r} of its file")
        expect(os.path.exists(new), False, "whether there is a file")
    whole = bulk(ROWS)
    for count in range(0, len(whole), 5):
        with answering(whole[:count]) as port:
            expect(copy(program, port, new), NO_READ, f"a service that ends after {count} bytes of what it tells of its file")
        expect(os.path.exists(new), False, "whether there is a file")


def try_others(program: Program, folder: str) -> None:
    """A copy takes no other file's bytes away, also where it is to replace a set; it goes over what isn't made yet."""
    file, new = os.path.join(folder, "f"), os.path.join(folder, "new")
    made(program, file, NEWER)
    with Service(program, file, 2, *by_frames(8)) as service:
        for text in (b"x", b"mine\n", bytes(48), changed(TWO_SLOTS, 7, 0x39), b"x" * 1_000):
            for options in ((), ("--replace",), ("9",), ("9", "--replace")):
                put(new, text)
                said = said_of_others(new, text)
                expect(program.run_loud("copy", str(service.port), new, *options), (Ended("nofile\n", 3), said), f"a copy over {text[:16]!r}")
                expect(bytes_in(new), text, "what is left")
        for text in (b"", b"\0", changed(TWO_SLOTS, 0, 0), changed(TWO_SLOTS, 0, 0)[:20]):
            for options in ((), ("--replace",)):
                put(new, text)
                expect(copy(program, service.port, new, *options), copied(3), f"a copy over {text[:20]!r}")
                expect(program.members(new), NEWER, "what it makes")
        why = "it is a set already: --replace puts the copy in its place"
        found = program.run_loud("copy", str(service.port), new)
        expect(found, (Ended("refused 1\n", 3), f"lazyset: copy {service.port} {new}: refused 1: {why}\n"), "a copy over a set")
        expect(copy(program, service.port, folder, "--replace"), Ended("nofile\n", 3), "a copy over a folder")
    expect(sorted(os.listdir(folder)), ["f", "new"], "what is left")


def try_replaced(program: Program, folder: str) -> None:
    """A copy takes the place of an older one, longer or shorter, and of none; a link stays, and the file keeps its mode."""
    file, new, link = (os.path.join(folder, name) for name in ("f", "new", "link"))
    made(program, file, NEWER, 7, 4)
    os.symlink("new", link)
    with Service(program, file, 2, *by_frames(4)) as service:
        expect(copy(program, service.port, new, "--replace"), copied(3), "a copy that has nothing to replace")
        for slots, form in ((2, 2), (3, 3), (500, 4)):
            for name, options, wanted in ((new, (), [4, 7]), (link, ("4",), [2, 4])):
                put(new, None)
                made(program, new, OLDER, slots, form)
                os.chmod(new, 0o640)
                put(f"{new}.copy", changed(TWO_SLOTS, 0, 0))
                expect(copy(program, service.port, name, *options, "--replace"), copied(3), f"a copy in place of {slots} slots")
                expect((shape(program, new), program.members(new)), (wanted, NEWER), "what it makes")
                expect((os.path.islink(link), stat.S_IMODE(os.stat(new).st_mode)), (True, 0o640), "the link and the mode")
        put(new, None)
        made(program, new, OLDER)
        expect(copy(program, service.port, new, "2", "--replace"), Ended("refused 9 3 2\n", 3), "a copy without room")
        expect(program.members(new), OLDER, "the older copy")
        with open(new, "rb") as held:
            fcntl.flock(held, fcntl.LOCK_SH)
            ended, said = program.run_loud("copy", str(service.port), new, "--replace")
            expect((ended, "another process has it open" in said), (Ended("nofile\n", 3), True), "a copy in place of a locked file")
        put(f"{new}.copy", b"mine\n")
        expect(copy(program, service.port, new, "--replace"), Ended("nofile\n", 3), "a copy beside another file")
        expect((program.members(new), bytes_in(f"{new}.copy")), (OLDER, b"mine\n"), "what is left")
    os.remove(f"{new}.copy")
    with answering(bulk(ROWS)) as port:
        expect(copy(program, port, new, "--replace"), NO_READ, "a copy of a service that ends")
    expect((program.members(new), sorted(os.listdir(folder))), (OLDER, ["f", "link", "new"]), "what is left")


def counted(program: Program, folder: str, port: int) -> Dict[str, int]:
    """How often a copy that replaces another one makes each of the calls."""
    new, log = os.path.join(folder, "counted"), os.path.join(folder, "log")
    made(program, new, OLDER)
    before = ["strace", "-f", "-qq", "-o", log, "-e", f"trace={','.join(CALLS)}"]
    expect(program.run(*words(port, new), before=before), copied(3), "a copy")
    with open(log, encoding="ascii", errors="replace") as traced:
        text = traced.read()
    return {call: len(re.findall(rf"\b{call}\(", text)) for call in CALLS}


def words(port: int, new: str) -> List[str]:
    return ["copy", str(port), new, "--replace"]


def injected(call: str, what: str) -> Sequence[str]:
    return ["strace", "-f", "-qq", "-o", os.devnull, "-e", f"trace={call}", "-e", f"inject={call}:{what}"]


def try_killed(program: Program, folder: str) -> None:
    """A copy that replaces another one is killed before each call of the system: the older one is there, or the new one, whole."""
    needs_strace()
    file = os.path.join(folder, "f")
    made(program, file, NEWER)
    found = []
    with Service(program, file, 2, *by_frames(8)) as service:
        counts = counted(program, folder, service.port)
        if min(counts[call] for call in ("openat", "pwrite64", "fdatasync", "fsync", "rename")) < 1:
            raise Wrong(f"too few calls to be killed at: {counts}")
        for call, number in ((call, number) for call, count in counts.items() for number in range(1, count + 1)):
            new, what = os.path.join(folder, f"{call}-{number}"), f"a copy that was killed before {call} {number}"
            made(program, new, OLDER)
            before = injected(call, f"signal=KILL:when={number}")
            ended = subprocess.run([*before, program.path, *words(service.port, new)], stdout=subprocess.PIPE, stderr=subprocess.PIPE, timeout=PATIENCE)
            expect(ended.returncode, -signal.SIGKILL, what)
            found.append(program.members(new))
            expect(copy(program, service.port, new, "--replace"), copied(3), f"a copy after {what}")
            expect((program.members(new), os.path.exists(f"{new}.copy")), (NEWER, False), f"what is there after {what}")
    if [keys for keys in (OLDER, NEWER) if keys not in found] or [keys for keys in found if keys not in (OLDER, NEWER)]:
        raise Wrong(f"the kills left {found}")
    print(f"         killed {len(found)} times; the older copy was left {found.count(OLDER)} times", flush=True)


def try_faults(program: Program, folder: str) -> None:
    """Each write, sync and rename fails once: the older copy is there, but where only the last sync failed."""
    needs_strace()
    file = os.path.join(folder, "f")
    made(program, file, NEWER)
    with Service(program, file, 2, *by_frames(8)) as service:
        counts = counted(program, folder, service.port)
        for call, error in (("pwrite64", "ENOSPC"), ("fdatasync", "EIO"), ("rename", "EIO")):
            for number in range(1, counts[call] + 1):
                new, what = os.path.join(folder, f"failed-{call}-{number}"), f"a copy whose {call} {number} fails"
                made(program, new, OLDER)
                ended, said = program.run_loud(*words(service.port, new), before=injected(call, f"error={error}:when={number}"))
                expect((ended, "os error" in said), (Ended("refused 3\n", 1), True), f"{what}: {said!r}")
                expect((program.members(new), os.path.exists(f"{new}.copy")), (OLDER, False), f"what is left by {what}")
        new = os.path.join(folder, "unsynced")
        made(program, new, OLDER)
        ended = program.run(*words(service.port, new), before=injected("fsync", f"error=EIO:when={counts['fsync']}"))
        expect((ended, program.members(new)), (Ended("refused 3\n", 1), NEWER), "a copy whose last sync fails")


TRIALS = (
    ("copies with the shape of the service's file", try_shapes),
    ("copies of what tells no shape", try_told),
    ("copies over other files", try_others),
    ("copies in place of older ones", try_replaced),
    ("kills of copies that replace others", try_killed),
    ("each write, sync and rename of such a copy fails", try_faults),
)
