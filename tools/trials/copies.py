"""Copies of a set while it is served (`copy`): whole or not at all."""

from __future__ import annotations

import itertools
import os
import random
import socket
import subprocess
import threading
import time
from collections import Counter
from contextlib import contextmanager, suppress
from typing import Counter as Count
from typing import Iterator, List, Sequence, Tuple

from trials.at_path import socket_of
from trials.changing import changing
from trials.frames import by_frames, replies
from trials.hostile import tell
from trials.makings import NO_FILE, NOT_MADE
from trials.plain_frames import array, bulk
from trials.program import PATIENCE, Ended, Key, Program, Service
from trials.report import expect
from trials.scans import added

# Keys that are members all the while, keys that come and go, and by how many clients.
STAYING, CHANGING, CHANGERS = 4_000, 50, 64

COPIES = 6

# How long a copy may take beside them.
MOST_SECONDS = 300

# Members of a set of which a copy or the service is killed, its slots, and by how many clients it is changed meanwhile.
MANY, ROOM_FOR, FEW = 20_000, 21_000, 4

ROOMS = {0: [0, 17, 4, 10**18 - 1], 3: [17, 8], 15: list(range(1_500))}
KEYS = {Key(room, number) for room, numbers in ROOMS.items() for number in numbers}

NO_SERVICE = Ended("nofile\n", 3)
NO_READ = Ended("noread\n", 1)
NO_REPLY = Ended("noreply\n", 3)


def copied(count: int) -> Ended:
    return Ended(f"copied {count}\n", 0)


def copy(program: Program, address: object, new: str, slots: int, *options: str) -> Ended:
    return program.run("copy", str(address), new, str(slots), *options, patience=MOST_SECONDS)


def try_copied(program: Program, folder: str) -> None:
    """A copy has the keys of the set, by each kind of address, in each format with its rooms; it may be served in turn."""
    file, path = os.path.join(folder, "f"), socket_of(os.path.join(folder, "f"))
    program.make(file, 10_000)
    with Service(program, file, 4, *by_frames(4)) as service:
        for room, numbers in ROOMS.items():
            for at in range(0, len(numbers), 500):
                added(service.port, room, numbers[at : at + 500])
        for form in (2, 3, 4):
            for at, address in enumerate((service.port, f"127.0.0.1:{service.port}", f"localhost:{service.port}")):
                new = os.path.join(folder, f"g{form}{at}")
                expect(copy(program, address, new, 2_000, "--format", str(form)), copied(len(KEYS)), f"a copy from {address} into format {form}")
                expect(program.members(new), sorted(KEYS), "what it holds")
        expect(copy(program, service.port, new, 2_000), Ended("refused 1\n", 3), "a copy over a set")
    for form in (2, 3, 4):
        ended = program.run("check", os.path.join(folder, f"g{form}0"), "--of", file)
        expect((ended.text.endswith("good\nsame\n"), ended.status), (True, 0), f"the copy of format {form} beside the set that was served")
    with Service(program, os.path.join(folder, "g30"), 4, "--socket", path, *by_frames(4), port="-"):
        expect(copy(program, path, os.path.join(folder, "h"), 1_600, "--format", "4"), copied(len(KEYS)), "a copy of a copy, from a path")
    expect(program.members(os.path.join(folder, "h")), sorted(KEYS), "what that holds")


def try_oldest(program: Program, folder: str) -> None:
    """Of a file of format 1 the rooms above 0 are empty. An empty set is copied too."""
    for name, keys in (("one", [5, 6]), ("none", [])):
        file, new = os.path.join(folder, name), os.path.join(folder, f"{name}.new")
        program.make(file, 10, 1)
        with Service(program, file, 4, *by_frames(4)) as service:
            if keys:
                added(service.port, 0, keys)
            expect(copy(program, service.port, new, 1), copied(0) if not keys else Ended("refused 9 2 1\n", 3), "a copy with room for one key")
            expect(os.path.exists(new), not keys, "whether there is a file")
            if keys:
                expect(copy(program, service.port, new, 2), copied(2), "a copy with room for both")
        expect(program.members(new), [Key(0, key) for key in keys], "what it holds")


def try_meanwhile(program: Program, folder: str) -> None:
    """While 64 clients add and remove keys, each copy holds those that are members all the while, and none that at no moment is one."""
    file = os.path.join(folder, "f")
    stay = [Key(room, number) for room in (0, 7) for number in range(STAYING // 2)]
    program.make(file, 3 * STAYING, 4)
    with Service(program, file, 64, "--loops", "2", *by_frames(100)) as service:
        for room in (0, 7):
            added(service.port, room, list(range(STAYING // 2)))
        with changing(service.port, [own_keys(at, STAYING) for at in range(CHANGERS)], stay, 0) as changed:
            for at in range(COPIES):
                new = os.path.join(folder, f"g{at}")
                with changed.watched() as known:
                    ended = copy(program, service.port, new, 3 * STAYING, "--format", str(2 + at % 3))
                held = program.members(new)
                expect(ended, copied(len(held)), "what the copy says")
                expect(known.flaws(held), [], "what is wrong with the copy")


def own_keys(client: int, first: int) -> List[Key]:
    """The keys that a client changes, where the first one changes those from this number on."""
    return [Key(client % 16, first + client * CHANGING + number) for number in range(CHANGING)]


@contextmanager
def answering(text: bytes) -> Iterator[int]:
    """A port where one client is told this, whatever it asks, and then the connection ends."""
    with socket.create_server(("127.0.0.1", 0)) as listener:

        def answer() -> None:
            client, _ = listener.accept()
            with client, suppress(OSError):
                client.recv(1 << 16)
                client.sendall(text)
                client.shutdown(socket.SHUT_WR)
                while client.recv(1 << 16):
                    pass

        thread = threading.Thread(target=answer)
        thread.start()
        yield listener.getsockname()[1]
        thread.join(PATIENCE)


def told(next_one: int, *keys: int) -> bytes:
    """A page."""
    return b"*2\r\n" + bulk(b"%d" % next_one) + b"*%d\r\n" % len(keys) + b"".join(bulk(b"%d" % key) for key in keys)


def try_cut_off(program: Program, folder: str) -> None:
    """Wherever replies end nothing is made, and what is no page is told."""
    whole = told(4096, 17, 3 * 10**18 + 5) + told(0, 17)
    with answering(whole) as port:
        expect(copy(program, port, os.path.join(folder, "whole"), 2), copied(2), "a whole scan")
    expect(program.members(os.path.join(folder, "whole")), [Key(0, 17), Key(3, 5)], "what it makes")
    new = os.path.join(folder, "new")
    for count in range(0, len(whole), 7):
        with answering(whole[:count]) as port:
            expect(copy(program, port, new, 2), NO_READ, f"a scan that ends after {count} bytes")
        expect(os.path.exists(new), False, "whether there is a file")
    for reply in (b"-ERR no\r\n", b"bad 2\n", b"+OK\r\n", b"*3\r\n", b"*2\r\n$2\r\n00\r\n", told(0, 16 * 10**18), b"*2\r\n$" + b"1" * 100_000):
        with answering(told(1, 7) + reply) as port:
            expect(copy(program, port, new, 2), NO_REPLY, f"a scan that is told {reply[:40]!r}")
        expect(os.path.exists(new), False, "whether there is a file")


@contextmanager
def endless(pages: Sequence[bytes], seconds: float = 0) -> Iterator[int]:
    """A port where one client is told these pages, one for each request, after so long each, and again from the first one on. A frame of no words asks
    for nothing."""
    with socket.create_server(("127.0.0.1", 0)) as listener:

        def answer() -> None:
            client, _ = listener.accept()
            with client, client.makefile("rb") as asked, suppress(OSError):
                told_next = itertools.cycle(pages)
                for line in asked:
                    if line != b"*0\r\n":
                        time.sleep(seconds)
                        client.sendall(next(told_next))

        thread = threading.Thread(target=answer)
        thread.start()
        yield listener.getsockname()[1]
        thread.join(PATIENCE)


def try_endless(program: Program, folder: str) -> None:
    """A cursor that stands still or goes back is no page of a scan, and a copy takes no more keys than slots: it ends, and makes nothing."""
    new = os.path.join(folder, "new")
    with endless([told(at, at) for at in range(1, 1 << 14)]) as port:
        expect(program.run("copy", str(port), new, "10", patience=10.0), Ended("refused 9 11 10\n", 3), "a copy of more keys than slots, whose pages lead on")
    expect(os.path.exists(new), False, "whether there is a file")
    for pages in ([told(5, 1)], [told(5, 1), told(7, 2)], [told(5)], [told(4096, 1), told(256, 2)]):
        with endless(pages) as port:
            expect(program.run("copy", str(port), new, "10", patience=10.0), NO_REPLY, f"a copy of {len(pages)} pages without an end")
        expect(os.path.exists(new), False, "whether there is a file")


def try_words(program: Program, folder: str) -> None:
    """Standard error says in words why nothing was made."""
    new = os.path.join(folder, "new")
    kind = "a reply is no page of keys: the service has to speak Redis's protocol (--resp beside PASSES), by release 1.17 or a later one"
    for reply, ended, why in ((b"+OK\r\n", NO_REPLY, kind), (b"", NO_READ, "the connection failed, ended or was silent for a minute")):
        with answering(reply) as port:
            line = ended.text.rstrip("\n")
            expect(program.run_loud("copy", str(port), new, "2"), (ended, f"lazyset: copy {port} {new}: {line}: {why}\n"), f"a scan that is told {reply!r}")


def try_refused(program: Program, folder: str) -> None:
    """Where nobody listens, or one that lists no keys, nothing is made."""
    file, new = os.path.join(folder, "f"), os.path.join(folder, "new")
    program.make(file, 10)
    with socket.create_server(("127.0.0.1", 0)) as listener:
        free = listener.getsockname()[1]
    for address in (free, f"127.0.0.1:{free}", os.path.join(folder, "absent"), "x", "0", "70000"):
        expect(copy(program, address, new, 10), NO_SERVICE, f"a copy from {address}")
    with Service(program, file, 4, "--connections", "4") as service:
        expect(copy(program, service.port, new, 10), NO_REPLY, "a copy of a service of lines")
        for slots in (0, 16_777_217):
            expect(copy(program, service.port, new, slots), Ended("refused 2\n", 3), f"a copy with {slots} slots")
        expect(copy(program, service.port, new, 65_537, "--format", "2"), Ended("refused 2\n", 3), "a copy into a format that has fewer slots")
    expect(sorted(os.listdir(folder)), ["f"], "what is left")


def try_of_texts(program: Program, folder: str) -> None:
    """A copy of a service of texts has the mark and the texts' keys, and is served with `--text` in turn."""
    file, new, text = os.path.join(folder, "f"), os.path.join(folder, "new"), (*by_frames(4), "--text")
    program.make(file, 10)
    with Service(program, file, 4, *text) as service:
        expect(replies(service.port, array(b"SADD", b"seen", b"evt_1", b"evt_2")), b":2\r\n", "the reply to two texts")
        expect(program.run("copy", str(service.port), new), copied(3), "a copy of a service of texts")
    expect(program.members(new), program.members(file), "what it holds")
    with Service(program, new, 4, *text) as service:
        asked = array(b"SMISMEMBER", b"seen", b"evt_1", b"evt_3", b"evt_2")
        expect(replies(service.port, asked), b"*3\r\n:1\r\n:0\r\n:1\r\n", "what the copy's service tells")


def try_killed(program: Program, folder: str, kills: int, seed: int) -> None:
    """A copy that is killed at any moment, or whose service is, while others change the set: the new file is whole, or isn't made."""
    file, draw = os.path.join(folder, "f"), random.Random(seed)
    came: Count[str] = Counter()
    keys = "".join(f"{number % 16}:{number}\n" for number in range(MANY))
    expect(program.run("make", file, str(ROOM_FOR), "--keys", "--format", "3", lines=keys), Ended(f"made {ROOM_FOR}\n", 0), "a list")
    left, long = copy_under_kill(program, file, "nothing", 0, seed)
    expect(left, "whole", "what a copy leaves that isn't killed")
    for at in range(kills):
        killed = ("copies", "services")[at % 2]
        left, _ = copy_under_kill(program, file, killed, long * draw.random(), seed + at)
        came[f"{left} after kills of {killed}"] += 1
    tell(f"{kills} copies under kill", came)


def copy_under_kill(program: Program, file: str, killed: str, seconds: float, seed: int) -> Tuple[str, float]:
    """Copies a set that others change, kills the copy or the service after so many seconds, and gives what is left of the copy, and its seconds. What
    was answered is in the set."""
    new, members = f"{file}.new", program.members(file)
    with Service(program, file, 8, *by_frames(8)) as service:
        with changing(service.port, [own_keys(at, MANY) for at in range(FEW)], members, seed) as changed, changed.watched() as known:
            words, began = [program.path, "copy", str(service.port), new, str(ROOM_FOR), "--format", "3"], time.monotonic()
            with subprocess.Popen(words, stdout=subprocess.PIPE, stderr=subprocess.DEVNULL, text=True) as copying:
                time.sleep(seconds)
                changed.may_fail = killed == "services"
                for process in {"copies": [copying], "services": [service.process]}.get(killed, []):
                    process.kill()
                text = copying.communicate(timeout=PATIENCE)[0]
            long = time.monotonic() - began
    expect(changed.now.flaws(program.members(file)), [], "what is wrong with the set")
    left = {NOT_MADE: "begun", NO_FILE: "absent"}.get(program.run("check", new, "--keys"), "whole")
    may_say = [""] if killed == "copies" else [NO_SERVICE.text, NO_READ.text] if left == "absent" else []
    if left == "whole":
        found = program.members(new)
        expect(known.flaws(found), [], "what is wrong with the copy")
        may_say = [copied(len(found)).text, *may_say]
    else:
        program.make(new, ROOM_FOR, 3)
    expect(text in may_say, True, f"that a copy that is {left} says so: {text!r}")
    os.remove(new)
    return left, long


TRIALS = (
    ("copies of a served set", try_copied),
    ("copies of a set of format 1, and of an empty one", try_oldest),
    ("copies while others change the set", try_meanwhile),
    ("copies that are cut off", try_cut_off),
    ("copies of what isn't such a service", try_refused),
    ("copies of a service of texts", try_of_texts),
    ("copies of pages without an end", try_endless),
    ("words for a copy that isn't made", try_words),
)
