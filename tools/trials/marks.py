"""A file knows whether its keys are numbers or texts: by a mark, a key of room 15 that is there before the first text."""

from __future__ import annotations

import os
import re
import socket
import subprocess
import tempfile
from typing import List, Sequence, Tuple

from trials.faults import needs_strace
from trials.files import put
from trials.frames import by_frames, replies
from trials.plain_frames import array, bulk, integer
from trials.program import Ended, Key, Program, Service, untimed
from trials.queries import values
from trials.guests import connect
from trials.report import Wrong, expect

MARK = Key(15, 10**15)
TEXT, ADOPT, NUMBERS = (*by_frames(4), "--text"), (*by_frames(4), "--text=adopt"), (*by_frames(4), "--numbers")
PLAIN = tuple(by_frames(4))

IS_TEXT = "its keys are texts: serve it with --text, or with --numbers to take them for numbers"
IS_NUMBERS = (
    "its keys are numbers (serve it without --text), or are forgotten (serve it with --forget, as before); "
    "an older file of texts is marked by --text=adopt"
)
IS_ELSEWHERE = "some of its keys are outside room 0, so it is no older file of texts: serve it without --text"
IS_OLD = "a file of format 1 has no room for the mark of texts: renew it, then serve it with --text=adopt"
IS_FULL = "no slot is free for the mark of texts: grow the file first"
ARE_TEXTS = "its keys are texts, and are taken for numbers here"
IS_SECRET = "its texts are under a secret: name the file of that by --secret"

# The keys of a file, its slots and format, the words of a start, and the line and the words with which that is refused, or nothing.
STARTS: Tuple[Tuple[Sequence[Key], int, int, Sequence[str], str, str], ...] = (
    ((), 3, 2, TEXT, "", ""),
    ((), 3, 4, TEXT, "", ""),
    ((), 3, 3, ADOPT, "", ""),
    ((), 3, 1, TEXT, "oldfile", IS_OLD),
    ((MARK,), 3, 2, TEXT, "", ""),
    ((MARK,), 1, 2, TEXT, "", ""),
    ((MARK, Key(0, 5)), 3, 4, TEXT, "", ""),
    ((MARK, Key(0, 5)), 3, 4, ADOPT, "", ""),
    ((Key(0, 5),), 3, 2, TEXT, "othernumbers", IS_NUMBERS),
    ((Key(0, 5),), 3, 1, TEXT, "othernumbers", IS_NUMBERS),
    ((Key(0, 5),), 3, 4, ADOPT, "", ""),
    ((Key(0, 5),), 1, 4, ADOPT, "full", IS_FULL),
    ((Key(0, 5),), 3, 1, ADOPT, "oldfile", IS_OLD),
    ((Key(3, 5),), 3, 2, TEXT, "othernumbers", IS_NUMBERS),
    ((Key(3, 5),), 3, 2, ADOPT, "othernumbers", IS_ELSEWHERE),
    ((MARK, Key(15, 2 * 10**15)), 3, 2, TEXT, "othersecret", IS_SECRET),
    ((MARK, Key(15, 10**15 + 1)), 3, 2, TEXT, "othernumbers", IS_NUMBERS),
    ((MARK, Key(15, 7)), 3, 2, ADOPT, "othernumbers", IS_ELSEWHERE),
    ((MARK, Key(1, 0)), 3, 2, TEXT, "othernumbers", IS_NUMBERS),
    ((MARK,), 3, 2, PLAIN, "othertext", IS_TEXT),
    ((MARK, Key(0, 5), Key(3, 5)), 3, 4, PLAIN, "othertext", IS_TEXT),
    ((MARK,), 3, 2, NUMBERS, "", ""),
    ((), 3, 2, PLAIN, "", ""),
    ((), 3, 1, PLAIN, "", ""),
    ((Key(0, 5), Key(15, 7), Key(15, 2 * 10**15)), 3, 2, PLAIN, "", ""),
    ((MARK,), 3, 2, (), "", ""),
    ((MARK,), 3, 2, ("--connections", "4"), "", ""),
    ((Key(0, 5),), 3, 1, (), "", ""),
)


def made(program: Program, file: str, keys: Sequence[Key], slots: int, form: int) -> bytes:
    """Makes a file that holds these keys, and gives its bytes."""
    if os.path.exists(file):
        os.remove(file)
    listed = "".join(f"{key}\n" for key in keys)
    expect(program.run("make", file, str(slots), "--format", str(form), "--keys", lines=listed), Ended(f"made {slots}\n", 0), "make")
    with open(file, "rb") as text:
        return text.read()


def started(program: Program, file: str, words: Sequence[str]) -> Tuple[str, str, int]:
    """What a service prints first and says in all, where it is stopped as soon as it listens, and its status."""
    control = os.path.join(tempfile.mkdtemp(), "control")
    with tempfile.TemporaryFile("w+") as log, Service(program, file, 2, *words, "--control", control, log=log) as service:
        if service.told.startswith("listening "):
            expect(program.run("stop", control), Ended("", 0), "stop")
        status = service.wait()
        log.seek(0)
        said = log.read()
    os.rmdir(os.path.dirname(control))
    return service.told, said, -1 if status is None else status


def try_starts(program: Program, folder: str) -> None:
    """A start over each kind of file serves, marks or refuses it; a refused one writes nothing."""
    file = os.path.join(folder, "f")
    for keys, slots, form, words, line, why in STARTS:
        what = f"{' '.join(words)} over {[str(key) for key in keys]} in format {form}"
        before = made(program, file, keys, slots, form)
        told, said, status = started(program, file, words)
        marks = bool(words) and any(word.startswith("--text") for word in words)
        if line:
            expect((told, status), (f"{line}\n", 3), what)
            expect(said.splitlines()[-1], f"lazyset: serve {file}: {line}: {why}", f"the words: {what}")
            with open(file, "rb") as text:
                expect(text.read(), before, f"what is left: {what}")
            continue
        expect((told[:10], status), ("listening ", 0), what)
        expect(program.members(file), sorted({*keys, MARK} if marks else keys), f"the keys after it: {what}")


def try_texts(program: Program, folder: str) -> None:
    """The mark is no member to a client of texts, and a key to one of numbers."""
    file = os.path.join(folder, "f")
    program.make(file, 4)
    add, size = array(b"SADD", b"seen", b"a", b"b"), array(b"DBSIZE")
    with Service(program, file, 2, *TEXT) as service:
        expect(replies(service.port, size), integer(0), "DBSIZE at first")
        with connect(service.port) as client:
            told = values(client)
            expect((told["members"], told["free"], told["slots"], told.get("db0")), ("0", "3", "4", None), "INFO at first")
        expect(replies(service.port, add, size), integer(2) + integer(2), "two texts")
        with connect(service.port) as client:
            told = values(client)
            expect((told["members"], told["free"], told["slots"]), ("2", "1", "4"), "INFO of two texts")
            expect(told["db0"], "keys=2,expires=0,avg_ttl=0", "the key space")
        full = array(b"SADD", b"seen", b"c", b"d")
        expect(replies(service.port, full), b"-FULL no slot is free; 1 of 2 were added\r\n", "a set whose other slot is the mark's")
    expect(len(program.members(file)), 4, "the keys of the file")
    expect(program.run("info", file), Ended("format 2\nslots 4\nmembers 4\nfree 0\ngood\n", 0), "info")
    with Service(program, file, 2, *TEXT) as service:
        expect(replies(service.port, array(b"SMISMEMBER", b"seen", b"a", b"b", b"x"), size), b"*3\r\n:1\r\n:1\r\n:0\r\n" + integer(3), "after a restart")
    with Service(program, file, 2, *NUMBERS) as service:
        expect(replies(service.port, array(b"SISMEMBER", b"15", b"%d" % 10**15), size), integer(1) + integer(4), "the mark as a key")
        with connect(service.port) as client:
            expect((values(client)["members"], values(client)["free"]), ("4", "0"), "INFO of numbers")


# The words of a service that takes the mark for a key, and whether its log tells of it: one that names the keys needn't.
BY_WORDS: Tuple[Tuple[Sequence[str], bool], ...] = (
    ((), True),
    (("--connections", "4"), True),
    (("--connections", "4", "--loops", "2"), True),
    (NUMBERS, False),
    (TEXT, False),
)


def try_lines(program: Program, folder: str) -> None:
    """A run and a service of lines take the mark and texts for numbers, and say so on standard error alone. The look asks nothing of the
    device: there are as many calls as without the mark."""
    file, other = os.path.join(folder, "f"), os.path.join(folder, "g")
    for form in (2, 3, 4):
        made(program, file, (MARK, Key(0, 5)), 4, form)
        made(program, other, (Key(15, 7), Key(0, 5)), 4, form)
        asked = f"has {MARK}\nhas 5\n"
        said = f"lazyset: {file}: {ARE_TEXTS}\n"
        expect(program.run_loud("run", file, lines=asked), (Ended("yes\nyes\n", 0), said), f"a run of format {form}")
        expect(program.run_loud("run", other, lines=asked), (Ended("no\nyes\n", 0), ""), f"a run without the mark of format {form}")
        expect(program.run_loud("run", file, lines=f"remove {MARK}\n"), (Ended("yes\n", 0), said), "a run that takes the mark away")
        expect(program.run_loud("run", file, lines="has 5\n"), (Ended("yes\n", 0), ""), "a run once the mark is gone")
        made(program, file, (MARK, Key(0, 5)), 4, form)
        for words, is_said in BY_WORDS:
            told, log, status = started(program, file, words)
            expect((told[:10], status), ("listening ", 0), f"a service {' '.join(words)}")
            lines = [line for line in untimed(log).splitlines() if ARE_TEXTS in line]
            expect(lines, [f"{file}: {ARE_TEXTS}"] * is_said, f"the log of a service {' '.join(words)}")
        expect(ARE_TEXTS in started(program, other, ())[1], False, "what a service over numbers says")
        with Service(program, file, None, "--lines") as service:
            expect(replies(service.port, asked.encode() + b"quit\n"), b"yes\nyes\n", "the replies of a service of lines")
    needs_strace()
    made(program, file, (MARK, Key(0, 5)), 4, 4)
    expect(calls_on(program, file), calls_on(program, other), "the calls of a run over texts, and over numbers")


def calls_on(program: Program, file: str) -> List[str]:
    """The system's calls on this file's bytes in a run that looks up one key."""
    trace = f"{file}.trace"
    calls = "trace=pread64,pwrite64,pwritev,fsync,fdatasync"
    before = ["strace", "-f", "-qq", "-y", "-o", trace, "-e", calls]
    expect(program.run("run", file, lines="has 5\n", before=before), Ended("yes\n", 0), "a run that is traced")
    with open(trace, encoding="ascii", errors="replace") as lines:
        return [re.findall(r"(\w+)\(", line)[0] for line in lines if f"<{file}>" in line]


def try_copies(program: Program, folder: str) -> None:
    """A copy, a renewal and a growth of a marked file are marked."""
    file, copy, new = (os.path.join(folder, name) for name in ("f", "g", "h"))
    made(program, file, (MARK, Key(0, 5)), 3, 2)
    with Service(program, file, 2, *NUMBERS) as service:
        expect(program.run("copy", str(service.port), copy, "5"), Ended("copied 2\n", 0), "copy")
    expect(program.run("renew", file, new, "9", "--format", "4"), Ended("renewed 2\n", 0), "renew")
    expect(program.run("grow", file, "6"), Ended("grown 2\n", 0), "grow")
    for path in (file, copy, new):
        expect(program.members(path), [Key(0, 5), MARK], f"the keys of {path}")
        expect(started(program, path, PLAIN)[0], "othertext\n", f"a start over {path}")


def try_damage(program: Program, folder: str) -> None:
    """A file at fault is refused for that, with --text too, and so is one that isn't there."""
    file = os.path.join(folder, "f")
    text = made(program, file, (Key(0, 5),), 3, 2)
    for at, byte, line in ((0, 0, "refused 1"), (7, 0x39, "refused 2"), (15, 9, "refused 3"), (17, 77, "refused 5 0")):
        put(file, text[:at] + bytes([byte]) + text[at + 1 :])
        for words in (TEXT, ADOPT, PLAIN):
            told, _, status = started(program, file, words)
            expect((told, status), (f"{line}\n", 3), f"{' '.join(words)} over a file with another byte at {at}")
    text = made(program, file, (Key(3, 5), Key(0, 7)), 3, 2)
    put(file, text[:32] + text[16:32] + text[48:])
    for words in (TEXT, ADOPT, PLAIN):
        told, _, status = started(program, file, words)
        expect((told, status), ("refused 6 0 1\n", 3), f"{' '.join(words)} over a file with a key twice")
    os.remove(file)
    told, _, status = started(program, file, TEXT)
    expect((told, status), ("nofile\n", 3), "a file that isn't there")


def try_words(program: Program, folder: str) -> None:
    """--text takes `adopt` or nothing, --numbers stands without it, and both need --resp."""
    file = os.path.join(folder, "f")
    program.make(file, 3)
    for words in (
        *((*PLAIN, "--text=other"), (*PLAIN, "--text="), (*TEXT, "--numbers"), (*ADOPT, "--numbers")),
        *(("--connections", "4", "--text"), ("--connections", "4", "--numbers"), ("--text=adopt",), ("--numbers",)),
    ):
        ended = program.run("serve", file, "0", "1", *words)
        expect((ended.text[:7], ended.status), ("error: ", 2), " ".join(words))
    ended, said = program.run_loud("run", file, lines="add 15:1000000000000000\nadd 5\n")
    expect((ended, said), (Ended("yes\nyes\n", 0), ""), "a run that adds the mark")
    ended, said = program.run_loud("run", file, lines="has 5\n")
    expect((ended, said), (Ended("yes\n", 0), f"lazyset: {file}: {ARE_TEXTS}\n"), "a run over the mark")


def try_kills(program: Program, folder: str, kills: int) -> None:
    """A service of texts that is killed as it starts leaves an empty set or the mark, and never a text without it."""
    file = os.path.join(folder, "f")
    found = set()
    for number in range(kills):
        form = (2, 3, 4)[number % 3]
        made(program, file, (), 8, form)
        process = subprocess.Popen(
            [program.path, "serve", file, "0", "2", *TEXT], stdout=subprocess.PIPE, stderr=subprocess.DEVNULL, text=True, start_new_session=True
        )
        assert process.stdout is not None
        if number % 2:
            place = process.stdout.readline().partition("listening ")[2]
            expect(program.members(file), [MARK], "the keys once it listens")
            with socket.create_connection(("127.0.0.1", int(place))) as client:
                client.sendall(array(b"SADD", b"seen", b"%d" % number))
                if number % 4 == 1:
                    expect(client.recv(64), integer(1), "the first text")
        else:
            try:
                process.wait(0.0002 * (number % 50))
            except subprocess.TimeoutExpired:
                pass
        process.kill()
        process.wait()
        process.stdout.close()
        keys = program.members(file)
        if keys and MARK not in keys:
            raise Wrong(f"a text without the mark: {keys}")
        found.add(len(keys))
        told, _, status = started(program, file, TEXT)
        expect((told[:10], status), ("listening ", 0), "a start after the kill")
        expect(MARK in program.members(file), True, "the mark after it")
    if not {1, 2} <= found:
        raise Wrong(f"the kills left {found} keys")


TRIALS = (
    ("starts over numbers and texts", try_starts),
    ("the mark of texts, as clients see it", try_texts),
    ("texts that lines are served of", try_lines),
    ("copies of a file of texts", try_copies),
    ("damaged files, started with --text", try_damage),
    ("the words of --text and --numbers", try_words),
)
