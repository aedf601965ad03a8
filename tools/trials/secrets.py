"""Texts under a secret (`serve --text --secret PATH`): their keys, the file of the secret, and the starts that another one refuses."""

from __future__ import annotations

import hashlib
import os
import random
import socket
import subprocess
import tempfile
import time
from typing import Callable, Iterator, Optional, Sequence, Tuple, Union

from lazyset import key_of, mark_of
from trials.at_path import socket_of
from trials.chosen import serving
from trials.faults import failing, needs_strace
from trials.frames import by_frames, replies, sent
from trials.guests import PATIENCE, connect
from trials.marks import ADOPT, IS_FULL, IS_NUMBERS, IS_OLD, IS_SECRET, IS_TEXT, MARK, NUMBERS, PLAIN, TEXT, made, started
from trials.plain_frames import MOST_WORD, OK, PONG, array, integer, unknown
from trials.program import Ended, Key, Program, Service
from trials.queries import values
from trials.report import Wrong, expect
from trials.scans import keys_of, pages

BLOCK = 64

DRAWN = random.Random(5)

SECRET, OTHER = b"0123456789abcdef", bytes(range(64))
# Secrets of all lengths, with zeros, and with a line's end, which counts.
SECRETS = (
    *(SECRET, OTHER, b"0123456789abcde\n", SECRET + b"\n", b"\xff" * 63, b"\0" * 31 + b"\1"),
    bytes(DRAWN.randrange(256) for _ in range(63)) + b"\1",
)

# Secrets, names, members and their numbers, as docs/PROTOCOL.md has them.
ON_PAGE = (
    (SECRET, b"s", b"m", 237516734950140737),
    (SECRET, b"", b"", 662356793739318433),
    (OTHER, b"s", b"m", 294072849371734705),
    (OTHER, b"", b"", 95207591780091843),
)

# Names and members: none of bytes, such as read as numbers, the same bytes parted otherwise, any bytes, and the longest.
TEXTS = (
    *((b"", b""), (b"s", b"m"), (b"", b"evt_1"), (b"ab", b"c"), (b"a", b"bc"), (b"3", b"17"), (b"seen", b"evt_1\r\n")),
    *((b"\0\xff\xfe", "käfer".encode()), (b"n" * MOST_WORD, b"x" * MOST_WORD), (b"", b"x" * MOST_WORD)),
)

IS_OTHER = "its texts are under another secret, or under none"


def number_of(secret: bytes, name: bytes, member: bytes) -> int:
    """The number of a text's key under a secret, as Python's own SHA-256 makes it; of no bytes, the number without one."""
    block = secret.ljust(BLOCK, b"\0") if secret else b""
    digest = hashlib.sha256(block + len(name).to_bytes(8, "big") + name + member).hexdigest()
    return int(digest[:16], 16) % 10**18


def marked_by(secret: bytes) -> Key:
    """The mark of a secret."""
    digest = hashlib.sha256(secret.ljust(BLOCK, b"\0")).hexdigest()
    return Key(15, 2 * 10**15 + int(digest[:16], 16) % 10**15)


OF_SECRET, OF_OTHER = marked_by(SECRET), marked_by(OTHER)


def kept(folder: str, secret: bytes, mode: int = 0o600, name: str = "secret") -> str:
    """The path of a file of this secret, of this mode."""
    path = os.path.join(folder, name)
    if os.path.lexists(path):
        os.remove(path)
    with open(path, "wb") as file:
        file.write(secret)
    os.chmod(path, mode)
    return path


def under(path: str) -> Sequence[str]:
    """The words of a service of texts under the secret in this file."""
    return (*TEXT, "--secret", path)


def try_keys(program: Program, folder: str) -> None:
    """A text's key is the one that Python's SHA-256 makes of the secret, the name and the member, in each format, for each command, and after a restart."""
    for secret, name, member, number in ON_PAGE:
        expect(number_of(secret, name, member), number, "the number on the page")
        expect((key_of(name, member, secret=secret), mark_of(secret)), (number, marked_by(secret).number), "what the client for Python makes")
    file = os.path.join(folder, "f")
    for place, secret in enumerate(SECRETS):
        words = under(kept(folder, secret))
        program.make(file, 100, 2 + place % 3)
        wanted = sorted({MARK, marked_by(secret), *(Key(0, number_of(secret, *text)) for text in TEXTS)})
        with Service(program, file, 2, *words) as service:
            expect(program.members(file), sorted([MARK, marked_by(secret)]), f"the keys before the first text, of {secret!r}")
            for name, member in TEXTS:
                add = array(b"SADD", name, member) if name else array(b"SETNX", member, b"1")
                expect(replies(service.port, add, add), integer(1) + integer(0), f"the addition of {member!r:.40} to {name!r:.40}")
            expect(program.members(file), wanted, f"the keys of {secret!r}")
        with Service(program, file, 2, *words) as service:
            for name, member in TEXTS:
                has = array(b"SMISMEMBER", name, member, member + b"y"[: MOST_WORD - len(member)])
                expect(replies(service.port, has), b"*2\r\n" + integer(1) + integer(len(member) == MOST_WORD), f"{member!r:.40} of {name!r:.40}")
            gone = b"".join(array(b"SREM", name, member) for name, member in TEXTS)
            expect(replies(service.port, gone), integer(1) * len(TEXTS), "the removals")
        expect(program.members(file), sorted([MARK, marked_by(secret)]), f"the keys once all are gone, of {secret!r}")
        os.remove(file)


def try_as_lines(program: Program, folder: str) -> None:
    """`run` finds the keys by their numbers, and none that are without the secret."""
    file = os.path.join(folder, "f")
    program.make(file, 100)
    with Service(program, file, 2, *under(kept(folder, SECRET))) as service:
        expect(replies(service.port, *(array(b"SADD", name, member) for name, member in TEXTS)), integer(1) * len(TEXTS), "additions")
    for secret, reply in ((SECRET, "yes\n"), (OTHER, "no\n"), (b"", "no\n")):
        lines = "".join(f"has {number_of(secret, name, member)}\n" for name, member in TEXTS)
        expect(program.run("run", file, lines=lines), Ended(reply * len(TEXTS), 0), f"lookups by the numbers of {secret!r}")


def bound(path: str) -> None:
    """A socket, which nobody listens at any more."""
    with socket.socket(socket.AF_UNIX) as one:
        one.bind(path)


# What is no regular file, and the reason.
NO_FILES: Tuple[Tuple[str, Optional[Callable[[str], None]], str], ...] = (
    ("nothing", None, "No such file or directory (os error 2)"),
    ("a folder", os.mkdir, "it is no regular file"),
    ("a pipe", os.mkfifo, "it is no regular file"),
    ("a socket", bound, "it is no regular file"),
    ("a link to a device", lambda path: os.symlink(os.devnull, path), "it is no regular file"),
    ("a link to nothing", lambda path: os.symlink(f"{path}.absent", path), "No such file or directory (os error 2)"),
)

# The bytes of a file, its mode, and the reason.
BAD_LENGTH = "a secret has 16 to 64 bytes"
BAD_END = "its last byte is zero: zeros there would change nothing"
BAD_FILES: Tuple[Tuple[bytes, int, str], ...] = (
    *((SECRET, mode, f"its mode is {mode:04o}, so others may have it: chmod 600") for mode in (0o644, 0o640, 0o604, 0o660, 0o620, 0o601, 0o666)),
    *((b"x" * length, 0o600, BAD_LENGTH) for length in (0, 1, 15, 65, 1000)),
    *((b"x" * length + b"\0", 0o600, BAD_END) for length in (15, 31, 63)),
    (bytes(32), 0o600, BAD_END),
    (b"x" * 14 + b"\0", 0o600, BAD_LENGTH),
    (b"x" * 64 + b"\0", 0o600, BAD_LENGTH),
)


def bad_secrets(folder: str) -> Iterator[Tuple[str, str]]:
    """Puts one thing after the other there that is no secret of this user's alone: what it is, and why it is refused."""
    path = os.path.join(folder, "secret")
    for what, put_there, why in NO_FILES:
        if put_there is not None:
            put_there(path)
        yield what, why
        if os.path.isdir(path):
            os.rmdir(path)
        elif os.path.lexists(path):
            os.remove(path)
    for secret, mode, why in BAD_FILES:
        kept(folder, secret, mode)
        yield f"a file of {len(secret)} bytes, {secret[:16]!r}, mode {mode:04o}", why
    if os.geteuid() == 0:
        os.chown(kept(folder, SECRET), 1, -1)
        yield "another user's file", "it is another user's"


def try_files(program: Program, folder: str) -> None:
    """A secret that can't be had, or that others may read, serves nobody: it is told so, with the reason, and nothing is written."""
    file, path = os.path.join(folder, "f"), os.path.join(folder, "secret")
    before = made(program, file, (), 4, 2)
    for what, why in bad_secrets(folder):
        for words in (("0", "2", *under(path)), ("0", "--text", "--secret", path)):
            found = program.run_loud("serve", file, *words, patience=PATIENCE)
            expect(found, (Ended("nosecret\n", 3), f"lazyset: serve {file}: --secret {path}: {why}\n"), f"{' '.join(words)}, where there is {what}")
        with open(file, "rb") as text:
            expect(text.read(), before, f"what is left, where there is {what}")
    for mode in (0o600, 0o400):
        expect(started(program, file, under(kept(folder, SECRET, mode)))[0][:10], "listening ", f"a start by a secret of mode {mode:04o}")
    expect(sorted(os.listdir(folder)), ["f", "secret"], "what is left")


def try_words(program: Program, folder: str) -> None:
    """--secret needs --text, without `adopt`, and no lines or numbers beside; such a command line is refused, and nothing is written."""
    file, path = os.path.join(folder, "f"), kept(folder, SECRET)
    before = made(program, file, (), 4, 2)
    named = ("--secret", path)
    for words in (
        *(("0", *named), ("0", "2", *named), ("0", "2", *PLAIN, *named), ("0", "--resp", *named), ("0", "--numbers", *named)),
        *(("0", "--text=adopt", *named), ("0", "2", *ADOPT, *named), ("0", "2", *NUMBERS, *named), ("0", "--text", "--numbers", *named)),
        *(("0", "--lines", *named), ("0", "--text", "--lines", *named), ("0", "2", "--connections", "4", "--text", *named)),
        *(("0", "2", "--text", *named), ("0", "--text", "--secret"), ("0", "--text", *named, *named)),
    ):
        ended = program.run("serve", file, *words, patience=PATIENCE)
        expect((ended.text[:7], ended.status), ("error: ", 2), f"a service {' '.join(words)}")
    for command in (("run", file), ("renew", file, f"{file}2", "4"), ("check", file)):
        ended = program.run(*command, *named)
        expect((ended.text[:7], ended.status), ("error: ", 2), f"{' '.join(command)} with a secret")
    with open(file, "rb") as text:
        expect(text.read(), before, "what is left")


# A secret, or the words of a start without one.
Given = Union[bytes, Sequence[str]]

TEXT_KEY, NUMBER_KEY = Key(0, number_of(SECRET, b"s", b"m")), Key(3, 5)
BOTH = (MARK, OF_SECRET)
# The first and the last mark that a secret may have, and what stands beside them.
ENDS_OF_MARKS = (Key(15, 2 * 10**15), Key(15, 3 * 10**15 - 1))
BESIDE_MARKS = (Key(15, 2 * 10**15 - 1), Key(15, 3 * 10**15))
# Starts that are refused for the mark of another secret, and with which words.
OTHERS: Tuple[Tuple[Given, str], ...] = ((SECRET, IS_OTHER), (TEXT, IS_SECRET))
# The keys of a file, its slots and format, what is given, and the line and the words with which that is refused, or nothing.
STARTS: Tuple[Tuple[Sequence[Key], int, int, Given, str, str], ...] = (
    ((), 3, 2, SECRET, "", ""),
    ((), 2, 3, SECRET, "", ""),
    ((), 2, 4, OTHER, "", ""),
    ((), 3, 1, SECRET, "oldfile", IS_OLD),
    ((), 1, 4, SECRET, "full", IS_FULL),
    ((MARK,), 3, 2, SECRET, "", ""),
    ((MARK,), 2, 4, SECRET, "", ""),
    ((MARK,), 1, 2, SECRET, "full", IS_FULL),
    (BOTH, 2, 2, SECRET, "", ""),
    ((*BOTH, TEXT_KEY), 3, 4, SECRET, "", ""),
    (BOTH, 3, 2, OTHER, "othersecret", IS_OTHER),
    ((*BOTH, TEXT_KEY), 4, 4, OTHER, "othersecret", IS_OTHER),
    ((MARK, OF_OTHER, TEXT_KEY), 4, 3, SECRET, "othersecret", IS_OTHER),
    ((MARK, TEXT_KEY), 4, 2, SECRET, "othersecret", IS_OTHER),
    (BOTH, 3, 2, TEXT, "othersecret", IS_SECRET),
    ((*BOTH, TEXT_KEY), 4, 4, TEXT, "othersecret", IS_SECRET),
    ((*BOTH, TEXT_KEY), 4, 4, ADOPT, "othersecret", IS_SECRET),
    ((*BOTH, OF_OTHER), 4, 2, OTHER, "othersecret", IS_OTHER),
    *(((*BOTH, OF_OTHER), 4, 2, given, "othersecret", why) for given, why in OTHERS),
    *(((MARK, mark), 4, 2, given, "othersecret", why) for mark in ENDS_OF_MARKS for given, why in OTHERS),
    *(((MARK, key), 4, 2, given, "othernumbers", IS_NUMBERS) for key in BESIDE_MARKS for given, _ in OTHERS),
    ((OF_OTHER,), 4, 2, SECRET, "othersecret", IS_OTHER),
    ((OF_OTHER,), 4, 2, TEXT, "othersecret", IS_SECRET),
    ((OF_OTHER,), 4, 2, ADOPT, "othersecret", IS_SECRET),
    ((TEXT_KEY,), 4, 2, SECRET, "othernumbers", IS_NUMBERS),
    ((TEXT_KEY,), 4, 1, SECRET, "othernumbers", IS_NUMBERS),
    ((NUMBER_KEY,), 4, 4, SECRET, "othernumbers", IS_NUMBERS),
    ((*BOTH, NUMBER_KEY), 4, 4, SECRET, "othernumbers", IS_NUMBERS),
    ((*BOTH, NUMBER_KEY), 4, 4, OTHER, "othernumbers", IS_NUMBERS),
    ((*BOTH, NUMBER_KEY), 4, 4, TEXT, "othernumbers", IS_NUMBERS),
    ((*BOTH, TEXT_KEY, Key(15, 3 * 10**15)), 4, 2, SECRET, "othernumbers", IS_NUMBERS),
    ((*BOTH, Key(15, 10**15 + 1)), 4, 2, SECRET, "othernumbers", IS_NUMBERS),
    ((OF_SECRET,), 4, 2, SECRET, "othernumbers", IS_NUMBERS),
    ((OF_SECRET, TEXT_KEY), 4, 2, SECRET, "othernumbers", IS_NUMBERS),
    (BOTH, 3, 2, PLAIN, "othertext", IS_TEXT),
    ((*BOTH, TEXT_KEY), 4, 4, PLAIN, "othertext", IS_TEXT),
    ((*BOTH, TEXT_KEY), 4, 4, NUMBERS, "", ""),
    ((*BOTH, TEXT_KEY), 4, 4, (), "", ""),
    ((OF_SECRET,), 4, 2, PLAIN, "", ""),
)


def try_starts(program: Program, folder: str) -> None:
    """A start over each kind of file serves, adds the marks, the one of texts first, or is refused; a refused one adds no key but marks."""
    file = os.path.join(folder, "f")
    for keys, slots, form, given, line, why in STARTS:
        secret, words = (given, under(kept(folder, given))) if isinstance(given, bytes) else (b"", given)
        what = f"{secret!r} {' '.join(words)} over {[str(key) for key in keys]} in {slots} slots of format {form}"
        before = made(program, file, keys, slots, form)
        told, said, status = started(program, file, words)
        if not line:
            expect((told[:10], status), ("listening ", 0), what)
            expect(program.members(file), sorted({*keys, MARK, marked_by(secret)} if secret else keys), f"the keys after it: {what}")
            continue
        expect((told, status), (f"{line}\n", 3), what)
        expect(said.splitlines()[-1], f"lazyset: serve {file}: {line}: {why}", f"the words: {what}")
        if line == "full":
            expect(program.members(file), [MARK], f"what is left where one mark has room: {what}")
            continue
        with open(file, "rb") as text:
            expect(text.read(), before, f"what is left: {what}")


def try_ends_of_lines(program: Program, folder: str) -> None:
    """A newline at the secret's end counts, and so does each other byte."""
    file = os.path.join(folder, "f")
    made(program, file, (*BOTH, TEXT_KEY), 4, 4)
    for secret in (SECRET + b"\n", SECRET + b"\0\n", SECRET[1:] + SECRET[:1], b"0123456789abcdeg", SECRET * 2, SECRET.upper()):
        expect(started(program, file, under(kept(folder, secret)))[::2], ("othersecret\n", 3), f"a start by {secret!r}")
    expect(started(program, file, under(kept(folder, SECRET)))[0][:10], "listening ", "a start by the secret itself")


def try_frames_alone(program: Program, folder: str) -> None:
    """Lines aren't spoken under a secret, on a port and at a path, whether or not PASSES are given: they are frames of unknown commands, and add nothing."""
    file, path = os.path.join(folder, "f"), kept(folder, SECRET)
    lines = b"add 5\nhas 5\nremove 15:1000000000000000\nPING\nquit\n"
    told = b"".join(unknown(line.split()) for line in lines.splitlines()[:3]) + PONG + OK
    program.make(file, 8)
    with Service(program, file, 2, *under(path)) as service:
        expect(replies(service.port, lines), told, "lines on a port")
    for words in (("--text",), ("--resp", "--text"), ("--text", "--connections", "5", "--loops", "2")):
        with serving(program, file, *words, "--secret", path) as service:
            expect(replies(service.port, lines), told, f"lines on the port of {' '.join(words)}")
            expect(replies(service.port, array(b"PING")), PONG, f"a frame on the port of {' '.join(words)}")
    at = socket_of(file)
    with serving(program, file, "--text", "--secret", path, "--socket", at, port="") as service:
        expect(service.told, f"listening {at}\n", "where it listens")
        client = socket.socket(socket.AF_UNIX)
        client.settimeout(PATIENCE)
        client.connect(at)
        expect(sent(client, [lines]), told, "lines at a path")
    expect(program.members(file), sorted(BOTH), "the keys of the file")


def try_clients(program: Program, folder: str) -> None:
    """Marks are no members to a client of texts. LZ.SCAN tells them with the keys, and nobody is told of the secret."""
    file, path = os.path.join(folder, "f"), kept(folder, SECRET)
    program.make(file, 4)
    keys = [Key(0, number_of(SECRET, b"seen", member)) for member in (b"a", b"b")]
    with tempfile.TemporaryFile("w+") as log, Service(program, file, 2, *under(path), log=log) as service:
        expect(replies(service.port, array(b"DBSIZE")), integer(0), "DBSIZE at first")
        with connect(service.port) as client:
            told = values(client)
            expect((told["members"], told["free"], told["slots"], told.get("db0")), ("0", "2", "4", None), "INFO at first")
        expect(replies(service.port, array(b"SADD", b"seen", b"a", b"b"), array(b"DBSIZE")), integer(2) + integer(2), "two texts")
        with connect(service.port) as client:
            told = values(client)
            expect((told["members"], told["free"], told["db0"]), ("2", "0", "keys=2,expires=0,avg_ttl=0"), "INFO of two texts")
            expect(SECRET.decode() in str(told), False, "whether INFO has the secret")
        full = array(b"SADD", b"seen", b"c")
        expect(replies(service.port, full), b"-FULL no slot is free; 0 of 1 were added\r\n", "a set whose other slots are the marks'")
        refused = b"-ERR texts are not kept, and none can be listed\r\n"
        expect(replies(service.port, array(b"SSCAN", b"seen", b"0")), refused, "SSCAN")
        with connect(service.port) as client:
            ranks = keys_of(list(pages(client, None)))
        expect(sorted(ranks), sorted(key.room * 10**18 + key.number for key in (*BOTH, *keys)), "what LZ.SCAN tells")
        log.seek(0)
        expect(SECRET.decode() in log.read(), False, "whether the log has the secret")
    expect(program.members(file), sorted((*BOTH, *keys)), "the keys of the file")


def try_copies(program: Program, folder: str) -> None:
    """A copy, a renewal and a growth have both marks, and are served by the same secret alone."""
    file, copy, new = (os.path.join(folder, name) for name in ("f", "g", "h"))
    program.make(file, 8)
    with Service(program, file, 2, *under(kept(folder, SECRET))) as service:
        expect(replies(service.port, array(b"SADD", b"s", b"m")), integer(1), "an addition")
        expect(program.run("copy", str(service.port), copy), Ended("copied 3\n", 0), "copy")
    expect(program.run("renew", file, new, "9", "--format", "4"), Ended("renewed 3\n", 0), "renew")
    expect(program.run("grow", file, "16"), Ended("grown 3\n", 0), "grow")
    for other in (file, copy, new):
        expect(program.members(other), sorted((*BOTH, TEXT_KEY)), f"the keys of {other}")
        expect(started(program, other, under(kept(folder, OTHER)))[0], "othersecret\n", f"a start of {other} by another secret")
        with Service(program, other, 2, *under(kept(folder, SECRET))) as service:
            expect(replies(service.port, array(b"SMISMEMBER", b"s", b"m", b"x")), b"*2\r\n" + integer(1) + integer(0), f"texts of {other}")


def try_listed(program: Program, folder: str) -> None:
    """A list of numbers that the client for Python makes, with both marks, is a file that the service finds its texts in."""
    file, path, count = os.path.join(folder, "f"), kept(folder, OTHER), 1000
    texts = [b"text %d" % number for number in range(count)]
    lines = [f"{MARK}", f"15:{mark_of(OTHER)}", *(f"{key_of(b'seen', text, secret=OTHER)}" for text in texts)]
    made_of = program.run("make", file, str(count + 2), "--keys", "--format", "4", lines="\n".join(lines) + "\n")
    expect(made_of, Ended(f"made {count + 2}\n", 0), "the making")
    with Service(program, file, 2, *under(path)) as service:
        expect(replies(service.port, array(b"SMISMEMBER", b"seen", *texts, b"text")), b"*%d\r\n" % (count + 1) + integer(1) * count + integer(0), "the texts")
        expect(replies(service.port, array(b"DBSIZE")), integer(count), "their number")
    expect(program.members(file), sorted((MARK, OF_OTHER, *(Key(0, number_of(OTHER, b"seen", text)) for text in texts))), "the keys of the file")


def try_failures(program: Program, folder: str) -> None:
    """Each sync and each write of a start fails: it serves nobody then, and leaves no mark of a secret before that of texts. The next start serves."""
    needs_strace()
    file, path = os.path.join(folder, "f"), kept(folder, SECRET)
    for form in (2, 4):
        for call in ("pwrite64", "fdatasync"):
            number, what = 1, f"a start in format {form} whose {call} of number"
            while not is_served(program, file, path, form, call, number, f"{what} {number} fails"):
                number += 1
            if number < 3:
                raise Wrong(f"{what} {number} fails, and each later one, serves")


def is_served(program: Program, file: str, path: str, form: int, call: str, number: int, what: str) -> bool:
    """Whether a start whose call of this number on the file fails serves, since it has made fewer. Then both marks are there."""
    made(program, file, (), 4, form)
    with Service(program, file, 2, *under(path), before=failing(file, call, number)) as service:
        told = service.told
        if told.startswith("listening "):
            expect(program.members(file), sorted(BOTH), f"the keys once it listens: {what}")
            return True
        expect(service.wait(), 1, f"the status: {what}")
    expect(told in ("halted\n", "refused 7\n"), True, f"that {told!r} is told: {what}")
    found = program.members(file)
    expect(found in ([], [MARK], sorted(BOTH)), True, f"that {found} may be left: {what}")
    expect(started(program, file, under(path))[0][:10], "listening ", f"the next start: {what}")
    expect(program.members(file), sorted(BOTH), f"the keys after it: {what}")
    return False


def try_kills(program: Program, folder: str, kills: int) -> None:
    """A service that is killed as it starts leaves no text without both marks, and each text that was answered is found by the same secret."""
    file, path = os.path.join(folder, "f"), kept(folder, SECRET)
    found = set()
    for number in range(kills):
        made(program, file, (), 8, (2, 3, 4)[number % 3])
        text = b"%d" % number
        is_added = killed(program, file, path, text, number)
        keys = program.members(file)
        expect(keys in ([], [MARK]) or set(BOTH) <= {*keys}, True, f"that a start which was killed may leave {keys}")
        is_there = Key(0, number_of(SECRET, b"seen", text)) in keys
        expect(is_there or not is_added, True, "that the file has the text that was answered")
        found.add(len(keys))
        with Service(program, file, 2, *under(path)) as service:
            expect(replies(service.port, array(b"SISMEMBER", b"seen", text)), integer(is_there), "the text after the kill")
        expect(set(BOTH) <= {*program.members(file)}, True, "that both marks are there after it")
        expect(started(program, file, under(kept(folder, OTHER, name="other")))[0], "othersecret\n", "a start by another secret")
    if not {2, 3} <= found:
        raise Wrong(f"the kills left {found} keys")


def killed(program: Program, file: str, path: str, text: bytes, number: int) -> bool:
    """Kills a service: one of an even number as it starts, another one once it listens. Of these half were answered that they have added the text
    before, which is told, and half were only asked to."""
    words = [program.path, "serve", file, "0", "2", *under(path)]
    with subprocess.Popen(words, stdout=subprocess.PIPE, stderr=subprocess.DEVNULL, text=True, start_new_session=True) as process:
        assert process.stdout is not None
        is_added = False
        try:
            if number % 2 == 0:
                time.sleep(0.0002 * (number % 50))
                return False
            place = process.stdout.readline().partition("listening ")[2]
            expect(program.members(file), sorted(BOTH), "the keys once it listens")
            with socket.create_connection(("127.0.0.1", int(place)), PATIENCE) as client:
                client.sendall(array(b"SADD", b"seen", text))
                is_added = number % 4 == 1
                if is_added:
                    expect(client.recv(64), integer(1), "the first text")
        finally:
            process.kill()
    return is_added


TRIALS = (
    ("keys of texts under a secret", try_keys),
    ("texts under a secret, as lines find them", try_as_lines),
    ("secrets that can't be had", try_files),
    ("the words of --secret", try_words),
    ("starts over a secret's texts", try_starts),
    ("secrets that differ by a byte", try_ends_of_lines),
    ("frames alone under a secret", try_frames_alone),
    ("the marks of a secret, as clients see them", try_clients),
    ("copies of texts under a secret", try_copies),
    ("a list of texts under a secret", try_listed),
    ("each write and sync of a start under a secret fails", try_failures),
)
