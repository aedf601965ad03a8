"""What is said on standard error, in words, of each end that standard output tells by a number."""

from __future__ import annotations

import os
import re
import socket
from typing import Optional, Sequence, Tuple

from trials.faults import CAUSES, failing, needs_strace
from trials.files import ONE_SLOT, RENEWED, SEVENTEEN, TWO_SLOTS, changed, of_format, put
from trials.program import Ended, Program
from trials.report import expect

BAD_KEY = changed(RENEWED, 20, 1)
TWICE = changed(RENEWED, 47, 0x11)

# A file's bytes, what is printed of it by `run`, `serve`, and `check` or `info`, if it is refused there too, and the words.
OPENED: Tuple[Tuple[bytes, str, bool, str], ...] = (
    (b"", "refused 1", True, "it isn't a set: never made, or its head is damaged"),
    (changed(TWO_SLOTS, 7, 0x39), "refused 2", True, "it has another format"),
    (TWO_SLOTS + b"\0", "refused 3", True, "its length doesn't fit its slots"),
    (changed(TWO_SLOTS, 15, 0), "refused 4", True, "its head has a wrong number of slots"),
    (BAD_KEY, "refused 5 0", False, "this slot is open and holds no key"),
    (TWICE, "refused 6 0 1", False, "these slots hold the same key"),
)

# How many slots a file may have.
FEW = "a file has 1 to 65536 slots; with --format 3 or 4 it has up to 16777216"
MILLIONS = "a file of format 3 has 1 to 16777216 slots"

# A file's bytes or none, the slots and the format that are asked for, what is printed, and the words.
MADE: Tuple[Tuple[Optional[bytes], str, str, str, str], ...] = (
    (TWO_SLOTS, "2", "1", "refused 1", "it is a set already"),
    (TWO_SLOTS, "2", "3", "refused 1", "it is a set already"),
    (b"", "0", "1", "refused 2", FEW),
    (None, "0", "1", "refused 2", FEW),
    (None, "65537", "1", "refused 2", FEW),
    (None, "65537", "2", "refused 2", FEW),
    (None, "0", "3", "refused 2", MILLIONS),
    (b"", "16777217", "3", "refused 2", MILLIONS),
    (bytes(49), "2", "1", "refused 4", "it is longer than the new file would be"),
)

# A list of keys, the slots and the format that are asked for, what is printed, and the words.
LISTED: Tuple[Tuple[str, str, str, str, str], ...] = (
    ("1\nx\n", "2", "2", "line 2", "this line holds no key that the format has"),
    ("1\n1:1\n", "2", "1", "line 2", "this line holds no key that the format has"),
    ("1", "2", "2", "line 1", "this line holds no key that the format has"),
    ("1\n0:1\n", "2", "2", "twice 2", "this line's key stands in a line above"),
    ("1\n2\n3\n", "2", "2", "refused 9 3 2", "3 keys have no room in 2 slots"),
    ("1\n", "65537", "2", "refused 2", FEW),
    ("1\n", "16777217", "3", "refused 2", MILLIONS),
)

# An old file, a new one, the slots and the format that are asked for, what is printed, and the words.
RENEWALS: Tuple[Tuple[bytes, Optional[bytes], str, str, str, str], ...] = (
    (b"", b"", "2", "2", "refused old 1", "it isn't a set: never made, or its head is damaged"),
    (BAD_KEY, b"", "2", "3", "refused old 5 0", "this slot is open and holds no key"),
    (RENEWED, RENEWED, "2", "2", "refused new 1", "it is a set already"),
    (RENEWED, None, "0", "2", "refused new 2", FEW),
    (RENEWED, None, "16777217", "3", "refused new 2", MILLIONS),
    (RENEWED, b"", "1", "2", "refused 9 2 1", "2 keys have no room in 1 slot"),
    (RENEWED, None, "1", "3", "refused 9 2 1", "2 keys have no room in 1 slot"),
    (b"", None, "2", "2", "refused old 1", "it isn't a set: never made, or its head is damaged"),
)


# The most slots of a file of the formats 1 and 2, and of any.
MOST_FEW, MOST = 65_536, 16_777_216


def roomier(words: Sequence[str]) -> str:
    """What is said of the command that makes as many slots, where one would."""
    if words[0] != "make" or not MOST_FEW < int(words[2]) <= MOST:
        return ""
    command = " ".join(("lazyset", *words[:3], "--format", "4", *words[5:]))
    return f"lazyset: {command} would do, on a disk where a crash leaves each byte that was being written old or new\n"


def try_roomier(program: Program, folder: str) -> None:
    """More slots than format 2 has are refused, and the command that is told makes them."""
    file = os.path.join(folder, "f")
    for more, lines in (((), ""), (("--keys",), "17\n3:5\n"), (("--keys", "--text", "seen"), "a\nb\n")):
        words = ("make", file, "65537")
        for named in ((), ("--format", "2")):
            ended, said = program.run_loud(*words, *named, *more, lines=lines)
            expect((ended, len(said.splitlines())), (Ended("refused 2\n", 3), 2), f"a making {more} of too many slots")
        told = said.splitlines()[1]
        expect(told, roomier((*words, "--format", "2", *more)).rstrip("\n"), f"what is told of a making {more}")
        command = re.findall(r"^lazyset: lazyset (.+) would do, ", told)[0].split()
        expect(program.run(*command, lines=lines), Ended("made 65537\n", 0), f"the command that is told of a making {more}")
        os.remove(file)
    for slots, form in (("0", "2"), ("16777217", "2"), ("16777217", "4")):
        ended, said = program.run_loud("make", file, slots, "--format", form)
        expect((ended, len(said.splitlines())), (Ended("refused 2\n", 3), 1), f"a making of {slots} slots in format {form}")


def try_refusals(program: Program, folder: str) -> None:
    """Each refusal has its words, and leaves no file where there was none."""
    file, new = os.path.join(folder, "file"), os.path.join(folder, "new")

    def expect_words(line: str, why: str, *words: str, lines: str = "") -> None:
        found = program.run_loud(*words, *({"run": (), "serve": ("0", "1")}.get(words[0], ())), lines=lines)
        named = " ".join(words if words[0] == "renew" else words[:2]).replace(f"{file} {new} ", f"{file} {new}\n").split("\n")[0]
        opening = f"{file}: opening\n" if words[0] == "serve" else ""
        expect(found, (Ended(f"{line}\n", 3), f"{opening}lazyset: {named}: {line}: {why}\n{roomier(words)}"), " ".join(words))

    for text, line, is_checked, why in OPENED:
        put(file, text)
        for command in ("run", "serve", "check", "info") if is_checked else ("run", "serve"):
            expect_words(line, why, command, file)
    for before, slots, form, line, why in MADE:
        put(file, before)
        expect_words(line, why, "make", file, slots, "--format", form)
        expect(os.path.exists(file), before is not None, "that the file is there")
    for listed, slots, form, line, why in LISTED:
        put(file, None)
        expect_words(line, why, "make", file, slots, "--format", form, "--keys", lines=listed)
        expect(os.path.exists(file), False, "that the file is there")
    for old, given, slots, form, line, why in RENEWALS:
        put(file, old)
        put(new, given)
        expect_words(line, why, "renew", file, new, slots, "--format", form)
        expect(os.path.exists(new), given is not None, "that the new file is there")


def try_lines(program: Program, folder: str) -> None:
    """A line of a history or of a script that is refused, and a list that can't be read."""
    file, why = os.path.join(folder, "file"), "this line doesn't read, or may not stand there"
    put(file, b"call 1 1 add 9\nanswer\n")
    found = program.run_loud("judge", file)
    expect(found, (Ended("line 2\n", 3), f"lazyset: judge {file}: line 2: {why}\n"), "a history that doesn't read")
    found = program.run_loud("rehearse", "2", lines="open\nturn\n")
    expect(found, (Ended("line 2\n", 3), f"lazyset: rehearse: line 2: {why}\n"), "a script that doesn't read")
    found = program.run_loud("make", file, "2", "--keys", before=("sh", "-c", 'exec "$0" "$@" < /'))
    said = f"lazyset: make {file}: noread: a read of the input failed\n"
    expect(found, (Ended("noread\n", 1), said), "a list that can't be read")


def try_files(program: Program, folder: str) -> None:
    """Each file that can't be had has the system's reason."""
    absent, inner = os.path.join(folder, "absent"), os.path.join(folder, "inner")
    deep, long = os.path.join(absent, "file"), os.path.join(folder, "n" * 300)
    os.mkdir(inner)
    missing, too_long = "No such file or directory (os error 2)", "File name too long (os error 36)"
    for words, path, why in (
        (("run", absent), absent, missing),
        (("serve", absent, "0", "1"), absent, missing),
        (("check", absent), absent, missing),
        (("info", absent), absent, missing),
        (("judge", absent), absent, missing),
        (("renew", absent, inner, "2"), absent, missing),
        (("make", deep, "2"), deep, missing),
        (("make", deep, "2", "--keys"), deep, missing),
        (("run", absent, "--buckets", "4097"), absent, missing),
        (("make", long, "2"), long, too_long),
        (("run", inner), inner, "Is a directory (os error 21)"),
        (("check", inner), inner, "it is a directory"),
    ):
        found = program.run_loud(*words)
        expect(found, (Ended("nofile\n", 3), f"lazyset: {path}: {why}\n"), " ".join(words))


# What stands at the path of a file that is made, and what is said once it was written over.
NO_SET, NEARLY = "were written over, which were no set", "were written over, a set's but for the first one"
OVERWRITTEN: Tuple[Tuple[Optional[bytes], str], ...] = (
    (None, ""),
    (b"", ""),
    (b"\0", ""),
    (b"x", "1 byte was written over, which was no set"),
    (b"mine\n", f"5 bytes {NO_SET}"),
    (b"not a set at all" * 2, f"32 bytes {NO_SET}"),
    (changed(TWO_SLOTS, 0, 0), f"48 bytes {NEARLY}"),
    (changed(TWO_SLOTS, 0, 0)[:40], f"40 bytes {NEARLY}"),
    (changed(TWO_SLOTS, 0, 0)[:15], f"15 bytes {NO_SET}"),
)


def try_overwritten(program: Program, folder: str) -> None:
    """A file that is made over another one says what that was. What isn't made says nothing of it."""
    file, old = os.path.join(folder, "f"), os.path.join(folder, "old")
    put(old, TWO_SLOTS)
    for text, words in OVERWRITTEN:
        said = f"lazyset: {file}: {words}\n" if words else ""
        for command in (("make", file, "2"), ("renew", old, file, "2")):
            put(file, text)
            made = "made 2\n" if command[0] == "make" else f"renewed {len(program.members(old))}\n"
            expect(program.run_loud(*command), (Ended(made, 0), said), f"{command[0]} over {text!r}")
        put(file, text)
        expect(program.run_loud("make", file, "2", "--keys"), (Ended("made 2\n", 0), f"lazyset: make {file}: 0 keys\n{said}"), f"a list over {text!r}")
        put(file, text)
        expect("written over" in program.run_loud("make", file, "0")[1], False, "whether a making that wasn't done says so")


def try_port(program: Program, folder: str) -> None:
    """A port that another program has."""
    file = os.path.join(folder, "file")
    put(file, ONE_SLOT)
    with socket.create_server(("127.0.0.1", 0)) as other:
        found = program.run_loud("serve", file, str(other.getsockname()[1]), "1")
    said = f"{file}: opening\nlazyset: serve {file}: noport: Address already in use (os error 98)\n"
    expect(found, (Ended("noport\n", 1), said), "a service whose port is taken")


def try_command_line(program: Program) -> None:
    """A command line that isn't understood is told on standard output, and in a line on standard error."""
    ended, said = program.run_loud("check", "f", "--kyes")
    expect(ended.status, 2, "the status")
    expect(said, f"lazyset: {ended.text.splitlines()[0]}\n", "what it says on standard error")
    expect("--kyes" in said, True, "whether that names the word")


def try_buckets(program: Program, folder: str) -> None:
    """More buckets than the file's format has are refused, with the word that makes a file which has more."""
    file = os.path.join(folder, "file")
    for form, most, way_out in ((2, 4_096, True), (4, 1_048_576, False)):
        put(file, of_format(form, TWO_SLOTS))
        for words in (("run", file), ("serve", file, "0", "2")):
            ended, said = program.run_loud(*words, "--buckets", str(most + 1))
            lines = said.splitlines()
            expect((ended.status, lines[-1]), (2, f"lazyset: {ended.text.splitlines()[0]}"), f"{most + 1} buckets of format {form}")
            named = f"lazyset: {file}: a file of format 3 or 4 may have more buckets: renew it with --format 4"
            expect(lines[:-1], [named] if way_out else [], f"the way out of {words[0]} over format {form}")


def try_reads(program: Program, folder: str) -> None:
    """A file whose first read or second one fails has the system's reason alone, also where it is the older one of two."""
    needs_strace()
    file, new = os.path.join(folder, "file"), os.path.join(folder, "new")
    put(file, RENEWED)
    put(new, RENEWED)
    for words, number in (
        *((words, number) for words in (("check", file), ("check", file, "--keys"), ("info", file), ("judge", file)) for number in (1, 2)),
        *((("check", file, "--of", new), 1), (("check", new, "--of", file), 1)),
    ):
        before = ["strace", "-f", "-qq", "-o", os.devnull, "-P", file, "-e", "trace=read", "-e", f"inject=read:error=EIO:when={number}"]
        ended, said = program.run_loud(*words, before=before)
        expect((ended.text.splitlines()[-1:], ended.status), (["noread"], 1), f"{words} whose read {number} fails")
        expect(said, f"lazyset: {file}: Input/output error (os error 5)\n", f"what {words} says whose read {number} fails")
    # A check is done after three reads. Where the count of torn slots fails, what was printed and the status stay.
    put(file, of_format(4, TWO_SLOTS))
    for number in (4, 5):
        before = ["strace", "-f", "-qq", "-o", os.devnull, "-P", file, "-e", "trace=read", "-e", f"inject=read:error=EIO:when={number}"]
        told = f"lazyset: {file}: torn slots weren't counted: Input/output error (os error 5)\n"
        expect(program.run_loud("check", file, before=before), (Ended("good\n", 0), told), "a check whose count of torn slots fails")


def try_devices(program: Program, folder: str) -> None:
    """A device that fails under a making, an open and a run."""
    needs_strace()
    file, new = os.path.join(folder, "file"), os.path.join(folder, "new")
    put(file, TWO_SLOTS[:32] + SEVENTEEN)
    put(new, b"")
    for words, path, call, number, line, why in (
        (("make", new, "2"), new, "fdatasync", 1, "refused 3", "the device failed"),
        (("make", new, "2"), new, "pwrite64", 1, "refused 3", "the device failed"),
        (("make", new, "2", "--keys"), new, "pwrite64", 1, "refused 3", "the device failed"),
        (("renew", file, new, "2"), file, "fdatasync", 1, "refused old 7", "the device failed"),
        (("renew", file, new, "2"), new, "pwrite64", 1, "refused new 3", "the device failed"),
        (("run", file), file, "fdatasync", 1, "refused 7", "the device failed"),
        (("run", file), file, "fdatasync", 2, "halted", "the device failed: open the file again"),
        (("run", file), file, "pwrite64", 1, "halted", "the device failed: open the file again"),
    ):
        lines = "5\n" if "--keys" in words else "add 5\n"
        ended, said = program.run_loud(*words, lines=lines, before=failing(path, call, number))
        expect(ended, Ended(f"{line}\n", 1), f"{words} whose {call} {number} fails")
        named = f"{file} {new}" if words[0] == "renew" else path
        expect(said, f"lazyset: {path}: {CAUSES[call]}\nlazyset: {words[0]} {named}: {line}: {why}\n", "what it says")
