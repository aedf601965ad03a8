"""Makings that are killed, or whose device fails: a file is made whole or not at all."""

from __future__ import annotations

import os
import random
import re
import subprocess
import tempfile
import time
from typing import List, NamedTuple, Sequence

from trials.faults import FAILURES, count_calls, failing, needs_strace
from trials.plain import MOST_SLOTS
from trials.program import Ended, Program
from trials.report import Wrong, expect

KILLS = 20

NOT_MADE = Ended("refused 1\n", 3)
NO_FILE = Ended("nofile\n", 3)
DEVICE_FAILED = Ended("refused 3\n", 1)


class Making(NamedTuple):
    """A making of so many slots, of the empty set or of a list, one key a line. Where its lines are other ones by these options, of such keys."""

    slots: int
    form: int
    listed: str = ""
    options: Sequence[str] = ()
    keys: str = ""

    def words(self, file: str) -> List[str]:
        words = ["make", file, str(self.slots), "--format", str(self.form)]
        return [*words, "--keys", *self.options] if self.listed else words

    def made(self) -> Ended:
        """What it prints."""
        return Ended(f"made {self.slots}\n", 0)

    def whole(self) -> Ended:
        """What a check of the keys says of the file."""
        return Ended(self.keys or self.listed, 0)


def keys_in_order(count: int) -> str:
    """A list of so many keys."""
    return "".join(f"{number % 16}:{number}\n" if number % 16 else f"{number}\n" for number in range(count))


def expect_whole_or_nothing(program: Program, file: str, making: Making) -> bool:
    """Says whether the file is made, and expects that it isn't otherwise, and that it may be made again then."""
    found = program.run("check", file, "--keys")
    if found == making.whole():
        ended = program.run(*making.words(file), lines=making.listed)
        expect(ended, Ended("refused 1\n", 3), "a making over a made file")
        return True
    if found not in (NOT_MADE, NO_FILE):
        raise Wrong(f"a making that was cut off left a file of which is said {found}")
    expect(program.run(*making.words(file), lines=making.listed), making.made(), "a second try")
    expect(program.run("check", file, "--keys"), making.whole(), "a file that was made at the second try")
    return False


def kill_making(program: Program, file: str, making: Making, after: float) -> bool:
    """Kills a making after so many seconds, and says whether the file is made."""
    with tempfile.TemporaryFile() as listed:
        listed.write(making.listed.encode())
        listed.seek(0)
        words = [program.path, *making.words(file)]
        with subprocess.Popen(words, stdin=listed, stdout=subprocess.PIPE) as process:
            time.sleep(after)
            process.kill()
            told = process.communicate()[0]
    is_made = expect_whole_or_nothing(program, file, making)
    if told and not is_made:
        raise Wrong(f"a making said {told!r}, and the file isn't made")
    os.remove(file)
    return is_made


def try_kills(program: Program, folder: str, seed: int, making: Making) -> None:
    """Kills makings at any moment."""
    draw = random.Random(seed)
    whole = os.path.join(folder, "whole")
    began = time.monotonic()
    expect(program.run(*making.words(whole), lines=making.listed), making.made(), "a making that isn't killed")
    took = time.monotonic() - began
    files = (os.path.join(folder, f"killed-{number}") for number in range(KILLS))
    made = sum(kill_making(program, file, making, draw.uniform(0, took)) for file in files)
    print(f"         {KILLS} makings killed, of which {made} were done", flush=True)


# The makings that are killed: of the empty set in as many slots as the older formats have, and of so many keys of a list. Each is written by many
# writes, as parts of 64 KB.
LARGEST = Making(MOST_SLOTS[2], 2)
LOADED = Making(100_000, 3, keys_in_order(70_000))
GATHERED = LOADED._replace(form=4)


def try_faults(program: Program, folder: str, making: Making = Making(2, 2)) -> None:
    """Has each write and each sync of a making fail, of one of two slots where none is given."""
    needs_strace()
    counted = os.path.join(folder, "counted")
    open(counted, "wb").close()
    counts = count_calls(program, making.words(counted), making.listed, os.path.join(folder, "log"))
    for call, number in ((call, number) for call in FAILURES for number in range(1, counts[call] + 1)):
        file = os.path.join(folder, f"{call}-{number}")
        open(file, "wb").close()
        ended = program.run(*making.words(file), lines=making.listed, before=failing(file, call, number))
        expect(ended, DEVICE_FAILED, f"a making whose {call} {number} fails")
        expect_whole_or_nothing(program, file, making)
    told = ", ".join(f"{count} of {call}" for call, count in counts.items())
    print(f"         failed in turn: {told}", flush=True)


def synced_folders(program: Program, log: str, *words: str) -> List[str]:
    """The folders that a command syncs."""
    before = ["strace", "-f", "-qq", "-y", "-o", log, "-e", "trace=fsync"]
    expect(program.run(*words, before=before).status, 0, words[0])
    with open(log, encoding="ascii", errors="replace") as traced:
        return re.findall(r"\bfsync\(\d+<([^>]*)>\)", traced.read())


def try_links(program: Program, folder: str) -> None:
    """Makings and a renewal through symbolic links to files that aren't there yet: each file's own folder is synced."""
    needs_strace()
    log = os.path.join(folder, "log")
    away = os.path.join(os.path.realpath(folder), "away")
    os.mkdir(away)
    made, listed, renewed = (os.path.join(folder, name) for name in ("made", "listed", "renewed"))
    for link in (made, listed, renewed):
        os.symlink(os.path.join(away, os.path.basename(link)), link)
    for words in (["make", made, "2"], ["make", listed, "2", "--keys"], ["renew", made, renewed, "4"]):
        expect(away in synced_folders(program, log, *words), True, f"{words[0]}: that the file's own folder is synced")
    expect(sorted(os.listdir(away)), ["listed", "made", "renewed"], "the files behind the links")
    expect(program.members(renewed), [], "the members of the renewed file")
