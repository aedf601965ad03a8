"""The largest file of all: 16,777,216 slots, which only format 3 has."""

from __future__ import annotations

import os
import shutil
import time

from trials.files import FIVE, SEVENTEEN, changed, put
from trials.plain import HEAD_SIZE, MOST_BUCKETS, MOST_SLOTS, SLOT_SIZE
from trials.program import Ended, Program
from trials.report import Skip, expect

FORM = 3
SLOTS = MOST_SLOTS[FORM]
LAST = SLOTS - 1

# What the trial needs of the disk, of which the file takes a quarter, and of memory.
DISK = 1 << 30
MEMORY = 4 << 30

# How long a command on it may take, also on a slow disk.
PATIENCE = 600.0

# A key that is in the bucket of 17, and isn't 17.
NEIGHBOUR = 17 + MOST_BUCKETS[FORM]


def needs_room(folder: str) -> None:
    """Skips the trial where the disk or the memory has no room for such a file."""
    if shutil.disk_usage(folder).free < DISK:
        raise Skip("less than 1 GB of disk is free")
    with open("/proc/meminfo", encoding="ascii") as facts:
        available = {line.split(":")[0]: int(line.split()[1]) << 10 for line in facts}
    if available["MemAvailable"] < MEMORY:
        raise Skip("less than 4 GB of memory are free")


def put_last(file: str, slot: bytes) -> None:
    """Writes the last slot."""
    with open(file, "r+b") as new:
        new.seek(HEAD_SIZE + SLOT_SIZE * LAST)
        new.write(slot)


def last_slot(file: str) -> bytes:
    with open(file, "rb") as found:
        found.seek(HEAD_SIZE + SLOT_SIZE * LAST)
        return found.read()


def try_largest(program: Program, folder: str) -> None:
    """It is made, counted, checked and run, and its last slot is told by its number."""
    needs_room(folder)
    file = os.path.join(folder, "largest")
    try:
        try_file(program, file)
    finally:
        put(file, None)


def try_file(program: Program, file: str) -> None:
    def expect_told(told: str, status: int, *words: str, lines: str = "") -> None:
        expect(program.run(*words, lines=lines, patience=PATIENCE), Ended(told, status), f"{words[0]} on the largest file")

    began = time.monotonic()
    expect_told(f"made {SLOTS}\n", 0, "make", file, str(SLOTS), "--format", str(FORM))
    print(f"         made in {time.monotonic() - began:.1f} s", flush=True)
    expect(os.path.getsize(file), HEAD_SIZE + SLOT_SIZE * SLOTS, "the length of the largest file")
    expect_told(f"format 3\nslots {SLOTS}\nmembers 0\nfree {SLOTS}\ngood\n", 0, "info", file)
    run = ("run", file, "--buckets", str(MOST_BUCKETS[FORM]))
    expect_told("yes\nyes\nno\n", 0, *run, lines=f"add 17\nadd {NEIGHBOUR}\nadd 17\n")
    held = f"slot 0 key 17\nslot 1 key {NEIGHBOUR}\n"
    put_last(file, FIVE)
    expect_told(f"{held}slot {LAST} key 5\ngood\n", 0, "check", file)
    expect_told("yes\nyes\nno\n", 0, *run, lines="has 5\nremove 5\nhas 5\n")
    expect(last_slot(file), changed(FIVE, 0, 0), "the last slot once its key is removed")
    put_last(file, SEVENTEEN)
    expect_told(f"{held}slot {LAST} twice 0\ndamaged\n", 4, "check", file)
    expect_told(f"refused 6 0 {LAST}\n", 3, "run", file)
    put_last(file, changed(SEVENTEEN, 1, 16))
    expect_told(f"17\n{NEIGHBOUR}\ndamaged\n", 4, "check", file, "--keys")
    expect_told(f"refused 5 {LAST}\n", 3, "run", file)
