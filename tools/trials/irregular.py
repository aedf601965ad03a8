"""What isn't a regular file is neither made nor renewed into."""

from __future__ import annotations

import os
import shutil
import socket
import subprocess
from typing import List, Optional, Tuple

from trials.files import bytes_in
from trials.program import PATIENCE, Ended, Program
from trials.report import expect

NO_FILE = Ended("nofile\n", 3)
TEXT = b"not a set" * 1000


def irregular(folder: str) -> List[str]:
    """A pipe, a socket, a folder, and a device, which is reached by a link too."""
    pipe, link, inner, listening = (os.path.join(folder, name) for name in ("pipe", "link", "inner", "socket"))
    os.mkfifo(pipe)
    os.symlink("/dev/null", link)
    os.mkdir(inner)
    with socket.socket(socket.AF_UNIX) as bound:
        bound.bind(listening)
    return [pipe, listening, inner, link, "/dev/null"]


def loop_device(file: str) -> Optional[str]:
    """A block device over a file, where the machine allows one."""
    if shutil.which("losetup") is None:
        return None
    words = ["losetup", "--find", "--show", file]
    ended = subprocess.run(words, stdout=subprocess.PIPE, stderr=subprocess.DEVNULL, text=True, timeout=PATIENCE)
    return ended.stdout.strip() if ended.returncode == 0 else None


def expect_refused(program: Program, old: str, path: str) -> None:
    """A making and a renewal over it are refused, for this reason."""
    told: Tuple[Ended, str] = (NO_FILE, f"lazyset: {path}: it isn't a regular file\n")
    expect(program.run_loud("make", path, "2"), told, f"making {path}")
    expect(program.run_loud("make", path, "2", "--keys"), told, f"making {path} of a list")
    expect(program.run_loud("renew", old, path, "2"), told, f"renewing into {path}")


def try_pipes(program: Program, pipe: str) -> None:
    """A pipe is no file: what reads one would wait for somebody to write."""
    for words in (("info", pipe), ("check", pipe), ("check", pipe, "--keys")):
        expect(program.run_loud(*words, patience=10.0), (NO_FILE, f"lazyset: {pipe}: it is a pipe\n"), " ".join(words))


def try_irregular(program: Program, folder: str) -> None:
    """Each is refused. What a block device holds stays as it is."""
    old, image = os.path.join(folder, "old"), os.path.join(folder, "image")
    program.make(old, 2)
    paths = irregular(folder)
    try_pipes(program, paths[0])
    for path in paths:
        expect_refused(program, old, path)
    with open(image, "wb") as new:
        new.write(TEXT.ljust(1 << 20, b"\0"))
    before, device = bytes_in(image), loop_device(image)
    if device is None:
        print("         no loop device could be had", flush=True)
        return
    try:
        expect_refused(program, old, device)
    finally:
        subprocess.run(["losetup", "--detach", device], check=True, timeout=PATIENCE)
    expect(bytes_in(image), before, "what the block device holds")
