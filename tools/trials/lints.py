"""What the man page's and the shell's own checkers say: nothing."""

from __future__ import annotations

import os
import subprocess
from typing import Iterator, List

from trials.installs import needs
from trials.program import PATIENCE
from trials.report import expect

# What isn't the repository's own text: built files, and sources that are no scripts.
LEFT_OUT = (".git", "__pycache__", "crates", "dist", "docs")


def scripts(top: str) -> Iterator[str]:
    """The shell scripts of the repository."""
    for at, folders, names in os.walk(top):
        folders[:] = sorted(set(folders) - set(LEFT_OUT))
        for path in (os.path.join(at, name) for name in sorted(names)):
            with open(path, "rb") as file:
                if path.endswith(".bash") or file.readline() in (b"#!/bin/sh\n", b"#!/bin/bash\n"):
                    yield path


def told(words: List[str]) -> str:
    # On standard error mandoc says where this machine has no index of its pages.
    ended = subprocess.run(words, stdout=subprocess.PIPE, stderr=subprocess.DEVNULL, text=True, timeout=PATIENCE)
    return f"{ended.stdout}{ended.returncode or ''}"


def try_man_page(top: str) -> None:
    needs("mandoc")
    expect(told(["mandoc", "-T", "lint", os.path.join(top, "docs", "lazyset.1")]), "", "mandoc -T lint")


def try_man(top: str) -> None:
    needs("man", "groff")
    words = ["man", "--warnings", "--encoding=UTF-8", "-Tutf8", "--ditroff", "--local-file", os.path.join(top, "docs", "lazyset.1")]
    ended = subprocess.run(words, stdout=subprocess.DEVNULL, stderr=subprocess.PIPE, text=True, timeout=PATIENCE)
    expect((ended.returncode, ended.stderr), (0, ""), "man -l")


def try_scripts(top: str) -> None:
    needs("shellcheck")
    found = list(scripts(top))
    expect(len(found) > 5, True, "that there are scripts")
    for path in found:
        shell = ["--shell=bash"] if path.endswith(".bash") else []
        expect(told(["shellcheck", *shell, path]), "", f"shellcheck {os.path.relpath(path, top)}")


def try_flow_chart(top: str) -> None:
    expect(told([os.path.join(top, "tools", "flow-chart"), "--check"]), "", "tools/flow-chart --check")
