"""The words of the command line, and the version: the program's help against the man page, the completion and the pages."""

from __future__ import annotations

import os
import re
import subprocess
from typing import Dict, List

import lazyset
from trials.installs import bytes_of, needs
from trials.program import PATIENCE, Program
from trials.report import expect


def commands(program: Program) -> List[str]:
    """The commands, as the help lists them."""
    listed = program.run("--help").text.partition("Commands:\n")[2].partition("\n\n")[0]
    return re.findall(r"^  (\w+)", listed, re.M)


def options(program: Program) -> Dict[str, List[str]]:
    """The options of each command, as its help lists them."""
    return {it: re.findall(r"^ +(?:-\w, )?(--[\w-]+)", program.run("help", it).text, re.M) for it in commands(program) if it != "help"}


def try_man_page(program: Program, top: str) -> None:
    """The man page has each command and each option."""
    page = bytes_of(os.path.join(top, "docs", "lazyset.1")).decode()
    expect(sorted(set(re.findall(r"^\.It Cm (\w+)", page, re.M))), sorted(commands(program)), "the commands of the man page")
    named = {f"--{it}" for it in re.findall(r"^\.It Fl (?:\w , )?-([\w-]+)", page, re.M)}
    expect(sorted(named), sorted({"--version", *(it for each in options(program).values() for it in each)}), "its options")


def completed(path: str, *words: str) -> List[str]:
    """What the completion offers in place of the last word."""
    given = " ".join(f"'{word}'" for word in words)
    script = f'. "{path}"; COMP_WORDS=(lazyset {given}); COMP_CWORD={len(words)}; _lazyset; printf "%s\\n" "${{COMPREPLY[@]}}"'
    ended = subprocess.run(["bash", "-c", script], stdout=subprocess.PIPE, text=True, timeout=PATIENCE, check=True)
    return sorted(ended.stdout.split())


def try_completion(program: Program, top: str) -> None:
    """The completion offers each command, and each command's options."""
    needs("bash")
    path = os.path.join(top, "contrib", "lazyset.bash")
    expect(completed(path, ""), sorted([*commands(program), "--help", "--version"]), "the commands of the completion")
    expect(completed(path, "help", ""), sorted(commands(program)), "what help is given")
    for command, offered in options(program).items():
        expect(completed(path, command, "-"), sorted(offered), f"the options of {command}")


def try_versions(program: Program, top: str) -> None:
    """The changelog, the client and the program name one version."""
    version = program.run("--version").text.split()[1].rstrip(",")
    released = re.findall(r"^## \[([0-9.]+)\]", bytes_of(os.path.join(top, "CHANGELOG.md")).decode(), re.M)
    expect((released[0], lazyset.__version__), (version, version), "the versions of the changelog and of the client")
