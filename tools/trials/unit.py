"""The unit of systemd: what it starts and stops, and that it makes no file."""

from __future__ import annotations

import contextlib
import os
import re
import shlex
import shutil
import signal
import socket
import subprocess
from typing import Dict, Iterator, List, Sequence

from trials.crowd import Crowd
from trials.installs import needs, said
from trials.program import Program
from trials.report import Wrong, expect

INSTANCE = "tickets"
# What follows the port, the passes and the buckets, without the path of the control socket.
LAST_WORDS = ("--idle", "300", "--control")
PROGRAM = "/usr/local/bin/lazyset"
MOST_SECONDS = 20.0


def read(path: str) -> str:
    with open(path, encoding="utf-8") as file:
        return file.read()


class Unit:
    """The unit, as systemd would start it with its folders in one of ours."""

    def __init__(self, program: Program, folder: str, text: str) -> None:
        self.program, self.folder, self.text = program, folder, text
        self.state, self.runtime = (os.path.join(folder, part, "lazyset", INSTANCE) for part in ("state", "run"))
        os.makedirs(self.state)
        self.file = os.path.join(self.state, "set")

    def variables(self, set_so: Sequence[str] = ()) -> Dict[str, str]:
        """What the service has in its environment, where an instance sets variables so."""
        told = [*shlex.split(" ".join(re.findall(r"^Environment=(.*)$", self.text, re.M))), "PORT=0", *set_so]
        return {**os.environ, **{name: value for name, _, value in (it.partition("=") for it in told)}}

    def words(self, line: str, set_so: Sequence[str] = ()) -> List[str]:
        """The words of a line, as systemd parts them: `$A` alone is as many words as it has, and `$$` is a dollar."""
        values = self.variables(set_so)
        words: List[str] = []
        for word in shlex.split("".join(re.findall(rf"^{line}=-?(.*)$", self.text.replace("\\\n", " "), re.M))):
            many = re.fullmatch(r"\$(\w+)", word)
            words += values[many[1]].split() if many else [word]
        places = {"%S": os.path.join(self.folder, "state"), "%t": os.path.join(self.folder, "run"), "%i": INSTANCE, PROGRAM: self.program.path}
        for name, place in places.items():
            words = [it.replace(name, place) for it in words]
        if any("$" in word.replace("$$", "") or "%" in word for word in words):
            raise Wrong(f"words that stand for others: {words}")
        return [word.replace("$$", "$") for word in words]

    @contextlib.contextmanager
    def started(self, *set_so: str) -> Iterator["subprocess.Popen[str]"]:
        """The service, once it has told systemd that it is ready. Its runtime folder is a new one each time."""
        shutil.rmtree(self.runtime, ignore_errors=True)
        os.makedirs(self.runtime)
        with socket.socket(socket.AF_UNIX, socket.SOCK_DGRAM) as ready:
            place = os.path.join(self.runtime, "notify")
            ready.bind(place)
            ready.settimeout(MOST_SECONDS)
            words, variables = self.words("ExecStart", set_so), {**self.variables(set_so), "NOTIFY_SOCKET": place}
            with subprocess.Popen(words, env=variables, stdout=subprocess.PIPE, stderr=subprocess.DEVNULL, text=True) as service:
                try:
                    told = ready.recv(4096).decode("ascii").splitlines()
                    expect("READY=1" in told, True, f"what systemd is told, {told}")
                    yield service
                finally:
                    service.kill()

    def start(self, line: str) -> "subprocess.CompletedProcess[str]":
        """Runs a line to its end."""
        words, variables = self.words(line), self.variables()
        return subprocess.run(words, env=variables, stdout=subprocess.PIPE, stderr=subprocess.PIPE, text=True, timeout=MOST_SECONDS)


def words_of(service: "subprocess.Popen[str]") -> List[str]:
    """The words of a service's command line after those that each instance has in front, without the path of its control socket."""
    words = read(f"/proc/{service.pid}/cmdline").split("\0")[3:-1]
    return [word for word in words if not word.startswith(os.sep)]


def port_of(service: "subprocess.Popen[str]") -> int:
    assert service.stdout is not None
    return int(service.stdout.readline().split()[1])


def try_service(program: Program, folder: str, path: str) -> None:
    """The unit starts the service alone and makes no file; the service tells systemd when it is ready and keeps a second one from the
    file; ExecStop ends it with status 0, and SIGTERM at once."""
    text = read(path)
    expect(re.findall(r"^Exec\w*", text, re.M), ["ExecStart", "ExecStop"], "what the unit starts")
    unit = Unit(program, folder, text)
    os.makedirs(unit.runtime)
    ended = unit.start("ExecStart")
    expect((ended.returncode, ended.stdout), (3, "nofile\n"), "a start without a file")
    expect(os.listdir(unit.state), [], "what such a start leaves")
    program.make(unit.file, 4)
    with unit.started() as service:
        expect(words_of(service), ["0", "64", *LAST_WORDS, "--connections", "1000"], "the words, where an instance sets nothing")
        second = unit.start("ExecStart")
        expect((second.returncode, second.stdout), (3, "nofile\n"), "a second service")
        if "another process has it open" not in second.stderr:
            raise Wrong(f"a second service says {second.stderr!r}")
        stop = unit.start("ExecStop")
        expect((stop.returncode, service.wait(MOST_SECONDS)), (0, 0), "the status of ExecStop and of the service")
    with unit.started() as service:
        service.send_signal(signal.SIGTERM)
        expect(service.wait(MOST_SECONDS), -signal.SIGTERM, "the end by SIGTERM")
    try_more(unit)


def try_more(unit: Unit) -> None:
    """An instance may set further words: here more connections than passes, which are all served at once. Buckets are named where it
    sets them, or where nothing else would give it more than one."""
    more = ["--connections", "40", "--loops", "2"]
    with unit.started("PASSES=16", f"MORE={' '.join(more)}") as service:
        expect(words_of(service), ["0", "16", *LAST_WORDS, *more], "the words, where an instance sets further ones")
        with Crowd(port_of(service), 40) as crowd:
            expect(crowd.exchange([b"has 0\n"] * 40), [b"no\n"] * 40, "lookups on all connections")
    for set_so, buckets in ((["BUCKETS=7"], "7"), (["MORE="], "4096"), (["MORE=--sessions 9", "BUCKETS=8"], "8")):
        with unit.started(*set_so) as service:
            expect(words_of(service)[2:4], ["--buckets", buckets], f"the buckets, where an instance sets {set_so}")


def try_verify(program: Program, folder: str, top: str) -> None:
    """systemd has nothing to say of the units that `make install` lays down, and the page that they name is there."""
    needs("systemd-analyze", "make")
    said(["make", "-s", "-C", top, f"PROGRAM={program.path}", f"PREFIX={folder}", "install"])
    units = [os.path.join(folder, "lib", "systemd", "system", f"lazyset@{name}") for name in (".service", ".socket")]
    expect(said(["systemd-analyze", "verify", *units]), "", "systemd-analyze verify")
    pages = [page for unit in units for page in re.findall(r"^Documentation=file:(.*)$", read(unit), re.M)]
    expect([os.path.exists(it) for it in pages], [True, True], f"the pages {pages}")
