"""The examples of the pages, run as they are printed. A page has no other commands than these and those that are listed here."""

from __future__ import annotations

import os
import re
import shutil
import socket
import subprocess
import threading
import time
from dataclasses import dataclass, field
from queue import Empty, Queue
from typing import Dict, List, Optional, Sequence, Tuple

from trials.report import Skip, Wrong

PROMPT = "    $ "
INDENT = "    "
END = "end-of-example"
PATIENCE = 20.0

# The port of a service that names none.
USUAL_PORT = "7000"

# How long a port is waited for that the page before has served on.
MOST_WAIT = 5.0

# What stands on a page without a prompt isn't run. Each such command of each page, and why.
ROOT = "root alone may"
SYSTEMD = "systemd as process 1"
DOCKER = "docker"
REDIS = "a redis-server with members"
VOLUME = "trials of two machines do"
NOT_RUN: Dict[str, Dict[str, str]] = {
    "README.md": {
        "./first-run": "it has trials of its own",
        "tools/try-real": "it runs this",
        "docker build -f contrib/Containerfile -t lazyset dist": DOCKER,
        "PATH=$PWD/crates/lazyset/out:$PATH": "the shell has the program that is tried on its path",
    },
    "RECIPES.md": {
        "docker build -f contrib/Containerfile -t lazyset dist": DOCKER,
        "docker run --rm -v keys:/set lazyset make keys 1000": DOCKER,
        "docker run --init -d --name keys -v keys:/set lazyset serve keys 7000 8 --buckets 1000 --control /run/lazyset/control": DOCKER,
        "docker run --rm --network container:keys CLIENT": DOCKER,
        "redis-cli SMEMBERS seen | lazyset make set 100000 --format 4 --keys": REDIS,
        "redis-cli SMEMBERS tags | lazyset make texts 100000 --format 4 --keys --text tags": REDIS,
    },
    "OPERATIONS.md": {
        "make install": ROOT,
        "mkdir -p /etc/lazyset && printf 'PORT=7001\\n' > /etc/lazyset/tickets": ROOT,
        "mkdir -p -m 700 /var/lib/private && mkdir -p /var/lib/private/lazyset/tickets": ROOT,
        "lazyset make /var/lib/private/lazyset/tickets/set 1000": ROOT,
        "(umask 077 && head -c 32 /dev/urandom | base64 > /var/lib/private/lazyset/tickets/secret)": ROOT,
        "printf 'MORE=--connections 1000 --resp --text --secret /var/lib/lazyset/tickets/secret\\n' >> /etc/lazyset/tickets": ROOT,
        "systemctl daemon-reload": SYSTEMD,
        "systemctl enable --now lazyset@tickets": SYSTEMD,
        "systemctl disable --now lazyset@tickets": SYSTEMD,
        "systemctl enable --now lazyset@tickets.socket": SYSTEMD,
        "systemctl stop lazyset@tickets": SYSTEMD,
        "lazyset grow /var/lib/lazyset/tickets/set 2000": ROOT,
        "systemctl start lazyset@tickets": SYSTEMD,
    },
    "SCALE.md": {
        "lazyset serve f - 64 --connections 1000 --resp --socket /run/lazyset/socket": ROOT,
        "redis-cli -h keys.example --tls --cacert ca.pem -p 7443 SADD 0 17": "another machine",
        "gluster peer probe two": VOLUME,
        "gluster peer probe three": VOLUME,
        "gluster volume create keys replica 3 one:/bricks/keys two:/bricks/keys three:/bricks/keys": VOLUME,
        "gluster volume set keys client.strict-locks on cluster.post-op-delay-secs 0 performance.quick-read off cluster.heal-timeout 10": VOLUME,
        "gluster volume set keys network.ping-timeout 3 server.tcp-user-timeout 5": VOLUME,
        "gluster volume set keys server.keepalive-time 2 server.keepalive-interval 1 server.keepalive-count 3": VOLUME,
        "gluster volume start keys": VOLUME,
        "mount -t glusterfs -o direct-io-mode=enable,backup-volfile-servers=two:three one:/keys /var/lib/private/lazyset/keys": VOLUME,
        "lazyset make /var/lib/private/lazyset/keys/set 1100000 --format 4": ROOT,
        "lazyset serve /var/lib/private/lazyset/keys/set 7000 64 --connections 1000 --resp --standby --rewrite --lease 1000 --control /run/lazyset/control": ROOT,
    },
}

# What `make install` lays down elsewhere, and what it is a copy of.
INSTALLED = ("/usr/local/lib/lazyset/ask", "clients/shell/ask")

# What the examples call beside the program and the shell's own words.
TOOLS = ("nc", "bash", "strace", "python3", "xxd", "od", "flock")

# What redis-cli prints on a terminal.
ON_TERMINAL = ("redis-cli ", "redis-cli --no-raw ")

# Where these are missing the examples that call them are left out, and the others of their page are run: they need nothing of them.
OPTIONAL = ("redis-cli",)

# The clients, which the examples call as in the repository's folder. The one for the shell connects by `nc`, or by `bash`.
CLIENTS = os.path.join(os.path.dirname(os.path.abspath(__file__)), "..", "..", "clients")


@dataclass
class Example:
    """A command as printed, with what it prints."""

    line: int
    command: str
    printed: List[str] = field(default_factory=list)


def displays_of(text: str) -> str:
    """The literal displays of a man page as indented blocks, in the same lines, and nothing else of it."""
    lines: List[str] = []
    is_literal = False
    for line in text.splitlines():
        is_literal = line.startswith(".Bd -literal") or (is_literal and line != ".Ed")
        lines.append(INDENT + line.replace("\\e", "\\") if is_literal and not line.startswith(".") else "")
    return "\n".join(lines)


def unfenced(text: str) -> str:
    """The text without what stands between two fences, which isn't for a shell, in the same lines."""
    return re.sub(r"^```\n.*?^```$", lambda found: "\n" * found[0].count("\n"), text, flags=re.M | re.S)


def examples_of(text: str) -> Tuple[List[Example], List[Example]]:
    """The commands of a page's indented blocks that begin with a prompt, with the lines below each, and the lines of such blocks that stand
    below no prompt, without a comment. A command with a here-document (`<< 'END'`) goes on to the line with its word."""
    examples: List[Example] = []
    others: List[Example] = []
    is_below = False
    end_of_command = ""
    for number, line in enumerate(unfenced(text).splitlines(), 1):
        if end_of_command:
            examples[-1].command += "\n" + line[len(INDENT) :]
            if line == INDENT + end_of_command:
                end_of_command = ""
        elif line.startswith(PROMPT):
            examples.append(Example(number, line[len(PROMPT) :]))
            is_below = True
            end_of_command = "".join(re.findall(r"<< '(\w+)'$", line))
        elif line.startswith(INDENT) and is_below:
            examples[-1].printed.append(line[len(INDENT) :])
        elif line.startswith(INDENT):
            others.append(Example(number, re.sub(r" +# .*", "", line[len(INDENT) :])))
        else:
            is_below = False
    return examples, others


def rows_of(text: str) -> List[Tuple[int, str, str]]:
    """The rows of a page's tables that end with two commands, one that makes a file and one that serves it, with their lines."""
    ends = re.compile(r"\| `(lazyset make [^`]+)` \| `(lazyset serve [^`]+)` \|$")
    found = ((number, ends.search(line)) for number, line in enumerate(text.splitlines(), 1))
    return [(number, row[1], row[2]) for number, row in found if row]


def try_row(shell: "Shell", line: int, make: str, serve: str) -> None:
    """A row's file is made, and its service listens; the file is removed again."""
    slots, port = re.findall(r"make \S+ (\d+)", make)[0], ports_of(serve)[0]
    for command, wanted in ((make, [f"made {slots}"]), (f"{serve} &", [f"listening {port}"]), (f"kill $! && wait $!; rm {make.split()[2]}", [])):
        printed = shell.run(command, len(wanted))
        if printed != wanted:
            raise Wrong(f"line {line}: {command!r} printed {printed}, not {wanted}")


def see_listed(others: Sequence[Example], listed: Dict[str, str]) -> None:
    """Each command that isn't run is listed, and each that is listed is there."""
    for other in others:
        if other.command not in listed:
            raise Wrong(f"line {other.line}: {other.command!r} is neither run nor listed")
    gone = sorted(set(listed) - {other.command for other in others})
    if gone:
        raise Wrong(f"listed and not there: {gone}")


class Shell:
    """A shell in a folder, whose standard output is read line by line."""

    def __init__(self, folder: str, program: str) -> None:
        words = os.path.join(folder, "bin")
        os.mkdir(words)
        os.symlink(program, os.path.join(words, "lazyset"))
        os.symlink(CLIENTS, os.path.join(folder, "clients"))
        path = os.pathsep.join([words, os.environ.get("PATH", os.defpath)])
        self.process = subprocess.Popen(
            ["sh"],
            cwd=folder,
            env={**os.environ, "PATH": path, "LC_ALL": "C", "PYTHONDONTWRITEBYTECODE": "1"},
            stdin=subprocess.PIPE,
            stdout=subprocess.PIPE,
            stderr=subprocess.DEVNULL,
            text=True,
            start_new_session=True,
        )
        self.lines: "Queue[str]" = Queue()
        threading.Thread(target=self._read, daemon=True).start()

    def _read(self) -> None:
        assert self.process.stdout is not None
        for line in self.process.stdout:
            self.lines.put(line.rstrip("\n"))

    def run(self, command: str, wanted: int) -> List[str]:
        """What a command prints. One that goes on behind it may print its lines late, so as many as wanted are awaited."""
        assert self.process.stdin is not None
        try:
            self.process.stdin.write(f"{command}\necho {END}\n")
            self.process.stdin.flush()
        except BrokenPipeError:
            raise Wrong(f"the shell has ended before {command!r}") from None
        lines: List[str] = []
        has_ended = False
        latest = time.monotonic() + PATIENCE
        while not has_ended or len(lines) < wanted:
            try:
                line = self.lines.get(timeout=max(0.0, latest - time.monotonic()))
            except Empty:
                return lines
            if line == END:
                has_ended = True
            else:
                lines.append(line)
        return lines

    def end(self) -> None:
        """Ends the shell and all that it started."""
        try:
            os.killpg(self.process.pid, 9)
        except ProcessLookupError:
            pass
        self.process.wait()


def missing(examples: Sequence[Example]) -> List[str]:
    """The tools that the examples call and this machine hasn't."""
    called = {word for example in examples for word in re.findall(r"[a-z0-9]+", example.command)}
    if "ask" in called and shutil.which("bash") is None:
        called.add("nc")
    return [tool for tool in TOOLS if tool in called and shutil.which(tool) is None]


def is_left_out(example: Example) -> bool:
    return any(tool in example.command and shutil.which(tool) is None for tool in OPTIONAL)


def ports_of(command: str) -> List[str]:
    """The ports on which a command serves."""
    found = re.findall(r"lazyset serve \S+(?: (\d+|-))?(.*)", command)
    return [port or USUAL_PORT for port, words in found if port != "-" and "--socket" not in words]


def taken_ports(examples: Sequence[Example]) -> List[str]:
    """The ports that the examples serve on and that another program has, and doesn't leave."""
    asked = {port for example in examples for port in ports_of(example.command)}
    return [port for port in sorted(asked) if _is_taken(int(port))]


def _is_taken(port: int) -> bool:
    latest = time.monotonic() + MOST_WAIT
    while time.monotonic() < latest:
        try:
            with socket.create_server(("127.0.0.1", port)):
                return False
        except OSError:
            time.sleep(0.1)
    return True


def try_page(program: str, folder: str, page: str) -> None:
    """Runs a page's rows of commands, and then its examples one after another, in one shell and one folder. What else stands there as a
    command is listed above."""
    with open(page, encoding="utf-8") as file:
        text = file.read()
    name = os.path.basename(page)
    examples, others = examples_of(displays_of(text) if name.endswith(".1") else text)
    if not examples:
        raise Wrong("it has no examples")
    see_listed(others, NOT_RUN.get(name, {}))
    for absent in missing(examples):
        raise Skip(f"{absent} isn't installed")
    for port in taken_ports(examples):
        raise Skip(f"port {port} is another program's")
    shell = Shell(folder, program)
    try:
        for line, make, serve in rows_of(text):
            try_row(shell, line, make, serve)
        for example in examples:
            if is_left_out(example):
                continue
            printed = shell.run(example.command.replace(*INSTALLED).replace(*ON_TERMINAL), len(example.printed))
            if printed != example.printed:
                raise Wrong(f"line {example.line}: {example.command!r} printed {printed}, not {example.printed}")
    finally:
        shell.end()
