"""Machines for a trial: each is a process with namespaces of its own, for its network, its mounts and its processes, which end with it."""

from __future__ import annotations

import contextlib
import os
import subprocess
from typing import Iterator, List, Sequence

from trials.beside_redis import needs_package
from trials.program import PATIENCE
from trials.report import Skip, Wrong

# What a machine has to itself of the file system, by the name of its part in the machine's folder.
PLACES = {"state": "/var/lib/glusterd", "logs": "/var/log/glusterfs", "run": "/run"}

NETWORK = "10.99.0"

# The first process of a machine waits for the end of standard input, and meanwhile for what is left to it of others that have ended.
WAIT = "exec 3<&0 && { cat <&3 & wait $!; }"


class Machine:
    """A machine with a folder of its own. It lives as long as this process has its standard input, so nothing of it outlives the trial."""

    def __init__(self, folder: str, number: int) -> None:
        self.folder, self.address = folder, f"{NETWORK}.{number}"
        for part in PLACES:
            os.makedirs(os.path.join(folder, part))
        binds = [f"mount --bind '{folder}/{part}' {place}" for part, place in PLACES.items() if os.path.isdir(place)]
        words = ["unshare", "--net", "--mount", "--pid", "--fork", "--mount-proc", "--kill-child"]
        self.process = subprocess.Popen(
            [*words, "sh", "-c", " && ".join([*binds, "echo up", WAIT])],
            stdin=subprocess.PIPE,
            stdout=subprocess.PIPE,
            stderr=subprocess.STDOUT,
            text=True,
            start_new_session=True,
        )
        assert self.process.stdout is not None
        told = self.process.stdout.readline()
        if told != "up\n":
            self.end()
            raise Skip(f"no namespaces can be made: {told.strip()}")

    def end(self) -> None:
        """Ends it, with each process and mount that it has."""
        assert self.process.stdin is not None and self.process.stdout is not None
        with contextlib.suppress(OSError):
            self.process.stdin.close()
        try:
            self.process.wait(PATIENCE)
        finally:
            self.process.kill()
        self.process.stdout.close()

    @property
    def inside(self) -> List[str]:
        """The words before a command that is to be one of this machine."""
        spaces = f"/proc/{self.process.pid}/ns"
        return ["nsenter", f"--net={spaces}/net", f"--mount={spaces}/mnt", f"--pid={spaces}/pid_for_children", "--"]

    def run(self, *words: str) -> str:
        """Runs a command on this machine, and gives what it says."""
        ended = subprocess.run([*self.inside, *words], stdin=subprocess.DEVNULL, stdout=subprocess.PIPE, stderr=subprocess.STDOUT, timeout=PATIENCE)
        text = os.fsdecode(ended.stdout)
        if ended.returncode:
            raise Wrong(f"{' '.join(words)}: status {ended.returncode}, {text[-400:]!r}")
        return text

    def tries(self, *words: str) -> bool:
        """Whether a command does what it is to do on this machine."""
        try:
            self.run(*words)
        except (Wrong, subprocess.TimeoutExpired):
            return False
        return True

    def connect(self, switch: "Machine", name: str) -> None:
        """Connects it with others by a switch, which is a machine too."""
        # The other end is moved by the number of a process, which is known outside alone.
        words = ["nsenter", f"--net=/proc/{switch.process.pid}/ns/net", "--"]
        words += f"ip link add {name} type veth peer name net0 netns {self.process.pid}".split()
        made = subprocess.run(words, stdout=subprocess.PIPE, stderr=subprocess.STDOUT)
        if made.returncode:
            raise Skip(f"no network can be made: {os.fsdecode(made.stdout).strip()}")
        switch.run(*f"ip link set {name} master switch up".split())
        self.run(*"ip link set lo up".split())
        self.run(*f"ip address add {self.address}/24 dev net0".split())
        self.link("up")

    def link(self, state: str) -> None:
        """Cuts it off (`down`), or lets it reach the others again (`up`)."""
        self.run("ip", "link", "set", "net0", state)


def needs_namespaces() -> None:
    """Skips the trial where this user can't make machines."""
    if os.geteuid() != 0:
        raise Skip("root alone may make namespaces")
    for tool, package in (("ip", "iproute2"), ("unshare", "util-linux"), ("nsenter", "util-linux")):
        needs_package(tool, package)


@contextlib.contextmanager
def machines(folder: str, names: Sequence[str]) -> Iterator[List[Machine]]:
    """Machines of one network, with folders of these names."""
    with contextlib.ExitStack() as ends:

        def started(name: str, number: int) -> Machine:
            machine = Machine(os.path.join(folder, name), number)
            ends.callback(machine.end)
            return machine

        switch = started("switch", 254)
        if not switch.tries(*"ip link add switch type bridge".split()):
            raise Skip("no bridge can be made of a network")
        switch.run(*"ip link set switch up".split())
        connected = []
        for number, name in enumerate(names, 1):
            connected.append(started(name, number))
            connected[-1].connect(switch, f"to-{name}")
        yield connected
