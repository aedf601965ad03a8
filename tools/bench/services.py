"""The services that are measured, and the load."""

from __future__ import annotations

import contextlib
import os
import resource
import shutil
import signal
import socket
import subprocess
import tempfile
import time
from dataclasses import dataclass
from typing import Iterator, List, NamedTuple, Optional, Sequence

HERE = os.path.dirname(os.path.abspath(__file__))

SLOTS = 65536
# As many lists as a file of format 2 may have; one of format 3 may have one for each of these slots.
BUCKETS = 4096
MOST_THREADS = 64
MOST_PASSES = 1024

# A loop over a file of format 2, one over a file of format 4, and one over such a file each of whose free slots is torn: more than a crash
# leaves, which tears those that were being written. And one whose keys are removed as they lie in the file, as if in the order of adding.
FEW, WHOLE, TORN, ORDERED = "loop of format 2", "loop of format 4", "loop of format 4, torn", "loop of format 4, in order"

# Targets that are measured over so many connections alone, and of which format a target's file is, where that is its own.
NARROW, NARROW_CONNECTIONS = (FEW, TORN, ORDERED), 64
FORMS = {WHOLE: 4, TORN: 4, ORDERED: 4}
ONLY = {TORN: "add", ORDERED: "remove"}

# A loop that speaks Redis's protocol.
FRAMES = "frames"

# How much longer a sync takes on the slow device, in microseconds, and by what: each call waits before it begins.
DELAY = 1000
SLOWED = ("-e", "trace=fdatasync", "-e", f"inject=fdatasync:delay_enter={DELAY}")


class Served(NamedTuple):
    """A service that runs: its port, and the process that was started."""

    port: int
    pid: int


class Told(NamedTuple):
    """What a load told of its end."""

    answered: int
    yes: int
    seconds: float
    # For how many milliseconds a connection waited, half of the times and 99 of 100 times at most.
    half: float = 0
    most: float = 0

    def done(self, verb: str) -> int:
        """How many commands count: of changes those that changed something."""
        return self.answered if verb == "has" else self.yes


@dataclass(frozen=True)
class Bench:
    """Where the programs and the files lie, for how long each rate is taken, and how many loops a service of loops has."""

    program: str
    folder: str
    seconds: float
    loops: int = 1

    def path(self, name: str) -> str:
        return os.path.join(self.folder, name)

    def build(self) -> None:
        for name in ("load", "floor"):
            self.compile(name, name)

    def compile(self, name: str, source: str, *words: str) -> bool:
        """Builds a program of a source that lies beside this one, and says whether it could."""
        built = ["cc", "-O2", "-pthread", "-o", self.path(name), os.path.join(HERE, f"{source}.c"), *words, "-lm"]
        return subprocess.run(built, check=not words, stderr=subprocess.DEVNULL if words else None).returncode == 0

    def has_loops(self) -> bool:
        """Whether the program serves many connections by few threads."""
        told = subprocess.run([self.program, "help", "serve"], stdout=subprocess.PIPE, stderr=subprocess.DEVNULL, text=True)
        return "--connections" in told.stdout

    def load(self, target: str, port: int, verb: str, connections: int, depth: int, count: int, seconds: float) -> Told:
        return told_by(self.start_load(target, port, verb, connections, depth, 0, count, seconds))

    def start_load(
        self, target: str, port: int, verb: str, connections: int, depth: int, first: int, count: int, seconds: float, once: bool = False
    ) -> "subprocess.Popen[str]":
        what = "redis" if target in ("redis", FRAMES) else "lazyset"
        order = ["ordered"] if target == ORDERED else ["once"] * once
        words = [what, str(port), str(connections), str(depth), verb, str(first), str(count), str(seconds), *order]
        return subprocess.Popen([self.path("load"), *words], stdout=subprocess.PIPE, text=True)

    def slowed(self) -> List[str]:
        """The words behind which each sync of a program takes longer, and is noted."""
        return ["strace", "-f", "-qq", "-o", self.path("syncs"), "--seccomp-bpf", *SLOWED]

    def syncs(self) -> int:
        """How many syncs were noted, of the program that was started last."""
        with open(self.path("syncs"), encoding="ascii", errors="replace") as noted:
            return sum("fdatasync(" in line for line in noted)


def told_by(load: "subprocess.Popen[str]") -> Told:
    """What a load that was started tells, once it has ended."""
    told, _ = load.communicate()
    if load.returncode != 0:
        raise SystemExit("the load failed")
    answered, yes, *times = told.split()
    return Told(int(answered), int(yes), *map(float, times))


def may_have_descriptors() -> None:
    """Lets what is started have as many connections as this machine allows."""
    _, hard = resource.getrlimit(resource.RLIMIT_NOFILE)
    resource.setrlimit(resource.RLIMIT_NOFILE, (hard, hard))


def switches(pid: int) -> int:
    """How often the threads of a process have left the processor."""
    count = 0
    for thread in os.listdir(f"/proc/{pid}/task"):
        with contextlib.suppress(OSError), open(f"/proc/{pid}/task/{thread}/status", encoding="ascii", errors="replace") as status:
            count += sum(int(line.split()[1]) for line in status if "ctxt_switches" in line)
    return count


def processor_seconds(pid: int) -> float:
    """How much of a processor a process has taken."""
    with open(f"/proc/{pid}/stat", encoding="ascii", errors="replace") as told:
        user, system = told.read().rpartition(") ")[2].split()[11:13]
    return (int(user) + int(system)) / os.sysconf("SC_CLK_TCK")


def serves(target: str, connections: int, verb: str = "add") -> bool:
    """Whether a target is measured over so many connections at once: one with a thread for each has few."""
    if target in NARROW:
        return connections == NARROW_CONNECTIONS and verb == ONLY.get(target, verb)
    return target != "threads" or connections <= MOST_THREADS


def service(
    bench: Bench, target: str, members: int, connections: int, before: Sequence[str] = (), passes: int = 1
) -> "contextlib.AbstractContextManager[Served]":
    """The target's service, with so many members, which serves so many connections at once, and so many commands at least, started behind
    these words."""
    if target == "redis":
        return redis(bench, members, before)
    calls = max(connections, passes)
    # One of a loop's passes carries out no command, where it has several.
    passes = connections if target == "threads" else min(calls + int(calls > 1), MOST_PASSES)
    loop = [] if target == "threads" else ["--connections", str(connections), "--loops", str(bench.loops)]
    buckets = BUCKETS if target == FEW else SLOTS
    return lazyset(bench, SLOTS, members, passes, buckets, loop, before, form=FORMS.get(target), torn=target == TORN)


def slot_of(number: int, form: int) -> bytes:
    """The slot of a key in the first room."""
    if form == 4:
        return bytes(15 * (int(digit, 16) + 1) for digit in f"{number:016x}")
    return b"\xa5" + bytes(7) + number.to_bytes(8, "big")


def write_file(path: str, slots: int, members: int, form: int = 2, torn: bool = False) -> None:
    """A slot file of a format, with the keys below so many, and each other slot torn or zeros."""
    name = b"LZYSET%d" % form
    with open(path, "wb") as file:
        file.write(b"\xa5" + name + slots.to_bytes(8, "big"))
        file.writelines(slot_of(number, form) for number in range(members))
        # Zeros, and no hole: a device allocates what is written there first.
        file.writelines(slot_of(number, form)[:8] * torn + bytes(16 - 8 * torn) for number in range(slots - members))
        file.flush()
        os.fsync(file.fileno())


@contextlib.contextmanager
def lazyset(
    bench: Bench,
    slots: int,
    members: int,
    passes: int,
    buckets: int,
    options: Sequence[str] = (),
    before: Sequence[str] = (),
    name: str = "f",
    form: Optional[int] = None,
    torn: bool = False,
) -> Iterator[Served]:
    """A service over a file of this name with so many members, of this format, or of 3 where format 2 has no room for its slots or buckets."""
    file = bench.path(name)
    write_file(file, slots, members, form or (3 if slots > SLOTS or buckets > BUCKETS else 2), torn)
    words = [*before, bench.program, "serve", file, "0", str(passes), "--buckets", str(buckets), *options]
    started = subprocess.Popen(words, stdout=subprocess.PIPE, stderr=subprocess.DEVNULL, text=True, start_new_session=True)
    assert started.stdout is not None
    try:
        yield Served(int(started.stdout.readline().split()[1]), started.pid)
    finally:
        os.killpg(started.pid, signal.SIGKILL)
        started.wait()
        started.stdout.close()
        os.remove(file)


def free_port() -> int:
    with socket.create_server(("127.0.0.1", 0)) as listener:
        return int(listener.getsockname()[1])


@contextlib.contextmanager
def redis(bench: Bench, members: int, before: Sequence[str] = ()) -> Iterator[Served]:
    """A Redis that syncs each write before it answers, with so many members in its set."""
    folder = tempfile.mkdtemp(dir=bench.folder)
    port = free_port()
    options = {"port": str(port), "bind": "127.0.0.1", "dir": folder, "save": "", "appendonly": "yes", "appendfsync": "always"}
    words = [word for name, value in options.items() for word in (f"--{name}", value)]
    started = subprocess.Popen([*before, "redis-server", *words], stdout=subprocess.DEVNULL, start_new_session=True)
    try:
        wait_for(port)
        if members:
            bench.load("redis", port, "add", 16, 64, members, 60)
        yield Served(port, started.pid)
    finally:
        os.killpg(started.pid, signal.SIGKILL)
        started.wait()
        shutil.rmtree(folder, ignore_errors=True)


def wait_for(port: int) -> None:
    for _ in range(200):
        with contextlib.suppress(OSError), socket.create_connection(("127.0.0.1", port), 1):
            return
        time.sleep(0.05)
    raise SystemExit("redis-server doesn't listen")
