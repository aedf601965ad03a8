"""Two machines that serve one file of a replicated volume (GlusterFS): where one is gone the other one takes over, with each answered key.

The volume is made by the commands of docs/SCALE.md. The machines are namespaces of this one: three hold the volume, and two of them, or two others,
serve the file."""

from __future__ import annotations

import contextlib
import itertools
import os
import re
import select
import signal
import socket
import statistics
import subprocess
import threading
import time
from typing import Dict, Iterator, List, NamedTuple, Sequence

from trials.beside_redis import needs_package
from trials.namespaces import Machine, machines, needs_namespaces
from trials.program import PATIENCE, Ended, Program
from trials.proxies import PAGE
from trials.report import Skip, Wrong, expect
from trials.standby import WAITING, until
from trials.stops import lines_of

HOLDERS, SERVERS = ("one", "two", "three"), ("a", "b")

# How a service is gone. It is killed. Its machine is cut off, and it is loaded, or paused, or idle until that is back. Or the machines that hold the
# volume are restarted, one after the other, so that nothing is left of its locks.
KINDS = ("idle", "restarted", "paused", "killed", "cut off")

# The places that the page has in its commands.
BRICK, MOUNT = "/bricks/keys", "/var/lib/private/lazyset/keys"

SLOTS, CLIENTS = 262_144, 6

# How many keys are asked for at once.
AT_ONCE = 500

# How long a service is loaded before it is gone, and how long a client waits between an answer and its next addition.
LOADED, PAUSE = 1.5, 0.002

# The lease of each service, in milliseconds, as the page has it.
LEASE = 1000

# For how many seconds a machine that was cut off reaches the volume again before its service goes on: its mount has connected anew by then.
REACHED = 6

# Within how many seconds the other one has to serve, on a busy machine too, and the old one has to end once it is reached again.
SERVES_WITHIN = 30.0


class Answer(NamedTuple):
    """An addition, when it was sent, and what was told; nothing where the connection ended."""

    key: int
    sent: float
    told: bytes


class Adder(threading.Thread):
    """A client that adds one key after the other, while it may, until one isn't answered `yes`."""

    def __init__(self, path: str, keys: Iterator[int], may_add: threading.Event) -> None:
        super().__init__(daemon=True)
        self.keys, self.may_add = keys, may_add
        self.answers: List[Answer] = []
        self.socket = socket.socket(socket.AF_UNIX)
        self.socket.settimeout(2 * SERVES_WITHIN)
        self.socket.connect(path)

    def run(self) -> None:
        with self.socket, self.socket.makefile("rb") as replies:
            for key in self.keys:
                sent, told = time.monotonic(), b""
                with contextlib.suppress(OSError):
                    self.socket.sendall(b"add %d\n" % key)
                    told = replies.readline()
                self.answers.append(Answer(key, sent, told))
                if told != b"yes\n":
                    return
                time.sleep(PAUSE)
                self.may_add.wait()


class Looker(threading.Thread):
    """A client that looks up all the time, until that isn't answered, and when it was told so."""

    def __init__(self, path: str) -> None:
        super().__init__(daemon=True)
        self.told_at: List[float] = []
        self.socket = socket.socket(socket.AF_UNIX)
        self.socket.settimeout(2 * SERVES_WITHIN)
        self.socket.connect(path)

    def run(self) -> None:
        with self.socket, self.socket.makefile("rb") as replies, contextlib.suppress(OSError):
            self.socket.sendall(b"has 1\n")
            while replies.readline() in (b"yes\n", b"no\n"):
                self.told_at.append(time.monotonic())
                time.sleep(PAUSE)
                self.socket.sendall(b"has 1\n")


class Service:
    """A service of a machine, which stands by where another one has the file. Its sockets and its log are the machine's own."""

    def __init__(self, program: Program, machine: Machine) -> None:
        self.machine, self.file = machine, file_of(machine)
        self.socket, self.control, self._log = (os.path.join(machine.folder, name) for name in ("socket", "control", "log"))
        words = ["serve", self.file, "-", "64", "--connections", "64", "--socket", self.socket, "--standby", "--control", self.control]
        text = program.run("serve", "--help").text
        self.has_lease = "--lease" in text
        words += [word for word in ("--rewrite", f"--lease={LEASE}") if word.partition("=")[0] in text]
        with open(self._log, "w", encoding="utf-8") as log:
            self.process = subprocess.Popen(
                [*machine.inside, program.path, *words], stdin=subprocess.DEVNULL, stdout=subprocess.PIPE, stderr=log, text=True, start_new_session=True
            )

    def lines(self) -> List[str]:
        with open(self._log, encoding="utf-8") as log:
            return lines_of(log, self.file)

    def waits(self) -> bool:
        return WAITING in self.lines()

    def await_serving(self) -> float:
        """When it serves."""
        assert self.process.stdout is not None
        ready, _, _ = select.select([self.process.stdout], [], [], SERVES_WITHIN)
        told = self.process.stdout.readline() if ready else "nothing"
        if not told.startswith("listening "):
            raise Wrong(f"it says {told!r} in place of where it listens, and in its log {self.lines()}")
        return time.monotonic()

    def signal(self, number: int) -> None:
        with contextlib.suppress(ProcessLookupError):
            os.killpg(self.process.pid, number)

    def ended(self) -> int:
        """Its status, once it has ended by itself."""
        try:
            return self.process.wait(SERVES_WITHIN)
        except subprocess.TimeoutExpired:
            raise Wrong(f"the old service goes on, and says {self.lines()}") from None

    def end(self) -> None:
        if self.process.poll() is None:
            self.signal(signal.SIGKILL)
        self.process.wait(PATIENCE)
        assert self.process.stdout is not None
        self.process.stdout.close()


def file_of(machine: Machine) -> str:
    return os.path.join(machine.folder, "mount", "set")


def commands_of_page() -> List[str]:
    """The commands of the page by which the volume is made, and the one by which it is mounted."""
    with open(PAGE, encoding="utf-8") as page:
        return re.findall(r"^    ((?:gluster|mount -t glusterfs) .*)$", page.read(), re.M)


class Volume:
    """A volume that is made as the page does it, with other names and places, and is mounted on each machine that serves."""

    def __init__(self, holders: Sequence[Machine], servers: Sequence[Machine]) -> None:
        self.holders = holders
        changes = {f"{name}:{BRICK}": self._brick(holder) for name, holder in zip(HOLDERS, holders)}
        changes.update({name: holder.address for name, holder in zip(HOLDERS, holders)})
        for holder in holders:
            os.mkdir(os.path.join(holder.folder, "brick"))
            holder.run("glusterd")
        until(lambda: all(holder.tries("gluster", "pool", "list") for holder in holders), "the volume's services", PATIENCE)
        names = "|".join(rf"(?<![\w./-]){re.escape(name)}(?![\w./-])" for name in changes)
        for command in commands_of_page():
            words = re.sub(names, lambda found: changes[found[0]], command)
            for server in servers if words.startswith("mount ") else ():
                os.mkdir(os.path.dirname(file_of(server)))
                self._do(server, words.replace(MOUNT, os.path.dirname(file_of(server))))
            if words.startswith("gluster "):
                self._do(holders[0], words.replace("gluster ", "gluster --mode=script ", 1) + (" force" if " create " in words else ""))

    @staticmethod
    def _brick(holder: Machine) -> str:
        return f"{holder.address}:{holder.folder}/brick"

    @staticmethod
    def _do(machine: Machine, command: str) -> None:
        """Does it, again where it fails: a machine that has just joined isn't one of the volume's at once."""
        until(lambda: machine.tries(*command.split()), f"what is done by {command}", 20)

    def is_healed(self) -> bool:
        """Whether each machine of the volume has all of it."""
        with contextlib.suppress(Wrong):
            return self.holders[0].run(*"gluster volume heal keys info".split()).count("Number of entries: 0\n") == len(self.holders)
        return False

    def kill(self, holder: Machine) -> float:
        """Ends the process that holds the volume on one machine; gives when."""
        text = holder.run("gluster", "volume", "status", "keys", self._brick(holder), "detail")
        numbers = re.findall(r"^Pid +: (\d+)", text, re.M)
        began = time.monotonic()
        holder.run("kill", "-9", *numbers)
        return began

    def start_again(self) -> None:
        self._do(self.holders[0], "gluster --mode=script volume start keys force")
        time.sleep(REACHED)

    def vanish(self, service: Service, kind: str, spared: Machine) -> float:
        """A service is gone, or will be; gives when. The machine on which the other one stands by keeps its copy."""
        if kind == "restarted":
            first, *_, last = (it for it in self.holders if it is not spared)
            self.kill(last)
            self.start_again()
            return self.kill(first)
        began = time.monotonic()
        if kind == "killed":
            service.signal(signal.SIGKILL)
        if kind == "paused":
            service.signal(signal.SIGSTOP)
        if kind != "killed":
            service.machine.link("down")
        return began

    def come_back(self, service: Service, kind: str) -> None:
        """Its machine reaches the volume again, and other programs there use the mount. It goes on where it was paused."""
        if kind == "restarted":
            self.start_again()
        elif kind != "killed":
            service.machine.link("up")
            for _ in range(REACHED):
                service.machine.tries("stat", service.file)
                time.sleep(1)
        if kind == "paused":
            service.signal(signal.SIGCONT)


class Pair:
    """The two machines, and which of their services serves the file."""

    def __init__(self, program: Program, volume: Volume, servers: Sequence[Machine], ends: contextlib.ExitStack) -> None:
        self.program, self.volume, self.servers, self.ends = program, volume, list(servers), ends
        self.keys = itertools.count()
        self.answered: List[int] = []
        self.serving = self._start(servers[0])
        self.serving.await_serving()

    def _start(self, machine: Machine) -> Service:
        service = Service(self.program, machine)
        self.ends.callback(service.end)
        return service

    def stand_by(self) -> Service:
        """The other machine's service, which waits for the file. It is started until it does, as by systemd: a volume that was cut off may be ill yet."""
        machine = next(it for it in self.servers if it is not self.serving.machine)
        until(lambda: machine.tries("stat", file_of(machine)), "the file on a machine that is back", PATIENCE)
        services = [self._start(machine)]

        def waits() -> bool:
            if services[-1].process.poll() is not None:
                services.append(self._start(machine))
            return services[-1].waits()

        until(waits, "a service that stands by", PATIENCE)
        return services[-1]

    def renew(self) -> None:
        """The other one takes over once this one is stopped. It opens each copy, which one doesn't that was started while a machine was away."""
        until(self.volume.is_healed, "copies that are the same", PATIENCE)
        old, new = self.serving, self.stand_by()
        expect(self.program.run("stop", old.control), Ended("", 0), "a stop")
        new.await_serving()
        expect(old.ended(), 0, "the status after a stop")
        self.serving = new

    def take_over(self, kind: str) -> float:
        """The service that serves is gone under load; gives how long nobody served."""
        self.renew()
        old, new = self.serving, self.stand_by()
        may_add = threading.Event()
        may_add.set()
        adders = [Adder(old.socket, self.keys, may_add) for _ in range(CLIENTS)]
        looker = Looker(old.socket)
        for client in (looker, *adders):
            client.start()
        time.sleep(LOADED)
        if kind == "idle":
            may_add.clear()
            time.sleep(LOADED)
        began = self.volume.vanish(old, kind, new.machine)
        served = new.await_serving()
        self.volume.come_back(old, kind)
        may_add.set()
        status = old.ended()
        for client in (looker, *adders):
            client.join(SERVES_WITHIN)
        self.serving = new
        expect(status, -signal.SIGKILL if kind == "killed" else 1, f"the status of the old service ({kind})")
        self._judge([it for adder in adders for it in adder.answers], served, kind)
        if old.has_lease:
            expect([it - served for it in looker.told_at if it > served], [], f"lookups by the old service after the new one served ({kind})")
            expect(len(looker.told_at) > 0, True, "that lookups were answered")
        return served - began

    def _judge(self, answers: Sequence[Answer], served: float, kind: str) -> None:
        """No addition that was sent after the new service served was done by the old one, and each that was answered is the new one's."""
        expect([it for it in answers if it.told not in (b"yes\n", b"halted\n", b"")], [], f"other replies of the old service ({kind})")
        new = [it for it in answers if it.told == b"yes\n"]
        expect([it for it in new if it.sent > served], [], f"additions by the old service after the new one served ({kind})")
        expect(len(new) > CLIENTS, True, f"that keys were added, in place of {len(new)}")
        self.answered += [it.key for it in new]
        expect(self.missing(), [], f"answered keys that are missing ({kind}), of {len(self.answered)}")

    def missing(self) -> List[int]:
        """Which of the answered keys the service doesn't have."""
        absent: List[int] = []
        with socket.socket(socket.AF_UNIX) as client:
            client.settimeout(PATIENCE)
            client.connect(self.serving.socket)
            with client.makefile("rb") as replies:
                for begin in range(0, len(self.answered), AT_ONCE):
                    keys = self.answered[begin : begin + AT_ONCE]
                    client.sendall(b"".join(b"has %d\n" % key for key in keys))
                    absent += [key for key in keys if replies.readline() != b"yes\n"]
        return absent


def try_takeovers(program: Program, folder: str, takeovers: int, apart: bool) -> None:
    """A service is killed, cut off from the volume, paused, or loses its locks: the other machine's takes over, and has each answered key."""
    needs_namespaces()
    needs_package("glusterd", "glusterfs-server")
    needs_package("mount.glusterfs", "glusterfs-client")
    if not os.path.exists("/dev/fuse"):
        raise Skip("no /dev/fuse")
    times: Dict[str, List[float]] = {kind: [] for kind in KINDS}
    with machines(folder, [*HOLDERS, *(SERVERS if apart else ())]) as hosts, contextlib.ExitStack() as ends:
        holders, others = hosts[: len(HOLDERS)], hosts[len(HOLDERS) :]
        servers = others or holders[: len(SERVERS)]
        volume = Volume(holders, servers)
        servers[0].run(program.path, "make", file_of(servers[0]), str(SLOTS), "--format", "4")
        pair = Pair(program, volume, servers, ends)
        for kind in itertools.islice(itertools.cycle(KINDS), takeovers):
            times[kind].append(pair.take_over(kind))
        count = len(pair.answered)
    told = "; ".join(f"{kind} {min(it):.1f}, {statistics.median(it):.1f}, {max(it):.1f} s" for kind, it in times.items() if it)
    print(f"         {takeovers} takeovers, {count} keys answered, none missing; least, median and most: {told}", flush=True)


LAYOUTS = (("two machines beside a volume (GlusterFS)", True), ("two machines of a volume (GlusterFS)", False))
