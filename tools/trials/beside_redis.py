"""What the clients of Redis see of a service, beside redis-server: a server of it, and who listens to what a service tells."""

from __future__ import annotations

import contextlib
import os
import shutil
import signal
import socket
import subprocess
import sys
import threading
import time
from typing import Callable, Iterator, List, Sequence

from trials.program import PATIENCE, Program, Service
from trials.report import Skip, Wrong

# Debian's packages that the trials beside Redis, proxies and a volume of several machines need.
PACKAGES = (
    *("redis-server", "redis-tools", "libhiredis-dev", "python3-redis", "ruby-redis", "prometheus-redis-exporter", "gcc", "openssl"),
    *("nutcracker", "stunnel4", "haproxy", "glusterfs-server"),
)

HERE = os.path.join(os.path.dirname(os.path.abspath(__file__)), "redis_clients")


def install_packages() -> None:
    """Installs the packages, where this is Debian and root asks; what can't be had stays missing, and its trials are skipped."""
    quiet = {**os.environ, "DEBIAN_FRONTEND": "noninteractive"}
    subprocess.run(["apt-get", "-qq", "update"], env=quiet)
    for package in PACKAGES:
        subprocess.run(["apt-get", "-qq", "install", "-y", "--no-install-recommends", package], env=quiet, stdout=subprocess.DEVNULL)


def needs_package(tool: str, package: str) -> None:
    """Skips the trial where a tool isn't there, and says which of Debian's packages has it."""
    if shutil.which(tool, path=os.environ.get("PATH", "") + ":/usr/sbin:/usr/local/sbin") is None:
        raise Skip(f"{tool} isn't installed (Debian's package {package})")


def python_with(module: str, package: str) -> str:
    """A Python that has this module."""
    for python in (sys.executable, "/usr/bin/python3"):
        if os.path.exists(python) and subprocess.run([python, "-c", f"import {module}"], stderr=subprocess.DEVNULL).returncode == 0:
            return python
    raise Skip(f"no Python here has {module} (Debian's package {package})")


def free_port() -> int:
    with socket.create_server(("127.0.0.1", 0)) as listener:
        return int(listener.getsockname()[1])


def await_listener(port: int, process: "subprocess.Popen[bytes]") -> None:
    """Waits until a process that was started listens there."""
    latest = time.monotonic() + PATIENCE
    while time.monotonic() < latest and process.poll() is None:
        with contextlib.suppress(OSError), socket.create_connection(("127.0.0.1", port), 1):
            return
        time.sleep(0.02)
    raise Wrong(f"{process.args!r} doesn't listen on port {port}")


@contextlib.contextmanager
def started(words: Sequence[str], port: int, folder: str) -> Iterator["subprocess.Popen[bytes]"]:
    """A process that listens on a port, to its end."""
    with open(os.path.join(folder, f"log-{port}"), "wb") as log:
        process = subprocess.Popen(words, cwd=folder, stdin=subprocess.DEVNULL, stdout=log, stderr=log, start_new_session=True)
    try:
        await_listener(port, process)
        yield process
    finally:
        with contextlib.suppress(ProcessLookupError):
            os.killpg(process.pid, signal.SIGKILL)
        process.wait(PATIENCE)


@contextlib.contextmanager
def redis_server(folder: str) -> Iterator[int]:
    """The port of a redis-server that keeps nothing."""
    needs_package("redis-server", "redis-server")
    port = free_port()
    options = ("--port", str(port), "--bind", "127.0.0.1", "--save", "", "--appendonly", "no")
    with started(["redis-server", *options], port, folder):
        yield port


@contextlib.contextmanager
def framed(program: Program, folder: str, slots: int = 1000, name: str = "set") -> Iterator[int]:
    """The port of a service over a new file that speaks Redis's protocol."""
    file = os.path.join(folder, name)
    program.make(file, slots)
    with Service(program, file, 16, "--connections", "64", "--resp") as service:
        yield service.port


class Listener:
    """Passes on what a service and its clients send each other, and keeps what the service sends on each connection."""

    def __init__(self, port: int) -> None:
        self.target = port
        self.told: List[bytearray] = []
        self._socket = socket.create_server(("127.0.0.1", 0))
        self.port = int(self._socket.getsockname()[1])
        self._threads: List[threading.Thread] = []

    def __enter__(self) -> Listener:
        self._start(self._accept)
        return self

    def __exit__(self, *_: object) -> None:
        # Closing alone doesn't wake who waits for a connection.
        self._socket.shutdown(socket.SHUT_RDWR)
        self._socket.close()
        for thread in self._threads:
            thread.join(PATIENCE)

    def _start(self, work: Callable[..., None], *given: object) -> None:
        thread = threading.Thread(target=work, args=given, daemon=True)
        self._threads.append(thread)
        thread.start()

    def _accept(self) -> None:
        with contextlib.suppress(OSError):
            while True:
                client, _ = self._socket.accept()
                service = socket.create_connection(("127.0.0.1", self.target), PATIENCE)
                self.told.append(bytearray())
                self._start(self._pass_on, client, service, bytearray())
                self._start(self._pass_on, service, client, self.told[-1])

    @staticmethod
    def _pass_on(giver: socket.socket, taker: socket.socket, kept: bytearray) -> None:
        with contextlib.suppress(OSError):
            while piece := giver.recv(65536):
                kept += piece
                taker.sendall(piece)
        with contextlib.suppress(OSError):
            taker.shutdown(socket.SHUT_WR)
