"""What is handed out: what `make install` lays down, the Debian package, the container file."""

from __future__ import annotations

import json
import os
import re
import shutil
import signal
import socket
import subprocess
import sys
import threading
from typing import Dict, List

from trials.program import PATIENCE, Ended, Program, Service
from trials.report import Skip, expect

FILES = {
    "bin/lazyset": 0o755,
    "lib/lazyset/ask": 0o755,
    "lib/systemd/system/lazyset@.service": 0o644,
    "lib/systemd/system/lazyset@.socket": 0o644,
    "share/bash-completion/completions/lazyset": 0o644,
    "share/man/man1/lazyset.1": 0o644,
}

# The client for Python.
MODULES = (
    *("__init__.py", "child.py", "claims.py", "commands.py", "connection.py", "errors.py", "periods.py", "pool.py", "py.typed"),
    *("resp.py", "sweeper.py", "texts.py"),
)

PACKED = [
    "lib/systemd/system/lazyset@.service",
    "lib/systemd/system/lazyset@.socket",
    "usr/bin/lazyset",
    "usr/lib/lazyset/ask",
    *(f"usr/lib/python3/dist-packages/lazyset/{name}" for name in MODULES),
    "usr/share/bash-completion/completions/lazyset",
    "usr/share/doc/lazyset/changelog.gz",
    "usr/share/doc/lazyset/copyright",
    "usr/share/doc/lazyset/examples/webhook_receiver.py",
    "usr/share/lintian/overrides/lazyset",
    "usr/share/man/man1/lazyset.1.gz",
]

def needs(*tools: str) -> None:
    for tool in tools:
        if shutil.which(tool) is None:
            raise Skip(f"{tool} isn't installed")


def said(words: List[str], **variables: str) -> str:
    """What a command prints that ends well."""
    ended = subprocess.run(
        words, env={**os.environ, **variables}, stdout=subprocess.PIPE, stderr=subprocess.PIPE, text=True, timeout=PATIENCE
    )
    expect((ended.returncode, ended.stderr), (0, ""), " ".join(words))
    return ended.stdout


def bytes_of(path: str) -> bytes:
    with open(path, "rb") as file:
        return file.read()


def modes_in(folder: str) -> Dict[str, int]:
    """The files below a folder, with their modes."""
    paths = [os.path.join(at, name) for at, _, names in os.walk(folder) for name in names]
    return {os.path.relpath(path, folder): os.stat(path).st_mode & 0o7777 for path in paths}


def pages_of(top: str) -> List[str]:
    """The pages and their pictures."""
    return ["README.md", "CHANGELOG.md", "CONTRIBUTING.md", *(name for name in os.listdir(os.path.join(top, "docs")) if name.endswith((".md", ".svg")))]


def expect_named_pages(folder: str) -> None:
    """Each page and each picture that a page of a folder names is there too, and so is the page that operators begin with."""
    there = set(os.listdir(folder))
    expect("OPERATIONS.md" in there, True, "that there are pages")
    for page in sorted(name for name in there if name.endswith(".md")):
        text = bytes_of(os.path.join(folder, page)).decode()
        named = re.findall(r"\bdocs/(\w+\.md)", text) + re.findall(r"\]\((\w[\w-]*\.svg)\)", text)
        named += [f"{word}.md" for word in re.findall(r"(?<![\w/])(README|CHANGELOG|CONTRIBUTING)\b", text)]
        expect(sorted(set(named) - there), [], f"what {page} names and isn't there")


def try_make(program: Program, folder: str, top: str) -> None:
    """The files are where they are asked for, the unit starts the program that is there, and they can be taken away."""
    needs("make")
    words = ["make", "-s", "-C", top, f"PROGRAM={program.path}", f"DESTDIR={folder}", "PREFIX=/opt/set"]
    said([*words, "install"])
    place = os.path.join(folder, "opt", "set")
    pages = {os.path.join("share", "doc", "lazyset", name): 0o644 for name in pages_of(top)}
    expect(modes_in(place), {**FILES, **pages}, "what is installed")
    expect_named_pages(os.path.join(place, "share", "doc", "lazyset"))
    expect(bytes_of(os.path.join(place, "bin", "lazyset")) == bytes_of(program.path), True, "the program's bytes")
    unit, port = (bytes_of(os.path.join(place, "lib", "systemd", "system", f"lazyset@.{kind}")).decode() for kind in ("service", "socket"))
    expect(re.findall(r"([^\s=-]+/lazyset) (?:serve|stop) ", unit), ["/opt/set/bin/lazyset"] * 2, "what the unit starts")
    named = re.findall(r"^Documentation=file:(.*)$", unit + port, re.M)
    expect(named, ["/opt/set/share/doc/lazyset/OPERATIONS.md"] * 2, "the pages that the units name")
    said([*words, "uninstall"])
    expect(modes_in(folder), {}, "what is left")


def try_package(program: Program, folder: str, top: str) -> None:
    """The package has the files, its program runs, its clients ask a service, and it is the same bytes each time."""
    needs("make", "dpkg-deb", "bash")
    packages = []
    for name in ("first", "second"):
        place = os.path.join(folder, name)
        os.mkdir(place)
        packages.append(said([os.path.join(top, "tools", "debian-package"), place], PROGRAM=program.path).strip())
    expect(bytes_of(packages[0]) == bytes_of(packages[1]), True, "the same bytes twice")
    listed = re.findall(r"^-\S+ root/root .* \./(\S+)$", said(["dpkg-deb", "-c", packages[0]]), re.M)
    pages = [os.path.join("usr", "share", "doc", "lazyset", name) for name in pages_of(top)]
    expect(sorted(listed), sorted([*PACKED, *pages]), "the files of the package")
    room = os.path.join(folder, "room")
    said(["dpkg-deb", "-x", packages[0], room])
    expect_named_pages(os.path.join(room, "usr", "share", "doc", "lazyset"))
    version = said([os.path.join(room, "usr", "bin", "lazyset"), "--version"]).split()[1].rstrip(",")
    expect(said(["dpkg-deb", "-f", packages[0], "Version"]).strip(), version, "its version")
    modules = os.path.join(room, "usr", "lib", "python3", "dist-packages")
    words = [sys.executable, "-B", "-c", "import lazyset; print(lazyset.__file__, lazyset.__version__)"]
    found = said(words, PYTHONPATH=modules).split()
    expect(found, [os.path.join(modules, "lazyset", "__init__.py"), version], "its client for Python")
    program.make(os.path.join(folder, "keys"), 1)
    with Service(program, os.path.join(folder, "keys"), 1) as service:
        answer = said([os.path.join(room, "usr", "lib", "lazyset", "ask"), str(service.port), "has 0"])
        expect(answer, "no\n", "its client for the shell")


def try_container(program: Program, folder: str, top: str) -> None:
    """A container starts the program, and nothing before it. A second one that serves the file is refused."""
    text = bytes_of(os.path.join(top, "contrib", "Containerfile")).decode()
    expect(json.loads("".join(re.findall(r"^ENTRYPOINT (.*)$", text, re.M))), ["lazyset"], "what a container starts")
    file = os.path.join(folder, "keys")
    expect(program.run("make", file, "4"), Ended("made 4\n", 0), "make")
    with Service(program, file, 1):
        expect(program.run("serve", file, "0", "1"), Ended("nofile\n", 3), "a second service")
        expect(program.run("check", file), Ended("good\n", 0), "a check beside it")


def try_health(program: Program, folder: str, top: str) -> None:
    """A container is healthy where its service answers a lookup by either protocol, and not where it is stopped, halted or gone."""
    needs("bash")
    text = bytes_of(os.path.join(top, "contrib", "Containerfile")).decode().replace("\\\n", "")
    words = json.loads("".join(re.findall(r"^HEALTHCHECK (?:--\S+ )*CMD (.*)$", text, re.M)))

    def status(port: int) -> int:
        said = subprocess.run(words, env={**os.environ, "PORT": str(port)}, stdin=subprocess.DEVNULL, stderr=subprocess.DEVNULL, timeout=PATIENCE)
        return said.returncode

    file = os.path.join(folder, "keys")
    program.make(file, 4)
    by_redis = ("--connections", "4", "--resp")
    with Service(program, file, 1, *by_redis, "--text") as service:
        expect(status(service.port), 0, "the health of a service of texts")
    file = os.path.join(folder, "numbers")
    program.make(file, 4)
    for options in ((), by_redis):
        with Service(program, file, 1, *options) as service:
            expect(status(service.port), 0, f"the health of a service with {options}")
            expect(program.members(file), [], "the keys after a look at its health")
            service.process.send_signal(signal.SIGSTOP)
            # On a busy machine its threads go on for a while: this waits for the last of them.
            os.waitpid(service.process.pid, os.WUNTRACED)
            expect(status(service.port), 1, f"the health of a service with {options} that hangs")
        expect(status(service.port), 1, f"the health of a service with {options} that is gone")
    for told in (b"halted\n", b"-ERR unknown command 'has', with args beginning with: '0' \r\n-HALTED the device failed\r\n"):
        with socket.create_server(("127.0.0.1", 0)) as listener:
            threading.Thread(target=tell, args=(listener, told), daemon=True).start()
            expect(status(listener.getsockname()[1]), 1, f"the health of a service that answers {told!r}")


def tell(listener: socket.socket, told: bytes) -> None:
    """Answers one client so, and ends the connection."""
    client, _ = listener.accept()
    with client:
        client.recv(64)
        client.sendall(told)
        # A look writes more than once: what comes after is read, so that no write of it fails.
        client.shutdown(socket.SHUT_WR)
        while client.recv(64):
            pass
