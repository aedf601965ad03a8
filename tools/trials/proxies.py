"""What stands in front of services: a proxy that spreads keys over several (nutcracker), one that encrypts (stunnel), and one that asks which
of two serves (haproxy)."""

from __future__ import annotations

import contextlib
import errno
import os
import re
import shutil
import socket
import ssl
import subprocess
import time
import zlib
from typing import Dict, Iterator, List, Sequence, Tuple

from trials.beside_redis import free_port, needs_package, started
from trials.frames import replies, sent
from trials.guests import PATIENCE, received
from trials.handed import hand
from trials.plain_frames import array
from trials.program import Ended, Key, Program, Service
from trials.report import Wrong, expect
from trials.standby import until

NAMES = ("one", "two", "three")
KEYS = [b"%d" % number for number in range(300)]
OLD_KEYS = KEYS[:200]

PAGE = os.path.join(os.path.dirname(os.path.abspath(__file__)), "..", "..", "docs", "SCALE.md")

# The ports and paths that the page has in its configurations.
PROXY_PORT, PORTS = "7000", ("7001", "7002", "7003")
TLS_PORT, SOCKET, CERTIFICATES = "7443", "/run/lazyset/socket", "/etc/stunnel"
FRONT, BEHIND = "127.0.0.1:7000", ("10.0.0.1:7000", "10.0.0.2:7000")

# How many keys are added before a service is killed, and how long the proxy is given to see whose port is there again.
ADDED, SEEN = 500, 3.0

# How a connection ends that the other side has closed.
CLOSED = (errno.ECONNRESET, errno.ENOTCONN, errno.EPIPE)


def plain_replies(port: int, text: bytes) -> bytes:
    """What a client is told that doesn't encrypt; nothing where its connection was closed before."""
    try:
        return replies(port, text)
    except OSError as error:
        if error.errno not in CLOSED:
            raise
        return b""


def configuration(begins: str, changes: Dict[str, str]) -> str:
    """The configuration of the page that begins with this line, with other ports and paths."""
    with open(PAGE, encoding="utf-8") as page:
        text = re.findall(rf"^```\n({re.escape(begins)}\n.*?)^```$", page.read(), re.M | re.S)[0]
    return re.sub("|".join(map(re.escape, changes)), lambda found: changes[found[0]], text)


def each(port: int, frames: Sequence[bytes]) -> List[bytes]:
    """The reply to each frame, of one line, over one connection."""
    with contextlib.closing(socket.create_connection(("127.0.0.1", port), PATIENCE)) as client, client.makefile("rb") as lines:
        told = []
        for frame in frames:
            client.sendall(frame)
            told.append(lines.readline())
        return told


class Shards:
    """Three services, each over a file of its own, with ports that stay."""

    def __init__(self, program: Program, folder: str) -> None:
        self.program = program
        self.ports = [free_port() for _ in NAMES]
        self.files = [os.path.join(folder, name) for name in NAMES]
        self.services: Dict[int, Service] = {}

    def start(self, index: int) -> None:
        service = Service(self.program, self.files[index], 16, "--connections", "16", "--resp", port=str(self.ports[index]))
        self.services[index] = service
        expect(service.port, self.ports[index], "the port of a service")

    def kill(self, index: int) -> None:
        self.services.pop(index).kill()

    def numbers(self, index: int) -> List[bytes]:
        return [b"%d" % key.number for key in self.program.members(self.files[index])]


def index_of(key: bytes) -> int:
    """Which of the services has a key."""
    return zlib.crc32(key) % len(NAMES)


@contextlib.contextmanager
def sharded(program: Program, folder: str) -> Iterator[Tuple[int, Shards]]:
    """A proxy in front of three services, among which the keys of a set were split."""
    shards, port = Shards(program, folder), free_port()
    for index, file in enumerate(shards.files):
        keys = "".join(f"{key.decode()}\n" for key in OLD_KEYS if index_of(key) == index)
        expect(program.run("make", file, str(len(KEYS)), "--keys", lines=keys), Ended(f"made {len(KEYS)}\n", 0), "the making of a part")
    config = os.path.join(folder, "nutcracker.yml")
    with open(config, "w", encoding="ascii") as text:
        text.write(configuration("lazyset:", {PROXY_PORT: str(port), **dict(zip(PORTS, map(str, shards.ports)))}))
    try:
        for index in range(len(NAMES)):
            shards.start(index)
        # It has a port for its counts too, and takes a free one.
        words = ["nutcracker", "-c", config, "-s", str(free_port()), "-a", "127.0.0.1"]
        with started(words, port, folder):
            yield port, shards
    finally:
        for index in list(shards.services):
            shards.kill(index)


def try_shards(program: Program, folder: str) -> None:
    """Each key is in one of three services. Where one is killed its keys are refused, and the others go on; once it is started again, all
    that was answered is there."""
    needs_package("nutcracker", "nutcracker")
    with sharded(program, folder) as (port, shards):
        wanted = [b":0\r\n" if key in OLD_KEYS else b":1\r\n" for key in KEYS]
        expect(each(port, [array(b"SETNX", key, b"1") for key in KEYS]), wanted, "additions")
        own = [[key for key in KEYS if index_of(key) == index] for index in range(len(NAMES))]
        expect([sorted(shards.numbers(index), key=int) for index in range(len(NAMES))], own, "the keys of each file")
        expect(each(port, [array(b"EXISTS", key) for key in (*KEYS, b"1000")]), [b":1\r\n"] * len(KEYS) + [b":0\r\n"], "lookups")
        expect(each(port, [array(b"EXISTS", *own[2], *own[0])]), [b":%d\r\n" % len(own[2])], "a lookup of many, which the first one's service has")
        gone = own[1][0]
        expect(each(port, [array(b"DEL", gone, b"1000", b"1001"), array(b"EXISTS", gone)]), [b":1\r\n", b":0\r\n"], "a removal of some")
        shards.kill(1)
        for key in KEYS:
            (told,) = each(port, [array(b"EXISTS", key)])
            if (key in own[1]) != told.startswith(b"-"):
                raise Wrong(f"{key!r} is one of {'the killed service' if key in own[1] else 'another one'}, and is answered {told!r}")
        shards.start(1)
        wanted = [b":0\r\n" if key == gone else b":1\r\n" for key in KEYS]
        expect(each(port, [array(b"EXISTS", key) for key in KEYS]), wanted, "lookups once it was started again")
    expect([sorted(shards.numbers(index), key=int) for index in range(len(NAMES))], [own[0], own[1][1:], own[2]], "the keys of each file at the end")


def make_certificate(folder: str) -> None:
    """A certificate of this machine that signs itself."""
    words = ["openssl", "req", "-x509", "-newkey", "rsa:2048", "-nodes", "-days", "2", "-subj", "/CN=localhost", "-addext", "subjectAltName=DNS:localhost"]
    ended = subprocess.run([*words, "-keyout", "key.pem", "-out", "cert.pem"], cwd=folder, stdout=subprocess.PIPE, stderr=subprocess.STDOUT)
    expect(ended.returncode, 0, f"openssl, which says {ended.stdout[-200:]!r}")


def try_encrypted(program: Program, folder: str) -> None:
    """A client that encrypts is served through stunnel, which reaches the service by its socket at a path; one that doesn't isn't served."""
    needs_package("stunnel", "stunnel4")
    needs_package("openssl", "openssl")
    make_certificate(folder)
    file, path, port = os.path.join(folder, "set"), os.path.join(folder, "socket"), free_port()
    program.make(file, 8)
    config = os.path.join(folder, "stunnel.conf")
    with open(config, "w", encoding="ascii") as text:
        changes = {TLS_PORT: f"127.0.0.1:{port}", SOCKET: path, CERTIFICATES: folder}
        text.write("foreground = yes\npid =\n" + configuration("[lazyset]", changes))
    trusting = ssl.create_default_context(cafile=os.path.join(folder, "cert.pem"))
    with Service(program, file, 4, "--connections", "16", "--resp", "--socket", path, port="-"), started(["stunnel", config], port, folder):
        with trusting.wrap_socket(socket.create_connection(("localhost", port), PATIENCE), server_hostname="localhost") as client:
            client.sendall(array(b"SADD", b"0", b"17", b"18") + array(b"SISMEMBER", b"0", b"17") + array(b"QUIT"))
            expect(received(client), b":2\r\n:1\r\n+OK\r\n", "the replies to one that encrypts")
        expect(plain_replies(port, array(b"SADD", b"0", b"19")), b"", "what one is told that doesn't")
        plain = socket.socket(socket.AF_UNIX)
        plain.settimeout(PATIENCE)
        plain.connect(path)
        expect(sent(plain, [array(b"SISMEMBER", b"0", b"18")]), b":1\r\n", "the reply to one at the path")
    expect(program.members(file), [Key(0, 17), Key(0, 18)], "the keys of the file")


@contextlib.contextmanager
def standing_by(program: Program, file: str, listener: socket.socket, name: str) -> Iterator["subprocess.Popen[bytes]"]:
    """A service that waits for the file where another one has it, and is handed a listener before, as by systemd."""
    options = ("--connections", "64", "--resp", "--standby", "--control", f"{file}.{name}")
    words = [*hand(listener.fileno()), program.path, "serve", file, "0", "4", *options]
    void = subprocess.DEVNULL
    process = subprocess.Popen(words, stdin=void, stdout=void, stderr=void, pass_fds=[listener.fileno()], start_new_session=True)
    try:
        yield process
    finally:
        process.kill()
        process.wait(PATIENCE)


def added_until_kill(port: int, service: "subprocess.Popen[bytes]") -> List[bytes]:
    """Adds keys over one connection while the service is killed, until that is lost; gives the keys that were answered."""
    answered: List[bytes] = []
    with socket.create_connection(("127.0.0.1", port), PATIENCE) as client, client.makefile("rb") as replies:
        for number in range(2 * ADDED):
            with contextlib.suppress(OSError):
                client.sendall(array(b"SADD", b"0", b"%d" % number))
                if replies.readline() == b":1\r\n":
                    answered.append(b"%d" % number)
            if len(answered) <= number:
                break
            if number == ADDED:
                service.kill()
    return answered


def is_served(port: int) -> bool:
    with contextlib.suppress(OSError):
        return each(port, [array(b"PING")]) == [b"+PONG\r\n"]
    return False


def try_asked(program: Program, folder: str) -> None:
    """A proxy asks two services by PING, and sends clients to the one that serves. The other one stands by, and has a port that accepts them."""
    needs_package("haproxy", "haproxy")
    file, port, config = os.path.join(folder, "set"), free_port(), os.path.join(folder, "haproxy.cfg")
    program.make(file, 2 * ADDED)
    with contextlib.ExitStack() as ends:
        ports = [ends.enter_context(socket.create_server(("127.0.0.1", 0))) for _ in BEHIND]
        numbers = [int(it.getsockname()[1]) for it in ports]
        first = ends.enter_context(standing_by(program, file, ports[0], "first"))
        until(lambda: is_served(numbers[0]), "a reply of the first service")
        ends.enter_context(standing_by(program, file, ports[1], "second"))
        with open(config, "w", encoding="ascii") as text:
            places = (f"127.0.0.1:{number}" for number in numbers)
            text.write(configuration("defaults", {FRONT: f"127.0.0.1:{port}", **dict(zip(BEHIND, places))}))
        proxy = shutil.which("haproxy", path=os.environ.get("PATH", "") + ":/usr/sbin") or "haproxy"
        ends.enter_context(started([proxy, "-db", "-f", config], port, folder))
        answered = added_until_kill(port, first)
        began = time.monotonic()
        until(lambda: is_served(numbers[1]), "a reply of the second service")
        ends.enter_context(standing_by(program, file, ports[0], "third"))
        until(lambda: is_served(port), "a reply through the proxy")
        print(f"         {len(answered)} keys answered; then none through the proxy for {time.monotonic() - began:.1f} s", flush=True)
        time.sleep(SEEN)
        expect(each(port, [array(b"SISMEMBER", b"0", key) for key in answered]), [b":1\r\n"] * len(answered), "each answered key")


TRIALS = (
    ("three services and a proxy (nutcracker)", try_shards),
    ("a proxy that encrypts (stunnel)", try_encrypted),
    ("a proxy before two services (haproxy)", try_asked),
)
