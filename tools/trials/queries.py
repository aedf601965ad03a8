"""What a service that speaks Redis's protocol tells of itself (DBSIZE and INFO), and its end by a client (SHUTDOWN)."""

from __future__ import annotations

import os
import re
import socket
import tempfile
import time
import urllib.request
from contextlib import ExitStack
from typing import Dict

from trials.at_path import served, socket_of
from trials.beside_redis import free_port, framed, needs_package, python_with, started
from trials.faults import needs_strace
from trials.frames import AT_ONCE, by_frames, replies, sent
from trials.guests import PATIENCE, connect
from trials.loop_faults import slow
from trials.plain_frames import PONG, array, bulk, integer
from trials.program import Key, Program, Service
from trials.real_clients import output
from trials.report import expect
from trials.stops import lines_of

REFUSED = b"-ERR SHUTDOWN is taken over a Unix socket alone\r\n"
SYNTAX = b"-ERR syntax error\r\n"

SECTIONS = {
    "Server": ["redis_version", "redis_mode", "process_id", "run_id", "uptime_in_seconds"],
    "Clients": ["connected_clients", "maxclients"],
    "Memory": ["used_memory", "maxmemory"],
    "Stats": ["total_connections_received", "total_commands_processed", "instantaneous_ops_per_sec"],
    "Latencystats": ["latency_percentiles_usec_reply"],
    "Keyspace": ["db0"],
    "Lazyset": ["lazyset_version", "format", "slots", "members", "free", "buckets", "passes", "loops", "adds", "removes", "lookups", "full"],
}

SIZE = array(b"DBSIZE")


def bulk_of(client: socket.socket, *words: bytes) -> str:
    """The bulk string that a client is told."""
    client.sendall(array(*words))
    told = client.recv(4096)
    head, _, _ = told.partition(b"\r\n")
    expect(head[:1], b"$", "how the reply begins")
    while len(told) < len(head) + int(head[1:]) + 4:
        told += client.recv(4096)
    text = told[len(head) + 2 : -2]
    expect(told, bulk(text), "the reply")
    return text.decode("ascii")


def lines_by_section(text: str) -> Dict[str, Dict[str, str]]:
    """The values by their names of each section."""
    sections: Dict[str, Dict[str, str]] = {}
    for section in text.split("\r\n\r\n"):
        head, *lines = section.rstrip("\r\n").split("\r\n")
        expect(head[:2], "# ", f"how {head!r} begins")
        sections[head[2:]] = dict(line.split(":", 1) for line in lines)
    return sections


def read(client: socket.socket, length: int) -> bytes:
    """So many bytes that a client is told, and what came with them."""
    told = b""
    while len(told) < length:
        told += client.recv(4096)
    return told


def values(client: socket.socket) -> Dict[str, str]:
    """All values that a client is told of the service."""
    return {name: value for section in lines_by_section(bulk_of(client, b"INFO")).values() for name, value in section.items()}


def timeless(text: str) -> str:
    """The same without what time changes."""
    return re.sub(r"(?<=uptime_in_seconds:)\d+|(?<=ops_per_sec:)\d+", "", text)


# Frames that are sent together, and their replies.
GROUPS = (
    (array(b"SADD", b"0", b"1", b"2") + SIZE + SIZE, b":2\r\n:2\r\n:2\r\n"),
    (array(b"SADD", b"3", b"1") + b"dbsize\r\n", b":1\r\n:3\r\n"),
    (array(b"SADD", b"3", b"1") + SIZE, b":0\r\n:3\r\n"),
    (array(b"SREM", b"0", b"1", b"9") + SIZE, b":1\r\n:2\r\n"),
    (array(b"SISMEMBER", b"0", b"2") + array(b"PING") + SIZE, b":1\r\n+PONG\r\n:2\r\n"),
    (array(b"DBSIZE", b"0") + array(b"DEL", b"2") + SIZE, b"-ERR wrong number of arguments for 'dbsize' command\r\n:1\r\n:1\r\n"),
    (array(b"SREM", b"3", b"1") + SIZE, b":1\r\n:0\r\n"),
)


def try_size(program: Program, folder: str) -> None:
    """Members are counted as the replies before have told of them, also where frames are sent at once, and byte by byte."""
    file = os.path.join(folder, "f")
    program.make(file, 2 * AT_ONCE)
    keys = [b"%d" % number for number in range(AT_ONCE)]
    many = [array(b"SADD", b"0", key) for key in keys]
    for passes in (1, 16):
        with Service(program, file, passes, *by_frames(4)) as service:
            with connect(service.port) as client:
                client.setsockopt(socket.IPPROTO_TCP, socket.TCP_NODELAY, 1)
                for frames, told in (*GROUPS, *GROUPS):
                    for number in range(len(frames)):
                        client.sendall(frames[number : number + 1])
                    expect(read(client, len(told)), told, f"byte by byte: {frames!r}")
                for frames, told in GROUPS:
                    client.sendall(frames)
                    expect(read(client, len(told)), told, f"at once: {frames!r}")
            expect(replies(service.port, *many, SIZE), integer(1) * AT_ONCE + integer(AT_ONCE), "after many")
            expect(replies(service.port, array(b"SREM", b"0", *keys), SIZE), integer(AT_ONCE) + integer(0), "after one")
    # Where one pass carries out all, nothing that comes after is done before.
    with Service(program, file, 1, *by_frames(4)) as service:
        expect(replies(service.port, *(frames for frames, _ in GROUPS)), b"".join(told for _, told in GROUPS), "all frames at once")
        told = b"".join(integer(1) + integer(number + 1) for number in range(AT_ONCE))
        expect(replies(service.port, *(frame + SIZE for frame in many)), told, "one after each")
    with Service(program, file, 4, *by_frames(4)) as service:
        expect(replies(service.port, SIZE), integer(AT_ONCE), "members that were there before")


def try_info(program: Program, folder: str) -> None:
    """What a service tells of itself is so, by sections and all together."""
    file, other = os.path.join(folder, "f"), os.path.join(folder, "g")
    program.make(file, 5)
    program.make(other, 5, 1)
    options = ("--loops", "2", "--buckets", "4", *by_frames(7))
    with Service(program, file, 3, *options) as service, connect(service.port) as client, connect(service.port) as second:
        second.sendall(array(b"PING"))
        expect(second.recv(4096), PONG, "the reply to a second client")
        frames = [array(b"SADD", b"0", b"1", b"2", b"2"), array(b"SREM", b"0", b"1", b"9"), array(b"SISMEMBER", b"0", b"2")]
        frames += [array(b"EXISTS", b"1", b"2"), array(b"SADD", b"1", *(b"%d" % key for key in range(6)))]
        wanted = b":2\r\n:1\r\n:1\r\n:1\r\n-FULL no slot is free; 4 of 6 were added\r\n"
        client.sendall(b"".join(frames))
        expect(read(client, len(wanted)), wanted, "the replies before")
        text = bulk_of(client, b"INFO")
        expect({name: list(lines) for name, lines in lines_by_section(text).items()}, SECTIONS, "which values it tells")
        told_first = values(client)
        run = told_first.pop("run_id")
        expect((len(run), set(run) <= set("0123456789abcdef"), values(client)["run_id"]), (40, True, run), "the number of its run")
        expect(int(told_first.pop("uptime_in_seconds")) in (0, 1), True, "for how long it has run")
        # What `try_load` looks at.
        for name in ("instantaneous_ops_per_sec", "latency_percentiles_usec_reply"):
            told_first.pop(name)
        numbers = {
            **{"process_id": service.process.pid, "connected_clients": 2, "maxclients": 7},
            **{"total_connections_received": 2, "total_commands_processed": 14, "used_memory": 80, "maxmemory": 80},
            **{"format": 2, "slots": 5, "members": 5, "free": 0, "buckets": 4, "passes": 3, "loops": 2, "adds": 6, "removes": 1, "lookups": 3, "full": 2},
        }
        texts = {"redis_version": "7.0.0", "redis_mode": "standalone", "db0": "keys=5,expires=0,avg_ttl=0"}
        texts["lazyset_version"] = program.run("--version").text.split()[1].rstrip(",")
        expect(told_first, {**texts, **{name: str(number) for name, number in numbers.items()}}, "what it tells")
        for name, section in zip(SECTIONS, timeless(text).split("\r\n\r\n")):
            expect(timeless(bulk_of(client, b"INFO", name.upper().encode())), section.rstrip() + "\r\n", f"the section {name}")
        for word in (b"default", b"ALL", b"everything"):
            expect(list(lines_by_section(bulk_of(client, b"info", word))), list(SECTIONS), "all sections")
        expect(bulk_of(client, b"INFO", b"persistence"), "", "a section that isn't there")
        expect(replies(service.port, array(b"INFO", b"server", b"stats")), b"-ERR wrong number of arguments for 'info' command\r\n", "two sections")
        with Service(program, other, 1, *by_frames(2)) as another, connect(another.port) as its:
            time.sleep(1.1)
            told_there = values(its)
            expect(told_there["run_id"] != run, True, "that another service has another number")
            expect((told_there["format"], told_there["loops"], "db0" in told_there), ("1", "1", False), "what a service of no members tells")
            expect((told_there["used_memory"], told_there["latency_percentiles_usec_reply"]), ("0", "p50=0,p99=0"), "what one tells that answered nothing")
            expect(int(told_there["uptime_in_seconds"]) in (1, 2), True, "for how long it has run")


def try_load(program: Program, folder: str) -> None:
    """How many commands a service answers in a second, and how long replies take, is as its client measures it, where syncs are slow too."""
    file = os.path.join(folder, "f")
    needs_strace()
    program.make(file, 200)
    for first, seconds in ((0, 0.0), (100, 0.02)):
        times, before = [], slow(file, seconds) if seconds else ()
        with Service(program, file, 4, *by_frames(4), before=before) as service, connect(service.port) as client:
            time.sleep(1.1)
            asked = time.monotonic()
            values(client)
            told = time.monotonic()
            for key in range(200):
                start = time.monotonic()
                client.sendall(array(b"SADD" if key % 2 else b"SREM", b"0", b"%d" % (first + key // 2)))
                client.recv(64)
                times.append(1e6 * (time.monotonic() - start))
            time.sleep(1.1)
            later = time.monotonic()
            text = values(client)
            rate, least, most = int(text["instantaneous_ops_per_sec"]), 200 / (time.monotonic() - asked), 200 / (later - told)
            expect(least - 1 <= rate <= most, True, f"that {rate} commands a second are between {least:.1f} and {most:.1f}")
            expect(values(client)["instantaneous_ops_per_sec"], str(rate), "the same within a second")
            half, nearly = re.fullmatch(r"p50=(\d+),p99=(\d+)", text["latency_percentiles_usec_reply"]).groups()
            times.sort()
            bounds = (1.25 * times[99] + 1, 1.25 * times[197] + 1)
            expect(1e6 * seconds <= int(nearly) <= bounds[1] and int(half) <= bounds[0], True, f"that p50 and p99, {half} and {nearly}, are below {bounds}")


def client_of(path: str) -> socket.socket:
    client = socket.socket(socket.AF_UNIX)
    client.settimeout(PATIENCE)
    client.connect(path)
    return client


def try_shutdown(program: Program, folder: str) -> None:
    """A client at a path ends the service: what it sent before is answered, and what was answered is there at the next start."""
    keys, members = [b"%d" % key for key in range(AT_ONCE)], AT_ONCE + 10
    for number, words in enumerate(([b"SHUTDOWN"], [b"shutdown", b"nosave"], [b"SHUTDOWN", b"SAVE"])):
        file = os.path.join(folder, f"f{number}")
        path, stack = socket_of(file), ExitStack()
        program.make(file, 2 * AT_ONCE)
        with stack:
            log = stack.enter_context(tempfile.TemporaryFile("w+"))
            service = stack.enter_context(served(program, file, "--loops", "2", *by_frames(4), log=log))
            silent = stack.enter_context(client_of(path))
            silent.sendall(array(b"SADD", b"9", b"9"))
            expect(silent.recv(4096), b":1\r\n", "the reply to a client that stays")
            others = [array(b"SHUTDOWN", b"abort"), array(b"SHUTDOWN", b"SAVE", b"NOW"), SIZE]
            expect(sent(client_of(path), others), SYNTAX * 2 + b":1\r\n", "the replies to other words")
            # Of what comes after it nothing is told.
            frames = [*(array(b"SADD", b"0", key) for key in keys), array(b"SADD", b"1", *keys[:9]), SIZE, array(*words), array(b"SADD", b"9", b"9"), SIZE]
            told = integer(1) * AT_ONCE + integer(9) + integer(members)
            expect(sent(client_of(path), [b"".join(frames)]), told, "what is told of what was sent before")
            expect(service.wait(), 0, "the service's status")
            expect(silent.recv(4096), b"", "what the client that stayed is told")
            said = ["asked to stop", f"stopped: sessions 3, members {members} of {2 * AT_ONCE} slots"]
            expect(lines_of(log, file)[-2:], said, "the end of its log")
        held = [*(Key(0, key) for key in range(AT_ONCE)), *(Key(1, key) for key in range(9)), Key(9, 9)]
        expect(program.members(file), held, "the file's keys")
        with served(program, file, *by_frames(4)):
            expect(sent(client_of(path), [SIZE + array(b"SISMEMBER", b"0", keys[-1])]), integer(members) + b":1\r\n", "the replies of the next service")


def try_refused(program: Program, folder: str) -> None:
    """A client over a port doesn't end the service."""
    with framed(program, folder) as port:
        added = [array(b"SADD", b"0", key) for key in (b"1", b"2")]
        frames = [added[0], array(b"SHUTDOWN"), array(b"SHUTDOWN", b"NOSAVE"), array(b"SHUTDOWN", b"x"), added[1], SIZE]
        expect(replies(port, *frames), b":1\r\n" + REFUSED * 2 + SYNTAX + b":1\r\n:2\r\n", "the replies")
        expect(replies(port, SIZE), b":2\r\n", "the reply to the next client")


CLIENT = """
import sys, redis
service = redis.Redis(unix_socket_path=sys.argv[1], socket_timeout=30)
print(service.sadd("0", 1, 2), service.dbsize())
told = service.info()
print(told["redis_version"], told["connected_clients"], told["db0"], told["members"], told["free"], told["run_id"] == service.info("server")["run_id"])
print(service.info("clients"))
pipeline = service.pipeline(transaction=False)
print(pipeline.sadd("0", 3).dbsize().srem("0", 1).dbsize().execute())
service.shutdown()
"""


def try_clients(program: Program, folder: str) -> None:
    """redis-cli and redis-py ask for the same."""
    needs_package("redis-cli", "redis-tools")
    python = python_with("redis", "python3-redis")
    file = os.path.join(folder, "f")
    path = socket_of(file)
    program.make(file, 10)
    with served(program, file, *by_frames(4)) as service:
        wanted = ["2 2", "7.0.0 1 {'keys': 2, 'expires': 0, 'avg_ttl': 0} 2 8 True", "{'connected_clients': 1, 'maxclients': 4}", "[1, 3, 1, 2]"]
        expect(output([python, "-B", "-c", CLIENT, path]).splitlines(), wanted, "what redis-py prints")
        expect(service.wait(), 0, "the service's status")
    with served(program, file, *by_frames(4)) as service:
        expect(output(["redis-cli", "--no-raw", "-s", path, "DBSIZE"]), "(integer) 2\n", "what redis-cli prints of DBSIZE")
        expect("members:2" in output(["redis-cli", "-s", path, "INFO"]).split(), True, "that it prints INFO")
        expect(output(["redis-cli", "-s", path, "SHUTDOWN"]).strip(), "", "what it prints of SHUTDOWN")
        expect(service.wait(), 0, "the service's status")


def try_exporter(program: Program, folder: str) -> None:
    """prometheus-redis-exporter reads what a service tells of itself."""
    needs_package("prometheus-redis-exporter", "prometheus-redis-exporter")
    with framed(program, folder) as port, ExitStack() as stack:
        replies(port, array(b"SADD", b"0", b"1", b"2", b"3"))
        web = free_port()
        words = ["prometheus-redis-exporter", "-redis.addr", f"redis://127.0.0.1:{port}", "-web.listen-address", f"127.0.0.1:{web}"]
        stack.enter_context(started(words, web, folder))
        with urllib.request.urlopen(f"http://127.0.0.1:{web}/metrics", timeout=PATIENCE) as answer:
            told = dict(line.rsplit(" ", 1) for line in answer.read().decode().splitlines() if not line.startswith("#"))
        wanted = {"redis_up": "1", "redis_connected_clients": "1", 'redis_db_keys{db="db0"}': "3", "redis_commands_processed_total": "3"}
        expect({name: told.get(name) for name in wanted}, wanted, "what it tells")


TRIALS = (
    ("members as they are counted", try_size),
    ("what a service tells of itself", try_info),
    ("what a service tells of its load", try_load),
    ("an end that a client asks for", try_shutdown),
    ("an end that a client over a port asks for", try_refused),
    ("redis-cli and redis-py on what a service tells", try_clients),
    ("prometheus-redis-exporter", try_exporter),
)
