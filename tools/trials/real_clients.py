"""Clients of Redis as Debian has them, each on a service that speaks Redis's protocol and on redis-server beside it: what they are told is
the same byte by byte, but for what is listed here."""

from __future__ import annotations

import csv
import os
import subprocess
from typing import Callable, List, NamedTuple, Sequence, Tuple

from trials.beside_redis import HERE, Listener, framed, needs_package, python_with, redis_server
from trials.frames import replies
from trials.plain_frames import ENDS, NO_TRANSACTIONS, array
from trials.program import PATIENCE, Key, Program
from trials.report import Skip, Wrong, expect

# What each client asks for, one command after the other, and then all at once. The names of sets are rooms, members are keys as the lines
# write them, and no key has the name of a set.
SINGLY = """PING
PING hello
ECHO hello
SADD 0 17
SADD 0 17 18 19 18
SADD 3 17
sadd 15 999999999999999999 0
SISMEMBER 0 17
SISMEMBER 0 999999999999999999
SISMEMBER 15 999999999999999999
SMISMEMBER 0 17 20 18
SREM 0 17 20
SREM 0 17
SETNX 100 1
SETNX 100 1
SET 101 1 NX
SET 101 1 nx
EXISTS 100 101 102 100
DEL 100 102
UNLINK 101
EXISTS 101
SELECT 3
SETNX 100 1
SELECT 0
EXISTS 100
SELECT 16
SISMEMBER 0
NOSUCH a b
EXEC
DISCARD
"""
TOGETHER = """SADD 4 1 2 3
SISMEMBER 4 2
SREM 4 2 9
SISMEMBER 4 2
SMISMEMBER 4 1 2 3
SETNX 110 1
EXISTS 110 110
SELECT 9
EXISTS 110
SELECT 0
UNLINK 110 111
PING
"""
SCRIPT = f"{SINGLY}\n{TOGETHER}"


class Difference(NamedTuple):
    """What is asked, what Redis tells, and what the service tells."""

    asked: bytes
    redis: bytes
    told: bytes


def asked(text: str, redis: str, told: str) -> Difference:
    return Difference(array(*text.encode().split()), f"{redis}\r\n".encode(), f"{told}\r\n".encode())


NO_NUMBER = "-ERR value is not an integer or out of range"
NO_KEY = f"{NO_NUMBER} (serve --text takes texts)"
NO_ROOM = "-ERR a set's name is a room, 0 to 15 (serve --text takes names)"
NO_DATABASE = "-ERR DB index is out of range"
EXEC_COUNT = "wrong number of arguments for 'exec' command"
BAD_SET = "-ERR syntax error: SET takes NX alone, as in SET key value NX"


def unknown(text: str) -> str:
    name, *words = text.split()
    shown = "".join(f"'{word}' " for word in words)
    return f"-ERR unknown command '{name}', with args beginning with: {shown}"


def fault(words: str) -> str:
    return f"-ERR Protocol error: {words}"


# Where a service differs from Redis: docs/PROTOCOL.md lists it.
DIFFERENCES = (
    # Members are counted, and not sets and keys.
    asked("DBSIZE", ":2", ":3"),
    # Members are keys, and sets are rooms.
    asked("SADD 0 element", ":1", NO_KEY),
    asked("SADD 0 017", ":1", NO_KEY),
    asked("SADD 0 1000000000000000000", ":1", NO_KEY),
    asked("SETNX name 1", ":1", NO_KEY),
    asked("SADD tags 1", ":1", NO_ROOM),
    asked("SADD 16 1", ":1", NO_ROOM),
    asked("SELECT x", NO_NUMBER, NO_DATABASE),
    # A set has no name among the keys, and belongs to no database.
    asked("EXISTS 0", ":1", ":0"),
    asked("DEL 0", ":1", ":0"),
    Difference(array(b"SADD", b"5", b"200") + array(b"SELECT", b"5") + array(b"EXISTS", b"200"), b":1\r\n+OK\r\n:0\r\n", b":1\r\n+OK\r\n:1\r\n"),
    Difference(array(b"SELECT", b"5") + array(b"SISMEMBER", b"5", b"200"), b"+OK\r\n:0\r\n", b"+OK\r\n:1\r\n"),
    # Values aren't kept, and a key may only be new.
    asked("SET 210 1", "+OK", BAD_SET),
    asked("SET 211 1 NX EX 10", "+OK", BAD_SET),
    asked("SET 210 1 XY", "-ERR syntax error", BAD_SET),
    asked("GET 210", "$1\r\n1", unknown("GET 210")),
    asked(f"SETNX 212 {'v' * 65}", ":1", "-ERR values are not kept, and may have 64 bytes"),
    # Commands that aren't there.
    asked("SCARD 4", ":2", unknown("SCARD 4")),
    asked("LZ.CLEAR 9", unknown("LZ.CLEAR 9"), ":0"),
    # Nothing of a transaction is done.
    Difference(array(b"MULTI") + array(b"SADD", b"0", b"9") + array(b"EXEC"), b"+OK\r\n+QUEUED\r\n*1\r\n:1\r\n", 2 * NO_TRANSACTIONS + ENDS["exec"]),
    asked("SISMEMBER 0 9", ":1", ":0"),
    asked("EXEC 1", f"-EXECABORT Transaction discarded because of: {EXEC_COUNT}", f"-ERR {EXEC_COUNT}"),
    asked("WATCH 17", "+OK", unknown("WATCH 17")),
    Difference(array(b"INFO", b"nosuch", b"none"), b"$0\r\n\r\n", b"-ERR wrong number of arguments for 'info' command\r\n"),
    # Frames are stricter, and shorter.
    Difference(b'PING "hello"\r\nPING\r\n', b"$5\r\nhello\r\n+PONG\r\n", fault("quotes in an inline request\r\n").encode()),
    Difference(b"*1\r\n$4\r\nPINGxy*1\r\n$4\r\nPING\r\n", b"+PONG\r\n+PONG\r\n", fault("no line end after a bulk\r\n").encode()),
    Difference(b"PING a\x0bb\r\n", b"$3\r\na\x0bb\r\n", b"-ERR wrong number of arguments for 'ping' command\r\n"),
    Difference(array(b"ECHO", b"e" * 513), b"$513\r\n" + b"e" * 513 + b"\r\n", fault("invalid bulk length\r\n").encode()),
    Difference(array(b"EXISTS", *[b"1"] * 8192), b":0\r\n", fault("invalid multibulk length\r\n").encode()),
    Difference(b"p" * 70000, fault("too big inline request\r\n").encode(), fault("too big request\r\n").encode()),
    Difference(b"*" + b"1" * 70000, fault("too big mbulk count string\r\n").encode(), fault("too big request\r\n").encode()),
)


def output(words: Sequence[str], script: str = "") -> str:
    """What a client prints that ends well."""
    ended = subprocess.run(words, input=script, stdout=subprocess.PIPE, stderr=subprocess.STDOUT, text=True, timeout=PATIENCE)
    if ended.returncode:
        raise Wrong(f"{words[0]} ends with status {ended.returncode}: {ended.stdout[-400:]!r}")
    return ended.stdout


def beside(program: Program, folder: str, client: Callable[[int], str]) -> Tuple[str, List[bytes]]:
    """What a client makes of a service, and what it was told on each connection: the same as of redis-server."""
    seen = []
    with redis_server(folder) as redis, framed(program, folder) as port:
        for target in (redis, port):
            with Listener(target) as listener:
                printed = client(listener.port)
            seen.append((printed, [bytes(told) for told in listener.told]))
    (redis_printed, redis_told), (printed, told) = seen
    expect(printed.splitlines(), redis_printed.splitlines(), "what the client prints")
    expect(told, redis_told, "what it was told")
    return printed, told


def try_hiredis(program: Program, folder: str) -> None:
    """hiredis."""
    needs_package("cc", "gcc")
    binary = os.path.join(folder, "client")
    compiled = subprocess.run(["cc", "-Wall", "-o", binary, os.path.join(HERE, "client.c"), "-lhiredis"], stderr=subprocess.PIPE, text=True)
    if compiled.returncode:
        if "hiredis/hiredis.h" in compiled.stderr:
            raise Skip("hiredis isn't installed (Debian's package libhiredis-dev)")
        raise Wrong(compiled.stderr)
    printed, told = beside(program, folder, lambda port: output([binary, str(port)], SCRIPT))
    expect(printed.splitlines()[3:7], ["integer 1", "integer 2", "integer 1", "integer 2"], "what it prints of additions")
    expect(len(told), 1, "connections")


def try_python(program: Program, folder: str) -> None:
    """redis-py."""
    python = python_with("redis", "python3-redis")
    printed, told = beside(program, folder, lambda port: output([python, "-B", os.path.join(HERE, "client.py"), str(port)], SCRIPT))
    expect(printed.splitlines()[-1], "True 1 0", "what it prints last")
    expect(len(told), 2, "connections")


# A pipeline as redis-py makes it where nothing is said: MULTI before its commands, and EXEC after them.
PIPELINE = """
import sys, redis
service = redis.Redis(port=int(sys.argv[1]), socket_timeout=30)
pipeline = service.pipeline()
pipeline.sadd("0", 17).select(3).sadd("0", 18)
try:
    print(pipeline.execute())
except redis.ResponseError as error:
    print(error)
print(service.smismember("0", [17, 18]), service.sadd("0", 19), service.exists(19))
"""


def try_pipeline(program: Program, folder: str) -> None:
    """redis-py's pipeline as it is where nothing is said: it raises an error, nothing of it was done, and the connection goes on."""
    python = python_with("redis", "python3-redis")
    with framed(program, folder) as port:
        wanted = ["transactions aren't served; nothing is done until EXEC or DISCARD", "[0, 0] 1 1"]
        expect(output([python, "-B", "-c", PIPELINE, str(port)]).splitlines(), wanted, "what redis-py prints")
    expect(program.members(os.path.join(folder, "set")), [Key(0, 19)], "the keys of the file")


def try_ruby(program: Program, folder: str) -> None:
    """redis-rb."""
    needs_package("ruby", "ruby-redis")
    if subprocess.run(["ruby", "-e", "require 'redis'"], stderr=subprocess.DEVNULL).returncode:
        raise Skip("redis-rb isn't installed (Debian's package ruby-redis)")
    printed, told = beside(program, folder, lambda port: output(["ruby", os.path.join(HERE, "client.rb"), str(port)], SCRIPT))
    expect(printed.splitlines()[-4:], ["true", "1", "0", '"OK"'], "what it prints last")
    expect(len(told), 2, "connections")


def try_cli(program: Program, folder: str) -> None:
    """redis-cli: a command for each connection, commands from its input, and a list that it sends at once."""
    needs_package("redis-cli", "redis-tools")
    single = [line for line in SINGLY.splitlines() if not line.startswith("SELECT")]

    def singly(port: int) -> str:
        return "".join(output(["redis-cli", "--no-raw", "-p", str(port), *line.split()]) for line in single)

    _, told = beside(program, folder, singly)
    expect(len(told), len(single), "connections")
    with redis_server(folder) as redis, framed(program, folder, name="other") as port:
        # It asks for the commands that there are first, and takes an error for an answer.
        printed = [output(["redis-cli", "--no-raw", "-p", str(target)], SCRIPT + "QUIT\n") for target in (redis, port)]
        expect(printed[1].splitlines(), printed[0].splitlines(), "what it prints of its input")
        frames = b"".join(array(b"SADD", b"2", b"%d" % number) for number in range(900)).decode()
        for target in (redis, port):
            said = output(["redis-cli", "--pipe", "-p", str(target)], frames)
            expect(said.splitlines()[-1], "errors: 0, replies: 900", "what it says of a list")


# What redis-benchmark sends: a number of 12 digits, with zeros in front, is put in place of __rand_int__.
RANDOM_KEY, FIRST_KEY, KEYS = "1__rand_int__", 10**12, 500
LOADS = (("SADD", "0", RANDOM_KEY), ("SISMEMBER", "0", RANDOM_KEY), ("SETNX", RANDOM_KEY, "1"), ("EXISTS", RANDOM_KEY), ("SREM", "1", RANDOM_KEY))


def try_benchmark(program: Program, folder: str) -> None:
    """redis-benchmark: each of its commands is answered, and the file holds the keys that it sent and no others."""
    needs_package("redis-benchmark", "redis-tools")
    with framed(program, folder, 2 * KEYS) as port:
        words = ["redis-benchmark", "-p", str(port), "-n", "4000", "-r", str(KEYS), "-c", "16", "-P", "8", "--csv"]
        for load in LOADS:
            *_, row = csv.reader(output([*words, *load]).splitlines())
            expect((row[0], float(row[1]) > 0), (" ".join(load), True), "what it says of a command")
        refused = subprocess.run([*words, "SADD", "0", "__rand_int__"], stdout=subprocess.PIPE, stderr=subprocess.STDOUT, text=True, timeout=PATIENCE)
        expect(NO_KEY[1:] in refused.stdout, True, f"that {refused.stdout!r} tells of keys with zeros in front")
    members = program.members(os.path.join(folder, "set"))
    if not 0.9 * KEYS < len(members) <= KEYS or not set(members) <= {Key(0, FIRST_KEY + number) for number in range(KEYS)}:
        raise Wrong(f"the file holds {members[:20]}")


def try_differences(program: Program, folder: str) -> None:
    """Where a service differs from Redis, and what either says there; each is a client of its own."""
    with redis_server(folder) as redis, framed(program, folder) as port:
        for target in (redis, port):
            replies(target, array(b"SADD", b"0", b"17"), array(b"SADD", b"4", b"1", b"3"))
        for row in DIFFERENCES:
            expect(replies(redis, row.asked), row.redis, f"what Redis tells of {row.asked[:60]!r}")
            expect(replies(port, row.asked), row.told, f"what the service tells of {row.asked[:60]!r}")


TRIALS = (
    ("redis-cli", try_cli),
    ("redis-benchmark", try_benchmark),
    ("hiredis", try_hiredis),
    ("redis-py", try_python),
    ("redis-py's pipeline", try_pipeline),
    ("redis-rb", try_ruby),
    ("what differs from Redis", try_differences),
)
