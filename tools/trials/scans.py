"""Scans of a room (SSCAN) and of all rooms (LZ.SCAN) of a service that speaks Redis's protocol: page by page, while others change it."""

from __future__ import annotations

import os
import random
import socket
import threading
from typing import BinaryIO, Iterator, List, NamedTuple, Optional, Sequence, Set

from trials.beside_redis import framed, needs_package, python_with
from trials.changing import Changes, changing, number
from trials.frames import AT_ONCE, by_frames, replies
from trials.guests import connect
from trials.plain_frames import array, bulk, integer
from trials.program import PATIENCE, Key, Program, Service
from trials.real_clients import output
from trials.report import expect

# Keys that are members all the while, keys that come and go, and by how many clients.
STAYING, CHANGING, CHANGERS = 3_000, 300, 4

# How many changes are made beside scans, and how many scans at least; passes and loops of the services, and what the scans count by turns.
CHANGES, SCANS = 30_000, 40
SERVED, COUNTS, ROOM = ((1, "1"), (2, "1"), (16, "2")), (0, 100, 1_024), 2

# Slots over which a page goes at most, and keys that it has at most.
MOST_SLOTS, MOST_KEYS = 4_096, 256

NO_PAGE = b"*2\r\n" + bulk(b"0") + b"*0\r\n"
CURSOR, SYNTAX = b"-ERR invalid cursor\r\n", b"-ERR syntax error\r\n"
NO_NUMBER = b"-ERR value is not an integer or out of range\r\n"
NO_ROOM = b"-ERR a set's name is a room, 0 to 15 (serve --text takes names)\r\n"
NO_TEXTS = b"-ERR texts are not kept, and none can be listed\r\n"


class Page(NamedTuple):
    cursor: int
    keys: List[int]


def word(stream: BinaryIO) -> int:
    """A bulk string that is a number."""
    text = stream.read(number(stream, b"$") + 2)
    expect(text[-2:], b"\r\n", "the end of a bulk string")
    return int(text[:-2])


def page(stream: BinaryIO) -> Page:
    """The page that comes next."""
    expect(number(stream, b"*"), 2, "the words of a page")
    cursor = word(stream)
    return Page(cursor, [word(stream) for _ in range(number(stream, b"*"))])


def asked(room: Optional[int], cursor: int, count: int = 0) -> bytes:
    """A frame that asks for a page of a room, or of all; a count of 0 stands for none."""
    words = [b"LZ.SCAN"] if room is None else [b"SSCAN", b"%d" % room]
    return array(*words, b"%d" % cursor, *((b"COUNT", b"%d" % count) if count else ()))


def pages(client: socket.socket, room: Optional[int], count: int = 0, cursor: int = 0) -> Iterator[Page]:
    """The pages of one scan, or of its rest from a cursor."""
    with client.makefile("rb") as stream:
        while True:
            client.sendall(asked(room, cursor, count))
            told = page(stream)
            yield told
            if told.cursor == 0:
                return
            expect(told.cursor > cursor, True, f"that the cursor goes on: {cursor}, {told.cursor}")
            cursor = told.cursor


def keys_of(scan: Sequence[Page]) -> List[int]:
    return [key for told in scan for key in told.keys]


def added(port: int, room: int, keys: Sequence[int]) -> None:
    """Adds keys, none of which is a member."""
    for at in range(0, len(keys), AT_ONCE):
        some = keys[at : at + AT_ONCE]
        expect(replies(port, array(b"SADD", b"%d" % room, *(b"%d" % key for key in some))), integer(len(some)), "the reply to keys that are added")


def try_pages(program: Program, folder: str) -> None:
    """Each member of the room is told once, whatever the count, by each number of passes; a cursor outlives the service."""
    slots, draw = 3 * MOST_SLOTS, random.Random(7)
    rooms = {0: draw.sample(range(10**6), 700), 3: draw.sample(range(10**18), 90), 15: [0, 10**18 - 1]}
    for passes in (1, 2, 16):
        file = os.path.join(folder, f"f{passes}")
        program.make(file, slots)
        with Service(program, file, passes, *by_frames(4)) as service:
            with connect(service.port) as client:
                expect([told.keys for told in pages(client, 0)], [[]] * 3, "a scan of no members: as many pages as there are times 4,096 slots")
            for room, keys in rooms.items():
                added(service.port, room, keys)
            with connect(service.port) as client:
                for room, keys in rooms.items():
                    for count in (0, 1, 7, 1_000, 5_000):
                        scan = list(pages(client, room, count))
                        expect(sorted(keys_of(scan)), sorted(keys), f"what a scan by {count} tells of room {room}")
                        expect(all(len(told.keys) <= min(count or 10, MOST_KEYS) for told in scan), True, f"the lengths of pages by {count}")
                expect(list(pages(client, 5)) != [], True, "a scan of a room of no members")
                ranks = sorted(room * 10**18 + key for room, keys in rooms.items() for key in keys)
                for count in (0, 1, 1_000):
                    expect(sorted(keys_of(list(pages(client, None, count)))), ranks, f"what a scan of all rooms by {count} tells")
            with connect(service.port) as client, client.makefile("rb") as stream:
                client.sendall(asked(0, 0, 300))
                first = page(stream)
            others = [asked(0, slots), asked(0, 1 << 24), asked(0, (1 << 24) + 1), array(b"SSCAN", b"0", b"x"), asked(16, 0)]
            others += [array(b"SSCAN", b"0", b"0", *more) for more in ([b"MATCH", b"1*"], [b"COUNT"], [b"COUNT", b"0"], [b"COUNT", b"x"])]
            others += [array(b"LZ.SCAN", b"x"), array(b"LZ.SCAN", b"0", b"COUNT"), array(b"LZ.SCAN", b"0", b"0")]
            told = NO_PAGE * 2 + CURSOR * 2 + NO_ROOM + SYNTAX * 3 + NO_NUMBER + CURSOR + SYNTAX * 2
            expect(replies(service.port, *others), told, "what no scan comes to")
        with Service(program, file, 4, "--buckets", "5", *by_frames(4)) as service, connect(service.port) as client:
            rest = keys_of(list(pages(client, 0, 1_000, first.cursor)))
            expect(sorted(first.keys + rest), sorted(rooms[0]), "a scan that goes on after a restart")


def try_meanwhile(program: Program, folder: str, changes: int, seed: int) -> None:
    """While other clients make so many changes, each scan tells once each key that was a member all the while, and none that at no moment was one."""
    keys = [Key(ROOM, number) for number in range(STAYING + CHANGING * CHANGERS)]
    clients = [keys[STAYING + CHANGING * at :][:CHANGING] for at in range(CHANGERS)]
    for form, (passes, loops) in enumerate(SERVED, 2):
        file = os.path.join(folder, f"f{passes}")
        program.make(file, 2 * STAYING, form)
        with Service(program, file, passes, "--loops", loops, *by_frames(16)) as service:
            added(service.port, ROOM, random.Random(seed).sample(range(len(keys)), len(keys)))
            with changing(service.port, clients, keys, seed + form) as changed:
                scan_beside(changed, len(keys), changes // len(SERVED))


def scan_beside(changed: Changes, most: int, changes: int) -> None:
    """Scans again and again until so many changes were made, and judges each scan. There are so many keys at most."""
    scans = throughout = never = 0
    with connect(changed.port) as client:
        client.settimeout(PATIENCE)
        while changed.made < changes or scans < SCANS:
            with changed.watched() as known:
                told = [Key(ROOM, key) for key in keys_of(list(pages(client, ROOM, COUNTS[scans % len(COUNTS)])))]
            expect(known.flaws(told), [], "what is wrong with a scan")
            scans, throughout, never = scans + 1, throughout + len(known.members) - STAYING, never + most - len(known.may)
            if changed.failures:
                break
    known.expect_noticed(told)
    kinds = f"{throughout} times a changed key was a member all the while, {never} times never"
    print(f"         {changed.made} changes beside {scans} scans judged: {kinds}", flush=True)


def try_in_order(program: Program, folder: str) -> None:
    """Frames that are sent at once: a page has what was added before it on the connection, and replies leave in order."""
    for passes in (1, 16):
        file = os.path.join(folder, f"f{passes}")
        program.make(file, 2 * MOST_KEYS)
        with Service(program, file, passes, *by_frames(4)) as service, connect(service.port) as client, client.makefile("rb") as stream:
            frames = [array(b"SADD", b"0", b"%d" % key) + asked(0, 0, MOST_KEYS) + array(b"PING") for key in range(MOST_KEYS)]
            threading.Thread(target=client.sendall, args=(b"".join(frames),)).start()
            for key in range(MOST_KEYS):
                expect(number(stream, b":"), 1, "the reply to a key that is added")
                told = set(page(stream).keys)
                expect(set(range(key + 1)) - told, set(), "keys that were added before, and aren't told")
                expect(told <= set(range(MOST_KEYS)), True, "that no other key is told")
                expect(stream.readline(), b"+PONG\r\n", "what comes after a page")


CLIENT = """
import sys, redis
service = redis.Redis(port=int(sys.argv[1]), socket_timeout=30)
print(service.sadd("7", *range(1000)), service.sadd("7", *range(1000, 2000)), sorted(map(int, service.sscan_iter("7"))) == list(range(2000)))
print(sorted(map(int, service.sscan_iter("7", count=500))) == list(range(2000)), list(service.sscan_iter("8")), service.sscan("7", 100000))
"""


def try_clients(program: Program, folder: str) -> None:
    """redis-cli and redis-py scan; where names and members are texts, no one does."""
    needs_package("redis-cli", "redis-tools")
    python = python_with("redis", "python3-redis")
    with framed(program, folder, 5_000) as port:
        wanted = ["1000 1000 True", "True [] (0, [])"]
        expect(output([python, "-B", "-c", CLIENT, str(port)]).splitlines(), wanted, "what redis-py prints")
        expect(replies(port, array(b"SADD", b"1", b"17")), b":1\r\n", "the reply to a key that is added")
        cursor, *keys = output(["redis-cli", "-p", str(port), "SSCAN", "1", "0", "COUNT", "1024"]).split()
        told: Set[str] = set(keys)
        while cursor != "0":
            cursor, *keys = output(["redis-cli", "-p", str(port), "SSCAN", "1", cursor, "COUNT", "1024"]).split()
            told.update(keys)
        expect(told, {"17"}, "what redis-cli prints")
    file = os.path.join(folder, "texts")
    program.make(file, 10)
    with Service(program, file, 4, *by_frames(4), "--text") as service:
        frames = [array(b"SADD", b"tags", b"red"), array(b"SSCAN", b"tags", b"0"), array(b"SISMEMBER", b"tags", b"red")]
        expect(replies(service.port, *frames), b":1\r\n" + NO_TEXTS + b":1\r\n", "what is told of texts")


TRIALS = (
    ("pages of a room", try_pages),
    ("pages among other frames", try_in_order),
    ("redis-cli and redis-py scan", try_clients),
)
