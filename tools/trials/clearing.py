"""Rooms that are cleared (`LZ.CLEAR R`): each key that a room had is removed, once, and none of another room's, whatever others do meanwhile."""

from __future__ import annotations

import os
import random
import socket
import struct
import time
from typing import List, Sequence, Tuple

from trials.frames import by_frames, sent
from trials.guests import connect
from trials.marks import MARK, NUMBERS, TEXT, made
from trials.plain_frames import ENDS, NO_TRANSACTIONS, OK, PONG, array, bulk, integer
from trials.program import PATIENCE, Key, Program, Service
from trials.queries import values
from trials.report import Wrong, expect
from trials.scans import NO_ROOM, NO_TEXTS, keys_of, pages
from trials.secrets import SECRET, kept, marked_by, under

# The room that is cleared and how many keys it has, and other rooms that have the same numbers: a removal in a wrong room would be seen.
ROOM, COUNT, OTHERS, IN_OTHERS = 3, 5_000, (0, 15), 1_500

# Few keys, for services that remove one at a time, and so many that their clearing goes on for a while.
FEW, LARGE = 500, 60_000

# The formats of files, the passes and loops of the services over them, and how many keys the room has.
SERVED = ((2, 16, "1", COUNT), (4, 16, "1", COUNT), (4, 1, "1", FEW), (3, 64, "2", COUNT), (4, 4, "4", FEW))

# How many keys a room has, from none on, up to more than a page has or goes over, and how many are added in their place at most.
SIZES, MOST_AGAIN = (0, 1, 2, 9, 10, 11, 255, 256, 257, 600, 4_095, 4_096, 4_097, 9_000), 600

# How often requests follow a clearing with which they were sent.
BEHIND = 64

# How soon an empty room is told, in seconds, and how often it is tried.
SOON, TRIES = 1.0, 8

BUSY = b"-ERR a room is being cleared: try again after it\r\n"
NOTHING_REMOVED = b"-ERR the room isn't cleared: 0 of its keys were removed\r\n"
WRONG_COUNT = b"-ERR wrong number of arguments for 'lz.clear' command\r\n"


def clear(room: int) -> bytes:
    return array(b"LZ.CLEAR", b"%d" % room)


def asked(port: int, *frames: bytes) -> bytes:
    """The replies to frames that are sent at once, of which each may take its time."""
    client = connect(port)
    client.settimeout(PATIENCE)
    return sent(client, [b"".join(frames)])


def asking(port: int) -> socket.socket:
    """A client that has asked for the clearing."""
    client = connect(port)
    client.settimeout(PATIENCE)
    client.sendall(clear(ROOM))
    return client


def expect_told(client: socket.socket, wanted: bytes, what: str) -> None:
    """A client is told just this, which is awaited."""
    told = b""
    while len(told) < len(wanted) and (piece := client.recv(4096)):
        told += piece
    expect(told, wanted, what)


def keys_in(rooms: Sequence[int], numbers: Sequence[int]) -> List[Key]:
    return [Key(room, number) for room in rooms for number in numbers]


def filled(program: Program, file: str, form: int, count: int = COUNT, more: int = 100) -> Tuple[List[Key], List[Key]]:
    """Makes a file whose slots hold the keys of all rooms in a drawn order, with more slots that are free: the keys of the room, and those that stay."""
    draw = random.Random(count)
    numbers = draw.sample(range(10**18), count)
    room, others = keys_in([ROOM], numbers), keys_in(OTHERS, (numbers + list(range(IN_OTHERS)))[:IN_OTHERS])
    made(program, file, draw.sample([*room, *others], len(room) + len(others)), len(room) + len(others) + more, form)
    return room, sorted(others)


def listed(port: int, rooms: Sequence[int]) -> List[Key]:
    """The keys that scans of these rooms tell."""
    with connect(port) as client:
        client.settimeout(PATIENCE)
        return sorted(Key(room, number) for room in rooms for number in keys_of(list(pages(client, room, 256))))


def expect_left(program: Program, file: str, others: Sequence[Key], what: str) -> None:
    """The file has each key of other rooms, and no further one."""
    found = program.members(file)
    if found != [*others]:
        lost, more = sorted({*others} - {*found}), sorted({*found} - {*others})
        raise Wrong(f"{what}: {len(lost)} keys of other rooms are missing, as {lost[:3]}, and {len(more)} keys are left, as {more[:3]}")


def try_cleared(program: Program, folder: str) -> None:
    """A room of 5,000 keys is cleared: its reply counts them, no other room lacks a key, a second clearing removes none, and so it is after a restart."""
    for form, passes, loops, count in SERVED:
        file, what = os.path.join(folder, f"f{form}-{passes}-{loops}"), f"format {form}, {passes} passes, {loops} loops"
        room, others = filled(program, file, form, count)
        with Service(program, file, passes, "--loops", loops, *by_frames(8)) as service:
            expect(asked(service.port, clear(ROOM)), integer(len(room)), f"the reply: {what}")
            expect(asked(service.port, clear(ROOM)), integer(0), f"the reply to a second one: {what}")
            expect(listed(service.port, range(16)), others, f"what scans of all rooms tell: {what}")
            expect(asked(service.port, array(b"SADD", b"3", b"17", b"18")), integer(2), f"keys that come after it: {what}")
            time.sleep(0.1)
            expect(asked(service.port, array(b"SREM", b"3", b"17", b"18")), b":2\r\n", f"those keys a while later: {what}")
        expect_left(program, file, others, what)
        with Service(program, file, 16, *by_frames(4)) as service:
            for other in OTHERS:
                expect(asked(service.port, clear(other)), integer(IN_OTHERS), f"the reply to the clearing of room {other}: {what}")
        expect_left(program, file, [], what)


def try_sizes(program: Program, folder: str) -> None:
    """Rooms of none, one and many keys, and of all slots of a file, which are free again then. A file of format 1 has room 0 alone."""
    for form, passes in ((2, 64), (4, 16)):
        for count in SIZES:
            file, again = os.path.join(folder, f"f{form}-{count}"), range(min(count, MOST_AGAIN))
            _, others = filled(program, file, form, count, 0)
            with Service(program, file, passes, *by_frames(4)) as service:
                expect(asked(service.port, clear(ROOM)), integer(count), f"the reply to the clearing of {count} keys")
                if again:
                    frame = array(b"SADD", b"9", *(b"%d" % number for number in again))
                    expect(asked(service.port, frame), integer(len(again)), f"keys in the slots that are free again, of {count}")
            expect_left(program, file, sorted([*others, *keys_in([9], again)]), f"after the clearing of {count} keys")
            os.remove(file)
    file = os.path.join(folder, "oldest")
    made(program, file, keys_in([0], range(300)), 300, 1)
    with Service(program, file, 4, *by_frames(4)) as service:
        expect(asked(service.port, clear(3)), integer(0), "the clearing of room 3 of an older file")
        expect(asked(service.port, clear(0)), integer(300), "the clearing of room 0 of an older file")
    expect_left(program, file, [], "an older file")


def try_second(program: Program, folder: str) -> None:
    """While a room is cleared a second clearing is refused, of any room and on any connection, and nothing of it is done; then it is carried out. The
    connection inside the service is one of its clients meanwhile."""
    for loops in ("1", "2"):
        file = os.path.join(folder, f"f{loops}")
        room, others = filled(program, file, 4, LARGE)
        with Service(program, file, 16, "--loops", loops, *by_frames(8)) as service, connect(service.port) as second, asking(service.port) as first:
            time.sleep(0.1)
            some = b"%d" % others[0].number
            second.sendall(array(b"PING") + array(b"SISMEMBER", b"0", some) + clear(16) + clear(ROOM) + clear(0))
            expect_told(second, PONG + integer(1) + NO_ROOM + 2 * BUSY, "what a second client is told while a room is cleared")
            expect(values(second)["connected_clients"], "3", "the clients meanwhile")
            expect_told(first, integer(len(room)), "what the first client is told")
            second.sendall(array(b"SISMEMBER", b"0", some) + clear(ROOM))
            expect_told(second, integer(1) + integer(0), "what the second client is told after it")
            latest = time.monotonic() + PATIENCE
            while values(second)["connected_clients"] != "2":
                expect(time.monotonic() < latest, True, "that the connection inside has ended")
                time.sleep(0.05)
        expect_left(program, file, others, "after two clearings at once")


def await_cleared(port: int, members: int) -> None:
    """Waits until the service has no more members than these, and clears no room any more."""
    latest = time.monotonic() + PATIENCE
    while asked(port, array(b"DBSIZE")) != integer(members) or asked(port, clear(ROOM)) == BUSY:
        expect(time.monotonic() < latest, True, "that the room is empty a while later")
        time.sleep(0.05)


def try_leaves(program: Program, folder: str) -> None:
    """The client that asks closes its connection at once, or is reset while its room is cleared: the room is empty a while later all the same."""
    for name, count, pause, resets in (("closes", COUNT, 0.0, False), ("closes-later", LARGE, 0.1, False), ("is-reset", LARGE, 0.1, True)):
        file = os.path.join(folder, name)
        room, others = filled(program, file, 4, count)
        with Service(program, file, 16, *by_frames(4)) as service:
            with asking(service.port) as client:
                time.sleep(pause)
                if resets:
                    client.setsockopt(socket.SOL_SOCKET, socket.SO_LINGER, struct.pack("ii", 1, 0))
            await_cleared(service.port, len(others))
            expect(listed(service.port, range(16)), others, f"what is left where the client {name}")
        expect_left(program, file, others, f"where the client {name}")


def try_places(program: Program, folder: str) -> None:
    """Where all places are taken a clearing is carried out once one is free, or is told as none: the other client is answered meanwhile."""
    file = os.path.join(folder, "f")
    room, others = filled(program, file, 4)
    with Service(program, file, 16, *by_frames(2)) as service, connect(service.port) as client:
        client.settimeout(PATIENCE)
        with connect(service.port) as other:
            other.sendall(array(b"PING"))
            expect_told(other, PONG, "the other client before it")
            client.sendall(clear(ROOM))
            for _ in range(4):
                time.sleep(0.1)
                other.sendall(array(b"PING"))
                expect_told(other, PONG, "the other client meanwhile")
        told = client.recv(4096)
        if told == NOTHING_REMOVED:
            client.sendall(clear(ROOM))
            told = client.recv(4096)
        expect(told, integer(len(room)), "what is told once a place is free")
    expect_left(program, file, others, "where all places were taken")


def try_only_place(program: Program, folder: str) -> None:
    """The client that asks has the only place, and leaves after a while: the next clients are served, and the room is empty a while later."""
    file = os.path.join(folder, "f")
    room, others = filled(program, file, 4)
    with Service(program, file, 16, *by_frames(1)) as service:
        with asking(service.port) as client:
            client.settimeout(0.5)
            try:
                told = client.recv(4096)
            except socket.timeout:
                told = b""
        expect(told in (b"", NOTHING_REMOVED), True, f"that {told!r} is told while no place is free")
        if told:
            expect(asked(service.port, array(b"DBSIZE")), integer(len(room) + len(others)), "the members where it was told as none")
            return
        with connect(service.port) as client:
            client.sendall(array(b"PING"))
            expect_told(client, PONG, "the next client")
        latest = time.monotonic() + PATIENCE
        while asked(service.port, array(b"DBSIZE")) != integer(len(others)):
            expect(time.monotonic() < latest, True, "that the room is empty a while later")
            time.sleep(0.1)
    expect_left(program, file, others, "where the client had the only place")


def try_in_order(program: Program, folder: str) -> None:
    """Frames that are sent together: what comes before a clearing was told before, replies to what comes after it come later, also to requests for keys, and
    all are in order. So they are byte by byte, as words on a line, and up to QUIT. In a transaction no room is cleared."""
    for passes in (1, 16):
        file = os.path.join(folder, f"f{passes}")
        room, others = filled(program, file, 4)
        new, some = array(b"SADD", b"3", b"17", b"18"), others[0].number
        with Service(program, file, passes, *by_frames(4)) as service:
            refused = array(b"MULTI") + clear(ROOM) + array(b"EXEC")
            expect(asked(service.port, refused), 2 * NO_TRANSACTIONS + ENDS["exec"], "the replies to a clearing in a transaction")
            after = array(b"PING") + array(b"SISMEMBER", b"0", b"%d" % some) + array(b"ECHO", b"hi")
            told = PONG + integer(1) + bulk(b"hi")
            replies = PONG + integer(2) + integer(len(room) + 2) + BEHIND * told
            expect(asked(service.port, array(b"PING"), new, clear(ROOM), BEHIND * after), replies, "replies of one piece")
            replies = integer(2) + integer(2) + integer(0) + told
            expect(asked(service.port, new, clear(ROOM), clear(ROOM), after), replies, "replies of one piece to two clearings")
            expect(asked(service.port, array(b"PING"), clear(ROOM), array(b"PING")), PONG + integer(0) + PONG, "replies of one piece, and no keys")
            expect(asked(service.port, new, b"lz.clear 3\r\n", array(b"PING")), integer(2) + integer(2) + PONG, "replies where it is a line of words")
            text, told = new + array(b"Lz.Clear", b"3") + array(b"PING"), PONG
            client = connect(service.port)
            client.settimeout(PATIENCE)
            expect(sent(client, [text[place : place + 1] for place in range(len(text))]), integer(2) + integer(2) + told, "replies byte by byte")
            with connect(service.port) as client:
                client.settimeout(PATIENCE)
                client.sendall(new + clear(ROOM) + array(b"QUIT"))
                expect_told(client, integer(2) + integer(2) + OK, "replies up to QUIT")
                expect(client.recv(64), b"", "what comes after QUIT")
            with connect(service.port) as client:
                client.sendall(array(b"LZ.CLEAR", b"3") + array(b"PING"))
                expect_told(client, integer(0) + PONG, "replies to a client that goes on")
        expect_left(program, file, others, f"with {passes} passes")


def try_refused(program: Program, folder: str) -> None:
    """What names no room, or has a word too few or too many, clears nothing; and COMMAND COUNT counts one more command."""
    file = os.path.join(folder, "f")
    keys = keys_in(range(16), range(5))
    made(program, file, keys, 100, 4)
    names = (b"", b"16", b"-1", b"+3", b"03", b" 3", b"3 ", b"x", b"0x3", b"3.0", b"9" * 30, b"\xff", b"3\r\n", b"myset", b"*")
    with Service(program, file, 4, *by_frames(4)) as service:
        for name in names:
            expect(asked(service.port, array(b"LZ.CLEAR", name)), NO_ROOM, f"the clearing of {name!r}")
        for words in ((), (b"3", b"4"), (b"3", b""), (b"16", b"3", b"3"), (b"0", b"COUNT", b"10")):
            expect(asked(service.port, array(b"lz.clear", *words)), WRONG_COUNT, f"a clearing with the words {words}")
        expect(asked(service.port, array(b"COMMAND", b"COUNT")), integer(27), "COMMAND COUNT")
        expect(asked(service.port, array(b"DBSIZE")), integer(len(keys)), "the members after it")
    expect_left(program, file, keys, "after clearings that were refused")


def try_texts(program: Program, folder: str) -> None:
    """In a service of texts, under a secret or not, no room is cleared, and the marks stay. Where a mark is taken for a number it is cleared with its room."""
    file, path = os.path.join(folder, "f"), kept(folder, SECRET)
    for words, marks in ((TEXT, [MARK]), (under(path), [MARK, marked_by(SECRET)])):
        made(program, file, (), 20, 4)
        with Service(program, file, 4, *words) as service:
            expect(asked(service.port, array(b"SADD", b"3", b"a", b"b"), array(b"SADD", b"tags", b"red")), integer(2) + integer(1), "texts")
            frames = [array(b"LZ.CLEAR", name) for name in (b"3", b"0", b"15", b"tags", b"16", b"")]
            expect(asked(service.port, *frames, array(b"LZ.CLEAR")), NO_TEXTS * 6 + WRONG_COUNT, "clearings of texts")
            expect(asked(service.port, array(b"SMISMEMBER", b"3", b"a", b"b"), array(b"DBSIZE")), b"*2\r\n:1\r\n:1\r\n" + integer(3), "the texts after it")
        expect(set(marks) <= {*program.members(file)}, True, "that the marks are there")
    made(program, file, [MARK, Key(15, 5), Key(0, 5)], 20, 4)
    with Service(program, file, 4, *NUMBERS) as service:
        expect(asked(service.port, clear(15)), integer(2), "the clearing of room 15 of keys that are taken for numbers")
    expect_left(program, file, [Key(0, 5)], "keys that are taken for numbers")


def try_soon(program: Program, folder: str) -> None:
    """An empty room is told within a second, on each connection of one loop and of several."""
    for loops, passes in (("1", 4), ("2", 2), ("2", 16), ("4", 16)):
        file = os.path.join(folder, f"f{loops}-{passes}")
        made(program, file, keys_in([0], range(1_000)), 4_000, 4)
        with Service(program, file, passes, "--loops", loops, *by_frames(2 * TRIES)) as service:
            for at in range(TRIES):
                with connect(service.port) as client:
                    began = time.monotonic()
                    client.sendall(clear(5))
                    expect_told(client, integer(0), "the reply of an empty room")
                    seconds = time.monotonic() - began
                expect(seconds < SOON, True, f"that {seconds:.2f} s are soon, of connection {at} with {loops} loops and {passes} passes")


def try_figures(program: Program, folder: str) -> None:
    """Right after a clearing DBSIZE and INFO tell the members that are left, and INFO counts each key that it removed."""
    for form, loops in ((2, "1"), (4, "2")):
        file = os.path.join(folder, f"f{form}")
        room, others = filled(program, file, form)
        slots = len(room) + len(others) + 100
        with Service(program, file, 16, "--loops", loops, *by_frames(4)) as service, connect(service.port) as client:
            client.settimeout(PATIENCE)
            before = values(client)
            expect((before["members"], before["removes"]), (str(slots - 100), "0"), "the figures before")
            client.sendall(clear(ROOM))
            expect_told(client, integer(len(room)), "the reply")
            client.sendall(array(b"DBSIZE"))
            expect_told(client, integer(len(others)), "DBSIZE right after it")
            after = values(client)
            wanted = {
                **{"members": str(len(others)), "free": str(slots - len(others)), "used_memory": str(16 * len(others))},
                **{"db0": f"keys={len(others)},expires=0,avg_ttl=0", "removes": str(len(room)), "adds": "0"},
            }
            expect({name: after[name] for name in wanted}, wanted, "the figures after it")


TRIALS = (
    ("rooms that are cleared", try_cleared),
    ("rooms of each size that are cleared", try_sizes),
    ("two rooms that are cleared at once", try_second),
    ("a client that leaves while its room is cleared", try_leaves),
    ("a room that is cleared where all places are taken", try_places),
    ("a room that is cleared for the client of the only place", try_only_place),
    ("frames around one that clears a room", try_in_order),
    ("frames that clear no room", try_refused),
    ("a service of texts clears no room", try_texts),
    ("an empty room is cleared soon", try_soon),
    ("figures once a room was cleared", try_figures),
)
