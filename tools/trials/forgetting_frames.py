"""The frames of a service that forgets, and their replies: claims by all words, times that it hasn't, what is left, and what it doesn't take."""

from __future__ import annotations

import os
import re
import socket
from typing import List, Sequence, Tuple

from trials.clearing import WRONG_COUNT
from trials.forgetting import SLOTS, expect_listens, forgetting
from trials.frames import ONE_DATABASE, replies, sent
from trials.guests import connect
from trials.plain_frames import MOST_VALUE, NIL, NO_TRANSACTIONS, OK, PONG, array, bulk, error, integer, unknown
from trials.program import PATIENCE, Ended, Key, Program
from trials.queries import REFUSED, values
from trials.remembered import Period
from trials.report import Wrong, expect
from trials.scans import NO_TEXTS, keys_of, pages
from trials.secrets import SECRET, kept, number_of
from trials.stops import control_of

# So long that no epoch ends meanwhile.
PERIOD = Period(1_000)
OTHER_TIME = error("this service forgets after 1000 seconds")
NX_ALONE = error("syntax error: SET takes NX alone, as in SET key value NX")
LONG_VALUE = error("values are not kept, and may have 64 bytes")

# How often a service is stopped that has so many claims before it, and what is said of one that it hasn't begun.
STOPS, STOPPED = 8, 1_000
STOPPING = error("stopping; nothing was done")

# How many frames are sent at once, and how many claims: up to more than are carried out together, and than one reading has.
AT_ONCE = 300
CLAIMS = (1, 63, 64, 65, 255, 256, 257, 2_000)


def frame(text: str) -> bytes:
    """The frame of these words, of which '' is none."""
    return array(*(b"" if word == "''" else word.encode() for word in text.split()))


# What is sent one after the other, and told.
ROWS: Tuple[Tuple[str, bytes], ...] = (
    # Claims, by all their words, in capitals or not.
    *(("SET a 1 NX", OK), ("SET a 1 NX", NIL), ("SET a 1 NX EX 1000", NIL), ("SET b 1 NX EX 1000", OK), ("SET b 1 EX 1000 NX", NIL)),
    *(("SET c 1 EX 1000 NX", OK), ("SET d 1 NX PX 1000000", OK), ("SET e 1 PX 1000000 NX", OK), ("set f 1 nx Px 1000000", OK), ("SET f 2 ex 1000 nx", NIL)),
    *(("SETNX g 1", integer(1)), ("SETNX g 1", integer(0)), ("SETNX a 1", integer(0)), ("SADD '' h", integer(1)), ("SETNX h 1", integer(0))),
    # Times that it hasn't; nothing is claimed by them.
    *((f"SET x 1 NX EX {time}", OTHER_TIME) for time in ("999", "1001", "0", "1000000", "99999999999999999999", "1")),
    *((f"SET x 1 PX {time} NX", OTHER_TIME) for time in ("1000", "999999", "1000001", "0")),
    *(("SET a 1 EX 5 NX", OTHER_TIME), ("EXISTS x", integer(0))),
    # SET without NX, or with more than a time.
    *((f"SET x 1{more}", NX_ALONE) for more in ("", " XX", " EX 1000", " PX 1000000", " EX 1000 XX", " NX NX", " NX EX", " NX GET", " KEEPTTL")),
    *((f"SET x 1 {more}", NX_ALONE) for more in ("NX EX 1000 GET", "EX 1000 NX GET", "NX EXAT 1000", "NX XX EX 1000", "NX EX 1000 PX 1000000")),
    *(("SET x", error("wrong number of arguments for 'set' command")), ("SETNX x", error("wrong number of arguments for 'setnx' command"))),
    *((f"SET x {'v' * (MOST_VALUE + 1)} NX{more}", LONG_VALUE) for more in ("", " EX 1000")),
    *((f"SET y {'v' * MOST_VALUE} NX{more}", told) for more, told in (("", OK), (" PX 1000000", NIL))),
    ("EXISTS x y a a", integer(3)),
    # Sets, and frames of several members.
    *(("SADD s a b c", integer(3)), ("SADD s a b c d", integer(1)), ("SADD s d d", integer(0)), ("SADD s e e", integer(1)), ("SADD t a", integer(1))),
    *(("SISMEMBER s a", integer(1)), ("SISMEMBER t b", integer(0)), ("SMISMEMBER s a z e", b"*3\r\n" + integer(1) + integer(0) + integer(1))),
    *(("SREM s a z", integer(1)), ("SREM s a", integer(0)), ("SADD s a", integer(1)), ("SISMEMBER t a", integer(1))),
    *(("DEL a b x", integer(2)), ("UNLINK c c", integer(1)), ("EXISTS a b c d", integer(1)), ("SET a 1 NX", OK), ("DEL s", integer(0))),
    # What is left of keys that aren't there.
    *(("TTL x", integer(-2)), ("PTTL x", integer(-2)), ("ttl s", integer(-2)), ("TTL b", integer(-2))),
    # What isn't taken.
    *(("SSCAN s 0", NO_TEXTS), ("SSCAN 3 0 COUNT 10", NO_TEXTS), ("LZ.CLEAR 3", NO_TEXTS), ("LZ.CLEAR s", NO_TEXTS), ("LZ.CLEAR", WRONG_COUNT)),
    *((text, unknown([word.encode() for word in text.split()])) for text in ("EXPIRE a 1000", "PERSIST a", "SETEX x 1000 1", "GET a", "EXPIREAT a 1")),
    *(("SELECT 0", OK), ("SELECT 1", ONE_DATABASE), ("SHUTDOWN", REFUSED), ("PING", PONG), ("PING a", bulk(b"a")), ("ECHO a", bulk(b"a"))),
    # A transaction: nothing of it is done.
    *(("MULTI", NO_TRANSACTIONS), ("SET x 1 NX EX 1000", NO_TRANSACTIONS), ("SADD s x", NO_TRANSACTIONS), ("TTL a", NO_TRANSACTIONS)),
    *(("EXEC", b"-EXECABORT Transaction discarded because of previous errors.\r\n"), ("EXISTS x", integer(0)), ("SISMEMBER s x", integer(0))),
    *(("MULTI", NO_TRANSACTIONS), ("DEL a", NO_TRANSACTIONS), ("DISCARD", OK), ("EXISTS a", integer(1)), ("EXEC", error("EXEC without MULTI"))),
)

# Keys and members that are there at the end, with the names of their sets.
LEFT_OVER: Sequence[Tuple[bytes, bytes]] = (
    *((b"", key) for key in (b"a", b"d", b"e", b"f", b"g", b"h", b"y")),
    *((b"s", member) for member in (b"a", b"b", b"c", b"d", b"e")),
    (b"t", b"a"),
)


def try_rows(program: Program, folder: str) -> None:
    """Each frame is told what the page says: one after the other, all at once, byte by byte, and under a secret."""
    path = kept(folder, SECRET)
    frames = [frame(text) for text, _ in ROWS]
    ways: Sequence[Tuple[str, Sequence[str]]] = (("singly", ()), ("at once", ()), ("byte by byte", ()), ("at once under a secret", ("--secret", path)))
    for number, (what, words) in enumerate(ways):
        file = os.path.join(folder, f"f{number}")
        program.make(file, 100, 2 + number % 3)
        with forgetting(program, file, PERIOD, *words) as service:
            expect_listens(service, what)
            if what == "singly":
                expect_singly(service.port, frames)
            else:
                pieces = [b"".join(frames)] if number != 2 else [bytes([byte]) for byte in b"".join(frames)]
                expect(sent(connect(service.port), pieces), b"".join(told for _, told in ROWS), f"the replies to all frames, {what}")
        expect_texts(program, file, SECRET if words else b"", what)


def expect_singly(port: int, frames: Sequence[bytes]) -> None:
    with connect(port) as client, client.makefile("rb") as stream:
        for (text, wanted), asked in zip(ROWS, frames):
            client.sendall(asked)
            told = b"".join(stream.readline() for _ in range(wanted.count(b"\n")))
            expect(told, wanted, f"the reply to {text}")


def expect_texts(program: Program, file: str, secret: bytes, what: str) -> None:
    """The file has each text that is there, once and in a room of an epoch, and besides them marks alone."""
    found = program.members(file)
    expect(sorted(key.number for key in found if key.room != 15), sorted(number_of(secret, *text) for text in LEFT_OVER), f"the texts of the file, {what}")
    expect({key.room for key in found} <= {15, *range(14)}, True, f"that the rooms are those of epochs and of marks, {what}")


def try_left(program: Program, folder: str) -> None:
    """The time left of a key just claimed is the period at least, and an epoch more at most: in seconds without their parts, or in milliseconds."""
    for period in (Period(1_000), Period(90, 2), Period(50, 12), Period(7), Period(86_400)):
        file = os.path.join(folder, f"f{period.seconds}")
        program.make(file, 100, 4)
        with forgetting(program, file, period) as service, connect(service.port) as client, client.makefile("rb") as stream:
            for words, unit in ((b"PTTL", 1), (b"TTL", 1000), (b"pttl", 1)):
                client.sendall(array(b"SETNX", words, b"1") + array(words, words))
                expect(stream.readline(), integer(1), "a claim")
                line = stream.readline()
                if not re.fullmatch(rb":\d+\r\n", line):
                    raise Wrong(f"{words!r} of a key just claimed is told {line!r}")
                told = int(line[1:-2]) * unit / 1000
                expect(period.seconds - 2 <= told <= period.most + 1, True, f"that {told} s may be left of {period}")


def try_figures(program: Program, folder: str) -> None:
    """DBSIZE and INFO count the keys and no mark, LZ.SCAN tells all keys of the file, and commands that are typed as words are taken."""
    file = os.path.join(folder, "f")
    program.make(file, SLOTS, 4)
    with forgetting(program, file, PERIOD) as service:
        size = array(b"DBSIZE")
        first = replies(service.port, array(b"SADD", b"s", b"a"), size)
        expect(first, integer(1) + integer(1), "DBSIZE with one key")
        told = replies(service.port, array(b"SADD", b"s", b"a", b"b", b"c"), size, array(b"SREM", b"s", b"a"), size)
        expect(told, integer(2) + integer(3) + integer(1) + integer(2), "DBSIZE between changes")
        with connect(service.port) as client:
            had = values(client)
            expect((had["members"], had["slots"]), ("2", str(SLOTS)), "INFO")
            expect(int(had["free"]) < SLOTS - 2, True, "that marks have slots")
        with connect(service.port) as client:
            ranks = keys_of(list(pages(client, None, 256)))
        expect(sorted(ranks), [key.room * 10**18 + key.number for key in program.members(file)], "what LZ.SCAN tells")
        typed = b"SET k 1 NX EX 1000\r\nset k 1 nx\r\nEXISTS k\r\nDEL k\r\nTTL k\r\n"
        expect(replies(service.port, typed), OK + NIL + integer(1) * 2 + integer(-2), "what is typed")
        told = replies(service.port, array(b"SETNX", b"k", b"1") + b"*1\r\n:5\r\n" + array(b"SETNX", b"l", b"1"))
        expect(told, integer(1) + error("Protocol error: expected '$', got ':'"), "a frame at fault, after which nothing is done")
        expect(replies(service.port, array(b"EXISTS", b"k", b"l"), array(b"QUIT"), array(b"DEL", b"k")), integer(1) + OK, "QUIT")
        expect(replies(service.port, array(b"EXISTS", b"k")), integer(1), "the key after QUIT")


def try_at_once(program: Program, folder: str) -> None:
    """Commands that are sent at once are told in their order, whichever of them are carried out together: of few keys, of many, and of frames with many."""
    file = os.path.join(folder, "f")
    program.make(file, SLOTS, 4)
    with forgetting(program, file, PERIOD, "--loops", "2") as service:
        frames, told = [], b""
        for number in range(AT_ONCE):
            key = b"%d" % (number % 7)
            frames += [array(b"SET", key, b"1", b"NX", b"EX", b"1000"), array(b"SETNX", key, b"1"), array(b"DEL", key, key), array(b"EXISTS", key)]
            told += OK + integer(0) + integer(1) + integer(0)
        expect(replies(service.port, *frames), told, "claims and removals of few keys")
        members: List[bytes] = [b"%d" % number for number in range(1_000)]
        frames = [array(b"SADD", b"s", *members), array(b"SADD", b"s", *members, b"x"), array(b"SMISMEMBER", b"s", *members), array(b"SREM", b"s", *members)]
        told = integer(1_000) + integer(1) + b"*1000\r\n" + 1_000 * integer(1) + integer(1_000)
        expect(replies(service.port, *frames), told, "frames of a thousand members")
        expect(replies(service.port, array(b"SREM", b"s", b"x", *members), array(b"DBSIZE")), integer(1) + integer(0), "what is left")
        expect_piped(service.port)


def expect_piped(port: int) -> None:
    """Claims, lookups and removals of so many keys, which one connection sends at once, and then again."""
    with connect(port) as client, client.makefile("rb") as stream:
        for count in CLAIMS:
            keys = [b"%d of %d" % (number, count) for number in range(count)]
            for words, told in (((b"SETNX", b"1"), (1, 0)), ((b"EXISTS",), (1, 1)), ((b"DEL",), (1, 0))):
                frames = b"".join(array(words[0], key, *words[1:]) for key in keys)
                for answer in told:
                    client.sendall(frames)
                    expect([stream.readline() for _ in keys], count * [integer(answer)], f"{count} of {words[0]!r} at once")


def try_stop(program: Program, folder: str) -> None:
    """A service that is asked to stop answers claims that were sent at once, or says that nothing of them was done; and so it is after the next start."""
    file = os.path.join(folder, "f")
    program.make(file, SLOTS, 4)
    counts = [0, 0, 0]
    for turn in range(STOPS):
        keys = [b"%d of turn %d" % (number, turn) for number in range(STOPPED)]
        with forgetting(program, file, PERIOD) as service, connect(service.port) as client:
            # From its first answer on no command waits for an epoch.
            expect(replies(service.port, array(b"SETNX", b"first", b"1")), integer(0 if turn else 1), "the first claim")
            client.sendall(b"".join(array(b"SETNX", key, b"1") for key in keys))
            expect(program.run("stop", control_of(file)), Ended("", 0), "the stop")
            told = told_until_end(client)
            expect(service.wait(), 0, "the status after a stop")
        done = told.count(integer(1))
        expect(told, done * [integer(1)] + (len(told) - done) * [STOPPING], "the replies at a stop")
        with forgetting(program, file, PERIOD) as service:
            found = replies(service.port, array(b"SMISMEMBER", b"", *keys)).splitlines(keepends=True)[1:]
            expect(found[: len(told)], done * [integer(1)] + (len(told) - done) * [integer(0)], "what is there after a stop")
            expect(replies(service.port, array(b"DEL", *keys)), integer(found.count(integer(1))), "how many keys are there after a stop")
        counts = [was + more for was, more in zip(counts, (done, len(told) - done, STOPPED - len(told)))]
    print(f"         {counts[0]} claims answered, {counts[1]} refused, {counts[2]} without a reply", flush=True)


def told_until_end(client: socket.socket) -> List[bytes]:
    """The whole lines that come until the connection ends, or is reset."""
    told = b""
    try:
        while piece := client.recv(65_536):
            told += piece
    except ConnectionResetError:
        pass
    return [line for line in told.splitlines(keepends=True) if line.endswith(b"\n")]


def try_path(program: Program, folder: str) -> None:
    """At a path in place of a port it is the same, and SHUTDOWN ends the service with status 0; what was claimed is known after it."""
    file = os.path.join(folder, "f")
    at = f"{file}.socket"
    program.make(file, 100, 4)
    for told, last in ((integer(1), array(b"SHUTDOWN", b"NOSAVE")), (integer(0), array(b"SHUTDOWN"))):
        with forgetting(program, file, PERIOD, "--socket", at, port="") as service, socket.socket(socket.AF_UNIX) as client:
            expect(service.told, f"listening {at}\n", "where it listens")
            client.settimeout(PATIENCE)
            client.connect(at)
            expect(sent(client, [array(b"SETNX", b"k", b"1"), last]), told, "the replies")
            expect(service.wait(), 0, "the status after SHUTDOWN")
    expect(Key(15, 10**15) in program.members(file), True, "that the mark is there")


TRIALS = (
    ("frames of a service that forgets", try_rows),
    ("the time until a service forgets a key", try_left),
    ("figures of a service that forgets", try_figures),
    ("commands at once to a service that forgets", try_at_once),
    ("a stop of a service that forgets", try_stop),
    ("a service that forgets at a path", try_path),
)
