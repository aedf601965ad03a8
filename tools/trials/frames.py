"""A service that speaks Redis's protocol (`--resp`): its replies are those of an independent model, however the frames come."""

from __future__ import annotations

import os
import re
import socket
import threading
from collections import Counter
from contextlib import suppress
from typing import Counter as Count
from typing import Iterable, Iterator, List, Optional

from trials.faults import failing, needs_strace
from trials.files import bytes_in, put
from trials.guests import PATIENCE, connect, received
from trials.hostile import SLOTS, Drawn, expect_all, tell
from trials.noise_frames import OTHERS, FrameNoise
from trials.plain import Plain
from trials.plain_frames import MOST_WORDS, NO_TRANSACTIONS, PlainTalk, array, integer
from trials.program import Ended, Key, Program, Service
from trials.report import Wrong, expect
from trials.stops import control_of

CLIENTS = 8
PASSES = 16

# Further bytes that are sent together with those after which the service ends the connection.
MOST_AFTER = 1000

# Commands that are sent at once.
AT_ONCE = 500

# Members of a large frame.
LARGE = 5_000

# Keys that are added while a service is stopped, and how often that is tried.
MANY, TRIES = 60_000, 20

HALTED = b"-HALTED the device failed\r\n"

# How errors begin, and by what they are counted.
KINDS = {
    **{"FULL": "full", "OLDFILE": "oldfile", "ERR unknown": "unknown", "ERR wrong": "wrong_count", "ERR value is": "no_key", "ERR a set": "no_room"},
    **{"ERR DB": "no_database", "ERR syntax error:": "bad_set", "ERR syntax": "syntax", "ERR values": "long_value", "ERR SHUTDOWN": "shutdown"},
    **{"ERR transactions": "in_transaction", "EXECABORT": "aborted", "ERR EXEC": "exec_alone", "ERR DISCARD": "discard_alone"},
    **{"ERR Protocol error: invalid m": "count", "ERR Protocol error: invalid b": "length", "ERR Protocol error: exp": "no_bulk"},
    **{"ERR Protocol error: no": "no_end", "ERR Protocol error: quo": "quotes", "ERR Protocol error: too": "too_big"},
}


def by_frames(connections: int) -> List[str]:
    return ["--connections", str(connections), "--resp"]


def sent(connection: socket.socket, pieces: Iterable[bytes]) -> bytes:
    """Sends the pieces, each by itself, and gives all that comes until the service ends the connection."""
    with connection:
        with suppress(OSError):
            connection.setsockopt(socket.IPPROTO_TCP, socket.TCP_NODELAY, 1)
        for piece in pieces:
            connection.sendall(piece)
        connection.shutdown(socket.SHUT_WR)
        return received(connection)


def replies(port: int, *frames: bytes) -> bytes:
    """The replies to frames that are sent at once."""
    return sent(connect(port), [b"".join(frames)])


def kinds_in(told: bytes) -> Iterator[str]:
    """What kinds of errors stand in replies."""
    for line in re.findall(r"^-([A-Z]+ .*)", told.decode("latin-1"), re.M):
        yield next((name for start, name in KINDS.items() if line.startswith(start)), line)


def sent_in_pieces(port: int, noise: FrameNoise, text: bytes) -> bytes:
    """What comes back where a client sends a text in pieces. All that follows the bytes after which the service ends the connection goes with them:
    a piece that comes later might reset the connection before the last reply is read."""
    ended_at = PlainTalk(Plain(2, SLOTS)).tell(text).ended_at
    end = len(text) if ended_at is None else ended_at
    *pieces, last = [b"", *noise.pieces(text[:end])]
    return sent(connect(port), [*pieces, last + text[end : end + MOST_AFTER]])


class Talks:
    """What many clients send, one after the other, and what comes back: as from a plain set."""

    def __init__(self, noise: FrameNoise, plain: Plain) -> None:
        self.noise = noise
        self.plain = plain
        self.count = 0
        self.came: Count[str] = Counter()

    def next(self, port: int) -> None:
        """The next client."""
        text = self.noise.talk()
        told = PlainTalk(self.plain).tell(text)
        expect(sent_in_pieces(port, self.noise, text), told.replies, f"{text!r:.2000}")
        self.count += told.count
        self.came.update(kinds_in(told.replies))


def try_noise(program: Program, folder: str, drawn: Drawn) -> None:
    """Clients one after the other on one file: the replies are those of a plain set, and so are the file's bytes."""
    for form in (1, 2):
        talks = Talks(FrameNoise(drawn.seed * 8 + form), Plain(form, SLOTS))
        file = os.path.join(folder, f"f{form}")
        put(file, talks.plain.file())
        with Service(program, file, 1, "--buckets", "7", *by_frames(1)) as service:
            for _ in range(drawn.count // 4):
                talks.next(service.port)
        expect(bytes_in(file), talks.plain.file(), "the file after all of them")
        expect_all(talks.came, " ".join(it for it in KINDS.values() if it != "oldfile" or form == 1), drawn.count // 4)
        tell(f"{drawn.count // 4} clients had {talks.count} replies from a file of format {form}", talks.came)


class Own(FrameNoise):
    """Draws frames that ask for keys of one room alone."""

    others = OTHERS
    # After RESET room 0 would be selected.
    ends = (b"EXEC", b"DISCARD")

    def __init__(self, seed: int, room: int) -> None:
        super().__init__(seed)
        self.rooms = [b"%d" % room]

    def room(self) -> bytes:
        return self.rooms[0]

    def talk(self) -> bytes:
        """Room 0 is selected where a connection begins, so the own one is selected first. Nothing is spoiled: it might ask for other rooms."""
        return array(b"SELECT", self.room()) + b"".join(self.frames())


def try_crowd_noise(program: Program, folder: str, drawn: Drawn) -> None:
    """Eight clients at once, each in a room of its own, which has room for all: each one's replies are those of a set of its own."""
    file = os.path.join(folder, "f")
    program.make(file, 2000)
    all_talks = [Talks(Own(drawn.seed * 32 + room, room), Plain(2, 200)) for room in range(CLIENTS)]
    failures: List[BaseException] = []

    def talk(talks: Talks, port: int) -> None:
        try:
            for _ in range(drawn.count // 2 // CLIENTS):
                talks.next(port)
        except BaseException as failure:
            failures.append(failure)

    with Service(program, file, PASSES, "--loops", "2", *by_frames(2 * CLIENTS)) as service:
        threads = [threading.Thread(target=talk, args=(talks, service.port)) for talks in all_talks]
        for thread in threads:
            thread.start()
        for thread in threads:
            thread.join()
    for failure in failures:
        raise failure
    expect(program.members(file), sorted(key for talks in all_talks for key in talks.plain.places), "the keys of the file")
    print(f"         {CLIENTS} clients at once had {sum(talks.count for talks in all_talks)} replies", flush=True)


def try_one_by_one(program: Program, folder: str) -> None:
    """Replies come as soon as their frame is whole, and not later: each frame waits here for the reply to the one before."""
    file = os.path.join(folder, "f")
    program.make(file, 4)
    rows = (
        (array(b"SADD", b"0", b"1", b"2", b"1"), b":2\r\n"),
        (b"sismember 0 2\r\n", b":1\r\n"),
        (array(b"SMISMEMBER", b"0", b"1", b"2", b"3"), b"*3\r\n:1\r\n:1\r\n:0\r\n"),
        (b"*0\r\n*-1\r\n\r\n" + array(b"SELECT", b"15"), b"+OK\r\n"),
        (array(b"SET", b"1", b"", b"NX"), b"+OK\r\n"),
        (array(b"SET", b"1", b"", b"nx"), b"$-1\r\n"),
        (array(b"EXISTS", b"1", b"1", b"2"), b":2\r\n"),
        (array(b"SADD", b"0", b"3", b"4", b"5"), b"-FULL no slot is free; 1 of 3 were added\r\n"),
        (array(b"UNLINK", b"1", b"1", b"2"), b":1\r\n"),
        (array(b"SREM", b"0", b"1", b"2", b"3", b"4"), b":3\r\n"),
        (array(b"QUIT"), b"+OK\r\n"),
    )
    with Service(program, file, 1, *by_frames(2)) as service, connect(service.port) as client:
        for frame, reply in rows:
            for number in range(len(frame)):
                client.sendall(frame[number : number + 1])
            expect(client.recv(4096), reply, f"the reply to {frame!r}")
        expect(client.recv(4096), b"", "what comes after QUIT")
    expect(program.members(file), [], "the keys of the file")


def try_at_once(program: Program, folder: str) -> None:
    """Frames that are sent at once are answered in their order, as many passes as there are, also where one asks for the keys of another."""
    file = os.path.join(folder, "f")
    program.make(file, 3 * AT_ONCE)
    for passes in (1, PASSES):
        with Service(program, file, passes, *by_frames(4)) as service:
            keys = [b"%d" % number for number in range(1, AT_ONCE + 1)]
            frames = [array(b"SADD", b"7", key) + array(b"SISMEMBER", b"7", key) + array(b"SREM", b"7", key, b"0") for key in keys]
            expect(replies(service.port, *frames), integer(1) * 3 * AT_ONCE, "single members")
            frames = [array(b"SADD", b"7", *keys), array(b"SADD", b"7", *keys[:3], b"0"), array(b"SREM", b"7", *keys)]
            expect(replies(service.port, *frames), integer(AT_ONCE) + integer(1) + integer(AT_ONCE), "many members in a frame")
            expect(replies(service.port, array(b"SREM", b"7", b"0"), array(b"SREM", b"7", b"0")), b":1\r\n:0\r\n", "the last member")
    expect(program.members(file), [], "the keys of the file")


def try_large(program: Program, folder: str) -> None:
    """A frame of thousands of members is carried out whole; one of a word too many ends the connection, and nothing of it is done."""
    file = os.path.join(folder, "f")
    program.make(file, LARGE)
    with Service(program, file, PASSES, *by_frames(2)) as service:
        keys = [b"%d" % number for number in range(LARGE)]
        told = replies(service.port, array(b"SADD", b"3", *keys), array(b"SMISMEMBER", b"3", *keys), array(b"SREM", b"3", *keys[1:]))
        expect(told, integer(LARGE) + b"*%d\r\n" % LARGE + LARGE * integer(1) + integer(LARGE - 1), "the replies to large frames")
        told = replies(service.port, array(b"SREM", *[b"0"] * (MOST_WORDS - 1)), array(b"SREM", b"3", *[b"0"] * (MOST_WORDS - 1)))
        expect(told, integer(0) + b"-ERR Protocol error: invalid multibulk length\r\n", "the replies to the largest frame, and to one that is larger")
    expect(program.members(file), [Key(3, 0)], "the keys of the file")


def try_transactions(program: Program, folder: str) -> None:
    """After MULTI nothing is done until EXEC or DISCARD, also where the frames come one by one; then all is as before."""
    file = os.path.join(folder, "f")
    program.make(file, 8)
    begins = array(b"SELECT", b"3") + array(b"MULTI") + array(b"SADD", b"3", b"17") + array(b"SELECT", b"9") + array(b"NOSUCH")
    after = array(b"EXISTS", b"17") + array(b"SADD", b"3", b"18") + array(b"EXISTS", b"18")
    rows = (
        (array(b"EXEC"), b"-EXECABORT Transaction discarded because of previous errors.\r\n", b":0\r\n:1\r\n:1\r\n"),
        (array(b"DISCARD"), b"+OK\r\n", b":0\r\n:0\r\n:1\r\n"),
        (array(b"RESET"), b"+RESET\r\n", b":0\r\n:0\r\n:0\r\n"),
        (b"", b"", 3 * NO_TRANSACTIONS),
    )
    with Service(program, file, 2, *by_frames(4)) as service:
        for end, told, last in rows:
            wanted = b"+OK\r\n" + 4 * NO_TRANSACTIONS + told + last
            text = begins + end + after
            expect(replies(service.port, text), wanted, f"the replies to {end!r} after MULTI")
            if end != array(b"EXEC"):
                expect(sent(connect(service.port), [text[place : place + 1] for place in range(len(text))]), wanted, f"the same of {end!r}, byte by byte")
        expect(replies(service.port, begins, array(b"QUIT"), after), b"+OK\r\n" + 4 * NO_TRANSACTIONS + b"+OK\r\n", "the replies where QUIT comes after MULTI")
        alone = b"-ERR EXEC without MULTI\r\n-ERR DISCARD without MULTI\r\n"
        expect(replies(service.port, array(b"EXEC"), array(b"DISCARD")), alone, "the replies without MULTI")
    expect(program.members(file), [Key(3, 18)], "the keys of the file")


# What is told of a database that isn't there, where names are texts.
ONE_DATABASE = b"-ERR SELECT: with --text there is database 0 alone; give each application's sets names of their own\r\n"


def try_databases(program: Program, folder: str) -> None:
    """Where names and members are texts there is one database: a client that selects another is told so, and shares no set unknowingly."""
    file = os.path.join(folder, "f")
    program.make(file, 8)
    with Service(program, file, 2, *by_frames(2), "--text") as service:
        frames = [array(b"SELECT", b"0"), array(b"SADD", b"seen", b"evt_1"), array(b"SELECT", b"1"), array(b"SELECT", b"16"), array(b"SELECT", b"00")]
        expect(replies(service.port, *frames), b"+OK\r\n:1\r\n" + 3 * ONE_DATABASE, "the replies where another database is selected")
        frames = [array(b"SELECT", b"x"), array(b"RESET"), array(b"SISMEMBER", b"seen", b"evt_1")]
        expect(replies(service.port, *frames), ONE_DATABASE + b"+RESET\r\n:1\r\n", "the replies after it")
    file = os.path.join(folder, "g")
    program.make(file, 8)
    with Service(program, file, 2, *by_frames(2)) as service:
        frames = [array(b"SELECT", b"1"), array(b"SELECT", b"16"), array(b"SELECT", b"00")]
        expect(replies(service.port, *frames), b"+OK\r\n" + 2 * b"-ERR DB index is out of range\r\n", "the replies where names are rooms")


def try_halted(program: Program, folder: str) -> None:
    """Once the device failed a client is told so, and its connection ends; the service ends too. What was answered is in the file."""
    needs_strace()
    # A start syncs twice: before its look for a mark, and as it opens.
    for call, number in (("fdatasync", 5), ("pwrite64", 3)):
        file = os.path.join(folder, call)
        program.make(file, 8)
        with Service(program, file, 4, *by_frames(4), before=failing(file, call, number)) as service:
            with connect(service.port) as client:
                client.sendall(array(b"SADD", b"0", b"1"))
                expect(client.recv(4096), b":1\r\n", "the reply to an addition before the device failed")
                client.sendall(array(b"SADD", b"0", b"2", b"3") + array(b"PING") + array(b"SISMEMBER", b"0", b"1"))
                expect(received(client), HALTED, f"what is told once {call} failed")
            expect(service.wait(), 1, "the service's status")
        expect(Key(0, 1) in program.members(file), True, "that the answered key is there")


def try_at_path(program: Program, folder: str) -> None:
    """The same at a path in place of a port."""
    file, path = os.path.join(folder, "f"), os.path.join(folder, "s")
    program.make(file, 8)
    with Service(program, file, 2, "--socket", path, *by_frames(2), port="-") as service:
        expect(service.told, f"listening {path}\n", "what it says")
        client = socket.socket(socket.AF_UNIX)
        client.settimeout(PATIENCE)
        client.connect(path)
        frames = [array(b"SADD", b"3", b"5", b"6"), array(b"SISMEMBER", b"3", b"6"), array(b"SISMEMBER", b"0", b"6")]
        expect(sent(client, frames), b":2\r\n:1\r\n:0\r\n", "the replies")
    expect(program.members(file), [Key(3, 5), Key(3, 6)], "the keys of the file")
    expect(program.run("run", file, lines="has 3:6\nhas 6\n").text, "yes\nno\n", "what its lines say of them")


def stopped_within(program: Program, file: str, members: int) -> Optional[int]:
    """Stops a service while a client adds so many members by each of its frames, and gives how many additions it was told of: none at all
    where the connection was reset, since the service had not read all that was sent. What it was told after them is that nothing was done."""
    keys = [b"%d" % number for number in range(MANY)]
    frames = b"".join(array(b"SADD", b"0", *keys[start : start + members]) for start in range(0, MANY, members))
    with Service(program, file, PASSES, "--control", control_of(file), *by_frames(2)) as service, connect(service.port) as client:
        sender = threading.Thread(target=send_all, args=(client, frames))
        sender.start()
        first = client.recv(4096)
        expect(program.run("stop", control_of(file)), Ended("", 0), "the stop")
        sender.join(PATIENCE)
        expect(service.wait(), 0, "the service's status")
        try:
            told = first + received(client)
        except ConnectionResetError:
            return None
    rest = re.sub(rb"^(:%d\r\n)*" % members, b"", told)
    expect(re.sub(rb"-ERR stopping; nothing was done\r\n", b"", rest), b"", "other replies than that all of a frame's members were added, and then none")
    return members * told.count(b":%d\r\n" % members)


def send_all(client: socket.socket, text: bytes) -> None:
    with suppress(OSError):
        client.sendall(text)


def try_stop(program: Program, folder: str) -> None:
    """A service that is asked to stop carries out nothing that it doesn't tell of, and each frame whole or not at all."""
    for members in (1, 10):
        for number in range(TRIES):
            file = os.path.join(folder, f"f{members}-{number}")
            program.make(file, MANY)
            told = stopped_within(program, file, members)
            if told is not None:
                break
        else:
            raise Wrong(f"a connection was reset at each of {TRIES} stops")
        added = len(program.members(file))
        if added != told or added == MANY:
            raise Wrong(f"{added} members were added, and the client was told of {told}")


TRIALS = (
    ("frames while a service stops", try_stop),
    ("frames that come byte by byte", try_one_by_one),
    ("frames that are sent at once", try_at_once),
    ("frames of thousands of members", try_large),
    ("frames that select a database", try_databases),
    ("frames in a transaction", try_transactions),
    ("frames once a device failed", try_halted),
    ("frames at a path", try_at_path),
)
