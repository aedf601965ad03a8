"""What a loss of power may leave of a served set of format 4: images of its file at each moment, from the system calls of the service."""

from __future__ import annotations

import os
import random
import re
import socket
import threading
from collections import defaultdict, deque
from contextlib import suppress
from typing import Deque, Dict, FrozenSet, Iterator, List, NamedTuple, Sequence, Set, Tuple

from trials.explained import is_key_explained
from trials.faults import needs_strace
from trials.files import bytes_in, put
from trials.guests import connect
from trials.images import SYNC, Call, Disk
from trials.noise import COMMANDS
from trials.plain import HEAD_SIZE, MOST_NUMBER, SLOT_SIZE, Plain, Survey
from trials.program import PATIENCE, Ended, Key, Program, Service
from trials.report import Wrong, expect
from trials.verdicts import Seen

CLIENTS, SLOTS = 8, 10

# More keys than slots, so that clients meet on them and some additions are refused.
KEYS = tuple(Key(room, number) for room in (0, 7) for number in (0, 1, 8, 9, 10, MOST_NUMBER))

# How many times each client sends lines, and how many at once.
BURSTS, AT_ONCE = 8, 4

# One in so many images is shown to the program too.
SHOWN = 400


class Shape(NamedTuple):
    """How a set is served to the clients, whether they speak in frames, and which call of the device strace has fail."""

    name: str
    passes: int
    options: Tuple[str, ...]
    in_frames: bool = False
    failing: str = ""


MANY = ("--connections", str(CLIENTS))
LOOP = (*MANY, "--sessions", str(CLIENTS))
SHAPES = (
    Shape("threads", CLIENTS, ("--sessions", "1")),
    Shape("a loop", CLIENTS, LOOP),
    Shape("two loops", 2, (*MANY, "--loops", "2", "--sessions", str(CLIENTS // 2))),
    Shape("frames", 2 * CLIENTS, (*LOOP, "--resp"), True),
    Shape("a loop whose sync fails", CLIENTS, LOOP, failing="fdatasync:error=EIO:when=6"),
    Shape("frames where a write fails", 2 * CLIENTS, (*LOOP, "--resp"), True, "pwrite64:error=ENOSPC:when=10"),
)

FRAMES = {"add": "SADD", "remove": "SREM", "has": "SISMEMBER"}
VERBS = {word.encode(): verb for verb, word in (*FRAMES.items(), *((verb, verb) for verb in COMMANDS))}
REPLIES = {b"yes": "yes", b"no": "no", b":1": "yes", b":0": "no"}

# A line of strace's log: a thread, and its call, which goes on or begins; of a call its first number, its text, its place and what it gave.
LINE = re.compile(r"^(\d+) +(?:<\.\.\. (\w+) resumed>|(\w+)\()(.*)$")
NUMBER, TEXT = re.compile(r"^\d+"), re.compile(r'"((?:\\x[0-9a-f]{2})*)"')
AT, GAVE = re.compile(r", (\d+)(?:\)| <)"), re.compile(r"\) += (-?\d+)")
DEVICE = ("pwrite64", "fdatasync")
CALLS = (*DEVICE, "accept4", "recvfrom", "sendto")
CUT = "<unfinished ...>"


class Event(NamedTuple):
    """A write or a reply that begins, a sync that has ended, a call of the device that failed, a connection that was accepted, or a text that has
    come on one; and its number, a place of the file or a connection."""

    name: str
    number: int = 0
    text: bytes = b""


def events_in(log: str) -> Iterator[Event]:
    """The events of a service, in the order in which strace saw them. No two calls of the device are under way at once."""
    begun: Dict[str, Tuple[str, str]] = {}
    with open(log, encoding="ascii") as lines:
        for thread, resumed, name, words in (found.groups() for found in map(LINE.match, lines) if found):
            if resumed:
                name, words = resumed, begun.pop(thread)[1] + words
            else:
                if name in DEVICE and any(other in DEVICE for other, _ in begun.values()):
                    raise Wrong(f"two calls of the device at once: {name} {words}")
                yield from begun_call(name, words)
            if CUT in words:
                begun[thread] = name, words.replace(CUT, "")
            else:
                yield from ended_call(name, words)


def text_in(words: str) -> bytes:
    """The bytes that a call writes, sends or was given."""
    found = TEXT.search(words)
    return bytes.fromhex(found[1].replace("\\x", "")) if found else b""


def begun_call(name: str, words: str) -> Iterator[Event]:
    """What a call means where it begins: from there on what it writes may be on the disk, and what it sends may have come."""
    number, at = NUMBER.match(words), AT.search(words)
    if name == "pwrite64" and at:
        yield Event("write", int(at[1]), text_in(words))
    elif name == "sendto" and number:
        yield Event("reply", int(number[0]), text_in(words))


def ended_call(name: str, words: str) -> Iterator[Event]:
    """What a call means where it is over."""
    number, gave = NUMBER.match(words), GAVE.search(words)
    result = int(gave[1]) if gave else -1
    if name in DEVICE and result < 0:
        yield Event("failed")
    elif name in ("pwrite64", "sendto"):
        expect(result, len(text_in(words)), f"what {name} gave")
    elif name == "fdatasync":
        yield Event("sync")
    elif name == "accept4" and result >= 0:
        yield Event("accept", result)
    elif name == "recvfrom" and number and result > 0:
        yield Event("come", int(number[0]), text_in(words))


class Talk:
    """A connection: bytes that aren't a line yet, and the calls that aren't answered yet."""

    def __init__(self) -> None:
        self.asked = self.told = b""
        self.open: Deque[Seen] = deque()


class Watch:
    """What was asked of a service and what it told so far, and what its file may hold."""

    def __init__(self, start: bytes) -> None:
        self.disk = Disk(start, True)
        self.began = set(Survey(start).members)
        self.calls: Dict[Key, List[Seen]] = defaultdict(list)
        self.talks: Dict[int, Talk] = {}
        self.moment = self.answered = self.failed = 0
        self.must: Set[Key] = set(self.began)
        self.may: Set[Key] = set(self.began)

    def note(self, event: Event) -> None:
        """Notes an event, but for those of the device."""
        self.moment += 1
        self.failed += event.name == "failed"
        if event.name == "accept":
            self.talks[event.number] = Talk()
        elif event.name == "come":
            talk = self.talks[event.number]
            *lines, talk.asked = (talk.asked + event.text).split(b"\n")
            for line in lines:
                self._begin(talk, line.split())
        elif event.name == "reply":
            talk = self.talks[event.number]
            *lines, talk.told = (talk.told + event.text).split(b"\n")
            for line in lines:
                self._end(talk.open.popleft(), line.split()[0])

    def _begin(self, talk: Talk, words: List[bytes]) -> None:
        key = Key(int(words[1]), int(words[2])) if len(words) == 3 else Key.read(words[1].decode())
        call = Seen(0, 0, VERBS[words[0]], key, self.moment)
        talk.open.append(call)
        self.calls[key].append(call)
        self._look(key)

    def _end(self, call: Seen, word: bytes) -> None:
        """Notes a reply. A call that was halted may be done or not."""
        if word in (b"halted", b"-HALTED"):
            return
        call.ended, call.answer = self.moment, REPLIES.get(word)
        self.answered += 1
        if call.answer is None:
            expect(word in (b"full", b"-FULL"), True, f"a reply {word!r}")
            self.calls[call.key].remove(call)
        self._look(call.key)

    def _look(self, key: Key) -> None:
        """Whether the key must be, or may be, in the file now."""
        ends = [end for end in (True, False) if is_key_explained(self.calls[key], key, key in self.began, end)]
        expect(ends != [], True, f"that the replies on {key} are explained")
        self.must = self.must | {key} if ends == [True] else self.must - {key}
        self.may = self.may | {key} if True in ends else self.may - {key}


def members_of(image: bytes, what: str) -> FrozenSet[Key]:
    """The keys that an image holds."""
    survey = Survey(image)
    if not survey.holds():
        raise Wrong(f"{what}: a loss of power leaves a damaged file: {image.hex()}")
    return frozenset(survey.members)


def expect_shown(program: Program, image: bytes, file: str) -> None:
    """The program reads an image as the model does."""
    put(file, image)
    expect(program.run("check", file), Ended(*Survey(image).checked()), f"a check of {image.hex()}")
    expect(program.run("info", file), Ended(*Survey(image).counted()), f"an info of {image.hex()}")


class Judged(NamedTuple):
    """How many images were read, how many calls were answered and of the device failed, and an image that the next service goes on with."""

    images: int
    answered: int
    failed: int
    left: bytes


def judged(program: Program, folder: str, start: bytes, what: str, draw: random.Random) -> Judged:
    """At each moment each image that is drawn holds what was answered, and nothing that wasn't asked for."""
    watch, left, count = Watch(start), start, 0
    held: Dict[FrozenSet[Key], bytes] = {frozenset(watch.began): start}
    for event in events_in(os.path.join(folder, "calls")):
        if event.name in ("write", "sync"):
            watch.disk.take(Call(SYNC, b"") if event.name == "sync" else Call(event.number, event.text))
            images = list(watch.disk.images(draw))
            held = {members_of(image, what): image for image in images}
            count += len(images)
            if draw.randrange(SHOWN) < len(images):
                expect_shown(program, draw.choice(images), os.path.join(folder, "image"))
            if watch.disk.loose and draw.randrange(4) == 0:
                left = draw.choice(images)
        watch.note(event)
        for members, image in held.items():
            if not watch.must <= members <= watch.may:
                raise Wrong(f"{what}: must hold {sorted(watch.must)}, may hold {sorted(watch.may)}, holds {sorted(members)}: {image.hex()}")
    if not watch.failed:
        expect(bytes_in(os.path.join(folder, "served")), bytes(watch.disk.seen), "the file, as the calls have it")
    return Judged(count, watch.answered, watch.failed, left)


def bursts_of(shape: Shape, draw: random.Random) -> List[List[str]]:
    """The lines that a client sends, some of them at once."""

    def line() -> str:
        verb, key = draw.choice((*COMMANDS, *COMMANDS[:2])), draw.choice(KEYS)
        return f"{FRAMES[verb]} {key.room} {key.number}\r\n" if shape.in_frames else f"{verb} {key}\n"

    return [[line() for _ in range(draw.randint(1, AT_ONCE))] for _ in range(BURSTS)]


def send(connection: socket.socket, bursts: Sequence[Sequence[str]]) -> None:
    """Sends each burst once the one before it is answered, as long as all is answered."""
    with connection, connection.makefile("rb") as replies, suppress(OSError):
        for burst in bursts:
            connection.sendall("".join(burst).encode())
            if not all(replies.readline() for _ in burst):
                return
        connection.shutdown(socket.SHUT_WR)
        replies.read()


def serve(program: Program, folder: str, start: bytes, shape: Shape, draw: random.Random) -> int:
    """Serves the clients over a file, under strace, until each has ended or the device has failed, and gives how many lines they have for it."""
    file, log = os.path.join(folder, "served"), os.path.join(folder, "calls")
    put(file, start)
    traced = ["strace", "-f", "-qq", "-o", log, "-xx", "-s", "65536", "-e", f"trace={','.join(CALLS)}"]
    traced += ["-e", f"inject={shape.failing}"] if shape.failing else []
    all_bursts = [bursts_of(shape, draw) for _ in range(CLIENTS)]
    with Service(program, file, shape.passes, *shape.options, before=traced) as service:
        connections = [connect(service.port) for _ in all_bursts]
        clients = [threading.Thread(target=send, args=words) for words in zip(connections, all_bursts)]
        for client in clients:
            client.start()
        for client in clients:
            client.join(PATIENCE)
        expect(service.wait(), 1 if shape.failing else 0, f"the status of a service of {shape.name}")
    return sum(len(burst) for bursts in all_bursts for burst in bursts)


def has_torn(image: bytes) -> bool:
    """Whether a crash has left a slot of the file torn."""
    slots = (image[start : start + SLOT_SIZE] for start in range(HEAD_SIZE, len(image), SLOT_SIZE))
    return any(0 in slot and any(slot) for slot in slots)


def try_images(program: Program, folder: str, seed: int, rounds: int) -> None:
    """Each round serves a file in each of the shapes, one after the other. Each service goes on with an image that the one before it left."""
    needs_strace()
    draw, left = random.Random(seed), Plain(4, SLOTS).file()
    images = answered = torn = 0
    for shape in SHAPES * rounds:
        torn += has_torn(left)
        sent = serve(program, folder, left, shape, draw)
        found = judged(program, folder, left, f"seed {seed}, {shape.name}", draw)
        ended = (1, False) if shape.failing else (0, True)
        expect((found.failed, found.answered == sent), ended, f"failures, and whether all was answered, of {shape.name}")
        images, answered, left = images + found.images, answered + found.answered, found.left
    if images < answered:
        raise Wrong(f"only {images} images of {answered} calls")
    services = f"{len(SHAPES) * rounds} services of format 4, of which {torn} began with a torn slot"
    print(f"         {images} images of {services}: {answered} calls answered", flush=True)
