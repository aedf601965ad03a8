"""Clients that load a service by Redis's protocol, and note what they saw."""

from __future__ import annotations

import contextlib
import itertools
import random
import socket
from typing import BinaryIO, Dict, Iterator, Tuple

import lazyset
from lazyset import Reply, Verb
from trials import load
from trials.guests import connect
from trials.kills import Loaded
from trials.loops import PASSES, ROOMS
from trials.plain_frames import array
from trials.program import Key

# Of what each next client draws its commands.
SEEDS = itertools.count()

REPLIES = {b":1": Reply.YES, b":0": Reply.NO, b"+OK": Reply.YES, b"$-1": Reply.NO}
REFUSALS = {b"-FULL": Reply.FULL, b"-HALTED": Reply.HALTED}

# The commands that ask for a key: of the set of a room, or of the room that is selected.
IN_SET = {Verb.ADD: (b"SADD",), Verb.REMOVE: (b"SREM",), Verb.HAS: (b"SISMEMBER",)}
IN_ROOM: Dict[Verb, Tuple[Tuple[bytes, ...], ...]] = {
    Verb.ADD: ((b"SETNX", b"%d", b"1"), (b"SET", b"%d", b"", b"NX")),
    Verb.REMOVE: ((b"DEL", b"%d"), (b"UNLINK", b"%d")),
    Verb.HAS: ((b"EXISTS", b"%d"),),
}


def taken(lines: BinaryIO) -> Reply:
    """The next reply."""
    line = lines.readline()
    if not line.endswith(b"\r\n"):
        raise lazyset.LostConnection("the connection ended")
    word = line.split()[0].rstrip(b";")
    reply = REPLIES.get(word) or REFUSALS.get(word)
    if reply is None:
        raise lazyset.LazysetError(f"a reply {line!r}")
    return reply


def connected(port: int) -> socket.socket:
    try:
        return connect(port)
    except OSError as error:
        raise lazyset.NoConnection(str(error)) from None


@contextlib.contextmanager
def by_frames(port: int) -> Iterator[load.Ask]:
    """A connection of frames: a command of the set, or one that selects the room first, both sent at once."""
    draw = random.Random(next(SEEDS))
    with connected(port) as client, client.makefile("rb") as lines:

        def ask(verb: Verb, key: Key) -> Reply:
            number, room = b"%d" % key.number, b"%d" % key.room
            try:
                if draw.randrange(2):
                    client.sendall(array(*IN_SET[verb], room, number))
                    return taken(lines)
                words = draw.choice(IN_ROOM[verb])
                client.sendall(array(b"SELECT", room) + array(*(number if word == b"%d" else word for word in words)))
                taken(lines)
                return taken(lines)
            except OSError as error:
                raise lazyset.LostConnection(str(error)) from None

        yield ask


# Forty clients in two groups under kills, over fewer slots than keys.
FORTY = Loaded(40, PASSES, ("--connections", "80", "--resp"), 40, ROOMS[:2], by_frames)
