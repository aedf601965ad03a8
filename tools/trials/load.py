"""Clients that call a service at once, and note what they saw."""

from __future__ import annotations

import contextlib
import random
import threading
from typing import Callable, ContextManager, Iterator, List, Sequence, Tuple

import lazyset
from lazyset import Lazyset, Reply, Verb
from trials.history import Call, stamp
from trials.program import Key

# What the clients ask for, and how often: mostly changes, since these are what a crash may lose.
VERBS = (Verb.ADD, Verb.ADD, Verb.REMOVE, Verb.REMOVE, Verb.HAS)

# Few keys, so that clients meet on them, in two rooms.
KEYS = [Key(room, number) for room in (0, 7) for number in range(12)]

# What asks for one command after the other on a connection, and gives their replies.
Ask = Callable[[Verb, Key], Reply]


@contextlib.contextmanager
def by_lines(port: int) -> Iterator[Ask]:
    """A connection of lines."""
    with Lazyset(port, timeout=30) as keys:
        yield lambda verb, key: _reply(keys, verb, key)


class Client(threading.Thread):
    """One client, which asks on a connection of its own until that is lost, the service halts, or it is told to stop. It begins
    once it may, and is ready for that once it is served."""

    def __init__(
        self, actor: int, port: int, keys: Sequence[Key], seed: int, may_begin: threading.Event, speak: Callable[[int], ContextManager[Ask]]
    ) -> None:
        super().__init__(daemon=True)
        self.speak = speak
        self.actor = actor
        self.keys = keys
        self.port = port
        self.may_begin = may_begin
        self.is_ready = threading.Event()
        self.random = random.Random(seed)
        self.calls: List[Call] = []
        self.enough = threading.Event()

    def run(self) -> None:
        try:
            with self.speak(self.port) as ask:
                ask(Verb.HAS, Key(0, lazyset.MOST_NUMBER))
                self.is_ready.set()
                self.may_begin.wait(30)
                while not self.enough.is_set():
                    self._ask(ask)
        except (lazyset.LostConnection, lazyset.Halted):
            pass
        finally:
            self.is_ready.set()

    def _ask(self, ask: Ask) -> None:
        verb, key = self.random.choice(VERBS), self.random.choice(self.keys)
        call = Call(self.actor, verb, key, stamp())
        self.calls.append(call)
        reply = ask(verb, key)
        call.ended, call.reply = stamp(), reply
        if reply is Reply.HALTED:
            raise lazyset.Halted("noted")


def _reply(keys: Lazyset, verb: Verb, key: Key) -> Reply:
    ask = {Verb.ADD: keys.add, Verb.REMOVE: keys.remove, Verb.HAS: keys.has}[verb]
    try:
        return Reply.YES if ask(key.number, key.room) else Reply.NO
    except lazyset.Full:
        return Reply.FULL
    except lazyset.Halted:
        return Reply.HALTED


def start(
    count: int, port: int, seed: int, groups: Sequence[Sequence[Key]] = (KEYS,), speak: Callable[[int], ContextManager[Ask]] = by_lines
) -> List[Client]:
    """Starts so many clients for each group of keys, each of which is served before any begins."""
    may_begin = threading.Event()
    clients = [
        Client(actor, port, keys, (seed * len(groups) + group) * 64 + actor, may_begin, speak)
        for group, keys in enumerate(groups)
        for actor in range(1, count + 1)
    ]
    for client in clients:
        client.start()
    for client in clients:
        client.is_ready.wait(30)
    may_begin.set()
    return clients


def finish(clients: Sequence[Client]) -> List[Call]:
    """Waits until each client has ended, and gives the calls of all."""
    for client in clients:
        client.join(60)
        if client.is_alive():
            raise lazyset.LazysetError(f"client {client.actor} still waits for a reply")
    return [call for client in clients for call in client.calls]


def count_replies(calls: Sequence[Call]) -> Tuple[int, int]:
    """How many calls were answered or refused, and how many were under way at the end."""
    answered = sum(call.reply is not None and call.reply is not Reply.HALTED for call in calls)
    return answered, len(calls) - answered
