"""A service that forgets (`serve .. --text --forget SECONDS`): what it tells of keys under load, across kills and beside removals, judged by times alone."""

from __future__ import annotations

import contextlib
import os
import random
import socket
import subprocess
import threading
import time
from concurrent.futures import ThreadPoolExecutor
from typing import IO, Callable, List, Sequence, Tuple, Union

from trials.chosen import serving
from trials.frames import by_frames
from trials.guests import send_and_reset
from trials.plain_frames import PONG, array
from trials.program import Ended, Program, Service
from trials.remembered import CLAIM, HAS, LEFT, OF_MARKS, REMOVE, SLACK, Call, Caller, Load, Period, expect_judged
from trials.report import Wrong, expect
from trials.secrets import SECRET, kept
from trials.stops import control_of

# The slots of a file: of these keys each room has some, and of marks there are few.
SLOTS = 4_000

# For how many seconds clients claim, how many they are, and of how many keys.
CLAIMING, CLIENTS, KEYS = 12.0, 8, 40

# The periods of services under load, and how each is served.
LOADED: Tuple[Tuple[Period, Sequence[str]], ...] = ((Period(2), ("--loops", "2")), (Period(2, 2), ()), (Period(2, 12), ()))

# How many clients claim the same members at once, and how many these are.
SEVERAL, MEMBERS = 3, 100

# How many lives a file has, when each is killed, and the pauses after them by turns: the last of these are longer than a key is remembered.
LIVES, SOONEST, LATEST = 6, 0.2, 0.9
PAUSES = (0.0, 0.3, 1.1, 2.3, 4.2)

# How many places a service has that all clients hold.
PLACES = 4

# For how many seconds keys are removed too, and how often one client claims and removes a key of its own.
REMOVING, OWN = 7.0, 120


def forgetting(
    program: Program,
    file: str,
    period: Period,
    *words: str,
    log: Union[int, IO[str]] = subprocess.DEVNULL,
    port: str = "0",
) -> Service:
    """A service that forgets after this period, whose PASSES are left out."""
    return serving(program, file, "--resp", "--text", *period.words(), *words, log=log, port=port)


def expect_listens(service: Service, what: str) -> None:
    expect(service.told[:10], "listening ", f"the start of {what}")


def keys_of(count: int, name: str = "key") -> List[bytes]:
    return [f"{name} {number}".encode() for number in range(count)]


def side_by_side(tasks: Sequence[Callable[[], str]]) -> None:
    """Carries out all of them at once, and prints what each tells."""
    with ThreadPoolExecutor(len(tasks)) as pool:
        for told in [pool.submit(task) for task in tasks]:
            print(f"         {told.result()}", flush=True)


def try_claims(program: Program, folder: str) -> None:
    """Clients claim few keys again and again: none is new twice within the period, and none is known for longer than the period and an epoch."""

    def claim(period: Period, words: Sequence[str]) -> str:
        what = f"{period.seconds} s in {period.epochs} epochs"
        file = os.path.join(folder, f"f{period.epochs}")
        program.make(file, SLOTS, 4)
        with forgetting(program, file, period, *words) as service:
            expect_listens(service, what)
            load = Load(service.port, period, keys_of(KEYS), (CLAIM,), CLIENTS, period.epochs)
            time.sleep(CLAIMING)
            calls = load.end()
        expect_claimed_again(calls, period, what)
        return f"{what}: {expect_judged(period, calls, what)}"

    side_by_side([lambda period=period, words=words: claim(period, words) for period, words in LOADED])


def expect_claimed_again(calls: Sequence[Call], period: Period, what: str) -> None:
    """Each key is new again as often as there is time for."""
    least = int((CLAIMING - 2.0) / (period.most + 1.0))
    news = [call.key for call in calls if call.told]
    for key in {call.key for call in calls}:
        if news.count(key) < least:
            raise Wrong(f"{what}: {key!r} was new {news.count(key)} times in {CLAIMING} s")


def try_at_once(program: Program, folder: str) -> None:
    """All clients claim each new key at once, while epochs turn each few moments: one of them alone is told that it is new."""

    def claim(period: Period, loops: str) -> str:
        what, file = f"{period.seconds} s in {period.epochs} epochs, {loops} loops", os.path.join(folder, f"f{period.epochs}")
        program.make(file, SLOTS, 4)
        with forgetting(program, file, period, "--loops", loops) as service:
            load = Load(service.port, period, (), (CLAIM,), CLIENTS, 1)
            time.sleep(4)
            calls = load.end()
        return f"{what}: {expect_judged(period, calls, what)}"

    side_by_side([lambda epochs=epochs, loops=loops: claim(Period(1, epochs), loops) for epochs, loops in ((12, "2"), (6, "1"))])


def try_many(program: Program, folder: str) -> None:
    """Clients claim the same new members by frames of many, of which one is under way as the others begin: together they are told that each is new once, though
    epochs turn meanwhile."""
    period, file, draw = Period(2, 12), os.path.join(folder, "f"), random.Random(1)
    program.make(file, 200_000, 4)
    with forgetting(program, file, period, "--loops", "2") as service, ThreadPoolExecutor(SEVERAL) as pool:
        callers = [Caller(service.port) for _ in range(SEVERAL)]
        ends, rounds, late, took = time.monotonic() + 5, 0, 0, 0.02
        while time.monotonic() < ends:
            frame, began = array(b"SADD", b"s", *(b"%d-%d" % (rounds, number) for number in range(MEMBERS))), time.monotonic()
            asked = [pool.submit(count_told, caller, frame, draw.uniform(0, took)) for caller in callers]
            told = [count.result() for count in asked]
            took = time.monotonic() - began
            if took < period.seconds:
                expect(sum(told), MEMBERS, f"how many of {MEMBERS} members are new, where clients are told {told}")
            rounds, late, took = rounds + 1, late + (took >= period.seconds), min(took / 2, period.length)
        for caller in callers:
            caller.close()
    print(f"         {rounds} rounds of {SEVERAL} frames of {MEMBERS} members, {late} of them longer than the period", flush=True)
    expect(rounds > 2 * late, True, "that most rounds take less than the period")


def count_told(caller: Caller, frame: bytes, wait: float) -> int:
    """What a client is told that sends the frame after so many seconds."""
    time.sleep(wait)
    caller.connection.sendall(frame)
    line = caller.stream.readline()
    if line[:1] != b":":
        raise Wrong(f"claims of many members are told {line!r}")
    return int(line[1:])


def try_passes(program: Program, folder: str) -> None:
    """The same of services with PASSES and connections that are named, with lookups between the claims, in each format, one with two commands at once."""

    def claim(form: int, passes: int) -> str:
        period, what = Period(1, 2 + form % 2), f"{passes} passes in format {form}"
        file = os.path.join(folder, f"f{form}")
        program.make(file, SLOTS, form)
        with Service(program, file, passes, *by_frames(3 * CLIENTS), "--text", *period.words()) as service:
            expect_listens(service, what)
            load = Load(service.port, period, keys_of(8), (CLAIM, CLAIM, HAS, LEFT), CLIENTS, form)
            time.sleep(4)
            calls = load.end()
        return f"{what}: {expect_judged(period, calls, what)}"

    side_by_side([lambda form=form, passes=passes: claim(form, passes) for form, passes in ((2, 16), (3, 2), (4, 64))])


def try_kills(program: Program, folder: str) -> None:
    """Services that are killed or stopped under load, and started again at once or after a while: what was told before the end of a life holds in the next."""
    secret = ("--secret", kept(folder, SECRET))

    def live(period: Period, words: Sequence[str], seed: int) -> str:
        what, file = f"{period.seconds} s in {period.epochs} epochs {' '.join(words)[:8]}", os.path.join(folder, f"f{seed}")
        program.make(file, SLOTS, 4)
        draw, calls = random.Random(seed), []
        for life in range(LIVES):
            calls += lived(program, file, period, words, life, draw)
            time.sleep(PAUSES[(life + seed) % len(PAUSES)] if life < LIVES - 1 else 0)
        return f"{what}: {expect_judged(period, calls, what)}"

    lives: Sequence[Tuple[Period, Sequence[str]]] = ((Period(2), ()), (Period(2, 2), secret), (Period(3, 4), secret))
    side_by_side([lambda at=at, own=own: live(*own, at) for at, own in enumerate(lives)])


def lived(program: Program, file: str, period: Period, words: Sequence[str], life: int, draw: random.Random) -> List[Call]:
    """What clients ask in one life, which ends by a kill, and each fourth time by a stop."""
    with forgetting(program, file, period, *words) as service:
        expect_listens(service, f"life {life}")
        first = Caller(service.port, life)
        expect(first.ask((HAS, (b"EXISTS", b"K"), 1), b"another"), 0, f"the first answer of life {life}")
        first.close()
        load = Load(service.port, period, keys_of(12), (CLAIM, CLAIM, HAS), 6, draw.randrange(10**6), life)
        time.sleep(draw.uniform(SOONEST, LATEST))
        if life % 4 == 3:
            expect(program.run("stop", control_of(file)), Ended("", 0), "a stop")
            expect(service.wait(), 0, "the status after a stop")
        else:
            service.kill()
        return load.end()


def try_known_again(program: Program, folder: str) -> None:
    """What was claimed right before a kill is known right after it, for the rest of the period; and after a longer pause than that it is new at once."""
    period, file, keys = Period(2), os.path.join(folder, "f"), keys_of(10)
    program.make(file, SLOTS, 4)
    calls: List[Call] = []
    for life, pause in enumerate((0.0, 0.5, period.most + period.length + 2.0, 0.0)):
        time.sleep(pause)
        with forgetting(program, file, period) as service:
            caller = Caller(service.port, life)
            told = [caller.ask((CLAIM, (b"SETNX", b"K", b"1"), 1), key) for key in keys]
            service.kill()
            caller.close()
        calls += caller.calls
        expect(told, [int(life in (0, 2))] * len(keys), f"whether the keys are new in life {life}")
    print(f"         {expect_judged(period, calls, 'lives with pauses')}", flush=True)


def try_short(program: Program, folder: str) -> None:
    """Epochs shorter than a second: what was claimed up to a kill is forgotten all the same after it, and not sooner."""
    period, file = Period(2, 12), os.path.join(folder, "f")
    program.make(file, 20_000, 4)
    calls: List[Call] = []
    for life, (pause, seconds) in enumerate(((0.0, 4.0), (0.3, 0.5), (period.most + period.length + OF_MARKS + SLACK + 0.5, 0.3))):
        time.sleep(pause)
        with forgetting(program, file, period) as service:
            caller = Caller(service.port, life)
            known = sorted({call.key for call in calls[-200:]})
            told = [caller.ask((CLAIM, (b"SETNX", b"K", b"1"), 1), key) for key in known]
            loads = [Load(service.port, period, keys, (CLAIM, HAS), 3, life, life) for keys in ((), keys_of(10))]
            time.sleep(seconds)
            service.kill()
            caller.close()
        calls += [*caller.calls, *(call for load in loads for call in load.end())]
        calls.sort(key=lambda call: call.heard)
        expect(all(told) or life < 2, True, f"that all keys are new {pause:.1f} s after the last life: {told}")
    print(f"         {expect_judged(period, calls, 'epochs shorter than a second')}", flush=True)


def try_removals(program: Program, folder: str) -> None:
    """Keys are claimed, looked up, removed and asked for their time left by many at once, and others aren't removed: each answer fits the calls' times."""

    def remove(period: Period, loops: str) -> str:
        what, file = f"{period.seconds} s in {period.epochs} epochs, with removals", os.path.join(folder, f"f{period.epochs}")
        program.make(file, SLOTS, 4)
        with forgetting(program, file, period, "--loops", loops) as service:
            some = Load(service.port, period, keys_of(6, "removed"), (CLAIM, CLAIM, REMOVE, HAS, HAS, LEFT), 5, period.epochs)
            others = Load(service.port, period, keys_of(8, "kept"), (CLAIM, HAS, LEFT), 2, 1)
            time.sleep(REMOVING)
            calls = [*some.end(), *others.end()]
        removed = sum(call.verb == REMOVE and bool(call.told) for call in calls)
        expect(removed > 0, True, f"that keys were removed: {what}")
        return f"{what}: {expect_judged(period, calls, what)}, {removed} removed"

    side_by_side([lambda period=period, loops=loops: remove(period, loops) for period, loops in ((Period(2), "1"), (Period(2, 12), "2"))])


def try_own(program: Program, folder: str) -> None:
    """A key that one client claims and removes is new again at once, whenever epochs turn meanwhile; its time left is that of a key just claimed."""
    period, file = Period(5, 12), os.path.join(folder, "f")
    program.make(file, SLOTS, 4)

    def own(port: int, key: bytes) -> List[Call]:
        caller = Caller(port)
        for at in range(OWN):
            for verb, words, wanted in (
                *((CLAIM, (b"SET", b"K", b"1", b"NX", b"EX", b"5"), 1), (CLAIM, (b"SADD", b"", b"K"), 0), (HAS, (b"EXISTS", b"K"), 1)),
                *((REMOVE, (b"DEL", b"K"), 1), (HAS, (b"SISMEMBER", b"", b"K"), 0), (LEFT, (b"PTTL", b"K"), -2), (REMOVE, (b"SREM", b"", b"K"), 0)),
            ):
                expect(caller.ask((verb, words, 1), key), wanted, f"what {words} of {key!r} is told, round {at}")
        caller.close()
        return caller.calls

    with forgetting(program, file, period) as service, ThreadPoolExecutor(CLIENTS) as pool:
        port = service.port
        calls = [call for told in pool.map(lambda key: own(port, key), keys_of(CLIENTS, "own")) for call in told]
    print(f"         {expect_judged(period, calls, 'own keys')}", flush=True)


def try_leavers(program: Program, folder: str) -> None:
    """Clients that reset their connection in the midst of many commands, or within a frame, hold up no epoch and no other client."""
    period, file = Period(1), os.path.join(folder, "f")
    program.make(file, SLOTS, 4)
    half = array(b"SETNX", b"half", b"1")[:-4]
    many = b"".join(array(b"SADD", b"s", b"%d" % number) + array(b"PTTL", b"%d" % number) for number in range(200))
    ended = threading.Event()

    def leave(port: int) -> None:
        while not ended.is_set():
            send_and_reset(port, half)
            send_and_reset(port, many + half)
            with socket.create_connection(("127.0.0.1", port)) as client:
                client.sendall(many)

    with forgetting(program, file, period) as service:
        leavers = [threading.Thread(target=leave, args=(service.port,), daemon=True) for _ in range(2)]
        for leaver in leavers:
            leaver.start()
        load = Load(service.port, period, keys_of(8), (CLAIM, HAS), 4, 3)
        time.sleep(4)
        calls = load.end()
        ended.set()
        for leaver in leavers:
            leaver.join(10)
    print(f"         {expect_judged(period, calls, 'clients that leave')}", flush=True)


def try_full(program: Program, folder: str) -> None:
    """A file without a free slot refuses a claim, and takes it once older keys are swept, though clients hold all places and others wait for one."""
    period, file = Period(1), os.path.join(folder, "f")
    program.make(file, 40, 4)
    with forgetting(program, file, period, "--connections", str(PLACES)) as service, contextlib.ExitStack() as others:
        caller = Caller(service.port)
        caller.connection.sendall(array(b"PING"))
        expect(caller.stream.readline(), PONG, "the reply to the first client")
        for _ in range(2 * PLACES):
            others.enter_context(socket.create_connection(("127.0.0.1", service.port)))
        claims = [array(b"SETNX", key, b"1") for key in keys_of(60)]
        caller.connection.sendall(b"".join(claims))
        told = [caller.stream.readline() for _ in claims]
        if told[0] != b":1\r\n" or not told[-1].startswith(b"-FULL ") or {*told[1:-1]} - {b":1\r\n", told[-1]}:
            raise Wrong(f"claims of more keys than there are slots are told {told}")
        latest = time.monotonic() + period.most + 4
        while time.monotonic() < latest:
            caller.connection.sendall(array(b"SETNX", b"another", b"1"))
            line = caller.stream.readline()
            if line == b":1\r\n":
                break
            expect(line[:6], b"-FULL ", "what a claim is told while no slot is free")
            time.sleep(0.05)
        else:
            raise Wrong(f"no slot is free after {period.most + 4} s")
        caller.close()


TRIALS = (
    ("claims of a service that forgets", try_claims),
    ("new keys that all claim at once of a service that forgets", try_at_once),
    ("frames of the same members to a service that forgets", try_many),
    ("claims by services with passes that forget", try_passes),
    ("kills of a service that forgets", try_kills),
    ("keys that a service which forgets knows after a kill", try_known_again),
    ("epochs shorter than a second of a service that forgets", try_short),
    ("removals from a service that forgets", try_removals),
    ("keys that are removed from a service that forgets, and claimed anew", try_own),
    ("clients that leave a service that forgets", try_leavers),
    ("a full set that forgets", try_full),
)
