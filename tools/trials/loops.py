"""A service that one thread, or a few, give to many connections (`--connections`)."""

from __future__ import annotations

import os
import re
import socket
import threading
import time
from contextlib import ExitStack, suppress
from typing import Callable, ContextManager, List, Tuple

from lazyset import Lazyset, Reply
from trials import guests, kills, load
from trials.crowd import Crowd, needs_descriptors
from trials.faults import CAUSES, DEVICE_FAILED, FORMS, failing, needs_strace, news_of
from trials.guests import connect, received, served
from trials.history import History
from trials.process import expect_rest, memory, processor_seconds
from trials.program import Key, Program, Service, not_within
from trials.report import Wrong, expect
from trials.watch import logged

PASSES = 4
MOST_THREADS = 64
MOST_PASSES = 1024

THOUSAND = 1000
OWN_KEYS = 8

# What 300 clients ask for: five groups of them, each of the keys of two rooms, and fewer slots than keys.
ROOMS = tuple([Key(room, number) for room in (group, group + 8) for number in range(12)] for group in range(5))
CROWD = kills.Loaded(100, PASSES, ("--connections", "300"), 60, ROOMS)
AT_ONCE = CROWD._replace(passes=MOST_PASSES)
FOUR_LOOPS = kills.Loaded(40, PASSES, ("--connections", "120", "--loops", "4"), 60, ROOMS[:2])

# Commands of a client that reads late, of which one in twenty is an addition.
LATE_LINES, LATE_STEP = 10_000, 20

# Lines with no words, each of which is answered by six bytes: more than what a connection's buffers hold.
FLOOD = b"\n" * (1 << 20)
FLOODS = 4

# How much more memory a service may have while so many clients send without an end and read nothing, and how much may be taken of each,
# which is more than the system's buffers hold.
MOST_GROWTH, MOST_SENT = 4 << 20, 32 << 20

HALTS = 48

# How many lines one client sends at once.
BATCH = 500

# How many lookups are made one by one, twice, and how often a service whose places are all taken may look then whether some wait.
LOOKUPS, FEW_LOOKS = 300, 10


def at_once(connections: int) -> List[str]:
    return ["--connections", str(connections)]


def looks(program: Program, file: str, waits: bool) -> Tuple[int, int, float]:
    """How often a loop whose one place is taken asked its listener whether further clients wait, and read the system's table for them, and in how many
    seconds. Where one waits it does so from before the lookups on."""
    log = f"{file}-looks"
    program.make(file, 4)
    traced = ["strace", "-f", "-qq", "-o", log, "-e", "trace=openat,pread64,poll"]
    with Service(program, file, 1, *at_once(1), before=traced) as service, Lazyset(service.port) as client, ExitStack() as waiting:
        began = time.monotonic()
        if waits:
            waiting.enter_context(socket.create_connection(("127.0.0.1", service.port)))
        for pause in (0, 1.1):
            time.sleep(pause)
            expect([client.has(key) for key in range(LOOKUPS)], [False] * LOOKUPS, "replies")
        seconds = time.monotonic() - began
    with open(log, encoding="ascii", errors="replace") as lines:
        text = lines.read()
    table = re.findall(r'"/proc/net/tcp", .*\) = (\d+)', text)
    return len(re.findall(r"poll\(", text)), len(re.findall(rf'pread64\({"".join(table)}, "", ', text)), seconds


def try_full_house(program: Program, folder: str) -> None:
    """A loop whose places are all taken looks once in a second whether further clients wait, and not at each turn. It reads the system's table only where
    some do."""
    needs_strace()
    for waits in (False, True):
        asked, read, seconds = looks(program, os.path.join(folder, f"house-{waits}"), waits)
        if not 1 <= asked <= FEW_LOOKS + seconds:
            raise Wrong(f"the listener was asked {asked} times during {2 * LOOKUPS} lookups in {seconds:.1f} s")
        if not waits <= read <= waits * (FEW_LOOKS + seconds):
            raise Wrong(f"the table was read to its end {read} times in {seconds:.1f} s, while {waits:d} connections waited")


def try_lists(program: Program, folder: str) -> None:
    """Where no buckets are named a loop has as many as slots, or as the file's format allows; threads have one."""
    for form, slots, wanted in ((2, 5000, 4096), (2, 100, 100), (3, 5000, 5000), (1, 1, 1)):
        file = os.path.join(folder, f"lists-{form}-{slots}")
        expect(program.run("make", file, str(slots), "--format", str(form)).status, 0, "the status of a making")
        for options, buckets in ((at_once(2), wanted), ([], 1), ([*at_once(2), "--buckets", "3"], 3)):
            with logged(program, file, 2, *options) as service:
                tail = ", connections 2, loops 1" if "--connections" in options else ""
                told = [line for line in service.all_lines() if line.startswith("serving: ")]
                expect(told, [f"serving: slots {slots}, members 0, buckets {buckets}, passes 2{tail}"], "what it serves")


def try_thousand(program: Program, folder: str) -> None:
    """A thousand connections that are open at once, over four passes: each adds keys of its own and one that all add, and asks for them
    and for its neighbour's. The service ends with the last of them, and its file holds exactly these keys."""
    needs_descriptors(2 * THOUSAND)
    file = os.path.join(folder, "thousand")
    most = THOUSAND * OWN_KEYS
    program.make(file, most + 64)
    own = [range(1 + OWN_KEYS * client, 1 + OWN_KEYS * (client + 1)) for client in range(THOUSAND)]
    with Service(program, file, PASSES, "--buckets", "4096", "--sessions", str(THOUSAND), *at_once(THOUSAND)) as service:
        with Crowd(service.port, THOUSAND) as crowd:
            expect(crowd.exchange([b"has 0\n"] * THOUSAND), [b"no\n"] * THOUSAND, "lookups on all connections")
            lines = ["".join(f"add {key}\n" for key in keys).encode() for keys in own]
            expect(crowd.exchange(lines), [b"yes\n" * OWN_KEYS] * THOUSAND, "additions of own keys")
            shared = sorted(crowd.exchange([b"add 0\n"] * THOUSAND))
            expect(shared, [b"no\n"] * (THOUSAND - 1) + [b"yes\n"], "additions of one key")
            asked = [f"has {keys[0]}\nhas {most + keys[0]}\nhas {1 + keys[-1] % most}\n".encode() for keys in own]
            expect(crowd.exchange(asked), [b"yes\nno\nyes\n"] * THOUSAND, "lookups of own keys, of absent ones and of the next one's")
            expect(crowd.last([b"quit\n"] * THOUSAND), [b""] * THOUSAND, "the end of all connections")
        expect(service.wait(), 0, "the status of a service whose sessions ended")
    expect(program.members(file), [Key(0, key) for key in range(most + 1)], "the keys of the file")


def try_most_passes(program: Program, folder: str) -> None:
    """As many passes as there may be, over a device that takes its time: a first addition is on its way to its sync, and all others
    come meanwhile. They share the next syncs, so all of them are under way at once: of 64 at a time they would take many more."""
    needs_strace()
    needs_descriptors(2 * MOST_PASSES)
    file, log = os.path.join(folder, "most"), os.path.join(folder, "log")
    program.make(file, MOST_PASSES)
    slowed = ["strace", "-f", "-qq", "-o", log, "--seccomp-bpf", "-e", "trace=fdatasync", "-e", "inject=fdatasync:delay_enter=300000"]
    options = ("--buckets", "1024", "--sessions", str(MOST_PASSES), *at_once(MOST_PASSES))
    with Service(program, file, MOST_PASSES, *options, before=slowed) as service:
        with Crowd(service.port, MOST_PASSES) as crowd:
            lines = [f"add {client}\n".encode() for client in range(MOST_PASSES)]
            expect(crowd.exchange(lines), [b"yes\n"] * MOST_PASSES, "additions on all connections")
            expect(crowd.last([b"quit\n"] * MOST_PASSES), [b""] * MOST_PASSES, "the end of all connections")
        expect(service.wait(), 0, "the status of a service whose sessions ended")
    expect(program.members(file), [Key(0, key) for key in range(MOST_PASSES)], "the keys of the file")
    with open(log, encoding="ascii", errors="replace") as text:
        syncs = sum("fdatasync(" in line for line in text)
    if syncs >= MOST_PASSES // MOST_THREADS:
        raise Wrong(f"{MOST_PASSES} additions took {syncs} syncs")
    print(f"         {MOST_PASSES} additions took {syncs} syncs", flush=True)


def try_passes(program: Program, folder: str) -> None:
    """More passes than there are threads are for loops alone, and there is a most of them too."""
    file = os.path.join(folder, "passes")
    program.make(file, 4)
    for words, most in (([], MOST_THREADS), (at_once(2000), MOST_PASSES)):
        for passes in (0, most + 1, MOST_PASSES + 1):
            expect(program.run("serve", file, "0", str(passes), *words), not_within("<PASSES>", passes, most), f"{passes} passes {words}")
        with Service(program, file, most, *words) as service:
            with Lazyset(service.port) as keys:
                expect(keys.has(1), False, f"a lookup by a service of {most} passes")
    expect(program.run("serve", file, "0", "65", *at_once(100), "--loops", "65").status, 2, "the status of more loops than there are threads")
    expect(program.members(file), [], "the keys of the file")


def try_four_loops(program: Program, folder: str) -> None:
    """Four loops that end after sixteen connections each, and sixty-four clients."""
    file, count = os.path.join(folder, "four"), 64
    program.make(file, 1000)
    with Service(program, file, PASSES, "--loops", "4", "--sessions", "16", *at_once(count)) as service:
        with Crowd(service.port, count) as crowd:
            lines = [f"add {client}\nhas {client}\nadd 99\nremove {client}\nadd {client}\nquit\n".encode() for client in range(count)]
            told = crowd.last(lines)
        expect(service.wait(), 0, "the status of a service whose sessions ended")
    expect(sorted(told), [b"yes\nyes\nno\nyes\nyes\n"] * (count - 1) + [b"yes\n" * 5], "replies")
    expect(program.members(file), [Key(0, key) for key in (*range(count), 99)], "the keys of the file")


def try_words(program: Program, folder: str) -> None:
    """Loops without connections, more loops than passes, and numbers out of range: refused, and nothing is served."""
    file = os.path.join(folder, "words")
    program.make(file, 4)
    loops = [[*at_once(4), "--loops", count] for count in ("0", "many", "3")]
    for words in (["--loops", "2"], at_once(0), at_once(10001), *loops):
        expect(program.run("serve", file, "0", "2", *words).status, 2, f"the status of serve with {' '.join(words)}")
    expect(program.members(file), [], "the keys of the file")


def late_lines(first: int) -> bytes:
    """Additions, and after each lookups of the key that it added and of the next one, which isn't there yet."""
    text = ""
    for key in range(first, first + LATE_LINES // LATE_STEP):
        text += f"add {key}\n" + f"has {key}\nhas {key + 1}\nhas {key}\n" * ((LATE_STEP - 1) // 3) + f"has {key}\n"
    return text.encode()


def connect_narrow(port: int) -> socket.socket:
    """A connection whose client takes little before it reads."""
    connection = socket.socket()
    connection.settimeout(guests.PATIENCE)
    connection.setsockopt(socket.SOL_SOCKET, socket.SO_RCVBUF, 4096)
    connection.connect(("127.0.0.1", port))
    return connection


def try_late_reader(program: Program, folder: str) -> None:
    """A client sends 10,000 commands in one go, and another one a million lines with no words. They read nothing for a while, in which
    a third is served, and then all: nothing is lost, and all is in order."""
    answer = b"yes\n" + b"yes\nno\nyes\n" * ((LATE_STEP - 1) // 3) + b"yes\n"
    with served(program, folder, "late", 1000, PASSES, "--buckets", "64", *at_once(16)) as service:
        with connect_narrow(service.port) as late, connect_narrow(service.port) as wordless:
            senders = [threading.Thread(target=it.sendall, args=(text,), daemon=True) for it, text in ((late, late_lines(1)), (wordless, FLOOD))]
            for sender in senders:
                sender.start()
            expect_prompt(service.port, 0.5)
            late.settimeout(guests.PATIENCE)
            expect(read_exactly(late, len(answer) * (LATE_LINES // LATE_STEP)), answer * (LATE_LINES // LATE_STEP), "replies that were read late")
            expect(read_exactly(wordless, 6 * len(FLOOD)) == b"bad 2\n" * len(FLOOD), True, "that each line with no words is answered")
            for sender in senders:
                sender.join(guests.PATIENCE)
    expect(len(program.members(os.path.join(folder, "late"))), LATE_LINES // LATE_STEP, "how many keys the file has")


def read_exactly(connection: socket.socket, count: int) -> bytes:
    text = bytearray()
    while len(text) < count and (piece := connection.recv(1 << 16)):
        text += piece
    return bytes(text)


def expect_prompt(port: int, seconds: float) -> None:
    """For so long another client's commands are answered, each within a second."""
    latest = time.monotonic() + seconds
    with Lazyset(port, timeout=1.0) as keys:
        while time.monotonic() < latest:
            expect((keys.add(0), keys.has(0), keys.remove(0)), (True, True, True), "another client's commands")


def flood(crowd: Crowd, seconds: float) -> int:
    """Sends on each connection, for so long, as much as is taken, and gives how many bytes that were."""
    taken, latest = 0, time.monotonic() + seconds
    while time.monotonic() < latest:
        for connection in crowd.connections:
            with suppress(BlockingIOError):
                taken += connection.send(FLOOD[:65536])
        time.sleep(0.001)
    return taken


def come_to_rest(service: Service, push: Callable[[], int], most: int) -> None:
    """Sends by this until nothing more is taken, and the service has nothing more to do. No more than so many bytes are."""
    sent, latest = 0, time.monotonic() + 20
    while time.monotonic() < latest:
        before = processor_seconds(service)
        taken = push()
        sent += taken
        if sent > most:
            raise Wrong("clients that never read may send without an end")
        if taken == 0 and processor_seconds(service) - before < 0.1:
            return
    raise Wrong("the service doesn't come to rest, though no client reads its replies")


def try_floods(program: Program, folder: str) -> None:
    """Clients that never read send until nothing more is taken. The service's memory is bounded, it rests, another client is served,
    and after they went away as many are served again."""
    with served(program, folder, "floods", 4, PASSES, *at_once(FLOODS + 1)) as service:
        with Crowd(service.port, FLOODS) as crowd:
            crowd.exchange([b"has 1\n"] * FLOODS)
            before = memory(service)
            come_to_rest(service, lambda: flood(crowd, 0.5), MOST_SENT * len(crowd))
            grown = memory(service) - before
            expect_prompt(service.port, 0.2)
        if grown > MOST_GROWTH:
            raise Wrong(f"the service's memory grew by {grown} bytes under {FLOODS} clients")
        with Crowd(service.port, FLOODS + 1) as crowd:
            expect(crowd.exchange([b"has 1\n"] * len(crowd)), [b"no\n"] * len(crowd), "lookups by as many clients as are served at once")


def try_busy(program: Program, folder: str) -> None:
    """Eight clients send thousands of lookups at once, again and again; another one is answered promptly all the while."""
    count, lines = 8, 2000
    told: List[bool] = []
    with served(program, folder, "busy", 4, PASSES, *at_once(count + 1)) as service, Crowd(service.port, count) as crowd:
        enough = threading.Event()

        def press() -> None:
            while not enough.is_set():
                told.append(crowd.exchange([b"has 1\n" * lines] * count) == [b"no\n" * lines] * count)

        busy = threading.Thread(target=press)
        busy.start()
        try:
            expect_prompt(service.port, 1.0)
        finally:
            enough.set()
            busy.join(guests.PATIENCE)
    expect((set(told), len(told) > 0), ({True}, True), "the replies to those who press")


def try_descriptors(program: Program, folder: str) -> None:
    """A service that may have few descriptors serves some of forty clients, and tries for the others now and then; they are served once
    those have ended."""
    file, count = os.path.join(folder, "descriptors"), 40
    program.make(file, 4)
    with Service(program, file, PASSES, *at_once(count), before=["sh", "-c", 'ulimit -n 24 && exec "$@"', "sh"]) as service:
        with Crowd(service.port, count) as crowd:
            crowd.send([b"has 1\n"] * count)
            first = crowd.answered(1.0)
            expect(0 < first < count, True, f"that some are served: {first} were")
            expect_rest(service, "a client for which there is no descriptor")
            told = crowd.last([b"quit\n"] * count)
    expect(told, [b"no\n"] * count, "replies to all of them")


def try_cut_lines(program: Program, folder: str) -> None:
    """Sixty-four clients send byte after byte, all by turns, and end within a line, which is answered `bad 5` and isn't carried out."""
    count = 64
    texts = [f"add {100 + client}\r\nhas {100 + client}\nhas {client}\nquit no\nadd {client}".encode() for client in range(count)]
    with served(program, folder, "cut", 2 * count + 16, PASSES, *at_once(count)) as service, Crowd(service.port, count) as crowd:
        for place in range(max(map(len, texts))):
            crowd.send([text[place : place + 1] for text in texts])
        crowd.shut()
        expect(crowd.last(), [b"yes\nyes\nno\nbad 2\nbad 5\n"] * count, "replies to lines that came byte by byte")
    expect(program.members(os.path.join(folder, "cut")), [Key(0, 100 + client) for client in range(count)], "the keys of the file")


def sends_changes(port: int) -> None:
    """Asks for changes, and resets the connection without reading."""
    guests.send_and_reset(port, b"add 1\nremove 1\n" * 50)


def leaves(port: int) -> None:
    connect(port).close()


def ends_at_once(port: int) -> None:
    """Sends nothing, and takes the end."""
    with connect(port) as connection:
        connection.shutdown(socket.SHUT_WR)
        expect(received(connection), b"", "what a client is told that sends nothing")


def try_leavers(program: Program, folder: str) -> None:
    """Clients that reset their connections amid commands, or leave at once, again and again: others are served all the while, and afterwards
    as many as at first. There are five keys at most, and so many slots more that none is told `full`, however long a command takes."""
    with served(program, folder, "leavers", 5 + 100 * PASSES, PASSES, *at_once(8)) as service:
        with Crowd(service.port, 4) as staying:
            for leaver in (guests.resets, sends_changes, leaves, ends_at_once):
                for turn in range(20):
                    leaver(service.port)
                    told = staying.exchange([f"add {7 + client}\nremove {7 + client}\n".encode() for client in range(4)])
                    expect(told, [b"yes\nyes\n"] * 4, f"replies to those who stay, beside {leaver.__name__} {turn}")
            with Crowd(service.port, 4) as others:
                expect(others.exchange([b"has 2\n"] * 4), [b"no\n"] * 4, "lookups of new clients")
                expect(staying.exchange([b"has 2\n"] * 4), [b"no\n"] * 4, "lookups of those who stayed")


def try_more(program: Program, folder: str) -> None:
    """Of more connections than are served at once the last ones wait, and are served one by one as others end."""
    with served(program, folder, "more", 8, PASSES, *at_once(4)) as service, Crowd(service.port, 4) as first:
        expect(first.exchange([b"has 1\n"] * 4), [b"no\n"] * 4, "lookups of the first clients")
        with Crowd(service.port, 4) as later:
            later.send([f"add {client}\n".encode() for client in range(4)])
            for ended in range(4):
                expect(later.answered(0.2), ended, "how many of the later clients are answered")
                expect(first.exchange([b"has 9\n"] * len(first)), [b"no\n"] * len(first), "lookups of the clients that are left")
                if ended == 1:
                    expect_rest(service, "clients that wait")
                first.quit_one()
            asked = [f"has {client}\nquit\n".encode() for client in range(4)]
            expect(later.last(asked), [b"yes\nyes\n"] * 4, "replies to the later clients")


def try_pipelines(program: Program, folder: str) -> None:
    """Thirty-two clients send sixteen lines at once, again and again: each one's replies come in the order of its lines. And so many clients
    that replies go out together."""
    for count in (32, 160):
        name = f"pipelines-{count}"
        with served(program, folder, name, 8 * count, PASSES, "--buckets", "64", *at_once(count)) as service, Crowd(service.port, count) as crowd:
            for turn in range(20):
                expect_pipelined(crowd, count, turn)
        expect(program.members(os.path.join(folder, name)), [], "the keys of the file")


def expect_pipelined(crowd: Crowd, count: int, turn: int) -> None:
    own = [10_000 * turn + 10 * client for client in range(count)]
    lines = "add {0}|has {0}|has {1}|dig|add {0}|remove {0}|has {0}|remove {0}|add {1}|has x|has {1}|has {0}|add {2}|remove {2}|remove {1}|"
    texts = [(lines.replace("|", "\n") + "has {1}\n").format(key, key + 1, key + 2).encode() for key in own]
    told = b"yes yes no bad_2 no yes no no yes bad_3 yes no yes yes yes no ".replace(b" ", b"\n").replace(b"_", b" ")
    expect(crowd.exchange(texts), [told] * count, f"replies to sixteen lines, turn {turn}")


def try_batch(program: Program, folder: str) -> None:
    """One client sends many lines at once: those of different keys share their syncs, those of one key are carried out in turn, and the replies
    come in the order of the lines."""
    needs_strace()
    file, log = os.path.join(folder, "batch"), os.path.join(folder, "log")
    program.make(file, BATCH)
    traced = ["strace", "-f", "-qq", "-o", log, "--seccomp-bpf", "-e", "trace=fdatasync"]
    with Service(program, file, MOST_THREADS, "--buckets", "64", "--sessions", "1", *at_once(1), before=traced) as service:
        with Crowd(service.port, 1) as client:
            texts = ["".join(f"{verb} {key}\n" for key in range(BATCH)) for verb in ("add", "has", "add")]
            expect(client.exchange([texts[0].encode()]), [b"yes\n" * BATCH], "additions at once")
            expect(client.exchange([(texts[1] + texts[2]).encode()]), [b"yes\n" * BATCH + b"no\n" * BATCH], "lookups and additions at once")
            one = "remove 7\nhas 7\nadd 7\nbad\nadd 7\n" * 20
            expect(client.exchange([one.encode()]), [b"yes\nno\nyes\nbad 2\nno\n" * 20], "lines of one key at once")
            expect(client.last([b"add 1\nquit\nadd 2\n"]), [b"no\n"], "the end")
        expect(service.wait(), 0, "the status of a service whose session ended")
    expect(program.members(file), [Key(0, key) for key in range(BATCH)], "the keys of the file")
    with open(log, encoding="ascii", errors="replace") as text:
        syncs = sum("fdatasync(" in line for line in text)
    # Of the lines of one key each change has two syncs to itself, or one.
    if syncs >= BATCH // 4 + 4 * 20:
        raise Wrong(f"{BATCH} additions at once, and {4 * 20} changes of one key, took {syncs} syncs")


def try_quit(program: Program, folder: str) -> None:
    """What comes after `quit` in the same piece isn't carried out; nor is it where the piece ends within a line."""
    count = 32
    with served(program, folder, "quit", 64, PASSES, *at_once(count)) as service, Crowd(service.port, count) as crowd:
        texts = [f"add {client}\nquit\nadd {100 + client}\nhas 1\nadd {200 + client}".encode() for client in range(count)]
        expect(crowd.last(texts), [b"yes\n"] * count, "replies to pieces with quit in them")
    expect(program.members(os.path.join(folder, "quit")), [Key(0, client) for client in range(count)], "the keys of the file")


def try_idle(program: Program, folder: str) -> None:
    """Of three crowds the ones that are silent, or take no replies, are closed after a second, and the one that asks now and then isn't.
    Then there is room for as many others."""
    count = 32
    with served(program, folder, "idle", 8, PASSES, "--idle", "1", *at_once(2 * count + 2)) as service:
        with Crowd(service.port, count) as silent, Crowd(service.port, 2) as stuck, Crowd(service.port, count) as asking:
            expect(silent.exchange([b"has 1\n"] * count), [b"no\n"] * count, "lookups of those who are silent then")
            silent.send([b"add 1"] * count)
            flood(stuck, 0.1)
            for turn in range(6):
                expect(asking.exchange([b"has 1\n"] * count), [b"no\n"] * count, f"lookups of those who ask, turn {turn}")
                if turn == 1:
                    expect(silent.answered(0), 0, "how many were closed too soon")
                time.sleep(0.4)
            expect(silent.last(), [b""] * count, "what comes of a line that wasn't ended in time")
            with Crowd(service.port, count + 2) as others:
                expect(others.exchange([b"has 1\n"] * len(others)), [b"no\n"] * len(others), "lookups of others, beside those who ask")


def try_device(program: Program, folder: str, seed: int, speak: Callable[[int], ContextManager[load.Ask]] = load.by_lines, *options: str) -> None:
    """A device that fails under forty-eight clients: each one's last command is answered `halted`, or is cut off, and some are told. The
    service ends with status 1 and says why once. Then it is served again, and the whole is judged; in files of each of two formats."""
    needs_strace()
    for form in FORMS:
        fail_device(program, folder, form, seed, speak, *options)


def fail_device(program: Program, folder: str, form: int, seed: int, speak: Callable[[int], ContextManager[load.Ask]], *options: str) -> None:
    file = os.path.join(folder, f"device-{form}")
    program.make(file, kills.SLOTS, form)
    history, told = History(), 0
    for call, number in (("fdatasync", 5), ("pwrite64", 3), ("fdatasync", 12), ("pwrite64", 40)):
        with logged(program, file, PASSES, *at_once(HALTS), *options, before=failing(file, call, number)) as service:
            calls = load.finish(load.start(HALTS, service.port, seed + number, speak=speak))
            expect(service.service.wait(), 1, "the status of a service whose device failed")
            said = news_of(service.lines())
        expect(said, [DEVICE_FAILED, f"lazyset: {CAUSES[call]}"], "the log")
        halted = sum(it.reply is Reply.HALTED for it in calls)
        if halted == 0:
            raise Wrong(f"no client was told that {call} {number} failed")
        kills.note_life([history], [load.KEYS], calls, program.members(file), kills.ENDS[form])
        told += halted
    kills.judge(program, folder, history)
    print(f"         format {form}: {told} of {4 * HALTS} clients were told halted", flush=True)


def try_end(program: Program, folder: str) -> None:
    """The device fails in one client's session: it is told so, and the service ends at once, though its other clients say nothing."""
    needs_strace()
    file = os.path.join(folder, "end")
    program.make(file, 4)
    with logged(program, file, PASSES, *at_once(HALTS), before=failing(file, "fdatasync", 2)) as service:
        with Crowd(service.port, HALTS - 1) as silent:
            silent.exchange([b"has 1\n"] * len(silent))
            with connect(service.port) as client:
                client.sendall(b"add 1\n")
                expect(received(client), b"halted\n", "what the client is told whose device failed")
            began = time.monotonic()
            expect(service.service.wait(), 1, "the status of a service whose device failed")
            expect(time.monotonic() - began < 5, True, "that it ends at once")
        expect(news_of(service.lines()), [DEVICE_FAILED, f"lazyset: {CAUSES['fdatasync']}"], "the log")


TRIALS = (
    ("all places taken", try_full_house),
    ("as many buckets as slots", try_lists),
    ("a thousand connections", try_thousand),
    ("the most passes", try_most_passes),
    ("passes out of range", try_passes),
    ("four of them", try_four_loops),
    ("their words", try_words),
    ("clients that read late", try_late_reader),
    ("clients that never read", try_floods),
    ("clients that send without a pause", try_busy),
    ("a service with few descriptors", try_descriptors),
    ("lines that come byte by byte", try_cut_lines),
    ("clients that leave", try_leavers),
    ("more clients than are served at once", try_more),
    ("sixteen lines at once", try_pipelines),
    ("one client's batch", try_batch),
    ("what comes after quit", try_quit),
    ("silent clients", try_idle),
    ("the end once a device failed", try_end),
)
