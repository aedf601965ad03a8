"""A service whose PASSES are left out: what isn't named is chosen, and both protocols are spoken on one port."""

from __future__ import annotations

import os
import socket
import stat
import subprocess
import tempfile
from typing import IO, Sequence, Tuple, Union

from lazyset import key_of
from trials.examples import USUAL_PORT
from trials.faults import needs_strace
from trials.files import put
from trials.frames import replies, sent, sent_in_pieces
from trials.guests import connect
from trials.hostile import Drawn
from trials.locks import taken
from trials.marks import IS_NUMBERS, IS_TEXT, MARK, made
from trials.noise_frames import OTHERS, FrameNoise
from trials.plain import Plain
from trials.plain_frames import PONG, PlainTalk, array, integer
from trials.program import Ended, Key, Program, Service, untimed
from trials.report import Skip, expect
from trials.stops import control_of, lines_of

SLOTS = 100
# Descriptors that a service has, and how many of them it keeps from its connections.
DESCRIPTORS, KEPT = 200, 64

# The words of a service, and what differs from what it chooses without them.
CHOICES: Tuple[Tuple[Sequence[str], str], ...] = (
    ((), ""),
    (("--resp",), ""),
    (("--connections", "5"), "connections 5"),
    (("--loops", "3"), f"connections {DESCRIPTORS - KEPT - 4}, loops 3"),
    (("--buckets", "7"), "buckets 7"),
)

PING = array(b"PING")
ADD, HAS = array(b"SADD", b"3", b"17"), array(b"SISMEMBER", b"3", b"17")

# What a client sends that may speak either, and what it is told by a service of both, and by one of lines. A key is there, 3:17.
TALKS: Tuple[Tuple[bytes, bytes, bytes], ...] = (
    (PING + ADD + HAS, PONG + integer(0) + integer(1), b"bad 2\n" * 17),
    (b"has 3:17\nquit\n", b"yes\n", b"yes\n"),
    (b"PING\r\n", b"bad 2\n", b"bad 2\n"),
    (b"add 5", b"bad 5\n", b"bad 5\n"),
    (b"has 6\n*1\n", b"no\nbad 2\n", b"no\nbad 2\n"),
    (b"\n" + PING, b"bad 2\n" * 4, b"bad 2\n" * 4),
    (PING + b"PING\r\n", PONG * 2, b"bad 2\n" * 4),
    (b"*", b"", b"bad 5\n"),
    (b"", b"", b""),
)


class WithoutSize(FrameNoise):
    """Draws frames, and never asks how many members there are: that counts what later frames of a client have added by then."""

    others = (*OTHERS, (b"RESET",))


def serving(
    program: Program, file: str, *words: str, port: str = "0", log: Union[int, IO[str]] = subprocess.DEVNULL, before: Sequence[str] = ()
) -> Service:
    """A service whose PASSES are left out."""
    return Service(program, file, None, *words, port=port, log=log, before=before)


def limited(descriptors: int) -> Sequence[str]:
    """What has a command have so many descriptors."""
    return ("sh", "-c", f'ulimit -n {descriptors} && exec "$@"', "sh")


def try_choices(program: Program, folder: str) -> None:
    """What isn't named is chosen, its log tells it, and `stop` finds its socket beside the file. What is named stays."""
    file = os.path.join(folder, "f")
    program.make(file, SLOTS)
    for words, named in CHOICES:
        what = " ".join(words)
        wanted = {"slots": f"{SLOTS}", "members": "0", "buckets": f"{SLOTS}", "passes": "1024", "connections": f"{DESCRIPTORS - KEPT}", "loops": "1"}
        wanted.update(it.split(" ") for it in named.split(", ") if it)
        with tempfile.TemporaryFile("w+") as log, serving(program, file, *words, log=log, before=limited(DESCRIPTORS)) as service:
            expect(stat.S_IMODE(os.stat(control_of(file)).st_mode), 0o600, f"the socket's mode {what}")
            expect(program.run_loud("serve", file, "0"), taken(file), f"a second service {what}")
            expect(program.run("stop", control_of(file)), Ended("", 0), f"the stop {what}")
            expect(service.wait(), 0, f"the service's status {what}")
            said = [line for line in lines_of(log, file) if line.startswith("serving: ")]
        expect(said, [f"serving: {', '.join(f'{name} {count}' for name, count in wanted.items())}"], f"what it says {what}")
        expect(os.listdir(folder), ["f"], f"what it leaves {what}")


def try_named(program: Program, folder: str) -> None:
    """A control socket that is named is the only one, and a path in place of a port needs no word of its own."""
    file, other = os.path.join(folder, "f"), os.path.join(folder, "other")
    program.make(file, SLOTS)
    with serving(program, file, "--control", other) as service:
        expect(sorted(os.listdir(folder)), ["f", "other"], "what stands there")
        expect(program.run("stop", other), Ended("", 0), "the stop")
        expect(service.wait(), 0, "the service's status")
    for port in ("", "-"):
        with serving(program, file, "--socket", other, port=port) as service:
            expect(service.told, f"listening {other}\n", f"where it listens, of the port {port!r}")
            with socket.socket(socket.AF_UNIX) as client:
                client.connect(other)
                client.sendall(PING)
                expect(client.recv(64), PONG, "a reply")
            expect(program.run("stop", control_of(file)), Ended("", 0), "the stop")
            expect(service.wait(), 0, "the service's status")


def try_usual_port(program: Program, folder: str) -> None:
    """Without any word it has the usual port. Where that is taken it says so, and how another one is named."""
    file = os.path.join(folder, "f")
    program.make(file, SLOTS)
    try:
        with socket.create_server(("127.0.0.1", int(USUAL_PORT))) as other:
            expect_taken(program, file, other, ())
    except OSError:
        raise Skip(f"port {USUAL_PORT} is another program's") from None
    with serving(program, file, port="") as service:
        expect(service.told, f"listening {USUAL_PORT}\n", "where it listens")
        expect(replies(service.port, ADD), integer(1), "a reply")
        expect(program.run("stop", control_of(file)), Ended("", 0), "the stop")
    with socket.create_server(("127.0.0.1", 0)) as other:
        expect_taken(program, file, other, (str(other.getsockname()[1]),))


def expect_taken(program: Program, file: str, other: socket.socket, words: Sequence[str]) -> None:
    """The service ends where the port is this socket's, and leaves nothing."""
    port = other.getsockname()[1]
    ended, log = program.run_loud("serve", file, *words)
    way_out = f"name another port than {port} behind the file, or 0 for any that is free"
    said = f"{file}: opening\nlazyset: serve {file}: noport: Address already in use (os error 98): {way_out}\n"
    expect((ended, untimed(log)), (Ended("noport\n", 1), said), f"a service whose port {port} is taken")
    expect(os.listdir(os.path.dirname(file)), ["f"], "what it leaves")


def try_faults(program: Program, folder: str) -> None:
    """A control socket that can't be made beside the file is told, with the word that mends it, and nothing is served."""
    file = os.path.join(folder, "f")
    long = os.path.join(folder, "f" * 100)
    for path in (file, long):
        program.make(path, SLOTS)
    said = f"lazyset: serve {long}: {control_of(long)} is too long for a socket: name a shorter path by --control\n"
    expect(program.run_loud("serve", long, "0"), (Ended("", 1), said), "a path that is too long for a socket")
    put(control_of(file), b"mine")
    said = f"lazyset: serve {file}: no socket at {control_of(file)}: address in use: name another path by --control\n"
    expect(program.run_loud("serve", file, "0"), (Ended("", 1), said), "a file that stands at the socket's path")
    os.unlink(control_of(file))
    with serving(program, long, "--control", control_of(file)) as service:
        expect(program.run("stop", control_of(file)), Ended("", 0), "a stop of that service by a shorter path")
        expect(service.wait(), 0, "its status")
    needs_strace()
    before = ["strace", "-qq", "-f", "-o", os.devnull, "-e", "trace=bind", "-e", "inject=bind:error=EACCES:when=1"]
    said = f"lazyset: serve {file}: no socket at {control_of(file)}: Permission denied (os error 13): name another path by --control\n"
    expect(program.run_loud("serve", file, "0", before=before), (Ended("", 1), said), "a folder that can't be written")
    expect(program.run("info", file).status, 0, "the status of info")


def try_languages(program: Program, folder: str) -> None:
    """The first byte of a connection tells its protocol, in whatever pieces it comes, and one that is named is spoken alone."""
    file = os.path.join(folder, "f")
    made(program, file, (Key(3, 17),), SLOTS, 2)
    plain = Plain(2, SLOTS)
    plain.ask("add", Key(3, 17))
    for words in ((), ("--resp",), ("--lines",)):
        with serving(program, file, *words) as service:
            for text, by_both, by_lines in TALKS:
                wanted = by_lines if words == ("--lines",) else PlainTalk(plain).tell(text).replies if words else by_both
                expect(replies(service.port, text), wanted, f"{text!r} {' '.join(words)}")
                pieces = [bytes([byte]) for byte in text]
                expect(sent(connect(service.port), pieces), wanted, f"{text!r}, byte by byte {' '.join(words)}")


def try_beside(program: Program, folder: str) -> None:
    """Clients of both protocols, one beside the other, share one set."""
    file, count = os.path.join(folder, "f"), 40
    program.make(file, SLOTS)
    with serving(program, file) as service:
        clients = [connect(service.port) for _ in range(count)]
        for number, client in enumerate(clients):
            client.sendall(b"add %d\n" % (number // 2) if number % 2 else array(b"SADD", b"0", b"%d" % (number // 2)))
            expect(client.recv(64), b"no\n" if number % 2 else integer(1), f"the reply to client {number}")
        for number, client in enumerate(clients):
            client.sendall(array(b"SISMEMBER", b"0", b"5") if number % 2 == 0 else b"has 5\n")
            expect(client.recv(64), b"yes\n" if number % 2 else integer(1), f"the lookup of client {number}")
            client.close()
    expect(program.members(file), [Key(0, number) for number in range(count // 2)], "the keys of the file")


# The keys of a file, the words of a start, and the line and the words with which that is refused, or nothing.
STARTS: Tuple[Tuple[Sequence[Key], Sequence[str], str, str], ...] = (
    ((), (), "", ""),
    ((Key(0, 5),), (), "", ""),
    ((MARK,), (), "othertext", IS_TEXT),
    ((MARK,), ("--numbers",), "", ""),
    ((MARK,), ("--lines",), "", ""),
    ((), ("--text",), "", ""),
    ((MARK,), ("--text",), "", ""),
    ((Key(0, 5),), ("--text",), "othernumbers", IS_NUMBERS),
    ((Key(0, 5),), ("--resp", "--text"), "othernumbers", IS_NUMBERS),
    ((Key(0, 5),), ("--text=adopt",), "", ""),
)


def try_marks(program: Program, folder: str) -> None:
    """A service of both protocols takes the keys of its file for numbers, or for texts where it is told so, as one of Redis's alone does."""
    file = os.path.join(folder, "f")
    for keys, words, line, why in STARTS:
        what = f"{' '.join(words)} over {[str(key) for key in keys]}"
        made(program, file, keys, SLOTS, 2)
        if line:
            ended, said = program.run_loud("serve", file, "0", *words)
            expect((ended, said.splitlines()[-1]), (Ended(f"{line}\n", 3), f"lazyset: serve {file}: {line}: {why}"), what)
            continue
        with serving(program, file, *words) as service:
            expect(service.told[:10], "listening ", what)
        marks = any(word.startswith("--text") for word in words)
        expect(program.members(file), sorted({*keys, MARK} if marks else keys), f"the keys after it: {what}")
    made(program, file, (), SLOTS, 2)
    with serving(program, file, "--text") as service:
        expect(replies(service.port, array(b"SADD", b"seen", b"evt_1")), integer(1), "a text")
        with connect(service.port) as client:
            client.sendall(b"has %d\n" % key_of("seen", "evt_1"))
            expect(client.recv(64), b"yes\n", "a line that asks for the text's number")


def try_copies(program: Program, folder: str) -> None:
    """`copy` speaks Redis's protocol to a service of both."""
    file, whole, named = (os.path.join(folder, name) for name in ("f", "whole", "named"))
    keys = (Key(0, 5), Key(3, 17), Key(15, 7))
    made(program, file, keys, SLOTS, 4)
    with serving(program, file) as service:
        expect(program.run("copy", str(service.port), whole), Ended("copied 3\n", 0), "a copy as large as the file")
        expect(program.run("copy", str(service.port), named, "9"), Ended("copied 3\n", 0), "a copy of nine slots")
    for path, slots in ((whole, SLOTS), (named, 9)):
        expect(program.members(path), list(keys), f"the keys of {path}")
        expect(program.run("info", path).text.splitlines()[1], f"slots {slots}", f"the slots of {path}")
    with serving(program, file, "--lines") as service:
        expect(program.run("copy", str(service.port), os.path.join(folder, "none")), Ended("noreply\n", 3), "a copy of a service of lines")


# Words of a service, and how a command line with them is told to be wrong. Where PASSES are given that is as it was before they could be left out.
NEEDS = "error: the following required arguments were not provided:\n  "
MORE = "\n\nFor more information, try '--help'.\n"
WORDS: Tuple[Tuple[str, str], ...] = (
    ("0 8 --resp", f"{NEEDS}--connections <C>\n\nUsage: lazyset serve --connections <C> --resp <FILE> <PORT> <PASSES>{MORE}"),
    ("0 8 --loops 2", f"{NEEDS}--connections <C>\n\nUsage: lazyset serve --connections <C> --loops <L> <FILE> <PORT> <PASSES>{MORE}"),
    ("--loops 2 -- 0 8", f"{NEEDS}--connections <C>\n\nUsage: lazyset serve --connections <C> --loops <L> <FILE> <PORT> <PASSES>{MORE}"),
    ("0 8 --numbers --connections 4", f"{NEEDS}--resp\n\nUsage: lazyset serve --connections <C> --resp --numbers <FILE> <PORT> <PASSES>{MORE}"),
    ("0 x", f"error: invalid value 'x' for '<PASSES>': invalid digit found in string{MORE}"),
    ("x 8", f"error: invalid value 'x' for '<PORT>': invalid digit found in string{MORE}"),
    ("0 65", f"error: invalid value '65' for '<PASSES>': 65 is not in 1..=64{MORE}"),
    ("0 8 9", f"error: unexpected argument '9' found\n\nUsage: lazyset serve [OPTIONS] <FILE> <PORT> <PASSES>{MORE}"),
    ("x", f"error: invalid value 'x' for '[PORT]': invalid digit found in string{MORE}"),
    ("-", f"error: invalid value '-' for '[PORT]': invalid digit found in string{MORE}"),
)


def try_words(program: Program, folder: str) -> None:
    """A command line that can't be served is told so, and in the words of before where PASSES are given."""
    file = os.path.join(folder, "f")
    program.make(file, 4)
    for words, text in WORDS:
        expect(program.run("serve", file, *words.split()), Ended(text, 2), words)
    named = ("0 --lines --resp", "0 --lines --text", "0 --lines --numbers", "0 --text --numbers", "0 8 --lines --connections 4 --resp")
    for words in (*named, "0 --connections 0", "0 --loops 65"):
        expect(program.run("serve", file, *words.split()).status, 2, words)
    with Service(program, file, 4, "--lines") as service:
        expect(replies(service.port, PING), b"bad 2\n" * 3, "a service of lines by threads")
    expect(os.listdir(folder), ["f"], "what is left")


def try_noise(program: Program, folder: str, drawn: Drawn) -> None:
    """Clients of both protocols one after the other, whose noise is drawn: each is told what a plain set tells in the protocol of its first byte."""
    file = os.path.join(folder, "f")
    plain, lines, frames = Plain(2, 60_000), drawn.noise(8), WithoutSize(drawn.seed * 8 + 5)
    put(file, plain.file())
    counts = {True: 0, False: 0}
    with serving(program, file) as service:
        for number in range(drawn.count // 4):
            text = frames.talk() if number % 2 else lines.lines()
            is_framed = text.startswith(b"*")
            counts[is_framed] += 1
            wanted = PlainTalk(plain).tell(text).replies if is_framed else plain.replies(text).encode("ascii")
            found = sent_in_pieces(service.port, frames, text) if is_framed else sent(connect(service.port), [text])
            expect(found, wanted, f"{text!r:.2000}")
    print(f"         {counts[True]} clients of frames and {counts[False]} of lines", flush=True)


TRIALS = (
    ("a service that chooses", try_choices),
    ("what a service doesn't choose", try_named),
    ("the port that is chosen", try_usual_port),
    ("a control socket that can't be chosen", try_faults),
    ("both protocols on one port", try_languages),
    ("clients of both protocols", try_beside),
    ("numbers or texts for both protocols", try_marks),
    ("a copy of a service of both protocols", try_copies),
    ("words of a service that chooses", try_words),
)
