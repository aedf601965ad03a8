"""A device that fails: each write and sync of the slot file is made to fail by strace, one after the other."""

from __future__ import annotations

import os
import re
import shutil
import socket
import subprocess
import tempfile
from typing import Dict, List, Sequence, Tuple

from lazyset import Reply, Verb
from trials import kills, load
from trials.history import Call, History, Life, stamp
from trials.program import PATIENCE, Ended, Key, Program, Service
from trials.report import Skip, Wrong, expect

SLOTS = 3

# A format whose writes are made at once, and the one whose writes are gathered up to a sync.
FORMS = (2, 4)

# A session that uses slots again and has each kind of answer.
SESSION = (
    (Verb.ADD, 1),
    (Verb.ADD, 2),
    (Verb.HAS, 1),
    (Verb.REMOVE, 1),
    (Verb.ADD, 3),
    (Verb.REMOVE, 9),
    (Verb.ADD, 2),
    (Verb.REMOVE, 2),
    (Verb.ADD, 1),
    (Verb.HAS, 3),
)

# The calls of the system by which the program writes and syncs a file, and what they fail with.
FAILURES = {"pwrite64": "ENOSPC", "fdatasync": "EIO"}
CAUSES = {"pwrite64": "No space left on device (os error 28)", "fdatasync": "Input/output error (os error 5)"}

# The line of a service's log, but for its file.
DEVICE_FAILED = "the device failed: nothing is answered until the file is opened again"

# A sync of the open comes first; one that fails is a refused open.
REFUSED_DEVICE = Ended("refused 7\n", 1)


def needs_strace() -> None:
    """Skips the trial where strace isn't installed, or may not trace."""
    if shutil.which("strace") is None:
        raise Skip("strace isn't installed")
    if subprocess.run(["strace", "-qq", "-o", os.devnull, "true"], stderr=subprocess.DEVNULL).returncode:
        raise Skip("strace may not trace here")


def failing(file: str, call: str, number: int) -> List[str]:
    """The words behind which a program's call of that number on the file fails."""
    inject = f"{call}:error={FAILURES[call]}:when={number}"
    return ["strace", "-f", "-qq", "-o", os.devnull, "-P", file, "-e", f"trace={call}", "-e", f"inject={inject}"]


def session_lines() -> str:
    return "".join(f"{verb.value} {number}\n" for verb, number in SESSION)


def count_calls(program: Program, words: Sequence[str], lines: str, log: str) -> Dict[str, int]:
    """How often a command without failures, whose second word is the file, calls each of the system's calls on it."""
    calls = ",".join(FAILURES)
    before = ["strace", "-f", "-qq", "-o", log, "-P", words[1], "-e", f"trace={calls}"]
    expect(program.run(*words, lines=lines, before=before).status, 0, words[0])
    with open(log, encoding="ascii", errors="replace") as traced:
        text = traced.read()
    return {call: len(re.findall(rf"\b{call}\(", text)) for call in FAILURES}


def calls_of(text: str) -> List[Call]:
    """The calls of a session that was told these replies. After the first `halted` no line was read."""
    calls: List[Call] = []
    for (verb, number), word in zip(SESSION, text.splitlines()):
        call = Call(1, verb, Key(0, number), stamp())
        call.reply, call.ended = Reply(word), stamp()
        calls.append(call)
    return calls


def try_one(program: Program, folder: str, form: int, call: str, number: int) -> None:
    """A session whose call of that number fails: it is told halted, and what is found then is judged."""
    file = os.path.join(folder, f"{form}-{call}-{number}")
    program.make(file, SLOTS, form)
    ended = program.run("run", file, lines=session_lines(), before=failing(file, call, number))
    if call == "fdatasync" and number == 1:
        expect(ended, REFUSED_DEVICE, "an open whose sync fails")
        expect(program.members(file), [], "a file whose open was refused")
        return
    replies = ended.text.splitlines()
    if ended.status != 1 or replies[-1:] != ["halted"] or replies.count("halted") != 1:
        raise Wrong(f"{call} {number} failed: status {ended.status}, {ended.text!r}")
    history = History([Life(calls_of(ended.text), kills.ENDS[form], program.members(file))])
    kills.judge(program, folder, history)
    with Service(program, file, 1) as service:
        expect(service.told.split()[:1], ["listening"], "a service after a failed device")


def try_session(program: Program, folder: str) -> None:
    """Each write and each sync of a session fails once, in files of each of two formats."""
    needs_strace()
    for form in FORMS:
        try_each(program, folder, form)


def try_each(program: Program, folder: str, form: int) -> None:
    file = os.path.join(folder, f"counted-{form}")
    program.make(file, SLOTS, form)
    counts = count_calls(program, ["run", file], session_lines(), os.path.join(folder, "log"))
    if min(counts.values()) < 5:
        raise Wrong(f"too few calls to fail: {counts}")
    for call, count in counts.items():
        for number in range(1, count + 1):
            try_one(program, folder, form, call, number)
    told = ", ".join(f"{count} of {call}" for call, count in counts.items())
    print(f"         format {form}: failed in turn: {told}", flush=True)


def failed_life(program: Program, file: str, call: str, number: int, seed: int) -> Tuple[List[Call], int]:
    """Serves eight clients until the device fails, and gives what they saw and how the service ended. Its log says how it
    began, and once that the device failed."""
    before = failing(file, call, number)
    members = len(program.members(file))
    with tempfile.TemporaryFile("w+") as log:
        with Service(program, file, kills.CLIENTS, before=before, log=log) as service:
            clients = load.start(kills.CLIENTS, service.port, seed)
            calls = load.finish(clients)
            status = service.wait() or 0
        log.seek(0)
        said = [line.replace(f"{file}: ", "").rstrip("\n") for line in log]
        expect(news_of(said), log_lines(kills.SLOTS, members, kills.CLIENTS, call), "what the service says on standard error")
    return calls, status


def news_of(lines: List[str]) -> List[str]:
    """The lines of a log, without the file's name, but for those that tell how long it opened, how full the set was, how many waited and
    how it ended."""
    return [line for line in lines if not re.match(r"opened in |\d+ % full: |full: |all \d+ places are taken, |ended: ", line)]


def log_lines(slots: int, members: int, passes: int, call: str) -> List[str]:
    """The news of a service whose device fails in a call of the system."""
    serving = f"serving: slots {slots}, members {members}, buckets 1, passes {passes}"
    return ["opening", serving, DEVICE_FAILED, f"lazyset: {CAUSES[call]}"]


def try_service(program: Program, folder: str, seed: int) -> None:
    """A service of eight clients whose device fails: each is told halted, and it ends with status 1; then it is served
    again, over the same file, and the whole is judged; in files of each of two formats."""
    needs_strace()
    for form in FORMS:
        serve_failing(program, folder, form, seed)


def serve_failing(program: Program, folder: str, form: int, seed: int) -> None:
    file = os.path.join(folder, f"served-{form}")
    program.make(file, kills.SLOTS, form)
    history = History()
    for call, number in (("fdatasync", 5), ("pwrite64", 3), ("fdatasync", 12), ("pwrite64", 17)):
        calls, status = failed_life(program, file, call, number, seed + number)
        expect(status, 1, "the status of a service whose device failed")
        halted = sum(call.reply is Reply.HALTED for call in calls)
        expect(halted, kills.CLIENTS, "clients that were told halted")
        history.lives.append(Life(calls, kills.ENDS[form], program.members(file)))
    kills.judge(program, folder, history)


def try_untold(program: Program, folder: str) -> None:
    """The device fails in the last session of a service, whose client can't be told so: the reply fails too. The service ends
    with status 1 all the same, and says once why."""
    needs_strace()
    file = os.path.join(folder, "untold")
    program.make(file, SLOTS)
    # Of the thread that serves: its second sync, and its first reply.
    calls = ["trace=fdatasync,sendto", "inject=fdatasync:error=EIO:when=2", "inject=sendto:error=EPIPE:when=1"]
    before = ["strace", "-f", "-qq", "-o", os.devnull, *(word for call in calls for word in ("-e", call))]
    with tempfile.TemporaryFile("w+") as log:
        with Service(program, file, 1, "--sessions", "1", before=before, log=log) as service:
            with socket.create_connection(("127.0.0.1", service.port), PATIENCE) as client:
                client.sendall(b"add 1\n")
                expect(client.recv(16), b"", "what the client is told")
            expect(service.wait(), 1, "the status of a service whose device failed")
        log.seek(0)
        said = [line.replace(f"{file}: ", "").rstrip("\n") for line in log]
        expect(news_of(said), log_lines(SLOTS, 0, 1, "fdatasync"), "what the service says on standard error")
