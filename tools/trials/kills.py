"""A service that is killed under load, again and again, and judged by what its clients saw."""

from __future__ import annotations

import os
import random
import tempfile
import time
from typing import Callable, ContextManager, List, NamedTuple, Sequence, Tuple

import lazyset
from trials import load
from trials.history import Call, History, Life
from trials.program import Ended, Key, Program, Service
from trials.report import Wrong, expect

CLIENTS = 8

# Fewer slots than keys, so that some additions are refused.
SLOTS = 20


class Loaded(NamedTuple):
    """How a service is started, and who loads it: so many clients for each group of keys, who ask for no others, and how they speak. What they
    saw is a history of its own, since calls on different keys don't touch each other; it may have 64 clients. A file's format is drawn, for
    each load by itself."""

    slots: int
    passes: int
    options: Tuple[str, ...]
    clients: int
    groups: Sequence[Sequence[Key]]
    speak: Callable[[int], ContextManager[load.Ask]] = load.by_lines
    formats: Sequence[int] = (2, 3, 4, 4)


# What a kill is to a file: a service of format 4 hands its writes over at its syncs, so what it gathered since is lost.
ENDS = {2: "stop", 3: "stop", 4: "crash"}

EIGHT = Loaded(SLOTS, CLIENTS, (), CLIENTS, (load.KEYS,))

# After so many kills, or calls, a new file and a new history are begun: a history that is judged has a limit.
KILLS_OF_A_HISTORY = 20
CALLS_OF_A_HISTORY = 30000

# A kill comes so many seconds after the clients began, and later by so many for each of them, so that each may have been answered.
SOONEST, LATEST = 0.01, 0.12
LATER = 0.001


def life_until_kill(program: Program, file: str, loaded: Loaded, buckets: int, seed: int) -> List[Call]:
    """Serves the file, kills the service under load, and gives what the clients saw."""
    with Service(program, file, loaded.passes, "--buckets", str(buckets), *loaded.options) as service:
        if not service.port:
            raise Wrong(f"the file isn't served again: {service.told!r}")
        clients = load.start(loaded.clients, service.port, seed, loaded.groups, loaded.speak)
        clients_in_all = loaded.clients * len(loaded.groups)
        time.sleep(random.Random(seed).uniform(SOONEST, LATEST) + LATER * clients_in_all)
        service.kill()
        return load.finish(clients)


def killed_histories(program: Program, folder: str, loaded: Loaded, form: int, kills: int, seed: int) -> List[History]:
    """A history of each group over one file of this format, of so many lives that a kill ended, or fewer where they have many calls."""
    file = os.path.join(folder, f"killed-{seed}")
    program.make(file, loaded.slots, form)
    histories = [History() for _ in loaded.groups]
    calls_so_far = life = 0
    while life < kills and calls_so_far < CALLS_OF_A_HISTORY * len(histories):
        calls = life_until_kill(program, file, loaded, 1 + 6 * (life % 2), seed + life)
        note_life(histories, loaded.groups, calls, program.members(file), ENDS[form])
        calls_so_far += len(calls)
        life += 1
    return histories


def note_life(
    histories: Sequence[History], groups: Sequence[Sequence[Key]], calls: Sequence[Call], found: Sequence[Key], end: str = "stop"
) -> None:
    """Notes a life that ended so in the history of each group; no key of any other was found."""
    own = [set(keys) for keys in groups]
    expect([key for key in found if not any(key in keys for keys in own)], [], "keys that no client added")
    for history, keys in zip(histories, own):
        history.lives.append(Life([it for it in calls if it.key in keys], end, [key for key in found if key in keys]))


def judge(program: Program, folder: str, history: History) -> str:
    """Has the program judge a history, and gives its text."""
    path = os.path.join(folder, "history")
    text = history.text()
    with open(path, "w", encoding="ascii") as file:
        file.write(text)
    verdict = program.judge(path)
    if verdict != Ended("good\n", 0):
        raise Wrong(f"judged {verdict}; the history is kept as {_kept(text)}")
    return text


def _kept(text: str) -> str:
    """Keeps the text of a history that was judged wrong, and gives its path."""
    handle, path = tempfile.mkstemp(prefix="try-real-history-")
    with os.fdopen(handle, "w", encoding="ascii") as file:
        file.write(text)
    return path


def turned(text: str) -> str:
    """The history with the answer of its last answered call turned."""
    lines = text.splitlines()
    last = max(index for index, line in enumerate(lines) if line.startswith("answer "))
    word, number, answer = lines[last].split()
    lines[last] = f"{word} {number} {'no' if answer == 'yes' else 'yes'}"
    return "\n".join(lines) + "\n"


def lost(text: str) -> str:
    """The history with a key that its last open didn't find."""
    lines = text.splitlines()
    last = max(index for index, line in enumerate(lines) if line.startswith("open"))
    lines[last] += f" 15:{lazyset.MOST_NUMBER}"
    return "\n".join(lines) + "\n"


def refuses(program: Program, folder: str, text: str, flaw: str) -> None:
    """Expects that a spoiled history is judged wrong with this flaw."""
    path = os.path.join(folder, "spoiled")
    with open(path, "w", encoding="ascii") as file:
        file.write(text)
    verdict = program.judge(path)
    expect((verdict.text.split()[:2], verdict.status), (["flaw", flaw], 4), "a spoiled history")


def try_kills(program: Program, folder: str, kills: int, seed: int, loaded: Loaded = EIGHT) -> None:
    """So many kills, in histories that are all judged good; spoiled ones aren't."""
    answered = under_way = done = judged = crashed = 0
    while done < kills:
        form = random.Random(f"{seed + done} {loaded.options}").choice(loaded.formats)
        histories = killed_histories(program, folder, loaded, form, min(KILLS_OF_A_HISTORY, kills - done), seed + done)
        done += len(histories[0].lives)
        crashed += sum(life.end == "crash" for life in histories[0].lives)
        for history in histories:
            text = judge(program, folder, history)
            judged += 1
            for life in history.lives:
                replies = load.count_replies(life.calls)
                answered, under_way = answered + replies[0], under_way + replies[1]
            # On a busy machine a kill may come before a group has an answer.
            if any(line.startswith("answer ") for line in text.splitlines()):
                refuses(program, folder, turned(text), "4")
            refuses(program, folder, lost(text), "5")
    if answered < 10 * kills or under_way == 0:
        raise Wrong(f"too little load: {answered} answered, {under_way} under way")
    told = f"{answered} calls answered, {under_way} cut off, {crashed} kills of format 4"
    print(f"         {kills} kills, {judged} histories judged good: {told}", flush=True)
