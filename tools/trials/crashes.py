"""Rehearsals over files of format 4, with many crashes each, that a seed determines: each prints what an independent model prints."""

from __future__ import annotations

import random
from typing import List

from trials import transcripts
from trials.device import TORN
from trials.machine import PASSES, World
from trials.noise import COMMANDS, KINDS
from trials.plain import MOST_NUMBER, MOST_ROOM, SLOT_SIZE
from trials.program import Key, Program
from trials.rehearsals import STORED, alike, rehearse
from trials.report import Wrong, expect

# How many crashes a script has at least, how many lines a life, and how many actors.
CRASHES, STEPS, ACTORS = 1000, 32, 5

# A script has some of these keys, as many as slots, or fewer, or more.
KEYS = tuple(Key(room, number) for room in (0, 3, MOST_ROOM) for number in (0, 8, MOST_NUMBER))
SLOTS, BUCKETS = 6, (1, 2, 7)

# Kinds behind which some bytes aren't synced.
LOOSE = ("WriteOpen", "Link", "Release", "WriteClose", "Mark")

# What a crash picks; a part of what is loose is drawn. In format 4 a byte that nobody wrote doesn't come.
PICKS = ("old", "new", "new", "a5", "00", "part", "part", "part", "part")


class Script:
    """Draws lines, each of which is lawful where it stands, and has the model say what they print."""

    def __init__(self, draw: random.Random) -> None:
        self.draw = draw
        self.slots, self.buckets = draw.randint(1, SLOTS), draw.choice(BUCKETS)
        self.keys = draw.sample(KEYS, draw.randint(2, len(KEYS)))
        self.world = World(self.slots, self.buckets)
        self.lines: List[str] = []
        self.told: List[str] = []
        self.crashes = self.loose = self.torn = 0

    def play(self, line: str) -> str:
        self.lines.append(line)
        self.told.append(self.world.play(line))
        return self.told[-1]

    def live(self) -> None:
        """A life of a few actors, its end, and the next open that succeeds."""
        actors = self.draw.sample(range(1, PASSES + 1), self.draw.randint(1, ACTORS))
        for _ in range(self.draw.randint(4, STEPS)):
            self._step(self.draw.choice(actors))
            if self.world.device.loose and self.draw.randrange(3) == 0:
                break
        self._end()
        while self._open() == "open fault 7\n":
            if self.draw.randrange(2):
                self._end()
        if self.world.life is not None and TORN in self.world.life.vault.stages:
            self.torn += 1

    def _step(self, actor: int) -> None:
        draw = self.draw
        kind = draw.randrange(64)
        if kind == 0:
            self.play("trip")
        elif kind < 4:
            self.play("show")
        elif actor not in self.world.calls:
            self.play(self._call(actor))
        elif kind < 24:
            self.play(f"turn {actor} {draw.randint(1, 12)}")
        elif kind < 52:
            self.play(f"until {actor} {draw.choice(LOOSE if kind < 44 else KINDS)}")
        else:
            self.play(f"finish {actor}")

    def _call(self, actor: int) -> str:
        """A call that most often changes what the life began with."""
        key = self.draw.choice(self.keys)
        held = self.world.life.vault.members if self.world.life is not None else ()
        verb = ("remove" if key in held else "add") if self.draw.randrange(4) else self.draw.choice(COMMANDS)
        return f"call {actor} {verb} {key}"

    def _end(self) -> None:
        """A crash, or a stop that may be followed by one."""
        if self.draw.randrange(8) == 0:
            self.play("stop")
            if self.draw.randrange(2):
                return
        self.crashes += 1
        self.loose += bool(self.world.device.loose)
        self.play(f"crash {self._pick()}")

    def _pick(self) -> str:
        """Of a part every other one ends at the end of a slot, or next to it."""
        pick, loose = self.draw.choice(PICKS), len(self.world.device.loose)
        if pick != "part":
            return pick
        if self.draw.randrange(2):
            return f"part {self.draw.randint(0, loose + 1)}"
        return f"part {max(0, SLOT_SIZE * self.draw.randint(0, loose // SLOT_SIZE) + self.draw.choice((-1, 0, 0, 1)))}"

    def _open(self) -> str:
        if self.draw.randrange(32) == 0:
            self.play("trip")
        return self.play("open")


def expect_stored() -> None:
    """The model prints what stands in the stored transcripts, but for those with a line that isn't lawful."""
    for transcript in (it for name in STORED for it in transcripts.stored(name) if 4 in alike(it)):
        asked, told = transcript.first()
        for buckets in transcript.buckets:
            world = World(transcript.slots, buckets)
            if "line " not in told:
                expect("".join(world.play(line) for line in asked.splitlines()), told, transcript.name)


def expect_told(program: Program, script: Script, seed: str) -> None:
    """The rehearsal prints what the model does; else the first line of the script that doesn't is named."""
    ended = rehearse(program, (script.slots, script.buckets, 4), "".join(f"{line}\n" for line in script.lines))
    if ended == ("".join(script.told), 0):
        return
    at = 0
    for number, told in enumerate(script.told, 1):
        if ended.text[at : at + len(told)] != told:
            found = ended.text[at:].partition("\n")[0]
            raise Wrong(f"{seed}, line {number}: found {found!r}, wanted {told!r}, behind {script.lines[max(0, number - 40) : number]}")
        at += len(told)
    raise Wrong(f"{seed}: status {ended.status}, and behind the last line {ended.text[at:]!r:.200}")


def try_crashes(program: Program, seed: int, crashes: int) -> None:
    """So many crashes are rehearsed, after any turns of several actors, and with them failures of the device and stops."""
    expect_stored()
    done = loose = torn = scripts = 0
    while done < crashes:
        script = Script(random.Random(f"{seed} {scripts}"))
        while script.crashes < min(CRASHES, crashes - done):
            script.live()
        expect_told(program, script, f"seed {seed}, script {scripts}")
        done, loose, torn, scripts = done + script.crashes, loose + script.loose, torn + script.torn, scripts + 1
    told = f"{done} crashes rehearsed by {scripts} scripts, {loose} of them over bytes that weren't synced"
    print(f"         {told}; {torn} opens found a torn slot", flush=True)
