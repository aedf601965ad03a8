"""The slots of a file of format 4 on a bytewise device, and what a crash leaves of them: an independent model, written from docs/FORMATS.md."""

from __future__ import annotations

from typing import List, Set

from trials.plain import SLOT_SIZE, is_open, key_in, slot_of
from trials.program import Key

ZEROS = bytes(SLOT_SIZE)

# The stages of a slot, and those whose last write no sync has covered: what a sync makes of each.
CLOSED, TORN, KEY_LOOSE, KEYED, OPENING, OPEN, CLOSING = range(7)
SYNCED = {KEY_LOOSE: KEYED, OPENING: OPEN, CLOSING: CLOSED}


class Failed(Exception):
    """The device fails, or has failed before."""


class Device:
    """The bytes of all slots: the durable ones, those as read, and the places that were written since the last sync."""

    def __init__(self, slots: int) -> None:
        self.sure = self.seen = bytes(SLOT_SIZE * slots)
        self.loose: Set[int] = set()
        self.is_tripped = False

    def _pass(self) -> None:
        if self.is_tripped:
            self.is_tripped = False
            raise Failed("device")

    def write(self, slot: int, text: bytes) -> None:
        """Writes a slot. One that fails leaves its places loose, and nothing of it is read."""
        start, end = SLOT_SIZE * slot, SLOT_SIZE * (slot + 1)
        self.loose.update(range(start, end))
        self._pass()
        self.seen = self.seen[:start] + text + self.seen[end:]

    def sync(self) -> None:
        self._pass()
        self.sure = self.seen
        self.loose.clear()

    def crash(self, pick: str) -> None:
        """What is loose is as before, as written last, or so in its first places. No byte stands there that nobody wrote."""
        if pick == "new":
            self.sure = self.seen
        elif pick.startswith("part "):
            left = bytearray(self.sure)
            for place in sorted(self.loose)[: int(pick[len("part ") :])]:
                left[place] = self.seen[place]
            self.sure = bytes(left)
        self.seen = self.sure
        self.loose.clear()
        self.is_tripped = False

    def slots(self) -> List[bytes]:
        """The bytes of each slot as read."""
        return [self.seen[start : start + SLOT_SIZE] for start in range(0, len(self.seen), SLOT_SIZE)]


class Vault:
    """The slots of a device that was opened, each in a stage. Once a call of the device failed no further one reaches it."""

    def __init__(self, device: Device) -> None:
        device.sync()
        self.device = device
        self.is_dead = False
        self.stages: List[int] = []
        self.members: List[Key] = []
        self.places: List[int] = []
        for place, slot in enumerate(device.slots()):
            is_member = is_open(4, slot)
            self.stages.append(OPEN if is_member else CLOSED if slot == ZEROS else TORN)
            key = key_in(4, slot) if is_member else None
            if key is not None:
                self.members.append(key)
                self.places.append(place)

    def _write(self, slot: int, text: bytes, stage: int) -> None:
        try:
            self.device.write(slot, text)
        except Failed:
            self.is_dead = True
            raise
        self.stages[slot] = stage

    def put_key(self, slot: int) -> None:
        if self.stages[slot] == TORN:
            self._write(slot, ZEROS, KEY_LOOSE)
        elif self.stages[slot] == CLOSED:
            self.stages[slot] = KEYED

    def open_gate(self, slot: int, key: Key) -> None:
        assert self.stages[slot] == KEYED
        self._write(slot, slot_of(key, 4), OPENING)

    def close_gate(self, slot: int) -> None:
        assert self.stages[slot] in (OPENING, OPEN)
        self._write(slot, ZEROS, CLOSING)

    def is_covered(self, slot: int) -> bool:
        return self.stages[slot] not in SYNCED

    def sync(self, slot: int) -> None:
        """Syncs, unless the slot's last write is covered."""
        if self.is_covered(slot):
            return
        try:
            self.device.sync()
        except Failed:
            self.is_dead = True
            raise
        self.stages = [SYNCED.get(stage, stage) for stage in self.stages]
