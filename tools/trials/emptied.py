"""Slots whose keys were removed by one client, where another one adds."""

from __future__ import annotations

from lazyset import Lazyset
from trials.guests import PATIENCE, served
from trials.program import Program
from trials.report import expect


def try_emptied(program: Program, folder: str) -> None:
    """One client fills and empties each slot, one after the other, and no two calls overlap. Then there is room for another one's key."""
    for slots in (1, 2, 50):
        with served(program, folder, f"emptied{slots}", slots, 2) as service:
            with Lazyset(service.port, timeout=PATIENCE) as busy, Lazyset(service.port, timeout=PATIENCE) as idle:
                expect(idle.has(8), False, "a lookup, after which the pass is idle")
                for _ in range(slots):
                    expect((busy.add(7), busy.remove(7)), (True, True), "an addition and a removal")
                expect(idle.add(8), True, f"an addition over {slots} empty slots")
