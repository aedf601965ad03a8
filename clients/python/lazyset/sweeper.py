"""Removes the keys of the periods that are over (`lazyset.Periods`), from a service with `--resp`.

usage: python3 -m lazyset.sweeper PORT SECONDS [--guard SECONDS] [--once]

PORT is a port of this machine, or the path of a Unix socket. A period is SECONDS long, and the guard is 60 unless given: both as the
clients have them. It sweeps now, and again after each change of period, or with --once now alone, as for a timer. Each room that no period
uses is swept, so what a sweep that failed has left is gone after the next one. It says how many keys it removed.

A service of release 1.19 or later removes the keys of one room by one command (LZ.CLEAR, `RespKeys.clear`). A sweep goes page by page: so it serves
older ones too, and leaves a room at once where a change of period comes to it.
"""

from __future__ import annotations

import argparse
import sys
import time
from typing import Callable, Iterable, List, Protocol, Sequence, Union

from .errors import LazysetError
from .periods import GUARD, ROOMS, Calendar
from .resp import RespKeys

# How long it waits, in seconds, before it tries again where a sweep failed; less where a period is short.
PAUSE = 10.0


class Listed(Protocol):
    """What a sweep asks: a connection that lists the members of a room."""

    def pages(self, room: int) -> Iterable[List[int]]: ...

    def remove_all(self, numbers: Sequence[int], room: int = 0) -> int: ...


def sweep(keys: Listed, calendar: Calendar, clock: Callable[[], float] = time.time) -> int:
    """Removes the keys of each room that no period uses, that of the period before the last one first. Gives how many there were.

    No page is removed once a period has come to its room. That period is the next one then, so no claim uses the room for some time."""
    newest = calendar.periods(clock())[0]
    removed = 0
    for period in range(newest - 2, newest - ROOMS, -1):
        room = period % ROOMS
        if room in calendar.live_rooms(clock()):
            continue
        for page in keys.pages(room):
            if room in calendar.live_rooms(clock()):
                break
            removed += keys.remove_all(page, room)
    return removed


def sweep_for_ever(port: Union[int, str], calendar: Calendar) -> None:
    """Sweeps now and after each change. Each sweep has a connection of its own: a silent one may be ended by the service."""
    while True:
        began = time.time()
        wake = calendar.next_change(began)
        try:
            with RespKeys(port) as keys:
                tell(sweep(keys, calendar))
        except LazysetError as error:
            print(f"sweeper: {error}", file=sys.stderr, flush=True)
            wake = min(wake, time.time() + min(PAUSE, calendar.seconds / 4))
        time.sleep(max(0.0, wake - time.time()))


def tell(removed: int) -> None:
    print(f"swept {removed}", flush=True)


def main() -> None:
    parser = argparse.ArgumentParser(prog="lazyset.sweeper", description="Removes the keys of the periods that are over.")
    parser.add_argument("port", metavar="PORT", help="a port of this machine, or the path of a Unix socket, of a service with --resp")
    parser.add_argument("seconds", metavar="SECONDS", type=float, help="how long a period is")
    parser.add_argument("--guard", type=float, default=GUARD, help=f"how far clocks differ, and how long a claim takes, at most ({GUARD:.0f})")
    parser.add_argument("--once", action="store_true", help="sweep now alone")
    given = parser.parse_args()
    port = int(given.port) if given.port.isdigit() else given.port
    try:
        calendar = Calendar(given.seconds, given.guard)
    except ValueError as error:
        parser.error(str(error))
    if not given.once:
        sweep_for_ever(port, calendar)
    try:
        with RespKeys(port) as keys:
            tell(sweep(keys, calendar))
    except LazysetError as error:
        sys.exit(f"sweeper: {error}")


if __name__ == "__main__":
    main()
