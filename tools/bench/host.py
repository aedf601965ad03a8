"""The machine on which is measured, how much of it the host took away, and what keeps it from that."""

from __future__ import annotations

import contextlib
import datetime
import os
import platform
import subprocess
import sys
from typing import Iterator, List, Sequence, Set

SPIN = "import os; os.sched_setscheduler(0, os.SCHED_IDLE, os.sched_param(0))\nwhile True: pass"


@contextlib.contextmanager
def awake() -> Iterator[None]:
    """Keeps each processor busy with what yields to all other work. A virtual one that waits is given away by its host, and has to be waited for."""
    spinning = [subprocess.Popen([sys.executable, "-c", SPIN]) for _ in range(os.cpu_count() or 1)]
    try:
        yield
    finally:
        for it in spinning:
            it.kill()
            it.wait()


@contextlib.contextmanager
def on(processors: Set[int]) -> Iterator[None]:
    """What is started meanwhile runs on these processors."""
    before = os.sched_getaffinity(0)
    os.sched_setaffinity(0, processors)
    try:
        yield
    finally:
        os.sched_setaffinity(0, before)


def times() -> List[int]:
    """For how long the processors did each kind of thing since the start, as the system counts it."""
    with open("/proc/stat", encoding="ascii") as counts:
        return [int(word) for word in counts.readline().split()[1:9]]


def stolen(before: Sequence[int]) -> float:
    """The share of the time in which the processors had work since then that the host gave to others, in percent."""
    _, _, _, idle, waiting, _, _, steal = spent = [now - then for now, then in zip(times(), before)]
    return 100 * steal / max(sum(spent) - idle - waiting, 1)


def machine(before: Sequence[int]) -> str:
    name = next((line.split(":")[1].strip() for line in open("/proc/cpuinfo") if line.startswith("model name")), platform.machine())
    load = os.getloadavg()[0]
    today = datetime.date.today().isoformat()
    host = f"load average at the end {load:.1f}, {stolen(before):.0f} % of the work's time taken by the host"
    return f"{today}, {name}, {os.cpu_count()} processors, Linux {platform.release()}; {host}"
