"""What the system tells of a service's process."""

from __future__ import annotations

import os
import time

from trials.program import Service
from trials.report import Skip, Wrong


def memory(service: Service) -> int:
    """The bytes that a service has in memory."""
    try:
        with open(f"/proc/{service.process.pid}/statm", encoding="ascii") as sizes:
            return int(sizes.read().split()[1]) * os.sysconf("SC_PAGE_SIZE")
    except OSError:
        raise Skip("no system tells the memory of a process here") from None


def expect_rest(service: Service, what: str) -> None:
    """For half a second the service takes next to no time of a processor."""
    before = processor_seconds(service)
    time.sleep(0.5)
    taken = processor_seconds(service) - before
    if taken > 0.2:
        raise Wrong(f"{what} costs the service {taken:.2f} seconds of processor in half a second")


def processor_seconds(service: Service) -> float:
    try:
        with open(f"/proc/{service.process.pid}/stat", encoding="ascii", errors="replace") as status:
            fields = status.read().rpartition(")")[2].split()
    except OSError:
        raise Skip("no system tells the time of a process here") from None
    return (int(fields[11]) + int(fields[12])) / os.sysconf("SC_CLK_TCK")
