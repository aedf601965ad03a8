"""Group commit: additions of many clients share their syncs."""

from __future__ import annotations

import os
import re
import threading
from typing import List

from lazyset import Command, Lazyset, Reply
from trials.faults import needs_strace
from trials.program import Key, Program, Service
from trials.report import Wrong, expect

CLIENTS = 16
OWN_KEYS = 64
PATIENCE = 60.0


def try_group(program: Program, folder: str, *options: str) -> None:
    """An addition by itself takes two syncs. Those of sixteen clients together take fewer syncs than there are additions. The options
    have the service end after as many clients."""
    needs_strace()
    file, log = os.path.join(folder, "f"), os.path.join(folder, "log")
    keys = CLIENTS * OWN_KEYS
    program.make(file, keys)
    traced = ["strace", "-f", "-qq", "-o", log, "-P", file, "-e", "trace=fdatasync"]
    added: List[int] = [0] * CLIENTS

    def add_all(index: int, port: int) -> None:
        with Lazyset(port, timeout=PATIENCE) as client:
            own = [Command.add(index * OWN_KEYS + number) for number in range(OWN_KEYS)]
            added[index] = client.batch(own).count(Reply.YES)

    with Service(program, file, CLIENTS, "--buckets", "64", *options, before=traced) as service:
        threads = [threading.Thread(target=add_all, args=(i, service.port)) for i in range(CLIENTS)]
        for thread in threads:
            thread.start()
        for thread in threads:
            thread.join(PATIENCE)
        expect(service.wait(), 0, "the status of the service")
    expect(sum(added), keys, "keys told as added")
    expect(program.members(file), [Key(0, number) for number in range(keys)], "the keys of the file")
    with open(log, encoding="ascii", errors="replace") as text:
        syncs = len(re.findall(r"\bfdatasync\(", text.read()))
    if syncs >= keys:
        raise Wrong(f"{keys} additions of {CLIENTS} clients took {syncs} syncs")
    print(f"         {keys} additions took {syncs} syncs", flush=True)
