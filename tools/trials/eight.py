"""Eight clients of a service that ends once each of its passes has served two of them."""

from __future__ import annotations

import os
import tempfile
import threading
from typing import Dict, List

from trials.guests import PATIENCE, connect, received
from trials.program import Key, Program, Service
from trials.report import expect

CLIENTS = 8
SHARED = 7


def own_keys(client: int) -> List[int]:
    """A hundred keys that no other client sends."""
    return [1000 + 100 * client + number for number in range(100)]


def talk(client: int, port: int, told: Dict[int, bytes]) -> None:
    """Adds a client's own keys and the one that each client sends, and notes the replies."""
    lines = "".join(f"add {key}\n" for key in (*own_keys(client), SHARED))
    with connect(port) as connection:
        connection.sendall(f"{lines}quit\n".encode())
        told[client] = received(connection)


def try_eight(program: Program, folder: str) -> None:
    """Each client's own keys are new, and of those that send the shared key one alone adds it. The service then ends with status 0,
    has said how it began, that it filled and how it ended, and its file holds exactly these keys."""
    file = os.path.join(folder, "served")
    program.make(file, 1000)
    told: Dict[int, bytes] = {}
    with tempfile.TemporaryFile("w+") as log:
        with Service(program, file, 4, "--sessions", "2", log=log) as service:
            threads = [threading.Thread(target=talk, args=(client, service.port, told)) for client in range(CLIENTS)]
            for thread in threads:
                thread.start()
            for thread in threads:
                thread.join(PATIENCE)
            expect(service.wait(), 0, "the status of a service whose sessions ended")
        log.seek(0)
        lines = [line.replace(f"{file}: ", "").rstrip("\n") for line in log]
    # Four clients wait at first, where they have come by then.
    begins, ends = lines[:3], [line for line in lines[3:] if not line.startswith("all 4 places are taken, ")]
    expect([begins[0], begins[2]], ["opening", "serving: slots 1000, members 0, buckets 1, passes 4"], "how its log begins")
    expect(ends, ["80 % full: 800 members in 1000 slots", "ended: sessions 8, members 801 of 1000 slots"], "how it goes on")
    expect([told[client][:400] for client in range(CLIENTS)], [b"yes\n" * 100] * CLIENTS, "replies to own keys")
    shared = sorted(told[client][400:] for client in range(CLIENTS))
    expect(shared, [b"no\n"] * (CLIENTS - 1) + [b"yes\n"], "replies to the shared key")
    keys = [SHARED, *(key for client in range(CLIENTS) for key in own_keys(client))]
    expect(program.members(file), [Key(0, key) for key in keys], "the keys of the file")
