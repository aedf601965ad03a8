#!/usr/bin/env python3
"""A webhook receiver that handles each event once, however often it is delivered.

    lazyset serve events 7000 8 --buckets 4096 &
    python3 webhook_receiver.py 8080 7000
    curl -H 'Webhook-Id: evt_1' -d 'paid' http://127.0.0.1:8080/

A sender delivers an event again until it is answered 200. Here that is said only when the event was handled and its id is
in the set, for good. So each event is handled at least once, and exactly once unless the receiver is killed, or loses the set
service, between handling and noting: what it does with an event must bear that. (Noting first would be at most once: the event
would be lost there instead.) A set has no values and no dates; docs/RECIPES.md says how old ids are forgotten.
"""

from __future__ import annotations

import hashlib
import sys
import threading
from http import HTTPStatus
from http.server import BaseHTTPRequestHandler, ThreadingHTTPServer
from typing import Callable, Set

from lazyset import MOST_NUMBER, LazysetError, Pool


def key_of(event_id: str) -> int:
    """The key that stands for a text. Among 65,536 texts two have the same one with a chance of 1 in 466 million."""
    return int.from_bytes(hashlib.sha256(event_id.encode("utf-8")).digest(), "big") % (MOST_NUMBER + 1)


class Receiver:
    """Handles events, whose ids it keeps in a set."""

    def __init__(self, handled: Pool, handle: Callable[[bytes], None]) -> None:
        self._handled = handled
        self._handle = handle
        self._lock = threading.Lock()
        self._under_way: Set[int] = set()

    def receive(self, event_id: str, body: bytes) -> HTTPStatus:
        """Handles the event unless that was done, and says what to answer."""
        key = key_of(event_id)
        with self._lock:
            if key in self._under_way:
                return HTTPStatus.SERVICE_UNAVAILABLE
            self._under_way.add(key)
        try:
            if not self._handled.has(key):
                self._handle(body)
                self._handled.add(key)
            return HTTPStatus.OK
        except LazysetError as error:
            # Whether it was noted isn't known, or it wasn't (a set that is full): the sender delivers it again.
            print(f"{event_id}: {error}", file=sys.stderr)
            return HTTPStatus.SERVICE_UNAVAILABLE
        finally:
            with self._lock:
                self._under_way.discard(key)


def serve(port: int, receiver: Receiver) -> ThreadingHTTPServer:
    """A server of this machine; `serve_forever` runs it."""

    class Handler(BaseHTTPRequestHandler):
        def do_POST(self) -> None:
            body = self.rfile.read(int(self.headers.get("Content-Length", "0")))
            event_id = self.headers.get("Webhook-Id", "")
            self.send_response(receiver.receive(event_id, body) if event_id else HTTPStatus.BAD_REQUEST)
            self.send_header("Content-Length", "0")
            self.end_headers()

        def log_message(self, *_: object) -> None:
            pass

    return ThreadingHTTPServer(("127.0.0.1", port), Handler)


def main() -> None:
    port, set_port = int(sys.argv[1]), int(sys.argv[2])
    with Pool(set_port, size=4) as handled:
        serve(port, Receiver(handled, lambda body: print(body.decode("utf-8", "replace"), flush=True))).serve_forever()


if __name__ == "__main__":
    main()
