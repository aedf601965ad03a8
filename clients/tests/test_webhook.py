"""The example of a receiver of webhooks."""

from __future__ import annotations

import hashlib
import http.client
import threading
from typing import List

import webhook_receiver
from lazyset import Pool

from .service import AgainstTheProgram


class Webhook(AgainstTheProgram):
    slots = 100
    passes = 4

    def setUp(self) -> None:
        super().setUp()
        self.handled: List[bytes] = []
        self.held = threading.Event()
        self.held.set()
        self.begun = threading.Event()
        pool = Pool(self.service.port, 2, timeout=20)
        self.addCleanup(pool.close)
        server = webhook_receiver.serve(0, webhook_receiver.Receiver(pool, self.handle))
        self.port = server.server_address[1]
        thread = threading.Thread(target=server.serve_forever, kwargs={"poll_interval": 0.02}, daemon=True)
        thread.start()
        self.addCleanup(server.server_close)
        self.addCleanup(server.shutdown)

    def handle(self, body: bytes) -> None:
        self.begun.set()
        self.held.wait(20)
        self.handled.append(body)

    def deliver(self, event_id: str, body: bytes) -> int:
        connection = http.client.HTTPConnection("127.0.0.1", self.port, timeout=30)
        try:
            connection.request("POST", "/", body, {"Webhook-Id": event_id} if event_id else {})
            return connection.getresponse().status
        finally:
            connection.close()

    def test_the_key_of_a_text(self) -> None:
        # SHA-256 of "abc", as FIPS 180-2 has it.
        digest = "ba7816bf8f01cfea414140de5dae2223b00361a396177a9cb410ff61f20015ad"
        self.assertEqual(hashlib.sha256(b"abc").hexdigest(), digest)
        self.assertEqual(webhook_receiver.key_of("abc"), int(digest, 16) % 10**18)

    def test_an_event_is_handled_once(self) -> None:
        for _ in range(3):
            self.assertEqual(self.deliver("evt_1", b"paid"), 200)
        self.assertEqual(self.deliver("evt_2", b"sent"), 200)
        self.assertEqual(self.handled, [b"paid", b"sent"])

    def test_a_delivery_beside_another_one_waits(self) -> None:
        self.held.clear()
        statuses: List[int] = []
        first = threading.Thread(target=lambda: statuses.append(self.deliver("evt_1", b"paid")))
        first.start()
        self.assertTrue(self.begun.wait(20))
        self.assertEqual(self.deliver("evt_1", b"paid"), 503)
        self.held.set()
        first.join(20)
        self.assertEqual(statuses, [200])
        self.assertEqual(self.deliver("evt_1", b"paid"), 200)
        self.assertEqual(self.handled, [b"paid"])

    def test_a_service_that_is_killed(self) -> None:
        self.assertEqual(self.deliver("evt_1", b"paid"), 200)
        port = self.service.port
        self.service.kill()
        self.assertEqual(self.deliver("evt_1", b"paid"), 503)
        self.assertEqual(self.deliver("evt_2", b"sent"), 503)
        self.service.start(port)
        self.assertEqual(self.deliver("evt_1", b"paid"), 200)
        self.assertEqual(self.deliver("evt_2", b"sent"), 200)
        self.assertEqual(self.handled, [b"paid", b"sent"])

    def test_an_event_without_an_id(self) -> None:
        self.assertEqual(self.deliver("", b"paid"), 400)
        self.assertEqual(self.handled, [])
