"""The program's service over a new file."""

from __future__ import annotations

import os
import shutil
import signal
import subprocess
import tempfile
import unittest
from typing import Sequence


class Service:
    """A service over a new file in a folder of its own."""

    def __init__(self, slots: int, passes: int = 4, file_format: int = 2, options: Sequence[str] = ()) -> None:
        self.program = os.environ["LAZYSET"]
        self.folder = tempfile.mkdtemp(prefix="lazyset-clients-")
        self.file = os.path.join(self.folder, "f")
        self.passes = passes
        self.options = options
        words = [self.program, "make", self.file, str(slots), "--format", str(file_format)]
        subprocess.run(words, check=True, stdout=subprocess.DEVNULL)
        self.start()

    def start(self, port: int = 0) -> None:
        self.port = int(self.listening(str(port)))

    def start_at(self, path: str) -> None:
        """Listens on a Unix socket at this path."""
        if self.listening("-", "--socket", path) != path:
            raise AssertionError("it listens elsewhere")

    def listening(self, port: str, *options: str) -> str:
        """Starts it, and tells where it listens."""
        words = [self.program, "serve", self.file, port, str(self.passes), *self.options, *options]
        self.process = subprocess.Popen(words, stdout=subprocess.PIPE, stderr=subprocess.DEVNULL, text=True)
        assert self.process.stdout is not None
        return self.process.stdout.readline().split()[1]

    def kill(self) -> None:
        self.process.send_signal(signal.SIGKILL)
        self.process.wait()
        assert self.process.stdout is not None
        self.process.stdout.close()

    def end(self) -> None:
        self.kill()
        shutil.rmtree(self.folder)


class AgainstTheProgram(unittest.TestCase):
    slots = 2
    passes = 4
    file_format = 2
    options: Sequence[str] = ()

    def setUp(self) -> None:
        self.service = Service(self.slots, self.passes, self.file_format, self.options)
        self.addCleanup(self.service.end)
