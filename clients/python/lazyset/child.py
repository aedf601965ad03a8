"""The program as a child of this process, to which it serves a file."""

from __future__ import annotations

import os
import selectors
import shutil
import subprocess
import tempfile
from types import TracebackType
from typing import Optional, Type, Union

from .errors import NotServed

# How many seconds it may take until the child has read its file, where nothing else is given, and how many until it has stopped.
START_TIMEOUT = 600.0
STOP_TIMEOUT = 30.0

# How many commands it carries out at once, one of which its loop keeps for itself, and how many connections it has.
PASSES = 513
CONNECTIONS = 64

# The format of a file that is made here.
FORMAT = 4


class Child:
    """`lazyset serve FILE`, on a Unix socket at `path` in a folder that this user alone may enter.

    It stops in order at the end of a `with` block, and when this process ends, however that comes: its standard input is a pipe of this one. Its
    session is another one, so that Ctrl-C is for this process alone. `NotServed` has its words where it doesn't listen, or ends badly."""

    def __init__(self, file: Union[str, "os.PathLike[str]"], slots: Optional[int], program: str, timeout: Optional[float]) -> None:
        self._file = os.path.abspath(file)
        self._program = program
        self._process = os.getpid()
        if slots is not None and not os.path.exists(self._file):
            self._make(slots)
        self._folder = tempfile.mkdtemp(prefix="lazyset-")
        self.path = os.path.join(self._folder, "socket")
        self._log = os.path.join(self._folder, "log")
        try:
            self._child = self._start()
        except BaseException:
            shutil.rmtree(self._folder, ignore_errors=True)
            raise
        try:
            self._expect_listening(timeout)
        except BaseException:
            self._kill()
            raise

    def __enter__(self) -> Child:
        return self

    def __exit__(
        self,
        kind: Optional[Type[BaseException]],
        error: Optional[BaseException],
        trace: Optional[TracebackType],
    ) -> None:
        # A process that was forked off leaves the child to its parent.
        if self._process == os.getpid():
            self._stop(says_why=kind is None)

    def _make(self, slots: int) -> None:
        words = [self._program, "make", self._file, str(slots), "--format", str(FORMAT)]
        try:
            made = subprocess.run(words, stdin=subprocess.DEVNULL, stdout=subprocess.PIPE, stderr=subprocess.PIPE, text=True)
        except OSError as error:
            raise NotServed(f"{self._program} can't be started: {error}") from error
        if made.returncode != 0:
            raise NotServed(f"{self._file} wasn't made: {reason(made.stderr, made.stdout)}", made.returncode)

    def _start(self) -> "subprocess.Popen[str]":
        words = [self._program, "serve", self._file, "-", str(PASSES), "--connections", str(CONNECTIONS), "--socket", self.path, "--until-eof"]
        try:
            with open(self._log, "w", encoding="utf-8") as log:
                return subprocess.Popen(
                    words, stdin=subprocess.PIPE, stdout=subprocess.PIPE, stderr=log, text=True, start_new_session=True
                )
        except OSError as error:
            raise NotServed(f"{self._program} can't be started: {error}") from error

    def _expect_listening(self, timeout: Optional[float]) -> None:
        """Waits until the child has read the file, and clients may connect."""
        assert self._child.stdout is not None
        with selectors.DefaultSelector() as selector:
            selector.register(self._child.stdout, selectors.EVENT_READ)
            if not selector.select(timeout):
                raise NotServed(f"{self._file} isn't served within {timeout} seconds")
        told = self._child.stdout.readline()
        if not told.startswith("listening "):
            status = self._child.wait()
            raise NotServed(f"{self._file} isn't served: {self._reason(told)}", status)

    def _stop(self, says_why: bool) -> None:
        """Ends the child's input, and waits for its end; one that doesn't end is killed, which takes no answer back."""
        assert self._child.stdin is not None
        why = None
        try:
            self._child.stdin.close()
            status = self._child.wait(STOP_TIMEOUT)
            if status > 0 and says_why:
                why = NotServed(f"the service of {self._file} ended badly: {self._reason('')}", status)
        except subprocess.TimeoutExpired:
            pass
        finally:
            self._kill()
        if why is not None:
            raise why

    def _kill(self) -> None:
        self._child.kill()
        self._child.wait()
        for pipe in (self._child.stdin, self._child.stdout):
            if pipe is not None:
                pipe.close()
        shutil.rmtree(self._folder, ignore_errors=True)

    def _reason(self, told: str) -> str:
        with open(self._log, encoding="utf-8", errors="replace") as log:
            return reason(log.read(), told)


def reason(said: str, told: str) -> str:
    """Why the program ended, in its words: those on standard error that aren't its log, or what it told on standard output."""
    mark = "lazyset: "
    lines = [line[len(mark) :] for line in said.splitlines() if line.startswith(mark)]
    return "; ".join(lines) or told.strip() or "it ended without a word"
