"""A file system of one file, whose disk is this process: the kernel caches what is written, and a write to the disk may be made to fail.

It speaks the kernel's own protocol (fuse(4), <linux/fuse.h>), so that it needs no library, but root and /dev/fuse."""

from __future__ import annotations

import ctypes
import errno
import os
import stat
import struct
import threading
from contextlib import contextmanager
from typing import Callable, Dict, Iterator, Optional

from trials.report import Skip

NAME = "f"
ROOT, FILE = 1, 2

# The calls that are answered (<linux/fuse.h>), and those that want no answer.
LOOKUP, GETATTR, SETATTR, OPEN, READ, WRITE, STATFS, RELEASE, FSYNC = 1, 3, 4, 14, 15, 16, 17, 18, 20
FLUSH, INIT, OPENDIR, RELEASEDIR, FSYNCDIR, ACCESS, DESTROY = 25, 26, 27, 29, 30, 34, 38
UNANSWERED = (2, 36, 42)

# The kernel keeps what is written up to a sync, and what it has read when the file is opened again.
WRITEBACK_CACHE, KEEP_CACHE, SIZE_IS_SET = 1 << 16, 1 << 1, 1 << 3
MOST_WRITE, DETACH = 1 << 17, 2
FOREVER = 1 << 30


class FuseDisk:
    """The bytes of the file on its disk, and which write to it fails."""

    def __init__(self, data: bytes) -> None:
        self.data = bytearray(data)
        self.writes = 0
        # From which write on all fail, until this is None again.
        self.fails_from: Optional[int] = None

    def answer(self, call: int, node: int, body: bytes) -> bytes:
        """The answer to a call, or an OSError."""
        answers: Dict[int, Callable[[int, bytes], bytes]] = {
            INIT: self._init,
            LOOKUP: self._look_up,
            GETATTR: lambda node, _: struct.pack("<QII", FOREVER, 0, 0) + self._attributes(node),
            SETATTR: self._set,
            OPEN: lambda *_: struct.pack("<QII", 0, KEEP_CACHE, 0),
            OPENDIR: lambda *_: bytes(16),
            READ: self._read,
            WRITE: self._write,
            STATFS: lambda *_: struct.pack("<QQQQQIIII24x", 1 << 20, 1 << 20, 1 << 20, 9, 9, 4096, 255, 4096, 0),
        }
        if call in answers:
            return answers[call](node, body)
        if call in (RELEASE, FSYNC, FLUSH, RELEASEDIR, FSYNCDIR, ACCESS, DESTROY):
            return b""
        raise OSError(errno.ENOSYS, "no such call")

    def _init(self, _: int, body: bytes) -> bytes:
        major, minor, ahead, offered = struct.unpack_from("<IIII", body)
        if major != 7 or not offered & WRITEBACK_CACHE:
            raise OSError(errno.EPROTO, "no cache of writes")
        return struct.pack("<IIIIHHIIHHI28x", 7, min(minor, 31), ahead, WRITEBACK_CACHE, 16, 12, MOST_WRITE, 1, 0, 0, 0)

    def _look_up(self, _: int, body: bytes) -> bytes:
        if body.rstrip(b"\0") != NAME.encode():
            raise OSError(errno.ENOENT, "no such file")
        return struct.pack("<QQQQII", FILE, 0, FOREVER, FOREVER, 0, 0) + self._attributes(FILE)

    def _attributes(self, node: int) -> bytes:
        mode, size = (stat.S_IFDIR | 0o755, 4096) if node == ROOT else (stat.S_IFREG | 0o600, len(self.data))
        return struct.pack("<QQQQQQIIIIIIIIII", node, size, 8, 0, 0, 0, 0, 0, 0, mode, 1, 0, 0, 0, 4096, 0)

    def _set(self, node: int, body: bytes) -> bytes:
        valid, _, _, size = struct.unpack_from("<IIQQ", body)
        if valid & SIZE_IS_SET:
            self.data[:] = self.data[:size].ljust(size, b"\0")
        return struct.pack("<QII", FOREVER, 0, 0) + self._attributes(node)

    def _read(self, _: int, body: bytes) -> bytes:
        _, at, size = struct.unpack_from("<QQI", body)
        return bytes(self.data[at : at + size])

    def _write(self, _: int, body: bytes) -> bytes:
        _, at, size = struct.unpack_from("<QQI", body)
        self.writes += 1
        if self.fails_from is not None and self.writes >= self.fails_from:
            raise OSError(errno.EIO, "the disk fails")
        self.data[at : at + size] = body[40 : 40 + size]
        return struct.pack("<II", size, 0)

    def serve(self, device: int) -> None:
        """Answers the kernel, until the file system is taken down."""
        while True:
            try:
                asked = os.read(device, MOST_WRITE + 4096)
            except OSError as error:
                if error.errno in (errno.EINTR, errno.ENOENT):
                    continue
                return
            _, call, number, node = struct.unpack_from("<IIQQ", asked)
            if call in UNANSWERED:
                continue
            try:
                status, told = 0, self.answer(call, node, asked[40:])
            except OSError as error:
                status, told = -(error.errno or errno.EIO), b""
            os.write(device, struct.pack("<IiQ", 16 + len(told), status, number) + told)


@contextmanager
def mounted(disk: FuseDisk, folder: str) -> Iterator[str]:
    """The path of the disk's file, while it is mounted there."""
    system = ctypes.CDLL(None, use_errno=True)
    os.makedirs(folder, exist_ok=True)
    try:
        device = os.open("/dev/fuse", os.O_RDWR)
    except OSError as error:
        raise Skip(f"no /dev/fuse: {error.strerror}") from error
    how = f"fd={device},rootmode=40000,user_id={os.getuid()},group_id={os.getgid()}"
    if system.mount(b"lazyset", folder.encode(), b"fuse", 0, how.encode()):
        os.close(device)
        raise Skip(f"no file system can be mounted: {os.strerror(ctypes.get_errno())}")
    server = threading.Thread(target=disk.serve, args=(device,), daemon=True)
    server.start()
    try:
        yield os.path.join(folder, NAME)
    finally:
        system.umount2(folder.encode(), DETACH)
        os.close(device)
