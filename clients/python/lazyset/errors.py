"""What a call may raise, besides TypeError and ValueError for what is no command (nothing is sent then).

    LazysetError
        Refused             answered, and nothing was changed; the connection goes on
            Full, OldFile, Worn
        InDoubt             a claim of which an earlier try had no answer: it isn't known whose the key is
        Late                a claim of a period took too long: it isn't known whether the key is new
        BeingCleared        a room is being cleared, and one at a time: nothing was done; the connection goes on
        NotCleared          a clearing ended early; what it removed stays so
        NotServed           the child of `Lazyset.open` didn't serve its file, or ended badly, and why
        Unfinished          the connection is closed; `replies` and `command` say how far the call came
            Halted          the service's device failed
            Stopping        the service ends; nothing was done
            Bad, BadReply   this is no service of this protocol
            LostConnection  the connection ended
                TimedOut    no reply came in time
                Closed, NoConnection    nothing was sent
"""

from __future__ import annotations

from typing import List, Optional, Sequence

from .commands import Command, Reply


class LazysetError(Exception):
    """Whatever goes wrong with a command that reads."""


class Refused(LazysetError):
    """The service answered `command` and changed nothing. The connection goes on."""

    reason = "refused"

    def __init__(self, command: Command) -> None:
        super().__init__(f"{self.reason}: {command}")
        self.command = command


class Full(Refused):
    """The set has as many members as the file has slots. Where clients overlap it may come while the slot of a key that was
    just removed isn't free again yet: ask again later."""

    reason = "the file has no free slot"


class OldFile(Refused):
    """The file is of format 1, which knows room 0 alone."""

    reason = "a file of format 1 has room 0 alone"


class Worn(Refused):
    """The pass of this connection has carried out all the commands that it can. Another connection may still be served."""

    reason = "this connection's pass is worn"


class InDoubt(LazysetError):
    """The key of a claim was given to somebody: by an earlier try of this worker, which had no answer, or to one of `workers`, which
    claimed it too. Claim it again once these have ended their claims; where it stays so, leave it to them. Only where each of them had
    no answer either may nobody have it: that is for a person to look at."""

    def __init__(self, number: int, workers: Sequence[int]) -> None:
        super().__init__(f"{number} may be this worker's, or that of {', '.join(map(str, workers))}")
        self.number = number
        self.workers = list(workers)


class Late(LazysetError):
    """A claim of a period took `seconds`, which is longer than the guard. The key was added, and another client may have been told that it is new
    around the change of period. Take it as a lost reply."""

    def __init__(self, number: int, seconds: float) -> None:
        super().__init__(f"a claim of {number} took {seconds:.1f} seconds, which is longer than the guard")
        self.number = number
        self.seconds = seconds


class BeingCleared(LazysetError):
    """A room is being cleared, and a service clears one at a time. Nothing was done for this call: ask again after it. The connection goes on."""

    def __init__(self, room: int) -> None:
        super().__init__(f"a room is being cleared, and room {room} isn't: ask again after it")
        self.room = room


class NotCleared(LazysetError):
    """The clearing of `room` ended early: the service stops, its device failed, or it has no memory. So many of its keys were `removed`, for good.
    Ask again once it is started again."""

    def __init__(self, room: int, removed: int) -> None:
        super().__init__(f"room {room} isn't cleared: {removed} of its keys were removed")
        self.room = room
        self.removed = removed


class NotServed(LazysetError):
    """The child that `Lazyset.open` starts doesn't serve the file, or has ended badly; the message has its words, and `status` its status, if it
    has ended by itself. What was answered before holds."""

    def __init__(self, message: str, status: Optional[int] = None) -> None:
        super().__init__(message)
        self.status = status


class Unfinished(LazysetError):
    """A call ended before each of its commands had a reply, and the connection is closed.

    `replies` are those that came, and `command` is the first one without (None where the call had none). Of `command` and
    those after it some first ones may have been done and the rest not. They may be asked again, on a new connection:
    docs/PROTOCOL.md, "When a connection is lost", says what the replies mean then."""

    def __init__(self, message: str, replies: Sequence[Reply] = (), command: Optional[Command] = None) -> None:
        super().__init__(message)
        self.replies: List[Reply] = list(replies)
        self.command = command

    def __str__(self) -> str:
        told = super().__str__()
        return f"{told} (at {self.command}, after {len(self.replies)} replies)" if self.command else told


class Halted(Unfinished):
    """The service's device failed. `command` may have been done or not, and opening the file decides it; none after it was
    done. The service carries out nothing more until it is started again."""


class Stopping(Unfinished):
    """The service ends, and has begun neither `command` nor those after it. **None of them was done, and none will be.** Ask again once it is
    started again."""


class Bad(Unfinished):
    """The service answered `bad N` to `command` (N is `number`): it didn't take the line for a command, which no service of
    this protocol does. The commands after it may have been done."""

    def __init__(self, number: int) -> None:
        super().__init__(f"bad {number}")
        self.number = number


class BadReply(Unfinished):
    """What came is no reply of this protocol. Nothing is known of `command` and those after it."""


class LostConnection(Unfinished):
    """The connection ended. `command` and those after it may have been done, some first ones of them."""


class TimedOut(LostConnection):
    """No reply came within the timeout. **The command may have been done, or be done later**: the service may still carry
    it out after the connection is closed. So an `add` that is asked again and answered `no` (False) may have been added by
    the first try: it isn't a sign that anyone handled that key."""


class Closed(LostConnection):
    """The connection was closed before this call, by close() or by whatever ended an earlier call. **Nothing was sent.**
    reconnect() opens it again."""


class NoConnection(LostConnection):
    """There is no connection to the service: the port is closed, or connecting or waiting for a free connection of a pool
    took too long. **Nothing was sent.**"""
