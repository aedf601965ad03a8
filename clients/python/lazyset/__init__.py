"""A client of `lazyset serve`, which needs Python's standard library alone (3.8 or later).

    from lazyset import Command, Lazyset, Pool, key_of

    with Lazyset(7000) as keys:
        keys.add(17)                              # True: it is a member now, and wasn't before
        keys.has(17, room=3)                      # False: room 3 is another set
        keys.batch([Command.add(18), Command.has(17)])
        keys.add(key_of("evt_1"))                 # a text, by a number that stands for it
        keys.add(key_of("events", "evt_1"))       # a member of the set of that name
        keys.claim(20, worker=3)                  # True for one worker alone, also where replies are lost

    with Pool(7000, size=8) as keys:              # for many threads at once
        keys.add(19)

    with Lazyset.open("keys", slots=65536) as keys:
        keys.add(22)                              # a file that a child of this process serves, and no port

    with RespKeys(7009) as keys:                  # a service with --resp
        Periods(keys, 86400).is_new(21)           # True once a day; the key is forgotten a day later
        keys.clear(3)                             # removes all members of room 3, and gives how many

What each reply means, and what a lost connection leaves unknown, is told in docs/PROTOCOL.md; what a call may raise in
`lazyset.errors`.
"""

from .claims import MOST_WORKERS
from .commands import MOST_NUMBER, MOST_ROOM, Command, Reply, Verb
from .connection import CONNECT_TIMEOUT, REPLY_TIMEOUT, Lazyset
from .errors import (
    Bad,
    BadReply,
    BeingCleared,
    Closed,
    Full,
    Halted,
    InDoubt,
    Late,
    LazysetError,
    LostConnection,
    NoConnection,
    NotCleared,
    NotServed,
    OldFile,
    Refused,
    Stopping,
    TimedOut,
    Unfinished,
    Worn,
)
from .periods import Periods
from .pool import Pool
from .resp import RespKeys
from .texts import key_of, mark_of

__version__ = "1.21"

__all__ = [
    "CONNECT_TIMEOUT",
    "MOST_NUMBER",
    "MOST_ROOM",
    "MOST_WORKERS",
    "REPLY_TIMEOUT",
    "Bad",
    "BadReply",
    "BeingCleared",
    "Closed",
    "Command",
    "Full",
    "Halted",
    "InDoubt",
    "Late",
    "Lazyset",
    "LazysetError",
    "LostConnection",
    "NoConnection",
    "NotCleared",
    "NotServed",
    "OldFile",
    "Periods",
    "Pool",
    "Refused",
    "Reply",
    "RespKeys",
    "Stopping",
    "TimedOut",
    "Unfinished",
    "Verb",
    "Worn",
    "key_of",
    "mark_of",
]
