"""Frames and replies of Redis's protocol over a plain set: an independent model, written from docs/PROTOCOL.md."""

from __future__ import annotations

from typing import Callable, Dict, List, NamedTuple, Optional, Sequence, Tuple

from trials.plain import MOST_NUMBER, MOST_ROOM, Plain, read_range
from trials.program import Key

MOST_WORD = 512
MOST_WORDS = 8192
MOST_FRAME = 65_536
MOST_VALUE = 64
MOST_SHOWN = 128

# Greater than what a count that is less than zero may be.
MOST_READ = 2**64 - 1

OK, NIL, PONG, RESET = b"+OK\r\n", b"$-1\r\n", b"+PONG\r\n", b"+RESET\r\n"
NO_TRANSACTIONS = b"-ERR transactions aren't served; nothing is done until EXEC or DISCARD\r\n"

# What ends a transaction, and what it is told.
ENDS = {"exec": b"-EXECABORT Transaction discarded because of previous errors.\r\n", "discard": OK, "reset": RESET}


class Unfinished(Exception):
    """The text ends within a frame."""


class Faulty(Exception):
    """The text goes on in no frame."""


class Told(NamedTuple):
    """What is told of a text: the replies, after how many bytes the service ends the connection, if it does, and how many replies there are."""

    replies: bytes
    ended_at: Optional[int]
    count: int


def array(*words: bytes) -> bytes:
    """A frame of these words."""
    return b"*%d\r\n" % len(words) + b"".join(map(bulk, words))


def bulk(word: bytes) -> bytes:
    return b"$%d\r\n%s\r\n" % (len(word), word)


def integer(number: int) -> bytes:
    return b":%d\r\n" % number


def error(text: str) -> bytes:
    return f"-ERR {text}\r\n".encode("latin-1")


def line_at(text: bytes, start: int, fault: str) -> Tuple[bytes, int]:
    """What stands before the first carriage return, and where its line feed ends."""
    end = text.find(b"\r", start)
    if end < 0 or end + 1 == len(text):
        raise Unfinished
    if text[end + 1 : end + 2] != b"\n":
        raise Faulty(fault)
    return text[start:end], end + 2


def word_at(text: bytes, start: int) -> Tuple[bytes, int]:
    """A bulk string, and where it ends."""
    mark = text[start : start + 1].decode("latin-1")
    if not mark:
        raise Unfinished
    if mark != "$":
        raise Faulty(f"expected '$', got '{on_line(mark)}'")
    digits, begin = line_at(text, start + 1, "invalid bulk length")
    length = read_range(digits, 0, MOST_WORD)
    if length is None:
        raise Faulty("invalid bulk length")
    end = begin + length
    if not b"\r\n".startswith(text[end : end + 2]):
        raise Faulty("no line end after a bulk")
    if len(text) < end + 2:
        raise Unfinished
    return text[begin:end], end + 2


def count_of(digits: bytes) -> int:
    """How many words an array has."""
    below = digits.startswith(b"-")
    count = read_range(digits[below:], 1 if below else 0, MOST_READ if below else MOST_WORDS)
    if count is None:
        raise Faulty("invalid multibulk length")
    return 0 if below else count


def array_at(text: bytes) -> Tuple[List[bytes], int]:
    digits, end = line_at(text, 1, "invalid multibulk length")
    words = []
    for _ in range(count_of(digits)):
        word, end = word_at(text, end)
        words.append(word)
    return words, end


def inline_at(text: bytes) -> Tuple[List[bytes], int]:
    line, feed, _ = text.partition(b"\n")
    if not feed:
        raise Unfinished
    if b'"' in line or b"'" in line:
        raise Faulty("quotes in an inline request")
    words = line.split()
    if len(words) > MOST_WORDS or any(len(word) > MOST_WORD for word in words):
        raise Faulty("too big request")
    return words, len(line) + 1


def frame_at(text: bytes) -> Tuple[List[bytes], int]:
    """The words of the first frame, and its length."""
    try:
        return (array_at if text[:1] == b"*" else inline_at)(text[:MOST_FRAME])
    except Unfinished:
        if len(text) > MOST_FRAME:
            raise Faulty("too big request") from None
        raise


def faulty_length(text: bytes) -> int:
    """How many bytes of a faulty text show its fault: all further ones make no difference."""
    low, high = 0, len(text)
    while low < high:
        middle = (low + high) // 2
        try:
            frame_at(text[:middle])
            low = middle + 1
        except Unfinished:
            low = middle + 1
        except Faulty:
            high = middle
    return high


def on_line(text: str) -> str:
    """What of a word may stand in an error: no line ends in it."""
    return text.replace("\r", " ").replace("\n", " ")


def unknown(words: Sequence[bytes]) -> bytes:
    name, *others = (on_line(word.decode("latin-1")) for word in words)
    shown = ""
    for word in others:
        if len(shown) < MOST_SHOWN:
            shown += f"'{word[: MOST_SHOWN - len(shown)]}' "
    return error(f"unknown command '{name[:MOST_SHOWN]}', with args beginning with: {shown}")


class PlainTalk:
    """One connection to a plain set."""

    def __init__(self, plain: Plain) -> None:
        self.plain = plain
        self.room = 0
        self.refuses = False

    def tell(self, text: bytes) -> Told:
        """What is told of the whole text, at the end of which the client ends its sending."""
        told: List[bytes] = []
        start = 0
        try:
            while start < len(text):
                words, length = frame_at(text[start : start + MOST_FRAME + 1])
                start += length
                if words:
                    told.append(self.reply(words))
                if words and words[0].lower() == b"quit":
                    return Told(b"".join(told), start, len(told))
        except Unfinished:
            pass
        except Faulty as fault:
            told.append(error(f"Protocol error: {fault}"))
            return Told(b"".join(told), start + faulty_length(text[start : start + MOST_FRAME + 1]), len(told))
        return Told(b"".join(told), None, len(told))

    def reply(self, words: Sequence[bytes]) -> bytes:
        """The reply to a frame of some words."""
        name = words[0].lower().decode("latin-1")
        if self.refuses:
            return self.refused(name, len(words))
        if name not in COMMANDS:
            return unknown(words)
        fewest, most, carry_out = COMMANDS[name]
        if not fewest <= len(words) <= most:
            return error(f"wrong number of arguments for '{name}' command")
        return carry_out(self, words)

    def refused(self, name: str, count: int) -> bytes:
        """The reply in a transaction, where nothing is done."""
        if name == "quit":
            return OK
        if name not in ENDS or count > 1:
            return NO_TRANSACTIONS
        self.refuses = False
        if name == "reset":
            self.room = 0
        return ENDS[name]

    def multi(self) -> bytes:
        self.refuses = True
        return NO_TRANSACTIONS

    def reset(self) -> bytes:
        self.room = 0
        return RESET

    def ask(self, verb: str, room: Optional[int], members: Sequence[bytes], form: Callable[[List[bool]], bytes]) -> bytes:
        """Asks for each member, and tells the answers in this form."""
        if room is None:
            return error("a set's name is a room, 0 to 15 (serve --text takes names)")
        numbers = [read_range(member, 0, MOST_NUMBER) for member in members]
        if None in numbers:
            return error("value is not an integer or out of range (serve --text takes texts)")
        replies = [self.plain.ask(verb, Key(room, number)) for number in numbers if number is not None]
        for refused, cause in (("oldfile", "OLDFILE the file has room 0 alone"), ("full", "FULL no slot is free")):
            if refused in replies:
                done = {"add": "added", "remove": "removed", "has": "found"}[verb]
                return f"-{cause}; {replies.count('yes')} of {len(replies)} were {done}\r\n".encode()
        return form([reply == "yes" for reply in replies])

    def in_set(self, verb: str, words: Sequence[bytes], form: Callable[[List[bool]], bytes]) -> bytes:
        return self.ask(verb, room_of(words[1]), words[2:], form)

    def with_value(self, words: Sequence[bytes], form: Callable[[List[bool]], bytes]) -> bytes:
        if len(words[2]) > MOST_VALUE:
            return error("values are not kept, and may have 64 bytes")
        return self.ask("add", self.room, [words[1]], form)

    def set(self, words: Sequence[bytes]) -> bytes:
        if len(words) != 4 or words[3].lower() != b"nx":
            return error("syntax error: SET takes NX alone, as in SET key value NX")
        return self.with_value(words, lambda added: OK if added[0] else NIL)

    def select(self, words: Sequence[bytes]) -> bytes:
        room = room_of(words[1])
        if room is None:
            return error("DB index is out of range")
        self.room = room
        return OK


def shutdown(words: Sequence[bytes]) -> bytes:
    """What is told over a port."""
    if len(words) > 1 and (len(words) > 2 or words[1].lower() not in (b"nosave", b"save")):
        return error("syntax error")
    return error("SHUTDOWN is taken over a Unix socket alone")


def room_of(word: bytes) -> Optional[int]:
    return read_range(word, 0, MOST_ROOM)


def count(answers: List[bool]) -> bytes:
    return integer(sum(answers))


def each(answers: List[bool]) -> bytes:
    return b"*%d\r\n" % len(answers) + b"".join(map(integer, answers))


# The fewest and the most words of a command's frame, and what is done.
COMMANDS: Dict[str, Tuple[int, int, Callable[[PlainTalk, Sequence[bytes]], bytes]]] = {
    "sadd": (3, MOST_WORDS, lambda talk, words: talk.in_set("add", words, count)),
    "srem": (3, MOST_WORDS, lambda talk, words: talk.in_set("remove", words, count)),
    "sismember": (3, 3, lambda talk, words: talk.in_set("has", words, count)),
    "smismember": (3, MOST_WORDS, lambda talk, words: talk.in_set("has", words, each)),
    "exists": (2, MOST_WORDS, lambda talk, words: talk.ask("has", talk.room, words[1:], count)),
    "del": (2, MOST_WORDS, lambda talk, words: talk.ask("remove", talk.room, words[1:], count)),
    "unlink": (2, MOST_WORDS, lambda talk, words: talk.ask("remove", talk.room, words[1:], count)),
    "setnx": (3, 3, lambda talk, words: talk.with_value(words, count)),
    "set": (3, MOST_WORDS, PlainTalk.set),
    "select": (2, 2, PlainTalk.select),
    "ping": (1, 2, lambda talk, words: bulk(words[1]) if len(words) == 2 else PONG),
    "echo": (2, 2, lambda talk, words: bulk(words[1])),
    "quit": (1, MOST_WORDS, lambda talk, words: OK),
    "reset": (1, 1, lambda talk, words: talk.reset()),
    "multi": (1, 1, lambda talk, words: talk.multi()),
    "exec": (1, 1, lambda talk, words: error("EXEC without MULTI")),
    "discard": (1, 1, lambda talk, words: error("DISCARD without MULTI")),
    "dbsize": (1, 1, lambda talk, words: integer(len(talk.plain.places))),
    "shutdown": (1, MOST_WORDS, lambda talk, words: shutdown(words)),
}
