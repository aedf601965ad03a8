"""A plain set of keys in a file, and how lines and files are read: an independent model, written from docs/FORMATS.md."""

from __future__ import annotations

from typing import Dict, List, NamedTuple, Optional, Sequence, Tuple, Union

from trials.program import Key

MOST_NUMBER = 10**18 - 1
MOST_ROOM = 15
MOST_LINE = 64

FORMATS = (1, 2, 3, 4)
# Those in which a slot has a gate.
GATED = (1, 2, 3)
MOST_SLOTS = {1: 65_536, 2: 65_536, 3: 16_777_216, 4: 16_777_216}
MOST_BUCKETS = {1: 4_096, 2: 4_096, 3: 1_048_576, 4: 1_048_576}

HEAD_SIZE = SLOT_SIZE = 16
OPEN = 0xA5
NAMES = {b"LZYSET%d" % form: form for form in FORMATS}

VERBS = (b"add", b"remove", b"has")

# What a line asks for: a verb and a key, or a number that tells why it asks for nothing, or nothing more at all.
Command = Tuple[str, Key]
QUIT = "quit"


def read_decimal(text: bytes) -> Optional[int]:
    """A plain decimal number: digits, with no zero in front of another one."""
    if not text or text.strip(b"0123456789") or (text[:1] == b"0" and len(text) > 1):
        return None
    # So many digits are above each limit.
    return int(text[:99])


def read_range(text: bytes, low: int, high: int) -> Optional[int]:
    """A plain decimal number from low to high."""
    number = read_decimal(text)
    return number if number is not None and low <= number <= high else None


def read_key(text: bytes) -> Union[Key, int]:
    """A key, or the number of the reply `bad`."""
    room: Optional[int] = 0
    before, colon, after = text.partition(b":")
    if colon:
        room, text = read_range(before, 0, MOST_ROOM), after
    if room is None:
        return 6
    number = read_decimal(text)
    if number is None:
        return 3
    return Key(room, number) if number <= MOST_NUMBER else 4


def read_line(line: bytes) -> Union[Command, str, int]:
    """What a line without its line feed asks for: a command, `quit`, or the number of the reply `bad`."""
    line = line[:-1] if line.endswith(b"\r") else line
    if len(line) > MOST_LINE:
        return 1
    if line == b"quit":
        return QUIT
    verb, space, rest = line.partition(b" ")
    if verb not in VERBS or not space:
        return 2
    key = read_key(rest)
    return key if isinstance(key, int) else (verb.decode(), key)


def slot_of(key: Key, form: int = 2) -> bytes:
    """The bytes of an open slot in a file of this format."""
    if form == 4:
        digits = f"{(MOST_NUMBER + 1) * key.room + key.number:016x}"
        return bytes(16 * int(digit, 16) + 15 - int(digit, 16) for digit in digits)
    return bytes([OPEN, key.room]) + bytes(6) + key.number.to_bytes(8, "big")


def is_open(form: int, slot: bytes) -> bool:
    """Whether a slot is open: by its gate, or in format 4 by all its bytes."""
    return 0 not in slot if form == 4 else slot[0] == OPEN


def head_of(form: int, slots: int) -> bytes:
    """The head of a made file."""
    return bytes([OPEN]) + b"LZYSET%d" % form + slots.to_bytes(8, "big")


class Plain:
    """A set of one caller: each member has the lowest slot that was free."""

    def __init__(self, form: int, slots: int) -> None:
        self.form = form
        self.slots: List[bytes] = [bytes(SLOT_SIZE)] * slots
        self.places: Dict[Key, int] = {}

    def ask(self, verb: str, key: Key) -> str:
        """The reply to a command."""
        if verb == "has":
            return "yes" if key in self.places else "no"
        return self._add(key) if verb == "add" else self._remove(key)

    def _add(self, key: Key) -> str:
        if not has_room(self.form, key.room):
            return "oldfile"
        if key in self.places:
            return "no"
        if len(self.places) == len(self.slots):
            return "full"
        place = next(place for place, slot in enumerate(self.slots) if not is_open(self.form, slot))
        self.places[key], self.slots[place] = place, slot_of(key, self.form)
        return "yes"

    def _remove(self, key: Key) -> str:
        if key not in self.places:
            return "no"
        place = self.places.pop(key)
        self.slots[place] = bytes(SLOT_SIZE) if self.form == 4 else b"\0" + self.slots[place][1:]
        return "yes"

    def replies(self, text: bytes) -> str:
        """The replies to the lines of a whole input, each ended by a line feed."""
        lines = text.split(b"\n")
        told: List[str] = []
        for line in lines[:-1]:
            asked = read_line(line)
            if asked == QUIT:
                return "".join(told)
            told.append(f"bad {asked}\n" if isinstance(asked, int) else f"{self.ask(*asked)}\n")
        return "".join(told) + ("bad 5\n" if lines[-1] else "")

    def file(self) -> bytes:
        """The bytes of the set's file."""
        return head_of(self.form, len(self.slots)) + b"".join(self.slots)


class Flaw(NamedTuple):
    """What a slot is that an open refuses: with no key, or with the key of an earlier one."""

    slot: int
    first: Optional[int]


class Survey:
    """What a file's bytes are: refused by their head, or slots that hold keys or are flawed."""

    def __init__(self, text: bytes) -> None:
        self.refusal = refusal_of(text)
        self.lines: List[str] = []
        self.flaws: List[Flaw] = []
        self.members: Dict[Key, int] = {}
        self.torn = 0
        if not self.refusal:
            self.form, self.slots = NAMES[text[1:8]], int.from_bytes(text[8:16], "big")
            for place in range(self.slots):
                start = HEAD_SIZE + SLOT_SIZE * place
                self._note(place, text[start : start + SLOT_SIZE])

    def _note(self, place: int, slot: bytes) -> None:
        if not is_open(self.form, slot):
            self.torn += self.form == 4 and any(slot)
            return
        key = key_in(self.form, slot)
        if key is None:
            self.flaws.append(Flaw(place, None))
            self.lines.append(f"slot {place} badkey\n")
        elif key in self.members:
            self.flaws.append(Flaw(place, self.members[key]))
            self.lines.append(f"slot {place} twice {self.members[key]}\n")
        else:
            self.members[key] = place
            self.lines.append(f"slot {place} key {key}\n")

    def checked(self) -> Tuple[str, int]:
        """What a check prints, and its status."""
        if self.refusal:
            return f"refused {self.refusal}\n", 3
        return "".join(self.lines) + ("damaged\n" if self.flaws else "good\n"), 4 if self.flaws else 0

    def listed(self) -> Tuple[str, int]:
        """What a check of the keys alone prints, and its status."""
        told, status = self.checked()
        if self.refusal:
            return told, status
        return "".join(f"{key}\n" for key in self.members) + "damaged\n" * bool(self.flaws), status

    def counted(self) -> Tuple[str, int]:
        """What an info prints, and its status."""
        told, status = self.checked()
        if self.refusal:
            return told, status
        free = self.slots - len(self.lines)
        counts = f"format {self.form}\nslots {self.slots}\nmembers {len(self.members)}\nfree {free}\n"
        return counts + told[len("".join(self.lines)) :], status

    def opened(self) -> Tuple[str, int]:
        """What a run without lines prints, and its status: the refusal of an open, or nothing."""
        if self.refusal:
            return f"refused {self.refusal}\n", 3
        if not self.flaws:
            return "", 0
        slot, first = self.flaws[0]
        return (f"refused 5 {slot}\n" if first is None else f"refused 6 {first} {slot}\n"), 3

    def holds(self) -> bool:
        """Whether the file holds a set."""
        return not self.refusal and not self.flaws

    def compared(self, old: Survey) -> Tuple[str, int]:
        """What a check of this file beside an older one prints, and its status."""
        told, status = self.checked()
        if status:
            return told, status
        flaw = self._difference(old)
        return told + (f"flaw {flaw}\n" if flaw else "same\n"), 4 if flaw else 0

    def _difference(self, old: Survey) -> str:
        if not old.holds():
            return "8"
        for number, here, there in ((9, old, self), (10, self, old)):
            missing = [place for key, place in here.members.items() if key not in there.members]
            if missing:
                return f"{number} {min(missing)}"
        return ""


def refusal_of(text: bytes) -> int:
    """The number with which a file's head is refused; 0 where it isn't."""
    if len(text) < HEAD_SIZE or text[0] != OPEN:
        return 1
    if text[1:8] not in NAMES:
        return 2
    slots = int.from_bytes(text[8:16], "big")
    if not 1 <= slots <= MOST_SLOTS[NAMES[text[1:8]]]:
        return 4
    return 0 if len(text) == HEAD_SIZE + SLOT_SIZE * slots else 3


def has_room(form: int, room: int) -> bool:
    """Whether a file of this format knows the room."""
    return room <= (0 if form == 1 else MOST_ROOM)


def key_in(form: int, slot: bytes) -> Optional[Key]:
    """The key of an open slot, if its bytes are one's."""
    if form == 4:
        is_paired = all(byte // 16 + byte % 16 == 15 for byte in slot)
        room, number = divmod(int("".join(f"{byte // 16:x}" for byte in slot), 16), MOST_NUMBER + 1)
        return Key(room, number) if is_paired and room <= MOST_ROOM else None
    room, number = slot[1], int.from_bytes(slot[8:], "big")
    is_key = has_room(form, room) and not any(slot[2:8]) and number <= MOST_NUMBER
    return Key(room, number) if is_key else None


def held(form: int, slots: int, keys: Sequence[Key]) -> bytes:
    """A file of so many slots, the first of which hold these keys."""
    return head_of(form, slots) + b"".join(slot_of(key, form) for key in keys) + bytes(SLOT_SIZE * (slots - len(keys)))


def made(text: bytes, form: int, slots: int, keys: Sequence[Key] = ()) -> Tuple[str, bytes]:
    """What a making on a file prints, and the file that it leaves."""
    if not 1 <= slots <= MOST_SLOTS[form]:
        return "refused 2\n", text
    if len(text) >= HEAD_SIZE and text[0] == OPEN:
        return "refused 1\n", text
    if len(text) > HEAD_SIZE + SLOT_SIZE * slots:
        return "refused 4\n", text
    return f"made {slots}\n", held(form, slots, keys)


def read_list(listed: bytes, form: int) -> Union[List[Key], str]:
    """The keys of a list, one a line, or what is printed of its first line at fault."""
    *lines, rest = listed.split(b"\n")
    keys: Dict[Key, int] = {}
    for number, line in enumerate(lines, 1):
        key = read_key(line[:-1] if line.endswith(b"\r") else line)
        if isinstance(key, int) or not has_room(form, key.room):
            return f"line {number}\n"
        if key in keys:
            return f"twice {number}\n"
        keys[key] = number
    return f"line {len(lines) + 1}\n" if rest else list(keys)


def made_of_list(text: bytes, form: int, slots: int, listed: bytes) -> Tuple[str, bytes]:
    """What a making of a list's keys on a file prints, and the file that it leaves."""
    keys = read_list(listed, form)
    if not 1 <= slots <= MOST_SLOTS[form]:
        return "refused 2\n", text
    if isinstance(keys, str):
        return keys, text
    if slots < len(keys):
        return f"refused 9 {len(keys)} {slots}\n", text
    return made(text, form, slots, keys)


def renewed(old: bytes, new: bytes, slots: int, form: int = 2) -> Tuple[str, bytes]:
    """What a renewal into a format prints, and the new file that it leaves."""
    survey = Survey(old)
    members = sorted(survey.members, key=survey.members.__getitem__)
    if not 1 <= slots <= MOST_SLOTS[form]:
        return "refused new 2\n", new
    if not survey.holds():
        return f"refused old {survey.opened()[0][len('refused '):]}", new
    if slots < len(members):
        return f"refused 9 {len(members)} {slots}\n", new
    told, left = made(new, form, slots, members)
    if told.startswith("refused"):
        return f"refused new {told[len('refused '):]}", new
    return f"renewed {len(members)}\n", left
