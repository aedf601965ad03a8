"""Files, byte for byte: what a making and a renewal leave, and what a check and a run say of each kind of file."""

from __future__ import annotations

import os
from typing import Iterator, Optional, Tuple

from trials.plain import FORMATS, MOST_SLOTS, Survey, head_of, held, renewed, slot_of
from trials.program import Ended, Key, Program
from trials.report import expect

# Made files of two slots and of one, in the older format.
TWO_SLOTS = bytes.fromhex("a5 4c 5a 59 53 45 54 31 00 00 00 00 00 00 00 02") + bytes(32)

ONE_SLOT = bytes.fromhex("a5 4c 5a 59 53 45 54 31 00 00 00 00 00 00 00 01") + bytes(16)

# The slots of 17 and of 5, of 17 in room 3, and of the first number that is no key.
SEVENTEEN = bytes.fromhex("a5 00 00 00 00 00 00 00 00 00 00 00 00 00 00 11")

FIVE = bytes.fromhex("a5 00 00 00 00 00 00 00 00 00 00 00 00 00 00 05")

IN_ROOM_3 = bytes.fromhex("a5 03 00 00 00 00 00 00 00 00 00 00 00 00 00 11")

TOO_LARGE = bytes.fromhex("a5 00 00 00 00 00 00 00 0d e0 b6 b3 a7 64 00 00")

LARGEST = bytes.fromhex("a5 00 00 00 00 00 00 00 0d e0 b6 b3 a7 63 ff ff")

CLOSED = bytes(16)

# The slots of 17 and of 17 in room 3 in format 4, and one that a crash has left while it was written.
WHOLE_17 = bytes.fromhex("0f 0f 0f 0f 0f 0f 0f 0f 0f 0f 0f 0f 0f 0f 1e 1e")

WHOLE_IN_ROOM_3 = bytes.fromhex("2d 96 a5 2d 2d 4b 1e a5 f0 69 2d c3 0f 0f 1e 1e")

TORN = bytes.fromhex("0f 0f 0f 0f 0f 0f 0f 00 0f 0f 0f 0f 0f 0f 1e 1e")

# Byte 7 of a head names the format.
FORMAT_PLACE = 7
FORMAT_BYTES = {1: 0x31, 2: 0x32, 3: 0x33, 4: 0x34}

# A file of format 2 with two slots that hold 17 and 5.
RENEWED = bytes.fromhex("a5 4c 5a 59 53 45 54 32 00 00 00 00 00 00 00 02") + SEVENTEEN + FIVE


def changed(text: bytes, place: int, byte: int) -> bytes:
    """The bytes with this one at this place."""
    return text[:place] + bytes([byte]) + text[place + 1 :]


def of_format(form: int, text: bytes) -> bytes:
    """The bytes of a file with this format in its head."""
    return changed(text, FORMAT_PLACE, FORMAT_BYTES[form])


def put(file: str, text: Optional[bytes]) -> None:
    """Makes a file of these bytes, or none."""
    if text is None:
        if os.path.exists(file):
            os.remove(file)
        return
    with open(file, "wb") as new:
        new.write(text)


def bytes_in(file: str) -> bytes:
    with open(file, "rb") as found:
        return found.read()


def said_of_others(path: str, text: bytes) -> str:
    """What a command says that takes no other file's bytes away, where these stand at the path, and are no set's."""
    which = "its 1 byte is" if len(text) == 1 else f"its {len(text)} bytes are"
    return f"lazyset: {path}: {which} no set's: give another name, or move it away\n"


# A file of so many bytes or none, the slots and the format that are asked for, what is printed, and the bytes that are left.
MAKINGS: Tuple[Tuple[Optional[bytes], str, str, str, bytes], ...] = (
    (None, "2", "1", "made 2\n", TWO_SLOTS),
    (None, "2", "2", "made 2\n", of_format(2, TWO_SLOTS)),
    (None, "2", "3", "made 2\n", of_format(3, TWO_SLOTS)),
    (None, "2", "4", "made 2\n", of_format(4, TWO_SLOTS)),
    (b"", "1", "1", "made 1\n", ONE_SLOT),
    # The file that a crash in a making's first write may leave.
    (b"\xa5", "2", "1", "made 2\n", TWO_SLOTS),
    (bytes(48), "2", "1", "made 2\n", TWO_SLOTS),
    (TWO_SLOTS, "1", "1", "refused 1\n", TWO_SLOTS),
    (TWO_SLOTS, "3", "2", "refused 1\n", TWO_SLOTS),
    (of_format(3, TWO_SLOTS), "3", "2", "refused 1\n", of_format(3, TWO_SLOTS)),
    (RENEWED, "2", "3", "refused 1\n", RENEWED),
    (b"", "0", "2", "refused 2\n", b""),
    (b"", "0", "3", "refused 2\n", b""),
    (b"", "65537", "1", "refused 2\n", b""),
    (b"", "65537", "2", "refused 2\n", b""),
    (b"", "16777217", "3", "refused 2\n", b""),
    (b"", "16777217", "4", "refused 2\n", b""),
    (b"", "18446744073709551615", "3", "refused 2\n", b""),
    (bytes(49), "2", "1", "refused 4\n", bytes(49)),
    (bytes(49), "2", "3", "refused 4\n", bytes(49)),
)


def try_makings(program: Program, folder: str) -> None:
    """Each making leaves these bytes. The formats, of which 2 is made where none is named, differ in byte 7 alone."""
    file = os.path.join(folder, "made")
    for before, slots, form, told, after in MAKINGS:
        put(file, before)
        ended = program.run("make", file, slots, "--format", form)
        expect(ended, Ended(told, 0 if told.startswith("made") else 3), f"making {slots} slots over {before!r}")
        expect(bytes_in(file), after, f"the file behind making {slots} slots over {before!r}")
    put(file, None)
    program.make(file, 2)
    expect(bytes_in(file), of_format(2, TWO_SLOTS), "a file whose format isn't named")
    for form in ("0", "5"):
        expect(program.run("make", file, "2", "--format", form).status, 2, f"the status of a making of format {form}")


# Files, what a check says of each, and what a run without lines says.
SURVEYED: Tuple[Tuple[bytes, str, str], ...] = (
    (TWO_SLOTS, "good\n", ""),
    (TWO_SLOTS[:32] + SEVENTEEN, "slot 1 key 17\ngood\n", ""),
    (TWO_SLOTS[:16] + SEVENTEEN * 2, "slot 0 key 17\nslot 1 twice 0\ndamaged\n", "refused 6 0 1\n"),
    (TWO_SLOTS[:16] + changed(SEVENTEEN, 4, 1) + SEVENTEEN, "slot 0 badkey\nslot 1 key 17\ndamaged\n", "refused 5 0\n"),
    (TWO_SLOTS[:32] + changed(SEVENTEEN, 4, 1), "slot 1 badkey\ndamaged\n", "refused 5 1\n"),
    (ONE_SLOT[:16] + TOO_LARGE, "slot 0 badkey\ndamaged\n", "refused 5 0\n"),
    (ONE_SLOT[:16] + LARGEST, "slot 0 key 999999999999999999\ngood\n", ""),
    # A slot that isn't open says no key, whatever its bytes are.
    (ONE_SLOT[:16] + changed(TOO_LARGE, 0, 0x37), "good\n", ""),
    (ONE_SLOT[:16] + IN_ROOM_3, "slot 0 badkey\ndamaged\n", "refused 5 0\n"),
    (of_format(2, ONE_SLOT[:16]) + IN_ROOM_3, "slot 0 key 3:17\ngood\n", ""),
    (of_format(3, ONE_SLOT[:16]) + IN_ROOM_3, "slot 0 key 3:17\ngood\n", ""),
    (of_format(2, ONE_SLOT[:16]) + changed(IN_ROOM_3, 1, 16), "slot 0 badkey\ndamaged\n", "refused 5 0\n"),
    (of_format(3, ONE_SLOT[:16]) + changed(IN_ROOM_3, 1, 16), "slot 0 badkey\ndamaged\n", "refused 5 0\n"),
    (of_format(3, TWO_SLOTS[:16]) + SEVENTEEN * 2, "slot 0 key 17\nslot 1 twice 0\ndamaged\n", "refused 6 0 1\n"),
    (changed(TWO_SLOTS, 0, 0), "refused 1\n", "refused 1\n"),
    (b"\xa5", "refused 1\n", "refused 1\n"),
    (changed(TWO_SLOTS, 7, 0x39), "refused 2\n", "refused 2\n"),
    (changed(TWO_SLOTS, 7, 0x35), "refused 2\n", "refused 2\n"),
    # In format 4 a slot is open where none of its bytes is zero.
    (of_format(4, TWO_SLOTS[:16]) + WHOLE_17 + WHOLE_IN_ROOM_3, "slot 0 key 17\nslot 1 key 3:17\ngood\n", ""),
    (of_format(4, TWO_SLOTS[:16]) + TORN + WHOLE_17, "slot 1 key 17\ngood\n", ""),
    (of_format(4, TWO_SLOTS[:16]) + WHOLE_17 * 2, "slot 0 key 17\nslot 1 twice 0\ndamaged\n", "refused 6 0 1\n"),
    (of_format(4, ONE_SLOT[:16]) + changed(WHOLE_17, 3, 0x0E), "slot 0 badkey\ndamaged\n", "refused 5 0\n"),
    (of_format(4, ONE_SLOT[:16]) + b"\xff" * 16, "slot 0 badkey\ndamaged\n", "refused 5 0\n"),
    (of_format(4, ONE_SLOT[:16]) + SEVENTEEN, "good\n", ""),
    (changed(TWO_SLOTS, 7, 0x30), "refused 2\n", "refused 2\n"),
    (TWO_SLOTS[:47], "refused 3\n", "refused 3\n"),
    (TWO_SLOTS + b"\0", "refused 3\n", "refused 3\n"),
)


def cut_files() -> Iterator[Tuple[bytes, str, str]]:
    """A made file that is cut to each length; one with a number of slots that its format hasn't is refused for that at any length."""
    for length in range(48):
        told = "refused 1\n" if length < 16 else "refused 3\n"
        yield of_format(1 + length % 4, TWO_SLOTS)[:length], told, told
    for form, slots in ((1, 0), (1, 65_537), (2, 65_537), (3, 0), (3, 16_777_217), (3, 1 << 63), (4, 0), (4, 16_777_217)):
        for length in range(16, 65):
            yield (head_of(form, slots) + bytes(48))[:length], "refused 4\n", "refused 4\n"
    for slots in (65_537, 16_777_216):
        yield head_of(3, slots) + bytes(48), "refused 3\n", "refused 3\n"


# Files, and what an info says of each.
COUNTED: Tuple[Tuple[bytes, str, int], ...] = (
    (TWO_SLOTS, "format 1\nslots 2\nmembers 0\nfree 2\ngood\n", 0),
    (RENEWED, "format 2\nslots 2\nmembers 2\nfree 0\ngood\n", 0),
    (of_format(3, RENEWED), "format 3\nslots 2\nmembers 2\nfree 0\ngood\n", 0),
    (of_format(4, TWO_SLOTS[:16]) + TORN + WHOLE_17, "format 4\nslots 2\nmembers 1\nfree 1\ngood\n", 0),
    (TWO_SLOTS[:32] + SEVENTEEN, "format 1\nslots 2\nmembers 1\nfree 1\ngood\n", 0),
    # What is damaged is no member, and its slot isn't free.
    (TWO_SLOTS[:16] + SEVENTEEN * 2, "format 1\nslots 2\nmembers 1\nfree 0\ndamaged\n", 4),
    (TWO_SLOTS[:32] + changed(SEVENTEEN, 4, 1), "format 1\nslots 2\nmembers 0\nfree 1\ndamaged\n", 4),
    (b"", "refused 1\n", 3),
    (TWO_SLOTS + b"\0", "refused 3\n", 3),
)


def try_counts(program: Program, folder: str) -> None:
    """An info says this of each file, and writes nothing there; so says an independent reader."""
    file = os.path.join(folder, "counted")
    for text, counted, status in COUNTED:
        put(file, text)
        expect(program.run("info", file), Ended(counted, status), f"an info of {text!r}")
        expect(bytes_in(file), text, "a file after an info")
        expect(Survey(text).counted(), (counted, status), f"the model's info of {text!r}")
    for text, _, _ in (*SURVEYED, *cut_files()):
        put(file, text)
        expect(program.run("info", file), Ended(*Survey(text).counted()), f"an info of {text!r}")


def keys_of(checked: str) -> str:
    """What a check of the keys alone prints, by what a check prints."""
    kept = [line.rpartition(" ")[2] for line in checked.splitlines(True) if " key " in line or line == "damaged\n"]
    return checked if checked.startswith("refused") else "".join(kept)


def try_surveys(program: Program, folder: str) -> None:
    """A check, one of the keys alone and a run say this of each file, and write nothing there."""
    file = os.path.join(folder, "surveyed")
    for text, checked, refused in (*SURVEYED, *cut_files()):
        put(file, text)
        status = 0 if checked.endswith("good\n") else 4 if checked.endswith("damaged\n") else 3
        expect(program.run("check", file), Ended(checked, status), f"a check of {text!r}")
        expect(program.run("check", file, "--keys"), Ended(keys_of(checked), status), f"the keys of {text!r}")
        expect(program.run("run", file), Ended(refused, 3 if refused else 0), f"a run on {text!r}")
        expect(bytes_in(file), text, "a file behind a check and a run")
        expect(Survey(text).checked(), (checked, status), f"the model's check of {text!r}")
        expect(Survey(text).listed(), (keys_of(checked), status), f"the model's keys of {text!r}")
    expect(program.run("check", file, "--keys", "--of", file).status, 2, "the status of a check of keys beside another file")


def full_file(last: int) -> bytes:
    """A file of as many slots as the older formats have: slot i holds the key i, but the last one this key."""
    keys = (*range(MOST_SLOTS[1] - 1), last)
    return head_of(1, MOST_SLOTS[1]) + b"".join(slot_of(Key(0, key)) for key in keys)


def try_largest(program: Program, folder: str) -> None:
    """Files of 65,536 slots: all of them members, the last one's key again, all one key, and a byte too many."""
    file = os.path.join(folder, "largest")
    lines, told = "has 0\nhas 65535\nhas 65536\nadd 65536\n", "yes\nyes\nno\nfull\n"
    for text, checked, opened in (
        (full_file(MOST_SLOTS[1] - 1), ("slot 0 key 0\n", "slot 65535 key 65535\ngood\n", 0), (told, 0)),
        (full_file(7), ("slot 0 key 0\n", "slot 65535 twice 7\ndamaged\n", 4), ("refused 6 7 65535\n", 3)),
        (
            head_of(1, MOST_SLOTS[1]) + FIVE * MOST_SLOTS[1],
            ("slot 0 key 5\nslot 1 twice 0\nslot 2 twice 0\n", "slot 65535 twice 0\ndamaged\n", 4),
            ("refused 6 0 1\n", 3),
        ),
        (full_file(7) + b"\0", ("refused 3\n", "refused 3\n", 3), ("refused 3\n", 3)),
    ):
        put(file, text)
        begins, ends, status = checked
        found = program.run("check", file)
        is_told = found.text.startswith(begins) and found.text.endswith(ends)
        expect((is_told, found.status), (True, status), f"a check that ends {found.text[-60:]!r}")
        expect(program.run("run", file, lines=lines), Ended(*opened), "a run on the largest file")
        expect(bytes_in(file), text, "the largest file")


def try_limits(program: Program, folder: str) -> None:
    """Each format makes a file of 65,536 slots, and only the formats 3 and 4 one of 65,537. So many are read by the head's format alone."""
    file = os.path.join(folder, "limits")
    for form in FORMATS:
        put(file, None)
        program.make(file, 65_536, form)
        expect(program.run("info", file), Ended(f"format {form}\nslots 65536\nmembers 0\nfree 65536\ngood\n", 0), "65,536 slots")
        put(file, None)
        ended = program.run("make", file, "65537", "--format", str(form))
        expect(ended, Ended("made 65537\n", 0) if form >= 3 else Ended("refused 2\n", 3), f"making 65,537 slots of format {form}")
        put(file, head_of(form, 65_537) + bytes(16 * 65_537))
        for command in ("check", "run"):
            told = {"check": "good\n", "run": ""}[command] if form >= 3 else "refused 4\n"
            expect(program.run(command, file), Ended(told, 0 if form >= 3 else 3), f"a {command} of 65,537 slots of format {form}")


# An old file, a new one, the slots that are asked for, and how a renewal is refused.
REFUSED_RENEWALS: Tuple[Tuple[bytes, Optional[bytes], str, str], ...] = (
    (RENEWED, RENEWED, "2", "refused new 1\n"),
    (RENEWED, None, "1", "refused 9 2 1\n"),
    (RENEWED, b"", "0", "refused new 2\n"),
    (RENEWED, b"", "65537", "refused new 2\n"),
    (of_format(3, RENEWED), b"", "65537", "refused new 2\n"),
    (RENEWED, of_format(3, RENEWED), "2", "refused new 1\n"),
    (RENEWED, bytes(49), "2", "refused new 4\n"),
    (b"", b"", "2", "refused old 1\n"),
    (changed(RENEWED, 7, 0x39), b"", "2", "refused old 2\n"),
    (RENEWED + b"\0", b"", "2", "refused old 3\n"),
    (changed(RENEWED, 15, 0), b"", "2", "refused old 4\n"),
    (changed(RENEWED, 20, 1), b"", "2", "refused old 5 0\n"),
    (changed(RENEWED, 47, 0x11), b"", "2", "refused old 6 0 1\n"),
)

# An old file, a new one, what a check of the new one beside it prints, and with which status.
COMPARED: Tuple[Tuple[bytes, bytes, str, int], ...] = (
    (RENEWED, RENEWED, "slot 0 key 17\nslot 1 key 5\ngood\nsame\n", 0),
    (RENEWED, changed(RENEWED, 31, 0x12), "slot 0 key 18\nslot 1 key 5\ngood\nflaw 9 0\n", 4),
    (RENEWED, changed(RENEWED, 32, 0), "slot 0 key 17\ngood\nflaw 9 1\n", 4),
    (changed(RENEWED, 32, 0), RENEWED, "slot 0 key 17\nslot 1 key 5\ngood\nflaw 10 1\n", 4),
    (changed(RENEWED, 20, 1), RENEWED, "slot 0 key 17\nslot 1 key 5\ngood\nflaw 8\n", 4),
    (RENEWED, changed(RENEWED, 17, 3), "slot 0 key 3:17\nslot 1 key 5\ngood\nflaw 9 0\n", 4),
    (RENEWED, changed(RENEWED, 20, 1), "slot 0 badkey\nslot 1 key 5\ndamaged\n", 4),
    (changed(RENEWED, 20, 1), b"", "refused 1\n", 3),
)


def try_renewals(program: Program, folder: str) -> None:
    """A file is renewed into another capacity, and left as it was; each refusal; how files are told apart."""
    old, new = os.path.join(folder, "old"), os.path.join(folder, "new")
    put(old, None)
    expect(program.run("make", old, "3", "--format", "1"), Ended("made 3\n", 0), "an old file")
    ended = program.run("run", old, lines="add 17\nadd 4\nadd 5\nremove 4\n")
    expect(ended, Ended("yes\n" * 4, 0), "the old file's members")
    before = bytes_in(old)
    for slots, told, status in (("2", "renewed 2\n", 0), ("2", "refused new 1\n", 3)):
        expect(program.run("renew", old, new, slots), Ended(told, status), "a renewal")
        expect((bytes_in(new), bytes_in(old)), (RENEWED, before), "both files behind a renewal")
    same = Ended("slot 0 key 17\nslot 1 key 5\ngood\nsame\n", 0)
    expect(program.run("check", new, "--of", old), same, "a check of the new file beside the old one")
    expect(program.run("renew", old, old, "3"), Ended("refused new 1\n", 3), "a renewal of a file onto itself")
    expect(bytes_in(old), before, "a file behind its renewal onto itself")
    for before, given, slots, told in REFUSED_RENEWALS:
        put(old, before)
        put(new, given)
        expect(program.run("renew", old, new, slots), Ended(told, 3), f"renewing {before!r} onto {given!r}")
        left = bytes_in(new) if os.path.exists(new) else None
        expect((bytes_in(old), left), (before, given), "files after a refused renewal: where there was none, none is left")
    for before, given, told, status in COMPARED:
        put(old, before)
        put(new, given)
        expect(program.run("check", new, "--of", old), Ended(told, status), f"{given!r} beside {before!r}")
        expect(Survey(given).compared(Survey(before)), (told, status), "the model's comparison")


# An old file's format, the new one's, the slots that are asked for, and what a renewal prints.
INTO_FORMATS: Tuple[Tuple[int, int, str, str], ...] = (
    (1, 3, "2", "renewed 2\n"),
    (2, 3, "65537", "renewed 2\n"),
    (3, 3, "65537", "renewed 2\n"),
    (3, 2, "65536", "renewed 2\n"),
    (3, 2, "65537", "refused new 2\n"),
    (2, 3, "0", "refused new 2\n"),
    (2, 3, "1", "refused 9 2 1\n"),
    (2, 3, "16777217", "refused new 2\n"),
    (1, 4, "2", "renewed 2\n"),
    (2, 4, "65537", "renewed 2\n"),
    (3, 4, "3", "renewed 2\n"),
    (4, 4, "2", "renewed 2\n"),
    (4, 3, "65537", "renewed 2\n"),
    (4, 2, "2", "renewed 2\n"),
    (4, 2, "65537", "refused new 2\n"),
    (2, 4, "16777217", "refused new 2\n"),
)


def try_formats(program: Program, folder: str) -> None:
    """Files are renewed into the formats 2 to 4, and into no other one."""
    old, new = os.path.join(folder, "old"), os.path.join(folder, "new")
    for before, after, slots, told in INTO_FORMATS:
        text = held(before, 2, (Key(0, 17), Key(0, 5)))
        put(old, text)
        put(new, b"")
        what = f"renewing format {before} into {slots} slots of format {after}"
        ended = program.run("renew", old, new, slots, "--format", str(after))
        expect(ended, Ended(told, 0 if told.startswith("renewed") else 3), what)
        expect((told, bytes_in(new)), renewed(text, b"", int(slots), after), f"the new file behind {what}")
        expect(bytes_in(old), text, f"the old file behind {what}")
        if told.startswith("renewed"):
            same = "slot 0 key 17\nslot 1 key 5\ngood\nsame\n"
            expect(program.run("check", new, "--of", old), Ended(same, 0), f"a check behind {what}")
    put(new, None)
    for form in ("0", "1", "5"):
        expect(program.run("renew", old, new, "2", "--format", form).status, 2, f"the status of a renewal into format {form}")
        expect(os.path.exists(new), False, f"that a renewal into format {form} leaves a file")
