"""Files that are made of a list of texts (`make --keys --text NAME`), for a service of texts."""

from __future__ import annotations

import os
from typing import Iterable, List, Optional, Sequence, Tuple

from lazyset import key_of
from trials.frames import replies
from trials.marks import MARK, PLAIN, TEXT, started
from trials.plain_frames import MOST_WORD, array, integer
from trials.program import Ended, Key, Program, Service
from trials.report import expect
from trials.sessions import run_in_pieces

NAME = b"seen"

# Texts of all kinds: the empty one, such as read as keys or end in a carriage return, any bytes, and the longest.
TEXTS = (b"", b"17", b"3:17", b"evt_1", b"evt_1\r", b" ", b"a b", b"\0\xff\xfe", "käfer".encode(), b"x" * MOST_WORD)

BAD_LINE = "a text has at most 512 bytes, and each line has its end"
BAD_FORMAT = "error: invalid value '1' for '--format <F>': a file of texts is of format 2, 3 or 4\n\nFor more information, try '--help'.\n"
BAD_NAME = "error: invalid value for '--text <NAME>': a name has at most 512 bytes\n\nFor more information, try '--help'.\n"

# Many texts, of which some come twice.
MANY = 30_000

# A list, the slots, what is printed, and the texts that the file holds, where it is made.
LISTS: Tuple[Tuple[bytes, int, str, Optional[Sequence[bytes]]], ...] = (
    (b"", 1, "made 1", ()),
    (b"a\n", 2, "made 2", (b"a",)),
    (b"a\nb\na\na\n", 3, "made 3", (b"a", b"b")),
    (b"\n", 2, "made 2", (b"",)),
    (b"a\r\na\n", 3, "made 3", (b"a\r", b"a")),
    (b"a\n", 1, "refused 9 2 1", None),
    (b"a\nb\nb\n", 2, "refused 9 3 2", None),
    (b"a", 2, "line 1", None),
    (b"a\nb", 3, "line 2", None),
    (b"a\na\nb", 3, "line 3", None),
    (b"x" * MOST_WORD, 2, "line 1", None),
    (b"x" * MOST_WORD + b"\n", 2, "made 2", (b"x" * MOST_WORD,)),
    (b"x" * MOST_WORD + b"x\n", 2, "line 1", None),
    (b"a\n" + b"x" * (MOST_WORD + 1), 9, "line 2", None),
    (b"a\n", 0, "refused 2", None),
    (b"a\n", 65_537, "refused 2", None),
)


def keys_of(texts: Iterable[bytes], name: bytes = NAME) -> List[Key]:
    """The mark and the keys of these members, ascending."""
    return sorted({MARK, *(Key(0, key_of(name, text)) for text in texts)})


def words(file: str, slots: int, *options: str, name: bytes = NAME) -> List[str]:
    return ["make", file, str(slots), "--keys", "--text", os.fsdecode(name), *options]


def try_lists(program: Program, folder: str) -> None:
    """A list of texts, whole and in pieces, makes a marked file of their keys, each once, or none at all."""
    file = os.path.join(folder, "f")
    for listed, slots, told, texts in LISTS:
        ended, what = Ended(f"{told}\n", 3 if texts is None else 0), f"a list of texts {listed[:40]!r} in {slots} slots"
        for step in (0, 1, 3):
            if step:
                expect(run_in_pieces(program, words(file, slots), listed, step, folder), ended, f"{what}, in pieces of {step}")
            else:
                expect(program.run(*words(file, slots), lines=listed), ended, what)
            expect(os.path.exists(file), texts is not None, f"whether there is a file of {what}")
            if texts is not None:
                expect(program.members(file), keys_of(texts), f"the keys of {what}")
                os.remove(file)


def try_served(program: Program, folder: str) -> None:
    """A service of texts finds each text of the list, and no other one, under this name and no other, in each format."""
    file = os.path.join(folder, "f")
    listed = b"".join(text + b"\n" for text in TEXTS)
    ask = array(b"SMISMEMBER", NAME, *TEXTS, b"evt_2")
    for form in (2, 3, 4):
        expect(program.run(*words(file, 100, "--format", str(form)), lines=listed), Ended("made 100\n", 0), f"a list in format {form}")
        with Service(program, file, 2, *TEXT) as service:
            expect(replies(service.port, ask), b"*%d\r\n" % (len(TEXTS) + 1) + integer(1) * len(TEXTS) + integer(0), "what is found")
            expect(replies(service.port, array(b"SMISMEMBER", b"other", *TEXTS)), b"*%d\r\n" % len(TEXTS) + integer(0) * len(TEXTS), "another set")
            expect(replies(service.port, array(b"SADD", NAME, b"evt_1", b"evt_2"), array(b"DBSIZE")), integer(1) + integer(len(TEXTS) + 1), "additions")
        expect(started(program, file, PLAIN)[0], "othertext\n", "a start for numbers")
        os.remove(file)
    name = "\u00fcber uns".encode()
    expect(program.run(*words(file, 9, name=name), lines=b"a\n"), Ended("made 9\n", 0), "a list of a set of another name")
    with Service(program, file, 2, *TEXT) as service:
        expect(replies(service.port, array(b"SMISMEMBER", name, b"a", b"b")), b"*2\r\n" + integer(1) + integer(0), "what is found under it")


def try_many(program: Program, folder: str) -> None:
    """A long list, of which some texts come again."""
    file = os.path.join(folder, "f")
    texts = [b"text %d" % (number % (MANY - MANY // 3)) for number in range(MANY)]
    ended, said = program.run_loud(*words(file, MANY, "--format", "4"), lines=b"".join(text + b"\n" for text in texts))
    expect((ended, said), (Ended(f"made {MANY}\n", 0), f"lazyset: make {file}: {MANY} lines of texts\n"), "a long list of texts")
    expect(program.members(file) == keys_of(texts), True, "that its keys are those of the texts")


def try_words(program: Program, folder: str) -> None:
    """What is said of a list of texts that isn't made, and of a command line that asks for none that can be made."""
    file = os.path.join(folder, "f")
    expect(
        program.run_loud(*words(file, 9), lines=b"a\nb"),
        (Ended("line 2\n", 3), f"lazyset: make {file}: line 2: {BAD_LINE}\n"),
        "a text without an end",
    )
    expect(program.run(*words(file, 9, "--format", "1")), Ended(BAD_FORMAT, 2), "a list of texts in format 1")
    expect(program.run(*words(file, 9, name=b"n" * (MOST_WORD + 1))), Ended(BAD_NAME, 2), "a name that is too long")
    expect(program.run(*words(file, 2, name=b"n" * MOST_WORD), lines=b"a\n"), Ended("made 2\n", 0), "the longest name")
    os.remove(file)
    for given in (["make", file, "9", "--text", "seen"], ["make", file, "9", "--keys", "--text"]):
        ended = program.run(*given)
        expect((ended.text[:7], ended.status), ("error: ", 2), " ".join(given))
    expect(os.listdir(folder), [], "what is left")


TRIALS = (
    ("makings of lists of texts", try_lists),
    ("texts of a list, as a service finds them", try_served),
    ("a long list of texts", try_many),
    ("words for a list of texts", try_words),
)
