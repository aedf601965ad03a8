"""Files that are made of a list of texts under a secret (`make --keys --text NAME --secret PATH`), for a service under the same secret."""

from __future__ import annotations

import os
from typing import Iterable, List, Optional, Sequence, Tuple

from trials import makings
from trials.files import bytes_in, put
from trials.frames import replies
from trials.listed_texts import BAD_FORMAT, BAD_LINE, NAME, TEXTS, words
from trials.marks import MARK, NUMBERS, PLAIN, TEXT, started
from trials.plain import held
from trials.plain_frames import MOST_WORD, array, integer
from trials.program import Ended, Key, Program, Service
from trials.report import expect
from trials.secrets import OTHER, SECRET, SECRETS, bad_secrets, kept, marked_by, number_of, under
from trials.sessions import run_in_pieces
from trials.wording import roomier

# A list, the slots, what is printed, and the texts that the file holds, where it is made.
LISTS: Tuple[Tuple[bytes, int, str, Optional[Sequence[bytes]]], ...] = (
    (b"", 2, "made 2", ()),
    (b"", 1, "refused 9 2 1", None),
    (b"a\n", 3, "made 3", (b"a",)),
    (b"a\n", 2, "refused 9 3 2", None),
    (b"a\nb\na\na\n", 4, "made 4", (b"a", b"b")),
    (b"a\nb\nb\n", 3, "refused 9 4 3", None),
    (b"b\na\n\n", 9, "made 9", (b"b", b"a", b"")),
    (b"a\r\na\n", 4, "made 4", (b"a\r", b"a")),
    (b"a\nb", 4, "line 2", None),
    (b"a", 1, "line 1", None),
    (b"x" * MOST_WORD + b"\n", 3, "made 3", (b"x" * MOST_WORD,)),
    (b"x" * MOST_WORD + b"x\n", 3, "line 1", None),
    (b"a\n", 0, "refused 2", None),
    (b"a\n", 65_537, "refused 2", None),
)

# What a making over each of these files prints, which it leaves as they are.
OVER: Tuple[Tuple[bytes, str], ...] = ((held(2, 1, []), "refused 1"), (held(2, 3, [MARK]), "refused 1"), (bytes(100), "refused 4"))

# So many texts are listed where the making is killed.
MANY = 50_000


def keys_of(secret: bytes, texts: Iterable[bytes], name: bytes = NAME) -> List[Key]:
    """The keys of a file of these texts in the order of its slots: its marks, and each text's key where it is first named; of no secret's bytes, without
    one."""
    marks = [MARK, marked_by(secret)] if secret else [MARK]
    return [*dict.fromkeys([*marks, *(Key(0, number_of(secret, name, text)) for text in texts)])]


def try_lists(program: Program, folder: str) -> None:
    """A list under a secret, whole and in pieces, makes a file of these bytes in each format, or none at all. Two slots are the marks'."""
    file = os.path.join(folder, "f")
    for place, (listed, slots, told, texts) in enumerate(LISTS):
        secret, form = SECRETS[place % len(SECRETS)], 2 + place % 3
        if slots > 65_536:
            form = 2
        given = words(file, slots, "--format", str(form), "--secret", kept(folder, secret))
        ended, what = Ended(f"{told}\n", 3 if texts is None else 0), f"a list of texts {listed[:40]!r} under {secret!r} in {slots} slots of format {form}"
        for step in (0, 1, 3):
            found = run_in_pieces(program, given, listed, step, folder) if step else program.run(*given, lines=listed)
            expect(found, ended, f"{what}, in pieces of {step}")
            left = bytes_in(file) if os.path.exists(file) else None
            expect(left, None if texts is None else held(form, slots, keys_of(secret, texts)), f"the bytes of {what}")
            put(file, None)
    for before, told in OVER:
        put(file, before)
        given = words(file, 3, "--secret", kept(folder, SECRET))
        expect(program.run(*given, lines=b"a\n"), Ended(f"{told}\n", 3), f"a making over {before[:40]!r}")
        expect(bytes_in(file), before, f"what is left of {before[:40]!r}")


def try_plain(program: Program, folder: str) -> None:
    """A list of texts without a secret makes a file of these bytes: one mark, and the keys that no secret is hashed for."""
    file = os.path.join(folder, "f")
    for form in (2, 3, 4):
        listed = b"".join(text + b"\n" for text in (*TEXTS, *TEXTS[::-1]))
        expect(program.run(*words(file, 20, "--format", str(form)), lines=listed), Ended("made 20\n", 0), f"a list in format {form}")
        expect(bytes_in(file), held(form, 20, keys_of(b"", TEXTS)), f"the bytes of a list in format {form}")
        put(file, None)


def try_served(program: Program, folder: str) -> None:
    """A service under the same secret finds each text of the list, and no other one, under this name alone. Any other start is refused."""
    file, name = os.path.join(folder, "f"), "\u00fcber uns".encode()
    listed = b"".join(text + b"\n" for text in TEXTS)
    ask = array(b"SMISMEMBER", NAME, *TEXTS, b"evt_2")
    for place, secret in enumerate(SECRETS):
        path, form = kept(folder, secret), 2 + place % 3
        made = program.run_loud(*words(file, 100, "--format", str(form), "--secret", path), lines=listed)
        expect(made, (Ended("made 100\n", 0), f"lazyset: make {file}: {len(TEXTS)} lines of texts\n"), f"a list under {secret!r}")
        other = kept(folder, OTHER if secret == SECRET else SECRET, name="other")
        before = bytes_in(file)
        for given, line in ((under(other), "othersecret"), (TEXT, "othersecret"), (PLAIN, "othertext")):
            told, _, status = started(program, file, given)
            expect((told, status), (f"{line}\n", 3), f"a start {' '.join(given)} over a list under {secret!r}")
            expect(bytes_in(file), before, f"what a start {' '.join(given)} leaves")
        with Service(program, file, 2, *under(path)) as service:
            expect(replies(service.port, array(b"DBSIZE")), integer(len(TEXTS)), f"the number of texts under {secret!r}")
            expect(replies(service.port, ask), b"*%d\r\n" % (len(TEXTS) + 1) + integer(1) * len(TEXTS) + integer(0), f"what is found under {secret!r}")
            expect(replies(service.port, array(b"SMISMEMBER", b"other", *TEXTS)), b"*%d\r\n" % len(TEXTS) + integer(0) * len(TEXTS), "another set")
            expect(replies(service.port, array(b"SADD", NAME, b"evt_1", b"evt_2"), array(b"DBSIZE")), integer(1) + integer(len(TEXTS) + 1), "additions")
        expect(program.members(file), sorted(keys_of(secret, (*TEXTS, b"evt_2"))), f"the keys under {secret!r}")
        expect(started(program, file, NUMBERS)[0][:10], "listening ", "a start that takes the marks for numbers")
        os.remove(file)
    path = kept(folder, SECRET)
    expect(program.run(*words(file, 9, "--secret", path, name=name), lines=b"a\n"), Ended("made 9\n", 0), "a list of a set of another name")
    with Service(program, file, 2, *under(path)) as service:
        expect(replies(service.port, array(b"SMISMEMBER", name, b"a", b"b")), b"*2\r\n" + integer(1) + integer(0), "what is found under it")


def try_files(program: Program, folder: str) -> None:
    """A secret that can't be had, or that others may read, makes nothing: it is told so, with the reason, before there is a file, or over none."""
    file, path, place = os.path.join(folder, "f"), os.path.join(folder, "secret"), os.path.join(folder, "made")
    before = held(2, 2, [])
    put(place, before)
    for what, why in bad_secrets(folder):
        for named in (file, place):
            found = program.run_loud(*words(named, 9, "--secret", path), lines=b"a\n")
            expect(found, (Ended("nosecret\n", 3), f"lazyset: make {named}: --secret {path}: {why}\n"), f"a list, where there is {what}")
        expect((os.path.exists(file), bytes_in(place)), (False, before), f"what is left, where there is {what}")
    for mode in (0o600, 0o400):
        given = words(file, 9, "--secret", kept(folder, SECRET, mode))
        expect(program.run(*given, lines=b"a\n"), Ended("made 9\n", 0), f"a list by a secret of mode {mode:04o}")
        os.remove(file)


def try_words(program: Program, folder: str) -> None:
    """--secret needs --text, which needs --keys; such a command line is refused with words, and nothing is made. What else is said of a list."""
    file, path = os.path.join(folder, "f"), kept(folder, SECRET)
    named = ("--secret", path)
    for given, wanted in (
        (("--keys", *named), "--text <NAME>"),
        (named, "--text <NAME>"),
        (("--text", "seen", *named), "--keys"),
        (("--keys", "--text", "seen", "--secret"), "--secret <PATH>"),
        (("--keys", "--text", "seen", *named, *named), "--secret <PATH>"),
    ):
        ended = program.run("make", file, "9", *given, lines=b"a\n")
        expect((ended.text[:7], wanted in ended.text, ended.status), ("error: ", True, 2), f"a making {' '.join(given)}")
    expect(program.run(*words(file, 9, "--format", "1", *named)), Ended(BAD_FORMAT, 2), "a list under a secret in format 1")
    found = program.run_loud(*words(file, 9, *named), lines=b"a\nb")
    expect(found, (Ended("line 2\n", 3), f"lazyset: make {file}: line 2: {BAD_LINE}\n"), "a text without an end")
    ended, said = program.run_loud(*words(file, 65_537, *named), lines=b"a\n")
    more = roomier(["make", file, "65537", "--format", "2", *words(file, 65_537, *named)[3:]])
    expect((ended, said.splitlines()[1:]), (Ended("refused 2\n", 3), more.splitlines()), "too many slots for a list under a secret")
    expect(os.listdir(folder), ["secret"], "what is left")
    large = program.run(*words(file, 65_537, "--format", "4", *named), lines=b"a\n")
    expect(large, Ended("made 65537\n", 0), "what that command makes")
    expect(program.members(file), sorted(keys_of(SECRET, [b"a"])), "the keys of its file")


def making_of(path: str, slots: int, form: int, texts: Sequence[bytes]) -> makings.Making:
    """A making of a list of these texts under the secret at this path."""
    listed, keys = b"".join(text + b"\n" for text in texts), keys_of(SECRET, texts)
    options = ("--text", NAME.decode(), "--secret", path)
    return makings.Making(slots, form, listed.decode(), options, "".join(f"{key}\n" for key in keys))


def try_faults(program: Program, folder: str) -> None:
    """Each write and each sync of a making under a secret fails: the file is made whole or not at all."""
    makings.try_faults(program, folder, making_of(kept(folder, SECRET), 4, 4, (b"a", b"b")))


def try_kills(program: Program, folder: str, seed: int) -> None:
    """Makings of a list under a secret that are killed leave a file whole or none: never texts without their marks."""
    texts = [b"text %d" % number for number in range(MANY)]
    makings.try_kills(program, folder, seed, making_of(kept(folder, SECRET), MANY + 2, 4, texts))


TRIALS = (
    ("makings of lists under a secret", try_lists),
    ("makings of lists of texts, byte for byte", try_plain),
    ("lists under a secret, as a service finds them", try_served),
    ("secrets of lists that can't be had", try_files),
    ("the words of a list under a secret", try_words),
    ("each write and sync of a making under a secret fails", try_faults),
)
