"""What a loss of power may leave of a file that is made, renewed or grown: images of it at each moment, from the system calls of the program."""

from __future__ import annotations

import os
import random
import signal
from collections import Counter
from functools import lru_cache
from typing import Callable, Iterator, List, NamedTuple, Optional, Sequence, Tuple

from trials.faults import FAILURES, needs_strace
from trials.files import bytes_in, put
from trials.images import RENAMED, SYNC, TOLD, Call, traced
from trials.plain import FORMATS, HEAD_SIZE, MOST_NUMBER, OPEN, SLOT_SIZE, Survey, head_of, held, made, refusal_of, renewed, slot_of
from trials.program import Ended, Key, Program
from trials.report import Wrong, expect
from trials.served_images import expect_shown

# How many slots are asked for, and so many that what is written has no room in the 64 KB that a making gathers, with as many keys of a list.
SIZES = (1, 3, 40)
LARGE, LISTED = 4_500, 4_200

# The formats into which files are renewed.
RENEWED = (2, 3, 4)

# How many images are drawn at each moment at which something isn't synced; of a file of so many slots fewer.
DRAWS, FEW = 150, 30

# Which of 256 bytes that are drawn is taken: few, half or most of them.
SHARES = [bytes(255 * (byte < taken) for byte in range(256)) for taken in (1, 16, 128, 240, 255)]
WIDE = {byte: bytes([byte]) * SLOT_SIZE for byte in (0, 255)}

# At one in so many moments the program reads an image that is made, and one that isn't.
SHOWN = 4

NOT_MADE = 1
SAID = (b"made", b"renewed", b"grown")


class Asked(NamedTuple):
    """A file that is asked for: of so many slots in a format, with these keys in the first of them, which are those of a list or of an older file."""

    verb: str
    form: int
    slots: int
    keys: Tuple[Key, ...] = ()
    old: bytes = b""

    def words(self, file: str, old: str) -> List[str]:
        """The command. A growth makes the file that stands beside the older one."""
        names = {"make": [file], "renew": [old, file], "grow": [old]}[self.verb]
        words = [self.verb, *names, str(self.slots), "--format", str(self.form)]
        return [*words, "--keys"] if self.listed() else words

    def listed(self) -> str:
        """The list that a making reads."""
        return "".join(f"{key}\n" for key in self.keys) if self.verb == "make" else ""

    def made(self, before: bytes) -> Tuple[str, bytes]:
        """What is printed, and the file that is left of these bytes, by the plain model."""
        if self.verb == "make":
            return made(before, self.form, self.slots, self.keys)
        told, left = renewed(self.old, before, self.slots, self.form)
        return (told.replace("renewed", "grown") if self.verb == "grow" else told), left


class Cut(NamedTuple):
    """Where a command is cut off: its call of that number fails, or it is killed before it."""

    call: str
    number: int
    is_kill: bool

    def inject(self) -> str:
        return f"{self.call}:{'signal=KILL' if self.is_kill else 'error=' + FAILURES[self.call]}:when={self.number}"

    def ended(self, asked: Asked) -> Ended:
        return Ended("", -signal.SIGKILL) if self.is_kill else Ended(f"refused {'' if asked.verb == 'make' else 'new '}3\n", 1)


def where(mask: bytes, one: bytes, other: bytes) -> bytes:
    """The bytes of one text where the mask is ff, and those of another where it is zero."""
    first, second, bits = (int.from_bytes(text, "big") for text in (one, other, mask))
    return (second ^ ((first ^ second) & bits)).to_bytes(len(mask), "big")


def drawn_bytes(draw: random.Random, count: int) -> bytes:
    """So many bytes of all kinds."""
    return draw.getrandbits(8 * count).to_bytes(count, "big") if count else b""


@lru_cache(maxsize=None)
def full_file(form: int, slots: int) -> bytes:
    """A file with another set than is ever asked for, as blocks of the disk may still hold it."""
    return held(form, slots, [Key(0, 10**9 + number) for number in range(slots)])


class LooseDisk:
    """A disk on which a crash leaves any byte at each place that isn't synced, and any length from that which is durable to that which is read. So a
    crash within a write leaves nothing else than one after it; and a write that fails may have left any bytes too."""

    def __init__(self, text: bytes, is_synced: bool = True) -> None:
        self.sure = text if is_synced else b""
        self.seen = bytearray(text)
        # Each place's byte is ff where it isn't synced.
        self.loose = bytearray(len(self.sure)) + b"\xff" * (len(text) - len(self.sure))
        self.ranges = [] if is_synced else [(0, len(text))]

    def take(self, call: Call) -> None:
        if call.at == SYNC and not call.has_failed:
            self.sure, self.loose, self.ranges = bytes(self.seen), bytearray(len(self.seen)), []
        elif call.at >= 0:
            end = call.at + len(call.text)
            if not call.has_failed:
                past = max(0, end - len(self.seen))
                self.seen, self.loose = self.seen + bytes(past), self.loose + b"\xff" * past
                self.seen[call.at : end] = call.text
            count = max(0, min(end, len(self.seen)) - call.at)
            self.loose[call.at : call.at + count] = b"\xff" * count
            self.ranges.append((call.at, call.at + count))

    def images(self, draw: random.Random) -> Iterator[bytes]:
        """Texts that a crash may leave. Where one place alone isn't synced it has each byte. Else what isn't synced is all as before, as read, zeros,
        ones, drawn or of another file, at each length at an edge, with the head's gate open too; and mixtures of these."""
        yield bytes(self.seen)
        count = self.loose.count(255)
        if count == 1:
            place = self.loose.index(255)
            yield from (bytes(self.seen[:place]) + bytes([byte]) + bytes(self.seen[place + 1 :]) for byte in range(256))
            yield self.sure
        if count > 1:
            yield from self._mixtures(draw)

    def _mixtures(self, draw: random.Random) -> Iterator[bytes]:
        fills = self._fills(draw)
        for fill in fills:
            for gate in (fill[0], OPEN):
                for length in self._edges():
                    yield self._image(fill, gate, length)
        for _ in range(DRAWS if len(self.seen) < LARGE else FEW):
            text = draw.choice(fills)
            for fill in draw.sample(fills, draw.randint(1, 3)):
                text = where(self._mask(draw), fill, text)
            length = draw.choice((len(self.seen), draw.randint(len(self.sure), len(self.seen))))
            yield self._image(text, draw.choice((text[0], draw.randrange(256), OPEN)), length)

    def _fills(self, draw: random.Random) -> List[bytes]:
        """What may be read at each place that isn't synced."""
        size = len(self.seen)
        fills = [self.sure, bytes(self.seen), b"", b"\xff" * size, drawn_bytes(draw, size)]
        slots = (size - HEAD_SIZE) // SLOT_SIZE
        return [fill.ljust(size, b"\0") for fill in (*fills, *([full_file(draw.choice(FORMATS), slots)] if slots > 0 else ()))]

    def _edges(self) -> List[int]:
        """Lengths at which an image is of another kind."""
        low, size = len(self.sure), len(self.seen)
        return sorted({length for length in (low, 1, HEAD_SIZE - 1, HEAD_SIZE, size - SLOT_SIZE, size - 1, size) if low <= length <= size})

    def _mask(self, draw: random.Random) -> bytes:
        """Some ranges that were written, some slots, or some bytes."""
        size, unit = len(self.seen), draw.choice((0, SLOT_SIZE, 1))
        if unit == 0:
            mask = bytearray(size)
            for start, end in self.ranges:
                mask[start:end] = bytes([draw.choice((0, 255))]) * (end - start)
            return bytes(mask)
        chosen = drawn_bytes(draw, -(-size // unit)).translate(draw.choice(SHARES))
        return b"".join(map(WIDE.__getitem__, chosen))[:size] if unit > 1 else chosen

    def _image(self, fill: bytes, gate: int, length: int) -> bytes:
        """What a crash leaves where it leaves these bytes, this gate and this length, as far as they aren't synced."""
        text = bytes([gate]) + fill[1:]
        return where(bytes(self.loose), text, self.sure.ljust(len(text), b"\0"))[:length]


@lru_cache(maxsize=8)
def read(image: bytes) -> Survey:
    return Survey(image)


def flaw_of(image: bytes, wanted: Optional[Asked], is_said: bool) -> str:
    """What is wrong with an image that is neither no set yet nor just the set that is asked for."""
    if refusal_of(image) == NOT_MADE:
        return "isn't made, and was said to be" if is_said else ""
    survey = read(image)
    if survey.refusal or wanted is None:
        return f"is refused {survey.refusal}" if survey.refusal else "holds a set that nobody asked for"
    found = survey.form, survey.slots, survey.members, survey.flaws, survey.torn
    whole = wanted.form, wanted.slots, {key: place for place, key in enumerate(wanted.keys)}, [], 0
    return "" if found == whole else f"holds {found!s:.300}"


def held_by(start: bytes) -> Optional[Asked]:
    """What was asked for where a file is made already."""
    survey = Survey(start)
    return None if survey.refusal else Asked("make", survey.form, survey.slots, tuple(survey.members))


class Course:
    """A file that is made, perhaps in several tries: what a crash may leave of it at each moment, and what of that is wrong."""

    def __init__(self, start: bytes, is_synced: bool, draw: random.Random, show: Callable[[bytes], None] = lambda image: None) -> None:
        self.disk, self.draw, self.show = LooseDisk(start, is_synced), draw, show
        # Of what was there before the first making, and isn't synced, nothing is known.
        self.is_known, self.is_said = is_synced, False
        self.wanted = held_by(start)
        self.flaws: List[Tuple[str, bytes]] = []
        self.left, self.most_ranges = start, 0
        self.counts: Counter[bool] = Counter()

    def follow(self, asked: Optional[Asked], calls: Sequence[Call]) -> None:
        """Reads what a crash may leave before the first of the calls and after each. From the first sync on only what is asked for is made, if it
        is; and from the first word of it on it is made."""
        self._look()
        for call in calls:
            self.disk.take(call)
            if not call.has_failed and (call.at == SYNC or call.at >= 0):
                self.is_known, self.wanted = True, asked or self.wanted
            self.is_said |= call.at == RENAMED or (call.at == TOLD and call.text.startswith(SAID))
            self._look()

    def _look(self) -> None:
        if not self.is_known:
            return
        images: List[List[bytes]] = [[], []]
        for image in dict.fromkeys(self.disk.images(self.draw)):
            flaw = flaw_of(image, self.wanted, self.is_said)
            self.flaws += [(flaw, image)] if flaw else []
            images[refusal_of(image) == NOT_MADE].append(image)
        for is_made, kind in zip((True, False), images):
            self.counts[is_made] += len(kind)
            if kind and self.draw.randrange(SHOWN) == 0:
                self.show(self.draw.choice(kind))
        self.most_ranges = max(self.most_ranges, len(self.disk.ranges))
        if any(self.disk.loose) and self.draw.randrange(3) == 0:
            self.left = self.draw.choice(self.draw.choice([kind for kind in images if kind]))


class Maker:
    """The program, which makes files in a folder under strace, and what was found of them."""

    def __init__(self, program: Program, folder: str, seed: int) -> None:
        self.program, self.folder, self.draw, self.seed = program, folder, random.Random(seed), seed
        self.files = self.images = self.made = self.shown = self.torn = self.refused = 0
        self.left = b""

    def path(self, name: str) -> str:
        return os.path.join(self.folder, name)

    def begin(self, start: Optional[bytes], is_synced: bool = True) -> Course:
        """A file of these bytes, or none."""
        put(self.path("new"), start)
        return Course(start or b"", is_synced, self.draw, self.show)

    def show(self, image: bytes) -> None:
        """The program reads an image as the model does."""
        expect_shown(self.program, image, self.path("image"))
        self.shown += 1

    def ask(self, course: Course, asked: Asked, cut: Optional[Cut] = None) -> List[Call]:
        """Has a file made, and reads what a crash may leave of it at each moment. Gives the calls."""
        old, new = self.path("old"), self.path("old.grow" if asked.verb == "grow" else "new")
        put(old, asked.old)
        (told, left), before = asked.made(bytes(course.disk.seen)), course.counts.copy()
        is_refused = told.startswith("refused")
        what = f"seed {self.seed}, {asked.verb} {asked.slots} slots of format {asked.form} with {len(asked.keys)} keys, {cut or 'not cut off'}"
        ended, calls = traced(self.program, asked.words(new, old), new, self.path("calls"), asked.listed(), cut.inject() if cut else "")
        expect(ended, cut.ended(asked) if cut else Ended(told, 3 if is_refused else 0), what)
        course.follow(None if is_refused else asked, calls)
        if course.flaws:
            flaw, image = course.flaws[0]
            raise Wrong(f"{what}: {len(course.flaws)} images are wrong, the first {flaw}: {image.hex():.3000}")
        counts, seen = course.counts - before, bytes(course.disk.seen)
        if cut is None:
            expect((seen, any(call.at >= 0 for call in calls)), (left, not is_refused), f"the file, and whether it was written: {what}")
            expect(is_refused or min(counts[True], counts[False]) > 0, True, f"that some images are made and some aren't: {what}")
        file = old if asked.verb == "grow" else new
        # A file that is empty yet where its making fails is taken away again.
        expect(bytes_in(file) if os.path.exists(file) else b"", seen, f"the file, as the calls have it: {what}")
        expect(asked.verb != "renew" or bytes_in(old) == asked.old, True, f"that the older file is as it was: {what}")
        self.files, self.images, self.made = self.files + 1, self.images + sum(counts.values()), self.made + counts[True]
        self.refused, self.left = self.refused + is_refused, course.left
        return calls

    def making(self, form: int, slots: int) -> Asked:
        """A making of the empty set, or of a list of keys."""
        rooms = (0,) if form == 1 else (0, 3, 15)
        keys = [Key(self.draw.choice(rooms), number) for number in (*range(slots - 1), MOST_NUMBER)]
        return Asked("make", form, slots, tuple(self.draw.sample(keys, self.draw.choice((0, 1, slots)))))

    def moving(self, verb: str, old_form: int, form: int) -> Asked:
        """A renewal or a growth of an older file, each slot of which is open, or closed, or closed with other bytes: in format 4 it is torn."""
        keys = self.making(old_form, 4).keys
        slots = [slot_of(key, old_form) for key in keys] + [bytes(SLOT_SIZE)] * 2
        slots += [bytes([0]) + slot_of(Key(0, 17), old_form)[1:], bytes([0]) + drawn_bytes(self.draw, SLOT_SIZE - 1)]
        self.draw.shuffle(slots)
        old = head_of(old_form, len(slots)) + b"".join(slots)
        survey = Survey(old)
        self.torn += survey.torn
        return Asked(verb, form, max(1, len(keys)) + self.draw.randrange(9), tuple(survey.members), old)

    def starts(self, asked: Asked) -> Iterator[Tuple[Optional[bytes], bool]]:
        """Files over which it may be made, and whether they are synced: none, an empty one, what a crash may leave of a making's first write, what it
        has left of an earlier one, any bytes and another set, each with a closed gate."""
        size, draw = HEAD_SIZE + SLOT_SIZE * asked.slots, self.draw
        closed = bytes([draw.choice((0, 1, 0x25, 0xFF))])
        yield from ((None, True), (b"", True), (self.left, True))
        yield bytes([OPEN]) + drawn_bytes(draw, draw.randrange(HEAD_SIZE - 1)), draw.choice((True, False))
        yield closed + drawn_bytes(draw, draw.randrange(size)), draw.choice((True, False))
        yield closed + full_file(draw.choice(FORMATS), asked.slots)[1:], False

    def try_cuts(self) -> None:
        """A making or a renewal is killed before each of its writes and syncs, or that fails; and then the other one goes over what is left."""
        calls = self.ask(self.begin(None), self.making(4, 3))
        counts = Counter("fdatasync" if call.at == SYNC else "pwrite64" for call in calls if call.at != TOLD)
        for name, count in counts.items():
            for number in range(1, count + 1):
                for is_kill in (True, False):
                    self.try_cut(Cut(name, number, is_kill))

    def try_cut(self, cut: Cut) -> None:
        draw, course = self.draw, self.begin(None)
        commands = [self.making(draw.choice(FORMATS), draw.choice((3, 5))), self.moving("renew", draw.choice(FORMATS), draw.choice(RENEWED))]
        # One of a renewal's syncs is the older file's.
        if cut.call == "pwrite64":
            draw.shuffle(commands)
        self.ask(course, commands[0], cut)
        self.ask(course, commands[1])

    def try_large(self, form: int) -> None:
        """A making whose bytes are gathered and written in two parts, up to one sync; also where it is killed between them, and made again."""
        asked = Asked("make", form, LARGE, tuple(Key(0, 7 * number) for number in range(LISTED)))
        course = self.begin(None)
        self.ask(course, asked)
        expect(course.most_ranges, 2, "how many writes of a large making wait for one sync")
        course = self.begin(None)
        self.ask(course, asked, Cut("pwrite64", 3, True))
        self.ask(course, asked)

    def try_all(self) -> None:
        """Makings of each size over each kind of file, renewals and growths from each format into each, and makings that are cut off."""
        for form in FORMATS:
            for slots in SIZES:
                asked = self.making(form, slots)
                for start, is_synced in self.starts(asked):
                    self.ask(self.begin(start, is_synced), asked)
            for verb in ("renew", "grow"):
                for new_form in RENEWED:
                    self.ask(self.begin(None), self.moving(verb, form, new_form))
        self.try_cuts()
        self.try_large(4)

    def try_spoiled(self) -> List[str]:
        """Each sync of a making is needed: had it not been made, images would be wrong. How many of how many, for each."""
        told, form = [], self.draw.choice(FORMATS)
        for start, is_synced in ((b"", True), (bytes([0]) + full_file(form, 3)[1:], False)):
            asked = self.making(form, 3)
            calls = self.ask(self.begin(start, is_synced), asked)
            syncs = [place for place, call in enumerate(calls) if call.at == SYNC]
            # Where nothing waits to be synced the first one does nothing.
            for place in syncs[is_synced:]:
                spoiled = Course(start, is_synced, self.draw)
                spoiled.follow(asked, calls[:place] + calls[place + 1 :])
                if not spoiled.flaws:
                    raise Wrong(f"no image is wrong without the sync {syncs.index(place) + 1} of {len(syncs)}")
                told.append(f"{len(spoiled.flaws)} of {sum(spoiled.counts.values())}")
        return told


def try_images(program: Program, folder: str, seed: int, images: int) -> None:
    """Whatever a loss of power leaves in the midst of a making, a renewal or a growth isn't made yet, or is the whole file that was asked for."""
    needs_strace()
    maker = Maker(program, os.path.realpath(folder), seed)
    spoiled = maker.try_spoiled()
    while maker.images < images:
        maker.try_all()
    of = f"of {maker.files} makings, renewals and growths ({maker.refused} refused, {maker.torn} torn slots in older files)"
    print(f"         {maker.images} images {of}: {maker.made} are made, {maker.shown} were read by the program", flush=True)
    print(f"         without one of a making's syncs so many are wrong: {', '.join(spoiled)}", flush=True)
