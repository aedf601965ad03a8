"""Transcripts: lines that are asked, and below each what is printed of it.

A text holds transcripts one after another. Each begins with a head as `== slots 2, buckets 1: what it shows`, in which what isn't
named is any. A line behind `> ` is asked, and the lines below it are what it prints. A line behind `# ` is a comment."""

from __future__ import annotations

import os
import re
from dataclasses import dataclass, field
from typing import Iterator, List, Optional, Tuple

from trials.plain import FORMATS

FOLDER = os.path.join(os.path.dirname(os.path.abspath(__file__)), "transcripts")

HEAD = re.compile(r"== slots (\d+)(?:, buckets (\d+))?(?:, formats? (\d)(?: to (\d))?)?: (.+)")


@dataclass
class Transcript:
    """What is asked of a set of so many slots, and what it prints, line by line."""

    name: str
    slots: int
    buckets: Tuple[int, ...] = (1, 7)
    formats: Tuple[int, ...] = FORMATS
    exchanges: List[Tuple[str, str]] = field(default_factory=list)

    def ask(self, asked: str, *told: str) -> None:
        """Adds a line that is asked, and those that it prints."""
        self.exchanges.append((asked, "".join(f"{line}\n" for line in told)))

    def first(self, count: Optional[int] = None, ending: str = "\n") -> Tuple[str, str]:
        """The first lines that are asked, each with this ending, and all that is printed of them."""
        exchanges = self.exchanges[:count]
        return "".join(asked + ending for asked, _ in exchanges), "".join(told for _, told in exchanges)


def _begun(head: str) -> Transcript:
    found = HEAD.fullmatch(head)
    if not found:
        raise ValueError(f"no head of a transcript: {head!r}")
    slots, buckets, *forms, name = found.groups()
    transcript = Transcript(name, int(slots))
    if buckets:
        transcript.buckets = (int(buckets),)
    if forms[0]:
        first, last = int(forms[0]), int(forms[1] or forms[0])
        transcript.formats = tuple(range(first, last + 1))
    return transcript


def read(text: str) -> Iterator[Transcript]:
    """The transcripts of a text."""
    transcript: Optional[Transcript] = None
    for line in text.splitlines():
        if line.startswith("== "):
            if transcript:
                yield transcript
            transcript = _begun(line)
        elif line.startswith("> ") and transcript:
            transcript.ask(line[2:])
        elif line and not line.startswith("# "):
            if not transcript or not transcript.exchanges:
                raise ValueError(f"a line without a place: {line!r}")
            asked, told = transcript.exchanges[-1]
            transcript.exchanges[-1] = asked, f"{told}{line}\n"
    if transcript:
        yield transcript


def stored(name: str) -> List[Transcript]:
    """The transcripts of one of the stored texts."""
    with open(os.path.join(FOLDER, f"{name}.txt"), encoding="ascii") as file:
        return list(read(file.read()))
