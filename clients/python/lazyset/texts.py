"""Texts as keys."""

from __future__ import annotations

import hashlib
from typing import Optional, Union

from .commands import MOST_NUMBER

Text = Union[str, bytes]

# How many bytes the length of a name takes, and a number.
LENGTH_SIZE = NUMBER_SIZE = 8

# The fewest and the most bytes of a secret: a block of SHA-256.
FEWEST_SECRET, MOST_SECRET = 16, 64

# Where the numbers of the marks of secrets begin, and how many there are.
SECRET_MARKS, MARK_VALUES = 2 * 10**15, 10**15


def key_of(text: Text, *member: Text, secret: Optional[bytes] = None) -> int:
    """The number that stands for a text (its UTF-8) or for bytes, or for a member of the set of that name, where two are given: each is a
    definition of its own, the same on each machine and in each version.

    `key_of(text)` is the SHA-256 of the text, read as a number with the highest byte first, modulo 10^18: docs/PROTOCOL.md, "Text as keys",
    has texts with their numbers.

    `key_of(name, member)` takes the SHA-256 of the name's length (8 bytes, the highest first), the name and the member. It is the first 8
    bytes of that, read as a number with the highest byte first, modulo 10^18. So no other name and member give the same bytes.

    `key_of(name, member, secret=secret)` is that of a service with `--secret`: the secret is hashed first, with zeros up to 64 bytes. It is
    all bytes of that service's file: 16 to 64 of them, of which the last isn't zero. ValueError where it is no such secret.

    Two texts may have one number, and the second one then counts as known: docs/PROTOCOL.md, "How likely two texts share a key", has the
    odds. Without a secret they aren't for texts that an enemy chooses: docs/RECIPES.md, "An admission list"."""
    if len(member) > 1:
        raise TypeError(f"a text, or a name and a member, not {1 + len(member)} texts")
    data = _bytes_of(text)
    if not member:
        if secret is not None:
            raise TypeError("a secret is for a name and a member, not for one text")
        return _number(hashlib.sha256(data).digest())
    block = b"" if secret is None else _block_of(secret)
    named = block + len(data).to_bytes(LENGTH_SIZE, "big") + data + _bytes_of(member[0])
    return _number(_first_bytes(named))


def mark_of(secret: bytes) -> int:
    """The number, in room 15, of the mark of a file whose texts have their keys by this secret: docs/FORMATS.md, "Marks". ValueError where it
    is no secret."""
    return SECRET_MARKS + int.from_bytes(_first_bytes(_block_of(secret)), "big") % MARK_VALUES


def _block_of(secret: bytes) -> bytes:
    if not isinstance(secret, bytes):
        raise TypeError(f"a secret is bytes, not {type(secret).__name__}")
    if not FEWEST_SECRET <= len(secret) <= MOST_SECRET:
        raise ValueError(f"a secret has {FEWEST_SECRET} to {MOST_SECRET} bytes, not {len(secret)}")
    if secret[-1] == 0:
        raise ValueError("a secret's last byte isn't zero")
    return secret.ljust(MOST_SECRET, b"\0")


def _bytes_of(text: Text) -> bytes:
    return text.encode("utf-8") if isinstance(text, str) else text


def _first_bytes(data: bytes) -> bytes:
    return hashlib.sha256(data).digest()[:NUMBER_SIZE]


def _number(digest: bytes) -> int:
    return int.from_bytes(digest, "big") % (MOST_NUMBER + 1)
