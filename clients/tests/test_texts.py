"""Texts as keys: the numbers that docs/PROTOCOL.md has for them."""

from __future__ import annotations

import os
import re
import unittest
from typing import Any

from lazyset import MOST_NUMBER, key_of, mark_of

PROTOCOL = os.path.join(os.path.dirname(os.path.abspath(__file__)), "..", "..", "docs", "PROTOCOL.md")

# SHA-256 of "abc", as FIPS 180-2 has it (appendix B.1).
OF_ABC = 0xBA7816BF_8F01CFEA_414140DE_5DAE2223_B00361A3_96177A9C_B410FF61_F20015AD

# Names, members and the first 16 digits of the SHA-256 that sha256sum tells of the name's length in 8 bytes, the name and the member.
OF_MEMBERS = (
    ("", "", 0xAF5570F5A1810B7A),
    ("", "evt_1", 0x0C3817E27FD5B25C),
    ("tags", "red", 0x516FB7AF2ECDF888),
    ("a", "bc", 0xE98BC483CC6AF9CC),
    ("ab", "c", 0x290A3DAA9B49526A),
    ("Gr\u00fc\u00dfe", "s\u00fc\u00df", 0x9C102A373543282F),
    ("myset", "element:000000412558", 0xEEBBAF2F1728574D),
    ("s", "m", 0x340DB477DEE2EA1B),
)

# Secrets, as the page names them.
SECRETS = {"`0123456789abcdef`": b"0123456789abcdef", "the 64 bytes 00 01 .. 3f": bytes(range(64))}

# Secrets, and the first 16 digits of the SHA-256 that sha256sum tells of their blocks: the secret, and zeros up to 64 bytes.
OF_BLOCKS = (
    (b"0123456789abcdef", 0x5BA5BFEE72B54B0D),
    (b"0123456789abcdef\n", 0x508A6B8CF959F13F),
    (b"\xff" * 32, 0xA5DE9B714ACCD8AF),
    (bytes(range(64)), 0xFDEAB9ACF3710362),
)

# Secrets, names, members and the same of the block, the name's length in 8 bytes, the name and the member.
OF_SECRET_MEMBERS = (
    (b"0123456789abcdef", "s", "m", 0xD37688BD15C5EB41),
    (b"0123456789abcdef", "", "", 0xE73C953913A614A1),
    (b"0123456789abcdef", "guests", "Gr\u00fc\u00dfe", 0x9869CFFC98CD63E1),
    (b"0123456789abcdef", "a", "bc", 0x1A756E3E2D8A7EE4),
    (b"0123456789abcdef", "ab", "c", 0x7A06634B7BADC9D1),
    (b"0123456789abcdef\n", "s", "m", 0xC93CC444535E900F),
    (b"\xff" * 32, "s", "m", 0xF26EA11C0AAEC4AA),
    (bytes(range(64)), "s", "m", 0xF000E3A0EA87A2B1),
    (bytes(range(64)), "", "", 0xD17CF353AED507C3),
)

# What is no secret: too short, too long, or with a zero at its end.
NO_SECRETS = (b"", b"x" * 15, b"x" * 65, b"x" * 15 + b"\0", b"x" * 63 + b"\0", bytes(32))


class Texts(unittest.TestCase):
    def test_the_numbers_of_the_page(self) -> None:
        with open(PROTOCOL, encoding="utf-8") as page:
            rows = re.findall(r"^\| (?:`(.*)`|\(empty\)) \| (\d+) \|", page.read().partition("\n## Text as keys\n")[2], re.M)
        self.assertEqual(len(rows), 5)
        for text, number in rows:
            self.assertEqual(str(key_of(text)), number, text)

    def test_the_members_of_the_page(self) -> None:
        with open(PROTOCOL, encoding="utf-8") as page:
            rows = re.findall(r"^\| (?:`(\S*)`|\(empty\)) \| (?:`(\S*)`|\(empty\)) \| (\d+) \|$", page.read(), re.M)
        self.assertEqual([(name, member, int(number)) for name, member, number in rows], [(*texts, digest % 10**18) for *texts, digest in OF_MEMBERS])

    def test_the_definition(self) -> None:
        self.assertEqual(key_of("abc"), OF_ABC % 10**18)
        self.assertEqual(key_of(b"abc"), key_of("abc"))
        self.assertEqual(key_of("Gr\u00fc\u00dfe"), key_of(b"Gr\xc3\xbc\xc3\x9fe"))
        self.assertLessEqual(max(key_of(str(number)) for number in range(1000)), MOST_NUMBER)

    def test_members_of_sets(self) -> None:
        for name, member, digest in OF_MEMBERS:
            self.assertEqual(key_of(name, member), digest % 10**18, (name, member))
            self.assertEqual(key_of(name.encode("utf-8"), member.encode("utf-8")), key_of(name, member))
        self.assertNotEqual(key_of("", "abc"), key_of("abc"))

    def test_the_secrets_of_the_page(self) -> None:
        with open(PROTOCOL, encoding="utf-8") as page:
            rows = re.findall(r"^\| (\S.*) \| (?:`(\S*)`|\(empty\)) \| (?:`(\S*)`|\(empty\)) \| (\d+) \|$", page.read(), re.M)
        self.assertEqual(sorted({secret for secret, *_ in rows}), sorted(SECRETS))
        self.assertEqual(len(rows), 4)
        for secret, name, member, number in rows:
            self.assertEqual(str(key_of(name, member, secret=SECRETS[secret])), number, (secret, name, member))

    def test_members_under_a_secret(self) -> None:
        for secret, name, member, digest in OF_SECRET_MEMBERS:
            self.assertEqual(key_of(name, member, secret=secret), digest % 10**18, (secret, name, member))
            self.assertEqual(key_of(name.encode("utf-8"), member.encode("utf-8"), secret=secret), digest % 10**18)
            self.assertNotEqual(key_of(name, member, secret=secret), key_of(name, member))
        self.assertEqual(key_of("s", "m", secret=None), key_of("s", "m"))

    def test_marks_of_secrets(self) -> None:
        for secret, digest in OF_BLOCKS:
            self.assertEqual(mark_of(secret), 2 * 10**15 + digest % 10**15, secret)

    def test_what_is_no_secret(self) -> None:
        for secret in NO_SECRETS:
            for call in (lambda: key_of("s", "m", secret=secret), lambda: mark_of(secret)):
                with self.assertRaises(ValueError, msg=repr(secret)):
                    call()
        others: Any = ["0123456789abcdef", bytearray(b"0123456789abcdef"), 17, [1] * 16]
        for other in others:
            for call in (lambda: key_of("s", "m", secret=other), lambda: mark_of(other)):
                with self.assertRaises(TypeError, msg=repr(other)):
                    call()
        none: Any = None
        with self.assertRaises(TypeError):
            mark_of(none)
        with self.assertRaises(TypeError):
            key_of("evt_1", secret=b"0123456789abcdef")

    def test_what_is_no_text(self) -> None:
        no_texts: Any = [None, 17, ["a"]]
        for no_text in no_texts:
            for texts in ((no_text,), (no_text, "a"), ("a", no_text), ("a", "a", no_text)):
                with self.assertRaises(TypeError):
                    key_of(*texts)
        for text in (("\ud800",), ("\ud800", "a"), ("a", "\ud800")):
            with self.assertRaises(ValueError):
                key_of(*text)
        with self.assertRaises(TypeError):
            key_of("a", "b", "c")
