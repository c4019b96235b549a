"""Bytes of variables that files give, and variables by their names."""
from __future__ import annotations

import pathlib
import tempfile
import unittest

from yotarimu.common.outcome import Refusal
from yotarimu.images.contents import numbers_of, splice
from yotarimu.images.image import DATA, Image
from yotarimu.images.listing import Listing
from yotarimu.images.values import Piece, piece_of, piece_lines, variables


class NumbersTest(unittest.TestCase):
    """Numbers of a text as bytes."""

    def bytes_of(self, text: str, width: int) -> bytes:
        """What a file with this text gives."""
        with tempfile.TemporaryDirectory() as folder:
            path = pathlib.Path(folder, "given.csv")
            path.write_text(text)
            return numbers_of(path, width)

    def test_numbers(self) -> None:
        for text, width, wanted in (
                ("", 4, b""), ("1", 4, b"\1\0\0\0"), ("1,2", 1, b"\1\2"), (" 1 ,\n\n2\t3\n", 1, b"\1\2\3"),
                ("258", 2, b"\2\1"), ("0x102", 2, b"\2\1"), ("-1", 2, b"\xff\xff"), ("-0x80", 1, b"\x80"),
                ("4294967295", 4, b"\xff" * 4), ("-2147483648", 4, b"\0\0\0\x80")):
            self.assertEqual(self.bytes_of(text, width), wanted, text)

    def test_others_are_refused(self) -> None:
        for text, width, place in (("one", 4, ":1: "), ("1\n2,-", 4, ":2: "), ("256", 1, ":1: "), ("-129", 1, ":1: "),
                                   ("1.5", 4, ":1: "), ("\n\n4294967296", 4, ":3: "), ("--1", 4, ":1: ")):
            with self.assertRaisesRegex(Refusal, place):
                self.bytes_of(text, width)

    def test_bytes_take_the_place_of_others(self) -> None:
        self.assertEqual(splice(b"abcd", 1, b"XY"), b"aXYd")
        self.assertEqual(splice(b"abcd", 3, b"XY"), b"abcXY")
        self.assertEqual(splice(b"ab", 4, b"XY"), b"ab\0\0XY")
        self.assertEqual(splice(b"ab", 1, b""), b"ab")


class ValuesTest(unittest.TestCase):
    """Six bytes of `one`, two of which only fill a gap, and four of `two`, behind a task."""
    LISTING = Listing({0x10000: "main", DATA: "one", DATA + 8: "two"}, {}, {}, {})
    IMAGE = Image(True, b"", b"", 12, 0, 0, [])
    DATA = bytes([1, 0, 0, 0, 0xFF, 0xFF, 0, 0, 1, 2, 3, 4])

    def test_variables(self) -> None:
        self.assertEqual(variables(self.LISTING, self.IMAGE), {"one": (0, 8), "two": (8, 12)})

    def test_pieces(self) -> None:
        known = variables(self.LISTING, self.IMAGE)
        self.assertEqual(piece_of("one", known, 4), Piece("one", 0, 0, 2, 4))
        self.assertEqual(piece_of("one[1]", known, 4), Piece("one", 0, 1, 2, 4))
        self.assertEqual(piece_of("two[1..3]", known, 1), Piece("two", 8, 1, 4, 1))
        for word in ("three", "one[2]", "one[1..2]", "one[1..0]", "one[-1]", "one[]", ""):
            with self.assertRaises(Refusal, msg=word):
                piece_of(word, known, 4)

    def test_lines(self) -> None:
        known = variables(self.LISTING, self.IMAGE)
        self.assertEqual(list(piece_lines(piece_of("one", known, 4), self.DATA, False)),
                         ["one: 2 numbers of 4 bytes from 10000000 on", "       0: 1 65535"])
        self.assertEqual(list(piece_lines(piece_of("two[3]", known, 1), self.DATA, True)),
                         ["two: 1 number of 1 byte from 1000000b on", "       3: 04"])


if __name__ == "__main__":
    unittest.main()
