"""Values by names and addresses, and listings that are written by hand."""
from __future__ import annotations

import unittest

from yotarimu.common.outcome import Refusal
from yotarimu.images.image import DATA, TEXT, Image
from yotarimu.images.listing import NO_LISTING, read_listing
from yotarimu.images.values import Piece, piece_lines, piece_of, variables

IMAGE = Image(True, b"\x73\0\0\0", b"", 16, 0, 0, [])
HAND_MADE = """My compiler's listing.
00010000 <count>:
00010000  00000073  ecall | count.toy:3 | end
10000004 <steps>:
"""


class Values(unittest.TestCase):
    """Pieces of the data."""
    def test_addresses_and_ranges_are_pieces(self) -> None:
        for word, width, first, end in (("0x10000004", 4, 0, 1), ("0x10000004[2]", 4, 2, 3),
                                        ("0x10000004[1..2]", 4, 1, 3), ("0x10000004..0x1000000c", 4, 0, 3),
                                        ("0X10000004..0x10000005", 1, 0, 2)):
            with self.subTest(word):
                self.assertEqual(piece_of(word, {}, width, 16), Piece("10000004", 4, first, end, width))

    def test_what_is_outside_the_data_is_refused(self) -> None:
        for word in ("0x10000010", "0xffffffc", "0x10000000[4]", "0x10000008..0x10000004", "0x1000000e"):
            with self.subTest(word), self.assertRaisesRegex(Refusal, "the data is from 0x10000000 up to 0x10000010"):
                piece_of(word, {}, 4, 16)

    def test_an_address_is_printed_with_its_numbers(self) -> None:
        piece = piece_of("0x10000004[0..1]", {}, 4, 16)
        self.assertEqual(list(piece_lines(piece, bytes(range(16)), True)),
                         ["10000004: 2 numbers of 4 bytes from 10000004 on", "       0: 07060504 0b0a0908"])

    def test_other_words_are_refused_with_the_forms(self) -> None:
        with self.assertRaisesRegex(Refusal, "a range of addresses"):
            piece_of("10000004", {}, 4, 16)
        self.assertEqual(variables(NO_LISTING, IMAGE), {})


class Listings(unittest.TestCase):
    """Listings by hand."""
    def test_a_listing_by_hand_is_read(self) -> None:
        listing = read_listing(HAND_MADE, "listing")
        self.assertEqual((listing.label(TEXT), listing.place(TEXT)), ("count", "count.toy:3: end"))
        self.assertEqual(variables(listing, IMAGE), {"steps": (4, 16)})
        self.assertEqual(piece_of("steps[1]", variables(listing, IMAGE), 4, 16), Piece("steps", 4, 1, 2, 4))

    def test_labels_alone_are_a_listing(self) -> None:
        self.assertEqual(read_listing("1000000C <last>:\n", "listing").labels, {DATA + 12: "last"})

    def test_other_texts_are_refused(self) -> None:
        with self.assertRaisesRegex(Refusal, "no line has a label or an instruction"):
            read_listing("nothing\n", "listing")


if __name__ == "__main__":
    unittest.main()
