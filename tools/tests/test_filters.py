"""Filters: Bloom's hashes by vectors and by digits of pi that are worked out anew, what each kind reports, and the
model of conflicts on event logs."""
from __future__ import annotations

import io
import unittest

from tests.conflict_model import conflicts_held
from yotarimu.common.places import EXAMPLES_FOLDER
from yotarimu.lines.filters import (
    BANK_BITS, BANKS, DIGITS, FILTERS, FilterKind, LineRule, TaskFilter, hashed_bits, hashes, rule_of)
from yotarimu.lines.reader import Reader, open_lines

from tries.lines_text import joint_lines

SCHEDULES = EXAMPLES_FOLDER / "schedules"
# Lines with their eight hashes, the first one in the lowest bits, as shell arithmetic has them of the digits.
VECTORS = {
    0: 0, 1: 0x243f6a8885a308d3, 2: 0x13198a2e03707344, 3: 0x3726e0a686d37b97, 7: 0x932fd884af4c4a47,
    1_024: 0x2ffd72dbd01adfb7, 4_194_303: 0x4428c735ea3e5306,
    4_294_967_295: 0x327b6a6de4b540a1,
}
BITS = 64 * len(DIGITS)


def arctangent(of: int, one: int) -> int:
    """The arctangent of one over a number, in units of which `one` has so many."""
    total = term = one // of
    for place in range(3, BITS, 2):
        term //= -of * of
        total += term // place
    return total


class Hashes(unittest.TestCase):
    """The hashes of lines."""
    def test_constants_are_the_digits_of_pi(self) -> None:
        # Machin's formula, with more digits than are held.
        one = 1 << BITS + 64
        fraction = 4 * (4 * arctangent(5, one) - arctangent(239, one)) - 3 * one >> 64
        self.assertEqual([fraction >> BITS - 64 * (place + 1) & (1 << 64) - 1 for place in range(len(DIGITS))],
                         list(DIGITS))

    def test_vectors(self) -> None:
        for line, wanted in VECTORS.items():
            self.assertEqual(f"{hashes(line):016x}", f"{wanted:016x}", line)

    def test_a_line_has_a_bit_in_each_bank(self) -> None:
        self.assertEqual(hashed_bits(1), (0xd3, 0x108, 0x2a3, 0x385, 0x488, 0x56a, 0x63f, 0x724))
        self.assertEqual([bit // BANK_BITS for bit in hashed_bits(12_345)], list(range(BANKS)))

    def test_no_two_lines_have_the_same_bits(self) -> None:
        """The constants are independent, so the hashes of two lines are never all equal."""
        basis: list[int] = []
        for digits in DIGITS:
            for other in basis:
                digits = min(digits, digits ^ other)
            self.assertNotEqual(digits, 0)
            basis.append(digits)


class Kinds(unittest.TestCase):
    """What a filter of each kind reports."""
    def noted(self, kind: FilterKind) -> TaskFilter:
        """The lines 0, 7, 14 and so on up to 1,393, which are stored to and loaded in turn."""
        made = TaskFilter(kind)
        for place in range(200):
            made.note(7 * place, place % 2 == 0)
        return made

    def test_what_was_noted_is_told(self) -> None:
        for kind in FilterKind:
            with self.subTest(kind=kind):
                made = self.noted(kind)
                for place in range(200):
                    self.assertTrue(made.has_touched(7 * place) and made.meets(7 * place, True))
                    self.assertTrue(made.has_written(7 * place) or place % 2)

    def test_what_is_told_beside(self) -> None:
        # Of 2,201 all banks have the bit; of each line behind it all but one, another one each.
        told = {kind: self.noted(kind) for kind in FilterKind}
        for line in (2_241, 2_303, 2_207, 4_030, 2_237, 2_334, 2_954, 2_261, 4_000_000_000):
            self.assertFalse(told[FilterKind.BLOOM].has_touched(line), line)
        self.assertEqual([told[kind].has_touched(2_201) for kind in FilterKind], [False, True, False])
        self.assertEqual([told[kind].has_touched(1_024 + 7) for kind in FilterKind], [True, False, False])
        self.assertEqual([told[kind].has_written(1_024 + 14) for kind in FilterKind], [True, False, False])
        self.assertFalse(told[FilterKind.BLOOM].meets(2_201, False))

    def test_nothing_is_told_where_nothing_was_noted(self) -> None:
        for kind in FilterKind:
            made = TaskFilter(kind)
            self.assertFalse(any(made.has_touched(line) or made.has_written(line) for line in range(2_000)))

    def test_the_head_names_the_kind(self) -> None:
        for word in FILTERS:
            self.assertEqual(rule_of({"line": 4, "filter": word}), LineRule(4, FilterKind(word)))
        self.assertEqual(rule_of({"line": 64}), LineRule(64, FilterKind.MODULO))


class Conflicts(unittest.TestCase):
    """Event logs that are checked against the model."""
    def test_stored_lines(self) -> None:
        for name, count in (("conflict/lines", 1), ("by_hand/worked", 1), ("domains_by_hand/worked", 0),
                            ("rounds_by_hand/worked", 1)):
            with self.subTest(name=name), open_lines(SCHEDULES / name) as watched:
                self.assertEqual(conflicts_held(watched), count)

    def test_lines_by_a_bloom_filter(self) -> None:
        # What is aborted there is so by that kind alone.
        self.assertEqual(conflicts_held(Reader(io.BytesIO(joint_lines("bloom")), "lines")), 2)
        for kind in ("modulo", "exact"):
            with self.assertRaises(AssertionError):
                conflicts_held(Reader(io.BytesIO(joint_lines(kind)), "lines"))
