"""Conditions of breakpoints; the codes are put together by hand from the GDB manual's "Bytecode Descriptions"."""
from __future__ import annotations

import unittest

from yotarimu.debugger.conditions import Unknown, holds


class Machine:
    """Registers 0 to 32 hold ten times their number; memory from 100 on holds the bytes 1 to 8."""

    def register(self, number: int) -> int:
        """A register has ten times its number."""
        return 10 * number

    def memory(self, address: int, count: int) -> bytes:
        """Eight bytes from address 100 on, and no others."""
        return bytes(range(1, 9))[address - 100:address - 100 + count] if 100 <= address < 108 else b""


def code(text: str) -> bytes:
    """An expression of bytes in hexadecimal."""
    return bytes.fromhex(text)


class Conditions(unittest.TestCase):
    """The value of an expression."""
    def holds(self, text: str) -> bool:
        """Whether an expression holds on the machine of this file."""
        return holds(code(text), Machine())

    def test_register_is_compared(self) -> None:
        # reg 10, const8 100, equal, end
        self.assertTrue(self.holds("26 000a 22 64 13 27"))
        self.assertFalse(self.holds("26 000b 22 64 13 27"))

    def test_less_is_signed_or_not(self) -> None:
        # const8 255, ext 8 is -1; -1 < 1 with a sign, and not without one
        self.assertTrue(self.holds("22 ff 16 08 22 01 14 27"))
        self.assertFalse(self.holds("22 ff 16 08 22 01 15 27"))

    def test_memory_is_little_endian(self) -> None:
        # const8 100, ref32, const32 0x04030201, equal
        self.assertTrue(self.holds("22 64 19 24 04030201 13 27"))
        # const8 102, ref16, const16 0x0403
        self.assertTrue(self.holds("22 66 18 23 0403 13 27"))

    def test_arithmetic(self) -> None:
        for text, value in (("22 07 22 03 02", 10), ("22 07 22 03 03", 4), ("22 07 22 03 04", 21),
                            ("22 07 22 03 05", 2), ("22 07 22 03 07", 1), ("22 07 22 02 09", 28),
                            ("22 07 22 01 0b", 3), ("22 0c 22 0a 0f", 8), ("22 0c 22 0a 10", 14),
                            ("22 0c 22 0a 11", 6)):
            with self.subTest(text):
                self.assertTrue(self.holds(f"{text} 22 {value:02x} 13 27"))

    def test_quotients_are_rounded_towards_zero(self) -> None:
        # -7 / 2 is -3, and its rest -1
        self.assertTrue(self.holds("22 f9 16 08 22 02 05 22 fd 16 08 13 27"))
        self.assertTrue(self.holds("22 f9 16 08 22 02 07 22 ff 16 08 13 27"))

    def test_a_jump_is_taken_where_the_number_is_not_zero(self) -> None:
        # const8 1, if_goto 8, const8 0, end, (8:) const8 1, end
        self.assertTrue(self.holds("22 01 20 0008 22 00 27 22 01 27"))
        self.assertFalse(self.holds("22 00 20 0008 22 00 27 22 01 27"))

    def test_stack_words(self) -> None:
        # const8 5, dup, equal; const8 1, const8 9, pop; const8 2, const8 8, swap, sub: 8 - 2
        self.assertTrue(self.holds("22 05 28 13 27"))
        self.assertTrue(self.holds("22 01 22 09 29 27"))
        self.assertTrue(self.holds("22 02 22 08 2b 03 22 06 13 27"))
        # log_not of 0, bit_not of 0 and zero_ext 8: 255
        self.assertTrue(self.holds("22 00 0e 27"))
        self.assertTrue(self.holds("22 00 12 2a 08 22 ff 13 27"))

    def test_what_is_unknown_is_left_to_gdb(self) -> None:
        for text in ("", "27", "22", "ff 27", "22 01 22 00 05 27", "22 6b 19 27", "22 00 17 27", "22 01 16 00 27",
                     "21 0000 27", "26 0a"):
            with self.subTest(text), self.assertRaises(Unknown):
                self.holds(text)


if __name__ == "__main__":
    unittest.main()
