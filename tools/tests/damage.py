"""Damage to files, for tests: bytes changed, cut, doubled or mixed, and numbers changed to unlikely ones."""
from __future__ import annotations

import random
import re
from typing import Callable

# Numbers of 32 bits that are at an edge, and texts in the place of a number.
EDGES = (0, 1, 2, 7, 0x7F, 0x80, 0xFF, 0x100, 0x7FFF, 0x8000, 0xFFFF, 0x10000, 0x7FFFFFFF, 0x80000000, 0xFFFFFFF0,
         0xFFFFFFFF)
NUMBERS = (*map(str, EDGES), "-1", "00", "1e9", "0x10", "1.5", "4294967296", "18446744073709551616", "9" * 30,
           "9" * 5_000, "", "null", "NaN", "²", "٣", "{}", "[]", '"0"')
SIGNS = (b"\0", b"\n", b"\r", b"\t", b" ", b",", b'"', b"'", b"#", b"[", b"]", b"{", b"}", b"/", b"\\", b"%", b"|",
         b"\x1b", b"\x7f", b"\x80", b"\xff", "\u2028".encode(), "é".encode())
# No damaged file is longer than so.
MOST_BYTES = 1 << 20
Change = Callable[[bytearray, random.Random], None]


def place_in(data: bytearray, chance: random.Random) -> int:
    """A place in some bytes, or after them."""
    return chance.randint(0, len(data))


def piece_of(data: bytearray, chance: random.Random) -> slice:
    """A piece of some bytes, short as a rule."""
    start = place_in(data, chance)
    return slice(start, start + chance.choice((1, 2, 4, 16, 64, len(data))))


def flip_bit(data: bytearray, chance: random.Random) -> None:
    """Flips one bit."""
    if data:
        data[chance.randrange(len(data))] ^= 1 << chance.randrange(8)


def set_byte(data: bytearray, chance: random.Random) -> None:
    """Sets one byte."""
    if data:
        data[chance.randrange(len(data))] = chance.choice((0, 1, 0x7F, 0x80, 0xFF, chance.randrange(256)))


def set_number(data: bytearray, chance: random.Random) -> None:
    """Sets two or four bytes to a number at an edge, or to the length of the whole and near it."""
    size, step = chance.choice((2, 4)), chance.choice((1, 4))
    if len(data) < size:
        return
    start = chance.randrange(0, len(data) - size + 1, step)
    number = chance.choice((*EDGES, len(data), len(data) - 1, len(data) + 1)) & (1 << 8 * size) - 1
    data[start:start + size] = number.to_bytes(size, "little")


def cut(data: bytearray, chance: random.Random) -> None:
    """Cuts the end."""
    del data[place_in(data, chance):]


def drop(data: bytearray, chance: random.Random) -> None:
    """Drops a piece."""
    del data[piece_of(data, chance)]


def double(data: bytearray, chance: random.Random) -> None:
    """Puts a piece in at another place too."""
    piece = data[piece_of(data, chance)]
    place = place_in(data, chance)
    data[place:place] = piece


def put_sign(data: bytearray, chance: random.Random) -> None:
    """Puts in a sign that has a meaning somewhere."""
    place = place_in(data, chance)
    data[place:place] = chance.choice(SIGNS) * chance.choice((1, 1, 1, 2, 300))


def change_number(data: bytearray, chance: random.Random) -> None:
    """Changes a number of a text."""
    found = list(re.finditer(rb"[0-9]+", data))
    if found:
        one = chance.choice(found)
        near = str(int(one[0][:20]) + chance.choice((-1, 1)))
        data[one.start():one.end()] = chance.choice((*NUMBERS, near, near, near)).encode()


def change_word(data: bytearray, chance: random.Random) -> None:
    """Puts a word of a text in the place of another one."""
    found = list(re.finditer(rb"[^\s,:\"]+", data))
    if found:
        one, other = chance.choice(found), chance.choice(found)
        data[one.start():one.end()] = other[0]


def change_line(data: bytearray, chance: random.Random) -> None:
    """Drops, doubles or moves a line of a text."""
    lines = data.split(b"\n")
    line = lines.pop(chance.randrange(len(lines)))
    for _ in range(chance.randrange(3)):
        lines.insert(chance.randrange(len(lines) + 1), line)
    data[:] = b"\n".join(lines)


BINARY: tuple[Change, ...] = (flip_bit, set_byte, set_number, set_number, cut, drop, double)
TEXTUAL: tuple[Change, ...] = (
    flip_bit, set_byte, cut, drop, double, put_sign, change_number, change_number, change_word, change_line)


def damaged(data: bytes, chance: random.Random, is_text: bool) -> bytes:
    """Some bytes with one change as a rule, or a few."""
    found = bytearray(data)
    for _ in range(chance.choice((1, 1, 1, 2, 5))):
        chance.choice(TEXTUAL if is_text else BINARY)(found, chance)
    return bytes(found[:MOST_BYTES])
