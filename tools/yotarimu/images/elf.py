"""Sections and labels of the 32-bit little-endian ELF files that the assembler and the linker write."""
from __future__ import annotations

import dataclasses
import struct
from collections.abc import Iterator, Sequence

from yotarimu.common.files import FilePath
from yotarimu.common.outcome import Refusal

BITS = 1
NO_BITS = 8
SYMBOLS = 2
IS_ALLOCATED = 2
SECTION = struct.Struct("<10I")
SYMBOL = struct.Struct("<3I2BH")
Row = tuple[int, ...]
# Files of 32 bits, little-endian; objects that are to be linked; the machine RISC-V.
MAGIC, TO_LINK, RISC_V = b"\x7fELF\x01\x01", 1, 243
HEADER_BYTES = 52
# No name is longer.
MOST_NAME = 4_096
LOCAL = 0
# Kinds of symbols: the last two name no place of the program.
FUNCTION, SECTION_NAME, FILE_NAME = 2, 3, 4


class Damage(Exception):
    """Bytes aren't a whole ELF file. Its text says why, without the file's name."""


@dataclasses.dataclass
class Section:
    """A section, with its bytes where the file has them."""
    name: str
    kind: int
    is_allocated: bool
    address: int
    size: int
    data: bytes


@dataclasses.dataclass
class Label:
    """A name of a place: its address, and what is at it."""
    name: str
    address: int
    section: str
    size: int = 0
    is_function: bool = False
    # Whether other sources don't see it.
    is_local: bool = False


def read_elf(data: bytes, name: FilePath = "the ELF file") -> tuple[list[Section], list[Label]]:
    """The sections and the labels of an ELF file's bytes; refuses one that names a place outside of itself."""
    try:
        rows, names_at = section_rows(data)
        names = content(data, row_at(rows, names_at))
        sections = [Section(text_at(names, row[0]), row[1], bool(row[2] & IS_ALLOCATED), row[3], row[5],
                            content(data, row)) for row in rows]
        return sections, [label for row in rows if row[1] == SYMBOLS for label in labels(data, rows, row, sections)]
    except Damage as damage:
        raise Refusal(f"{name}: this file is damaged: {damage}.") from None


def section_rows(data: bytes) -> tuple[list[Row], int]:
    """The section headers, and the place of the one whose section has their names."""
    if len(data) < HEADER_BYTES:
        raise Damage("it is shorter than its header")
    table, = struct.unpack_from("<I", data, 32)
    step, count, names_at = struct.unpack_from("<3H", data, 46)
    if step != SECTION.size:
        raise Damage(f"a section header has {SECTION.size} bytes, and not {step}")
    rows = list(SECTION.iter_unpack(piece(data, table, step * count)))
    if sum(row[5] for row in rows if row[1] != NO_BITS) > len(data):
        raise Damage("its sections have more bytes than the whole")
    return rows, names_at


def row_at(rows: Sequence[Row], place: int) -> Row:
    """The section header at a place."""
    if place >= len(rows):
        raise Damage(f"it names section {place}, and has {len(rows)}")
    return rows[place]


def piece(data: bytes, start: int, size: int) -> bytes:
    """Some bytes from a place on."""
    if start + size > len(data):
        raise Damage(f"it ends at byte {len(data):,}, and names bytes up to {start + size:,}")
    return data[start:start + size]


def rows_of(data: bytes) -> list[Row]:
    """The table of a file's sections, a row of numbers for each."""
    return section_rows(data)[0]


def is_object(data: bytes) -> bool:
    """Whether bytes are an object file of a RISC-V machine of 32 bits."""
    return (len(data) >= HEADER_BYTES and data.startswith(MAGIC)
            and struct.unpack_from("<2H", data, 16) == (TO_LINK, RISC_V))


def flags(data: bytes) -> int:
    """What the file asks of the machine."""
    asked: int = struct.unpack_from("<I", data, 36)[0]
    return asked


def attributes(data: bytes) -> bytes:
    """The attributes of the file, which have its architecture; empty without any."""
    return next((it.data for it in read_elf(data)[0] if it.name == ".riscv.attributes"), b"")


def content(data: bytes, row: Row) -> bytes:
    """The bytes of a section."""
    return b"" if row[1] == NO_BITS else piece(data, row[4], row[5])


def text_at(names: bytes, place: int) -> str:
    """The text from a place up to its zero."""
    end = names.find(b"\0", place, place + MOST_NAME)
    if end < 0:
        raise Damage(f"the name at byte {place:,} of its names has no end")
    return names[place:end].decode("utf-8", "replace")


def labels(data: bytes, rows: Sequence[Row], row: Row, sections: Sequence[Section]) -> Iterator[Label]:
    """The labels of a section that has them."""
    names, symbols = content(data, row_at(rows, row[6])), content(data, row)
    if len(symbols) % SYMBOL.size:
        raise Damage(f"its symbols have {len(symbols):,} bytes, and each has {SYMBOL.size}")
    for name_at, value, size, info, _other, section in SYMBOL.iter_unpack(symbols):
        name = text_at(names, name_at)
        is_place = info & 15 not in (SECTION_NAME, FILE_NAME) and 0 < section < len(sections)
        # The assembler's own local labels, and its marks of what is code, begin so.
        if is_place and name and not name.startswith((".L", "$")):
            yield Label(name, value, sections[section].name, size, info & 15 == FUNCTION, info >> 4 == LOCAL)
