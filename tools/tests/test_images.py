"""Images as bytes, ELF files, what instructions do, and sources: the bytes are written by hand from FORMATS.md, the ELF
specification and the RISC-V Unprivileged ISA."""
from __future__ import annotations

import pathlib
import shutil
import struct
import tempfile
import unittest

from yotarimu.common.outcome import Refusal
from yotarimu.images.elf import read_elf
from yotarimu.images.folder import build
from yotarimu.images.image import DATA, TEXT, Image, InitialTask, image_bytes, read_image
from yotarimu.images.listing import read_listing
from yotarimu.images.loads import generate
from yotarimu.images.serial_machine import (
    Machine, arithmetic, branch_offset, comparison, is_instruction, jump_offset, signed_number)
from yotarimu.reports.report import Entry, Name

# li a7, 0; ecall.
END = b"\x93\x08\x00\x00\x73\x00\x00\x00"
IMAGE = (b"FRAC" b"\x01\x00" b"\x01\x00" b"\x02\x00\x00\x00" b"\x01\x00\x00\x00" b"\x08\x00\x00\x00" b"\x04\x00\x00\x00"
         b"\x01\x00\x00\x00" b"\x01\x00\x00\x00" + END + b"\x2a"
         + b"\x00\x00\x01\x00" b"\x05\x00\x00\x00" b"\x01\x00\x00\x00" b"\x02\x00\x00\x00" b"\x03\x00\x00\x00")
SOURCE = """# image: task main ts 5 args 1 2 3
# image: data 8
# image: window more 1
main:
    li a7, 0
    ecall
    .data
    .byte 42
    .balign 4
more:
"""


class Images(unittest.TestCase):
    """Images as bytes."""
    def test_an_image_is_read_and_written(self) -> None:
        image = Image(True, END, b"\x2a", 8, 4, 1, [InitialTask(TEXT, 5, (1, 2, 3))])
        self.assertEqual(read_image(IMAGE, "here"), image)
        self.assertEqual(image_bytes(image), IMAGE)

    def test_what_is_none_is_refused(self) -> None:
        for data in (b"", IMAGE[:31], b"G" + IMAGE[1:], IMAGE[:-1], IMAGE[:4] + b"\x03" + IMAGE[5:]):
            with self.assertRaisesRegex(Refusal, "^here: this "):
                read_image(data, "here")

    def test_words_of_the_text_have_addresses(self) -> None:
        image = read_image(IMAGE, "here")
        self.assertEqual([image.word(TEXT), image.word(TEXT + 4), image.word(TEXT + 8), image.word(DATA)],
                         [0x893, 0x73, None, None])

    def test_versions_have_limits(self) -> None:
        image = read_image(IMAGE, "here")
        self.assertEqual((image.limits.children, image.limits.depth, image.limits.stack), (64, 8, 0))

    def test_a_generated_walk_of_one_node_has_three_edges(self) -> None:
        image = generate("walk", 7, 1)
        # No children, and an edge to itself; its distance is the window.
        self.assertEqual(struct.unpack("<3I", image.initial), (0xFFFFFFFF, 0xFFFFFFFF, 0))
        self.assertEqual((image.size, image.window_offset, image.window_words), (16, 12, 1))


class Instructions(unittest.TestCase):
    """What instructions do."""
    def test_offsets_are_those_of_the_encoding(self) -> None:
        # beq zero, zero, -4 and +8; jal zero, -8 and +2048.
        self.assertEqual([branch_offset(0xFE000EE3), branch_offset(0x00000463)], [-4, 8])
        self.assertEqual([jump_offset(0xFF9FF06F), jump_offset(0x0010006F)], [-8, 2048])

    def test_numbers_are_twos_complement(self) -> None:
        self.assertEqual([signed_number(0xFFF, 12), signed_number(0x7FF, 12), signed_number(0x80000000, 32)],
                         [-1, 2047, -2 ** 31])

    def test_shifts_and_comparisons(self) -> None:
        right, less, less_unsigned = 5, 2, 3
        self.assertEqual(arithmetic(right, True)(0x80000000, 31), -1)
        self.assertEqual(arithmetic(right, False)(0x80000000, 31), 1)
        self.assertEqual([arithmetic(kind, False)(0xFFFFFFFF, 0) for kind in (less, less_unsigned)], [True, False])

    def test_branches(self) -> None:
        equal, unequal, less, less_unsigned = 0, 1, 4, 6
        self.assertEqual([comparison(kind)(0xFFFFFFFF, 1) for kind in (equal, unequal, less, less_unsigned)],
                         [False, True, True, False])

    def test_words_that_no_encoding_allows_are_illegal(self) -> None:
        # mul, slli and srai with reserved bits, jalr and fence of other kinds, a load and a store of none, c.nop, csrr.
        for word in (0x02B50533, 0x02151513, 0x42155513, 0x00051067, 0x0000100F, 0x00053503, 0x00A53023, 1, 0xC0002573):
            self.assertFalse(is_instruction(word), hex(word))
        for word in (0x40B50533, 0x40155513, 0x00050067, 0x0000000F, 0x00055503, 0x00A52023, 0x00000073, 0x00100073):
            self.assertTrue(is_instruction(word), hex(word))

    def test_a_report_of_a_run_is_followed(self) -> None:
        machine = Machine(read_image(IMAGE, "here"))
        self.assertIsNone(machine.follow([Entry(1, Name(0, 0), 1, 5)]))
        self.assertEqual(machine.tasks[Name(0, 0)].turn, 1)

    def test_another_turn_is_told(self) -> None:
        machine = Machine(read_image(IMAGE, "here"))
        self.assertRegex(machine.follow([Entry(1, Name(0, 0), 1, 6)]) or "", "isn't one that the image allows")


def elf_of(name: bytes, section: bytes, address: int) -> bytes:
    """A file of three sections: their names, the symbols with one label, and the text that the label is in."""
    names = b"\0.text\0.symtab\0.strtab\0"
    strings = b"\0" + name + b"\0"
    symbols = struct.pack("<3I2BH", 0, 0, 0, 0, 0, 0) + struct.pack("<3I2BH", 1, address, 8, 2, 0, 1)
    header, place = 52, 52
    rows, contents = [(0,) * 10], []
    for name_at, kind, flags, start, data, link in ((1, 1, 6, TEXT, section, 0), (7, 2, 0, 0, symbols, 3),
                                                    (15, 3, 0, 0, strings + names, 0)):
        rows.append((name_at, kind, flags, start, place, len(data), link, 0, 0, 0))
        contents.append(data)
        place += len(data)
    rows.append((0, 3, 0, 0, place, len(names), 0, 0, 0, 0))
    contents.append(names)
    place += len(names)
    head = struct.pack("<16s2H5I6H", b"\x7fELF\x01\x01\x01", 2, 243, 1, TEXT, 0, place, 0, header, 0, 0, 40,
                       len(rows), 4)
    return head + b"".join(contents) + b"".join(struct.pack("<10I", *row) for row in rows)


class Elf(unittest.TestCase):
    """Linked files."""
    def test_sections_and_labels_are_read(self) -> None:
        sections, labels = read_elf(elf_of(b"main", END, TEXT))
        text = next(section for section in sections if section.name == ".text")
        self.assertEqual((text.address, text.size, text.data, text.is_allocated), (TEXT, 8, END, True))
        label, = labels
        self.assertEqual((label.name, label.address, label.section, label.size, label.is_function),
                         ("main", TEXT, ".text", 8, True))

    def test_local_labels_are_left_out(self) -> None:
        self.assertEqual(read_elf(elf_of(b".L1", END, TEXT))[1], [])


@unittest.skipUnless(any(map(shutil.which, ("riscv64-unknown-elf-as", "riscv64-linux-gnu-as"))), "no binutils")
class Sources(unittest.TestCase):
    """Sources that become an image."""
    def test_a_source_becomes_an_image_and_a_listing(self) -> None:
        with tempfile.TemporaryDirectory() as place:
            folder = pathlib.Path(place)
            (folder / "task.s").write_text(SOURCE)
            image, assembled = build(folder)
            listing = read_listing((folder / "listing").read_text(), folder / "listing")
        # The assembler fills the data up to the next label.
        self.assertEqual((image.text, image.tasks, image.window_offset, image.window_words, image.size),
                         (END, [InitialTask(TEXT, 5, (1, 2, 3))], 4, 1, 8))
        self.assertEqual(image.initial.rstrip(b"\0"), b"\x2a")
        self.assertEqual((listing.label(TEXT + 4), listing.place(TEXT + 4)), ("main+4", "task.s:6: ecall"))
        self.assertEqual([label.address for label in assembled.labels_named("more")], [DATA + 4])


if __name__ == "__main__":
    unittest.main()
