"""Assembly that a compiler of another language made: its lines in listings, in sentences, and for a debugger."""
from __future__ import annotations

import pathlib
import shutil
import tempfile
import unittest

from yotarimu.common.outcome import Refusal
from yotarimu.images.folder import build

LANGUAGE = "task count {\n    emit 7\n}\n"
ASSEMBLY = """# image: task count
    .file 1 "count.toy"
    .text
count:
    .loc 1 2
    li a0, 7
    li a7, 5
    ecall
    .loc 1 3
    {end}
"""


@unittest.skipUnless(any(map(shutil.which, ("riscv64-unknown-elf-as", "riscv64-linux-gnu-as"))), "no binutils")
class OtherLanguages(unittest.TestCase):
    """A folder with a source of a toy language, and what its compiler made of it."""
    def setUp(self) -> None:
        place = tempfile.TemporaryDirectory()
        self.addCleanup(place.cleanup)
        self.folder = pathlib.Path(place.name)
        (self.folder / "count.toy").write_text(LANGUAGE)

    def test_the_listing_has_its_lines(self) -> None:
        (self.folder / "count.s").write_text(ASSEMBLY.format(end="li a7, 0\n    ecall"))
        _, assembled = build(self.folder)
        listing = (self.folder / "listing").read_text()
        self.assertRegex(listing, r"(?m)^00010000  .* \| count\.toy:2 \| emit 7$")
        self.assertRegex(listing, r"(?m)^0001000c  .* \| count\.toy:3 \| }$")
        self.assertIn(str(self.folder).encode(), assembled.linked)

    def test_links_out_of_the_folder_are_not_read(self) -> None:
        (self.folder / "count.s").write_text(ASSEMBLY.format(end="li a7, 0\n    ecall"))
        (self.folder / "count.toy").unlink()
        (self.folder / "count.toy").symlink_to(__file__)
        build(self.folder)
        self.assertRegex((self.folder / "listing").read_text(), r"(?m)^00010000  .* \| count\.toy:2 \|$")

    def test_sentences_name_its_lines(self) -> None:
        (self.folder / "count.s").write_text(ASSEMBLY.format(end="call nowhere"))
        with self.assertRaisesRegex(Refusal, f"^{self.folder}/count.toy:3: `nowhere` is defined nowhere"):
            build(self.folder)


if __name__ == "__main__":
    unittest.main()
