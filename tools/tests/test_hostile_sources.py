"""Sources of strangers: names that mean something to a linker, files outside of the folder, pipes, and sources that ask
tools for more than any machine has."""
from __future__ import annotations

import contextlib
import os
import pathlib
import shutil
import tempfile
import time
import unittest
from typing import Iterator
from unittest import mock

from yotarimu.common.outcome import Refusal
from yotarimu.courses.own_exercises import judge_own
from yotarimu.images import bounded
from yotarimu.images.compiler import Compilers
from yotarimu.images.folder import build
from yotarimu.images.image import TEXT
from yotarimu.images.listing import read_listing
from yotarimu.images.source import linker_script, sources_in

HAS_TOOLS = any(map(shutil.which, ("riscv64-unknown-elf-as", "riscv64-linux-gnu-as")))
TASK = "# image: task main\nmain:\n    li a7, 0\n    ecall\n"
FILLED = "# image: data first {}\n" + TASK + "    .bss\nfirst: .space 8\n"
MOST_SECONDS = 30


@contextlib.contextmanager
def folder_with(text: str) -> Iterator[pathlib.Path]:
    """A folder inside another one, with a source."""
    with tempfile.TemporaryDirectory() as place:
        folder = pathlib.Path(place, "mine")
        folder.mkdir()
        (folder / "task.s").write_text(text)
        yield folder


class Pipes(unittest.TestCase):
    """Pipes that nobody writes to, in the place of files that a folder holds."""
    def test_a_pipe_is_no_source(self) -> None:
        with folder_with(TASK) as folder:
            os.mkfifo(folder / "a.s")
            with self.assertRaisesRegex(Refusal, "a.s: this isn't a plain file"):
                sources_in(folder)

    def test_a_pipe_is_no_part_of_an_exercise(self) -> None:
        for name in ("wanted", "image.bin", "script"):
            with folder_with(TASK) as folder:
                (folder / "wanted").write_text("answer journal\n")
                (folder / name).unlink(missing_ok=True)
                os.mkfifo(folder / name)
                with self.assertRaisesRegex(Refusal, f"{name}: this isn't a plain file"):
                    judge_own(folder, "answer")


class Names(unittest.TestCase):
    """Names of sections in the linker's script."""
    def test_no_sign_has_a_meaning(self) -> None:
        script = linker_script([['.text.a") *(.data) b', ".text.[a-z]*?", ".text.plain_1"]], False)
        self.assertIn('0.o(".text.a*.data*b")', script)
        self.assertIn('0.o(".text.*a-z*")', script)
        self.assertIn('0.o(".text.plain_1")', script)


@unittest.skipUnless(HAS_TOOLS, "no binutils")
class Sources(unittest.TestCase):
    """Sources that are built, or refused soon."""
    def test_odd_sections_are_placed(self) -> None:
        odd = '    .section ".text.a\\") *(.data) } b", "ax"\nmore: nop\n    .section ".text.*", "ax"\nthird: nop\n'
        with folder_with(TASK + odd) as folder:
            image, _ = build(folder)
            labels = read_listing((folder / "listing").read_text(), "listing").labels
        self.assertEqual(len(image.text), 16)
        self.assertEqual({labels[TEXT + 8], labels[TEXT + 12]}, {"more", "third"})

    def test_files_are_in_the_folder(self) -> None:
        with folder_with(FILLED.format("../secret.bin")) as folder:
            (folder.parent / "secret.bin").write_bytes(b"secret")
            with self.assertRaisesRegex(Refusal, r"task.s:1: .*secret.bin is outside the source's folder"):
                build(folder)
            image, _ = build(folder, is_outside_allowed=True)
        self.assertEqual(image.initial, b"secret")

    def test_links_lead_nowhere_else(self) -> None:
        with folder_with(FILLED.format("inner/link.bin")) as folder:
            (folder.parent / "secret.bin").write_bytes(b"secret")
            (folder / "inner").mkdir()
            (folder / "inner" / "link.bin").symlink_to("../../secret.bin")
            with self.assertRaisesRegex(Refusal, "is outside the source's folder"):
                build(folder)
            (folder / "inner" / "link.bin").unlink()
            (folder / "inner" / "link.bin").write_bytes(b"own")
            self.assertEqual(build(folder)[0].initial, b"own")

    def test_nothing_is_written_elsewhere(self) -> None:
        for name, level in (("image.bin", "-O2"), ("listing", "-O2"), ("debug", "-Og")):
            with folder_with(TASK) as folder:
                target = folder.parent / "target"
                target.mkdir() if name == "debug" else target.write_bytes(b"old")
                (folder / name).symlink_to("../target")
                with self.subTest(name), self.assertRaisesRegex(Refusal, "leads out of its folder"):
                    build(folder, Compilers(level=level))
                self.assertFalse(any(target.iterdir()) if name == "debug" else target.read_bytes() != b"old")

    def test_tools_are_ended(self) -> None:
        endless = '    .include "pipe.inc"\n'
        with folder_with(TASK + endless) as folder, mock.patch.object(bounded, "MOST_SECONDS", 1):
            os.mkfifo(folder / "pipe.inc")
            self.refuse_soon(folder, "takes longer than")

    def test_tools_have_bounds(self) -> None:
        for text, part in ((".rept 100000000\nnop\n.endr\n", "of memory, so it was ended"),
                           (".space 1 << 30\n.word 1\n", "far larger than an image may have"),
                           (".balign 1 << 17\n", "an alignment is too large")):
            with folder_with(TASK + text) as folder, mock.patch.object(bounded, "MOST_MEMORY", 1 << 29):
                self.refuse_soon(folder, part)

    def test_processors_have_bounds(self) -> None:
        words = ["/bin/sh", "-c", "while :; do :; done"]
        with mock.patch.object(bounded, "MOST_PROCESSOR", 1):
            done = bounded.run_bounded(words, "/")
        self.assertIn("of a processor", done.met_bound() or "" if done else "")

    def refuse_soon(self, folder: pathlib.Path, part: str) -> None:
        """Expects that a folder is refused within some seconds, and that nothing is left there."""
        begin = time.monotonic()
        before = sorted(folder.iterdir())
        with self.assertRaisesRegex(Refusal, part):
            build(folder)
        self.assertLess(time.monotonic() - begin, MOST_SECONDS)
        self.assertEqual(sorted(folder.iterdir()), before)


if __name__ == "__main__":
    unittest.main()
