"""Files: whole or as they were, and never an input in place of an output."""
from __future__ import annotations

import contextlib
import os
import pathlib
import tempfile
import unittest
import unittest.mock
from typing import Callable

from yotarimu.common.files import is_same_file, need_outputs, read_written, write_whole
from yotarimu.common.outcome import Refusal
from yotarimu.programs.pieces import Folder


class Death(BaseException):
    """A process ends at once."""


def dying(most: int) -> Callable[[str, str], None]:
    """Renames so many files, and then dies."""
    replace, done = os.replace, list[str]()

    def rename(source: str, target: str) -> None:
        if len(done) == most:
            raise Death
        done.append(source)
        replace(source, target)

    return rename


class Files(unittest.TestCase):
    """Files that are written."""
    def setUp(self) -> None:
        self.place = tempfile.TemporaryDirectory()
        self.folder = pathlib.Path(self.place.name)

    def tearDown(self) -> None:
        self.place.cleanup()

    def test_all_or_nothing_is_written(self) -> None:
        first = self.folder / "first"
        first.write_bytes(b"old")
        with self.assertRaisesRegex(Refusal, "no such folder"):
            write_whole({first: b"new", self.folder / "none" / "second": b"x"})
        self.assertEqual([path.name for path in self.folder.iterdir()], ["first"])
        self.assertEqual(first.read_bytes(), b"old")

    def test_a_link_stays_one(self) -> None:
        link, target = self.folder / "link", self.folder / "target"
        link.symlink_to("target")
        write_whole({link: b"new"})
        self.assertTrue(link.is_symlink() and target.read_bytes() == b"new")

    def test_a_link_out_of_its_folder_is_refused(self) -> None:
        inner, target = self.folder / "inner", self.folder / "target"
        inner.mkdir()
        target.write_bytes(b"old")
        for name, to in (("file", "../target"), ("none", "../nowhere"), ("whole", str(target))):
            (inner / name).symlink_to(to)
            with self.subTest(name), self.assertRaisesRegex(Refusal, "symbolic link that leads out of its folder"):
                write_whole({inner / name: b"new"})
            with self.subTest(name), self.assertRaisesRegex(Refusal, "symbolic link that leads out of its folder"):
                need_outputs([inner / name], [])
        self.assertEqual(target.read_bytes(), b"old")
        # A folder that is a link is one that the person named.
        (self.folder / "link").symlink_to("inner")
        write_whole({self.folder / "link" / "own": b"new"})
        self.assertEqual((inner / "own").read_bytes(), b"new")

    def test_a_run_in_pieces_goes_on_after_its_first_file(self) -> None:
        """A call that is killed leaves the image alone, or what it was writing, and the same words go on."""
        for left in ((), (".0001.image.abcd_123",), ("0001.image", ".words.abcd_123"), ("0001.image", "words")):
            with self.subTest(left=left), tempfile.TemporaryDirectory() as place:
                for name in left:
                    pathlib.Path(place, name).write_bytes(b"--every=5\n" if name == "words" else b"image")
                Folder(place, b"image", ["--every=5"])
                self.assertEqual(sorted(path.name for path in pathlib.Path(place).iterdir()), ["0001.image", "words"])
        with tempfile.TemporaryDirectory() as place:
            pathlib.Path(place, "letter").write_bytes(b"")
            with self.assertRaisesRegex(Refusal, "holds other files"):
                Folder(place, b"image", ["--every=5"])

    def test_each_death_while_a_folder_begins_is_got_over(self) -> None:
        """Renames are cut off after none, one and both of them."""
        for most in range(3):
            with self.subTest(most=most), tempfile.TemporaryDirectory() as place:
                with unittest.mock.patch("os.replace", dying(most)), contextlib.suppress(Death):
                    Folder(place, b"image", ["--every=5"])
                Folder(place, b"image", ["--every=5"])

    def test_lines_end_as_on_any_system(self) -> None:
        path = self.folder / "text"
        path.write_bytes(b"a\r\nb\rc\n")
        self.assertEqual(read_written(path), "a\nb\nc\n")

    def test_outputs_are_no_inputs(self) -> None:
        path = self.folder / "file"
        path.write_bytes(b"")
        with self.assertRaisesRegex(Refusal, "this is read, so it isn't written too"):
            need_outputs([path], [str(path)])
        with self.assertRaisesRegex(Refusal, "two outputs can't be one file"):
            need_outputs([self.folder / "new", f"{self.folder}/./new"], [])
        need_outputs([None, self.folder / "new"], [path, None])

    def test_a_file_that_is_not_there_yet_is_itself(self) -> None:
        self.assertTrue(is_same_file(self.folder / "new", f"{self.folder}/./new"))
        self.assertFalse(is_same_file(self.folder / "new", self.folder / "other"))


if __name__ == "__main__":
    unittest.main()
