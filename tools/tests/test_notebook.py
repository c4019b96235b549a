"""A run as objects, by programs with prepared answers."""
from __future__ import annotations

import pathlib
import tempfile
import unittest
from typing import Callable
from unittest import mock

from yotarimu import notebook
from yotarimu.common.outcome import Refusal
from yotarimu.programs.calls import Calls
from yotarimu.images.image import TEXT, Image, InitialTask

IMAGE = Image(True, b"\x93\x08\x00\x00\x73\x00\x00\x00", b"", 0, 0, 0, [InitialTask(TEXT, 5, (0, 0, 0))])


class Notebook(unittest.TestCase):
    """The calls of a notebook."""
    def setUp(self) -> None:
        self.place = tempfile.TemporaryDirectory()
        self.program = pathlib.Path(self.place.name, "program")

    def tearDown(self) -> None:
        self.place.cleanup()

    def answer(self, script: str) -> mock._patch[Callable[..., Calls]]:
        """A program in place of the built one."""
        self.program.write_text(f"#!/bin/sh\ncat >/dev/null\n{script}\n")
        self.program.chmod(0o755)
        return mock.patch.object(notebook, "calls_at", lambda *_: Calls((str(self.program),)))

    def test_a_report_is_an_object_and_options_are_handed_on(self) -> None:
        said = "[ \"$*\" = 'run --task-queue 8' ] && printf 'fractal 1\\n1 0.0 1 5\\noutput 41\\nend normal\\n'"
        with self.answer(said):
            report = notebook.run(IMAGE, task_queue=8)
        self.assertEqual((len(report.entries), report.output, report.end), (1, b"A", "normal"))

    def test_a_fault_is_refused(self) -> None:
        with self.answer("echo fault usage; exit 1"):
            with self.assertRaisesRegex(Refusal, "^`run --tiles 99` ended with status 1: fault usage.$"):
                notebook.run(IMAGE, tiles=99)

    def test_a_missing_program_is_refused(self) -> None:
        with self.assertRaisesRegex(Refusal, "isn't built"):
            notebook.run(IMAGE, program="nowhere")

    def test_an_unknown_argument_is_named_with_the_likely_one(self) -> None:
        with self.assertRaisesRegex(Refusal, "^unknown argument tles; did you mean tiles\\?$"):
            notebook.run(IMAGE, tles=2)

    def test_an_event_log_is_shown_in_two_lines(self) -> None:
        self.assertEqual(repr(notebook.Lines(b"{1}\n{2}\n")), "an event log of 2 lines, which ends with\n{2}")

    def test_rows_are_rows_without_pandas(self) -> None:
        with mock.patch.dict("sys.modules", {"pandas": None}):
            self.assertEqual(notebook.frame([{"a": 1}]), [{"a": 1}])


if __name__ == "__main__":
    unittest.main()
