"""The tracks of reports and lines that are stored: forth, back and at random they are one run."""
from __future__ import annotations

import unittest

from yotarimu.common.places import EXAMPLES_FOLDER
from yotarimu.debugger.lines_track import LinesTrack
from yotarimu.debugger.report_track import ReportTrack
from yotarimu.debugger.track import Position, Track
from yotarimu.images.image import read_image
from yotarimu.images.listing import NO_LISTING
from yotarimu.programs.examples import EXAMPLES
from yotarimu.reports.report import read_report

from tries.tracks import goes_both_ways


def report_track(name: str) -> ReportTrack:
    """The track of an example's report."""
    folder = EXAMPLES_FOLDER / name
    image = read_image((folder / "image.bin").read_bytes(), name)
    return ReportTrack(image, read_report((folder / "report").read_text(), name), NO_LISTING)


def lines_track(name: str, lines: str) -> LinesTrack:
    """The track of stored lines."""
    folder = EXAMPLES_FOLDER / name
    return LinesTrack(read_image((folder / "image.bin").read_bytes(), name), str(folder / lines), NO_LISTING)


class Tracks(unittest.TestCase):
    """Tracks that are gone along."""
    def test_reports_of_examples_are_one_run_each_way(self) -> None:
        for name in EXAMPLES:
            with self.subTest(name):
                self.assertGreater(goes_both_ways(report_track(name), name), 2)

    def test_stored_lines_are_one_run_each_way(self) -> None:
        for name, lines in (("conflict", "lines"), ("by_hand", "worked"), ("domains_by_hand", "worked"),
                            ("rounds_by_hand", "worked")):
            with self.subTest(name):
                self.assertGreater(goes_both_ways(lines_track(f"schedules/{name}", lines), name), 2)

    def test_a_trap_is_the_last_position(self) -> None:
        track: Track = report_track("trap")
        last = len(track.stretches) - 1
        track.go_to(Position(last, track.stretches[last].length))
        # The third of the four instructions before the call that traps, at the address in the report.
        self.assertEqual(track.core.pc, 0x10024)

    def test_children_of_a_task_that_traps_take_no_other_names(self) -> None:
        """Of three tasks of an image the last makes a child and traps: the child is 3.0, and 0.0 stays the image's."""
        from yotarimu.images.image import TEXT, Image, InitialTask
        from yotarimu.images.serial_machine import Machine
        from yotarimu.reports.report import Entry, Name, Trap
        ecall, break_ = 0x73, 0x100073
        # li a7, 0; ecall      and      li a7, 1; lui a0, 0x10; ecall; ebreak
        words = [0x00000893, ecall, 0x00100893, 0x00010537, ecall, break_]
        text = b"".join(word.to_bytes(4, "little") for word in words)
        tasks = [InitialTask(TEXT, 0, (7, 0, 0)), InitialTask(TEXT, 0, (0, 0, 0)), InitialTask(TEXT + 8, 0, (0, 0, 0))]
        machine = Machine(Image(False, text, b"", 0, 0, 0, tasks))
        self.assertIsNone(machine.follow([Entry(1, Name(0, 0), 1, 0), Entry(2, Name(0, 1), 1, 0)]))
        self.assertIsNotNone(machine.run_at_trap(Trap(8, TEXT + 20, Name(0, 2))))
        self.assertEqual(machine.tasks[Name(0, 0)].arguments, (7, 0, 0))
        self.assertIn(Name(3, 0), machine.tasks)


if __name__ == "__main__":
    unittest.main()
