"""Reports and scripts as they are read, and why their lines are refused; docs/guest/FORMATS.md has the grammar."""
from __future__ import annotations

import unittest
import unittest.mock

from yotarimu.common.outcome import Refusal
from yotarimu.courses.schedules import Act, ActAnswer, is_commit, read_played, read_script
from yotarimu.images.image import TEXT, Image, InitialTask
from yotarimu.programs.program import end_of
from yotarimu.reports.refusals import line_of, report_fault, script_fault
from yotarimu.reports.disagreements import disagreement
from yotarimu.reports.report import Entry, Name, Trap, read_front, read_report

REPORT = "fractal 1\n1 0.0 1 0\n2 1.3 2 7\noutput 4869\nwindow 10000000 000000ff\nend trap 10 00010024 0.1\n"


class Reports(unittest.TestCase):
    """Reports that are read."""
    def test_parts_are_objects(self) -> None:
        report = read_report(REPORT, "here")
        self.assertEqual(report.entries, [Entry(1, Name(0, 0), 1, 0), Entry(2, Name(1, 3), 2, 7)])
        self.assertEqual((report.output, report.window, report.end), (b"Hi", [(0x10000000, 255)], "trap"))
        self.assertEqual(report.trap, Trap(10, 0x10024, Name(0, 1)))

    def test_no_output_is_a_dash(self) -> None:
        report = read_report("fractal 1\noutput -\nend open", "here")
        self.assertEqual((report.output, report.trap), (b"", None))

    def test_a_refusal_names_the_line(self) -> None:
        for text, line in (("fractal 2\n", 1), ("fractal 1\n2 0.0 1 0\n", 2), ("fractal 1\noutput A\n", 2),
                           ("fractal 1\noutput -\nend\n", 3), (REPORT + "more\n", 7)):
            with self.assertRaisesRegex(Refusal, rf"^here:{line}: this isn't a report"):
                read_report(text, "here")

    def test_the_end_is_a_word(self) -> None:
        self.assertEqual([end_of(text) for text in (REPORT.encode(), b"x\nend limit\n", b"nothing")],
                         ["trap", "limit", ""])


class Scripts(unittest.TestCase):
    """Scripts that are read."""
    def test_acts_have_a_tile_and_a_core(self) -> None:
        self.assertEqual(read_script("step 1 0\ncommit\n", "here"), [Act("step", 1, 0), Act("commit")])

    def test_commits_are_told_by_act_and_reply(self) -> None:
        acts = read_script("advance\ncommit\n", "here")
        played = read_played(acts, "committed 0\nempty 0\nfractal 1\n1 0.0 1 0\noutput -\nend open\n", "here")
        self.assertEqual([is_commit(act, said) for act, said in played.pairs()], [True, False])
        self.assertEqual(played.said, [ActAnswer("committed", 0), ActAnswer("empty", 0)])


class Refusals(unittest.TestCase):
    """Why lines are refused."""
    def test_lines_of_scripts(self) -> None:
        for line, part in ((b"step 4 0", "no tile 4"), (b"commit ", "a blank follows"),
                           (b"step 01 0", "leading zero"), (b"halt", "isn't an act")):
            self.assertIn(part, script_fault(line, 4, 2) or "", line)
        self.assertIsNone(script_fault(b"step 3 1", 4, 2))

    def test_lines_of_reports(self) -> None:
        text = REPORT.encode()
        self.assertIn("`fractal 1` is wanted", report_fault(b"fractal 2\n", 1))
        self.assertIn("is missing", report_fault(b"fractal 1\n", 2))
        self.assertIn("nothing may follow the end", report_fault(text + b"x\n", 7))
        self.assertIn("2 is wanted", report_fault(text.replace(b"2 1.3", b"3 1.3"), 3))

    def test_lines_are_counted_from_1(self) -> None:
        self.assertEqual([line_of(b"a\n\nb", number) for number in (1, 2, 3, 4)], [b"a", b"", b"b", None])


class Disagreements(unittest.TestCase):
    """The one thing that speaks against a line of a report."""

    # Two tasks that end at once, at the timestamps 0 and 5, and a word of data that stays 42.
    IMAGE = Image(True, b"\x93\x08\x00\x00\x73\x00\x00\x00", b"\x2a\x00\x00\x00", 4, 0, 1,
                  [InitialTask(TEXT, 0, (0, 0, 0)), InitialTask(TEXT, 5, (0, 0, 0))])
    REPORT = "fractal 1\n1 0.0 1 0\n2 0.1 1 5\noutput -\nwindow 10000000 0000002a\nend normal\n"

    def told(self, text: str, number: int, commits: int = 9) -> str:
        """What is wrong with a line of a report; nothing if it is a run's."""
        return disagreement(self.IMAGE, read_front(text, number - 1), read_front(text, number), commits, 99) or ""

    def test_a_run_has_none(self) -> None:
        for number in (2, 3, 4, 5):
            self.assertEqual(self.told(self.REPORT, number), "", number)

    def test_the_one_reason_is_told(self) -> None:
        for old, new, number, part in (
                ("2 0.1 1 5", "2 0.1 3 5", 3, "its depth is 1"), ("2 0.1 1 5", "2 0.1 1 6", 3, "its timestamp is 5"),
                ("2 0.1 1 5", "2 0.0 1 0", 3, "took turn 1"), ("2 0.1 1 5", "2 0.2 1 5", 3, "the image has 2 tasks"),
                ("1 0.0 1 0", "1 0.1 1 5", 2, "the task 0.0 comes before it"),
                ("2 0.1 1 5", "2 1.0 1 5", 3, "the task of turn 1 made 0 tasks"),
                ("output -", "output 41", 4, "emitted 0 bytes"), ("0000002a", "0000002b", 5, "holds 0000002a"),
                ("window 10000000", "window 10000004", 5, "is at 10000000"),
                ("end normal", "end limit", 6, "no task is left"), ("2 0.1 1 5\n", "", 5, "one task is left: 0.1")):
            self.assertIn(part, self.told(self.REPORT.replace(old, new), number), new)
        self.assertIn("--commits allows 1 tasks", self.told(self.REPORT, 3, 1))

    def test_long_runs_are_not_waited_for(self) -> None:
        wrong = self.REPORT.replace("end normal", "end limit")
        # Each task executes two instructions: the second turn isn't taken again.
        with unittest.mock.patch("yotarimu.reports.disagreements.MOST_STEPS", 2):
            self.assertEqual(self.told(wrong, 6), "")
        with unittest.mock.patch("yotarimu.reports.disagreements.MOST_STEPS", 3):
            self.assertIn("no task is left", self.told(wrong, 6))


if __name__ == "__main__":
    unittest.main()
