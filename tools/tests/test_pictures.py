"""Plots and pictures: well-formed, with each point, and with ticks that hold the values between them."""
from __future__ import annotations

import tempfile
import unittest
import xml.etree.ElementTree

from yotarimu.common.places import EXAMPLES_FOLDER, HOME
from yotarimu.pictures import bars, gantt, plot, strip, timeline, tree
from yotarimu.pictures.history import History, history_of
from yotarimu.images.image import TEXT, Image, InitialTask
from yotarimu.images.listing import NO_LISTING, read_listing
from yotarimu.images.serial_machine import Machine
from yotarimu.lines.reader import open_lines
from yotarimu.reports.report import read_report
from yotarimu.web.pictures import note_in, with_note

# li a7, 0; ecall.
END = b"\x93\x08\x00\x00\x73\x00\x00\x00"


def elements(picture: str, name: str) -> list[xml.etree.ElementTree.Element]:
    """The elements of a name in a picture."""
    return [it for it in xml.etree.ElementTree.fromstring(picture).iter() if it.tag.endswith(f"}}{name}")]


def texts(picture: str) -> list[str]:
    """The words in a picture."""
    return [it.text for it in elements(picture, "text") if it.text]


def history_at(name: str) -> History:
    """The attempts in the stored event log of an example."""
    with open_lines(EXAMPLES_FOLDER / name / "lines") as watched:
        return history_of(watched)


class Plots(unittest.TestCase):
    """Plots of points."""
    def test_ticks_are_round_and_hold_all_values(self) -> None:
        for least, most in ((0, 7), (3, 3), (0.1, 0.4), (1, 1_000), (95, 100)):
            ticks = plot.steps(least, most)
            self.assertTrue(ticks[0] <= least and most <= ticks[-1], (least, most, ticks))
            self.assertLessEqual(len(ticks), 12)
        self.assertEqual(plot.steps(0, 10), [0, 2, 4, 6, 8, 10])
        self.assertEqual(plot.decades(3, 400), [2, 5, 10, 20, 50, 100, 200, 500])
        self.assertEqual(plot.decades(1, 1e6), [10 ** power for power in range(7)])
        self.assertEqual(plot.Axis([1, 4, 16, 64], 0, 100, True).ticks, [1, 4, 16, 64])

    def test_each_point_is_drawn(self) -> None:
        picture = plot.draw({"one": [(1, 2), (2, 3)], "other": [(1, 5)]}, "tiles", "rounds")
        # The first series has circles and the second squares: for each point, and for the name. Four more rectangles
        # are the ground and the frame.
        self.assertEqual((len(elements(picture, "circle")), len(elements(picture, "rect"))), (2 + 1, 1 + 1 + 2))
        self.assertTrue({"one", "other", "tiles", "rounds"} <= set(texts(picture)))

    def test_points_at_one_place_have_an_error_bar(self) -> None:
        """The mean of 2 and 4 is 3, and their sample standard deviation is the root of 2."""
        self.assertEqual(plot.means([(1, 2), (1, 4), (2, 5)]), [(1, 3.0, 2 ** 0.5), (2, 5.0, 0.0)])
        paths = elements(plot.draw({"": [(1, 2), (1, 4), (2, 5)]}, "tiles", "rounds"), "path")
        self.assertEqual(len(paths), 1)

    def test_panels_share_axes_and_names(self) -> None:
        panels = [plot.Panel(name, {"": [(1, 1), (64, most)]}, most, True)
                  for name, most in (("one", 60), ("other", 4))]
        picture = plot.draw_panels(panels, "Cores", "Speed-up", "xy")
        self.assertTrue({"one", "other", "ideal", "limit of the program", "64"} <= set(texts(picture)))
        self.assertEqual(texts(picture).count("Cores"), 1)

    def test_bars_have_their_parts(self) -> None:
        parts = [bars.Part("used", "#123456"), bars.Part("lost", "#ffffff", "rising")]
        picture = bars.draw({"walk": {"1": [100, 0], "4": [60, 40]}}, parts, "Cores", "Core time (%)")
        titles = [it.text for it in elements(picture, "title")]
        self.assertEqual(titles[:3], ["walk 1, used: 100.0 %", "walk 4, used: 60.0 %", "walk 4, lost: 40.0 %"])
        self.assertTrue({"walk", "1", "4", "used", "lost"} <= set(texts(picture)))
        self.assertEqual([len(row) for row in bars.rows_of({f"{it}": {"1": [100, 0]} for it in range(30)})], [20, 10])

    def test_odd_names_are_escaped(self) -> None:
        picture = plot.draw({"a<b\x01": [(1, 1)]}, "x & y", "z")
        self.assertTrue({"a<b\\x01", "x & y"} <= set(texts(picture)))


class Pictures(unittest.TestCase):
    """Pictures of schedules and reports."""
    def test_each_attempt_of_a_run_has_a_bar(self) -> None:
        history = history_at("schedules/conflict")
        told = [(it.label, it.start, it.finish, it.end, it.fate) for it in history.attempts]
        self.assertEqual(told, [("0.0", 1, None, 6, "aborted"), ("0.1", 5, 7, 8, "committed"),
                                ("0.0", 9, 13, 14, "committed"), ("2.0", 15, 16, 17, "committed")])
        arrow, = history.arrows
        self.assertEqual([(it.label, it.is_direct, it.is_child) for it in arrow.victims],
                         [("0.0+0", False, True), ("0.0", True, False)])
        self.assertEqual([it.label for it in history.stays], ["0.0+0"])

    def test_a_run_is_drawn_with_labels_and_words(self) -> None:
        listing = EXAMPLES_FOLDER / "schedules" / "conflict" / "listing"
        names = read_listing(listing.read_text(encoding="utf-8"), listing)
        picture = timeline.draw(history_at("schedules/conflict"), names)
        self.assertTrue({"first", "reader", "writer", "load", "store", "child", "tile 1", "\u2713 1: 0.1", "aborted"}
                        <= set(texts(picture)), texts(picture))
        titles = [it.text for it in elements(picture, "title")]
        self.assertEqual(titles[0], "17 acts on 2 cores: 4 attempts, 3 committed, 1 aborted by 1 act.")
        self.assertEqual(titles[1], "0.0 reader, timestamp 2: dispatched at act 1, aborted at act 6")

    def test_a_task_that_runs_or_waits_has_a_letter(self) -> None:
        lines = (EXAMPLES_FOLDER / "schedules/conflict/lines").read_text(encoding="utf-8").splitlines(keepends=True)
        for acts, signs in ((5, ["r", "r"]), (7, ["f"])):
            with tempfile.NamedTemporaryFile("w") as file:
                file.write("".join(lines[:3 + acts]))
                file.flush()
                with open_lines(file.name, is_cut_allowed=True) as watched:
                    picture = timeline.draw(history_of(watched))
            drawn = [it for it in texts(picture) if it in timeline.SIGNS.values()]
            # The last three are those of the legend.
            self.assertEqual([it for it in drawn[:-3] if it in ("r", "f")], signs)

    def test_a_picture_says_what_it_was_made_of(self) -> None:
        picture = b"\x89PNG\r\n\x1a\n" + bytes([0, 0, 0, 1]) + b"IHDR" + b"x" + bytes(4) + bytes(4) + b"IEND" + bytes(4)
        self.assertIsNone(note_in(picture))
        self.assertEqual(note_in(with_note(picture, "digest")), "digest")

    def test_a_conflict_has_four_frames(self) -> None:
        picture = strip.draw(HOME / "examples" / "schedules" / "conflict" / "lines", NO_LISTING)
        titles = [it for it in texts(picture) if it[:1].isdigit() and it[1:3] == "  "]
        self.assertEqual(titles, ["1  Speculate", "2  Conflict", "3  Abort", "4  Commit"])
        # Before and after the abort, and at the end: by hand, from the schedule.
        memory = [it.split(": ")[1] for it in texts(picture) if it.startswith("memory: ")]
        words = "10000000 = {}, 10000004 = {}"
        self.assertEqual(memory, [words.format(*pair) for pair in ((0, 1), (0, 1), (7, 0), (7, 8))])
        self.assertEqual(texts(picture).count("discarded"), 1)
        self.assertTrue({"1.  task 0.1", "2.  task 0.0", "3.  task 2.0"} <= set(texts(picture)))

    def test_gantt_charts_end_as_by_hand(self) -> None:
        for words, ends in (("2... ....", [8, 5, 5]), ("...A Aa..", [4, 4, 8]), ("...a 3A.. ...A", [8, 5, 7])):
            self.assertEqual(gantt.ends_of(words), ends)
        picture = gantt.draw("...a A...")
        self.assertIn("all dependences (RAW, WAR, WAW): 8 units", texts(picture))
        # A box for each unit of each chart, and one behind them all.
        self.assertEqual(len(elements(picture, "rect")), 3 * 8 + 1)

    def test_each_task_of_a_report_has_a_box(self) -> None:
        image = Image(True, END, b"", 0, 0, 0, [InitialTask(TEXT, 5, (7, 0, 0))])
        report = read_report("fractal 1\n1 0.0 1 5\noutput -\nend normal\n", "here")
        machine = Machine(image)
        machine.follow(report.entries)
        picture = tree.draw(tree.nodes_of(report, machine, NO_LISTING), len(report.entries))
        self.assertTrue({"1: 0.0", "00010000 7", "depth 1", "ordered"} <= set(texts(picture)))


if __name__ == "__main__":
    unittest.main()
