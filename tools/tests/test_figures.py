"""Figures without a run: spreads, means over rounds and over events, axes, and the shuffle of rounds."""
from __future__ import annotations

import unittest

from yotarimu.common.outcome import Refusal
from yotarimu.courses.schedules import Shuffle, lockstep, round_of
from yotarimu.figures.columns import Reach, plain_cell
from yotarimu.figures.occupancy import PLACES, RATES, Curve, Occupancy
from yotarimu.figures.spread import Spread
from yotarimu.pictures import histogram, plot

RUNNING = PLACES.index("running")


def counts(running: int) -> list[int]:
    """How many tasks are at each place, where so many run."""
    return [running if place == RUNNING else 0 for place in range(len(PLACES))]


class Spreads(unittest.TestCase):
    """Spreads of numbers."""
    def test_percentiles_are_numbers_at_places(self) -> None:
        spread = Spread()
        for value in (5, 1, 1, 9, 7, 7, 7, 2, 3, 30):
            spread.note(value)
        self.assertEqual([spread.percentile(percent) for percent in (0, 10, 50, 90, 99)], [1, 1, 7, 30, 30])
        self.assertEqual((spread.mean(), spread.greatest(), spread.number()), (7.2, 30, 10))

    def test_no_number_has_no_percentile(self) -> None:
        self.assertEqual((Spread().percentile(50), Spread().mean(), list(Spread().bars())), (0, 0.0, []))

    def test_bars_are_equally_wide(self) -> None:
        spread = Spread()
        for value in range(10, 110):
            spread.note(value)
        bars = list(spread.bars())
        self.assertEqual((bars[0], bars[-1], len(bars)), ((10, 12, 3), (109, 111, 1), 34))
        self.assertEqual(sum(count for _, _, count in bars), 100)


class Means(unittest.TestCase):
    """Means over rounds and over events."""
    def test_rounds_count_alike(self) -> None:
        """The first round has events after which one and three run, so two on the mean; the second has none, and three
        run still; in the third one runs, four times."""
        occupancy = Occupancy(True)
        for number, running in ((0, 1), (0, 3), (2, 1), (2, 1), (2, 1), (2, 1)):
            occupancy.end_rounds(number)
            occupancy.note_event(counts(running))
        occupancy.count("commits", 2)
        occupancy.close(3)
        self.assertEqual(occupancy.curve.means()[RUNNING], 2.0)
        self.assertEqual(occupancy.greatest[RUNNING], 3)
        self.assertAlmostEqual(occupancy.rates.means()[RATES.index("commits")], 2 / 3)
        self.assertEqual(dict(occupancy.series())["running"], [(1, 2.0), (2, 3.0), (3, 1.0)])
        self.assertEqual(occupancy.over(), "rounds")

    def test_events_count_alike_without_rounds(self) -> None:
        occupancy = Occupancy(False)
        for running in (1, 3, 2):
            occupancy.note_event(counts(running))
        occupancy.close(None)
        self.assertEqual((occupancy.curve.means()[RUNNING], occupancy.over()), (2.0, "events"))

    def test_curves_have_points_of_equally_many_moments(self) -> None:
        curve = Curve(1)
        for value in range(1_000):
            curve.note([value])
        self.assertTrue(60 <= len(curve.points) < 120)
        first, (second, _) = curve.points[0], curve.points[1]
        self.assertEqual((first, second), ((16, [7.5]), 32))


class Columns(unittest.TestCase):
    """Columns of a study."""
    def fewer(self, *runs: tuple[str, int, int]) -> list[object]:
        """The cells of two runs, given by end, commits and rounds; the second is compared with the first."""
        first, second = (Reach(*run) for run in runs)
        return [plain_cell(it.fewer_than(first)) for it in (first, second)]

    def test_rounds_of_whole_runs_are_held_against_the_first(self) -> None:
        self.assertEqual(self.fewer(("normal", 500, 1_256), ("normal", 500, 120)), ["1", "10.4667"])

    def test_rounds_of_runs_that_came_as_far_are_too(self) -> None:
        self.assertEqual(self.fewer(("limit", 10, 30), ("limit", 10, 20)), ["1", "1.5"])
        self.assertEqual(self.fewer(("trap", 10, 30), ("trap", 10, 20)), ["1", "1.5"])

    def test_other_runs_have_no_number(self) -> None:
        """A run without an end took as many rounds as it was given, and one with other commits did other work."""
        for end in ("open", "none in 300 rounds"):
            self.assertEqual(self.fewer((end, 88, 300), ("normal", 500, 120)), ["", ""])
            self.assertEqual(self.fewer(("normal", 500, 1_256), (end, 88, 300)), ["1", ""])
        self.assertEqual(self.fewer(("limit", 10, 30), ("limit", 100, 20)), ["1", ""])
        self.assertEqual(self.fewer(("normal", 0, 0), ("normal", 0, 0)), ["", ""])


class Shuffles(unittest.TestCase):
    """The shuffling of rounds."""
    def test_a_round_is_shuffled_as_by_hand(self) -> None:
        """The first round of examples/schedules/rounds_by_hand."""
        acts = Shuffle(360).shuffle(round_of(2, 1))
        self.assertEqual(list(map(str, acts)), ["dispatch 0", "split 1", "dispatch 1", "commit", "commit", "step 0 0",
                                                "split 0", "step 1 0"])

    def test_the_seed_0_shuffles_nothing(self) -> None:
        self.assertEqual(list(lockstep(2, 1, 2, 0)), round_of(2, 1) * 2)


class Pictures(unittest.TestCase):
    """Plots and histograms."""
    def test_axes_are_linear_unless_asked_for(self) -> None:
        points = {"": [(1.0, 1.0), (100_000.0, 7.0)]}
        self.assertNotIn("logarithmic", plot.draw(points, "events", "tasks"))
        self.assertEqual(plot.draw(points, "events", "tasks", "xy").count("(logarithmic)"), 2)

    def test_a_logarithmic_axis_has_no_zero(self) -> None:
        with self.assertRaisesRegex(Refusal, "no place for 0"):
            plot.draw({"": [(0.0, 1.0), (2.0, 3.0)]}, "events", "tasks", "x")

    def test_a_histogram_has_a_bar_for_each_stretch(self) -> None:
        drawn = histogram.draw([(1, 2, 5), (3, 4, 0), (5, 6, 2)], "loads of a task", "tasks")
        self.assertEqual(drawn.count("<title>"), 3)
        self.assertIn("1 to 2: 5", drawn)


if __name__ == "__main__":
    unittest.main()
