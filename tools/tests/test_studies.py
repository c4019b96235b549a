"""Studies without a program: comparisons of rows, means over seeds, marks, and figures that can't be true."""
from __future__ import annotations

import pathlib
import tempfile
import unittest
from typing import Any, Dict, Optional

from yotarimu.commands.study import choices_of, machines_of
from yotarimu.common.outcome import Refusal
from yotarimu.courses.page_tables import Page, Table as PageTable
from yotarimu.courses.row_pictures import BarPicture, Picture
from yotarimu.courses.study import grid_options
from yotarimu.courses.study_rows import (Choice, StudyRows, StudyTable, csv_of, head_of, number_in_cell, rows_in,
                                         rows_of_csv)
from yotarimu.figures.columns import COLUMNS, USES, Reach, Row
from yotarimu.figures.core_time import Use
from yotarimu.figures.limits import UNBOUNDED, Limit, Manner, Unit
from yotarimu.figures.run import Figures, need_possible
from yotarimu.programs.table import Table

HEAD = {"course": "lockstep", "rounds": 1_000, "tiles": 2, "cores": 2, "line": 16, "root": "ordered"}


def row(rounds: int, commits: int = 100, advances: int = 0, end: str = "normal", **more: float) -> Row:
    """A row of a run."""
    return Row(end, {"rounds": rounds, "commits": commits, "work": 10 * commits, "advances": advances, **more})


def rows(*told: tuple[Dict[str, Any], Row], is_whole: bool = True) -> StudyRows:
    """Rows of one image with these options."""
    played = StudyRows([Choice(number, "walk", options) for number, (options, _) in enumerate(told, 1)], is_whole)
    played.rows = {number: it for number, (_, it) in enumerate(told, 1)}
    return played


def machine(tiles: int, cores: int, seed: int = 0) -> Dict[str, Any]:
    """The options of a machine."""
    return {"tiles": tiles, "cores": cores, "line": 16, "seed": seed}


def figures(steps: int, rounds: int, limit: Optional[float] = None) -> Figures:
    """Figures of a run that made so many steps."""
    it = Figures(HEAD)
    it.end, it.steps, it.useful_steps, it.begun_rounds = "normal", steps, steps, rounds
    it.core_time.rounds[Use.COMMITTED], it.core_time.rounds[Use.EMPTY] = steps, 4 * rounds - steps
    if limit is not None:
        it.limits = [Limit(Manner.ONE, Unit.STEP, UNBOUNDED, round(limit * 100), 100)]
    return it


class Comparisons(unittest.TestCase):
    """Rows that are compared with others."""
    def test_a_speed_up_is_over_the_same_choice_on_one_core(self) -> None:
        played = rows((machine(1, 1), row(1_000)), (machine(4, 4), row(100)), ({**machine(4, 4), "line": 64}, row(90)))
        numbers = [played.numbers(choice) for choice in played.choices]
        self.assertEqual([it["speedup"] for it in numbers], [1, 10, None])
        self.assertEqual(numbers[1]["fewer"], 10)

    def test_each_seed_is_compared_with_its_own(self) -> None:
        played = rows((machine(1, 1, 0), row(1_000)), (machine(1, 1, 1), row(800)), (machine(4, 4, 0), row(100)),
                      (machine(4, 4, 1), row(100)))
        self.assertEqual([played.numbers(choice)["speedup"] for choice in played.choices], [1, 1, 10, 8])

    def test_a_shard_compares_nothing(self) -> None:
        played = rows((machine(1, 1), row(1_000)), (machine(4, 4), row(100)), is_whole=False)
        self.assertEqual(played.numbers(played.choices[1]), {**played.rows[2].numbers, "speedup": None, "fewer": None})

    def test_other_work_is_found(self) -> None:
        first = Reach("normal", 100, 10, 1_000)
        told = [Reach("normal", *it).has_other_work(first)
                for it in ((100, 5, 1_010), (100, 5, 1_011), (101, 5, 1_000))]
        self.assertEqual(told, [False, True, True])


class Tables(unittest.TestCase):
    """Tables with means and marks."""
    def test_seeds_make_one_line(self) -> None:
        """The mean of 90 and 110 is 100, and their sample standard deviation is 14.1."""
        played = rows((machine(1, 1, 0), row(90)), (machine(1, 1, 1), row(110)))
        shown = StudyTable(played, ["rounds", "end"], ["seed"], False)
        self.assertEqual(shown.head()[0], "| Rounds | ± | End |")
        self.assertEqual([shown.line(group) for group in played.groups()], ["| 100 | 14.1 | normal |"])

    def test_forced_rows_and_other_work_are_marked(self) -> None:
        played = rows((machine(1, 1), row(1_000)), (machine(4, 4), row(100, 101)),
                      (machine(2, 2), row(500, advances=2)))
        shown = StudyTable(played, ["rounds", "speedup"], ["tiles"], False)
        self.assertEqual([shown.line(group) for group in played.groups()],
                         ["| 1 | 1,000 | 1.0 |", "| 4 | 100 | 10.0 * |", "| 2 | 500 † | 2.0 |"])
        self.assertEqual([note[0] for note in shown.notes()], ["*", "†"])

    def test_rows_come_back_from_csv(self) -> None:
        played = rows((machine(1, 1), row(1_000, taken=3)), (machine(4, 4), row(100, wasted=2.5)))
        cells = played.cells(head_of(list(machine(1, 1))), "a program", (1, 1), 2)
        again = rows_of_csv([line.split(",") for line in csv_of(cells).decode().splitlines()])
        self.assertEqual([again.numbers(choice)["speedup"] for choice in again.choices], [1, 10])
        self.assertEqual([again.numbers(choice)["wasted"] for choice in again.choices], [None, 2.5])

    def test_cells_without_a_finite_number_have_none(self) -> None:
        self.assertEqual([number_in_cell(text) for text in ("7", "0.5", "", "\u00b2", "9" * 5_000, "nan", "-inf")],
                         [7, 0.5, *5 * [None]])


class Impossible(unittest.TestCase):
    """Figures that can't be true are refused."""
    def test_what_is_possible_is_taken(self) -> None:
        need_possible(figures(300, 100, 3.0))

    def test_no_core_makes_two_steps_in_a_round(self) -> None:
        with self.assertRaisesRegex(Refusal, "4 cores made 401 steps in 100 rounds"):
            need_possible(figures(401, 100))

    def test_no_run_exceeds_its_own_limit(self) -> None:
        with self.assertRaisesRegex(Refusal, "3.00 useful steps were made per round, and dependences allow 2.90"):
            need_possible(figures(300, 100, 2.9))

    def test_core_time_is_that_of_all_cores(self) -> None:
        it = figures(300, 100)
        it.core_time.rounds[Use.EMPTY] += 1
        with self.assertRaisesRegex(Refusal, "401 core-rounds were counted, and 100 rounds of 4 cores have 400"):
            need_possible(it)


class Grids(unittest.TestCase):
    """The choices that words ask for."""
    def test_machines_are_pairs(self) -> None:
        grid = grid_options(Table())
        self.assertEqual(machines_of("1x1,16x4", grid), [{"tiles": [1], "cores": [1]}, {"tiles": [16], "cores": [4]}])
        seen = {"machines": "1x1,4x4", "time": "instructions"}
        choices = choices_of(["walk"], {"seed": "0..1"}, seen, grid)
        self.assertEqual([[it.options[name] for name in ("tiles", "cores", "seed", "quantum")] for it in choices],
                         [[1, 1, 0, 1], [1, 1, 1, 1], [4, 4, 0, 1], [4, 4, 1, 1]])

    def test_what_contradicts_is_refused(self) -> None:
        grid = grid_options(Table())
        cases: list[tuple[Dict[str, str], Dict[str, Optional[str]], str]] = [
            ({"quantum": "4"}, {"time": "instructions", "machines": None}, "quantum of 1"),
            ({"tiles": "4"}, {"time": None, "machines": "1x1"}, "neither --tiles nor --cores"),
            ({}, {"time": None, "machines": "4"}, "TILESxCORES")]
        for texts, seen, told in cases:
            with self.assertRaisesRegex(Refusal, told):
                choices_of(["walk"], texts, seen, grid)


class Pictures(unittest.TestCase):
    """Pictures of rows."""
    def told(self) -> list[dict[str, str]]:
        """Rows of a study, as CSV has them."""
        shares: Dict[str, Any] = {f"time-{name}": 0.0 for name in USES}
        one: Dict[str, Any] = {**shares, "time-committed": 100.0}
        many: Dict[str, Any] = {**shares, "time-committed": 60.0, "time-empty": 40.0}
        played = rows((machine(1, 1), row(1_000, **one)), (machine(4, 4), row(100, **many)))
        return rows_in(played.cells(head_of(list(machine(1, 1))), "a program", (1, 1), 2))

    def test_a_speed_up_is_drawn_with_the_ideal_line(self) -> None:
        drawn = Picture("speedup", "all-cores", "x.svg", "xy").files(self.told(), "rows")["x.svg"].decode()
        self.assertTrue(all(word in drawn for word in ("ideal", ">16<", "Speed-up over one core (times)")))

    def test_bars_have_the_uses_that_there_are(self) -> None:
        drawn = BarPicture("x.svg").files(self.told(), "rows")["x.svg"].decode()
        self.assertIn("16, committed: 60.0 %", drawn)
        self.assertEqual([use for use in Use if f">{use.value}<" in drawn], [Use.COMMITTED, Use.EMPTY])


class Pages(unittest.TestCase):
    """Pages whose tables are made again."""
    def test_a_cell_that_differs_is_named(self) -> None:
        with tempfile.TemporaryDirectory() as folder:
            path = pathlib.Path(folder, "page.md")
            path.write_text("| --tiles | Rounds |\n| --- | --- |\n| 4 | 20 |\n")
            told = list(Page(str(path)).differences(PageTable(0, 3, ["| --tiles | Rounds |", "| --- | --- |",
                                                                     "| 4 | 21 |"])))
        self.assertEqual(told, [f"{path}:3: `Rounds` of 4 is 20, and 21 now"])


class Heads(unittest.TestCase):
    """Columns of core time."""
    def test_each_use_has_a_column(self) -> None:
        self.assertEqual(set(USES.values()), set(Use))
        self.assertTrue({f"time-{name}" for name in USES} <= set(COLUMNS))


if __name__ == "__main__":
    unittest.main()
