"""Limits of parallelism: the tiny texts of docs/machine/PARALLELISM.md, and all schedules of random ones."""
from __future__ import annotations

import random
import re
import unittest
from typing import Optional

from yotarimu.common.places import HOME
from yotarimu.figures.cells import Cells
from yotarimu.figures.limits import (
    UNBOUNDED, CommittedTask, Limit, Limits, Manner, Point, WindowKind, Unit, Window)
from yotarimu.figures.orders import Bounds

from tests.best_schedule import Best, Text
from tests.orders_of_trees import random_tree, text_of

PAGE = HOME / "docs" / "machine" / "PARALLELISM.md"
TWO, TWO_SLOTS = Window(2), Window(2, WindowKind.SLOTS)
WINDOWS = (Window(1), TWO, TWO_SLOTS, Window(3), Window(3, WindowKind.SLOTS), UNBOUNDED)
# The columns of the page's table after that of the text.
COLUMNS = ((Manner.WHOLE, Unit.INSTRUCTION, UNBOUNDED), (Manner.RENAMED, Unit.INSTRUCTION, UNBOUNDED),
           (Manner.ONE, Unit.INSTRUCTION, UNBOUNDED), (Manner.RENAMED, Unit.INSTRUCTION, TWO),
           (Manner.RENAMED, Unit.INSTRUCTION, TWO_SLOTS), (Manner.RENAMED, Unit.STEP, UNBOUNDED))


def limits_of(text: Text) -> list[Limit]:
    """The limits of a tiny text."""
    limits = Limits(Cells(), WINDOWS)
    for task in text.committed_tasks():
        limits.commit(task)
    return limits.all_limits()


def best(written_text: str, limit: Limit) -> int:
    """The time of the best schedule within a limit."""
    return Best(Text(written_text, limit.unit), limit.manner, limit.window).time()


def random_text(chance: random.Random, most_tasks: int, most_units: int) -> str:
    """A tiny text of so many tasks of so many units at most."""
    tasks = [chance.choices("..abABc", k=chance.randint(1, most_units)) for _ in range(chance.randint(1, most_tasks))]
    for number in range(1, len(tasks)):
        if chance.random() < 0.5:
            creator = tasks[chance.randrange(number)]
            creator.insert(chance.randrange(len(creator) + 1), str(number + 1))
    return " ".join(map("".join, tasks))


class TinyTexts(unittest.TestCase):
    """Limits against the best of all schedules."""
    def test_the_page_is_right(self) -> None:
        rows = re.findall(r"^\| `([^`]+)` \| ([^|]+(?: \| [^|]+){5}) \|", PAGE.read_text(encoding="utf-8"), re.M)
        self.assertGreaterEqual(len(rows), 10)
        for text, numbers in rows:
            limits = {(it.manner, it.unit, it.window): it for it in limits_of(Text(text))}
            wanted = dict(zip(COLUMNS, map(int, numbers.split(" | "))))
            for key, time in wanted.items():
                with self.subTest(text=text, key=key):
                    self.assertEqual(limits[key].time, time)
                    self.assertEqual(best(text, limits[key]), time)

    def test_no_schedule_of_a_random_text_is_better_and_one_is_as_good(self) -> None:
        for most_tasks, most_units, count in ((4, 3, 150), (3, 4, 150), (8, 2, 12)):
            for seed in range(count):
                chance = random.Random(f"{most_tasks} {seed}")
                text = random_text(chance, most_tasks, most_units)
                for limit in limits_of(Text(text)):
                    if most_tasks < 8 or chance.random() < 0.3:
                        with self.subTest(text=text, limit=limit):
                            self.assertEqual(best(text, limit), limit.time)


class AnyOrders(unittest.TestCase):
    """Bounds against all orders."""
    def test_no_order_exceeds_the_bound(self) -> None:
        for most_tasks, most_units, count in ((4, 5, 400), (6, 4, 60)):
            for seed in range(count):
                tree = random_tree(random.Random(f"{most_tasks} {seed}"), most_tasks, most_units)
                orders = list(tree.orders())
                texts = [text_of(order) for order in orders]
                limits = [limit for text in texts for limit in limits_of(text)
                          if (limit.unit, limit.window) == (Unit.INSTRUCTION, UNBOUNDED)]
                for order, text in zip(orders, texts):
                    bounds = Bounds(Cells())
                    for task, done in zip(order, text.committed_tasks()):
                        bounds.commit(done, tree.epoch(task))
                    for manner, bound in bounds.by_manner.items():
                        with self.subTest(text=text.written, manner=manner):
                            self.assertLessEqual(
                                bound.time(), min(it.time for it in limits if it.manner is manner))

    def test_both_ends_of_a_tie(self) -> None:
        """One task stores at its end what the other loads first: one order has half of the other's limit."""
        for order, time in (("...A a...", 8), ("a... ...A", 4)):
            with self.subTest(order=order):
                renamed = next(it for it in limits_of(Text(order))
                               if (it.manner, it.window) == (Manner.RENAMED, UNBOUNDED))
                self.assertEqual(renamed.time, time)
                bounds = Bounds(Cells())
                for task in Text(order).committed_tasks():
                    bounds.commit(task, 0)
                self.assertEqual(bounds.at_once()[Manner.RENAMED], 2.0)


def points_of(accesses: list[tuple[bool, int, int]], cells: Optional[Cells]) -> list[Point]:
    """Accesses as points, by their bytes if no cells are given."""
    return [Point(is_store, range(address, address + count) if cells is None else cells.of(address, count),
                  (place, place)) for place, (is_store, address, count) in enumerate(accesses)]


class WordsAndBytes(unittest.TestCase):
    """Cells of words against those of bytes."""
    def test_words_tell_what_their_bytes_tell(self) -> None:
        for seed in range(300):
            chance = random.Random(f"cells {seed}")
            words, plain = Cells(), Cells()
            by_word, by_byte = (Limits(words, WINDOWS), Bounds(words)), (Limits(plain, WINDOWS), Bounds(plain))
            for number in range(chance.randint(2, 9)):
                width = chance.choice((4, 4, 4, 2, 1))
                accesses = [(chance.random() < 0.5, 4 * chance.randint(0, 1) + width * chance.randrange(4 // width),
                             width) for _ in range(chance.randint(0, 4))]
                # Whether a word is split is known only behind the first look at all accesses.
                points_of(accesses, words)
                for (limits, bounds), cells in ((by_word, words), (by_byte, None)):
                    done = CommittedTask(number, (5, 5), points_of(accesses, cells), [])
                    limits.commit(done)
                    bounds.commit(done, number // 3)
            with self.subTest(seed=seed):
                self.assertEqual(by_word[0].all_limits(), by_byte[0].all_limits())
                self.assertEqual(by_word[1].at_once(), by_byte[1].at_once())


if __name__ == "__main__":
    unittest.main()
