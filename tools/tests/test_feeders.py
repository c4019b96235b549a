"""Chains of spawners, of tasks that were put together by hand."""
from __future__ import annotations

import unittest
from collections.abc import Sequence

from yotarimu.figures.cells import Cells
from yotarimu.figures.feeders import Chain, Feeders, sentence
from yotarimu.figures.limits import Call, CommittedTask, Limits, Point


def task(key: str, work: int, children: Sequence[str], stores: bool = False) -> CommittedTask:
    """A task that makes children by its last instructions, behind a store where it has one."""
    points = [Point(True, (0,), (0, 0))] if stores else []
    return CommittedTask(key, (work, 1), points, [Call(child, (work, 1)) for child in children])


def longest_of(tasks: Sequence[CommittedTask]) -> tuple[Chain, Limits]:
    """The longest chain of tasks in the order of their commits, and their limits."""
    feeders, limits = Feeders(), Limits(Cells())
    for it in tasks:
        feeders.commit(it)
        limits.commit(it)
    return feeders.longest, limits


def chain_of(length: int) -> list[CommittedTask]:
    """A chain: each spawner makes three tasks that store, and the next spawner."""
    tasks = []
    for place in range(length):
        following = [f"f{place + 1}"] if place + 1 < length else []
        tasks.append(task(f"f{place}", 10, [*(f"t{place}{child}" for child in "abc"), *following]))
    return tasks + [task(f"t{place}{child}", 5, [], True) for place in range(length) for child in "abc"]


class FeedersTest(unittest.TestCase):
    """Which chains are reported."""
    def test_a_chain_is_told(self) -> None:
        longest, limits = longest_of(chain_of(8))
        self.assertEqual(longest, Chain(8, 80))
        # The last task begins after all eight spawners, and each of the others shares its word with one before it.
        told = sentence(longest, limits.all_limits())
        assert told is not None
        self.assertIn("8 tasks that do nothing but make others", told)
        self.assertIn("80 of the 85 instructions", told)

    def test_a_short_chain_is_not_told(self) -> None:
        longest, limits = longest_of(chain_of(5))
        self.assertEqual(longest, Chain(5, 50))
        self.assertIsNone(sentence(longest, limits.all_limits()))

    def test_a_tree_has_short_chains(self) -> None:
        nodes = ["", *(path for depth in range(1, 4) for path in paths(depth))]
        tasks = [task(f"n{path}", 10, [f"n{path}{child}" for child in "ab"] if len(path) < 3 else []) for path in nodes]
        longest, _ = longest_of(tasks)
        self.assertEqual(longest, Chain(3, 30))

    def test_a_task_that_stores_is_none(self) -> None:
        longest, _ = longest_of([task("a", 10, ["b"], True), task("b", 7, ["c"]), task("c", 9, [])])
        self.assertEqual(longest, Chain(1, 7))

    def test_other_work_may_be_longer(self) -> None:
        longest, limits = longest_of([*chain_of(8), task("long", 1_000, [], True)])
        self.assertEqual(longest, Chain(8, 80))
        self.assertIsNone(sentence(longest, limits.all_limits()))


def paths(depth: int) -> list[str]:
    """All paths of a tree of two children each."""
    return [""] if depth == 0 else [path + child for path in paths(depth - 1) for child in "ab"]


if __name__ == "__main__":
    unittest.main()
