"""Breadth-first search over a mesh of triangles."""
from __future__ import annotations

import functools

from yotarimu.applications.application import Application, Problem
from yotarimu.applications.chance import Chance
from yotarimu.applications.graphs import Neighbours, mesh
from yotarimu.applications.inputs import Input, join_rows, words
from yotarimu.applications.memory import Memory
from yotarimu.applications.ways import need_shortest


def problem(side: int, chance: Chance) -> Problem:
    """A mesh of so many nodes along each side, to be searched from a corner."""
    neighbours = mesh(side, chance)
    first, adjacent = join_rows(neighbours)
    given = Input({"NODES": len(neighbours), "EDGES": len(adjacent)},
                  {"first": words(first), "adjacent": words(adjacent)})
    return Problem(given, functools.partial(check, neighbours))


def check(neighbours: Neighbours, memory: Memory) -> str:
    """Checks each level against those of the neighbours: it is one more than the least of them."""
    levels = memory.words("level")
    need_shortest("level", [[(other, 1) for other in row] for row in neighbours], levels)
    return f"each of {len(levels):,} nodes has its level; the greatest is {max(levels):,}"


APPLICATION = Application("bfs", ("bfs/task.c",), "nodes along each side of the mesh", range(2, 401),
                          {"small": 50, "medium": 110, "large": 400}, problem)
