"""The shortest way between two crossings of a network of roads."""
from __future__ import annotations

import functools

from yotarimu.applications.application import Application, Problem
from yotarimu.applications.chance import Chance
from yotarimu.applications.graphs import Network, network
from yotarimu.applications.inputs import Input, join_roads, rows_of_words
from yotarimu.applications.memory import Memory, need
from yotarimu.applications.ways import FAR, shortest

WORD = 1 << 32


def problem(side: int, chance: Chance) -> Problem:
    """A network of so many crossings along each side. The target is in the middle of the row three quarters down."""
    made = network(side, chance)
    target = side * (3 * side // 4) + side // 2
    first, roads = join_roads(made.roads)
    places = rows_of_words([(x % WORD, y % WORD) for x, y in made.places])
    given = Input({"NODES": len(made.roads), "ROADS": len(roads) // 8, "TARGET": target},
                  {"first": first, "roads": roads, "places": places})
    return Problem(given, functools.partial(check, made, target))


def check(given: Network, target: int, memory: Memory) -> str:
    """Compares the way to the target with a plain search from the target, and each other that was found with one from
    the start."""
    found, back, there = memory.words("distance"), shortest(given.roads, target), shortest(given.roads, 0)
    need(found[target] == back[0], f"the way to the target has {found[target]}, and {back[0]} by a plain search")
    visited = [node for node, way in enumerate(found) if way != FAR]
    for node in visited:
        need(found[node] == there[node], f"distance[{node}] is {found[node]}, and {there[node]} by a plain search")
    if found[target] == FAR:
        return "the target can't be reached"
    return f"the way of {found[target]:,} is the shortest; {len(visited):,} of {len(found):,} crossings were visited"


APPLICATION = Application("astar", ("astar/task.c",), "crossings along each side of the network", range(2, 501),
                          {"small": 50, "medium": 120, "large": 500}, problem)
