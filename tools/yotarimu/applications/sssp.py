"""Shortest paths from one crossing of a network of roads."""
from __future__ import annotations

import functools

from yotarimu.applications.application import Application, Problem
from yotarimu.applications.chance import Chance
from yotarimu.applications.graphs import Network, network
from yotarimu.applications.inputs import Input, join_roads
from yotarimu.applications.memory import Memory
from yotarimu.applications.ways import FAR, need_shortest


def problem(side: int, chance: Chance) -> Problem:
    """A network of so many crossings along each side."""
    made = network(side, chance)
    first, roads = join_roads(made.roads)
    given = Input({"NODES": len(made.roads), "ROADS": len(roads) // 8}, {"first": first, "roads": roads})
    return Problem(given, functools.partial(check, made))


def check(given: Network, memory: Memory) -> str:
    """Checks each distance against those of the crossings around."""
    distances = memory.words("distance")
    need_shortest("distance", given.roads, distances)
    reached = [distance for distance in distances if distance != FAR]
    return (f"each of {len(distances):,} crossings has its distance; {len(reached):,} are reached, the last at "
            f"{max(reached):,}")


APPLICATION = Application("sssp", ("sssp/task.c",), "crossings along each side of the network", range(2, 501),
                          {"small": 50, "medium": 120, "large": 500}, problem)
