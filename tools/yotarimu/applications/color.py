"""Colours of an R-MAT graph."""
from __future__ import annotations

import functools

from yotarimu.applications.application import Application, Problem
from yotarimu.applications.chance import Chance
from yotarimu.applications.graphs import Neighbours, neighbours_of, rmat
from yotarimu.applications.inputs import Input, join_rows, words
from yotarimu.applications.memory import Memory, need

EDGES_OF_A_NODE = 6


def problem(bits: int, chance: Chance) -> Problem:
    """A graph of 2^bits nodes, and the order in which they take their colours."""
    neighbours = neighbours_of(1 << bits, rmat(bits, EDGES_OF_A_NODE, chance))
    order = sorted(range(len(neighbours)), key=lambda node: -len(neighbours[node]))
    first, adjacent = join_rows(neighbours)
    turns = [0] * len(order)
    for turn, node in enumerate(order):
        turns[node] = turn
    given = Input({"NODES": len(neighbours), "EDGES": len(adjacent)},
                  {"first": words(first), "adjacent": words(adjacent), "order": words(order),
                   "turn": words(turns)})
    return Problem(given, functools.partial(check, neighbours, order))


def check(neighbours: Neighbours, order: list[int], memory: Memory) -> str:
    """Holds that neighbours differ, and that each node has the least colour that no neighbour before it has."""
    colours = memory.words("colour")
    turns = [0] * len(order)
    for turn, node in enumerate(order):
        turns[node] = turn
    for node, row in enumerate(neighbours):
        same = next((other for other in row if colours[other] == colours[node]), None)
        need(same is None, f"the nodes {node} and {same} are neighbours, and both have the colour {colours[node]}")
        before = {colours[other] for other in row if turns[other] < turns[node]}
        less = [colour for colour in range(1, colours[node]) if colour not in before]
        need(colours[node] > 0 and not less, f"colour[{node}] is {colours[node]}, where {less[:1]} was free")
    return f"each of {len(colours):,} nodes has the least colour that was free; {max(colours)} colours"


def application(name: str, source: str) -> Application:
    """One of the two programs."""
    return Application(name, (f"color/{source}",), "bits of a node's number", range(8, 17),
                       {"small": 10, "medium": 13, "large": 16}, problem)


FINE, COARSE = application("color", "task.c"), application("color-coarse", "coarse.c")
