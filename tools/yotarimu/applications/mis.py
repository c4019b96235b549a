"""A set of nodes of a random graph of which no two are neighbours, and to which none can be added."""
from __future__ import annotations

import functools

from yotarimu.applications.application import Application, Problem
from yotarimu.applications.chance import Chance
from yotarimu.applications.graphs import Neighbours, random_graph
from yotarimu.applications.inputs import Input, join_rows, words
from yotarimu.applications.memory import Memory, need

EDGES_OF_A_NODE = 4
TAKEN, EXCLUDED = 1, 2


def problem(nodes: int, chance: Chance) -> Problem:
    """A graph of so many nodes, each of which has eight neighbours on average."""
    neighbours = random_graph(nodes, EDGES_OF_A_NODE, chance)
    first, adjacent = join_rows(neighbours)
    given = Input({"NODES": nodes, "EDGES": len(adjacent)}, {"first": words(first), "adjacent": words(adjacent)})
    return Problem(given, functools.partial(check, neighbours))


def check(neighbours: Neighbours, memory: Memory) -> str:
    """Holds that a node is taken exactly where no neighbour is, and excluded else."""
    states = memory.bytes_of("state")
    for node, row in enumerate(neighbours):
        taken = sum(states[other] == TAKEN for other in row)
        wanted = EXCLUDED if taken else TAKEN
        need(states[node] == wanted, f"state[{node}] is {states[node]}, where {taken} of its neighbours are taken")
    return f"{states.count(TAKEN):,} of {len(states):,} nodes are taken, no two are neighbours, and no more could be"


def application(name: str, source: str) -> Application:
    """One of the three programs."""
    return Application(name, ("mis/nodes.h", f"mis/{source}"), "nodes", range(100, 240_001),
                       {"small": 2_000, "medium": 16_000, "large": 240_000}, problem)


NESTED, FLAT, COARSE = (application(*it) for it in (
    ("mis", "task.c"), ("mis-flat", "flat.c"), ("mis-coarse", "coarse.c")))
