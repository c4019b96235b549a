"""A spanning forest of least weight of an R-MAT graph."""
from __future__ import annotations

import dataclasses
import functools
import heapq

from yotarimu.applications.application import Application, Problem
from yotarimu.applications.chance import Chance
from yotarimu.applications.graphs import rmat
from yotarimu.applications.inputs import Input, rows_of_words
from yotarimu.applications.memory import Memory, need

EDGES_OF_A_NODE = 8
WEIGHTS = (0, 65_535)


@dataclasses.dataclass(frozen=True)
class Forest:
    """How many edges a forest has, and what they weigh."""
    edges: int
    weight: int


def problem(bits: int, chance: Chance) -> Problem:
    """A graph of 2^bits nodes, whose edges have weights of 16 bits."""
    edges = sorted((chance.number(*WEIGHTS), one, other) for one, other in rmat(bits, EDGES_OF_A_NODE, chance))
    given = Input({"NODES": 1 << bits, "EDGES": len(edges)},
                  {"edges": rows_of_words([(one, other, weight) for weight, one, other in edges])})
    return Problem(given, functools.partial(check, 1 << bits, edges))


def check(nodes: int, edges: list[tuple[int, int, int]], memory: Memory) -> str:
    """Holds the taken edges to be a forest, as large and as light as the one that a search from node to node finds."""
    taken = [edge for edge, is_taken in zip(edges, memory.bytes_of("is_taken")) if is_taken]
    need_forest(nodes, taken)
    found, wanted = Forest(len(taken), sum(weight for weight, _, _ in taken)), least_forest(nodes, edges)
    need(found == wanted, f"a forest of {found.edges} edges weighs {found.weight}, and one of {wanted.edges} edges "
                          f"{wanted.weight} by a plain search")
    return f"the forest of {found.edges:,} edges weighs {found.weight:,}, as the plain search's does"


def need_forest(nodes: int, edges: list[tuple[int, int, int]]) -> None:
    """Holds that edges have no circle: nodes without a neighbour, or with one, are taken away until none is left."""
    neighbours: list[list[int]] = [[] for _ in range(nodes)]
    for _, one, other in edges:
        neighbours[one].append(other)
        neighbours[other].append(one)
    degrees = [len(row) for row in neighbours]
    waiting, left = [node for node in range(nodes) if degrees[node] <= 1], nodes
    while waiting:
        node = waiting.pop()
        left -= 1
        for other in neighbours[node]:
            degrees[other] -= 1
            if degrees[other] == 1:
                waiting.append(other)
        degrees[node] = 0
    need(left == 0, f"{left} nodes are on circles of taken edges, or between them")


def least_forest(nodes: int, edges: list[tuple[int, int, int]]) -> Forest:
    """The least forest by Prim's search: each tree grows by the lightest edge that leaves it."""
    roads: list[list[tuple[int, int]]] = [[] for _ in range(nodes)]
    for weight, one, other in edges:
        roads[one].append((weight, other))
        roads[other].append((weight, one))
    is_in, count, total = bytearray(nodes), 0, 0
    for root in range(nodes):
        waiting = [(0, root)] if not is_in[root] else []
        count -= len(waiting)
        while waiting:
            weight, node = heapq.heappop(waiting)
            if is_in[node]:
                continue
            is_in[node] = 1
            count, total = count + 1, total + weight
            for road in roads[node]:
                if not is_in[road[1]]:
                    heapq.heappush(waiting, road)
    return Forest(count, total)


APPLICATION = Application("msf", ("msf/task.c",), "bits of a node's number", range(8, 17),
                          {"small": 10, "medium": 13, "large": 16}, problem)
