"""Graphs as lists of neighbours, one for each node: meshes, random graphs, and networks of roads."""
from __future__ import annotations

import dataclasses
import math
from typing import Iterator

from yotarimu.applications.chance import Chance

Edge = tuple[int, int]
Neighbours = list[list[int]]
# Of R-MAT: how likely, in percent, an edge is in each quarter of the matrix.
QUARTERS = (57, 19, 19, 5)
# How far apart crossings are, how far each is moved at most, and in which rows the main roads are.
SPACING, MOVED, MAIN_ROADS = 100, 30, 10
# This percentage of roads is missing.
MISSING = 10


def neighbours_of(nodes: int, edges: list[Edge]) -> Neighbours:
    """The neighbours of each node, by edges that go both ways."""
    neighbours: Neighbours = [[] for _ in range(nodes)]
    for one, other in edges:
        neighbours[one].append(other)
        neighbours[other].append(one)
    return neighbours


def steps(side: int) -> Iterator[tuple[int, int, int]]:
    """The steps of a square to the right and down: a node, the next one, and the row or column in which both are."""
    for node in range(side * side):
        row, column = divmod(node, side)
        if column + 1 < side:
            yield node, node + 1, row
        if row + 1 < side:
            yield node, node + side, column


def mesh(side: int, chance: Chance) -> Neighbours:
    """A square sheet of triangles, such as finite elements have. Chance picks the diagonal of each square."""
    edges = [(one, other) for one, other, _ in steps(side)]
    for row in range(side - 1):
        for column in range(side - 1):
            corner = row * side + column
            edges.append((corner, corner + side + 1) if chance.happens(50) else (corner + 1, corner + side))
    return neighbours_of(side * side, edges)


def rmat(bits: int, edges_of_a_node: int, chance: Chance) -> list[Edge]:
    """Edges of an R-MAT graph of 2^bits nodes, few of which have many neighbours. No edge stands twice."""
    found: set[Edge] = set()
    upper, left_above, left_below = QUARTERS[0] + QUARTERS[1], QUARTERS[0], 100 - QUARTERS[3]
    while len(found) < edges_of_a_node << bits:
        one = other = 0
        for _ in range(bits):
            number = 100 * chance.fraction()
            is_below = number >= upper
            one = 2 * one + is_below
            other = 2 * other + (number >= (left_below if is_below else left_above))
        if one != other:
            found.add((min(one, other), max(one, other)))
    return sorted(found)


def random_graph(nodes: int, edges_of_a_node: int, chance: Chance) -> Neighbours:
    """A graph in which each edge is as likely."""
    found: set[Edge] = set()
    while len(found) < nodes * edges_of_a_node:
        one, other = chance.number(0, nodes - 1), chance.number(0, nodes - 1)
        if one != other:
            found.add((min(one, other), max(one, other)))
    return neighbours_of(nodes, sorted(found))


@dataclasses.dataclass(frozen=True)
class Network:
    """Crossings with their places, and from each the roads: where they lead, and how long they are."""
    places: list[tuple[int, int]]
    roads: list[list[tuple[int, int]]]


def network(side: int, chance: Chance) -> Network:
    """A network like that of a country: crossings about on a grid, some roads missing, and main roads that are
    straight. No road is shorter than the straight line."""
    places = [(SPACING * (node % side) + chance.number(-MOVED, MOVED),
               SPACING * (node // side) + chance.number(-MOVED, MOVED)) for node in range(side * side)]
    roads: list[list[tuple[int, int]]] = [[] for _ in places]
    for one, other, line in steps(side):
        if chance.happens(MISSING):
            continue
        straight = math.isqrt(square_between(places[one], places[other])) + 1
        length = straight if line % MAIN_ROADS == 0 else straight + chance.number(0, straight)
        roads[one].append((other, length))
        roads[other].append((one, length))
    return Network(places, roads)


def square_between(one: tuple[int, int], other: tuple[int, int]) -> int:
    """The square of the straight line between two places."""
    return (one[0] - other[0]) ** 2 + (one[1] - other[1]) ** 2
