"""Checks of shortest ways, and a plain search of them."""
from __future__ import annotations

import heapq
from typing import Sequence

from yotarimu.applications.memory import need

FAR = 0xFFFFFFFF
Roads = Sequence[Sequence[tuple[int, int]]]


def need_shortest(what: str, roads: Roads, distances: Sequence[int]) -> None:
    """Holds that these are the lengths of shortest ways from node 0. They are if no road is a shorter way to where it
    leads, and each but that of node 0 is that of a way over some road. All roads have a length above 0."""
    need(len(distances) == len(roads) and distances[0] == 0, f"{what}[0] is {distances[0]}, and not 0")
    has_way = bytearray(len(roads))
    has_way[0] = 1
    for node, row in enumerate(roads):
        for to, length in row if distances[node] != FAR else ():
            way = distances[node] + length
            need(distances[to] <= way, f"{what}[{to}] is {distances[to]}, and {way} over node {node}")
            if distances[to] == way:
                has_way[to] = 1
    for node, distance in enumerate(distances):
        need(has_way[node] == 1 or distance == FAR, f"{what}[{node}] is {distance}, and no road leads there so")


def shortest(roads: Roads, start: int) -> list[int]:
    """The lengths of shortest ways from a node, by Dijkstra's search."""
    distances, waiting = [FAR] * len(roads), [(0, start)]
    while waiting:
        way, node = heapq.heappop(waiting)
        if distances[node] != FAR:
            continue
        distances[node] = way
        for to, length in roads[node]:
            if distances[to] == FAR:
                heapq.heappush(waiting, (way + length, to))
    return distances
