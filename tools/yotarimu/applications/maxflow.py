"""The greatest flow through frames of nodes."""
from __future__ import annotations

import dataclasses
import functools
from collections.abc import Mapping

from yotarimu.applications.application import Application, Problem
from yotarimu.applications.chance import Chance
from yotarimu.applications.graphs import steps
from yotarimu.applications.inputs import Input, words
from yotarimu.applications.memory import Memory, need

# How much room there is from a frame to the next; within a frame there is enough for all of it.
ROOM = (1, 100)


@dataclasses.dataclass(frozen=True)
class Net:
    """The arcs of each node, one after another: where each leads, its room, and the arc that leads back."""
    first: list[int]
    to: list[int]
    room: list[int]
    back: list[int]

    @property
    def nodes(self) -> int:
        """How many nodes there are. Node 0 is the source, and the last one the sink."""
        return len(self.first) - 1


def problem(side: int, chance: Chance) -> Problem:
    """Twice as many square frames as a frame has nodes along each side. Each node of a frame has an arc to one of the
    next frame."""
    net = net_of(2 * side ** 3, frames(side, 2 * side, chance))
    sizes = {"NODES": net.nodes, "ARCS": len(net.to), "SOURCE": 0, "SINK": net.nodes - 1}
    variables = {field.name: words(getattr(net, field.name)) for field in dataclasses.fields(net)}
    return Problem(Input(sizes, variables), functools.partial(check, net))


def frames(side: int, count: int, chance: Chance) -> list[tuple[int, int, int]]:
    """The arcs of so many frames: from where, to where, and their room."""
    arcs, size = [], side * side
    for base in range(0, count * size, size):
        for one, other, _ in steps(side):
            arcs += [(base + one, base + other, ROOM[1] * size), (base + other, base + one, ROOM[1] * size)]
        if base + size < count * size:
            arcs += [(base + node, base + size + other, chance.number(*ROOM))
                     for node, other in enumerate(chance.permutation(range(size)))]
    return arcs


def net_of(nodes: int, arcs: list[tuple[int, int, int]]) -> Net:
    """The net of arcs, each with one that leads back and has no room at first."""
    counts = [0] * (nodes + 1)
    for one, other, _ in arcs:
        counts[one] += 1
        counts[other] += 1
    first = [0]
    for count in counts[:nodes]:
        first.append(first[-1] + count)
    free, whole = list(first), first[-1]
    net = Net(first, [0] * whole, [0] * whole, [0] * whole)
    for one, other, room in arcs:
        there, back = free[one], free[other]
        free[one], free[other] = there + 1, back + 1
        net.to[there], net.room[there], net.back[there] = other, room, back
        net.to[back], net.room[back], net.back[back] = one, 0, there
    return net


def check(net: Net, memory: Memory) -> str:
    """Checks that what reached the sink is all that can pass a cut, which no flow exceeds. The cut separates the nodes
    from which the sink can still be reached from the others."""
    room, excess = memory.words("room"), memory.words("excess")
    flows = flows_of(net, room)
    for node in range(1, net.nodes):
        into = sum(-flows[arc] for arc in range(net.first[node], net.first[node + 1]))
        need(into == excess[node], f"excess[{node}] is {excess[node]}, where {into} stays")
    is_before = before_sink(net, room)
    need(not is_before[0], "more could flow from the source to the sink")
    held = [node for node in range(1, net.nodes - 1) if is_before[node] and excess[node]]
    need(not held, f"the nodes {held[:5]} hold flow that could reach the sink")
    passing = sum(net.room[arc] for node in range(net.nodes) if not is_before[node]
                  for arc in range(net.first[node], net.first[node + 1]) if is_before[net.to[arc]])
    need(excess[-1] == passing, f"{excess[-1]} reached the sink, and {passing} can pass a cut")
    return f"the flow of {excess[-1]:,} is the greatest; heights were set anew {memory.words('searches')[0]:,} times"


def flows_of(net: Net, room: tuple[int, ...]) -> list[int]:
    """What flows through each arc, less what flows back. No arc may have more room than both began with."""
    for arc, back in enumerate(net.back):
        whole = net.room[arc] + net.room[back]
        need(room[arc] + room[back] == whole, f"room[{arc}] and room[{back}] are {room[arc] + room[back]}, not {whole}")
    return [before - left for before, left in zip(net.room, room)]


def before_sink(net: Net, room: tuple[int, ...]) -> bytearray:
    """Which nodes the sink can be reached from, by arcs that have room."""
    is_before = bytearray(net.nodes)
    is_before[-1], waiting = 1, [net.nodes - 1]
    while waiting:
        node = waiting.pop()
        for arc in range(net.first[node], net.first[node + 1]):
            other = net.to[arc]
            if room[net.back[arc]] and not is_before[other]:
                is_before[other] = 1
                waiting.append(other)
    return is_before


def application(name: str, source: str, size_range: range, sizes: Mapping[str, int]) -> Application:
    """One of the three programs."""
    return Application(name, ("maxflow/flow.h", f"maxflow/{source}"), "nodes along each side of a frame", size_range,
                       sizes, problem)


SIZES = {"small": 5, "medium": 10, "large": 13}
NESTED = application("maxflow", "task.c", range(2, 14), SIZES)
FLAT = application("maxflow-flat", "flat.c", range(2, 14), SIZES)
# A search in one task has to keep to the most instructions that a task may execute.
COARSE = application("maxflow-coarse", "coarse.c", range(2, 7), {"small": 5, "medium": 6, "large": 6})
