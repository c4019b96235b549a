"""Wires through a labyrinth of cells in two layers."""
from __future__ import annotations

import dataclasses
import functools
from collections.abc import Mapping
from typing import Iterator

from yotarimu.applications.application import Application, Problem
from yotarimu.applications.chance import Chance
from yotarimu.applications.inputs import Input, rows_of_words
from yotarimu.applications.memory import Memory, need

LAYERS = 2
# Of each layer's cells one in so many may be the end of a wire's half, and no more wires are laid.
CELLS_OF_A_WIRE, MOST_WIRES = 20, 48


@dataclasses.dataclass(frozen=True)
class Labyrinth:
    """Layers of cells, and the two ends of each wire."""
    width: int
    wires: list[tuple[int, int]]

    @property
    def layer(self) -> int:
        """How many cells a layer has."""
        return self.width * self.width

    @property
    def cells(self) -> int:
        """How many cells there are."""
        return LAYERS * self.layer

    def beside(self, cell: int) -> Iterator[int]:
        """The cells beside a cell."""
        x, y, z = cell % self.width, cell // self.width % self.width, cell // self.layer
        for place, most, step in ((x, self.width, 1), (y, self.width, self.width), (z, LAYERS, self.layer)):
            if place > 0:
                yield cell - step
            if place + 1 < most:
                yield cell + step

    def reachable_cells(self, start: int, is_open: bytearray) -> bytearray:
        """The open cells that can be reached from an open one."""
        is_reached, waiting = bytearray(self.cells), [start]
        is_reached[start] = 1
        while waiting:
            for other in self.beside(waiting.pop()):
                if is_open[other] and not is_reached[other]:
                    is_reached[other] = 1
                    waiting.append(other)
        return is_reached


def problem(bits: int, chance: Chance) -> Problem:
    """Layers of 2^bits times 2^bits cells. All ends of wires are in the first one."""
    labyrinth = Labyrinth(1 << bits, [])
    count = min(MOST_WIRES, labyrinth.layer // CELLS_OF_A_WIRE)
    ends = chance.permutation(range(labyrinth.layer))
    labyrinth.wires.extend(zip(ends[:count], ends[count:2 * count]))
    sizes = {"WIDTH": labyrinth.width, "LAYER": labyrinth.layer, "CELLS": labyrinth.cells, "WIRES": count}
    return Problem(Input(sizes, {"wires": rows_of_words(labyrinth.wires)}), functools.partial(check, labyrinth))


def check(labyrinth: Labyrinth, memory: Memory) -> str:
    """Holds that each laid wire is in one piece from end to end, and that no other wire could be laid beside them."""
    owners, laid = memory.halves("owner"), memory.words("laid")
    for wire, (start, end) in enumerate(labyrinth.wires):
        own = bytearray(owner == wire + 1 for owner in owners)
        need(sum(own) == laid[wire], f"wire {wire} has {sum(own)} cells, and laid[{wire}] is {laid[wire]}")
        if laid[wire]:
            is_whole = own[start] == own[end] == 1 and labyrinth.reachable_cells(start, own) == own
            need(is_whole, f"wire {wire} isn't in one piece from end to end")
    is_free = bytearray(owner == 0 for owner in owners)
    for wire, (start, end) in enumerate(labyrinth.wires):
        if not laid[wire] and is_free[start] and is_free[end]:
            need(not labyrinth.reachable_cells(start, is_free)[end], f"wire {wire} isn't laid, and could be")
    count = sum(cells > 0 for cells in laid)
    return f"{count} of {len(laid)} wires are laid, over {sum(laid):,} cells, and no other could be"


def application(name: str, source: str, size_range: range, sizes: Mapping[str, int]) -> Application:
    """One of the three programs."""
    return Application(name, ("labyrinth/wires.h", f"labyrinth/{source}"), "bits of a cell's row and column",
                       size_range, sizes, problem)


SIZES = {"small": 4, "medium": 5, "large": 6}
NESTED = application("labyrinth", "task.c", range(3, 7), SIZES)
FLAT = application("labyrinth-flat", "flat.c", range(3, 7), SIZES)
# A search in one task has to keep to the most instructions that a task may execute.
COARSE = application("labyrinth-coarse", "coarse.c", range(3, 5), {"small": 4, "medium": 4, "large": 4})
