"""The placers of the programs, which pick the tile of each new task: docs/machine/SETTINGS.md."""
from __future__ import annotations

from collections.abc import Sequence, Sized

from yotarimu.courses.schedules import MOST_TILES


class Placers:
    """By the hint, then the tile whose task queue holds the fewest tasks, then the tiles in turn. Each of them serves
    for a phase of commits, and the last one from then on."""

    __slots__ = ("tiles", "phase", "next", "fitting")

    def __init__(self, tiles: int, phase: int) -> None:
        self.tiles, self.phase, self.next = tiles, phase, 0
        # The numbers of tiles with which each hint so far led to the same tile.
        self.fitting = set(range(1, MOST_TILES + 1))

    def pick(self, hint: int, commits: int, queues: Sequence[Sized]) -> int:
        """The tile of the next task, with these task queues, after so many commits."""
        phases = commits // self.phase
        if phases == 0:
            tile = hint % self.tiles
            if len(self.fitting) > 1:
                self.fitting = {count for count in self.fitting if hint % count == tile}
            return tile
        if phases == 1:
            loads = [len(queue) for queue in queues]
            return loads.index(min(loads))
        return self.next % self.tiles

    def placed(self, tile: int, commits: int) -> None:
        """Takes where a task was placed, by which the serving placer is updated."""
        if commits // self.phase > 1:
            self.next = tile + 1
