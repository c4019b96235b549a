"""What a generated image is to have: its theme, and the numbers that its parts are made by."""
from __future__ import annotations

import dataclasses
from typing import Callable, Optional

from cases.chance import Chance
from yotarimu.images.image import VERSIONS, Limits

TRAPS = range(1, 18)


@dataclasses.dataclass
class Shape:
    """The numbers of an image. `trap` is the cause of a trap that it may reach, or None."""
    version: int = 1
    is_ordered: bool = True
    # Bytes of the data, and the offsets of words that most accesses go to.
    size: int = 64
    hot: tuple[int, ...] = (0,)
    # How many parts of the text tasks of any domain enter, and how many those of a subdomain.
    outer: int = 3
    inner: int = 2
    fragments: int = 5
    tasks: int = 6
    # How often a task may go on to children and grandchildren.
    fuel: int = 2
    # Timestamps are up to so much above the creator's.
    spread: int = 3
    weights: dict[str, float] = dataclasses.field(default_factory=dict)
    trap: Optional[int] = None
    # How many children a loop of enqueues makes, and how many the first tasks of a subdomain are at most.
    width: int = 8
    first: int = 3
    # Whether tasks are made of words with random fields.
    is_soup: bool = False

    @property
    def limits(self) -> Limits:
        return VERSIONS[self.version]


# How often each kind of fragment comes.
WEIGHTS = {"plain": 6, "load": 5, "store": 5, "add": 3, "text": 1, "stack": 2, "loop": 2, "skip": 2, "jump": 1,
           "function": 1, "fence": 0.3, "emit": 2, "child": 5, "subdomain": 2.5, "super": 1.5, "pointer": 0.3,
           "wide": 0.3, "fold": 2}


def shape_of(theme: str, chance: Chance) -> Shape:
    """The shape of an image with a theme."""
    size = chance.pick((8, 32, 64, 256, 1_024, 4_096))
    shape = Shape(version=chance.between(1, 2), is_ordered=not chance.is_one_of(3), size=size,
                  outer=chance.between(1, 4), inner=chance.between(1, 3), fragments=chance.between(2, 8),
                  tasks=chance.between(2, 16), fuel=chance.between(0, 5), spread=chance.pick((0, 1, 3, 3, 10, 1_000)),
                  weights=dict(WEIGHTS))
    shape.hot = tuple(4 * chance.below(size // 4) for _ in range(chance.between(1, 6)))
    if theme.startswith("trap "):
        shape.trap = int(theme[5:])
    elif theme in THEMES:
        THEMES[theme](shape, chance)
    return shape


def conflicts(shape: Shape, chance: Chance) -> None:
    shape.hot = tuple(4 * chance.below(2) for _ in range(2))
    shape.tasks, shape.is_ordered = chance.between(8, 20), True
    shape.weights.update(load=12, store=12, add=8, child=12)


def aliases(shape: Shape, chance: Chance) -> None:
    """Two lines that have one bit of a signature."""
    shape.size = 66_000
    shape.hot = tuple(4 * chance.below(4) + chance.pick((0, 4_096, 8_192, 16_384, 32_768, 65_536)) for _ in range(4))
    shape.tasks = chance.between(6, 16)
    shape.weights.update(load=12, store=10, child=10)


def wide(shape: Shape, chance: Chance) -> None:
    shape.weights["wide"], shape.width = 4, chance.between(8, 60)
    shape.fuel = chance.between(1, 2)


def queues(shape: Shape, chance: Chance) -> None:
    shape.weights.update(child=9, wide=2, subdomain=3)
    shape.width, shape.fuel, shape.tasks = chance.between(4, 20), chance.between(2, 3), chance.between(4, 12)


def deep(shape: Shape, chance: Chance) -> None:
    shape.weights.update(subdomain=9, super=3, child=1)
    shape.fuel, shape.inner, shape.tasks = chance.between(3, 7), 3, chance.between(1, 3)


def chain(shape: Shape, chance: Chance) -> None:
    """Subdomains down to the last depth, and now and then one more."""
    shape.weights.update(subdomain=20, child=0, super=0.5, wide=0)
    shape.fuel, shape.first = shape.limits.depth - (0 if chance.is_one_of(5) else 1), 1
    shape.tasks = chance.between(1, 3)


def tight(shape: Shape, chance: Chance) -> None:
    """Small queues and conflicts."""
    conflicts(shape, chance)
    shape.weights.update(child=14, subdomain=6)
    shape.fuel = chance.between(1, 3)


def loops(shape: Shape, _chance: Chance) -> None:
    shape.weights.update(loop=12, plain=9, stack=5, child=1)


def stacks(shape: Shape, _chance: Chance) -> None:
    shape.version = 2
    shape.weights.update(stack=14, function=6, loop=4)


def many(shape: Shape, chance: Chance) -> None:
    """Long blocks: many tasks from the start, in no order."""
    shape.tasks, shape.spread, shape.fuel = chance.between(100, 600), chance.pick((3, 100, 1_000)), 0
    shape.fragments = 2


def soup(shape: Shape, chance: Chance) -> None:
    shape.is_soup, shape.tasks, shape.outer = True, chance.between(8, 20), 12


def pointers(shape: Shape, chance: Chance) -> None:
    """A task that traps or not, by what another stores."""
    shape.weights.update(pointer=6, store=8)
    shape.tasks, shape.is_ordered = chance.between(4, 12), True


THEMES: dict[str, Callable[[Shape, Chance], None]] = {
    "conflicts": conflicts, "tight": tight, "chain": chain, "aliases": aliases, "wide": wide, "queues": queues,
    "deep": deep, "loops": loops, "stacks": stacks, "pointers": pointers, "soup": soup, "many": many}
