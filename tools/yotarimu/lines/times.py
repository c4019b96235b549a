"""The order of tasks: virtual times, as docs/machine/MACHINE.md has them under "Which task comes first"."""
from __future__ import annotations

import math
from typing import NamedTuple, Tuple

# The place among all dispatches of a task that isn't dispatched: it comes behind those that are.
UNDISPATCHED = math.inf
# A timestamp, and the place of a dispatch. A time has a level for each depth, and times compare as tuples do.
Level = Tuple[int, float]
Time = Tuple[Level, ...]


class Domain(NamedTuple):
    """A domain: the time of the task that made it, empty for the root domain, and which domains from the root down to
    this one are ordered."""
    maker: Time
    kinds: tuple[bool, ...]

    def time(self, timestamp: int, dispatch: float) -> Time:
        """The time of a task of this domain. In an unordered one each timestamp counts as 0."""
        return (*self.maker, (timestamp if self.kinds[-1] else 0, dispatch))

    def inner(self, maker: Time, is_ordered: bool) -> Domain:
        """The subdomain that the task of this time makes."""
        return Domain(maker, (*self.kinds, is_ordered))

    def outer(self) -> Domain:
        """The domain around this one."""
        return Domain(self.maker[:-1], self.kinds[:-1])


def root(is_ordered: bool) -> Domain:
    """The root domain."""
    return Domain((), (is_ordered,))
