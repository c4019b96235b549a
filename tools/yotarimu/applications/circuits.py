"""Circuits of gates with two inputs."""
from __future__ import annotations

import dataclasses
import enum

BITS = 32


class Kind(enum.IntEnum):
    """What a gate does: bit i is its output for the inputs i."""
    AND = 0b1000
    OR = 0b1110
    XOR = 0b0110
    BUFFER = 0b0010


DELAYS = {Kind.AND: 2, Kind.OR: 2, Kind.XOR: 3, Kind.BUFFER: 1}


@dataclasses.dataclass(frozen=True)
class Gate:
    """A gate, and the gates that it reads: none, or two that stand before it."""
    kind: Kind
    reads: tuple[int, ...]


class Circuit:
    """Gates by their numbers. The first are the circuit's own inputs, which read no gate."""

    def __init__(self, inputs: int) -> None:
        self.gates = [Gate(Kind.BUFFER, ()) for _ in range(inputs)]

    def add(self, kind: Kind, one: int, other: int) -> int:
        """The number of a new gate."""
        self.gates.append(Gate(kind, (one, other)))
        return len(self.gates) - 1

    def sum_of(self, one: list[int], other: list[int]) -> list[int]:
        """The gates of the bits of a sum, without the last carry, by the adder of Kogge and Stone."""
        halves = [self.add(Kind.XOR, *bits) for bits in zip(one, other)]
        made, passed = [self.add(Kind.AND, *bits) for bits in zip(one, other)], list(halves)
        distance = 1
        while distance < len(halves):
            made, passed = self.carries(made, passed, distance)
            distance *= 2
        return [halves[0], *(self.add(Kind.XOR, half, carry) for half, carry in zip(halves[1:], made))]

    def carries(self, made: list[int], passed: list[int], distance: int) -> tuple[list[int], list[int]]:
        """Which carries are made and passed over twice as many bits."""
        new_made, new_passed = list(made), list(passed)
        for bit in range(distance, len(made)):
            handed_on = self.add(Kind.AND, passed[bit], made[bit - distance])
            new_made[bit] = self.add(Kind.OR, made[bit], handed_on)
            if bit >= 2 * distance:
                new_passed[bit] = self.add(Kind.AND, passed[bit], passed[bit - distance])
        return new_made, new_passed

    def readers(self) -> list[list[int]]:
        """Of each gate the inputs that read it: a gate's number times 2, and which of its two inputs it is."""
        readers: list[list[int]] = [[] for _ in self.gates]
        for number, gate in enumerate(self.gates):
            for place, read in enumerate(gate.reads):
                readers[read].append(2 * number + place)
        return readers

    def longest(self) -> int:
        """The time after which no output toggles any more."""
        times: list[int] = []
        for gate in self.gates:
            times.append(DELAYS[gate.kind] + max((times[read] for read in gate.reads), default=0))
        return max(times)
