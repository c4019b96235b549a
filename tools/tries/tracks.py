"""Goes along a track forth, back and at random: registers, stack and memory are those of the first way."""
from __future__ import annotations

import hashlib
import random
from typing import Dict, List, Tuple

from yotarimu.debugger.track import Track, Position
from yotarimu.images.serial_machine import TaskTrap

from tries.place import expect

State = Tuple[int, Tuple[int, ...], bytes, bytes, int]
RANDOM_POSITIONS = 300


def state_of(track: Track) -> State:
    """The pc, the registers, the stack, a digest of the memory, and the thread."""
    core = track.core
    return (core.pc, tuple(core.registers), bytes(core.stack), hashlib.sha256(track.memory.data).digest(),
            track.thread)


def states_forth(track: Track) -> Dict[Position, State]:
    """The state at each position, in their order."""
    states: Dict[Position, State] = {}
    track.go_to(Position(0, 0))
    while True:
        states[track.position] = state_of(track)
        if track.is_stretch_over():
            if not track.next_stretch():
                return states
            continue
        try:
            track.advance()
        except TaskTrap:
            return states


def goes_both_ways(track: Track, name: str, seed: int = 1) -> int:
    """Holds a track to be the same each way; how many positions it has."""
    states = states_forth(track)
    order: List[Position] = list(states)
    for position in reversed(order):
        track.go_to(position)
        expect(state_of(track) == states[position], f"{name}: the same state going back", position)
    chance = random.Random(seed)
    for _ in range(RANDOM_POSITIONS):
        position = chance.choice(order)
        track.go_to(position)
        expect(state_of(track) == states[position], f"{name}: the same state at random", position)
        if position is not order[-1] and not track.is_stretch_over():
            track.advance()
            expect(state_of(track) == states[track.position], f"{name}: the same state one on", position)
    return len(order)
