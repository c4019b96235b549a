"""A simulation of adders by events."""
from __future__ import annotations

import functools
import struct

from yotarimu.applications.application import Application, Problem
from yotarimu.applications.chance import Chance
from yotarimu.applications.circuits import BITS, DELAYS, Circuit
from yotarimu.applications.inputs import Input, join_rows, rows_of_words, words
from yotarimu.applications.memory import Memory, need

PERIODS = 16
WORD = 1 << BITS


def problem(adders: int, chance: Chance) -> Problem:
    """So many adders side by side, each with two words as its inputs, which change in each period."""
    circuit = Circuit(2 * BITS * adders)
    given = [list(range(BITS * word, BITS * word + BITS)) for word in range(2 * adders)]
    outputs = [bit for one, other in zip(given[::2], given[1::2]) for bit in circuit.sum_of(one, other)]
    numbers = [[chance.number(0, WORD - 1) for _ in given] for _ in range(PERIODS)]
    first, readers = join_rows(circuit.readers())
    sizes = {"GATES": len(circuit.gates), "READERS": len(readers), "SUMS": adders, "WORDS": len(given),
             "PERIODS": PERIODS, "PERIOD": circuit.longest() + 2}
    gates = b"".join(struct.pack("<BB", gate.kind, DELAYS[gate.kind]) for gate in circuit.gates)
    variables = {"gates": gates, "first": words(first), "readers": words(readers), "outputs": words(outputs),
                 "numbers": rows_of_words(numbers)}
    return Problem(Input(sizes, variables), functools.partial(check, numbers))


def check(numbers: list[list[int]], memory: Memory) -> str:
    """Compares each sum with an addition."""
    sums = memory.rows("sums", len(numbers[0]) // 2)
    for period, row in enumerate(numbers):
        for place, (one, other) in enumerate(zip(row[::2], row[1::2])):
            found, wanted = sums[period][place], (one + other) % WORD
            need(found == wanted, f"sums[{period}][{place}] is {found}, and the sum is {wanted}")
    toggles = sum(memory.halves("states")[1::2])
    return f"each of {len(sums) * len(sums[0]):,} sums is right; outputs of gates toggled {toggles:,} times"


APPLICATION = Application("des", ("des/task.c",), "adders", range(1, 81), {"small": 2, "medium": 16, "large": 80},
                          problem)
