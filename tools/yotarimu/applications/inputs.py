"""What a program is given: numbers that its sources include, and variables that files fill."""
from __future__ import annotations

import dataclasses
import struct
from typing import Iterable, Mapping, Sequence

HEADER = "sizes.h"


@dataclasses.dataclass(frozen=True)
class Input:
    """The numbers by their names in the sources, and the bytes of variables by theirs."""
    sizes: Mapping[str, int]
    variables: Mapping[str, bytes]

    def files(self, told: str) -> dict[str, bytes]:
        """The files by name: a header with the numbers, which says what they are of, and a file for each variable."""
        lines = [f"/* {told} */", *(f"#define {name} {value}" for name, value in self.sizes.items())]
        made = {f"{name}.bin": content for name, content in self.variables.items()}
        return {HEADER: "".join(line + "\n" for line in lines).encode("ascii"), **made}


def words(numbers: Sequence[int]) -> bytes:
    """Numbers from 0 to 4,294,967,295, as words."""
    return struct.pack(f"<{len(numbers)}I", *numbers)


def rows_of_words(rows: Iterable[Sequence[int]]) -> bytes:
    """Structs of words, one after another."""
    return words([number for row in rows for number in row])


def join_rows(rows: Sequence[Sequence[int]]) -> tuple[list[int], list[int]]:
    """Where each row begins in all rows one after another, and where the last ends; and these rows."""
    first: list[int] = [0]
    numbers: list[int] = []
    for row in rows:
        numbers += row
        first.append(len(numbers))
    return first, numbers


def join_roads(roads: Sequence[Sequence[tuple[int, int]]]) -> tuple[bytes, bytes]:
    """Where the roads from each node begin, and all roads one after another: where each leads, and its length."""
    first = [0]
    for row in roads:
        first.append(first[-1] + len(row))
    return words(first), rows_of_words([road for row in roads for road in row])
