"""What limits look at: the words of the data and their bytes, and tables of what is noted of them.

A run of a million tasks touches millions of words. So what a table has of each are some numbers in an array, and no
objects.
"""
from __future__ import annotations

import array
import copy
from collections.abc import Callable
from typing import Optional

# What distinguishes a byte's cell from a word's.
BYTES = 1 << 33
# So many cells that are near each other are in one array.
PAGE = 64


class Table:
    """So many numbers for each cell, all of them 0 where nothing was noted."""

    def __init__(self, width: int) -> None:
        self.width, self.blank = width, array.array("q", bytes(8 * width * PAGE))
        self.pages: dict[int, array.array[int]] = {}

    def of(self, cell: int) -> Optional[array.array[int]]:
        """The numbers of a cell; None where nothing was noted of any cell near it."""
        page = self.pages.get(cell // PAGE)
        if page is None:
            return None
        place = cell % PAGE * self.width
        return page[place:place + self.width]

    def note(self, cell: int, numbers: array.array[int]) -> None:
        """Notes the numbers of a cell."""
        page, place = self.at(cell)
        page[place:place + self.width] = numbers

    def at(self, cell: int) -> tuple[array.array[int], int]:
        """The array in which the numbers of a cell stand one after another, and where; to be noted there."""
        page = self.pages.get(cell // PAGE)
        if page is None:
            page = self.pages[cell // PAGE] = self.blank[:]
        return page, cell % PAGE * self.width

    def split(self, word: int, cells: tuple[int, ...]) -> None:
        """Notes of each byte what was noted of its word, and of the word nothing."""
        numbers = self.of(word)
        if numbers is not None and any(numbers):
            for cell in cells:
                self.note(cell, numbers)
            self.note(word, self.blank[:self.width])


class Column(Table):
    """A table of one number for each cell."""

    def __init__(self) -> None:
        super().__init__(1)

    def number(self, cell: int) -> int:
        """The number of a cell."""
        page = self.pages.get(cell // PAGE)
        return 0 if page is None else page[cell % PAGE]

    def put(self, cell: int, number: int) -> None:
        """Notes the number of a cell."""
        page, place = self.at(cell)
        page[place] = number

    def take_over(self, other: Column) -> None:
        """Takes all numbers of another table that aren't 0, and leaves nothing there."""
        for place, page in other.pages.items():
            own = self.pages.setdefault(place, page)
            if own is not page:
                own[:] = array.array("q", [new or old for new, old in zip(page, own)])
        other.pages = {}


class Cells:
    """The words of the data, and the bytes of those words of which some access touches less. Each table that is indexed
    by cells is registered here, and is split where a word is."""

    def __init__(self) -> None:
        self.split: set[int] = set()
        self.tables: list[Table] = []
        self.called: list[Callable[[int, tuple[int, ...]], None]] = []

    def table(self, width: int) -> Table:
        """A table of so many numbers for each cell."""
        self.tables.append(Table(width))
        return self.tables[-1]

    def column(self) -> Column:
        """A table of one number for each cell."""
        column = Column()
        self.tables.append(column)
        return column

    def copy_of(self, table: Table) -> Table:
        """A table that goes on apart from another one, with what that has."""
        own = copy.copy(table)
        own.pages = {place: page[:] for place, page in table.pages.items()}
        self.tables.append(own)
        return own

    def of(self, address: int, count: int) -> tuple[int, ...]:
        """The cells of an access at a multiple of its width."""
        word = address >> 2
        if word not in self.split:
            if count == 4:
                return (word,)
            self.split_word(word)
        return tuple(range(BYTES + address, BYTES + address + count))

    def split_word(self, word: int) -> None:
        """Gives each byte of a word a cell of its own, in all tables that hold the word."""
        self.split.add(word)
        cells = tuple(range(BYTES + 4 * word, BYTES + 4 * word + 4))
        for table in self.tables:
            table.split(word, cells)
        for call in self.called:
            call(word, cells)
