"""What is typed behind `goto` and the words of `monitor`, and how answers are written."""
from __future__ import annotations

import dataclasses
import re
from typing import Optional

from yotarimu.common.outcome import Refusal
from yotarimu.common.words import number_in as number_of
from yotarimu.debugger.track import Store
from yotarimu.images.image import DATA, DATA_BYTES
from yotarimu.images.listing import Listing
from yotarimu.reports.report import Name

WORD = 0xFFFFFFFF
END = "end"


@dataclasses.dataclass(frozen=True)
class Goal:
    """A position that is asked for: what of, or which event; and there the end, the call that made it, or so many
    instructions on."""
    what: str
    event: Optional[int] = None
    is_making: bool = False
    is_end: bool = False
    done: int = 0

    def within(self, length: int) -> int:
        """The number of instructions among so many."""
        return length if self.is_end else min(self.done, length)


def goal_in(word: str) -> Goal:
    """Reads WHAT, WHAT@N, WHAT@end, WHAT! or eN."""
    what, mark, place = word.partition("@")
    if found := re.fullmatch("e([0-9]{1,20})", word):
        return Goal(word, int(found[1]))
    if mark and not (place == END or re.fullmatch("[0-9]{1,9}", place)):
        raise Refusal(f"{word}: behind @ stands a number of instructions, or `end`.")
    if mark:
        return Goal(what, is_end=place == END, done=0 if place == END else int(place))
    return Goal(word.rstrip("!"), is_making=word.endswith("!"))


def name_in(word: str) -> Optional[Name]:
    """A task's name, as in `3.0`; None where the word is none."""
    found = re.fullmatch(r"([0-9]{1,10})\.([0-9]{1,10})", word)
    return Name(int(found[1]), int(found[2])) if found else None


def number_in(what: str, word: str, most: int) -> int:
    """A number from 1 on."""
    number = number_of(word, 1, most)
    if number is None:
        raise Refusal(f"{what} takes a number from 1 to {most:,}, and not `{word}`.")
    return number


def word_in(word: str, listing: Listing) -> int:
    """The address of the word of the data in which an address, or a label with a distance after it, lies."""
    name, _, distance = word.partition("+")
    known = next((at for at, label in listing.labels.items() if label == name and at >= DATA), None)
    far = number_of(distance or "0", 0, DATA_BYTES)
    if known is not None and far is not None:
        return known + far & ~3
    address = number_of(word, DATA, DATA + DATA_BYTES - 1)
    if address is None:
        raise Refusal(f"`{word}` isn't a label or address of the data: one from {DATA:#x} on is wanted.")
    return address & ~3


def arrival_text(thread: int) -> str:
    """What `goto` answers; words.gdb reads the number."""
    return f"Now thread {thread} runs."


def store_told(store: Store, place: str) -> str:
    """A store, and where it is made."""
    return f"{DATA + store.place:08x}: {store.old[::-1].hex()} -> {store.new[::-1].hex()}  {place}"
