"""Makes an image smaller for as long as its runs differ: fewer tasks, nops for instructions, zeros for data."""
from __future__ import annotations

import dataclasses
import struct
from collections.abc import Callable, Collection, Iterator, Sequence
from typing import Optional

from yotarimu.common.outcome import Refusal
from yotarimu.comparing.comparison import Found
from yotarimu.comparing.results import END, Difference, Result, first_difference
from yotarimu.comparing.runs import Programs, Runner, bounds_of
from yotarimu.comparing.serial_orders import OrderedMachine
from yotarimu.comparing.settings import LEAST, ORDER, Setting
from yotarimu.images.image import TEXT, Image
from yotarimu.images.listing import Listing

NOP = 0x13
# So many tie orders are tried of each smaller image.
ORDERS = 8
# A smaller image may run so many times longer, and so many instructions, before it is given up.
TIMES_LONGER, MORE_STEPS = 4, 10_000


@dataclasses.dataclass(frozen=True)
class Judge:
    """Says whether an image still fails in the same way: by tie orders alone, or by a setting of the programs."""
    programs: Programs
    settings: Sequence[Setting]
    wanted: Difference
    parts: Collection[str]
    most_steps: int

    def found(self, image: Image) -> Optional[Found]:
        """The run of an image that fails in the same way; None where none does."""
        try:
            serial = self.result(image, dataclasses.replace(self.settings[0], number=0))
            for setting in self.settings:
                left = self.result(image, setting)
                difference = first_difference(serial, left, self.parts)
                if difference and is_alike(difference, self.wanted, serial):
                    return Found(setting, difference, ())
        except Refusal:
            # Such a run is too long, or none at all.
            return None
        return None

    def result(self, image: Image, setting: Setting) -> Result:
        """What a run leaves."""
        if setting.kind == ORDER:
            budget, commits = bounds_of(setting.options)
            return OrderedMachine(image, setting.number, budget, self.most_steps).result(commits)
        if setting.number == 0:
            setting = Setting(LEAST, 0, {})
        return Runner(image, self.programs).run(setting).result


def is_alike(one: Difference, other: Difference, serial: Result) -> bool:
    """Whether a difference is of the same part, and of runs that end in the same way."""
    if one.part != other.part:
        return False
    return (one.wanted[:7], one.seen[:7]) == (other.wanted[:7], other.seen[:7]) if one.part == END else (
        serial.end == "normal")


def judge_of(found: Found, image: Image, programs: Programs, parts: Collection[str]) -> Judge:
    """The judge of an image that fails. Tie orders are tried first, since these runs take no time."""
    bounds = {name: value for name, value in found.setting.options.items() if name in ("budget", "commits")}
    machine = OrderedMachine(image, 0, *bounds_of(bounds)[:1])
    most_steps = MORE_STEPS
    try:
        machine.result(bounds_of(bounds)[1])
        most_steps += TIMES_LONGER * machine.steps
    except Refusal:
        pass
    numbers = [*([found.setting.number] if found.setting.kind == ORDER else []), *range(1, ORDERS + 1)]
    by_order = Judge(programs, [Setting(ORDER, number, bounds) for number in dict.fromkeys(numbers)],
                     found.difference, parts, most_steps)
    return by_order if by_order.found(image) else dataclasses.replace(by_order, settings=[found.setting])


def reduce(image: Image, judge: Judge, tell: Callable[[Image], None]) -> Image:
    """A smaller image that still fails; the callback gets each smaller one."""
    def take(smaller: Image) -> bool:
        is_failing = judge.found(smaller) is not None
        if is_failing:
            tell(smaller)
        return is_failing

    before: Optional[Image] = None
    while before != image:
        before = image
        for parts_of, with_parts in ((tasks_of, with_tasks), (words_of, with_words), (data_of, with_data)):
            image = smaller_image(image, parts_of(image), with_parts, take)
    return image


Rebuild = Callable[[Image, Collection[int]], Image]


def smaller_image(image: Image, parts: Sequence[int], rebuild: Rebuild, take: Callable[[Image], bool]) -> Image:
    """The image with as few of its parts as it still fails with: halves are left out first, then smaller pieces."""
    kept, size = list(parts), max(1, len(parts) // 2)
    while kept:
        place = 0
        while place < len(kept):
            fewer = kept[:place] + kept[place + size:]
            if take(rebuild(image, set(fewer))):
                kept = fewer
            else:
                place += size
        if size == 1:
            break
        size = max(1, size // 2)
    return rebuild(image, set(kept))


def tasks_of(image: Image) -> Sequence[int]:
    """The places of the initial tasks."""
    return range(len(image.tasks))


def with_tasks(image: Image, kept: Collection[int]) -> Image:
    """The image with some of its initial tasks."""
    return dataclasses.replace(image, tasks=[task for place, task in enumerate(image.tasks) if place in kept])


def words_of(image: Image) -> Sequence[int]:
    """The places of the words of the text that aren't nops."""
    return [place for place, word in enumerate(image.words) if word != NOP]


def with_words(image: Image, kept: Collection[int]) -> Image:
    """The image with nops for all words of the text but some."""
    words = (word if place in kept else NOP for place, word in enumerate(image.words))
    return dataclasses.replace(image, text=struct.pack(f"<{len(image.words)}I", *words))


def data_of(image: Image) -> Sequence[int]:
    """The places of the words of the initial data that aren't zero."""
    return [place for place in range(0, len(image.initial), 4) if any(image.initial[place:place + 4])]


def with_data(image: Image, kept: Collection[int]) -> Image:
    """The image with zeros for all words of the initial data but some."""
    data = b"".join(image.initial[place:place + 4] if place in kept else bytes(len(image.initial[place:place + 4]))
                    for place in range(0, len(image.initial), 4))
    return dataclasses.replace(image, initial=data.rstrip(b"\0"))


def size_text(image: Image) -> str:
    """How large an image is, by what a reduction makes fewer."""
    return (f"{len(image.tasks):,} initial tasks, {len(words_of(image)):,} instructions, "
            f"{len(data_of(image)):,} words of data")


def instruction_lines(image: Image, listing: Listing) -> Iterator[str]:
    """The instructions that are left, each with its place in the sources."""
    for place in words_of(image):
        address = TEXT + 4 * place
        found = listing.instructions.get(address)
        where = listing.place(address)
        yield (f"  {address:08x} {listing.label(address) or '':<16} {image.words[place]:08x}  "
               f"{found.words if found else ''}{f' | {where}' if where else ''}").rstrip()
