"""The machine as text, for people: tiles with queues, cores and blocks, the words that were touched, the journal."""
from __future__ import annotations

from collections.abc import Iterable, Iterator, Sequence
from typing import Optional

from yotarimu.common.text import count_text, printable, signed
from yotarimu.images.image import DATA
from yotarimu.images.listing import Listing
from yotarimu.lines.fields import Line
from yotarimu.lines.filters import LineRule, rule_of
from yotarimu.lines.orders import domain_told
from yotarimu.lines.replay import TRAPPED, Machine, Task, ToldLine
from yotarimu.lines.sentences import label_of, list_text

# Of longer lists the rest is counted.
MOST_TASKS, MOST_WORDS, MOST_ENTRIES = 16, 16, 8
WIDTH = 14


class Display:
    """The state after an act: the machine, the act's line with what it did, the journal and the output so far."""

    def __init__(self, machine: Machine, told: Optional[ToldLine], entries: Sequence[str], output: bytes,
                 listing: Listing) -> None:
        self.machine, self.told, self.entries, self.output, self.listing = machine, told, entries, output, listing
        self.back = {id(taken.task) for taken in told.taken} if told else set()

    def lines(self) -> Iterator[str]:
        """All lines: each tile, the words that were touched, and the journal."""
        head = self.machine.head
        for tile in range(head["tiles"]):
            yield from self.tile_lines(tile, head)
        yield from self.word_lines(rule_of(head))
        yield from self.journal_lines()

    # ---- a tile

    def tile_lines(self, tile: int, head: Line) -> Iterator[str]:
        """A tile with its queue, its cores and its block."""
        queue = [self.machine.tasks[number] for number in self.machine.queues[tile]]
        block = list(self.machine.blocks[tile].values())
        if not queue and not block:
            yield f"tile {tile}: no task"
            return
        yield f"tile {tile}"
        yield title_line("task queue", f"{len(queue)} of {head['task_queue']}")
        yield from self.task_lines(queue)
        for core in range(head["cores"]):
            yield title_line(f"core {core}", self.core_told(tile, core))
        finished = [self.machine.tasks[number] for number in self.machine.finished[tile]]
        labels = behind(label_of(task) for task in finished)
        yield title_line("commit queue", f"{len(finished)} of {head['commit_queue']}{labels}")
        yield title_line("block", count_text(len(block), "task"))
        yield from self.task_lines(block)

    def task_lines(self, queue: Sequence[Task]) -> Iterator[str]:
        """The first tasks of a queue as rows, and how many more there are."""
        rows = [self.task_row(task) for task in queue[:MOST_TASKS]]
        widths = [max(map(len, column)) for column in zip(*rows)]
        for row in rows:
            yield "    " + "  ".join(text.ljust(width) for text, width in zip(row, widths)).rstrip()
        if len(queue) > MOST_TASKS:
            yield f"      and {len(queue) - MOST_TASKS:,} more"

    def task_row(self, task: Task) -> tuple[str, ...]:
        """A task's mark, label, label in the text with arguments, timestamp, depth, domain and state."""
        mark = ">" if self.told and task in (self.told.task, self.told.arrived) else " "
        back = ", aborted" if id(task) in self.back else ""
        words = self.listing.task_words(task.entry, task.arguments)
        domain = f"depth {task.depth}, {domain_told(task, task.depth - 1)}"
        return mark, label_of(task), words, f"timestamp {task.timestamp}", domain, f"{task.state}{back}"

    def core_told(self, tile: int, core: int) -> str:
        """What a core holds: a task with its work, or nothing."""
        number = self.machine.cores[tile][core]
        if number is None:
            return "free"
        task = self.machine.tasks[number]
        last = f", stopped at {self.listing.address_text(task.pc)}" if task.work or task.state is TRAPPED else ""
        return f"{label_of(task)} ({count_text(task.work, 'instruction')}{last})"

    # ---- what all tiles share

    def word_lines(self, rule: LineRule) -> Iterator[str]:
        """The words of memory that were touched, those nearest to the last access, and by which lines conflicts are
        found."""
        words = self.machine.memory.words()
        if not words:
            yield "memory: no word was touched"
            return
        touched = self.told.access.address & ~3 if self.told and self.told.access else None
        yield (f"memory, the words that were touched; lines of {rule.size} bytes, filters of the kind "
               f"{rule.kind.value}")
        for address, word in nearest(words, touched):
            label = self.listing.label(address)
            mark = ">" if address == touched else " "
            line = (address - DATA) // rule.size
            name = f"  {label}" if label else ""
            yield f"    {mark}  {address:08x}  {signed(word):>10}  {word:08x}  line {line}{name}"
        if len(words) > MOST_WORDS:
            yield f"       and {len(words) - MOST_WORDS:,} more"

    def journal_lines(self) -> Iterator[str]:
        """The last commits, and the output."""
        if self.entries:
            yield f"journal, {count_text(len(self.entries), 'commit')}"
            for entry in self.entries[-MOST_ENTRIES:]:
                yield f"       {entry}"
        else:
            yield "journal: no commit"
        if self.output:
            yield f"output: {printable(self.output)}"


def title_line(title: str, text: str) -> str:
    """A line with a title before its text."""
    return f"  {title:<{WIDTH}}{text}"


def behind(labels: Iterable[str]) -> str:
    """Labels as a list behind a colon; no words where there is none."""
    told = list_text(list(labels))
    return f": {told}" if told else ""


def nearest(words: Sequence[tuple[int, int]], address: Optional[int]) -> Sequence[tuple[int, int]]:
    """So many words as are shown, with the one at an address among them."""
    if len(words) <= MOST_WORDS or address is None:
        return words[:MOST_WORDS]
    place = next((at for at, (found, _) in enumerate(words) if found == address), 0)
    first = min(max(0, place - MOST_WORDS // 2), len(words) - MOST_WORDS)
    return words[first:first + MOST_WORDS]
