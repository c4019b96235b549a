"""A page that shows a run act by act: the event log, a sentence for each line, and the machine before it.

The page replays the log in the browser, from the state of the machine where the page begins. Its parts are in
`web/page`, which the page with the programs inside uses too.
"""
from __future__ import annotations

import collections
import html
import json
import pathlib
import re
from typing import Optional

from yotarimu.common.files import FilePath, read_written
from yotarimu.common.outcome import Refusal
from yotarimu.images.image import DATA, TEXT
from yotarimu.images.listing import NO_LISTING, Listing, read_listing
from yotarimu.lines.fields import Line
from yotarimu.lines.reader import open_lines
from yotarimu.lines.replay import Access, Machine, Task, ToldLine
from yotarimu.lines.rounds import Rounds
from yotarimu.lines.sentences import end_told, name_told, opening_told, sentence_of
from yotarimu.lines.times import UNDISPATCHED
from yotarimu.web.bundle import recorded_page, within

MOST_ACTS = 50_000
# So many entries of the journal before the page's first act stand on it.
MOST_ENTRIES = 12
CUT = "Here the text breaks off."


class Totals:
    """What was counted so far: the work of committed tasks and of those aborted, the journal, and the output."""

    def __init__(self) -> None:
        self.useful = self.wasted = self.emitted = 0
        self.entries: collections.deque[list[object]] = collections.deque(maxlen=MOST_ENTRIES)

    def follow(self, told: ToldLine) -> None:
        """Counts what a line reports."""
        self.wasted += sum(taken.work for taken in told.taken)
        if told.committed is not None:
            line = told.line
            self.useful += told.committed.work
            self.emitted += len(line.get("output", "")) // 2
            self.entries.append([name_told(line["name"]), line["depth"], line["ts"]])


class Excerpt:
    """The acts that a page shows, each with its sentence, from the opening or from behind an act."""

    def __init__(self, name: FilePath, head: Line, first: int, last: float) -> None:
        self.name, self.head, self.first, self.last = name, head, first, last
        self.passed = Totals()
        # The machine where the page begins, once it was found.
        self.opening: Optional[str] = None
        self.lines: list[str] = []
        self.sentences: list[str] = []

    def follow(self, told: ToldLine, machine: Machine, listing: Listing) -> None:
        """Takes a line that was read: it is passed, or the page begins after it, or it is one of the page's acts."""
        if not told.is_act():
            if self.first == 0 and machine.placed == self.head["tasks"] and self.opening is None:
                self.begin(machine, opening_told(self.head))
        elif self.opening is None:
            self.passed.follow(told)
            if machine.acts >= self.first:
                self.begin(machine, sentence_of(told, machine, listing))
        elif machine.acts <= self.last:
            self.take(told, machine, listing)

    def begin(self, machine: Machine, sentence: str) -> None:
        """Notes the machine before the first act that is shown."""
        # The machine's own lists go on changing, so it is written down at once.
        self.opening = within(opening_of(machine, self.passed))
        self.sentences.append(sentence)

    def take(self, told: ToldLine, machine: Machine, listing: Listing) -> None:
        """Takes an act with its sentence; refuses more acts than a page can show."""
        if len(self.lines) == MOST_ACTS:
            raise Refusal(f"{self.name}: these are more than {MOST_ACTS:,} acts, which no page shows; --from ACT and "
                          "--to ACT choose some of them.")
        self.lines.append(json.dumps(told.line, separators=(",", ":")))
        self.sentences.append(sentence_of(told, machine, listing))

    def close(self, machine: Machine, end: Optional[Line], listing: Listing) -> None:
        """What is said behind the page's last act, where the text ends there too."""
        if self.opening is None and self.first:
            raise Refusal(f"{self.name}: its last act is {machine.acts:,}, so no page begins behind {self.first:,}.")
        if self.opening is None:
            raise Refusal(f"{self.name}: it is cut before the image's tasks are placed, so there is nothing to show.")
        if machine.acts <= self.last:
            self.sentences.append(CUT if end is None else end_told(end, listing))


# ---- the machine before the page's first act


def opening_of(machine: Machine, passed: Totals) -> dict[str, object]:
    """The machine as the page takes it."""
    tasks = list(machine.tasks.values())
    stores = ((task.id, [store_of(access) for access in task.accesses if access.is_store]) for task in tasks)
    domains = (pair for task in machine.all_tasks() for pair in zip(task.domain.maker, task.makers))
    makers = {dispatch: maker.name for (_, dispatch), maker in domains if maker.name is not None}
    return {"at": machine.acts, "events": machine.events, "commits": machine.commits, "useful": passed.useful,
            "dispatches": machine.dispatches, "wasted": passed.wasted, "emitted": passed.emitted,
            "journal": list(passed.entries), "tasks": [task_of(task) for task in tasks],
            "queues": machine.queues, "cores": machine.cores, "finished": machine.finished,
            "blocks": [list(map(task_of, block.values())) for block in machine.blocks],
            "memory": words_of(machine), "stores": [pair for pair in stores if pair[1]],
            "makers": [[dispatch, name_told(name)] for dispatch, name in makers.items()],
            "rounds": None if machine.rounds is None else round_of(machine.rounds)}


def round_of(rounds: Rounds) -> dict[str, object]:
    """The round in which the page begins, as it reads it."""
    return {"place": rounds.place(), "number": rounds.number, "first": rounds.first, "begun": rounds.begun,
            "withoutCommit": rounds.without_commit, "isAdvancing": rounds.is_advancing,
            "isAdvanced": rounds.is_advanced}


def task_of(task: Task) -> dict[str, object]:
    """A task as the page reads it."""
    creator = task.creator.id if task.name is None and task.creator else None
    return {"id": task.id, "tile": task.tile, "state": task.state, "core": task.core, "name": task.name,
            "creator": creator, "index": task.index, "ts": task.timestamp,
            "args": task.arguments, "entry": task.entry, "pc": task.pc, "number": task.number, "work": task.work,
            "made": len(task.children), "dispatched": None if task.dispatch == UNDISPATCHED else task.dispatch,
            "subdomain": task.subdomain, "domain": {"maker": task.domain.maker, "kinds": task.domain.kinds},
            "children": [child.id for child in task.children if child.creator is task and child.id is not None]}


def store_of(access: Access) -> list[int]:
    """A store as the page reads it: its address, how many bytes, the number that stood there, and its event."""
    return [access.address, access.bytes, access.old, access.event]


def words_of(machine: Machine) -> list[list[object]]:
    """The words that were touched, by rising address, each with its bytes; those that nobody touched are None."""
    memory = machine.memory
    return [[address, [memory.byte(address + place) for place in range(4)]] for address, _ in memory.words()]


# ---- the listing


def read_rows(path: Optional[FilePath], head: Line) -> tuple[Listing, list[list[object]]]:
    """A listing, and its lines as the page shows them: the address of an instruction, or None, and the text."""
    if path is None:
        return NO_LISTING, []
    text = read_written(path)
    listing = read_listing(text, path)
    end = TEXT + 4 * head["text"]
    beyond = next((address for address in sorted(listing.words) if end <= address < DATA), None)
    if beyond is not None:
        raise Refusal(f"{path}: this is the listing of another image: it has an instruction at {beyond:08x}, and the "
                      f"text of this one ends at {end:08x}.")
    return listing, [[row_address(line), line] for line in text.splitlines()]


def row_address(line: str) -> Optional[int]:
    """The address of a row of a listing; None if it has no instruction."""
    found = re.match("([0-9a-f]{8})  [0-9a-f]{8}  ", line)
    return int(found[1], 16) if found else None


# ---- the page


def page_of(path: FilePath, listing_path: Optional[FilePath], first: int = 0, last: float = float("inf"),
            is_cut_allowed: bool = False, name: Optional[str] = None) -> str:
    """The page of a text's acts: those behind the act `first`, up to the act `last`. It is called by a name, or by that
    of the text."""
    with open_lines(path, is_cut_allowed) as watched:
        listing, rows = read_rows(listing_path, watched.head)
        excerpt = Excerpt(path, watched.head, first, last)
        for told in watched:
            excerpt.follow(told, watched.machine, listing)
        excerpt.close(watched.machine, watched.end, listing)
    head = json.dumps(watched.head, separators=(",", ":"))
    title = f"{name or ('A run' if str(path) == '-' else pathlib.Path(path).name)}, act by act"
    return recorded_page(in_page(title), {
        "lines": f"[{','.join([head, *excerpt.lines])}]", "opening": excerpt.opening or "",
        "sentences": within(excerpt.sentences), "listing": within(rows)})


def in_page(text: str) -> str:
    """A text as a page has it, in any encoding."""
    return html.escape(text).encode("ascii", "xmlcharrefreplace").decode()
