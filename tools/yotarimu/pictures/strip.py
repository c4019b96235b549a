"""A conflict in four frames, drawn from an event log: speculate, conflict, abort, commit.

The frames are the machine before the task that aborts others is dispatched, as its access meets them, after they were
aborted, and at the end of the run.
"""
from __future__ import annotations

import dataclasses
import textwrap
from collections.abc import Iterator, Sequence
from typing import Optional

from yotarimu.common.files import FilePath
from yotarimu.common.outcome import Refusal
from yotarimu.common.text import escape
from yotarimu.images.listing import Listing
from yotarimu.lines.reader import open_lines
from yotarimu.lines.replay import FINISHED, IDLE, Machine, Task, ToldLine

WIDTH, HEIGHT, GAP, TASK_HEIGHT, COLUMNS = 240, 262, 10, 46, 34
RUNNING_COLOUR, IDLE_COLOUR, MEET_COLOUR, GONE_COLOUR = "#dbe8f6", "#ffffff", "#fbe3e3", "#f1f1f1"
EDGE, RED, GREEN, GREY = "#4e79a7", "#c62828", "#3f8f46", "#777777"
STATES = {IDLE: "waits in the task queue", FINISHED: "finished"}


@dataclasses.dataclass(frozen=True)
class Box:
    """A task as a frame shows it: its tile, what it is called, what is said of it, and how it is painted."""
    tile: int
    title: str
    note: str
    fill: str
    edge: str


@dataclasses.dataclass(frozen=True)
class Frame:
    """One picture of the strip: a title, a sentence, tasks, words of memory and the journal."""
    title: str
    colour: str
    sentence: str
    boxes: Sequence[Box]
    memory: Sequence[str]
    journal: Sequence[str] = ()


@dataclasses.dataclass(frozen=True)
class View:
    """What a frame needs of the machine after an act."""
    act: int
    tasks: dict[int, Box]
    memory: dict[int, int]


class Story:
    """What the frames need of a run: the machine after each act, and the act that aborted tasks."""

    def __init__(self, path: FilePath, listing: Listing) -> None:
        self.listing, self.views, self.tiles = listing, list[View](), 0
        self.journal: list[str] = []
        self.dispatches: dict[int, int] = {}
        # The act, its line, and by id the tasks that it aborted, with whether each was discarded.
        self.conflict: Optional[tuple[int, ToldLine, dict[int, bool]]] = None
        self.tasks: dict[int, Task] = {}
        with open_lines(path) as watched:
            self.tiles = watched.head["tiles"]
            for told in watched:
                if told.is_act():
                    self.follow(told, watched.machine)

    def follow(self, told: ToldLine, machine: Machine) -> None:
        """Notes what the frames need of one act, after the machine has followed it."""
        self.views.append(self.view(machine))
        if told.dispatched is not None and told.dispatched.id is not None and self.conflict is None:
            self.dispatches[told.dispatched.id] = machine.acts
        if told.committed is not None:
            self.journal.append(f"{told.line['name'][0]}.{told.line['name'][1]}")
        if told.taken and told.access is not None and self.conflict is None:
            gone = {taken.task: taken.is_gone for taken in told.taken}
            self.conflict = machine.acts, told, {id: gone[it] for id, it in self.tasks.items() if it in gone}
        self.tasks = dict(machine.tasks)

    def view(self, machine: Machine) -> View:
        """The machine after an act, without what frames don't show."""
        return View(machine.acts, {id: self.box(task) for id, task in machine.tasks.items()},
                    dict(machine.memory.words()))

    def box(self, task: Task) -> Box:
        """A task, painted by its state."""
        label = self.listing.address_text(task.entry)
        note = STATES.get(task.state, f"runs on core {task.core}")
        fill = IDLE_COLOUR if task.state is IDLE else RUNNING_COLOUR
        return Box(task.tile, f"{label}, timestamp {task.timestamp}", note, fill, EDGE)

    def words(self, view: View) -> list[str]:
        """The words of memory that this run touches, those that nobody touched so far as 0."""
        every = sorted(self.views[-1].memory)
        return [f"{self.listing.address_text(address)} = {view.memory.get(address, 0)}" for address in every]


def frames_of(story: Story) -> Iterator[Frame]:
    """The four frames."""
    if story.conflict is None:
        raise Refusal("no access of this run aborts a task, so it has no conflict to draw.")
    act, told, aborted = story.conflict
    writer, access = told.task, told.access
    if writer is None or writer.id is None or access is None:
        raise Refusal("the log doesn't say whose access aborts tasks.")
    address, reader = (story.listing.address_text(it) for it in (access.address, told.taken[-1].task.entry))
    name = story.listing.address_text(writer.entry)
    first, before, after = (story.views[place - 1] for place in (story.dispatches[writer.id] - 1, act - 1, act))
    yield Frame("1  Speculate", EDGE, f"The {reader} runs before its turn: it loads {address}, stores, and enqueues a "
                "child.", list(first.tasks.values()), story.words(first))
    meets = {id: dataclasses.replace(box, fill=MEET_COLOUR, edge=RED) if id in aborted else box
             for id, box in before.tasks.items()}
    meets[writer.id] = dataclasses.replace(meets[writer.id], note=f"stores {access.value} to {address}")
    yield Frame("2  Conflict", RED, f"The {name}, first by timestamp, stores to {address}, which the {reader} has "
                "already loaded.", list(meets.values()), story.words(before))
    yield Frame("3  Abort", RED, "Tasks that used the old value are aborted. Their stores are rolled back.",
                aborted_boxes(before, after, aborted), story.words(after))
    yield Frame("4  Commit", GREEN, "Tasks commit in timestamp order, as if they had run one after another.", (),
                story.words(story.views[-1]), story.journal)


def aborted_boxes(before: View, after: View, aborted: dict[int, bool]) -> list[Box]:
    """The tasks after an abort, those that were discarded last."""
    boxes = [dataclasses.replace(box, note="rolled back, waits again") if id in aborted else box
             for id, box in after.tasks.items()]
    return boxes + [dataclasses.replace(before.tasks[id], fill=GONE_COLOUR, edge=GREY, note="discarded")
                    for id, is_gone in aborted.items() if is_gone]


def draw(path: FilePath, listing: Listing) -> str:
    """The strip of an event log, as SVG."""
    story = Story(path, listing)
    frames = list(frames_of(story))
    width = len(frames) * (WIDTH + GAP) + GAP
    total = HEIGHT + 2 * GAP
    parts = [f'<svg xmlns="http://www.w3.org/2000/svg" width="{width}" height="{total}" '
             f'viewBox="0 0 {width} {total}" font-family="sans-serif" font-size="12">',
             f'<rect width="{width}" height="{total}" fill="white"/>']
    for place, frame in enumerate(frames):
        parts += [f'<g transform="translate({GAP + place * (WIDTH + GAP)} {GAP})">', *draw_frame(frame, story.tiles),
                  "</g>"]
    return "\n".join([*parts, "</svg>"]) + "\n"


def draw_frame(frame: Frame, tiles: int) -> Iterator[str]:
    """One frame: its title and sentence, a lane for each tile or the journal, and memory below."""
    yield box(0, 0, WIDTH, HEIGHT, "#fafbfd", "#c9d3de")
    yield text(10, 22, frame.title, frame.colour, 15, True)
    for place, line in enumerate(textwrap.wrap(frame.sentence, COLUMNS)):
        yield text(10, 41 + 14 * place, line, "#333333", 11)
    if frame.journal:
        yield text(10, 98, "journal", GREY)
        for place, name in enumerate(frame.journal):
            yield box(10, 106 + 34 * place, WIDTH - 20, 28, "#eef6ee", GREEN)
            yield text(20, 125 + 34 * place, f"{place + 1}.  task {name}", "#333333")
    else:
        yield from draw_tasks(frame.boxes, tiles)
    yield text(10, HEIGHT - 12, "memory: " + ", ".join(frame.memory), "#333333")


def draw_tasks(boxes: Sequence[Box], tiles: int) -> Iterator[str]:
    """The tasks of each tile, one below the other."""
    below = 86
    for tile in range(tiles):
        for place, task in enumerate(it for it in boxes if it.tile == tile):
            if place == 0:
                yield text(10, below + 14, f"tile {tile}", GREY)
            yield box(52, below, WIDTH - 62, TASK_HEIGHT - 6, task.fill, task.edge)
            yield text(60, below + 16, task.title, "#333333", 12, True)
            yield text(60, below + 32, task.note, task.edge if task.edge != EDGE else "#333333", 11)
            below += TASK_HEIGHT
        below += 6


def box(x: float, y: float, width: float, height: float, fill: str, edge: str) -> str:
    """A rectangle with round corners."""
    return f'<rect x="{x}" y="{y}" width="{width}" height="{height}" rx="5" fill="{fill}" stroke="{edge}"/>'


def text(x: float, y: float, words: str, colour: str, size: int = 12, is_bold: bool = False) -> str:
    """Words at a place."""
    weight = ' font-weight="bold"' if is_bold else ""
    return f'<text x="{x}" y="{y}" fill="{colour}" font-size="{size}"{weight}>{escape(words)}</text>'
