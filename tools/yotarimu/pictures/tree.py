"""The tree of a report's tasks as a picture: one column a turn, one row a depth."""
from __future__ import annotations

import dataclasses
import math
from collections.abc import Iterator, Sequence

from yotarimu.common.text import escape
from yotarimu.images.listing import Listing
from yotarimu.images.serial_machine import Domain, Machine, Task
from yotarimu.reports.report import Report

# Up to so many tasks are boxes with their labels, the others of a larger run are dots that tell them when pointed at.
MOST_BOXES, MOST_DOTS = 40, 500
DOTS_WIDTH = 1_800
MARGIN, TOP, ROW = 90, 20, 110
FRAME = 47
COLOURS = ("#4e79a7", "#f28e2b", "#59a14f", "#b07aa1", "#76b7b2", "#9c755f", "#edc948", "#ff9da7")
TRAP_COLOUR, FRAME_COLOUR = "#c62828", "#f3f6fa"


@dataclasses.dataclass
class Node:
    """A task as it is drawn."""
    title: str
    label: str
    depth: int
    colour: str
    creator: int
    domain: Domain


@dataclasses.dataclass
class Style:
    """How wide the columns and the tasks in them are, and how high the tasks."""
    step: float
    width: float
    height: float
    has_labels: bool


def draw(nodes: Sequence[Node], total: int) -> str:
    """The picture of the first tasks of a run that has `total`; `creator` is a place in the list, or -1."""
    style = style_of(nodes)
    depths = max((node.depth for node in nodes), default=1)
    width = max(MARGIN + style.step * len(nodes) + 20, 640)
    height = TOP + ROW * depths + 40
    parts = [f'<svg xmlns="http://www.w3.org/2000/svg" width="{width:.0f}" height="{height}" '
             f'viewBox="0 0 {width:.0f} {height}" font-family="sans-serif" font-size="12">',
             f'<rect width="{width:.0f}" height="{height}" fill="white"/>']
    frames = list(domains(nodes, style))
    parts += [*rows(depths, width), *(frame for frame, _ in frames)]
    parts += [edge(nodes, place, style) for place, node in enumerate(nodes) if node.creator >= 0]
    parts += [kind for _, kind in frames]
    parts += [task(node, place, style) for place, node in enumerate(nodes)]
    rest = f", and {total - len(nodes)} more" if total > len(nodes) else ""
    parts += [text(MARGIN, height - 14, f"{len(nodes)} tasks in the order of their turns{rest}; "
                                        "a line leads from a task to each that it made"), "</svg>"]
    return "\n".join(parts) + "\n"


def style_of(nodes: Sequence[Node]) -> Style:
    """The sizes of a picture: boxes with words, or dots where there are many tasks."""
    if len(nodes) > MOST_BOXES:
        step = min(18, DOTS_WIDTH / len(nodes))
        return Style(step, step * 0.8, step * 0.8, False)
    longest = max((len(line) for node in nodes for line in (node.title, node.label)), default=0)
    return Style(7.2 * longest + 44, 7.2 * longest + 16, 44, True)


def text(x: float, y: float, words: str, more: str = "") -> str:
    """Words at a place."""
    return f'<text x="{x:.1f}" y="{y:.1f}"{more}>{escape(words)}</text>'


def middle(place: int, style: Style) -> float:
    """Where the middle of a turn's column is."""
    return MARGIN + style.step * (place + 0.5)


def level(depth: int) -> float:
    """The middle of a depth's row."""
    return TOP + ROW * (depth - 0.5)


def rows(depths: int, width: float) -> Iterator[str]:
    """The rows of depths, with lines between them."""
    for depth in range(1, depths + 1):
        if depth > 1:
            y = level(depth) - ROW / 2
            yield f'<line x1="10" y1="{y}" x2="{width - 10:.0f}" y2="{y}" stroke="#dddddd"/>'
        yield text(12, level(depth) + 4, f"depth {depth}", ' fill="#555555"')


def domains(nodes: Sequence[Node], style: Style) -> Iterator[tuple[str, str]]:
    """A frame round the tasks of each domain, and the name of its kind."""
    places: dict[int, tuple[Domain, list[int]]] = {}
    for place, node in enumerate(nodes):
        places.setdefault(id(node.domain), (node.domain, []))[1].append(place)
    # A line may cross the name of a kind, which therefore stands above it, with a rim of the frame's colour.
    rim = f' stroke="{FRAME_COLOUR}" stroke-width="4" paint-order="stroke" fill="#6b7a90" font-size="10"'
    for domain, members in places.values():
        half = style.width / 2 + (8 if style.has_labels else 2)
        x, y = middle(members[0], style) - half, level(domain.depth) - FRAME
        width = middle(members[-1], style) + half - x
        kind = "ordered" if domain.is_ordered else "unordered"
        yield (f'<rect x="{x:.1f}" y="{y}" width="{width:.1f}" height="{2 * FRAME}" rx="8" fill="{FRAME_COLOUR}" '
               'stroke="#b8c4d6"/>', text(x + 8, y + 2 * FRAME - 8, kind, rim) if style.has_labels else "")


def edge(nodes: Sequence[Node], place: int, style: Style) -> str:
    """A line from a task's creator to it."""
    creator = nodes[place].creator
    start, end = middle(creator, style), middle(place, style)
    top, bottom = level(nodes[creator].depth), level(nodes[place].depth)
    half = style.height / 2
    if top == bottom:
        up = top - half - 6 - 18 * math.sqrt((place - creator) / len(nodes))
        path = f"M{start:.1f} {top - half:.1f} C{start:.1f} {up:.1f} {end:.1f} {up:.1f} {end:.1f} {bottom - half:.1f}"
    else:
        side = 1 if bottom > top else -1
        top, bottom = top + side * half, bottom - side * half
        between = (top + bottom) / 2
        path = f"M{start:.1f} {top:.1f} C{start:.1f} {between:.1f} {end:.1f} {between:.1f} {end:.1f} {bottom:.1f}"
    return f'<path d="{path}" fill="none" stroke="#8899aa" stroke-opacity="0.7"/>'


def task(node: Node, place: int, style: Style) -> str:
    """The box or the dot of a task."""
    x, y = middle(place, style), level(node.depth)
    if not style.has_labels:
        return (f'<circle cx="{x:.1f}" cy="{y}" r="{style.width / 2:.1f}" fill="{node.colour}">'
                f"<title>{escape(node.title)} {escape(node.label)}</title></circle>")
    box = (f'<rect x="{x - style.width / 2:.1f}" y="{y - style.height / 2}" width="{style.width:.1f}" '
           f'height="{style.height}" rx="5" fill="white" stroke="{node.colour}" stroke-width="2"/>')
    centred = ' text-anchor="middle"'
    return box + text(x, y - 5, node.title, centred + ' font-weight="bold"') + text(x, y + 13, node.label, centred)


def nodes_of(report: Report, machine: Machine, listing: Listing) -> list[Node]:
    """The tasks as the picture shows them, the one that traps at the end."""
    colours: dict[str, str] = {}
    nodes: list[Node] = []
    found = (machine.tasks.get(entry.name) for entry in report.entries[:MOST_DOTS])
    shown = [task for task in found if task and task.turn]
    for task in shown:
        label = listing.address_text(task.entry)
        colour = colours.setdefault(label, COLOURS[len(colours) % len(COLOURS)])
        nodes.append(node(task, f"{task.turn}: {task.name}", listing, colour, len(nodes)))
    trapped = machine.tasks.get(report.trap.name) if report.trap else None
    if report.trap and trapped and not trapped.turn and len(shown) == len(report.entries):
        title = f"trap {report.trap.cause}: {trapped.name}"
        nodes.append(node(trapped, title, listing, TRAP_COLOUR, len(nodes)))
    return nodes


def node(task: Task, title: str, listing: Listing, colour: str, place: int) -> Node:
    """The node of a task; its creator is -1 where it isn't drawn."""
    creator = task.name.creator - 1
    label = listing.task_words(task.entry, task.arguments)
    return Node(title, label, task.domain.depth, colour, creator if creator < place else -1, task.domain)
