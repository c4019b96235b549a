"""Diagrams of boxes and arrows for docs/: states of a task, rules of room, domains, tools, and what rests on laws."""
from __future__ import annotations

import re
from collections.abc import Iterator, Sequence
from typing import NamedTuple
from xml.sax.saxutils import escape

from yotarimu.common.files import read_text
from yotarimu.common.outcome import Refusal
from yotarimu.common.places import HOME

WHITE, BLUE, GREEN, RED, GREY = "#ffffff", "#dbe8f6", "#e3f2e4", "#fbe3e3", "#f1f1f1"
Point = tuple[float, float]


class Box(NamedTuple):
    """A box with lines of text: its corner at the upper left, its width and height, and its colour."""
    x: float
    y: float
    width: float
    height: float
    lines: Sequence[str]
    fill: str = WHITE

    def side(self, name: str) -> Point:
        """The middle of a side: left, right, top or bottom."""
        across = {"left": 0.0, "right": 1.0}.get(name, 0.5)
        down = {"top": 0.0, "bottom": 1.0}.get(name, 0.5)
        return self.x + across * self.width, self.y + down * self.height


class Arrow(NamedTuple):
    """An arrow from a point to another, with a word beside its middle."""
    start: Point
    end: Point
    label: str = ""
    shift: Point = (0, -6)


def svg(width: int, height: int, boxes: Sequence[Box], arrows: Sequence[Arrow]) -> str:
    """The picture of some boxes and arrows."""
    head = (f'<svg xmlns="http://www.w3.org/2000/svg" width="{width}" height="{height}" '
            f'viewBox="0 0 {width} {height}" font-family="sans-serif" font-size="12">')
    tip = ('<defs><marker id="tip" viewBox="0 0 10 10" refX="9" refY="5" markerWidth="7" markerHeight="7" '
           'orient="auto-start-reverse"><path d="M0 0L10 5L0 10z" fill="#555555"/></marker></defs>')
    parts = [head, tip, f'<rect width="{width}" height="{height}" fill="white"/>']
    # An arrow passes behind a box that isn't one of its ends; boxes without text are frames around others.
    parts += [line for box in boxes if not box.lines for line in drawn_box(box)]
    parts += [line for arrow in arrows for line in drawn_arrow(arrow)]
    parts += [line for box in boxes if box.lines for line in drawn_box(box)]
    return "\n".join([*parts, "</svg>"]) + "\n"


def drawn_box(box: Box) -> Iterator[str]:
    yield (f'<rect x="{box.x:g}" y="{box.y:g}" width="{box.width:g}" height="{box.height:g}" rx="6" '
           f'fill="{box.fill}" stroke="#4e79a7"/>')
    first = box.y + box.height / 2 + 4 - 8 * (len(box.lines) - 1)
    for place, line in enumerate(box.lines):
        yield words(box.x + box.width / 2, first + 16 * place, line, "#222222")


def drawn_arrow(arrow: Arrow) -> Iterator[str]:
    (x, y), (to_x, to_y) = arrow.start, arrow.end
    yield f'<line x1="{x:g}" y1="{y:g}" x2="{to_x:g}" y2="{to_y:g}" stroke="#555555" marker-end="url(#tip)"/>'
    if arrow.label:
        yield words((x + to_x) / 2 + arrow.shift[0], (y + to_y) / 2 + arrow.shift[1], arrow.label, "#555555")


def words(x: float, y: float, text: str, colour: str) -> str:
    return f'<text x="{x:g}" y="{y:g}" fill="{colour}" text-anchor="middle">{escape(text)}</text>'


def tile() -> str:
    """A tile: its task queue, cores, commit queue and block, and the events that move tasks between them."""
    frame = Box(20, 20, 620, 300, ())
    queue = Box(50, 50, 570, 50, ["task queue (4 to 256)", "every task of the tile, except spilled ones"], BLUE)
    cores = Box(170, 150, 190, 50, ["cores (1 to 4)", "running and trapped tasks"], GREEN)
    finished = Box(430, 150, 190, 50, ["commit queue (1 to 64)", "finished tasks"], GREEN)
    block = Box(50, 250, 570, 50, ["block (unbounded)", "spilled tasks, ordered by key"], GREY)
    arrows = [
        Arrow((765, 75), queue.side("right"), "children", (10, -6)),
        Arrow((265, 100), (265, 150), "dispatch", (-30, 4)), Arrow(cores.side("right"), finished.side("left"), "end"),
        Arrow(finished.side("right"), (765, 175), "commit", (10, -6)),
        Arrow((80, 100), (80, 250), "coalesce", (-30, 4)), Arrow((100, 250), (100, 100), "split", (18, 4)),
    ]
    label = words(45, 40, "tile", "#555555")
    picture = svg(780, 340, [frame, queue, cores, finished, block], arrows)
    return picture.replace("</svg>", f"{label}\n</svg>")


def task_states() -> str:
    """The states of a task and the events between them."""
    group = Box(300, 20, 330, 190, ())
    idle = Box(110, 120, 100, 44, ["idle"], BLUE)
    running, trapped = Box(330, 120, 100, 44, ["running"], BLUE), Box(330, 50, 100, 44, ["trapped"], RED)
    finished, committed = Box(500, 120, 100, 44, ["finished"], BLUE), Box(730, 120, 110, 44, ["committed"], GREEN)
    spilled, gone = Box(110, 250, 100, 44, ["spilled"], GREY), Box(415, 250, 100, 44, ["discarded"], GREY)
    arrows = [
        Arrow((10, 142), idle.side("left"), "enqueue"), Arrow(idle.side("right"), running.side("left"), "dispatch"),
        Arrow(running.side("top"), trapped.side("bottom"), "trap", (20, 4)),
        Arrow(running.side("right"), finished.side("left"), "end"),
        Arrow(finished.side("right"), committed.side("left"), "commit", (14, -6)),
        Arrow((300, 185), (205, 158), "abort", (30, 14)),
        Arrow((465, 210), gone.side("top"), "abort with its creator", (70, 4)),
        Arrow((140, 164), (140, 250), "coalesce", (-32, 4)), Arrow((180, 250), (180, 164), "split", (20, 4)),
        Arrow((205, 164), (415, 262), "abort of its creator", (-40, 26)),
    ]
    boxes = [group, idle, running, trapped, finished, committed, spilled, gone]
    label = words(555, 60, "dispatched", "#555555")
    return svg(860, 310, boxes, arrows).replace("</svg>", f"{label}\n</svg>")


def room() -> str:
    """The four rules by which room is found, as a decision tree."""
    questions = ["Is a place of the queue free?", "Does it hold an idle firm task?", "Does the least task ask?",
                 "Is the victim firm?"]
    answers = [("yes", ["1. nothing happens"], GREEN), ("yes", ["2. the tile coalesces"], GREEN),
               ("no", ["3. the event is refused: Stall"], RED),
               ("yes", ["4. the victim is aborted,", "and the tile coalesces"], GREEN)]
    boxes, arrows = list[Box](), list[Arrow]()
    for place, (question, (word, lines, fill)) in enumerate(zip(questions, answers)):
        asked = Box(20, 20 + 80 * place, 220, 44, [question], BLUE)
        done = Box(360, 20 + 80 * place, 230, 44, lines, fill)
        arrows.append(Arrow(asked.side("right"), done.side("left"), word))
        if place:
            arrows.append(Arrow(boxes[-2].side("bottom"), asked.side("top"), "yes" if place == 3 else "no", (14, 4)))
        boxes += [asked, done]
    last = Box(20, 340, 220, 44, ["4. its creator is aborted,", "which discards the victim"], GREEN)
    arrows.append(Arrow(boxes[-2].side("bottom"), last.side("top"), "no", (14, 4)))
    return svg(610, 404, [*boxes, last], arrows)


# By row from below, crates and what each shows, and by crate those that it rests on.
LAYERS = (
    {"order_law": "order", "run_law": "serial runs", "task_law": "tasks and room", "memory_law": "memory"},
    {"spec_law": "changes keep states sound"},
    {"event_law": "every journal is a run", "event_basis": "what code relies on", "pending_law": "what pends"},
    {"outcome_law": "nothing is left free", "event_move": "events that move tasks", "event_step": "the event of a leg"},
    {"conflict_book": "an always sound state"},
    {"machine_run": "whole runs", "tile_worker": "threads", "watch_play": "event logs"},
    {"fractal_sim": "", "fractal_watch": "", "rounds_law": "rounds get on"},
)
RESTS = {
    "task_law": ("run_law", "memory_law"), "spec_law": ("order_law", "memory_law", "task_law"),
    "pending_law": ("spec_law",), "event_law": ("spec_law",), "event_basis": ("event_law",),
    "event_move": ("event_basis",), "event_step": ("event_basis",), "outcome_law": ("event_law",),
    "conflict_book": ("event_move", "event_step", "pending_law"), "tile_worker": ("conflict_book",),
    "machine_run": ("tile_worker", "outcome_law"), "watch_play": ("conflict_book", "outcome_law"),
    "fractal_sim": ("machine_run",), "fractal_watch": ("watch_play",),
    "rounds_law": ("watch_play",),
}


def need_rests() -> None:
    """Refuses an arrow of the laws that crates.txt doesn't have, directly or by way of other crates."""
    lines = re.finditer(r"^(\w+)[^:\n]*:(.*)$", read_text(HOME / "crates.txt"), re.M)
    named = {found[1]: found[2].split() for found in lines}
    for crate, others in RESTS.items():
        reached, ahead = set[str](), [crate]
        while ahead:
            more = [name for name in named.get(ahead.pop(), ()) if name not in reached]
            reached.update(more)
            ahead += more
        for other in set(others) - reached:
            raise Refusal(f"crates.txt: {crate} doesn't depend on {other}, as .ci/diagrams.py draws it.")


def laws() -> str:
    """The laws and the code that rests on them, the lowest below."""
    need_rests()
    boxes: dict[str, Box] = {}
    for row, crates in enumerate(reversed(LAYERS)):
        gap = 800 / len(crates)
        for place, (crate, said) in enumerate(crates.items()):
            fill = BLUE if crate.endswith(("_law", "_basis")) else GREEN
            lines = [crate, said] if said else [crate]
            boxes[crate] = Box(gap * (place + 0.5) - 80, 14 + 82 * row, 180, 46, lines, fill)
    arrows = [Arrow(boxes[other].side("top"), boxes[crate].side("bottom")) if boxes[other].y > boxes[crate].y else
              Arrow(*sideways(boxes[other], boxes[crate])) for crate, others in RESTS.items() for other in others]
    return svg(820, 14 + 82 * len(LAYERS), list(boxes.values()), arrows)


def sideways(lower: Box, upper: Box) -> tuple[Point, Point]:
    """The ends of an arrow between boxes of one row."""
    return (lower.side("right"), upper.side("left")) if lower.x < upper.x else (lower.side("left"), upper.side("right"))


def tools() -> str:
    """From sources to figures: files in white and grey, the commands that read and write them in colour."""
    sources, image = Box(20, 90, 110, 44, ["sources", ".s .c .cpp .ll .o"]), Box(260, 90, 110, 44, ["image, listing"])
    report, log = Box(520, 30, 110, 44, ["report"]), Box(520, 150, 110, 44, ["event log"])
    script = Box(260, 180, 110, 44, ["script"])
    build = Box(160, 97, 70, 30, ["build"], BLUE)
    run, watch = Box(410, 37, 80, 30, ["run, save"], GREEN), Box(410, 157, 80, 30, ["watch"], GREEN)
    judge = Box(670, 20, 170, 30, ["check"], GREEN)
    explain = Box(670, 60, 170, 44, ["explain, debug", "tasks, lines, causes"], BLUE)
    pictures = Box(670, 114, 170, 44, ["draw, show, play, console", "timelines"], BLUE)
    figures = Box(670, 168, 170, 44, ["figures, study, applications", "tables and plots"], BLUE)
    arrows = [
        Arrow(sources.side("right"), build.side("left")), Arrow(build.side("right"), image.side("left")),
        Arrow((370, 104), run.side("left")), Arrow((370, 122), watch.side("left")),
        Arrow(script.side("right"), (410, 180)), Arrow(run.side("right"), report.side("left")),
        Arrow(watch.side("right"), log.side("left")), Arrow(report.side("right"), judge.side("left")),
        Arrow((630, 58), explain.side("left")), Arrow((630, 160), (670, 96)),
        Arrow((630, 168), pictures.side("left")), Arrow((630, 180), figures.side("left")),
    ]
    boxes = [sources, image, report, log, script, build, run, watch, judge, explain, pictures, figures]
    label = words(450, 238, "green: the verified programs; blue: tools; white: files", "#555555")
    return svg(860, 250, boxes, arrows).replace("</svg>", f"{label}\n</svg>")


def domains() -> str:
    """Two tasks of an unordered root domain, each with an ordered subdomain, and the keys that order them all."""
    root = Box(20, 30, 820, 190, ())
    parts, labels = [root], [words(115, 48, "root domain, unordered", "#555555")]
    arrows = list[Arrow]()
    for place, (name, left) in enumerate((("A", 40.0), ("B", 450.0))):
        number = place + 1
        parts.append(Box(left + 120, 60, 240, 145, ()))
        labels.append(words(left + 240, 78, f"subdomain of {name}, ordered", "#555555"))
        creator = Box(left, 100, 90, 58, [f"task {name}", f"key 0:{number}"], BLUE)
        first = Box(left + 135, 90, 210, 44, [f"{name}1, timestamp 0", f"key 0:{number} 0:{2 * number + 1}"], GREEN)
        second = Box(left + 135, 150, 210, 44,
                     [f"{name}2, timestamp 5", f"key 0:{number} 5:{2 * number + 2}"], GREEN)
        parts += [creator, first, second]
        arrows += [Arrow(creator.side("right"), first.side("left")), Arrow(creator.side("right"), second.side("left"))]
    text = "A level is timestamp:dispatch number. In the order of keys: A, A1, A2, B, B1, B2"
    labels.append(words(430, 244, text, "#222222"))
    return svg(860, 256, parts, arrows).replace("</svg>", "\n".join([*labels, "</svg>"]))
