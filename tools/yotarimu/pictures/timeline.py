"""A run as a picture: a row for each core, a bar for each attempt at a task, arrows to what an access aborts, and the
commits along the bottom. The page draws the same from the same description, with the measures of `timeline.json`."""
from __future__ import annotations

import dataclasses
import json
import pathlib
import re
from collections.abc import Iterator, Sequence
from typing import Any, Optional

from yotarimu.common.text import count_text, escape
from yotarimu.images.listing import NO_LISTING, Listing
from yotarimu.pictures.history import ABORTED, COMMITTED, Arrow, Attempt, History, Stay
from yotarimu.web.bundle import source

LOOK: dict[str, Any] = json.loads(pathlib.Path(__file__).with_name("timeline.json").read_text(encoding="utf-8"))
GUTTER, AXIS, TRACK, FEW, MOST_ACROSS = (
    int(LOOK[name]) for name in ("gutter", "axis", "track", "few", "most across"))
SIGNS: dict[str, str] = LOOK["signs"]
LEGEND: dict[str, str] = LOOK["legend"]
WIDTH, MARGIN, EDGE, KEY = 1200, 8, 14, 30
# Above so many arrows none has a head and a label; above so many attempts no line to a child is drawn.
MOST_HEADS, MOST_CHILDREN = 260, 1500
ABORTED_FILL = "url(#aborted)"


def inks() -> dict[str, str]:
    """The colours of the page by their names, as its light theme has them."""
    root = source("run.css").partition(":root {")[2].partition("}")[0]
    return {name: colour for name, colour in re.findall(r"--([\w-]+): (#\w+)", root)}


INK = inks()


@dataclasses.dataclass(frozen=True)
class Rows:
    """How high the bar of a row is, the gap around it, and the lanes below it for attempts that wait to commit."""
    run: int
    gap: int
    lane: int
    lanes: int

    @property
    def pitch(self) -> int:
        """From one row to the next."""
        return self.run + self.gap + self.lane * self.lanes

    @property
    def is_tall(self) -> bool:
        """Whether a bar has room for two lines of text."""
        return self.run >= 28


def rows_for(count: int, waiting: int) -> Rows:
    """The measures for so many rows: the fewer, the higher."""
    _, run, gap, lane, most = next(row for row in LOOK["rows"] if count <= row[0])
    return Rows(run, gap, lane, min(most, max(1, waiting)))


def text(x: float, y: float, words: str, colour: str = "quiet", size: float = 10.5, anchor: str = "start",
         is_bold: bool = False) -> str:
    """Words at a place."""
    weight = ' font-weight="bold"' if is_bold else ""
    return (f'<text x="{x:.1f}" y="{y:.1f}" fill="{INK[colour]}" font-size="{size}" text-anchor="{anchor}"{weight}>'
            f"{escape(words)}</text>")


def line(x1: float, y1: float, x2: float, y2: float, colour: str, more: str = "") -> str:
    """A line from one place to another."""
    return f'<path d="M{x1:.1f} {y1:.1f}L{x2:.1f} {y2:.1f}" stroke="{INK[colour]}" fill="none" {more}/>'


def box(x: float, y: float, width: float, height: float, more: str) -> str:
    """A rectangle."""
    return f'<rect x="{x:.1f}" y="{y:.1f}" width="{width:.1f}" height="{height:.1f}" {more}/>'


class Picture:
    """The picture of a history."""

    def __init__(self, history: History, listing: Listing = NO_LISTING, by_rounds: bool = False,
                 width: int = WIDTH) -> None:
        self.history, self.listing, self.by_rounds = history, listing, by_rounds
        self.tiles, self.cores = history.head["tiles"], history.head["cores"]
        self.count = self.tiles * self.cores
        self.rows = rows_for(self.count, history.waiting)
        self.xs = history.rounds if by_rounds else [float(place) for place in range(history.acts + 1)]
        last = max(1.0, self.xs[-1])
        self.across = min(MOST_ACROSS * (4 if by_rounds else 1), (width - GUTTER - EDGE) / last)
        self.width = GUTTER + last * self.across + EDGE
        self.track = AXIS + self.rows.gap / 2 + self.count * self.rows.pitch
        self.height = self.track + TRACK

    # ---- places

    def x(self, place: int) -> float:
        """Where an act ends."""
        return GUTTER + self.xs[place] * self.across

    def begin(self, place: int) -> float:
        """Where an act begins."""
        return self.x(max(0, place - 1))

    def middle(self, place: int) -> float:
        """The middle of an act."""
        return (self.begin(place) + self.x(place)) / 2

    def y(self, row: int) -> float:
        """The top of a row's bars."""
        return AXIS + self.rows.gap / 2 + row * self.rows.pitch

    def lane_y(self, attempt: Attempt) -> float:
        """The top of the lane in which an attempt waits to commit."""
        return self.y(attempt.row) + self.rows.run + 1 + self.rows.lane * min(attempt.lane, self.rows.lanes - 1)

    @property
    def step(self) -> float:
        """How wide an act is on average."""
        return max(1.0, self.xs[-1]) * self.across / max(1, self.history.acts)

    # ---- the whole

    def draw(self) -> str:
        """The picture as SVG."""
        width, height = max(self.width, 640) + MARGIN, self.height + KEY
        parts = [f'<svg xmlns="http://www.w3.org/2000/svg" width="{width:.0f}" height="{height:.0f}" '
                 f'viewBox="{-MARGIN} 0 {width:.0f} {height:.0f}" font-family="sans-serif">',
                 f"<title>{self.told()}</title>",
                 '<defs><pattern id="aborted" width="6" height="6" patternUnits="userSpaceOnUse">'
                 f'{box(0, 0, 6, 6, self.paint("back-tint"))}'
                 f'<path d="M-1 7L7 -1M-1 1L1 -1M5 7L7 5" stroke="{INK["back"]}" stroke-opacity="0.5"/>'
                 "</pattern></defs>",
                 box(-MARGIN, 0, width, height, self.paint("paper")), *self.ground(), *self.axis(), *self.children(),
                 *self.bars(), *map(self.stay, self.history.stays), *self.commits(), *self.arrows(), *self.names(),
                 f'<g transform="translate(0 {self.height:.0f})">', *self.legend(), "</g>", "</svg>"]
        return "\n".join(parts) + "\n"

    def told(self) -> str:
        """The picture in a sentence."""
        history = self.history
        aborted = sum(attempt.fate == ABORTED for attempt in history.attempts)
        return (f"{count_text(history.acts, 'act')} on {count_text(self.count, 'core')}: "
                f"{count_text(len(history.attempts), 'attempt')}, {len(history.commits):,} committed, {aborted:,} "
                f"aborted by {count_text(len(history.arrows), 'act')}.")

    @staticmethod
    def paint(colour: str) -> str:
        """The attribute of a filled shape."""
        return f'fill="{INK[colour]}"'

    def ground(self) -> Iterator[str]:
        """A stripe in the background of each second tile."""
        for tile in range(0, self.tiles, 2):
            yield box(0, self.y(tile * self.cores) - self.rows.gap / 2, self.width, self.rows.pitch * self.cores,
                      self.paint("band"))
        for y in (AXIS, self.track):
            yield line(0, y, self.width, y, "rule")

    def axis(self) -> Iterator[str]:
        """Numbers of acts or of rounds along the top."""
        wanted, step = 56 / self.across, 1
        while step < wanted:
            step = next((step * by for by in (2, 5, 10) if step * by >= wanted), step * 10)
        for number in range(0, int(max(1.0, self.xs[-1])) + 1, step):
            x = GUTTER + number * self.across
            yield line(x, AXIS, x, self.height, "rule", 'stroke-opacity="0.55"')
            if number:
                yield text(x, 14, f"{number if self.by_rounds else self.history.numbers[number]:,}", anchor="middle")

    def names(self) -> Iterator[str]:
        """The tiles and their cores."""
        yield text(0, 14, "round" if self.by_rounds else "act")
        yield text(0, self.track + TRACK / 2 + 4, "commits")
        for tile in range(self.tiles):
            y = self.y(tile * self.cores) + self.rows.run / 2 + 4
            if self.rows.pitch * self.cores >= 12:
                yield text(0, y, f"tile {tile}", "ink", 11, is_bold=True)
            for core in range(self.cores if self.cores > 1 and self.rows.pitch >= 12 else 0):
                yield text(38, y + core * self.rows.pitch, f"c{core}")

    # ---- attempts

    def children(self) -> Iterator[str]:
        """A thin line from the act that creates a child to the child's first dispatch."""
        if self.step < FEW or len(self.history.attempts) > MOST_CHILDREN:
            return
        for attempt in self.history.attempts:
            parent = attempt.arrival.parent
            if parent is None or attempt.tried > 1:
                continue
            x1, x2, y2 = self.middle(attempt.arrival.start), self.begin(attempt.start), self.y(attempt.row)
            y1 = self.y(parent.row) + (0 if parent.row > attempt.row else self.rows.run)
            y2 += self.rows.run / 2
            bend = max(6.0, min(40.0, (x2 - x1) / 2))
            yield (f'<path d="M{x1:.1f} {y1:.1f}C{x1:.1f} {(y1 + y2) / 2:.1f} {x2 - bend:.1f} {y2:.1f} {x2:.1f} '
                   f'{y2:.1f}" stroke="{INK["quiet"]}" stroke-opacity="0.55" fill="none"/>')

    def bars(self) -> Iterator[str]:
        """The bar of each attempt. Of those narrower than two pixels one stands for all that share its pixel."""
        painted: dict[tuple[int, bool], int] = {}
        for attempt in self.history.attempts:
            x1 = self.begin(attempt.start)
            x2 = max(x1 + 1, self.x(attempt.finish or attempt.end or self.history.acts))
            if x2 - x1 < 2:
                key = attempt.row, attempt.fate == ABORTED
                if painted.get(key) == int(x1):
                    continue
                painted[key] = int(x1)
            yield f"<g><title>{escape(self.attempt_told(attempt))}</title>"
            yield from self.bar(attempt, x1, x2)
            if attempt.finish is not None:
                yield from self.wait(attempt, attempt.finish)
            yield "</g>"

    def attempt_told(self, attempt: Attempt) -> str:
        """An attempt in words, for whoever points at it."""
        words = self.listing.task_words(attempt.entry, attempt.arguments)
        end = {ABORTED: f"aborted at act {attempt.end}", COMMITTED: f"committed at act {attempt.end}"}
        return (f"{attempt.name or attempt.label} {words}, timestamp {attempt.timestamp}: dispatched at act "
                f"{attempt.start}, {end.get(attempt.fate or '', 'runs on')}")

    def bar(self, attempt: Attempt, x1: float, x2: float) -> Iterator[str]:
        """A bar: green where it commits, with slanted lines and a dashed frame where it is aborted."""
        is_aborted, wide = attempt.fate == ABORTED, x2 - x1
        fill, edge = {ABORTED: (ABORTED_FILL, "back"), COMMITTED: (INK["done"], "done-line")}.get(
            attempt.fate or "", (INK["trapped"] if attempt.trap else INK["running"], "run-line"))
        gap = 1 if wide > 8 else 0.5 if wide > 3 else 0
        high = self.rows.run * 0.5 if is_aborted and wide < 6 else self.rows.run
        left, top, across = x1 + gap, self.y(attempt.row) + self.rows.run - high, wide - 2 * gap
        if wide < 4:
            yield box(left, top, across, high, self.paint(edge))
            return
        dashes = ' stroke-dasharray="4 2.5"' if is_aborted else ""
        yield box(left, top, across, high, f'rx="{min(4.0, across / 3):.1f}" fill="{fill}" stroke="{INK[edge]}" '
                  f'stroke-width="1.2"{dashes}')
        if wide > 14 and self.rows.run >= 9:
            yield from self.within(attempt, left, top, across)

    def within(self, attempt: Attempt, left: float, top: float, across: float) -> Iterator[str]:
        """The text in a bar: the task, where it begins, how it ended, and what its legs asked for."""
        label, tall = attempt.name or attempt.label, self.rows.is_tall
        state = "trapped" if attempt.trap else "runs" if attempt.finish is None else "waits"
        sign = SIGNS[attempt.fate or state]
        size, y = 11 if self.rows.run >= 13 else 9, top + (15 if tall else self.rows.run / 2 + 4)
        room = 13 if sign and across > (20 if attempt.fate == ABORTED else 34) else 0
        if room:
            colour = {ABORTED: "back", COMMITTED: "done-line"}.get(attempt.fate or "", "run-line")
            yield text(left + across - 4, y, sign, colour, 11, "end", True)
        own, words = len(label) * size * 0.58, self.listing.address_text(attempt.entry).partition("+")[0]
        if across - 5 - room >= own:
            yield text(left + 5, y, label, "ink", size, is_bold=True)
            if across - 5 - room >= own + len(words) * 5.6 + (5 if tall else 35):
                yield text(left + own + 10, y, words, "quiet", size)
        if tall:
            yield from self.marks(attempt, top)

    def marks(self, attempt: Attempt, top: float) -> Iterator[str]:
        """What legs asked for, as words or as dots."""
        for place, sign in attempt.marks:
            x, wide = self.middle(place), self.x(place) - self.begin(place)
            if wide >= 30:
                yield text(x, top + self.rows.run - 5.5, sign, "ink", 10, "middle")
            elif wide >= FEW:
                yield (f'<circle cx="{x:.1f}" cy="{top + self.rows.run - 6:.1f}" r="2" stroke="{INK["quiet"]}" '
                       f'fill="{"none" if sign == "load" else INK["quiet"]}"/>')

    def wait(self, attempt: Attempt, finish: int) -> Iterator[str]:
        """The thin bar of an attempt that is finished and waits to commit."""
        x1, y = self.x(finish), self.lane_y(attempt)
        x2 = max(x1 + 1, self.x(attempt.end or self.history.acts))
        high = max(2, self.rows.lane - 2)
        if attempt.fate != ABORTED:
            yield box(x1, y, x2 - x1, high, self.paint("waits"))
            return
        yield line(x1, y + high / 2, x2, y + high / 2, "back", f'stroke-width="{high}" stroke-dasharray="4 2"')
        if self.across >= 4:
            yield text(x2 - 2, y + high / 2 + 3, SIGNS["aborted"], "back", 10, "middle", True)

    def stay(self, stay: Stay) -> str:
        """A dotted line for a task that is discarded before it was dispatched."""
        if self.step < FEW:
            return ""
        y = self.y(stay.tile * self.cores) + self.rows.run + self.rows.lane / 2 + 1
        x1, x2 = self.middle(stay.start), self.middle(stay.end)
        label = text(x1 + 4, y + 9, stay.label, "back", 10) if self.rows.lane >= 6 and x2 - x1 > 60 else ""
        return (line(x1, y, x2 - 4, y, "back", 'stroke-dasharray="1.5 2.5"')
                + text(x2, y + 3.5, SIGNS["aborted"], "back", 10, "middle", True) + label)

    # ---- commits and aborts

    def commits(self) -> Iterator[str]:
        """A mark for each commit, in their order along the bottom, with its number where there is room."""
        free, commits = 0.0, self.history.commits
        for attempt in commits:
            x = self.middle(attempt.end or 0)
            if len(commits) < 200:
                top = self.y(attempt.row) + self.rows.run if attempt.finish is None else self.lane_y(attempt)
                yield line(x, top, x, self.track, "done-line", 'stroke-opacity="0.45" stroke-dasharray="1 3"')
            yield box(x - 0.5, self.track, 1.5, 6, self.paint("done-line"))
            long, short = f"{SIGNS['committed']} {attempt.turn}: {attempt.name}", f"{attempt.turn}"
            words = long if x - len(long) * 2.8 - 4 > free and self.step * 2 > len(long) * 5.6 else short
            wide = len(words) * 5.6 + 8
            if x - wide / 2 > free:
                left = min(x - wide / 2, self.width - wide)
                yield text(left + wide / 2, self.track + TRACK / 2 + 7, words, "done-line", anchor="middle")
                free = left + wide

    def arrows(self) -> Iterator[str]:
        """From each access to what it aborts."""
        arrows = [arrow for arrow in self.history.arrows if arrow.source is not None]
        is_far, free = len(arrows) > MOST_HEADS, 0.0
        for arrow in arrows:
            x = self.middle(arrow.place)
            rows = [it.attempt.row if it.attempt else it.tile * self.cores for it in arrow.victims]
            yield from self.shafts(arrow, x, rows, is_far)
            words = self.arrow_told(arrow)
            if words and not is_far and x - 8 >= free:
                yield from self.label(arrow, words, x, rows)
                free = x + len(words) * 5.5 + 18

    def shafts(self, arrow: Arrow, x: float, rows: Sequence[int], is_far: bool) -> Iterator[str]:
        """The lines of an arrow: solid to what conflicts with the access, dashed to what is aborted along."""
        assert arrow.source is not None
        own, start = arrow.source.row, self.y(arrow.source.row) + self.rows.run / 2
        attempted = {victim.attempt.row for victim in arrow.victims if victim.attempt}
        for victim, row in zip(arrow.victims, rows):
            is_stay, is_down = victim.attempt is None, row >= own
            # A task that was never dispatched needs a line only where none goes to an attempt in its row.
            if row in attempted if is_stay else row == own:
                continue
            end = self.y(row) + (0 if is_down else self.rows.run)
            if is_stay:
                end = self.y(row) + self.rows.run + (self.rows.lane / 2 - 3 if is_down else self.rows.lane + 1)
            dashes = "" if victim.is_direct or is_far else ' stroke-dasharray="3 3"'
            yield line(x, start, x, end, "back", f'stroke-width="{0.7 if is_far else 1.6}"{dashes}')
            if not is_far:
                way = -6.4 if is_down else 6.4
                yield (f'<path d="M{x:.1f} {end:.1f}L{x - 4:.1f} {end + way:.1f}L{x + 4:.1f} {end + way:.1f}Z" '
                       f'{self.paint("back")}/>')
        if not is_far:
            yield f'<circle cx="{x:.1f}" cy="{start:.1f}" r="3.5" {self.paint("back")}/>'

    def label(self, arrow: Arrow, words: str, x: float, rows: Sequence[int]) -> Iterator[str]:
        """The label of an arrow, between the rows that it joins."""
        assert arrow.source is not None
        own = arrow.source.row
        next_row = min((row for row in rows if row != own), key=lambda row: abs(row - own), default=own)
        y = self.y(own) - 2 if next_row == own else max(self.y(next_row), self.y(own)) - self.rows.gap / 2
        y -= 3 if self.rows.is_tall and next_row != own else 0
        wide = len(words) * 6 + 12
        left = x - 6 - wide if x + 6 + wide > self.width else x + 6
        yield box(left, y - 8, wide, 15, f'rx="7.5" {self.paint("back")}')
        yield text(left + wide / 2, y + 3.5, words, "paper", 11, "middle", True)

    def arrow_told(self, arrow: Arrow) -> Optional[str]:
        """The label of the address that an act accesses."""
        if arrow.address is None:
            return "no room" if arrow.asks in ("end", "enqueue") else None
        return self.listing.address_text(arrow.address)

    def legend(self) -> Iterator[str]:
        """What the shapes mean."""
        x = 4.0
        for name, paint in (("runs", f'fill="{INK["running"]}" stroke="{INK["run-line"]}"'),
                            ("committed", f'fill="{INK["done"]}" stroke="{INK["done-line"]}"'),
                            ("aborted", f'fill="{ABORTED_FILL}" stroke="{INK["back"]}" stroke-dasharray="4 2.5"'),
                            ("waits", self.paint("waits")), ("arrow", self.paint("back")),
                            ("child", self.paint("quiet"))):
            high = {"waits": 4, "arrow": 2, "child": 1}.get(name, 12)
            yield box(x, 14 - high / 2, 22, high, f'rx="2" {paint}')
            if name == "arrow":
                yield f'<path d="M{x + 26:.1f} 14L{x + 18:.1f} 10L{x + 18:.1f} 18Z" {paint}/>'
            if high == 12:
                colour = {"runs": "run-line", "committed": "done-line", "aborted": "back"}[name]
                yield text(x + 19, 18, SIGNS[name], colour, 10, "end", True)
            yield text(x + 28, 18, LEGEND[name], size=12)
            x += 44 + len(LEGEND[name]) * 6.5


def draw(history: History, listing: Listing = NO_LISTING, by_rounds: bool = False) -> str:
    """The picture of a run as SVG."""
    return Picture(history, listing, by_rounds).draw()
