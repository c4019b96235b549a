"""A script that grows act by act: `fractal_watch` plays it again each time, and its log shows what the new acts did."""
from __future__ import annotations

import io
import pathlib
from collections.abc import Iterator, Sequence
from typing import Optional

from yotarimu.common.files import read_bytes
from yotarimu.common.outcome import Refusal
from yotarimu.common.text import count_text
from yotarimu.courses.scripts import Options
from yotarimu.images.image import read_image
from yotarimu.images.labels import listing_for
from yotarimu.lines.display import Display
from yotarimu.lines.reader import Reader
from yotarimu.lines.replay import Machine, ToldLine
from yotarimu.lines.sentences import end_told, name_told, opening_told, sentence_of
from yotarimu.programs.calls import calls_at
from yotarimu.programs.program import SECOND
from yotarimu.programs.table import Table, option_words, size_of, why_no_answer

# The statuses of a script that was played.
PLAYED = (0, 3, 4)
# Of more acts that were made at once, the sentences of the last are written.
MOST_SENTENCES = 12


class Schedule:
    """An image, the program's options, and the acts so far."""

    def __init__(self, path: pathlib.Path, options: Options, table: Table) -> None:
        self.path, self.options = path, options
        # Whether `fractal_sim` plays it too.
        self.is_of_both = all(name in table.options for name in options)
        self.data, self.calls = read_bytes(path), calls_at(which=SECOND)
        self.image = read_image(self.data, path)
        self.listing, self.remark = listing_for(path, self.image, None)
        self.tiles, self.cores = (size_of(name, options, table) for name in ("tiles", "cores"))

    def lines_of(self, acts: Sequence[str]) -> bytes:
        """The event log of these acts."""
        words = ["steps", *option_words(self.options)]
        script = "".join(f"{act}\n" for act in acts).encode()
        status, written = self.calls.call(words, self.data + script)
        if status not in PLAYED:
            raise Refusal(written.decode("utf-8", "replace").strip() or why_no_answer(status))
        return written

    def play(self, acts: Sequence[str], first: Optional[int] = None) -> Performance:
        """Plays acts; the sentences of those from a place on are kept, or that of the last."""
        return Performance(self, acts, len(acts) - 1 if first is None else first)


class Performance:
    """Acts that were played: the sentences of those from one on, and the machine after the last."""

    def __init__(self, schedule: Schedule, acts: Sequence[str], first: int) -> None:
        self.schedule, self.acts, self.lines = schedule, list(acts), schedule.lines_of(acts)
        self.replies: list[str] = []
        self.sentences: list[str] = []
        self.entries: list[str] = []
        self.output = b""
        self.last: Optional[ToldLine] = None
        watched = Reader(io.BytesIO(self.lines), "fractal_watch")
        for told in watched:
            if told.is_act():
                self.note(told, watched.machine, len(self.replies) >= first)
        self.machine, self.end = watched.machine, watched.end

    def note(self, told: ToldLine, machine: Machine, is_new: bool) -> None:
        """Notes the result of an act; that of a new one is described in a sentence."""
        line, limits = told.line, self.schedule.image.limits
        taken = f", {count_text(len(told.taken), 'task')} aborted" if told.taken else ""
        self.replies.append(line["reply"] + taken)
        self.last = told
        if told.committed:
            self.entries.append(f"{machine.commits} {name_told(line['name'])} {line['depth']} {line['ts']}")
            self.output += bytes.fromhex(line.get("output", ""))
        if is_new:
            act = f"{line['at']}: {self.acts[line['at'] - 1]}"
            self.sentences.append(f"{act}\n{sentence_of(told, machine, self.schedule.listing, limits)}")

    def text_lines(self) -> Iterator[str]:
        """What is written behind acts: their sentences, and the machine."""
        some = self.sentences[-MOST_SENTENCES:]
        if len(some) < len(self.sentences):
            yield f"({count_text(len(self.sentences) - len(some), 'act')} before these)"
        yield from some or [opening_told(self.machine.head)]
        if self.end is not None and self.end["end"] != "open":
            yield end_told(self.end, self.schedule.listing, self.schedule.image.limits)
        yield ""
        yield from self.machine_lines()

    def machine_lines(self) -> Iterator[str]:
        """The machine behind the last act, for people."""
        return Display(self.machine, self.last, self.entries, self.output, self.schedule.listing).lines()
