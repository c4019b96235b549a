"""Runs of an image under a setting: what each leaves, and the order of its tasks."""
from __future__ import annotations

import dataclasses
import json
from collections.abc import Mapping, Sequence
from typing import Any, Optional

from yotarimu.common.outcome import Refusal
from yotarimu.comparing.results import Result
from yotarimu.comparing.serial_orders import result_in_order
from yotarimu.comparing.settings import ORDER, SHARED, WORKERS, Setting
from yotarimu.images.image import WINDOW_WORDS, Image, image_bytes
from yotarimu.images.serial_machine import MOST_BUDGET
from yotarimu.programs.calls import Calls
from yotarimu.programs.program import STATUSES
from yotarimu.programs.table import Value
from yotarimu.reports.report import Entry, Name, Report, read_report

MOST_COMMITS = 1_000_000
WINDOW_BYTES = 4 * WINDOW_WORDS


@dataclasses.dataclass(frozen=True)
class Programs:
    """The built programs."""
    first: Calls
    second: Calls


@dataclasses.dataclass
class Made:
    """A run that was made: what it leaves, and its turns where these are known already."""
    result: Result
    entries: Optional[Sequence[Entry]] = None


class Runner:
    """Runs one image."""

    def __init__(self, image: Image, programs: Programs) -> None:
        self.image, self.programs, self.data = image, programs, image_bytes(image)

    def run(self, setting: Setting) -> Made:
        """Runs the image under a setting."""
        if setting.kind == ORDER:
            return Made(*result_in_order(self.image, setting.number, *bounds_of(setting.options)))
        if setting.kind == WORKERS:
            return self.run_first(setting)
        memory = self.ask(["memory", *setting.mode, *setting.words])
        counts = self.ask(["counts", *setting.mode, *setting.words])
        return Made(result_of_counts(memory, counts))

    def ask(self, words: Sequence[str]) -> bytes:
        """The output of `fractal_watch` for some arguments."""
        status, written = self.programs.second.call(words, self.data)
        if status not in STATUSES.values():
            raise Refusal(f"`watch {' '.join(words)}` ended with status {status}; ./fractal help has its meaning.")
        return written

    def run_first(self, setting: Setting) -> Made:
        """Runs the image by `fractal_sim`, whose report shows a window of the data: another one each time."""
        pieces = max(1, -(-self.image.size // WINDOW_BYTES))
        start = WINDOW_BYTES * (setting.number % pieces)
        words = min(WINDOW_WORDS, (self.image.size - start) // 4)
        image = dataclasses.replace(self.image, window_offset=start, window_words=words)
        status, written = self.programs.first.call(["run", *setting.words], image_bytes(image))
        if status not in STATUSES.values():
            raise Refusal(f"`{setting}` ended with status {status}; ./fractal help has its meaning.")
        report = read_report(written.decode("ascii", "replace"), str(setting))
        memory = b"".join(value.to_bytes(4, "little") for _, value in report.window)
        return Made(Result(memory, report.output, end_of_report(report), start), report.entries)

    def entries_of(self, setting: Setting, made: Made) -> Sequence[Entry]:
        """The turns of a run in their order."""
        if made.entries is None:
            made.entries = entries_in(self.ask([*setting.mode, *setting.words]))
        return made.entries


def bounds_of(options: Mapping[str, Value]) -> tuple[int, int]:
    """The instructions that a task may execute, and the tasks that may commit."""
    most = {"budget": MOST_BUDGET, "commits": MOST_COMMITS}
    budget, commits = (int(options.get(name, most[name])) for name in SHARED)
    return budget, commits


def end_of_report(report: Report) -> str:
    """How the run of a report ended."""
    return report.end if report.trap is None else f"trap {report.trap.cause} {report.trap.pc:08x}"


def result_of_counts(memory: bytes, counts: bytes) -> Result:
    """What a mode leaves, by its memory and the last line of its counts."""
    end = line_of(counts.rstrip(b"\n").rpartition(b"\n")[2])
    if "end" not in end:
        raise Refusal("fractal_watch wrote no end of a run.")
    told = f"trap {end['cause']} {int(end['pc']):08x}" if end["end"] == "trap" else str(end["end"])
    return Result(memory, bytes.fromhex(end["output"]), told)


def line_of(text: bytes) -> Mapping[str, Any]:
    """A line of `fractal_watch`."""
    try:
        found = json.loads(text)
    except ValueError:
        found = None
    return found if isinstance(found, dict) else {}


def entries_in(lines: bytes) -> list[Entry]:
    """The turns in the log of a mode: its commits."""
    commits = (line_of(line) for line in lines.splitlines() if b'"do":"commit"' in line and b'"name":' in line)
    return [Entry(turn, Name(*line["name"]), line["depth"], line["ts"]) for turn, line in enumerate(commits, 1)]
