"""All tasks that a run aborted, each with its cause: as text for people, and as rows for other programs."""
from __future__ import annotations

import collections
import csv
import dataclasses
from typing import Any, Dict, Iterator, List, TextIO

from yotarimu.images.image import Image
from yotarimu.images.listing import Listing
from yotarimu.lines.causes import Cause, Kind, CauseSentences, causes_of
from yotarimu.lines.filters import rule_of
from yotarimu.lines.reader import open_lines
from yotarimu.lines.replay import unconfirmed_sentence
from yotarimu.lines.sentences import label_of

# So many are told as text; of more than that it says how many more they are.
MOST_TOLD = 1_000
SHARED = {"true": "a byte", "line": "the line alone", "alias": "a bit of the filter alone"}
KINDS = {Kind.ACCESS: "met by the access itself", Kind.CHILD: "child of one of them",
         Kind.TOUCHED: "touched what one of them wrote", Kind.ROOM: "stood where room was needed",
         Kind.ABORT: "asked for by the script"}


@dataclasses.dataclass(frozen=True)
class TakenRow:
    """A task that an event aborted, and why. `shares` is what it shares with its direct cause, `root` the term for the
    root cause, and `root_shares` the most that a link of the chain to the root shares."""
    event: int
    task: str
    label: str
    timestamp: int
    work: int
    is_discarded: bool
    kind: str
    shares: str
    by: str
    root: str
    root_task: str
    root_shares: str
    why: str


class Run:
    """The tasks that a run aborted, from its event log."""

    def __init__(self, path: str, image: Image, listing: Listing) -> None:
        # The rows come first, as the end is noted once all of them were read.
        self.path, self.found = path, list(taken_rows(path, image, listing, self))

    # The log's last line, and which settings no line confirms.
    end: Dict[str, Any]
    unconfirmed: str


def taken_rows(path: str, image: Image, listing: Listing, run: Run) -> Iterator[TakenRow]:
    """The rows of all tasks that are aborted in an event log, in its order; sets the end of the run."""
    with open_lines(path, image=image) as watched:
        rule = rule_of(watched.head)
        sentences = CauseSentences(label_of, rule, listing)
        for told in watched:
            if told.taken:
                for cause in causes_of(told, rule):
                    yield row_of(cause, told.line["n"], sentences)
        run.end, run.unconfirmed = watched.end or {}, unconfirmed_sentence(watched.machine.unconfirmed())


def row_of(cause: Cause, event: int, sentences: CauseSentences) -> TakenRow:
    """The row of a task that was aborted, from its cause."""
    task, root = cause.task, cause.root
    return TakenRow(
        event=event, task=label_of(task), label=sentences.listing.address_text(task.entry), timestamp=task.timestamp,
        work=cause.taken.work, is_discarded=cause.taken.is_gone, kind=cause.kind.value,
        shares=cause.meeting.sharing.word if cause.meeting else "", by=label_of(cause.by) if cause.by else "",
        root=root.event, root_task=label_of(root.task), root_shares=cause.sharing.word, why=sentences.sentence(cause))


# ---- as text


def text_of(run: Run) -> List[str]:
    """The text for people."""
    count = len(run.found)
    if not count:
        return [f"{run.path}: no task was aborted, and {run.end['journal']:,} committed.", "", run.unconfirmed]
    was = "task was" if count == 1 else "tasks were"
    lines = [f"{run.path}: {count:,} {was} aborted, and {run.end['journal']:,} committed.", "",
             f"{'event':>7}  {'task':<12} {'work':>6}  why"]
    for it in run.found[:MOST_TOLD]:
        gone = " (discarded)" if it.is_discarded else ""
        lines.append(f"{it.event:>7}  {it.task:<12} {it.work:>6}  {it.label}{gone}: {it.why}")
    if count > MOST_TOLD:
        lines.append(f"{'':>7}  and {count - MOST_TOLD:,} more; --csv has them all")
    return [*lines, "", *counts_told(run), "", run.unconfirmed]


def counts_told(run: Run) -> List[str]:
    """Lines that count the tasks which were aborted, by what took each and by what is at the root of it."""
    own = collections.Counter((it.kind, it.shares) for it in run.found)
    lines = ["By what took each:", ""]
    for kind, told in KINDS.items():
        for shares in (*SHARED, ""):
            if count := own[kind.value, shares]:
                lines.append(f"{count:>9,}  {told}{f', sharing {SHARED[shares]}' if shares else ''}")
    roots = collections.Counter((it.root, it.root_shares) for it in run.found)
    lines += ["", "By the root, and what the way there shares at its widest:", ""]
    for (root, shares), count in sorted(roots.items()):
        lines.append(f"{count:>9,}  {root}: {SHARED[shares]}" if root in ("load", "store") or shares != "true"
                     else f"{count:>9,}  {root}")
    return lines


# ---- for other programs


def plain_rows(run: Run) -> List[Dict[str, Any]]:
    """The rows as dictionaries."""
    return [dataclasses.asdict(it) for it in run.found]


def write_rows(run: Run, file: TextIO) -> None:
    """Each task that was aborted as a row of CSV."""
    names = [field.name for field in dataclasses.fields(TakenRow)]
    sink = csv.writer(file, lineterminator="\n")
    sink.writerow(names)
    for it in run.found:
        sink.writerow([int(value) if isinstance(value, bool) else value for value in dataclasses.astuple(it)])
