"""Figures of a run from its counts, as far as counts go: those that the columns of `COUNTED` are made of."""
from __future__ import annotations

from collections.abc import Callable
from typing import Any, Optional

from yotarimu.figures.run import Figures, need_possible
from yotarimu.lines.counts_text import CountsText, number_of

# The columns of a study for which counts are enough.
COUNTED = ("commits", "rounds", "fewer", "speedup", "advances", "work", "acts", "round", "thousand", "useful",
           "dispatches", "taken", "wasted", "spilled", "opening", "steps", "splits", "depth", "domains")
# The events by which figures count tasks that were aborted, by their causes in counts.
EVENTS = {"load": "load", "store": "store", "commit_queue": "commit queue", "task_queue": "task queue", "core": "core",
          "asked": "abort"}
# Why something stalls, by its name in counts.
STALLS = {"task_queue": "step, for a task queue", "commit_queue": "step, for the commit queue", "split": "split"}


def figures_of_counts(watched: CountsText, progress: Optional[Callable[[int], None]] = None) -> Figures:
    """The figures of a text of counts, read to its end. Each line of counts reports how many rounds ended."""
    for line in watched:
        if progress is not None:
            progress(number_of(line, "run", "rounds"))
    assert watched.last is not None and watched.end is not None
    figures = figures_in(watched.head, watched.last, watched.end["end"])
    figures.text_lines = watched.number
    return figures


def figures_in(head: dict[str, Any], line: dict[str, Any], end: str) -> Figures:
    """The figures that a line of counts has, of a run that ended so."""
    it = Figures(head)

    def count(group: str, name: str) -> int:
        return number_of(line, group, name)

    it.end, it.events, it.commits = end, line["counts"], count("made", "commit")
    it.steps = count("made", "step")
    it.executed, it.useful, it.left, it.refused = (
        count("work", name) for name in ("executed", "useful", "left", "refused"))
    it.acts, it.spills, it.begun_rounds = (count("run", name) for name in ("acts", "spilled", "rounds"))
    it.tasks.spilled_at_opening = count("run", "opening")
    it.replies["dispatch", "ok"] = count("made", "dispatch")
    it.replies["step", "stall"] = count("stalls", "task_queue") + count("stalls", "commit_queue")
    it.replies["split", "stall"] = count("stalls", "split")
    it.tasks.stalls = {reason: count("stalls", name) for name, reason in STALLS.items()}
    for cause, event in EVENTS.items():
        it.taken_back.tasks[event] = count("taken", cause)
        it.taken_back.discarded[event] = count("discarded", cause)
    # By the event it isn't counted how much was wasted.
    it.taken_back.wasted[""] = count("work", "wasted")
    for kind in ("ordered", "unordered"):
        for outer, (commits, made) in enumerate(zip(line[f"commits_{kind}"], line[f"made_{kind}"])):
            if commits or made:
                domain = it.tasks.counts_of(outer + 1, kind)
                domain.commits, domain.made = commits, domain.made + made
    if it.is_in_rounds:
        it.advances = count("run", "advances")
    need_possible(it)
    return it
