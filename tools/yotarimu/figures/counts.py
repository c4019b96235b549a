"""Counts of a run, made from its event log: `./fractal watch counts` is checked against them.

They have the names that the program gives them; docs/guest/FORMATS.md defines them."""
from __future__ import annotations

import json
from collections.abc import Sequence
from typing import Any, Optional

from yotarimu.courses.schedules import Act
from yotarimu.lines.causes import ROOTS
from yotarimu.lines.rounds import Rounds
from yotarimu.lines.replay import NOT_EXECUTED, Machine, Task, ToldLine
from yotarimu.figures.tasks import KINDS

ACTS = ("dispatch", "step", "take", "give", "abort", "commit", "coalesce", "split", "advance")
# The causes by their roots in figures.
CAUSES = {"load": "load", "store": "store", "commit queue": "commit_queue", "task queue": "task_queue", "core": "core",
          "abort": "asked"}
STALLS = {"enqueue": "task_queue", "end": "commit_queue", "split": "split"}
PLACES = ("queued", "running", "stalled", "trapped", "finished", "spilled")
ACCESSES = ("loads", "stores", "bytes")
DEPTHS, TILES, LENGTHS = 16, 16, 17


def none_of(names: tuple[str, ...]) -> dict[str, int]:
    """No count of any name."""
    return dict.fromkeys(names, 0)


class LineCounts:
    """The counts of a run, by its event log: each line is noted with the machine after it. The attribute for the counts
    has those so far, under the names that the program has for them."""

    def __init__(self, machine: Machine, each: int = 0, script: Sequence[str] = ()) -> None:
        # The words of a script's acts, in their order; without any, each act outside of rounds is an advance.
        self.machine, self.each, self.script = machine, each, script
        # The lines that were due after so many rounds, or acts if there are none.
        self.due: list[str] = []
        self.stalled: set[Task] = set()
        self.trapped: set[Task] = set()
        self.events = 0
        self.work = none_of(("executed", "useful", "wasted", "left", "refused"))
        self.run = none_of(("acts", "rounds", "advances", "opening", "spilled"))
        self.stalls = none_of(("task_queue", "commit_queue", "split"))
        self.made, self.told, self.passed = (none_of(ACTS) for _ in range(3))
        self.committed, self.undone = (none_of(ACCESSES) for _ in range(2))
        self.taken, self.discarded = (none_of(tuple(CAUSES.values())) for _ in range(2))
        self.now, self.over_events, self.over_rounds, self.greatest = (none_of(PLACES) for _ in range(4))
        self.commits = {kind: [0] * DEPTHS for kind in KINDS}
        self.domains = {kind: [0] * DEPTHS for kind in KINDS}
        self.lengths = [0] * LENGTHS
        self.tiles = {name: [0] * TILES for name in ("useful", "wasted", "taken")}
        # A second reading of the rounds, which is asked act by act.
        self.rounds = None if machine.rounds is None else Rounds(
            machine.head, is_least_waiting=lambda: self.rounds_so_far() in self.first_reading().advance_numbers)
        # The number of the last act, and how many tasks had committed after it.
        self.at = self.seen = 0

    def rounds_so_far(self) -> int:
        """How many rounds ended."""
        assert self.rounds is not None
        return self.rounds.number

    def first_reading(self) -> Rounds:
        """The rounds as the machine follows them."""
        assert self.machine.rounds is not None
        return self.machine.rounds

    def is_advance(self, at: int) -> bool:
        """Whether the act of a number advances the least task."""
        if self.rounds is not None:
            return self.rounds.is_advancing
        return not self.script or self.script[at - 1] == "advance"

    def note(self, told: ToldLine) -> None:
        """Takes a line, with the machine after it."""
        line = told.line
        if not told.is_act():
            if line.get("do") == "place":
                self.run["opening"] += "new" not in line
                self.stand()
            return
        self.pass_to(line["at"])
        self.seen = self.machine.commits
        self.run["acts"] = line["at"]
        self.run["advances"] += self.is_advance(line["at"])
        self.told[line["do"]] += 1
        if told.is_made:
            self.note_event(told)
        else:
            self.note_refused(told)
        self.end_act(line["do"])

    def pass_to(self, at: int) -> None:
        """All acts before that of a number weren't asked for."""
        while self.rounds is not None and self.at + 1 < at:
            self.pass_one()

    def pass_one(self) -> None:
        """The next act isn't asked for."""
        rounds = self.rounds
        assert rounds is not None
        act: Act = rounds.acts[self.at + 1 - rounds.first]
        self.passed[act.word] += 1
        self.end_act(act.word)

    def end_act(self, done: str) -> None:
        """Goes on after an act that did this; after the last one of a round that ends."""
        self.at += 1
        rounds = self.rounds
        if rounds is None:
            self.tell_where_due(self.at)
            return
        rounds.note_commits(self.seen)
        if rounds.is_advancing:
            rounds.first += 1
            if done == "dispatch":
                rounds.end_advance()
                self.count_round()
        elif self.at + 1 == rounds.first + len(rounds.acts):
            rounds.end_round()
            self.count_round()

    def count_round(self) -> None:
        """Counts a round that ended."""
        self.run["rounds"] += 1
        self.add(self.over_rounds)
        self.tell_where_due(self.run["rounds"])

    def tell_where_due(self, number: int) -> None:
        """Keeps the line that is due behind so many rounds or acts."""
        if self.each and number % self.each == 0:
            self.due.append(self.text())

    def note_refused(self, told: ToldLine) -> None:
        """Takes an act that was refused."""
        line = told.line
        self.work["refused"] += line.get("leg", 0)
        if line["reply"] == "stall":
            self.stalls[STALLS[line.get("asks", line["do"])]] += 1
            if told.task is not None:
                self.stalled.add(told.task)

    def note_event(self, told: ToldLine) -> None:
        """Takes an event that was made."""
        line = told.line
        self.events += 1
        self.made[line["do"]] += 1
        self.run["spilled"] += len(told.spilled)
        if "leg" in line:
            assert told.task is not None
            self.work["executed"] += line["leg"] + (line["asks"] not in NOT_EXECUTED)
            self.stalled.discard(told.task)
            if line["asks"] == "trap":
                self.trapped.add(told.task)
        if told.committed is not None:
            self.note_commit(told.committed)
        if told.taken:
            self.note_taken(told)
        self.stand()
        self.add(self.over_events)
        self.greatest = {place: max(count, self.now[place]) for place, count in self.greatest.items()}

    def note_commit(self, task: Task) -> None:
        """Takes a task that committed."""
        kind, outer = KINDS[task.domain.kinds[-1]], task.depth - 1
        self.work["useful"] += task.work
        self.tiles["useful"][task.tile] += task.work
        self.count_accesses(self.committed, task.accesses, task.emitted)
        self.commits[kind][outer] += 1
        if task.subdomain is not None:
            self.domains[task.subdomain][outer + 1] += 1
        self.lengths[min(task.work.bit_length() - 1, LENGTHS - 1)] += 1

    def note_taken(self, told: ToldLine) -> None:
        """Takes the tasks that an event aborted."""
        cause = CAUSES[ROOTS[told.line.get("asks", told.line["do"])]]
        for taken in told.taken:
            tile = taken.task.tile
            self.work["wasted"] += taken.work
            self.tiles["wasted"][tile] += taken.work
            self.tiles["taken"][tile] += 1
            self.taken[cause] += 1
            self.discarded[cause] += taken.is_gone
            self.count_accesses(self.undone, taken.accesses, taken.emitted)
            self.stalled.discard(taken.task)
            self.trapped.discard(taken.task)

    def count_accesses(self, counts: dict[str, int], accesses: list[Any], emitted: list[int]) -> None:
        """Adds a task's loads, stores and bytes."""
        stores = sum(access.is_store for access in accesses)
        for name, count in zip(ACCESSES, (len(accesses) - stores, stores, len(emitted))):
            counts[name] += count

    def stand(self) -> None:
        """Keeps where tasks are now."""
        machine, stalled, trapped = self.machine, len(self.stalled), len(self.trapped)
        self.now = dict(zip(PLACES, (machine.queued, machine.running - stalled - trapped, stalled, trapped,
                                     machine.waiting, machine.spilled)))

    def add(self, sums: dict[str, int]) -> None:
        """Adds where tasks are now."""
        for place, count in self.now.items():
            sums[place] += count

    def close(self, end: Optional[str]) -> None:
        """The acts that are left of a round weren't asked for, nor those of further rounds of a run that stays open."""
        rounds = self.rounds
        while rounds is not None and not rounds.is_advancing and (
                self.at == 0 or self.at + 1 > rounds.first or end == "open" and rounds.number < rounds.count):
            self.pass_one()

    def text(self) -> str:
        """The line of counts so far, without its newline."""
        return json.dumps(self.line(), separators=(",", ":"))

    def line(self) -> dict[str, Any]:
        """The counts so far as the program prints them."""
        # The machine may be an act ahead, if acts pass before that act and a line is due after them.
        self.work["left"] = self.work["executed"] - self.work["useful"] - self.work["wasted"]
        return {"counts": self.events, "work": self.work, "run": self.run, "stalls": self.stalls, "made": self.made,
                "told": self.told, "passed": self.passed, "committed": self.committed, "undone": self.undone,
                "taken": self.taken, "discarded": self.discarded, "now": self.now, "over_events": self.over_events,
                "over_rounds": self.over_rounds, "greatest": self.greatest,
                "commits_ordered": self.commits["ordered"], "commits_unordered": self.commits["unordered"],
                "made_ordered": self.domains["ordered"], "made_unordered": self.domains["unordered"],
                "lengths": self.lengths, "tile_useful": self.tiles["useful"], "tile_wasted": self.tiles["wasted"],
                "tile_taken": self.tiles["taken"]}
