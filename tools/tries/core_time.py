"""Integration tests of where core time goes: it is worked out once more from the event log alone, by other code.

This code knows neither the tools' machine nor their rounds. It counts acts by their numbers, shuffles them by itself,
and finds causes by relaxation over all aborted tasks of an event.
"""
from __future__ import annotations

import collections
import json
from typing import Any, Dict, List, Optional, Tuple

from tries.place import Place, expect
from tries.schedules import write_file
from yotarimu.applications.catalogue import APPLICATIONS
from yotarimu.figures.core_time import Use
from yotarimu.figures.run import read_figures

# The image, and the options of each run; none of them advances the least task by force.
RUNS: Tuple[Tuple[Tuple[str, str], str, Tuple[str, ...]], ...] = (
    (("walk", "300"), "0", ("--tiles", "4", "--cores", "2")),
    (("walk", "300"), "7", ("--tiles", "4", "--cores", "4", "--line", "4")),
    (("nest", "40"), "0", ("--tiles", "3", "--cores", "2", "--task-queue", "8", "--commit-queue", "2")),
    (("nest", "60"), "3", ("--tiles", "2", "--cores", "4", "--phase", "1", "--filter", "exact")),
    (("walk", "200"), "5", ("--tiles", "16", "--cores", "1", "--quantum", "1", "--line", "64")))
Access = Tuple[bool, int, int]
ROOM = {"end": "aborted: commit queue full", "enqueue": "aborted: task queue full", "split": "aborted: task queue full",
        "dispatch": "aborted: no core free"}
STALLS = {"enqueue": "stalled: task queue full", "end": "stalled: commit queue full"}
NEVER = 9


class Attempt:
    """A task, with what it did since its last dispatch."""

    def __init__(self, tile: int, creator: Optional[Attempt]) -> None:
        self.tile, self.creator, self.state = tile, creator, "idle"
        self.core: Optional[int] = None
        self.steps, self.accesses = 0, list[Access]()

    def wait(self) -> None:
        """It is idle again, with nothing done."""
        self.state, self.core, self.steps, self.accesses = "idle", None, 0, []


class Recount:
    """The uses of core-rounds, counted from the lines of an event log."""

    def __init__(self, lines: List[Dict[str, Any]]) -> None:
        self.head, self.lines = lines[0], lines[1:-1]
        self.uses: collections.Counter[str] = collections.Counter()
        self.tasks: Dict[int, Attempt] = {}
        self.draw = self.head["seed"]
        tiles, cores = range(self.head["tiles"]), range(self.head["cores"])
        self.order = [place for tile in tiles for place in [None, *((tile, core) for core in cores)]]
        self.order += [None] * (2 * len(tiles))

    def shuffle(self) -> None:
        """Changes the order of the acts to that of the next round."""
        for last in range(len(self.order) - 1, -1, -1) if self.head["seed"] else ():
            self.draw = (1664525 * self.draw + 1013904223) % (1 << 32)
            other = self.draw * (last + 1) >> 32
            self.order[last], self.order[other] = self.order[other], self.order[last]

    def count(self) -> collections.Counter[str]:
        """Goes through all acts, up to the end of the last round."""
        told = {line["at"]: line for line in self.lines if line["at"]}
        for line in self.lines:
            if not line["at"] and "new" in line:
                self.tasks[line["new"]] = Attempt(line["tile"], None)
        act = 0
        while act < max(told):
            self.shuffle()
            for place in self.order:
                act += 1
                if act in told:
                    self.follow(told[act])
                elif place is not None:
                    self.uses[self.use_of_idle_core(*place)] += 1
        return self.uses

    def use_of_idle_core(self, tile: int, core: int) -> str:
        """What a core does that makes no step: its task trapped, or all tasks of its tile have finished, or none is."""
        here = [task for task in self.tasks.values() if task.tile == tile]
        if any(task.core == core for task in here):
            return "finished, waiting to commit"
        states = {task.state for task in here}
        return "finished, waiting to commit" if "finished" in states and "idle" not in states else "empty"

    def follow(self, line: Dict[str, Any]) -> None:
        """Takes a line."""
        task = self.tasks.get(line.get("task", -1))
        if line["reply"] != "ok":
            if line["do"] == "step":
                self.uses[STALLS[line["asks"]]] += 1
            return
        if "back" in line:
            self.abort(line)
        for number, *_ in line.get("spilled", ()):
            del self.tasks[number]
        if line["do"] == "dispatch" and task:
            task.state, task.core = "running", line["core"]
        elif line["do"] == "step" and task:
            self.step(line, task)
        elif line["do"] == "split":
            self.tasks[line["new"]] = Attempt(line["in"], None)
        elif line["do"] == "commit" and task:
            self.uses["committed"] += task.steps
            del self.tasks[line["task"]]

    def step(self, line: Dict[str, Any], task: Attempt) -> None:
        """Counts a step."""
        task.steps += 1
        asks = line["asks"]
        if asks in ("load", "store"):
            task.accesses.append((asks == "store", line["addr"], line["bytes"]))
        elif asks == "enqueue":
            self.tasks[line["new"]] = Attempt(line["in"], task)
        elif asks == "end":
            task.state, task.core = "finished", None

    def abort(self, line: Dict[str, Any]) -> None:
        """Counts the attempts that an event aborts, by the cause of each."""
        numbers = [number for number, _ in reversed(line["back"])]
        victims, gone = [self.tasks[number] for number in numbers], set(line.get("gone", ()))
        met = [self.meeting(line, task, place) for place, task in enumerate(victims)]
        level = list(met)
        for _ in victims:
            for place, task in enumerate(victims):
                for before in range(place):
                    other = victims[before]
                    if numbers[place] in gone and task.creator is other:
                        level[place] = min(level[place], level[before])
                    touched = min((share for own in task.accesses for written in other.accesses if written[0]
                                   for share in [self.shares(own, written)]), default=NEVER)
                    level[place] = min(level[place], max(level[before], touched))
        for number, task, own, least in zip(numbers, victims, met, level):
            self.uses[self.use_of_abort(line, own, least)] += task.steps
            task.wait()
            if number in gone:
                del self.tasks[number]

    def meeting(self, line: Dict[str, Any], task: Attempt, place: int) -> int:
        """What a task shares with the access of an event; if that needs room, the least one is in the way."""
        asks = line.get("asks", line["do"])
        if asks not in ("load", "store"):
            return 0 if place == 0 else NEVER
        access = asks == "store", line["addr"], line["bytes"]
        return min((self.shares(own, access) for own in task.accesses if own[0] or access[0]), default=NEVER)

    def use_of_abort(self, line: Dict[str, Any], own: int, least: int) -> str:
        """What the core time of an aborted attempt was used for."""
        asks = line.get("asks", line["do"])
        if own > least:
            return "aborted: parent or data aborted"
        if asks in ROOM:
            return ROOM[asks] if own != NEVER else "aborted: parent or data aborted"
        return "aborted: true conflict" if own == 0 else "aborted: false conflict"

    def shares(self, one: Access, other: Access) -> int:
        """0 if two accesses share a byte, 1 if only a line, 2 if only a bit of the filter, or else 9."""
        if one[1] < other[1] + other[2] and other[1] < one[1] + one[2]:
            return 0
        lines = [(address - 0x10000000) // self.head["line"] for _, address, _ in (one, other)]
        if lines[0] == lines[1]:
            return 1
        bits = 1024 if self.head["filter"] == "modulo" else 1 << 32
        return 2 if lines[0] % bits == lines[1] % bits else NEVER


def core_time_is_recounted(place: Place) -> None:
    """five runs have the core time, use by use, that other code finds in their event logs, and each core-round one"""
    place.needs_second_program()
    found: collections.Counter[str] = collections.Counter()
    for (kind, size), seed, options in RUNS:
        image = place.call("fractal generate", kind, "7", size).output
        log = place.call("fractal", "watch", "lockstep", "100000", seed, *options, stdin=image).output
        figures = read_figures(write_file(place, "log", log))
        expect((figures.end, figures.advances) == ("normal", 0), "a whole run without an advance", figures.advances)
        wanted = Recount([json.loads(line) for line in log.splitlines()]).count()
        told = {use.value: count for use, count in figures.core_time.rounds.items() if count}
        expect(told == {use: count for use, count in wanted.items() if count}, "the same core time", (told, wanted))
        expect(sum(told.values()) == (figures.rounds() or 0) * figures.cores(), "each core-round once", told)
        found.update(told)
    expect(len(found) >= 8, "runs with many uses of core time", found)


def rounds_are_instructions(place: Place) -> None:
    """with a quantum of 1, one core takes a round for each instruction of each application, and one for each wait"""
    place.needs_second_program()
    for name, application in APPLICATIONS.items():
        folder = place.root / name
        place.call("fractal applications", "make", name, str(folder), "--size", str(application.size_range[0]))
        image = (folder / "image.bin").read_bytes()
        words = ("lockstep", "1000000", "0", "--tiles", "1", "--cores", "1", "--quantum", "1")
        log = place.call("fractal", "watch", *words, stdin=image).output
        figures = read_figures(write_file(place, "log", log))
        counted = place.call("fractal", "watch", "counts", *words, stdin=image).output
        counts = json.loads(counted.splitlines()[-2])
        uses = figures.core_time.rounds
        waits = sum(uses[use] for use in (Use.WAITING, Use.EMPTY, Use.STALLED_TASK_QUEUE, Use.STALLED_COMMIT_QUEUE))
        expect((figures.end, figures.advances) == ("normal", 0), f"a whole run of {name}", figures.end)
        expect(figures.rounds() == figures.executed + waits, f"a round for each of {name}", (figures.rounds(), waits))
        expect((counts["run"]["rounds"], counts["work"]["executed"], counts["made"]["step"])
               == (figures.rounds(), figures.executed, figures.executed), f"the same counts of {name}", counts)


TRIES = (core_time_is_recounted, rounds_are_instructions)
