"""The figures of a run in lockstep as columns, a number each."""
from __future__ import annotations

import dataclasses
from collections.abc import Callable, Iterable, Sequence
from typing import NamedTuple, Optional

from yotarimu.figures.core_time import ABORTED, Use
from yotarimu.figures.limits import UNBOUNDED, WINDOWS, Manner, WindowKind, Unit, Window
from yotarimu.figures.occupancy import PLACES
from yotarimu.figures.run import Figures
from yotarimu.figures.taken_tasks import Edge, Root
from yotarimu.figures.tasks import SPREADS

# The ends of a run that came to one.
NORMAL = "normal"
ENDS = (NORMAL, "limit", "trap")
Number = Callable[[Figures], float]
Count = Callable[[Figures], Optional[int]]
# A number of a run; None if the run has none.
Plain = Optional[float]
# Means of counts below this are shown with a decimal.
SMALL = 1_000


@dataclasses.dataclass(frozen=True)
class Column:
    """A column: its head, its number in a run, and how people read that number, of one run or as the mean of several.
    A column that compares runs has no number of one run alone."""
    head: str
    number: Callable[[Figures], Plain]
    shown: Callable[[float], str]
    is_comparison: bool = False


def whole_or_mean(number: float) -> str:
    """A count, or the mean of several, which has a decimal if it is small."""
    return f"{number:,.1f}" if number % 1 and abs(number) < SMALL else f"{number:,.0f}"


def one_decimal(number: float) -> str:
    """A number with one decimal."""
    return f"{number:,.1f}"


def two_decimals(number: float) -> str:
    """A number with two decimals."""
    return f"{number:,.2f}"


def percentage(number: float) -> str:
    """A percentage."""
    return f"{number:.1f} %"


def count(head: str, number: Count) -> Column:
    """A column of whole numbers."""
    return Column(head, number, whole_or_mean)


def quotient(head: str, number: Count, whole: Count, factor: int = 1) -> Column:
    """A column of a number divided by another."""
    def divided(it: Figures) -> Plain:
        parts = whole(it)
        return factor * (number(it) or 0) / parts if parts else None
    return Column(head, divided, two_decimals)


def mean(head: str, number: Number) -> Column:
    """A column of a mean."""
    return Column(head, number, one_decimal)


def comparison(head: str) -> Column:
    """A column that compares a run with another one."""
    return Column(head, lambda it: None, one_decimal, True)


# Columns of tasks that were aborted: by what took each itself, and by what that goes back to.
EDGES = {"byte": Edge.MET_BYTE, "line": Edge.MET_LINE, "alias": Edge.MET_ALIAS, "touched-byte": Edge.TOUCHED_BYTE,
         "touched-line": Edge.TOUCHED_LINE, "touched-alias": Edge.TOUCHED_ALIAS, "child": Edge.CHILD}
ROOTS = {"root-byte": Root.BYTE, "root-line": Root.LINE, "root-alias": Root.ALIAS,
         "root-commit-queue": Root.COMMIT_QUEUE, "root-task-queue": Root.TASK_QUEUE, "root-core": Root.CORE}


def itself(edge: Edge) -> Column:
    """A column of the tasks that were themselves aborted by something."""
    return count(edge.value, lambda it: it.taken_back.by_edge(edge))


def going_back_to(root: Root) -> Column:
    """A column of the tasks that were aborted and go back to something."""
    return count(f"root: {root.value}", lambda it: it.taken_back.by_root(root))


def spread(name: str, head: str) -> dict[str, Column]:
    """The mean of what tasks have, and what nine of ten don't exceed."""
    return {name.replace(" ", "-"): mean(head, lambda it: it.tasks.spreads[name].mean()),
            f"{name.replace(' ', '-')}-90": count(f"{head}, 90 %", lambda it: it.tasks.spreads[name].percentile(90))}


def place(name: str, head: str) -> Column:
    """A column of how many tasks were at a place, in the mean."""
    return mean(head, lambda it: it.occupancy.curve.means()[PLACES.index(name)])


def limit(manner: Manner, unit: Unit, window: Window) -> Number:
    """One of the limits of a run."""
    def told(it: Figures) -> float:
        return next(limit.at_once for limit in it.limits if (limit.manner, limit.unit, limit.window)
                    == (manner, unit, window))
    return told


MANNERS = {"whole": Manner.WHOLE, "renamed": Manner.RENAMED, "one": Manner.ONE}
BOUNDS = {"any-renamed": Manner.RENAMED, "any-one": Manner.ONE}


def limits() -> dict[str, Column]:
    """The limits by instructions for each manner and window, those by steps, and the bounds for any order."""
    columns = {}
    for name, manner in MANNERS.items():
        for window in WINDOWS:
            slots = "-slots" if window.kind is WindowKind.SLOTS else ""
            key = name if window.tasks is None else f"{name}-{window.tasks}{slots}"
            head = manner.value if window.tasks is None else f"{manner.value}, {window}"
            columns[key] = mean(head, limit(manner, Unit.INSTRUCTION, window))
        if manner is not Manner.WHOLE:
            columns[f"{name}-steps"] = mean(f"steps, {manner.value}", limit(manner, Unit.STEP, UNBOUNDED))
    for name, manner in BOUNDS.items():
        columns[name] = bound(manner)
    return columns


def bound(manner: Manner) -> Column:
    """A column of what no order of commits exceeds, in instructions at once."""
    return mean(f"any order, {manner.value}, at most", lambda it: it.bounds[manner])


class Reach(NamedTuple):
    """How far a run came: its end, how many tasks committed, in how many rounds, and how many instructions these
    tasks executed."""
    end: str
    commits: int
    rounds: int
    work: int = 0

    def fewer_than(self, first: Reach) -> Plain:
        """How many times fewer rounds it took than another one; None if they didn't come equally far: both to a normal
        end, or both to a limit or a trap with as many commits."""
        is_as_far = self.end == first.end and (self.end == NORMAL or self.commits == first.commits)
        return first.rounds / self.rounds if is_as_far and self.end in ENDS and self.rounds else None

    def has_other_work(self, first: Reach) -> bool:
        """Whether it committed other work: another number of tasks, or instructions that differ by more than 1 %."""
        return self.commits != first.commits or abs(self.work - first.work) > first.work / 100


def wasted_share(it: Figures) -> float:
    """Wasted instructions in percent of all that were executed; 0 if none were."""
    return 100 * it.taken_back.all_wasted() / it.executed if it.executed else 0.0


USES = {
    "committed": Use.COMMITTED, "true": Use.TRUE, "false": Use.FALSE, "cascade": Use.CASCADE,
    "task-queue": Use.TASK_QUEUE, "commit-queue": Use.COMMIT_QUEUE, "core": Use.CORE,
    "stalled-task-queue": Use.STALLED_TASK_QUEUE, "stalled-commit-queue": Use.STALLED_COMMIT_QUEUE,
    "waiting": Use.WAITING, "empty": Use.EMPTY, "unfinished": Use.UNFINISHED}


def time_share(use: Use) -> Column:
    """A column of the percentage of core-rounds with a use."""
    return Column(f"Core time: {use.value}", lambda it: it.core_time.share(use), percentage)


def wasted_by(use: Use) -> Column:
    """A column of the instructions that were wasted by a cause."""
    return count(f"Wasted instructions, {use.value}", lambda it: it.core_time.wasted[use])


COLUMNS = {
    "commits": count("Commits", lambda it: it.commits),
    "rounds": count("Rounds", lambda it: it.rounds()),
    "fewer": comparison("Ratio of rounds"),
    "speedup": comparison("Speed-up over one core"),
    "without-commit": count("Rounds in a row without a commit", lambda it: it.longest_without_commit),
    "advances": count("Forced advances", lambda it: it.advances),
    "work": count("Committed instructions", lambda it: it.useful),
    "acts": count("Acts", lambda it: it.acts),
    "round": quotient("Commits a round", lambda it: it.commits, lambda it: it.rounds()),
    "thousand": quotient("Commits in 1,000 acts", lambda it: it.commits, lambda it: it.acts, 1_000),
    "useful": quotient("Useful instructions a round", lambda it: it.useful, lambda it: it.rounds()),
    "useful-steps": quotient("Useful steps a round", lambda it: it.useful_steps, lambda it: it.rounds()),
    "dispatches": quotient("Dispatches a commit", lambda it: it.dispatches(), lambda it: it.commits),
    "taken": count("Aborted", lambda it: it.taken_back.all()),
    "access": count("root: loads and stores", lambda it: it.taken_back.by_access()),
    "room": count("root: room", lambda it: it.taken_back.by_room()),
    **{name: itself(edge) for name, edge in EDGES.items()},
    **{name: going_back_to(root) for name, root in ROOTS.items()},
    "machine": count("a line or a bit alone on the way", lambda it: it.taken_back.by_machine),
    "wasted": Column("Wasted", wasted_share, percentage),
    "core-rounds": count("Core-rounds", lambda it: it.core_time.total()),
    **{f"time-{name}": time_share(use) for name, use in USES.items()},
    **{f"wasted-{name}": wasted_by(use) for name, use in USES.items() if use in ABORTED},
    **{key: column for name in SPREADS for key, column in spread(name, name.capitalize()).items()},
    "queued": place("task queues", "In task queues"),
    "running": place("running", "Running"),
    "stalled": place("stalled", "Stalled"),
    "trapped": place("trapped", "Trapped"),
    "finished": place("commit queues", "In commit queues"),
    "blocks": place("blocks", "In blocks"),
    "spilled": count("Spilled", lambda it: it.spills),
    "opening": count("Spilled at the opening", lambda it: it.tasks.spilled_at_opening),
    "steps": count("Stalled steps", lambda it: it.replies["step", "stall"]),
    "splits": count("Stalled splits", lambda it: it.replies["split", "stall"]),
    "depth": count("Depth", lambda it: max(it.tasks.depths())),
    "domains": count("Subdomains made", lambda it: sum(counts.made for (depth, _), counts in it.tasks.domains.items()
                                                       if depth > 1)),
    **limits(),
}
# The name of the column that tells how a run ended.
END = "end"
UNLESS_TOLD = ("rounds", "acts", "round", "thousand", "dispatches", "taken", "access", "room", "root-byte", "root-line",
               "root-alias", "child", "wasted", "steps",
               END)


@dataclasses.dataclass
class Row:
    """The result of a choice: how its run ended, and its numbers by the names of columns, if it has any."""
    end: str
    numbers: dict[str, Plain] = dataclasses.field(default_factory=dict)

    @property
    def reach(self) -> Optional[Reach]:
        """How far its run came; None if it has no figures."""
        found = [self.numbers.get(name) for name in ("commits", "rounds", "work")]
        if None in found:
            return None
        commits, rounds, work = (int(number or 0) for number in found)
        return Reach(self.end, commits, rounds, work)


def row_of_figures(end: str, it: Figures, names: Iterable[str]) -> Row:
    """The row of a run, with these columns."""
    return Row(end, {name: COLUMNS[name].number(it) for name in names})


def heads(names: Sequence[str]) -> list[str]:
    """The heads of columns by their names."""
    return ["End" if name == END else COLUMNS[name].head for name in names]


def plain_cell(number: Plain) -> str:
    """A number as CSV has it; empty if there is none."""
    if number is None:
        return ""
    return str(number) if isinstance(number, int) else f"{number:.6g}"


def shown_cell(name: str, number: Plain) -> str:
    """A number of a column as people read it; a dash if there is none."""
    return "-" if number is None else COLUMNS[name].shown(number)
