"""Figures of runs as tables in Markdown, as rows of CSV, and as curves."""
from __future__ import annotations

from collections.abc import Callable, Iterable, Iterator, Mapping, Sequence
from typing import Any, Optional

from yotarimu.common.tables import plain_ratio, ratio, table
from yotarimu.figures.limits import Limit, Manner, Unit
from yotarimu.figures.occupancy import PLACES, RATES
from yotarimu.figures.run import Figures
from yotarimu.figures.spread import PERCENTS, Spread
from yotarimu.figures.taken_tasks import EVENTS, Edge, Root
from yotarimu.images.image import DATA
from yotarimu.images.listing import NO_LISTING, Listing

# So many lines, addresses and entry addresses are told in a table; the rows have them all.
MOST_TOLD = 8
Runs = Mapping[str, Figures]
Rows = Iterable[Sequence[str]]


def count_cell(number: Optional[int]) -> str:
    """A number as a cell; a dash where it isn't known."""
    return "-" if number is None else f"{number:,}"


def share(count: int, whole: int) -> str:
    """A count with its share of the whole."""
    return f"{count:,} ({100 * count / whole:.1f} %)" if whole else f"{count:,}"


ROWS: tuple[tuple[str, Callable[[Figures], str]], ...] = (
    ("Filter", lambda it: it.taken_back.rule.kind.value),
    ("Instructions executed", lambda it: count_cell(it.executed)),
    ("of these useful", lambda it: share(it.useful, it.executed)),
    ("wasted", lambda it: share(it.taken_back.all_wasted(), it.executed)),
    ("left", lambda it: share(it.left, it.executed)),
    ("Instructions of refused steps", lambda it: count_cell(it.refused)),
    ("Commits", lambda it: count_cell(it.commits)),
    ("Events", lambda it: count_cell(it.events)),
    ("Rounds", lambda it: count_cell(it.rounds())),
    ("Commits a round", lambda it: ratio(it.commits, it.rounds())),
    ("Useful instructions a round", lambda it: ratio(it.useful, it.rounds())),
    ("Useful steps a round", lambda it: ratio(it.useful_steps, it.rounds())),
    ("Rounds in a row without a commit, at most",
     lambda it: count_cell(it.longest_without_commit if it.is_in_rounds else None)),
    ("Forced advances of the least task", lambda it: count_cell(it.advances if it.is_in_rounds else None)),
    ("Dispatches a commit", lambda it: ratio(it.dispatches(), it.commits)),
    ("Tasks aborted", lambda it: count_cell(it.taken_back.all())),
    ("of these discarded", lambda it: count_cell(sum(it.taken_back.discarded.values()))),
    ("Tasks spilled at the opening, later", lambda it: f"{it.tasks.spilled_at_opening:,}, {it.spills:,}"),
    ("End", lambda it: it.end),
)


def summary(runs: Runs) -> list[str]:
    """The figures of a dictionary by name, a column each."""
    return table(["", *runs], ([name, *(cell(it) for it in runs.values())] for name, cell in ROWS))


def taken_tasks(runs: Runs) -> list[str]:
    """Tasks that were aborted, a column a run: by the event, by what took each itself, and by its root."""
    found = {name: it.taken_back for name, it in runs.items()}
    rows = [[f"by event: {event}", *(count_cell(it.tasks[event]) for it in found.values())] for event in EVENTS]
    rows += [[f"itself: {edge.value}", *(count_cell(it.by_edge(edge)) for it in found.values())] for edge in Edge]
    rows += [[f"root: {root.value}", *(count_cell(it.by_root(root)) for it in found.values())] for root in Root]
    rows.append(["by a line or a bit alone on the way", *(count_cell(it.by_machine) for it in found.values())])
    return table(["Aborted", *found], rows)


def causes(it: Figures) -> list[str]:
    """What took tasks themselves, against what that goes back to; no line where nothing was aborted."""
    found = it.taken_back
    roots = [root for root in Root if found.by_root(root)]
    rows = [[edge.value, *(count_cell(found.causes[edge, root]) for root in roots), count_cell(found.by_edge(edge))]
            for edge in Edge if found.by_edge(edge)]
    rows.append(["all", *(count_cell(found.by_root(root)) for root in roots), count_cell(found.all())])
    return table(["Itself", *(root.value for root in roots), "all"], rows) if roots else []


def stalls(runs: Runs) -> list[str]:
    """Steps and splits that stalled, by why, a column a run."""
    reasons = next(iter(runs.values())).tasks.stalls
    return table(["Stalled", *runs],
                 ([reason, *(count_cell(it.tasks.stalls[reason]) for it in runs.values())] for reason in reasons))


def most_of(counts: Mapping[Any, int]) -> list[tuple[Any, int]]:
    """The greatest counts, and of equal ones those that come first."""
    return sorted(counts.items(), key=lambda pair: (-pair[1], pair[0]))[:MOST_TOLD]


def places(it: Figures, listing: Listing = NO_LISTING) -> list[str]:
    """Where loads and stores aborted tasks: the lines and the addresses with most of them, with their labels."""
    lines = [[with_label(f"{line:,}", DATA + line * it.head["line"], listing), count_cell(count)]
             for line, count in most_of(it.taken_back.lines)]
    addresses = [[with_label(f"{address:08x}", address, listing), count_cell(count)]
                 for address, count in most_of(it.taken_back.addresses)]
    most = max(len(lines), len(addresses))
    pairs = zip(*(rows + [["", ""]] * (most - len(rows)) for rows in (lines, addresses)))
    return table(["Line", "aborted", "Address", "aborted"], ([*line, *address] for line, address in pairs))


def with_label(text: str, address: int, listing: Listing) -> str:
    """A text on an address, with the label where there is one."""
    label = listing.label(address)
    return text if label is None else f"{text}, {label}"


def spreads(it: Figures) -> list[str]:
    """What a task has that committed: the mean, percentiles and the greatest."""
    heads = ["Of a task", "mean", *(f"{percent} %" for percent in PERCENTS), "greatest"]
    return table(heads, ([name, f"{spread.mean():.2f}", *(count_cell(spread.percentile(it)) for it in PERCENTS),
                          count_cell(spread.greatest())] for name, spread in it.tasks.spreads.items()))


def domains(it: Figures) -> list[str]:
    """Domains by depth and kind."""
    rows = [[str(depth), kind, count_cell(counts.made), count_cell(counts.used), count_cell(counts.commits)]
            for (depth, kind), counts in sorted(it.tasks.domains.items())]
    return table(["Depth", "Domains", "made", "with a commit", "Tasks that committed"], rows)


def entries(it: Figures, listing: Listing = NO_LISTING) -> list[str]:
    """Work by the address at which tasks begin, the most first."""
    most = most_of({address: counts.useful + counts.wasted for address, counts in it.tasks.entries.items()})
    rows = []
    for address, _ in most:
        counts = it.tasks.entries[address]
        rows.append([listing.address_text(address), count_cell(counts.commits), count_cell(counts.useful),
                     count_cell(counts.taken_back), count_cell(counts.wasted)])
    return table(["Tasks that begin at", "committed", "useful instructions", "aborted", "wasted"], rows)


def accesses(it: Figures) -> list[str]:
    """Loads and stores that were made, by tile."""
    rows = [[str(tile), count_cell(counts["load"]), count_cell(counts["store"])]
            for tile, counts in enumerate(it.tasks.accesses)]
    return table(["Tile", "loads", "stores"], rows)


def occupancy(it: Figures) -> list[str]:
    """How many tasks were where."""
    room = {"task queues": it.head["tiles"] * it.head["task_queue"], "running": it.head["tiles"] * it.head["cores"],
            "commit queues": it.head["tiles"] * it.head["commit_queue"]}
    means, greatest = it.occupancy.curve.means(), it.occupancy.greatest
    rows = [[name, count_cell(room.get(name)), f"{means[place]:.1f}", count_cell(greatest[place])]
            for place, name in enumerate(PLACES)]
    return table(["Tasks", "room", f"mean over {it.occupancy.over()}", "greatest"], rows)


def rates(it: Figures) -> list[str]:
    """What happens in a round, on the mean; no line where there are none."""
    if it.rounds() is None:
        return []
    return table(["In a round", "mean"],
                 ([name, f"{mean:.2f}"] for name, mean in zip(RATES, it.occupancy.rates.means())))


# How limits are named: those of the order of the commits, and bounds for any order.
UNITS = {Unit.INSTRUCTION: "Instructions", Unit.STEP: "Steps"}
ANY_ORDER = "Instructions at once in any order, at most"


def limit_name(limit: Limit) -> str:
    """A limit by its unit and how memory is seen."""
    return f"{UNITS[limit.unit]} at once, {limit.manner.value}"


def parallelism(runs: Runs) -> list[str]:
    """The limits of parallelism, a column a run."""
    columns = [it.limits for it in runs.values()]
    rows = [[limit_name(limit), str(limit.window), *(f"{limits[place].at_once:.1f}" for limits in columns)]
            for place, limit in enumerate(columns[0])]
    for manner in (Manner.RENAMED, Manner.ONE):
        rows.append([f"{ANY_ORDER}, {manner.value}", "without bound",
                     *(f"{it.bounds[manner]:.1f}" for it in runs.values())])
    return table(["Parallelism", "window", *runs], rows)


CSV_COLUMNS = ("lines", "figure", "of", "value")
# Rows without the run's name: the figure, what of it, and the value.
Plain = Iterator[tuple[str, object, object]]


def plain_rows(runs: Runs) -> Iterator[Sequence[object]]:
    """Each figure of a dictionary by name as a row, in plain numbers, under their head."""
    yield CSV_COLUMNS
    for name, it in runs.items():
        for parts in (plain_counts, plain_tasks, plain_taken, plain_occupancy, plain_limits):
            for row in parts(it):
                yield (name, *row)


def plain_counts(it: Figures) -> Plain:
    """Rows of what is counted in a run once."""
    rounds = it.rounds()
    yield "filter", "", it.taken_back.rule.kind.value
    yield from (("instructions", "executed", it.executed), ("instructions", "useful", it.useful),
                ("instructions", "wasted", it.taken_back.all_wasted()), ("instructions", "left", it.left),
                ("instructions", "refused", it.refused), ("commits", "", it.commits), ("events", "", it.events),
                ("acts", "", it.acts), ("rounds", "", "" if rounds is None else rounds),
                ("commits a round", "", plain_ratio(it.commits, rounds)),
                ("useful instructions a round", "", plain_ratio(it.useful, rounds)),
                ("useful steps a round", "", plain_ratio(it.useful_steps, rounds)),
                ("rounds in a row without a commit", "greatest",
                 it.longest_without_commit if it.is_in_rounds else ""),
                ("forced advances of the least task", "", it.advances if it.is_in_rounds else ""),
                ("steps", "useful", it.useful_steps), ("dispatches", "", it.dispatches()),
                ("dispatches a commit", "", plain_ratio(it.dispatches(), it.commits)),
                ("aborted", "", it.taken_back.all()), ("spilled", "", it.spills),
                ("spilled at the opening", "", it.tasks.spilled_at_opening), ("end", "", it.end))
    for (word, reply), count in sorted(it.replies.items()):
        yield f"replies to {word}", reply, count
    for reason, count in it.tasks.stalls.items():
        yield "stalled", reason, count


def plain_spread(name: str, spread: Spread) -> Plain:
    """Rows of a spread: its mean, percentiles and greatest value, and how many tasks have each value."""
    yield f"{name} of a task", "mean", f"{spread.mean():.6g}"
    for percent in PERCENTS:
        yield f"{name} of a task", f"{percent} %", spread.percentile(percent)
    yield f"{name} of a task", "greatest", spread.greatest()
    for value, count in sorted(spread.counts.items()):
        yield f"tasks by {name}", value, count


def plain_tasks(it: Figures) -> Plain:
    """Rows of what committed tasks are like, by depth, domain and entry address."""
    for name, spread in it.tasks.spreads.items():
        yield from plain_spread(name, spread)
    for depth, count in it.tasks.depths().items():
        yield "commits by depth", depth, count
    for (depth, kind), counts in sorted(it.tasks.domains.items()):
        yield f"{kind} domains made", depth, counts.made
        yield f"{kind} domains with a commit", depth, counts.used
        yield f"commits in {kind} domains", depth, counts.commits
    for address, entry in sorted(it.tasks.entries.items()):
        yield "commits by entry address", f"{address:08x}", entry.commits
        yield "useful by entry address", f"{address:08x}", entry.useful
        yield "aborted by entry address", f"{address:08x}", entry.taken_back
        yield "wasted by entry address", f"{address:08x}", entry.wasted
    for tile, accesses_there in enumerate(it.tasks.accesses):
        yield "loads by tile", tile, accesses_there["load"]
        yield "stores by tile", tile, accesses_there["store"]


def plain_taken(it: Figures) -> Plain:
    """Rows of the tasks that were aborted: by event, by what took them, and by root."""
    found = it.taken_back
    for event in EVENTS:
        yield "aborted by event", event, found.tasks[event]
        yield "discarded by event", event, found.discarded[event]
        yield "wasted by event", event, found.wasted[event]
    for edge in Edge:
        yield "aborted itself", edge.value, found.by_edge(edge)
    for root in Root:
        yield "aborted by root", root.value, found.by_root(root)
        yield "wasted by root", root.value, found.wasted_by_root[root]
        for edge in Edge:
            yield f"aborted by root, {root.value}", edge.value, found.causes[edge, root]
    yield "aborted by a line or a bit alone on the way", "", found.by_machine
    for line, count in sorted(found.lines.items()):
        yield "aborted by line", line, count
    for address, count in sorted(found.addresses.items()):
        yield "aborted by address", f"{address:08x}", count


def plain_occupancy(it: Figures) -> Plain:
    """Rows of where tasks were: means, the greatest, and curves."""
    for place, name in enumerate(PLACES):
        yield "occupancy mean", name, f"{it.occupancy.curve.means()[place]:.6g}"
        yield "occupancy greatest", name, it.occupancy.greatest[place]
    if it.rounds() is not None:
        for name, mean in zip(RATES, it.occupancy.rates.means()):
            yield f"{name} in a round", "mean", f"{mean:.6g}"
    for name, points in it.occupancy.series():
        for moment, value in points:
            yield f"curve of {name} over {it.occupancy.over()}", moment, f"{value:.6g}"


def plain_limits(it: Figures) -> Plain:
    """Rows of how much could have been done at once."""
    for limit in it.limits:
        yield f"{limit_name(limit).lower()}", limit.window, f"{limit.at_once:.6g}"
    for manner, bound in it.bounds.items():
        yield f"{ANY_ORDER}, {manner.value}".lower(), "without bound", f"{bound:.6g}"


def curves(runs: Runs) -> dict[str, list[tuple[int, float]]]:
    """How many tasks were where, a series a place, for each run of a dictionary by name."""
    return {f"{name}: {place}" if len(runs) > 1 else place: points or [(0, 0)]
            for name, it in runs.items() for place, points in it.occupancy.series() if place in PLACES}
