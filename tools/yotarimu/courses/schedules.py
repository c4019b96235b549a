"""Scripts, what the program says when it plays them, and scripts in lockstep: docs/guest/FORMATS.md has their lines."""
from __future__ import annotations

import collections
import dataclasses
import itertools
import re
from collections.abc import Iterable, Iterator, Sequence
from typing import Optional

from yotarimu.common.acts import ACTS, DONE, REFUSALS
from yotarimu.common.files import FilePath
from yotarimu.common.outcome import Refusal
from yotarimu.reports.report import Entry, Report, read_report

MOST_TILES, MOST_CORES = 16, 4
NUMBER = "(0|[1-9][0-9]?)"


@dataclasses.dataclass(frozen=True)
class Act:
    """A line of a script: its word, and the tile and the core where it names them."""
    word: str
    tile: Optional[int] = None
    core: Optional[int] = None

    def __str__(self) -> str:
        return " ".join(str(part) for part in (self.word, self.tile, self.core) if part is not None)


@dataclasses.dataclass(frozen=True)
class ActAnswer:
    """The reply to an act, and how many tasks it aborted."""
    reply: str
    taken_back: int


@dataclasses.dataclass
class PlayedScript:
    """A script that was played: its acts, what each was answered, and the report."""
    acts: list[Act]
    said: list[ActAnswer]
    report: Report

    def pairs(self) -> Iterator[tuple[Act, ActAnswer]]:
        """Each act with what it was answered."""
        return zip(self.acts, self.said)

    def commits(self) -> dict[int, Entry]:
        """The entry of each act that committed a task, by the act's place."""
        places = (place for place, (act, said) in enumerate(self.pairs()) if is_commit(act, said))
        return dict(zip(places, self.report.entries))


def is_commit(act: Act, said: ActAnswer) -> bool:
    """Whether an act made a task commit."""
    return (act.word, said.reply) in (("commit", "ok"), ("advance", "committed"))


def read_script(text: str, name: FilePath) -> list[Act]:
    """The acts of a script, for a machine of any size."""
    lines = text.split("\n")
    if lines[-1] == "":
        lines.pop()
    return [read_act(line, f"{name}:{number}") for number, line in enumerate(lines, 1)]


def read_act(line: str, place: str) -> Act:
    """The act of a line of a script; refuses other lines."""
    word, *numbers = line.split(" ")
    if word not in ACTS or len(numbers) != ACTS[word].numbers or not all(re.fullmatch(NUMBER, it) for it in numbers):
        raise Refusal(f"{place}: `{line[:40]}` isn't a line of a script; docs/guest/FORMATS.md lists them.")
    tile, core = ([int(it) for it in numbers] + [None, None])[:2]
    if (tile or 0) >= MOST_TILES or (core or 0) >= MOST_CORES:
        raise Refusal(f"{place}: `{line}` is for none of {MOST_TILES} tiles with {MOST_CORES} cores each.")
    return Act(word, tile, core)


def read_played(acts: list[Act], text: str, name: FilePath) -> PlayedScript:
    """What the program said to a script, and the report after it."""
    lines = text.split("\n")
    if lines[0].startswith("fault "):
        raise Refusal(f"{name}: the program played nothing, and said `{lines[0]}`.")
    said = [read_said(line, f"{name}:{number}") for number, line in enumerate(lines[:len(acts)], 1)]
    played = PlayedScript(acts, said, read_report(text, name, len(acts)))
    commits, entries = sum(is_commit(*pair) for pair in played.pairs()), len(played.report.entries)
    if commits != entries:
        raise Refusal(f"{name}: this isn't what was said to that script: it has {commits} commits, "
                      f"and {entries} tasks in its report.")
    return played


def read_replies(text: str) -> list[ActAnswer]:
    """The replies before a report, as `steps` writes them; none where the text begins otherwise."""
    replies = []
    for line in text.split("\n"):
        found = re.fullmatch(r"([a-z]+) ([0-9]{1,10})", line)
        if not found or found[1] not in DONE + REFUSALS:
            break
        replies.append(ActAnswer(found[1], int(found[2])))
    return replies


def read_said(line: str, place: str) -> ActAnswer:
    """What a line says that an act was answered; refuses other lines."""
    found = re.fullmatch(r"([a-z]+) ([0-9]{1,10})", line)
    if not found or found[1] not in DONE + REFUSALS:
        raise Refusal(f"{place}: this isn't an answer to an act, but one is wanted: `{line[:40]}`.")
    return ActAnswer(found[1], int(found[2]))


def read_trace(text: str, name: FilePath) -> list[list[int]]:
    """The numbers of each tap, from what the program says to `trace`."""
    lines = iter(text.removesuffix("\n").split("\n"))
    if next(lines) != "trace 1":
        raise Refusal(f"{name}: this isn't a trace, which begins with `trace 1`.")
    taps: list[list[int]] = []
    for line in lines:
        if line == "end trace" and next(lines, None) is None:
            return taps
        found = re.fullmatch(rf"tap {len(taps)} ([0-9]{{1,10}})", line)
        numbers = list(itertools.islice(lines, int(found[1]))) if found else []
        if not found or len(numbers) < int(found[1]) or not all(re.fullmatch("[0-9]{1,20}", it) for it in numbers):
            break
        taps.append([int(it) for it in numbers])
    raise Refusal(f"{name}: this isn't a trace: after {len(taps)} taps it has something else.")


def lockstep(tiles: int, cores: int, rounds: int, seed: int = 0) -> Iterator[Act]:
    """The acts of so many rounds, each shuffled by the seed; 0 shuffles nothing."""
    acts, shuffle = round_of(tiles, cores), Shuffle(seed)
    for _ in range(rounds):
        acts = shuffle.shuffle(acts)
        yield from acts


class Shuffle:
    """The order of rounds by a seed, as docs/guest/FORMATS.md defines it for `fractal_watch`."""

    def __init__(self, seed: int) -> None:
        self.seed, self.x = seed, seed

    def shuffle(self, acts: Sequence[Act]) -> list[Act]:
        """The acts of the next round, where these are those of the round before."""
        acts = list(acts)
        if self.seed:
            for last in reversed(range(len(acts))):
                self.x = (1_664_525 * self.x + 1_013_904_223) % 2 ** 32
                place = self.x * (last + 1) // 2 ** 32
                acts[last], acts[place] = acts[place], acts[last]
        return acts


def round_of(tiles: int, cores: int) -> list[Act]:
    """The acts of a round: tile after tile dispatches and each of its cores steps; then there is a commit for each
    tile, and each tile splits."""
    acts = []
    for tile in range(tiles):
        acts += [Act("dispatch", tile), *(Act("step", tile, core) for core in range(cores))]
    return acts + [Act("commit")] * tiles + [Act("split", tile) for tile in range(tiles)]


def acts_a_round(acts: Sequence[Act]) -> Optional[int]:
    """How many acts a round of a lockstep schedule has, in whatever order within a round; None of other scripts."""
    tiles = 1 + max((act.tile for act in acts if act.tile is not None), default=-1)
    cores = 1 + max((act.core for act in acts if act.core is not None), default=-1)
    whole = round_of(tiles, cores)
    if not tiles or not cores or len(acts) < len(whole):
        return None
    counts = collections.Counter(whole)
    for first in range(0, len(acts), len(whole)):
        some = acts[first:first + len(whole)]
        if some != whole and (len(some) < len(whole) or collections.Counter(some) != counts):
            return None
    return len(whole)


def script_text(acts: Iterable[Act]) -> str:
    """Acts as the text of a script."""
    return "".join(f"{act}\n" for act in acts)
