"""Generated scripts: random acts for all tiles and cores, also those that will be refused, and lockstep rounds."""
from __future__ import annotations

from collections.abc import Sequence

from cases.chance import Chance
from yotarimu.common.acts import ACTS
from yotarimu.courses.schedules import Act, round_of, script_text

# How often each act comes, by what a script is about.
MOODS: dict[str, dict[str, float]] = {
    "mixed": {"dispatch": 6, "step": 14, "take": 2, "give": 2, "abort": 0.6, "commit": 2, "coalesce": 0.8,
              "split": 1.5, "advance": 2},
    "ahead": {"dispatch": 8, "step": 24, "commit": 0.5, "split": 1},
    "spills": {"dispatch": 4, "step": 14, "coalesce": 3, "split": 4, "commit": 2, "advance": 1},
    "aborts": {"dispatch": 8, "step": 14, "abort": 3, "commit": 2, "advance": 1},
    "held": {"dispatch": 5, "step": 6, "take": 8, "give": 8, "abort": 0.5, "commit": 2, "advance": 0.5},
    "tight": {"dispatch": 8, "step": 20, "coalesce": 4, "split": 5, "commit": 3, "abort": 1, "take": 2, "give": 2},
    "least": {"advance": 20, "dispatch": 2, "step": 3},
}
BAD_LINES = ("", "dispatch", "dispatch 99", "dispatch 00", "dispatch  0", " dispatch 0", "dispatch 0 ", "step 0",
             "step 0 9", "commit 0", "advance 1", "Commit", "run", "step 0 0 0", "dispatch -1", "take 0\t0", "split 16",
             "\x00", "give 0 4")


def act_of(chance: Chance, word: str, tiles: int, cores: int) -> Act:
    numbers = [chance.below(most) for most in (tiles, cores)[:ACTS[word].numbers]]
    return Act(word, *numbers)


def random_acts(chance: Chance, mood: str, tiles: int, cores: int, count: int) -> list[Act]:
    return [act_of(chance, chance.pick_weighted(MOODS[mood]), tiles, cores) for _ in range(count)]


def rounds_of(chance: Chance, tiles: int, cores: int, count: int) -> list[Act]:
    """Lockstep rounds; the acts of each are in order, or in random order."""
    acts, is_mixed = round_of(tiles, cores), chance.is_one_of(2)
    return [act for _ in range(count) for act in (chance.shuffle(acts) if is_mixed else acts)]


def script_of(chance: Chance, tiles: int, cores: int) -> list[Act]:
    """A script of some stretches, each of one mood."""
    acts: list[Act] = []
    for _ in range(chance.between(1, 4)):
        if chance.is_one_of(3):
            rounds = 1 + chance.below(600) // len(round_of(tiles, cores))
            acts += rounds_of(chance, tiles, cores, rounds)
        else:
            acts += random_acts(chance, chance.pick(tuple(MOODS)), tiles, cores, chance.between(20, 600))
    if chance.is_one_of(2):
        acts += [Act("advance")] * chance.between(50, 600)
        acts += random_acts(chance, "mixed", tiles, cores, chance.below(20))
    return acts


def text_of(chance: Chance, acts: Sequence[Act]) -> str:
    """The text of a script, whose last newline may be missing."""
    text = script_text(acts)
    return text[:-1] if chance.is_one_of(8) else text


def bad_text(chance: Chance, acts: Sequence[Act]) -> str:
    """A script with a line that is none."""
    lines = script_text(acts[:60]).split("\n")
    lines.insert(chance.below(len(lines)), chance.pick(BAD_LINES))
    return "\n".join(lines)


def renumbering_acts(times: int) -> list[Act]:
    """The second task is dispatched and aborted until all dispatch numbers were given, and more."""
    again = [Act("dispatch", 0), Act("abort", 0)] * times
    return [Act("dispatch", 0), *again, Act("dispatch", 0), *[Act("step", 0, core) for core in (0, 1)] * 6,
            *[Act("commit"), Act("dispatch", 0)] * 3, *[Act("advance")] * 20]
