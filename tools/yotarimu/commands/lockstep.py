"""Writes the script of a lockstep schedule, which `./fractal steps` and `trace` play on any image, to standard output.

usage: ./fractal lockstep TILES CORES ROUNDS [--seed N] [--output SCRIPT]
       ./fractal lockstep --of LINES [--output SCRIPT]

In each round tile after tile dispatches a task, and each of its CORES cores steps; then there is a commit for each of
the TILES tiles, and each tile splits.

  --seed N      each round shuffles the acts of the round before, as `./fractal watch lockstep` does with this seed;
                docs/guest/FORMATS.md has the draw. The seed 0 leaves them in order (0 to 4,294,967,295; default 0)
  --of LINES    the acts of this event log of a run in lockstep or for the least task: `steps` makes the very same run
                of them, on the same image and with the same settings

    ./fractal lockstep 4 2 500 > script
    cat IMAGE script | ./fractal steps --tiles 4 --cores 2 > said
    ./fractal figures --script script said
"""
from __future__ import annotations

from typing import Any

from yotarimu.common.acts import ACTS
from yotarimu.common.outcome import Refusal
from yotarimu.common.words import Words, need_number
from yotarimu.courses.schedules import MOST_CORES, MOST_TILES, Act, lockstep, script_text
from yotarimu.lines.reader import open_lines

MOST_ROUNDS = 1_000_000
# An image and its script are at most so many bytes for the program.
MOST_BYTES = 67_108_864


def acts_of(path: str) -> list[Act]:
    """The acts in an event log."""
    with open_lines(path) as watched:
        if watched.head["course"] == "steps":
            raise Refusal(f"{path}: this run was made of a script, so it has one.")
        return [act_of(told.line) for told in watched if told.is_act()]


def act_of(line: dict[str, Any]) -> Act:
    """The act that makes a line of the log."""
    word = line["do"]
    return Act(word, *(line[name] for name in ("tile", "core")[:ACTS[word].numbers]))


def script_of(path: str) -> str:
    """The script of a logged run; refuses one that is too long for the program."""
    text = script_text(acts_of(path))
    if len(text) > MOST_BYTES:
        raise Refusal(f"{path}: its acts are more than {MOST_BYTES:,} bytes, the most that the program reads.")
    return text


def main(words: list[str]) -> None:
    """Does what the words of the call ask for."""
    given = Words("lockstep", page=__doc__).read(words)
    path = given.values["of"]
    if path is not None:
        if given.values["seed"] is not None:
            raise Refusal("--of LINES takes no --seed.")
        given.need("nothing beside --of LINES", 0)
        print(script_of(path), end="")
        return
    words = given.need("TILES, CORES and ROUNDS", 3)
    tiles = need_number("TILES", words[0], 1, MOST_TILES)
    cores = need_number("CORES", words[1], 1, MOST_CORES)
    rounds = need_number("ROUNDS", words[2], 1, MOST_ROUNDS)
    seed = given.number("seed")
    if rounds * len(script_text(lockstep(tiles, cores, 1))) > MOST_BYTES:
        raise Refusal(f"{rounds} rounds are more than {MOST_BYTES} bytes, the most that the program reads.")
    for act in lockstep(tiles, cores, rounds, seed):
        print(act)
