"""Integration tests of rounds in lockstep: one shuffle for scripts and for `fractal_watch`, and the script of a run."""
from __future__ import annotations

import json
from typing import Any, Dict, List, Sequence

from tries.place import Place, expect, one_sentence_each
from tries.schedules import write_file

# Small queues, so that tasks are spilled and steps stall.
SETTINGS = ("--tiles", "3", "--cores", "2", "--task-queue", "8", "--commit-queue", "2", "--phase", "2")
ROUNDS = 4_000
Line = Dict[str, Any]


def told_lines(place: Place, image: bytes, *words: str, settings: Sequence[str] = SETTINGS) -> List[Line]:
    """The event log of a run, without the head."""
    answer = place.call("fractal", "watch", *words, *settings, stdin=image)
    return [json.loads(line) for line in answer.output.splitlines()][1:]


def without_passed(lines: List[Line]) -> List[Line]:
    """The lines without where each act stood, and without acts that a round passes over."""
    kept = []
    for line in lines:
        is_step = line.get("do") == "step"
        if "reply" not in line or line["reply"] == "ok" or is_step and line["reply"] == "stall":
            kept.append({name: value for name, value in line.items() if name != "at"})
    return kept


def one_shuffle(place: Place) -> None:
    """`watch lockstep` makes the acts of the script that `lockstep` writes for that seed, in its order and no other"""
    place.needs_second_program()
    for kind, size in (("nest", "12"), ("walk", "60")):
        image = place.call("fractal generate", kind, "7", size).output
        runs = []
        for seed in ("0", "7", "4294967295"):
            script = place.call("fractal lockstep", "3", "2", str(ROUNDS), "--seed", seed).output
            rounds = told_lines(place, image, "lockstep", str(ROUNDS), seed)
            steps = told_lines(place, image + script, "steps")
            runs.append(without_passed(rounds))
            expect(rounds[-1]["end"] == "normal" and any(line.get("reply") == "stall" for line in rounds),
                   "a run with stalls up to its end", rounds[-1])
            expect(runs[-1] == without_passed(steps), f"the same lines of {kind} by {seed}")
        expect(runs[0] != runs[1] != runs[2], "another run for each seed")
        plain = place.call("fractal lockstep", "3", "2", "9").output
        expect(place.call("fractal lockstep", "3", "2", "9", "--seed", "0").output == plain, "0 shuffles nothing")


def runs_have_scripts(place: Place) -> None:
    """the script of a run in lockstep or for the least task makes the very same run; that of a script is refused"""
    place.needs_second_program()
    image = place.call("fractal generate", "nest", "7", "12").output
    for mode in (("lockstep", str(ROUNDS), "0"), ("lockstep", str(ROUNDS), "7"), ("least",)):
        answer = place.call("fractal", "watch", *mode, *SETTINGS, stdin=image)
        lines = write_file(place, "lines", answer.output)
        script = place.call("fractal lockstep", "--of", lines).output
        again = told_lines(place, image + script, "steps")
        first = [json.loads(line) for line in answer.output.splitlines()][1:]
        expect(len(script.splitlines()) == sum("reply" in line for line in first), "an act for each line")
        for one, other in zip(first, again):
            expect({**one, "at": 0} == {**other, "at": 0}, f"the same line of {mode}", (one, other))
        expect(len(first) == len(again), f"as many lines of {mode}", (len(first), len(again)))
    steps = write_file(place, "steps", place.call("fractal", "watch", "steps", stdin=image).output)
    cut = write_file(place, "cut", (place.root / "lines").read_bytes()[:-1])
    one_sentence_each([
        (place.call("fractal lockstep", "--of", steps), ["steps: this run was made of a script"]),
        (place.call("fractal lockstep", "--of", cut), ["no newline"]),
        (place.call("fractal lockstep", "--of", "nowhere"), ["nowhere", "no such file"]),
        (place.call("fractal lockstep", "--of", steps, "2"), ["--of LINES"]),
        (place.call("fractal lockstep", "--of"), ["needs a value"]),
    ])


def livelocks_end(place: Place) -> None:
    """the rounds of the schedule `livelock` repeat one state; once the least task is advanced, all tasks commit"""
    place.needs_second_program()
    folder = place.clone / "examples" / "schedules" / "livelock"
    image, script = (folder / "image.bin").read_bytes(), (folder / "script").read_bytes()
    settings = (folder / "words").read_text().split()[1:]
    expect(place.call("fractal lockstep", "2", "1", "30").output == script, "the script of thirty rounds")
    lines = told_lines(place, image + script, "views", "8", "steps", settings=settings)
    views = [line["tiles"] for line in lines if "view" in line]
    expect(len(views) == 30 and views[3] != views[4] and all(view == views[4] for view in views[4:]),
           "one view after each round from the fifth on", views)
    for words, end, journal in (((), "normal", 7), (("starved", "30"), "open", 1)):
        last = told_lines(place, image, "lockstep", "30", "0", *words, settings=settings)[-1]
        expect((last["end"], last["journal"]) == (end, journal), f"the end of rounds {words}", last)


TRIES = (one_shuffle, runs_have_scripts, livelocks_end)
