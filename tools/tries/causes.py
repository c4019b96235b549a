"""Integration tests of the causes of aborts that ./fractal explain finds in event logs."""
from __future__ import annotations

import csv
import io
import itertools
import json
import pathlib

from tests.conflict_model import conflicts_held
from yotarimu.lines.filters import FILTERS
from yotarimu.lines.reader import Reader
from yotarimu.programs.examples import SCHEDULES

from tries.place import Failure, Place, expect, one_sentence_each

# Of schedules: the event, the task, what took it, what they share, and the word of the root, as their pages tell them.
TAKEN_BACK: dict[str, list[tuple[str, ...]]] = {
    "conflict": [("6", "0.0", "access", "true", "store"), ("6", "0.0+0", "child", "", "store")],
    "by_hand": [("6", "0.0", "access", "true", "store"), ("6", "0.0+0", "child", "", "store")],
    "commit_queue": [("4", "0.1", "room", "", "commit queue")],
    "commit_wait": [],
    "two_lines": [("4", "0.0", "access", "alias", "store")],
    "two_lines_apart": [],
}
# By a filter that tells the lines 1,024 and 0 apart.
BY_OTHER_FILTERS: dict[str, list[tuple[str, ...]]] = {**TAKEN_BACK, "two_lines": []}
# A walk whose lines of 4 bytes are more than a row has bits.
WALK, IN_ROUNDS = ("walk", "7", "1000"), ("lockstep", "1000", "0", "--tiles", "16", "--cores", "4", "--line", "4")


def paths(place: Place, name: str) -> tuple[str, str]:
    """The image and the stored lines of a schedule."""
    folder = place.clone / "examples" / "schedules" / name
    return str(folder / "image.bin"), str(folder / "lines")


def causes_are_explained(place: Place) -> None:
    """for stored event logs each aborted task is listed with its cause, in words, as JSON and as CSV"""
    image, lines = paths(place, "conflict")
    answer = place.call("fractal explain", image, lines)
    text = answer.output.decode()
    for part in ("2 tasks were aborted, and 3 committed", "reader: it loaded 0 from first at task.s:",
                 "and 0.1 stores there at task.s:", "child (discarded): 0.0, which made it, was aborted",
                 "1  met by the access itself, sharing a byte", "2  store: a byte"):
        expect(answer.status == 0 and part in text, f"`{part}`", answer)
    told = json.loads(place.call("fractal explain", image, lines, "--json").output)
    expect([(it["task"], it["kind"], it["is_discarded"], it["work"]) for it in told]
           == [("0.0", "access", False, 10), ("0.0+0", "child", True, 0)], "both tasks", told)
    rows = list(csv.DictReader(io.StringIO(place.call("fractal explain", image, lines, "--csv").output.decode())))
    expect([it["root_task"] for it in rows] == ["0.0", "0.0"], "one root", rows)


def causes_of_schedules_are_those_of_their_pages(place: Place) -> None:
    """each schedule aborts the tasks that its page lists, for the causes given there, with a filter of each kind"""
    place.needs_second_program()
    for kind, name in itertools.product(FILTERS, SCHEDULES):
        folder = place.clone / "examples" / name
        wanted = (TAKEN_BACK if kind == "modulo" else BY_OTHER_FILTERS).get(folder.name)
        if wanted is None:
            continue
        lines = place.root / "lines"
        lines.write_bytes(lines_of(place, folder, kind))
        answer = place.call("fractal explain", str(folder / "image.bin"), str(lines), "--csv")
        rows = [tuple(row[it] for it in ("event", "task", "kind", "shares", "root"))
                for row in csv.DictReader(io.StringIO(answer.output.decode()))]
        expect(rows == wanted, f"what {folder.name} aborts by the filter {kind}", answer)


def lines_of(place: Place, folder: pathlib.Path, kind: str) -> bytes:
    """The event log of a schedule with a filter of a kind."""
    data = (folder / "image.bin").read_bytes() + (folder / "script").read_bytes()
    return place.call("fractal watch", *(folder / "words").read_text().split(), "--filter", kind, stdin=data).output


def filters_take_back_what_the_model_tells(place: Place) -> None:
    """with a filter of each kind exactly those tasks are aborted that the model of filters expects, on each schedule
    and on a walk in rounds"""
    place.needs_second_program()
    walk = place.call("fractal generate", *WALK).output
    taking = {}
    for kind in FILTERS:
        for name in SCHEDULES:
            hold_conflicts(lines_of(place, place.clone / "examples" / name, kind), f"{name} by the filter {kind}")
        told = place.call("fractal watch", *IN_ROUNDS, "--filter", kind, stdin=walk).output
        taking[kind] = hold_conflicts(told, f"the walk by the filter {kind}")
    expect(taking["exact"] < taking["modulo"], "fewer events that abort tasks by an exact filter", taking)


def hold_conflicts(lines: bytes, what: str) -> int:
    """Checks an event log against the model; returns how many events aborted tasks."""
    try:
        return conflicts_held(Reader(io.BytesIO(lines), "fractal_watch"))
    except AssertionError as differing:
        raise Failure(f"{what}: {differing}") from None


def odd_lines_are_not_explained(place: Place) -> None:
    """lines of another image, cut ones and a picture of them are refused in a sentence"""
    image, lines = paths(place, "conflict")
    (place.root / "cut").write_text(pathlib.Path(lines).read_text()[:900])
    (place.root / "fault").write_text('{"fault":"usage"}\n')
    explain = "fractal explain"
    one_sentence_each([
        (place.call(explain, image, lines, "--picture"), ["lines have no tree of tasks"]),
        (place.call(explain, paths(place, "two_lines")[0], lines), ["lines:1: `text` is 18, and of the image it is "]),
        (place.call(explain, image, "cut"), ["cut:", "isn't whole"]),
        (place.call(explain, image, "fault"), ["fault:1: the program printed a fault instead of a run: usage"]),
        (place.call(explain, image, "nowhere"), ["nowhere", "no such file"]),
    ])


TRIES = (causes_are_explained, causes_of_schedules_are_those_of_their_pages, filters_take_back_what_the_model_tells,
         odd_lines_are_not_explained)
