"""Integration tests of the counts that `fractal_watch` prints: each is the sum over its event log."""
from __future__ import annotations

import io
import random
from collections.abc import Sequence

from yotarimu.common.outcome import Refusal
from yotarimu.courses.schedules import read_script
from yotarimu.figures.columns import COLUMNS, END
from yotarimu.figures.counted import COUNTED, figures_of_counts
from yotarimu.figures.counts import LineCounts
from yotarimu.figures.run import figures_of
from yotarimu.lines.counts_text import CountsText
from yotarimu.lines.reader import Reader
from yotarimu.programs.examples import SCHEDULES

from tries.place import Place, expect

GENERATED = 200


def told(place: Place, image: bytes, *words: str) -> bytes:
    """What `fractal_watch` prints."""
    answer = place.call("fractal", "watch", *words, stdin=image)
    expect(answer.status in (0, 3, 4), "a run that was printed to its end", answer)
    return answer.output


def counts_of_lines(text: bytes, each: int, script: Sequence[str]) -> list[str]:
    """The lines of counts that an event log adds up to: one after every so many rounds, or acts in a log without
    rounds, and one at the end."""
    watched = Reader(io.BytesIO(text), "lines")
    sums = LineCounts(watched.machine, each, script)
    for line in watched:
        sums.note(line)
    assert watched.end is not None
    sums.close(watched.end["end"])
    return [*sums.due, sums.text()]


def hold(place: Place, image: bytes, mode: Sequence[str], options: Sequence[str], each: int,
         script: Sequence[str] = ()) -> None:
    """Holds all lines of counts of a run against what its lines add up to, and its figures against those of the
    lines."""
    lines = told(place, image, *mode, *options)
    every = ("every", str(each)) if each else ()
    counted = told(place, image, "counts", *every, *mode, *options)
    first, *found, last = counted.decode().splitlines()
    what = " ".join((*mode, *options))
    expect((first, last) == (lines.decode().splitlines()[0], lines.decode().splitlines()[-1]),
           f"the head and the end of {what}")
    wanted = counts_of_lines(lines, each, script)
    expect(len(found) == len(wanted), f"{len(wanted)} lines of counts of {what}", len(found))
    for number, (one, other) in enumerate(zip(found, wanted)):
        expect(one == other, f"counts {number} of {what}: {other}", one)
    sums, whole = figures_of_counts(CountsText(io.BytesIO(counted), "counts")), figures_of(
        Reader(io.BytesIO(lines), "lines"))
    for name in COUNTED:
        if name != END:
            expect(COLUMNS[name].number(sums) == COLUMNS[name].number(whole), f"column {name} of {what}")


def schedules_are_counted(place: Place) -> None:
    """the counts of each schedule are what its event log adds up to, after every third act and at the end"""
    place.needs_second_program()
    for schedule in SCHEDULES:
        folder = place.clone / "examples" / schedule
        text = (folder / "script").read_text()
        image = (folder / "image.bin").read_bytes() + text.encode()
        script = [act.word for act in read_script(text, folder / "script")]
        options = (folder / "words").read_text().split()[1:]
        for each in (0, 3):
            hold(place, image, ["steps"], options, each, script)


def runs_are_counted(place: Place) -> None:
    """so they are of 200 generated runs, for the least task and in rounds, on many machines"""
    place.needs_second_program()
    chance = random.Random(58)
    for number in range(GENERATED):
        kind, size = chance.choice((("walk", chance.randint(1, 60)), ("nest", chance.randint(1, 12))))
        image = place.call("fractal generate", kind, str(chance.randint(0, 999)), str(size)).output
        options = ["--tiles", str(chance.randint(1, 16)), "--cores", str(chance.randint(1, 4)), "--task-queue",
                   str(chance.choice((4, 5, 8, 16, 256))), "--commit-queue", str(chance.choice((1, 2, 4, 64))),
                   "--line", chance.choice(("4", "16", "64")), "--quantum", str(chance.choice((1, 3, 64))),
                   "--phase", str(chance.choice((1, 2, 1000000))), "--commits", str(chance.choice((5, 1000000))),
                   "--filter", chance.choice(("modulo", "bloom", "exact"))]
        rounds = str(chance.choice((3, 20, 4000)))
        mode = ["least"] if number % 10 == 0 else ["lockstep", rounds, str(chance.choice((0, 7, 4294967295))),
                                                   "starved", str(chance.choice((1, 2, 16)))]
        hold(place, image, mode, options, chance.choice((0, 1, 7)))


def words_of_counts(place: Place) -> None:
    """arguments that can't be combined with counts, or can't follow it, are refused in a line"""
    place.needs_second_program()
    for words in (["counts"], ["counts", "every", "0", "least"], ["counts", "counts", "least"],
                  ["counts", "memory", "least"], ["counts", "views", "2", "least"], ["views", "2", "counts", "least"],
                  ["counts", "every", "least"], ["memory", "counts", "least"]):
        answer = place.call("fractal", "watch", *words, stdin=b"")
        expect((answer.status, answer.output) == (1, b'{"fault":"usage"}\n'), f"a fault of {' '.join(words)}", answer)


def texts_of_counts_are_read(place: Place) -> None:
    """a text of counts that was cut or changed is refused"""
    place.needs_second_program()
    image = place.call("fractal generate", "nest", "7", "3").output
    text = told(place, image, "counts", "least").decode().splitlines(keepends=True)
    for lines in (text[:-1], [text[0], text[-1]], [text[0], text[1].replace('"work":{', '"works":{'), text[2]],
                  [text[0], text[1].replace('"useful":', '"useless":'), text[2]]):
        try:
            CountsText(io.BytesIO("".join(lines).encode()), "counts").all()
        except Refusal:
            continue
        expect(False, "a refusal", lines)


TRIES = (schedules_are_counted, runs_are_counted, words_of_counts, texts_of_counts_are_read)
