"""Tries of ./fractal study beside its tables: processes, shards, plots, and rows that are kept."""
from __future__ import annotations

import csv
import io
import re
from typing import Dict, List

from tries.files import picture_in
from tries.place import Place, expect, one_sentence_each
from tries.schedules import write_file

CHOICES = ("--tiles", "1,2,4", "--line", "4,64")


def rows_at(place: Place, name: str) -> List[Dict[str, str]]:
    """The rows of a file of CSV."""
    return list(csv.DictReader(io.StringIO((place.root / name).read_text())))


def walk_of(place: Place, size: str) -> str:
    """Writes a generated walk of a size to a file."""
    return write_file(place, "image", place.call("fractal generate", "walk", "7", size).output)


def shards_of_studies_are_joined(place: Place) -> None:
    """the shards of a study, joined in their order, are the whole study; all else is refused by its name"""
    place.needs_second_program()
    image = walk_of(place, "60")
    words = ("fractal study", image, *CHOICES)
    expect(place.call(*words, "--csv", "whole.csv", "--jobs", "2").status == 0, "a study")
    for shard in "1234":
        answer = place.call(*words, "--shard", f"{shard}/4", "--csv", f"{shard}.csv", "--columns", "fewer,rounds")
        expect(answer.status == 0 and b"| - |" in answer.output, "a shard without the first row", answer)
    answer = place.call("fractal study", "--join", "1.csv", "2.csv", "3.csv", "4.csv", "--csv", "all.csv",
                        "--plot", "rounds,tiles,a plot.svg")
    expect((answer.status, answer.output, answer.errors) == (0, b"", ""), "a join", answer)
    expect(rows_at(place, "all.csv") == rows_at(place, "whole.csv"), "the whole study")
    expect(place.call("fractal study", "--join", "whole.csv").output == (place.root / "whole.csv").read_bytes(),
           "a whole study as it was")
    expect("--line 64" in " ".join(picture_in((place.root / "a plot.svg").read_bytes())), "a line for each choice")
    place.call(*words[:2], "--csv", "other.csv", "--shard", "1/1")
    lines = (place.root / "2.csv").read_text().splitlines(keepends=True)
    (place.root / "short.csv").write_text("".join(lines[:-1]))
    (place.root / "odd.csv").write_text(lines[0] + "1,2\n")
    join = ("fractal study", "--join")
    one_sentence_each([
        (place.call(*join, "1.csv", "2.csv", "3.csv"), ["shard 4 of 4 is missing"]),
        (place.call(*join, "1.csv", "3.csv", "2.csv", "4.csv"), ["3.csv: this is shard 3 of 4", "shard 2"]),
        (place.call(*join, "2.csv"), ["2.csv: this is shard 2 of 4", "shard 1"]),
        (place.call(*join, "1.csv", "other.csv"), ["other.csv: this isn't of the same study as 1.csv"]),
        (place.call(*join, "1.csv", "short.csv", "3.csv", "4.csv"), ["short.csv", "choice 6 is missing"]),
        (place.call(*join, "1.csv", "1.csv"), ["stands twice"]),
        (place.call(*join, "odd.csv"), ["odd.csv:2:", "2 columns"]),
        (place.call(*join, image), ["no CSV of ./fractal study"]),
        (place.call(*join), ["a CSV"]),
        (place.call(*join, "1.csv", "--csv", "1.csv"), ["this is read"]),
        (place.call(*words, "--shard", "7/7"), ["shard 7 has nothing to do", "6 choices"]),
        (place.call(*words, "--shard", "0/7"), ["--shard takes K/N"]),
        (place.call(*words, "--plot", "rounds,tiles"), ["--plot takes COLUMN,OPTION,FILE"]),
        (place.call(*words, "--plot", "end,tiles,x.svg"), ["--plot takes COLUMN,OPTION,FILE"]),
        (place.call(*words, "--log", "x"), ["--log takes x, y, xy beside --plot"]),
    ])
    place.is_clean()


def columns_are_numbers(place: Place) -> None:
    """each cell of a study's CSV is one number, but for the image, the filter and the end, and no column is empty"""
    place.needs_second_program()
    place.call("fractal study", walk_of(place, "60"), *CHOICES, "--csv", "rows.csv", "--plot", "rounds,line,x.svg",
               "--log", "xy")
    rows = rows_at(place, "rows.csv")
    expect(len(rows) == 6, "six rows", rows)
    for row in rows:
        # Without a choice on one core there is no speed-up.
        odd = [name for name, value in row.items() if name not in ("image", "--filter", "end", "speedup")
               and not re.fullmatch(r"\d+(\.\d+)?(e[+-]\d+)?", value)]
        expect(not odd, "a number in each cell", odd)
    expect("logarithmic" in " ".join(picture_in((place.root / "x.svg").read_bytes())), "axes as they were asked for")


def rounds_are_held_against_whole_runs(place: Place) -> None:
    """the factor by which a run took fewer rounds is printed if it got as far as the first one, also by a join, else
    not"""
    place.needs_second_program()
    image = walk_of(place, "60")
    for words, wanted in (((), [True, True]), (("--rounds", "100"), [False, False]),
                          (("--commits", "50"), [True, True]), (("--commits", "50,60"), [True, False, True, False])):
        study = ("fractal study", image, "--tiles", "1,16", *words)
        answer = place.call(*study, "--columns", "fewer,end", "--csv", "whole.csv")
        rows = rows_at(place, "whole.csv")
        expect([row["fewer"] != "" for row in rows] == wanted, f"{wanted} with {words}", rows)
        shown = [line.split("|")[-3].strip() != "-" for line in answer.output.decode().splitlines()[2:]]
        expect(shown == wanted, f"the same in the table with {words}", answer)
        place.call(*study, "--shard", "1/2", "--csv", "1.csv")
        place.call(*study, "--shard", "2/2", "--csv", "2.csv")
        place.call("fractal study", "--join", "1.csv", "2.csv", "--csv", "all.csv")
        expect(rows_at(place, "all.csv") == rows, f"the same by a join with {words}", rows_at(place, "all.csv"))
    one_sentence_each([
        (place.call("fractal study", image, "--columns", "rond"), ["unknown column rond; did you mean ", "round"]),
        (place.call("fractal study", image, "--plot", "fewr,tiles,x.svg"), ["`fewr` isn't a column", "fewer"]),
        (place.call("fractal study", image, "--plot", "fewer,tile,x.svg"), ["`tile` isn't an option", "tiles"]),
        (place.call("fractal sweep", image, "--plot", "sec,tiles,x.svg"), ["`sec` isn't a column", "status, commits"]),
    ])


def ended_studies_keep_their_rows(place: Place) -> None:
    """a study that is interrupted has the rows that were known by then as CSV, says so, and leaves no process"""
    place.needs_second_program()
    image = walk_of(place, "60")
    mark = place.root / "slow"
    program = place.stub(place.root / "program", f"case $* in *'--tiles 4'*) touch '{mark}'; exec sleep 100 ;; esac\n"
                                                 f"exec '{place.second_program}' \"$@\"\n")
    # One at a time, so that two rows are known once the third choice is played.
    words = ("fractal study", image, "--tiles", "1,2,4", "--csv", "rows.csv", "--watch", str(program))
    answer = place.interrupt(*words, ready=mark.exists)
    expect(answer.status == 130 and "rows.csv has 2 of 3 rows" in answer.errors, "a sentence", answer)
    expect([row["--tiles"] for row in rows_at(place, "rows.csv")] == ["1", "2"], "the rows")
    place.is_clean()


def progress_within_choices_is_shown(place: Place) -> None:
    """on a terminal one line shows in which round each choice is that is played"""
    place.needs_second_program()
    answer = place.on_terminal("fractal study", walk_of(place, "2000"), "--tiles", "1,2", "--jobs", "2")
    answer.tells("0 of 2 choices; choice 1 in round ", "choice 2 in round ")


TRIES = (shards_of_studies_are_joined, columns_are_numbers, rounds_are_held_against_whole_runs,
         ended_studies_keep_their_rows, progress_within_choices_is_shown)
