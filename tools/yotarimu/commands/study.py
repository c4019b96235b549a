"""Plays images in lockstep up to the end of their runs, once for each choice of options, and prints a table of how fast
each was, which tasks were aborted, and where core time went.

usage: ./fractal study IMAGE... [--OPTION VALUES]... [ARGUMENT]...
       ./fractal study --join CSV... [--csv FILE] [--columns NAMES] [--plot COLUMN,OPTION,FILE] [--bars FILE]
       ./fractal study --page PAGE [--sections NAMES] [--write]
       ./fractal study --columns list

OPTION is one of `./fractal watch`, seed or starved. VALUES are numbers with commas between, or FROM..TO, or
FROM..TO..STEP; of --filter they are words with commas between. The table has a line for each image and each choice of
one value for each option, which is printed as soon as it is known. Each choice is played by `./fractal watch lockstep`.

  --seed VALUES              seeds that shuffle the acts of each round; 0, the default, shuffles nothing. With several
                             seeds a line has the mean and the sample standard deviation
  --starved VALUES           starved rounds after which the least task is advanced by force (default 16)
  --machines LIST            TILESxCORES with commas between, such as 1x1,1x4,4x4,16x4, in place of --tiles and --cores
  --time UNIT                what takes a round: a step of each core, or one instruction of each core, which is the
                             same as --quantum 1 (rounds or instructions; default rounds)
  --rounds N                 at most so many rounds (1 to 1,000,000; default 1,000,000)
  --columns NAMES            columns of the table, with commas between; `list` prints their names
  --counts                   reads counts instead of the event log, for columns that need no more
  --csv FILE                 all columns as CSV, a row for each run. If the study is ended early, FILE has the rows that
                             were known by then. With --counts the columns that need the log are empty
  --jobs N                   so many choices are played at once, in processes (1 to 1,024; default 1)
  --shard K/N                only each N-th choice, from the K-th on
  --plot COLUMN,OPTION,FILE  a plot of a column against an option, or against all-cores; a line for each choice of the
                             rest, with error bars of one standard deviation over seeds. FILE ends in .svg or, if
                             rsvg-convert is installed, in .pdf. Of several images each has a panel of its own
  --bars FILE                stacked bars of where core time went, a bar for each choice
  --log AXES                 the plot's axes that are logarithmic (x, y or xy)
  --watch FILE               a built fractal_watch in place of the one that answers here
  --join                     joins the CSV of shards 1 to N, given in this order, or takes that of a whole study
  --page PAGE                calls the commands of a page such as docs/machine/STUDY_TABLES.md, one after another, and
                             compares each table after some of them with what they print
  --sections NAMES           of the page only the commands under these headlines, with commas between, and those that
                             write a file which they name
  --write                    replaces the tables of the page that differ

Some columns, which the list marks, need the event log of the run, which is read line by line: 10,000 to 100,000 lines a
second, and a line for each act. All others come from counts, which the program makes as it goes: about a million acts a
second. One marked column makes a choice read the log. docs/machine/FIGURES.md defines each column.

The program has 4 GiB of memory for each run; YOTARIMU_MEMORY=N gives it N GiB. A run that wants more has a line that
says `none: status 5`.

A run without an end has a line that says so, with its numbers up to there. The status is 1 if no run ended, or if a
table of the page differs. `fewer` compares the rounds with the first row of the same image and seed, and `speedup` with
the same choice on one core, if the grid has it; both need runs that came equally far. A shard doesn't compare; the join
does. A row in which the least task was advanced by force is marked, and so is a comparison of runs that committed other
work. --workers makes no difference.
"""
from __future__ import annotations

from collections.abc import Collection, Iterator, Mapping, Sequence
from typing import Optional, Union

from yotarimu.common.files import need_outputs, read_bytes, write_whole
from yotarimu.common.outcome import Refusal, say
from yotarimu.common.text import likely
from yotarimu.common.words import GivenWords, Words
from yotarimu.courses import page_tables
from yotarimu.courses.grid import MOST_RUNS, cells_of, shard_of, values_of
from yotarimu.courses.row_pictures import BarPicture, Picture, picture_of
from yotarimu.courses.shards import join_shards
from yotarimu.courses.study import NO_ANSWER, PlayedRows, Study, grid_options, table_lines, tell
from yotarimu.courses.study_rows import Choice, csv_of, rows_in, rows_of_csv
from yotarimu.figures.columns import COLUMNS, END, UNLESS_TOLD
from yotarimu.figures.counted import COUNTED
from yotarimu.programs.calls import Calls
from yotarimu.programs.program import SECOND, program_at
from yotarimu.programs.table import Option, Table, Value, why_no_answer

LIST = "list"
# The options of a join, and of a page.
JOIN, PAGE = ("join", "csv", "columns", "plot", "log", "bars"), ("page", "sections", "write")
# The values of options by their names.
Seen = Mapping[str, Optional[str]]


def paths_in(given: GivenWords, what: str) -> list[str]:
    """The names of files or images, each once."""
    paths = given.need(what, 1, MOST_RUNS)
    if len(set(paths)) < len(paths):
        raise Refusal(f"{what} stands twice.")
    return paths


def column_lines() -> Iterator[str]:
    """The name and the head of each column, with a mark if it needs the event log."""
    for name, it in COLUMNS.items():
        yield f"{name:<23}{it.head}{'' if name in COUNTED else ' (log)'}"


def columns_of(text: Optional[str]) -> list[str]:
    """The names of the columns that are wanted."""
    names = list(UNLESS_TOLD) if text is None else text.split(",")
    unknown = next((name for name in names if name not in COLUMNS and name != END), None)
    if unknown is not None:
        raise Refusal(f"--columns: unknown column {unknown}{likely(unknown, [*COLUMNS, END])}")
    return names


def machines_of(text: Optional[str], grid: Mapping[str, Option]) -> list[dict[str, list[Value]]]:
    """The values of --tiles and --cores for each machine of a list such as `1x1,4x2`; nothing without a list."""
    if text is None:
        return [{}]
    found = []
    for piece in text.split(","):
        tiles, cross, cores = piece.partition("x")
        if not cross:
            raise Refusal(f"--machines takes TILESxCORES with commas between, such as 1x1,4x4, and not `{piece}`.")
        found.append({name: values_of(grid[name], value) for name, value in (("tiles", tiles), ("cores", cores))})
    return found


def values_in_words(texts: Mapping[str, Optional[str]], grid: Mapping[str, Option],
                    time: Optional[str]) -> dict[str, list[Value]]:
    """The values of each option that is given; time in instructions has a quantum of one."""
    values = {name: values_of(grid[name], text) for name, text in texts.items() if text is not None}
    if time == "instructions" and values.setdefault("quantum", [1]) != [1]:
        raise Refusal("--time instructions has a quantum of 1, so it takes no other --quantum.")
    return values


def choices_of(paths: Sequence[str], texts: Mapping[str, Optional[str]], seen: Mapping[str, Optional[str]],
               grid: Mapping[str, Option]) -> list[Choice]:
    """The choices of a study: each image with each choice of one value for each option."""
    values, machines = values_in_words(texts, grid, seen["time"]), machines_of(seen["machines"], grid)
    if seen["machines"] is not None and {"tiles", "cores"} & set(values):
        raise Refusal("--machines has the tiles and the cores, so it takes neither --tiles nor --cores beside it.")
    cells = [(path, cell) for path in paths for machine in machines
             for cell in cells_of(grid, {**values, **machine}, "choices")]
    if len(cells) > MOST_RUNS:
        raise Refusal(f"the grid has {len(cells):,} choices, and {MOST_RUNS:,} are the most.")
    return [Choice(number, *cell) for number, cell in enumerate(cells, 1)]


def study_of(given: GivenWords, grid: Mapping[str, Option]) -> tuple[PlayedRows, list[str], Seen]:
    """The study that the words ask for, the options that vary, and the values of the other words."""
    is_counted, seen = "counts" in given.flags, given.values
    texts, paths = {name: seen[name] for name in grid}, paths_in(given, "an IMAGE")
    choices = choices_of(paths, texts, seen, grid)
    shard = shard_of(seen["shard"])
    if not shard.of(choices):
        raise Refusal(f"shard {shard.number} has nothing to do, as there are {len(choices)} choices.")
    program = program_at(seen["watch"], SECOND)
    columns = columns_of(seen["columns"])
    is_enough = {*columns} <= {*COUNTED, END}
    if is_counted and not is_enough:
        lacking = next(name for name in columns if name not in (*COUNTED, END))
        raise Refusal(f"--counts has no column {lacking}, which needs the event log.")
    # Without --counts a file and a plot may have each column.
    is_counted |= is_enough and all(seen[name] is None for name in ("csv", "plot", "bars"))
    study = Study({path: read_bytes(path) for path in paths}, given.number("rounds"), columns, Calls(program.command),
                  program.identity, shard, is_counted)
    varying = [name for name in grid if len({choice.options[name] for choice in choices}) > 1]
    return PlayedRows(study, choices), varying, seen


def pictures_of(seen: Mapping[str, Optional[str]], options: Collection[str]) -> list[Union[Picture, BarPicture]]:
    """The pictures that the words ask for."""
    plot, bars = picture_of(seen["plot"], seen["log"], COLUMNS, options), seen["bars"]
    return [*([plot] if plot else []), *([BarPicture(bars)] if bars else [])]


def play(given: GivenWords, grid: Mapping[str, Option]) -> int:
    """Plays the choices of a study, or the rest of them, and prints the table."""
    played, varying, seen = study_of(given, grid)
    pictures, path = pictures_of(seen, grid), seen["csv"]
    need_outputs([path, *(picture.path for picture in pictures)], list(played.study.images))
    played.study.need_images()
    try:
        tell(played, varying, given.number("jobs"))
    finally:
        if path is not None and played.rows:
            write_whole({path: csv_of(played.known_cells(list(grid)))})
            if len(played.rows) < len(played.choices):
                say("study", f"{path} has {len(played.rows)} of {len(played.choices)} rows.")
    for picture in pictures:
        write_whole(picture.files(rows_in(played.known_cells(list(grid))), "this study"))
    for end in dict.fromkeys(row.end for row in played.rows.values()):
        if end.startswith(NO_ANSWER):
            say("study", why_no_answer(int(end.removeprefix(NO_ANSWER))))
    if all(row.end.startswith("none") for row in played.rows.values()):
        say("study", "no run ended.")
        return 1
    return 0


def join(given: GivenWords, grid: Mapping[str, Option]) -> int:
    """Joins what shards wrote."""
    given.need_only(JOIN, "--join")
    seen, paths = given.values, paths_in(given, "a CSV")
    pictures, path = pictures_of(seen, grid), seen["csv"]
    need_outputs([path, *(picture.path for picture in pictures)], paths)
    cells = join_shards(paths)
    files = {} if path is None else {path: csv_of(cells)}
    for picture in pictures:
        files.update(picture.files(rows_in(cells), ", ".join(paths)))
    if seen["columns"] is not None:
        print(*table_lines(rows_of_csv(cells), columns_of(seen["columns"])), sep="\n")
    elif not files:
        print(csv_of(cells).decode(), end="")
    write_whole(files)
    return 0


def main(words: list[str]) -> int:
    """Does what the words of the call ask for, and gives the status."""
    grid = grid_options(Table())
    given = Words("study", grid, more_help=", ./fractal help watch the program's", page=__doc__).read(words)
    page = given.values["page"]
    if page is not None:
        given.need_only(PAGE, "--page")
        given.need("no IMAGE beside --page", 0)
        return page_tables.main(page, given.values["sections"], "write" in given.flags)
    if given.values["columns"] == LIST:
        print(*column_lines(), sep="\n")
        return 0
    return join(given, grid) if "join" in given.flags else play(given, grid)
