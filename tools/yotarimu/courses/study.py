"""Images that are played in lockstep, once for each choice of options."""
from __future__ import annotations

import dataclasses
import functools
from collections.abc import Iterator, Mapping, Sequence
from typing import BinaryIO, Optional

from yotarimu.common.crew import Crew, Tell
from yotarimu.common.outcome import Refusal, is_at_terminal
from yotarimu.common.progress import show_line
from yotarimu.courses.grid import Shard
from yotarimu.courses.study_rows import SEED, Choice, StudyRows, StudyTable, head_of
from yotarimu.figures.columns import COLUMNS, Row, row_of_figures
from yotarimu.figures.counted import COUNTED, figures_of_counts
from yotarimu.figures.run import Figures, figures_of
from yotarimu.lines.counts_text import CountsText
from yotarimu.lines.reader import Reader
from yotarimu.programs.calls import Calls
from yotarimu.programs.table import Option, Table, option_words

# The statuses of a run that was told to its end.
TOLD = (0, 3, 4)
# The end of a run that wasn't, before the status of the program.
NO_ANSWER = "none: status "
# How far a choice has come is counted once in so many rounds.
ROUNDS_BETWEEN = 1_000
STARVED = "starved"


def grid_options(table: Table) -> dict[str, Option]:
    """The options of a study's grid: those of the program, and two arguments of its lockstep mode."""
    return {**table.mode_options,
            STARVED: Option(STARVED, table.numbers[STARVED], 16, "starved rounds before the least task is advanced"),
            SEED: Option(SEED, table.numbers["SEED"], 0, "the seed that shuffles the acts of each round")}


def lockstep_words(rounds: int, choice: Choice) -> list[str]:
    """The words of a call that plays a choice."""
    options = {name: value for name, value in choice.options.items() if name not in (SEED, STARVED)}
    starved = [STARVED, str(choice.options[STARVED])] if STARVED in choice.options else []
    return ["lockstep", str(rounds), str(choice.options.get(SEED, 0)), *starved, *option_words(options)]


@dataclasses.dataclass
class Study:
    """Images that are played, and how."""
    images: Mapping[str, bytes]
    rounds: int
    columns: Sequence[str]
    calls: Calls
    # Which program plays them.
    program: str
    shard: Shard = Shard()
    # Whether counts are enough for all that is told of it.
    is_counted: bool = False

    def need_images(self) -> None:
        """Refuses what no choice can play, before anything is written."""
        for name, image in self.images.items():
            _, told = self.calls.read(["steps"], image, functools.partial(Reader, name=name))
            if isinstance(told, Refusal):
                raise told

    def row(self, choice: Choice, tell: Tell) -> Row:
        """The row of a choice. Reports now and then how many rounds were played."""
        words = lockstep_words(self.rounds, choice)
        if self.is_counted:
            words = ["counts", "every", str(ROUNDS_BETWEEN), *words]
        status, figures = self.calls.read(words, self.images[choice.image], functools.partial(self.figures, tell=tell))
        if status not in TOLD or figures is None:
            return Row(f"{NO_ANSWER}{status}")
        if isinstance(figures, Refusal):
            raise figures
        end = f"none in {self.rounds:,} rounds" if figures.end == "open" else figures.end
        return row_of_figures(end, figures, COUNTED if self.is_counted else COLUMNS)

    def figures(self, file: BinaryIO, tell: Tell) -> Figures:
        """The figures of a run, made while its log is read. Reports acts or rounds now and then."""
        if self.is_counted:
            return figures_of_counts(CountsText(file, "fractal_watch"), tell)
        watched = Reader(file, "fractal_watch")
        rounds = watched.machine.rounds
        return figures_of(watched, lambda act: tell(act if rounds is None else rounds.number))


class PlayedRows(StudyRows):
    """The rows of a study that is played."""

    def __init__(self, study: Study, choices: Sequence[Choice]) -> None:
        super().__init__(study.shard.of(choices), study.shard.count == 1)
        self.study, self.choice_count = study, len(choices)

    def play(self, jobs: int) -> Iterator[Choice]:
        """Plays the choices, so many at once, and yields each in order as soon as its line can be shown."""
        progress = Progress(self)
        waiting = list(self.choices)[::-1]
        for told in Crew(self.study.row, jobs).each(self.choices):
            choice = self.choices[told.place]
            progress.note(choice, None if told.is_last else told.what)
            if told.is_last:
                self.rows[choice.number] = told.what
            while waiting and self.is_ready(waiting[-1]):
                progress.clear()
                yield waiting.pop()
            progress.show()
        progress.clear()

    def known_cells(self, options: Sequence[str]) -> list[list[str]]:
        """The rows that are known, with all columns of CSV, under their head."""
        shard = self.study.shard
        return self.cells(head_of(options), self.study.program, (shard.number, shard.count), self.choice_count)


class Progress:
    """How far the choices have come, on one line of a terminal that shows no rows itself."""

    def __init__(self, played: PlayedRows) -> None:
        self.played = played
        self.is_shown = is_at_terminal()
        self.rounds: dict[int, int] = {}

    def note(self, choice: Choice, rounds: Optional[int]) -> None:
        """Takes how many rounds of a choice were played, or that it is done."""
        if rounds is None:
            self.rounds.pop(choice.number, None)
        else:
            self.rounds[choice.number] = rounds

    def show(self) -> None:
        """Shows how far each choice is, on a terminal."""
        if self.is_shown and self.rounds:
            now = ", ".join(f"choice {number} in round {rounds:,}" for number, rounds in sorted(self.rounds.items()))
            show_line(f"study: {len(self.played.rows)} of {len(self.played.choices)} choices; {now}")

    def clear(self) -> None:
        """Takes the line of progress away."""
        if self.is_shown:
            show_line("")


def tell(played: PlayedRows, varying: Sequence[str], jobs: int) -> None:
    """Prints the table line by line, as soon as each is known."""
    shown = StudyTable(played, played.study.columns, varying, len(played.study.images) > 1)
    print(*shown.head(), sep="\n", flush=True)
    groups = list(played.groups())[::-1]
    for choice in played.play(jobs):
        if choice is groups[-1][-1]:
            print(shown.line(groups.pop()), flush=True)
    for note in shown.notes():
        print(f"\n{note}")


def table_lines(played: StudyRows, columns: Sequence[str]) -> list[str]:
    """The table of a study that was played, and what its marks mean."""
    images = {choice.image for choice in played.choices}
    names = list(played.choices[0].options) if played.choices else []
    varying = [name for name in names if len({choice.options[name] for choice in played.choices}) > 1]
    shown = StudyTable(played, columns, varying, len(images) > 1)
    lines = [*shown.head(), *map(shown.line, played.groups())]
    return lines + [line for note in shown.notes() for line in ("", note)]
