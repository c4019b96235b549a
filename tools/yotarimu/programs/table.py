"""The launcher's table: the programs' commands, options and statuses, and the launcher's own commands."""
from __future__ import annotations

import dataclasses
import subprocess
from collections.abc import Mapping, Sequence
from typing import Optional, Union

from yotarimu.common.outcome import Refusal
from yotarimu.common.words import number_in
from yotarimu.programs.calls import limit_told
from yotarimu.programs.program import LAUNCHER, need_launcher

MOST_VALUE = 2 ** 32 - 1
NO_MEMORY = 5
# What an option may be: a number, or one of some words.
Value = Union[int, str]


@dataclasses.dataclass
class Option:
    """An option: its name without the dashes, the values that it may have, numbers or words, the one that it has unless
    given, and what it bounds."""
    name: str
    values: Sequence[Value]
    default: Value
    purpose: str

    @property
    def has_words(self) -> bool:
        """Whether its values are words."""
        return isinstance(self.default, str)

    def value_in(self, text: str) -> Optional[Value]:
        """The value that a text is; None where the option can't have it."""
        value = text if self.has_words else number_in(text, 0, MOST_VALUE)
        return value if value in self.values else None

    def need(self, text: str) -> Value:
        """The value of a text; else a refusal that lists the possible ones."""
        value = self.value_in(text)
        if value is None:
            raise Refusal(f"--{self.name} takes {self.range_text()}, and not `{text}`.")
        return value

    def range_text(self) -> str:
        """The values that the option may have, in words."""
        if isinstance(self.values, range):
            return f"{self.values[0]} to {self.values[-1]}"
        return f"one of {', '.join(map(str, self.values))}"


class Table:
    """What the launcher's table has: the commands, options and statuses of `fractal_sim`, the kinds of generated
    images, the modes of `fractal_watch` with all their options and the numbers among their arguments, the commands of
    the launcher and of the tools, and which of all commands belong together."""

    def __init__(self) -> None:
        self.commands: dict[str, str] = {}
        self.command_rows: dict[str, list[str]] = {}
        self.options: dict[str, Option] = {}
        # Those of both programs, and behind them those of the second program alone.
        self.mode_options: dict[str, Option] = {}
        self.statuses: dict[int, str] = {}
        self.kinds: dict[str, tuple[Sequence[int], str]] = {}
        self.own: dict[str, str] = {}
        self.own_words: dict[str, str] = {}
        self.mode_rows: dict[str, list[str]] = {}
        self.numbers: dict[str, Sequence[int]] = {}
        self.tools: list[str] = []
        self.groups: dict[str, list[str]] = {}
        self.version = ""
        for line in table_lines():
            kind, name, *rest = line.split("|")
            if kind == "command":
                self.commands[name], self.command_rows[name] = rest[0], rest
            elif kind in ("option", "mode-option"):
                self.mode_options[name] = option = option_in(name, *rest)
                if kind == "option":
                    self.options[name] = option
            elif kind == "mode":
                self.mode_rows[name] = rest
            elif kind == "number":
                self.numbers[name] = values_in(rest[0])
            elif kind == "kind":
                self.kinds[name] = values_in(rest[0]), rest[1]
            elif kind == "status":
                self.statuses[int(name)] = rest[0]
            elif kind in ("own", "tool"):
                self.own_words[name], self.own[name] = rest
                if kind == "tool":
                    self.tools.append(name)
            elif kind == "group":
                self.groups[rest[0]] = name.split()
            elif kind == "version":
                self.version = name


def why_no_answer(status: int) -> str:
    """Why a program wrote nothing, by its status."""
    limit = f"; {limit_told()}" if status == NO_MEMORY else ""
    return f"the program ended with status {status}: {Table().statuses.get(status, 'an unknown one')}{limit}."


def table_lines() -> list[str]:
    """The lines of the launcher's table."""
    need_launcher()
    try:
        done = subprocess.run([LAUNCHER, "dev", "table"], capture_output=True, text=True, check=True,
                              stdin=subprocess.DEVNULL)
    except subprocess.CalledProcessError as error:
        raise Refusal(f"{LAUNCHER} prints no table: it ended with status {error.returncode}.") from None
    return done.stdout.splitlines()


def option_in(name: str, values: str, default: str, purpose: str) -> Option:
    """An option, from its row."""
    if default.isdigit():
        return Option(name, values_in(values), int(default), purpose)
    return Option(name, tuple(values.split(",")), default, purpose)


def size_of(name: str, options: Mapping[str, Value], table: Table) -> int:
    """The number of an option, given or by default."""
    return int(options.get(name, table.options[name].default))


def option_words(options: Mapping[str, Value]) -> list[str]:
    """Options as arguments of a call, each value as one of its own: this is the only form that the options of `watch`
    take."""
    return [word for name, value in options.items() for word in (f"--{name}", str(value))]


def values_in(text: str) -> Sequence[int]:
    """The values that a row of the table allows: `1..64`, or `4,8,16`."""
    least, dots, most = text.partition("..")
    return range(int(least), int(most) + 1) if dots else tuple(map(int, text.split(",")))
