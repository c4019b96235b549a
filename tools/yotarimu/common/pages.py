"""The pages of commands, and the options that they declare.

A page is the docstring with which a command's module begins. It declares each option by a line

      --NAME VALUE  what it does (1 to 16; default 4)

which may go on in further lines. A flag has no VALUE. Behind the purpose stands what a value may be, a range or a list
such as `(x, y or xy)`, and the default. Parsers, help, completions and the manual page are made from these lines.
"""
from __future__ import annotations

import dataclasses
import importlib
import pathlib
import re
from collections.abc import Iterator, Sequence
from typing import Union

COMMANDS = pathlib.Path(__file__).parents[1] / "commands"
# A command of the package that has commands itself.
FOLDERS = ("dev",)
LINE = re.compile(r"  --([a-z][a-z-]*)(?: ([^ ].*?))?(?:  +(.*))?")
LIMITS = re.compile(r"(.*?) ?\(([^()]*)\)", re.DOTALL)
RANGE = re.compile(r"([\d,]+) to ([\d,]+)")
CHOICES = re.compile(r"[a-z-]+(?:, [a-z-]+)* or [a-z-]+")
DEFAULT = "default "


@dataclasses.dataclass(frozen=True)
class Declared:
    """An option as its page declares it: its name, what its page writes for a value (nothing for a flag), what it does,
    the values that it may have (none: any text), and its default as a text."""
    name: str
    value: str
    purpose: str
    values: Sequence[Union[int, str]] = ()
    default: str = ""

    def range_text(self) -> str:
        """What a value may be."""
        if isinstance(self.values, range):
            return f"{self.values[0]:,} to {self.values[-1]:,}"
        return " or ".join(filter(None, [", ".join(map(str, self.values[:-1])), *map(str, self.values[-1:])]))


def command_names(folder: str = "") -> list[str]:
    """The commands of the package, or those behind one that has commands itself."""
    place = COMMANDS / folder
    names = [path.stem for path in place.glob("*.py") if not path.stem.startswith("_")]
    return sorted(names + ([] if folder else list(FOLDERS)))


def raw_page(command: str) -> str:
    """The page of a command, such as `sweep` or `dev tries`, as its file has it."""
    path = COMMANDS.joinpath(*command.split())
    file = path / "__init__.py" if path.is_dir() else path.with_suffix(".py")
    return file.read_text(encoding="utf-8").split('"""')[1].strip()


def page_of(command: str) -> str:
    """The page of a command. Its module is imported only if that fills parts in."""
    page = raw_page(command)
    if "{" in page:
        page = importlib.import_module(f"yotarimu.commands.{command.replace(' ', '.')}").__doc__ or ""
    return page.strip()


def declared_in(page: str) -> dict[str, Declared]:
    """The options that a page declares, by their names."""
    found: dict[str, Declared] = {}
    for name, value, purpose in entries_of(page):
        limits = LIMITS.fullmatch(purpose)
        values: Sequence[Union[int, str]] = ()
        default = ""
        for part in limits[2].split("; ") if limits else ():
            if part.startswith(DEFAULT):
                default = part.removeprefix(DEFAULT)
            elif span := RANGE.fullmatch(part):
                values = range(number_of(span[1]), number_of(span[2]) + 1)
            elif CHOICES.fullmatch(part):
                values = tuple(re.split(", | or ", part))
        told = limits[1] if limits and (values or default) else purpose
        found[name] = Declared(name, value, told, values, default)
    return found


def entries_of(page: str) -> Iterator[tuple[str, str, str]]:
    """The name, the value and the purpose of each line of an option, with the lines in which it goes on."""
    entry: list[str] = []
    for line in [*page.splitlines(), ""]:
        found = LINE.fullmatch(line)
        if entry and (found or not line.startswith("    ")):
            yield entry[0], entry[1], " ".join(entry[2:]).strip()
            entry = []
        if found:
            entry = [found[1], found[2] or "", found[3] or ""]
        elif entry:
            entry.append(line.strip())


def number_of(text: str) -> int:
    """A number in digits, with commas or without."""
    return int(text.replace(",", ""))


def places_of(option: str) -> list[str]:
    """The commands whose pages declare an option."""
    names = [*command_names(), *(f"{folder} {name}" for folder in FOLDERS for name in command_names(folder))]
    return [name for name in names if option in {entry[0] for entry in entries_of(raw_page(name))}]
