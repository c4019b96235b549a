"""Arguments of a call: numbers, options with a value, flags, and the arguments between them."""
from __future__ import annotations

import dataclasses
from collections.abc import Iterable, Sequence
from typing import NoReturn, Optional

from yotarimu.common.outcome import Refusal
from yotarimu.common.pages import declared_in, number_of, places_of
from yotarimu.common.text import likely

DOOR = "./fractal "


def number_in(word: str, least: int, most: int) -> Optional[int]:
    """The number that a word is, in decimal or in hexadecimal after 0x; None where it isn't one from least to most."""
    digits, base = (word[2:], 16) if word[:2] in ("0x", "0X") else (word, 10)
    allowed = "0123456789abcdefABCDEF" if base == 16 else "0123456789"
    if not 0 < len(digits) <= 20 or any(digit not in allowed for digit in digits):
        return None
    number = int(digits, base)
    return number if least <= number <= most else None


def need_number(what: str, word: str, least: int, most: int) -> int:
    """The number that an argument is; otherwise a refusal with the range."""
    number = number_in(word, least, most)
    if number is None:
        raise Refusal(f"{what} must be {least} to {most}, not {word or 'empty'}.")
    return number


@dataclasses.dataclass(frozen=True)
class GivenWords:
    """What the arguments of a call give: a value, or None, for each option, the flags, and the arguments between."""
    parser: Words
    values: dict[str, Optional[str]]
    flags: frozenset[str]
    others: list[str]

    def need(self, what: str, least: int, most: Optional[int] = None) -> list[str]:
        """The arguments between options, if there are that many."""
        if not least <= len(self.others) <= (least if most is None else most):
            raise Refusal(f"it needs {what}; {self.parser.call} --help has more.")
        return self.others

    def need_only(self, names: Iterable[str], mode: str) -> None:
        """Refuses options that a mode of the command doesn't take."""
        used = [*self.flags, *(name for name, value in self.values.items() if value is not None)]
        wrong = next((name for name in used if name not in names), None)
        if wrong is not None:
            raise Refusal(f"{mode} takes no --{wrong}; {self.parser.call} --help has more.")

    def number(self, name: str, least: Optional[int] = None, most: Optional[int] = None,
               unless_given: Optional[int] = None) -> int:
        """The number that an option has, within the range that its page or the caller states."""
        declared, text = self.parser.declared.get(name), self.values[name]
        if least is None or most is None:
            assert declared is not None and isinstance(declared.values, range), f"--{name} has no range"
            least, most = declared.values[0], declared.values[-1]
        if text is None:
            return unless_given if unless_given is not None else number_of(declared.default if declared else "")
        return need_number(f"--{name}", text, least, most)


class Words:
    """The arguments that a command takes: the options that its page declares, and others that are named. No name is
    cut short; `--help` is answered before these are read, by the page."""

    def __init__(self, command: str, values: Iterable[str] = (), flags: Iterable[str] = (), door: str = DOOR,
                 more_help: str = "", page: str = "") -> None:
        self.call, self.more_help, self.declared = f"{door}{command}", more_help, declared_in(page)
        self.value_names = [*(name for name, it in self.declared.items() if it.value), *values]
        self.flag_names = [*(name for name, it in self.declared.items() if not it.value), *flags]

    def read_known(self, words: Sequence[str]) -> GivenWords:
        """What the arguments give; what isn't known stays among those between options."""
        values: dict[str, Optional[str]] = dict.fromkeys(self.value_names)
        flags, others, left = set[str](), list[str](), list(words)
        while left:
            word = left.pop(0)
            name, mark, value = word[2:].partition("=") if word.startswith("--") else ("", "", "")
            if name in self.flag_names:
                if mark:
                    raise Refusal(f"--{name} takes no value.")
                flags.add(name)
            elif name in values:
                if values[name] is not None:
                    raise Refusal(f"--{name} is given twice.")
                if not mark and (not left or left[0].startswith("--")):
                    raise Refusal(f"--{name} needs a value{self.value_text(name)}.")
                values[name] = value if mark else left.pop(0)
            else:
                others.append(word)
        return GivenWords(self, values, frozenset(flags), others)

    def value_text(self, name: str) -> str:
        """What the value of an option may be, if its page says so."""
        declared = self.declared.get(name)
        return f": {declared.range_text()}" if declared and declared.values else ""

    def read(self, words: Sequence[str]) -> GivenWords:
        """What the arguments give, if each option is known and has a value that its page allows."""
        given = self.read_known(words)
        unknown = next((word for word in given.others if is_option(word)), None)
        if unknown is not None:
            self.refuse(unknown)
        for name, it in self.declared.items():
            text = given.values.get(name)
            if text is not None and it.values and not isinstance(it.values, range) and text not in it.values:
                raise Refusal(f"--{name} must be {it.range_text()}, not {text or 'empty'}.")
            if text is not None and isinstance(it.values, range):
                need_number(f"--{name}", text, it.values[0], it.values[-1])
        return given

    def refuse(self, word: str) -> NoReturn:
        """Refuses an unknown option, with those that it may be, or the commands that have it."""
        name = word.lstrip("-").partition("=")[0]
        near = likely(name, [*self.value_names, *self.flag_names], "--")
        if near == "." and name and (places := places_of(name)):
            near = f", which belongs to {', '.join(places)}."
        if near == ".":
            near = f"; {self.call} --help lists them{self.more_help}."
        raise Refusal(f"unknown option {word.partition('=')[0]}{near}")


def is_option(word: str) -> bool:
    """Whether an argument is an option: one that begins with a dash, other than a dash alone or a number below 0."""
    return word.startswith("-") and word != "-" and not word[1:2].isdigit()


def take_option(words: Sequence[str], name: str) -> tuple[Optional[str], list[str]]:
    """The value of an option, given as `NAME VALUE` or `NAME=VALUE`, and the other arguments."""
    option = name.removeprefix("--")
    given = Words("", [option]).read_known(words)
    return given.values[option], given.others
