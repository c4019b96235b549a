"""The arguments of a call of the command on applications."""
from __future__ import annotations

import dataclasses
from typing import Mapping, Optional, Sequence

from yotarimu.applications.application import Application
from yotarimu.applications.catalogue import APPLICATIONS
from yotarimu.applications.image import Case
from yotarimu.common.outcome import Refusal
from yotarimu.common.words import GivenWords, is_option, number_in
from yotarimu.images.compiler import CLANG, GCC

SIZE_UNLESS_TOLD, SEED_UNLESS_TOLD = "small", 1


@dataclasses.dataclass(frozen=True)
class Asked:
    """The arguments of a call: names and folders, the size as a word, the seed, compilers, and the values of options.
    Arguments from an unknown option on are `rest`."""
    names: Sequence[str]
    size: str
    seed: int
    compilers: Sequence[str]
    values: Mapping[str, Optional[str]]
    rest: Sequence[str]


def asked_in(given: GivenWords) -> Asked:
    """What the arguments ask for."""
    if given.flags == {"clang", "both"}:
        raise Refusal("--both has clang already, so --clang can't be given with it.")
    count = next((place for place, word in enumerate(given.others) if is_option(word)), len(given.others))
    compilers = (GCC, CLANG) if "both" in given.flags else (CLANG if "clang" in given.flags else GCC,)
    return Asked(given.others[:count], given.values["size"] or SIZE_UNLESS_TOLD, given.number("seed"), compilers,
                 given.values, given.others[count:])


def need_application(name: str) -> Application:
    """The application of a name."""
    if name not in APPLICATIONS:
        raise Refusal(f"unknown application `{name}`; they are {', '.join(APPLICATIONS)}.")
    return APPLICATIONS[name]


def applications_of(names: Sequence[str]) -> list[Application]:
    """The applications that are named, or all."""
    if len(set(names)) < len(names):
        raise Refusal("a NAME stands twice.")
    return [need_application(name) for name in names] or list(APPLICATIONS.values())


def size_of(application: Application, word: str) -> int:
    """The size that a word means for an application."""
    if word in application.sizes:
        return application.sizes[word]
    least, most = application.size_range[0], application.size_range[-1]
    number = number_in(word, least, most)
    if number is None:
        raise Refusal(f"--size of {application.name} is {', '.join(application.sizes)} or a number of "
                      f"{application.size_told}, from {least} to {most}, and not `{word}`.")
    return number


def cases_of(asked: Asked) -> list[Case]:
    """Each application that is asked for, in each of the sizes."""
    return [Case(application, size_of(application, size), asked.seed)
            for application in applications_of(asked.names) for size in asked.size.split(",")]
