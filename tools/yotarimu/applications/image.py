"""From an application and a size to a folder of sources with their input, an image, and where its variables stand."""
from __future__ import annotations

import contextlib
import dataclasses
import os
import pathlib
import shutil
import tempfile
from typing import Iterator, Mapping

from yotarimu.applications.application import Application, Problem
from yotarimu.applications.memory import Place
from yotarimu.common.outcome import Refusal
from yotarimu.common.places import HOME
from yotarimu.images.compiler import Compilers, need_compiler
from yotarimu.images.folder import build
from yotarimu.images.image import DATA, image_bytes
from yotarimu.images.source import tool_prefix

FOLDER = HOME / "applications"
IMAGE = "image.bin"
VARIABLES = (".data", ".bss")


@dataclasses.dataclass(frozen=True)
class Case:
    """An application with a size and the seed of its input."""
    application: Application
    size: int
    seed: int

    @property
    def words_text(self) -> str:
        """The words that make it."""
        return f"{self.application.name} --size {self.size} --seed {self.seed}"

    def problem(self) -> Problem:
        """Its problem, which each call makes anew."""
        return self.application.problem(self.size, self.seed)


@dataclasses.dataclass(frozen=True)
class ApplicationImage:
    """The bytes of an image, and where the variables of its sources are in the data."""
    image: bytes
    places: Mapping[str, Place]


def make(case: Case, problem: Problem, compiler: str, folder: pathlib.Path) -> ApplicationImage:
    """Writes the sources of a case with their input into a folder, and builds the image there."""
    for source in case.application.sources:
        shutil.copyfile(FOLDER / source, folder / pathlib.Path(source).name)
    for name, content in problem.input.files(f"./fractal applications make {case.words_text}").items():
        (folder / name).write_bytes(content)
    image, assembled = build(folder, Compilers(compiler))
    places = {label.name: Place(label.address - DATA, label.size)
              for label in assembled.labels if label.section in VARIABLES}
    return ApplicationImage(image_bytes(image), places)


def need_tools(compiler: str) -> None:
    """Refuses what couldn't be built, before anything is made."""
    need_compiler(compiler, compiler)
    tool_prefix()


def made_elsewhere(case: Case, compiler: str) -> tuple[ApplicationImage, Problem]:
    """An application that is built in a folder of its own, which isn't kept, and its problem."""
    need_tools(compiler)
    problem = case.problem()
    with tempfile.TemporaryDirectory() as folder:
        return make(case, problem, compiler, pathlib.Path(folder)), problem


@contextlib.contextmanager
def whole_folder(folder: pathlib.Path) -> Iterator[pathlib.Path]:
    """A folder to write to, which gets its name once all of it is there. Where the name is taken already it is that of
    an empty folder."""
    if folder.is_symlink() or folder.exists() and (not folder.is_dir() or any(folder.iterdir())):
        raise Refusal(f"{folder}: it is there and not empty.")
    if not folder.absolute().parent.is_dir():
        raise Refusal(f"{folder}: it can't be made, because {folder.absolute().parent} isn't a folder.")
    with tempfile.TemporaryDirectory(prefix=f".{folder.name}.", dir=folder.absolute().parent) as unfinished:
        inside = pathlib.Path(unfinished, folder.name)
        inside.mkdir()
        yield inside
        os.replace(inside, folder)
