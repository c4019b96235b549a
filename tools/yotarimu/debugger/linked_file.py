"""The linked file of an image with what debuggers need, made again of the sources beside it and compared with it."""
from __future__ import annotations

import dataclasses
import pathlib
from typing import Iterator, Optional

from yotarimu.common.outcome import Refusal
from yotarimu.images.compiler import CLANG, FOR_DEBUGGING, GCC, Compilers
from yotarimu.images.description import describe
from yotarimu.images.folder import DEBUG_FOLDER
from yotarimu.images.image import TEXT, Image, image_bytes
from yotarimu.images.listing import Listing, listing_of
from yotarimu.images.source import SUFFIXES, Assembly, Source, assemble, sources_in


@dataclasses.dataclass(frozen=True)
class LinkedFile:
    """A linked file, and the listing of the same sources."""
    data: bytes
    listing: Listing


def source_folder(image_path: pathlib.Path) -> Optional[pathlib.Path]:
    """The folder of an image's sources: its own, or the one above where that is `debug`; None where there are none."""
    folder = image_path.absolute().parent
    folders = [folder, folder.parent] if folder.name == DEBUG_FOLDER else [folder]
    return next((it for it in folders if any(path.suffix in SUFFIXES for path in it.iterdir())), None)


def linked_file_for(image: Image, folder: pathlib.Path, how: Compilers = Compilers()) -> LinkedFile:
    """The linked file of sources that make exactly this image, by the compilers that are named; else a refusal."""
    # What the sources fill data from is compared with the image, and goes nowhere else.
    sources, wanted = sources_in(folder, is_outside_allowed=True), image_bytes(image)
    first: Optional[Image] = None
    for assembled in attempts(sources, how):
        made = describe(sources, assembled)
        if image_bytes(made) == wanted:
            return LinkedFile(assembled.linked, listing_of(sources, assembled))
        first = first or made
    raise Refusal(f"{folder}: these sources make another image: {difference(image, first)}; ./fractal build makes it "
                  "anew, and --gcc or --clang names the compiler that made it.")


def attempts(sources: list[Source], how: Compilers) -> Iterator[Assembly]:
    """What the sources may have been made by: assembly in one way, C by either compiler, and by gcc for debugging."""
    by_gcc = dataclasses.replace(how, of_c=GCC)
    yield assemble(sources, by_gcc)
    if any(source.is_compiled for source in sources):
        yield assemble(sources, dataclasses.replace(by_gcc, level=FOR_DEBUGGING))
        try:
            by_clang = assemble(sources, dataclasses.replace(how, of_c=CLANG))
        except Refusal:
            # It isn't there, or can't link them.
            return
        yield by_clang


def difference(image: Image, made: Optional[Image]) -> str:
    """Where two images differ."""
    if made is None or len(made.text) != len(image.text):
        return "their text has another length"
    for place in range(0, len(image.text), 4):
        if made.text[place:place + 4] != image.text[place:place + 4]:
            return f"they differ at {TEXT + place:08x}"
    return "they differ in the data or in what describes the image"
