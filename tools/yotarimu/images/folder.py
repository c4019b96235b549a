"""From a folder of sources to its image and its listing."""
from __future__ import annotations

import pathlib

from yotarimu.common.files import is_within, write_whole
from yotarimu.common.outcome import Refusal
from yotarimu.images.compiler import FOR_DEBUGGING, Compilers
from yotarimu.images.description import describe
from yotarimu.images.image import Image, image_bytes
from yotarimu.images.listing import listing_text
from yotarimu.images.source import Assembly, assemble, sources_in
from yotarimu.images.stack import check_stack


# Below the folder of the sources stands what is made for debugging.
DEBUG_FOLDER = "debug"


def build(folder: pathlib.Path, how: Compilers = Compilers(),
          is_outside_allowed: bool = False) -> tuple[Image, Assembly]:
    """Writes the image and the listing of a folder's sources, which name no file outside of it unless that is allowed;
    returns the image with what it was made of."""
    sources = sources_in(folder, is_outside_allowed)
    assembled = assemble(sources, how)
    image = describe(sources, assembled)
    check_stack(assembled, image)
    listing = listing_text(sources, assembled, image).encode("utf-8", "surrogateescape")
    target = image_folder(folder, how.level)
    if not is_within(target, folder):
        raise Refusal(f"{target}: this is a symbolic link that leads out of its folder, so nothing is written there.")
    target.mkdir(exist_ok=True)
    write_whole({target / "listing": listing, target / "image.bin": image_bytes(image)})
    return image, assembled


def image_folder(folder: pathlib.Path, level: str) -> pathlib.Path:
    """Where the image of a folder's sources is written."""
    return folder / DEBUG_FOLDER if level == FOR_DEBUGGING else folder
