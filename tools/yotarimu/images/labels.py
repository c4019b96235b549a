"""The listing that belongs to an image: one that is named, or made of sources that are named, or beside the image."""
from __future__ import annotations

import pathlib
from typing import Optional

from yotarimu.common.files import FilePath, read_written
from yotarimu.common.outcome import Refusal
from yotarimu.images.image import DATA, Image
from yotarimu.images.listing import NO_LISTING, Listing, listing_of, read_listing
from yotarimu.images.source import SUFFIXES, assemble, source_at, sources_in


def listing_for(image_path: FilePath, image: Image, source: Optional[FilePath]) -> tuple[Listing, Optional[str]]:
    """The listing that a word names, or the one beside the image, and a remark where that one doesn't serve."""
    if source is None:
        path = pathlib.Path(image_path).parent / "listing"
        if not path.is_file():
            return NO_LISTING, "No listing is beside the image, so addresses have no labels."
        listing = read_listing(read_written(path), path)
        if differs(listing, image) is not None:
            return NO_LISTING, f"{path} is of another image, so addresses have no labels."
        return listing, None
    listing = listing_at(pathlib.Path(source))
    address = differs(listing, image)
    if address is not None:
        raise Refusal(f"{source}: this isn't the image's: at {address:08x} they differ.")
    return listing, None


def listing_at(path: pathlib.Path) -> Listing:
    """The listing of a folder of sources, of one source, or of a file that is a listing."""
    if path.is_dir() or path.suffix in SUFFIXES:
        sources = sources_in(path) if path.is_dir() else [source_at(path)]
        return listing_of(sources, assemble(sources))
    return read_listing(read_written(path), path)


def differs(listing: Listing, image: Image) -> Optional[int]:
    """The first address at which a listing's instructions aren't the image's text; None where there is none."""
    words = {address: word for address, word in listing.words.items() if address < DATA}
    return next((address for address in sorted(words) if image.word(address) != words[address]), None)
