"""What tries read: files of a clone's examples, the texts of a picture, the rows of a table in CSV."""
from __future__ import annotations

import csv
import io
import xml.etree.ElementTree

from tries.place import Place, expect


def files_of(place: Place, name: str) -> tuple[str, str]:
    """The image and the report of an example."""
    folder = place.clone / "examples" / name
    return str(folder / "image.bin"), str(folder / "report")


def picture_in(data: bytes) -> list[str]:
    """The texts of an SVG, which has to be well-formed XML."""
    root = xml.etree.ElementTree.fromstring(data)
    expect(root.tag.endswith("svg"), "an SVG", root.tag)
    return [element.text for element in root.iter() if element.text and element.text.strip()]


def rows_in(data: bytes) -> list[dict[str, str]]:
    """The rows of a file of CSV."""
    return list(csv.DictReader(io.StringIO(data.decode())))
