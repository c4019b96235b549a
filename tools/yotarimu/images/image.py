"""Images as files: docs/guest/FORMATS.md."""
from __future__ import annotations

import dataclasses
import functools
import struct
from typing import Optional

from yotarimu.common.files import FilePath
from yotarimu.common.outcome import Refusal

TEXT, DATA = 0x10000, 0x10000000
TEXT_WORDS, DATA_BYTES, WINDOW_WORDS, INITIAL_TASKS = 65_536, 16_777_216, 4_096, 65_536
# Where the private stack of each task begins, in an image that has stacks.
STACK = 0x20000000
HEADER = struct.Struct("<4sHH6I")
TASK = struct.Struct("<5I")


@dataclasses.dataclass(frozen=True)
class Limits:
    """What a task may have: children, the depth of its subdomain, bytes of stack."""
    children: int
    depth: int
    stack: int


VERSIONS = {1: Limits(64, 8, 0), 2: Limits(256, 16, 1_024)}


@dataclasses.dataclass
class InitialTask:
    """A task that an image has from the start."""
    entry: int
    timestamp: int
    arguments: tuple[int, ...]


@dataclasses.dataclass
class Image:
    """An image: its text and data, which window of the data a report shows, and its initial tasks."""
    is_ordered: bool
    text: bytes
    initial: bytes
    size: int
    window_offset: int
    window_words: int
    tasks: list[InitialTask]
    version: int = 1

    @property
    def limits(self) -> Limits:
        """The limits of the image's version."""
        return VERSIONS[self.version]

    @functools.cached_property
    def words(self) -> tuple[int, ...]:
        """The words of the text."""
        return struct.unpack(f"<{len(self.text) // 4}I", self.text)

    def word(self, address: int) -> Optional[int]:
        """The word of the text that holds an address, or None outside the text."""
        place = address - TEXT
        return self.words[place >> 2] if 0 <= place < len(self.text) else None


def image_bytes(image: Image) -> bytes:
    """An image as the bytes of a file."""
    header = HEADER.pack(b"FRAC", image.version, image.is_ordered, len(image.text) // 4, len(image.initial), image.size,
                         image.window_offset, image.window_words, len(image.tasks))
    tasks = (TASK.pack(task.entry, task.timestamp, *task.arguments) for task in image.tasks)
    return b"".join((header, image.text, image.initial, *tasks))


def read_image(data: bytes, name: FilePath) -> Image:
    """The image at the front of bytes, which came from the file `name`."""
    if len(data) < HEADER.size or data[:4] != b"FRAC":
        raise Refusal(f"{name}: this isn't an image: it doesn't begin with the letters FRAC and a header of 32 bytes.")
    _, version, root, words, initial, size, window, window_words, count = HEADER.unpack_from(data)
    if version not in VERSIONS or root > 1:
        raise Refusal(f"{name}: this isn't an image of version 1 or 2 with an ordered or unordered root domain.")
    text_end = HEADER.size + 4 * words
    tasks_at = text_end + initial
    if words > TEXT_WORDS or initial > size or size > DATA_BYTES or len(data) < tasks_at + TASK.size * count:
        raise Refusal(f"{name}: this image is cut off, or a number of its header is above its limit.")
    rows = (TASK.unpack_from(data, tasks_at + TASK.size * place) for place in range(count))
    tasks = [InitialTask(entry, timestamp, tuple(arguments)) for entry, timestamp, *arguments in rows]
    return Image(root == 1, data[HEADER.size:text_end], data[text_end:tasks_at], size, window, window_words, tasks,
                 version)
