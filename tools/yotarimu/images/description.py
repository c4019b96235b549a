"""From what the sources describe to an image."""
from __future__ import annotations

from typing import Sequence

from yotarimu.common.outcome import Refusal
from yotarimu.images.contents import FilledData
from yotarimu.images.image import DATA, DATA_BYTES, INITIAL_TASKS, TEXT_WORDS, VERSIONS, WINDOW_WORDS, Image
from yotarimu.images.image_line import Line, description, form, label_of, FORMS
from yotarimu.images.initial_tasks import initial_task, initial_tasks
from yotarimu.images.source import Assembly, Source


def describe(sources: Sequence[Source], assembled: Assembly) -> Image:
    """The image of assembled sources, as their lines describe it."""
    image = Image(True, assembled.text, assembled.initial, -(-assembled.size // 4) * 4, 0, 0, [])
    image.version = max(VERSIONS) if any(source.is_compiled for source in sources) else min(VERSIONS)
    filling, window = FilledData(image), None
    for line in lines_known(sources):
        word = line.words[0]
        if word == "root":
            image.is_ordered = is_ordered(line)
        elif word == "data" and len(line.words) > 2:
            filling.fill(line, assembled)
        elif word == "data":
            image.size = data_size(line, assembled)
        elif word == "version":
            image.version = version_of(line)
        elif word == "window":
            window = line
        elif word == "task":
            image.tasks.append(initial_task(line, assembled))
        else:
            image.tasks += initial_tasks(line, assembled)
    place = str(sources[0].path if len(sources) == 1 else sources[0].path.parent)
    if window:
        image.window_offset, image.window_words = window_of(window, assembled, image.size)
    refuse_sizes(place, image, sources[0])
    return image


def lines_known(sources: Sequence[Source]) -> list[Line]:
    """The lines that describe the image. What may be said once stands once."""
    lines, seen = list(description(sources)), dict[str, Line]()
    for line in lines:
        word = line.words[0] if line.words else ""
        if word not in FORMS:
            line.refuse(f"`{word}` describes nothing; {', '.join(FORMS)} do")
        if word in ("task", "tasks") or word == "data" and len(line.words) > 2:
            continue
        if word in seen:
            line.refuse(f"a second line on `{word}`; the first is {seen[word].place}")
        seen[word] = line
    return lines


def refuse_sizes(place: str, image: Image, source: Source) -> None:
    """Refuses what no image may have so much of, and an image without a task."""
    for what, number, most, advice in (
            ("words of text", len(image.text) // 4, TEXT_WORDS, "tables that aren't const are in the data"),
            ("bytes of data", image.size, DATA_BYTES, "keep a smaller part of the input there"),
            ("initial tasks", len(image.tasks), INITIAL_TASKS, "tasks may enqueue the rest")):
        if number > most:
            raise Refusal(f"{place}: {number} {what} are more than an image may have, which is {most}; {advice}.")
    if not image.tasks:
        raise Refusal(f"{place}: no line gives an initial task: {form('task', source)}.")


def is_ordered(line: Line) -> bool:
    """Reads `root ordered` or `root unordered`."""
    if line.words[1:] not in (["ordered"], ["unordered"]):
        line.refuse_form()
    return line.words[1] == "ordered"


def version_of(line: Line) -> int:
    """Reads `version N`."""
    if line.words[1:] not in [[str(version)] for version in VERSIONS]:
        line.refuse_form()
    return int(line.words[1])


def data_size(line: Line, assembled: Assembly) -> int:
    """Reads `data BYTES`."""
    if len(line.words) != 2:
        line.refuse_form()
    size = line.number_of(line.words[1], "the data size", DATA_BYTES)
    if size < assembled.size:
        line.refuse(f"the sections of data have {assembled.size} bytes, which is more than {size}")
    return size


def window_of(line: Line, assembled: Assembly, size: int) -> tuple[int, int]:
    """Reads `window LABEL [WORDS]`: the offset of the window, and how many words it has."""
    if len(line.words) not in (2, 3):
        line.refuse_form()
    told = line.number_of(line.words[2], "the number of words", WINDOW_WORDS) if len(line.words) == 3 else None
    label = label_of(line, assembled, line.words[1], (".data", ".bss"), "data")
    offset = label.address - DATA
    if offset % 4:
        line.refuse(f"the label `{label.name}` isn't at a multiple of 4: "
                    + ("__attribute__((aligned(4))) helps" if line.source.is_c else "`.balign 4` above it helps"))
    # Compilers note a label's size, and sources in assembly may.
    count = -(-label.size // 4) if told is None else told
    if told is None and not 0 < count <= WINDOW_WORDS:
        why = f"`{label.name}` has {label.size:,} bytes, and a window up to {WINDOW_WORDS:,} words" if label.size else (
            f"the source doesn't say how large `{label.name}` is")
        line.refuse_form(f"{why}, so a number of words is wanted:")
    if offset + 4 * count > size:
        line.refuse(f"the window ends after the data, which has {size} bytes")
    return offset, count
