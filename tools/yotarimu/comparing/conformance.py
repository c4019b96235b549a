"""Small programs with the state that each must leave, built by one compiler or another."""
from __future__ import annotations

import contextlib
import dataclasses
import io
import pathlib
import re
import shlex
import subprocess
import tempfile
from collections.abc import Sequence
from typing import Optional

from yotarimu.common.files import read_bytes, read_written
from yotarimu.common.outcome import Refusal, error_text
from yotarimu.common.places import EXAMPLES_FOLDER
from yotarimu.comparing.results import Result
from yotarimu.comparing.runs import MOST_COMMITS
from yotarimu.comparing.serial_orders import OrderedMachine
from yotarimu.images.compiler import Compilers
from yotarimu.images.description import describe
from yotarimu.images.image import Image, read_image
from yotarimu.images.source import assemble, source_at, sources_in
from yotarimu.images.stack import check_stack

FOLDER = EXAMPLES_FOLDER / "conformance"
EXPECTED = r"\s*// expect: (end|output|words|refused)\b ?(.*)$"
DESCRIBED = r"\s*// (image: .*)$"


@dataclasses.dataclass(frozen=True)
class Case:
    """A program: its source, and what it must leave, or a part of the sentence that refuses it."""
    path: pathlib.Path
    end: str
    output: Optional[bytes]
    words: Optional[Sequence[int]]
    refused: Optional[str]

    @property
    def name(self) -> str:
        """The name of the case."""
        return self.path.stem


def cases_in(folder: pathlib.Path) -> list[Case]:
    """The cases of a folder, by name."""
    return [case_of(path) for path in sorted(folder.glob("*.c"))]


def case_of(path: pathlib.Path) -> Case:
    """The case of a source, by its lines `// expect:`."""
    found = {match[1]: match[2].strip() for line in read_written(path).split("\n")
             if (match := re.match(EXPECTED, line))}
    words = [int(word, 0) for word in found["words"].split()] if "words" in found else None
    output = found["output"].encode() if "output" in found else None
    return Case(path, found.get("end", ""), output, words, found.get("refused"))


def fault_of_source(case: Case, how: Compilers) -> Optional[str]:
    """What is wrong with a case that a compiler known here compiles; None where it leaves what it must."""
    return fault_of_files(case, [case.path], how)


def fault_of_command(case: Case, command: str) -> Optional[str]:
    """What is wrong with a case that a command compiles to an object."""
    with tempfile.TemporaryDirectory() as place:
        folder = pathlib.Path(place)
        made = subprocess.run([*shlex.split(command), str(case.path), str(folder / "code.o")], capture_output=True,
                              text=True, errors="replace", stdin=subprocess.DEVNULL)
        if made.returncode or not (folder / "code.o").is_file():
            said = made.stderr.strip().splitlines() or [f"it ended with status {made.returncode}"]
            return f"the compiler made no object: {said[0]}"
        lines = (match[1] for line in read_written(case.path).split("\n") if (match := re.match(DESCRIBED, line)))
        (folder / "image.s").write_text("".join(f"# {line}\n" for line in lines))
        return fault_of_files(case, [it.path for it in sources_in(folder)], Compilers())


def fault_of_files(case: Case, paths: Sequence[pathlib.Path], how: Compilers) -> Optional[str]:
    """What is wrong with the program of some sources."""
    try:
        sources = [source_at(path) for path in paths]
        with contextlib.redirect_stderr(io.StringIO()):
            assembled = assemble(sources, how)
            image = describe(sources, assembled)
            check_stack(assembled, image)
    except Refusal as refused:
        if case.refused is not None and case.refused in str(refused):
            return None
        return f"no image is made: {refused}"
    except OSError as error:
        return error_text(error)
    if case.refused is not None:
        return f"an image is made, and `{case.refused}` should be refused"
    return fault_of_image(case, image)


def fault_of_file(case: Case, path: pathlib.Path) -> Optional[str]:
    """What is wrong with an image that another tool made of a case."""
    return fault_of_image(case, read_image(read_bytes(path), path))


def fault_of_image(case: Case, image: Image) -> Optional[str]:
    """What an image leaves otherwise than it must."""
    left = OrderedMachine(image, 0).result(MOST_COMMITS)
    if not left.end.startswith(case.end):
        return f"it ends with `{left.end}`, and is to end with `{case.end}`"
    if case.output is not None and left.output != case.output:
        return f"the output is {left.output!r}, and is to be {case.output!r}"
    words = window_of(image, left)
    if case.words is not None and words != case.words:
        return f"the window is {words_text(words)}, and is to be {words_text(case.words)}"
    return None


def window_of(image: Image, left: Result) -> list[int]:
    """The words of the window that a run leaves."""
    start, end = image.window_offset, image.window_offset + 4 * image.window_words
    return [int.from_bytes(left.memory[at:at + 4], "little") for at in range(start, end, 4)]


def words_text(words: Sequence[int]) -> str:
    """Words as a sentence has them."""
    return " ".join(f"{word:#x}" if word > 0xFFFF else str(word) for word in words) or "empty"
