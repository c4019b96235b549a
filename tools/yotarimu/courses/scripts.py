"""Scripts as people write them, with comments and blank lines, and how they are played."""
from __future__ import annotations

import pathlib
from collections.abc import Iterator, Mapping, Sequence
from typing import NamedTuple, Optional

from yotarimu.common.files import FilePath, read_bytes, read_text
from yotarimu.common.outcome import Refusal
from yotarimu.common.words import Words
from yotarimu.courses.schedules import PlayedScript, ActAnswer, read_played, read_script
from yotarimu.programs.calls import calls_at
from yotarimu.programs.table import Table, Value, size_of, why_no_answer
from yotarimu.reports.refusals import script_fault, quote

# The width up to which a reply stands right behind its line.
WIDEST = 72
# The program's options by their names, without the dashes.
Options = dict[str, Value]


class NumberedAct(NamedTuple):
    """An act as a script has it, and the number of its line in the file that people wrote."""
    line: int
    text: str


class Outcome(NamedTuple):
    """A script that was played: the status of the program, what it wrote, and that as a schedule."""
    status: int
    text: str
    played: PlayedScript


def options_of(values: Mapping[str, Optional[str]], table: Table) -> Options:
    """The program's options of which values are given, each one that it may have."""
    options: Options = {}
    for name, option in table.mode_options.items():
        text = values.get(name)
        if text is not None:
            options[name] = option.need(text)
    return options


def options_beside(place: pathlib.Path, table: Table) -> Options:
    """The options in the file `words` of a folder, if it has one, all of `fractal_sim`; the file may begin with a
    command."""
    file = place / "words"
    words = read_text(file).split() if file.is_file() else []
    given = Words("", table.options).read_known([word for word in words if word not in table.commands])
    options = options_of(given.values, table)
    if given.others:
        raise Refusal(f"{file}: `{given.others[0]}` is neither a command nor an option with its value.")
    return options


def files_at(word: str, image: Optional[str]) -> tuple[pathlib.Path, pathlib.Path]:
    """The script and the image that a word means: a folder that has both, or a script."""
    place = pathlib.Path(word)
    if place.is_dir():
        place = place / "script"
    return place, pathlib.Path(image or place.parent / "image.bin")


def read_lines(path: FilePath) -> list[bytes]:
    """The lines of a script, which may end as on any system."""
    return read_bytes(path).replace(b"\r\n", b"\n").replace(b"\r", b"\n").removesuffix(b"\n").split(b"\n")


def acts_in(lines: Sequence[bytes], name: FilePath, options: Options, table: Table) -> list[NumberedAct]:
    """The acts of a script's lines, each with its number; a refusal where a line is neither an act nor empty."""
    tiles, cores = (size_of(name, options, table) for name in ("tiles", "cores"))
    acts = []
    for number, line in enumerate(lines, 1):
        text = b" ".join(line.partition(b"#")[0].split())
        if not text:
            continue
        if fault := script_fault(text, tiles, cores):
            raise Refusal(f"{name}:{number}: {quote(text)}: {fault}.")
        acts.append(NumberedAct(number, text.decode("ascii")))
    return acts


def play(image: FilePath, acts: Sequence[NumberedAct], options: Options, name: str) -> Outcome:
    """The result of acts that the program plays."""
    words = ["steps", *(f"--{option}={value}" for option, value in options.items())]
    script = "".join(f"{text}\n" for _, text in acts)
    status, text = ask(words, image, script.encode())
    return Outcome(status, text, read_played(read_script(script, name), text, name))


def ask(words: Sequence[str], image: FilePath, behind: bytes = b"") -> tuple[int, str]:
    """The status of a call on an image and the bytes after it, and what the program wrote; a refusal in place of a
    fault."""
    status, written = calls_at().call(words, read_bytes(image) + behind)
    text = written.decode("utf-8", "replace")
    if text.startswith("fault"):
        raise Refusal(f"{image}: the program refused it: {text.strip()}.")
    if not text:
        raise Refusal(why_no_answer(status))
    return status, text


def lines_beside(lines: Sequence[bytes], acts: Sequence[NumberedAct], said: Sequence[ActAnswer]) -> Iterator[str]:
    """Each line of a script with its number, and behind an act its reply."""
    replies = {act.line: answer for act, answer in zip(acts, said)}
    texts = [line.rstrip().decode("utf-8", "replace").expandtabs() for line in lines]
    width = min(WIDEST, max(map(len, texts), default=0))
    for number, text in enumerate(texts, 1):
        answer = replies.get(number)
        if answer is None:
            yield f"{number:>5}  {text}".rstrip()
            continue
        back = f", {answer.taken_back} aborted" if answer.taken_back else ""
        yield f"{number:>5}  {text:<{width}}  {answer.reply}{back}"
