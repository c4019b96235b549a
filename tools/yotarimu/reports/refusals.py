"""Why the program refuses a line of a script or of a report, in words: docs/guest/FORMATS.md has both grammars."""
from __future__ import annotations

import re
import struct
from collections.abc import Iterable, Sequence
from typing import Optional

from yotarimu.common.acts import ACTS
from yotarimu.common.outcome import Refusal
from yotarimu.common.text import printable
from yotarimu.common.words import need_number, take_option
from yotarimu.images.image import read_image
from yotarimu.programs.table import Table, size_of
from yotarimu.reports.disagreements import disagreement
from yotarimu.reports.report import read_front

# Where the image's header tells how many words of text, bytes of data and initial tasks come behind it.
HEADER_BYTES, COUNTS, TASK_BYTES = 32, struct.Struct("<8xIIIIII"), 20
MOST_NAME = 2 ** 32 - 1
MOST_DEPTH, MOST_CAUSE = 16, 17
MOST_SHOWN = 60
PLACES = {"tile": "tiles", "core": "cores"}
SHAPES = {
    "an entry": "`<turn> <creator>.<index> <depth> <timestamp>`",
    "the output": "`output <bytes>`, two digits a byte in lower case, or `output -`",
    "a word of the window": "`window <address> <value>`, eight hexadecimal digits each in lower case",
    "the end": "`end normal`, `end limit`, `end open` or `end trap <cause> <pc> <creator>.<index>`",
}
# What the program holds against a line that is inside the grammar.
OTHER_RUNS = {
    "an entry": "no run has this task there: it isn't pending, isn't of the innermost domain that has a task, hasn't "
                "the least timestamp there, traps, or has another depth or timestamp; or --commits was reached before "
                "it",
    "the output": "these aren't the bytes that the tasks emitted",
    "a word of the window": "the image's window has no such word there, or the memory holds another value at the end",
    "the end": "the run doesn't end so, or a word of the window is missing before it",
}


def text_behind_image(data: bytes) -> Optional[bytes]:
    """What comes behind the image in the program's input; None where no image is whole."""
    if len(data) < HEADER_BYTES:
        return None
    words, initial, _, _, _, tasks = COUNTS.unpack_from(data)
    length = HEADER_BYTES + 4 * words + initial + TASK_BYTES * tasks
    return data[length:] if length <= len(data) else None


def line_of(text: bytes, number: int) -> Optional[bytes]:
    """A line of a text, counted from 1, without its newline; None where there is none."""
    lines = text.split(b"\n")
    if lines[-1] == b"":
        lines.pop()
    return lines[number - 1] if number <= len(lines) else None


def quote(line: bytes) -> str:
    """A line between quotes, or the beginning of a long one."""
    text = printable(line).replace('\\"', '"')
    return f"`{text}`" if len(text) <= MOST_SHOWN else f"`{text[:MOST_SHOWN]}...`"


def layout_fault(line: bytes) -> Optional[str]:
    """What is wrong with a line, whatever its content; None if nothing is."""
    if not line.strip(b" \t\r"):
        return "the line is empty" if not line else "the line has blanks alone"
    if line.endswith(b"\r"):
        return "the line ends in CRLF, and lines end in a newline alone"
    if b"\t" in line:
        return "it has a tab where one space should be"
    if line.endswith(b" "):
        return "a blank follows its last word"
    if line.startswith(b" "):
        return "a blank stands before its first word"
    if b"  " in line:
        return "two blanks stand side by side"
    other = next((byte for byte in line if not 0x20 <= byte < 0x7F), None)
    return None if other is None else f"the byte {other:02x} (hexadecimal) is in it, which no line has"


def number_fault(word: str, what: str, least: int, most: int) -> Optional[str]:
    """Why a word isn't a number from least to most in decimal; None where it is one."""
    if not re.fullmatch("[0-9]+", word):
        return f"`{word[:MOST_SHOWN]}` isn't a number, and {what} is wanted"
    if len(word) > 1 and word[0] == "0":
        return f"`{word[:MOST_SHOWN]}` has a leading zero"
    if not least <= int(word[:20]) <= most:
        return f"{what} is {least} to {most}, and not {word[:20]}"
    return None


def name_fault(word: str) -> Optional[str]:
    """What is wrong with a name; None where nothing is."""
    creator, dot, index = word.partition(".")
    if not dot:
        return f"`{word[:MOST_SHOWN]}` isn't a name, which is `<creator>.<index>`"
    return number_fault(creator, "a creator", 0, MOST_NAME) or number_fault(index, "an index", 0, MOST_NAME)


# ---- scripts


def script_fault(line: bytes, tiles: int, cores: int) -> Optional[str]:
    """Why a line is none of a script for so many tiles and cores; None where it is one."""
    if line.lstrip().startswith(b"#"):
        return "a script has no comments; ./fractal play plays one that has"
    if fault := layout_fault(line):
        return fault
    word, *numbers = line.decode("ascii").split(" ")
    if word not in ACTS:
        return f"`{word[:MOST_SHOWN]}` isn't an act, which is {list_text(ACTS)}"
    places = ("tile", "core")[:ACTS[word].numbers]
    if len(numbers) != len(places):
        wanted = " and ".join(f"a {place}" for place in places) or "nothing"
        return f"behind `{word}` comes {wanted}, and not {word_count(len(numbers))}"
    for place, number, count in zip(places, numbers, (tiles, cores)):
        if re.fullmatch("0|[1-9][0-9]*", number) and int(number[:20]) >= count:
            known = "the only one is 0" if count == 1 else f"they are 0 to {count - 1}"
            return f"no {place} {number[:20]}: with --{PLACES[place]} {count} {known}"
        if fault := number_fault(number, f"the number of a {place}", 0, count - 1):
            return fault
    return None


def word_count(words: int) -> str:
    """How many words there are."""
    return "one word" if words == 1 else f"{words} words"


def list_text(names: Iterable[str]) -> str:
    """Names as a list with an "or" before the last."""
    names = list(names)
    return f"{', '.join(names[:-1])} or {names[-1]}"


# ---- reports


def report_fault(text: bytes, number: int) -> str:
    """Why the line of a report with this number is wrong, or missing."""
    line, wanted = line_of(text, number), wanted_at(text, number)
    if line is None:
        return f"the line is missing: {wanted} is wanted"
    if wanted is None:
        return "nothing may follow the end"
    if fault := layout_fault(line):
        return fault
    kind = kind_of(line)
    if kind is None or SHAPES[kind] not in wanted:
        return f"{wanted} is wanted"
    return shape_fault(kind, line.decode("ascii").split(" "), number) or OTHER_RUNS[kind]


def kind_of(line: bytes) -> Optional[str]:
    """What a line of a report is, by its first word; None of the first line and of others."""
    word = line.split(b" ")[0]
    kinds = {b"output": "the output", b"window": "a word of the window", b"end": "the end"}
    return kinds.get(word) or ("an entry" if re.fullmatch(b"[0-9]+", word) else None)


def wanted_at(text: bytes, number: int) -> Optional[str]:
    """What a line of a report may be, after the line before it; None if nothing may follow."""
    if number == 1:
        return "`fractal 1`"
    before = line_of(text, number - 1)
    kind = kind_of(before or b"")
    if kind == "the end":
        return None
    kinds = ("an entry", "the output") if kind in (None, "an entry") else ("a word of the window", "the end")
    return " or ".join(f"{kind}, {SHAPES[kind]}," for kind in kinds)[:-1]


def shape_fault(kind: str, words: Sequence[str], number: int) -> Optional[str]:
    """What is wrong with the words of a line of this kind; None where they are inside the grammar."""
    if kind == "an entry":
        return entry_fault(words, number)
    if kind == "the output":
        pattern = "output (-|([0-9a-f]{2})+)"
    elif kind == "a word of the window":
        pattern = "window [0-9a-f]{8} [0-9a-f]{8}"
    elif words[:2] == ["end", "trap"]:
        return trap_fault(words)
    else:
        pattern = "end (normal|limit|open)"
    return None if re.fullmatch(pattern, " ".join(words)) else f"{kind} is {SHAPES[kind]}"


def entry_fault(words: Sequence[str], number: int) -> Optional[str]:
    """What is wrong with an entry on a line of a number; None where nothing is."""
    if len(words) != 4:
        return f"an entry is {SHAPES['an entry']}, and not {word_count(len(words))}"
    turn, name, depth, timestamp = words
    if turn != str(number - 1):
        return f"the entries are numbered 1, 2, 3 and so on, so {number - 1} is wanted, and not {turn[:20]}"
    return (name_fault(name) or number_fault(depth, "a depth", 1, MOST_DEPTH)
            or number_fault(timestamp, "a timestamp", 0, MOST_NAME))


def trap_fault(words: Sequence[str]) -> Optional[str]:
    """What is wrong with the end of a run that trapped; None where nothing is."""
    if len(words) != 5 or not re.fullmatch("[0-9a-f]{8}", words[3]):
        return f"the end is {SHAPES['the end']}, with eight digits for the pc"
    return number_fault(words[2], "a cause", 1, MOST_CAUSE) or name_fault(words[4])


MOST_LINES = 2 ** 32


def why(told: str, words: Sequence[str], data: bytes) -> str:
    """Why the program refused a line, from what it said, the words of the call, and its input."""
    found = re.fullmatch("fault (script|journal) ([1-9][0-9]{0,9})", told)
    if not found:
        raise Refusal(f"`{told[:40]}` isn't what the program says of a script or of a report.")
    text, number = text_behind_image(data), need_number("LINE", found[2], 1, MOST_LINES)
    if text is None:
        raise Refusal("the input begins with no whole image.")
    line, what = line_of(text, number), "report" if found[1] == "journal" else "script"
    if found[1] == "journal":
        fault: Optional[str] = report_fault(text, number)
        if fault in OTHER_RUNS.values():
            fault = run_fault(data, text, number, words) or fault
    elif line is None:
        fault = "the script has no such line"
    else:
        fault = script_fault(line, count_of("tiles", words), count_of("cores", words))
    place = f"line {number:,} of the {what}{f', {quote(line)}' if line is not None else ''}"
    return f"{place}: {fault or 'docs/guest/FORMATS.md has the grammar'}"


def run_fault(data: bytes, text: bytes, number: int, words: Sequence[str]) -> Optional[str]:
    """What contradicts a line of a report, though the grammar allows it; None if running the tasks again doesn't find
    it."""
    image, told = read_image(data, "the input"), text.decode("ascii", "replace")
    return disagreement(image, read_front(told, number - 1), read_front(told, number), count_of("commits", words),
                        count_of("budget", words))


def count_of(name: str, words: Sequence[str]) -> int:
    """The number of an option among the arguments, or its default."""
    table = Table()
    value, _ = take_option(words, f"--{name}")
    return size_of(name, {} if value is None else {name: table.options[name].need(value)}, table)
