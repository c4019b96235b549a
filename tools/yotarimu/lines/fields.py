"""The fields of each line of the event log, with their order and kinds.

docs/guest/FORMATS.md has the table. If all numbers of a line are set to 0, what remains says which fields it has and of
which kinds. Such skeletons are remembered, so that a line with a known one isn't checked field by field.
"""
from __future__ import annotations

import json
from typing import Any, Callable, Optional

from yotarimu.common.acts import ACTS, ENDED
from yotarimu.lines.filters import FILTERS

# Acts that are events; the others are told under their own word where no event was handed in.
EVENTS = tuple(word for word, kind in ACTS.items() if kind.is_event)
# The replies that an act may have; each may also come after the run's end.
REPLIES = {word: kind.told for word, kind in ACTS.items()}
# A step may stall where its task asks for these.
STALLING = ("enqueue", "end")
KINDS = ("ordered", "unordered")
STATES = ("idle", "running", "trapped", "finished")
MODES = ("steps", "least", "lockstep")
ENDS = ("normal", "limit", "open", "trap")
SETTINGS = ("tiles", "cores", "task_queue", "commit_queue", "line", "quantum", "commits", "budget", "phase")
# No number of the second program has more digits.
MOST_DIGITS = 20
# Makes each digit 0.
ZEROS = bytes(ord("0") if chr(byte).isdigit() else byte for byte in range(128)) + bytes(range(128, 256))
MOST_SKELETONS = 4_096
MOST_SHOWN = 40
DECODER = json.JSONDecoder()
# A line as JSON has it. The tables below say which fields each has, and of which kinds they are.
Line = dict[str, Any]
# Whether a value is of a kind, and the fields of a line: a name each, with its kind.
Kind = Callable[[object], bool]
Fields = tuple[tuple[str, Kind], ...]


class WrongLine(Exception):
    """A line isn't what it has to be. Its text says why, without the place."""


def is_number(value: object) -> bool:
    """Whether a value is a number that `fractal_watch` may write."""
    return isinstance(value, int) and not isinstance(value, bool) and 0 <= value < 10 ** MOST_DIGITS


def is_number_or_null(value: object) -> bool:
    """Whether a value is such a number, or null."""
    return value is None or is_number(value)


def is_hex(value: object) -> bool:
    """Whether a value is a text of whole bytes in hexadecimal."""
    return isinstance(value, str) and len(value) % 2 == 0 and not value.strip("0123456789abcdef")


def one_of(*words: str) -> Kind:
    """The kind of a value that is one of some words."""
    return lambda value: isinstance(value, str) and value in words


def numbers(count: Optional[int] = None) -> Kind:
    """Lists of numbers, of so many where a count is given."""
    return lambda value: isinstance(value, list) and count in (None, len(value)) and all(map(is_number, value))


def rows(count: int) -> Kind:
    """Lists of at least one list of so many numbers."""
    is_row = numbers(count)
    return lambda value: isinstance(value, list) and value != [] and all(map(is_row, value))


def is_queued(value: object) -> bool:
    """A task in a queue of a view: its id, state, timestamp, and dispatch number or null."""
    return (isinstance(value, list) and len(value) == 4 and is_number(value[0]) and value[1] in STATES
            and is_number(value[2]) and is_number_or_null(value[3]))


def is_tile(value: object) -> bool:
    """A tile of a view."""
    return (isinstance(value, dict) and list(value) == ["queue", "cores", "finished", "block"]
            and isinstance(value["queue"], list) and all(map(is_queued, value["queue"]))
            and isinstance(value["cores"], list) and all(map(is_number_or_null, value["cores"]))
            and numbers()(value["finished"]) and is_number(value["block"]))


def is_tiles(value: object) -> bool:
    """Whether a value is a list with a list for each tile."""
    return isinstance(value, list) and all(map(is_tile, value))


PAIR, TRIPLE = numbers(2), numbers(3)
# Fields that may be missing have a mark behind their name.
MAYBE = "?"
NUMBER = is_number
CHILD: Fields = (
    ("to", one_of("same", "sub", "super")), ("entry", NUMBER), ("ts", NUMBER), ("args", TRIPLE), ("hint", NUMBER))
ACCESS: Fields = (("addr", NUMBER), ("bytes", NUMBER))
# What comes behind `asks`.
ASKED: dict[str, Fields] = {
    "go": (), "load": ACCESS, "store": (*ACCESS, ("value", NUMBER)), "enqueue": CHILD, "ordered": (), "unordered": (),
    "emit": (("byte", NUMBER),), "end": (), "trap": (("cause", NUMBER),),
}
# What an act has before its reply, without its leg.
PLACES: dict[str, Fields] = {
    "dispatch": (("tile", NUMBER), ("task?", NUMBER)), "step": (("tile", NUMBER), ("core", NUMBER), ("task?", NUMBER)),
    "take": (("tile", NUMBER), ("core", NUMBER)), "give": (("tile", NUMBER), ("core", NUMBER)),
    "abort": (("tile", NUMBER), ("task?", NUMBER)), "commit": (("task?", NUMBER),), "coalesce": (("tile", NUMBER),),
    "split": (("tile", NUMBER),), "advance": (),
}
MOVED: Fields = (("aborted?", NUMBER), ("back?", rows(2)), ("gone?", numbers()), ("spilled?", rows(3)))
ARRIVED: Fields = (("new", NUMBER), ("in", NUMBER))
# What an event changed beside the tasks that it took back or spilled; of a step by what its task asks for.
OWN: dict[str, Fields] = {
    "dispatch": (("core", NUMBER), ("number", NUMBER)), "split": (*ARRIVED, ("name", PAIR)),
    "commit": (("name", PAIR), ("depth", NUMBER), ("ts", NUMBER), ("output?", is_hex)),
    "load": (("old", NUMBER),), "store": (("old", NUMBER),), "enqueue": ARRIVED,
}
PLACED: Fields = (
    ("at", NUMBER), ("do", one_of("place")), ("tile", NUMBER), ("new?", NUMBER), ("name", PAIR),
    ("entry", NUMBER), ("ts", NUMBER), ("args", TRIPLE), ("hint", NUMBER))
VIEW: Fields = (("view", NUMBER), ("next", NUMBER), ("tiles", is_tiles))
FAULT: Fields = (
    ("fault", one_of("usage", "image", "script", "long")), ("number?", NUMBER), ("offset?", NUMBER), ("line?", NUMBER))


def head_fields(line: Line) -> Fields:
    """The fields of the first line. It had no filter before one could be chosen."""
    rounds = (("rounds", NUMBER), ("seed", NUMBER), ("starved", NUMBER)) if line.get("course") == "lockstep" else ()
    return (("watch", NUMBER), ("course", one_of(*MODES)), *rounds, *((name, NUMBER) for name in SETTINGS),
            ("filter?", one_of(*FILTERS)), ("root", one_of(*KINDS)), ("text", NUMBER), ("data", NUMBER),
            ("window", PAIR), ("tasks", NUMBER))


def end_fields(line: Line) -> Fields:
    """The fields of the last line."""
    trap = (("cause", NUMBER), ("pc", NUMBER), ("name", PAIR)) if line["end"] == "trap" else ()
    return (("end", one_of(*ENDS)), *trap, ("n", NUMBER), ("journal", NUMBER), ("output", is_hex),
            ("window", numbers()))


def word_of(line: Line, name: str) -> str:
    """The string in a field; empty if the field is missing or isn't a string."""
    value = line.get(name)
    return value if isinstance(value, str) else ""


def leg_fields(line: Line) -> Fields:
    """The fields of a step's leg; empty if it has none."""
    if line["do"] != "step" or "leg" not in line:
        return ()
    asks = word_of(line, "asks")
    return (("leg", NUMBER), ("pc", NUMBER), ("asks", one_of(*ASKED)), *ASKED.get(asks, ()))


def replies_of(line: Line) -> tuple[str, ...]:
    """The replies that an act may have."""
    stall = ("stall",) if line["do"] == "step" and line.get("asks") in STALLING else ()
    return (*REPLIES[line["do"]], *stall, ENDED)


def change_fields(line: Line) -> Fields:
    """The fields for what an act changed; empty if it made no event."""
    if line.get("reply") != "ok" or line["do"] not in EVENTS:
        return ()
    return (*MOVED, *OWN.get(word_of(line, "asks") if line["do"] == "step" else line["do"], ()))


def act_fields(line: Line) -> Fields:
    """The fields of an act, or of a task that is placed."""
    word = word_of(line, "do")
    if word == "place":
        return PLACED
    if word not in PLACES:
        raise WrongLine("`do` names neither an event nor an act")
    return (("at", NUMBER), ("do", one_of(word)), *PLACES[word], *leg_fields(line),
            ("reply", one_of(*replies_of(line))), ("n", NUMBER), *change_fields(line))


def fields_of(line: Line) -> Fields:
    """The fields that a line has to have, by what kind of line it is."""
    first = next(iter(line), None)
    if first == "at":
        return act_fields(line)
    if first == "watch":
        return head_fields(line)
    if first == "end":
        return end_fields(line)
    if first == "view":
        return VIEW
    if first == "fault":
        return FAULT
    raise WrongLine("it isn't a line that fractal_watch prints")


def need_fields(line: Line) -> None:
    """Refuses a line whose fields aren't these, in this order."""
    names = list(line)
    place = 0
    for field, is_right in fields_of(line):
        name = field.removesuffix(MAYBE)
        if place < len(names) and names[place] == name:
            if not is_right(line[name]):
                raise WrongLine(f"`{name}` is `{value_text(line[name])}`")
            place += 1
        elif name == field:
            raise WrongLine(f"`{name}` isn't where it has to stand")
    if place < len(names):
        raise WrongLine(f"`{names[place]}` stands where it mustn't")


def value_text(value: object) -> str:
    """The beginning of a value, for a sentence."""
    text = value if isinstance(value, str) else json.dumps(value)
    return text if len(text) <= MOST_SHOWN else f"{text[:MOST_SHOWN]}.."


def fields_in(text: str) -> Line:
    """The fields of a line that is known to be right."""
    line: Line = DECODER.decode(text)
    return line


class Shapes:
    """The skeletons of lines that were found right: lines with a digit 0 in place of each number."""

    __slots__ = ("known",)

    def __init__(self) -> None:
        self.known: set[bytes] = set()

    def line_of(self, text: str) -> Line:
        """The fields of a line, without its newline; Wrong where it is none."""
        try:
            decoded, end = DECODER.raw_decode(text)
        except ValueError:
            raise WrongLine(f"`{value_text(text)}` isn't JSON") from None
        except RecursionError:
            raise WrongLine("it is nested too deep") from None
        zeros = text.encode(errors="replace").translate(ZEROS)
        # This makes one digit of up to ten, which most numbers have, and two or more of seventeen or more.
        skeleton = zeros.replace(b"0000", b"0").replace(b"00", b"0").replace(b"00", b"0")
        if skeleton not in self.known or end != len(text):
            need_shape(text, decoded)
            # So numbers that are too long are never known, and the digits of bytes in hexadecimal are no numbers.
            if len(self.known) < MOST_SKELETONS and "output" not in decoded and b"00" not in skeleton:
                self.known.add(skeleton)
        line: Line = decoded
        return line


def need_shape(text: str, line: object) -> None:
    """Refuses a line whose fields or text aren't as `fractal_watch` writes them."""
    if not isinstance(line, dict):
        raise WrongLine("it isn't an object of JSON")
    need_fields(line)
    if json.dumps(line, separators=(",", ":")) != text:
        raise WrongLine("it is written otherwise than fractal_watch writes it")
