"""Compares lists that are at several places: of acts, commands, options, modes, filters and statuses.

For each kind one list decides: for acts the table of tools/yotarimu/common/acts.py, for all others the launcher's. The
lists of documents, of definitions of crates, of scripts and of pages must have the same entries.
"""
from __future__ import annotations

import re
import sys
from collections.abc import Iterable, Iterator

from yotarimu.common.acts import ACTS
from yotarimu.common.outcome import Refusal
from yotarimu.common.places import HOME
from yotarimu.common.sentences import SENTENCES
from yotarimu.lines.fields import EVENTS, MODES, PLACES, SETTINGS
from yotarimu.lines.filters import DIGITS, FILTERS
from yotarimu.lines.reader import RANGES
from yotarimu.lines.replay import MADE
from yotarimu.programs.answers import READERS, SHOWN
from yotarimu.programs.table import Table

# The modules of bench/ stand beside its scripts.
sys.path.append(str(HOME / "bench"))
from cases.kinds import OPTIONS, TABLES  # noqa: E402
from cases.scripts import MOODS  # noqa: E402

FORMATS, SETTINGS_PAGE = "docs/guest/FORMATS.md", "docs/machine/SETTINGS.md"
GRAMMAR, REQUESTS = "crates/step_script/specs/Grammar.antt", "crates/command_line/specs/Requests.antt"
SETTINGS_SPECS, COURSE_WORDS = "crates/command_line/specs/Settings.antt", "crates/fractal_watch/specs/Words.antt"
STATUSES, PAGE = "crates/program_call/src/statuses.rt", "tools/yotarimu/web/page/live"
BUTTONS = "tools/yotarimu/web/page/moves.html"
FILTER_WORDS, HASHES = "crates/watch_text/specs/Fields.antt", "crates/line_table/src/hash.rt"
DRIVE = "tools/tries/browser/looks.mjs"
CODES = r'\(codes "([a-z-]+)"\)'
# Sentences on what was asked for that belong to a request of a step, and to no act.
OF_STEPS = {"leg", "enqueue", "end"}
# A list that is to be the same: where it stands, what it is called there, and its words.
Place = tuple[str, str, Iterable[str]]


def whole(path: str) -> str:
    return (HOME / path).read_text(encoding="utf-8")


def part_of(path: str, start: str, end: str) -> str:
    """The text of a file between two others, the first of which it has."""
    _, found, rest = whole(path).partition(start)
    if not found:
        raise Refusal(f"{path}: `{start.strip()}` isn't there any more, after which .ci/lists.py reads a list.")
    return rest.partition(end)[0]


def first_cells(path: str, head: str) -> list[str]:
    """The first words, in code, of the rows below the head of a table."""
    return re.findall(r"^\| `(?:--)?([a-z-]+)", part_of(path, f"\n{head}", "\n\n"), re.M)


def codes_in(path: str, start: str, end: str) -> list[str]:
    return re.findall(CODES, part_of(path, start, end))


def places_of_acts() -> Iterator[Place]:
    """Lists of all acts."""
    yield GRAMMAR, "the grammar", re.findall(CODES, whole(GRAMMAR))
    yield FORMATS, "the table of lines", first_cells(FORMATS, "| Line | Does |")
    yield "sentences.json", "wishes", set(SENTENCES["wishes"]) - OF_STEPS
    yield BUTTONS, "the buttons", re.findall('data-act="([a-z]+)"', whole(BUTTONS))
    yield "lines/fields.py", "PLACES", PLACES
    yield "bench/cases/scripts.py", "MOODS", (word for mood in MOODS.values() for word in mood)
    yield DRIVE, "the acts by buttons", re.findall('"([a-z]+)"', part_of(DRIVE, "(const act of [", "]"))


def places_of_commands(table: Table) -> Iterator[Place]:
    yield REQUESTS, "command_by", codes_in(REQUESTS, "command_by word text =", "\n\n")
    named = part_of(FORMATS, "The first argument is the command:", ".")
    yield FORMATS, "the commands", re.findall("`([a-z]+)`", named)
    yield "programs/answers.py", "SHOWN", SHOWN
    readers = [*READERS, *(name for name, row in table.command_rows.items() if not row[1])]
    yield "programs/answers.py", "READERS", readers
    yield "bench/cases/kinds.py", "Calls", (name for name in dict(TABLES)["Calls"] if name != "other words")


def places_of_options() -> Iterator[Place]:
    yield SETTINGS_SPECS, "the settings", codes_in(SETTINGS_SPECS, "pub tiles", "\0")
    yield "bench/cases/kinds.py", "OPTIONS", OPTIONS
    # Lines tell no host threads, since none make their acts.
    yield "lines/fields.py", "SETTINGS", ("workers", *(name.replace("_", "-") for name in SETTINGS))
    yield "lines/reader.py", "RANGES", ("workers", *(name.replace("_", "-") for name in RANGES if name in SETTINGS))


def places_of_filters() -> Iterator[Place]:
    """Lists of the kinds of filters."""
    yield "lines/filters.py", "FILTERS", FILTERS
    yield COURSE_WORDS, "filter_named", codes_in(COURSE_WORDS, "filter_named word =", "\n\n")
    words = part_of(FILTER_WORDS, "filter_word Modulo", "\n\n")
    yield FILTER_WORDS, "filter_word", re.findall('codes "([a-z]+)"', words)
    yield FORMATS, "the table of filters", first_cells(FORMATS, "| Filter | Bits of a line |")


def digits_in_crates() -> list[str]:
    """The constants of the hashes of lines, each with its place."""
    digits = re.findall("0x([0-9a-f_]{19}),", part_of(HASHES, "DIGITS: [u64;", "];"))
    return [f"{place}: {int(text.replace('_', ''), 16):x}" for place, text in enumerate(digits)]


def differing(what: str, wanted: Iterable[str], places: Iterable[Place]) -> Iterator[str]:
    """What a list has too little, or too much."""
    right = set(wanted)
    for path, name, words in places:
        seen = set(words)
        for word in sorted(right - seen):
            yield f"{path}: {name} has no `{word}`, which is {what}"
        for word in sorted(seen - right):
            yield f"{path}: {name} has `{word}`, which isn't {what}"


def options_that_differ(table: Table) -> Iterator[str]:
    """Options of the page on settings; their ranges and defaults are on a generated page."""
    rows = re.findall("`--([a-z-]+)`", part_of(SETTINGS_PAGE, "| Option | Published |", "\n\n"))
    yield from differing("an option", table.mode_options, [(SETTINGS_PAGE, "the table of options", rows)])


def lists_that_differ() -> Iterator[str]:
    """All that a list has otherwise than the one that decides."""
    table = Table()
    yield from differing("an act", ACTS, places_of_acts())
    yield from differing("an act with so many numbers", (f"{word}: {kind.numbers}" for word, kind in ACTS.items()),
                         [(f"{PAGE}.js", "actWords", part_of(f"{PAGE}.js", "const actWords = {", "}").split(", "))])
    yield from differing("an act that a line reports", (word for word, kind in ACTS.items() if "ok" in kind.told),
                         [("sentences.json", "done", SENTENCES["done"])])
    yield from differing("an event", EVENTS, [("lines/replay.py", "MADE", MADE)])
    yield from differing("a command", table.commands, places_of_commands(table))
    yield from differing("an option", table.options, places_of_options())
    yield from options_that_differ(table)
    yield from differing("a kind of filter", map(str, table.mode_options["filter"].values), places_of_filters())
    yield from differing("a constant of the hashes", (f"{place}: {it:x}" for place, it in enumerate(DIGITS)),
                         [(HASHES, "DIGITS", digits_in_crates())])
    yield from differing("a mode", table.mode_rows, [
        ("lines/fields.py", "MODES", MODES),
        (COURSE_WORDS, "course_in", codes_in(COURSE_WORDS, "course_in (word", "\n\n")),
        (FORMATS, "the table of modes", first_cells(FORMATS, "| Mode | Its acts |"))])
    yield from differing("a status", map(str, table.statuses), [
        (STATUSES, "the constants", re.findall(r"u8 = (\d+);", whole(STATUSES))),
        (FORMATS, "the table of statuses", re.findall(r"^\| (\d+) \|", part_of(FORMATS, "| Status | Where |", "\n\n"),
                                                      re.M))])
