"""Limits that several files have, compared with each other: where each one is decided, and where it is repeated."""
from __future__ import annotations

import re
from collections.abc import Iterator

from yotarimu.common.files import read_text
from yotarimu.common.places import HOME

IMAGE, TASKS, FORMATS = "tools/yotarimu/images/image.py", "docs/guest/TASKS.md", "docs/guest/FORMATS.md"
VALUE, SPECS = "crates/guest_image/specs/ImageValue.antt", "crates/guest_image/specs/Limits.antt"
LIMITS, ANSWERS = "crates/guest_image/src/limits.rt", "tools/yotarimu/programs/answers.py"
PIECES, SETTINGS = "tools/yotarimu/programs/pieces.py", "crates/command_line/specs/Settings.antt"
# A number, as code or a document writes it. It stands where a pattern has `#`.
NUMBER = r"([\d,_]*\d)"
# A limit by what it is of; then where it stands, each as a file and a pattern, the first of which decides.
PLACES: dict[str, tuple[tuple[str, str], ...]] = {
    "bytes of an input": (
        ("crates/program_call/specs/Call.antt", "^input_limit = #$"),
        ("crates/program_call/src/input.rt", "INPUT_LIMIT: usize = #;"),
        (ANSWERS, "^MOST_INPUT = #$"), ("tools/yotarimu/commands/lockstep.py", "^MOST_BYTES = #$"),
        ("tools/yotarimu/web/page/live.js", "MOST_INPUT = #"), ("fractal", "the input has more than # bytes"),
        (FORMATS, "the input has more than # bytes")),
    "words of text": (
        (VALUE, r"length image\.text ≤ #"), (SPECS, "nat_lt # text"), (SPECS, "text_words ≤ #"),
        (LIMITS, "MAX_TEXT_WORDS: u32 = #;"), (IMAGE, "^TEXT_WORDS, .* = #,"),
        (TASKS, r"\| text words \| # \|"), (FORMATS, r"\| words of text \| at most # \|")),
    "bytes of data": (
        (VALUE, r"image\.data_size ≤ #"), (SPECS, "nat_lt # data_size"), (SPECS, " size ≤ #"),
        (LIMITS, "MAX_DATA_SIZE: u32 = #;"),
        (IMAGE, r"^TEXT_WORDS, .* = \w+, #,"),
        (TASKS, r"\| data bytes \| # \|"),
        (FORMATS, r"\| data size \| at most # \|")),
    "words of the window": (
        (VALUE, r"image\.window_words ≤ #"), (SPECS, "nat_lt # window_words"),
        (LIMITS, "MAX_WINDOW_WORDS: u32 = #;"),
        (IMAGE, r"^TEXT_WORDS, .* = \w+, \w+, #,"), (TASKS, r"\| window words \| # \|"),
        (FORMATS, r"\| words of the window \| at most # \|")),
    "tasks of an image": (
        (VALUE, r"length image\.tasks ≤ #"), (SPECS, "nat_lt # tasks"), (SPECS, "task_count ≤ #"),
        (LIMITS, "MAX_TASKS: u32 = #;"), (IMAGE, r"^TEXT_WORDS, .*, #$"), (ANSWERS, "^MOST_TASKS = #$"),
        (PIECES, "^MOST_TASKS = #$"),
        (TASKS, r"\| initial tasks \| # \|"), (FORMATS, r"\| initial tasks \| 1 to # \|"),
        (FORMATS, "more than # tasks pend"), ("docs/guide/SAVED_RUNS.md", "an image has room for #")),
    "tasks of a run": (
        ("crates/serial_machine/src/limits.rt", "MAX_COMMITS: u32 = #;"),
        ("crates/report_text/src/limits.rt", "MAX_ENTRIES: u32 = #;"),
        (SETTINGS, r'\(codes "commits"\) \(between 1 #\)'), (PIECES, "^MOST_COMMITS = #$"),
        (TASKS, r"\| tasks of a run \| # \|")),
    "instructions of a task": (
        ("crates/serial_machine/src/limits.rt", "MAX_BUDGET: u32 = #;"),
        (SETTINGS, r'\(codes "budget"\) \(between 1 #\)'),
        ("tools/yotarimu/images/serial_machine.py", "^MOST_BUDGET, MOST_BYTES = #,"),
        (TASKS, r"\| instructions of a task \| # \|")),
    "levels of a domain in version 2": (
        ("crates/task_desc/src/calls.rt", "MAX_DEPTH: u8 = #;"),
        ("crates/fractal_vt/src/vt.rt", "MAX_LEVELS: usize = #;"),
        ("crates/report_text/src/limits.rt", "MAX_DEPTH: u32 = #;"), (IMAGE, r"2: Limits\(\d+, #,"),
        (TASKS, r"\| depth of a domain \| 8 in version 1, # in version 2 \|")),
    "children of a task in version 2": (
        ("crates/task_desc/src/calls.rt", "MAX_CHILDREN: u32 = #;"), (IMAGE, r"2: Limits\(#,"),
        (TASKS, r"\| children of a task \| 64 in version 1, # in version 2 \|")),
    "bytes that a task emits": (
        ("crates/task_desc/src/calls.rt", "MAX_BYTES: u32 = #;"),
        ("crates/spec_state/src/emitted.rt", "MAX_EMITTED: usize = #;"),
        (TASKS, r"\| bytes that a task emits \| # \|")),
    "bytes of a stack": (
        ("crates/guest_image/src/memory_map.rt", "STACK_BYTES: u32 = #;"), (IMAGE, r"2: Limits\(\d+, \d+, #\)"),
        (TASKS, r"\| bytes of a task's stack \| none in version 1, # in version 2 \|")),
    "dispatch numbers": (
        ("crates/spec_state/src/numbers.rt", "DISPATCH_NUMBERS: u64 = #;"),
        ("docs/machine/MACHINE.md", r"at most # \(`DISPATCH_NUMBERS`\)"),
        ("docs/proof/SOUNDNESS.md", "the next dispatch number is at most #")),
    "starved rounds": (
        ("crates/fractal_watch/src/words.rt", "STARVED_ROUNDS: u32 = #;"),
        (FORMATS, "default of M: #"),
        ("docs/DECISIONS.md", "# starved rounds in a row")),
}


def numbers_at(path: str, pattern: str) -> list[int]:
    """The numbers of a file that match a pattern."""
    found = re.findall(pattern.replace("#", NUMBER), read_text(HOME / path), re.M)
    return [int(re.sub("[,_]", "", number)) for number in found]


def limits_that_differ() -> Iterator[str]:
    """Each place at which a limit isn't the one that is decided, or isn't there any more."""
    for limit, places in PLACES.items():
        decided, *_ = [*numbers_at(*places[0]), None]
        for path, pattern in places:
            seen = numbers_at(path, pattern)
            if not seen:
                yield f"{path}: `{pattern}` isn't there any more, where .ci/limits.py looks for the {limit}"
            for number in seen:
                if decided is not None and number != decided:
                    yield f"{path}: the {limit} are {number:,}, and {decided:,} in {places[0][0]}"
