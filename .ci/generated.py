"""The pages and pictures that `.ci/generate` makes, each with the function that makes its text."""
from __future__ import annotations

from collections.abc import Callable, Iterator

from bytes_page import bytes_text
from claims_page import claims_text
from commands_page import commands_text
from crates_page import crates_text
from diagrams import domains, laws, room, task_states, tile, tools
from measured_page import measured_text
from mutants import mutants_text
from played_page import played_text
from reading_page import page_text
from traps_page import traps_text
from worked_page import worked_text

from yotarimu.common.files import read_written
from yotarimu.common.places import HOME
from yotarimu.images.listing import read_listing
from yotarimu.lines.reader import open_lines
from yotarimu.pictures import gantt, strip, timeline
from yotarimu.pictures.history import history_of

CONFLICT = HOME / "examples/schedules/conflict"


def schedule_picture() -> str:
    """The run of the conflict as the page's timeline."""
    listing = CONFLICT / "listing"
    with open_lines(CONFLICT / "lines") as watched:
        history = history_of(watched)
    return timeline.draw(history, read_listing(read_written(listing), listing))


def conflict_strip() -> str:
    """The conflict in four frames, from its event log."""
    listing = CONFLICT / "listing"
    return strip.draw(CONFLICT / "lines", read_listing(read_written(listing), listing))


def parallelism_charts() -> str:
    """Three tasks under each kind of dependences."""
    return gantt.draw("...a 3A.. ...A")


GENERATED: dict[str, Callable[[], str]] = {
    "docs/proof/READING.md": page_text, "docs/proof/CLAIMS.md": claims_text, "docs/proof/MUTANTS.md": mutants_text,
    "docs/maintain/CRATES.md": crates_text,
    "docs/machine/PLAYED.md": played_text, "docs/guide/COMMANDS.md": commands_text,
    "docs/maintain/MEASURED.md": measured_text,
    "docs/guest/TRAPS.md": traps_text, "examples/hello/BYTES.md": bytes_text,
    **{f"examples/schedules/{name}/WORKED.md": worked_text(name) for name in ("domains_by_hand", "rounds_by_hand")},
    "docs/machine/conflict.svg": schedule_picture, "docs/machine/conflict_strip.svg": conflict_strip,
    "docs/machine/parallelism.svg": parallelism_charts,
    "docs/machine/task_states.svg": task_states, "docs/machine/room.svg": room, "docs/machine/tile.svg": tile,
    "docs/machine/domains.svg": domains, "docs/machine/tools.svg": tools,
    "docs/proof/laws.svg": laws,
}


def files_that_are_old() -> Iterator[str]:
    """Each file that isn't the one that would be made now."""
    for path, make in GENERATED.items():
        if not (HOME / path).is_file() or (HOME / path).read_text(encoding="utf-8") != make():
            yield f"{path}: it isn't what .ci/generate makes; call that"
