"""Plays a script that people wrote, and writes each reply beside its line, and then the report.

usage: ./fractal play FOLDER [--OPTION VALUE]... [ARGUMENT]...
       ./fractal play SCRIPT [--image IMAGE] [--OPTION VALUE]... [ARGUMENT]...

A FOLDER has a script, an image.bin, and the arguments of its call in the file words, if it has such a file; so has the
folder of a SCRIPT. `#` begins a comment, lines may be empty, and blanks are as you like; all of this is removed before
the program sees it, and lines are numbered as in the file. An OPTION is one of the program, in place of the one that
the file words has.

  --image IMAGE      another image than the one beside the script
  --picture FILE     a picture of the run (SVG), as ./fractal draw makes it
  --plain FILE       the script as the program takes it, for `./fractal steps`, `trace` and ./fractal figures

The status is that of the program.
"""
from __future__ import annotations

import io
import pathlib
from collections.abc import Sequence

from yotarimu.common.files import need_outputs, write_whole
from yotarimu.common.words import Words
from yotarimu.courses.growth import Schedule
from yotarimu.courses.schedules import script_text
from yotarimu.courses.scripts import acts_in, files_at, lines_beside, options_beside, options_of, play, read_lines
from yotarimu.images.listing import NO_LISTING, read_listing
from yotarimu.lines.reader import Reader
from yotarimu.pictures import timeline
from yotarimu.pictures.history import history_of
from yotarimu.programs.table import Table


def main(words: list[str]) -> int:
    """Does what the words of the call ask for, and gives the status."""
    table = Table()
    given = Words("play", table.options, page=__doc__).read(words)
    options = options_of(given.values, table)
    word, = given.need("one FOLDER or SCRIPT", 1)
    script, image = files_at(word, given.values["image"])
    picture, plain = given.values["picture"], given.values["plain"]
    need_outputs((picture, plain), (script, image, script.parent / "words"))
    options = {**options_beside(script.parent, table), **options}
    lines = read_lines(script)
    acts = acts_in(lines, script, options, table)
    status, text, played = play(image, acts, options, str(script))
    report = text[text.index("fractal 1\n"):]
    print(*lines_beside(lines, acts, played.said), "", report, sep="\n", end="")
    files: dict[str, bytes] = {}
    if picture is not None:
        drawn = [str(act) for act in played.acts]
        files[picture] = picture_of(Schedule(image, options, table), drawn, image.with_name("listing")).encode()
    if plain is not None:
        files[plain] = script_text(played.acts).encode()
    write_whole(files)
    return status


def picture_of(schedule: Schedule, acts: Sequence[str], listing: pathlib.Path) -> str:
    """The picture of a schedule, with the labels of the listing beside its image, if there is one."""
    reader = Reader(io.BytesIO(schedule.lines_of(acts)), "fractal_watch")
    names = read_listing(listing.read_text(encoding="utf-8"), listing) if listing.is_file() else NO_LISTING
    return timeline.draw(history_of(reader), names)
