"""A console: type an act, and see what it did to the machine.

usage: ./fractal console IMAGE [--script FILE] [--OPTION VALUE]...

IMAGE may be a folder that has an image.bin; then the options in its file words are set too. The options are those of
fractal_watch. A listing beside the image gives labels to addresses.

  --script FILE  begins with the acts of a script

Each line of the input is an act of a script, as in docs/guest/FORMATS.md, or one of these. `#` begins a comment.

  undo [N]     undoes the last N acts (default 1)
  run N        does N acts `advance`, each the event for the least task, or fewer if the run ends
  show         shows the machine once more
  order A B    says which of two tasks comes first, and why, by their labels
  script       lists the acts so far, with their replies
  save FILE    writes the acts so far as a script, to a new file
  save! FILE   the same, and replaces an existing file
  open [FILE]  writes the page that shows all acts, and prints its path; an existing FILE must be a page
  help         lists these commands and the acts
  quit         leaves; also the end of the input

A task without a name yet has a label: `0.1+2` is child 2 of 0.1. `>` marks the task and the word of the last act. Each
act is played by `./fractal watch steps`, from the start. A line that can't be done is reported and changes nothing; the
status is then 1, unless the input is a terminal.
"""
from __future__ import annotations

import pathlib
import sys

from yotarimu.common.words import Words
from yotarimu.courses.console import NAME, Console, typed_lines, write
from yotarimu.courses.growth import Schedule
from yotarimu.courses.scripts import acts_in, options_beside, options_of, read_lines
from yotarimu.programs.table import Table


def main(words: list[str]) -> int:
    """Does what the words of the call ask for, and gives the status."""
    table = Table()
    given = Words(NAME, table.mode_options, page=__doc__).read(words)
    options = options_of(given.values, table)
    word, = given.need("one IMAGE, or a folder that has an image.bin", 1)
    path = pathlib.Path(word)
    if path.is_dir():
        options = {**options_beside(path, table), **options}
        path = path / "image.bin"
    schedule, script = Schedule(path, options, table), given.values["script"]
    acts = acts_in(read_lines(script), script, options, table) if script else []
    # What the words of the console are is in the last part but one of the page.
    console = Console(schedule, [act.text for act in acts], (__doc__ or "").strip().split("\n\n")[5], script)
    if schedule.remark:
        write([schedule.remark])
    write([*console.performance.text_lines(), ""])
    is_terminal = sys.stdin is not None and sys.stdin.isatty()
    try:
        console.follow(typed_lines())
    finally:
        if is_terminal:
            console.tell_unsaved()
    return 1 if console.is_refused and not is_terminal else 0
