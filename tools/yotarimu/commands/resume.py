"""Runs an image in pieces of so many commits, each from the image that `save` made of the one before, and joins their
reports to one.

usage: ./fractal resume IMAGE FOLDER --every N [--OPTION VALUE]... [--sim FILE]

FOLDER is all that it keeps: `0001.image` and `0001.report`, and so on, and at the end `report`, the run as one. If it
was interrupted, the same arguments go on with the piece that was under way. A run can't be cut while a task of a
subdomain is pending, or more tasks than an image has room for: then that is reported, and it is cut at the next count
of commits at which it can be. The joined report is checked, up to 1,000,000 commits; of a longer run each piece is. If
a piece isn't as it was made, it says which files to delete, so that the same arguments make them again. OPTION is one
of the program but --commits, and --workers 0 alone, since a run with workers isn't made twice alike.

  --every N     how many commits a piece has (1 to 1,000,000)
  --sim FILE    a built fractal_sim in place of the one that answers here
"""
from __future__ import annotations

from yotarimu.common.files import read_bytes
from yotarimu.common.outcome import Refusal
from yotarimu.common.text import count_text
from yotarimu.common.words import GivenWords, Words
from yotarimu.images.image import read_image
from yotarimu.programs import pieces
from yotarimu.programs.calls import calls_at
from yotarimu.programs.resumption import Resumption
from yotarimu.programs.table import Table


def options_of(given: GivenWords, table: Table) -> list[str]:
    """The options for the program, as its words."""
    options = []
    for name, option in table.options.items():
        value = given.values[name]
        if value is None:
            continue
        if name == "commits":
            raise Refusal("--every says how many commits a piece has, so --commits has no place here.")
        if name == "workers" and value.strip("0"):
            raise Refusal("--workers takes 0 alone here: a run with workers isn't made twice alike.")
        option.need(value)
        options.append(f"--{name}={value}")
    return options


def main(words: list[str]) -> int:
    """Does what the words of the call ask for, and gives the status."""
    table = Table()
    given = Words("resume", table.options, page=__doc__).read(words)
    if given.values["every"] is None:
        raise Refusal("it needs --every N, how many commits a piece has.")
    every = given.number("every")
    options = options_of(given, table)
    path, pieces_path = given.need("an image and a folder for its pieces", 2)
    if not pieces_path:
        raise Refusal("the name of the folder for the pieces is empty.")
    image = read_bytes(path)
    read_image(image, path)
    calls = calls_at(given.values["sim"])
    folder = pieces.Folder(pieces_path, image, [f"--every={every}", *options])
    resumption = Resumption(calls, options, every, folder)
    try:
        resumption.run_all()
        count, turns = resumption.join()
    except pieces.DamagedPiece as damaged:
        raise Refusal(f"{str(damaged).rstrip('.')}; {folder.remedy(damaged.number)}.") from None
    told = f"{count_text(turns, 'commit')} in {count_text(count, 'piece')}"
    print(f"{folder.name(pieces.REPORT)}: {told}; accepted by check.")
    return 0
