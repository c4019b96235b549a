"""Files that docs/maintain/ARCHITECTURE.md names, each of which has to exist."""
from __future__ import annotations

import pathlib
import re
from collections.abc import Iterator

from yotarimu.common.places import HOME, TOOLS_FOLDER

PAGES = ["docs/maintain/ARCHITECTURE.md"]
# A name with a folder, in code. Without an ending it is a folder, or a source of a crate.
NAMED = re.compile(r"`([\w.-]+/[\w./-]*)`")
ENDINGS = ("", ".antt", ".rt")
# Folders that such a name may begin in, the one of a change's crate aside.
FOLDERS = (HOME, HOME / "crates", TOOLS_FOLDER / "yotarimu")
# What begins within a crate, which the text before it names.
WITHIN_A_CRATE = ("specs/", "src/", "proofs/", "must-fail/")


def is_there(name: str) -> bool:
    """Whether a file or a folder of this name is there."""
    folders: Iterator[pathlib.Path] = iter(FOLDERS)
    if name.startswith(WITHIN_A_CRATE):
        folders = (HOME / "crates").iterdir()
    return any((folder / f"{name}{ending}").exists() for folder in folders for ending in ENDINGS)


def files_that_are_gone() -> Iterator[str]:
    """Each line that names a file which isn't there."""
    for page in PAGES:
        for number, line in enumerate((HOME / page).read_text(encoding="utf-8").splitlines(), 1):
            yield from (f"{page}:{number}: `{name}` isn't there" for name in NAMED.findall(line) if not is_there(name))
