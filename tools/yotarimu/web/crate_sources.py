"""The sources that both programs are built from, as one digest, by which the page says what it was made of."""
from __future__ import annotations

import hashlib
import pathlib
from collections.abc import Iterable

from yotarimu.web.toolchain import Crates

# What a file calls each program, and its crate.
PROGRAMS = {"sim": "fractal_sim", "watch": "fractal_watch"}
DIGITS = 16


def program_crates(home: pathlib.Path) -> list[str]:
    """The crates of the repository that both programs are built from."""
    crates = Crates(home)
    return sorted({name for crate in PROGRAMS.values() for name in (*crates.all_below(crate), crate)})


def sources_digest(home: pathlib.Path) -> str:
    """The digest of the names and the contents of all files in `src` of these crates."""
    folders = [home / "crates" / crate / "src" for crate in program_crates(home)]
    return digest_of(home, (path for folder in folders for path in folder.rglob("*.rt")))


def digest_of(home: pathlib.Path, paths: Iterable[pathlib.Path]) -> str:
    """The digest of files, by their names within a folder and their contents, in whatever order they are given."""
    digest = hashlib.sha256()
    for name, path in sorted((path.relative_to(home).as_posix(), path) for path in paths):
        digest.update(f"{name} {hashlib.sha256(path.read_bytes()).hexdigest()}\n".encode())
    return digest.hexdigest()[:DIGITS]
