"""Both programs as WebAssembly modules beside the built ones, and the files that are made of them."""
from __future__ import annotations

import base64
import dataclasses
import difflib
import gzip
import json
import pathlib
import re
import subprocess
from typing import Dict, Optional

from yotarimu.common.files import read_bytes, read_text, write_whole
from yotarimu.common.outcome import Refusal
from yotarimu.common.places import EXAMPLES_FOLDER, HOME
from yotarimu.programs.table import table_lines
from yotarimu.web.bundle import command_line, live_page
from yotarimu.web.crate_sources import PROGRAMS, sources_digest
from yotarimu.web.toolchain import module_of, toolchain
from yotarimu.web.linker import Tools, link
from yotarimu.web.examples import examples_in

PAGE, COMMAND = "fractal.html", "fractal.mjs"
# The page is in the repository, so it is to stay small.
MOST_BYTES = 1_100_000
ORIGIN = re.compile(r"^const made = (\{.*\});$", re.MULTILINE)
INSIDE = re.compile(r"^const modules = (\{.*\});$", re.MULTILINE)


@dataclasses.dataclass(frozen=True)
class Origin:
    """What modules were built from: a commit, and the digest of the crates' sources there."""
    commit: str
    sources: str


@dataclasses.dataclass(frozen=True)
class Modules:
    """Both modules, and what they were built from."""
    programs: Dict[str, bytes]
    origin: Origin


def module_path(crate: str) -> pathlib.Path:
    """Where the module of a program is."""
    return HOME / "crates" / crate / "out" / f"{crate}.wasm"


def origin_path(crate: str) -> pathlib.Path:
    """Where it is noted what a module was built from."""
    return module_path(crate).with_suffix(".wasm.json")


def commit_now() -> str:
    """The commit of this clone, and whether something differs from it."""
    said = [subprocess.run(["git", "-C", HOME, *words], capture_output=True, text=True, check=False).stdout.strip()
            for words in (("rev-parse", "HEAD"), ("status", "--porcelain"))]
    return f"{said[0] or 'unknown'}{', with changes' if said[1] else ''}"


def make_modules() -> None:
    """Makes both modules of what is proved here, and notes what they were built from."""
    tools = Tools(toolchain().compiler)
    origin = Origin(commit_now(), sources_digest(HOME))
    for crate in PROGRAMS.values():
        module = link(module_of(crate, HOME), crate, tools)
        noted = json.dumps(dataclasses.asdict(origin)).encode()
        write_whole({module_path(crate): module, origin_path(crate): noted})
        print(f"{module_path(crate)}: {len(module):,} bytes")


def are_made() -> bool:
    """Whether both modules were made here."""
    return all(path(crate).is_file() for crate in PROGRAMS.values() for path in (module_path, origin_path))


def need_modules() -> None:
    """Refuses if a module wasn't made here."""
    for crate in PROGRAMS.values():
        if not module_path(crate).is_file() or not origin_path(crate).is_file():
            raise Refusal(f"{module_path(crate)} isn't there; ./fractal prove --web makes it, of what is proved.")


def made_modules() -> Modules:
    """The modules that were made here."""
    need_modules()
    origins = {Origin(**json.loads(read_text(origin_path(crate)))) for crate in PROGRAMS.values()}
    if len(origins) > 1:
        raise Refusal("the two modules are of different commits; ./fractal prove --web makes both anew.")
    return Modules({name: read_bytes(module_path(crate)) for name, crate in PROGRAMS.items()}, origins.pop())


def modules_in(page: str, name: str) -> Modules:
    """The modules inside a page, and what they were built from; refuses another text."""
    origin, inside = told_origin(page), INSIDE.search(page)
    if origin is None or inside is None:
        raise Refusal(f"{name}: this isn't a page with the programs inside; ./fractal prove --web makes them.")
    packed = json.loads(inside[1])
    return Modules({key: gzip.decompress(base64.b64decode(text)) for key, text in packed.items()}, origin)


def modules() -> Modules:
    """The modules that were made here, or else those of the repository's page."""
    page = HOME / PAGE
    return made_modules() if are_made() or not page.is_file() else modules_in(read_text(page), PAGE)


def page_text(found: Modules) -> str:
    """The page with both programs; refuses one that would be too large."""
    made = dataclasses.asdict(found.origin)
    page = live_page(found.programs, "\n".join(table_lines()), made, examples_in(EXAMPLES_FOLDER))
    if len(page.encode()) > MOST_BYTES:
        raise Refusal(f"the page would have {len(page.encode()):,} bytes, and at most {MOST_BYTES:,} are to be.")
    return page


def command_text(found: Modules) -> str:
    """The command with both programs."""
    return command_line(found.programs, "\n".join(table_lines()), dataclasses.asdict(found.origin))


def make_files(folder: pathlib.Path) -> None:
    """Writes the page and the command into a folder."""
    if not folder.is_dir():
        raise Refusal(f"{folder}: no such folder.")
    found = modules()
    files = {folder / PAGE: page_text(found).encode(), folder / COMMAND: command_text(found).encode()}
    write_whole(files)
    for path, data in files.items():
        print(f"{path}: {len(data):,} bytes, its programs of the commit {found.origin.commit}")


def difference(path: pathlib.Path) -> Optional[str]:
    """How a page differs from the one that would be made now, in a sentence; the commits in both may differ."""
    if not path.is_file():
        raise Refusal(f"{path}: no such page.")
    there, now = (ORIGIN.sub("", text).splitlines() for text in (read_text(path), page_text(modules())))
    for line in difflib.unified_diff(there, now, n=0, lineterm=""):
        if line[0] in "+-" and not line.startswith(("+++", "---")):
            return f"the first line that differs begins `{line[1:80]}`"
    return None


def told_version(page: str) -> str:
    """The version in a page; nothing if it has none."""
    found = re.search(r'\["version","([^"]+)"\]', page)
    return found[1] if found else ""


def told_origin(page: str) -> Optional[Origin]:
    """What a page's programs were built from; None if it doesn't say."""
    found = ORIGIN.search(page)
    told = json.loads(found[1]) if found else {}
    return Origin(**told) if set(told) == {"commit", "sources"} else None
