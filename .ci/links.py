"""Links of Markdown to files and headings of the repository, each of which has to exist."""
from __future__ import annotations

import functools
import pathlib
import re
from collections import Counter
from collections.abc import Iterator

from phrases import files_in

from yotarimu.common.files import read_text
from yotarimu.common.places import HOME

LINK = re.compile(r"\]\(([^)\s]+)\)")
ELSEWHERE = ("http://", "https://", "mailto:")


def shown_lines(text: str) -> Iterator[tuple[int, str]]:
    """The lines of a document without blocks of code, each with its number."""
    in_code = False
    for number, line in enumerate(text.splitlines(), 1):
        if line.lstrip().startswith("```"):
            in_code = not in_code
        elif not in_code:
            yield number, line


@functools.lru_cache(maxsize=None)
def anchors_of(path: pathlib.Path) -> frozenset[str]:
    """The anchors of a page's headings: small letters, hyphens for blanks, a number for those that are repeated."""
    seen: Counter[str] = Counter()
    found = set()
    for _, line in shown_lines(read_text(path)):
        if heading := re.match(r"#+ (.*)", line):
            shown = re.sub(r"\[([^\]]*)\]\([^)]*\)", r"\1", heading[1]).lower()
            anchor = re.sub(r"[^\w\- ]", "", shown).strip().replace(" ", "-")
            found.add(f"{anchor}-{seen[anchor]}" if seen[anchor] else anchor)
            seen[anchor] += 1
    return frozenset(found)


def links_that_lead_nowhere() -> Iterator[str]:
    """Each link to a file or a heading that doesn't exist."""
    folders = ("docs", "examples", "applications", "crates", "tools", "bench")
    for page in files_in("*.md", *(f"{folder}/**/*.md" for folder in folders)):
        for number, line in shown_lines(read_text(page)):
            for link in LINK.findall(re.sub(r"`[^`]*`", "", line)):
                if not link.startswith(ELSEWHERE) and (fault := fault_of(page, link)):
                    yield f"{page.relative_to(HOME)}:{number}: {fault}"


def fault_of(page: pathlib.Path, link: str) -> str:
    """What is wrong with a link of a page; nothing where it leads somewhere."""
    name, _, anchor = link.partition("#")
    path = (page.parent / name).resolve() if name else page
    if not path.exists():
        return f"`{link}` leads to no file"
    if anchor and path.suffix == ".md" and anchor not in anchors_of(path):
        return f"`{link}` leads to no heading"
    return ""
