"""What the page has to show: the project's examples, schedules and exercises, with their listings and scripts."""
from __future__ import annotations

import base64
import pathlib
from typing import Any, Dict, List

# Those to begin with; then the folders, each under its title. Schedules are test material for the most part.
FIRST = ("schedules/conflict", "hello", "reduction", "shortest_paths", "nested")
GROUPS = (("More in assembly", "."), ("In C", "c"), ("Exercises", "exercises"), ("Schedules", "schedules"))
IMAGE = "image.bin"
# The course of an example without words of its own: one in which tasks run ahead.
LOCKSTEP = ["lockstep", "1000", "1"]
# A larger image isn't in the page.
MOST_BYTES = 100_000


def examples_in(root: pathlib.Path) -> List[Dict[str, Any]]:
    """The examples of the folder that has them all, those first that are to begin with. One without sources of its own
    gets those of another one with the same image."""
    first = [{"group": "To begin with", **example_of(root, root / name)} for name in FIRST]
    found = [*first, *(example for title, folder in GROUPS for example in group_of(root, title, folder))]
    made = {example["image"]: example for example in reversed(found) if example["sources"]}
    for example in found:
        if not example["sources"] and not example["c"] and example["image"] in made:
            example.update({part: made[example["image"]][part] for part in ("sources", "listing")})
    return found


def group_of(root: pathlib.Path, title: str, folder: str) -> List[Dict[str, Any]]:
    """The further examples of a folder."""
    examples = sorted(example for example in (root / folder).iterdir() if (example / IMAGE).is_file())
    small = (example for example in examples if (example / IMAGE).stat().st_size <= MOST_BYTES)
    others = (example for example in small if example.relative_to(root).as_posix() not in FIRST)
    return [{"group": title, **example_of(root, example)} for example in others]


def example_of(root: pathlib.Path, example: pathlib.Path) -> Dict[str, Any]:
    """An example as the page reads it: its image in base64, its sources, the texts beside it, empty if it has none, and
    the words of its call, by default those of lockstep."""
    image = base64.b64encode((example / IMAGE).read_bytes()).decode("ascii")
    return {"name": example.relative_to(root).as_posix(), "title": example.name.replace("_", " "), "image": image,
            "script": text_of(example / "script"),
            "listing": text_of(example / "listing"),
            "sources": [{"name": path.name, "text": text_of(path)} for path in sorted(example.glob("*.s"))],
            "c": "\n".join(text_of(path) for path in sorted(example.glob("*.c"))),
            "words": text_of(example / "words").split() or LOCKSTEP}


def text_of(path: pathlib.Path) -> str:
    """The text of a file; empty where there is none."""
    return path.read_text(encoding="utf-8") if path.is_file() else ""
