"""Joins sources in JavaScript with both modules and what they show, to one file."""
from __future__ import annotations

import base64
import gzip
import json
import pathlib
import re
from typing import Any, Dict, List, Sequence

PAGE = pathlib.Path(__file__).resolve().with_name("page")
PACKAGE = PAGE.parent.parent


def source(name: str) -> str:
    """The text of a source of the page."""
    return (PAGE / name).read_text(encoding="utf-8")


def pack(module: bytes) -> str:
    """A module by gzip and in base64; the same bytes give the same text."""
    return base64.b64encode(gzip.compress(module, 9, mtime=0)).decode("ascii")


def within(value: Any) -> str:
    """A value as JSON that may stand within a page: nothing in it ends the element around it."""
    return json.dumps(value, separators=(",", ":")).replace("<", "\\u003c")


def constant(name: str, value: Any) -> str:
    """A constant of a script."""
    return f"const {name} = {within(value)};\n"


def rows_of(table: str) -> List[List[str]]:
    """The rows of the launcher's table."""
    return [line.split("|") for line in table.splitlines()]


def command_line(modules: Dict[str, bytes], table: str, made: Dict[str, str]) -> str:
    """`fractal.mjs`: both programs as a command for Node and Deno."""
    constants = (constant("table", rows_of(table)), constant("made", made),
                 constant("modules", {name: pack(module) for name, module in modules.items()}))
    return "".join(("#!/usr/bin/env node\n", *constants, *sources(("host.js", "command_line.js"))))


def sources(names: Sequence[str]) -> List[str]:
    """The texts of sources of the page."""
    return [source(name) for name in names]


# ---- the pages

# The sources of the page, in the order in which they name each other.
SHARED = ("texts.js", "history.js", "machine.js", "labels.js", "orders.js", "items.js", "picture.js", "timeline.js",
          "player.js", "view.js")
LIVE = ("lines.js", "images.js", "assembler.js", "sections.js", "sources.js", "filters.js", "causes.js", "sentences.js",
        "machines.js", "fields.js", "refusals.js", "ask.js", "live.js", "editor.js", "exports.js", "story.js",
        "exercises.js", "own_exercise.js", "profile.js", "kept.js", "start.js")
# What sentences are made of, and filters, for the tools too.
TABLES = {"sentences": "common/sentences.json", "exercises": "courses/exercises.json", "story": "web/story.json",
          "filterTable": "lines/filters.json", "look": "pictures/timeline.json"}


def table_at(path: str) -> Any:
    """The data of a file of JSON in the package."""
    return json.loads((PACKAGE / path).read_text(encoding="utf-8"))


def script(text: str, name: str = "", kind: str = "") -> str:
    """An element that has a script; nothing in the text ends it."""
    words = (f' id="{name}"' if name else "") + (f' type="{kind}"' if kind else "")
    return f"<script{words}>\n{text}</script>\n"


def live_page(modules: Dict[str, bytes], table: str, made: Dict[str, str], examples: List[Dict[str, Any]]) -> str:
    """The page that has both programs inside."""
    values = {"table": rows_of(table), "made": made, "examples": examples,
              "modules": {name: pack(module) for name, module in modules.items()},
              **{name: table_at(path) for name, path in TABLES.items()}}
    scripts = [script("".join(constant(name, value) for name, value in values.items())),
               script(source("host.js"), "host-source"), script(source("worker.js"), "worker-source", "text/plain"),
               *(script(f'"use strict";\n\n{source(name)}') for name in (*SHARED, *LIVE))]
    parts = {"style": source("run.css") + source("live.css"), "run": run_part(LIVE_PARTS), "scripts": "".join(scripts)}
    return fill_page(source("live.html"), parts)


# What stands within the run in the live page alone.
RUN_PARTS = ("ahead", "moves", "profile", "more", "code")
LIVE_PARTS = RUN_PARTS


def run_part(names: Sequence[str]) -> str:
    """The part of a page that shows the run, with further parts in it."""
    return fill_page(source("run.html"), {name: source(f"{name}.html") if name in names else "" for name in RUN_PARTS})


def recorded_page(title: str, values: Dict[str, str]) -> str:
    """The page of a run that was recorded, from the JSON of what it shows."""
    data = "".join(f'<script type="application/json" id="{name}-data">{value}</script>\n'
                   for name, value in values.items())
    scripts = (script(f'"use strict";\n\n{source(name)}') for name in (*SHARED, "recorded.js"))
    table = script(constant("sentences", {"order": table_at(TABLES["sentences"])["order"]})
                   + constant("look", table_at(TABLES["look"])))
    parts = {"title": title, "style": source("run.css"), "run": run_part(()), "data": data,
             "scripts": "".join((table, *scripts))}
    return fill_page(source("recorded.html"), parts)


def fill_page(template: str, parts: Dict[str, str]) -> str:
    """A template in which each %NAME% that has a part is replaced by it; all else stays."""
    return re.sub(f"%({'|'.join(parts)})%", lambda found: parts[found[1]], template)
