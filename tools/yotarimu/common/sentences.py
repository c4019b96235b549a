"""Sentences on acts, traps and ends: one table, which the page with the machine inside reads too.

What stands between braces is filled in. `sentences.json` has the texts, and each part of the package its own keys.
"""
from __future__ import annotations

import json
import pathlib
from typing import Any, Dict

SENTENCES: Dict[str, Any] = json.loads(pathlib.Path(__file__).with_suffix(".json").read_text(encoding="utf-8"))


def fill(template: str, /, **values: object) -> str:
    """A text with the values that it names between braces."""
    return template.format_map(values)
