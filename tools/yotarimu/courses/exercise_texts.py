"""The sentences of the judges of exercises: the texts are in `exercises.json`, which the page with the machine reads
too."""
from __future__ import annotations

import json
import pathlib
from typing import Any

from yotarimu.common.sentences import fill

TEXTS: dict[str, Any] = json.loads(pathlib.Path(__file__).with_name("exercises.json").read_text(encoding="utf-8"))
# So many letters of an answer are shown in a sentence.
MOST_SHOWN = 40


class WrongAnswer(Exception):
    """The answer isn't right; the text says why."""


def hold(is_so: object, template: str, **values: object) -> None:
    """Holds an answer to what it has to be; raises WrongAnswer, with a text that is filled in."""
    if not is_so:
        raise WrongAnswer(fill(template, **values))
