"""Definitions of specs/ that are the same but for their names: where one of them might serve for both.

Of two definitions all names of this repository are numbered in order of appearance, those that are bound and those of
other definitions; names of the toolchain's library and of fields that are read stay. If both are the same then, they
are a pair. The pairs that may exist are below, with the reason.
"""
from __future__ import annotations

import re
from collections import defaultdict
from collections.abc import Iterator

from definitions import CRATES, Definition, find, names_in, specs_module

from yotarimu.common.places import HOME

# A definition of fewer words and signs says too little to be worth sharing.
LEAST_TOKENS = 30
TOKEN = re.compile(r"[^\W\d]\w*(?:['-]\w+)*|\d+|\"[^\"]*\"|[^\w\s]")
# Where names are bound: parameters and lambdas. Fields and patterns of equations are bound too.
PARAMETERS = re.compile(r"[({]((?:[^\W\d][\w']*\s+)*[^\W\d][\w']*)\s*:")
LAMBDA = re.compile(r"λ\s*((?:[^\W\d][\w']*\s+)*[^\W\d][\w']*)\s*\.")
# The pairs that are left, by name, with the reason for which each may stand. Take out those that are gone.
MAY_BE = {
    ("b_type", "i_type", "s_type"): "three formats of the manual, each with its registers and its immediate",
    ("after_accesses", "after_calls"): "two lists of unlike items, each made one after another",
    ("EndIsOne", "LeastIsOne"): "two laws that something is one, of unlike things",
    ("ComesOn", "GoesOn"): "a story so far, and one whose last act has still to be ended: each, or how the story ended",
    ("do_spot", "kind_done"): "what an act does, or else its name, as a word of a line and as a kind that is counted",
    ("AsksForChild", "AsksForSubdomain"): "two requests of a task, each with its own data",
}


def bound_words(definition: Definition) -> set[str]:
    """The words that a definition binds, with its own name and those that it brings."""
    words = {definition.name, *definition.parts}
    for group in (*PARAMETERS.findall(definition.text), *LAMBDA.findall(definition.text)):
        words.update(group.split())
    for line in definition.text.splitlines():
        name, _, rest = line.strip().partition(" ")
        if name == definition.name and "=" in rest:
            words.update(re.findall(r"(?<![\w.])[a-z_]\w*(?!\.)", rest.partition("=")[0]))
    return words


def shape(definition: Definition) -> tuple[str, ...]:
    """The words and signs of a definition, each name of this repository as the place where it first comes."""
    named = bound_words(definition) | {name for module, name in names_in(definition) if find(module, name)}
    order: dict[str, str] = {}
    found = []
    before = ""
    for token in TOKEN.findall(definition.text):
        is_name = token in named and before != "."
        found.append(order.setdefault(token, f"#{len(order)}") if is_name else token)
        before = token
    return tuple(found)


def twins() -> list[list[Definition]]:
    """The definitions that are the same but for their names, together."""
    groups: dict[tuple[str, ...], list[Definition]] = defaultdict(list)
    for path in sorted(CRATES.glob("*/specs/*.antt")):
        for definition in specs_module(path).definitions.values():
            groups[shape(definition)].append(definition)
    return [group for tokens, group in groups.items() if len(group) > 1 and len(tokens) >= LEAST_TOKENS]


def notes_on_twins() -> Iterator[tuple[str, bool]]:
    """Notes on definitions that are the same, and whether that is a fault."""
    found = {tuple(sorted(it.name for it in group)): group for group in twins()}
    for names, group in sorted(found.items()):
        if names not in MAY_BE:
            places = " and ".join(f"{it.path.relative_to(HOME)}: {it.name}" for it in group)
            yield f"twins: {places} are the same but for names; let one serve, or say why in .ci/twins.py", True
    for names in sorted(set(MAY_BE) - set(found)):
        yield f"twins: {' and '.join(names)} aren't the same any more; take them out of .ci/twins.py", False
    yield f"twins: {len(found)} groups of definitions are the same but for their names, {len(MAY_BE)} may be", False
