"""Reads the definitions of the crates name by name: those under specs/, and the types, traits and constants of src/
that contracts see. For each it returns the lines, and the names that it uses.

It knows only as much of both languages as this repository uses. A name that is bound in a definition and is also that
of another definition counts as a use of the latter, so what it finds is never too little.
"""
from __future__ import annotations

import functools
import pathlib
import re
from collections.abc import Iterator
from typing import NamedTuple, Optional

from yotarimu.common.files import read_text
from yotarimu.common.places import HOME

CRATES = HOME / "crates"
CRATE_NAMES = frozenset(path.name for path in CRATES.iterdir())
# Between two sentences of a comment: behind a full stop, that of "et al." aside, and before a capital letter or code.
SENTENCE_END = re.compile(r"(?<=\.)(?<!\bal\.)\s+(?=[A-Z`])")
WORD = re.compile(r"(?<![\w.'])(?:[^\W\d]\w*\.)*[^\W\d]\w*(?:['-]\w+)*")
USE = re.compile(r"^\s*(?:ghost )?(?:pub )?use ([\w.]+?)(?:\.\{([^}]*)\})?(?: as (\w+))?;?\s*$", re.M)
# The head of a definition: its indent, what it is, and its name.
HEAD = re.compile(r"^( {0,2})(?:(?:abbrev|unfoldable) (?:pub )?|pub (record |data )|(?<! )pub (?=[^\s:]+ :)|"
                  r"(?<! )(record |data ))([^\s(:]+)")
BLOCK = re.compile(r"^module _ (.*) where$")
ITEM = re.compile(r"^(?:pub )?(?:struct|enum|trait|const|type|fn) (\w+)")
# A crate that another one passes on to the crates above: as a module of its specs/, or of what it passes on of proofs.
PASSED_ON = re.compile(r"^\w+\.(specs|proofs)\.(?:Below\.)?(" + "|".join(sorted(CRATE_NAMES)) + r")(?=\.|$)")
# A name of another module, or of this one: the module's path below the crates, and the name.
Name = tuple[str, str]


class Definition(NamedTuple):
    """A definition, or an item of src/: where it stands, its name, how many lines it has with what is said of it, its
    text without comments, and the names that it brings with it: constructors or fields."""

    path: pathlib.Path
    name: str
    lines: int
    text: str
    parts: tuple[str, ...] = ()


class Module(NamedTuple):
    """A file of definitions: the first sentence on it, what it defines, and which names it has from where."""

    says: str
    definitions: dict[str, Definition]
    names: dict[str, Name]
    aliases: dict[str, str]

    def owner(self, name: str) -> Optional[Definition]:
        """The definition of this name, or the one that has a constructor of this name."""
        if name in self.definitions:
            return self.definitions[name]
        return next((it for it in self.definitions.values() if name in it.parts), None)


def first_sentence(text: str) -> str:
    """The first sentence of a comment whose lines were put together."""
    return SENTENCE_END.split(text.strip(), maxsplit=1)[0].rstrip(".") + "."


def comment_at(lines: list[str], mark: str) -> str:
    """The text of the lines at the front that begin with a mark."""
    said = []
    for line in lines:
        if not line.startswith(mark):
            break
        said.append(line[len(mark):].strip())
        if not said[-1]:
            break
    return " ".join(said)


def uses_of(text: str) -> tuple[dict[str, Name], dict[str, str]]:
    """The names that a text has from other modules, and its short names of modules."""
    names: dict[str, Name] = {}
    aliases: dict[str, str] = {}
    for path, group, alias in USE.findall(text):
        path = PASSED_ON.sub(r"\2.\1", path.removeprefix("Rattle."))
        if alias:
            aliases[alias] = path
        for name in str(group).replace(",", " ").split():
            names[name] = (path, name)
    return names, aliases


def bare(lines: list[str]) -> str:
    return "\n".join(re.sub(r"--.*|//.*", "", line) for line in lines)


@functools.lru_cache(maxsize=None)
def specs_module(path: pathlib.Path) -> Module:
    """A file of specs/."""
    text = read_text(path)
    lines = text.splitlines()
    found: dict[str, Definition] = {}
    for start, head, end in heads_of(lines):
        matched = HEAD.match(lines[head])
        if matched:
            indent, as_record, as_private, name = matched.groups()
            block = block_of(lines[:head]) if indent else ""
            parts = parts_of(lines[head + 1:end]) if as_record or as_private else ()
            count = sum(bool(line.strip()) for line in lines[start:end])
            found[name] = Definition(path, name, count, f"{block}\n{bare(lines[head:end])}", parts)
    return Module(first_sentence(comment_at(lines, "--")), found, *uses_of(text))


def parts_of(lines: list[str]) -> tuple[str, ...]:
    """The names of constructors or fields."""
    return tuple(re.findall(r"^\s+(?:pub )?([^\W\d][\w']*) :", "\n".join(lines), re.M))


def block_of(lines: list[str]) -> str:
    """The parameters of the block that contains the last of some lines."""
    return next((matched[1] for line in reversed(lines) if (matched := BLOCK.match(line))), "")


def heads_of(lines: list[str]) -> Iterator[tuple[int, int, int]]:
    """Where the comment of each definition begins, its head stands, and the definition is over."""
    at = [number for number, line in enumerate(lines) if HEAD.match(line)]
    starts = []
    for head in at:
        start = head
        while start and lines[start - 1].lstrip().startswith("--"):
            start -= 1
        starts.append(start)
    for place, head in enumerate(at):
        end = starts[place + 1] if place + 1 < len(at) else len(lines)
        block = next((k for k in range(head + 1, end) if BLOCK.match(lines[k])), end)
        while block > head + 1 and (not lines[block - 1].strip() or lines[block - 1].lstrip().startswith("--")):
            block -= 1
        yield starts[place], head, block


@functools.lru_cache(maxsize=None)
def source_module(path: pathlib.Path) -> Module:
    """A file of src/: of each item what is declared, and of a function its contract alone."""
    text = read_text(path)
    lines = text.splitlines()
    found = {}
    for head, line in enumerate(lines):
        matched = ITEM.match(line)
        if matched:
            kept = item_lines(lines, head) + models_of(lines, matched[1])
            found[matched[1]] = Definition(path, matched[1], len([it for it in kept if it.strip()]), bare(kept))
    names, aliases = uses_of("\n".join(line for line in lines if "ghost use" in line))
    for used, target in rust_uses(text):
        names[used] = (path_of_use(path, target), target[-1])
    return Module(first_sentence(comment_at(lines, "//!")), found, names, aliases)


def item_lines(lines: list[str], head: int) -> list[str]:
    """The lines of an item with what is said of it, but for a function's body."""
    start = head
    while start and re.match(r"\s*(///|#\[)", lines[start - 1]):
        start -= 1
    is_function = " fn " in f" {lines[head]}"
    end = head
    while end < len(lines) and lines[end] not in ("}", "{", "{}") and not (end == head and lines[end].endswith(";")):
        end += 1
    return lines[start:end] if is_function else lines[start:end + 1]


def models_of(lines: list[str], name: str) -> list[str]:
    """What a type stands for in contracts; and of a trait, what it is of a box of something that has it."""
    kept: list[str] = []
    for head, line in enumerate(lines):
        if re.match(rf"impl(<.*?>)? Model for {name}\b", line):
            kept += item_lines(lines, head)
        elif re.match(rf"impl(<.*?>)? {name} for Box<", line):
            kept += [it for it in item_lines(lines, head) if it.startswith("    ghost ")]
    return kept


def rust_uses(text: str) -> Iterator[tuple[str, list[str]]]:
    """Each name that code has from elsewhere, with its path."""
    for statement in re.findall(r"^(?:pub )?use ([^;]+);", text, re.M):
        yield from in_groups([], re.sub(r"\s+", "", statement))


def in_groups(before: list[str], statement: str) -> Iterator[tuple[str, list[str]]]:
    """The paths of a use, whose groups may hold groups."""
    front, brace, group = statement.partition("{")
    path = before + [it for it in front.split("::") if it]
    if not brace:
        yield path[-1], path
        return
    depth, start, inner = 0, 0, group[:-1]
    for at, letter in enumerate(inner + ","):
        depth += (letter == "{") - (letter == "}")
        if letter == "," and not depth:
            if inner[start:at]:
                yield from in_groups(path, inner[start:at])
            start = at + 1


def path_of_use(path: pathlib.Path, target: list[str]) -> str:
    """The file, as a path below the crates, in which an item stands that is used from another file."""
    here = path.relative_to(CRATES).parts[0]
    crate, *steps = target[:-1] if len(target) > 1 else (here,)
    while crate in CRATE_NAMES and steps and steps[0] in CRATE_NAMES:
        crate, *steps = steps
    if crate in ("self", "super") or crate not in (*CRATE_NAMES, "crate"):
        local = path.parent / "/".join([crate, *steps])
        return f"{here}.src.{crate}" if local.with_suffix(".rt").is_file() else crate
    return ".".join([here if crate == "crate" else crate, "src", *(steps or ["lib"])])


def find(module: str, name: str) -> Optional[Definition]:
    """The definition that a name of a module means; None where it is of none of the crates here."""
    crate, *steps = module.split(".")
    if crate not in CRATE_NAMES:
        return None
    if steps[:2] == ["specs", "declared"]:
        file = steps[2]
        wanted = name if steps[3:] == ["TheConstants"] else steps[3]
        return in_source(CRATES / crate / "src" / f"{file}.rt", wanted)
    if steps[0] == "src":
        return in_source((CRATES / crate).joinpath(*steps).with_suffix(".rt"), name)
    path = (CRATES / crate).joinpath(*steps).with_suffix(".antt")
    if not path.is_file():
        return None
    found = specs_module(path)
    return found.owner(name) or (find(*found.names[name]) if name in found.names else None)


def in_source(path: pathlib.Path, name: str) -> Optional[Definition]:
    if not path.is_file():
        return None
    found = source_module(path)
    if name in found.definitions:
        return found.definitions[name]
    if name in found.names and not found.names[name][0].startswith("std"):
        return find(*found.names[name])
    return None


def module_of(path: pathlib.Path) -> Module:
    return specs_module(path) if path.suffix == ".antt" else source_module(path)


@functools.lru_cache(maxsize=None)
def names_in(definition: Definition) -> tuple[Name, ...]:
    """What a definition uses from its own module and from others, each as a module and a name."""
    return tuple(words_meant(definition))


def words_meant(definition: Definition) -> Iterator[Name]:
    """The names of other definitions among the words of one."""
    module = module_of(definition.path)
    here = ".".join(definition.path.relative_to(CRATES).with_suffix("").parts)
    words = set(WORD.findall(definition.text))
    for word in sorted(words):
        first, _, rest = word.partition(".")
        if first in module.aliases and rest:
            yield module.aliases[first], rest.partition(".")[0]
        elif first in module.names:
            yield module.names[first]
        elif module.owner(first) not in (None, definition):
            yield here, first
    for name, target in module.names.items():
        if "◌" in name and all(part in definition.text for part in name.split("◌") if part):
            yield target


def reached(roots: list[Definition]) -> tuple[dict[tuple[pathlib.Path, str], Definition], set[Name]]:
    """All definitions that some of them use, and these, by file and name; and the names that are of no crate here."""
    found: dict[tuple[pathlib.Path, str], Definition] = {}
    outside: set[Name] = set()
    left = list(roots)
    while left:
        definition = left.pop()
        if (definition.path, definition.name) in found:
            continue
        found[definition.path, definition.name] = definition
        for module, name in names_in(definition):
            used = find(module, name)
            if used:
                left.append(used)
            elif module.split(".")[0] not in CRATE_NAMES:
                outside.add((module, name))
    return found, outside
