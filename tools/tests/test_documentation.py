"""Each public module, class and function of tools/ says what it is in a sentence on its first line."""
from __future__ import annotations

import ast
import collections
import pathlib
import re
import unittest
from typing import Iterator, NamedTuple, Optional, Union

TOOLS = pathlib.Path(__file__).resolve().parents[1]
Definition = Union[ast.Module, ast.ClassDef, ast.FunctionDef]
# A line that begins as a sentence does, or with what it is about; its end may be lines later.
BEGIN = re.compile("[A-Z0-9`'\"]|gdb|main ")
# An integration test is named by what it shows, and its text, which is printed after that name, begins small and has no
# full stop.
TRIES = TOOLS / "tries"
# These are the words of the debugger: their texts are what `monitor help` prints.
HELP = re.compile(r"\[?[A-Z].*  [a-z]|all attempts")
DEBUGGER = TOOLS / "yotarimu" / "debugger"
# A unit test is named by what it shows, so it needs no more.
UNIT_TEST = re.compile("test_.*|setUp|tearDown")


class Public(NamedTuple):
    """A public definition: its file, its name with the classes around it, its node, and the class that it is in."""
    path: pathlib.Path
    name: str
    node: Definition
    holder: Optional[ast.ClassDef] = None

    def text(self) -> Optional[str]:
        """What the definition says of itself, at the beginning; None where it says nothing."""
        return ast.get_docstring(self.node)


def public_within(path: pathlib.Path, node: Definition, name: str, holder: Optional[ast.ClassDef]) -> Iterator[Public]:
    """A definition and the public ones in it; what stands within a function isn't public."""
    yield Public(path, name, node, holder)
    if isinstance(node, ast.FunctionDef):
        return
    for inner in node.body:
        if isinstance(inner, (ast.ClassDef, ast.FunctionDef)) and not inner.name.startswith("_"):
            own = node if isinstance(node, ast.ClassDef) else None
            yield from public_within(path, inner, f"{name}.{inner.name}", own)


def all_public() -> list[Public]:
    """All public definitions of tools/."""
    return [found for path in sorted(TOOLS.rglob("*.py"))
            for found in public_within(path, ast.parse(path.read_text(encoding="utf-8")), path.stem, None)]


class Documentation(unittest.TestCase):
    """What definitions say of themselves."""

    def setUp(self) -> None:
        self.public = all_public()
        self.classes: dict[str, list[ast.ClassDef]] = collections.defaultdict(list)
        for found in self.public:
            if isinstance(found.node, ast.ClassDef):
                self.classes[found.node.name].append(found.node)

    def is_said_above(self, holder: Optional[ast.ClassDef], name: str) -> bool:
        """Whether a class below this one, by the name of a base, says what the method of a name is."""
        for base in holder.bases if holder else ():
            last = base.attr if isinstance(base, ast.Attribute) else base.id if isinstance(base, ast.Name) else ""
            for above in self.classes.get(last, ()):
                own = (it for it in above.body if isinstance(it, ast.FunctionDef) and it.name == name)
                if any(map(ast.get_docstring, own)) or self.is_said_above(above, name):
                    return True
        return False

    def test_each_has_a_text(self) -> None:
        for found in self.public:
            last = found.name.rpartition(".")[2]
            if found.holder is not None and (UNIT_TEST.fullmatch(last) or self.is_said_above(found.holder, last)):
                continue
            with self.subTest(f"{found.path.relative_to(TOOLS)}: {found.name}"):
                self.assertTrue(found.text())

    def test_each_text_is_a_sentence(self) -> None:
        for found in self.public:
            text = found.text() or ""
            first, *_ = text.split("\n\n")
            is_of_try = found.path.parent == TRIES and isinstance(found.node, ast.FunctionDef)
            is_help = found.path.parent == DEBUGGER and HELP.match(text)
            if not text or is_of_try or is_help:
                continue
            with self.subTest(f"{found.path.relative_to(TOOLS)}: {found.name}"):
                self.assertRegex(first, BEGIN)
                self.assertIn(first[-1], ".:")

    def test_definitions_are_found(self) -> None:
        names = {found.name for found in self.public}
        self.assertGreater(len(names), 1_000)
        self.assertLessEqual({"files.write_whole", "replay.Machine.follow", "test_documentation"}, names)


if __name__ == "__main__":
    unittest.main()
