"""Texts for people: what can't be printed, how many of what, and which name may be meant."""
from __future__ import annotations

from collections.abc import Iterable


def without_controls(text: object) -> str:
    """A text in which what isn't printable, such as a byte of a path that isn't text, is written as in Python."""
    return "".join(it if it.isprintable() or it == "\n" else ascii(it)[1:-1] for it in str(text))


def printable(data: bytes) -> str:
    """Bytes as text: what isn't printable ASCII is written as in C."""
    names = {0x0A: "\\n", 0x09: "\\t", 0x0D: "\\r", 0x5C: "\\\\", 0x22: '\\"'}
    return "".join(names.get(byte) or (chr(byte) if 0x20 <= byte < 0x7F else f"\\x{byte:02x}") for byte in data)


def escape(text: str) -> str:
    """A text as SVG and HTML have it between tags."""
    return text.replace("&", "&amp;").replace("<", "&lt;").replace(">", "&gt;")


def count_text(count: int, what: str) -> str:
    """So many of what a word names."""
    return f"{count:,} {what}{'' if count == 1 else 's'}"


def signed(value: int, size: int = 4) -> int:
    """A value in memory as people read it: a word is a signed number, a shorter value isn't."""
    return value - (1 << 32) if size == 4 and value >> 31 else value


def likely(name: str, known: Iterable[str], mark: str = "") -> str:
    """The end of a sentence on an unknown name: a question for the known ones that are near it, each with a mark, or a
    full stop."""
    # Few calls need it, and it takes time to import.
    import difflib
    near = difflib.get_close_matches(name, list(known), 3)
    return f"; did you mean {' or '.join(mark + it for it in near)}?" if near else "."
