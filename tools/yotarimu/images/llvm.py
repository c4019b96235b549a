"""LLVM's IR as a source: whose machine it is for, and what it means where clang can't read it."""
from __future__ import annotations

import re
from typing import TYPE_CHECKING, Optional

if TYPE_CHECKING:
    from yotarimu.images.source import Source

TRIPLE = r'^\s*target\s+triple\s*=\s*"(?!riscv32)([^"]*)"'
# How data is laid out by a 32-bit RISC-V target: little-endian, with pointers of 32 bits.
LAYOUT = r'^\s*target\s+datalayout\s*=\s*"(?!e-m:e-p:32:32)([^"]*)"'
MAKE = "make it by clang --target=riscv32 -march=rv32i -mabi=ilp32 -fno-pic"
# What a version of LLVM brought into its IR.
BROUGHT = (
    (15, r"\bptr\b", "opaque pointers"),
    (16, r"\bmemory\(", "the attribute memory"),
    (18, r"\b(or disjoint|zext nneg|dead_on_unwind|writable)\b", "newer flags"),
    (19, r"#dbg_|\bsplat \(|\b(trunc|getelementptr) (nuw|nsw|nusw)\b|\b(in)?range\(", "newer flags and debug records"),
    (20, r"\binitializes\(|\bicmp samesign\b", "newer flags"),
    (21, r"\bcaptures\(", "the attribute captures"),
)
MADE_BY = r'!\{!"[^"]*?(?:clang|LLVM|rustc|ldc|swift)[^"]*?version (\d+)[.\d]*'
# How clang complains of IR that it can't read.
UNREAD = r"(?m)^(\S+\.ll:\d+):\d+: error: (.*)$"


def refuse_other_target(source: Source) -> None:
    """Refuses IR for another machine, which clang would compile all the same, with numbers of other widths."""
    for pattern, what in ((TRIPLE, "target"), (LAYOUT, "data layout")):
        found = next(filter(None, (re.match(pattern, text) for text in source.lines)), None)
        if found:
            source.refuse_at(pattern, f"the {what} `{found[1]}` isn't that of a 32-bit RISC-V machine; {MAKE}")


def why_unread(source: Source, said: str, compiler: str) -> Optional[str]:
    """Why clang, of the given version, can't read IR, and what to do; None if it complains of something else."""
    found = re.search(UNREAD, said)
    version = re.search(r"(\d+)\.", compiler)
    if not found or not version:
        return None
    start = f"{found[1]}: {compiler} can't read this IR ({found[2].rstrip('.')})"
    newer = "name a newer clang by --clang PATH"
    made_by = next(filter(None, (re.search(MADE_BY, text) for text in source.lines)), None)
    if made_by and int(made_by[1]) > int(version[1]):
        return f"{start}: version {made_by[1]} of LLVM made it, so {newer}."
    text = source.lines[int(found[1].rpartition(":")[2]) - 1:][:1]
    for since, pattern, what in BROUGHT:
        if since > int(version[1]) and any(re.search(pattern, line) for line in text):
            return f"{start}: it has {what}, which LLVM {since} and newer write, so {newer}."
    return f"{start}: where a newer LLVM made it, {newer}; else mend the line."
