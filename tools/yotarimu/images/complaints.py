"""What the assembler and the linker complain of, as sentences that say what to do."""
from __future__ import annotations

import re
from collections.abc import Iterator, Sequence
from typing import TYPE_CHECKING

from yotarimu.images.objects import POSITION, THREADS

if TYPE_CHECKING:
    from yotarimu.images.source import Source

# A line of the assembler, and of the linker, with the place that it names.
BY_ASSEMBLER = r"(?m)^(\S.*?:\d+): Error: (.*)$"
BY_LINKER = r"(?m)^(?:.*?: )??(\S+?:\d+):\([^)]*\): (.*)$"
# Functions for what RV32I has no instruction for.
FUNCTIONS = {"mul": "__mulsi3", "div": "__divsi3", "divu": "__udivsi3", "rem": "__modsi3", "remu": "__umodsi3"}
OPCODE = r"unrecognized opcode `(\S+)[^']*'(?:, extension (.*) required)?"
# What is wrong and what to do, by what the assembler says.
OF_ASSEMBLER = (
    (r"illegal operands `(.*)'",
     "`{0}` has operands that the instruction doesn't take; an immediate is -2048 to 2047, and `li` loads any number"),
    (r"(?:instruction requires.*|improper immediate value.*|immediate.*|bad expression.*) ?`?(.*)'?",
     "the assembler doesn't take the operands ({0}); an immediate is -2048 to 2047, and `li` loads any number"),
    (r"unknown pseudo-op: `(.*)'", "`{0}` isn't a directive of GNU as; take it out, or write what it stands for"),
    (r"unknown CSR `(.*)'", "the machine has no control register `{0}`"),
)
# The same by what the linker says.
OF_LINKER = (
    (r"relocation truncated to fit: R_RISCV_(?:JAL|BRANCH|RVC_\w+) against (?:symbol )?`([^']*)'.*",
     "`{0}` is too far away for this jump; `call {0}` or `tail {0}` reaches it"),
    (r"relocation truncated to fit: \S+ against (?:symbol )?`([^']*)'.*",
     "the address of `{0}` doesn't fit here; take it by `la`"),
    (r".*%pcrel_lo missing matching %pcrel_hi.*",
     "a %pcrel_lo names the label of the instruction that has its %pcrel_hi; this one names no such label"),
    (r".*unresolvable R_RISCV_(?:GOT|PLT).*", POSITION),
    (r".*(?:TLS|R_RISCV_TPREL).*", THREADS),
)
# What the linker says of a whole file.
OF_FILES = (
    (r"can't link|incompatible|wrong format|mis-matched ISA|different ABI|unrecognized",
     "an object is for another machine; compile each with -march=rv32i -mabi=ilp32"),
    (r"overlaps|will not fit", "a section is larger than an image may have; move tables to .data"),
    (r"plugin needed", "an object holds a compiler's intermediate code; compile it with -fno-lto"),
)


def sentences(said: str, tool: str, sources: Sequence[Source]) -> str:
    """What a tool says, as a sentence for each place that it names, or one for all sources."""
    told = dict.fromkeys((*assembler_sentences(said), *linker_sentences(said)))
    if told:
        return "\n".join(told)
    where = ", ".join(str(source.path) for source in sources)
    why = next((why for pattern, why in OF_FILES if re.search(pattern, said)), None)
    if why is None:
        why = f"`{tool}` can't make an image of this; what it says is below"
    return f"{where}: {why}." + (f"\n{said}" if said else "")


def assembler_sentences(said: str) -> Iterator[str]:
    """What the assembler says of each line."""
    for place, text in re.findall(BY_ASSEMBLER, said):
        yield f"{place}: {opcode_sentence(text) or advice(text, OF_ASSEMBLER, 'the assembler')}."


def opcode_sentence(text: str) -> str:
    """Why an instruction isn't one of the machine, and what to do; empty of other complaints."""
    found = re.match(OPCODE, text)
    if not found:
        return ""
    name, extension = found[1].rstrip(","), found[2] or ""
    told = f"`{name}` isn't an RV32I instruction"
    if name in FUNCTIONS:
        return f"{told}; call `{FUNCTIONS[name]}`, which takes a0 and a1 and gives a0"
    if name.startswith(("amo", "lr.", "sc.")):
        return f"{told}; no other task is seen while one runs, so a load and a store do the same"
    if name.startswith("csr"):
        return f"{told}; the machine has no control registers"
    if re.search("`[fdq]'|zfinx", extension) or re.match(r"f[a-z]+\.", name):
        return f"{told}; call libgcc's function, such as `__addsf3`"
    if name.startswith("c."):
        return f"{told}; write it without `c.`"
    return f"{told}; use those alone, and GNU as's pseudo-instructions for them"


def linker_sentences(said: str) -> Iterator[str]:
    """What the linker says of each place."""
    for place, text in re.findall(BY_LINKER, said):
        yield f"{place}: {advice(text, OF_LINKER, 'the linker')}."


def advice(text: str, table: Sequence[tuple[str, str]], tool: str) -> str:
    """A complaint as a sentence, by the first pattern that is found."""
    for pattern, sentence in table:
        if found := re.fullmatch(pattern, text):
            return sentence.format(*found.groups(default=""))
    return f"{tool} doesn't take this: {text.rstrip('.')}"
