"""Objects that an image can't be made of: their sections and relocations by name, each with what to do."""
from __future__ import annotations

import re
import struct
from collections.abc import Iterable, Iterator
from typing import TYPE_CHECKING, NamedTuple, Optional

from yotarimu.common.files import FilePath
from yotarimu.common.outcome import Refusal
from yotarimu.images import elf
from yotarimu.images.image import DATA, TEXT

if TYPE_CHECKING:
    from yotarimu.images.source import Source

# The sections of the sources that are placed: the first two in the image's text, the third is its initial data, and
# the last is data that begins as zeros.
PLACES = {
    ".text": (".text",),
    ".rodata": (".rodata", ".srodata"),
    ".data": (".data", ".sdata"),
    ".bss": (".bss", ".sbss"),
}
# One of the linked file that debuggers alone see.
OVER_SECTION = ".task_is_over"
KNOWN = [place for places in PLACES.values() for place in places]
# What assemblers and compilers write beside the program.
NOT_FOR_MEMORY = (".debug", ".comment", ".note", ".gnu.attributes", ".stack_sizes", ".llvm")
# How a stack is unwound, which nobody does; the linker drops it.
UNWINDING = ".eh_frame"
# Bytes that begin LLVM's bitcode, as it is and in a wrapper.
BITCODE = (b"BC\xc0\xde", b"\xde\xc0\x17\x0b")

POSITION = ("position-independent code reads addresses from a table, which an image doesn't have; compile it with "
            "-fno-pic")
THREADS = "a thread-local variable has no place in an image; a task's own variables are locals of its function"
STARTING = ("nothing runs before or after the tasks, so a constructor has no place in an image; an initial task with "
            "the least timestamp comes first")
INTERMEDIATE = "it holds a compiler's intermediate code in place of instructions; compile it with -fno-lto"
EXCEPTIONS = "nothing unwinds a stack; compile it with -fno-exceptions"
# Sections with no place by what their names begin with: what to do, and how a source asks for them.
SECTIONS = (
    ((".got", ".plt", ".iplt", ".igot", ".rela.", ".dynamic", ".interp"), POSITION, r"\.option\s+pic\b|@GOT"),
    ((".tbss", ".tdata"), THREADS, r"\b(__thread|_Thread_local|thread_local)\b"),
    ((".init", ".preinit", ".ctors", ".fini", ".dtors"), STARTING, r"\b(con|de)structor\b|llvm\.global_[cd]tors"),
    ((".gnu.lto_", ".llvm.lto", ".llvmbc", ".llvmcmd"), INTERMEDIATE, r"\.gnu\.lto_"),
    ((".gcc_except_table",), EXCEPTIONS, r"\b(throw|try|catch)\b"),
)
# Kinds of relocations by their numbers in the RISC-V ELF psABI: those that an image is made by, and two families with
# what to do.
PLAIN = frozenset((0, 1, *range(16, 20), *range(23, 29), *range(33, 41), 42, 43, *range(51, 58), 59, 60, 61))
PIC = frozenset((20, 41))
TLS = frozenset((*range(6, 12), 21, 22, *range(29, 33), 49, 50, *range(62, 66)))
# Kinds of sections that have relocations, and of symbols.
RELOCATIONS, RELOCATIONS_IN_PLACE = 4, 9
RELOCATION, RELOCATION_IN_PLACE = struct.Struct("<2Ii"), struct.Struct("<2I")
# What a section is for, beside memory: it is written to, or executed.
WRITTEN, EXECUTED, THREAD_LOCAL = 0x1, 0x4, 0x400


class Relocation(NamedTuple):
    """A place of an object that the linker fills: its kind, and the name that it is filled from."""
    kind: int
    name: str


def refuse_object(source: Source, data: bytes) -> None:
    """Refuses bytes that aren't an object file of a 32-bit RISC-V machine."""
    if data.startswith(BITCODE):
        raise Refusal(f"{source.path}: this is LLVM's bitcode; compile it with -fno-lto, or make a *.ll of it by "
                      "llvm-dis.")
    if data.startswith(b"!<arch>"):
        raise Refusal(f"{source.path}: this is an archive of objects; put those that are used into the folder.")
    if not elf.is_object(data):
        raise Refusal(f"{source.path}: this isn't an object file of a 32-bit RISC-V machine; compile it with "
                      "-march=rv32i -mabi=ilp32 -c.")


def is_by_compiler(data: bytes, path: FilePath) -> bool:
    """Whether a compiler made an object: each leaves its name there."""
    return elf.is_object(data) and any(it.name == ".comment" for it in elf.read_elf(data, path)[0])


def section_names(source: Source, data: bytes) -> list[str]:
    """The sections of an object that have bytes in the image; refuses those that have no place there."""
    for place, it in enumerate(elf.read_elf(data)[0]):
        if it.size and it.name.startswith((".gnu.lto_", ".llvmbc")):
            source.refuse_at(re.escape(it.name), INTERMEDIATE)
        if it.size and it.is_allocated and flags_of(data, place) & THREAD_LOCAL:
            refuse_section(source, it.name, THREADS, SECTIONS[1][2])
    sections = [it for it in elf.read_elf(data)[0] if it.size > 0]
    for it in sections:
        if it.kind in (elf.BITS, elf.NO_BITS) and not it.is_allocated and not it.name.startswith(NOT_FOR_MEMORY):
            raise Refusal(f"{source.path}: the section {it.name} has no flags, so it isn't part of memory; "
                          f'write .section {it.name}, "aw", or "a" for constants.')
    names = [it.name for it in sections if it.is_allocated and not it.name.startswith(UNWINDING)]
    for name in names:
        if not any(is_part(name, place) for place in KNOWN):
            refuse_name(source, name, data)
    return names


def refuse_name(source: Source, name: str, data: bytes) -> None:
    """Refuses a section by its name, with what to do."""
    for starts, why, pattern in SECTIONS:
        if name.startswith(starts):
            refuse_section(source, name, why, pattern)
    place = next(place for place, it in enumerate(elf.read_elf(data)[0]) if it.name == name)
    flags = flags_of(data, place)
    parent = ".text" if flags & EXECUTED else ".data" if flags & WRITTEN else ".rodata"
    source.refuse_at(re.escape(name) + r"\b", f"the section {name} has no place in an image; {', '.join(KNOWN)} have "
                                              f"one, so `{parent}.{name.lstrip('._')}` would too")


def refuse_section(source: Source, name: str, why: str, pattern: str) -> None:
    """Refuses a section for a reason, at the line that asks for it."""
    source.refuse_at(rf"{pattern}|(?<![\w.]){re.escape(name)}\b", f"{why} (it has the section {name})")


def refuse_relocations(source: Source, data: bytes) -> None:
    """Refuses what the linker would fill in a way that an image has no place for."""
    for found in relocations(data, source.path):
        name = f"`{found.name}`" if found.name else "a place of its own"
        used = rf"(?<![\w.]){re.escape(found.name)}\b" if found.name else r"(?!)"
        if found.kind in PIC:
            source.refuse_at(rf"%got_pcrel_hi|\.option\s+pic\b|{used}", f"{name} is read from a table: {POSITION}")
        if found.kind in TLS:
            source.refuse_at(rf"%t(ls|prel)|\b__thread\b|{used}", f"{name} is thread-local: {THREADS}")
        if found.kind not in PLAIN:
            source.refuse_at(used, f"{name} is used by a relocation of kind {found.kind}, which code for RV32I and "
                                   "ilp32 doesn't have; compile it with -march=rv32i -mabi=ilp32 -fno-pic")


def relocations(data: bytes, path: FilePath) -> list[Relocation]:
    """The relocations of what an object has in memory."""
    try:
        return list(relocations_in(data))
    except elf.Damage as damage:
        raise Refusal(f"{path}: this file is damaged: {damage}.") from None


def relocations_in(data: bytes) -> Iterator[Relocation]:
    """The same as they come; raises Damage where the file names bytes outside of it."""
    rows = elf.rows_of(data)
    for row in rows:
        form = {RELOCATIONS: RELOCATION, RELOCATIONS_IN_PLACE: RELOCATION_IN_PLACE}.get(row[1])
        if form is None or row[7] >= len(rows) or not rows[row[7]][2] & elf.IS_ALLOCATED or row[6] >= len(rows):
            continue
        found = elf.content(data, row)
        names = symbol_names(data, rows, rows[row[6]])
        for place in range(0, len(found) - form.size + 1, form.size):
            about = form.unpack_from(found, place)[1]
            yield Relocation(about & 0xFF, names[about >> 8] if about >> 8 < len(names) else "")


def symbol_names(data: bytes, rows: list[elf.Row], row: elf.Row) -> list[str]:
    """The names of a table of symbols, in its order."""
    texts = elf.content(data, rows[row[6]]) if row[6] < len(rows) else b""
    found = elf.content(data, row)
    starts = (elf.SYMBOL.unpack_from(found, place)[0]
              for place in range(0, len(found) - elf.SYMBOL.size + 1, elf.SYMBOL.size))
    return [texts[start:].partition(b"\0")[0].decode("utf-8", "replace") for start in starts]


def flags_of(data: bytes, place: int) -> int:
    """The flags of a section, by its place among all."""
    return elf.rows_of(data)[place][2]


def is_part(name: str, place: str) -> bool:
    """Whether a section is one of those of a place."""
    return name == place or name.startswith(place + ".")


def why_no_image(sections: Iterable[elf.Section]) -> Optional[str]:
    """Why a linked file makes no image: a section with no place, or one that asks for too large an alignment."""
    for it in sections:
        if not it.is_allocated or not it.size:
            continue
        if it.name not in (*PLACES, OVER_SECTION):
            why = next((why for starts, why, _ in SECTIONS if it.name.startswith(starts)),
                       f"{', '.join(PLACES)} alone have a place in an image")
            return f"{why} (the linker made the section {it.name})"
        start = {".text": TEXT, ".data": DATA}.get(it.name, it.address)
        if it.address != start:
            return (f"an alignment is too large: {it.name} begins at {start:08x}, and would be at {it.address:08x}; "
                    "ask for a smaller alignment in it")
    return None
