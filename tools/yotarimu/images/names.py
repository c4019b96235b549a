"""Names that sources share: what the linker says of one that is defined nowhere, or twice, as sentences with places."""
from __future__ import annotations

import pathlib
import re
from collections.abc import Iterable, Sequence
from typing import TYPE_CHECKING, Optional

from yotarimu.images import compiler, elf, objects

if TYPE_CHECKING:
    from yotarimu.images.source import Source

# Objects without lines are reported by the names of their sources.
NOWHERE = r"(?m)^(?:.*: )?(\S.*?(?::\d+|(?=:\([^)]*\)))):(?:\([^)]*\):)? undefined reference to [`']([^']+)'"
TWICE = r"(?m)^(?:.*: ?)?multiple definition of [`']([^']+)'"
# The assembler says so of one source.
AGAIN = r"(?m)^(\S.*?:\d+): Error: symbol [`']([^']+)' is already defined"
# What compilers call although no source does, and the library defines.
LIBRARY = r"mem(cpy|move|set|cmp)|__\w+?[sdt][ifc](2|3|4)?|__clz\w+|__ctz\w+|__popcount\w+|__bswap\w+"
# Names that nothing defines here, and what to do.
MISSING = (
    (r"__stack_chk_(fail|guard)(_local)?", "compile it with -fno-stack-protector"),
    (r"__tls_get_addr|__emutls_.*", objects.THREADS),
    (r"_GLOBAL_OFFSET_TABLE_|_DYNAMIC", objects.POSITION),
    (r"__gxx_personality_v0|_Unwind_.*|__cxa_(throw|begin_catch|end_catch|rethrow|allocate_exception).*",
     objects.EXCEPTIONS),
    (r"__cxa_guard_.*", "compile it with -fno-threadsafe-statics"),
    (r"__cxa_atexit|__dso_handle|atexit", objects.STARTING),
    (r"__(atomic|sync)_.*", "no other task is seen while one runs, so a load and a store do the same"),
    (r"__(asan|ubsan|tsan|msan|hwasan|sanitizer|sanitizer_cov)_.*", "compile it without -fsanitize"),
    (r"_?mcount|__gcov_.*|__llvm_prof.*|__cyg_profile_.*|__fentry__",
     "compile it without -pg, --coverage and -finstrument-functions"),
    (r"_Zn[aw]j.*|_Zd[al]Pv.*|malloc|calloc|realloc|free", "tasks have no heap; use arrays outside of functions"),
    (r"v?f?printf|puts|putchar|putc|fputs|fwrite|write", "tasks have no C library; call 5 emits a byte"),
    (r"exit|_exit|abort|__assert.*", "tasks have no C library; call 0 ends the task, and `ebreak` traps"),
    (r"main|_start", "nothing starts a program; the image's tasks start, each at a label that a line names"),
    (r"mem(cpy|move|set|cmp)|__.*", f"it is libgcc's, of Debian's package {compiler.PACKAGES[compiler.GCC]}"),
)
# How a line of C begins that only declares a name.
NO_DEFINITION = r"\s*(extern|return|goto|//|\*|#)"


def sentences(said: str, folder: pathlib.Path, sources: Sequence[Source]) -> Optional[str]:
    """What the linker, or the assembler, says of names, a sentence for each; None if it complains otherwise. The
    linker's objects, `0.o` and so on in the order of the sources, are in the folder."""
    told = [f"{place}: `{name}` is defined here and at {first_place(place, name, sources)}."
            for place, name in re.findall(AGAIN, said)]
    missing = dict.fromkeys(re.findall(NOWHERE, said))
    is_linked = any(source.is_compiled for source in sources)
    alike: dict[tuple[str, str], list[str]] = {}
    for place, name in missing:
        if kept := kept_sentence(name, folder, sources):
            told.append(f"{place}: {kept}.")
        else:
            alike.setdefault((place, advice_on(name, is_linked)), []).append(f"`{name}`")
    told += [f"{place}: {' and '.join(names)} {'is' if len(names) == 1 else 'are'} defined nowhere{advice}."
             for (place, advice), names in alike.items()]
    told += [f"{twice_sentence(name, folder, sources)}." for name in dict.fromkeys(re.findall(TWICE, said))]
    return "\n".join(told) or None


def kept_sentence(name: str, folder: pathlib.Path, sources: Sequence[Source]) -> Optional[str]:
    """Which source defines a name and keeps it to itself; None where none does."""
    for source, labels in labels_of(folder, sources):
        if any(label.name == name for label in labels):
            how = ("as `static`" if source.is_c else f"without a line `.globl {name}`")
            return f"`{name}` is defined at {place_of(source, name)}, {how}, so other sources don't see it"
    static = rf"\s*static\b.*\b{re.escape(name)}\b"
    if kept := next((source for source in sources if source.is_c and line_of(source, static)), None):
        return f"`{name}` is defined at {place_of(kept, name)}, as `static`, so other sources don't see it"
    return None


def advice_on(name: str, is_linked: bool) -> str:
    """What to do about a name that no source defines, where the library is linked, and where it isn't."""
    if re.fullmatch(LIBRARY, name) and not is_linked:
        return ("; the library that has it is linked where a compiler made a source, which a line `.ident \"mine\"` "
                "in one says, and the image then has version 2")
    return next((f"; {advice}" for pattern, advice in MISSING if re.fullmatch(pattern, name)), "")


def first_place(place: str, name: str, sources: Sequence[Source]) -> str:
    """Where the source of a place defines a name first."""
    source = next((it for it in sources if place.startswith(f"{it.path}:")), None)
    return place_of(source, name) if source else "another line"


def twice_sentence(name: str, folder: pathlib.Path, sources: Sequence[Source]) -> str:
    """Where the sources stand that define one name for all."""
    found = [source for source, labels in labels_of(folder, sources)
             if any(label.name == name and not label.is_local for label in labels)]
    places = [place_of(source, name) for source in found]
    if len(places) < 2:
        return f"{''.join(f'{place}: ' for place in places)}`{name}` is a name of the library too; take another one"
    return (f"{places[-1]}: `{name}` is defined here and at {' and '.join(places[:-1])}; one name for all sources is "
            "defined once")


def labels_of(folder: pathlib.Path, sources: Sequence[Source]) -> Iterable[tuple[Source, list[elf.Label]]]:
    """Each source with the labels of its object."""
    for place, source in enumerate(sources):
        yield source, elf.read_elf((folder / f"{place}.o").read_bytes())[1]


def place_of(source: Source, name: str) -> str:
    """The path of a source, with the line that defines a name where one does so to the eye."""
    word = re.escape(name)
    in_c = rf"\s*TASK\s*\(\s*{word}\b", rf"(?!{NO_DEFINITION}|\s).*\b{word}\s*(\(.*(?<!;)|[=\[;,].*)$"
    patterns = in_c if source.is_c else (rf"\s*(\S+:\s*)?{word}\s*:", rf".*\b{word}\b")
    number = next(filter(None, (line_of(source, pattern) for pattern in patterns)), None)
    return f"{source.path}:{number}" if number else str(source.path)


def line_of(source: Source, pattern: str) -> Optional[int]:
    """The number of the first line of a source that begins so."""
    return next((number for number, text in enumerate(source.lines, 1) if re.match(pattern, text)), None)


def enqueued_names(sources: Sequence[Source]) -> frozenset[str]:
    """The names that sources enqueue, or that are tasks by a line of theirs."""
    pattern = r"\b(?:TASK|spread|enqueue(?:_sub|_super)?)\s*\(\s*([A-Za-z_]\w*)"
    return frozenset(name for source in sources for text in source.lines for name in re.findall(pattern, text))
