"""Sources in C, C++ and LLVM's language: which compiler makes objects of them, by which options, and its complaints."""
from __future__ import annotations

import dataclasses
import pathlib
import re
import shutil
import subprocess
from collections.abc import Collection
from typing import Optional

from yotarimu.common.outcome import Refusal
from yotarimu.common.places import EXAMPLES_FOLDER

# What a source includes, and what compilers call although no source does.
LIBRARY = EXAMPLES_FOLDER / "c" / "library"
HEADER = "task.h:"
MEMORY = LIBRARY / "memory.c"
PACKAGES = {"riscv64-unknown-elf-gcc": "gcc-riscv64-unknown-elf", "clang": "clang"}
GCC, CLANG = PACKAGES
MACHINE = ("-march=rv32i", "-mabi=ilp32")
# Nothing is started before a task, and no register points to small data, as each task would have to set it. What is
# surely a mistake is refused: it would be a mere warning else.
OPTIONS = ("-gdwarf-4", "-ffreestanding", "-fno-pic", "-fno-common", "-msmall-data-limit=0",
           "-fno-asynchronous-unwind-tables", "-Wall")
# How code is made: fast, or so that a debugger finds each variable and each line.
FAST, FOR_DEBUGGING = "-O2", "-Og"
# By the end of a source's name. C++ has nothing here that would want a library.
OF_LANGUAGE = {
    ".c": ("-std=gnu17", "-Werror=implicit-function-declaration", "-Werror=implicit-int", "-Werror=int-conversion",
           "-Werror=incompatible-pointer-types"),
    ".cpp": ("-std=gnu++20", "-fno-exceptions", "-fno-rtti", "-fno-threadsafe-statics"),
}
# What LLVM has made of a source before is compiled by clang alone.
LLVM = ".ll"
OF_LLVM = ("--target=riscv32", "-fno-pic", "-Wno-override-module")
# A macro's fault is reported where it is used. A task's parameter may have no name.
OWN_OPTIONS = {GCC: ("-mstrict-align", "-ftrack-macro-expansion=0"),
               CLANG: ("--target=riscv32", "-Wno-unknown-warning-option", "-Wno-c2x-extensions")}
# A loop that copies stays a loop, since memcpy would call itself.
AS_WRITTEN = {GCC: ("-fno-builtin", "-fno-tree-loop-distribute-patterns"), CLANG: ("-fno-builtin",)}
# Where the first line of `--version` has it: gcc's ends with it, clang's may have the package's after it.
VERSION = r"(?:version |\s)(\d+\.\d+[.\d]*)"
# What is refused where a number would lose bits as an argument of a child.
CUT = r"conversion from .* change|implicit conversion (loses|turns)"
# A name that is used before a source declares it.
UNDECLARED = r"undeclared identifier '\w+'|'\w+' (undeclared|was not declared)"
# What a complaint usually comes from.
ADVICE = (
    (r"makes integer from pointer|incompatible pointer to integer", "a pointer is given as at(pointer)"),
    (r"implicit(ly)? declar.*printf", "emit_text and emit_number write"),
    (r"no such file.*|'std\w+\.h' file not found", "tasks have no C library"),
    (r"return type defaults|type specifier missing", "TASK needs the line #include \"task.h\""),
    (r"called object .* is not a function", "a task is enqueued"),
    (r"task_code\[\d+\]|redefinition of '\w+_body'", "one TASK defines a task"),
    (r"task_child_of|task_piece", "a child has a timestamp, three arguments and a hint"),
)


@dataclasses.dataclass(frozen=True)
class Compilers:
    """Which compiler makes objects of C, gcc or clang, where each program is, and how code is made."""
    of_c: str = GCC
    gcc: str = GCC
    clang: str = CLANG
    level: str = FAST

    def kind_of(self, path: pathlib.Path) -> str:
        """Which of the two compiles a file."""
        return CLANG if path.suffix == LLVM else self.of_c

    def program(self, kind: str) -> str:
        """The program of one of the two."""
        return self.clang if kind == CLANG else self.gcc


def need_compiler(program: str, kind: str) -> None:
    """Refuses a missing compiler, and a gcc that compiles for other machines."""
    if not shutil.which(program):
        raise Refusal(f"{program} isn't in the path; it compiles C (Debian's package {PACKAGES[kind]} has it).")
    if kind == GCC and program != GCC and not (machine := said_by(program, "-dumpmachine")).startswith("riscv"):
        raise Refusal(f"{program} compiles for `{machine.strip()}`; --gcc takes a gcc for RISC-V, such as {GCC}.")


def said_by(program: str, *words: str) -> str:
    """What a compiler writes to standard output."""
    try:
        return subprocess.run([program, *words], capture_output=True, text=True, errors="replace",
                              stdin=subprocess.DEVNULL).stdout
    except OSError:
        return ""


def compiler_words(how: Compilers, path: pathlib.Path, target: str, is_library: bool = False) -> list[str]:
    """The words that compile a file."""
    kind = how.kind_of(path)
    program = how.program(kind)
    need_compiler(program, kind)
    if path.suffix == LLVM:
        return [program, *MACHINE, how.level, *OF_LLVM, "-c", "-o", target, str(path)]
    own = OF_LANGUAGE[path.suffix] + OWN_OPTIONS[kind] + (AS_WRITTEN[kind] if is_library else ())
    return [program, *MACHINE, how.level, *OPTIONS, *own, "-I", str(LIBRARY), "-I", str(path.parent), "-c", "-o",
            target, str(path)]


def told_by(program: str, kind: str) -> str:
    """A compiler with its version, as in `gcc 12.2.0`."""
    found = re.search(VERSION, said_by(program, "--version").partition("\n")[0])
    return f"{kind.rpartition('-')[2]} {found[1] if found else ''}".strip()


def arithmetic(how: Compilers) -> list[str]:
    """The library of what RV32I has no instruction for: products, quotients, 64-bit and floating-point numbers."""
    path = pathlib.Path(said_by(how.gcc, *MACHINE, "-print-libgcc-file-name").strip())
    return [str(path)] if "rv32i" in path.parts and path.is_file() else []


def complaints(said: str, tasks: Collection[str] = ()) -> Optional[str]:
    """What a compiler complains of, a sentence for each line of a source; None if it complains otherwise. For names
    that are tasks the sentence says how a source declares them."""
    sentences: dict[str, str] = {}
    for found in re.finditer(r"(?m)^(.+?:\d+):\d+: (fatal error|error|warning): (.*)$", said):
        place = found[1] if not found[1].startswith(HEADER) else used_at(said, found) or found[1]
        sentences.setdefault(place, complaint(found[3], found[2], tasks))
    if not sentences:
        return None
    return "\n".join(f"{place}: {sentence}" for place, sentence in sentences.items())


def used_at(said: str, found: re.Match[str]) -> Optional[str]:
    """Where a source uses what the header of C++ finds wrong: gcc prints that above, and clang below."""
    above = re.findall(r"(?m)^(.+?:\d+):\d+:\s+required from here$", said[:found.start()])
    below = re.findall(r"(?m)^(.+?:\d+):\d+: note: in instantiation of .* requested here$", said[found.end():])
    places: list[str] = [place for place in (*above[-1:], *below) if not place.startswith(HEADER)]
    return places[0] if places else None


def complaint(text: str, kind: str, tasks: Collection[str]) -> str:
    """What a compiler says, as a sentence with what usually helps."""
    text = re.sub(r" \[-W[^]]*\]$| \(first use in this function\)$", "", text)
    if found := re.match(r"static(?:_assert| assertion) failed.*\"(.*)\"|static assertion failed: (.*)", text):
        return f"{found[1] or found[2]}."
    if kind == "error" and re.search(CUT, text):
        return f"a child is given numbers of 32 bits ({text})."
    advice = next((sentence for pattern, sentence in ADVICE if re.search(pattern, text, re.IGNORECASE)), None)
    if (found := re.search(UNDECLARED, text)) and (name := found[0].split("'")[1]) in tasks:
        advice = f"`extern task_entry {name};` above this line declares a task that is defined below or elsewhere"
    return text.rstrip("?") + (f" ({advice})" if advice else " (a warning)" if kind == "warning" else "") + "."
