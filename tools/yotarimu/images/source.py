"""From sources to an image: assembling or compiling, placing, and the lines of comments that describe it."""
from __future__ import annotations

import dataclasses
import itertools
import os
import pathlib
import re
import shutil
import tempfile
from collections.abc import Mapping, Sequence
from typing import NoReturn, Optional

from yotarimu.common.files import need_plain, read_bytes, read_written
from yotarimu.common.outcome import Refusal, note
from yotarimu.images import compiler, complaints, elf, llvm, names, objects
from yotarimu.images.bounded import MOST_SECONDS, run_bounded
from yotarimu.images.compiler import Compilers
from yotarimu.images.elf import Label
from yotarimu.images.image import DATA, DATA_BYTES, TEXT, TEXT_WORDS
from yotarimu.images.objects import OVER_SECTION, PLACES, is_part

PREFIXES = ("riscv64-linux-gnu-", "riscv64-unknown-elf-", "riscv32-unknown-elf-")
TOOLS = ("as", "ar", "ld", "objdump")


@dataclasses.dataclass(frozen=True)
class Language:
    """What begins a comment in sources of a kind, and whether they have functions as a compiler makes them."""
    mark: str
    is_compiled: bool


# What compilers write into assembly, and people don't.
WRITTEN = r"\s*\.(ident|addrsig)\b"
# By the end of a source's name. An object has no lines.
LANGUAGES = {".s": Language("#", False), ".c": Language("//", True), ".cpp": Language("//", True),
             ".ll": Language(";", True), ".o": Language("#", True)}
SUFFIXES = tuple(LANGUAGES)
ASSEMBLY, OBJECT = ".s", ".o"
# The instructions of RV32I, as the disassembler names them; a FENCE of any kind is one.
INSTRUCTIONS = frozenset("""
    lui auipc jal jalr beq bne blt bge bltu bgeu lb lh lw lbu lhu sb sh sw addi slti sltiu xori ori andi slli srli srai
    add sub sll slt sltu xor srl sra or and fence fence.tso pause ecall ebreak
""".split())
# What the disassembler calls an instruction that RV32I hasn't; words that are given as data have other names.
UNKNOWN = frozenset((".insn", ".2byte", ".4byte", ".8byte"))
# What a file's flags ask for beyond that.
FLAGS = ((0x1, "compressed instructions"), (0x6, "a floating-point unit"), (0x8, "16 registers alone"))
# The architecture as an object's attribute tells it. Version 2.0 had in it what later versions call two extensions;
# their instructions are refused by their names.
RV32I = r"rv32i([0-9]+p[0-9]+)?(_zicsr2p0)?(_zifencei2p0)?"
# The end call after the call of a task's body, in C.
END_CALL = bytes.fromhex("9308000073000000")
CALL_OPCODE, ENTRY_BYTES = 0xEF, 12
# Where a debugger shows a task that has ended: at pc 0, which isn't a part of the image, under this name.
OVER = f"""    .section {OVER_SECTION}, "ax"
    .type task_is_over, @function
task_is_over:
    ecall
    .size task_is_over, . - task_is_over
"""


@dataclasses.dataclass
class Source:
    """A source file: its path as it was given, its lines, and whether they may name files outside of its folder."""
    path: pathlib.Path
    lines: list[str]
    is_outside_allowed: bool = False
    # Whether this is an object that a compiler made.
    is_by_compiler: bool = False

    @property
    def name(self) -> str:
        """The name of the file."""
        return self.path.name

    @property
    def is_c(self) -> bool:
        """Whether this is C or C++."""
        return self.path.suffix in (".c", ".cpp")

    @property
    def is_compiled(self) -> bool:
        """Whether a compiler made, or will make, functions of it."""
        return (LANGUAGES[self.path.suffix].is_compiled or self.is_by_compiler
                or any(re.match(WRITTEN, text) for text in self.lines))

    @property
    def mark(self) -> str:
        """What begins a comment that describes the image."""
        return LANGUAGES[self.path.suffix].mark

    def refuse_at(self, pattern: str, why: str) -> NoReturn:
        """Refuses the source, at its first line that has a pattern."""
        number = next((number for number, text in enumerate(self.lines, 1) if re.search(pattern, text)), None)
        raise Refusal(f"{self.path}:{number}: {why}." if number else f"{self.path}: {why}.")


@dataclasses.dataclass
class Instruction:
    """An instruction as the disassembler writes it, with the source's name and line where they are known."""
    words: str
    source: str
    line: int


@dataclasses.dataclass
class Assembly:
    """What the linker made of the sources; `size` is that of all data, with the zeros after the initial bytes."""
    text: bytes
    initial: bytes
    size: int
    labels: list[Label]
    instructions: dict[int, Instruction]
    code_size: int
    compiler: Optional[str] = None
    # The linked file, with what debuggers want.
    linked: bytes = b""
    paths: dict[str, pathlib.Path] = dataclasses.field(default_factory=dict)

    def labels_named(self, name: str) -> list[Label]:
        """The labels of a name: more than one where several sources have their own."""
        return [label for label in self.labels if label.name == name]

    def is_entry_of_c(self, address: int) -> bool:
        """Whether the instructions at an address are those that TASK makes for a task of C."""
        place = address - TEXT
        return (self.text[place:place + 1] == bytes([CALL_OPCODE])
                and self.text[place + 4:place + ENTRY_BYTES] == END_CALL)

    def tasks_of_c(self) -> list[Label]:
        """The labels of the tasks that TASK made."""
        return [label for label in self.labels if label.is_function and label.section == ".text"
                and label.size == ENTRY_BYTES and self.is_entry_of_c(label.address)]

    def place(self, address: int) -> Optional[str]:
        """The path and the line of the source of an instruction; None where they aren't known."""
        found = self.instructions.get(address)
        return f"{self.paths.get(found.source, found.source)}:{found.line}" if found and found.line else None


def sources_in(folder: pathlib.Path, is_outside_allowed: bool = False) -> list[Source]:
    """The sources of a folder, by name."""
    paths = sorted(path for path in pathlib.Path(folder).iterdir() if path.suffix in SUFFIXES)
    if not paths:
        raise Refusal(f"{folder}: no source, a file whose name ends in {' or '.join(SUFFIXES)}, is in this folder.")
    for one, other in itertools.combinations(paths, 2):
        if one.stem == other.stem and OBJECT in (one.suffix, other.suffix):
            raise Refusal(f"{folder}: {one.name} and {other.name} have one name, so one seems to be made of the other; "
                          "take one of them away.")
    return [source_at(path, is_outside_allowed) for path in paths]


def source_at(path: pathlib.Path, is_outside_allowed: bool = False) -> Source:
    """The source of a file; an object isn't text."""
    need_plain(path)
    if path.suffix == OBJECT:
        return Source(path, [], is_outside_allowed, objects.is_by_compiler(read_bytes(path), path))
    return Source(path, read_written(path).split("\n"), is_outside_allowed)


def tool_prefix() -> str:
    """What the names of the assembler and of the linker begin with."""
    for prefix in PREFIXES:
        if all(shutil.which(prefix + tool) for tool in TOOLS):
            return prefix
    raise Refusal(f"no GNU binutils for RISC-V are in the path: {', '.join(TOOLS)} with one of the prefixes "
                  f"{', '.join(PREFIXES)} are wanted (Debian's package binutils-riscv64-linux-gnu has them).")


def run_tool(words: Sequence[str], folder: str, sources: Sequence[Source]) -> str:
    """Runs a tool. Its complaints are reported with the sources' paths in place of the objects' names."""
    done = run_bounded(words, folder)
    bound = f"takes longer than {MOST_SECONDS} seconds" if done is None else done.met_bound()
    if done is None or bound is not None:
        raise Refusal(f"{paths_text(sources)}: {words[0]} {bound}, so it was ended.")
    said = re.sub(r".*: Assembler messages:\n", "", done.said.replace(f"{words[0]}: ", "")).strip()
    said = said.replace(f"{compiler.LIBRARY}/", "")
    for place, source in enumerate(sources):
        said = said.replace(f"{source.path.absolute().parent}/", str(source.path).removesuffix(source.name))
        said = re.sub(rf"\b{place}\.o\b", lambda _: str(source.path), said)
    if done.is_too_large():
        refuse_size(sources)
    told = compiler.complaints(said, names.enqueued_names(sources))
    if done.status == 0:
        if said:
            note(told or said)
        return done.output
    if why := next((llvm.why_unread(source, said, compiler.told_by(words[0], compiler.CLANG)) for source in sources
                    if words[-1] == str(source.path.absolute()) and source.path.suffix == compiler.LLVM), None):
        raise Refusal(why)
    raise Refusal(told or names.sentences(said, pathlib.Path(folder), sources)
                  or complaints.sentences(said, words[0], sources))


def paths_text(sources: Sequence[Source]) -> str:
    """The paths of sources, for the begin of a sentence on all of them."""
    return ", ".join(str(source.path) for source in sources)


def refuse_size(sources: Sequence[Source]) -> NoReturn:
    """Refuses a section that no image can have, at the line that asks for the most."""
    lines = [(asked_for(text), source, number) for source in sources
             for number, text in enumerate(source.lines, 1)]
    most, source, number = max(lines, key=lambda line: line[0], default=(0, sources[0], 0))
    place = f"{source.path}:{number}" if most else paths_text(sources)
    raise Refusal(f"{place}: a section is far larger than an image may have: the text has up to {4 * TEXT_WORDS:,} "
                  f"bytes, and the data up to {DATA_BYTES:,}.")


def asked_for(text: str) -> int:
    """The greatest number of a line that leaves room; 0 of other lines."""
    if not re.match(r"\s*(\S+:\s*)?\.(space|skip|zero|fill|org|balign|align|p2align|comm|lcomm)\b", text):
        return 0
    number = r"\b(0[xX][0-9a-fA-F]{1,16}|[1-9][0-9]{0,16})\b"
    products = [int(one, 0) << min(int(two, 0), 40) for one, two in re.findall(rf"{number}\s*<<\s*{number}", text)]
    products += [int(one, 0) * int(two, 0) for one, two in re.findall(rf"{number}\s*[*,]\s*{number}", text)]
    return max((*products, *(int(word, 0) for word in re.findall(number, text))), default=0)


def assemble(sources: Sequence[Source], how: Compilers = Compilers()) -> Assembly:
    """Assembles or compiles the sources, C by the compiler that is named, and links them at the image's addresses."""
    prefix, is_compiled = tool_prefix(), any(source.is_compiled for source in sources)
    with tempfile.TemporaryDirectory() as folder:
        contents = []
        for place, source in enumerate(sources):
            made = object_of(source, pathlib.Path(folder, f"{place}.o"), prefix, how, sources)
            refuse_other_machine(source, made)
            contents.append(objects.section_names(source, made))
            objects.refuse_relocations(source, made)
        libraries = [*memory_library(folder, prefix, how, sources), *compiler.arithmetic(how)] if is_compiled else []
        pathlib.Path(folder, "places").write_text(linker_script(contents, is_compiled), encoding="utf-8")
        pathlib.Path(folder, "over.s").write_text(OVER, encoding="ascii")
        run_tool([prefix + "as", "-march=rv32i", "-mabi=ilp32", "-o", "over.o", "over.s"], folder, sources)
        # Without a register for small data relaxing only makes a call of C one instruction.
        relaxing = [] if is_compiled else ["--no-relax"]
        run_tool([prefix + "ld", "-m", "elf32lriscv", *relaxing, "-e", "0", "-T", "places", "-o", "task.elf",
                  *(f"{place}.o" for place in range(len(sources))), "over.o", *libraries], folder, sources)
        linked = pathlib.Path(folder, "task.elf").read_bytes()
        sections, labels = elf.read_elf(linked)
        if why := objects.why_no_image(sections):
            raise Refusal(f"{', '.join(str(source.path) for source in sources)}: {why}.")
        # Sources may have data alone.
        if any(section.name == ".text" for section in sections):
            listed = run_tool([prefix + "objdump", "-d", "-l", *(["--inlines"] if is_compiled else []), "-z", "-M",
                               "no-aliases", "-j", ".text", "task.elf"], folder, sources)
        else:
            listed = ""
    assembled = join_sections({section.name: section for section in sections}, labels, instructions_in(listed))
    assembled.compiler, assembled.linked = compilers_told(sources, how), linked
    assembled.paths = {source.name: source.path for source in sources}
    refuse_other_instructions(assembled)
    tell_entries(assembled, sources)
    return assembled


def tell_entries(assembled: Assembly, sources: Sequence[Source]) -> None:
    """Gives the instructions of each entry that TASK made the line of that TASK, since no compiler does."""
    for label in assembled.tasks_of_c():
        lines = ((source.name, number) for source in sources if source.is_c
                 for number, text in enumerate(source.lines, 1)
                 if re.search(rf"\bTASK\s*\(\s*{re.escape(label.name)}\b", text))
        for name, number in itertools.islice(lines, 1):
            for address in range(label.address, label.address + ENTRY_BYTES, 4):
                found = assembled.instructions[address]
                assembled.instructions[address] = dataclasses.replace(found, source=name, line=number)


def object_of(source: Source, target: pathlib.Path, prefix: str, how: Compilers,
              sources: Sequence[Source]) -> bytes:
    """The bytes of a source's object, which is made as the file `target`."""
    if source.path.suffix == OBJECT:
        made = read_bytes(source.path)
        objects.refuse_object(source, made)
        elf.read_elf(made, source.path)
        target.write_bytes(made)
        return made
    if source.path.suffix == compiler.LLVM:
        llvm.refuse_other_target(source)
    run_tool(source_words(source, target, prefix, how), str(target.parent), sources)
    return target.read_bytes()


def source_words(source: Source, target: pathlib.Path, prefix: str, how: Compilers) -> list[str]:
    """The words that make an object of a source."""
    path = source.path.absolute()
    if path.suffix != ASSEMBLY:
        return compiler.compiler_words(how, path, target.name)
    paths = [str(path)]
    if any(re.match(r"\s*\.addrsig", text) for text in source.lines):
        # What clang's assembler is told of addresses, and GNU's doesn't know.
        ignored = target.with_suffix(".ignored.s")
        ignored.write_text(".macro .addrsig\n.endm\n.macro .addrsig_sym name\n.endm\n", encoding="ascii")
        paths.insert(0, ignored.name)
    # Lines of another language, which `.file` names, are in files beside the source.
    return [prefix + "as", "-march=rv32i", "-mabi=ilp32", "-mno-relax", "-g", "--debug-prefix-map",
            f"{target.parent}={path.parent}", "-I", str(path.parent), "-o", target.name, *paths]


def compilers_told(sources: Sequence[Source], how: Compilers) -> Optional[str]:
    """The compilers of the sources, with their versions, and how else than usual they made code; None where none
    compiles."""
    used = {how.kind_of(source.path): None for source in sources if source.path.suffix not in (ASSEMBLY, OBJECT)}
    told = " and ".join(compiler.told_by(how.program(kind), kind) for kind in used) or None
    return f"{told} {how.level}" if told and how.level != compiler.FAST else told


def memory_library(folder: str, prefix: str, how: Compilers, sources: Sequence[Source]) -> list[str]:
    """A library of what compilers call, of which the linker takes what is called."""
    run_tool(compiler.compiler_words(how, compiler.MEMORY, "memory.o", is_library=True), folder, sources)
    run_tool([prefix + "ar", "rc", "libmemory.a", "memory.o"], folder, sources)
    return ["libmemory.a"]


def refuse_other_machine(source: Source, data: bytes) -> None:
    """Refuses an object that asks for more than RV32I, by its attribute of the architecture or by its flags."""
    found = re.search(rb"rv(32|64|128)[a-z0-9_.]*", elf.attributes(data))
    arch = found[0].decode("ascii") if found else "rv32i"
    asked = next((what for bits, what in FLAGS if elf.flags(data) & bits), None)
    if not re.fullmatch(RV32I, arch):
        asked = f"`{arch}`"
    if asked:
        source.refuse_at(r"\.attribute\s+arch|\.option\s+(arch|rvc)",
                         f"this asks for {asked}, and the machine has RV32I alone")


def refuse_other_instructions(assembled: Assembly) -> None:
    """Refuses an instruction that isn't one of RV32I; words that the source gives as data aren't looked at."""
    for address, found in assembled.instructions.items():
        name = found.words.partition(" ")[0]
        if name in UNKNOWN or name not in INSTRUCTIONS and not name.startswith((".", "0x")):
            place = assembled.place(address) or f"at {address:08x}"
            raise Refusal(f"{place}: `{found.words if name in UNKNOWN else name}` isn't an instruction of RV32I.")


def linker_script(contents: Sequence[Sequence[str]], has_libraries: bool) -> str:
    """Where each section of each object goes: those of one source after those of the one before, at multiples of 4, and
    those of libraries after all sources."""
    def placed(output: str) -> str:
        inputs = [f". = ALIGN(4); {number}.o({section_pattern(name)})" for place in PLACES[output]
                  for number, names in enumerate(contents) for name in names if is_part(name, place)]
        if has_libraries:
            inputs += [f". = ALIGN(4); *({place} {place}.*)" for place in PLACES[output]]
        commons = " . = ALIGN(4); *(COMMON)" if output == ".bss" else ""
        return f"{output} : {{ {' '.join(inputs)}{commons} }}"

    return (f"SECTIONS {{ {OVER_SECTION} 0 : {{ over.o({OVER_SECTION}) }}"
            f" . = {TEXT:#x}; {placed('.text')} {placed('.rodata')} . = {DATA:#x}; {placed('.data')} {placed('.bss')}"
            " /DISCARD/ : { *(.riscv.attributes) *(.comment) *(.note .note.*) *(.eh_frame) } }\n")


def section_pattern(name: str) -> str:
    """A section's name as a pattern of the linker, in which `*` stands for what isn't plain. The place that the name
    begins with is plain, so no section of another place has the pattern."""
    return '"' + re.sub(r"[^\w.$+-]+", "*", name, flags=re.ASCII) + '"'


def instructions_in(listed: str) -> dict[int, Instruction]:
    """The instructions of a disassembly by address, with the source line that precedes each.

    For an inlined function of the library, the line is that of the call."""
    instructions, own, callers = {}, ("", 0), []
    for text in listed.splitlines():
        if found := re.fullmatch(r"inlined by (.+):(\d+) \(.*\)", text):
            callers.append((found[1], int(found[2])))
        elif found := re.fullmatch(r"(.+):(\d+)(?: \(discriminator \d+\))?", text):
            own = found[1], int(found[2])
        elif re.fullmatch(r"\S+\(\):", text):
            own = "", 0
        elif found := re.fullmatch(r"\s*([0-9a-f]+):\s+[0-9a-f]{8}\s+(.*)", text):
            words = re.sub(r"\s+", " ", found[2].split(" # ")[0]).strip()
            path, line = next((place for place in (own, *callers) if not is_library(place[0])), own)
            instructions[int(found[1], 16)] = Instruction(words, os.path.basename(path), line)
            callers = []
    return instructions


def is_library(path: str) -> bool:
    """Whether a source is one of the library's."""
    return os.path.dirname(os.path.normpath(path)) == str(compiler.LIBRARY)


def join_sections(sections: Mapping[str, elf.Section], labels: Sequence[Label],
                  instructions: dict[int, Instruction]) -> Assembly:
    """The image's parts from the linked file's sections."""
    empty = elf.Section("", 0, True, 0, 0, b"")
    text, fixed, data, zeros = (sections.get(name, empty) for name in PLACES)
    whole = bytearray(text.data)
    gap = fixed.address - TEXT - len(whole) if fixed.size else 0
    if text.size and text.address != TEXT or not 0 <= gap <= 4 * TEXT_WORDS:
        raise Refusal(f"the linker places the text at {text.address:08x} and the constants at {fixed.address:08x}; an "
                      f"image has both one after the other from {TEXT:08x} on, so an alignment is too large, or an "
                      "object is damaged.")
    whole += bytes(gap) + fixed.data
    whole += bytes(-len(whole) % 4)
    end = max((section.address + section.size for section in (data, zeros) if section.size), default=DATA)
    places = [label for label in labels if label.section in PLACES]
    return Assembly(bytes(whole), data.data, end - DATA, places, instructions, text.size)
