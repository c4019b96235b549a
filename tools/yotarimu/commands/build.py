"""Assembles and compiles the sources of a folder, and writes its image and a listing with addresses beside it.

usage: ./fractal build [--gcc PATH] [--clang [PATH] | --debug] [--outside] FOLDER...
       ./fractal build [--gcc PATH] [--clang [PATH] | --debug] --all

A FOLDER is a path, or the name of one of the project's examples or schedules. Its sources are linked in the order of
their names: *.s, RV32I in the syntax of GNU as; *.c and *.cpp, tasks that include task.h (docs/guest/C.md), compiled by
gcc or by clang; *.ll, by clang; and *.o (docs/guest/COMPILERS.md). The folder gets image.bin and listing. A compiler,
assembler or linker is ended after 120 seconds of a processor, 300 seconds, or at 2 GiB.

  --gcc PATH      another gcc for RISC-V
  --clang [PATH]  compiles C by clang, or by another clang
  --debug         writes to the FOLDER's folder `debug`, and has gcc compile so that `./fractal debug` finds each
                  variable: that image runs longer, and its variables may be elsewhere
  --outside       a FILE of the lines below may be anywhere, not only in the FOLDER, wherever symbolic links lead
  --all           builds all of the project's examples and schedules

Comments of the sources describe the image; in C they begin with //:

    # image: root ordered           or unordered; by default ordered
    # image: data BYTES             the data size; else that of the sections of data
    # image: data LABEL FILE        the data from a label on: bytes, or numbers if the name ends in .csv
    # image: window LABEL [WORDS]   the words in the report, else none; a variable of C has a size
    # image: task LABEL [ts N] [args A [B [C]]]
    # image: tasks FILE             a row for each task, as docs/guest/SOURCES.md says
    # image: version 1              or 2; 2 where a compiler made a source, else 1

Numbers are decimal, or hexadecimal after 0x. An argument may be a label, for its address. There is at least one line on
a task. The text has the sections .text and .rodata, the data .data and .sdata, and after them .bss and .sbss, which
begin as zeros.
"""
from __future__ import annotations

import dataclasses
import pathlib

from yotarimu.common.outcome import Refusal
from yotarimu.common.places import ARCHIVE, EXAMPLES_FOLDER
from yotarimu.common.words import Words
from yotarimu.images.compiler import CLANG, FOR_DEBUGGING
from yotarimu.images.compiler_options import take_compilers
from yotarimu.images.folder import build, image_folder
from yotarimu.programs.examples import EXAMPLES, SCHEDULES, with_sources


def folder_at(word: str) -> pathlib.Path:
    """The folder that a word means."""
    path = pathlib.Path(word)
    if word and path.is_dir():
        return path
    if word in EXAMPLES + SCHEDULES:
        return EXAMPLES_FOLDER / word
    raise Refusal(f"`{word}`: no such folder.")


def is_folder(word: str) -> bool:
    """Whether a word means a folder of sources."""
    return pathlib.Path(word).is_dir() or word in EXAMPLES + SCHEDULES


def main(words: list[str]) -> None:
    """Does what the words of the call ask for."""
    how, words = take_compilers(words, is_folder)
    given = Words("build", page=__doc__).read(words)
    names = given.others
    if not names and "all" not in given.flags:
        programs = "both programs are there already" if ARCHIVE.is_file() else "./fractal prove builds the programs"
        raise Refusal(f"which FOLDER of sources is to be built? --all is for all examples and schedules; {programs}.")
    if names and "all" in given.flags:
        raise Refusal("--all is for all of the project's examples and schedules, so no FOLDER can be given with it.")
    if "debug" in given.flags:
        if how.of_c == CLANG:
            raise Refusal("--debug compiles by gcc: what clang makes for debugging shows wrong arguments.")
        how = dataclasses.replace(how, level=FOR_DEBUGGING)
    for folder in [folder_at(word) for word in names or with_sources(EXAMPLES + SCHEDULES)]:
        build(folder, how, "outside" in given.flags)
        print(image_folder(folder, how.level) / "image.bin")
