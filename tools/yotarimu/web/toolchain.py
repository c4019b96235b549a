"""The LLVM module of a proved program, kept as the toolchain makes it.

The toolchain proves the program's crate over what was proved before, lowers it to LLVM, and has its own clang compile
that. Here a script replaces that clang: it keeps the module, and then calls clang with its arguments.
"""
from __future__ import annotations

import dataclasses
import os
import pathlib
import shlex
import shutil
import stat
import subprocess
import tempfile
from typing import Dict, List

from yotarimu.common.outcome import Refusal

COMMAND = "rt"
# What the toolchain calls of its own to compile a module.
CALLED = ("ld.lld", "llvm-ar", "rattle-x64")
PROVED = "logic=proved"
JOBS = "2"
WRAPPER = """#!/bin/sh
for word do
    case $word in
        *.bc) cp "$word" "$(mktemp {kept}/module.XXXXXX)" || exit 1 ;;
    esac
done
exec {clang} "$@"
"""


@dataclasses.dataclass(frozen=True)
class Toolchain:
    """The folder of the Rattle toolchain."""
    folder: pathlib.Path

    @property
    def compiler(self) -> pathlib.Path:
        """The folder of the compiler."""
        return self.folder / "toolchain"

    @property
    def prover(self) -> pathlib.Path:
        """The program that proves."""
        return self.folder / "bin" / "rattle"

    def library(self, name: str) -> pathlib.Path:
        """The file of one of the toolchain's crates."""
        return self.folder / "rlibs" / f"{name}.rlib"


def toolchain() -> Toolchain:
    """The toolchain whose command is in the path."""
    command = shutil.which(COMMAND)
    if command is None:
        raise Refusal(f"this wants the command {COMMAND} of the Rattle toolchain, which isn't in the path.")
    found = Toolchain(pathlib.Path(os.path.realpath(command)).parent.parent)
    if not found.prover.is_file() or not (found.compiler / "bin" / "clang").exists():
        raise Refusal(f"{found.folder}: this toolchain can't be asked for its module: it has no bin/rattle and no "
                      "toolchain/bin/clang; all else works without.")
    return found


class Crates:
    """The repository's crates, by what crates.txt says of each: those that it stands on."""

    def __init__(self, home: pathlib.Path) -> None:
        self.home = home
        self.below: Dict[str, List[str]] = {}
        for line in (home / "crates.txt").read_text(encoding="utf-8").splitlines():
            head, colon, names = line.partition("#")[0].partition(":")
            if colon:
                self.below[head.split()[0]] = names.split()

    def all_below(self, name: str) -> List[str]:
        """The crates of the repository that a crate stands on, each behind those that it names."""
        found: Dict[str, None] = {}
        self.find_below(name, found)
        return list(found)

    def find_below(self, name: str, found: Dict[str, None]) -> None:
        """Notes all crates that one stands on, each behind those below it."""
        for other in self.below[name]:
            if other in self.below and other not in found:
                self.find_below(other, found)
                found[other] = None

    def library(self, name: str) -> pathlib.Path:
        """What was proved of a crate."""
        path = self.home / "crates" / name / "out" / "rlib" / f"{name}.rlib"
        if not path.exists():
            raise Refusal(f"{name} isn't proved here, and a module is made of what is; ./fractal prove proves all.")
        return path


def module_of(program: str, home: pathlib.Path) -> bytes:
    """The LLVM module that the toolchain makes of a program, once it has proved its crate."""
    kit = toolchain()
    with tempfile.TemporaryDirectory(prefix="fractal-module-") as place:
        folder = pathlib.Path(place)
        kept = folder / "kept"
        kept.mkdir()
        words = [str(kit.prover), "build", *build_words(program, Crates(home), kit), "--toolchain",
                 str(wrap_toolchain(kit, folder, kept)), "-o", str(folder / f"{program}.o")]
        done = subprocess.run(words, cwd=home / "crates" / program, stdin=subprocess.DEVNULL, stdout=subprocess.PIPE,
                              stderr=subprocess.STDOUT, text=True, errors="replace", check=False)
        if done.returncode or PROVED not in done.stdout:
            said = done.stdout.strip().splitlines()
            raise Refusal(f"{program} wasn't proved: rattle ended with status {done.returncode}"
                          f"{f', and said: {said[-1][:200]}' if said else ''}.")
        modules = [path.read_bytes() for path in kept.iterdir()]
        if not modules:
            raise Refusal(f"this toolchain compiled {program} in another way than by a module of LLVM, so none is "
                          "kept; all else works without.")
        return max(modules, key=len)


def build_words(program: str, crates: Crates, kit: Toolchain) -> List[str]:
    """The toolchain's description of a program: its crate, and the crates below it."""
    words = ["--crate-name", program, "src/main.rt", "--extern", f"std={kit.library('std')}"]
    for name in crates.below[program]:
        words += ["--extern", f"{name}={crates.library(name) if name in crates.below else kit.library(name)}"]
    words += ["-L", f"dependency={kit.folder / 'rlibs'}"]
    for name in crates.all_below(program):
        words += ["-L", f"dependency={crates.library(name).parent}"]
    return [*words, "--antt-project", str(kit.folder / "rattle/logic/antt-project.json"), "--logic-built",
            str(kit.folder / "logic_built"), "--links", f"{program}=", "--jobs", JOBS, "--backend", "llvm"]


def wrap_toolchain(kit: Toolchain, folder: pathlib.Path, kept: pathlib.Path) -> pathlib.Path:
    """A folder like the toolchain's own, whose clang keeps each module that it is given."""
    made = folder / "toolchain"
    (made / "bin").mkdir(parents=True)
    (made / "lib").symlink_to(kit.compiler / "lib")
    for name in CALLED:
        (made / "bin" / name).symlink_to(kit.compiler / "bin" / name)
    clang = made / "bin" / "clang"
    own, place = (shlex.quote(str(path)) for path in (kit.compiler / "bin" / "clang", kept))
    clang.write_text(WRAPPER.format(kept=place, clang=own), encoding="utf-8")
    clang.chmod(clang.stat().st_mode | stat.S_IXUSR)
    return made
