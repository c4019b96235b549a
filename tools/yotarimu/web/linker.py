"""From a program's LLVM module to a WebAssembly module of 32 bits that any engine of the last years takes."""
from __future__ import annotations

import pathlib
import shutil
import subprocess
import tempfile
from typing import List, Sequence

from yotarimu.common.outcome import Refusal
from yotarimu.web.wasm_tables import narrow
from yotarimu.web.llvm_text import KNOWN_TRIPLE, TARGET, retarget

HERE = pathlib.Path(__file__).resolve().parent
SHIM = HERE / "shim.c"
# Features that each engine of the last years has; memory of 64 bits, which few have, is lowered at the end.
FEATURES = ("--target=wasm64-unknown-unknown", "-mcpu=lime1", "--no-default-config")
STACK, MOST_MEMORY = 4 << 20, 1 << 30
# Division and conversions of 128 bits are calls of LLVM's library, in place of long code.
CODE = ("-O2", "-ffunction-sections", "-fdata-sections", "-mllvm", "-expand-div-rem-bits=64", "-mllvm",
        "-expand-fp-convert-bits=64", "-Wno-override-module")
SHIM_CODE = ("-O2", "-ffreestanding", "-nostdinc", "-fwrapv", "-Wall", "-Wno-unused-parameter", "-Werror")
BUILTINS = "libclang_rt.builtins-wasm64.a"
BUILTINS_IN = ("/usr/lib/llvm-*/lib/clang/*/lib/wasi", "/usr/lib/llvm-*/lib/clang/*/lib/wasm64-unknown-unknown")
OPTIMISER = "wasm-opt"
LOWERING = ("--enable-memory64", "--enable-bulk-memory", "--enable-sign-ext", "--enable-mutable-globals",
            "--enable-nontrapping-float-to-int", "--memory64-lowering", "-O2")


class Tools:
    """The toolchain's own clang and linker, and what Debian has."""

    def __init__(self, toolchain: pathlib.Path) -> None:
        self.clang, self.linker = (toolchain / "bin" / name for name in ("clang", "ld.lld"))
        for tool in (self.clang, self.linker):
            if not tool.exists():
                raise Refusal(f"{tool}: the toolchain hasn't this, which makes modules for WebAssembly.")
        self.optimiser = shutil.which(OPTIMISER)
        if self.optimiser is None:
            raise Refusal(f"{OPTIMISER} isn't in the path (Debian's package binaryen has it).")
        self.builtins = builtins_of()

    def run(self, tool: pathlib.Path, name: str, words: Sequence[str], folder: pathlib.Path) -> None:
        """Runs a tool, which behaves by the name that it is called by."""
        done = subprocess.run([name, *words], executable=tool, cwd=folder, capture_output=True, text=True,
                              errors="replace", stdin=subprocess.DEVNULL, check=False)
        if done.returncode:
            said = done.stderr.strip().splitlines()
            raise Refusal(f"{name} ended with status {done.returncode}: {said[0] if said else 'it said nothing'}.")

    def compile(self, words: Sequence[str], folder: pathlib.Path) -> None:
        """Compiles in a folder, by the words of clang."""
        self.run(self.clang, "clang", words, folder)


def builtins_of() -> pathlib.Path:
    """LLVM's library of what compiled code calls, of the newest installed version."""
    found: List[pathlib.Path] = []
    for pattern in BUILTINS_IN:
        found += pathlib.Path("/").glob(f"{pattern[1:]}/{BUILTINS}")
    if not found:
        raise Refusal(f"{BUILTINS} isn't there (Debian's package libclang-rt-dev-wasm64 has it).")
    return max(found, key=version_in)


def version_in(path: pathlib.Path) -> List[int]:
    """The numbers in a path, by which versions are ordered."""
    return [int(part) for part in path.parts if part.isdigit()]


def link(module: bytes, name: str, tools: Tools) -> bytes:
    """The WebAssembly module of a program, from the LLVM module that the toolchain made of it."""
    with tempfile.TemporaryDirectory(prefix="fractal-web-") as place:
        folder = pathlib.Path(place)
        (folder / "module.bc").write_bytes(module)
        tools.compile([f"--target={KNOWN_TRIPLE}", "--no-default-config", "-S", "-emit-llvm", "-x", "ir", "module.bc",
                       "-o", "x86.ll", "-Xclang", "-disable-llvm-passes"], folder)
        text = (folder / "x86.ll").read_text(encoding="utf-8")
        (folder / "wasm.ll").write_text(retarget(text, name), encoding="utf-8")
        tools.compile([*FEATURES, *CODE, "-c", "-x", "ir", "wasm.ll", "-o", "program.o"], folder)
        tools.compile([*FEATURES, *SHIM_CODE, "-c", str(SHIM), "-o", "shim.o"], folder)
        tools.run(tools.linker, "wasm-ld", linker_words(tools), folder)
        (folder / "narrow.wasm").write_bytes(narrow((folder / "wide.wasm").read_bytes()))
        tools.run(pathlib.Path(str(tools.optimiser)), OPTIMISER, [*LOWERING, "narrow.wasm", "-o", "made.wasm"], folder)
        return (folder / "made.wasm").read_bytes()


def linker_words(tools: Tools) -> List[str]:
    """What isn't found stops the linker: nothing is left to be imported but the host's five calls."""
    return ["-flavor", "wasm", "-mwasm64", "--no-entry", "--export=main", "--stack-first", "-z",
            f"stack-size={STACK}", f"--max-memory={MOST_MEMORY}", "--gc-sections", "--threads=1", "-s", "-o",
            "wide.wasm", "program.o", "shim.o", str(tools.builtins)]


__all__ = ["TARGET", "Tools", "link"]
