"""The text of a program's LLVM module, made for WebAssembly in place of x86-64.

The toolchain lowers what it proved to LLVM for x86-64. Nothing of that is changed but what names the processor: the
layout of data, the triple, and attributes. Where the module has anything that isn't known to mean the same on both,
it is refused.
"""
from __future__ import annotations

import re

from yotarimu.common.outcome import Refusal

TARGET = "wasm64-unknown-unknown"
KNOWN_TRIPLE = "x86_64-unknown-linux-gnu"
# Both have 64 bits in a pointer, an i64 and a long, and align an i64 to 8 bytes and an i128 to 16: so offsets and sizes
# in the module hold on both. Segments (p270 to p272) and floats of 80 bits aren't used by what is proved.
KNOWN_LAYOUT = "e-m:e-p270:32:32-p271:32:32-p272:64:64-i64:64-i128:128-f80:128-n8:16:32:64-S128"
LAYOUT = "e-m:e-p:64:64-p10:8:8-p20:8:8-i64:64-i128:128-n32:64-S128-ni:1:10:20"
# What only x86-64 heeds: how it looks at the stack's end, and which of its processors is meant.
ATTRIBUTES = re.compile(r'"(probe-stack|stack-probe-size|target-cpu|target-features|tune-cpu)"="[^"]*" ?')
PAUSE = "@llvm.x86.sse2.pause()"
DECLARED = re.compile(r"^declare [^@]*@(\"[^\"]+\"|[\w.$-]+)\(", re.MULTILINE)
ASSEMBLY = re.compile(r"\basm (?:sideeffect |alignstack |inteldialect |unwind )*\"([^\"]*)\"")
OTHER_TYPES = re.compile(r"\b(x86_fp80|ppc_fp128|addrspace\(27[0-2]\))")
# The functions of C that shim.c has, or that a library of LLVM for this target has.
KNOWN = frozenset("""
    __sysv_signal __write __x86_get_cpuid_feature_leaf __xpg_strerror_r _exit abort close lseek open
    pthread_attr_destroy pthread_attr_init pthread_attr_setguardsize pthread_attr_setstacksize pthread_create
    pthread_detach pthread_join pthread_self rattle_alloc rattle_arg rattle_arg_count rattle_dealloc rattle_env
    rattle_env_at rattle_errno rattle_realloc rattle_set_errno read sched_getaffinity sched_yield syscall sysconf write
    free malloc realloc memcpy memmove memset memcmp
""".split())


def retarget(text: str, name: str) -> str:
    """The module's text for WebAssembly, or a refusal that names what isn't known."""
    need_known(text, name)
    text = text.replace(f'target datalayout = "{KNOWN_LAYOUT}"', f'target datalayout = "{LAYOUT}"', 1)
    text = text.replace(f'target triple = "{KNOWN_TRIPLE}"', f'target triple = "{TARGET}"', 1)
    lines = (line for line in text.split("\n") if PAUSE not in line)
    return "\n".join(ATTRIBUTES.sub("", line) if line.startswith("attributes ") else line for line in lines)


def need_known(text: str, name: str) -> None:
    """Refuses a module with something that WebAssembly might take otherwise."""
    for what, known in (("datalayout", KNOWN_LAYOUT), ("triple", KNOWN_TRIPLE)):
        found = re.search(rf'^target {what} = "([^"]*)"', text, re.MULTILINE)
        if found is None or found[1] != known:
            raise Refusal(f"{name}: its {what} is `{found[1] if found else ''}`, which isn't known to this builder.")
    if "\nmodule asm " in text:
        raise Refusal(f"{name}: it has assembly of its own, which has no meaning in WebAssembly.")
    if found := next((it for it in ASSEMBLY.finditer(text) if it[1]), None):
        raise Refusal(f"{name}: it has the inline assembly `{found[1]}`, which has no meaning in WebAssembly.")
    if found := OTHER_TYPES.search(text):
        raise Refusal(f"{name}: it uses `{found[1]}`, which WebAssembly hasn't.")
    declared = {it[1].strip('"') for it in DECLARED.finditer(text)}
    unknown = sorted(it for it in declared if not is_known(it))
    if unknown:
        raise Refusal(f"{name}: it calls {', '.join(unknown)}, which the shim for WebAssembly hasn't.")


def is_known(function: str) -> bool:
    """Whether a function is known to be there and to mean the same for WebAssembly."""
    if function.startswith("llvm."):
        return not function.startswith("llvm.x86.") or f"@{function}()" == PAUSE
    return function in KNOWN
