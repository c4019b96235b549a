"""Which program answers, where built programs are, and which status belongs to which end of a report."""
from __future__ import annotations

import dataclasses
import functools
import hashlib
import os
import pathlib
import subprocess
from typing import NamedTuple, Optional

from yotarimu.common.outcome import Refusal, note
from yotarimu.common.places import HOME

LAUNCHER = HOME / "fractal"
PROGRAM = HOME / "crates" / "fractal_sim" / "out" / "fractal_sim"
# The second program, which ./fractal watch runs.
SECOND_PROGRAM = HOME / "crates" / "fractal_watch" / "out" / "fractal_watch"
# The arguments of the launcher that name each program: none name the first.
# The kind of a program that Node or Deno runs.
TRANSLATION = "translation"
FIRST, SECOND = "", "watch"
# A program to call, and its first arguments.
Command = tuple[str, ...]
# The status that belongs to the end of a report.
STATUSES = {"normal": 0, "trap": 3, "limit": 4, "open": 0}
# The processors of programs that systems start, by the number in a program's first bytes.
PROCESSORS = {62: "x86_64", 183: "aarch64", 243: "riscv64"}
# What was said of programs that answer, each once.
REMARKS: list[str] = []
EMULATION = pathlib.Path("/proc/sys/fs/binfmt_misc/qemu-x86_64")


class Answer(NamedTuple):
    """The answer of a program to a call: its status, and what it wrote."""
    status: int
    written: bytes


@dataclasses.dataclass(frozen=True)
class Program:
    """A program that answers: how it is called, its kind (proved, translation, unproved or named), the digest of its
    bytes, the commit that it was built from, and a remark for the user."""
    command: Command
    kind: str
    digest: str
    commit: str
    remark: str

    @property
    def identity(self) -> str:
        """A name that no other program has: its kind and its digest."""
        return f"{self.kind} {self.digest}"


@functools.lru_cache(maxsize=None)
def answering_program(which: str = FIRST) -> Program:
    """The program that answers here, as the launcher chooses it; what a person is to know of it is said once."""
    need_launcher()
    done = subprocess.run([LAUNCHER, "dev", "program", *which.split()], stdin=subprocess.DEVNULL,
                          stdout=subprocess.PIPE, stderr=subprocess.PIPE, text=True, errors="replace", check=False)
    if done.returncode:
        said = done.stderr.strip().splitlines()
        raise Refusal(said[-1].removeprefix("fractal: ") if said else f"{LAUNCHER} names no program.")
    rows = [line.partition("|")[::2] for line in done.stdout.splitlines()]
    told = dict(rows)
    if told["remark"] and told["remark"] not in REMARKS:
        REMARKS.append(told["remark"])
        note(f"{told['remark']}.")
    command = tuple(value for name, value in rows if name == "word")
    return Program(command, told["kind"], told["digest"], told["commit"], told["remark"])


def need_launcher() -> None:
    """Refuses to go on without a clone or an archive, as when an installed package isn't given one."""
    if not LAUNCHER.is_file():
        raise Refusal(f"{HOME} has no programs; set YOTARIMU_HOME to a clone or an archive of the repository.")


def program_at(path: Optional[str], which: str = FIRST) -> Program:
    """The built program at a path, which is refused where it can't be started; or the one that answers here."""
    if path is None:
        return answering_program(which)
    program = need_program(pathlib.Path(path))
    digest = hashlib.sha256(program.read_bytes()).hexdigest()[:16]
    return Program((str(program),), "named", digest, "unknown", "")


def native_program(path: Optional[str] = None) -> pathlib.Path:
    """The built program at a path, or this clone's: a file that the system starts."""
    return need_program(PROGRAM if path is None else pathlib.Path(path))


def need_program(program: pathlib.Path) -> pathlib.Path:
    """The absolute path of a built program; a refusal where there is none."""
    if not program.is_file():
        raise Refusal(f"{program}: the program isn't built; ./fractal prove builds it.")
    why = why_not_started(program)
    if why is not None:
        raise Refusal(why)
    return program.absolute()


def why_not_started(program: pathlib.Path) -> Optional[str]:
    """Why this system can't start a program; None where it can, or where that is seen only once it is tried."""
    try:
        with open(program, "rb") as file:
            head = file.read(20)
    except OSError:
        return None
    if head[:4] != b"\x7fELF":
        return None
    system, wanted = os.uname(), PROCESSORS.get(int.from_bytes(head[18:20], "little"))
    if system.sysname == "Linux" and (wanted == system.machine or wanted == "x86_64" and EMULATION.exists()):
        return None
    return (f"this system can't start {program}, which wants x86-64 Linux with glibc 2.34 or later; fractal.html runs "
            "in any browser, and docs/guide/INSTALLING.md lists other ways.")


def end_of(report: bytes) -> str:
    """The word after `end` of a report's bytes, or nothing."""
    _, end, behind = report.rpartition(b"\nend ")
    return behind.partition(b" ")[0].strip().decode("ascii", "replace") if end else ""
