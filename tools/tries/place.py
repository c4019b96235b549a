"""Where an integration test runs: a fresh clone in a folder of its own, with a blank in its name, and ways to call its
scripts."""
from __future__ import annotations

import dataclasses
import errno
import fcntl
import os
import pathlib
import pty
import select
import shutil
import signal
import subprocess
import tempfile
import termios
import time
from collections.abc import Iterable, Sequence
from typing import Any, Callable, Optional, Union

from yotarimu.common.outcome import Refusal
from yotarimu.common.places import HOME
from yotarimu.programs.program import PROGRAM, SECOND_PROGRAM

# A word of a call; a path is one too.
Word = Union[str, "os.PathLike[str]"]
Ready = Callable[[bytes], bool]
# Keys, and what of a terminal's text has to hold before they are typed; None where nothing has to.
Typing = tuple[Optional[Ready], bytes]
NOBODY = 65534
# What the programs write to wrong arguments.
USAGES = (b"fault usage\n", b'{"fault":"usage"}\n')
# A call that lasts longer has failed, also on a machine that is at much other work.
MOST_SECONDS = 600
MOST_SECONDS_OF_ENDING = 60


class Failure(Exception):
    """An integration test went otherwise than its sentence says."""


class Omission(Exception):
    """An integration test needs something missing, which the text names."""


@dataclasses.dataclass
class Answer:
    """What a call left: its status, and what it wrote to standard output and to standard error."""
    status: int
    output: bytes
    errors: str

    def sentence(self, *parts: object, status: Optional[int] = None) -> None:
        """Holds the answer to be one sentence on standard error, with these parts, and a status: by default that of a
        tool that refuses, or of the program for wrong arguments."""
        if status is None:
            status = 1 if self.output in USAGES else 2
        expect(self.status == status, f"status {status}, and not {self.status}", self)
        lines = [line for line in self.errors.splitlines() if line.strip()]
        expect(len(lines) == 1, "one sentence on standard error", self)
        self.tells(*parts)

    def tells(self, *parts: object) -> None:
        """Holds these parts to stand on standard error, and no traceback."""
        expect("Traceback" not in self.errors, "no traceback", self)
        for part in parts:
            expect(str(part) in self.errors, f"`{part}` on standard error", self)


def expect(is_so: object, what: str, seen: object = None) -> None:
    """Holds what is seen to what is expected; raises Failure."""
    if not is_so:
        raise Failure(f"expected {what}" + (f"; seen {seen}" if seen is not None else ""))


def need_built(*programs: pathlib.Path) -> None:
    """Skips the integration test if a program isn't built."""
    if not all(program.exists() for program in programs):
        raise Omission("it wants the built program: ./fractal prove")


def need_command(*names: str) -> None:
    """Skips the integration test if a command isn't installed."""
    for name in names:
        if shutil.which(name) is None:
            raise Omission(f"it wants {name}")


def put_built(program: pathlib.Path, path: pathlib.Path) -> None:
    """Copies a built program to a path; skips the integration test if it is missing."""
    need_built(program)
    path.parent.mkdir(parents=True, exist_ok=True)
    shutil.copy(program, path)


def one_sentence_each(answers: Iterable[tuple[Answer, Iterable[object]]]) -> None:
    """Expects each answer to be one sentence with some parts."""
    for answer, parts in answers:
        answer.sentence(*parts)


def written_tree(folder: pathlib.Path) -> set[pathlib.Path]:
    """All files and folders below a folder, but those that git keeps for itself."""
    return {path for path in folder.rglob("*") if ".git" not in path.parts}


class Place:
    """A fresh clone, and a folder for temporary files that is to be empty in the end."""

    def __init__(self) -> None:
        self.root = pathlib.Path(tempfile.mkdtemp(prefix="tries "))
        self.root.chmod(0o755)
        self.clone = self.root / "a clone"
        self.temporary = self.root / "temporary"
        self.temporary.mkdir()
        self.temporary.chmod(0o777)
        (self.root / "cache").mkdir()
        (self.root / "cache").chmod(0o777)
        self.program = self.clone / PROGRAM.relative_to(HOME)
        self.second_program = self.clone / SECOND_PROGRAM.relative_to(HOME)
        self.environment = {**os.environ, "TMPDIR": str(self.temporary), "XDG_CACHE_HOME": str(self.root / "cache")}
        self.is_unwritable = False
        try:
            self.make_clone()
        except BaseException:
            self.remove()
            raise

    def make_clone(self) -> None:
        """Clones what is committed."""
        done = subprocess.run(["git", "clone", "-q", HOME, self.clone], stdin=subprocess.DEVNULL,
                              stderr=subprocess.PIPE, text=True, errors="replace")
        if done.returncode != 0:
            last = (done.stderr.strip().splitlines() or [f"git ended with status {done.returncode}"])[-1]
            raise Refusal(f"{HOME}: it can't be cloned: {last}")

    def remove(self) -> None:
        """Removes the clone with all around it."""
        if self.is_unwritable:
            subprocess.run(["chmod", "-R", "u+w", self.root], check=True)
        shutil.rmtree(self.root)

    def needs_program(self) -> None:
        """Puts the built program of the own clone into the fresh one."""
        put_built(PROGRAM, self.program)

    def needs_second_program(self) -> None:
        """Copies the built `fractal_watch` to its place; skips the integration test if it is missing."""
        put_built(SECOND_PROGRAM, self.second_program)

    def stub(self, path: Word, text: str) -> pathlib.Path:
        """Writes a script in a program's place."""
        path = pathlib.Path(path)
        path.parent.mkdir(parents=True, exist_ok=True)
        path.write_text("#!/bin/sh\n" + text)
        path.chmod(0o755)
        return path

    def stub_tool(self, name: str, text: str) -> None:
        """Puts a script of this name in front of the path."""
        folder = self.root / "stubs"
        self.stub(folder / name, text)
        if str(folder) not in self.environment["PATH"]:
            self.environment["PATH"] = f"{folder}:{self.environment['PATH']}"

    def without(self, *names: str) -> None:
        """Takes commands out of the path, by a folder of links to all others."""
        folder = self.root / f"path without {' '.join(names)}"
        folder.mkdir()
        for place in self.environment["PATH"].split(":"):
            for path in pathlib.Path(place).iterdir() if os.path.isdir(place) else ():
                link = folder / path.name
                if path.name not in names and not link.exists() and not link.is_symlink():
                    link.symlink_to(path)
        self.environment["PATH"] = str(folder)

    def nothing_answers(self) -> None:
        """Takes away all that answers where the program isn't built."""
        self.without("rt", "node", "nodejs", "deno")

    def make_unwritable(self) -> None:
        """Takes the right to write to the clone away; calls are made as nobody where root would keep it."""
        subprocess.run(["chmod", "-R", "a-w", self.clone], check=True)
        self.is_unwritable = True
        if os.getuid() == 0:
            self.environment["PATH"] = "/usr/local/bin:/usr/bin:/bin"
            self.environment["HOME"] = str(self.temporary)

    def user(self) -> dict[str, Any]:
        """Who calls: another user where the clone can't be written to, as root could."""
        if self.is_unwritable and os.getuid() == 0:
            return {"user": NOBODY, "group": NOBODY, "extra_groups": []}
        return {}

    def call(self, *words: Word, stdin: bytes = b"", cwd: Optional[Word] = None) -> Answer:
        """Calls a script of the clone, or a command, with no terminal."""
        try:
            done = subprocess.run([*self.command(words[0]), *map(str, words[1:])], input=stdin, capture_output=True,
                                  timeout=MOST_SECONDS, cwd=cwd or self.root, env=self.environment, **self.user())
        except subprocess.TimeoutExpired:
            raise Failure(f"expected an end of {words[0]} within {MOST_SECONDS} seconds") from None
        return Answer(done.returncode, done.stdout, done.stderr.decode("utf-8", "replace"))

    def command(self, word: Word) -> list[str]:
        """A call: `fractal build` and `bench/run` are the clone's; one that begins with a slash is itself."""
        if str(word).startswith("/"):
            return [str(word)]
        path, *further = str(word).split(" ")
        return [str(self.clone / path), *further]

    def by_shell(self, script: str, *words: Word) -> Answer:
        """Calls a script of the shell, in which `"$0"` is the launcher, and `"$1"` is the first of the words."""
        return self.call("/bin/sh", "-c", script, str(self.clone / "fractal"), *words)

    def interrupt(self, *words: Word, ready: Callable[[], object], number: int = signal.SIGINT,
                  cwd: Optional[Word] = None) -> Answer:
        """Calls a tool, and sends a signal to it and to all that it started, once `ready` holds; gives its answer."""
        process = subprocess.Popen([*self.command(words[0]), *map(str, words[1:])], stdin=subprocess.DEVNULL,
                                   stdout=subprocess.PIPE, stderr=subprocess.PIPE, cwd=cwd or self.root,
                                   env=self.environment, start_new_session=True)
        wait_for(lambda: process.poll() is not None or ready())
        if process.poll() is not None:
            raise Failure(f"expected {words[0]} to wait; it ended with {process.communicate()}")
        # A signal that comes right before a read is answered only once that read ends.
        time.sleep(0.3)
        os.killpg(process.pid, number)
        try:
            output, errors = process.communicate(timeout=MOST_SECONDS_OF_ENDING)
        except subprocess.TimeoutExpired:
            os.killpg(process.pid, signal.SIGKILL)
            process.communicate()
            raise Failure(f"expected an end of {words[0]} once it is interrupted") from None
        return Answer(process.returncode, output, errors.decode("utf-8", "replace"))

    def is_clean(self) -> None:
        """Holds that no temporary file is left, and that the clone has no file that git doesn't know."""
        expect(not any(self.temporary.iterdir()), "no temporary file", list(self.temporary.iterdir()))
        words = ["git", "-C", str(self.clone), "status", "--porcelain"]
        said = subprocess.run(words, capture_output=True, check=True).stdout
        expect(said == b"", "a clean clone", said)

    def on_terminal(self, *words: Word, stdin: Optional[bytes] = None, keys: bytes = b"", ready: Optional[Ready] = None,
                    then: Sequence[Typing] = ()) -> Answer:
        """Calls a script with a terminal as standard error, and as standard input too unless bytes are given for it.

        Once `ready`, of what stood on the terminal so far, holds, the keys are typed; then others, each pair of a
        condition and keys in turn.
        """
        master, terminal = pty.openpty()
        own_input, given = terminal, None
        if stdin is not None:
            own_input, given = os.pipe()
        process = subprocess.Popen([*self.command(words[0]), *map(str, words[1:])], stdin=own_input,
                                   stdout=subprocess.PIPE, stderr=terminal, cwd=self.root, env=self.environment,
                                   start_new_session=True,
                                   preexec_fn=lambda: fcntl.ioctl(2, termios.TIOCSCTTY, 0))
        os.close(terminal)
        if given is not None and stdin is not None:
            os.close(own_input)
            os.write(given, stdin)
            os.close(given)
        shown, output = follow_terminal(process, master, [(ready, keys), *then])
        os.close(master)
        return Answer(process.wait(MOST_SECONDS), output, shown.decode("utf-8", "replace"))


def follow_terminal(process: subprocess.Popen[bytes], master: int, typed: list[Typing]) -> tuple[bytes, bytes]:
    """All that is shown on a terminal, and all that goes to standard output."""
    shown, output, end = b"", b"", time.monotonic() + MOST_SECONDS
    assert process.stdout is not None
    sources = [master, process.stdout.fileno()]
    while sources:
        expect(time.monotonic() < end, "an end of the call", shown)
        if typed and (typed[0][0] is None or typed[0][0](shown)):
            os.write(master, typed.pop(0)[1])
        for source in select.select(sources, [], [], 0.1)[0]:
            data = read_some(source)
            if not data:
                sources.remove(source)
            elif source == master:
                shown += data
            else:
                output += data
    return shown, output


def read_some(source: int) -> bytes:
    """Reads what has come; nothing at the end."""
    try:
        return os.read(source, 65536)
    except OSError as error:
        # So the end of a terminal is told.
        if error.errno != errno.EIO:
            raise
        return b""


def wait_for(ready: Callable[[], object]) -> None:
    """Waits until something holds; fails where that takes too long."""
    end = time.monotonic() + MOST_SECONDS
    while not ready():
        expect(time.monotonic() < end, "that the call comes so far")
        time.sleep(0.05)
