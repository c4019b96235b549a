"""A console: plays each act that is typed and shows the result; commands undo acts, save them, or show them."""
from __future__ import annotations

import io
import pathlib
import shlex
import sys
import tempfile
from collections.abc import Iterable, Iterator, Sequence
from typing import Callable, Optional

from yotarimu.common.acts import ACTS, form_of
from yotarimu.common.files import encode, need_outputs, need_writable, write_whole
from yotarimu.common.outcome import Refusal, say, error_text
from yotarimu.common.sentences import SENTENCES, fill
from yotarimu.common.text import count_text
from yotarimu.common.words import need_number
from yotarimu.courses.growth import Performance, Schedule
from yotarimu.images.listing import NO_LISTING
from yotarimu.lines.orders import order_told, task_of_label, task_told
from yotarimu.lines.replay import Machine, Task
from yotarimu.pictures.page import page_of
from yotarimu.programs.table import option_words
from yotarimu.reports.refusals import script_fault

NAME = "console"
PROMPT = "> "
PAGE_START = b"<!doctype html>"
MOST_TYPED = 1_000
# So many acts `advance` may be asked for at once.
MOST_RUN = 10_000


class Console:
    """What is typed, line by line."""

    def __init__(self, schedule: Schedule, acts: Sequence[str], usage: str, script: Optional[str] = None) -> None:
        self.schedule, self.usage = schedule, usage
        # What the acts are called: the script that they began with, or were written to.
        self.name = name_of(schedule.path if script is None else pathlib.Path(script))
        self.is_saved, self.is_refused, self.is_left = True, False, False
        self.performance = schedule.play(acts)
        self.words: dict[str, Callable[[Sequence[str]], None]] = {
            "undo": self.undo, "run": self.run, "show": self.show, "script": self.script, "save": self.save,
            "save!": self.save_over, "open": self.open, "order": self.order, "help": self.help, "quit": self.quit}

    @property
    def acts(self) -> list[str]:
        """The acts so far."""
        return self.performance.acts

    def follow(self, typed: Iterable[str]) -> None:
        """Answers each line that is typed. For one that can't be done it prints why, and changes nothing."""
        for line in typed:
            words = line.partition("#")[0].split()
            if not words:
                continue
            try:
                self.answer(*words)
            except BrokenPipeError:
                raise
            except (Refusal, OSError) as error:
                say(NAME, error_text(error) if isinstance(error, OSError) else error)
                self.is_refused = True
            if self.is_left:
                break

    def answer(self, word: str, *rest: str) -> None:
        """Answers a line: by a word of the console, or by an act that is played; refuses others."""
        if word in self.words:
            self.words[word](list(rest))
            return
        if word not in ACTS:
            raise Refusal(f"`{word[:40]}` isn't an act or a command of the console; `help` lists them.")
        act = " ".join((word, *rest))
        fault = script_fault(act.encode("utf-8", "replace"), self.schedule.tiles, self.schedule.cores)
        if fault:
            raise Refusal(f"`{act[:40]}`: {fault}.")
        self.add([act])

    def add(self, acts: Sequence[str]) -> None:
        """Plays further acts, and shows what they did."""
        self.tell(self.schedule.play([*self.acts, *acts], len(self.acts)))

    def tell(self, performance: Performance) -> None:
        """Shows the result of acts, which are the console's from then on."""
        self.performance, self.is_saved = performance, not performance.acts
        write([*performance.text_lines(), ""])

    # ---- words of the console

    def undo(self, words: Sequence[str]) -> None:
        """Undoes the last act, or as many as are given."""
        count = number_behind("undo", words, len(self.acts), 1) if self.acts else 0
        if not count:
            raise Refusal("no act is left to undo.")
        self.tell(self.schedule.play(self.acts[:-count]))

    def run(self, words: Sequence[str]) -> None:
        """Advances the least task so many times, or up to the end of the run."""
        count = number_behind("run", words, MOST_RUN, None)
        before = len(self.acts)
        performance = self.schedule.play([*self.acts, *["advance"] * count], before)
        if "ended" in performance.replies[before:]:
            done = performance.replies.index("ended", before)
            if done == before:
                raise Refusal("the run is over, so no event is left.")
            performance = self.schedule.play(performance.acts[:done], before)
        self.tell(performance)

    def show(self, words: Sequence[str]) -> None:
        """Shows the machine once more."""
        need_none("show", words)
        write([*self.schedule.play(self.acts).text_lines(), ""])

    def order(self, words: Sequence[str]) -> None:
        """Says which of two tasks comes first, and why; of one it says what it is."""
        if not 1 <= len(words) <= 2:
            raise Refusal("`order` takes the labels of two tasks, as in: order 0.1 0.0+2")
        machine, listing = self.performance.machine, self.schedule.listing
        tasks = [need_task(word, machine) for word in words]
        write([*(task_told(task, listing) for task in tasks), *([order_told(tasks[0], tasks[1], machine)] if
                                                                len(tasks) == 2 else []), ""])

    def script(self, words: Sequence[str]) -> None:
        """Lists all acts with their replies."""
        need_none("script", words)
        write(f"{number:>5}  {act:<14}  {reply}"
              for number, (act, reply) in enumerate(zip(self.acts, self.performance.replies), 1))

    def save(self, words: Sequence[str]) -> None:
        """Writes the acts to a new file."""
        path = file_behind("save", words)
        if pathlib.Path(path).exists():
            raise Refusal(f"{path}: this is there already; `save! {path}` replaces it.")
        self.write_script(path)

    def save_over(self, words: Sequence[str]) -> None:
        """Writes the acts to a file, in place of what it has."""
        self.write_script(file_behind("save!", words))

    def write_script(self, path: str) -> None:
        """Writes the acts to a file, and prints the command that plays them."""
        need_outputs([path], [self.schedule.path])
        write_whole({path: "".join(f"{act}\n" for act in self.acts).encode()})
        self.is_saved, self.name = True, name_of(pathlib.Path(path))
        write([f"{path} has {count_text(len(self.acts), 'act')}; this plays them:", self.call_told(path)])

    def call_told(self, path: str) -> str:
        """The command that plays a script; an option of `watch` alone needs `fractal_watch`."""
        script, image = shlex.quote(path), shlex.quote(str(self.schedule.path))
        options = "".join(f" {word}" for word in option_words(self.schedule.options))
        if self.schedule.is_of_both:
            return f"./fractal play {script} --image {image}{options}"
        return f"cat {image} {script} | ./fractal watch steps{options}"

    def open(self, words: Sequence[str]) -> None:
        """Writes a page of the run, and opens it in a browser."""
        path = pathlib.Path(file_behind("open", words) if words else new_page())
        need_writable(path)
        need_page(path)
        has_labels = self.schedule.listing is not NO_LISTING
        with tempfile.NamedTemporaryFile(prefix="lines-") as lines:
            lines.write(self.performance.lines)
            lines.flush()
            listing = pathlib.Path(self.schedule.path).parent / "listing" if has_labels else None
            page = encode(page_of(lines.name, listing, name=self.name))
        write_whole({path: page})
        write([f"The page is {path}; a browser shows this act at {path.resolve().as_uri()}#{len(self.acts)}"])

    def help(self, words: Sequence[str]) -> None:
        """Lists the acts, and the commands of the console."""
        need_none("help", words)
        acts = ", ".join(map(form_of, ACTS))
        write([f"Acts, with a tile T and a core C: {acts}.", "", self.usage])

    def quit(self, words: Sequence[str]) -> None:
        """Ends the console."""
        need_none("quit", words)
        self.is_left = True

    def tell_unsaved(self) -> None:
        """Loses nothing: acts that weren't saved are written once more, as a script has them."""
        if not self.is_saved:
            write(["These acts weren't saved:", *self.acts])


def write(lines: Iterable[str]) -> None:
    """Writes lines at once."""
    print(*lines, sep="\n", flush=True)


def number_behind(word: str, words: Sequence[str], most: int, default: Optional[int]) -> int:
    """The number given with a command, or the default."""
    if not words and default is not None:
        return default
    if len(words) != 1:
        raise Refusal(f"`{word}` takes one number.")
    return need_number(f"`{word}`", words[0], 1, most)


def file_behind(word: str, words: Sequence[str]) -> str:
    """The one file that a word takes; refuses any other words."""
    if len(words) != 1:
        raise Refusal(f"`{word}` takes one FILE, without blanks in its name.")
    if "\0" in words[0]:
        raise Refusal(f"`{word}`: no file has a byte 0 in its name.")
    return words[0]


def name_of(path: pathlib.Path) -> str:
    """What a script or an image is called: its name within its folder."""
    whole = path.absolute()
    return f"{whole.parent.name}/{whole.name}" if whole.parent.name else whole.name


def need_task(label: str, machine: Machine) -> Task:
    """The uncommitted task that is called so."""
    task = task_of_label(label, machine)
    if task is None:
        raise Refusal(fill(SENTENCES["order"]["none"], task=f"`{label[:40]}`").removesuffix(".") + ".")
    return task


def need_none(word: str, words: Sequence[str]) -> None:
    """Refuses words behind one that takes none."""
    if words:
        raise Refusal(f"`{word}` takes no argument.")


def new_page() -> pathlib.Path:
    """Where a page goes that no file was named for."""
    return pathlib.Path(tempfile.mkdtemp(prefix="console-")) / "page.html"


def need_page(path: pathlib.Path) -> None:
    """Refuses an existing file that isn't a page, since it would be lost."""
    if path.is_file():
        with open(path, "rb") as file:
            if file.read(len(PAGE_START)) not in (PAGE_START, b""):
                raise Refusal(f"{path}: this is there already, and isn't a page.")


# ---- the input


def typed_lines() -> Iterator[str]:
    """The lines of standard input; with a prompt on a terminal."""
    if sys.stdin is None:
        raise Refusal("standard input is closed.")
    if sys.stdin.isatty():
        yield from prompted_lines()
        return
    while data := sys.stdin.buffer.readline(MOST_TYPED):
        if len(data) == MOST_TYPED and not data.endswith(b"\n"):
            raise Refusal(f"a line of the input has more than {MOST_TYPED:,} bytes.")
        yield data.decode("utf-8", "replace")


def prompted_lines() -> Iterator[str]:
    """Lines as they are typed behind a prompt, up to the end of the input."""
    try:
        # It is part of Python where its library is there, and lets a line be edited.
        import readline  # noqa: F401
    except ImportError:
        pass
    if isinstance(sys.stdin, io.TextIOWrapper):
        sys.stdin.reconfigure(errors="replace")
    while True:
        try:
            yield input(PROMPT)
        except EOFError:
            print()
            return
