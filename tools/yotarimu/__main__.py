"""Calls a command of the package, as `./fractal COMMAND` does: `yotarimu [--home FOLDER] COMMAND [ARGUMENT]...`."""
from __future__ import annotations

import contextlib
import importlib
import io
import os
import sys
from typing import Callable, List, Optional, Tuple

from yotarimu.common.outcome import Main, Refusal, run_script
from yotarimu.common.pages import FOLDERS, command_names, declared_in, page_of
from yotarimu.common.text import likely

NAME, HOME_OPTION, OUTPUT = "yotarimu", "--home", "output"
HELP = """usage: yotarimu [--home FOLDER] COMMAND [ARGUMENT]... [--output FILE]

FOLDER is a clone or an archive of the repository, which has the programs; YOTARIMU_HOME may name it too.
yotarimu COMMAND --help describes a COMMAND, which is one of these:

"""


def main() -> None:
    """Answers a call of the installed command."""
    words = sys.argv[1:]
    if words[:1] == [HOME_OPTION] and len(words) > 1:
        os.environ["YOTARIMU_HOME"] = words[1]
        words = words[2:]
    call(words)


def call(words: List[str]) -> None:
    """Runs the command that the first argument names on the others, and ends with its status."""
    if words and words[0] in FOLDERS and words[1:2] and words[1] in command_names(words[0]):
        words = [" ".join(words[:2]), *words[2:]]
    if words and (words[0] in command_names() or " " in words[0]):
        run_script(words[0].split()[-1], lambda further: answer_by(words[0], further), words[1:])
    run_script(NAME, answer_alone, words)


def answer_by(name: str, words: List[str]) -> Optional[int]:
    """What a command makes of its arguments; `--help` or `-h` among them, or `help` alone, prints its page."""
    if "--help" in words or "-h" in words or words == ["help"]:
        print(page_of(name))
        return 0
    path = None
    if f"--{OUTPUT}" in words or any(word.startswith(f"--{OUTPUT}=") for word in words):
        path, words = output_in(name, words)
    command: Main = importlib.import_module(f"yotarimu.commands.{name.replace(' ', '.')}").main
    return command(words) if path is None else written_to(path, lambda: command(words))


def output_in(name: str, words: List[str]) -> Tuple[Optional[str], List[str]]:
    """The file that takes what a command would write to standard output, and its other arguments. A command that writes
    its own declares it."""
    from yotarimu.common.files import need_outputs
    from yotarimu.common.words import take_option
    if OUTPUT in declared_in(page_of(name)):
        return None, words
    path, words = take_option(words, OUTPUT)
    need_outputs([path], [word for word in words if os.path.isfile(word)])
    return path, words


def written_to(path: str, main_of: Callable[[], Optional[int]]) -> Optional[int]:
    """The status of a command whose output goes to a file, which is written whole once the command has ended."""
    from yotarimu.common.files import write_whole
    written = io.BytesIO()
    with io.TextIOWrapper(written, "utf-8", "backslashreplace", "\n", write_through=True) as text:
        with contextlib.redirect_stdout(text):
            status = main_of()
        write_whole({path: written.getvalue()})
    return status


def answer_alone(words: List[str]) -> int:
    """Prints the help, or refuses arguments that name no command."""
    if not words or words[0] in ("--help", "-h", "help"):
        print(f"{HELP}{', '.join(command_names())}")
        return 0
    raise Refusal(f"unknown command {words[0]}{likely(words[0], command_names())}")


if __name__ == "__main__":
    main()
