"""How a command ends: with a status, with one sentence for whatever goes wrong, and at once where it is interrupted."""
from __future__ import annotations

import contextlib
import io
import os
import signal
import sys
import types
from typing import Callable, NoReturn, Optional, Union

from yotarimu.common.text import without_controls

# Of a command whose arguments or files don't serve; and of one that compared things which differ, where 0 is for equal.
REFUSED, DIFFERS = 2, 1
# As a shell tells that a signal ended a command: here the one for a reader that went away.
NO_READER = 128 + signal.SIGPIPE
SIGNALS = (signal.SIGINT, signal.SIGTERM, signal.SIGHUP)
# What is done with the words of a call; it may give back a status.
Main = Callable[[list[str]], Optional[int]]


class Refusal(Exception):
    """What was asked for can't be done. Its text is the sentence, or the few lines, for the person who asked."""


class Difference(Refusal):
    """A comparison failed: what was run isn't what it is to be."""


class Interruption(BaseException):
    """A signal asked for the end."""

    def __init__(self, number: int) -> None:
        super().__init__(number)
        self.number = number


def run_script(name: str, main: Main, words: Optional[list[str]] = None) -> NoReturn:
    """Runs `main` on the words, those of the call where none are given, and ends with its status, or with one sentence
    and a status other than 0."""
    try:
        for number in SIGNALS:
            signal.signal(number, stop)
        # tools/start holds an interrupt back until Python can answer it.
        signal.pthread_sigmask(signal.SIG_UNBLOCK, SIGNALS)
        status = answer(name, main, sys.argv[1:] if words is None else words)
        ignore_signals()
    except Interruption as stopped:
        say(name, "interrupted.")
        status = 128 + stopped.number
    end(status)


def answer(name: str, main: Main, words: list[str]) -> int:
    """The status of a command, whose refusal or fault is said in one sentence."""
    try:
        if sys.stdout is None:
            raise Refusal("standard output is closed.")
        if isinstance(sys.stdout, io.TextIOWrapper):
            sys.stdout.reconfigure(errors="backslashreplace")
        status = main(words) or 0
        sys.stdout.flush()
        return status
    except Refusal as refused:
        say(name, refused)
        return DIFFERS if isinstance(refused, Difference) else REFUSED
    except BrokenPipeError:
        # Whoever reads has enough, as `head` has, so nothing is said.
        return NO_READER
    except (OSError, MemoryError) as error:
        say(name, error_text(error))
    return REFUSED


def end(status: int) -> NoReturn:
    """Ends the script. What can't be written is dropped, since the interpreter would try, and complain, once more."""
    try:
        sys.stdout.flush()
    except (AttributeError, OSError):
        os.dup2(os.open(os.devnull, os.O_WRONLY), 1)
    sys.exit(status)


def stop(number: int, _frame: Optional[types.FrameType]) -> NoReturn:
    """Answers a signal: from then on others are ignored, and the command is interrupted."""
    ignore_signals()
    raise Interruption(number)


def ignore_signals() -> None:
    """Ignores each signal that asks for the end."""
    for number in SIGNALS:
        signal.signal(number, signal.SIG_IGN)


def say(name: str, sentence: object) -> None:
    """Says a sentence on the standard error, behind the name of who says it."""
    if sys.stderr is None:
        return
    # A line of progress may stand on a terminal.
    clear = "\r\x1b[K" if is_at_terminal() else ""
    with contextlib.suppress(OSError):
        # A sentence may cite what stands in a file.
        print(f"{clear}{name}: {without_controls(sentence)}", file=sys.stderr, flush=True)


def note(sentence: str) -> None:
    """Prints what may be wrong, and stops nothing."""
    say("note", sentence)


def error_text(error: Union[OSError, MemoryError]) -> str:
    """An error of the system as a sentence."""
    if isinstance(error, MemoryError):
        return "out of memory."
    place = f"{error.filename}: " if error.filename else ""
    return f"{place}{(error.strerror or str(error)).lower()}."


def is_at_terminal() -> bool:
    """Whether a terminal shows standard error."""
    return sys.stderr is not None and sys.stderr.isatty()
