"""Tries of an interrupt: each tool says so in a sentence, and leaves nothing, whatever it was at."""
from __future__ import annotations

import contextlib
import os
import signal
import subprocess
import time
from collections.abc import Sequence

from tries.files import files_of
from tries.place import Place, expect, written_tree

# A program that notes that it was started, and goes on until it is ended.
ENDLESS = "touch '{}'; exec sleep 100\n"
# Calls that wait for a file, here a pipe to which nobody writes: of a file that is read whole, and line by line.
READERS = (("explain", "PIPE", "report"), ("figures", "PIPE", "--plot", "plot.svg"))
# Calls that wait for the program: one call, in threads, in processes, piece by piece, and from a console.
CALLERS = (
    ("test", "hello"), ("sweep", "image", "--budget", "1,2", "--output", "x.csv", "--plot", "seconds,budget,x.svg"),
    ("study", "image", "--csv", "x.csv"), ("resume", "image", "pieces", "--every", "2"), ("console", "image"),
)
# Tools that wait for nobody.
WRITERS = (("generate", "walk", "7", "20000"), ("shell", "man"))


def words_of(place: Place, words: Sequence[str]) -> list[str]:
    """The words of a call, with files of the clone in place of their names."""
    image, report = files_of(place, "pipeline")
    names = {"PIPE": str(place.root / "a pipe"), "image": image, "report": report}
    return [f"fractal {words[0]}", *(names.get(word, word) for word in words[1:])]


def readers_are_interrupted(place: Place) -> None:
    """a tool that is interrupted while it reads says so, and writes nothing"""
    for program in (place.program, place.second_program):
        place.stub(program, "exit 3\n")
    before = written_tree(place.root)
    for words in READERS:
        pipe = place.root / "a pipe"
        os.mkfifo(pipe)
        with contextlib.ExitStack() as opened:
            def ready() -> bool:
                with contextlib.suppress(OSError):
                    opened.callback(os.close, os.open(pipe, os.O_WRONLY | os.O_NONBLOCK))
                    return True
                return False

            for number in (signal.SIGINT, signal.SIGTERM):
                answer = place.interrupt(*words_of(place, words), ready=ready, number=number)
                answer.sentence(f"{words[0].split()[-1]}: interrupted.", status=128 + number)
                expect(answer.output == b"", "nothing written", answer)
        pipe.unlink()
    # A script comes with the image on standard input alone.
    os.mkfifo(place.root / "a pipe")
    mark = place.root / "mark"
    script = 'touch "$2"; exec "$0" dev refusal "fault script 1" steps <>"$1"'

    def has_begun() -> bool:
        time.sleep(1)
        return mark.exists()

    answer = place.interrupt("/bin/sh", "-c", script, str(place.clone / "fractal"),
                             str(place.root / "a pipe"), str(mark), ready=has_begun)
    answer.sentence("refusal: interrupted.", status=130)
    (place.root / "a pipe").unlink()
    mark.unlink()
    expect(written_tree(place.root) == before, "no file", written_tree(place.root) - before)
    place.is_clean()


def callers_are_interrupted(place: Place) -> None:
    """a tool that is interrupted while the program runs says so, ends it, and leaves nothing"""
    mark = place.root / "mark"
    for program in (place.program, place.second_program):
        place.stub(program, ENDLESS.format(mark))
    before = written_tree(place.root)
    for words in CALLERS:
        answer = place.interrupt(*words_of(place, words), ready=mark.exists)
        answer.sentence(f"{words[0].split()[-1]}: interrupted.", status=130)
        mark.unlink()
        pieces = place.root / "pieces"
        left = {path for path in written_tree(place.root) - before if pieces not in (path, *path.parents)}
        expect(not left, "no file", left)
    place.is_clean()


def early_interrupts_are_borne(place: Place) -> None:
    """an interrupt at any moment of a script's start leaves no traceback"""
    for words in WRITERS:
        command = [*place.command(f"fractal {words[0]}"), *words[1:]]
        for hundredths in range(0, 60, 4):
            process = subprocess.Popen(command, stdout=subprocess.DEVNULL, stderr=subprocess.PIPE, text=True,
                                       start_new_session=True, env=place.environment)
            time.sleep(hundredths / 100)
            os.killpg(process.pid, signal.SIGINT)
            errors = process.communicate(timeout=60)[1]
            told = f"{words[0]} at {hundredths} hundredths of a second"
            expect(process.returncode in (0, 130, -signal.SIGINT), f"an end of {told}", process.returncode)
            expect(errors in ("", f"{words[0]}: interrupted.\n"), f"one sentence or none of {told}", errors)


TRIES = (readers_are_interrupted, callers_are_interrupted, early_interrupts_are_borne)
