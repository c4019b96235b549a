"""Debugs a run with gdb, forwards and backwards: breakpoints, steps, variables, watchpoints, tasks as threads.

usage: ./fractal debug IMAGE [REPORT | LINES] [--gdb PROGRAM | --port N | --pipe] [--elf FILE]
                       [--gcc PATH] [--clang PATH]

LINES is an event log of `./fractal watch`: each dispatch is a thread, also of tasks that are aborted, and each leg is
checked against its line. REPORT is what `run` or `steps` wrote: the tasks run whole, in its order. If neither is named,
the image is run by `./fractal watch least`. The sources beside the image are compiled again, with what gdb needs, and
refused if they make another image.

  --gdb PROGRAM      starts this gdb, in place of gdb-multiarch or riscv64-unknown-elf-gdb
  --port N           waits for a gdb at this port of this machine; 0 takes a free one, and prints it (0 to 65,535)
  --pipe             serves over standard input and output: `target remote | ./fractal debug IMAGE LINES --pipe`
  --elf FILE         writes the linked file, which a gdb that isn't started here wants to read
  --gcc PATH         the compiler that made the image, if it isn't the one in the path
  --clang PATH       the same for clang

Besides gdb's own commands, `goto 3.1` goes to a task's start and `goto e17` to an event, `writes distance[3]` lists all
stores to a word, and `monitor help` the other commands.
"""
from __future__ import annotations

import contextlib
import gc
import pathlib
import tempfile
from typing import Iterator, Optional, Sequence

from yotarimu.common.files import need_outputs, read_bytes, write_whole
from yotarimu.common.outcome import Refusal, note
from yotarimu.common.words import Words, need_number
from yotarimu.courses.schedules import read_replies
from yotarimu.debugger import connections
from yotarimu.debugger.lines_track import LinesTrack
from yotarimu.debugger.linked_file import LinkedFile, linked_file_for, source_folder
from yotarimu.debugger.report_track import ReportTrack
from yotarimu.debugger.track import Track
from yotarimu.images.compiler import Compilers
from yotarimu.images.compiler_options import take_compilers
from yotarimu.images.image import Image, read_image
from yotarimu.images.labels import listing_for
from yotarimu.images.listing import Listing
from yotarimu.programs.calls import calls_at
from yotarimu.programs.program import SECOND
from yotarimu.programs.table import why_no_answer
from yotarimu.reports.report import read_report

NAME = "debug"
MOST_PORT = 65_535
HEAD_OF_LINES = b'{"watch":'
FAULT_OF_LINES = b'{"fault":'
# The statuses with which the second program tells a whole run: its end, a trap, and its limit.
WHOLE = (0, 3, 4)


def linked_beside(path: str, image: Image, how: Compilers) -> tuple[Optional[LinkedFile], Listing]:
    """The linked file of the sources beside an image, and a listing. Without sources gdb shows addresses alone."""
    folder = source_folder(pathlib.Path(path))
    if folder is None:
        note(f"no sources are beside {path}, so gdb shows instructions and addresses alone.")
        return None, listing_for(path, image, None)[0]
    linked = linked_file_for(image, folder, how)
    return linked, linked.listing


def track_of(image: Image, path: str, listing: Listing) -> Track:
    """The track of a report or of lines, whichever the text is."""
    if path == "-":
        raise Refusal("a REPORT or LINES has to be a file, since standard input is gdb's.")
    with open(path, "rb") as file:
        start = file.read(len(HEAD_OF_LINES))
    if start in (HEAD_OF_LINES, FAULT_OF_LINES):
        return LinesTrack(image, path, listing)
    text = read_bytes(path).decode("ascii", "replace")
    return ReportTrack(image, read_report(text, path, len(read_replies(text))), listing)


def track_of_run(image: Image, path: str, listing: Listing) -> Track:
    """The track of the image's run, in which the least task is advanced."""
    status, lines = calls_at(which=SECOND).call(["least"], read_bytes(path))
    if not lines:
        raise Refusal(why_no_answer(status))
    if status not in WHOLE:
        raise Refusal(f"{path}: fractal_watch printed no whole run, but ended with status {status}.")
    with tempfile.NamedTemporaryFile(prefix="lines-") as file:
        file.write(lines)
        file.flush()
        return LinesTrack(image, file.name, listing)


@contextlib.contextmanager
def nothing_collected() -> Iterator[None]:
    """While a track is made nothing of it is garbage, and looking for some would take a third of the time."""
    gc.disable()
    try:
        yield
    finally:
        gc.freeze()
        gc.enable()


@contextlib.contextmanager
def file_of(linked: Optional[LinkedFile], path: Optional[str]) -> Iterator[Optional[pathlib.Path]]:
    """A linked file as a file: the one that is asked for, or one that is gone afterwards."""
    if linked is None:
        yield None
    elif path is not None:
        write_whole({pathlib.Path(path): linked.data})
        yield pathlib.Path(path)
    else:
        with tempfile.NamedTemporaryFile(prefix="task-", suffix=".elf") as file:
            file.write(linked.data)
            file.flush()
            yield pathlib.Path(file.name)


def serve(track: Track, linked: Optional[LinkedFile], gdb: Optional[str], port: Optional[str], is_pipe: bool,
          path: Optional[str]) -> int:
    """Serves a track in the way that was asked for, and gives the status."""
    if linked is not None and path is not None and (is_pipe or port is not None):
        write_whole({pathlib.Path(path): linked.data})
    if is_pipe:
        connections.serve_pipe(track)
        return 0
    if port is not None:
        with connections.listening_at(need_number("--port", port, 0, MOST_PORT)) as listening:
            print(f"listening at port {listening.getsockname()[1]}", flush=True)
            connections.serve_port(track, listening)
        return 0
    with file_of(linked, path) as file:
        return connections.serve_gdb(track, connections.find_gdb(gdb), file)


def main(words: Sequence[str]) -> int:
    """Does what the words of the call ask for, and gives the status."""
    how, words = take_compilers(words, lambda _: False)
    given = Words(NAME, page=__doc__).read(words)
    gdb, port, path = (given.values[name] for name in ("gdb", "port", "elf"))
    is_pipe = "pipe" in given.flags
    if (gdb is not None) + (port is not None) + is_pipe > 1:
        raise Refusal("--gdb, --port and --pipe are three ways, and one of them is taken.")
    image_path, *more = given.need("an IMAGE, and perhaps a REPORT or LINES", 1, 2)
    need_outputs([path], [image_path, *more])
    if port is None and not is_pipe:
        connections.find_gdb(gdb)
    image = read_image(read_bytes(image_path), image_path)
    linked, listing = linked_beside(image_path, image, how)
    with nothing_collected():
        track = track_of(image, more[0], listing) if more else track_of_run(image, image_path, listing)
    return serve(track, linked, gdb, port, is_pipe, path)
