"""Serving a track: to a gdb that is started here, at a port, or over a pipe."""
from __future__ import annotations

import contextlib
import os
import pathlib
import shutil
import signal
import socket
import subprocess
import tempfile
from typing import Iterator, Optional

from yotarimu.common.outcome import Refusal
from yotarimu.debugger.packets import Connection
from yotarimu.debugger.server import Server
from yotarimu.debugger.track import Track

# The programs that debug RISC-V, the more usual first.
GDBS = ("gdb-multiarch", "riscv64-unknown-elf-gdb", "riscv32-unknown-elf-gdb")
WORDS = pathlib.Path(__file__).with_name("words.gdb")
# gdb gives up an answer after two seconds otherwise.
MOST_SECONDS = 600
HOST = "127.0.0.1"
# So often it is looked whether a gdb that was started is there still.
SECONDS_BETWEEN = 0.2
# As shells tell it, the status of what a signal ended is this and the signal's number.
SIGNALLED = 128


def find_gdb(named: Optional[str]) -> str:
    """The gdb that is named, or the first that is installed."""
    names = [named] if named else list(GDBS)
    for name in names:
        if path := shutil.which(name):
            return path
    if named:
        raise Refusal(f"{named}: no such program.")
    raise Refusal(f"no gdb for RISC-V is in the path: {' or '.join(GDBS[:2])} is wanted (Debian's package "
                  "gdb-multiarch has it); --port and --pipe serve one that is elsewhere.")


@contextlib.contextmanager
def interrupts_passed() -> Iterator[None]:
    """Leaves interrupts at the terminal to gdb, which reports them over the connection."""
    before = signal.signal(signal.SIGINT, passed_over)
    try:
        yield
    finally:
        signal.signal(signal.SIGINT, before)


def passed_over(_number: int, _frame: object) -> None:
    """A handler of its own, since a signal that is ignored stays so in what is started."""


def serve_gdb(track: Track, gdb: str, linked: Optional[pathlib.Path]) -> int:
    """Starts gdb on the track, and ends with its status."""
    with tempfile.TemporaryDirectory(prefix="debug-") as folder, interrupts_passed():
        place = pathlib.Path(folder, "gdb")
        with socket.socket(socket.AF_UNIX, socket.SOCK_STREAM) as listening:
            listening.bind(str(place))
            listening.listen(1)
            words = [gdb, "-q", "-iex", f"set remotetimeout {MOST_SECONDS}", "-iex", "set architecture riscv:rv32",
                     "-ex", f"target remote {place}", "-x", str(WORDS), *([str(linked)] if linked else [])]
            process = subprocess.Popen(words)
            try:
                serve_started(track, listening, process)
                status = process.wait()
                return status if status >= 0 else SIGNALLED - status
            finally:
                end(process)


def serve_started(track: Track, listening: socket.socket, process: subprocess.Popen[bytes]) -> None:
    """Serves each connection of a gdb that was started, one after another, as long as it runs."""
    listening.settimeout(SECONDS_BETWEEN)
    while process.poll() is None:
        try:
            one = listening.accept()[0]
        except socket.timeout:
            continue
        with one:
            one.setblocking(True)
            Server(track, Connection(one.fileno(), one.fileno())).serve()


def end(process: subprocess.Popen[bytes]) -> None:
    """Asks a process to end, where it still runs, and waits for it."""
    if process.poll() is None:
        process.terminate()
        process.wait()


def serve_port(track: Track, listening: socket.socket) -> None:
    """Serves one gdb that connects; a connection that isn't gdb's is closed."""
    was_gdb = False
    while not was_gdb:
        with listening.accept()[0] as one:
            was_gdb = Server(track, Connection(one.fileno(), one.fileno())).serve()


def listening_at(port: int) -> socket.socket:
    """A socket at a port of this machine alone; at 0 the system chooses one."""
    try:
        return socket.create_server((HOST, port))
    except OSError as error:
        raise Refusal(f"port {port}: {(error.strerror or str(error)).lower()}.") from None


def serve_pipe(track: Track) -> None:
    """Serves over standard input and output."""
    with interrupts_passed():
        # What is printed by mistake isn't a part of the protocol.
        output = os.dup(1)
        os.dup2(2, 1)
        Server(track, Connection(0, output)).serve()
