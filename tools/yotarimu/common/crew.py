"""Shares work among several processes: yields progress and the result of each item as they arrive, and ends every
process."""
from __future__ import annotations

import signal
import sys
from collections.abc import Callable, Iterator, Sequence
from typing import TYPE_CHECKING, Any, NamedTuple

from yotarimu.common.outcome import Refusal, Interruption

if TYPE_CHECKING:
    from multiprocessing.connection import Connection

Tell = Callable[[Any], None]


class News(NamedTuple):
    """What a process sends about the item at a place: progress, or at last its result, or why there is none."""
    place: int
    is_last: bool
    what: Any


class Crew:
    """A number of processes, each working on one item: `work` takes the item, and a function that sends progress."""

    def __init__(self, work: Callable[[Any, Tell], Any], jobs: int) -> None:
        self.work, self.jobs = work, jobs
        self.running: dict[Connection, tuple[int, Any]] = {}

    def each(self, items: Sequence[Any]) -> Iterator[News]:
        """Yields what the processes send, as it arrives. All of them are ended when the caller leaves early, also by an
        interrupt. Raises the refusal of an item."""
        # What imports this often needs no process, and the module takes time to import.
        from multiprocessing.connection import wait
        waiting = list(enumerate(items))[::-1]
        try:
            while waiting or self.running:
                while waiting and len(self.running) < self.jobs:
                    self.start(*waiting.pop())
                for connection in wait(list(self.running)):
                    yield self.receive(connection)  # type: ignore[arg-type]
        finally:
            self.end()

    def start(self, place: int, item: Any) -> None:
        """Starts a process for the item at a place."""
        from multiprocessing import get_context
        # Each process begins with what this one knows.
        context = get_context("fork")
        mine, theirs = context.Pipe(duplex=False)
        process = context.Process(target=do, args=(self.work, item, theirs, [mine, *self.running]))
        process.start()
        theirs.close()
        self.running[mine] = place, process

    def receive(self, connection: Connection) -> News:
        """What a process sends next; refuses one that ended without a result."""
        place, process = self.running[connection]
        try:
            is_last, what = connection.recv()
        except EOFError:
            process.join()
            raise Refusal(f"a process ended with status {process.exitcode}, and reported nothing.") from None
        if is_last:
            del self.running[connection]
            connection.close()
            process.join()
        if isinstance(what, Refusal):
            raise what
        return News(place, is_last, what)

    def end(self) -> None:
        """Ends all processes that still run."""
        for _, process in self.running.values():
            process.terminate()
        for connection, (_, process) in self.running.items():
            process.join()
            connection.close()
        self.running.clear()


def do(work: Callable[[Any, Tell], Any], item: Any, connection: Connection, others: list[Connection]) -> None:
    """What a process does. Who started it is interrupted too, and then asks for its end."""
    for other in others:
        other.close()
    signal.signal(signal.SIGINT, signal.SIG_IGN)
    signal.signal(signal.SIGHUP, signal.SIG_IGN)
    try:
        try:
            connection.send((True, work(item, lambda news: connection.send((False, news)))))
        except (Refusal, MemoryError) as refused:
            connection.send((True, refused if isinstance(refused, Refusal) else Refusal("out of memory.")))
    except (Interruption, BrokenPipeError):
        sys.exit(1)
