"""Event logs as `fractal_watch` prints them, put together line by line for integration tests."""
from __future__ import annotations

import json
from typing import Any, Dict, List, Optional, Sequence, Tuple

DATA = 0x10000000
HEAD = {"watch": 1, "course": "steps", "tiles": 2, "cores": 2, "task_queue": 256, "commit_queue": 64, "line": 16,
        "quantum": 64, "commits": 1_000_000, "budget": 65_536, "phase": 1_000_000, "filter": "modulo",
        "root": "ordered", "text": 20, "data": 32_768, "window": [0, 0], "tasks": 1}
# Where the line 2,201 stands, where lines have 16 bytes.
JOINT = 2_201 * 16


class Words:
    """The words of the data, all 0 at first, with what each task stored and has not aborted."""

    def __init__(self) -> None:
        self.words: Dict[int, int] = {}
        self.stores: List[Tuple[int, int, int]] = []

    def at(self, offset: int) -> int:
        """The word at an offset of the data."""
        return self.words.get(offset, 0)

    def store(self, task: int, offset: int, value: int) -> None:
        """Stores a word, for a task."""
        self.stores.append((task, offset, self.at(offset)))
        self.words[offset] = value

    def take_back(self, tasks: Sequence[int]) -> None:
        """Undoes what some tasks stored, the latest first."""
        for task, offset, old in reversed(self.stores):
            if task in tasks:
                self.words[offset] = old
        self.stores = [store for store in self.stores if store[0] not in tasks]


class LinesText:
    """An event log as `fractal_watch` prints it. Loads and stores are of words, and each store is of 9 by default. The
    image has the tasks of each tile at places that lead there, since a task's place is its hint."""

    def __init__(self, timestamps: Sequence[int], where: Sequence[int], **settings: Any) -> None:
        self.lines: List[Dict[str, Any]] = [{**HEAD, **settings, "tasks": len(where)}]
        self.acts = self.events = self.commits = 0
        self.memory = Words()
        tiles = self.lines[0]["tiles"]
        for task in sorted(range(len(where)), key=lambda task: where[task]):
            place = where[task] + tiles * where[:task].count(where[task])
            self.lines.append({"at": 0, "do": "place", "tile": where[task], "new": task, "name": [0, place],
                               "entry": 65_536, "ts": timestamps[task], "args": [0, 0, 0], "hint": place})

    def act(self, word: str, change: Optional[Dict[str, Any]] = None, reply: str = "ok", **fields: Any) -> None:
        """An act: what stands before its reply, and what its event changed."""
        self.acts += 1
        self.events += reply == "ok" and word != "take"
        self.lines.append({"at": self.acts, "do": word, **fields, "reply": reply, "n": self.events, **(change or {})})

    def dispatch(self, task: int, tile: int, core: int, number: int) -> None:
        """Adds a dispatch."""
        self.act("dispatch", {"core": core, "number": number}, tile=tile, task=task)

    def step(self, task: int, tile: int, core: int, leg: int, asks: str, change: Optional[Dict[str, Any]] = None,
             reply: str = "ok", **more: Any) -> None:
        """Adds a step, with what it asks for."""
        self.act("step", change, reply, tile=tile, core=core, task=task, leg=leg, pc=65_540, asks=asks, **more)

    def load(self, task: int, tile: int, core: int, leg: int, offset: int) -> None:
        """Adds a step that loads a word."""
        old = self.memory.at(offset)
        self.step(task, tile, core, leg, "load", {"old": old}, addr=DATA + offset, bytes=4)

    def store(self, task: int, tile: int, core: int, leg: int, offset: int, back: Sequence[Sequence[int]] = (),
              gone: Sequence[int] = (), value: int = 9) -> None:
        """Adds a step that stores a word, and aborts the tasks in `back`."""
        self.memory.take_back([row[0] for row in back])
        change = {"aborted": len(back), "back": back, "gone": gone, "old": self.memory.at(offset)}
        change = {name: it for name, it in change.items() if it or name == "old"}
        self.step(task, tile, core, leg, "store", change, addr=DATA + offset, bytes=4, value=value)
        self.memory.store(task, offset, value)

    def enqueue(self, task: int, tile: int, core: int, leg: int, new: Optional[int], reply: str = "ok",
                **change: Any) -> None:
        """Adds a step that makes a child."""
        told = {**change, "new": new, "in": tile} if reply == "ok" else None
        self.step(task, tile, core, leg, "enqueue", told, reply, to="same", entry=65_536, ts=9, args=[0, 0, 0], hint=0)

    def finish(self, task: int, tile: int, core: int, leg: int) -> None:
        """Adds the last step of a task."""
        self.step(task, tile, core, leg, "end")

    def commit(self, task: int, name: Sequence[int], timestamp: int) -> None:
        """Adds a commit."""
        self.commits += 1
        self.act("commit", {"name": name, "depth": 1, "ts": timestamp}, task=task)
        self.memory.stores = [store for store in self.memory.stores if store[0] != task]

    def end(self, end: str = "open") -> bytes:
        """Adds the last line, and gives the whole text."""
        self.lines.append({"end": end, "n": self.events, "journal": self.commits, "output": "", "window": []})
        return self.text()

    def text(self) -> bytes:
        """The text so far."""
        return b"".join(json.dumps(line, separators=(",", ":")).encode() + b"\n" for line in self.lines)


def joint_lines(kind: str) -> bytes:
    """Lines on three tasks, the last of which loads 200 lines, whose bits are also those of the line 2,201 in a filter
    of the kind `bloom`. The second stores there and is aborted; then the first stores there."""
    told = LinesText([1, 5, 6], [0, 1, 0], filter=kind, data=65_536)
    for number, (task, tile, core) in enumerate(((0, 0, 0), (1, 1, 0), (2, 0, 1))):
        told.dispatch(task, tile, core, number)
    told.load(1, 1, 0, 0, 3_000 * 16)
    told.store(1, 1, 0, 0, JOINT)
    for place in range(200):
        told.load(2, 0, 1, 0, 7 * place * 16)
    told.store(0, 0, 0, 0, 3_000 * 16, [[2, 200], [1, 2]])
    told.dispatch(2, 0, 1, 3)
    for place in range(200):
        told.load(2, 0, 1, 0, 7 * place * 16)
    told.store(0, 0, 0, 0, JOINT, [[2, 200]])
    return told.end()
