"""The machine after each line of an event log, built from the log alone.

`lines.reader` hands each line to `Machine.follow`. Its memory doesn't grow with the log: it keeps the uncommitted tasks
and the bytes of data that were accessed, and nothing of a task that has left. Each line is checked against the machine,
and refused if it can't follow: because a task doesn't exist, or a count or a name isn't the one expected.
"""
from __future__ import annotations

import hashlib
from collections.abc import Sequence
from typing import Callable, Iterator, NamedTuple, Optional

from yotarimu.courses.schedules import Act
from yotarimu.images.image import Image
from yotarimu.lines.dispatch_numbers import DispatchNumbers
from yotarimu.lines.fields import SETTINGS, Line, WrongLine, fields_in
from yotarimu.lines.legs import Legs
from yotarimu.lines.memory import DATA_START, Memory
from yotarimu.lines.placers import Placers
from yotarimu.lines.rounds import Rounds
from yotarimu.lines.times import UNDISPATCHED, Domain, Time, root

# Of a task: which turn created it, and its place among those children.
Pair = tuple[int, int]
IDLE, RUNNING, TRAPPED, FINISHED = "idle", "running", "trapped", "finished"
ORDERED = "ordered"
SPILLED, COMMITTED, GONE = "spilled", "committed", "gone"
# What takes tasks back: what a task asks for, or an event that isn't a step.
TAKING_BACK = ("load", "store", "enqueue", "end", "dispatch", "split", "abort")
# Requests that are no instruction of their own.
NOT_EXECUTED = ("go", "trap")
# The cause of a trap where a task has executed all that it may.
OVER_BUDGET = 17


class Access(NamedTuple):
    """A load or a store of the data: where, the number that stood there before and the one that was stored, how many
    instructions its task had executed before it, the event that it was, the address of its instruction, and how many
    steps its task had made before it."""
    is_store: bool
    address: int
    bytes: int
    old: int
    value: int
    place: int
    event: int
    pc: int
    step: int


class Maker:
    """Of a domain: the task that made it, and in place of that its name once it has committed."""

    __slots__ = ("task", "name")

    def __init__(self, task: Task) -> None:
        self.task: Optional[Task] = task
        self.name: Optional[Pair] = None

    def commit(self) -> None:
        """Keeps the name alone of a task that committed."""
        if self.task is not None:
            self.name, self.task = self.task.name, None


class Task:
    """An uncommitted task. `name` is a pair, or None as long as its creator may be aborted; `creator` is the task
    that made it as long as that is uncommitted. `number` is its dispatch number, and `dispatch` its place among all
    dispatches so far, which no renumbering changes. `work` counts instructions since its dispatch, and `steps` steps;
    `made_at` and `made_step` are how many of these its creator had made with the call. `makers` made the domains that
    it is in, the root domain aside, and `maker` stands for itself in its subdomain."""

    __slots__ = ("id", "tile", "core", "state", "creator", "index", "name", "entry", "timestamp", "arguments",
                 "hint", "domain", "made_at", "made_step", "number", "dispatch", "work", "steps", "pc", "accesses",
                 "children", "subdomain", "emitted", "makers", "maker")

    def __init__(self, line: Line, creator: Optional[Task], index: int, domain: Domain) -> None:
        self.id: Optional[int] = line.get("new")
        self.tile: int = line["tile"] if creator is None else line["in"]
        self.creator, self.index, self.domain = creator, index, domain
        self.name: Optional[Pair] = (0, index) if creator is None else None
        self.entry: int = line["entry"]
        self.timestamp: int = line["ts"]
        self.arguments: list[int] = line["args"]
        self.hint: int = line["hint"]
        self.makers: tuple[Maker, ...] = () if creator is None else creator.makers_of_child(line["to"])
        self.made_at, self.made_step = (0, 0) if creator is None else (creator.work, creator.steps)
        self.wait()

    @property
    def depth(self) -> int:
        """How many domains the task is in."""
        return len(self.domain.kinds)

    def time(self) -> Time:
        """Its virtual time."""
        return self.domain.time(self.timestamp, self.dispatch)

    def domain_of_child(self, to: str) -> Domain:
        """The domain of a child: its own, its subdomain or its superdomain."""
        if to == "sub" and self.subdomain is None:
            raise WrongLine("it makes a child for a missing subdomain")
        if to == "super" and self.depth == 1:
            raise WrongLine("it makes a child for a missing superdomain")
        if to == "sub":
            return self.domain.inner(self.time(), self.subdomain == ORDERED)
        return self.domain.outer() if to == "super" else self.domain

    def makers_of_child(self, to: str) -> tuple[Maker, ...]:
        """Who made the domains of such a child."""
        if to == "sub" and self.maker is not None:
            return (*self.makers, self.maker)
        return self.makers[:-1] if to == "super" else self.makers

    def wait(self) -> None:
        """It is idle, with nothing done."""
        self.state, self.pc, self.dispatch = IDLE, self.entry, UNDISPATCHED
        self.core: Optional[int] = None
        self.number: Optional[int] = None
        self.work = self.steps = 0
        self.subdomain: Optional[str] = None
        self.maker: Optional[Maker] = None
        # It gets lists of its own once it runs: of a million tasks most are waiting.
        self.accesses, self.children, self.emitted = NO_ACCESSES, NO_CHILDREN, NO_BYTES

    def run(self, core: int, number: int, dispatch: int) -> None:
        """It runs on a core, by a dispatch of this number and of this place among all dispatches."""
        self.state, self.core, self.number, self.dispatch = RUNNING, core, number, dispatch
        self.accesses, self.children, self.emitted = [], [], []

    def told_name(self) -> str:
        """Its name as in a report; of a task that has none, its place among the children of its creator."""
        if self.name is not None:
            return f"{self.name[0]}.{self.name[1]}"
        if self.creator is not None and self.creator.name is not None:
            return f"child {self.index} of {self.creator.told_name()}"
        return f"child {self.index} of a task without a name"


# What a task has that isn't dispatched. Nothing is put into these.
NO_ACCESSES: list[Access] = []
NO_CHILDREN: list[Task] = []
NO_BYTES: list[int] = []


class TakenTask(NamedTuple):
    """A task that was aborted, and what it had done and been before that."""
    task: Task
    time: Time
    work: int
    steps: int
    accesses: list[Access]
    children: list[Task]
    state: str
    core: Optional[int]
    is_gone: bool
    emitted: list[int]


class ToldLine:
    """A line behind the head, and what it did: the task that it is about, what that asked for by a step that is made,
    those that were aborted, those of them that are gone, those that were spilled, the one that came, the one that
    was dispatched, and the one that committed."""

    # Most lines do little of this.
    is_made = False
    task: Optional[Task] = None
    asks: Optional[str] = None
    dispatched: Optional[Task] = None
    arrived: Optional[Task] = None
    committed: Optional[Task] = None
    access: Optional[Access] = None
    taken: Sequence[TakenTask] = ()
    gone: Sequence[Task] = ()
    spilled: Sequence[Task] = ()

    def __init__(self, number: int, text: str, fields: Optional[Line] = None) -> None:
        self.number, self.text, self.fields = number, text, fields

    @property
    def line(self) -> Line:
        """The line's fields by name. One that was foreseen is taken apart here, once somebody asks."""
        if self.fields is None:
            self.fields = fields_in(self.text)
        return self.fields

    def is_act(self) -> bool:
        """Whether it is the line of an act; others place a task or have a view of the machine."""
        return "reply" in self.line


def unconfirmed_sentence(settings: Sequence[str], name: str = "") -> str:
    """Which settings no line of an event log confirms."""
    names = ", ".join(setting.replace("_", "-") for setting in settings)
    of_log = f" of {name}" if name else ""
    return f"No line{of_log} confirms these settings, so an edit of them isn't noticed: {names or 'none'}."


class Machine:
    """The machine as the lines leave it: `tasks` by id; by tile `queues` and `finished` (ids in order of arrival),
    `cores` (an id or None each) and `blocks` (spilled tasks by name); how many `events` were made and how many tasks
    committed; how many `queued`, `running`, `waiting` (finished) and `spilled` tasks there are. `memory` has the bytes
    of the data that were touched, by address, where they are kept, and is None else."""

    def __init__(self, head: Line, image: Optional[Image] = None) -> None:
        self.head, tiles = head, range(head["tiles"])
        self.tile_count, self.core_count, self.data_size = head["tiles"], head["cores"], head["data"]
        self.quantum, self.budget = head["quantum"], head["budget"]
        self.root, self.numbers = root(head["root"] == ORDERED), DispatchNumbers()
        self.memory = Memory(head["data"], None if image is None else image.initial)
        self.legs = None if image is None else Legs(image, head)
        is_in_rounds = head["course"] == "lockstep"
        self.rounds = Rounds(head, self.is_asked, self.is_least_waiting) if is_in_rounds else None
        self.placers = Placers(head["tiles"], head["phase"])
        # The settings that a line speaks for: with another value it would be refused.
        self.confirmed = {"tiles", "cores", "seed"} if self.rounds is not None else set[str]()
        # Those that trapped, with the cause.
        self.traps: dict[Task, int] = {}
        self.tasks: dict[int, Task] = {}
        self.queues: list[list[int]] = [[] for _ in tiles]
        self.finished: list[list[int]] = [[] for _ in tiles]
        self.cores: list[list[Optional[int]]] = [[None] * head["cores"] for _ in tiles]
        self.blocks: list[dict[Pair, Task]] = [{} for _ in tiles]
        self.events = self.commits = self.acts = self.dispatches = 0
        self.queued = self.running = self.waiting = self.spilled = 0
        self.output = hashlib.sha256()
        self.placed = 0

    def all_tasks(self) -> Iterator[Task]:
        """The uncommitted tasks, spilled ones too."""
        yield from self.tasks.values()
        for block in self.blocks:
            yield from block.values()

    # Lists of ids, and where tasks stand in them.

    def arrive(self, task: Task, number: int) -> None:
        """A task comes last into the task queue of its tile, with an id."""
        if number in self.tasks:
            raise WrongLine(f"id {number} is that of a task which is still there")
        need_below(task.tile, self.head["tiles"], "a tile")
        queue = self.queues[task.tile]
        if len(queue) >= self.head["task_queue"]:
            raise WrongLine(f"the task queue of tile {task.tile} is full")
        self.tasks[number] = task
        queue.append(number)
        self.queued += 1

    def leave(self, task: Task, state: str) -> None:
        """A task leaves the task queue of its tile."""
        self.put_off(task)
        number = id_of(task)
        self.queues[task.tile].remove(number)
        del self.tasks[number]
        self.queued -= 1
        task.state = state

    def put_off(self, task: Task) -> None:
        """A task leaves its core, or the commit queue."""
        if task.core is not None:
            self.cores[task.tile][task.core] = None
            self.running -= 1
            task.core = None
        elif task.state is FINISHED:
            self.finished[task.tile].remove(id_of(task))
            self.waiting -= 1

    def task_at(self, number: int) -> Task:
        """The task of an id; refuses a line that names another one."""
        task = self.tasks.get(number)
        if task is None:
            raise WrongLine(f"no task has the id {number}")
        return task

    def need_place(self, line: Line) -> None:
        """Refuses a tile or a core that doesn't exist."""
        self.need_tile(line)
        need_below(line.get("core", 0), self.head["cores"], "a core")

    def need_tile(self, line: Line) -> int:
        """The tile of a line; refuses one that the machine doesn't have."""
        tile: int = line["tile"]
        need_below(tile, self.head["tiles"], "a tile")
        return tile

    # Lines.

    def follow(self, told: ToldLine) -> None:
        """Does what a line says."""
        line = told.line
        if "reply" in line:
            self.act(told, line)
        elif "view" in line:
            self.compare(line)
        else:
            self.place(told, line)
        if self.legs is not None:
            self.legs.note(told)

    def place(self, told: ToldLine, line: Line) -> None:
        """Places a task of the image in a queue, or in a block."""
        if self.acts or line["at"] or line["name"][0] or self.placed == self.head["tasks"]:
            raise WrongLine("no task of the image is placed here")
        if line["hint"] != line["name"][1]:
            raise WrongLine("the hint of an image's task is its place in the image")
        tile = self.need_tile(line)
        self.need_pick(line["hint"], tile)
        task = told.arrived = Task(line, None, line["name"][1], self.root)
        self.placed += 1
        if task.id is None:
            self.spill(task, tile, (0, task.index))
        else:
            self.arrive(task, task.id)

    def act(self, told: ToldLine, line: Line) -> None:
        """Follows an act: checks its line against the machine, and carries it out."""
        self.count_act(told, line["at"])
        word, reply = line["do"], line["reply"]
        make = MADE.get(word) if reply == "ok" else None
        events = self.events + (make is not None)
        if line["n"] != events:
            raise WrongLine(f"it says {line['n']} events, and {events} were made")
        if "task" in line:
            told.task = self.task_at(line["task"])
        if line.get("tile", 0) >= self.tile_count or line.get("core", 0) >= self.core_count:
            self.need_place(line)
        if word == "take" and reply == "ok" and self.cores[line["tile"]][line["core"]] is None:
            raise WrongLine(f"core {line['core']} of tile {line['tile']} holds no task")
        if "leg" in line:
            if told.task is None:
                raise WrongLine("no task is named that takes this leg")
            self.need_leg(told.task, line)
        if make is not None and ("back" in line or "spilled" in line) or reply in ("stall", "busy"):
            self.need_full(line)
        if make is not None:
            told.is_made, self.events = True, events
            if line.get("asks") == "enqueue":
                self.need_pick(line["hint"], line["in"])
            self.force(told, line)
            make(self, told, line)
        elif word in REFUSALS and reply in REFUSALS[word] and not REFUSALS[word][reply](self, line["tile"]):
            raise WrongLine(f"the tile has no reason to answer `{reply}`")

    def need_leg(self, task: Task, line: Line) -> None:
        """A leg of a whole quantum goes on, whatever stands next, and no other does. None goes beyond the budget."""
        leg, asks = line["leg"], line["asks"]
        if leg > self.quantum or (leg == self.quantum) != (asks == "go"):
            raise WrongLine(f"a leg of {leg} instructions doesn't stop so, as a quantum has {self.quantum}")
        left = self.budget - task.work - leg
        if left < (asks not in NOT_EXECUTED) or asks == "trap" and (line["cause"] == OVER_BUDGET) != (left == 0):
            raise WrongLine(f"of {self.budget} instructions that a task may execute {left} would be left")

    def need_pick(self, hint: int, tile: int) -> None:
        """Holds the tile of a new task against the one that the placer picks, before room is made there."""
        picked = self.placers.pick(hint, self.commits, self.queues)
        if tile != picked:
            raise WrongLine(f"it goes to tile {tile}, and the placer picks tile {picked}")

    def need_full(self, line: Line) -> None:
        """Holds that an event which makes room, or is refused for want of it, finds no room there."""
        word, asks, tile = line["do"], line.get("asks"), line["tile"]
        if word == "dispatch":
            is_full, setting = None not in self.cores[tile], "cores"
        elif asks == "end":
            is_full, setting = len(self.finished[tile]) == self.head["commit_queue"], "commit_queue"
        elif asks == "enqueue" or word == "split":
            into = tile if asks is None else self.placers.pick(line["hint"], self.commits, self.queues)
            is_full, setting = len(self.queues[into]) == self.head["task_queue"], "task_queue"
        else:
            return
        if not is_full:
            raise WrongLine(f"it wants room, and there is some: {setting} is {self.head[setting]}")
        self.confirmed.add(setting)

    def is_asked(self, act: Act) -> bool:
        """Whether an act of a round is surely asked for, as it stands; which task is the least isn't looked for."""
        tile = act.tile or 0
        if act.word == "step":
            number = self.cores[tile][act.core or 0]
            return number is not None and self.tasks[number].state is RUNNING
        if act.word == "dispatch":
            return None in self.cores[tile] and not self.has_no_idle(tile)
        return act.word == "split" and bool(self.blocks[tile]) and len(self.queues[tile]) < self.head["task_queue"]

    def unconfirmed(self) -> list[str]:
        """The settings of the head that no line speaks for: the run may be one of other values too."""
        if self.placers.fitting == {self.tile_count}:
            self.confirmed.add("tiles")
        if self.rounds is not None and self.rounds.advances:
            self.confirmed.add("starved")
        settings = (*(("rounds", "seed", "starved") if self.rounds is not None else ()), *SETTINGS)
        return [name for name in (*settings, "filter") if name not in self.confirmed and name in self.head]

    def has_no_idle(self, tile: int) -> bool:
        """Whether no task of a tile's queue is idle: each is on a core or in the commit queue."""
        held = sum(number is not None for number in self.cores[tile])
        return len(self.queues[tile]) == held + len(self.finished[tile])

    def is_least_waiting(self) -> bool:
        """Whether the least task waits, in a task queue or in a block."""
        least = min(self.all_tasks(), key=Task.time, default=None)
        return least is not None and least.state in (IDLE, SPILLED)

    def has_no_core(self, tile: int) -> bool:
        """Whether a tile has an idle task and no core for it."""
        return None not in self.cores[tile] and not self.has_no_idle(tile)

    def has_no_block(self, tile: int) -> bool:
        """Whether a tile's block is empty."""
        return not self.blocks[tile]

    def has_no_room(self, tile: int) -> bool:
        """Whether a tile has spilled tasks, and no room for one in its queue."""
        return bool(self.blocks[tile]) and len(self.queues[tile]) == self.head["task_queue"]

    def count_act(self, told: ToldLine, at: int) -> None:
        """Checks the number of an act against those before it."""
        if self.acts == 0:
            self.need_opening()
        is_next = at == self.acts + 1 if self.rounds is None else at > self.acts
        if not is_next:
            raise WrongLine(f"act {at} can't follow on act {self.acts}")
        if self.rounds is not None:
            self.rounds.need(told.line)
        self.acts = at

    def need_opening(self) -> None:
        """Holds that all tasks of the image were placed, and that a tile spilled some only where it had to."""
        if self.placed < self.head["tasks"]:
            raise WrongLine(f"{self.placed} of {self.head['tasks']} tasks of the image are placed before the first act")
        for queue, block in zip(self.queues, self.blocks):
            if block and len(queue) + len(block) <= self.head["task_queue"]:
                raise WrongLine(f"tasks of the image are spilled, and a task queue has room for {len(queue)} and them")
            if block:
                self.confirmed.add("task_queue")

    def force(self, told: ToldLine, line: Line) -> None:
        """What an event forces: tasks are aborted, some of them leave, and tasks are spilled."""
        if "back" in line:
            self.take_back(told, line)
        elif "gone" in line or "aborted" in line:
            raise WrongLine("it aborts tasks and doesn't say which")
        if "spilled" in line:
            told.spilled = [self.spill_by_name(*row) for row in line["spilled"]]

    def take_back(self, told: ToldLine, line: Line) -> None:
        """Aborts the tasks that a line lists, and rolls back their stores."""
        if line.get("asks", line["do"]) not in TAKING_BACK:
            raise WrongLine("such an act aborts no task")
        gone, back = set(line.get("gone", ())), {row[0] for row in line["back"]}
        if line.get("aborted") != len(line["back"]) or len(back) < len(line["back"]) or not gone <= back:
            raise WrongLine("how many tasks it aborts, and which, don't agree")
        told.taken = [self.taken_of(number, work, number in gone) for number, work in line["back"]]
        self.memory.undo(access for taken in told.taken for access in taken.accesses)
        for taken in told.taken:
            if taken.is_gone:
                self.leave(taken.task, GONE)
                # Else it would hold its children, and they it: nobody looks for such a circle, and it stays in memory.
                taken.task.children, taken.task.maker = NO_CHILDREN, None
            else:
                self.put_off(taken.task)
                taken.task.wait()
            self.traps.pop(taken.task, None)
        told.gone = [taken.task for taken in told.taken if taken.is_gone]

    def taken_of(self, number: int, work: int, is_gone: bool) -> TakenTask:
        """What an aborted task was and had done; refuses a line with another count of its work."""
        task = self.task_at(number)
        if task.work != work:
            raise WrongLine(f"task {number} executed {task.work} instructions, and not {work}")
        return TakenTask(task, task.time(), task.work, task.steps, task.accesses, task.children, task.state, task.core,
                         is_gone, task.emitted)

    def spill_by_name(self, number: int, creator: int, index: int) -> Task:
        """Spills the idle task of an id to its tile's block; refuses a line that gives it another name."""
        task = self.task_at(number)
        is_heirs = task.name is None and creator == self.commits + 1
        if task.state is not IDLE or not (task.name == (creator, index) or is_heirs and task.index == index):
            raise WrongLine(f"task {number} can't be spilled as {creator}.{index}")
        self.leave(task, SPILLED)
        task.id = None
        self.spill(task, task.tile, (creator, index))
        return task

    def spill(self, task: Task, tile: int, name: Pair) -> None:
        """Puts a task into a block, by its name."""
        task.name = name
        if name in self.blocks[tile]:
            raise WrongLine(f"task {task.told_name()} is in that block already")
        task.state = SPILLED
        self.blocks[tile][name] = task
        self.spilled += 1

    # Events, behind what they force.

    def dispatch(self, told: ToldLine, line: Line) -> None:
        """Follows a dispatch: an idle task of the tile goes to a free core, with the next number."""
        task, core = told.task, line["core"]
        if task is None or task.state is not IDLE or task.tile != line["tile"]:
            raise WrongLine("it dispatches no idle task of its tile")
        need_below(core, self.head["cores"], "a core")
        if self.cores[task.tile][core] is not None:
            raise WrongLine(f"core {core} of tile {task.tile} holds a task")
        if None in self.cores[task.tile][:core]:
            raise WrongLine(f"core {core} of tile {task.tile} isn't the first that is free")
        number = self.numbers.give(self.all_tasks())
        if line["number"] != number:
            raise WrongLine(f"it gives the dispatch number {line['number']}, and {number} is the next")
        told.dispatched = task
        self.dispatches += 1
        task.run(core, number, self.dispatches)
        self.cores[task.tile][core] = task.id
        self.running += 1

    def step(self, told: ToldLine, line: Line) -> None:
        """Follows a step, of a task on the core that the line names."""
        task, asks = told.task, line.get("asks")
        if asks is None or task is None or task.state is not RUNNING:
            raise WrongLine("no task runs that takes this leg")
        if task.tile != line["tile"] or task.core != line["core"]:
            raise WrongLine(f"task {task.id} runs on another core")
        self.count_leg(told, task, line["leg"], line["pc"], asks)
        self.request(told, task, asks, line)

    def count_leg(self, told: ToldLine, task: Task, leg: int, pc: int, asks: str) -> None:
        """Counts the leg of a step, with the instruction that asks for something."""
        told.asks, task.pc = asks, pc
        task.work += leg + (asks not in NOT_EXECUTED)
        task.steps += 1
        if asks == "go":
            self.confirmed.add("quantum")

    def request(self, told: ToldLine, task: Task, asks: str, line: Line) -> None:
        """Makes what a task asks for behind its leg."""
        make = REQUESTS.get(asks)
        if make is not None:
            make(self, told, task, line)

    def load_or_store(self, told: ToldLine, task: Task, line: Line) -> None:
        """Follows an access. A load makes the bytes at its address known, a store those that it writes."""
        address, count, old = line["addr"], line["bytes"], line["old"]
        self.need_data(address, count)
        self.memory.meet(address, count, old)
        self.access(told, task, address, count, old, line["value"] if line["asks"] == "store" else None)

    def need_data(self, address: int, count: int) -> None:
        """Refuses an access to bytes that the data hasn't, or that none may be made to at once."""
        if count not in (1, 2, 4) or not 0 <= address - DATA_START <= self.data_size - count:
            raise WrongLine(f"the data has no {count} bytes at {address}")
        if address % count:
            raise WrongLine(f"{address} isn't a multiple of {count}")

    def access(self, told: ToldLine, task: Task, address: int, count: int, old: int, stored: Optional[int]) -> None:
        """Makes an access where a number stands that was met: a load, unless a number is stored."""
        is_store = stored is not None
        value = old if stored is None else stored & (1 << 8 * count) - 1
        # As a call of Access does it, which takes twice as long.
        access = told.access = tuple.__new__(Access, (
            is_store, address, count, old, value, task.work - 1, self.events, task.pc, task.steps - 1))
        task.accesses.append(access)
        self.memory.touch(address, count)
        if is_store:
            self.memory.write(address, count, value)

    def enqueue(self, told: ToldLine, task: Task, line: Line) -> None:
        """Follows the making of a child, which arrives in a task queue."""
        child = told.arrived = Task(line, task, len(task.children), task.domain_of_child(line["to"]))
        self.arrive(child, line["new"])
        self.placers.placed(child.tile, self.commits)
        task.children.append(child)

    def make_subdomain(self, _told: ToldLine, task: Task, line: Line) -> None:
        """Follows the making of a subdomain, of which a task has one at most."""
        if task.subdomain is not None:
            raise WrongLine(f"task {task.id} has a subdomain already")
        task.subdomain, task.maker = line["asks"], Maker(task)

    def emit(self, _told: ToldLine, task: Task, line: Line) -> None:
        """Follows the emission of a byte."""
        if line["byte"] > 0xFF:
            raise WrongLine(f"{line['byte']} isn't a byte")
        task.emitted.append(line["byte"])

    def finish(self, _told: ToldLine, task: Task, _line: Line) -> None:
        """Follows the end of a task, which goes to a commit queue with room."""
        self.put_off(task)
        if len(self.finished[task.tile]) == self.head["commit_queue"]:
            raise WrongLine(f"the commit queue of tile {task.tile} is full")
        task.state = FINISHED
        self.finished[task.tile].append(id_of(task))
        self.waiting += 1

    def trap(self, _told: ToldLine, task: Task, line: Line) -> None:
        """Follows a trap, whose cause is kept until the task is aborted."""
        task.state = TRAPPED
        self.traps[task] = line["cause"]
        if line["cause"] == OVER_BUDGET:
            self.confirmed.add("budget")

    def split(self, told: ToldLine, line: Line) -> None:
        """Follows a split: a spilled task comes back to its tile's queue, by its name."""
        task = told.arrived = self.blocks[line["tile"]].pop((line["name"][0], line["name"][1]), None)
        if task is None or line["in"] != line["tile"]:
            raise WrongLine(f"no such task is in the block of tile {line['tile']}")
        self.spilled -= 1
        task.id, task.state = line["new"], IDLE
        self.arrive(task, line["new"])

    def commit(self, told: ToldLine, line: Line) -> None:
        """Follows the commit of a finished task, and checks its name, place and output against the line."""
        task = told.committed = told.task
        if task is None or task.state is not FINISHED:
            raise WrongLine("it commits no finished task")
        if (task.name, task.depth, task.timestamp) != (tuple(line["name"]), line["depth"], line["ts"]):
            raise WrongLine(f"the task that commits is {task.told_name()}, and another name, depth or timestamp is "
                            "printed")
        output = line.get("output", "")
        if output != bytes(task.emitted).hex():
            raise WrongLine("the task that commits has emitted other bytes")
        self.output.update(output.encode())
        self.leave(task, COMMITTED)
        self.numbers.path = task.time()
        self.commits += 1
        if task.maker is not None:
            task.maker.commit()
        for child in task.children:
            child.name, child.creator = (self.commits, child.index), None
        if self.rounds is not None:
            self.rounds.note_commits(self.commits)

    def abort(self, told: ToldLine, _line: Line) -> None:
        """Follows an abort that a script asked for."""
        if told.task is None:
            raise WrongLine("it aborts no task")

    def nothing_more(self, _told: ToldLine, _line: Line) -> None:
        """An event that is whole with what it forces."""

    # The whole.

    def compare(self, line: Line) -> None:
        """Checks a view against the machine."""
        if line["next"] != self.numbers.next:
            raise WrongLine(f"the next dispatch number is {self.numbers.next}, and {line['next']} is printed")
        if line["view"] != self.events or len(line["tiles"]) != self.head["tiles"]:
            raise WrongLine("the view isn't that of the machine which the lines before it leave")
        for tile, told in enumerate(line["tiles"]):
            tasks = [self.tasks[number] for number in self.queues[tile]]
            rows = [[task.id, task.state, task.timestamp, task.number] for task in tasks]
            whole = told["queue"], told["cores"], told["finished"], told["block"]
            if whole != (rows, self.cores[tile], self.finished[tile], len(self.blocks[tile])):
                raise WrongLine(f"in tile {tile} the view isn't what the lines before it leave")

    def close(self, line: Line) -> None:
        """Checks the last line against the machine."""
        self.need_end(line)
        if (line["n"], line["journal"]) != (self.events, self.commits):
            raise WrongLine(f"it says {line['n']} events and {line['journal']} commits, and {self.events} and "
                            f"{self.commits} were printed before it")
        if hashlib.sha256(line["output"].encode()).digest() != self.output.digest():
            raise WrongLine("the output isn't that of the tasks which committed")
        if len(line["window"]) != self.head["window"][1]:
            raise WrongLine(f"the window has {self.head['window'][1]} words, and {len(line['window'])} are printed")
        # What is left is aborted before the window is told.
        stores = [access for task in self.tasks.values() for access in task.accesses if access.is_store]
        memory = self.memory.copy() if stores else self.memory
        memory.undo(stores)
        memory.need_window(self.head["window"][0], line["window"])

    def need_end(self, line: Line) -> None:
        """Checks how a run ended against the tasks that are left."""
        end, left = line["end"], len(self.tasks) + self.spilled
        if (end == "normal") != (left == 0):
            raise WrongLine(f"the end is {end}, and {left} tasks are left")
        if left and (end == "limit") != (self.commits == self.head["commits"]):
            raise WrongLine(f"the end is {end}, and {self.commits} of {self.head['commits']} tasks have committed")
        if self.commits > self.head["commits"]:
            raise WrongLine(f"{self.commits} tasks have committed, and {self.head['commits']} may")
        if end == "limit":
            self.confirmed.add("commits")
        if end == "trap":
            found = [list(task.name or ()) for task, cause in self.traps.items()
                     if (cause, task.pc) == (line["cause"], line["pc"])]
            if line["name"] not in found:
                raise WrongLine("no task has trapped so")


# Whether a tile may refuse so, by the event and the reply.
REFUSALS: dict[str, dict[str, Callable[[Machine, int], bool]]] = {
    "dispatch": {"empty": Machine.has_no_idle, "busy": Machine.has_no_core},
    "split": {"empty": Machine.has_no_block, "stall": Machine.has_no_room}}
MADE: dict[str, Callable[[Machine, ToldLine, Line], None]] = {
    "dispatch": Machine.dispatch, "step": Machine.step, "abort": Machine.abort, "commit": Machine.commit,
    "coalesce": Machine.nothing_more, "split": Machine.split}
REQUESTS: dict[str, Callable[[Machine, ToldLine, Task, Line], None]] = {
    "load": Machine.load_or_store, "store": Machine.load_or_store, "enqueue": Machine.enqueue,
    "ordered": Machine.make_subdomain, "unordered": Machine.make_subdomain, "emit": Machine.emit,
    "end": Machine.finish, "trap": Machine.trap}


def need_below(number: int, count: int, what: str) -> None:
    """Refuses a number in a line that the machine doesn't have."""
    if number >= count:
        raise WrongLine(f"{number} is {what} that the machine hasn't")


def id_of(task: Task) -> int:
    """The id of a task in a queue."""
    if task.id is None:
        raise WrongLine("a task of a block is in no queue")
    return task.id
