"""Event logs: the checks of each line, and the logs that were worked out by hand."""
from __future__ import annotations

import io
import json
import os
import random
import re
import threading
import unittest
from collections.abc import Iterator
from typing import IO, Any, Callable, Optional, Type
from unittest import mock

from yotarimu.common.files import FilePath
from yotarimu.common.outcome import Refusal
from yotarimu.common.places import EXAMPLES_FOLDER
from yotarimu.images.image import TEXT, Image, InitialTask, read_image
from yotarimu.lines.dispatch_numbers import DISPATCH_NUMBERS, DispatchNumbers
from yotarimu.lines.fields import Line
from yotarimu.lines.legs import Core, Scratch
from yotarimu.lines.reader import Reader
from yotarimu.lines.replay import Machine, Task, ToldLine
from yotarimu.lines.times import UNDISPATCHED, Domain, Time, root

SCHEDULES = EXAMPLES_FOLDER / "schedules"
# Texts worked out by hand, and the folders of their images.
WORKED = {"by_hand": "by_hand", "domains_by_hand": "domains_by_hand", "rounds_by_hand": "by_hand"}


def worked_text(name: str) -> tuple[list[Line], Image]:
    """The lines that were worked out by hand, and their image."""
    path = SCHEDULES / WORKED[name] / "image.bin"
    lines = [json.loads(line) for line in (SCHEDULES / name / "worked").read_text().splitlines()]
    return lines, read_image(path.read_bytes(), str(path))


def fault(lines: list[Line], image: Optional[Image] = None) -> Optional[str]:
    """Why a text is refused; None where it isn't."""
    return fault_of("".join(json.dumps(line, separators=(",", ":")) + "\n" for line in lines).encode(), image)


def fault_of(text: bytes, image: Optional[Image] = None) -> Optional[str]:
    """The same of a text as it is written."""
    try:
        for _ in Reader(io.BytesIO(text), "text", image=image):
            pass
    except Refusal as refused:
        return str(refused)
    return None


class WorkedTexts(unittest.TestCase):
    """Lines that are right."""
    def test_the_image_has_each_leg(self) -> None:
        for name in WORKED:
            lines, image = worked_text(name)
            with self.subTest(name=name):
                self.assertIsNone(fault(lines, image))

    def test_other_images_are_refused(self) -> None:
        lines, _ = worked_text("by_hand")
        _, image = worked_text("domains_by_hand")
        self.assertIn("text:1: `text` is 16", fault(lines, image) or "")


def field_change(number: int, field: str, value: Any) -> Callable[[list[Line]], None]:
    """A change of one field of a line."""
    def change(lines: list[Line]) -> None:
        assert field in lines[number - 1]
        lines[number - 1][field] = value
    return change


class Refusals(unittest.TestCase):
    """One change of a text that was worked out by hand, the line that is refused for it, and a part of why."""

    def refuse(self, name: str, change: Callable[[list[Line]], None], line: int, part: str, by_image: bool) -> None:
        """Expects that a changed text is refused at a line, for a reason."""
        lines, image = worked_text(name)
        change(lines)
        found = fault(lines, image if by_image else None) or ""
        with self.subTest(name=name, part=part):
            self.assertTrue(found.startswith(f"text:{line}: ") and part in found, found)
            if by_image:
                self.assertNotIn(f"text:{line}: ", fault(lines) or "")

    def test_what_is_held_without_the_image(self) -> None:
        for name, line, field, value, where, part in (
                ("by_hand", 13, "old", 8, 13, "finds the byte 8, and 7"),
                ("by_hand", 9, "value", 6, 13, "finds the byte 7, and 6"),
                ("by_hand", 5, "addr", 0x10000001, 5, "isn't a multiple of 4"),
                ("by_hand", 5, "do", {}, 5, "`do` names neither"), ("by_hand", 5, "asks", [], 5, "`asks` is `[]`"),
                ("by_hand", 8, "number", 2, 8, "1 is the next"),
                ("by_hand", 21, "window", [7, 9], 21, "word 1 of the window is 9"),
                ("by_hand", 21, "window", [7], 21, "2 words, and 1"),
                ("rounds_by_hand", 11, "old", 0, 11, "finds the byte 0, and 7"),
                ("domains_by_hand", 11, "next", 2, 11, "the next dispatch number is 1"),
                ("domains_by_hand", 17, "to", "sub", 17, "a missing subdomain")):
            self.refuse(name, field_change(line, field, value), where, part, False)

    def test_what_the_image_holds_beside(self) -> None:
        for name, line, field, value, part in (
                ("by_hand", 5, "leg", 2, "`leg` is 2, and by the image's text it is 1"),
                ("by_hand", 5, "pc", 65_544, "`pc` is 65544"), ("by_hand", 6, "value", 2, "`value` is 2"),
                ("domains_by_hand", 16, "byte", 73, "`byte` is 73"), ("domains_by_hand", 9, "hint", 1, "`hint` is 1"),
                ("domains_by_hand", 22, "cause", 7, "`cause` is 7"),
                ("domains_by_hand", 15, "old", 3, "finds the byte 3, and 2")):
            self.refuse(name, field_change(line, field, value), line, part, True)

    def test_the_head_and_the_tasks_are_those_of_the_image(self) -> None:
        for line, field, value, part in ((1, "data", 12, "`data` is 12"), (1, "window", [0, 1], "`window`"),
                                         (1, "root", "unordered", "`root`"), (3, "ts", 3, "another one"),
                                         (2, "entry", 65_540, "another one"), (2, "args", [1, 0, 0], "another one")):
            self.refuse("by_hand", field_change(line, field, value), line, part, True)


class ByFields(Reader):
    """A reader that foresees nothing, and takes each line apart."""

    def __init__(self, file: IO[bytes], name: FilePath, is_cut_allowed: bool = False,
                 image: Optional[Image] = None) -> None:
        super().__init__(file, name, is_cut_allowed, image)
        self.foresight = None


class TakingApart(Reader):
    """A reader that notes which lines it takes apart."""

    def __init__(self, file: IO[bytes], image: Image) -> None:
        super().__init__(file, "text", image=image)
        self.apart: list[int] = []

    def take_apart(self, text: str) -> Optional[ToldLine]:
        self.apart.append(self.number)
        return super().take_apart(text)


def machine_told(machine: Machine) -> list[object]:
    """A machine as its lines leave it, in plain values."""
    tasks = [(task.id, task.tile, task.core, task.state, task.told_name(), task.number, task.dispatch, task.pc,
              task.work, task.steps, tuple(task.accesses), tuple(task.emitted), task.subdomain,
              [child.told_name() for child in task.children]) for task in machine.all_tasks()]
    rounds = machine.rounds
    return [tasks, machine.queues, machine.finished, machine.cores, [list(block) for block in machine.blocks],
            machine.acts, machine.events, machine.commits, machine.dispatches, machine.queued, machine.running,
            machine.waiting, machine.spilled, machine.numbers.next, machine.numbers.path, list(machine.traps.values()),
            machine.output.hexdigest(), machine.memory.bytes(),
            rounds and (rounds.number, rounds.without_commit, rounds.longest, rounds.advances, rounds.commits)]


def told_of(told: ToldLine) -> list[object]:
    """What a line did, in plain values."""
    tasks = told.task, told.dispatched, told.arrived, told.committed, *told.gone, *told.spilled
    return [told.number, list(told.line.items()), told.is_made, told.asks, told.access,
            [task and task.told_name() for task in tasks], [(taken.work, taken.is_gone) for taken in told.taken]]


def what_comes_of(kind: Type[Reader], text: bytes, image: Image, is_cut_allowed: bool = False) -> list[object]:
    """What each line of a log did; then why the log is refused, if it is, and the machine after it."""
    found: list[object] = []
    reader: Optional[Reader] = None
    try:
        reader = kind(io.BytesIO(text), "text", is_cut_allowed, image)
        for told in reader:
            found.append(told_of(told))
    except Refusal as refused:
        found.append(str(refused))
    return [*found, reader and (machine_told(reader.machine), reader.end)]


# What stands behind a field's name, up to the next field: a number, a word, a list or null.
FIELD = re.compile(rb'"(\w+)":(\[[^]]*\]|"[^"]*"|\w+)')
# What a value is altered to, beside another number.
VALUES = (b"0", b"1", b"-1", b"01", b"1.0", b"1e0", b" 1", b"+1", b"1_0", b"4294967296", b"9" * 20, b"9" * 21,
          b"9" * 5_000, b"null", b"true", b"[]", b"[0,0,0]", b"{}", b'"ok"', b'"stall"', b'"stale"', b'"go"', b'"end"',
          b'"trap"', b'"load"', b'"st\\u0065p"', b"\xff", b"")


def altered_field(line: bytes, chance: random.Random) -> bytes:
    """A line of which a field has another value, is gone, stands twice, or has another name."""
    field = chance.choice(list(FIELD.finditer(line)))
    before, name, value, after = line[:field.start()], field[1], field[2], line[field.end():]
    number = b"%d" % max(0, int(value) + chance.choice((-4, -1, 1, 4))) if value.isdigit() else value[:-1]
    return chance.choice((
        *[b'%s"%s":%s%s' % (before, name, other, after) for other in (number, number, chance.choice(VALUES))],
        before + after.lstrip(b","), b"%s%s,%s%s" % (before, field[0], field[0], after),
        b'%s"%s":%s%s' % (before, chance.choice((b"leg", b"n", b"old", b"new", b"odd")), value, after)))


def altered_text(text: bytes, chance: random.Random) -> bytes:
    """A text of which a line is altered, is gone, stands twice, goes elsewhere, or is the last one and isn't whole."""
    lines = text.splitlines(keepends=True)
    place = chance.randrange(len(lines))
    line, way, byte = lines[place], chance.randrange(15), chance.randrange(len(lines[place]))
    if way == 0:
        lines[place] = chance.choice((b"", line + line, line + b"\n", line[:-1]))
    elif way == 1:
        lines[place - 1:place + 1] = lines[place - 1:place + 1][::-1]
    elif way == 2:
        lines[place] = chance.choice((b" " + line, line[:-1] + b" \n", line[:-2] + b",\n", line.replace(b",", b", ")))
    elif way == 3:
        lines.insert(chance.randrange(len(lines)), lines.pop(place))
    elif way == 4:
        lines[place:] = [line[:byte]]
    elif way == 5:
        lines[place] = line[:byte] + bytes([chance.randrange(256)]) + line[byte + 1:]
    else:
        lines[place] = altered_field(line, chance)
    return b"".join(lines)


def altered_numbers(text: bytes) -> Iterator[bytes]:
    """A text with each number of its acts made one more, or too long, and without each of their fields."""
    start = text.index(b'{"at":1,')
    for found in re.finditer(rb"\d+", text[start:]):
        for number in (b"%d" % (int(found[0]) + 1), b"1%020d" % 0):
            yield text[:start + found.start()] + number + text[start + found.end():]
    for found in re.finditer(rb',"\w+":(\[[^]]*\]|[^,}]+)', text[start:]):
        yield text[:start + found.start()] + text[start + found.end():]


# lui t0, 0x10000; and a load of the kind 3 to t1 from there. Then the lines of a task that makes it.
TO_DATA, LOAD_EIGHT = 0x100002B7, 0x0002B303
LOADING_EIGHT = (
    b'{"watch":1,"course":"steps","tiles":1,"cores":1,"task_queue":4,"commit_queue":1,"line":4,"quantum":64,'
    b'"commits":1,"budget":64,"phase":1,"root":"ordered","text":2,"data":8,"window":[0,0],"tasks":1}',
    b'{"at":0,"do":"place","tile":0,"new":0,"name":[0,0],"entry":65536,"ts":0,"args":[0,0,0],"hint":0}',
    b'{"at":1,"do":"dispatch","tile":0,"task":0,"reply":"ok","n":1,"core":0,"number":0}',
    b'{"at":2,"do":"step","tile":0,"core":0,"task":0,"leg":1,"pc":65540,"asks":"load","addr":268435456,"bytes":8,'
    b'"reply":"ok","n":2,"old":0}')
# What an event tells that nothing foresees: tasks that it takes back or spills, and the output of one that commits.
UNFORESEEN = ("back", "spilled", "output")


class Foreseen(unittest.TestCase):
    """Lines that are foreseen: they have the same effect as when they are parsed."""

    def texts(self) -> Iterator[tuple[bytes, Image]]:
        """Whole texts, and their images."""
        for folder, name in (*((it, "worked") for it in WORKED), ("conflict", "lines")):
            image = SCHEDULES / WORKED.get(folder, folder) / "image.bin"
            yield (SCHEDULES / folder / name).read_bytes(), read_image(image.read_bytes(), folder)

    def hold(self, text: bytes, image: Image, is_cut_allowed: bool = False) -> object:
        """Expects the same of a log, whether foreseen or parsed; returns its last result before the machine."""
        wanted = what_comes_of(ByFields, text, image, is_cut_allowed)
        self.assertEqual(what_comes_of(Reader, text, image, is_cut_allowed), wanted, text)
        return wanted[-2]

    def test_events_are_foreseen(self) -> None:
        for text, image in self.texts():
            reader, other = TakingApart(io.BytesIO(text), image), ByFields(io.BytesIO(text), "text", image=image)
            foreseen, machine = 0, reader.machine
            for told, wanted in zip(reader, other):
                self.assertEqual((told_of(told), machine_told(machine)), (told_of(wanted), machine_told(other.machine)))
                is_foreseen = told.is_made and not any(name in told.line for name in UNFORESEEN)
                self.assertEqual(told.number in reader.apart, not is_foreseen, told.line)
                foreseen += is_foreseen
                self.assertTrue(machine.rounds is None or machine.rounds.commits == machine.commits)
                self.assertTrue(machine.legs is not None and set(machine.legs.cores) <= set(machine.all_tasks()))
            self.assertGreater(foreseen, 5)
            self.hold(text, image)

    def test_altered_texts_are_refused_as_by_their_fields(self) -> None:
        for text, image in self.texts():
            for seed in range(160):
                with self.subTest(seed=seed):
                    self.hold(altered_text(text, random.Random(seed)), image, seed % 4 == 0)

    def test_altered_numbers_are_refused_as_by_their_fields(self) -> None:
        # These two have all kinds of events, and acts that aren't told.
        for text, image in list(self.texts())[1:3]:
            for altered in altered_numbers(text):
                self.hold(altered, image)

    def test_no_act_is_made_before_all_tasks_are_placed(self) -> None:
        for text, image in self.texts():
            head, *lines = text.splitlines(keepends=True)
            count = len(image.tasks)
            for placed in range(count):
                early = b"".join((head, *lines[:placed], lines[count], *lines[placed:count], *lines[count + 1:]))
                self.assertEqual(self.hold(early, image), f"text:{placed + 2}: {placed} of {count} tasks of the image "
                                 "are placed before the first act.")

    def test_a_task_that_trapped_makes_no_more_steps(self) -> None:
        text, image = list(self.texts())[1]
        trap = next(line for line in text.splitlines(keepends=True) if b'"trap"' in line)
        more = trap.replace(b'"at":18', b'"at":19').replace(b'"n":17', b'"n":18')
        self.assertEqual(self.hold(text.replace(trap, trap + more), image),
                         "text:23: no task runs that takes this leg.")

    def test_nothing_is_foreseen_behind_the_end(self) -> None:
        text, image = next(self.texts())
        before, dispatch, after = text.partition(b'"number":0}\n')
        end = b'{"end":"open","n":1,"journal":0,"output":"","window":[0,0]}\n'
        self.assertEqual(self.hold(before + dispatch + end + after, image), "text:6: nothing may follow on the end.")

    def test_a_line_that_is_too_long_is_refused(self) -> None:
        for text, image in self.texts():
            lengths = [len(line) for line in text.splitlines(keepends=True)]
            with mock.patch("yotarimu.lines.reader.MOST_READ", max(lengths)):
                self.assertIsNone(fault_of(text, image))
            with mock.patch("yotarimu.lines.reader.MOST_READ", max(lengths) - 1):
                number = lengths.index(max(lengths)) + 1
                self.assertEqual(fault_of(text, image), f"text:{number}: this line isn't whole: no newline ends it.")

    def test_no_access_is_foreseen_that_the_machine_refuses(self) -> None:
        """A load of eight bytes, as no instruction of RV32I makes it."""
        image = Image(True, b"".join(word.to_bytes(4, "little") for word in (TO_DATA, LOAD_EIGHT)), b"", 8, 0, 0,
                      [InitialTask(TEXT, 0, (0, 0, 0))])
        text = b"".join(it + b"\n" for it in LOADING_EIGHT)
        self.assertEqual(self.hold(text, image), "text:4: the data has no 8 bytes at 268435456.")


class Pipes(unittest.TestCase):
    """Lines that come one after another, as they are made."""

    def test_each_line_is_told_once_it_has_come(self) -> None:
        """The text's next line is written behind the event of the one before it, and a reader that waits for more finds
        the pipe closed."""
        text, image = next(Foreseen().texts())
        head, *lines, end = text.splitlines(keepends=True)
        source, sink = os.pipe()
        with open(source, "rb") as file, open(sink, "wb", buffering=0) as pipe:
            watchdog = threading.Timer(60, pipe.close)
            watchdog.start()
            pipe.write(head)
            reader = Reader(file, "pipe", image=image)
            events = iter(reader)
            for number, line in enumerate(lines, 2):
                pipe.write(line)
                self.assertEqual(next(events).number, number)
            pipe.write(end)
            pipe.close()
            self.assertEqual((list(events), reader.end is not None), ([], True))
            watchdog.cancel()


# addi a0, a0, 1, which is straight; ecall, with the number 0 in a7; and j 0, back to itself.
ADD_ONE, CALL, STAY = 0x00150513, 0x00000073, 0x0000006F


def core_of(*words: int) -> Core:
    """The core of a task that begins at the first of these words."""
    text = b"".join(word.to_bytes(4, "little") for word in words)
    line = {"tile": 0, "entry": TEXT, "ts": 0, "args": [0, 0, 0], "hint": 0}
    return Core(Scratch(Image(True, text, b"", 0, 0, 0, [])), Task(line, None, 0, root(True)))


def leg_of(core: Core, quantum: int, budget: int) -> Line:
    """The fields for the leg that a core runs."""
    core.run(quantum, budget)
    return core.leg


class Legs(unittest.TestCase):
    """Where legs end that the image's text is replayed for, worked out by counting."""

    def test_a_leg_stops_at_its_quantum_within_straight_instructions(self) -> None:
        core = core_of(*[ADD_ONE] * 150, CALL)
        for executed in (7, 14):
            self.assertEqual(leg_of(core, 7, 1_000), {"leg": 7, "pc": TEXT + 4 * executed, "asks": "go"})
        self.assertEqual(leg_of(core, 1_000, 1_000), {"leg": 136, "pc": TEXT + 600, "asks": "end"})
        self.assertEqual((core.registers[10], core.passed), (150, set(range(TEXT + 56, TEXT + 604, 4))))

    def test_a_leg_that_has_its_quantum_goes_on_whatever_comes_then(self) -> None:
        core = core_of(ADD_ONE, ADD_ONE, CALL)
        self.assertEqual(leg_of(core, 2, 9), {"leg": 2, "pc": TEXT + 8, "asks": "go"})
        self.assertEqual(leg_of(core, 2, 9), {"leg": 0, "pc": TEXT + 8, "asks": "end"})

    def test_no_leg_goes_beyond_the_budget_or_the_text(self) -> None:
        trapped = {"leg": 3, "pc": TEXT + 12, "asks": "trap", "cause": 17}
        self.assertEqual(leg_of(core_of(*[ADD_ONE] * 9), 64, 3), trapped)
        self.assertEqual(leg_of(core_of(*[ADD_ONE] * 3), 64, 4), {**trapped, "cause": 1})
        self.assertEqual(leg_of(core_of(ADD_ONE, STAY), 64, 40), {**trapped, "leg": 40, "pc": TEXT + 4})


class NumberedTask:
    """A task as numbers see it."""

    def __init__(self, domain: Domain, number: Optional[int], dispatch: float) -> None:
        self.domain, self.number, self.dispatch = domain, number, dispatch

    def time(self) -> Time:
        """The virtual time of the task."""
        return self.domain.time(0, self.dispatch)


class Numbers(unittest.TestCase):
    """Dispatch numbers."""
    def test_numbers_are_given_anew(self) -> None:
        """Dispatches 7 of the path, 9 of a maker of a domain and 12 of a task are in use: these become 0, 1 and 2, and
        3 is given next."""
        numbers = DispatchNumbers()
        numbers.path, numbers.next = ((1, 7),), DISPATCH_NUMBERS
        inner = root(True).inner(((2, 9),), False)
        running, idle = NumberedTask(inner, 65_530, 12), NumberedTask(inner, None, UNDISPATCHED)
        self.assertEqual(numbers.give([running, idle]), 3)  # type: ignore[list-item]
        self.assertEqual((running.number, idle.number, numbers.next), (2, None, 4))


if __name__ == "__main__":
    unittest.main()
