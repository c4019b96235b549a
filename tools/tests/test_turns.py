"""Turns that a saved image leads to, and what one task asks for: by hand, from FORMATS.md and TASKS.md."""
from __future__ import annotations

import struct
import unittest

from yotarimu.images.image import DATA, TEXT, Image, InitialTask
from yotarimu.images.serial_machine import Machine
from yotarimu.programs.turns import Pending, names_in, starts_before
from yotarimu.reports.one_task import AskingRun, way_text
from yotarimu.reports.report import Entry, Name

# A task of the root with two children in its subdomain, and another task of the root.
ENTRIES = [Entry(1, Name(0, 0), 1, 0), Entry(2, Name(1, 0), 2, 0), Entry(3, Name(1, 1), 2, 1),
           Entry(4, Name(0, 1), 1, 5)]
# lui t0, 0x10000; lw t1, 4(t0); sb t1, 9(t0); li a7, 4; li a0, 1; ecall (an ordered subdomain); li a7, 5; ecall (the
# byte 1); lui a0, 0x10; li a1, 6; li a5, 3; li a7, 2; ecall (a child of it); li a7, 0; ecall.
WORDS = (0x100002B7, 0x0042A303, 0x006284A3, 0x00400893, 0x00100513, 0x73, 0x00500893, 0x73, 0x00010537, 0x00600593,
         0x00300793, 0x00200893, 0x73, 0x00000893, 0x73)


def saved(*timestamps: int, is_ordered: bool = True) -> Image:
    """An image with tasks of these timestamps."""
    return Image(is_ordered, b"", b"", 0, 0, 0, [InitialTask(TEXT, timestamp, (0, 0, 0)) for timestamp in timestamps])


class Starts(unittest.TestCase):
    """After how many turns a run is saved."""

    def test_a_run_is_saved_where_no_subdomain_is_left(self) -> None:
        self.assertEqual([starts_before(ENTRIES, turn) for turn in (1, 2, 3, 4)], [[], [], [], [3]])

    def test_a_trap_may_be_of_the_root_or_not(self) -> None:
        self.assertEqual(starts_before(ENTRIES, 5), [4, 3])

    def test_no_more_tasks_pend_than_an_image_has(self) -> None:
        many = 65_537
        entries = [Entry(1, Name(0, 0), 1, 0), *(Entry(2 + place, Name(1, place), 1, 0) for place in range(many))]
        # After turn 1 all children pend, after turn 2 one fewer.
        self.assertEqual([starts_before(entries, turn) for turn in (2, 3)], [[], [2]])


class Names(unittest.TestCase):
    """Which names the tasks of a saved image have."""

    def test_all_that_pend_are_known(self) -> None:
        known = [Pending(Name(0, 1), 5), Pending(Name(2, 0), 5)]
        self.assertEqual(names_in(saved(5, 5), known), [Name(0, 1), Name(2, 0)])
        self.assertEqual(names_in(saved(9, 8, is_ordered=False), [Pending(it.name, 0) for it in known]),
                         [Name(0, 1), Name(2, 0)])

    def test_some_never_commit(self) -> None:
        names = names_in(saved(9, 5, 9), [Pending(Name(4, 2), 5)])
        self.assertEqual(names and names[1], Name(4, 2))

    def test_nothing_is_guessed(self) -> None:
        self.assertIsNone(names_in(saved(5, 5), [Pending(Name(4, 2), 5)]))
        self.assertIsNone(names_in(saved(9, 5), [Pending(Name(4, 2), 6)]))
        self.assertIsNone(names_in(saved(9, 5), [Pending(Name(4, 2), 5), Pending(Name(4, 3), 9)]))

    def test_the_machine_goes_on_from_a_saved_image(self) -> None:
        end = struct.pack("<2I", 0x00000893, 0x73)
        image = Image(True, end, b"\7", 4, 0, 0, [InitialTask(TEXT, 5, (1, 2, 3))])
        machine = Machine.after(3, image, [Name(0, 1)])
        self.assertIsNotNone(machine.follow([Entry(4, Name(0, 0), 1, 5)]))
        self.assertIsNone(machine.follow([Entry(4, Name(0, 1), 1, 5)]))
        self.assertEqual((machine.turns, machine.memory), (4, b"\7\0\0\0"))


class OneTask(unittest.TestCase):
    """What a task requests, and how the way to its turn is described."""

    def test_what_a_task_asks_for(self) -> None:
        image = Image(True, struct.pack(f"<{len(WORDS)}I", *WORDS), b"\0\0\0\0\2\1", 12, 0, 0,
                      [InitialTask(TEXT, 8, (0, 0, 0))])
        machine = Machine(image)
        run = AskingRun(machine, machine.tasks[Name(0, 0)])
        run.go_to_end()
        load, store, subdomain, byte, child = run.asked
        self.assertEqual((load.executed, load.kind), (1, "load"))
        self.assertEqual((load.address, load.width, load.value), (DATA + 4, 4, 258))
        self.assertEqual((store.executed, store.address, store.width, store.value), (2, DATA + 9, 1, 2))
        self.assertEqual((subdomain.pc, subdomain.value, byte.value), (TEXT + 20, 1, 1))
        made = child.child
        assert made is not None
        self.assertEqual((made.name, made.entry, made.timestamp, made.domain.depth, child.hint),
                         (Name(1, 0), TEXT, 6, 2, 3))
        self.assertEqual((run.executed, run.trap, run.is_over), (15, None, True))

    def test_a_trap_is_the_end(self) -> None:
        image = Image(True, struct.pack("<2I", WORDS[1], WORDS[0]), b"", 4, 0, 0, [InitialTask(TEXT, 0, (0, 0, 0))])
        machine = Machine(image)
        run = AskingRun(machine, machine.tasks[Name(0, 0)])
        run.go_to_end()
        assert run.trap is not None
        # A load from 4, where nothing is.
        self.assertEqual((run.trap.cause, run.trap.address, run.executed, run.asked), (5, 4, 0, []))

    def test_ways_are_told(self) -> None:
        self.assertIn("saved the run after 2 turns; 3 more", way_text(2, 6, ""))
        self.assertIn("right before it", way_text(5, 6, ""))
        self.assertIn("All turns before it, 5, were run again here, since nothing", way_text(0, 6, "nothing"))
        self.assertIn("No turn", way_text(0, 1, ""))


if __name__ == "__main__":
    unittest.main()
