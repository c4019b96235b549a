"""Runs that are compared: the serial machine in several orders, differences, expectations, and smaller images. The
image is written by hand: tasks that store their argument to one word, some of them at one timestamp."""
from __future__ import annotations

import pathlib
import struct
import tempfile
import unittest
from collections.abc import Sequence
from typing import Any

from yotarimu.common.outcome import Refusal
from yotarimu.comparing.comparison import Found, parting, sentences
from yotarimu.comparing.expectations import Expectation, expectations_in
from yotarimu.comparing.reduction import Judge, reduce, tasks_of, words_of
from yotarimu.comparing.results import END, MEMORY, OUTPUT, PARTS, Difference, Result, first_difference
from yotarimu.comparing.serial_orders import OrderedMachine, TooLong, WatchedMachine
from yotarimu.comparing.settings import KINDS, ORDER, Setting, settings
from yotarimu.images.image import DATA, TEXT, Image, InitialTask
from yotarimu.images.listing import Listing
from yotarimu.programs.table import Table
from yotarimu.reports.report import Entry, Name

# lui t0, 0x10000; sw a0, 0(t0); li a7, 5; ecall; li a7, 0; ecall.
STORE, EMIT, END_CALL = (0x100002B7, 0x00A2A023), (0x00500893, 0x73), (0x00000893, 0x73)
TEXT_WORDS = (*STORE, *EMIT, *END_CALL)
NO_PROGRAMS: Any = None


def image_of(*tasks: Sequence[int], words: Sequence[int] = TEXT_WORDS, is_ordered: bool = True) -> Image:
    """An image of tasks, each an entry, a timestamp and an argument."""
    return Image(is_ordered, struct.pack(f"<{len(words)}I", *words), b"", 4, 0, 1,
                 [InitialTask(entry, timestamp, (argument, 0, 0)) for entry, timestamp, argument in tasks])


TIED = image_of((TEXT, 1, 65), (TEXT, 1, 66), (TEXT, 0, 67))
LISTING = Listing({TEXT: "put", DATA: "word"}, {}, {}, {})


class Orders(unittest.TestCase):
    """The serial machine, in several orders."""
    def test_ties_come_in_the_order_that_is_asked_for(self) -> None:
        for order, output in ((0, b"CAB"), (1, b"CBA")):
            machine = OrderedMachine(TIED, order)
            left = machine.result(10)
            self.assertEqual(left, Result(bytes([output[-1], 0, 0, 0]), output, "normal"))
            self.assertEqual([entry.name.index for entry in machine.entries][0], 2)

    def test_shuffled_orders_are_the_same_again(self) -> None:
        many = image_of(*((TEXT, 0, 65 + place) for place in range(20)))
        outputs = [OrderedMachine(many, order).result(100).output for order in (2, 2, 3)]
        self.assertEqual(outputs[0], outputs[1])
        self.assertNotEqual(outputs[0], outputs[2])

    def test_a_task_that_traps_leaves_nothing(self) -> None:
        # `lw a0, 0(zero)` is the fifth instruction.
        words = (*STORE, *EMIT, 0x00002503)
        left = OrderedMachine(image_of((TEXT, 0, 65), words=words), 0).result(10)
        self.assertEqual(left, Result(bytes(4), b"", f"trap 5 {TEXT + 16:08x}"))

    def test_a_run_stops_at_the_limit_of_commits(self) -> None:
        self.assertEqual(OrderedMachine(TIED, 0).result(2).end, "limit")

    def test_a_long_run_is_refused(self) -> None:
        with self.assertRaises(TooLong):
            OrderedMachine(TIED, 0, most_steps=5).result(10)

    def test_last_store_and_emitter_are_noted(self) -> None:
        machine = WatchedMachine(TIED, word=0, byte=1)
        machine.replay([Entry(1, Name(0, 2), 1, 0), Entry(2, Name(0, 1), 1, 1), Entry(3, Name(0, 0), 1, 1)])
        assert machine.last_store and machine.emitter
        self.assertEqual((machine.last_store.turn, machine.last_store.task.name, machine.last_store.pc),
                         (3, Name(0, 0), TEXT + 4))
        self.assertEqual(machine.emitter.task.name, Name(0, 1))


class Differences(unittest.TestCase):
    """What two runs leave."""
    def test_the_first_difference_is_found(self) -> None:
        one = Result(bytes(8192) + b"\1\0\0\0", b"ab", "normal")
        self.assertIsNone(first_difference(one, one))
        self.assertEqual(first_difference(one, one._replace(end="limit")), Difference(END, 0, "normal", "limit"))
        self.assertEqual(first_difference(one, one._replace(output=b"a")), Difference(OUTPUT, 1, "62", "nothing"))
        other = one._replace(memory=bytes(8192) + b"\1\2\0\0")
        self.assertEqual(first_difference(one, other), Difference(MEMORY, 8192, "00000001 (1)", "00000201 (513)"))
        self.assertIsNone(first_difference(one, other, [OUTPUT]))

    def test_a_window_is_compared_with_its_part(self) -> None:
        one = Result(b"\1\0\0\0\2\0\0\0", b"", "normal")
        self.assertIsNone(first_difference(one, Result(b"\2\0\0\0", b"", "normal", 4)))
        self.assertEqual(first_difference(one, Result(b"\3\0\0\0", b"", "normal", 4)),
                         Difference(MEMORY, 4, "00000002 (2)", "00000003 (3)"))

    def test_where_orders_part(self) -> None:
        one = [Entry(1, Name(0, 0), 1, 0), Entry(2, Name(0, 1), 1, 0)]
        self.assertIsNone(parting(one, one))
        self.assertEqual(parting(one, one[:1]), 1)
        self.assertEqual(parting(one, [one[0], Entry(2, Name(0, 2), 1, 0)]), 1)

    def test_sentences_have_label_store_and_turn(self) -> None:
        machines = [OrderedMachine(TIED, order) for order in (0, 1)]
        wanted, seen = (machine.result(10) for machine in machines)
        difference = first_difference(wanted, seen)
        assert difference
        found = Found(Setting(ORDER, 1, {}), difference, machines[1].entries)
        told = "\n".join(sentences(found, TIED, machines[0].entries, LISTING))
        for part in ("the word at word (10000000): 00000042 (66) in the serial run, 00000041 (65) here",
                     "serial run: the last store is by the task 0.1 (put 66; timestamp 1), turn 3, at put+4",
                     "here: the last store is by the task 0.0 (put 65; timestamp 1), turn 3", "part at turn 2"):
            self.assertIn(part, told)


class Expected(unittest.TestCase):
    """What a run is expected to leave."""
    def test_bytes_of_data_and_output_are_compared(self) -> None:
        left = Result(b"\1\0\0\0\2\0\0\0", b"ab", "normal")
        self.assertIsNone(Expectation(b"\1\0", 0).difference(left))
        self.assertIsNone(Expectation(b"ab").difference(left))
        self.assertEqual(Expectation(b"\3", 4).difference(left), Difference(MEMORY, 4, "00000003 (3)", "00000002 (2)"))
        self.assertEqual(Expectation(b"abc").difference(left), Difference(OUTPUT, 2, "63", "nothing"))

    def test_files_are_read_by_label(self) -> None:
        with tempfile.TemporaryDirectory() as place:
            path = pathlib.Path(place, "wanted")
            path.write_bytes(b"\5\0\0\0")
            self.assertEqual(expectations_in(f"{path},word:{path},output:{path}", TIED, LISTING),
                             [Expectation(b"\5\0\0\0", 0), Expectation(b"\5\0\0\0", 0), Expectation(b"\5\0\0\0")])
            with self.assertRaisesRegex(Refusal, "no label `wodr` in the data; did you mean word"):
                expectations_in(f"wodr:{path}", TIED, LISTING)
            path.write_bytes(bytes(8))
            with self.assertRaisesRegex(Refusal, "it has 8 bytes, and the data has 4"):
                expectations_in(str(path), TIED, LISTING)


class Settings(unittest.TestCase):
    """The settings of runs."""
    def test_kinds_take_turns_and_values_are_those_given(self) -> None:
        chosen = list(settings(40, 0, {"tiles": [3], "budget": [99]}, Table()))
        self.assertEqual([it.kind for it in chosen[:4]], list(KINDS))
        self.assertEqual({it.options["tiles"] for it in chosen if it.kind != ORDER}, {3})
        self.assertEqual({it.options["budget"] for it in chosen}, {99})
        self.assertEqual(chosen, list(settings(40, 0, {"tiles": [3], "budget": [99]}, Table())))

    def test_calls_make_a_run_again(self) -> None:
        self.assertEqual(str(Setting("lockstep", 7, {"tiles": 2})), "watch lockstep 1000000 7 --tiles 2")
        self.assertEqual(str(Setting("workers", 1, {"workers": 2})), "run --workers 2")


class Reductions(unittest.TestCase):
    """Smaller images that still fail."""
    def test_tasks_and_instructions_that_nothing_needs_are_left_out(self) -> None:
        image = image_of((TEXT, 0, 70), (TEXT, 1, 65), (TEXT, 1, 66), (TEXT, 0, 67))
        wanted = first_difference(OrderedMachine(image, 0).result(9), OrderedMachine(image, 1).result(9))
        assert wanted
        judge = Judge(NO_PROGRAMS, [Setting(ORDER, 1, {})], wanted, PARTS, 1_000)
        smaller = reduce(image, judge, lambda _: None)
        self.assertEqual(len(tasks_of(smaller)), 2)
        # The address, the store and the end call are wanted; a7 is 0 where nothing sets it.
        self.assertEqual([smaller.words[place] for place in words_of(smaller)], [*STORE, 0x73])


if __name__ == "__main__":
    unittest.main()
