"""Why tasks were aborted, on events put together by hand; the lines are of 16 bytes. What is wanted follows from the
rules of docs/machine/MACHINE.md, worked out beside each."""
from __future__ import annotations

import types
import unittest
from typing import Any, Optional

from yotarimu.images.image import DATA
from yotarimu.lines.causes import Kind, Sharing, CauseSentences, causes_of
from yotarimu.lines.filters import FilterKind, LineRule
from yotarimu.lines.replay import Access, TakenTask
from yotarimu.lines.times import UNDISPATCHED, root

LINE = 16
RULE = LineRule(LINE)
BLOOM, EXACT = (LineRule(LINE, kind) for kind in (FilterKind.BLOOM, FilterKind.EXACT))
# Of this line the loads below have all bits in a filter of the kind `bloom`, though none is of it.
JOINT = 2_201 * LINE
# As far behind an address another line has the same bit of a filter.
ALIAS = 1_024 * LINE


def task(name: str, creator: Any = None) -> Any:
    """A task that stands for one of the reader's."""
    return types.SimpleNamespace(name=name, creator=creator)


def load(address: int, old: int = 0, event: int = 1) -> Access:
    """A load of a word."""
    return Access(False, DATA + address, 4, old, old, 0, event, pc=0x10000, step=0)


def store(address: int, value: int = 1, event: int = 1) -> Access:
    """A store of a word."""
    return Access(True, DATA + address, 4, 0, value, 0, event, pc=0x10004, step=0)


def member(it: Any, timestamp: int, dispatch: float, *accesses: Access, is_gone: bool = False) -> TakenTask:
    """A task that was aborted, with what it had done."""
    time = root(True).time(timestamp, dispatch)
    return TakenTask(it, time, len(accesses), len(accesses), list(accesses), [], "running", 0, is_gone, [])


def event(members: list[TakenTask], asker: Any = None, access: Optional[Access] = None, **line: Any) -> Any:
    """A line that aborts members, as causes read it."""
    if access is not None:
        line["asks"] = "store" if access.is_store else "load"
    return types.SimpleNamespace(line={"do": "step", **line}, taken=members, task=asker, access=access)


def told_of(told: Any, rule: LineRule = RULE) -> Any:
    """For each task the kind of its cause, what its chain of causes shares, the task that caused it, and the task of
    the root cause."""
    return [(it.task.name, it.kind, it.sharing, it.by.name if it.by else None, it.root.task.name)
            for it in causes_of(told, rule)]


def many_loads() -> list[Access]:
    """Loads of the lines 0, 7, 14 and so on up to 1,393."""
    return [load(7 * place * LINE) for place in range(200)]


class Causes(unittest.TestCase):
    """What took each task, and what that goes back to."""
    def test_a_store_meets_the_same_byte_the_line_or_the_bit(self) -> None:
        writer, one, two, three = task("w"), task("1"), task("2"), task("3")
        told = event([member(one, 2, 1, load(0)), member(two, 3, 2, load(4)), member(three, 4, 3, load(ALIAS))], writer,
                     store(0))
        self.assertEqual(told_of(told), [("1", Kind.ACCESS, Sharing.TRUE, "w", "1"),
                                         ("2", Kind.ACCESS, Sharing.LINE, "w", "2"),
                                         ("3", Kind.ACCESS, Sharing.ALIAS, "w", "3")])

    def test_a_load_meets_stores_alone(self) -> None:
        # It loaded the very word too, but what takes it back is its store to the same line.
        told = event([member(task("1"), 2, 1, load(0), store(8))], task("r"), load(0))
        self.assertEqual(told_of(told), [("1", Kind.ACCESS, Sharing.LINE, "r", "1")])

    def test_a_child_has_the_root_of_its_creator(self) -> None:
        creator = task("1")
        child = task("1+0", creator)
        told = event([member(child, 2, UNDISPATCHED, is_gone=True), member(creator, 2, 1, load(4))],
                     task("w"), store(0))
        self.assertEqual(told_of(told), [("1", Kind.ACCESS, Sharing.LINE, "w", "1"),
                                         ("1+0", Kind.CHILD, Sharing.LINE, "1", "1")])

    def test_what_touched_the_line_of_a_store_goes_with_it(self) -> None:
        one, two, three = task("1"), task("2"), task("3")
        told = event([member(one, 2, 1, load(0), store(64, event=2)), member(two, 3, 2, load(64)),
                      member(three, 4, 3, load(68))], task("w"), store(0))
        self.assertEqual(told_of(told), [("1", Kind.ACCESS, Sharing.TRUE, "w", "1"),
                                         ("2", Kind.TOUCHED, Sharing.TRUE, "1", "1"),
                                         ("3", Kind.TOUCHED, Sharing.LINE, "1", "1")])

    def test_the_way_that_shares_the_most_counts(self) -> None:
        # The second shares a line with the store, and a byte with what the first wrote.
        one, two = task("1"), task("2")
        told = event([member(one, 2, 1, load(0), store(64)), member(two, 3, 2, load(8), load(64))], task("w"), store(0))
        self.assertEqual(told_of(told)[1], ("2", Kind.TOUCHED, Sharing.TRUE, "1", "1"))

    def test_a_way_is_as_wide_as_its_widest_step(self) -> None:
        # The first shares a line alone, so the second does too, although it loaded the first one's very bytes.
        one, two = task("1"), task("2")
        told = event([member(one, 2, 1, load(4), store(64)), member(two, 3, 2, load(64))], task("w"), store(0))
        self.assertEqual(told_of(told)[1], ("2", Kind.TOUCHED, Sharing.LINE, "1", "1"))

    def test_an_earlier_task_goes_with_none(self) -> None:
        # The later one wrote what the earlier one had loaded: each meets the store by itself.
        one, two = task("1"), task("2")
        told = event([member(two, 3, 2, load(0), store(64, event=5)), member(one, 2, 1, load(0), load(64, event=4))],
                     task("w"), store(0))
        self.assertEqual([it[1] for it in told_of(told)], [Kind.ACCESS, Kind.ACCESS])

    def test_room_takes_the_least_member(self) -> None:
        one, two = task("1"), task("2")
        told = event([member(two, 3, 2, load(64)), member(one, 2, 1, store(64))], task("a"), asks="end")
        self.assertEqual(told_of(told), [("1", Kind.ROOM, Sharing.TRUE, "a", "1"),
                                         ("2", Kind.TOUCHED, Sharing.TRUE, "1", "1")])
        self.assertEqual({it.event for it in causes_of(told, RULE)}, {"commit queue"})

    def test_a_script_may_ask_for_it(self) -> None:
        told = event([member(task("1"), 2, 1)], task("1"), do="abort")
        self.assertEqual(told_of(told), [("1", Kind.ABORT, Sharing.TRUE, None, "1")])

    def test_other_filters_have_no_bit_for_two_lines(self) -> None:
        told = event([member(task("1"), 2, 1, load(0), load(ALIAS)), member(task("2"), 3, 2, load(4))], task("w"),
                     store(ALIAS))
        for rule in (BLOOM, EXACT):
            # The second stands for what no program tells: it shares nothing with the store.
            self.assertEqual([it[1:3] for it in told_of(told, rule)],
                             [(Kind.ACCESS, Sharing.TRUE), (Kind.ACCESS, Sharing.ALIAS)])
            self.assertEqual([it.meeting is None for it in causes_of(told, rule)], [False, True])

    def test_bits_of_several_lines_tell_another_one(self) -> None:
        told = event([member(task("1"), 2, 1, *many_loads())], task("w"), store(JOINT))
        found, = causes_of(told, BLOOM)
        assert found.meeting is not None
        self.assertEqual((found.kind, found.sharing, found.meeting.own, found.meeting.other.address),
                         (Kind.ACCESS, Sharing.ALIAS, None, DATA + JOINT))
        self.assertIsNone(causes_of(told, EXACT)[0].meeting)
        # A load meets stores alone, and of these there are none.
        self.assertIsNone(causes_of(event(told.taken, task("r"), load(JOINT)), BLOOM)[0].meeting)

    def test_bits_of_several_lines_tell_what_a_member_wrote(self) -> None:
        first = member(task("1"), 2, 1, load(5_000 * LINE), store(JOINT))
        told = event([first, member(task("2"), 3, 2, *many_loads())], task("w"), store(5_000 * LINE))
        self.assertEqual(told_of(told, BLOOM)[1], ("2", Kind.TOUCHED, Sharing.ALIAS, "1", "1"))


class SentencesTest(unittest.TestCase):
    """The sentences on causes."""
    def setUp(self) -> None:
        self.sentences = CauseSentences(lambda it: str(it.name), RULE)

    def sentences_of(self, told: Any, rule: LineRule = RULE) -> list[str]:
        """The sentence on each cause of a line."""
        return [self.sentences.sentence(cause) for cause in causes_of(told, rule)]

    def test_sentences(self) -> None:
        one = task("0.0")
        told = event([member(one, 2, 1, load(0, 5), store(64, 6)), member(task("0.2"), 3, 2, load(68)),
                      member(task("0.0+0", one), 2, UNDISPATCHED, is_gone=True)], task("0.1"), store(0))
        self.assertEqual(self.sentences_of(told), [
            "it loaded 5 from 10000000, and 0.1 stores there",
            "0.0, which made it, was aborted",
            "it loaded 0 from 10000044, and 0.0, which was aborted, had stored at 10000040; they share the line of "
            "16 bytes and no byte"])

    def test_a_bit_is_told_with_both_lines(self) -> None:
        told = event([member(task("0.0"), 2, 1, store(ALIAS))], task("0.1"), load(0))
        self.assertEqual(self.sentences_of(told), [
            "it stored 1 to 10004000, and 0.1 loads at 10000000; they share a bit of the filter and no byte, since it "
            "has one for the lines 1,024 and 0"])

    def test_bits_of_several_lines_are_told_with_the_line(self) -> None:
        told = event([member(task("0.0"), 2, 1, *many_loads())], task("0.1"), store(JOINT))
        self.assertEqual(self.sentences_of(told, BLOOM), [
            "its filter reports the line 2,201, and 0.1 stores at 10008990; each bit of that line is one of a line "
            "that it noted, and they share no byte"])

    def test_room_is_told_with_who_needs_it(self) -> None:
        cases: tuple[tuple[Any, str], ...] = (
            ({"asks": "end"}, "0.1 ends, and the commit queue is full"),
            ({"asks": "enqueue"}, "0.1 needs room in a full task queue"),
            ({"do": "dispatch"}, "0.1 is dispatched, and each core holds a task"))
        for line, part in cases:
            self.assertEqual(self.sentences_of(event([member(task("0.0"), 2, 1)], task("0.1"), **line)), [part])
        splitter = event([member(task("0.0"), 2, 1)], None, do="split")
        self.assertEqual(self.sentences_of(splitter), ["the splitter of the tile needs room in a full task queue"])


if __name__ == "__main__":
    unittest.main()
