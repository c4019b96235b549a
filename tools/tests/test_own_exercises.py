"""Your own exercises, by docs/guide/LESSON.md; options whose values are words; and programs of other systems."""
from __future__ import annotations

import pathlib
import sys
import tempfile
import unittest

from yotarimu.common.acts import ACTS, form_of, replies_of
from yotarimu.common.outcome import Refusal
from yotarimu.courses.grid import cells_of, values_of
from yotarimu.courses.own_exercises import Condition, is_in, is_met, read_wanted
from yotarimu.programs.program import why_not_started
from yotarimu.programs.table import option_in


def condition(text: str) -> Condition:
    """A condition, as the first line of a file has it."""
    return Condition(1, text.split(), text)


class OwnExercises(unittest.TestCase):
    """What a file `wanted` says."""

    def test_ranges_have_both_ends(self) -> None:
        """A range is one number, or has one end or both, which are in it."""
        for text, right, wrong in (("3", (3,), (2, 4)), ("1..", (1, 9), (0,)), ("..5", (0, 5), (6,)),
                                   ("1..5", (1, 5), (0, 6))):
            self.assertTrue(all(is_in(number, text) for number in right), text)
            self.assertFalse(any(is_in(number, text) for number in wrong), text)

    def test_conditions_are_met(self) -> None:
        """A condition on numbers holds in its range, one on the end or the output where that is the same."""
        for text, seen, is_so in (("taken 1..", "2", True), ("reply stall 2", "1", False), ("end trap", "trap", True),
                                  ("output AB C", "AB C", True), ("output", "", True), ("output A", "B", False)):
            self.assertEqual(is_met(condition(text), seen), is_so, text)

    def test_files_are_read(self) -> None:
        """Comments and blank lines are left out, and a line that can't be read is reported by its number."""
        with tempfile.TemporaryDirectory() as folder:
            path = pathlib.Path(folder, "wanted")
            path.write_text("# mine\n\nanswer script\nacts ..9  # few\nend normal\n")
            wanted = read_wanted(path)
            self.assertEqual(wanted.answer, "script")
            self.assertEqual([(it.line, it.text) for it in wanted.conditions], [(4, "acts ..9"), (5, "end normal")])
            for text, told in (("end so\n", ":1: `end so` isn't whole"), ("acts ..\n", ":1: `acts ..`"),
                               ("answer x\n", ":1: `answer` stands once"), ("end trap\n", "no line `answer`"),
                               ("answer script\nacts 5..1\n", ":2: `acts 5..1` isn't whole"),
                               ("# any\nanswer source\n", "no line says what has to hold of a source")):
                path.write_text(text)
                with self.assertRaisesRegex(Refusal, told):
                    read_wanted(path)


class OptionsOfWords(unittest.TestCase):
    """Options whose values are words, and those of numbers."""

    def test_values_are_words_or_numbers(self) -> None:
        """A row is a word or a number as its value is, unless it has a type."""
        taste, size = option_in("taste", "sweet,sour", "sour", "how"), option_in("size", "1..9", "4", "how many")
        self.assertEqual((taste.value_in("sweet"), taste.value_in("salt"), taste.value_in("")), ("sweet", None, None))
        self.assertEqual((size.value_in("9"), size.value_in("10"), size.value_in("four")), (9, None, None))
        with self.assertRaisesRegex(Refusal, "--taste takes one of sweet, sour, and not `salt`."):
            taste.need("salt")
        self.assertEqual(values_of(taste, "sour,sweet,sour"), ["sour", "sweet"])
        cells = cells_of({"taste": taste, "size": size}, {"taste": ["sweet", "sour"]})
        self.assertEqual(cells, [{"taste": "sweet", "size": 4}, {"taste": "sour", "size": 4}])


class Acts(unittest.TestCase):
    """The table of acts, on docs/guest/FORMATS.md."""

    def test_acts_are_as_the_formats_have_them(self) -> None:
        """Each has its numbers, and all but `take` are too late at the end."""
        forms = [form_of(word) for word in ("dispatch", "step", "commit")]
        self.assertEqual(forms, ["dispatch T", "step T C", "commit"])
        self.assertEqual([word for word in ACTS if "ended" not in replies_of(word)], ["take"])
        self.assertEqual([word for word, kind in ACTS.items() if not kind.is_event], ["take", "give", "advance"])


class Starts(unittest.TestCase):
    """Which programs this system starts, by their first bytes."""

    def test_other_processors_are_told(self) -> None:
        """A program for another processor is reported; a script, a missing file, and Python itself aren't."""
        with tempfile.TemporaryDirectory() as folder:
            path = pathlib.Path(folder, "program")
            path.write_bytes(b"\x7fELF\x02\x01\x01" + bytes(9) + bytes((2, 0, 8, 0)))
            self.assertIn("this system can't start", why_not_started(path) or "")
            path.write_text("#!/bin/sh\n")
            self.assertIsNone(why_not_started(path))
        self.assertIsNone(why_not_started(path))
        self.assertIsNone(why_not_started(pathlib.Path(sys.executable)))


if __name__ == "__main__":
    unittest.main()
