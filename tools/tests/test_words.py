"""Words of a call: values, flags, numbers, and what is refused in one sentence."""
from __future__ import annotations

import unittest

from yotarimu.common.outcome import Refusal
from yotarimu.common.words import Words, need_number, number_in, take_option

WORDS = Words("sweep", ["csv", "jobs"], ["check"])


class WordsTest(unittest.TestCase):
    """The words of a call."""
    def test_values_stand_behind_or_after_an_equals_sign(self) -> None:
        for words in (["a", "--csv", "x", "b"], ["--csv=x", "a", "b"], ["a", "b", "--csv=x"]):
            given = WORDS.read(words)
            self.assertEqual((given.values["csv"], given.others), ("x", ["a", "b"]), words)

    def test_what_is_not_given_is_none(self) -> None:
        given = WORDS.read([])
        self.assertEqual((given.values, given.flags, given.others), ({"csv": None, "jobs": None}, frozenset(), []))

    def test_flags_are_told_by_name(self) -> None:
        self.assertEqual(WORDS.read(["--check"]).flags, {"check"})

    def test_a_dash_and_a_number_below_0_are_no_options(self) -> None:
        given = WORDS.read(["-", "-1", "--jobs", "-1"])
        self.assertEqual((given.others, given.values["jobs"]), (["-", "-1"], "-1"))

    def test_refusals_are_sentences(self) -> None:
        for words, told in (
                (["--csv"], "--csv needs a value."),
                (["--csv", "--jobs", "1"], "--csv needs a value."),
                (["--csv", "x", "--csv=y"], "--csv is given twice."),
                (["--check=1"], "--check takes no value."),
                # No name is cut short.
                (["--jbs", "x"], "unknown option --jbs; did you mean --jobs?"),
                (["--expect", "x"], "unknown option --expect, which belongs to compare."),
                (["-csv", "x"], "unknown option -csv; did you mean --csv?"),
                (["--"], "unknown option --; ./fractal sweep --help lists them.")):
            with self.assertRaises(Refusal) as refused:
                WORDS.read(words)
            self.assertEqual(str(refused.exception), told)

    def test_values_are_what_the_page_allows(self) -> None:
        page = "Plots.\n\n  --log AXES  axes (x, y or xy)\n  --jobs N  jobs (1 to 9; default 2)\n"
        declared = Words("plot", page=page)
        self.assertEqual(declared.read([]).number("jobs"), 2)
        self.assertEqual(declared.read(["--jobs", "9", "--log=xy"]).number("jobs"), 9)
        for words, told in ((["--log", "z"], "--log must be x, y or xy, not z."),
                            (["--jobs", "0"], "--jobs must be 1 to 9, not 0."),
                            (["--log"], "--log needs a value: x, y or xy.")):
            with self.assertRaises(Refusal) as refused:
                declared.read(words)
            self.assertEqual(str(refused.exception), told)

    def test_a_count_of_words_is_held(self) -> None:
        self.assertEqual(WORDS.read(["a", "b"]).need("two", 2), ["a", "b"])
        self.assertEqual(WORDS.read(["a"]).need("one or two", 1, 2), ["a"])
        with self.assertRaisesRegex(Refusal, r"^it needs a SCRIPT; ./fractal sweep --help has more\.$"):
            WORDS.read(["a", "b"]).need("a SCRIPT", 1)

    def test_one_option_is_taken_and_the_rest_is_left(self) -> None:
        self.assertEqual(take_option(["--a", "1", "b", "--c", "2"], "--a"), ("1", ["b", "--c", "2"]))

    def test_options_of_another_mode_are_refused(self) -> None:
        given = WORDS.read(["--csv", "x", "--check"])
        given.need_only(("csv", "check"), "`run`")
        with self.assertRaisesRegex(Refusal, "^`make` takes no --check; ./fractal sweep --help has more.$"):
            given.need_only(("csv",), "`make`")


class Numbers(unittest.TestCase):
    """Numbers among words."""
    def test_numbers_are_decimal_or_hexadecimal_after_0x(self) -> None:
        self.assertEqual([number_in(word, 0, 255) for word in ("0", "007", "0xff", "0XFF")], [0, 7, 255, 255])

    def test_other_words_are_none(self) -> None:
        for word in ("", "-1", "1 ", "1_0", "0x", "256", "\u0661", "1e3", "9" * 21):
            self.assertIsNone(number_in(word, 0, 255), word)

    def test_a_refusal_tells_the_range(self) -> None:
        with self.assertRaisesRegex(Refusal, "^--jobs must be 1 to 9, not 0.$"):
            need_number("--jobs", "0", 1, 9)


if __name__ == "__main__":
    unittest.main()
