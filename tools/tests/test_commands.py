"""The commands of the package: their pages, the options of these, and what the launcher's table has of them."""
from __future__ import annotations

import importlib
import re
import unittest

from yotarimu.common.pages import FOLDERS, command_names, declared_in, entries_of, page_of
from yotarimu.figures.tasks import SPREADS
from yotarimu.programs.table import Table

COMMANDS = [*command_names(), *(f"{folder} {name}" for folder in FOLDERS for name in command_names(folder))]


class Commands(unittest.TestCase):
    """The table of commands."""
    def test_each_has_a_row(self) -> None:
        self.assertEqual(sorted(Table().tools), command_names())

    def test_each_is_in_one_group(self) -> None:
        table = Table()
        grouped = [word for words in table.groups.values() for word in words]
        self.assertEqual(sorted(grouped), sorted({*table.commands, *table.own}))


class Pages(unittest.TestCase):
    """The pages of commands."""
    def test_each_begins_its_module(self) -> None:
        for name in COMMANDS:
            page = (importlib.import_module(f"yotarimu.commands.{name.replace(' ', '.')}").__doc__ or "").strip()
            self.assertEqual(page_of(name), page, name)
            self.assertIn(f"\nusage: ./fractal {name}", page)

    def test_each_option_is_declared_once_and_has_a_purpose(self) -> None:
        for name in COMMANDS:
            entries = list(entries_of(page_of(name)))
            self.assertEqual(len({entry[0] for entry in entries}), len(entries), name)
            for entry in entries:
                self.assertTrue(entry[2], f"{name} --{entry[0]}")

    def test_limits_come_last(self) -> None:
        for name in COMMANDS:
            for option in declared_in(page_of(name)).values():
                self.assertNotIn("; default ", option.purpose, f"{name} --{option.name}")

    def test_each_option_of_an_example_is_declared(self) -> None:
        known = set(Table().mode_options)
        for name in COMMANDS:
            page = page_of(name)
            for call in re.findall(rf"\./fractal {name}(?! \w+ --help| --help)\b(.*)", page):
                used = set(re.findall(r"--([a-z-]+)", call))
                self.assertLessEqual(used, {*declared_in(page), *known, "output"}, name)

    def test_histograms_are_all_named(self) -> None:
        self.assertIn(f": {', '.join(SPREADS)}", declared_in(page_of("figures"))["histogram"].purpose)

    def test_values_and_defaults_are_read(self) -> None:
        page = ("A page.\n\n  --jobs N   how many runs at once\n             (1 to 1,024; default 1)\n"
                "  --log AXES  logarithmic axes (x, y or xy)\n  --check    checks (again)\n\n    --more text\n")
        found = declared_in(page)
        self.assertEqual(list(found), ["jobs", "log", "check"])
        self.assertEqual((found["jobs"].values, found["jobs"].default), (range(1, 1025), "1"))
        self.assertEqual((found["jobs"].purpose, found["jobs"].range_text()), ("how many runs at once", "1 to 1,024"))
        self.assertEqual((found["log"].values, found["log"].range_text()), (("x", "y", "xy"), "x, y or xy"))
        self.assertEqual((found["check"].value, found["check"].purpose), ("", "checks (again)"))


if __name__ == "__main__":
    unittest.main()
