"""Event logs of which one number was edited: a reader that has the image refuses what the run contradicts, and names
the settings that it can't know."""
from __future__ import annotations

import io
import re
import unittest
from collections.abc import Iterator
from typing import Optional

from yotarimu.common.outcome import Refusal
from yotarimu.images.image import Image, read_image
from yotarimu.images.listing import NO_LISTING
from yotarimu.lines import taken_tasks
from yotarimu.lines.placers import Placers
from yotarimu.lines.reader import Reader

from tests.test_lines import SCHEDULES, WORKED

# Event logs, and the folders of their images.
LOGS = {**{f"{name}/worked": folder for name, folder in WORKED.items()}, "conflict/lines": "conflict"}


def edits_of(data: bytes) -> Iterator[tuple[int, str, bytes]]:
    """The line of each edit of one number, the field that the number is in, and the edited bytes."""
    for found in re.finditer(rb"[0-9]+", data):
        number = int(found[0])
        before = data[:found.start()]
        field = re.findall(rb'"(\w+)":', before[-400:])[-1].decode()
        for other in {number + 1, abs(number - 1), 0, 2 * number} - {number}:
            yield before.count(b"\n") + 1, field, before + b"%d" % other + data[found.end():]


def read(data: bytes, image: Image) -> Optional[Reader]:
    """What read an event log to its end; None if it refuses that."""
    reader = Reader(io.BytesIO(data), "log", image=image)
    try:
        for _ in reader:
            pass
    except Refusal:
        return None
    return reader


class EditedLogs(unittest.TestCase):
    """All edits of one number of some logs."""
    def test_only_settings_that_no_line_confirms_are_accepted(self) -> None:
        edits = 0
        for file, folder in LOGS.items():
            image = read_image((SCHEDULES / folder / "image.bin").read_bytes(), folder)
            data = (SCHEDULES / file).read_bytes()
            whole = read(data, image)
            assert whole is not None
            unknown = whole.machine.unconfirmed()
            accepted: set[tuple[int, str]] = set()
            for line, field, edited in edits_of(data):
                edits += 1
                try:
                    is_taken = read(edited, image) is not None
                except Refusal:
                    is_taken = False
                if is_taken:
                    accepted.add((line, field))
            with self.subTest(file):
                self.assertLessEqual(accepted, {(1, name) for name in unknown})
        self.assertGreater(edits, 1_500)

    def test_explanations_say_what_no_line_confirms(self) -> None:
        for file in ("conflict/lines", "domains_by_hand/worked"):
            path = SCHEDULES / LOGS[file] / "image.bin"
            run = taken_tasks.Run(str(SCHEDULES / file), read_image(path.read_bytes(), path), NO_LISTING)
            with self.subTest(file):
                last = taken_tasks.text_of(run)[-1]
                self.assertRegex(last, "^No line confirms these settings.* isn't noticed: .*line")

    def test_what_a_run_confirms(self) -> None:
        """One log spills tasks at a task queue of 4, and one is in rounds, which fix the tiles and cores."""
        for file, confirmed in (("domains_by_hand/worked", "task_queue"), ("rounds_by_hand/worked", "tiles"),
                                ("rounds_by_hand/worked", "cores")):
            image = read_image((SCHEDULES / LOGS[file] / "image.bin").read_bytes(), file)
            reader = read((SCHEDULES / file).read_bytes(), image)
            assert reader is not None
            with self.subTest(file):
                self.assertNotIn(confirmed, reader.machine.unconfirmed())
                self.assertIn("line", reader.machine.unconfirmed())


class PlacersTest(unittest.TestCase):
    """The placers, by docs/machine/SETTINGS.md."""
    def test_each_serves_for_a_phase(self) -> None:
        placers, queues = Placers(3, 2), [[0], list[int](), list[int]()]
        self.assertEqual([placers.pick(hint, 1, queues) for hint in (0, 4, 5)], [0, 1, 2])
        self.assertEqual([placers.pick(0, commits, queues) for commits in (2, 3)], [1, 1])
        self.assertEqual(placers.pick(7, 4, queues), 0)
        placers.placed(0, 4)
        self.assertEqual(placers.pick(7, 9, queues), 1)
        placers.placed(2, 9)
        self.assertEqual(placers.pick(7, 9, queues), 0)

    def test_hints_tell_the_tiles(self) -> None:
        placers = Placers(2, 9)
        placers.pick(1, 0, [])
        self.assertEqual(placers.fitting, set(range(2, 17)))
        placers.pick(3, 0, [])
        self.assertEqual(placers.fitting, {2})


if __name__ == "__main__":
    unittest.main()
