"""What the checker of tasks finds, and what it skips: reads before writes, and accesses that leave their label."""
from __future__ import annotations

import contextlib
import io
import pathlib
import tempfile
import unittest

from yotarimu.commands.explain import main
from yotarimu.common.outcome import Refusal
from yotarimu.comparing.serial_orders import OrderedMachine
from yotarimu.images.image import Image
from yotarimu.images.labels import listing_for
from yotarimu.images.folder import build
from yotarimu.images.listing import Listing
from yotarimu.reports.poison import CheckedMachine, text_of
from yotarimu.reports.report import Name, Trap

HEAD = "# image: version {version}\n# image: task start ts 0\n# image: root ordered\nstart:\n"
END = "    li a7, 0\n    ecall\n"
DATA = "    .data\nfirst: .word 1, 2, 3, 4\nsecond: .word 5\nthird: .word 6\n"
CHILD = "    la a0, child\n    li a1, 1\n    li a7, 1\n    ecall\n" + END + "child:\n"
# The instructions of a task, and a part of the one sentence on them.
FOUND = {
    "    add a0, a0, t0\n" + END: "reads t0 before it writes it",
    "    bnez s3, start\n" + END: "reads s3 before it writes it",
    "    ecall\n": "reads a7 before it writes it",
    "    la t0, first\n    sw t1, 0(t0)\n" + END + DATA: "reads t1 before it writes it",
    "    lw a0, -8(sp)\n" + END: "reads 4 bytes of its stack at 200003f8 before it writes them",
    "    sb a0, -8(sp)\n    lb a0, -7(sp)\n" + END: "reads 1 byte of its stack at 200003f9",
    "    sw s0, -4(sp)\n    lw s0, -4(sp)\n    mv a0, s0\n" + END: "reads s0 before it writes it",
    "    la t0, first\n    add t0, t0, a0\n    lw t1, 16(t0)\n    addi t0, t0, 20\n    lw t1, -4(t0)\n" + END + DATA:
        "leaves `first`, where its address started: it accesses 4 bytes at 10000010, right after its end",
    "    la t0, third\n    sub t0, t0, a3\n    addi t0, t0, -8\n    sw a0, 0(t0)\n" + END + DATA:
        "4 bytes at 1000000c, 8 bytes before it",
    "    la a2, third\n" + CHILD + "    addi a0, a0, -16\n    lw t0, 0(a0)\n" + END + DATA: "16 bytes before it",
    "    mv a2, a0\n" + CHILD + "    add t0, a0, a2\n" + END:
        "reads a2, an argument that the task of turn 1 never wrote",
}
CLEAN = (
    "    addi sp, sp, -8\n    sw ra, 4(sp)\n    sw s0, 0(sp)\n    call inner\n    lw s0, 0(sp)\n    lw ra, 4(sp)\n"
    "    addi sp, sp, 8\n" + END + "inner: ret\n",
    "    sb a0, -8(sp)\n    lw a0, -8(sp)\n" + END,
    "    la t0, second\n    add t0, t0, a0\n    lw t1, -4(t0)\n" + END + DATA,
    "    la t0, first\n    lw t1, 16(t0)\n" + END + DATA,
    "    la t0, first\n    la t1, second\n    sub t2, t1, t0\n    add t2, t2, t0\n    lw t2, -4(t2)\n" + END + DATA,
    "    mv a2, a0\n" + CHILD + "    add t0, a0, a1\n" + END,
)


def built(source: str, folder: pathlib.Path, version: int = 2) -> tuple[Image, Listing]:
    """The image of a source, and its listing, in a folder."""
    (folder / "task.s").write_text(HEAD.format(version=version) + source)
    image, _ = build(folder)
    return image, listing_for(folder / "image.bin", image, None)[0]


def findings(source: str, version: int = 2) -> list[str]:
    """What is found in the run of a source, without the places, and how much was checked."""
    with tempfile.TemporaryDirectory() as folder:
        image, listing = built(source, pathlib.Path(folder), version)
        orders = OrderedMachine(image, 0)
        end = orders.result(100).end.split()
        machine = CheckedMachine(image, listing)
        assert machine.follow(orders.entries) is None
        if end[0] == "trap":
            machine.check_trap(Trap(int(end[1]), int(end[2], 16), Name(0, 0)))
        return [line for line in text_of(machine, listing) if line and not line.startswith(" ")]


class Checks(unittest.TestCase):
    """What is found in a task."""
    def test_mistakes_are_found_once_each(self) -> None:
        for source, part in FOUND.items():
            *found, last = findings(source)
            self.assertEqual(len(found), 1, (source, found))
            self.assertIn(part, found[0])
            self.assertTrue(last.startswith("1 finding: "), last)

    def test_correct_tasks_have_no_finding(self) -> None:
        for source in CLEAN:
            [last] = findings(source)
            self.assertTrue(last.startswith("Nothing was found: "), source)

    def test_a_stack_that_is_not_there_is_found_before_the_trap(self) -> None:
        found = findings("    sw a0, -4(sp)\n" + END, 1)
        self.assertIn("reads sp before it writes it", found[0])


class Commands(unittest.TestCase):
    """`./fractal explain --poison`."""
    def explained(self, source: str, report: str) -> tuple[int, str]:
        """The status and the text of a call."""
        with tempfile.TemporaryDirectory() as place, contextlib.redirect_stdout(io.StringIO()) as said:
            folder = pathlib.Path(place)
            built(source, folder)
            (folder / "report").write_text(report)
            return main([str(folder / "image.bin"), str(folder / "report"), "--poison"]), said.getvalue()

    def test_a_finding_has_its_source_line_and_status_1(self) -> None:
        status, text = self.explained("    add a0, a0, t0\n" + END, "fractal 1\n1 0.0 1 0\noutput -\nend normal\n")
        self.assertEqual(status, 1)
        self.assertIn("  at 00010000, start, task.s:5: add a0, a0, t0\n", text)

    def test_nothing_found_says_how_much_was_checked(self) -> None:
        status, text = self.explained(END, "fractal 1\n1 0.0 1 0\noutput -\nend normal\n")
        self.assertEqual(status, 0)
        self.assertIn("Nothing was found: 1 task and 2 instructions were checked.", text)

    def test_a_report_of_another_image_is_refused(self) -> None:
        with self.assertRaisesRegex(Refusal, "isn't a report of a run"):
            self.explained(END, "fractal 1\n1 0.0 1 7\noutput -\nend normal\n")
