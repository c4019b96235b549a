"""The memory of programs that tools call: an image of a few bytes may ask for all that there is."""
from __future__ import annotations

import os
import pathlib
import tempfile
import unittest
from unittest import mock

from yotarimu.common.outcome import Refusal
from yotarimu.programs import calls, limits, memory
from yotarimu.programs.calls import Calls
from yotarimu.programs.table import why_no_answer

# Each call reads its input first, as the programs do, and then says how many KiB of address space it may have.
STUB = "#!/bin/sh\ncat >/dev/null\nulimit -v\n"


@unittest.skipUnless(hasattr(os, "posix_spawn") and pathlib.Path("/proc").is_dir(), "no limits of other processes")
class MemoryLimits(unittest.TestCase):
    """Limits of address space."""
    def setUp(self) -> None:
        self.place = tempfile.TemporaryDirectory()
        self.addCleanup(self.place.cleanup)

    def stub(self) -> Calls:
        """Calls of a program that says its limit."""
        path = pathlib.Path(self.place.name, "stub")
        path.write_text(STUB)
        path.chmod(0o755)
        return Calls((str(path),))

    def told(self, of: Calls) -> str:
        """What a call says."""
        return of.call([], b"input").written.decode().strip()

    def test_a_call_has_a_limit(self) -> None:
        self.assertEqual(self.told(self.stub()), str(4 << 20))

    def test_the_environment_says_another(self) -> None:
        for text, wanted in (("1", str(1 << 20)), ("0", "unlimited"), ("", str(4 << 20))):
            with self.subTest(text=text), mock.patch.dict(os.environ, {calls.MEMORY_NAME: text}):
                self.assertEqual(self.told(self.stub()), wanted)
        with mock.patch.dict(os.environ, {calls.MEMORY_NAME: "much"}), self.assertRaisesRegex(Refusal, "MEMORY"):
            self.stub()

    def test_a_stack_has_a_limit(self) -> None:
        path = pathlib.Path(self.place.name, "stub")
        path.write_text("#!/bin/sh\nulimit -s\n")
        path.chmod(0o755)
        for stack, wanted in ((memory.LEAST_STACK, b"512\n"), (limits.STACK, b"1024\n")):
            self.assertEqual(limits.answer(path, [], b"", limits.MOST, stack), (0, wanted))

    def test_too_little_is_said(self) -> None:
        self.assertIn("a tool gives it 4 GiB, and YOTARIMU_MEMORY=N gives it N.", why_no_answer(5))
        self.assertNotIn("GiB", why_no_answer(7))


if __name__ == "__main__":
    unittest.main()
