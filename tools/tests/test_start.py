"""Starts where something is missing: no command in the path, no Python, and one that is too old."""
from __future__ import annotations

import ast
import os
import pathlib
import shutil
import subprocess
import sys
import tempfile
import unittest

from yotarimu.common.places import HOME

LAUNCHER, START = str(HOME / "fractal"), str(HOME / "tools" / "start")
CHECKS = HOME / ".ci" / "python"
SCRIPT = HOME / "tools" / "start.py"
MISSING = 69
# What the launcher and tools/start call before Python.
COMMANDS = ("awk", "cat", "cut", "date", "dirname", "env", "grep", "head", "mktemp", "readlink", "rm", "sed", "sh",
            "sleep", "tail", "true")


class Starts(unittest.TestCase):
    """Calls that can't be answered: one sentence and a status of their own, and nothing on standard output."""

    def refuse(self, words: list[str], path: str, part: str) -> None:
        """Expects a sentence with some part."""
        done = subprocess.run(words, env={"PATH": path}, capture_output=True, text=True, stdin=subprocess.DEVNULL)
        with self.subTest(words=words[1:]):
            self.assertEqual((done.returncode, done.stdout), (MISSING, ""), done.stderr)
            self.assertEqual(done.stderr.count("\n"), 1, done.stderr)
            self.assertIn(part, done.stderr)

    def test_an_empty_path_gives_no_part_of_a_page(self) -> None:
        with tempfile.TemporaryDirectory() as empty:
            for path in ("", empty):
                for words in ("", "help", "help run", "--help", "--version", "dev table", "explain"):
                    self.refuse([LAUNCHER, *words.split()], path, "which isn't in the path")
            self.refuse([START, "explain"], empty, "Python 3.9 or later")

    def test_without_python(self) -> None:
        with tempfile.TemporaryDirectory() as folder:
            for name in COMMANDS:
                found = shutil.which(name)
                if found:
                    os.symlink(found, pathlib.Path(folder, name))
            self.refuse([LAUNCHER, "explain"], folder, "wants python3, which isn't in the path")
            for words, part in ((["help"], "Exit statuses"), (["help", "explain"], "usage: ./fractal explain"),
                                (["dev", "tries", "-h"], "usage: ./fractal dev tries")):
                done = subprocess.run([LAUNCHER, *words], env={"PATH": folder}, capture_output=True, text=True)
                self.assertEqual((done.returncode, done.stderr), (0, ""))
                self.assertIn(part, done.stdout)

    def test_too_little_address_space_is_said(self) -> None:
        with tempfile.TemporaryDirectory() as folder:
            program = pathlib.Path(folder, "crates", "fractal_sim", "out", "fractal_sim")
            program.parent.mkdir(parents=True)
            program.write_text("#!/bin/sh\nkill -s SEGV $$\n")
            program.chmod(0o755)
            shutil.copy(LAUNCHER, folder)
            words = ["/bin/sh", "-c", 'ulimit -v 4000000 && exec "$0" run', f"{folder}/fractal"]
            done = subprocess.run(words, capture_output=True, text=True, stdin=subprocess.DEVNULL)
        self.assertEqual((done.returncode, done.stdout), (139, ""))
        self.assertIn("can't be loaded or run in 4000000 KiB of address space (ulimit -v): status 139.", done.stderr)

    def test_checks_of_python_want_python(self) -> None:
        if not CHECKS.is_file():
            self.skipTest("an archive has no such script")
        with tempfile.TemporaryDirectory() as folder:
            for name in ("dirname", "env", "sh"):
                os.symlink(shutil.which(name) or "", pathlib.Path(folder, name))
            self.refuse([str(CHECKS)], folder, "wants python3, which isn't in the path")

    def test_an_older_python_reads_as_far_as_its_refusal(self) -> None:
        ast.parse(SCRIPT.read_text(encoding="utf-8"), feature_version=(3, 5))
        older = ("import runpy, sys; sys.version_info = (3, 8, 18, 'final', 0); "
                 f"sys.argv = ['start.py', 'explain']; runpy.run_path({str(SCRIPT)!r}, run_name='__main__')")
        self.refuse([sys.executable, "-c", older], os.environ["PATH"], "Python 3.9 or later, and python3 is 3.8.18")


if __name__ == "__main__":
    unittest.main()
