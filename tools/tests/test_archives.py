"""What an archive's installer makes, whatever the umask of the person who unpacks it."""
from __future__ import annotations

import pathlib
import shutil
import stat
import subprocess
import tempfile
import unittest

from yotarimu.common.places import HOME

INSTALL = HOME / ".ci" / "install"
FILES = ("fractal", "PACKAGE", "docs/page.md", "share/bash-completion/completions/fractal",
         "share/zsh/site-functions/_fractal", "share/man/man1/fractal.1")
PROGRAMS = ("fractal", "install")


@unittest.skipUnless(INSTALL.is_file(), "an archive has no such script")
class Installations(unittest.TestCase):
    """Modes of installed files."""
    def test_all_can_read_and_one_can_write(self) -> None:
        for umask in ("077", "000"):
            with self.subTest(umask=umask), tempfile.TemporaryDirectory() as place:
                unpacked, prefix = pathlib.Path(place, "unpacked"), pathlib.Path(place, "prefix")
                self.unpack(unpacked, umask)
                words = ["/bin/sh", "-c", 'umask "$0" && exec "$1" "$2"', umask, str(unpacked / "install"), str(prefix)]
                done = subprocess.run(words, capture_output=True, text=True)
                self.assertEqual((done.returncode, done.stderr), (0, ""))
                for path in (prefix, *prefix.rglob("*")):
                    mode = stat.S_IMODE(path.stat().st_mode)
                    wanted = 0o755 if path.is_dir() or path.name in PROGRAMS and path.parent.name != "completions" \
                        else 0o644
                    self.assertEqual(oct(mode), oct(wanted), path)

    def unpack(self, folder: pathlib.Path, umask: str) -> None:
        """Makes the files of an archive as `tar` does under a umask."""
        masked = int(umask, 8)
        for name in FILES:
            (folder / name).parent.mkdir(parents=True, exist_ok=True)
            (folder / name).write_text("text\n")
        shutil.copy(INSTALL, folder / "install")
        for path in (folder, *folder.rglob("*")):
            is_open = path.is_dir() or path.parent == folder and path.name in PROGRAMS
            path.chmod((0o777 if is_open else 0o666) & ~masked)


if __name__ == "__main__":
    unittest.main()
