"""Runs a command of the package, or a script of the repository, for the file `start` beside this one.

Python puts this folder first in its path, so the package is in reach wherever a call is made from, and a script's own
folder comes before it. Compiled modules are kept in the user's cache, never in the clone. This file has no syntax that
is newer than Python 3.5, so that an older Python than the tools want is refused in a sentence.
"""
import os
import runpy
import sys
from typing import List

OLDEST = (3, 9)
# As the launcher says that something is missing.
MISSING = 69
CACHE = os.environ.get("XDG_CACHE_HOME") or os.path.join(os.environ.get("HOME") or "/tmp", ".cache")
sys.pycache_prefix = os.path.join(CACHE, "fractal", "modules")


def start(words: List[str]) -> None:
    """A word without a slash names a command; a path is that of a script. Without words nothing is started."""
    if not words:
        return
    if "/" in words[0]:
        sys.argv = words
        sys.path.insert(0, os.path.dirname(os.path.abspath(words[0])))
        runpy.run_path(words[0], run_name="__main__")
    else:
        from yotarimu.__main__ import call
        call(words)


if sys.version_info < OLDEST:
    found, oldest = (".".join(map(str, version)) for version in (sys.version_info[:3], OLDEST))
    sys.stderr.write("fractal: the tools want Python %s or later, and python3 is %s.\n" % (oldest, found))
    sys.exit(MISSING)
if __name__ == "__main__":
    start(sys.argv[1:])
