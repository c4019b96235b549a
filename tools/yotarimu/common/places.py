"""Where the parts of the repository, or of an archive of it, are."""
from __future__ import annotations

import os
import pathlib

# An installed package finds them by YOTARIMU_HOME, one in a clone by its own place.
HOME = pathlib.Path(os.environ.get("YOTARIMU_HOME") or pathlib.Path(__file__).parents[3]).resolve()
EXAMPLES_FOLDER = HOME / "examples"
TOOLS_FOLDER = HOME / "tools"
# An archive has this file, and a clone hasn't.
ARCHIVE = HOME / "PACKAGE"
