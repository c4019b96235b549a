"""The pictures of the page in the documents, which one command takes; `.ci/generate` makes all other pictures."""
from __future__ import annotations

import hashlib
import pathlib
import shutil
import struct
import subprocess
import tempfile
import zlib
from typing import Iterator, Optional

from yotarimu.common.files import write_whole
from yotarimu.common.outcome import Refusal
from yotarimu.common.places import HOME
from yotarimu.web.bundle import PACKAGE, PAGE as SOURCES
from yotarimu.web.modules import PAGE

SHOTS = HOME / "docs" / "guide"
NAMES = ("page.png", "page_lockstep.png")
SCRIPT = HOME / "tools" / "tries" / "browser" / "pictures.mjs"
BROWSER, NODE = "chromium", "node"
# What a picture was made of is noted in it under this word.
NOTE, HEAD = b"Source", 8
MOST_SECONDS = 300


def page_digest() -> str:
    """The digest of the sources that the look of the page depends on."""
    digest = hashlib.sha256()
    for path in sorted([*SOURCES.iterdir(), PACKAGE / "pictures" / "timeline.json", PACKAGE / "web" / "story.json"]):
        digest.update(path.name.encode() + path.read_bytes())
    return digest.hexdigest()[:16]


def chunks(picture: bytes) -> Iterator[tuple[bytes, bytes]]:
    """The chunks of a PNG, each with its kind."""
    place = HEAD
    while place + 12 <= len(picture):
        size, = struct.unpack(">I", picture[place:place + 4])
        yield picture[place + 4:place + 8], picture[place + 8:place + 8 + size]
        place += 12 + size


def with_note(picture: bytes, note: str) -> bytes:
    """A PNG with a text after its first chunk."""
    first = HEAD + 12 + struct.unpack(">I", picture[HEAD:HEAD + 4])[0]
    body = b"tEXt" + NOTE + b"\0" + note.encode()
    made = struct.pack(">I", len(body) - 4) + body + struct.pack(">I", zlib.crc32(body))
    return picture[:first] + made + picture[first:]


def note_in(picture: bytes) -> Optional[str]:
    """The text that a PNG has; None if it has none."""
    for kind, body in chunks(picture):
        if kind == b"tEXt" and body.startswith(NOTE + b"\0"):
            return body[len(NOTE) + 1:].decode()
    return None


def make_pictures() -> None:
    """Takes all of them anew."""
    for command in (BROWSER, NODE):
        if shutil.which(command) is None:
            raise Refusal(f"{command} isn't in the path, which takes the pictures of the page.")
    with tempfile.TemporaryDirectory() as folder:
        words = [NODE, str(SCRIPT), str(HOME / PAGE), folder]
        done = subprocess.run(words, capture_output=True, text=True, timeout=MOST_SECONDS, check=False)
        if done.returncode:
            raise Refusal(f"the page wasn't taken: {done.stderr.strip()[-300:]}")
        shots = {SHOTS / name: with_note((pathlib.Path(folder) / name).read_bytes(), page_digest()) for name in NAMES}
    write_whole(shots)
    for path, data in shots.items():
        print(f"{path}: {len(data):,} bytes")


def old_pictures() -> Iterator[str]:
    """The pictures of the page in the documents that are of an older page."""
    for name in NAMES:
        path = SHOTS / name
        if not path.is_file() or note_in(path.read_bytes()) != page_digest():
            yield path.relative_to(HOME).as_posix()
