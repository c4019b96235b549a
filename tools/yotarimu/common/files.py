"""Files as the tools read and write them: whole or as they were, and never an input in place of an output."""
from __future__ import annotations

import contextlib
import os
import pathlib
import re
import stat
import sys
import tempfile
from collections.abc import Iterable, Mapping
from typing import Optional, TypeVar, Union

from yotarimu.common.outcome import Refusal

FilePath = Union[str, "os.PathLike[str]"]
AnyPath = TypeVar("AnyPath", bound=FilePath)
# Nothing that the program takes or writes is longer.
MOST_READ = 1 << 28


def read_bytes(path: FilePath) -> bytes:
    """The whole of a file; `-` is standard input."""
    if str(path) == "-" and sys.stdin is None:
        raise Refusal("standard input is closed.")
    if str(path) == "-":
        data = sys.stdin.buffer.read(MOST_READ + 1)
    else:
        with open(path, "rb") as file:
            data = file.read(MOST_READ + 1)
    if len(data) > MOST_READ:
        raise Refusal(f"{path}: it has more than {MOST_READ:,} bytes.")
    return data


def need_plain(path: FilePath) -> pathlib.Path:
    """The path of a file in a folder; refuses one that isn't a plain file, such as a pipe that nobody writes to,
    before it is read. What a person names may be a pipe."""
    path = pathlib.Path(path)
    if path.exists() and not path.is_file():
        raise Refusal(f"{path}: this isn't a plain file, so it isn't read.")
    return path


def read_text(path: FilePath) -> str:
    """The whole of a file as text. Bytes that aren't valid in it are replaced, each by the same mark."""
    return read_bytes(path).decode("utf-8", "replace")


def read_written(path: FilePath) -> str:
    """The whole of a text that people write: its lines may end as on any system."""
    return re.sub("\r\n?", "\n", read_text(path))


def write_whole(files: Mapping[AnyPath, bytes]) -> None:
    """Writes bytes to paths, given as a dictionary. A plain file is there whole, or as it was before, and a symbolic
    link to it stays one. What isn't a plain file, such as a device, is written to and never replaced."""
    with contextlib.ExitStack() as cleanup:
        renames, streams = [], []
        for named, data in files.items():
            path = need_writable(named)
            if is_stream(path):
                streams.append((path, data))
                continue
            handle, unfinished = tempfile.mkstemp(prefix=f".{path.name}.", dir=path.parent)
            cleanup.callback(pathlib.Path(unfinished).unlink, missing_ok=True)
            with os.fdopen(handle, "wb") as file:
                file.write(data)
            os.chmod(unfinished, stat.S_IMODE(path.stat().st_mode) if path.exists() else 0o666 & ~umask())
            renames.append((unfinished, path))
        for path, data in streams:
            write_stream(path, data)
        for unfinished, path in renames:
            os.replace(unfinished, path)


def write_stream(path: pathlib.Path, data: bytes) -> None:
    """Writes to a device or a pipe; to what is standard output already, behind what was written there."""
    for own in filter(None, (sys.stdout, sys.stderr)):
        if os.path.samestat(path.stat(), os.fstat(own.fileno())):
            own.flush()
            own.buffer.write(data)
            own.flush()
            return
    with open(path, "wb") as file:
        file.write(data)


def is_stream(path: pathlib.Path) -> bool:
    """Whether writing to a path isn't a matter of a plain file's bytes alone."""
    if not path.exists():
        return False
    found = path.stat()
    return not stat.S_ISREG(found.st_mode) or any(
        os.path.samestat(found, os.fstat(own.fileno())) for own in filter(None, (sys.stdout, sys.stderr)))


def need_writable(path: FilePath) -> pathlib.Path:
    """The path of a file that can be written, behind all links; else a refusal, before any work is done for it."""
    path = pathlib.Path(path)
    if path.is_dir():
        raise Refusal(f"{path}: this is a folder, so no file can be written there.")
    if not path.exists() or stat.S_ISREG(path.stat().st_mode):
        named, path = path, pathlib.Path(os.path.realpath(path))
        if leads_outside(named):
            raise Refusal(f"{named}: this is a symbolic link that leads out of its folder, so it isn't written; name "
                          f"{path} itself, or remove the link.")
        if not path.parent.is_dir():
            raise Refusal(f"{named}: it can't be written, because no such folder exists.")
        if not os.access(path.parent, os.W_OK | os.X_OK):
            raise Refusal(f"{named}: it can't be written: permission denied.")
    if path.exists() and not os.access(path, os.W_OK):
        raise Refusal(f"{path}: it can't be written: permission denied.")
    return path


def leads_outside(path: pathlib.Path) -> bool:
    """Whether a path is a symbolic link to another folder than its own and those in it. Those of the system for what a
    process has open lead anywhere."""
    folder = os.path.realpath(path.parent)
    is_of_process = folder == "/dev" or folder.startswith("/proc/")
    return path.is_symlink() and not is_of_process and not is_within(path, folder)


def need_outputs(outputs: Iterable[Optional[FilePath]], inputs: Iterable[Optional[FilePath]]) -> None:
    """Holds files that can be written to be none of the files that are read, and none of each other; `-` is standard
    input, and a path that is None isn't asked for."""
    written, read = ([path for path in paths if path is not None] for paths in (outputs, inputs))
    for place, path in enumerate(written):
        need_writable(path)
        if any(is_same_file(path, other) for other in read):
            raise Refusal(f"{path}: this is read, so it isn't written too.")
        if any(path == other != os.devnull or is_same_file(path, other) for other in written[:place]):
            raise Refusal(f"{path}: two outputs can't be one file.")


def is_same_file(one: FilePath, other: FilePath) -> bool:
    """Whether two paths lead to one file, which need not exist yet; output that goes to no file is never the same."""
    with contextlib.suppress(OSError):
        found = os.stat(one)
        return stat.S_ISREG(found.st_mode) and os.path.samestat(found, os.stat(0 if str(other) == "-" else other))
    return not os.path.exists(one) and os.path.realpath(one) == os.path.realpath(other)


def is_within(path: FilePath, folder: FilePath) -> bool:
    """Whether a path leads into a folder, wherever symbolic links lead."""
    return pathlib.Path(os.path.realpath(path)).is_relative_to(os.path.realpath(folder))


def encode(text: str) -> bytes:
    """A text as bytes of a file. Bytes in file names that aren't valid text are written as on standard output."""
    return text.encode("utf-8", "backslashreplace")


def umask() -> int:
    """The bits that a new file hasn't. They can't be read without being set."""
    bits = os.umask(0o077)
    os.umask(bits)
    return bits
