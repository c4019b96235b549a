"""Addresses of the page: what its own sources make of them, in Node."""
from __future__ import annotations

import atexit
import base64
import functools
import gzip
import json
import pathlib
import subprocess
import tempfile

from yotarimu.common.outcome import Refusal
from yotarimu.web.bundle import source

HARNESS = pathlib.Path(__file__).with_suffix(".js")
PARTS = ("host.js", "texts.js", "machine.js", "labels.js", "images.js", "assembler.js", "sections.js", "sources.js",
         "exports.js")


class Page:
    """The sources of the page that open an address, in a process of Node."""

    def __init__(self) -> None:
        with tempfile.NamedTemporaryFile("w", suffix=".mjs", encoding="utf-8") as script:
            script.write("".join(map(source, PARTS)) + HARNESS.read_text(encoding="utf-8"))
            script.flush()
            self.process = subprocess.Popen(["node", script.name], stdin=subprocess.PIPE, stdout=subprocess.PIPE,
                                            encoding="utf-8")
            atexit.register(self.process.kill)
            # Once it has answered it has read its script.
            self.answer("")

    def answer(self, address: str) -> dict[str, object]:
        """The answer for an address."""
        assert self.process.stdin is not None and self.process.stdout is not None
        self.process.stdin.write(json.dumps({"address": address}) + "\n")
        self.process.stdin.flush()
        told: dict[str, object] = json.loads(self.process.stdout.readline())
        return told

    def open(self, address: str) -> None:
        """Opens an address; a refusal of the page is one here."""
        told = self.answer(address)
        if "refused" in told:
            raise Refusal(str(told["refused"]))
        if "failed" in told:
            raise AssertionError(told["failed"])


@functools.lru_cache(None)
def page() -> Page:
    """The one page."""
    return Page()


def packed(data: bytes) -> str:
    """Bytes as an address has them."""
    return packed_as_it_is(gzip.compress(data))


def packed_as_it_is(data: bytes) -> str:
    """Bytes as an address has them that were compressed before."""
    return base64.urlsafe_b64encode(data).decode("ascii").rstrip("=")
