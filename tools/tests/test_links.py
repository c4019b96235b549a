"""Addresses of the page that no page wrote: odd sources, and such as are far larger than they look."""
from __future__ import annotations

import gzip
import shutil
import struct
import unittest

from yotarimu.common.outcome import Refusal

from tests.links import packed, packed_as_it_is, page

SOURCES = b'[{"name":"task.s","text":"# image: task main\\nmain:\\n li a7, 0\\n ecall\\n"}]'
# More than the page takes, in a few kilobytes.
LARGE = gzip.compress(bytes((64 << 20) + 1))


@unittest.skipUnless(shutil.which("node"), "no Node")
class Links(unittest.TestCase):
    """What the page makes of addresses."""
    def test_sources_are_opened(self) -> None:
        page().open(f"acts=least&sources={packed(SOURCES)}")

    def test_odd_sources_are_refused(self) -> None:
        for text in (b"null", b"[]", b"[null]", b"{}", b"1", b'[{"name":"a"}]', b'[{"name":null,"text":""}]', b"[",
                     b'"x"', b"\xff"):
            with self.subTest(text=text), self.assertRaisesRegex(Refusal, "no list of sources"):
                page().open(f"sources={packed(text)}")

    def test_odd_exercises_are_refused(self) -> None:
        for text in (b"null", b"{}", b"[", b"1", b'{"name":"a","wanted":"","words":"","script":"","sources":[null]}'):
            with self.subTest(text=text), self.assertRaisesRegex(Refusal, "no exercise that can be read"):
                page().open(f"acts=least&sources={packed(SOURCES)}&exercise=own&own={packed(text)}")

    def test_large_ones_are_refused(self) -> None:
        for name in ("sources", "script", "image"):
            with self.subTest(name), self.assertRaisesRegex(Refusal, "more than 67,108,864 bytes packed"):
                page().open(f"{name}={packed_as_it_is(LARGE)}")

    def test_those_that_deny_it_too(self) -> None:
        larger = gzip.compress(bytes(80 << 20))
        with self.assertRaisesRegex(Refusal, "more than 67,108,864 bytes packed"):
            page().open(f"image={packed_as_it_is(larger[:-4] + struct.pack('<I', 7))}")

    def test_long_words_are_cited_in_part(self) -> None:
        text = SOURCES.replace(b"li a7, 0", b"li a" + 5_000 * b"9" + b", 0")
        with self.assertRaises(Refusal) as refused:
            page().open(f"acts=least&sources={packed(text)}")
        self.assertLess(len(str(refused.exception)), 300)
        self.assertIn("task.s:3: `li a9999", str(refused.exception))

    def test_torn_ones_are_refused(self) -> None:
        for text in ("sources=zz", "image=%00", f"sources={packed(SOURCES)[:-9]}", "acts=dance", "example=none"):
            with self.subTest(text), self.assertRaises(Refusal):
                page().open(text)


if __name__ == "__main__":
    unittest.main()
