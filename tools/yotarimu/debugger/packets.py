"""gdb's remote protocol below its commands: packets over a pair of file descriptors.

The GDB manual defines it in the appendix "GDB Remote Serial Protocol".
"""
from __future__ import annotations

import os
import select
from typing import Optional

ESCAPE, ESCAPED_BY = 0x7D, 0x20
TO_ESCAPE = b"}$#*"
INTERRUPT = b"\x03"
# What gdb sends between packets: acknowledgements and interrupts.
BETWEEN = b"+-" + INTERRUPT
# The most bytes of a packet, which is sent to gdb.
MOST_PACKET = 0x10000


class Connection:
    """What gdb sends and is sent. `packet` is None once gdb is gone."""

    def __init__(self, read_from: int, write_to: int) -> None:
        self.read_from, self.write_to = read_from, write_to
        self.left, self.needs_ack = b"", True

    def packet(self) -> Optional[str]:
        """The next packet whose sum is right; one that came damaged is asked for once more. None too where something
        else comes than gdb sends, such as a request of HTTP."""
        while True:
            self.left = self.left.lstrip(BETWEEN)
            if self.left[:1] not in (b"", b"$"):
                return None
            start = self.left.find(b"$")
            end = self.left.find(b"#", start) if start >= 0 else -1
            if end >= 0 and len(self.left) >= end + 3:
                packet, told = self.left[start + 1:end], self.left[end + 1:end + 3]
                self.left = self.left[end + 3:]
                is_right = told.lower() == b"%02x" % (sum(packet) & 0xFF)
                self.raw((b"+" if is_right else b"-") if self.needs_ack else b"")
                if is_right:
                    return packet.decode("latin-1")
                continue
            if len(self.left) > 2 * MOST_PACKET or not self.read():
                return None

    def read(self) -> bool:
        """Waits for more; whether some came."""
        try:
            more = os.read(self.read_from, MOST_PACKET)
        except OSError:
            return False
        self.left += more
        return bool(more)

    def is_interrupted(self) -> bool:
        """Whether gdb asks to stop, or is gone."""
        if select.select([self.read_from], [], [], 0)[0] and not self.read():
            return True
        is_asked, self.left = INTERRUPT in self.left, self.left.replace(INTERRUPT, b"")
        return is_asked

    def raw(self, data: bytes) -> None:
        """Writes bytes as they are, all of them."""
        while data:
            data = data[os.write(self.write_to, data):]

    def send(self, text: str) -> None:
        """Sends a text as a packet, with its checksum; characters that have a meaning of their own are escaped."""
        data = bytearray()
        for byte in text.encode("latin-1", "replace"):
            data += bytes([ESCAPE, byte ^ ESCAPED_BY]) if byte in TO_ESCAPE else bytes([byte])
        self.raw(b"$%s#%02x" % (data, sum(data) & 0xFF))

    def say(self, text: str) -> None:
        """Text for gdb's console, which takes it only while it waits for a stop."""
        self.send("O" + hex_text(text + "\n"))


def hex_text(text: str) -> str:
    """A text as the protocol has it in answers."""
    return text.encode("utf-8", "backslashreplace").hex()
