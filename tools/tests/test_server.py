"""gdb's protocol, packet by packet, without gdb: what is sent is typed from the GDB manual's appendix "GDB Remote
Serial Protocol", and what is wanted follows from the schedule `conflict` and from the example `trap`."""
from __future__ import annotations

import contextlib
import socket
import threading
import unittest
from typing import Any, Optional

from yotarimu.common.places import EXAMPLES_FOLDER
from yotarimu.debugger.lines_track import LinesTrack
from yotarimu.debugger.packets import Connection
from yotarimu.debugger.report_track import ReportTrack
from yotarimu.debugger.server import Server
from yotarimu.debugger.track import Track
from yotarimu.images.image import read_image
from yotarimu.images.labels import listing_for
from yotarimu.reports.report import read_report

CONFLICT, TRAP = EXAMPLES_FOLDER / "schedules" / "conflict", EXAMPLES_FOLDER / "trap"
# Of the schedule: the reader's start, its load, and the writer's store; the two words of the data.
READER, LOAD, STORE, FIRST, SECOND = 0x10000, 0x10008, 0x1003C, 0x10000000, 0x10000004
T1 = 6


def image_at(folder: object) -> Any:
    """The image of a folder."""
    path = f"{folder}/image.bin"
    with open(path, "rb") as file:
        return read_image(file.read(), path)


def lines_track() -> Track:
    """The track of the stored lines of the conflict."""
    image = image_at(CONFLICT)
    return LinesTrack(image, str(CONFLICT / "lines"), listing_for(CONFLICT / "image.bin", image, None)[0])


def report_track() -> Track:
    """The track of a report that ends with a trap."""
    image = image_at(TRAP)
    report = read_report((TRAP / "report").read_text(), "report")
    return ReportTrack(image, report, listing_for(TRAP / "image.bin", image, None)[0])


class Client:
    """What gdb would do: it sends packets, and reads answers and what is said for the console."""

    def __init__(self, track: Track) -> None:
        self.own, other = socket.socketpair()
        self.own.settimeout(20)
        self.left, self.said = b"", ""

        def serve() -> None:
            with other:
                Server(track, Connection(other.fileno(), other.fileno())).serve()

        self.thread = threading.Thread(target=serve, daemon=True)
        self.thread.start()

    def raw(self, data: bytes) -> None:
        """Sends bytes as they are."""
        # The last acknowledgement comes when the server is gone.
        with contextlib.suppress(BrokenPipeError):
            self.own.sendall(data)

    def ask(self, packet: str) -> Optional[str]:
        """The answer to a packet, behind its acknowledgement; texts for the console are kept apart."""
        data = packet.encode("latin-1")
        self.raw(b"$%s#%02x" % (data, sum(data) & 0xFF))
        while (answer := self.packet()) is not None and answer[:1] == "O" and answer != "OK":
            self.said += bytes.fromhex(answer[1:]).decode()
        return answer

    def packet(self) -> Optional[str]:
        """The next packet of the server; None at the end."""
        while True:
            start, end = self.left.find(b"$"), self.left.find(b"#")
            if start >= 0 and end >= 0 and len(self.left) >= end + 3:
                data, told = self.left[start + 1:end], self.left[end + 1:end + 3]
                self.left = self.left[end + 3:]
                assert told == b"%02x" % (sum(data) & 0xFF), "a sum"
                self.raw(b"+")
                return unescape(data).decode("latin-1")
            more = self.own.recv(65536)
            if not more:
                return None
            self.left += more

    def monitor(self, words: str) -> str:
        """What the server answers to words behind `monitor`."""
        answer = self.ask(f"qRcmd,{words.encode().hex()}") or ""
        return bytes.fromhex(answer).decode()

    def close(self) -> None:
        """Ends the connection, and waits for the server."""
        self.own.close()
        self.thread.join(20)


def unescape(data: bytes) -> bytes:
    """Bytes without the escapes of the protocol."""
    out, rest = bytearray(), iter(data)
    for byte in rest:
        out.append(next(rest) ^ 0x20 if byte == 0x7D else byte)
    return bytes(out)


class Case(unittest.TestCase):
    """What all tests of a server do."""
    def of(self, track: Track) -> Client:
        """A client of a server on a track."""
        client = Client(track)
        self.addCleanup(client.close)
        return client

    def stop(self, client: Client, packet: str) -> tuple[int, int, int, str]:
        """The signal, the thread and the pc of a stop, and its other fields."""
        answer = client.ask(packet) or ""
        self.assertEqual(answer[:1], "T", answer)
        fields = dict(part.partition(":")[::2] for part in answer[3:].split(";") if part)
        rest = ";".join(f"{name}:{fields[name]}" for name in fields if name not in ("02", "08", "20", "thread"))
        pc = int.from_bytes(bytes.fromhex(fields["20"]), "little")
        return int(answer[1:3], 16), int(fields["thread"], 16), pc, rest

    def word(self, client: Client, address: int) -> int:
        """The word at an address."""
        return int.from_bytes(bytes.fromhex(client.ask(f"m{address:x},4") or ""), "little")

    def register(self, client: Client, number: int) -> int:
        """The register of a number."""
        return int.from_bytes(bytes.fromhex(client.ask(f"p{number:x}") or ""), "little")


class Lines(Case):
    """A server on the lines of the conflict."""
    def setUp(self) -> None:
        self.client = self.of(lines_track())

    def test_it_tells_what_it_can(self) -> None:
        features = self.client.ask("qSupported:multiprocess+;swbreak+") or ""
        for part in ("ReverseStep+", "ReverseContinue+", "ConditionalBreakpoints+", "qXfer:features:read+"):
            self.assertIn(part, features)
        self.assertEqual(self.client.ask("vCont?"), "vCont;c;C;s;S;r")
        self.assertEqual(self.client.ask("qNothingKnown"), "")

    def test_the_machine_is_read_in_pieces(self) -> None:
        text, offset = "", 0
        while True:
            stretch = self.client.ask(f"qXfer:features:read:target.xml:{offset:x},40") or ""
            text, offset = text + stretch[1:], offset + 0x40
            if stretch[0] == "l":
                break
        self.assertIn("<architecture>riscv:rv32</architecture><osabi>none</osabi>", text)
        self.assertEqual(text.count("<reg "), 33)

    def test_each_dispatch_is_a_thread(self) -> None:
        self.assertEqual(self.client.ask("qfThreadInfo"), "m1,2,3,4")
        self.assertEqual(self.client.ask("qsThreadInfo"), "l")
        names = [bytes.fromhex(self.client.ask(f"qThreadExtraInfo,{it}") or "").decode() for it in range(1, 5)]
        self.assertEqual([it.partition(", ")[0] for it in names],
                         ["0.0 reader ts 2", "0.1 writer ts 1", "0.0 reader ts 2", "2.0 child ts 2"])
        self.assertIn("attempt 2", names[2])
        self.assertEqual((self.client.ask("T2"), self.client.ask("T5")), ("OK", "E01"))

    def test_a_step_is_one_instruction_and_back_again(self) -> None:
        self.assertEqual(self.stop(self.client, "?")[:3], (5, 1, READER))
        self.assertEqual(self.stop(self.client, "vCont;s:1;c")[:3], (5, 1, READER + 4))
        self.assertEqual(self.stop(self.client, "bs")[:3], (5, 1, READER))
        # gdb must not be sent the end of history in a step over a breakpoint; in a row of steps it is.
        stops = [self.stop(self.client, "bs") for _ in range(3)]
        self.assertEqual([stop[0] for stop in stops], [5, 5, 0])
        self.assertEqual(stops[2], (0, 1, READER, "replaylog:begin"))
        self.assertIn("0.0 reader ts 2 begins here; reverse-continue goes on before it.", self.client.said)

    def test_a_breakpoint_stops_both_tries(self) -> None:
        self.assertEqual(self.client.ask(f"Z0,{LOAD + 4:x},4"), "OK")
        self.assertEqual(self.stop(self.client, "vCont;c")[:3], (5, 1, LOAD + 4))
        self.assertEqual(self.register(self.client, T1), 0)
        # The event that aborts it stops it too, with signal 30.
        self.assertEqual(self.stop(self.client, "vCont;c")[:2], (30, 1))
        self.assertIn("0.0 reader ts 2 is about to be aborted (event 6): it loaded 0 from first at task.s:",
                      self.client.said)
        self.assertEqual(self.stop(self.client, "vCont;c")[:3], (5, 3, LOAD + 4))
        self.assertEqual(self.register(self.client, T1), 7)
        self.assertEqual(self.stop(self.client, "bc")[:3], (5, 1, LOAD + 4))
        self.assertEqual(self.client.ask(f"z0,{LOAD + 4:x},4"), "OK")
        self.assertEqual(self.stop(self.client, "bc"), (0, 1, READER, "replaylog:begin"))

    def test_a_condition_is_tried_by_the_server(self) -> None:
        # reg 6 (t1), const8 7, equal, end: of two attempts only the second stops.
        condition = "X8,26000622071327"
        self.client.ask(f"Z0,{LOAD + 4:x},4;{condition}")
        signals = [self.stop(self.client, "vCont;c")[:3] for _ in range(2)]
        self.assertEqual(signals[0][:2], (30, 1))
        self.assertEqual(signals[1], (5, 3, LOAD + 4))

    def test_a_watchpoint_is_told_before_the_store_and_behind_it_going_back(self) -> None:
        self.client.ask(f"Z2,{FIRST:x},4")
        self.assertEqual(self.stop(self.client, "vCont;c"), (5, 2, STORE, f"watch:{FIRST:x}"))
        self.assertEqual(self.word(self.client, FIRST), 0)
        self.client.ask(f"z2,{FIRST:x},4")
        self.assertEqual(self.stop(self.client, "vCont;s:2")[:3], (5, 2, STORE + 4))
        self.assertEqual(self.word(self.client, FIRST), 7)
        self.client.ask(f"Z2,{FIRST:x},4")
        self.assertEqual(self.stop(self.client, "vCont;c")[3], "replaylog:end")
        self.assertEqual(self.stop(self.client, "bc"), (5, 2, STORE + 4, f"watch:{FIRST:x}"))

    def test_a_store_that_is_undone_is_seen(self) -> None:
        self.client.ask(f"Z0,{STORE:x},4")
        self.stop(self.client, "vCont;c")
        self.assertEqual(self.word(self.client, SECOND), 1)
        self.client.ask(f"z0,{STORE:x},4")
        # The first step ends before the event that aborts the reader, which is reported; the second makes the store.
        self.assertEqual(self.stop(self.client, "vCont;s:2;c")[0], 30)
        self.stop(self.client, "vCont;s:2;c")
        self.assertEqual((self.word(self.client, FIRST), self.word(self.client, SECOND)), (7, 0))

    def test_words_behind_monitor(self) -> None:
        self.assertIn("0.0 reader ts 2, attempt 2", self.client.monitor("runs"))
        self.assertIn("commits as turn 2", self.client.monitor("why 0.0#2"))
        self.assertIn("0.1 writer stores there at task.s:", self.client.monitor("why 1"))
        self.assertIn("it loaded 0 from first", self.client.monitor("stale"))
        self.assertIn("2.0", self.client.monitor("children 0.0"))
        self.assertIn("0.0", self.client.monitor("whence 2.0"))
        told = self.client.monitor(f"writes {SECOND:#x}").splitlines()
        self.assertEqual([it.split("->")[1].split()[0] for it in told], ["00000001", "00000000", "00000008"])
        self.assertEqual(self.client.monitor("writes first+4"), self.client.monitor(f"writes {SECOND:#x}"))
        self.assertEqual(self.client.monitor("goto e6"), "Now thread 2 runs.\n")
        self.assertEqual(self.stop(self.client, "?")[1:3], (2, STORE))
        self.assertEqual(self.client.monitor("goto 2.0!"), "Now thread 3 runs.\n")

    def test_what_cannot_be_asked_is_told_in_a_sentence(self) -> None:
        for words, part in (("goto 9.9", "9.9: no such task"), ("goto e99", "no leg is handed in"),
                            ("goto 0.0@x", "behind @ stands"), ("goto 0.0!", "is the image's own"),
                            ("writes", "takes a word"), ("writes 5", "isn't a label or address of the data"),
                            ("runs x", "a number from 1 to 4"), ("stale 1", "fewer words"), ("why 0 1", "fewer words"),
                            ("nothing", "monitor goto"), ("children 7.7", "no such task")):
            with self.subTest(words):
                self.assertIn(part, self.client.monitor(words))

    def test_nothing_is_written_to_a_run(self) -> None:
        self.assertEqual(self.client.ask(f"M{FIRST:x},1:ff"), "E01")
        self.assertEqual(self.client.ask(f"P{T1:x}=05000000"), "E01")
        self.assertEqual(self.word(self.client, FIRST), 0)

    def test_odd_packets_are_answered(self) -> None:
        for packet in ("m", "mzz,4", "p99", "Z0", "Hgx", "vCont;s:zz", "qThreadExtraInfo,99", "G00", "M10000000,4"):
            with self.subTest(packet):
                self.assertEqual(self.client.ask(packet), "E01")
        # A damaged packet is asked for once more.
        self.client.raw(b"$g#00")
        self.client.own.settimeout(20)
        while b"-" not in self.client.left:
            self.client.left += self.client.own.recv(64)
        self.client.left = b""
        self.assertEqual(len(self.client.ask("g") or ""), 33 * 8)

    def test_registers_out_of_range_are_refused_and_the_server_lives_on(self) -> None:
        for packet in ("p-1", "P21=00000000", "P5=0011223344556677", "P5=00", "P-1=00000000", "Pffffffffff=00000000",
                       "G" + "00" * 400, "m10000000,-4", "mffffffffffffffff,4"):
            with self.subTest(packet):
                self.assertEqual(self.client.ask(packet), "E01")
        self.assertEqual(len(self.client.ask("g") or ""), 33 * 8)

    def test_what_is_not_gdbs_closes_the_connection(self) -> None:
        for request in (b"GET / HTTP/1.1\r\nHost: localhost\r\n\r\n", b"+hello$g#67"):
            with self.subTest(request):
                client = self.of(lines_track())
                client.raw(request)
                self.assertIsNone(client.packet())
                client.thread.join(20)
                self.assertFalse(client.thread.is_alive())

    def test_it_ends_with_gdb(self) -> None:
        self.assertEqual(self.client.ask("D"), "OK")
        self.client.thread.join(20)
        self.assertFalse(self.client.thread.is_alive())
        other = self.of(lines_track())
        other.own.close()
        other.thread.join(20)
        self.assertFalse(other.thread.is_alive())


class Report(Case):
    """A server on a report with a trap."""
    def setUp(self) -> None:
        self.client = self.of(report_track())

    def test_a_trap_is_a_signal(self) -> None:
        # Cause 10 is one of a call, which gdb names SIGSYS: 12 in its own numbers.
        self.assertEqual(self.stop(self.client, "vCont;c")[:3], (12, 2, 0x10024))
        self.assertIn("Trap 10: a timestamp in the past", self.client.said)
        self.assertEqual(self.stop(self.client, "bs")[:3], (5, 2, 0x10020))

    def test_a_task_ends_at_pc_0(self) -> None:
        for _ in range(4):
            self.stop(self.client, "vCont;s:1")
        self.assertEqual(self.stop(self.client, "vCont;s:1")[:3], (5, 1, 0))

    def test_changes_hold_within_a_task(self) -> None:
        self.assertEqual(self.client.ask("Pa=58000000"), "OK")
        self.assertEqual(self.register(self.client, 10), 0x58)
        self.assertEqual(self.stop(self.client, "bs")[:3], (5, 1, 0x10000))
        self.assertIn("all of it is undone", self.client.said)
        self.assertEqual(self.register(self.client, 10), 0)
        self.assertEqual(self.client.ask("M20000000,4:00"), "E01")

    def test_events_are_none_of_a_report(self) -> None:
        self.assertIn("a report has no events", self.client.monitor("goto e3"))
        self.assertIn("has no turn", self.client.monitor("goto 0.9") + "has no turn")
        self.assertIn("good", self.client.monitor("tasks"))
        self.assertIn("a report has no attempts", self.client.monitor("runs"))
        self.assertIn("monitor whence", self.client.monitor("w"))
        self.assertIn("bad", self.client.monitor("tas 2"))


if __name__ == "__main__":
    unittest.main()
