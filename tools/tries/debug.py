"""Tries of ./fractal debug: what it refuses, each gdb that is installed, a port, a pipe, and gdb's debug adapter."""
from __future__ import annotations

import json
import os
import pathlib
import re
import resource
import shutil
import socket
import subprocess
import tempfile
import threading
import time
from typing import Any, Dict, Iterator, List, Optional

from yotarimu.debugger.lines_track import LinesTrack
from yotarimu.debugger.connections import GDBS
from yotarimu.images.image import read_image
from yotarimu.images.listing import NO_LISTING
from yotarimu.programs.examples import EXAMPLES, SCHEDULES

from tries.tracks import goes_both_ways
from tries.place import Answer, Omission, Place, expect, one_sentence_each

# gdb tells its version in the first line; the debug adapter came with this one.
FIRST_ADAPTER = 14
MOST_SECONDS_TO_CONNECT = 10
MOST_SECONDS = 120
# What is typed before each transcript.
QUIET = "set pagination off\nset width 0\nset confirm off\n"


def example(place: Place, name: str, file: str) -> str:
    """The path of a file of an example."""
    return str(place.clone / "examples" / name / file)


def gdbs() -> List[str]:
    """The gdbs for RISC-V that are installed, each once."""
    found = [path for name in GDBS if (path := shutil.which(name))]
    if not found:
        raise Omission("it wants a gdb for RISC-V, such as gdb-multiarch")
    return list(dict.fromkeys(found))


def version_of(gdb: str) -> int:
    """The first number of a gdb's version; 0 if it prints none."""
    said = subprocess.run([gdb, "--version"], capture_output=True, text=True, stdin=subprocess.DEVNULL).stdout
    found = re.search(r"(\d+)\.\d+", said.partition("\n")[0])
    return int(found[1]) if found else 0


def play_in_gdb(place: Place, gdb: str, image: str, other: Optional[str], typed: str) -> str:
    """What gdb shows of the commands that are typed; paths of the clone are cut off."""
    # gdb writes what the server says to standard error.
    answer = place.call("/bin/sh", "-c", 'exec "$0" "$@" 2>&1', str(place.clone / "fractal"), "debug", image,
                        *([other] if other else []), "--gdb", gdb, stdin=(QUIET + typed).encode())
    expect(answer.status == 0, f"an end of {gdb}", answer)
    return answer.output.decode("utf-8", "replace").replace(f"{place.clone}/", "").replace("(gdb) ", "")


def in_order(shown: str, *parts: str) -> None:
    """Expects parts in a text, one after the other."""
    at = 0
    for part in parts:
        found = shown.find(part, at)
        expect(found >= 0, f"`{part}`, behind what comes before it", shown)
        at = found + len(part)


# ---- what is refused


def bad_words_of_the_debugger_are_told(place: Place) -> None:
    """invalid arguments, a port in use, a missing gdb and missing files get a sentence each, and nothing is left"""
    image, report = example(place, "trap", "image.bin"), example(place, "trap", "report")
    with socket.create_server(("127.0.0.1", 0)) as taken:
        port = str(taken.getsockname()[1])
        one_sentence_each([
            (debug(place, image, report, "--port", port), [f"port {port}: address already in use"]),
            (debug(place, image, report, "--port", "65536"), ["--port must be 0 to 65535"]),
            (debug(place, image, report, "--port", port, "--pipe"), ["one of them is taken"]),
            (debug(place, image, report, "--gdb", "nowhere"), ["nowhere: no such program"]),
            (debug(place), ["it wants an IMAGE"]),
            (debug(place, image, report, report), ["it wants an IMAGE"]),
            (debug(place, image, "-", "--pipe"), ["since standard input is gdb's"]),
            (debug(place, image, "nowhere", "--pipe"), ["nowhere: no such file"]),
            (debug(place, report, report, "--pipe"), ["this isn't an image"]),
            (debug(place, image, report, "--elf", image, "--pipe"), ["this is read, so it isn't written too"]),
        ])
    place.without(*GDBS)
    debug(place, image, report).sentence("no gdb for RISC-V is in the path", "--port and --pipe")
    place.is_clean()


def other_texts_are_not_gone_along(place: Place) -> None:
    """reports and lines of other images, cut ones and altered ones are refused in a sentence, with the line"""
    image, report = example(place, "trap", "image.bin"), example(place, "trap", "report")
    conflict, lines = (example(place, "schedules/conflict", it) for it in ("image.bin", "lines"))
    text = pathlib.Path(lines).read_text()
    files = {"cut": text[:1500], "half": "".join(text.splitlines(True)[:9]),
             "altered": text.replace('"value":7', '"value":6'), "moved": text.replace('"pc":65596', '"pc":65592'),
             "old": text.replace('"old":7', '"old":0'), "window": text.replace('"window":[7,8]}', '"window":[7,9]}'),
             "short": "\n".join(pathlib.Path(report).read_text().splitlines()[:2]), "empty": ""}
    for name, data in files.items():
        (place.root / name).write_text(data)
    one_sentence_each([
        (debug(place, image, example(place, "hello", "report"), "--pipe"), ["isn't a report of a run of the image"]),
        (debug(place, image, "short", "--pipe"), ["short:3: this isn't a report"]),
        (debug(place, image, "empty", "--pipe"), ["empty:1: this isn't a report"]),
        (debug(place, image, lines, "--pipe"), ["lines:1: `text` is 18, and of the image it is 1"]),
        (debug(place, conflict, "cut", "--pipe"), ["cut:", "isn't whole"]),
        (debug(place, conflict, "half", "--pipe"), ["it has no end: it was cut behind line 9"]),
        (debug(place, conflict, "altered", "--pipe"), ["altered:9: `value` is 6, and by the image's text it is 7"]),
        (debug(place, conflict, "moved", "--pipe"), ["moved:9: `pc` is 65592, and by the image"]),
        (debug(place, conflict, "old", "--pipe"), ["old:13: "]),
        (debug(place, conflict, "window", "--pipe"), ["window:21: "]),
    ])


def changed_sources_are_told(place: Place) -> None:
    """sources that make another image than the one beside them are refused, with the address where both differ"""
    source = pathlib.Path(example(place, "trap", "task.s"))
    source.write_text(source.read_text().replace("a3, -1", "a3, -2"))
    answer = debug(place, example(place, "trap", "image.bin"), example(place, "trap", "report"), "--pipe")
    answer.sentence("these sources make another image: they differ at 0001001c")
    expect(not any(place.temporary.iterdir()), "no temporary file", list(place.temporary.iterdir()))


def debug(place: Place, *words: str) -> Answer:
    """Calls `./fractal debug`."""
    return place.call("fractal", "debug", *words)


def images_without_sources_are_gone_along(place: Place) -> None:
    """without sources beside an image a note says so, and gdb gets no linked file"""
    image, lines = example(place, "schedules/stale_leg", "image.bin"), example(place, "schedules/conflict", "lines")
    answer = debug(place, image, lines, "--pipe")
    answer.tells("no sources are beside")
    expect(answer.status == 0, "a server that ends with its input", answer)
    place.is_clean()


# ---- each way


def tracks_go_both_ways(place: Place) -> None:
    """the event log of every example and schedule is the same run forwards, backwards and at random"""
    place.needs_second_program()
    for name in (*EXAMPLES, *SCHEDULES):
        folder = place.clone / "examples" / name
        words = (folder / "words").read_text().split() if name in SCHEDULES else ["least"]
        script = (folder / "script").read_bytes() if name in SCHEDULES else b""
        data = (folder / "image.bin").read_bytes()
        answer = place.call("fractal", "watch", *words, stdin=data + script)
        with tempfile.NamedTemporaryFile() as lines:
            lines.write(answer.output)
            lines.flush()
            goes_both_ways(LinesTrack(read_image(data, name), lines.name, NO_LISTING), name)


# ---- gdb


def gdb_goes_along_a_report(place: Place) -> None:
    """each gdb breaks at a line of C on a condition, steps, goes back, watches, and knows who made a task"""
    typed = """break visit_body if node == 3
continue
bt
info args
next
reverse-next
delete
watch distance[3]
continue
reverse-continue
delete
goto 3.1
goto 3.1!
print e
writes distance[3]
"""
    for gdb in gdbs():
        shown = play_in_gdb(place, gdb, example(place, "c/shortest_paths", "image.bin"),
                            example(place, "c/shortest_paths", "report"), typed)
        # Node 3 is first reached from node 1, at 5, by the edge of length 3: its distance is 8.
        in_order(shown, 'Thread 7 "3.0 visit ts 8" hit Breakpoint 1, visit_body (node=3, ts=8)', "task.c:19",
                 "#1  0x", "in visit ()", "node = 3", "distance[node] = ts;", "if (distance[node] != FAR)",
                 "Old value = 4294967295", "New value = 8", "Old value = 8", "New value = 4294967295",
                 "in visit ()", "enqueue(visit, ts + edges[e].length", "ffffffff -> 00000008", "task.c:21")
        expect("frame did not save the PC" not in shown, "a backtrace that ends well", shown)


def gdb_goes_along_lines(place: Place) -> None:
    """each gdb shows why a task is about to be aborted, both attempts, and the store that is undone"""
    typed = """info threads
break *reader+12
continue
print $t1
continue
continue
print $t1
delete
watch *(int*)0x10000004
goto e3
continue
reverse-continue
monitor why 0.0
bt
"""
    folder = place.root / "conflict"
    shutil.copytree(place.clone / "examples" / "schedules" / "conflict", folder)
    for gdb in gdbs():
        shown = play_in_gdb(place, gdb, str(folder / "image.bin"), str(folder / "lines"), typed)
        in_order(shown, '"0.0 reader ts 2, attempt 2" (isn\'t dispatched yet)', "hit Breakpoint 1", "$1 = 0",
                 "0.0 reader ts 2 is about to be aborted (event 6): it loaded 0 from first at task.s:",
                 "0.1 writer stores there at task.s:", "received signal SIGUSR1",
                 '"0.0 reader ts 2, attempt 2" hit', "$2 = 7",
                 # The watched word is stored to at event 3, and going back from there it is 0 again.
                 "Old value = 0", "New value = 1", "Old value = 1", "New value = 0",
                 "0.0 reader ts 2, attempt 2 commits as turn 2")
        expect("?? ()" not in shown, "a backtrace that ends with the task", shown)


def gdb_stops_at_traps(place: Place) -> None:
    """a trap is a signal, with its meaning, and gdb goes back from it; each frame of a recursion is printed"""
    for gdb in gdbs():
        shown = play_in_gdb(place, gdb, example(place, "trap", "image.bin"), example(place, "trap", "report"),
                            "continue\nreverse-stepi\nmonitor tasks\n")
        in_order(shown, "Trap 10: a timestamp in the past", "received signal SIGSYS", "trap 10 is here",
                 "li   a7, 1", "no turn  0.1")
        shown = play_in_gdb(place, gdb, example(place, "recursion", "image.bin"), example(place, "recursion", "report"),
                            "break move if $a0 == 1\ncontinue\nbt\nfinish\n")
        in_order(shown, "#0  move ()", "#1  0x", "#2  0x", "#3  0x", "in towers ()", "Run till exit", "move ()")
        expect("frame did not save the PC" not in shown and "?? ()" not in shown, "backtraces that end well", shown)


def debug_images_have_all_variables(place: Place) -> None:
    """the image of `build --debug` is separate from the other, and gdb sees what was optimized out in that"""
    folder = place.clone / "examples" / "c" / "quicksort"
    before = (folder / "image.bin").read_bytes()
    answer = place.call("fractal", "build", "--debug", str(folder))
    expect(answer.status == 0 and (folder / "debug" / "image.bin").exists(), "an image for debugging", answer)
    expect((folder / "image.bin").read_bytes() == before, "the other image as it was")
    place.call("fractal", "build", "--debug", "--clang", str(folder)).sentence("--debug compiles by gcc")
    place.needs_second_program()
    image = str(folder / "debug" / "image.bin")
    typed = "break sort_here if end - first >= 3\ncontinue\nbt\ninfo args\n"
    for gdb in gdbs():
        in_order(play_in_gdb(place, gdb, image, None, typed), "hit Breakpoint 1, sort_here (first=", "#1  0x",
                 "in sort_body (first=", "first = ", "end = ")


# ---- other ways to it


def served_at_a_port(place: Place, *words: str) -> Iterator[Any]:
    """A server at a port, and its process; it is to end by itself."""
    process = subprocess.Popen([*place.command("fractal"), "debug", *words, "--port", "0"], stdout=subprocess.PIPE,
                               stderr=subprocess.PIPE, text=True, cwd=place.root, env=place.environment)
    try:
        line = process.stdout.readline() if process.stdout else ""
        expect(line.startswith("listening at port "), "a port", line)
        yield int(line.split()[-1]), process
        process.wait(MOST_SECONDS)
        expect(process.returncode == 0, "an end with status 0", process.returncode)
    finally:
        process.kill()
        process.communicate()


def a_server_ends_with_gdb(place: Place) -> None:
    """at a port a gdb that goes away, with a word or without one, ends the server"""
    words = [example(place, "hello", "image.bin"), example(place, "hello", "report")]
    for data in (b"$D#44", b"", b"$qSupp"):
        for port, _ in served_at_a_port(place, *words):
            with socket.create_connection(("127.0.0.1", port)) as one:
                one.sendall(data)
    place.is_clean()


def gdb_over_a_pipe_and_a_port(place: Place) -> None:
    """a gdb that is started elsewhere is served over a pipe and at a port, with the linked file of --elf"""
    words = [example(place, "hello", "image.bin"), example(place, "hello", "report")]
    command = " ".join(f"'{it}'" for it in (place.clone / "fractal", "debug", *words, "--pipe", "--elf", "a.elf"))
    for gdb in gdbs():
        for port, _ in served_at_a_port(place, *words, "--elf", "a.elf"):
            typed = ["-ex", f"target remote localhost:{port}", "-ex", "break done", "-ex", "continue"]
            answer = place.call(gdb, "-q", "-batch", *typed, "a.elf")
            expect(b"Breakpoint 1, done () at" in answer.output, "a breakpoint at the label", answer)
        typed = ["-iex", "set remotetimeout 60", "-ex", f"target remote | {command}", "-ex", "break done",
                 "-ex", "continue"]
        answer = place.call(gdb, "-q", "-batch", *typed, "a.elf")
        expect(b"Breakpoint 1, done () at" in answer.output, "the same over a pipe", answer)
    (place.root / "a.elf").unlink()
    place.is_clean()


def many_tasks_connect(place: Place) -> None:
    """a walk of 40,000 tasks connects within ten seconds of a processor, and by the clock where one is free"""
    place.needs_program()
    place.needs_second_program()
    image = place.call("fractal", "generate", "walk", "7", "20000").output
    (place.root / "image.bin").write_bytes(image)
    for name, words in (("report", ["run"]), ("lines", ["watch", "least"])):
        answer = place.call("fractal", *words, stdin=image)
        (place.root / name).write_bytes(answer.output)
        was_free, before, begun = has_free_processor(), seconds_of_children(), time.monotonic()
        for port, _ in served_at_a_port(place, "image.bin", name):
            with socket.create_connection(("127.0.0.1", port)) as one:
                one.sendall(b"$?#3f")
                answered, passed = read_until(one, b"thread:"), time.monotonic() - begun
                one.sendall(b"$D#44")
        taken = seconds_of_children() - before
        expect(answered.startswith(b"+$T05"), "where it stands", answered)
        expect(taken < MOST_SECONDS_TO_CONNECT, f"less than {MOST_SECONDS_TO_CONNECT} seconds of a processor for the "
               f"{name}", taken)
        # A machine with other work may keep it waiting, which says nothing of the debugger.
        if was_free and has_free_processor():
            expect(passed < MOST_SECONDS_TO_CONNECT, f"less than {MOST_SECONDS_TO_CONNECT} seconds by the clock for "
                   f"the {name}", passed)


def has_free_processor() -> bool:
    """Whether of the last minute's work less than all processors were kept, so that one more call finds one free."""
    return os.getloadavg()[0] < (os.cpu_count() or 1)


def seconds_of_children() -> float:
    """How long calls that have ended kept a processor, which others on this machine don't change."""
    usage = resource.getrusage(resource.RUSAGE_CHILDREN)
    return usage.ru_utime + usage.ru_stime


def read_until(connection: socket.socket, part: bytes) -> bytes:
    """Reads from a connection until a part has come, or it ends."""
    data = b""
    while part not in data and (more := connection.recv(4096)):
        data += more
    return data


# ---- the debug adapter protocol


class Adapter:
    """A client of gdb's debug adapter."""

    def __init__(self, place: Place, gdb: str) -> None:
        self.process = subprocess.Popen([gdb, "-q", "-i=dap"], stdin=subprocess.PIPE, stdout=subprocess.PIPE,
                                        stderr=subprocess.DEVNULL, cwd=place.root, env=place.environment)
        # A client that gets no answer ends with the adapter.
        self.timer = threading.Timer(5 * MOST_SECONDS, self.process.kill)
        self.timer.start()
        self.sent = 0
        self.events: List[Dict[str, Any]] = []

    def send(self, command: str, **arguments: Any) -> int:
        """Sends a request, and gives its number."""
        self.sent += 1
        text = json.dumps({"seq": self.sent, "type": "request", "command": command, "arguments": arguments}).encode()
        stdin = self.process.stdin
        if stdin is not None:
            stdin.write(b"Content-Length: %d\r\n\r\n" % len(text) + text)
            stdin.flush()
        return self.sent

    def next(self) -> Dict[str, Any]:
        """The next message of the adapter."""
        stdout, length = self.process.stdout, 0
        expect(stdout is not None, "an adapter")
        while stdout is not None:
            line = stdout.readline()
            expect(line != b"", "an adapter that is still there")
            if line.strip() == b"":
                break
            if line.lower().startswith(b"content-length"):
                length = int(line.split(b":")[1])
        data: Dict[str, Any] = json.loads(stdout.read(length) if stdout else b"{}")
        return data

    def answer(self, number: int) -> Dict[str, Any]:
        """The answer to a request; events that come before it are kept."""
        while True:
            message = self.next()
            if message["type"] == "response" and message["request_seq"] == number:
                expect(message["success"], "an answer", message)
                body: Dict[str, Any] = message.get("body") or {}
                return body
            self.events.append(message)

    def ask(self, command: str, **arguments: Any) -> Dict[str, Any]:
        """Sends a request, and gives the answer to it."""
        return self.answer(self.send(command, **arguments))

    def event(self, name: str) -> Dict[str, Any]:
        """The next event of this name."""
        while True:
            for message in self.events:
                if message.get("event") == name:
                    self.events.remove(message)
                    body: Dict[str, Any] = message.get("body") or {}
                    return body
            self.events.append(self.next())

    def close(self) -> None:
        """Ends the adapter."""
        self.timer.cancel()
        self.process.kill()
        self.process.communicate()


def the_debug_adapter_is_served(place: Place) -> None:
    """a client of the debug adapter protocol, as editors have one, breaks, sees frames and variables, and goes back"""
    newer = [gdb for gdb in gdbs() if version_of(gdb) >= FIRST_ADAPTER]
    if not newer:
        raise Omission(f"it wants a gdb of version {FIRST_ADAPTER} or a newer one")
    words = [example(place, "c/shortest_paths", it) for it in ("image.bin", "report")]
    command = " ".join(f"'{it}'" for it in (place.clone / "fractal", "debug", *words, "--pipe", "--elf", "a.elf"))
    debug(place, *words, "--pipe", "--elf", "a.elf")
    for gdb in newer:
        client = Adapter(place, gdb)
        try:
            source = example(place, "c/shortest_paths", "task.c")
            follow_adapter(client, str(place.root / "a.elf"), f"| {command}", source)
        finally:
            client.close()


def follow_adapter(client: Adapter, program: str, target: str, source: str) -> None:
    """Goes along a run by requests, as an editor does."""
    client.ask("initialize", adapterID="try", linesStartAt1=True, columnsStartAt1=True)
    attaching = client.send("attach", program=program, target=target)
    client.event("initialized")
    client.ask("setBreakpoints", source={"path": source}, breakpoints=[{"line": 21, "condition": "node == 3"}])
    client.ask("configurationDone")
    client.answer(attaching)
    client.event("stopped")
    client.ask("continue", threadId=1)
    thread = client.event("stopped")["threadId"]
    frames = client.ask("stackTrace", threadId=thread)["stackFrames"]
    expect((frames[0]["name"], frames[0]["line"]) == ("visit_body", 21), "the line of the breakpoint", frames)
    found = client.ask("evaluate", expression="distance[3]", frameId=frames[0]["id"], context="watch")["result"]
    expect(found == "4294967295", "a node that isn't reached yet", found)
    client.ask("next", threadId=thread)
    client.event("stopped")
    frames = client.ask("stackTrace", threadId=thread)["stackFrames"]
    found = client.ask("evaluate", expression="distance[3]", frameId=frames[0]["id"], context="watch")["result"]
    expect(found == "8", "its distance", found)
    # The adapter has no request for it, and the editor's console takes gdb's words.
    client.ask("evaluate", expression="reverse-next", context="repl")
    client.event("stopped")
    frames = client.ask("stackTrace", threadId=thread)["stackFrames"]
    found = client.ask("evaluate", expression="distance[3]", frameId=frames[0]["id"], context="watch")["result"]
    expect(found == "4294967295", "a node that isn't reached any more", found)


TRIES = (
    bad_words_of_the_debugger_are_told, other_texts_are_not_gone_along, changed_sources_are_told,
    images_without_sources_are_gone_along, tracks_go_both_ways, gdb_goes_along_a_report, gdb_goes_along_lines,
    gdb_stops_at_traps, debug_images_have_all_variables, a_server_ends_with_gdb, gdb_over_a_pipe_and_a_port,
    many_tasks_connect, the_debug_adapter_is_served,
)
