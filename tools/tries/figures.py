"""Tries of ./fractal figures, and of the reader of lines that it stands on."""
from __future__ import annotations

import csv
import os
from typing import Any, Optional

from yotarimu.programs.examples import SCHEDULES

from tries.files import picture_in
from tries.place import Answer, Place, expect, one_sentence_each
from tries.schedules import write_file
from tries.lines_text import LinesText


def shared_words() -> LinesText:
    """A task that comes first and stores twice, and three later ones that ran speculatively: the first store aborts all
    three and a child, each for another cause, and the second one two, one of them in a cascade."""
    told = LinesText([1, 5, 6, 7, 8], [0, 0, 1, 1, 0], task_queue=4)
    for number, (task, tile, core) in enumerate(((0, 0, 0), (1, 0, 1), (2, 1, 0), (3, 1, 1))):
        told.dispatch(task, tile, core, number)
    told.load(1, 0, 1, 2, 0)                    # 3 of task 1: the very word
    told.enqueue(1, 0, 1, 1, 5)                 # 5: a child, which has done nothing
    told.load(3, 1, 1, 3, 16_384)               # 4 of task 3: line 1,024
    told.enqueue(3, 1, 1, 6, None, "stall")     # refused, as it would be the fifth task in tile 0
    told.load(2, 1, 0, 0, 4)                    # 1 of task 2: the same line
    told.act("commit", reply="empty", task=0)
    told.store(0, 0, 0, 4, 0, [[1, 5], [2, 1], [3, 4], [5, 0]], [5])    # 5 of task 0
    told.step(0, 0, 0, 1, "unordered")          # 7
    told.dispatch(1, 0, 1, 4)
    told.store(1, 0, 1, 2, 32)                  # 3 of task 1
    told.load(1, 0, 1, 0, 48)                   # 4
    told.dispatch(2, 1, 0, 5)
    told.load(2, 1, 0, 0, 32)                   # 1 of task 2: what task 1 wrote
    told.dispatch(3, 1, 1, 6)
    told.load(3, 1, 1, 1, 4)                    # 2 of task 3, which is left
    told.store(0, 0, 0, 1, 48, [[1, 4], [2, 1]])    # 9 of task 0
    told.finish(0, 0, 0, 0)                     # 10
    told.commit(0, [0, 0], 1)
    return told


def rows_of(place: Place, text: bytes, *words: str) -> tuple[dict[tuple[str, str], str], str]:
    """The rows of CSV, by figure and what it is of."""
    path = write_file(place, "lines", text)
    answer = place.call("fractal figures", path, "--csv", "rows.csv", *words)
    expect((answer.status, answer.errors) == (0, ""), "figures", answer)
    rows = csv.DictReader((place.root / "rows.csv").read_text().splitlines())
    return {(row["figure"], row["of"]): row["value"] for row in rows}, answer.output.decode()


def figures_are_counted(place: Place) -> None:
    """a schedule counted by hand: work, tasks aborted by cause, line, address and sharing, and occupancy"""
    rows, text = rows_of(place, shared_words().end(), "--plot", "a plot.svg")
    wanted = {("instructions", "executed"): 27, ("instructions", "useful"): 10, ("instructions", "wasted"): 15,
              ("instructions", "left"): 2, ("instructions", "refused"): 6, ("commits", ""): 1, ("events", ""): 20,
              ("acts", ""): 22, ("rounds", ""): "", ("dispatches a commit", ""): 7, ("aborted", ""): 6,
              ("aborted by event", "store"): 6, ("aborted by event", "load"): 0,
              ("discarded by event", "store"): 1, ("wasted by event", "store"): 15,
              ("aborted by line", "0"): 4, ("aborted by line", "3"): 2,
              ("aborted by address", "10000000"): 4, ("aborted by address", "10000030"): 2,
              ("stores of a task", "mean"): 2, ("loads of a task", "90 %"): 0, ("replies to step", "stall"): 1,
              ("occupancy greatest", "task queues"): 6, ("occupancy greatest", "running"): 4,
              ("occupancy greatest", "commit queues"): 1, ("curve of running over events", "4"): 4,
              ("stalled", "step, for a task queue"): 1, ("occupancy greatest", "stalled"): 1,
              ("loads by tile", "1"): 4, ("stores by tile", "0"): 3, ("tasks by instructions", "10"): 1,
              ("commits by entry address", "00010000"): 1, ("wasted by entry address", "00010000"): 15,
              ("lines written of a task", "mean"): 2, ("steps", "useful"): 4}
    wanted.update({("aborted itself", edge): count for edge, count in (
        ("met by the access: byte", 2), ("met by the access: line", 1), ("met by the access: alias", 1),
        ("child of one", 1), ("touched what one wrote: byte", 1), ("touched what one wrote: line", 0))})
    wanted.update({("aborted by root", root): count for root, count in (
        ("access: byte", 4), ("access: line", 1), ("access: alias", 1), ("room: task queue", 0))})
    wanted.update({("aborted by root, access: byte", "child of one"): 1, ("wasted by root", "access: byte"): 10,
                   ("aborted by a line or a bit alone on the way", ""): 2})
    for key, value in wanted.items():
        expect(rows.get(key) == str(value), f"{value} as {key}", rows.get(key))
    for line in ("| of these useful | 10 (37.0 %) |", "| root: access: alias | 1 |", "| all | 4 | 1 | 1 | 6 |",
                 "| 0 | 4 | 10000000 | 4 |"):
        expect(line in text, f"`{line}`", text)
    for part in ("running", "commit queues", "events"):
        expect(part in picture_in((place.root / "a plot.svg").read_bytes()), f"`{part}` in the plot")


def work_is_summed_up(place: Place) -> None:
    """work that is executed is useful, wasted or left, at each place where a text may be cut and closed"""
    told = shared_words()
    whole = list(told.lines)
    for count in range(6, len(whole) + 1):
        acts = [line for line in whole[6:count]]
        told.lines = whole[:count]
        told.events = acts[-1]["n"] if acts else 0
        told.commits = sum(line["do"] == "commit" and line["reply"] == "ok" for line in acts)
        rows, _ = rows_of(place, told.end())
        executed, *parts = (int(rows["instructions", of]) for of in ("executed", "useful", "wasted", "left"))
        expect(executed == sum(parts), "a sum", (count, executed, parts))


def runs_stand_side_by_side(place: Place) -> None:
    """several texts are columns of one table; standard input is one of them"""
    one = write_file(place, "one", shared_words().end())
    answer = place.call("fractal figures", one, "-", stdin=LinesText([1], [0]).end())
    text = answer.output.decode()
    for line in ("| Commits | 1 | 0 |", "| Dispatches a commit | 7.00 | - |", "| End | open | open |"):
        expect((answer.status, line in text) == (0, True), f"`{line}`", answer)


def other_lines_are_refused(place: Place) -> None:
    """a log that is cut, has no end, or has an impossible line is refused with the number of the line"""
    whole = shared_words().end()
    lines = whole.splitlines(keepends=True)

    def refused(text: bytes, *parts: str) -> tuple[Answer, list[str]]:
        return place.call("fractal figures", "-", stdin=text), ["figures: ", *parts]

    def changed(old: bytes, new: bytes) -> bytes:
        expect(whole.count(old) > 0, f"{old!r} in the text", whole)
        return whole.replace(old, new, 1)

    one_sentence_each([
        (place.call("fractal figures"), ["LINES"]),
        (place.call("fractal figures", "nowhere"), ["nowhere", "no such file"]),
        (place.call("fractal figures", "one", "one"), ["twice"]),
        (place.call("fractal figures", "one", "--fast"), ["--fast"]),
        (place.call("fractal figures", "-", "--csv", "nowhere/x", stdin=whole), ["nowhere/x", "no such folder"]),
        refused(b"", "no whole line"),
        refused(b"fractal 1\noutput -\nend open\n", "-:1:", "`fractal 1` isn't JSON"),
        refused(b'{"fault":"image","number":1,"offset":51}\n', "-:1:", "fault: image 1 51"),
        refused(b"".join(lines[:-1]), "no end", "behind line 28"),
        refused(whole[:-1], "-:29:", "no newline"),
        refused(whole[:-9], "-:29:", "no newline"),
        refused(b"".join(lines[1:]), "-:1:", "isn't the head"),
        refused(b"".join(lines[:2] + lines[3:]), "-:6:", "4 of 5 tasks"),
        refused(b"".join(lines[:9] + lines[10:]), "-:10:", "act 5 can't follow on act 3"),
        refused(whole + lines[-1], "-:30:", "nothing may follow"),
        refused(changed(b'"watch":1', b'"watch":2'), "-:1:", "version 2"),
        refused(changed(b'"back":[[1,5]', b'"back":[[1,6]'), "task 1 executed 5", "not 6"),
        refused(changed(b'"aborted":4', b'"aborted":3'), "how many tasks"),
        refused(changed(b'"leg":2', b'"leg":-2'), "-:11:", "`leg` is `-2`"),
        refused(changed(b'"leg":2', b'"leg": 2'), "-:11:", "written otherwise"),
        refused(changed(b'"do":"step"', b'"do":"st3p"'), "-:11:", "`do`"),
        refused(changed(b'"pc":65540,', b""), "-:11:", "`pc`"),
        refused(changed(b'"task":1', b'"task":7'), "no task has the id 7"),
        refused(changed(b'"name":[0,0],"depth"', b'"name":[0,1],"depth"'), "0.0", "another name"),
        refused(changed(b'"journal":1', b'"journal":2'), "2 commits"),
        refused(b"[" * 100_000 + b"\n", "-:1:", "nested"),
        refused(b"\x1b[2J\n", "-:1:"),
    ])
    place.is_clean()


def odd_acts_are_refused(place: Place) -> None:
    """acts that no machine reports, and numbers that are too long, are refused by figures and by the page"""
    def odd(word: str, change: Optional[dict[str, Any]] = None, reply: str = "ok", **fields: Any) -> bytes:
        told = LinesText([1], [0])
        if word == "step":
            told.dispatch(0, 0, 0, 0)
        told.act(word, change, reply, **fields)
        return told.end()

    step: dict[str, Any] = {"tile": 0, "core": 0, "leg": 0, "pc": 65_540}
    child: dict[str, Any] = {"to": "same", "entry": 65_536, "ts": 9, "args": [0, 0, 0], "hint": 0}
    texts = {odd("abort", tile=0): "aborts no task", odd("take", tile=0, core=1): "holds no task",
             odd("step", reply="stall", **step, asks="end"): "takes this leg",
             odd("step", reply="stall", **step, asks="enqueue", **child): "takes this leg",
             odd("step", tile=0, core=0, task=0, leg=0, pc=65_540, asks="emit", byte=256): "256 isn't a byte"}
    whole = shared_words().end()
    for old, new, part in ((b'"ts":1', b'"ts":' + b"9" * 4_000, "2: `ts`"), (b'"tasks":5', b'"tasks":0', "no machine"),
                           (b"[1,5]", b"[2,1]", "how many tasks"), (b'"empty"', b'"busy"', "`reply` is `busy`"),
                           (b'"commit","task":0,"reply":"empty"', b'"advance","reply":"ok"', "`reply` is `ok`")):
        expect(old in whole, f"{old!r} in the text", whole)
        texts[whole.replace(old, new, 1)] = part
    for text, part in texts.items():
        for script in ("figures", "show"):
            place.call(f"fractal {script}", "-", stdin=text).sentence(f"{script}: -:", part)
    place.is_clean()


def no_text_is_lost(place: Place) -> None:
    """a log that is read isn't replaced, nor are two written to one file; a name that isn't text is shown in both"""
    data = shared_words().end()
    text = write_file(place, "lines", data)
    (place.root / "link").symlink_to("lines")
    figures = "fractal figures"
    one_sentence_each([
        (place.call(figures, text, "--csv", text), ["lines: this is read"]),
        (place.call(figures, text, "--plot", "link"), ["link: this is read"]),
        (place.call(figures, text, "--csv", "x", "--plot", "./x"), ["x: two outputs"]),
        (place.call(figures, text, "--csv", ""), ["this is a folder"]),
    ])
    expect((place.root / "lines").read_bytes() == data and not (place.root / "x").exists(), "the text as it was")
    named = place.root / os.fsdecode(b"odd \xff")
    named.write_bytes(data)
    answer = place.call(figures, named.name, text, "--csv", "x.csv", "--plot", "x.svg")
    expect((answer.status, answer.errors) == (0, ""), "both texts in both files", answer)
    for name in ("x.csv", "x.svg"):
        expect("odd \\udcff" in (place.root / name).read_text(encoding="utf-8"), f"the name in {name}")
    answer = place.by_shell('"$0" figures lines 2>&-')
    expect(answer.status == 0 and b"Commits" in answer.output, "a table without standard error", answer)
    place.is_clean()


def told_schedules_are_figured(place: Place) -> None:
    """each schedule is read whole, with each leg on the image, and the conflict has the figures counted"""
    place.needs_second_program()
    for name in SCHEDULES:
        folder = place.clone / "examples" / "schedules" / name.partition("/")[2]
        words = (folder / "words").read_text().split()
        data = (folder / "image.bin").read_bytes() + (folder / "script").read_bytes()
        answer = place.call("fractal", "watch", *words, stdin=data)
        expect(answer.output.endswith(b"}\n"), f"lines of {name}", answer)
        rows, _ = rows_of(place, answer.output, "--image", str(folder / "image.bin"))
        if name.endswith("/conflict"):
            told = [rows[key] for key in (("commits", ""), ("aborted", ""), ("discarded by event", "store"),
                                          ("aborted itself", "met by the access: byte"),
                                          ("aborted itself", "child of one"))]
            expect(told == ["3", "2", "1", "1", "1"], "the reader, its child and the writer", rows)


def long_runs_are_replayed(place: Place) -> None:
    """each leg of long runs is that of the image's text, and another image or a word of text more is refused"""
    place.needs_second_program()
    for kind, size, words in (("walk", "60", ("least",)), ("nest", "30", ("lockstep", "9000", "7", "--phase", "1")),
                              ("walk", "60", ("lockstep", "9000", "0", "--tiles", "2", "--quantum", "3"))):
        image = write_file(place, "image", place.call("fractal generate", kind, "7", size).output)
        lines = place.call("fractal", "watch", *words, stdin=(place.root / "image").read_bytes()).output
        rows, _ = rows_of(place, lines, "--image", image)
        expect(rows["end", ""] == "normal", f"a whole run of {kind}", rows["end", ""])
    other = write_file(place, "other", place.call("fractal generate", "nest", "7", "30").output)
    odd = bytearray((place.root / "image").read_bytes())
    # The first instruction's destination, which is a word of the text behind the header.
    odd[32 + 1] ^= 1
    changed = write_file(place, "changed", bytes(odd))
    one_sentence_each([
        (place.call("fractal figures", "lines", "--image", other), ["figures: lines:1: `root`"]),
        (place.call("fractal figures", "lines", "--image", changed), ["by the image's text"]),
        (place.call("fractal figures", "lines", "--image", "lines"), ["lines"]),
        (place.call("fractal figures", "lines", "--log", "x"), ["--log takes x, y, xy beside --plot"]),
        (place.call("fractal figures", "lines", "--histogram", "time,x.svg"), ["--histogram takes NAME,FILE", "`time"]),
        (place.call("fractal figures", "lines", "--listing", "lines"), ["lines: ", "isn't a listing"]),
    ])


def addresses_have_labels(place: Place) -> None:
    """with a listing, lines and addresses where tasks were aborted are shown with their labels"""
    lines = write_file(place, "lines", shared_words().end())
    listing = place.root / "listing"
    listing.write_text("00010000  00000073  ecall\n10000000 <first>:\n10000020 <other>:\n")
    answer = place.call("fractal figures", lines, "--listing", str(listing))
    for row in ("| 0, first | 4 | 10000000, first | 4 |", "| 3, other+16 | 2 | 10000030, other+16 | 2 |"):
        expect(row in answer.output.decode(), f"`{row}`", answer)


TRIES = (figures_are_counted, addresses_have_labels, work_is_summed_up, runs_stand_side_by_side,
         other_lines_are_refused, odd_acts_are_refused, no_text_is_lost, told_schedules_are_figured,
         long_runs_are_replayed)
