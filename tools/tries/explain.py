"""Tries of ./fractal explain."""
from __future__ import annotations

import json
import pathlib
import re

from yotarimu.programs.examples import EXAMPLES

from tries.build import folder_with
from tries.files import files_of, picture_in, rows_in
from tries.place import Place, expect, one_sentence_each


def reports_are_explained(place: Place) -> None:
    """tasks have their labels in a tree by depth, the output is text, the window decimal with labels"""
    nested = ("2  1.0                  1    debit 5", "      note", "first                10000000           88")
    for name, parts in (("nested", nested), ("hello", ("Output, 13 bytes", "Hello, world\\n", "main")),
                        ("fork_join", ("sum                  10000010           30", "work 3", "join"))):
        answer = place.call("fractal explain", *files_of(place, name))
        expect((answer.status, answer.errors) == (0, ""), "an explanation", answer)
        for part in parts:
            expect(part in answer.output.decode(), f"`{part}`", answer.output.decode())


def traps_are_explained(place: Place) -> None:
    """a trap's cause is explained in words, with the source line of its pc, from the listing or from a source"""
    image, report = files_of(place, "trap")
    folder = place.clone / "examples" / "trap"
    for source in ((), (folder,), (folder / "task.s",), (folder / "listing",)):
        answer = place.call("fractal explain", image, report, *source)
        for part in ("cause 10: a timestamp in the past", "0.1 (bad 0 0 0; timestamp 7", "task.s:21: ecall", "bad+16"):
            expect(part in answer.output.decode(), f"`{part}`", answer)


def reasons_of_traps_are_told(place: Place) -> None:
    """a timestamp in the past is explained with the least possible one, and so is a task whose entry has no
    instruction"""
    head = "# image: root ordered\n# image: task main ts 5\nmain:\n"
    end = "    li a7, 0\n    ecall\n"
    below_floor = ("    li a7, 4\n    li a0, 1\n    ecall\n    la a0, inner\n    li a1, 2\n    li a7, 2\n    ecall\n"
                   + end + "inner:\n    la a0, main\n    li a1, 4\n    li a7, 3\n    ecall\n" + end)
    # A child's arguments are a2 to a4 of its creator, and that of `entry` has its timestamp 5 in a3.
    for name, text, report, parts in (
            ("past", "    la a0, main\n    addi a1, a3, -1\n    li a7, 1\n    ecall\n" + end,
             "end trap 10 00010010 0.0", ("timestamp 4 was asked for, and 5 is the least, the task's own",)),
            ("floor", below_floor, "end trap 10 00010038 1.0",
             ("timestamp 4 was asked for, and 5 is the least, the floor: that of the task that made the subdomain",)),
            ("entry", "    li a0, 8\n    li a7, 1\n    li a1, 6\n    ecall\n" + end, "end trap 1 00000008 1.0",
             ("the task begins there: its creator gave it this entry address, which is outside of the text",
              "registers a1 00000005  a3 00000006")),
            ("behind", "    nop\n", "end trap 1 00010004 0.0", ("at 00010004, main+4", "registers a3 00000005"))):
        folder = folder_with(place, name, task=head + text)
        expect(place.call("fractal build", str(folder)).status == 0, f"an image of {name}")
        turns = "1 0.0 1 5\n" if report.endswith("1.0") else ""
        given = f"fractal 1\n{turns}output -\n{report}\n".encode()
        answer = place.call("fractal explain", str(folder / "image.bin"), "-", stdin=given)
        for part in parts:
            expect(part in answer.output.decode(), f"`{part}` of {name}", answer)
        expect(("begins there" in answer.output.decode()) == (name == "entry"), f"where {name} begins", answer)
        told = json.loads(place.call("fractal explain", str(folder / "image.bin"), "-", "--json", stdin=given).output)
        least = 5 if name in ("past", "floor") else None
        expect((told["end"]["least_timestamp"], told["end"]["begins_at_pc"]) == (least, name == "entry"), "JSON", told)


def all_registers_are_told(place: Place) -> None:
    """with --registers each register of a trap is listed, by its number and its name; else those that aren't 0"""
    image, report = files_of(place, "trap")
    text = place.call("fractal explain", image, report, "--registers").output.decode()
    told = dict(re.findall(r"\b(x[0-9]+) +[a-z0-9]+ +([0-9a-f]{8})\b", text))
    expect(list(told) == [f"x{number}" for number in range(32)], "32 registers", text)
    expect((told["x10"], told["x11"], told["x13"], told["x17"]) == ("00010000", "00000006", "00000007", "00000001")
           and sum(value != "00000000" for value in told.values()) == 4, "their values", text)
    expect("all others are 0" in place.call("fractal explain", image, report).output.decode(), "the others, else")
    place.call("fractal explain", image, report, "--registers", "--json").sentence("--registers, or none")


def each_instruction_has_its_line(place: Place) -> None:
    """each instruction of a listing has its source line, also the second one of a line, where a trap names it"""
    for name in EXAMPLES:
        text = (place.clone / "examples" / name / "listing").read_text()
        counts = []
        for function in re.split(r"(?m)^[0-9a-f]{8} <.*>:$", text)[1:]:
            lines = re.findall(r"(?m)^[0-9a-f]{8}  [0-9a-f]{8}  .*$", function)
            without = [line for line in lines if not re.search(r" \| [\w.]+:[0-9]+ \|", line)]
            # What stands in a library has no lines at all.
            is_library = name.startswith("c/") and len(without) == len(lines)
            expect(not without or is_library, f"a source line of each instruction of {name}", without)
            counts.append(len(lines) - len(without))
        expect(sum(counts) > 2, f"instructions of {name}", text)
    text = ("# image: task main\nmain:\n    lw a0, odd\n    li a7, 0\n    ecall\n"
            "    .data\n    .byte 1\nodd:\n    .word 5\n")
    folder = folder_with(place, "second", task=text)
    expect(place.call("fractal build", str(folder)).status == 0, "an image")
    report = b"fractal 1\noutput -\nend trap 4 00010004 0.0\n"
    answer = place.call("fractal explain", str(folder / "image.bin"), "-", stdin=report)
    for part in ("task.s:3: lw a0, odd", "main+4", "odd, in the data"):
        expect(part in answer.output.decode(), f"`{part}`", answer)


def pictures_are_drawn(place: Place) -> None:
    """with --picture the tree is SVG with a box for each task"""
    for name, parts in (("nested", ("1: 0.0", "transfer 5", "8: 7.0", "depth 3")), ("trap", ("trap 10: 0.1", "bad"))):
        answer = place.call("fractal explain", *files_of(place, name), "--picture")
        texts = picture_in(answer.output)
        for part in parts:
            expect(part in texts, f"`{part}` in the picture", texts)


def faults_are_explained(place: Place) -> None:
    """a fault that the program writes in place of a report is explained in words"""
    image = files_of(place, "hello")[0]
    for line, part in (("check ok 8", "8 tasks took their turns"), ("fault image 5 8", "above its limit"),
                       ("fault journal 3", "line 3"), ("fault script 2", "line 2 is the first outside"),
                       ("fault usage", "invalid arguments"), ("fault long", "67108864")):
        answer = place.call("fractal explain", image, "-", stdin=line.encode() + b"\n")
        expect(answer.status == 0 and part in answer.output.decode(), f"`{part}`", answer)


def other_runs_are_refused(place: Place) -> None:
    """a report that isn't of the image is refused before anything is written, with what speaks against it"""
    image, report = files_of(place, "nested")
    text = pathlib.Path(report).read_bytes()
    other = str(place.clone / "examples" / "schedules" / "conflict" / "said")
    for given, part in ((text.replace(b"2 1.0 2 1", b"2 0.1 1 0"), "turn 2 isn't one"),
                        (text.replace(b"output -", b"output 41"), "emit other bytes"),
                        (text.replace(b"00000058", b"00000059"), "leave 00000058 at 10000000"),
                        (text.replace(b"window 10000008 00000002\n", b""), "3 words from 10000000 on"),
                        (pathlib.Path(other).read_bytes(), "turn 1 isn't one")):
        for form in ((), ("--json",), ("--csv",), ("--picture",)):
            answer = place.call("fractal explain", image, "-", *form, stdin=given)
            answer.sentence("isn't a report of a run of", part)
            expect(answer.output == b"", "nothing before a refusal", answer)


def played_scripts_are_explained(place: Place) -> None:
    """what `steps` wrote is explained with its replies in words, and of a long script with how often each came"""
    for name, parts in (("conflict", ("     6  ok, 2 aborted", "17 acts", "2 tasks were aborted", "child")),
                        ("stall", ("     5  stall: a queue is full", "The end is open"))):
        folder = place.clone / "examples" / "schedules" / name
        answer = place.call("fractal explain", str(folder / "image.bin"), str(folder / "said"))
        expect((answer.status, answer.errors) == (0, ""), "an explanation", answer)
        for part in parts:
            expect(part in answer.output.decode(), f"`{part}`", answer.output.decode())
    said = b"stall 0\n" * 300 + b"ok 1\n" * 1_000 + b"fractal 1\noutput -\nend open\n"
    answer = place.call("fractal explain", files_of(place, "hello")[0], "-", stdin=said)
    for part in ("1,300 acts", "    300  stall: a queue is full", "  1,000  ok\n", "1,000 tasks were aborted"):
        expect(part in answer.output.decode(), f"`{part}`", answer.output.decode())


def explanations_are_for_programs(place: Place) -> None:
    """--json has all that is explained, with registers and address of a trap, and --csv a row for each task"""
    image, report = files_of(place, "trap")
    told = json.loads(place.call("fractal explain", image, report, "--json").output)
    end = told["end"]
    expect((end["kind"], end["cause"], end["task"], end["registers"]["a1"]) == ("trap", 10, "0.1", 6), "the trap", end)
    expect([task["label"] for task in told["tasks"]] == ["good"] and told["output"]["text"] == "g", "the rest", told)
    image, report = files_of(place, "nested")
    rows = rows_in(place.call("fractal explain", image, report, "--csv").output)
    expect([row["name"] for row in rows] == "0.0 1.0 1.1 3.0 0.1 5.0 5.1 7.0".split(), "a row for each task", rows)
    expect((rows[3]["label"], rows[3]["argument 2"], rows[3]["depth"]) == ("note", "2", "3"), "a row", rows[3])
    folder = place.clone / "examples" / "schedules" / "conflict"
    answer = place.call("fractal explain", str(folder / "image.bin"), str(folder / "said"), "--json")
    expect(json.loads(answer.output)["replies"][5] == {"act": 6, "reply": "ok", "taken_back": 2}, "a reply", answer)
    answer = place.call("fractal explain", image, "-", "--json", stdin=b"fault nested 2\n")
    expect("depth 2" in json.loads(answer.output)["meaning"], "a fault in words", answer)
    one_sentence_each([
        (place.call("fractal explain", image, "-", "--csv", stdin=b"fault nested 2\n"), ["has no tasks", "depth 2"]),
        (place.call("fractal explain", image, report, "--csv", "--json"), ["one of --picture, --json, --csv, "]),
    ])


def one_task_is_explained(place: Place) -> None:
    """--task lists what one task did, from where the program saves the run, or else after all turns before it"""
    explain, (image, report) = "fractal explain", files_of(place, "nested")
    parts = ("The task 7.0 is note 0 2 0.", "turn 8 of 8; timestamp 0, depth 3, in an unordered domain",
             "load  10000008 logged, 4 bytes: 1  ", "store 10000008 logged, 4 bytes: 2  ", "task.s:55")
    place.nothing_answers()
    for words, way in (((), "All turns before it, 7, were run again here, since the program isn't built, and"),
                       (("--tiles", "2"), "The program saved the run after 4 turns; 3 more were run again here.")):
        if words:
            place.needs_program()
        answer = place.call(explain, image, report, "--task", "7.0", *words)
        for part in (*parts, way):
            expect(part in answer.output.decode(), f"`{part}`", answer)
    place.stub(place.program, "cat >/dev/null; echo fractal 1; exit 4\n")
    answer = place.call(explain, image, report, "--task=7.0")
    expect(b"since with these options the program doesn't make this run again" in answer.output, "the reason", answer)
    answer = place.call(explain, *files_of(place, "trap"), "--task", "0.1", "--json")
    told = json.loads(answer.output)
    expect((told["label"], told["turn"], told["instructions"]) == ("bad", None, 4), "the task that traps", told)
    expect((told["trap"]["cause"], told["trap"]["registers"]["a1"]) == (10, 6), "its trap", told)
    expect((told["trap"]["least_timestamp"], told["trap"]["begins_at_pc"]) == (7, False), "why it traps", told)
    text = place.call(explain, *files_of(place, "trap"), "--task", "0.1", "--registers").output.decode()
    for part in ("timestamp 6 was asked for, and 7 is the least, the task's own", "x11 a1   00000006",
                 "x31 t6   00000000"):
        expect(part in text, f"`{part}`", text)


def one_task_has_its_budget(place: Place) -> None:
    """--task with the budget of the run explains a trap by it, and refuses one that doesn't end as the report says"""
    explain, (image, _) = "fractal explain", files_of(place, "trap")
    report = b"fractal 1\noutput -\nend trap 17 00010004 0.0\n"
    words = explain, image, "-", "--task", "0.0"
    told = json.loads(place.call(*words, "--json", "--budget", "1", stdin=report).output)
    expect((told["trap"]["cause"], told["instructions"]) == (17, 1), "the trap by the budget", told)
    for budget in ((), ("--budget", "2")):
        place.call(*words, *budget, stdin=report).sentence("doesn't end as the report says")


def one_task_wants_right_words(place: Place) -> None:
    """with --task bad names, options, programs and files are refused in a sentence"""
    explain, (image, report) = "fractal explain", files_of(place, "nested")
    one_sentence_each([
        (place.call(explain, image, report, "--task"), ["needs a value"]),
        (place.call(explain, image, report, "--task", "7"), ["a name as reports have it", "`7`"]),
        (place.call(explain, image, report, "--task", "9.0"), ["9.0 has no turn in this report"]),
        (place.call(explain, image, report, "--task", "7.0", "--csv"), ["--csv shows all tasks"]),
        (place.call(explain, image, report, "--task", "7.0", "--tiles", "17"), ["--tiles takes 1 to 16"]),
        (place.call(explain, image, report, "--task", "7.0", "--commits", "7"), ["--commits has no place"]),
        (place.call(explain, image, report, "--task", "7.0", "--sim", "nowhere"), ["isn't built"]),
        (place.call(explain, image, report, "--tiles", "4"), ["unknown option --tiles"]),
        (place.call(explain, image, report, "--sim", "x"), ["without --task it takes no --sim"]),
        (place.call(explain, files_of(place, "hello")[0], report, "--task", "7.0"), ["isn't a report of a run of the"]),
    ])


def explain_refuses_bad_files(place: Place) -> None:
    """invalid arguments, missing, endless and other files, and another image's source are refused in a sentence"""
    image, report = files_of(place, "hello")
    other = place.clone / "examples" / "trap"
    explain = "fractal explain"
    one_sentence_each([
        (place.call(explain), ["IMAGE REPORT"]),
        (place.call(explain, image), ["IMAGE REPORT"]),
        (place.call(explain, image, report, "--pictures"), ["unknown option --pictures; did you mean --picture?"]),
        (place.call(explain, "nowhere", report), ["nowhere", "no such file"]),
        (place.call(explain, image, "nowhere"), ["nowhere", "no such file"]),
        (place.call(explain, str(other), report), ["is a directory"]),
        (place.call(explain, report, image), ["this isn't an image"]),
        (place.call(explain, image, image), ["this isn't a report", "fractal 1"]),
        (place.call(explain, image, "-", stdin=b"fractal 1\n2 0.0 1 0\n"), ["-:2:", "turn 1"]),
        (place.call(explain, image, "-", stdin=b"fractal 1\n"), ["-:2:", "output"]),
        (place.call(explain, image, report, str(other)), ["isn't the image's"]),
        (place.call(explain, image, report, report), ["isn't a listing"]),
        (place.call(explain, image, report, "nowhere.s"), ["nowhere.s", "no such file"]),
        (place.call(explain, "/dev/zero", report), ["/dev/zero", "more than 268,435,456 bytes"]),
        (place.call(explain, image, report, "/dev/zero"), ["/dev/zero", "more than"]),
        (place.call("fractal sweep", "--rows", "/dev/zero"), ["/dev/zero", "more than"]),
        (place.by_shell('"$0" explain "$1" - <&-', image), ["standard input is closed"]),
    ])


def endless_windows_are_refused(place: Place) -> None:
    """a window that no image may have costs no memory"""
    image, report = files_of(place, "hello")
    data = bytearray(pathlib.Path(image).read_bytes())
    data[24:28] = b"\xff" * 4
    (place.root / "endless.bin").write_bytes(data)
    place.call("fractal explain", "endless.bin", report).sentence("the image's window has 4294967295 words")


def closed_pipes_are_borne(place: Place) -> None:
    """a full disk and a closed standard output are reported in a sentence; a reader that goes away is ignored"""
    image, report = files_of(place, "nested")
    for target, part in ((">/dev/full", "no space"), (">&-", "closed")):
        place.by_shell(f'"$0" explain "$1" "$2" {target}; exit 1', image, report).sentence(part)
    status = place.root / "status"
    for words in ("explain '{image}' '{report}'", "explain --help", "build --help", "dev tries --help", "help",
                  "dev table", "generate walk 7 20", "help run"):
        call = words.format(image=image, report=report)
        # The reader has gone before the script, which takes longer to begin, writes.
        answer = place.by_shell(f'{{ sleep 1; "$0" {call}; echo $? >"$1"; }} | exec sh -c :', status)
        expect((answer.status, answer.errors) == (0, ""), f"silence of {words}", answer)
        expect(status.read_text().strip() in ("0", "141"), f"status 0 or 141 of {words}", status.read_text())


TRIES = (
    reports_are_explained, traps_are_explained, reasons_of_traps_are_told, all_registers_are_told,
    each_instruction_has_its_line, pictures_are_drawn, faults_are_explained, other_runs_are_refused,
    played_scripts_are_explained, explanations_are_for_programs, one_task_is_explained, one_task_has_its_budget,
    one_task_wants_right_words, explain_refuses_bad_files, endless_windows_are_refused, closed_pipes_are_borne,
)
