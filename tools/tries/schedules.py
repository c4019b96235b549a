"""Tries of schedules, pictures and sums of them, generated images, studies, and runs with threads or scarce memory."""
from __future__ import annotations

import csv
import os
import pathlib
import re

from yotarimu.programs.examples import SCHEDULES

from tries.files import files_of, picture_in
from tries.place import Answer, Place, expect, one_sentence_each

# A program that answers each act of any script, and commits nothing.
OPEN_REPORT = b"fractal 1\noutput -\nend open\n"


def schedule(place: Place, name: str) -> tuple[str, str]:
    """The script of a schedule, and what was said to it."""
    folder = place.clone / "examples" / "schedules" / name
    return str(folder / "script"), str(folder / "said")


def write_file(place: Place, name: str, data: bytes) -> str:
    """Writes a file, and gives its path."""
    path = place.root / name
    path.write_bytes(data)
    return str(path)


# ---- draw and tally


def runs_are_drawn(place: Place) -> None:
    """each schedule is drawn from its event log, as play draws it; a run of lockstep is drawn by rounds, and a long one
    with bars that stand for several attempts"""
    place.needs_second_program()
    for name in SCHEDULES:
        folder = place.clone / "examples" / name
        answer = place.call("fractal play", str(folder), "--picture", "picture.svg")
        expect(answer.errors == "", f"a picture of {name}", answer)
        expect("commits" in picture_in((place.root / "picture.svg").read_bytes()), f"words in the picture of {name}")
    image = place.call("fractal generate", "walk", "7", "2000").output
    lines = write_file(place, "lines", place.call("fractal", "watch", "lockstep", "4000", "1", stdin=image).output)
    picture = place.call("fractal draw", lines).output
    expect("round" in picture_in(picture) and len(picture) < 2_000_000, "a picture by rounds", len(picture))
    expect("act" in picture_in(place.call("fractal draw", lines, "--by", "acts").output), "a picture by acts")


def other_lines_are_not_drawn(place: Place) -> None:
    """what isn't an event log, invalid arguments and missing files are reported in a sentence"""
    folder = place.clone / "examples" / "schedules" / "conflict"
    lines, listing, name = str(folder / "lines"), str(folder / "listing"), "fractal draw"
    one_sentence_each([
        (place.call(name), ["LINES"]),
        (place.call(name, lines, listing, lines), ["LINES"]),
        (place.call(name, lines, "--fast"), ["--fast"]),
        (place.call(name, lines, "--by", "days"), ["--by must be rounds or acts"]),
        (place.call(name, lines, "--by", "rounds"), ["only a run in lockstep has rounds"]),
        (place.call(name, "nowhere"), ["nowhere", "no such file"]),
        (place.call(name, lines, "nowhere"), ["nowhere", "no such file"]),
        (place.call(name, str(folder / "script")), ["script:1:"]),
        (place.call(name, "-", stdin=(folder / "lines").read_bytes()[:-1]), ["no newline"]),
    ])


def schedules_are_summed_up(place: Place) -> None:
    """a played schedule is summed up by act and answer, and several outputs stand side by side and in one plot"""
    script, said = schedule(place, "stall")
    answer = place.call("fractal figures", "--script", script, said)
    for line in ("| Stalls | step 1 |", "| Dispatches a commit | 2.00 |", "| End | open |",
                 "| coalesce | 1 | 1 | 0 | 0 | 0 | 2 | 0 |"):
        expect(line in answer.output.decode(), f"`{line}`", answer.output.decode())
    script, said = schedule(place, "two_lines")
    apart = schedule(place, "two_lines_apart")[1]
    answer = place.call("fractal figures", "--script", script, said, apart, "--plot", "a plot.svg")
    expect("| Tasks aborted | 1 | 0 |" in answer.output.decode(), "both outputs", answer)
    expect("commits" in picture_in((place.root / "a plot.svg").read_bytes()), "the axis's name")
    script = write_file(place, "lockstep", place.call("fractal lockstep", "2", "1", "30").output)
    given = b"empty 0\n" * 236 + b"ended 0\n" * 4 + OPEN_REPORT
    answer = place.call("fractal figures", "--script", script, "-", "--csv", "t.csv", stdin=given)
    expect("| Rounds | 30 |" in answer.output.decode(), "rounds of a lockstep schedule", answer)
    (place.root / "link.csv").symlink_to("t.csv")
    for target in ("/dev/null", "link.csv"):
        answer = place.call("fractal figures", "--script", script, "-", "--csv", target, stdin=given)
        expect((answer.status, answer.errors) == (0, ""), f"CSV to {target}", answer)
    expect((place.root / "link.csv").is_symlink() and pathlib.Path("/dev/null").is_char_device(), "a link and a device")
    row, = csv.DictReader((place.root / "t.csv").read_text().splitlines())
    expect((row["acts"], row["rounds"], row["split empty"], row["split ended"]) == ("236", "30", "58", "2"), "CSV", row)


def other_outputs_are_refused(place: Place) -> None:
    """an output that isn't a script's, an invalid script, invalid arguments and missing files are refused in a
    sentence"""
    script, said = schedule(place, "conflict")
    name = "fractal figures --script"
    one_sentence_each([
        (place.call(name), ["--script needs a value"]),
        (place.call(name, script), ["OUTPUT"]),
        (place.call(name, script, said, "--fast"), ["--fast"]),
        (place.call(name, "nowhere", said), ["nowhere", "no such file"]),
        (place.call(name, script, "nowhere"), ["nowhere", "no such file"]),
        (place.call(name, said, said), ["said:1:", "`ok 0`", "isn't a line of a script"]),
        (place.call(name, script, script), ["script:1:", "`dispatch 0`", "isn't an answer"]),
        (place.call(name, script, schedule(place, "kept_trap")[1]), ["said:16:", "isn't an answer"]),
        (place.call(name, script, "-", stdin=b"fault script 3\n"), ["played nothing", "fault script 3"]),
        (place.call(name, script, "-", stdin=b"ok 0\n" * 17 + OPEN_REPORT), ["3 commits", "0 tasks"]),
        (place.call(name, script, "-", stdin=b"ok 0\n" * 17), ["-:18:", "fractal 1"]),
        (place.call(name, "-", said, stdin=b"dispatch 16\n"), ["-:1:", "16 tiles"]),
        (place.call(name, "-", said, stdin=b"dispatch 00\n"), ["-:1:", "`dispatch 00`"]),
        (place.call(name, "-", said, stdin=b"commit\n\ncommit\n"), ["-:2:"]),
        (place.call(name, "-", said, stdin=b"commit\x1b[2J\n"), ["-:1:", "`commit\\x1b[2J`"]),
    ])
    one_sentence_each([
        (place.call("fractal figures", "--script", script, said, said), ["twice"]),
        (place.call("fractal figures", "--script", script, said, "--plot", "nowhere/x"), ["nowhere", "no such folder"]),
        (place.call("fractal figures", "--script", script, said, "--plot"), ["needs a value"]),
        (place.call("fractal figures", "--script", "-", said), ["isn't an act"]),
    ])
    place.is_clean()


def inputs_are_kept(place: Place) -> None:
    """an output that is a file that is read, or another output, is refused before anything is written"""
    folder = place.clone / "examples" / "schedules" / "conflict"
    script, said = schedule(place, "conflict")
    (place.root / "link").symlink_to(script)
    before = {path: path.read_bytes() for path in folder.iterdir()}
    play, tally = ["fractal play", str(folder)], ["fractal figures", "--script", script, said]
    one_sentence_each([
        *((place.call(*play, "--plain", str(folder / name)), [name, "is read"])
          for name in ("script", "image.bin", "words")),
        (place.call(*play, "--picture", "link"), ["link", "is read"]),
        (place.call(*play, "--picture", "new", "--plain", "./new"), ["new", "one file"]),
        (place.call(*play, "--picture", "/dev/stdout", "--plain", "/dev/stdout"), ["one file"]),
        (place.call(*tally, "--csv", said), ["said", "is read"]),
        (place.call(*tally, "--plot", script), ["script", "is read"]),
        (place.call(*tally, "--plot", "new", "--csv", "new"), ["new", "one file"]),
        (place.call(*tally, "--plot", ""), ["folder"]),
        (place.by_shell('"$0" figures --script "$1" - --csv "$2" <"$2"', script, said), ["is read"]),
    ])
    expect(before == {path: path.read_bytes() for path in folder.iterdir()}, "the same files")
    expect(not (place.root / "new").exists(), "no output")


def odd_names_are_borne(place: Place) -> None:
    """a name with bytes that aren't text, or with controls, is escaped in tables, CSV and a well-formed plot"""
    script, said = schedule(place, "conflict")
    other = write_file(place, "said\udcff\x01", pathlib.Path(said).read_bytes())
    answer = place.call("fractal figures", "--script", script, said, other, "--csv", "t.csv", "--plot", "p.svg")
    expect((answer.status, answer.errors) == (0, ""), "a table", answer)
    shown = "said\\udcff\\x01"
    for text in (answer.output.decode(), (place.root / "t.csv").read_text(), " ".join(
            picture_in((place.root / "p.svg").read_bytes()))):
        expect(shown in text, f"`{shown}`", text)


def odd_stored_words_are_told(place: Place) -> None:
    """invalid stored words or outputs are reported in a sentence by all that play them"""
    place.stub(place.program, "cat >/dev/null\n")
    place.stub(place.second_program, "cat >/dev/null; echo '[1'\n")
    answer = place.call("fractal test", "answers")
    expect(answer.status == 1 and b"tells what isn't a line of JSON" in answer.output, "a failure", answer)
    folder = place.clone / "examples" / "schedules" / "conflict"
    (folder / "said").write_bytes(b"\xff\xfe\n")
    place.stub(place.second_program, "cat >/dev/null; echo '{}'\n")
    place.call("fractal test", "answers").tells("conflict", "isn't what `steps` says")
    for words, part in ((b"\xff\0", "no words of a call"), (b"", "no words of a call")):
        (folder / "words").write_bytes(words)
        place.call("fractal test", "schedules/conflict").sentence("words", part)
    for words, part in ((b"\xff --tiles 2", "neither a command"), (b"steps --towers 2", "`--towers`")):
        (folder / "words").write_bytes(words)
        place.call("fractal play", str(folder)).sentence("words", part)


# ---- lockstep and generate


def lockstep_is_written(place: Place) -> None:
    """a lockstep schedule has its rounds, and with a seed the same acts in an order of that seed"""
    answer = place.call("fractal lockstep", "2", "1", "2")
    plain = b"dispatch 0\nstep 0 0\ndispatch 1\nstep 1 0\ncommit\ncommit\nsplit 0\nsplit 1\n"
    expect(answer == Answer(0, plain * 2, ""), "two rounds", answer)
    one, again, other = (place.call("fractal lockstep", "2", "1", "2", "--seed", seed).output for seed in "775")
    expect(one == again != other, "an order for each seed", (one, again, other))
    for text in (one, other):
        rounds = [text.splitlines()[:8], text.splitlines()[8:]]
        expect(all(sorted(acts) == sorted(plain.splitlines()) for acts in rounds), "the acts of each round", rounds)
    one_sentence_each([
        (place.call("fractal lockstep"), ["TILES, CORES and ROUNDS"]),
        (place.call("fractal lockstep", "2", "5", "1"), ["CORES", "1 to 4", "`5`"]),
        (place.call("fractal lockstep", "17", "1", "1"), ["TILES", "1 to 16"]),
        (place.call("fractal lockstep", "1", "1", "0"), ["ROUNDS"]),
        (place.call("fractal lockstep", "16", "4", "1000000"), ["67108864 bytes"]),
        (place.call("fractal lockstep", "1", "1", "1", "--seed", "x"), ["--seed", "`x`"]),
        (place.call("fractal lockstep", "1", "1", "1", "--seed", "1", "--seed=2"), ["twice"]),
    ])


def images_are_generated(place: Place) -> None:
    """a generated image runs as the load with the same arguments does, and other arguments are refused"""
    place.needs_program()
    for words in (("walk", "7", "200"), ("nest", "0", "8"), ("walk", "1", "1")):
        image = place.call("fractal generate", *words).output
        run, load = (place.call("fractal", *call, stdin=data).output for call, data in
                     ((["run"], image), (["load", *words], b"")))
        expect(run[run.index(b"output "):] == load[load.index(b"output "):] != b"", f"one end of {words}", (run, load))
    one_sentence_each([
        (place.call("fractal generate", "walk", "7"), ["SEED and a SIZE"]),
        (place.call("fractal generate", "run", "7", "1"), ["walk and nest", "`run`"]),
        (place.call("fractal generate", "walk", "4294967296", "1"), ["SEED"]),
        (place.call("fractal generate", "nest", "0", "10001"), ["SIZE", "1 to 10000"]),
    ])


# ---- study, workers and the bench


def studies_are_made(place: Place) -> None:
    """a study has a line for each choice of options, whose runs end, and the same with several at once"""
    place.needs_second_program()
    image = write_file(place, "image", place.call("fractal generate", "walk", "7", "150").output)
    words = ["fractal study", image, "--tiles", "1,2", "--line", "4,64"]
    answer, again = place.call(*words), place.call(*words, "--jobs", "3")
    lines = answer.output.decode().splitlines()
    expect((answer.status, answer.errors, len(lines)) == (0, "", 6), "four lines and their heads", answer)
    expect(answer == again, "the same lines", again)
    expect([re.findall(r"\d+", line)[:2] for line in lines[2:]] == [["1", "4"], ["1", "64"], ["2", "4"], ["2", "64"]],
           "each choice", lines)
    expect("| Rounds | Acts | Commits a round |" in lines[0], "rounds beside acts", lines)
    other = write_file(place, "other", place.call("fractal generate", "nest", "0", "3").output)
    answer = place.call("fractal study", image, other, "--columns", "commits,fewer,end")
    rows = [line.split(" | ") for line in answer.output.decode().splitlines()[2:]]
    wanted = [["300", "1.0", "normal |"], ["9", "1.0", "normal |"]]
    expect([row[1:] for row in rows] == wanted, "a line an image", answer)
    one_sentence_each([
        (place.call("fractal study"), ["an IMAGE"]),
        (place.call("fractal study", "nowhere"), ["nowhere", "no such file"]),
        (place.call("fractal study", image, "--towers", "1"), ["--towers"]),
        (place.call("fractal study", image, "--line", "5"), ["--line", "`5`"]),
        (place.call("fractal study", image, "--watch", "nowhere"), ["nowhere", "isn't built"]),
        (place.call("fractal study", str(place.clone / "README.md")), ["README.md:1:", "fault: image 2 0"]),
        (place.call("fractal study", image, "--rounds", "0"), ["--rounds"]),
        (place.call("fractal study", image, "--columns", "end,time"), ["--columns", "`time`"]),
        (place.call("fractal study", image, "--csv", "nowhere/x"), ["nowhere/x", "no such folder"]),
        (place.call("fractal study", image, "--csv", image), ["image: this is read"]),
        (place.call("fractal study", image, image), ["stands twice"]),
    ])
    odd = write_file(place, os.fsdecode(b"odd \xff"), (place.root / "image").read_bytes())
    answer = place.call("fractal study", odd, "--csv", "x.csv")
    expect(answer.status == 0 and "odd \\udcff" in (place.root / "x.csv").read_text(), "a name that isn't text", answer)


def studies_have_the_acts_of_schedules(place: Place) -> None:
    """a study in lockstep counts the replies of `fractal_sim` to the script of the same acts"""
    place.needs_program()
    place.needs_second_program()
    image = write_file(place, "image", place.call("fractal generate", "nest", "0", "30").output)
    words = ["--tiles", "3", "--task-queue", "8", "--line", "8"]
    answer = place.call("fractal study", image, *words, "--csv", "study.csv")
    row, = csv.DictReader((place.root / "study.csv").read_text().splitlines())
    script = place.call("fractal lockstep", "3", "2", row["rounds"]).output
    said = place.call("fractal", "steps", *words, stdin=(place.root / "image").read_bytes() + script)
    words = ["fractal figures", "--script", write_file(place, "script", script), "-", "--csv", "tally.csv"]
    answer = place.call(*words, stdin=said.output)
    expect(answer.status == 0, "a sum", answer)
    other, = csv.DictReader((place.root / "tally.csv").read_text().splitlines())
    for name, same in (("acts", "acts"), ("rounds", "rounds"), ("commits", "commits"), ("taken", "aborted"),
                       ("steps", "step stall"), ("dispatches", "dispatches a commit")):
        expect(row[name] == other.get(same, "0"), f"the same {same}", (row, other))


def endless_choices_are_rows(place: Place) -> None:
    """a choice without an end is a row that says so, with its numbers, and so is one that fails; CSV has numbers"""
    place.needs_second_program()
    image = write_file(place, "image", place.call("fractal generate", "walk", "7", "500").output)
    words = ["fractal study", image, "--rounds", "250", "--csv", "study.csv"]
    answer = place.call(*words, "--tiles", "1,16")
    lines = answer.output.decode().splitlines()
    expect(answer.status == 0 and lines[2].endswith("| none in 250 rounds |") and lines[3].endswith("| normal |"),
           "a row without an end, and one with", answer)
    rows = list(csv.DictReader((place.root / "study.csv").read_text().splitlines()))
    expect([row["--tiles"] for row in rows] == ["1", "16"] and rows[0]["rounds"] == "250", "plain numbers", rows)
    expect(abs(int(rows[1]["commits"]) / int(rows[1]["rounds"]) - float(rows[1]["round"])) < 0.01, "a ratio", rows)
    answer = place.call(*words, "--tiles", "1")
    answer.sentence("no run ended")
    expect(b"none in 250 rounds" in answer.output, "the row", answer)
    program = str(place.second_program)
    text = f"case $* in *'--tiles 2'*) cat >/dev/null; exit 5 ;; esac; exec '{program}' \"$@\"\n"
    stub = place.stub(place.root / "stub", text)
    answer = place.call("fractal study", image, "--tiles", "16,2,8", "--watch", str(stub))
    ends = [line.split(" | ")[-1] for line in answer.output.decode().splitlines()[2:]]
    expect((answer.status, ends) == (0, ["normal |", "none: status 5 |", "normal |"]), "all rows", answer)


PAGE = """# A page

```
./fractal generate walk 7 20 > walk.bin
./fractal study walk.bin --tiles 2,1 --columns commits,end
```

All of it:

| --tiles | Commits | End |
| --- | --- | --- |
| 2 | 41 | normal |

```
./fractal help
```
"""


def pages_are_made_again(place: Place) -> None:
    """the tables of a page are compared with what their commands print, and replaced if that is asked for"""
    place.needs_second_program()
    path = write_file(place, "page.md", PAGE.encode())
    place.call("fractal study", "--page", path).sentence("1 of 1 tables differ")
    expect((place.root / "page.md").read_text() == PAGE, "the page as it was")
    answer = place.call("fractal study", "--page", path, "--write")
    expect((answer.status, answer.output) == (0, f"{path}:10: differs\n".encode()), "a table that is replaced", answer)
    wanted = PAGE.replace("| 2 | 41 | normal |", "| 2 | 40 | normal |\n| 1 | 40 | normal |")
    expect((place.root / "page.md").read_text() == wanted, "both rows", (place.root / "page.md").read_text())
    expect(place.call("fractal study", "--page", path).output == f"{path}:10: as it was\n".encode(), "the same again")
    bad = {"walk.bin --tiles 2,1": "walk.bin --tiles 0", "> walk.bin": "> other.bin",
           "./fractal study walk": "./fractal x", "All of it:\n\n|": "## More\n\n|"}
    for old, new in bad.items():
        path = write_file(place, "bad.md", PAGE.replace(old, new).encode())
        place.call("fractal study", "--page", path).sentence("study: ")
    one_sentence_each([
        (place.call("fractal study", "--page", "nowhere"), ["nowhere", "no such file"]),
        (place.call("fractal study", "--page", path, path), ["--page PAGE"]),
    ])
    place.is_clean()


def odd_pages_are_refused(place: Place) -> None:
    """a page whose lines can't be called, that isn't text or that can't be written is refused, and nothing is
    changed"""
    study, block = "fractal study", "```\n{}\n```\n\n| A |\n"
    other = place.root / "other"
    for line, part in (("./fractal lockstep '1 1 1", "quotation marks"), ("./fractal lockstep 1\0", "byte 0"),
                       ("./fractal generate walk 7 10", "prints no text"),
                       ("./fractal lockstep 1 1 1 > ../other", "outside"),
                       (f"./fractal lockstep 1 1 1 > '{other}'", "outside"), ("./fractal help", "no block")):
        data = block.format(line).encode()
        place.call(study, "--page", write_file(place, "page.md", data), "--write").sentence("study: ", part)
        expect((place.root / "page.md").read_bytes() == data, "the page as it was")
    one_sentence_each([
        (place.call(study, "--page", "-", "--write", stdin=block.encode()), ["not standard input"]),
        (place.call(study, "--page", write_file(place, "page.md", b"```\n./fractal shell\n```\n\xff")), ["UTF-8"]),
    ])
    expect(not other.exists() and not (place.root / "-").exists(), "no other file")
    place.is_clean()


def lines_of_pages_end_as_they_did(place: Place) -> None:
    """a page whose lines end as on another system keeps that, and one that is changed meanwhile isn't replaced"""
    command = place.clone / "tools" / "yotarimu" / "commands" / "shell.py"
    command.write_text("def main(words):\n    print('| 1 |')\n")
    page = b"```\r\n./fractal shell\r\n```\r\n\r\n| 0 |\r\n"
    path = write_file(place, "page.md", page)
    answer = place.call("fractal study", "--page", path, "--write")
    expect((answer.status, (place.root / "page.md").read_bytes()) == (0, page.replace(b"0", b"1")), "the ends", answer)
    command.write_text(f"def main(words):\n    print('| 2 |')\n    open({str(path)!r}, 'a').write('more\\n')\n")
    place.call("fractal study", "--page", path, "--write").sentence("changed while its commands were called")
    expect((place.root / "page.md").read_bytes() == page.replace(b"0", b"1") + b"more\n", "what was added")


def study_is_as_it_was(place: Place) -> None:
    """the tables of the study's shortest runs, those of the queues and of one placer or another, come out again"""
    place.needs_second_program()
    page = str(place.clone / "docs" / "machine" / "STUDY_TABLES.md")
    answer = place.call("fractal study", "--page", page, "--sections", "Queues,Placers: the walk")
    told = [line.rpartition(": ")[2] for line in answer.output.decode().splitlines()]
    expect((answer.status, told) == (0, ["as it was"] * 2), "both tables", answer)
    place.call("fractal study", "--page", page, "--sections", "Queues,Nothing").sentence("no section `Nothing`")


def threads_are_checked(place: Place) -> None:
    """runs with host threads are checked, a report that isn't a run's fails, and so does another status"""
    place.needs_program()
    wanted = "".join(f"hello with {workers} workers: 3 runs accepted, one answer\n" for workers in (2, 4, 16))
    answer = place.call("fractal dev workers", "hello", "--runs", "3", "--jobs", "2")
    expect(answer == Answer(0, wanted.encode(), ""), "nine runs", answer)
    refusing = "[ $1 = run ] || { echo 'fault journal 2'; exit 8; }"
    for text, part in (("exit 3", "status 3"), (refusing, "fault journal 2")):
        stub = place.stub(place.root / "stub", f"cat >/dev/null; {text}; printf '\\nend normal\\n'\n")
        answer = place.call("fractal dev workers", "hello", "--runs", "2", "--sim", str(stub))
        expect(answer.status == 1 and "2 of 2 " in answer.output.decode(), "a failure", answer)
        expect(part in answer.output.decode(), f"`{part}`", answer)
    one_sentence_each([
        (place.call("fractal dev workers", "mine"), ["unknown NAME mine"]),
        (place.call("fractal dev workers"), ["it needs a NAME or --all"]),
        (place.call("fractal dev workers", "hello", "--runs", "0"), ["--runs must be 1 to 100000, not 0."]),
        (place.call("fractal dev workers", "hello", "--sim", "nowhere"), ["nowhere", "isn't built"]),
    ])


def swept_threads_are_checked(place: Place) -> None:
    """a sweep over host threads has each report checked for itself"""
    place.needs_program()
    answer = place.call("fractal sweep", files_of(place, "nested")[0], "--workers", "0,2,16", "--check")
    lines = answer.output.decode().splitlines()
    expect(len(lines) == 4 and all(line.endswith(",0") for line in lines[1:]), "three accepted reports", answer)


def scarce_memory_is_answered(place: Place) -> None:
    """under a falling limit of address space each run answers whole or with status 5, and any other program fails"""
    place.needs_program()
    answer = place.call("fractal dev memory", "check", "load")
    told = re.findall(r"(\w+): [\d,]+ runs: [\d,]+ whole answers, ([\d,]+) out of memory, ", answer.output.decode())
    expect((answer.status, [name for name, _ in told]) == (0, ["check", "load"]), "two lines", answer)
    expect(all(count != "0" for _, count in told), "status 5", told)
    scarce = 'cat >/dev/null; limit=$(ulimit -v); [ "$limit" = unlimited ] || [ "$limit" -gt 60000 ]'
    for text, part in (("echo part; exit 5", "status 5 and `part`"), ("exit 3", "status 3 and ``"),
                       ("echo whole", "status 5 never came")):
        stub = place.stub(place.root / "stub", f"{scarce} || {{ {text}; exit; }}; echo whole\n")
        answer = place.call("fractal dev memory", "load", "--sim", str(stub))
        expect(answer.status == 1 and part in answer.output.decode(), f"`{part}`", answer)
    one_sentence_each([
        (place.call("fractal dev memory", "mine"), ["unknown NAME mine", "run, workers"]),
        (place.call("fractal dev memory", "--sim"), ["needs a value"]),
        (place.call("fractal dev memory", "--all", "--sim", "nowhere"), ["nowhere", "isn't built"]),
        (place.call("fractal dev memory", "load", "--sim", str(place.clone / "README.md")), ["can't be run"]),
    ])


def refused_allocations_are_answered(place: Place) -> None:
    """each allocation of three schedules is refused in turn: status 5 or the whole answer, as many as TOOLS says"""
    place.needs_program()
    answer = place.call("fractal dev allocations", "--all")
    told = re.findall(r"(\w+): ([\d,]+) allocations, each refused once: ([\d,]+) out of memory, ([\d,]+) whole "
                      "answers, 0 killed", answer.output.decode())
    expect((answer.status, [name for name, *_ in told]) == (0, ["conflict", "children", "four_cores"]), "lines", answer)
    page = (place.clone / "docs" / "guide" / "TOOLS.md").read_text()
    for name, *counts in told:
        expect(counts[1] != "0", "status 5", told)
        row = f"| `{name}` | {' | '.join(counts)} |"
        expect(row in page, f"`{row}` in TOOLS.md")
    stub = str(place.stub(place.root / "stub", "cat >/dev/null; exit 3\n"))
    one_sentence_each([
        (place.call("fractal dev allocations", "--all", "--sim", stub), ["conflict", "status 3"]),
        (place.call("fractal dev allocations", "mine"), ["unknown NAME mine", "conflict, children"]),
        (place.call("fractal dev allocations", "--sim"), ["needs a value"]),
        (place.call("fractal dev allocations", "--all", "--sim", "nowhere"), ["nowhere", "isn't built"]),
        (place.call("fractal dev allocations", "children", "--sim", files_of(place, "hello")[0]), ["can't be run"]),
    ])


def benches_are_told(place: Place) -> None:
    """the bench lists its arguments, refuses others, needs the built program, and lists what is worse in a second
    file"""
    expect(b"--lockstep" in place.call("bench/run", "--help").output, "a help page")
    before = place.clone / "bench" / "before"
    old, new, head = str(before / "version_1.csv"), str(before / "version_2.csv"), b"table,case,figure,value\n"
    answer = place.call("bench/run", "--compare", old, new)
    expect((answer.status, answer.errors) == (1, "") and b"| load nest 0 1000 | host instructions |" in answer.output,
           "what is worse, and status 1", answer)
    same = place.call("bench/run", "--compare", old, old)
    expect((same.status, b"0 got worse" in same.output) == (0, True), "nothing that is worse", same)
    one_sentence_each([
        (place.call("bench/run", "--fast"), ["--lockstep"]),
        (place.call("bench/run", "--loads", "--workers"), ["one word"]),
        (place.call("bench/run", "--loads"), ["isn't built"]),
        (place.call("bench/run", "--loads", "--csv"), ["--csv"]),
        (place.call("bench/run", "--compare", old), ["bench/run --help"]),
        (place.call("bench/run", "--compare", old, str(place.clone / "README.md")), ["README.md", "no figures"]),
        *((place.call("bench/run", "--compare", old, write_file(place, "odd.csv", head + row)), ["odd.csv:2:", part])
          for row, part in ((b"a,b,c,nan\n", "isn't a figure"), (b"a,b,c,1e999\n", "isn't a figure"),
                            (b"a," + b"b" * 200_000 + b",c,1\n", "isn't a row of CSV"))),
    ])
    place.stub(place.program, "cat >/dev/null\n")
    place.call("bench/run", "--workers", "--csv=").sentence("folder")


# A second program that says one thing to all: a line with tasks that were aborted, and an end.
WATCHING = """cat >/dev/null; printf '{{"at":1,"back":{back}}}\\n{{"end":"normal","n":{end}}}\\n'\n"""


def programs_are_held_against_each_other(place: Place) -> None:
    """two programs that answer the same are reported as equal, by kinds; at the first difference both answers are
    kept"""
    one = str(place.stub(place.root / "one", "cat >/dev/null; echo fault usage; exit 1\n"))
    lying = "cat >/dev/null; echo fault usage; [ $1 = trace ]; exit $((2 - $?))\n"
    other = str(place.stub(place.root / "other", lying))
    answer = place.call("bench/same", one, one, "20")
    expect((answer.status, answer.errors) == (0, ""), "no difference", answer)
    expect(b"20 cases, with " in answer.output, "the same answers", answer)
    kept = place.root / "kept"
    kept.mkdir()
    answer = place.call("bench/same", one, other, "40", "--to", str(kept))
    expect(answer.status == 1, "a difference", answer)
    answer.tells("status 2", "they wrote the same", "To play it again", f"{other}' trace", "--case")
    files = {path.name for path in kept.iterdir()}
    expect(files == {"input", "old", "new", "old.errors", "new.errors"}, "the input and both answers", files)
    told = str(place.stub(place.root / "told", WATCHING.format(back="[[1,2],[3,4]]", end=3)))
    turned = str(place.stub(place.root / "turned", WATCHING.format(back="[[3,4],[1,2]]", end=3)))
    ended = str(place.stub(place.root / "ended", WATCHING.format(back="[[1,2],[3,4]]", end=4)))
    answer = place.call("bench/same", told, turned, "20", "--watch")
    expect((answer.status, answer.errors) == (0, ""), "no difference but in an order", answer)
    place.call("bench/same", told, ended, "20", "--watch").tells("case 0 ", "line 2", "--watch --case 0")
    one_sentence_each([
        (place.call("bench/same", one), ["OLD and NEW", "bench/same --help"]),
        (place.call("bench/same", one, "nowhere"), ["nowhere", "isn't built"]),
        (place.call("bench/same", one, one, "0"), ["COUNT"]),
        (place.call("bench/same", one, one, "--jobs", "0"), ["--jobs"]),
        (place.call("bench/same", one, one, "9", "--case", "3"), ["one case"]),
        (place.call("bench/same", one, one, "--to", "nowhere"), ["nowhere", "no such folder"]),
        (place.call("bench/same", one, other, "40", "--to", str(kept)), ["`input`", "there already"]),
        *((place.call("bench/same", one, one, f"{option}="), [option]) for option in ("--seed", "--jobs", "--to")),
        (place.call("bench/same", one, one, "--case="), ["--case takes a number"]),
    ])


TRIES = (
    runs_are_drawn, other_lines_are_not_drawn, schedules_are_summed_up, other_outputs_are_refused,
    inputs_are_kept, odd_names_are_borne, odd_stored_words_are_told, lockstep_is_written,
    images_are_generated, studies_are_made, studies_have_the_acts_of_schedules, endless_choices_are_rows,
    pages_are_made_again, odd_pages_are_refused, lines_of_pages_end_as_they_did, study_is_as_it_was,
    threads_are_checked,
    swept_threads_are_checked, scarce_memory_is_answered, refused_allocations_are_answered, benches_are_told,
    programs_are_held_against_each_other,
)
