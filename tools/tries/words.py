"""Tries of what ./fractal says of words, scripts and reports that the program refuses, and of ./fractal play."""
from __future__ import annotations

import concurrent.futures
import os
import pathlib
import random
import subprocess
from collections.abc import Sequence

from yotarimu.programs.examples import SCHEDULES
from yotarimu.programs.table import Option, Table, option_in

from tries.files import picture_in
from tries.place import Answer, Place, expect, one_sentence_each

USAGE = b"fault usage\n"
# An option whose values are words, as a row of the launcher's table, and what is told of it.
OF_WORDS = "option|flavour|sweet,salt|sweet|how a task tastes"
TOLD_OF_WORDS = {"help": "--flavour      how a task tastes (sweet, salt; default sweet)",
                 "shell bash": "--flavour) words='sweet salt'", "shell zsh": ":(sweet salt)'",
                 "shell man": "how a task tastes (one of sweet, salt; default sweet)"}
# Words that are refused, and what standard error tells of each.
REFUSED = (
    ("rum", "unknown command rum; did you mean run?"),
    ("sweeep", "did you mean sweep?"),
    ("anything", "unknown command anything", "help lists them"),
    ("--tiles 2 run", "unknown command --tiles"),
    ("run --tiles 99", "--tiles must be 1 to 16, not 99."),
    ("run --tiles=0", "1 to 16, not 0."),
    ("run --tiles=00000000002", "1 to 16, not 00000000002"),
    ("run --line 12", "--line must be 4, 8, 16, 32, 64, not 12."),
    ("run --commits", "--commits needs a value: 1 to 1000000."),
    ("run --tiles --cores 2", "--tiles needs a value", "--cores begins with a dash"),
    ("run --tiles -2", "needs a value", "-2 begins with a dash"),
    ("run --tiles 2 --tiles=2", "--tiles is given twice."),
    ("run --tile 2", "unknown option --tile; did you mean --tiles?"),
    ("run --csv x", "--csv is an option of explain, figures, study, not of run."),
    ("run --towers 2", "unknown option --towers", "help run lists them"),
    ("run --filter bloom", "--filter is an option of ./fractal watch, not of run."),
    ("load walk 7 20 --filter", "--filter is an option of ./fractal watch, not of load."),
    ("run --", "-- isn't known"),
    ("run -t 2", "unknown option -t", "two dashes"),
    ("run image.bin", "standard input", "fractal' run < image.bin"),
    ("run --tiles 2 image.bin --line=4", "fractal' run --tiles 2 --line=4 < image.bin"),
    ("save image.bin", "fractal' save < image.bin"),
    ("check image.bin report", "cat image.bin report | ", "fractal' check"),
    ("steps both", "cat IMAGE SCRIPT | ", "fractal' steps"),
    ("run --version", "--version stands alone"),
    ("load", "KIND SEED SIZE", "load walk 7 100"),
    ("load hop 7 20", "load generates walk or nest, not hop."),
    ("load walk x 20", "the seed must be 0 to 4294967295, not x."),
    ("load walk 7 100001", "the size of a walk must be 1 to 100000, not 100001."),
    ("load nest 7 10001", "1 to 10000, not 10001."),
    ("load nest 7 1 1", "one argument too many"),
    ("prove now", "prove takes no now"),
    ("README.md", "unknown command README.md"),
)
# Lines, each with what is told of it.
Refusals = tuple[tuple[bytes, tuple[str, ...]], ...]
# A line of a script that is refused, and why.
LINES: Refusals = (
    (b"step 4 0", ("`step 4 0`", "no tile 4", "0 to 3")), (b"step 0 2", ("no core 2", "0 to 1")),
    (b"commit ", ("`commit `", "blank follows")), (b"commit\r", ("CRLF",)), (b"", ("is empty",)),
    (b"step 01 0", ("leading zero",)), (b"step 0", ("a tile and a core",)), (b"commit 1", ("nothing",)),
    (b"halt", ("`halt` isn't an act",)), (b"# now", ("fractal play",)), (b"step  0 0", ("two blanks",)),
    (b"dispatch\t0", ("tab",)), (b"dispatch x", ("isn't a number",)), (b"dispatch \xff", ("byte ff",)),
)
# What a report's line is changed to, and why that is refused.
ENTRIES: Refusals = (
    (b"3 1.1 2 3", (": its timestamp is 2: status",)), (b"3 1.1 4 2", (": its depth is 2: status",)),
    (b"3 1.1 4 3", ("its depth is 2 and its timestamp is 2",)), (b"3 1.0 2 1", ("the task 1.0 took turn 2",)),
    (b"3 1.2 2 2", ("no task 1.2: the task of turn 1 made 2 tasks",)),
    (b"3 0.2 1 0", ("no task 0.2: the image has 2 tasks",)), (b"3 7.0 2 2", ("before turn 7 was taken",)),
    (b"3 0.1 1 0", ("the task 1.1 comes before it", "a subdomain at depth 2")), (b"3 1.1 2 02", ("leading zero",)),
    (b"4 1.1 2 2", ("3 is wanted",)), (b"3 1-1 2 2", ("isn't a name",)), (b"3 1.1 2 2 ", ("blank follows",)),
    (b"3 1.1 2 2\r", ("CRLF",)), (b"", ("is empty",)), (b"window 1", ("an entry", "or the output")),
    (b"3 1.1 17 2", ("1 to 16",)),
)
RANDOM_CALLS = 10_000
# A call that goes on for so long was taken.
LONG_ENOUGH = 2


def refused_words_are_told(place: Place) -> None:
    """invalid arguments are refused at once in a clone that isn't built, and in a sentence, built or not"""
    place.nothing_answers()
    for is_built in (False, True):
        if is_built:
            place.stub(place.program, "printf 'fault usage\\n'; exit 1\n")
        for line, *parts in REFUSED:
            answer = place.call("fractal", *line.split())
            answer.sentence(*parts, status=1)
            expect(answer.output == USAGE, "the program's own words", answer)
    for words in (["run", "x\ny\x1b[2J" + "z" * 100], ["\n"], ["run", "--tiles", "\udcff"]):
        answer = place.call("fractal", *words)
        answer.sentence("fractal: ", status=1)
        expect("\x1b" not in answer.errors and len(answer.errors) < 400, "a line that may be shown", answer)
    place.program.unlink()
    answer = place.call("/bin/sh", "-c", '"$0" rum >/dev/full', str(place.clone / "fractal"))
    expect(answer.status == 7, "status 7 where the refusal can't be written", answer)
    answer.tells("standard output takes no more")


def own_words_are_told(place: Place) -> None:
    """`--version` names the programs, `--help` after a command prints its page, and a full device is reported"""
    place.stub(place.program, "")
    head = subprocess.run(["git", "-C", place.clone, "rev-parse", "HEAD"], capture_output=True, text=True, check=True)
    answer = place.call("fractal", "--version")
    parts = ("fractal 1", "fractal_sim: the proved program, digest ", f", commit {head.stdout.strip()}")
    expect(all(part in answer.output.decode() for part in parts), "the program and its commit", answer)
    page = place.call("fractal", "help").output
    for words in (["--help"], ["-h"], ["help", "--help"], ["help", "-h"]):
        expect(place.call("fractal", *words) == Answer(0, page, ""), "the page", words)
    for words in (["run", "--help"], ["run", "--tiles", "2", "-h"], ["--help", "run"], ["-h", "run"]):
        expect(place.call("fractal", *words) == place.call("fractal", "help", "run"), "help on one command", words)
    place.call("fractal", "help", "run", "extra").sentence("one COMMAND, and extra is one argument", status=1)
    for word in ("help", "dev table", "--version"):
        answer = place.call("/bin/sh", "-c", f'"$0" {word} >/dev/full', str(place.clone / "fractal"))
        answer.sentence("standard output takes no more", status=7)


def random_words_are_judged_alike(place: Place) -> None:
    """of 10,000 random calls the launcher refuses those that the program refuses, and no other"""
    place.needs_program()
    program = place.root / "program"
    place.program.rename(program)
    place.nothing_answers()
    table = Table()
    calls = [random_call(random.Random(seed), table) for seed in range(RANDOM_CALLS)]
    with concurrent.futures.ThreadPoolExecutor(2 * (os.cpu_count() or 1)) as pool:
        judged = pool.map(lambda words: judgements(place, program, words), calls)
        refused = 0
        for words, (by_launcher, by_program) in zip(calls, judged):
            expect(by_launcher == by_program, f"the program's judgement {by_program} of", words)
            refused += by_program
    expect(RANDOM_CALLS / 5 < refused < RANDOM_CALLS * 4 / 5, "calls of both kinds", refused)


def judgements(place: Place, program: pathlib.Path, words: Sequence[str]) -> tuple[bool, bool]:
    """Whether the launcher and the program refuse the words."""
    launched = place.call("fractal", *words)
    expect((launched.status, launched.output) in ((1, USAGE), (69, b"")), "a refusal, or that rt is missing", launched)
    try:
        done = subprocess.run([program, *words], stdin=subprocess.DEVNULL, stdout=subprocess.PIPE, timeout=LONG_ENOUGH)
    except subprocess.TimeoutExpired:
        return launched.status == 1, False
    return launched.status == 1, done.returncode == 1


def random_call(chance: random.Random, table: Table) -> list[str]:
    """The words of a call, of which about half are wrong."""
    command = chance.choice([*table.commands, "load", "load"])
    words = [command]
    if command == "load":
        kind = chance.choice(("walk", "nest"))
        words += [kind, number(chance, 0, 2 ** 32 - 1), number(chance, 1, {"walk": 100_000, "nest": 10_000}[kind])]
    for option in chance.sample(list(table.options.values()), chance.choice((0, 0, 1, 1, 2, 3, 10))):
        value = some_value(chance, option)
        pair = chance.choice(([f"--{option.name}", value], [f"--{option.name}={value}"]))
        place = 1 + chance.randrange(len(words)) if command == "load" and len(words) == 4 else len(words)
        words[place:place] = pair
    for _ in range(chance.choice((0, 0, 1, 2))):
        change(chance, words, table)
    # What is the launcher's own isn't the program's.
    words = [word for word in words if word != "--help"]
    return words if words and words[0] not in table.own else ["run", *words[1:]]


def some_value(chance: random.Random, option: Option) -> str:
    """A value of an option, or what is nearly one."""
    if option.has_words:
        one, other = (str(chance.choice(option.values)) for _ in range(2))
        return chance.choice((one, one, one, f"{one},{other}", one.upper(), one[:-1], f"{one} ", f"{one}{other}", "1"))
    few = [int(value) for value in option.values] if len(option.values) < 20 else []
    return number(chance, int(option.values[0]), int(option.values[-1]), few)


def options_of_words_are_known(place: Place) -> None:
    """an option whose values are words, a row of the table, is known to launcher, completions, manual and tools"""
    launcher, image = place.clone / "fractal", str(place.clone / "examples" / "hello" / "image.bin")
    launcher.write_text(launcher.read_text().replace("\nseed|any|", f"\n{OF_WORDS}\nseed|any|", 1))
    for words, told in TOLD_OF_WORDS.items():
        answer = place.call(f"fractal {words}")
        expect(answer.status == 0 and told in answer.output.decode(), f"`{told}`", answer)
    for program in (place.program, place.second_program):
        place.stub(program, "cat >/dev/null; exit 5\n")
    one_sentence_each([(place.call(f"fractal {tool}", image, *words, "--flavour", "no"),
                        ["--flavour takes one of sweet, salt, and not `no`"])
                       for tool, *words in (["sweep"], ["study"], ["console"], ["resume", "pieces", "--every", "1"])])
    answer = place.call("fractal sweep", image, "--flavour", "salt,sweet")
    expect(answer.status == 1 and answer.output.count(b",5,") == 2, "a run of each word", answer)
    for program in (place.program, place.second_program):
        program.unlink()
    place.nothing_answers()
    chance, option = random.Random(1), option_in(*OF_WORDS.split("|")[1:])
    for value in [some_value(chance, option) for _ in range(20)]:
        answer = place.call("fractal", "run", "--flavour", value)
        expect(answer.status == (69 if value in option.values else 1), f"a judgement of `{value}`", answer)


def number(chance: random.Random, least: int, most: int, values: Sequence[int] = ()) -> str:
    """A number in a range, at its edges or beyond them, with leading zeros now and then."""
    value = chance.choice([least, most, most + 1, least - 1, chance.randint(least, most), *values])
    digits = chance.choice((0, 0, 0, 4, 10, 11))
    return f"{value:0{digits}}" if value >= 0 else str(value)


def change(chance: random.Random, words: list[str], table: Table) -> None:
    """One change of a call, which may leave it right."""
    other = chance.choice(("", "-", "--", "---", "--=", "--tiles", "--tiles=2", "--line=16=", "-1", "+1", " 2", "2 ",
                           "١", "é", "1\n2", "0x2", "1e3", "walk", "run", "--Tiles", "--tiles ", "--help", "--version",
                           "|", "--tiles|1..16", "*", "\\n", *table.options, *table.commands))
    place = chance.randrange(len(words) + 1)
    kind = chance.choice("insert remove replace repeat swap spell".split())
    if kind == "insert" or not words:
        words.insert(place, other)
        return
    place %= len(words)
    if kind == "remove":
        del words[place]
    elif kind == "replace":
        words[place] = other
    elif kind == "repeat":
        words.insert(place, words[place])
    elif kind == "swap":
        words[place], words[-1] = words[-1], words[place]
    else:
        letter = chance.randrange(len(words[place]) + 1)
        words[place] = words[place][:letter] + chance.choice("x-=0 ") + words[place][letter + chance.randrange(2):]


# ---- scripts and reports that are refused


def refused_scripts_are_told(place: Place) -> None:
    """a script's refusal names the line and what is wrong with it, from a file or a pipe"""
    place.needs_program()
    image = (place.clone / "examples" / "pipeline" / "image.bin").read_bytes()
    for line, parts in LINES:
        (place.root / "both").write_bytes(image + b"commit\n" + line + b"\ncommit\n")
        answer = from_file(place, "steps")
        answer.sentence("line 2 of the script", *parts, status=9)
        expect(answer.output == b"fault script 2\n", "the program's own words", answer)
    (place.root / "both").write_bytes(b"before" + image + b"step 2 0\n")
    start = "dd bs=6 count=1 of=/dev/null 2>/dev/null; "
    from_file(place, "trace --tiles 2", start).sentence("line 1 of the script", "0 to 1", status=9)
    for place_of in ("fractal", "fractal dev refusal"):
        (place.root / "none").write_bytes(b"FRAC")
    answer = place.call("fractal", "steps", stdin=image + b"halt\n")
    answer.sentence("line 1 of the script", "`halt` isn't an act", status=9)


def refused_reports_are_told(place: Place) -> None:
    """a report's refusal names the line, and what the grammar or the run wants there"""
    place.needs_program()
    folder = place.clone / "examples" / "nested"
    image, report = (folder / "image.bin").read_bytes(), (folder / "report").read_bytes()
    for line, parts in ENTRIES:
        (place.root / "both").write_bytes(image + report.replace(b"3 1.1 2 2", line, 1))
        answer = from_file(place, "check")
        answer.sentence("line 4 of the report", *parts, status=8)
        expect(answer.output == b"fault journal 4\n", "the program's own words", answer)
    for changed, number, part in (
            (report[:20], 3, "is missing"), (b"", 1, "is missing"), (report + b"more", 15, "nothing may stand"),
            (report.replace(b"output -", b"output 0A"), 10, "lower case"), (b"fractal 2\n", 1, "`fractal 1` is wanted"),
            (report.replace(b"output -", b"output 0a"), 10, "the tasks before it emitted 0 bytes, and not 1"),
            (report.replace(b"00000058", b"00000059"), 11, "the memory holds 00000058 there at the end"),
            (report.replace(b"10000004", b"10000008"), 12, "the word 1 of the window, counted from 0, is at 1"),
            (report.replace(b"window 10000008 00000002\n", b""), 13, "3 words, and the one at 10000008 is missing"),
            (report.replace(b"end", b"window 1000000c 00000002\nend"), 14, "has 3 words, so the end is wanted"),
            (report.replace(b"end normal", b"end trap 18 00010000 0.0"), 14, "1 to 17"),
            (report.replace(b"end normal", b"end limit"), 14, "no task is left, so it is `end normal`")):
        (place.root / "both").write_bytes(image + changed)
        from_file(place, "check").sentence(f"line {number} of the report", part, status=8)
    (place.root / "both").write_bytes(image + report)
    from_file(place, "check --commits 3").sentence("line 5 of the report", "--commits allows 3 tasks", status=8)
    from_file(place, "check --budget 5").sentence("line 2 of the report", "it traps, with cause 17", status=8)
    answer = place.call("fractal", "check", stdin=image + report[:20])
    answer.sentence("line 3 of the report", "is missing", status=8)


def other_ends_are_told(place: Place) -> None:
    """a report that ends otherwise than its run is refused with how that ends, by a trap or the tasks that are left"""
    place.needs_program()
    folder = place.clone / "examples" / "trap"
    image, report = (folder / "image.bin").read_bytes(), (folder / "report").read_bytes()
    end = b"end trap 10 00010024 0.1"
    for other, part in (
            (b"end trap 11 00010024 0.1", "the task traps with cause 10 at 00010024: a timestamp in the past"),
            (b"end trap 10 00010020 0.1", "the task traps with cause 10 at 00010024"),
            (b"end trap 10 00010024 0.0", "the task 0.0 took turn 1"), (b"end normal", "one task is left: 0.1"),
            (b"end limit", "--commits allows 1,000,000 tasks, and 1 have come")):
        (place.root / "both").write_bytes(image + report.replace(end, other))
        from_file(place, "check").sentence("line 4 of the report", part, status=8)
    for text, line, part in (
            (report.replace(b"output", b"2 0.1 1 7\noutput"), 3, "it traps, with cause 10 at 00010024"),
            (report.replace(b"output 67", b"output 68"), 3, "the byte 0, counted from 0, is 67, and not 68"),
            (b"fractal 1\noutput -\nend trap 5 00010000 0.0\n", 3, "the task doesn't trap"),
            (b"fractal 1\n1 0.1 1 7\n", 3, "is missing"),
            (b"fractal 1\n1 0.1 1 7\noutput -\nend open\n", 2, "the task 0.0 comes before it: its timestamp is 4")):
        (place.root / "both").write_bytes(image + text)
        from_file(place, "check").sentence(f"line {line} of the report", part, status=8)


def from_file(place: Place, words: str, start: str = "") -> Answer:
    """The answer to a call whose input is the file `both`, read on from where `start` leaves it."""
    script = f'{{ {start}"$0" {words}; }} < both'
    return place.call("/bin/sh", "-c", script, str(place.clone / "fractal"))


def refusals_want_both(place: Place) -> None:
    """./fractal dev refusal refuses other words and inputs in a sentence"""
    refusal = "fractal dev refusal"
    one_sentence_each([
        (place.call(refusal, "fault usage", "run"), ["`fault usage`"]),
        (place.call(refusal, "fault script 0", "steps"), ["`fault script 0`"]),
        (place.call(refusal, "fault script 1", "steps"), ["no whole image"]),
        (place.call(refusal, "fault script 1", "steps", stdin=b"FRAC" + b"\xff" * 40), ["no whole image"]),
        (place.call(refusal, "fault script 1"), ["COMMAND"]),
    ])


# ---- play


def each_word_is_told(place: Place) -> None:
    """`help COMMAND` shows how each command is called, and an unknown one is refused in a sentence"""
    table = Table()
    for word in (*table.commands, *table.own):
        answer = place.call("fractal", "help", word)
        expect((answer.status, answer.errors) == (0, ""), f"a page on {word}", answer)
        expect(f"usage: ./fractal {word}".encode() in answer.output, f"how {word} is called", answer)
    place.call("fractal", "help", "rum").sentence("unknown command rum; did you mean run?", status=1)


def scripts_are_played_beside_their_lines(place: Place) -> None:
    """a script with comments, blank lines and CRLF is played, each reply beside its line, and drawn"""
    place.needs_program()
    for name in SCHEDULES:
        folder = place.clone / "examples" / name
        answer = place.call("fractal play", str(folder))
        said = (folder / "said").read_text()
        report = said[said.index("fractal 1\n"):]
        expect(answer.status in (0, 3, 4) and answer.output.decode().endswith("\n\n" + report), f"{name}", answer)
    script = place.root / "script"
    script.write_bytes(b"# First.\n\ndispatch 0   # starts\r\n\tstep  0 0\r\n\nstep 1 0\n")
    words = ["--image", str(place.clone / "examples" / "pipeline" / "image.bin"), "--tiles", "2", "--picture", "p.svg"]
    answer = place.call("fractal play", str(script), *words, "--plain", "plain")
    wanted = ["    1  # First.", "    2", "    3  dispatch 0   # starts  ok", "    5", ""]
    lines = answer.output.decode().splitlines()
    expect((answer.status, answer.errors) == (0, ""), "no error", answer)
    expect([lines[at] for at in (0, 1, 2, 4, 6)] == wanted, "lines", answer)
    expect(lines[3].split() == ["4", "step", "0", "0", "ok"] and lines[5].endswith("  stale"), "replies", answer)
    expect((place.root / "plain").read_bytes() == b"dispatch 0\nstep 0 0\nstep 1 0\n", "the plain script")
    expect("3 acts; 0 commits" in " ".join(picture_in((place.root / "p.svg").read_bytes())), "a picture")


def play_refuses_bad_words(place: Place) -> None:
    """an invalid line is reported by its number in the file, and so are invalid arguments and missing files"""
    folder = place.root / "mine"
    folder.mkdir()
    play, image = "fractal play", str(place.clone / "examples" / "pipeline" / "image.bin")
    (folder / "script").write_text("# one\n\nstep 4 0  # two\n")
    one_sentence_each([
        (place.call(play), ["one FOLDER or SCRIPT"]),
        (place.call(play, "one", "two"), ["one FOLDER or SCRIPT"]),
        (place.call(play, "nowhere"), ["nowhere", "no such file"]),
        (place.call(play, str(folder), "--image", image), ["script:3:", "`step 4 0`", "no tile 4"]),
        (place.call(play, str(folder), "--image", image, "--tiles", "17"), ["1 to 16", "`17`"]),
        (place.call(play, str(folder), "--image", image, "--towers", "1"), ["`--towers`"]),
        (place.call(play, str(folder), "--image", image, "--picture", ""), ["folder"]),
        (place.call(play, str(folder), "--image", image, "--picture", "nowhere/x"), ["nowhere/x", "no such folder"]),
        (place.call(play, str(folder), "--tiles"), ["needs a value"]),
    ])
    place.needs_program()
    (folder / "script").write_text("commit\n")
    one_sentence_each([
        (place.call(play, str(folder)), ["image.bin", "no such file"]),
        (place.call(play, str(folder), "--image", str(folder / "script")), ["fault image 1 14"]),
    ])
    place.is_clean()


TRIES = (
    refused_words_are_told, own_words_are_told, each_word_is_told, random_words_are_judged_alike,
    options_of_words_are_known,
    refused_scripts_are_told, refused_reports_are_told, other_ends_are_told, refusals_want_both,
    scripts_are_played_beside_their_lines, play_refuses_bad_words,
)
