"""Tries of ./fractal watch, and of ./fractal console, which plays what is typed by it."""
from __future__ import annotations

import concurrent.futures
import json
import os
import random
import shutil
import struct
import subprocess
from collections.abc import Sequence

from yotarimu.courses.agreement import replies_said, replies_told
from yotarimu.images.image import HEADER, WINDOW_WORDS
from yotarimu.programs.examples import SCHEDULES
from yotarimu.programs.program import SECOND_PROGRAM
from yotarimu.programs.table import Table

from tries.launcher import image_of
from tries.place import Answer, Place, expect, need_built, one_sentence_each
from tries.words import change, number, some_value

USAGE = b'{"fault":"usage"}\n'
# Words that are refused, and what standard error tells of each.
REFUSED = (
    ("watch", "watch needs a mode: steps, least or lockstep."),
    ("watch hop", "steps, least or lockstep, not hop."),
    ("watch leest", "did you mean least?"),
    ("watch run", "not run."),
    ("watch views", "views needs a number from 1 to 4294967295."),
    ("watch views 0 least", "not 0."),
    ("watch views 3", "watch views 3 needs a mode: steps"),
    ("watch memory", "watch memory needs a mode: steps, least or lockstep"),
    ("watch memory memory least", "watch memory needs a mode", "not memory."),
    ("watch memory views 3 least", "watch memory needs a mode", "not views."),
    ("watch views 3 memory least", "watch views 3 needs a mode", "not memory."),
    ("watch least memory", "least takes no file argument"),
    ("watch memory lockstep 5", "watch memory lockstep 5 needs a number from 0"),
    ("watch memory steps both", "cat IMAGE SCRIPT | ", "fractal' watch memory steps"),
    ("watch memory least --tiles 17", "1 to 16, not 17."),
    ("watch lockstep", "a number from 1 to 1000000"),
    ("watch lockstep 1000001 1", "not 1000001."),
    ("watch lockstep 5", "watch lockstep 5 needs a number from 0"),
    ("watch lockstep 5 x", "not x."),
    ("watch lockstep 5 7 image.bin --tiles 2", "fractal' watch lockstep 5 7 --tiles 2 < image.bin"),
    ("watch steps both", "cat IMAGE SCRIPT | ", "fractal' watch steps"),
    ("watch least --tiles 17", "1 to 16, not 17."),
    ("watch least --towers 1", "unknown option --towers"),
    ("watch least --filtre exact", "did you mean --filter?"),
    ("watch least --filter", "--filter needs a value: modulo, bloom, exact."),
    ("watch least --filter --tiles 2", "--filter needs a value: modulo", "--tiles begins with a dash"),
    ("watch least --filter blooms", "--filter must be one of modulo, bloom, exact, not blooms."),
    ("watch least --filter modulo,exact", "one of modulo, bloom, exact, not modulo,exact."),
    ("watch least --filter=blooms", "--filter must be one of modulo, bloom, exact, not blooms."),
    ("watch --filter exact lockstep 5 7 --filter bloom", "--filter is given twice."),
    ("watch --filter exact", "watch needs a mode: steps, least or lockstep."),
    ("watch lockstep 5 --filter exact x", "watch lockstep 5 needs a number", "not x."),
    ("watch --filter exact steps both", "cat IMAGE SCRIPT | ", "fractal' watch steps --filter exact"),
)
RANDOM_CALLS = 4_000
APART = "--filter="
# Where the window's offset and its words stand in an image.
WINDOW_AT = 20
# A script at the console, what stands in its answer, and the sentences on standard error.
TYPED = b"""dispatch 0  # begins
# Nothing but a comment.
step 0 0

 step   0  0
halt
step 9 0
dispatch 1
step 1 0
undo
run 2
save mine
save mine
save! mine
script
help
undo 100
quit now
"""
SAID = ("1: dispatch 0\nTile 0 dispatches task 0.0 to its core 0", "4: dispatch 1", "5: step 1 0",
        "1 task is aborted. 0.0 after 5 instructions: it loaded 0 from first at task.s:",
        "and 0.1 stores there at task.s:",
        "0.0  reader  timestamp 2  depth 1, the ordered root domain  idle, aborted", "6: advance", "mine has 6 acts",
        "  5  advance         ok, 1 task aborted", ">  10000000           7  00000007  line 0  first", "undo [N]")
REFUSED_LINES = ("`halt` isn't an act", "no tile 9", "mine: this is there already", "from 1 to 6", "`quit`")

# What is typed of two exercises, and what is said of which task comes first: by hand, from docs/machine/MACHINE.md.
ORDERS = {
    "journal": (["order 0.0 0.1", "dispatch 0", *["step 0 0"] * 4, "order 0.0+2 0.1", "order 0.0 0.0+2",
                 "order 0.0+2 0.0+1", "order 0.0+2", "order 0.0 0.0"],
                ["0.1 comes after 0.0: in the ordered root domain, 0.0 has the timestamp 0 and 0.1 has the timestamp "
                 "2.",
                 "0.1 comes after 0.0+2: in the ordered root domain, 0.0, within whose domain 0.0+2 is, has the "
                 "timestamp 0 and 0.1 has the timestamp 2.",
                 "0.0+2 comes after 0.0: it is within the domain that 0.0 made, and all tasks there come right after "
                 "0.0.",
                 "0.0+1 comes after 0.0+2: in the ordered root domain, 0.0, within whose domain 0.0+2 is, has the "
                 "timestamp 0 and 0.0+1 has the timestamp 1.",
                 "0.0+2: `letter 84` with the timestamp 9, at depth 2 in the ordered subdomain of 0.0",
                 "letter 84  timestamp 9  depth 2, the ordered subdomain of 0.0  idle",
                 "These are the same task."]),
    "order": (["order 0.1 0.0", "dispatch 1", "order 0.1 0.0", "dispatch 0", "order 0.1 0.0"],
              ["0.1 comes after 0.0: in the unordered root domain, timestamps don't count, and neither is dispatched, "
               "but 0.0 waits in tile 0 and 0.1 in tile 1.",
               "0.0 comes after 0.1: in the unordered root domain, timestamps don't count, and 0.1 is dispatched and "
               "0.0 isn't.",
               "0.0 comes after 0.1: in the unordered root domain, timestamps don't count, and 0.1 was dispatched "
               "before 0.0."]),
}

# What stands in a sentence when the script of a schedule is typed.
SENTENCES = {
    "conflict": ("enqueues child 0 to its own domain: 0.0+0, `child 0 2` with the timestamp 2 and the hint 0, which",
                 "2 tasks are aborted. 0.0 after 10 instructions: it loaded 0 from first at task.s:",
                 " 0.0+0 with nothing done (discarded): 0.0, which made it, was aborted.",
                 "its child is 2.0 from now on."),
    "stale_leg": ("is run and held, and nothing changes.", "stale: the task doesn't run from where that leg begins."),
    "kept_trap": ("cause 5: a load from outside text and data; it keeps its core.", "stale: 0.0 is trapped there.",
                  "empty: the least task isn't finished."),
    "commit_queue": ("1 task is aborted. 0.1 after", ": 0.0 ends, and the commit queue is full."),
    "commit_wait": (" instruction, asks to end, and the reply is stall: the commit queue is full, and holds no later",),
    "stall": ("stall: the task queue for it is full", "firm: that one is the least task, which is never aborted.",
              "busy: each of its cores holds a task", "3 tasks are spilled to the block of tile 0: 2.2, 2.1, 2.0."),
    "four_cores": ("0.3 with nothing done: 0.0 needs room in a full task queue.",
                   "stall: its task queue is full, and the first task of its block isn't the least task."),
}


# ---- the launcher


def watch_words_are_told(place: Place) -> None:
    """invalid arguments after `watch` are refused at once, built or not, with the line of a fault from
    `fractal_watch`"""
    place.nothing_answers()
    for is_built in (False, True):
        if is_built:
            place.stub(place.second_program, "printf '{\"fault\":\"usage\"}\\n'; exit 1\n")
        for line, *parts in REFUSED:
            answer = place.call("fractal", *line.split())
            answer.sentence(*parts)
            expect(answer.output == USAGE, "fractal_watch's own words", answer)
    place.second_program.unlink()
    place.call("fractal", "watch", "least").sentence("isn't built", status=69)


def watch_hands_on(place: Place) -> None:
    """arguments after `watch` go to `fractal_watch` as they are, and output and status are its own"""
    place.stub(place.second_program, 'for word in "$@"; do echo "[$word]"; done\nexit 4\n')
    for leading in (["views", "2"], ["memory"]):
        words = [*leading, "lockstep", "5", "--filter", "bloom", "7", "--tiles=3"]
        answer = place.call("fractal", "watch", *words)
        expect(answer == Answer(4, "".join(f"[{word}]\n" for word in words).encode(), ""), "the words", answer)


def random_watch_words_agree(place: Place) -> None:
    """of 4,000 random calls of `watch` the launcher refuses those that `fractal_watch` refuses, and no others"""
    need_built(SECOND_PROGRAM)
    place.nothing_answers()
    table = Table()
    calls = [random_call(random.Random(seed), table) for seed in range(RANDOM_CALLS)]
    with concurrent.futures.ThreadPoolExecutor(2 * (os.cpu_count() or 1)) as pool:
        judged = list(pool.map(lambda words: judgements(place, words), calls))
    for words, (by_launcher, by_program) in zip(calls, judged):
        expect(by_launcher == by_program, f"fractal_watch's judgement {by_program} of", words)
    refused = sum(by_program for _, by_program in judged)
    expect(RANDOM_CALLS / 5 < refused < RANDOM_CALLS * 4 / 5, "calls of both kinds", refused)


def judgements(place: Place, words: Sequence[str]) -> tuple[bool, bool]:
    """Whether the launcher and `fractal_watch` refuse the arguments; without an image it does no more than that."""
    launched = place.call("fractal", "watch", *words)
    expect((launched.status, launched.output) in ((1, USAGE), (69, b"")), "a refusal, or that rt is missing", launched)
    # The launcher takes a value behind `=` apart, which the program doesn't where an option is that of `watch` alone.
    apart = [part for word in words for part in (word.split("=", 1) if word.startswith(APART) else [word])]
    done = subprocess.run([SECOND_PROGRAM, *apart], stdin=subprocess.DEVNULL, stdout=subprocess.PIPE, check=False)
    return launched.status == 1, done.returncode == 1


def random_call(chance: random.Random, table: Table) -> list[str]:
    """The words of a call, of which about half are wrong."""
    leading: tuple[list[str], ...] = ([], [], [], ["memory"], ["views", number(chance, 1, 2 ** 32 - 1)])
    words = list(chance.choice(leading))
    mode = chance.choice(list(table.mode_rows))
    words.append(mode)
    if mode == "lockstep":
        words += [number(chance, 1, 1_000_000), number(chance, 0, 2 ** 32 - 1)]
        words += ["starved", number(chance, 1, 1_000_000)] if chance.random() < 0.3 else []
    for option in chance.sample(list(table.mode_options.values()), chance.choice((0, 0, 1, 2))):
        pair = chance.choice(([f"--{option.name}", some_value(chance, option)],
                              [f"--{option.name}={some_value(chance, option)}"]))
        # One of `watch` alone may stand anywhere.
        place = len(words) if option.name in table.options else chance.randrange(len(words) + 1)
        words[place:place] = pair
    for _ in range(chance.choice((0, 0, 1, 2))):
        change(chance, words, table)
    return [word for word in words if word != "--help"]


def options_of_watch_alone_may_be_words(place: Place) -> None:
    """an option of `watch` alone, whose values aren't numbers, is listed, checked, completed and handed on by all
    tools"""
    launcher = place.clone / "fractal"
    row = "mode-option|taste|sweet,sour,salt|sour|how it tastes\n"
    launcher.write_text(launcher.read_text().replace("seed|any|", f"{row}seed|any|"))
    told = "--taste        how it tastes (sweet, sour, salt; default sour)"
    expect(told in place.call("fractal help").output.decode(), "the option on the page")
    expect(told in place.call("fractal help", "watch").output.decode(), "the option of watch")
    expect(told not in place.call("fractal help", "run").output.decode(), "no such option of run")
    place.stub(place.program, "printf 'fault usage\\n'; exit 1\n")
    place.stub(place.second_program, 'echo "$@" >>"$(dirname "$0")/words"; echo \'{"fault":"usage"}\'; exit 1\n')
    one_sentence_each([
        (place.call("fractal", "run", "--taste", "salt"), ["--taste is an option of ./fractal watch, not of run."]),
        (place.call("fractal", "watch", "least", "--taste", "bitter"), ["not bitter", "sweet, sour, salt"]),
        (place.call("fractal", "watch", "least", "--taste", "sweet,sour"), ["not sweet,sour", "sweet, sour, salt"]),
        (place.call("fractal", "watch", "least", "--taste=bitter"), ["not bitter", "sweet, sour, salt"]),
        (place.call("fractal", "watch", "least", "--taste", ""), ["sweet, sour, salt"]),
        (place.call("fractal", "watch", "least", "--taste"), ["needs a value", "sweet, sour, salt"]),
        (place.call("fractal", "watch", "least", "--tastes", "salt"), ["did you mean --taste?"]),
        (place.call("fractal play", "x", "--taste", "salt"), ["unknown option --taste"]),
    ])
    image = str(place.clone / "examples" / "hello" / "image.bin")
    one_sentence_each([
        (place.call("fractal console", image, "--taste", "bitter"), ["--taste takes one of sweet, sour, salt"]),
        (place.call("fractal study", image, "--taste", "salt,bitter"), ["--taste takes one of sweet", "`bitter`"])])
    place.call("fractal console", image, "--taste", "salt")
    place.call("fractal study", image, "--taste", "salt,sweet")
    words = (place.second_program.parent / "words").read_text()
    expect("steps --taste salt\n" in words, "the option handed on by the console", words)
    completed = place.call("fractal shell", "bash").output.decode()
    expect("--taste) words='sweet sour salt' ;;" in completed, "the words as completions", completed)
    for kind in ("zsh", "man"):
        expect("sweet, sour, salt" in place.call("fractal shell", kind).output.decode(), f"the words for {kind}")


def schedules_are_watched(place: Place) -> None:
    """each schedule is logged with the replies of `steps`, and a refused script's line is reported with what is
    wrong"""
    place.needs_second_program()
    for name in SCHEDULES:
        folder = place.clone / "examples" / name
        image = folder / "image.bin"
        words = (folder / "words").read_text().split()
        given = image.read_bytes() + (folder / "script").read_bytes()
        answer = place.call("fractal", "watch", *words, stdin=given)
        lines = [json.loads(line) for line in answer.output.splitlines()]
        told, wanted = replies_told(lines), replies_said((folder / "said").read_text(), folder.name)
        expect(answer.errors == "" and told == wanted, f"the replies of {name}", (told, wanted))
    (place.root / "both").write_bytes(image_of(place, "hello") + b"commit\nhalt\n")
    answer = place.call("/bin/sh", "-c", '"$0" watch steps < both', str(place.clone / "fractal"))
    answer.sentence("line 2 of the script", "`halt` isn't an act", status=9)
    expect(answer.output == b'{"fault":"script","line":2}\n', "fractal_watch's own words", answer)


def memories_are_told(place: Place) -> None:
    """`memory` prints all that a schedule or a run leaves, as windows of `fractal_sim` do, and nothing else"""
    place.needs_program()
    place.needs_second_program()
    for name in SCHEDULES:
        folder = place.clone / "examples" / name
        words, image = (folder / "words").read_text().split(), (folder / "image.bin").read_bytes()
        script = (folder / "script").read_bytes()
        answer = place.call("fractal", "watch", "memory", *words, stdin=image + script)
        wanted = memory_by_windows(place, words, image, script)
        expect(answer.errors == "" and (answer.status, answer.output) == wanted, f"the memory of {name}", answer)
    for name, *options in (["hello"], ["nested", "--commits", "2"], ["trap"], ["shortest_paths"]):
        image = image_of(place, name)
        answer = place.call("fractal", "watch", "memory", "least", *options, stdin=image)
        wanted = memory_by_windows(place, ["run", *options], image)
        expect(answer.errors == "" and (answer.status, answer.output) == wanted, f"the memory of {name}", answer)
    for mode, given, status, line in (
            ("steps", image_of(place, "hello") + b"halt\n", 9, b'{"fault":"script","line":1}\n'),
            ("least", b"FRAC", 2, b'{"fault":"image","number":1,"offset":4}\n')):
        answer = place.call("fractal", "watch", "memory", mode, stdin=given)
        expect((answer.status, answer.output) == (status, line), "a fault's line", answer)
    answer = place.by_shell('"$0" watch memory least <"$1" >/dev/full',
                            place.clone / "examples" / "hello" / "image.bin")
    expect(answer.status == 7, "a sink that failed", answer)


def memory_by_windows(place: Place, words: Sequence[str], image: bytes, behind: bytes = b"") -> tuple[int, bytes]:
    """The status of a command, and the memory that it leaves, put together of windows that go along the data."""
    size, status, memory = HEADER.unpack_from(image)[5], 0, b""
    for offset in range(0, size or 1, 4 * WINDOW_WORDS):
        window = struct.pack("<2I", offset, min(WINDOW_WORDS, (size - offset) // 4))
        given = image[:WINDOW_AT] + window + image[WINDOW_AT + len(window):] + behind
        answer = place.call("fractal", *words, stdin=given)
        values = [int(line[-8:], 16) for line in answer.output.splitlines() if line.startswith(b"window ")]
        status, memory = answer.status, memory + struct.pack(f"<{len(values)}I", *values)
    return status, memory


# ---- the console


def acts_are_typed(place: Place) -> None:
    """at the console each act is said and shown, undone and saved; a line that can't be done changes nothing"""
    place.needs_second_program()
    folder = str(place.clone / "examples" / "schedules" / "conflict")
    answer = place.call("fractal console", folder, stdin=TYPED)
    text = answer.output.decode()
    for part in SAID:
        expect(part in text, f"`{part}`", text)
    refused = answer.errors.splitlines()
    expect(answer.status == 1 and len(refused) == len(REFUSED_LINES), "a sentence for each refused line", answer)
    for line, part in zip(refused, REFUSED_LINES):
        expect(line.startswith("console: ") and part in line, f"`{part}`", line)
    script = b"dispatch 0\nstep 0 0\nstep 0 0\ndispatch 1\nadvance\nadvance\n"
    expect((place.root / "mine").read_bytes() == script, "the script")
    answer = place.call("fractal console", folder, "--script", "mine", stdin=b"run 1000\nrun 1\nundo\n")
    text = answer.output.decode()
    expect("The run ended normally: no task is left." in text, "the end", answer)
    expect(answer.errors.count("\n") == 1 and "the run is over" in answer.errors, "no event behind the end", answer)
    place.is_clean()


def orders_are_told(place: Place) -> None:
    """the console says of two tasks which comes first and why, and of each its depth, its domain and who made it"""
    place.needs_second_program()
    for name, (typed, told) in ORDERS.items():
        folder = str(place.clone / "examples" / "exercises" / name)
        answer = place.call("fractal console", folder, stdin="\n".join(typed).encode())
        missing = [sentence for sentence in told if sentence not in answer.output.decode()]
        expect((answer.status, answer.errors, missing) == (0, "", []), f"the orders of {name}", missing or answer)
    answer = place.call("fractal console", folder, stdin=b"order\norder 0.0 0.1 0.2\norder 0.0 5.5\n")
    answer.tells("takes the labels of two tasks", "No uncommitted task is called `5.5` here.")
    expect((answer.status, answer.errors.count("\n")) == (1, 3), "three refusals", answer)


def schedules_are_typed(place: Place) -> None:
    """where the script of a schedule is typed, each act has a sentence, which says who was aborted and why"""
    place.needs_second_program()
    for name in SCHEDULES:
        folder = place.clone / "examples" / name
        script = (folder / "script").read_bytes()
        answer = place.call("fractal console", str(folder), stdin=script)
        text = answer.output.decode()
        acts = [f"\n{number}: {act}\n" for number, act in enumerate(script.decode().splitlines(), 1)]
        missing = [part for part in (*acts, *SENTENCES.get(folder.name, ())) if part not in text]
        expect((answer.status, answer.errors, missing) == (0, "", []), f"each act of {name}", missing or answer)


def pages_are_opened(place: Place) -> None:
    """`open` writes the page of the acts so far, and prints where a browser shows this act"""
    place.needs_second_program()
    image = str(place.clone / "examples" / "hello" / "image.bin")
    answer = place.call("fractal console", image, stdin=b"run 2\nopen a.html\nopen nowhere/a.html\n")
    expect("<title>hello/image.bin, act by act</title>" in (place.root / "a.html").read_text(), "the image's name")
    answer.tells("nowhere/a.html", "no such folder")
    expect(b"a.html#2\n" in answer.output and "<html" in (place.root / "a.html").read_text(), "a page", answer)
    place.call("fractal console", image, stdin=b"run 2\nsave mine\nopen a.html\n")
    name = f"{place.root.name}/mine"
    expect(f"<title>{name}, act by act</title>" in (place.root / "a.html").read_text(), "the script's name")
    place.is_clean()


def no_file_is_lost(place: Place) -> None:
    """the console replaces no image that it plays, and no file by a page but a page; odd names and commands are
    reported"""
    place.needs_second_program()
    folder = place.root / "a folder"
    folder.mkdir()
    data = image_of(place, "hello")
    (folder / "image.bin").write_bytes(data)
    (folder / "words").write_bytes(b"steps \xff")
    place.call("fractal console", str(folder), stdin=b"").sentence("words: ", "is neither a command nor an option")
    (folder / "words").write_bytes(b"steps\n")
    shutil.copy(place.clone / "examples" / "pipeline" / "listing", folder)
    (place.root / "notes").write_text("notes\n")
    (place.root / "link").symlink_to("a folder/image.bin")
    typed = b"save! link\nsave a\0b\nopen a\0b\nopen notes\nopen a.html\nopen a.html\nsave mine\n"
    answer = place.call("fractal console", str(folder), stdin=typed)
    answer.tells("link: this is read", "byte 0", "notes: this is there already, and isn't a page")
    expect((answer.status, answer.errors.count("\n")) == (1, 4), "four refusals", answer)
    expect((folder / "image.bin").read_bytes() == data, "the image as it was")
    expect((place.root / "notes").read_text() == "notes\n", "the notes as they were")
    expect(f"--image '{folder}/image.bin'".encode() in answer.output, "a name with a blank", answer)
    place.is_clean()


def console_refuses_bad_words(place: Place) -> None:
    """invalid arguments, other files, a missing program and long lines are refused in a sentence"""
    console, image = "fractal console", str(place.clone / "examples" / "hello" / "image.bin")
    place.stub(place.second_program, "cat >/dev/null; echo nothing\n")
    one_sentence_each([
        (place.call(console), ["one IMAGE"]),
        (place.call(console, image, image), ["one IMAGE"]),
        (place.call(console, image, "--towers", "1"), ["`--towers`"]),
        (place.call(console, image, "--tiles", "17"), ["1 to 16", "`17`"]),
        (place.call(console, "nowhere"), ["nowhere", "no such file"]),
        (place.call(console, str(place.clone)), ["image.bin", "no such file"]),
        (place.call(console, str(place.clone / "README.md")), ["this isn't an image"]),
        (place.call(console, image, "--script", str(place.clone / "README.md")), ["README.md:3:", "isn't an act"]),
        (place.call(console, image), ["fractal_watch:1:", "isn't JSON"]),
    ])
    shutil.rmtree(place.second_program.parent)
    place.nothing_answers()
    place.call(console, image).sentence("isn't built")
    place.needs_second_program()
    place.call(console, image, stdin=b"x" * 2_000).sentence("more than 1,000 bytes")
    answer = place.by_shell('"$0" console "$1" <&-', image)
    answer.sentence("standard input is closed")
    answer = place.by_shell('"$0" console "$1" </dev/null >/dev/full', image)
    answer.sentence("no space")
    place.is_clean()


def consoles_are_interrupted(place: Place) -> None:
    """at a terminal an interrupt and the end of the input lose no act, and the first is reported in a sentence"""
    place.needs_second_program()
    image = str(place.clone / "examples" / "hello" / "image.bin")
    saved = place.root / "saved"
    for keys, status in ((b"\x03", 130), (b"\x04", 0)):
        typed = [(lambda _: saved.exists(), b"\xff\nundo\nadvance\nnothing\n"),
                 (lambda shown: b"`nothing`" in shown, keys)]
        answer = place.on_terminal("fractal console", image, keys=b"dispatch 0\nsave saved\n", then=typed)
        expect(answer.status == status, f"status {status}", answer)
        expect(answer.output.endswith(b"These acts weren't saved:\nadvance\n"), "the acts", answer)
        expect(("interrupted." in answer.errors) == (status == 130), "a sentence", answer)
        saved.unlink()


TRIES = (
    watch_words_are_told, watch_hands_on, random_watch_words_agree, options_of_watch_alone_may_be_words,
    schedules_are_watched, memories_are_told, acts_are_typed, orders_are_told,
    schedules_are_typed, pages_are_opened, no_file_is_lost, console_refuses_bad_words, consoles_are_interrupted,
)
