"""Tries of ./fractal web: the modules, the command of them, and the page, which a browser is driven through."""
from __future__ import annotations

import base64
import itertools
import json
import os
import pathlib
import re
import shutil
import subprocess
import tempfile
from typing import Any, Dict, Iterator, List, Sequence, Tuple

from yotarimu.common.places import EXAMPLES_FOLDER, HOME
from yotarimu.images import loads
from yotarimu.images.description import describe
from yotarimu.images.image import DATA, image_bytes
from yotarimu.images.listing import NO_LISTING, Listing, read_listing
from yotarimu.images.source import assemble, source_at, sources_in
from yotarimu.lines.filters import FILTERS
from yotarimu.lines.orders import order_told, task_told
from yotarimu.lines.reader import open_lines
from yotarimu.lines.replay import Machine
from yotarimu.lines.sentences import end_told, label_of, opening_told, sentence_of
from yotarimu.pictures.history import History, description_of
from yotarimu.programs.examples import EXAMPLES, SCHEDULES, words_of
from yotarimu.programs.program import SECOND_PROGRAM
from yotarimu.web.bundle import TABLES, constant, source, table_at
from yotarimu.web.comparison import Call, engine, stored_calls
from yotarimu.web.modules import (
    COMMAND, PAGE, are_made, command_text, modules, page_text)
from yotarimu.web.wasm_tables import HEADER, number, number_at

from tries.assembler_forms import forms
from tries.launcher import STUB_BUILD
from tries.lines_text import joint_lines
from tries.place import Omission, Place, expect, need_built, need_command, one_sentence_each

BROWSER_FOLDER = pathlib.Path(__file__).with_name("browser")
# What the harnesses for Node are made of, in front of each.
READER = ("texts.js", "history.js", "machine.js", "labels.js", "orders.js", "lines.js", "images.js", "filters.js",
          "causes.js", "sentences.js")
ASSEMBLER = ("host.js", "texts.js", "machine.js", "labels.js", "images.js", "assembler.js", "sections.js", "sources.js")
CASES = "40"
# After so many acts so many tasks are compared.
BETWEEN, MOST_COMPARED = 5, 6
# The section of a module that declares its memory, and how many pages of 64 KiB are too few for a large run.
MEMORY, LITTLE = 5, 160
MOST_SECONDS = 600


class Harness:
    """A script for Node that answers each line of JSON by one."""

    def __init__(self, place: Place, name: str, parts: Sequence[str], constants: str = "") -> None:
        need_command("node")
        script = place.root / f"{name}.mjs"
        own = (BROWSER_FOLDER / f"{name}.js").read_text(encoding="utf-8")
        script.write_text(constants + "".join(map(source, parts)) + own, encoding="utf-8")
        self.process = subprocess.Popen(["node", str(script)], stdin=subprocess.PIPE, stdout=subprocess.PIPE)

    def ask(self, **question: Any) -> Dict[str, Any]:
        """What the page's sources answer to a question."""
        assert self.process.stdin is not None and self.process.stdout is not None
        self.process.stdin.write(json.dumps(question).encode() + b"\n")
        self.process.stdin.flush()
        told: Dict[str, Any] = json.loads(self.process.stdout.readline())
        return told

    def __enter__(self) -> Harness:
        return self

    def __exit__(self, *_: object) -> None:
        self.process.kill()
        self.process.wait()


# ---- words, modules and the command


def web_words(place: Place) -> None:
    """./fractal web with invalid arguments, or without any modules, is a sentence; else it takes those of the page"""
    shutil.copy(HOME / PAGE, place.clone / PAGE)
    (place.root / "made").mkdir()
    made = place.call("fractal web", str(place.root / "made"))
    expect(made.status == 0 and (place.root / "made" / PAGE).read_text() == (place.clone / PAGE).read_text(),
           "the page, of its own modules", made)
    (place.clone / PAGE).unlink()
    one_sentence_each([
        (place.call("fractal web"), ["./fractal prove --web"]),
        (place.call("fractal web", "nowhere"), ["nowhere"]),
        (place.call("fractal web", "a", "b"), ["one FOLDER"]),
        (place.call("fractal web", "--dance"), ["--help"]),
        (place.call("fractal web", "--compare"), [""]),
        (place.call("fractal web", "--hold", "0"), ["fractal_sim: the program isn't built"]),
    ])
    for program in (place.program, place.second_program):
        place.stub(program, "exit 0")
    place.call("fractal web", "--hold", "0").sentence("fractal_sim.wasm isn't there; ./fractal prove --web makes it")


def web_wants_a_toolchain(place: Place) -> None:
    """where the toolchain can't be asked for its module, `prove --web` proves and builds, and says so in a sentence"""
    place.stub_tool("rt", STUB_BUILD % "mkdir -p out && printf '#!/bin/sh\\n' >out/\"${PWD##*/}\" && chmod +x out/*")
    answer = place.call("fractal prove", "--web")
    answer.tells("can't be asked for its module", "all else works")
    expect(answer.status == 1 and place.program.exists(), "a program that is built", answer)


def web_holds(place: Place) -> None:
    """the modules answer as what is stored, and as the built programs on schedules and generated calls"""
    if not are_made():
        raise Omission("it wants the modules: ./fractal prove --web")
    need_command("node")
    need_built(SECOND_PROGRAM)
    answer = place.call(str(HOME / "fractal"), "web", "--hold", CASES)
    expect(answer.status == 0 and b"\n0 calls were answered otherwise" in answer.output, "the same answers", answer)


def web_command(place: Place) -> None:
    """fractal.mjs answers the whole table of answers as it is stored"""
    need_command("node")
    command = place.root / COMMAND
    command.write_text(command_text(modules()), encoding="utf-8")
    for case in stored_calls():
        done = subprocess.run(["node", command, *case.words], input=case.given, capture_output=True,
                              timeout=MOST_SECONDS)
        expect((done.returncode, done.stdout) == (case.status, case.text), f"{case.name} as stored", done.returncode)
    help_page = subprocess.run(["node", command, "help"], capture_output=True, text=True)
    expect("lockstep ROUNDS SEED" in help_page.stdout, "a page of help", help_page)
    full = subprocess.run(["sh", "-c", f"node '{command}' run > /dev/full"], input=b"", capture_output=True)
    expect(full.returncode == 7, "status 7 where nothing can be written", full)
    folder = subprocess.run(["sh", "-c", f"node '{command}' run < /"], capture_output=True)
    expect(folder.returncode == 6, "status 6 where nothing can be read", folder)


def web_memory(place: Place) -> None:
    """a module whose memory has too little room answers with status 5, and writes nothing or whole lines"""
    found = modules()
    need_command("node")
    paths = {name: place.root / f"{name}.wasm" for name in found.programs}
    for name, path in paths.items():
        path.write_bytes(with_most_memory(found.programs[name], LITTLE))
    image = image_bytes(loads.generate("walk", 7, 20_000))
    with engine(paths) as running:
        report = running.answer(Call("sim", ("run",), image))
        expect(report == (5, b""), "status 5 and nothing written", report.status)
        lines = running.answer(Call("watch", ("least",), image))
        expect(lines.status == 5 and (not lines.output or lines.output.endswith(b"\n")), "whole lines", lines.status)


def with_most_memory(module: bytes, pages: int) -> bytes:
    """The module with another limit of its memory."""
    made, place = bytearray(module[:HEADER]), HEADER
    while place < len(module):
        kind = module[place]
        size, start = number_at(module, place + 1)
        section, place = module[start:start + size], start + size
        if kind == MEMORY:
            expect(section[:2] == b"\x01\x01", "a memory with a limit", section)
            least, _ = number_at(section, 2)
            section = section[:2] + number(min(least, pages)) + number(pages)
        made += bytes([kind]) + number(len(section)) + section
    return bytes(made)


# ---- the reader of lines


def web_sentences(place: Place) -> None:
    """the page describes each act, and the machine after it, as the tools do"""
    need_built(SECOND_PROGRAM)
    with Harness(place, "sentences", READER, tables_of("sentences", "filterTable")) as harness:
        advances = [hold_told(harness, name, words) for name, words in modes()]
    expect(sum(advances) > 1, "rounds that advance a starved least task", advances)


def web_causes(place: Place) -> None:
    """the page says as the tools do why a filter of each kind aborted tasks, by one access or by several together"""
    with Harness(place, "sentences", READER, tables_of("sentences", "filterTable")) as harness:
        for kind in FILTERS:
            text = joint_lines(kind)
            told, *_ = told_by_tools(text, NO_LISTING)
            seen = harness.ask(text=text.decode(), listing="", between=BETWEEN, most=MOST_COMPARED)
            expect(seen["told"] == told, f"the same sentences by the filter {kind}", (told, seen["told"]))
            joint = sum("its filter reports the line 2,201" in sentence for sentence in told)
            expect(joint == (2 if kind == "bloom" else 0), f"the bits of several lines by the filter {kind}", told)


def tables_of(*names: str) -> str:
    """Tables of the page, as constants of a script."""
    return "".join(constant(name, table_at(TABLES[name])) for name in names)


def modes() -> Iterator[Tuple[str, List[str]]]:
    """Each schedule with the arguments of its mode, and others of `fractal_watch`."""
    for name in SCHEDULES:
        words = list(words_of(name))
        yield name, words
        yield name, ["lockstep", "50", "7", *words[1:]]
    for name in EXAMPLES:
        for options in ((), ("--tiles", "2", "--task-queue", "4", "--commit-queue", "1"),
                        ("--tiles", "1", "--task-queue", "4", "--budget", "20")):
            yield name, ["least", *options]
            yield name, ["lockstep", "60", "5", "starved", "1", *options]


def hold_told(harness: Harness, name: str, words: List[str]) -> int:
    """Compares what the page shows of a run with what the tools print. It returns how many acts were advances."""
    folder = EXAMPLES_FOLDER / name
    given = (folder / "image.bin").read_bytes() + ((folder / "script").read_bytes() if words[0] == "steps" else b"")
    text = subprocess.run([SECOND_PROGRAM, *words], input=given, stdout=subprocess.PIPE, check=False).stdout
    path = folder / "listing"
    listing = read_listing(path.read_text(), path) if path.exists() else NO_LISTING
    told, end, orders, machine, history = told_by_tools(text, listing)
    seen = harness.ask(text=text.decode(), listing=path.read_text() if path.exists() else "", between=BETWEEN,
                       most=MOST_COMPARED)
    expect(seen["told"] == told and seen["end"] == end, f"the same sentences on {name}",
           next((pair for pair in itertools.zip_longest(told, seen["told"]) if pair[0] != pair[1]), None))
    expect(seen["history"] == history, f"the same timeline on {name}",
           [(key, seen["history"][key], history[key]) for key in history if seen["history"][key] != history[key]][:1])
    expect(seen["orders"] == orders, f"the same orders of tasks on {name}",
           next((pair for pair in itertools.zip_longest(orders, seen["orders"]) if pair[0] != pair[1]), None))
    tasks = sorted([task.id, label_of(task), task.state, task.work, task.pc] for task in machine.tasks.values())
    state = [machine.queues, machine.cores, machine.finished, machine.commits, machine.events, tasks]
    names = ("queues", "cores", "finished", "commits", "events", "tasks")
    expect([seen["machine"][name] for name in names] == state, f"the same machine behind {name} {words}")
    return 0 if machine.rounds is None else machine.rounds.advances


def told_by_tools(text: bytes, listing: Listing) -> Tuple[List[str], str, List[str], Machine, Dict[str, Any]]:
    """The sentences, the end, the orders of tasks, the machine and the timeline that the tools make of lines."""
    with tempfile.NamedTemporaryFile() as lines:
        lines.write(text)
        lines.flush()
        with open_lines(lines.name) as watched:
            told, orders, history = [opening_told(watched.head)], [], History(watched.head)
            for it in watched:
                history.take(it, watched.machine)
                if it.is_act():
                    told.append(sentence_of(it, watched.machine, listing))
                    orders += orders_told(watched.machine, listing) if (len(told) - 1) % BETWEEN == 0 else []
        drawn = json.loads(json.dumps(description_of(history)))
        return told, end_told(watched.end or {}, listing), orders, watched.machine, drawn


def orders_told(machine: Machine, listing: Listing) -> List[str]:
    """What the first tasks by their labels are, and which comes first of each two of them."""
    tasks = sorted(machine.all_tasks(), key=label_of)[:MOST_COMPARED]
    pairs = itertools.combinations(tasks, 2)
    return [task_told(task, listing) for task in tasks] + [order_told(*pair, machine) for pair in pairs]


# ---- the assembler and the disassembler


def web_sources(place: Place) -> None:
    """the page's assembler makes of each example's source the stored image, and its disassembler the listing"""
    with Harness(place, "assemblies", ASSEMBLER) as harness:
        for path in sorted(EXAMPLES_FOLDER.rglob("*.s")):
            seen = harness.ask(sources=texts_of(path.parent))
            image = path.parent / "image.bin"
            wanted = image.read_bytes() if image.exists() else made_by_tools(path.parent)
            expect(base64.b64decode(seen.get("image", "")) == wanted, f"the image of {path}", seen.get("refused"))
        for path in sorted(EXAMPLES_FOLDER.rglob("listing")):
            hold_listing(harness, path)


def texts_of(folder: pathlib.Path) -> List[Dict[str, str]]:
    """The sources of a folder, as the page takes them."""
    return [{"name": path.name, "text": path.read_text()} for path in sorted(folder.glob("*.s"))]


def made_by_tools(folder: pathlib.Path) -> bytes:
    """The image that the tools make of a folder."""
    sources = sources_in(folder)
    return image_bytes(describe(sources, assemble(sources)))


def hold_listing(harness: Harness, path: pathlib.Path) -> None:
    """Compares the page's disassembler with a listing."""
    image = base64.b64encode((path.parent / "image.bin").read_bytes()).decode()
    rows = {address: text for address, text in harness.ask(image=image)["listing"] if address is not None}
    for address, word, told in re.findall(r"^([0-9a-f]{8})  ([0-9a-f]{8})  ([^|\n]*)", path.read_text(), re.MULTILINE):
        if int(address, 16) >= DATA:
            continue
        # A listing has labels behind the target of a jump, and the target without leading zeros.
        seen = re.sub(r"\b000(1[0-9a-f]{4})\b", r"\1", re.sub(" <.*>", "", rows[int(address, 16)]))
        wanted = f"{address}  {word}  {re.sub(' <.*>', '', told).strip()}"
        expect(seen == re.sub(r"\b000(1[0-9a-f]{4})\b", r"\1", wanted), f"{wanted} of {path}", seen)


def web_forms(place: Place) -> None:
    """the page's assembler makes of each form of each instruction and directive what GNU as makes"""
    text, path = forms(), place.root / "forms.s"
    path.write_text(text, encoding="utf-8")
    wanted = image_bytes(describe([source_at(path)], assemble([source_at(path)])))
    with Harness(place, "assemblies", ASSEMBLER) as harness:
        seen = harness.ask(sources=[{"name": "forms.s", "text": text}])
        made = base64.b64decode(seen.get("image", ""))
        pairs = enumerate(itertools.zip_longest(made, wanted))
        differing = next((place for place, (one, other) in pairs if one != other), None)
        expect(differing is None, "the same image", seen.get("refused") or f"byte {differing}")
        for line, part in ODD_LINES:
            seen = harness.ask(sources=[{"name": "odd.s", "text": f"# image: task here\nhere:\n{line}\n"}])
            expect(part in seen.get("refused", ""), f"a sentence on `{line}`", seen)


ODD_LINES = (
    ("dance a0", "odd.s:3: `dance` isn't an instruction"), ("mul a0, a1, a2", "isn't an instruction"),
    ("addi a0, a1", "3 operands"), ("addi a0, a9, 1", "isn't a register"), ("addi a0, a1, 2048", "-2048 to 2047"),
    ("slli a0, a1, 32", "0 to 31"), ("lui a0, 0x100000", "0 to 1048575"), ("li a0, here", "known here"),
    ("beq a0, a1, nowhere", "defined nowhere"), ("j 1f", "no label `1:`"), ("addi a0, a1, (1", "bracket"),
    ("beq a0, a1, far\n.zero 8192\nfar: nop", "doesn't reach"), (".word 1/0", "divided by zero"),
    (".section .other", "no place in an image"), (".byte 256", "no place in 1 bytes"), (".ascii x", "in quotes"),
    ("here: nop", "stands twice"), (".zero 99999999", "0 to 16777216"), (".balign 3", "power of two"),
    (".bss\n.word 1", "zeros alone"), (".bss\nnop", "no instruction may be"),
    ("# image: task nowhere", "no label `nowhere`"), ("# image: dance", "describes nothing"),
    ("# image: task here ts x", "the timestamp is a number"), ("# image: root", "root ordered"),
)


# ---- the page in a browser


def drive_page(place: Place, browser: str, *programs: str) -> None:
    """Drives the page in a browser; skipped without one."""
    need_command("node")
    if not any(shutil.which(program) for program in programs):
        raise Omission(f"it wants a browser: {programs[0]}")
    page = place.root / PAGE
    page.write_text(page_text(modules()), encoding="utf-8")
    done = subprocess.run(["node", BROWSER_FOLDER / "drive.mjs", page, EXAMPLES_FOLDER], capture_output=True, text=True,
                          timeout=MOST_SECONDS, env={**os.environ, "BROWSER": browser, "TMPDIR": str(place.temporary)})
    told = [json.loads(line) for line in done.stdout.splitlines()]
    expect(done.returncode == 0 and told, "looks at the page", done.stderr[-400:])
    for it in told:
        expect("failed" not in it, f"that {it['name']}", it.get("failed"))


def web_page(place: Place) -> None:
    """the page is driven through its story, buttons, options, exercises, links, files and keys, in Chromium"""
    drive_page(place, "chromium", "chromium")


def web_page_in_firefox(place: Place) -> None:
    """the same in Firefox"""
    drive_page(place, "firefox", "firefox-esr")


TRIES = (web_words, web_wants_a_toolchain, web_holds, web_command, web_memory, web_sentences, web_causes, web_sources,
         web_forms, web_page, web_page_in_firefox)
