"""The modules compared with the built programs: stored answers, schedules logged act by act, and generated calls."""
from __future__ import annotations

import base64
import collections
import contextlib
import importlib
import json
import pathlib
import shutil
import subprocess
import sys
import tempfile
from typing import Any, Counter, Dict, Iterator, List, NamedTuple, Sequence

from yotarimu.common.outcome import Refusal
from yotarimu.common.places import EXAMPLES_FOLDER, HOME
from yotarimu.programs.answers import all_answers
from yotarimu.programs.cases import cases_of
from yotarimu.programs.examples import EXAMPLES, SCHEDULES, words_of
from yotarimu.programs.program import PROGRAM, SECOND_PROGRAM, need_program
from yotarimu.web.bundle import source
from yotarimu.web.crate_sources import PROGRAMS
from yotarimu.web.modules import module_path, need_modules

ENGINE = "node"
NATIVE = {"sim": PROGRAM, "watch": SECOND_PROGRAM}
LIMITS = ("--commits", "--budget")
# An answer that takes longer isn't waited for.
MOST_SECONDS = 600
SAME, ACCEPTED = "the same bytes and status", "another report of a run with workers, which `check` accepts"


class Answer(NamedTuple):
    """The status of a call, and what it wrote."""
    status: object
    output: bytes


class Call(NamedTuple):
    """A call: the program, its words, its input."""
    program: str
    words: Sequence[str]
    data: bytes

    def has_workers(self) -> bool:
        """Whether the call runs an image with host threads."""
        return any(word.startswith("--workers") for word in self.words) and self.words[0] == "run"

    def text(self) -> str:
        """The call in words."""
        return f"{self.program} {' '.join(self.words)} on {len(self.data):,} bytes"


def native_answer(asked: Call) -> Answer:
    """What the built program answers; refuses one that takes too long."""
    try:
        done = subprocess.run([NATIVE[asked.program], *asked.words], input=asked.data, capture_output=True, check=False,
                              timeout=MOST_SECONDS)
    except subprocess.TimeoutExpired:
        raise Refusal(f"{asked.text()}: the built program gave no answer within {MOST_SECONDS} seconds.") from None
    return Answer(done.returncode, done.stdout)


class Engine:
    """Modules that an engine runs beside this, a call by a line of JSON each."""

    def __init__(self, modules: Dict[str, pathlib.Path]) -> None:
        engine = shutil.which(ENGINE)
        if engine is None:
            raise Refusal(f"{ENGINE} isn't in the path, which runs the modules here (Debian's package nodejs has it).")
        self.folder = tempfile.TemporaryDirectory(prefix="fractal-calls-")
        script = pathlib.Path(self.folder.name, "calls.mjs")
        script.write_text(source("host.js") + source("../calls.js"), encoding="utf-8")
        words = [engine, str(script), *(f"{name}={path}" for name, path in modules.items())]
        self.process = subprocess.Popen(words, stdin=subprocess.PIPE, stdout=subprocess.PIPE)

    def answer(self, asked: Call) -> Answer:
        """What the module answers."""
        told = self.ask({"program": asked.program, "words": list(asked.words),
                         "input": base64.b64encode(asked.data).decode("ascii")})
        return Answer(told["status"], base64.b64decode(told["output"]))

    def ask(self, question: Dict[str, Any]) -> Dict[str, Any]:
        """What the engine answers to a question; refuses one that has ended."""
        assert self.process.stdin is not None and self.process.stdout is not None
        self.process.stdin.write(json.dumps(question).encode() + b"\n")
        self.process.stdin.flush()
        line = self.process.stdout.readline()
        if not line:
            raise Refusal(f"{ENGINE} ended with status {self.process.wait()}.")
        told: Dict[str, Any] = json.loads(line)
        return told

    def close(self) -> None:
        """Ends the engine."""
        self.process.kill()
        self.process.wait()
        self.folder.cleanup()


@contextlib.contextmanager
def engine(modules: Dict[str, pathlib.Path]) -> Iterator[Engine]:
    """An engine with these modules, which is ended in the end."""
    running = Engine(modules)
    try:
        yield running
    finally:
        running.close()


# ---- what is asked


def stored_calls() -> Iterator[Any]:
    """The table of answers, and each example and schedule with its report."""
    yield from all_answers()
    for name in (*EXAMPLES, *SCHEDULES):
        yield from cases_of(name)


def schedule_calls() -> Iterator[Call]:
    """Each schedule logged act by act, with views, and the memory that it leaves; and its image run by the machine's
    own acts."""
    for name in SCHEDULES:
        folder, words = EXAMPLES_FOLDER / name, words_of(name)
        image = (folder / "image.bin").read_bytes()
        script = (folder / "script").read_bytes()
        yield Call("watch", words, image + script)
        yield Call("watch", ("views", "1", *words), image + script)
        yield Call("watch", ("memory", *words), image + script)
        yield Call("watch", ("least", *words[1:]), image)
        yield Call("watch", ("lockstep", "50", "7", *words[1:]), image)
        # With more workers than tiles some wait for others, whom one thread can't run meanwhile.
        for workers in ("2", "16"):
            yield Call("sim", ("run", "--workers", workers, *words[1:]), image)


def watched_too(call: Any) -> Iterator[Call]:
    """The same input for `fractal_watch`, if it is an image with a script."""
    if call.command == "steps":
        yield Call("watch", call.words, call.data)
        yield Call("watch", ("lockstep", "30", "5", *call.words[1:]), call.data)


def generated_calls(count: int, seed: int, say: Any) -> Iterator[Call]:
    """The calls of so many cases of bench/same; `say` returns what the built program answers to the last call."""
    sys.path.insert(0, str(HOME / "bench"))
    try:
        calls_of = importlib.import_module("cases.case").calls_of
    except ModuleNotFoundError:
        raise Refusal(f"{HOME / 'bench'}: the generator of calls isn't there: make a clone.") from None
    for number in range(count):
        calls, said = calls_of(seed, number), None
        with contextlib.suppress(StopIteration):
            while True:
                call = calls.send(said)
                yield Call("sim", call.words, call.data)
                said = say()
                yield from watched_too(call)


# ---- how they are held


class Comparison:
    """The outcomes of the calls, and where the two first differ."""

    def __init__(self, running: Engine) -> None:
        self.running = running
        self.counts: Counter[str] = collections.Counter()
        self.said = b""
        self.differences: List[str] = []

    def hold(self, asked: Call) -> None:
        """Compares the module's answer with the built program's."""
        native, module = native_answer(asked), self.running.answer(asked)
        self.said = native.output
        if native == module:
            self.counts[SAME] += 1
        elif asked.has_workers() and self.is_accepted(asked, native) and self.is_accepted(asked, module):
            self.counts[ACCEPTED] += 1
        else:
            self.differences.append(f"{asked.text()}: status {native.status} and {len(native.output):,} bytes, and of "
                                    f"the module {module.status} and {len(module.output):,} bytes")

    def is_accepted(self, asked: Call, answer: Answer) -> bool:
        """Whether the built program accepts a report that the module wrote."""
        limits = [word for word in asked.words if word.startswith(LIMITS)]
        return native_answer(Call("sim", ("check", *limits), asked.data + answer.output)).status == 0

    def hold_stored(self, case: Any) -> None:
        """Compares the module's answer with what is stored."""
        answer = self.running.answer(Call("sim", case.words, case.given))
        if answer == (case.status, case.text):
            self.counts["as stored"] += 1
        else:
            self.differences.append(f"{case.name}: the module has status {answer.status}, and not {case.status}, or "
                                    "writes something else than what is stored")


def compare_all(count: int, seed: int) -> Comparison:
    """All of it, with so many generated cases."""
    for program in NATIVE.values():
        need_program(program)
    need_modules()
    with engine({name: module_path(crate) for name, crate in PROGRAMS.items()}) as running:
        outcome = Comparison(running)
        for case in stored_calls():
            outcome.hold_stored(case)
        for asked in schedule_calls():
            outcome.hold(asked)
        for asked in generated_calls(count, seed, lambda: outcome.said):
            outcome.hold(asked)
    return outcome
