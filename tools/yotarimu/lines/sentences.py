"""Explains a line of the event log in a sentence. docs/guest/FORMATS.md has the lines.

A sentence is made from a line, with what it did, and from the machine after it, as `lines.reader` gives them. A listing
gives labels to addresses. Until its creator commits, a task has a label in place of a name: `0.1+2` is child 2 of 0.1,
counted from 0.
"""
from __future__ import annotations

from collections.abc import Iterable, Sequence
from typing import Callable, Optional, TypeVar

from yotarimu.common.sentences import SENTENCES, fill
from yotarimu.common.text import count_text, printable, signed
from yotarimu.images.image import DATA, Limits
from yotarimu.images.listing import NO_LISTING, Listing
from yotarimu.lines.causes import Cause, CauseSentences, causes_of
from yotarimu.lines.fields import Line
from yotarimu.lines.filters import rule_of
from yotarimu.lines.replay import Machine, Task, ToldLine
from yotarimu.reports.meanings import ENDS, cause_told

Thing = TypeVar("Thing")
# So many tasks are named in one sentence; of more than that it says how many more they are.
MOST_NAMED = 12
# So many places among children stand in one label; of more the first and the last do.
MOST_PLACES = 6
DONE, REQUESTS, REFUSALS, WISHES = (SENTENCES[key] for key in ("done", "requests", "refusals", "wishes"))
DOMAINS = SENTENCES["domains"]
# What a sentence names, beside the fields of its line.
Values = dict[str, object]
Naming = Callable[[ToldLine, Machine, Listing, Optional[Limits]], Values]


def sentence_of(told: ToldLine, machine: Machine, listing: Listing = NO_LISTING,
                limits: Optional[Limits] = None) -> str:
    """What an act did, in a sentence; `machine` is the machine after it, and `limits` are those of the image's version,
    if known."""
    if told.line["reply"] != "ok":
        return refused_told(told, machine)
    word = told.line["do"]
    values = VALUES[word](told, machine, listing, limits) if word in VALUES else {}
    return f"{fill(DONE[word], **{**told.line, **values})}.{back_told(told, machine, listing)}{spilled_told(told)}"


def opening_told(head: Line) -> str:
    """What stands before the first act."""
    count = head["tasks"]
    return fill(SENTENCES["opening"], tasks=count_text(count, "task"), are=is_or_are(count))


def end_told(end: Line, listing: Listing = NO_LISTING, limits: Optional[Limits] = None) -> str:
    """What the last line says."""
    if end["end"] != "trap":
        return str(ENDS[end["end"]])
    return fill(SENTENCES["ends"]["trap"], name=name_told(end["name"]), place=listing.address_text(end["pc"]),
                trap=trap_told(end, limits))


# ---- names


def name_told(name: Iterable[int]) -> str:
    """A name as reports have it, such as 2.0."""
    return ".".join(map(str, name))


def label_of(task: Task) -> str:
    """A task's name, or its places among children behind the name of the first creator that has one."""
    places = []
    named: Optional[Task] = task
    while named is not None and named.name is None:
        places.append(f"+{named.index}")
        named = named.creator
    if len(places) > MOST_PLACES:
        places = [places[0], "+..", places[-1]]
    return name_told(named.name if named and named.name else ()) + "".join(reversed(places))


def list_text(parts: Sequence[str]) -> str:
    """Parts as a list, of which the first are named and the others counted."""
    if len(parts) > MOST_NAMED:
        more = fill(SENTENCES["more"], count=f"{len(parts) - MOST_NAMED:,}")
        parts = [*parts[:MOST_NAMED], more]
    return ", ".join(parts)


def is_or_are(count: int) -> str:
    """The verb that goes with a count."""
    return "is" if count == 1 else "are"


# ---- what the sentence on an act names, beside the fields of its line


def its(found: Optional[Thing]) -> Thing:
    """What the line of an act is known to have, since the machine followed it."""
    assert found is not None
    return found


def of_its_task(told: ToldLine, _machine: Machine, _listing: Listing, _limits: Optional[Limits]) -> Values:
    """The values to fill in for an act that names only its task."""
    return {"task": label_of(its(told.task))}


def of_step(told: ToldLine, machine: Machine, listing: Listing, limits: Optional[Limits]) -> Values:
    """What is filled in of a step."""
    return {"leg": leg_told(told), "request": request_told(told, machine, listing, limits)}


def of_take(told: ToldLine, machine: Machine, _listing: Listing, _limits: Optional[Limits]) -> Values:
    """What is filled in where a leg is taken from a core."""
    return {"task": label_of(machine.tasks[its(machine.cores[told.line["tile"]][told.line["core"]])])}


def of_commit(told: ToldLine, machine: Machine, _listing: Listing, _limits: Optional[Limits]) -> Values:
    """What is filled in of a commit."""
    line, texts = told.line, SENTENCES["commit"]
    output = fill(texts["output"], text=printable(bytes.fromhex(line["output"]))) if "output" in line else ""
    return {"name": name_told(line["name"]), "turn": machine.commits, "output": output,
            "children": children_named(len(its(told.committed).children), machine.commits)}


def children_named(count: int, turn: int) -> str:
    """What the children of a task that committed are named from then on."""
    if not count:
        return ""
    return fill(SENTENCES["commit"]["child" if count == 1 else "children"], turn=turn, count=count, last=count - 1)


def of_split(told: ToldLine, _machine: Machine, _listing: Listing, _limits: Optional[Limits]) -> Values:
    """What is filled in of a split."""
    return {"name": name_told(told.line["name"])}


VALUES: dict[str, Naming] = {
    "dispatch": of_its_task, "step": of_step, "take": of_take, "abort": of_its_task, "commit": of_commit,
    "split": of_split}


# ---- a leg, and what the task asks for at its end


def leg_told(told: ToldLine, text: str = "plain") -> str:
    """Who made a leg, and how many plain instructions it has. One that stalled executes none of them."""
    line, texts = told.line, SENTENCES["leg"]
    who = fill(texts["who"], **{**line, "task": label_of(its(told.task))})
    if not line["leg"]:
        return who
    return fill(texts[text], who=who, instructions=count_text(line["leg"], "plain instruction"))


def request_told(told: ToldLine, machine: Machine, listing: Listing, limits: Optional[Limits]) -> str:
    """What the task did at the end of its leg."""
    line = told.line
    values = REQUESTED[line["asks"]](told, machine, listing, limits) if line["asks"] in REQUESTED else {}
    return fill(REQUESTS[line["asks"]], **{**line, **values})


def of_go(told: ToldLine, _machine: Machine, listing: Listing, _limits: Optional[Limits]) -> Values:
    """What is filled in of a leg that asks for nothing."""
    return {"place": listing.address_text(told.line["pc"])}


def of_load(told: ToldLine, machine: Machine, listing: Listing, _limits: Optional[Limits]) -> Values:
    """What is filled in of a load."""
    return {"old": signed(told.line["old"], told.line["bytes"]), "access": access_told(told.line, machine, listing)}


def of_store(told: ToldLine, machine: Machine, listing: Listing, _limits: Optional[Limits]) -> Values:
    """What is filled in of a store."""
    return {"value": signed(its(told.access).value, told.line["bytes"]), **of_load(told, machine, listing, _limits)}


def access_told(line: Line, machine: Machine, listing: Listing) -> str:
    """The bytes of an access, where they are, and in which line of the data."""
    address = line["addr"]
    label = listing.label(address)
    place = fill(SENTENCES["labelled"], address=f"{address:08x}", label=label) if label else f"{address:08x}"
    return fill(SENTENCES["access"], bytes=count_text(line["bytes"], "byte"), place=place,
                line=(address - DATA) // machine.head["line"])


def of_enqueue(told: ToldLine, _machine: Machine, listing: Listing, _limits: Optional[Limits]) -> Values:
    """What is filled in of the making of a child."""
    line, child = told.line, its(told.arrived)
    return {"index": child.index, "domain": DOMAINS[line["to"]], "child": label_of(child),
            "words": listing.task_words(line["entry"], line["args"])}


def of_emit(told: ToldLine, _machine: Machine, _listing: Listing, _limits: Optional[Limits]) -> Values:
    """What is filled in of the emission of a byte."""
    return {"text": printable(bytes([told.line["byte"]]))}


def of_trap(told: ToldLine, _machine: Machine, listing: Listing, limits: Optional[Limits]) -> Values:
    """What is filled in of a trap."""
    return {"place": listing.address_text(told.line["pc"]), "trap": trap_told(told.line, limits)}


REQUESTED: dict[str, Naming] = {
    "go": of_go, "load": of_load, "store": of_store, "enqueue": of_enqueue, "emit": of_emit, "trap": of_trap}


def trap_told(line: Line, limits: Optional[Limits]) -> str:
    """A trap's cause, and what it means."""
    return fill(SENTENCES["trap"], cause=line["cause"], meaning=cause_told(line["cause"], limits)[0])


# ---- what was aborted, and what moved


def back_told(told: ToldLine, machine: Machine, listing: Listing) -> str:
    """Which tasks were aborted, the least first, why, and which of them are gone."""
    count = len(told.taken)
    if not count:
        return ""
    rule = rule_of(machine.head)
    sentences, causes = CauseSentences(label_of, rule, listing), causes_of(told, rule)
    more = fill(SENTENCES["taken"]["more"], count=f"{count - MOST_NAMED:,}") if count > MOST_NAMED else ""
    return fill(SENTENCES["back"], tasks=count_text(count, "task"), are=is_or_are(count), more=more,
                list="".join(taken_told(cause, sentences) for cause in causes[:MOST_NAMED]))


def taken_told(cause: Cause, sentences: CauseSentences) -> str:
    """A task that was aborted, with the work that this undid, and why."""
    texts, taken = SENTENCES["taken"], cause.taken
    return fill(texts["worked" if taken.work else "idle"], task=label_of(taken.task), cause=sentences.sentence(cause),
                instructions=count_text(taken.work, "instruction"),
                discarded=texts["discarded"] if taken.is_gone else "")


def spilled_told(told: ToldLine) -> str:
    """Which tasks moved to a block."""
    count = len(told.spilled)
    if not count:
        return ""
    return fill(SENTENCES["spilled"], tasks=count_text(count, "task"), are=is_or_are(count), tile=told.spilled[0].tile,
                list=list_text([label_of(task) for task in told.spilled]))


# ---- what was refused


def refused_told(told: ToldLine, machine: Machine) -> str:
    """What a refused act was to do, and why it didn't."""
    return fill(SENTENCES["refused"], wish=wish_told(told), reply=told.line["reply"], why=why_refused(told, machine))


def wish_told(told: ToldLine) -> str:
    """What a refused act asked for."""
    line = told.line
    asks = line.get("asks")
    if asks in ("enqueue", "end"):
        return fill(WISHES[asks], leg=leg_told(told, "stalled"), domain=DOMAINS.get(line.get("to")))
    if line["do"] == "step" and told.task is not None:
        return fill(WISHES["leg"], **{**line, "task": label_of(told.task)})
    return fill(WISHES[line["do"]], **line)


def why_refused(told: ToldLine, machine: Machine) -> str:
    """Why an act was refused, by its reply."""
    line = told.line
    if line["reply"] == "ended":
        return str(REFUSALS["ended"])
    if line["reply"] == "stale" and line["do"] != "give":
        return why_stale(told, machine)
    return str(REFUSALS[f"{line.get('asks', line['do'])} {line['reply']}"])


def why_stale(told: ToldLine, machine: Machine) -> str:
    """Why no leg is taken on a core, or none is run there."""
    if told.task is not None:
        return str(REFUSALS["stale leg"])
    holder = machine.cores[told.line["tile"]][told.line["core"]]
    if holder is None:
        return str(REFUSALS["stale free"])
    return fill(REFUSALS["stale trapped"], task=label_of(machine.tasks[holder]))
