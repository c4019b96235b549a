"""Integration tests of ./fractal show: what a browser shows of a run is compared with the reader of event logs, which
doesn't use the page."""
from __future__ import annotations

import html.parser
import itertools
import json
import os
import pathlib
import shutil
from collections.abc import Sequence
from typing import Any, Callable, Optional, Union

from yotarimu.images.listing import NO_LISTING, Listing
from yotarimu.lines.orders import order_told, task_told
from yotarimu.lines.reader import open_lines
from yotarimu.lines.sentences import label_of
from yotarimu.pictures.page import Totals
from yotarimu.programs.examples import SCHEDULES

from tries.place import Failure, Omission, Place, expect, one_sentence_each
from tries.schedules import write_file
from tries.lines_text import LinesText
from yotarimu.lines.replay import Machine, Task

# What a page has to show behind an act, and the bytes of memory that it may show, by address.
PageState = tuple[list[Any], dict[int, int]]
BROWSERS = ("chromium", "chromium-browser", "google-chrome")
# The browser ends once the page has been at work for so long, by the page's own clock.
MOST_MILLISECONDS = "60000"
# Goes to each act, forwards and then back, and notes what stands in the lanes and which words are shown.
WALK = """<script>
const beside = (item) => item.querySelector("small").textContent.split(" ")[0];
const task = (item) => item.dataset.id
  ? [Number(item.dataset.id), item.dataset.label, item.classList[1], beside(item)] : null;
const isThere = (item) => !item.dataset.discarded;
const row = (tile) => Object.fromEntries([...tile.querySelectorAll("[data-lane]")].map((lane) => [lane.dataset.lane,
  lane.dataset.count ? Number(lane.dataset.count) : [...lane.children].filter(isThere).map(task)]));
const word = (row) => [Number(row.dataset.address), row.children[2].textContent];
const seen = (place) => {
  go(place);
  return [Number(document.body.dataset.at), Number(document.body.dataset.n), rows.map(row),
    at("counts").textContent.replaceAll(",", "").match(/[0-9]+/g).map(Number),
    timeline.history.counted && timeline.history.rounds[place],
    [...at("memory").tBodies[0].rows].map(word), at("journal").tBodies[0].rows.length];
};
const forwards = [...Array(course.length + 1).keys()].map(seen);
const back = [...Array(course.length + 1).keys()].reverse().map(seen).reverse();
document.body.dataset.seen = JSON.stringify([forwards, back]);
</script></body>"""
# Presses keys, and notes the acts that they lead to.
PRESS = """<script>
document.body.dataset.seen = JSON.stringify(%s.map((key) => {
  document.body.dispatchEvent(new KeyboardEvent("keydown", {key, bubbles: true, cancelable: true}));
  return Number(document.body.dataset.at);
}));
</script></body>"""
# Goes to each act, and notes of each two tasks which comes first, and of each one what it is.
ORDERS = """<script>
document.body.dataset.seen = JSON.stringify([...Array(course.length + 1).keys()].map((place) => {
  go(place);
  const orders = ordersNow(), tasks = orders.all();
  return [...tasks.map((task) => orders.taskTold(task, labels)),
    ...tasks.flatMap((one) => tasks.map((other) => orders.orderTold(one, other)))].sort();
}));
</script></body>"""
KEYS = ("a", "c", "ArrowRight", "ArrowLeft", "c", "PageDown", "a", "PageUp", "End", "Home", "ArrowLeft", "x", "A",
        "End", "A", "C", "End", "C", "C", "C", "A", "A")
PRESSED = [6, 8, 9, 8, 14, 17, 17, 0, 17, 0, 0, 0, 0, 17, 6, 6, 17, 14, 8, 8, 6, 6]


class Body(html.parser.HTMLParser):
    """The attributes of a page's body."""

    def __init__(self, text: str) -> None:
        super().__init__()
        self.attributes: Optional[dict[str, Optional[str]]] = None
        self.feed(text)

    def handle_starttag(self, tag: str, attrs: list[tuple[str, Optional[str]]]) -> None:
        """Keeps the attributes of the body."""
        if tag == "body":
            self.attributes = dict(attrs)


def browser() -> str:
    """An installed browser; without one the test is left out."""
    for name in BROWSERS:
        if (found := shutil.which(name)) is not None:
            return found
    raise Omission(f"it wants a browser: {', '.join(BROWSERS)}")


def open_page(place: Place, page: Union[str, pathlib.Path], act: object = None) -> dict[str, Optional[str]]:
    """The attributes of a page's body, once a browser has opened it, at an act if one is given."""
    url = pathlib.Path(page).as_uri() + ("" if act is None else f"#{act}")
    # The browser's sandbox isn't for root.
    words = ["--no-sandbox"] if os.getuid() == 0 else []
    words += ["--headless", "--disable-gpu", f"--user-data-dir={place.root / 'browser'}",
              f"--virtual-time-budget={MOST_MILLISECONDS}", "--dump-dom", url]
    answer = place.call(browser(), *words)
    attributes = Body(answer.output.decode()).attributes
    if answer.status != 0 or not attributes or "data-at" not in attributes:
        raise Failure(f"expected a page that plays; seen {answer}")
    return attributes


def page_at(place: Place, name: str, page: bytes, script: str = "") -> pathlib.Path:
    """Writes a page to a file, with a script at its end."""
    path = place.root / name
    text = page.decode()
    expect(text.count("</body>") == 1, "one body", text[-200:])
    path.write_text(text.replace("</body>", script) if script else text)
    return path


def seen_on(place: Place, page: bytes, script: str) -> Any:
    """What a script notes on a page."""
    attributes = open_page(place, page_at(place, "scripted.html", page, script), 0)
    seen = attributes.get("data-seen")
    expect(seen is not None, "a page that plays each act", attributes)
    return json.loads(seen or "")


def walk_page(place: Place, page: bytes, lines: str, first: int) -> None:
    """Compares each act of a page with the reader, forwards and backwards."""
    forwards, back = seen_on(place, page, WALK)
    compare(lines, first, forwards)
    expect(forwards == back, f"the same of {lines} on the way back")


def show_lines(place: Place, lines: str, *words: str) -> bytes:
    """The page that `./fractal show` makes of lines."""
    answer = place.call("fractal show", lines, *words)
    expect((answer.status, answer.errors) == (0, ""), f"a page of {lines}", answer)
    return answer.output


def stored_page(place: Place, name: str = "conflict") -> tuple[str, str]:
    """The stored lines of a schedule, and its listing."""
    folder = place.clone / "examples" / "schedules" / name
    return str(folder / "lines"), str(folder / "listing")


# ---- what the reader of lines knows


def page_state(machine: Machine, passed: Totals) -> PageState:
    """What a page has to show of the machine behind an act: the act, events, the lanes, what is counted, where in the
    rounds it is, the commits; and the bytes that it may show."""
    def named(number: Optional[int], beside: Callable[[Task], str]) -> Optional[list[object]]:
        if number is None:
            return None
        task = machine.tasks[number]
        return [number, label_of(task), task.state, beside(task)]

    def lane(ids: Sequence[Optional[int]], beside: Callable[[Task], str]) -> list[Optional[list[object]]]:
        return [named(number, beside) for number in ids]

    tiles = [{"queue": lane(machine.queues[tile], lambda task: f"@{task.timestamp}"),
              "cores": lane(machine.cores[tile], lambda task: str(task.work)),
              "finished": lane(machine.finished[tile], lambda task: "f"), "block": len(machine.blocks[tile])}
             for tile in range(machine.head["tiles"])]
    counts = [machine.queued - machine.running - machine.waiting, machine.running, machine.waiting, machine.spilled,
              passed.useful, passed.wasted]
    place = None if machine.rounds is None else machine.rounds.place()
    return [machine.acts, machine.events, tiles, counts, place, machine.commits], machine.memory.bytes()


def page_states(lines: str) -> list[PageState]:
    """What a page has to show after the opening and after each act of an event log."""
    found: list[PageState] = []
    passed = Totals()
    with open_lines(lines) as watched:
        for told in watched:
            passed.follow(told)
            if not told.is_act():
                found.clear()
            found.append(page_state(watched.machine, passed))
    return found


def compare(lines: str, first: int, seen: Sequence[Any]) -> None:
    """Compares what a browser showed after each act, from the first on, with the reader."""
    wanted = page_states(lines)[first:]
    expect(len(seen) == len(wanted), f"{len(wanted)} acts of {lines}", len(seen))
    for (*shown_there, words, entries), ((*told, commits), memory) in zip(seen, wanted):
        act = f"act {told[0]} of {lines}"
        expect(shown_there == told, f"behind {act} {told}", shown_there)
        expect(entries == min(12, commits), f"the journal behind {act}", entries)
        expect(words or not memory, f"words of memory behind {act}")
        for address, digits in words:
            bytes_of = [memory.get(address + byte) for byte in (3, 2, 1, 0)]
            digits_of = "".join(".." if it is None else f"{it:02x}" for it in bytes_of)
            expect(digits == digits_of, f"{digits_of} at {address:08x} behind {act}", digits)


def watched_lines(place: Place, words: Sequence[str], given: bytes, name: str) -> str:
    """Writes what `./fractal watch` prints to a file."""
    path = place.root / name
    answer = place.call("fractal", "watch", *words, stdin=given)
    path.write_bytes(answer.output)
    return str(path)


# ---- tries


def stored_lines_are_shown(place: Place) -> None:
    """a browser shows the stored lines as the reader of lines has them, alone, at the act that is asked for, by keys"""
    lines, listing = stored_page(place)
    page = show_lines(place, lines, listing)
    expect(b"://" not in page, "a page that asks for nothing else")
    plain = page_at(place, "a page.html", page)
    for act, at in ((6, 6), (0, 0), (None, 0), (17, 17), (99, 17), ("x", 0)):
        attributes = open_page(place, plain, act)
        expect((attributes["data-at"], attributes["data-n"]) == (str(at), str(at)), f"act {at}", attributes)
    pressed = seen_on(place, page, PRESS % json.dumps(KEYS))
    expect(pressed == PRESSED, f"the acts {PRESSED}", pressed)
    for first, words in ((0, ()), (5, ("--from", "5")), (8, ("--from=8", "--to=17"))):
        walk_page(place, show_lines(place, lines, *words), lines, first)


def runs_are_shown(place: Place) -> None:
    """so it does each act of the schedules, and of a long one with small queues, from the start and from within"""
    place.needs_second_program()
    browser()
    for name in SCHEDULES:
        folder = place.clone / "examples" / name
        given = (folder / "image.bin").read_bytes() + (folder / "script").read_bytes()
        lines = watched_lines(place, (folder / "words").read_text().split(), given, "lines")
        walk_page(place, show_lines(place, lines, *map(str, folder.glob("listing"))), lines, 0)
        if name == "schedules/conflict":
            own = pathlib.Path(stored_page(place)[0]).read_bytes()
            expect(pathlib.Path(lines).read_bytes() == own, "the stored lines")
    image = place.call("fractal generate", "nest", "7", "40").output
    words = ("lockstep", "40", "7", "--tiles", "8", "--task-queue", "8", "--commit-queue", "4", "--phase", "1")
    lines = watched_lines(place, words, image, "lines")
    text = pathlib.Path(lines).read_text()
    for part in ('"gone"', '"spilled"', '"split"', '"stall"'):
        expect(part in text, f"{part} in a run with small queues")
    ats = [at for (at, *_), _ in page_states(lines)]
    for first in (0, len(ats) // 2):
        walk_page(place, show_lines(place, lines, "--from", str(ats[first])), lines, first)


def page_tells_orders(place: Place) -> None:
    """which of two tasks comes first, and why, is shown as the tools print it, also on a page that begins within a
    run"""
    place.needs_second_program()
    browser()
    for name in ("schedules/domains_by_hand", "schedules/by_hand"):
        folder = place.clone / "examples" / name
        given = (folder / "image.bin").read_bytes() + (folder / "script").read_bytes()
        lines = watched_lines(place, (folder / "words").read_text().split(), given, "lines")
        wanted = orders_of(lines, NO_LISTING)
        for first in (0, len(wanted) // 2):
            seen = seen_on(place, show_lines(place, lines, "--from", str(first)), ORDERS)
            expect(seen == wanted[first:], f"the same orders on {name} from act {first}")


def orders_of(lines: str, listing: Listing) -> list[list[str]]:
    """After the opening and after each act of an event log, what each task is and which of each two comes first."""
    found: list[list[str]] = []
    with open_lines(lines) as watched:
        for told in watched:
            if not told.is_act():
                found.clear()
            machine, tasks = watched.machine, list(watched.machine.all_tasks())
            pairs = itertools.product(tasks, tasks)
            found.append(sorted([*(task_told(task, listing) for task in tasks),
                                 *(order_told(*pair, machine) for pair in pairs)]))
    return found


def children_spilled_before_the_page_count(place: Place) -> None:
    """a page that begins behind spilled children of a task that makes more names all of them as the reader does"""
    told = LinesText([0], [0], tiles=1, cores=1, task_queue=4)
    queued: dict[int, int] = {}
    told.dispatch(0, 0, 0, 0)
    for child in range(10):
        change: dict[str, Any] = {}
        if len(queued) == 3:
            change = {"spilled": [[task, 1, index] for task, index in sorted(queued.items())]}
            queued = {}
        queued[len(queued) + 1] = child
        told.enqueue(0, 0, 0, 1, len(queued), **change)
    told.finish(0, 0, 0, 1)
    told.commit(0, [0, 0], 0)
    lines = write_file(place, "lines", told.end())
    names = {label_of(task) for task in all_tasks(lines)}
    expect(names == {f"1.{child}" for child in range(10)}, "ten children", names)
    for first in range(12):
        walk_page(place, show_lines(place, lines, "--from", str(first)), lines, first)


def all_tasks(lines: str) -> list[Task]:
    """The uncommitted tasks that a text leaves."""
    with open_lines(lines) as watched:
        for _ in watched:
            pass
        return list(watched.machine.all_tasks())


def long_runs_want_a_range(place: Place) -> None:
    """above 50,000 acts a page wants a range, and a text that was cut is shown where that is asked for"""
    lines, _ = stored_page(place)
    opening = pathlib.Path(lines).read_bytes().splitlines(keepends=True)[:3]
    refused = b'{"at":%d,"do":"abort","tile":0,"reply":"empty","n":0}\n'
    path = place.root / "long"
    path.write_bytes(b"".join([*opening, *(refused % act for act in range(1, 50_002))]))
    place.call("fractal show", "--cut", str(path)).sentence("more than 50,000 acts", "--from ACT")
    place.call("fractal show", str(path), "--to", "50000").sentence("no end", "line 50004")
    page = show_lines(place, str(path), "--cut", "--from", "1")
    expect(page.count(b'"reply":"empty"') == 50_000, "50,000 acts")


def other_texts_are_refused(place: Place) -> None:
    """a text that isn't a whole event log, other listings and invalid arguments are refused in a sentence"""
    show = "fractal show"
    lines, listing = stored_page(place)
    text = pathlib.Path(lines).read_bytes()
    whole = text.splitlines(keepends=True)
    pipeline = str(place.clone / "examples" / "pipeline" / "listing")
    one_sentence_each([
        (place.call(show), ["LINES"]),
        (place.call(show, lines, listing, lines), ["LINES"]),
        (place.call(show, lines, "--fast"), ["--fast"]),
        (place.call(show, lines, "--from"), ["needs a value"]),
        (place.call(show, lines, "--from", "x"), ["--from", "`x`"]),
        (place.call(show, lines, "--from", "4", "--to", "3"), ["from 4 to 3"]),
        (place.call(show, lines, "--from", "18"), ["its last act is 17"]),
        (place.call(show, "nowhere"), ["nowhere", "no such file"]),
        (place.call(show, lines, "nowhere"), ["nowhere", "no such file"]),
        (place.call(show, lines, lines), ["lines", "isn't a listing"]),
        (place.call(show, lines, pipeline), ["listing of another image"]),
        (place.call(show, str(place.clone / "examples" / "hello" / "image.bin")), ["image.bin:1:"]),
        (place.call(show, "-"), ["-: it has no whole line"]),
        (place.call(show, "-", stdin=text[:-1]), ["-:21:", "no newline"]),
        (place.call(show, "-", stdin=b"".join(whole[:-1])), ["no end", "line 20"]),
        (place.call(show, "-", stdin=b"".join(whole[:4] + whole[5:])), ["-:5:", "act 3"]),
        (place.call(show, "-", stdin=text.replace(b'"leg":4', b'"leg":5')), ["-:9:", "instructions"]),
        (place.call(show, "-", "--cut", stdin=b"".join(whole[:2])), ["nothing to show"]),
        (place.call(show, "-", stdin=b'{"fault":"script","line":3}\n'), ["script 3"]),
        (place.by_shell('"$0" show "$1" >/dev/full', lines), ["no space"]),
    ])
    page = place.call(show, "-", "--cut", stdin=text[:1500])
    expect(page.status == 0 and b"the text breaks off" in page.output, "what there is of a cut text", page.errors)
    place.is_clean()


TRIES = (stored_lines_are_shown, runs_are_shown, page_tells_orders, children_spilled_before_the_page_count,
         long_runs_want_a_range, other_texts_are_refused)
