"""A case: some calls of the program, which follow from a seed and the case's number alone."""
from __future__ import annotations

import dataclasses
from collections.abc import Generator, Mapping
from typing import Callable, Optional

from yotarimu.courses.schedules import Act, script_text
from yotarimu.images.image import Image, image_bytes

from cases import images, reports, scripts
from cases.chance import Chance
from cases.shape import THEMES, TRAPS, shape_of

# The themes take turns, and the causes of traps those of `trap`. A case in RARE has a theme of its own.
CYCLE = (*THEMES, "mixed", "trap", "conflicts", "workers", "trap", "queues", "saved", "mixed", "trap", "tight", "load",
         "trap", "malformed image", "trap", "malformed script", "saved", "trap", "words")
RARE = {100: "renumbering", 300: "crowd", 500: "long load"}
RARE_EVERY = 1_000
# More than all dispatch numbers.
DISPATCHES = 65_600
BAD_WORDS = ("--tiles=0", "--tiles=17", "--cores", "--line=5", "--quantum=1025", "--towers=1", "--", "--help", "extra",
             "--budget=", "--budget=-1", "--tiles=1 --tiles=2", "--workers=17", "--phase=00000000001", "--commits=0")
# Words with random fields may go on for ever, so their runs have limits.
ENDLESS, MOST_COMMITS, MOST_BUDGET = ("soup", "malformed image"), 500, 3_000
MOST_SEED, LOADS = 0xFFFFFFFF, {"walk": 300, "nest": 100}


@dataclasses.dataclass(frozen=True)
class Call:
    """Words of the program and its standard input. With workers, a run's report may be another."""
    words: tuple[str, ...]
    data: bytes = b""

    @property
    def command(self) -> str:
        return self.words[0] if self.words else ""

    def option(self, name: str) -> Optional[str]:
        """The value of an option as a word; None where it isn't given."""
        return next((word.partition("=")[2] for word in self.words if word.startswith(f"--{name}=")), None)

    @property
    def has_workers(self) -> bool:
        return self.command == "run" and self.option("workers") not in (None, "0")


# Calls one after another. Each is answered by what the old program says to it.
Calls = Generator[Call, bytes, None]


def theme_of(number: int) -> str:
    if number % RARE_EVERY in RARE:
        return RARE[number % RARE_EVERY]
    rounds, place = divmod(number, len(CYCLE))
    if CYCLE[place] != "trap":
        return CYCLE[place]
    turn = rounds * CYCLE.count("trap") + CYCLE[:place].count("trap")
    return f"trap {turn % len(TRAPS) + 1}"


def calls_of(seed: int, number: int) -> Calls:
    """The calls of a case, one after another. To each the old program's answer is sent, since some need it."""
    theme, chance = theme_of(number), Chance(seed << 32 | number)
    special: dict[str, Callable[[Chance], Calls]] = {
        "malformed image": malformed_images, "malformed script": malformed_scripts, "load": loads,
        "words": bad_words, "workers": with_workers, "saved": saved_run, "renumbering": renumbered_run, "crowd": crowd,
        "long load": long_load}
    yield from special[theme](chance) if theme in special else whole(chance, theme)


def whole(chance: Chance, theme: str) -> Calls:
    """An image that is run and played, and one thing more that is done with it."""
    image, options, acts = settle(chance, theme)
    data, script = image_bytes(image), scripts.text_of(chance, acts).encode()
    said = yield Call(("steps", *options), data + script)
    report = yield Call(("run", *options), data)
    what = chance.below(4)
    if what == 0:
        yield Call(("trace", *options), data + script)
    elif what == 1:
        yield Call(("check", *limits_in(options)), data + reports.alter(chance, report))
    elif what == 2:
        # What a script leaves is a report of its own, as the old program's answer is.
        yield Call(("check", *limits_in(options)), data + reports.without_replies(said))
    else:
        yield Call(("trace", *options), data + script_text([Act("advance")] * chance.between(5, 400)).encode())


def settle(chance: Chance, theme: str) -> tuple[Image, tuple[str, ...], list[Act]]:
    """An image with a theme, options, and acts for as many tiles and cores."""
    shape = shape_of(theme, chance)
    image, numbers = images.image_of(chance, shape), numbers_of(chance, theme)
    acts = scripts.script_of(chance, numbers.get("tiles", 4), numbers.get("cores", 2))
    return image, options_of(numbers), acts


def numbers_of(chance: Chance, theme: str) -> dict[str, int]:
    """The options that are given, by name."""
    few = chance.is_one_of(3) or theme in ("queues", "wide", "tight")
    numbers = {"tiles": chance.pick((1, 1, 2, 2, 3, 4, 5, 8, 16)), "cores": chance.between(1, 4),
               "task-queue": chance.between(4, 10) if few else chance.pick((16, 64, 256)),
               "commit-queue": chance.between(1, 3) if few else chance.pick((4, 16, 64)),
               "line": chance.pick((4, 8, 16, 32, 64)), "quantum": chance.pick((1, 2, 5, 16, 64, 64, 1_024)),
               "commits": chance.between(1, 40), "budget": chance.between(20, 600), "phase": chance.between(1, 6)}
    often: dict[str, float] = {
        "tiles": 1.3, "cores": 1.5, "task-queue": 1.5, "commit-queue": 1.7, "line": 2, "quantum": 1.7,
        "commits": 9, "budget": 1 if theme == "trap 17" else 9, "phase": 3}
    if few:
        often.update({"task-queue": 1, "commit-queue": 1})
    if theme == "tight":
        numbers.update({"tiles": chance.between(1, 2), "cores": chance.between(3, 4)})
        numbers["task-queue"] = chance.between(4, 6)
        often.update({"tiles": 1, "cores": 1})
    chosen = {name: value for name, value in numbers.items() if chance.is_one_of(often[name])}
    if theme in ENDLESS:
        chosen = {"commits": MOST_COMMITS, "budget": MOST_BUDGET, **chosen}
    return chosen


def options_of(numbers: Mapping[str, int]) -> tuple[str, ...]:
    return tuple(f"--{name}={value}" for name, value in numbers.items())


def limits_in(options: tuple[str, ...]) -> tuple[str, ...]:
    """The options that a check looks at."""
    return tuple(option for option in options if option.startswith(("--commits", "--budget")))


def malformed_images(chance: Chance) -> Calls:
    image, options, acts = settle(chance, "malformed image")
    fault = chance.pick(images.FAULTS)
    data = images.spoil(chance, image, fault)
    yield Call((chance.pick(("run", "check", "steps", "trace", "save")), *options), data)
    yield Call(("run", *options), images.scramble(chance, image_bytes(image)))
    yield Call(("steps", *options), images.scramble(chance, image_bytes(image)) + script_text(acts[:200]).encode())


def malformed_scripts(chance: Chance) -> Calls:
    image, options, acts = settle(chance, "mixed")
    for command in ("steps", "trace"):
        yield Call((command, *options), image_bytes(image) + scripts.bad_text(chance, acts).encode())
    report = yield Call(("run", *options), image_bytes(image))
    yield Call(("check", *limits_in(options)), image_bytes(image) + reports.alter(chance, report))


def loads(chance: Chance) -> Calls:
    kind = chance.pick(tuple(LOADS))
    words = ("load", kind, str(chance.below(MOST_SEED)), str(chance.between(1, LOADS[kind])))
    yield Call((*words, *options_of(numbers_of(chance, "mixed"))))


def bad_words(chance: Chance) -> Calls:
    image, options, _ = settle(chance, "mixed")
    wrong = chance.pick(BAD_WORDS).split(" ")
    yield Call((chance.pick(("run", "check", "steps")), *options, *wrong), image_bytes(image))
    yield Call((chance.pick(("", "walk", "load", "runs", "--tiles=2")), *options), image_bytes(image))
    yield Call(("load", chance.pick(("walk", "nest", "hop")), chance.pick(("0", "x", "4294967296")), "0"))


def with_workers(chance: Chance) -> Calls:
    image, options, _ = settle(chance, chance.pick(("mixed", "conflicts", "queues", "wide", "pointers")))
    for workers in (chance.between(1, 4), 0):
        yield Call(("run", *options, f"--workers={workers}"), image_bytes(image))


def saved_run(chance: Chance) -> Calls:
    """A run that is cut, and that goes on from there."""
    theme = chance.pick(("mixed", "conflicts", "wide", "deep", "deep", "chain", "trap 17", "trap 8"))
    image, options, _ = settle(chance, theme)
    options = tuple(option for option in options if not option.startswith("--commits"))
    first = yield Call(("save", *options, f"--commits={chance.between(1, 12)}"), image_bytes(image))
    if first.startswith(b"FRAC"):
        second = yield Call(("run", *options), first)
        yield Call(("check", *limits_in(options)), first + second)
    yield Call(("save", *options), image_bytes(image))


def renumbered_run(chance: Chance) -> Calls:
    """All dispatch numbers are given, and the state goes on."""
    acts = scripts.renumbering_acts(DISPATCHES)
    yield Call(("steps", "--tiles=1", f"--cores={chance.between(2, 4)}"),
               image_bytes(images.two_tasks()) + script_text(acts).encode())


def crowd(chance: Chance) -> Calls:
    data = image_bytes(images.crowd())
    yield Call(("save", f"--commits={chance.between(1, 2)}", "--task-queue=256"), data)


def long_load(chance: Chance) -> Calls:
    """More dispatches than there are dispatch numbers."""
    yield Call(("load", "walk", str(chance.below(100)), "35000", f"--tiles={chance.between(1, 16)}"))
