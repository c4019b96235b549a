"""A played schedule in numbers."""
from __future__ import annotations

import collections
from collections.abc import Iterator, Mapping
from typing import Callable, Optional

from yotarimu.common.acts import ACTS, DONE, REFUSALS
from yotarimu.common.tables import plain_ratio, ratio, table
from yotarimu.courses.schedules import PlayedScript, is_commit

# The curve of commits has so many points at most.
MOST_POINTS = 60


class Tally:
    """The acts of a played schedule by answer, the tasks that they aborted, and the commits over acts. Acts after the
    end of the run, answered `ended`, are counted apart."""

    def __init__(self, played: PlayedScript, acts_a_round: Optional[int] = None) -> None:
        self.replies: dict[str, collections.Counter[str]] = {}
        self.taken_back: collections.Counter[str] = collections.Counter()
        self.end = played.report.end
        self.acts = self.commits = 0
        step, self.curve = -(-len(played.acts) // MOST_POINTS), [(0, 0)]
        for act, said in played.pairs():
            self.replies.setdefault(act.word, collections.Counter())[said.reply] += 1
            self.taken_back[act.word] += said.taken_back
            if said.reply == "ended":
                continue
            self.acts += 1
            self.commits += is_commit(act, said)
            if self.acts % step == 0:
                self.curve.append((self.acts, self.commits))
        if self.curve[-1] != (self.acts, self.commits):
            self.curve.append((self.acts, self.commits))
        # None where the script has no rounds.
        self.rounds = -(-self.acts // acts_a_round) if acts_a_round else None

    def count(self, word: str, reply: str) -> int:
        """How often an act of a word had a reply."""
        return self.replies[word][reply] if word in self.replies else 0

    def dispatches(self) -> int:
        """How many tasks were dispatched."""
        return self.count("dispatch", "ok")

    def all_taken_back(self) -> int:
        """How many tasks were aborted."""
        return sum(self.taken_back.values())

    def stalls(self) -> dict[str, int]:
        """How many acts of each word stalled, of those that did."""
        return {word: self.count(word, "stall") for word in ACTS if self.count(word, "stall")}

    def words(self) -> list[str]:
        """The acts that the script has, in the order in which documents list them."""
        return [word for word in ACTS if word in self.replies]

    def answers(self) -> list[str]:
        """The answers that were given."""
        return [reply for reply in DONE + REFUSALS if any(counts[reply] for counts in self.replies.values())]


def by_act(counts: Mapping[str, int]) -> str:
    """Counts by act, as `step 12, split 3`; a dash where all are 0."""
    return ", ".join(f"{word} {count:,}" for word, count in counts.items() if count) or "-"


ROWS: tuple[tuple[str, Callable[[Tally], str]], ...] = (
    ("Acts before the end", lambda it: f"{it.acts:,}"),
    ("Rounds", lambda it: f"{it.rounds:,}" if it.rounds else "-"),
    ("Commits", lambda it: f"{it.commits:,}"),
    ("Commits a round", lambda it: ratio(it.commits, it.rounds)),
    ("Commits in 1,000 acts", lambda it: ratio(1_000 * it.commits, it.acts)),
    ("Dispatches", lambda it: f"{it.dispatches():,}"),
    ("Dispatches a commit", lambda it: ratio(it.dispatches(), it.commits)),
    ("Tasks aborted", lambda it: f"{it.all_taken_back():,}"),
    ("by which act", lambda it: by_act(it.taken_back)),
    ("Tasks aborted a commit", lambda it: ratio(it.all_taken_back(), it.commits)),
    ("Stalls", lambda it: by_act(it.stalls())),
    ("End", lambda it: it.end),
)


# The same for CSV, in plain numbers.
PLAIN: tuple[tuple[str, Callable[[Tally], object]], ...] = (
    ("acts", lambda it: it.acts),
    ("rounds", lambda it: it.rounds or ""),
    ("commits", lambda it: it.commits),
    ("commits a round", lambda it: plain_ratio(it.commits, it.rounds)),
    ("commits in 1000 acts", lambda it: plain_ratio(1_000 * it.commits, it.acts)),
    ("dispatches", lambda it: it.dispatches()),
    ("dispatches a commit", lambda it: plain_ratio(it.dispatches(), it.commits)),
    ("aborted", lambda it: it.all_taken_back()),
    ("aborted a commit", lambda it: plain_ratio(it.all_taken_back(), it.commits)),
    ("end", lambda it: it.end),
)


def plain_rows(tallies: Mapping[str, Tally]) -> Iterator[list[object]]:
    """The tallies of a dictionary by name as rows of CSV, a row each, under their head; with how often each act had
    each answer, and how many tasks each aborted."""
    pairs = [(word, reply) for word in ACTS for reply in DONE + REFUSALS
             if any(it.count(word, reply) for it in tallies.values())]
    words = list(dict.fromkeys(word for word, _ in pairs))
    yield ["output", *(name for name, _ in PLAIN), *(f"{word} {reply}" for word, reply in pairs),
           *(f"aborted by {word}" for word in words)]
    for name, it in tallies.items():
        yield [name, *(cell(it) for _, cell in PLAIN), *(it.count(*pair) for pair in pairs),
               *(it.taken_back[word] for word in words)]


def summary(tallies: Mapping[str, Tally]) -> list[str]:
    """The tallies of a dictionary by name, a column each."""
    return table(["", *tallies], ([name, *(cell(it) for it in tallies.values())] for name, cell in ROWS))


def acts_by_reply(tally: Tally) -> list[str]:
    """How often each act had each answer."""
    answers = tally.answers()
    rows = [[word, *(f"{tally.count(word, reply):,}" for reply in answers),
             f"{sum(tally.replies[word].values()):,}", f"{tally.taken_back[word]:,}"] for word in tally.words()]
    return table(["Act", *answers, "all", "tasks aborted"], rows)
