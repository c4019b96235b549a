"""Rounds in lockstep, as the head of lines has them: which act is where, and when the least task is advanced."""
from __future__ import annotations

from typing import Any, Callable, Dict, Set

from yotarimu.courses.schedules import Act, Shuffle, round_of
from yotarimu.lines.fields import WrongLine

# What advances a least task that waits, if it was spilled and if not.
ADVANCES = ("split", "dispatch")


def nothing(_act: Act) -> bool:
    """No act is known to be asked for."""
    return False


def is_served() -> bool:
    """No least task is known to wait."""
    return False


class Rounds:
    """The acts of the rounds, one round after another.

    A round is starved if it has no commit and the least task waits at its end, in a queue or in a block. After `most`
    starved rounds in a row the least task is advanced until it is dispatched, which is a round of its own. The least
    task stays the least until it commits, and once dispatched it stays dispatched. So it is enough to look for it when
    `most` rounds in a row had no commit: if it waits then, it waited in all of them."""

    def __init__(self, head: Dict[str, Any], is_asked: Callable[[Act], bool] = nothing,
                 is_least_waiting: Callable[[], bool] = is_served) -> None:
        # Whether an act is asked for as the machine is, and whether the least task waits.
        self.is_asked, self.is_least_waiting = is_asked, is_least_waiting
        # Called with each step that is passed over, before the next line is followed.
        self.note_passed: Callable[[Act], None] = lambda act: None
        # The number of the act after the last one that was told or passed over, how many were passed over since one
        # was told, and whether a commit was.
        self.next, self.passed, self.is_commit_passed = 1, 0, False
        self.count, self.most, self.shuffle = head["rounds"], head["starved"], Shuffle(head["seed"])
        self.acts = self.shuffle.shuffle(round_of(head["tiles"], head["cores"]))
        # How many rounds came before the one that goes on or comes next, and the number of its first act.
        self.number, self.first = 0, 1
        # How many tasks had committed when it began, and how many have by now.
        self.begun = self.commits = 0
        # How many rounds in a row had no commit by now, and at most.
        self.without_commit = self.longest = 0
        # How many acts advanced the least task, in how many rounds of their own, and whether one goes on or is over.
        self.advances = self.advance_rounds = 0
        self.is_advancing = self.is_advanced = False
        # The numbers of the rounds that advance it.
        self.advance_numbers: Set[int] = set()
        # How many rounds were begun, up to the last act that was told.
        self.begun_rounds = 0

    def need(self, line: Dict[str, Any]) -> None:
        """Checks the line of an act against the rounds."""
        if self.is_advanced:
            self.end_advance()
        while not self.is_advancing and line["at"] >= self.first + len(self.acts):
            self.pass_over(self.first + len(self.acts))
            self.end_round()
        if self.is_advancing:
            self.need_advance(line)
        else:
            self.pass_over(line["at"])
            self.need_act(line)
        self.begun_rounds = self.number + 1
        self.next, self.passed, self.is_commit_passed = line["at"] + 1, 0, False

    def place(self) -> float:
        """Where in the rounds the last printed act ends: how many rounds come before, and which part of its own round
        is over. A round that advances the least task ends with the dispatch, and is half over after a split."""
        if self.is_advancing:
            return self.number + (1.0 if self.is_advanced else 0.5)
        return self.number + (self.next - self.first) / len(self.acts)

    def pass_over(self, end: int) -> None:
        """Checks that none of the acts up to a number was due, as they are missing from the log. Between two logged
        acts nothing changes, so it is enough to look at one round of them."""
        for number in range(self.next, end):
            act = self.acts[number - self.first]
            if self.passed < len(self.acts):
                if self.is_asked(act):
                    raise WrongLine(f"act {number}, `{act}`, was asked for, and isn't printed")
                self.passed += 1
                self.is_commit_passed |= act.word == "commit"
            if act.word == "step":
                self.note_passed(act)
        self.next = max(self.next, end)

    def end_round(self) -> None:
        """Goes on to the next round, whose acts are shuffled; after too many starved ones the least task is
        advanced."""
        self.without_commit = self.without_commit + 1 if self.commits == self.begun else 0
        self.longest = max(self.longest, self.without_commit)
        self.number, self.first, self.begun = self.number + 1, self.first + len(self.acts), self.commits
        if self.number < self.count and self.without_commit == self.most and self.is_least_waiting():
            self.is_advancing = True
            self.advance_rounds += 1
            self.advance_numbers.add(self.number)
        else:
            self.acts = self.shuffle.shuffle(self.acts)

    def end_advance(self) -> None:
        """Goes on to the round after the least task was advanced."""
        self.number, self.without_commit = self.number + 1, 0
        self.is_advancing = self.is_advanced = False
        self.acts = self.shuffle.shuffle(self.acts)

    def end_all(self) -> None:
        """Ends the rounds that are left, whose acts weren't asked for."""
        if self.is_advanced:
            self.end_advance()
        while self.number < self.count and not self.is_advancing:
            self.pass_over(self.first + len(self.acts))
            self.end_round()

    def acts_left(self) -> list[Act]:
        """The acts of a round that are left when the run ends in it."""
        return [] if self.is_advancing else self.acts[self.next - self.first:]

    def need_act(self, line: Dict[str, Any]) -> None:
        """Checks an act against the one at its place in the round."""
        if self.number >= self.count:
            raise WrongLine(f"act {line['at']} is of no round, as there are {self.count}")
        act: Act = self.acts[line["at"] - self.first]
        if (line["do"], line.get("tile"), line.get("core") if act.core is not None else None) != (
                act.word, act.tile, act.core):
            raise WrongLine(f"act {line['at']} of these rounds is `{act}`, and another one is printed")
        if act.word == "commit" and self.is_commit_passed:
            raise WrongLine(f"act {line['at']} commits, and so would have one before it that isn't printed")

    def need_advance(self, line: Dict[str, Any]) -> None:
        """Checks an act against those that advance the least task."""
        if line["at"] != self.first or line["do"] not in ADVANCES:
            raise WrongLine(f"act {self.first} advances the least task, and another one is printed")
        self.first, self.advances = self.first + 1, self.advances + 1
        self.is_advanced = line["do"] == "dispatch"

    def note_commits(self, commits: int) -> None:
        """Takes how many tasks have committed after an act."""
        self.commits = commits
