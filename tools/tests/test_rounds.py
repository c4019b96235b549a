"""Rounds in lockstep: which act is where, and when the least task is advanced."""
from __future__ import annotations

import unittest
from typing import Any, Dict, List

from yotarimu.courses.schedules import Act
from yotarimu.lines.fields import WrongLine
from yotarimu.lines.rounds import Rounds


def rounds(count: int, starved: int, is_least_waiting: bool = True) -> Rounds:
    """Rounds of one tile with one core, in their plain order: dispatch, step, commit, split."""
    head = {"rounds": count, "starved": starved, "seed": 0, "tiles": 1, "cores": 1}
    return Rounds(head, is_least_waiting=lambda: is_least_waiting)


def line(at: int, word: str) -> Dict[str, Any]:
    """The line of an act."""
    places: Dict[str, Dict[str, int]] = {"commit": {}, "step": {"tile": 0, "core": 0}}
    return {"at": at, "do": word, **places.get(word, {"tile": 0})}


def play(of: Rounds, *acts: tuple[int, str, int]) -> Rounds:
    """Takes acts by number and word, each with how many tasks have committed after it."""
    for at, word, commits in acts:
        of.need(line(at, word))
        of.note_commits(commits)
    return of


class Starved(unittest.TestCase):
    """When the least task is advanced."""
    def test_after_two_starved_rounds(self) -> None:
        """Acts 1 to 8 are two starved rounds. So act 9 splits the least task and act 10 dispatches it, as a round of
        their own, the third. The fourth begins with act 11."""
        of = play(rounds(9, 2), (2, "step", 0), (6, "step", 0), (9, "split", 0), (10, "dispatch", 0), (12, "step", 0))
        self.assertEqual((of.advances, of.advance_rounds, of.longest, of.number, of.begun_rounds), (2, 1, 2, 3, 4))

    def test_an_act_ends_somewhere_in_its_round(self) -> None:
        """Act 6 is the second of four in the second round; the split and the dispatch have the third one in halves."""
        of, places = rounds(9, 2), list[float]()
        for at, word in ((2, "step"), (6, "step"), (9, "split"), (10, "dispatch"), (12, "step")):
            places.append(play(of, (at, word, 0)).place())
        self.assertEqual(places, [0.5, 1.5, 2.5, 3.0, 3.5])

    def test_a_dispatched_least_task_starves_nothing(self) -> None:
        """Ten rounds without a commit, in which the least task makes its steps, aren't starved."""
        acts = [(4 * number + 2, "step", 0) for number in range(10)]
        of = play(rounds(20, 2, is_least_waiting=False), *acts)
        self.assertEqual((of.advances, of.number, of.begun_rounds, of.longest), (0, 9, 10, 9))

    def test_a_commit_ends_the_row(self) -> None:
        """Of three rounds the second has a commit, so no two starved ones are in a row."""
        of = play(rounds(5, 2), (1, "dispatch", 0), (6, "step", 0), (7, "commit", 1), (10, "step", 1),
                  (13, "dispatch", 1))
        self.assertEqual((of.advances, of.longest, of.number), (0, 1, 3))

    def test_an_advance_begins_the_count_anew(self) -> None:
        """After rounds 1 and 2 the third advances; rounds 4 and 5 are starved again, so that the sixth does."""
        of = play(rounds(9, 2), (2, "step", 0), (6, "step", 0), (9, "dispatch", 0), (11, "step", 0),
                  (18, "dispatch", 0))
        self.assertEqual((of.advances, of.advance_rounds, of.number), (2, 2, 5))

    def test_the_last_round_is_followed_by_no_advance(self) -> None:
        of = play(rounds(2, 2), (2, "step", 0), (6, "step", 0))
        of.end_all()
        self.assertEqual((of.advances, of.number), (0, 2))
        with self.assertRaisesRegex(WrongLine, "of no round"):
            play(rounds(2, 2), (2, "step", 0), (6, "step", 0), (9, "dispatch", 0))

    def test_steps_that_are_passed_over_are_noted(self) -> None:
        """The step of the first round is in the log, those of the next three aren't."""
        of, passed = rounds(9, 9), list[Act]()
        of.note_passed = passed.append
        play(of, (2, "step", 0), (17, "dispatch", 0))
        self.assertEqual(list(map(str, passed)), ["step 0 0"] * 3)
        self.assertEqual(list(map(str, of.acts_left())), ["step 0 0", "commit", "split 0"])


class Asked(unittest.TestCase):
    """Which acts must be in the log."""
    def test_what_was_asked_for_is_told(self) -> None:
        """A step that a running task wants isn't passed over, nor a commit where a later one is made."""
        of = rounds(5, 9)
        of.is_asked = lambda act: act.word == "step"
        of.need(line(1, "dispatch"))
        with self.assertRaisesRegex(WrongLine, "act 2, `step 0 0`, was asked for, and isn't printed"):
            of.need(line(3, "commit"))
        of = rounds(5, 9)
        of.need(line(2, "step"))
        with self.assertRaisesRegex(WrongLine, "act 7 commits, and so would have one before it"):
            of.need(line(7, "commit"))

    def test_what_is_elsewhere_is_refused(self) -> None:
        wrong: List[tuple[str, int, tuple[tuple[int, str, int], ...]]] = [
            ("act 9 advances the least task", 5, ((1, "dispatch", 0), (10, "step", 0))),
            ("act 9 advances the least task", 5, ((1, "dispatch", 0), (9, "step", 0))),
            ("act 2 of these rounds", 5, ((2, "commit", 0),)), ("of no round", 1, ((5, "dispatch", 0),))]
        for told, count, acts in wrong:
            with self.assertRaisesRegex(WrongLine, told):
                play(rounds(count, 2), *acts)


if __name__ == "__main__":
    unittest.main()
