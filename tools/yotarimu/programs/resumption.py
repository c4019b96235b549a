"""A run in pieces of so many commits, by the built program, and their reports joined to one."""
from __future__ import annotations

import sys
from collections.abc import Sequence
from typing import Optional

from yotarimu.common.files import write_whole
from yotarimu.common.outcome import Refusal, is_at_terminal, say
from yotarimu.common.text import count_text
from yotarimu.images.image import read_image
from yotarimu.programs import pieces
from yotarimu.programs.calls import Calls
from yotarimu.programs.program import STATUSES, Answer, end_of
from yotarimu.reports.report import read_report

NAME = "resume"


class Resumption:
    """A run in pieces, by the built program."""

    def __init__(self, calls: Calls, words: Sequence[str], every: int, folder: pieces.Folder) -> None:
        self.calls, self.words, self.every, self.folder = calls, words, every, folder

    def call(self, command: str, data: bytes, commits: int) -> Answer:
        """Calls the program on some input, with a commit limit."""
        return self.calls.call([command, *self.words, "--commits", str(commits)], data)

    def run_all(self) -> None:
        """Runs each piece that wasn't run yet, up to the end of the run."""
        number, turns = 1, 0
        while not self.is_over(number):
            if not self.folder.has_run(number):
                self.run_piece(number, turns)
            turns += len(self.folder.report(number).entries)
            show_progress(f"{count_text(turns, 'commit')} in {count_text(number, 'piece')}")
            number += 1
        show_progress("")

    def is_over(self, number: int) -> bool:
        """Whether the run ended before a piece."""
        return number > 1 and self.folder.has_run(number - 1) and not self.folder.name(pieces.IMAGE, number).exists()

    def run_piece(self, number: int, turns: int) -> None:
        """Runs a piece, and keeps it with the image that goes on."""
        image = self.folder.image(number)
        commits: Optional[int] = self.every
        status, saved = self.call("save", image, self.every)
        if status in (pieces.NESTED, pieces.TOO_MANY):
            commits = self.cut_later(number, image, turns, saved)
            status, saved = self.call("save", image, commits) if commits else self.whole(image)
        if status == pieces.LIMIT and commits:
            report = self.need("run", image, commits, {pieces.LIMIT})
            read_image(saved, "what `save` wrote")
            self.need_end("run", status, report)
            self.folder.write_piece(number, report, saved)
        else:
            self.need_status("save", status, saved, {STATUSES["normal"], STATUSES["trap"], pieces.LIMIT})
            self.need_end("save", status, saved)
            self.folder.write_piece(number, saved, None)

    def whole(self, image: bytes) -> Answer:
        """The rest of a run that can't be cut any more, up to its end."""
        return self.call("run", image, pieces.MOST_COMMITS)

    def cut_later(self, number: int, image: bytes, turns: int, told: bytes) -> Optional[int]:
        """The count of commits at which the piece can be cut; None where it can't before the run ends."""
        report = self.need("run", image, pieces.MOST_COMMITS, set(STATUSES.values()))
        name = self.folder.name(pieces.IMAGE, number)
        read = read_report(report.decode("utf-8", "replace"), name)
        commits = pieces.next_cut(image, read, self.every, name)
        why = told.decode("ascii", "replace").strip()
        rest = "nor anywhere behind, so the rest is one piece"
        if commits:
            rest = f"the next cut is after {turns + commits:,}"
        say(NAME, f"after {count_text(turns + self.every, 'commit')} the run can't be cut ({why}); {rest}.")
        return commits

    def need(self, command: str, image: bytes, commits: int, statuses: set[int]) -> bytes:
        """What the program writes to a call; refuses a status that isn't among these."""
        status, written = self.call(command, image, commits)
        return self.need_status(command, status, written, statuses)

    def need_status(self, command: str, status: int, written: bytes, statuses: set[int]) -> bytes:
        """What a call wrote; refuses a status that isn't among these."""
        if status not in statuses:
            text = written[:200].decode("utf-8", "backslashreplace").strip()
            raise Refusal(f"`{command}` ended with status {status}{f' and said `{text}`' if text else ''}.")
        return written

    def need_end(self, command: str, status: int, report: bytes) -> None:
        """Holds that a report ends as its status says, before it is kept."""
        if STATUSES.get(end_of(report)) != status:
            raise Refusal(f"`{command}` ended with status {status}, and with no such report.")

    def join(self) -> tuple[int, int]:
        """The pieces as one report, which is checked and kept."""
        read, names = list(self.folder.pieces()), self.folder.name
        for piece in read:
            if not piece.is_last:
                machine = pieces.replay(piece, names(pieces.IMAGE, piece.number))
                following = self.folder.image(piece.number + 1)
                piece.pending = pieces.names_in(machine, following, piece.number, names(pieces.IMAGE, piece.number + 1))
        report = pieces.join(read)
        turns = sum(len(piece.report.entries) for piece in read)
        fault = self.fault_of(read[0].image, report, turns) if turns <= pieces.MOST_COMMITS else None
        if fault is not None or turns > pieces.MOST_COMMITS:
            self.check_each(read)
        if fault is not None:
            raise Refusal(f"the joined report was refused: {fault}.")
        write_whole({names(pieces.REPORT): report})
        return len(read), turns

    def check_each(self, read: Sequence[pieces.Piece]) -> None:
        """Has the report of each piece checked, and refuses the first that is none of a run."""
        for piece in read:
            fault = self.fault_of(piece.image, piece.written, len(piece.report.entries))
            if fault is not None:
                name = self.folder.name(pieces.REPORT, piece.number)
                raise pieces.DamagedPiece(piece.number, f"{name}: this was refused: {fault}.")

    def fault_of(self, image: bytes, report: bytes, turns: int) -> Optional[str]:
        """What `check` wrote of a report of so many turns where its status isn't 0, so that it refuses the report or
        failed; that status where it wrote nothing. None where it accepts it."""
        # At the limit of a piece no further task may commit. A limit is at least 1.
        commits = turns if end_of(report) == "limit" else pieces.MOST_COMMITS
        status, told = self.call("check", image + report, max(commits, 1))
        if status == 0:
            return None
        return told.decode("ascii", "replace").strip() or f"`check` ended with status {status}"


def show_progress(text: str) -> None:
    """One line on the terminal, which is written again and again, and cleared at the end."""
    if is_at_terminal():
        print(f"\r\x1b[K{NAME}: {text}" if text else "\r\x1b[K", end="", file=sys.stderr, flush=True)
