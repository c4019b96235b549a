"""Tries of ./fractal resume."""
from __future__ import annotations

import pathlib
import re
import signal
import subprocess

from yotarimu.images.image import image_bytes
from yotarimu.images.loads import generate

from tries.place import MOST_SECONDS_OF_ENDING, Place, Word, expect, one_sentence_each, wait_for

WALK = ("walk", 7, 2000)


def example(place: Place, name: str, file: str = "image.bin") -> pathlib.Path:
    """The path of a file of an example."""
    return place.clone / "examples" / name / file


def written_walk(place: Place) -> pathlib.Path:
    """Writes a generated walk to a file."""
    image = place.root / "walk.bin"
    image.write_bytes(image_bytes(generate(*WALK)))
    return image


def pieces_join_to_one_run(place: Place) -> None:
    """an image whose run is the only one gives the report of the run in one go, whatever the pieces' length"""
    place.needs_program()
    image, report = example(place, "pipeline"), example(place, "pipeline", "report").read_bytes()
    for every in range(1, 11):
        folder = place.root / f"pieces {every}"
        answer = place.call("fractal resume", image, folder, "--every", str(every))
        expect((answer.status, answer.errors) == (0, ""), "a joined report", answer)
        expect((folder / "report").read_bytes() == report, "the report of the run in one go", every)


def uncut_runs_are_told(place: Place) -> None:
    """if a run can't be cut the fault is reported, with the next count of commits at which it can"""
    place.needs_program()
    answer = place.call("fractal resume", example(place, "nested"), place.root / "pieces", "--every", "2")
    expect(answer.status == 0, "a joined report", answer)
    answer.tells("after 2 commits the run can't be cut (fault nested 2); the next cut is after 4",
                 "after 6 commits the run can't be cut (fault nested 2); nor anywhere behind")


def interrupted_pieces_go_on(place: Place) -> None:
    """an interrupt leaves whole pieces, the same arguments go on with them, and others are refused"""
    place.needs_program()
    image, folder = written_walk(place), place.root / "pieces"
    words = ("fractal resume", image, folder, "--every", "50")
    answer = place.interrupt(*words, ready=lambda: (folder / "0004.report").exists())
    expect(answer.status == 130, "status 130", answer)
    expect(not (folder / "report").exists(), "no joined report yet")
    first = (folder / "0002.report").stat().st_mtime_ns
    for _ in range(2):
        answer = place.call(*words)
        expect(answer.output.endswith(b"4,000 commits in 80 pieces; accepted by check.\n"), "80 pieces", answer)
    expect((folder / "0002.report").stat().st_mtime_ns == first, "a piece that was done is not done again")
    place.call(*words[:-1], "51").sentence("the pieces of another run")
    place.call(*words, "--budget", "60000").sentence("the pieces of another run")


def changed_pieces_are_told(place: Place) -> None:
    """a saved image that isn't what the piece before left is refused"""
    place.needs_program()
    image, folder = example(place, "pipeline"), place.root / "pieces"
    words = ("fractal resume", image, folder, "--every", "3")
    expect(place.call(*words).status == 0, "a joined report")
    saved = bytearray((folder / "0002.image").read_bytes())
    saved[-12] ^= 1
    whole = (folder / "0002.image").read_bytes()
    (folder / "0002.image").write_bytes(saved)
    place.call(*words).sentence("its task", "which pends after the piece before")
    (folder / "0002.image").write_bytes(whole)
    last = max(folder.glob("*.report"))
    last.write_bytes(re.sub(rb"(?m)^1 0\.[0-9]+", b"1 0.99", last.read_bytes()))
    place.call(*words).sentence("has the task 0.99", "0003.report and all files of greater numbers")


def damaged_pieces_are_made_again(place: Place) -> None:
    """whatever is damaged, the sentence names the files to delete, and the same words make the run whole again"""
    place.needs_program()
    image, folder = example(place, "pipeline"), place.root / "pieces"
    words = ("fractal resume", image, folder, "--every", "3")
    expect(place.call(*words).status == 0, "a joined report")
    whole = {path.name: path.read_bytes() for path in folder.iterdir()}
    for file, changed in (
            ("0002.image", whole["0002.image"][:-12] + b"\1" + whole["0002.image"][-11:]),
            ("0003.image", whole["0003.image"][:50]), ("0003.image", b""),
            ("0002.report", whole["0002.report"][:20]), ("0002.report", b"\0" * 100), ("0001.report", b"fractal 1\n"),
            ("0001.report", whole["0001.report"].replace(b"output 15", b"output 16")),
            ("0002.report", whole["0002.report"].replace(b"2 ", b"2 9", 1)),
            ("0003.report", whole["0003.report"].replace(b"3d", b"3e"))):
        expect(changed != whole[file], "a change", file)
        (folder / file).write_bytes(changed)
        answer = place.call(*words)
        answer.sentence("all files of greater numbers, and call it again: these pieces are made again.")
        named = re.search(r"delete \S.*?([0-9]{4})\.report and", answer.errors)
        expect(named, "a file that is to be deleted", answer)
        number = int(named[1]) if named else 0
        for path in folder.glob("[0-9]*.*"):
            if int(path.stem) > number or path.name == f"{number:04}.report":
                path.unlink()
        answer = place.call(*words)
        expect((answer.status, answer.errors) == (0, ""), f"a whole run once {file} is deleted", answer)
        left = {path.name: path.read_bytes() for path in folder.iterdir()}
        expect(left == whole, "the same files", sorted(left))


def what_is_no_report_is_not_kept(place: Place) -> None:
    """without a program no folder is made, and what another program wrote isn't in the way of the next call"""
    place.nothing_answers()
    image, folder = example(place, "hello"), place.root / "pieces"
    words = ("fractal resume", image, folder, "--every", "2")
    place.call(*words).sentence("isn't built")
    place.call("fractal resume", image, "", "--every", "2").sentence("is empty")
    expect(not folder.exists(), "no folder")
    program, report = place.root / "program", example(place, "hello", "report")
    place.stub(program, "cat >/dev/null\n")
    place.call(*words, "--sim", str(program)).sentence("`save` ended with status 0, and with no such report")
    place.stub(program, f"cat >/dev/null; case $1 in check) echo check ok 1 ;; *) cat '{report}' ;; esac\n")
    answer = place.call(*words, "--sim", str(program))
    expect((answer.status, (folder / "report").read_bytes()) == (0, report.read_bytes()), "the run", answer)


def ended_calls_leave_no_program(place: Place) -> None:
    """a signal to the script alone ends the program that it called too"""
    mark, words = place.root / "started", (example(place, "hello"), place.root / "pieces", "--every", "2")
    program = place.stub(place.root / "program", f"echo $$ >'{mark}.part'; mv '{mark}.part' '{mark}'; exec sleep 100\n")
    process = subprocess.Popen([*place.command("fractal resume"), *words, "--sim", program],
                               env=place.environment, stdin=subprocess.DEVNULL, stderr=subprocess.DEVNULL)
    wait_for(mark.exists)
    process.terminate()
    expect(process.wait(MOST_SECONDS_OF_ENDING) == 128 + signal.SIGTERM, "status 143")
    wait_for(lambda: not pathlib.Path("/proc", mark.read_text().strip(), "exe").exists())


def resume_refuses_bad_words(place: Place) -> None:
    """invalid arguments, images and folders get one sentence, and no folder is made"""
    place.needs_program()
    image, folder = example(place, "hello"), place.root / "pieces"
    other = place.root / "other"
    other.mkdir()
    (other / "notes").write_text("mine")
    refusals: list[tuple[tuple[Word, ...], tuple[str, ...]]] = [
        ((image, folder), ("--every N",)),
        ((image, folder, "--every", "0"), ("1 to 1000000", "`0`")),
        ((image, folder, "--every", "2", "--workers", "2"), ("--workers takes 0 alone",)),
        ((image, folder, "--every", "2", "--commits", "2"), ("--commits has no place here",)),
        ((image, folder, "--every", "2", "--tiles", "99"), ("--tiles takes 1 to 16", "`99`")),
        ((image, folder, "--every", "2", "--tyles", "9"), ("unknown option --tyles",)),
        ((image, "--every", "2"), ("an image and a folder",)),
        ((place.root / "none", folder, "--every", "2"), ("no such file",)),
        ((example(place, "hello", "report"), folder, "--every", "2"), ("this isn't an image",)),
        ((image, other, "--every", "2"), ("holds other files",)),
        ((image, other / "notes", "--every", "2"), ("isn't a folder",)),
    ]
    one_sentence_each([(place.call("fractal resume", *words), parts) for words, parts in refusals])
    expect(not folder.exists(), "no folder of pieces")


TRIES = (
    pieces_join_to_one_run, uncut_runs_are_told, interrupted_pieces_go_on, changed_pieces_are_told,
    damaged_pieces_are_made_again, what_is_no_report_is_not_kept, ended_calls_leave_no_program,
    resume_refuses_bad_words,
)
