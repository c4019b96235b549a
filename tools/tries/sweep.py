"""Tries of ./fractal sweep."""
from __future__ import annotations

import os
import pathlib

from tries.files import files_of, picture_in, rows_in
from tries.place import Answer, Place, expect, one_sentence_each

# A program that answers `run`, with the status that its number of tasks leads to.
LOAD = """cat >/dev/null
case $1 in
    *) echo 'fault usage'; exit 1 ;;
esac
"""


def grids_are_swept(place: Place) -> None:
    """each choice of options is a row, a run that fails is one too, and the plot is drawn"""
    place.needs_program()
    image = files_of(place, "fork_join")[0]
    answer = place.call("fractal sweep", image, "--commits", "3,1000", "--budget=5,100..300..100", "--jobs", "4",
                        "--check", "--plot", "commits,budget,a plot.svg")
    rows = rows_in(answer.output)
    expect((answer.status, answer.errors, len(rows)) == (0, "", 8), "eight rows", answer)
    expect([row["status"] for row in rows] == ["3", "4", "4", "4", "3", "0", "0", "0"], "the statuses", rows)
    expect([row["commits"] for row in rows] == ["0", "3", "3", "3", "0", "6", "6", "6"], "the commits", rows)
    expect(all(row["check"] == "0" for row in rows), "accepted reports", rows)
    expect(rows[5]["window"] == rows[6]["window"] != rows[0]["window"], "digests of the window", rows)
    expect("--budget" in " ".join(picture_in((place.root / "a plot.svg").read_bytes())), "the option's name")


def broken_programs_are_rows(place: Place) -> None:
    """a program that can't be started, or is killed, is a row, and the sweep goes on; where each row failed it fails"""
    image = files_of(place, "hello")[0]
    for text, status in (("exit 5\n", "5"), ("kill -9 $$\n", "137"), (None, "126")):
        place.stub(place.program, text or "")
        if text is None:
            place.program.chmod(0o644)
        answer = place.call("fractal sweep", image, "--budget", "1,2")
        answer.sentence("each of 2 runs failed", f"status {status}")
        expect([row["status"] for row in rows_in(answer.output)] == [status] * 2, f"the status {status}", answer)
    place.stub(place.program, 'cat >/dev/null; case $* in *budget=2*) exit 5 ;; esac\n'
                              "printf '\\n1 0.0 1 0\\noutput -\\nend normal\\n'\n")
    answer = place.call("fractal sweep", image, "--budget", "1,2")
    statuses = [row["status"] for row in rows_in(answer.output)]
    expect(answer.status == 0 and statuses == ["0", "5"], "one that failed", answer)


def files_are_written_through(place: Place) -> None:
    """a file that is named for output stays a link, and a device stays one; where it can't be written no row is lost"""
    place.needs_program()
    image = files_of(place, "hello")[0]
    (place.root / "link.csv").symlink_to("target.csv")
    words = ["fractal sweep", image, "--budget", "1,2"]
    for _ in range(2):
        expect(place.call(*words, "--output", "link.csv") == Answer(0, b"", ""), "rows through a link")
        expect((place.root / "link.csv").is_symlink(), "a link", list(place.root.iterdir()))
        expect(len(rows_in((place.root / "target.csv").read_bytes())) == 2, "two rows behind the link")
    for device in ("/dev/null", "/dev/stdout"):
        answer = place.call(*words, "--output", device)
        expect((answer.status, answer.errors) == (0, ""), f"rows to {device}", answer)
        expect(pathlib.Path("/dev/null").is_char_device(), "the device")
        expect(len(rows_in(answer.output)) == (2 if device == "/dev/stdout" else 0), "rows", answer)
    answer = place.by_shell('"$0" sweep "$1" --budget 1,2 --output /dev/stdout >own.csv', image)
    expect(len(rows_in((place.root / "own.csv").read_bytes())) == 2, "rows in the file that is standard output", answer)
    (place.root / "kept.csv").write_text("old")
    (place.root / "kept.csv").chmod(0o640)
    place.call(*words, "--output", "kept.csv")
    expect((place.root / "kept.csv").stat().st_mode & 0o777 == 0o640, "the file's own mode")
    answer = place.call(*words, "--output", "/dev/full")
    answer.sentence("no space")
    expect(len(rows_in(answer.output)) == 2, "the rows on standard output", answer)
    for words in (["fractal sweep", "nowhere"], ["fractal sweep", image, "--output", "nowhere/x"]):
        expect(place.call(*words).output == b"", "nothing before a refusal", words)


def shards_are_joined(place: Place) -> None:
    """the files of the shards are the whole sweep, joined by cat, and are plotted from the joined file"""
    place.needs_program()
    image = files_of(place, "hello")[0]
    words = ["fractal sweep", image, "--commits", "1..7"]
    whole = place.call(*words).output
    parts = [place.call(*words, "--shard", f"{place_of}/3", "--output", f"part {place_of}.csv")
             for place_of in (1, 2, 3)]
    expect(all(part == Answer(0, b"", "") for part in parts), "three files", parts)
    joined = b"".join((place.root / f"part {place_of}.csv").read_bytes() for place_of in (1, 2, 3))
    names = ("--commits", "status", "output")
    cells = [sorted(tuple(row[name] for name in names) for row in rows_in(data)) for data in (whole, joined)]
    expect(cells[0] == cells[1] and len(cells[0]) == 7, "the same rows", cells)
    (place.root / "joined.csv").write_bytes(joined)
    answer = place.call("fractal sweep", "--rows", "joined.csv", "--plot", "seconds,commits,joined.svg")
    expect(answer.status == 0, "a plot", answer)
    picture_in((place.root / "joined.svg").read_bytes())


def progress_is_shown(place: Place) -> None:
    """on a terminal one line shows how many runs are done"""
    place.needs_program()
    answer = place.on_terminal("fractal sweep", files_of(place, "trap")[0], "--commits", "1..5")
    answer.tells("1 of 5 runs, 1 with", "5 of 5 runs, 5 with")
    expect(answer.errors.count("\n") == 1, "one line", answer)


def sweeps_keep_their_own_files(place: Place) -> None:
    """what a sweep reads isn't written over, nor one file written twice, and names that aren't text are escaped"""
    report = "cat >/dev/null; printf '\\n1 0.0 1 0\\noutput -\\nend normal\\n'\n"
    program = place.stub(place.root / "program", report)
    image = place.root / os.fsdecode(b"\xff.bin")
    image.write_bytes(pathlib.Path(files_of(place, "hello")[0]).read_bytes())
    (place.root / "link").symlink_to(image)
    words = ("fractal sweep", str(image), "--sim", str(program))
    expect(place.call(*words, "--output", "rows.csv") == Answer(0, b"", ""), "rows")
    rows, before = place.root / "rows.csv", image.read_bytes()
    expect(b"\\udcff.bin" in rows.read_bytes(), "the image's name", rows.read_bytes())
    kept = rows.read_bytes()
    for more in (("--output", str(image)), ("--output", "link"), ("--plot", f"commits,tiles,{image}"),
                 ("--output", str(program)), ("--output", "new", "--plot", "commits,tiles,./new")):
        place.call(*words, *more).sentence("two outputs" if "new" in more else "isn't written too")
    place.call("fractal sweep", "--rows", "rows.csv", "--plot", "commits,tiles,rows.csv").sentence("isn't written too")
    place.call(*words, "--output", "").sentence("this is a folder")
    expect((image.read_bytes(), rows.read_bytes()) == (before, kept), "the files as they were")
    expect(not (place.root / "new").exists(), "no file")


def odd_rows_are_plotted_or_refused(place: Place) -> None:
    """rows with numbers that no picture has ticks for are refused, and a name is shown whatever characters it has"""
    head, picture = "input,--tiles,commits\n", place.root / "x.svg"
    words = ("fractal sweep", "--rows", "rows.csv", "--plot", f"commits,tiles,{picture}")
    for rows in ("a,1,1e308\na,2,-1e308\n", "a,1,0\na,2,5e-324\n", "a,1,nan\n"):
        (place.root / "rows.csv").write_text(head + rows)
        place.call(*words).sentence("no number that can be plotted")
        expect(not picture.exists(), "no picture")
    (place.root / "rows.csv").write_text(head + "a\x01,1,2\nb<,2,3\n")
    expect(place.call(*words).status == 0, "a picture")
    picture_in(picture.read_bytes())


def sweep_refuses_bad_words(place: Place) -> None:
    """invalid arguments, values outside an option's range and missing files are refused in a sentence"""
    place.nothing_answers()
    image, report = files_of(place, "hello")
    sweep = "fractal sweep"
    one_sentence_each([
        (place.call(sweep, image), ["isn't built", "./fractal prove"]),
        (place.call(sweep), ["IMAGE"]),
        (place.call(sweep, image, report), ["one image"]),
        (place.call(sweep, image, "--towers", "1"), ["--towers"]),
        (place.call(sweep, image, "--budget"), ["needs a value"]),
        (place.call(sweep, image, "--budget", "0"), ["1 to 65536", "`0`"]),
        (place.call(sweep, image, "--budget", "1,,2"), ["``"]),
        (place.call(sweep, image, "--budget", "5..1"), ["1 to 65536"]),
        (place.call(sweep, image, "--budget", "1..9..0"), ["1..9..0"]),
        (place.call(sweep, image, "--budget", "1", "--budget", "2"), ["twice"]),
        (place.call(sweep, image, "--jobs", "0"), ["1 to 1024"]),
        (place.call(sweep, image, "--shard", "3/2"), ["K/N"]),
        (place.call(sweep, image, "--shard", "2"), ["K/N"]),
        (place.call(sweep, image, "--plot", "output,budget,x"), ["COLUMN,OPTION,FILE"]),
        (place.call(sweep, image, "--sim", "nowhere"), ["nowhere", "isn't built"]),
        (place.call(sweep, "--rows", "nowhere"), ["nowhere", "no such file"]),
        (place.call(sweep, "--rows", report, "--plot", "seconds,budget,x"), ["report"]),
    ])
    place.needs_program()
    one_sentence_each([
        (place.call(sweep, "nowhere"), ["nowhere", "no such file"]),
        (place.call(sweep, image, "--commits", "1..1000", "--budget", "1..1000"), ["1,000,000 runs"]),
        (place.call(sweep, image, "--commits", "1..100000", "--budget", "1..65536"), ["6,553,600,000 runs"]),
        (place.call(sweep, image, "--output", "nowhere/x.csv"), ["nowhere/x.csv", "no such folder"]),
        (place.call(sweep, image, "--plot", f"seconds,budget,{place.clone}"), ["this is a folder"]),
    ])
    place.is_clean()


def interrupted_sweeps_leave_nothing(place: Place) -> None:
    """a sweep that is interrupted says so, ends its runs, leaves no file, and prints what was finished"""
    mark = place.root / "started"
    image = files_of(place, "hello")[0]
    words = ["fractal sweep", image, "--jobs", "2", "--budget", "1..9", "--output", "x.csv"]
    report = ("cat >/dev/null; case $* in *budget=1\\ *) "
              "printf '\\n1 0.0 1 0\\noutput -\\nend normal\\n'; exit ;; esac\n")
    for start, finished in (("", 0), (report, 1)):
        mark.unlink(missing_ok=True)
        place.stub(place.program, f"{start}touch '{mark}'; exec sleep 100\n")
        answer = place.interrupt(*words, ready=mark.exists)
        answer.sentence("interrupted", status=130)
        expect(not (place.root / "x.csv").exists(), "no file")
        expect(len(rows_in(answer.output)) == finished, "the rows that were finished", answer)
    place.is_clean()


TRIES = (
    grids_are_swept, broken_programs_are_rows, files_are_written_through, shards_are_joined,
    progress_is_shown, sweeps_keep_their_own_files, odd_rows_are_plotted_or_refused, sweep_refuses_bad_words,
    interrupted_sweeps_leave_nothing,
)
