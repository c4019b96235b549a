"""Integration tests of ./fractal test, and of what CI runs besides the proofs."""
from __future__ import annotations

import pathlib
import re
import shutil

from yotarimu.applications.catalogue import APPLICATIONS
from yotarimu.programs.examples import EXAMPLES, SCHEDULES

from tries.launcher import TRAP
from tries.place import Place, expect, need_command

# A phrase that .ci/phrases.py bans; it is a constant so that the lint takes it for a name.
BANNED = "told"


def accepted_examples_are_named(place: Place) -> None:
    """each accepted example and schedule is named and all is counted, in an unwritable clone, with a folder beside"""
    place.needs_program()
    (place.clone / "examples" / "mine").mkdir()
    wanted = [f"{name}: accepted" for name in EXAMPLES + SCHEDULES]
    answer = place.call("fractal test", cwd="/")
    *lines, answers, count = answer.output.decode().splitlines()
    expect((answer.status, answer.errors, lines) == (0, "", wanted), "all examples", answer)
    found = re.fullmatch(r"answers: ([0-9]+) accepted", answers)
    listed = int(found[1]) if found else 0
    expect(listed >= 100, "a table of 100 answers", answers)
    total = listed + 2 * len(wanted)
    expect(count.startswith(f"{total} of {total} answers are as stored, in ") and "Nothing was proved" in count,
           "a count, and what wasn't proved", count)
    place.make_unwritable()
    answer = place.call("fractal test", "hello", "schedules/stall")
    expect(answer.status == 0 and answer.output.count(b": accepted\n") == 2, "two where nothing can be written", answer)


def small_applications_are_played(place: Place) -> None:
    """small applications are played where they can be: each fault is reported by its name, else what is missing"""
    place.stub(place.program, "cat >/dev/null\n")
    place.stub(place.second_program, "cat >/dev/null; exit 5\n")
    answer = place.call("fractal test", "applications")
    head, *lines = answer.output.decode().splitlines()
    expect((answer.status, head) == (1, f"applications: 0 of {len(APPLICATIONS)} right"), "none is right", answer)
    expect([line.split(":")[0].strip() for line in lines] == [*APPLICATIONS], "each by its name", lines)
    expect(all("ended with status 5" in line for line in lines), "what is wrong with each", lines)
    place.needs_program()
    place.needs_second_program()
    answer = place.call("fractal test", "hello", "applications")
    wanted = f"applications: {len(APPLICATIONS)} accepted\nhello: accepted\n2 of 2 answers are as stored"
    expect(answer.status == 0 and answer.output.decode().startswith(wanted), "all are right", answer)
    place.is_clean()
    place.without("riscv64-unknown-elf-gcc")
    place.call("fractal test", "applications").sentence("riscv64-unknown-elf-gcc isn't in the path")


def translations_play_all(place: Place) -> None:
    """where the program isn't built, Node plays all that is named, and what is left out is said"""
    need_command("node")
    answer = place.call("fractal test", "hello", "schedules/stall", "answers")
    expect(answer.status == 0 and b" answers are as stored" in answer.output, "all", answer)
    expect(b"devices that fail were left out" in answer.output, "what was left out", answer)
    place.nothing_answers()
    place.call("fractal test", "hello").sentence("rt", "isn't in the path")


def other_reports_fail(place: Place) -> None:
    """an example with another report fails the check, which names it, and the others are checked all the same"""
    place.needs_program()
    report = place.clone / "examples" / "hello" / "report"
    report.write_bytes(report.read_bytes().replace(b"output 48", b"output 49"))
    answer = place.call("fractal test")
    expect(answer.status == 1 and b"hello: its run writes something else" in answer.output, "a failure", answer)
    expect(b"trap: accepted" in answer.output, "the others", answer)
    said = place.clone / "examples" / "schedules" / "stall" / "said"
    said.write_bytes(said.read_bytes().replace(b"stall 0", b"stale 0"))
    answer = place.call("fractal test", "schedules/stall")
    expect(b"its steps writes something else than what is stored, from line 5 on" in answer.output, "a failure", answer)
    report.unlink()
    place.call("fractal test", "hello").sentence("report", "no such file")
    place.call("fractal test", "mine").sentence("none of the project's examples")


def worked_lines_are_held(place: Place) -> None:
    """the first line of an event log that differs from the one worked out by hand is named by its number"""
    worked = (place.clone / "examples" / "schedules" / "by_hand" / "worked").read_bytes()
    place.stub(place.program, "cat >/dev/null\n")
    place.stub(place.second_program, f"cat >/dev/null; cat '{place.root}/log'\n")
    named = "  schedules/by_hand, as an event log: line {} isn't the one worked out by hand: fractal_watch "
    for text, wanted in ((worked, None), (worked.replace(b"[0,9]", b"[0,8]"), named.format(9) + 'prints {"at":6,'),
                         (worked[:worked.rindex(b"{")], named.format(21) + "prints nothing")):
        (place.root / "log").write_bytes(text)
        answer = place.call("fractal test", "answers")
        told = [line for line in answer.output.decode().splitlines() if "/by_hand, as" in line]
        expect(answer.status == 1 and len(told) == (wanted is not None), f"{wanted or 'no fault of by_hand'}", answer)
        expect(wanted is None or told[0].startswith(wanted), f"{wanted}", told)


def lying_programs_fail(place: Place) -> None:
    """a program that writes the right report with another status fails the check"""
    (place.root / "report").write_bytes(TRAP)
    place.stub(place.program, f"cat >/dev/null; cat '{place.root}/report'; exit 0\n")
    answer = place.call("fractal test", "trap")
    expect(answer.status == 1 and b"trap: its run has the status 0, and not 3\n" in answer.output, "a failure", answer)


def each_fails_the_gate(place: Place) -> None:
    """CI runs plain `rt ci`, then the lint, then the examples if the program was built; each may fail it"""
    place.stub_tool("rt", f'echo "$@" >>"{place.root}/words"; exit $(cat "{place.root}/proved")\n')
    # No unit test reads what was said to a schedule, so the examples alone fail where it is another one's.
    schedules, stored = place.clone / "examples" / "schedules", pathlib.Path("conflict", "said")
    said = {False: (schedules / stored).read_bytes(), True: (schedules / "kept_trap" / "said").read_bytes()}
    source = place.clone / "crates" / "rv_core" / "src" / "lib.rt"
    text = source.read_text()
    for proved, is_built, is_spoiled, is_wide, wanted in (
            (0, False, True, False, 0), (0, True, False, False, 0), (0, True, True, False, 1),
            (2, True, False, False, 2), (2, True, True, True, 2), (2, False, False, False, 2),
            (0, True, False, True, 1), (0, False, False, True, 1)):
        (place.root / "proved").write_text(str(proved))
        shutil.rmtree(place.program.parent, ignore_errors=True)
        if is_built:
            place.needs_program()
        (schedules / stored).write_bytes(said[is_spoiled])
        source.write_text(f"{text}{'// wide' * 20 * is_wide}\n")
        answer = place.call(".ci/run", cwd="/")
        expect(answer.status == wanted, f"status {wanted}", answer)
        expect((b"columns" in answer.output) == is_wide, "a line that is reported where it is too wide", answer)
        expect(("stored answers: ./fractal prove" in answer.errors) != is_built, "what was left out", answer)
    expect(set((place.root / "words").read_text().split("\n")) == {"ci", ""}, "plain rt ci")


def wide_lines_only_fall(place: Place) -> None:
    """one more wide line in a proof or in a script fails the lint, and the same one in place of another doesn't"""
    proofs = sorted((place.clone / "crates").rglob("proofs/**/*.antt"))
    wide = next(path for path in proofs if any(len(line) > 120 for line in path.read_text().splitlines()))
    for path, comment in ((wide, "--"), (place.clone / "tools" / "yotarimu" / "pictures" / "plot.py", "#")):
        text = path.read_text()
        path.write_text(f"{text}{comment} {'wide ' * 30}\n")
        answer = place.call(".ci/lint")
        expect(answer.status == 1 and b"break new ones" in answer.output, "a failure for one more wide line", answer)
        place_told = f"plot.py:{len(text.splitlines()) + 1}" if comment == "#" else ""
        expect(place_told in answer.output.decode(), f"where it is, {place_told}", answer)
        path.write_text(text)
    lines = wide.read_text().splitlines()
    lines[next(at for at, line in enumerate(lines) if len(line) > 120)] = "wide " * 30
    wide.write_text("\n".join(lines) + "\n")
    answer = place.call(".ci/lint")
    expect(answer.status == 0 and b"break" not in answer.output, "no failure where their number stays", answer)


def definitions_that_stand_twice_are_told(place: Place) -> None:
    """a definition that is another one but for its names fails the lint, and one with another word doesn't"""
    path = place.clone / "crates" / "program_call" / "specs" / "Call.antt"
    text = path.read_text()
    again = """
-- said again
pub record SaidAgain (asked : Call) : Type 0 where
  pub first : Rose asked.input.source_before.faults asked.input.source_after.faults → ⊥
  pub second : Rose asked.sink_before.faults asked.sink_after.faults → {}
"""
    for end, is_same in (("⊥", True), ("Call", False)):
        path.write_text(text + again.format(end))
        answer = place.call(".ci/lint")
        told = b"IsFaultless and crates/program_call/specs/Call.antt: SaidAgain are the same but for names"
        expect((answer.status == 1, told in answer.output) == (is_same, is_same), f"{end} at the end", answer)


def generated_pages_are_held(place: Place) -> None:
    """the page of what must be read counts lines as by hand, and an old page or picture fails the lint until it is
    made anew"""
    page, program = place.clone / "docs" / "proof" / "READING.md", "fractal_sim/specs/Program.antt"
    row = f"| [{program}](../../crates/{program}) | {{0}} | 0 | {{0}} |"
    # Both definitions there have a comment of one line; the first has nine lines more, the second three.
    expect(row.format(14) in page.read_text() and "progress_cell" not in page.read_text(), "rows as by hand")
    path = place.clone / "crates" / program
    listing = place.clone / "examples" / "schedules" / "conflict" / "listing"
    path.write_text(path.read_text().replace("pub record", "-- one more line\npub record", 1))
    listing.write_text(listing.read_text().replace("<writer>:", "<last_writer>:", 1))
    answer = place.call(".ci/lint")
    for old in (b"docs/proof/READING.md", b"docs/machine/conflict.svg"):
        expect(answer.status == 1 and old + b": it isn't what" in answer.output, "an old file", answer)
    expect(place.call(".ci/generate").status == 0 and row.format(15) in page.read_text(), "a new page")
    expect(place.call(".ci/lint").status == 0, "a lint that passes")
    place.call(".ci/generate", "crates").sentence("`crates`")
    place.call(".ci/words", "nothing").sentence("no such file")


def limits_are_held(place: Place) -> None:
    """a limit that differs in a document, or is missing there, fails the lint"""
    path = place.clone / "docs" / "guest" / "TASKS.md"
    text = path.read_text()
    for row, told in (("| data bytes | 16,777,215 |", "TASKS.md: the bytes of data are 16,777,215, and 16,777,216 in "),
                      ("", "isn't there any more, where .ci/limits.py looks for the bytes of data")):
        path.write_text(text.replace("| data bytes | 16,777,216 |", row))
        answer = place.call(".ci/lint")
        expect(answer.status == 1 and told in answer.output.decode(), f"`{told}`", answer)


def banned_phrases_and_words_are_counted(place: Place) -> None:
    """more banned phrases or more words than may be fail the lint, which names the page, and .ci/words lists them"""
    path = place.clone / "docs" / "GLOSSARY.md"
    text = path.read_text()
    line = text.count("\n") + 2
    said = f"What it {BANNED} is here."
    for more, part in ((f"{said}\n" * 5_000, "docs/GLOSSARY.md 5000"), ("word " * 200_000, "words: ")):
        path.write_text(f"{text}\n{more}\n")
        answer = place.call(".ci/lint")
        expect(answer.status == 1 and part in answer.output.decode(), f"`{part}`", answer)
    path.write_text(f"{text}\n{said}\n")
    answer = place.call(".ci/words", str(path))
    expect(f"docs/GLOSSARY.md:{line}: `{BANNED}`: " in answer.output.decode(), "a phrase with its line", answer)
    path.write_text(text)
    answer = place.call(".ci/words")
    expect(answer.status == 0 and " words in all" in answer.output.decode(), "the sum", answer)


def dead_links_are_found(place: Place) -> None:
    """a link to a file or a heading that doesn't exist fails the lint, and one to a heading that exists doesn't"""
    path = place.clone / "docs" / "GLOSSARY.md"
    text = path.read_text()
    for link, fault in (("../README.md#licence", None), ("GLOSSARIES.md", "leads to no file"),
                        ("../README.md#licences", "leads to no heading")):
        path.write_text(f"{text}\n[there]({link})\n")
        answer = place.call(".ci/lint")
        found = f"`{link}` {fault}" in answer.output.decode()
        expect((answer.status, found) == ((1, True) if fault else (0, False)), link, answer)


def named_files_are_held(place: Place) -> None:
    """a file that the page on the architecture names, and that does not exist, fails the lint"""
    page = place.clone / "docs" / "maintain" / "ARCHITECTURE.md"
    text = page.read_text()
    line = text.count("\n") + 1
    for names, gone in (("`pictures/histogram.py`, `specs/Lines`, `watch_text/specs/Lines`", None),
                        ("`pictures/histograms.py`", "pictures/histograms.py"), ("`specs/Rows`", "specs/Rows")):
        page.write_text(f"{text}{names}\n")
        answer = place.call(".ci/lint")
        told = f"ARCHITECTURE.md:{line}: `{gone}` isn't there"
        expect((answer.status, told in answer.output.decode()) == ((1, True) if gone else (0, False)), names, answer)


def odd_sources_are_told(place: Place) -> None:
    """the lint takes no arguments, and reports a source that isn't text, and an edit or a version that isn't whole"""
    expect(b"WIDE_LINES" in place.call(".ci/lint", "--help").output, "a help page")
    place.call(".ci/lint", "crates").sentence("`crates`")
    edit = next(iter(sorted((place.clone / "crates").glob("*/must-fail/*.edit"))))
    edit.write_text("old: x\nnew: y\n")
    (place.clone / "CHANGELOG.md").write_text("# Changes\n")
    package = place.clone / "tools" / "pyproject.toml"
    package.write_text(package.read_text().replace('version = "', 'version = "0.'))
    answer = place.call(".ci/lint")
    expect((answer.status, answer.errors) == (1, ""), "a failure", answer)
    for part in (f"{edit.name}: `old` stands before", f"{edit.name}: `new` stands before", "newest version is None",
                 "pyproject.toml: its version is 0."):
        expect(part in answer.output.decode(), f"`{part}`", answer)
    edit.write_bytes(b"\xff\n")
    place.call(".ci/lint").sentence(edit.name, "isn't text in UTF-8")


def lists_are_held(place: Place) -> None:
    """an act, an option, a command, a mode, a filter or a status that one list has and another lacks fails the lint"""
    for path, old, new, told in (
            ("docs/guest/FORMATS.md", "| `coalesce t` |", "| `coalesced t` |", "has no `coalesce`, which is an act"),
            ("docs/machine/SETTINGS.md", "| `--line` |", "| `--lines` |", "has no `line`, which is an option"),
            ("fractal", "option|phase|", "option|phases|", "has `phase`, which isn't an option"),
            ("fractal", "command|trace|", "command|traces|", "SHOWN has `trace`, which isn't a command"),
            ("fractal", "mode|least|", "mode|last|", "MODES has `least`, which isn't a mode"),
            ("fractal", "status|13|", "status|14|", "has `13`, which isn't a status"),
            ("fractal", "modulo,bloom,exact", "modulo,blooms,exact",
             "FILTERS has `bloom`, which isn't a kind of filter"),
            ("tools/yotarimu/lines/filters.json", "13198a2e03707344", "13198a2e03707345",
             "DIGITS has no `1: 13198a2e03707345`"),
            ("tools/yotarimu/web/page/live.js", "coalesce: 1", "coalesce: 2", "actWords has no `coalesce: 1`"),
            ("tools/yotarimu/lines/fields.py", '"split": (("tile", NUMBER),), "advance"',
             '"parted": (("tile", NUMBER),), "advance"', "PLACES has no `split`, which is an act"),
            ("tools/yotarimu/common/sentences.json", '"coalesce": "Tile {tile} is to', '"coal": "Tile {tile} is to',
             "wishes has no `coalesce`")):
        file = place.clone / path
        text = file.read_text()
        expect(text.count(old) == 1, f"`{old}` once in {path}")
        file.write_text(text.replace(old, new))
        answer = place.call(".ci/lint")
        expect(answer.status == 1 and told in answer.output.decode(), told, answer)
        *_, last = answer.output.decode().splitlines()
        expect("slow in CI" not in last and "phrases: " not in last and "twins: " not in last, "a fault last", last)
        file.write_text(text)


def clones_that_fail_are_told(place: Place) -> None:
    """if no clone can be made, `dev tries` says so and leaves nothing"""
    shutil.rmtree(place.clone / ".git")
    place.call("fractal dev tries", "help_is").sentence("can't be cloned")
    expect(not any(place.temporary.iterdir()), "no temporary file")


TRIES = (
    accepted_examples_are_named, small_applications_are_played, translations_play_all, other_reports_fail,
    worked_lines_are_held, lying_programs_fail, each_fails_the_gate, wide_lines_only_fall,
    definitions_that_stand_twice_are_told, generated_pages_are_held, odd_sources_are_told, named_files_are_held,
    lists_are_held, limits_are_held, banned_phrases_and_words_are_counted, dead_links_are_found,
    clones_that_fail_are_told,
)
