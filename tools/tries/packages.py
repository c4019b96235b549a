"""Tries of ./fractal package, what its archive installs, completions, the manual page, and the exercises."""
from __future__ import annotations

import hashlib
import pathlib
import shutil
import subprocess
import tarfile

from yotarimu.programs.program import PROGRAM, SECOND_PROGRAM
from yotarimu.programs.table import Table

from tries.launcher import HELLO, image_of
from tries.place import Answer, Place, expect, need_built, one_sentence_each

EXERCISES = ("journal", "abort", "stall", "false_conflict", "order", "domains", "why")
# Of an exercise of one's own, the one that wants a task aborted: what is wanted, and what is told of its answer.
OWN = (("taken 1..\ncommits 3\nend normal\n", "right: all 3 conditions hold"),
       ("reply ok 1..\nacts ..20\ndepth 1\noutput\n", "right: all 4 conditions hold"),
       ("end normal\ntaken 2\n", "wrong: line 3 requires `taken 2`, and here it is 1"),
       ("end trap\n", "wrong: line 2 requires `end trap`, and here it is normal"))
# A file `wanted` that is none, and what is told of it.
NOT_WANTED = (("taken 1\n", "no line `answer`"), ("answer sauce\n", "wanted:1: `answer` stands once"),
              ("answer script\ndance 1\n", "wanted:2: `dance` isn't a condition"),
              ("answer script\ntaken one\n", "wanted:2: `taken one` isn't whole"),
              ("answer script\nreply yes 1\n", "wanted:2: `reply yes 1` isn't whole"),
              ("answer script\nacts 5..1\n", "wanted:2: `acts 5..1` isn't whole"),
              ("answer script\n", "wanted: no line says what has to hold of a script"))
# An rt that builds a program, by the folder that it is called in, by copying.
STUB_BUILD = """cat >/dev/null; mkdir -p out; cp '{}'/"${{PWD##*/}}"/out/"${{PWD##*/}}" out/\n"""


def build(place: Place) -> None:
    """Builds both programs in the clone, with a toolchain that copies existing ones."""
    need_built(PROGRAM, SECOND_PROGRAM)
    place.stub_tool("rt", STUB_BUILD.format(PROGRAM.parents[2]))
    expect(place.call("fractal", "prove").status == 0, "a build")


def archive_of(place: Place) -> pathlib.Path:
    """The archive that `./fractal package` makes."""
    folder = place.root / "given out"
    folder.mkdir(exist_ok=True)
    answer = place.call("fractal", "package", str(folder))
    expect((answer.status, answer.errors) == (0, ""), "an archive", answer)
    return next(folder.glob("*.tar.gz"))


def packages_run_elsewhere(place: Place) -> None:
    """the archive has a version, a commit and checksums, is the same again, and runs without clone and toolchain"""
    build(place)
    archive = archive_of(place)
    data = archive.read_bytes()
    expect(archive_of(place).read_bytes() == data, "the same bytes")
    done = subprocess.run(["sha256sum", "-c", f"{archive.name}.sha256"], cwd=archive.parent, capture_output=True)
    expect(done.returncode == 0, "the checksum", done)
    version = place.call("fractal", "--version").output
    place.is_clean()
    shutil.rmtree(place.clone)
    subprocess.run(["tar", "-xzf", archive, "-C", place.root], check=True)
    place.clone, = place.root.glob("fractal-*")
    place.without("rt", "git")
    told = place.call("fractal", "--version").output
    expect(told == version and told.count(b": the proved program, digest ") == 2, "the programs and the commit", told)
    expect(place.call("fractal", "run", stdin=image_of(place, "hello")) == Answer(0, HELLO, ""), "a report")
    answer = place.call("fractal", "test")
    expect(answer.status == 0 and b"PACKAGE names the commit" in answer.output, "all examples", answer)
    sums = (place.clone / "PACKAGE").read_text().partition("\n")[2]
    both = subprocess.run(["sha256sum", "-c"], input=sums, text=True, cwd=place.clone, capture_output=True)
    expect(both.returncode == 0 and both.stdout.count(": OK") == 2, "the checksums of both programs", both)
    answer = place.call("fractal", "watch", "least", stdin=image_of(place, "hello"))
    expect(answer.output.startswith(b'{"watch":1,') and answer.errors == "", "fractal_watch's lines", answer)
    expect((place.clone / "fractal.html").is_file(), "the machine in a page")
    place.call("fractal", "build").sentence("which FOLDER of sources is to be built?", "programs are there already")
    for word in ("prove", "package"):
        expect(place.call("fractal", word).status == 69, f"that {word} wants a clone")


def archives_have_the_same_modes(place: Place) -> None:
    """whatever the umask, an archive has the same bytes, and what is installed can be read by all and written by one"""
    build(place)
    folder, prefix = place.root / "given out", place.root / "prefix"
    folder.mkdir()
    seen = set()
    for umask in ("077", "002"):
        answer = place.by_shell('umask "$1" && exec "$0" package "$2"', umask, str(folder))
        expect(answer.status == 0, "an archive", answer)
        archive, = folder.glob("*.tar.gz")
        seen.add(archive.read_bytes())
        with tarfile.open(archive) as members:
            modes = {member.mode for member in members if member.isfile()}
        expect(modes == {0o644, 0o755}, "two modes of files", modes)
    expect(len(seen) == 1, "the same bytes")
    place.call("/bin/sh", "-c", 'umask 077 && tar -xzf "$0" -C "$1"', str(archive), str(place.root))
    unpacked, = place.root.glob("fractal-*")
    expect("As noted by the builder" in (unpacked / "PACKAGE").read_text(), "what a note shows")
    answer = place.call("/bin/sh", "-c", 'umask 077 && exec "$0" "$1"', str(unpacked / "install"), str(prefix))
    expect(answer.status == 0, "an installation", answer)
    for path in (prefix / "lib").rglob("*"):
        expect(path.stat().st_mode & 0o077 in (0o044, 0o055), "what all can read", path)


def programs_are_checked_again(place: Place) -> None:
    """a program that doesn't answer as is stored isn't packed, whatever the note beside it says"""
    build(place)
    note = place.program.with_name(f"{place.program.name}.commit")
    place.stub(place.program, "exit 0\n")
    commit = note.read_text().splitlines()[0]
    digest = hashlib.sha256(place.program.read_bytes()).hexdigest()
    note.write_text(f"{commit}\n{digest}  {place.program.name}\n")
    place.call("fractal", "package").sentence("don't answer as is stored", status=70)


def packages_are_installed(place: Place) -> None:
    """`./install PREFIX` makes a command, completions and a manual page; it replaces its own, and nothing else"""
    build(place)
    archive = archive_of(place)
    subprocess.run(["tar", "-xzf", archive, "-C", place.root], check=True)
    unpacked, = place.root.glob("fractal-*")
    prefix = place.root / "a prefix"
    for _ in range(2):
        answer = place.call(str(unpacked / "install"), str(prefix))
        expect((answer.status, answer.errors) == (0, ""), "an installation", answer)
    command = str(prefix / "bin" / "fractal")
    expect(place.call(command, "run", stdin=image_of(place, "hello")) == Answer(0, HELLO, ""), "a report")
    for file in ("bash-completion/completions/fractal", "zsh/site-functions/_fractal", "man/man1/fractal.1"):
        expect("fractal" in (prefix / "share" / file).read_text(), f"{file}")
    expect(sorted(path.name for path in (prefix / "lib").iterdir()) == ["fractal"], "nothing else")
    others_files_stay(place, str(unpacked / "install"))
    (prefix / "lib" / "fractal" / "PACKAGE").unlink()
    one_sentence_each([
        (place.call(str(unpacked / "install"), str(prefix)), ["isn't of an earlier archive"]),
        (place.call(str(unpacked / "install"), "/dev/null/x"), ["/dev/null/x", "can't be written"]),
        (place.call(str(unpacked / "install"), "--fast"), ["`--fast`"]),
        (place.call(str(unpacked / "install"), "one", "two"), ["one PREFIX"]),
        (place.call(".ci/install"), ["no archive that was unpacked"]),
        (place.call(str(unpacked / "install"), ""), ["PREFIX is empty"]),
        (place.call(str(unpacked / "install"), str(unpacked)), ["within the archive"]),
    ])


def others_files_stay(place: Place, install: str) -> None:
    """Holds a file of another origin, or a folder, in the place of a link to be left as it is."""
    for number, file in enumerate(("bin/fractal", "share/man/man1/fractal.1", "share/zsh/site-functions/_fractal")):
        path = place.root / f"prefix {number}" / file
        path.parent.mkdir(parents=True)
        path.write_text("mine")
        place.call(install, str(place.root / f"prefix {number}")).sentence(path.name, "so it stays")
        expect(path.read_text() == "mine" and not path.is_symlink(), "the file", path)
        path.unlink()
        path.mkdir()
        place.call(install, str(place.root / f"prefix {number}")).sentence(path.name, "so it stays")
        expect(not any(path.iterdir()), "an empty folder", path)
        expect(not any((place.root / f"prefix {number}" / "lib").iterdir()), "nothing else")


def packages_are_of_one_commit(place: Place) -> None:
    """only programs that were built from exactly this commit are taken; else it says so, and leaves nothing"""
    place.call("fractal", "package").sentence("fractal_sim isn't built", status=70)
    place.needs_program()
    place.call("fractal", "package").sentence("fractal_watch isn't built", status=70)
    place.needs_second_program()
    place.call("fractal", "package").sentence("nothing says which commit", status=70)
    build(place)
    (place.clone / "README.md").write_text("")
    place.call("fractal", "package").sentence("differs from its commit", "README.md", "or take it away", status=70)
    place.call("fractal", "prove")
    git = ["git", "-C", str(place.clone), "-c", "user.name=a", "-c", "user.email=a@b.c"]
    subprocess.run([*git, "checkout", "-q", "README.md"], check=True)
    # The folder in which the documents build a program of one's own isn't a change.
    (place.clone / "mine").mkdir()
    (place.clone / "mine" / "task.s").write_text("")
    place.call("fractal", "package").sentence("nothing says which commit", status=70)
    place.call("fractal", "prove")
    subprocess.run([*git, "commit", "-q", "--allow-empty", "-m", "more"], check=True)
    place.call("fractal", "package").sentence("was built from the commit", status=70)
    place.call("fractal", "prove")
    for program in (place.program, place.second_program):
        with open(program, "ab") as file:
            file.write(b"more")
        place.call("fractal", "package").sentence(f"{program.name} isn't the one that was built", status=70)
        place.call("fractal", "prove")
    one_sentence_each([
        (place.call("fractal", "package", "--fast"), ["`--fast`"]),
        (place.call("fractal", "package", "one", "two"), ["one FOLDER"]),
    ])
    place.call("fractal", "package", "nowhere").sentence("nowhere", "no such folder", status=69)
    place.stub_tool("gzip", "exit 1\n")
    place.call("fractal", "package").sentence("can't be written", status=69)
    mark = place.root / "started"
    place.stub_tool("gzip", f"touch '{mark}'; exec sleep 100\n")
    place.interrupt("fractal", "package", ready=mark.exists).sentence("interrupted", status=130)
    expect(not list(place.root.glob("*fractal-*")) and not list(place.root.glob(".fractal*")), "no archive")
    place.is_clean()


def shells_are_helped(place: Place) -> None:
    """completions and the manual page have each command, option and status, and their shells and groff read them"""
    table = Table()
    texts = {}
    for kind in ("bash", "zsh", "fish", "man"):
        answer = place.call("fractal shell", kind)
        expect((answer.status, answer.errors) == (0, ""), f"a text for {kind}", answer)
        texts[kind] = answer.output.decode().replace("\\-", "-")
        for name in (*table.commands, *table.own, *table.mode_rows, *(f"--{option}" for option in table.options)):
            expect(name in texts[kind], f"`{name}` for {kind}")
        (place.root / kind).write_bytes(answer.output)
    expect("package [FOLDER]" in texts["man"] and "load KIND SEED SIZE" in texts["man"], "the words behind a command")
    for status, meaning in table.statuses.items():
        expect(f".B {status}\n{meaning}" in texts["man"].replace("\\(aq", "'"), f"the status {status}")
    for shell in ("bash", "zsh", "fish"):
        if shutil.which(shell):
            expect(place.call("/usr/bin/env", shell, "-n", shell).status == 0, f"that {shell} reads it")
    script = '. ./bash; COMP_WORDS=({}); COMP_CWORD={}; _fractal; echo "${{COMPREPLY[*]}}"'
    for words, place_of, wanted in (("fractal lo", 1, "load lockstep"), ("fractal run --li", 2, "--line"),
                                    ("fractal run --line ''", 3, "4 8 16 32 64"), ("fractal run --line = 6", 4, "64"),
                                    ("fractal load ''", 2, "walk nest"), ("fractal load walk 7 --ti", 4, "--tiles"),
                                    ("fractal watch l", 2, "least lockstep"), ("fractal watch views 3 s", 4, "steps"),
                                    ("fractal watch m", 2, "memory"), ("fractal watch memory s", 3, "steps"),
                                    ("fractal watch least --ti", 3, "--tiles"), ("fractal sweep --lo", 2, "--log"),
                                    ("fractal draw --by ''", 3, "rounds acts"), ("fractal dev m", 2, "memory")):
        answer = place.call("/usr/bin/env", "bash", "-c", script.format(words, place_of))
        expect(answer.output.decode().split() == wanted.split(), f"completions of {words}", answer)
    if shutil.which("groff"):
        answer = place.call("/usr/bin/env", "groff", "-man", "-ww", "-Tascii", "man")
        expect(answer.status == 0 and answer.errors == "", "a page without a warning", answer)
    one_sentence_each([
        (place.call("fractal shell"), ["bash, zsh, fish or man"]),
        (place.call("fractal shell", "csh"), ["not for csh"]),
        (place.by_shell('"$0" shell man >/dev/full'), ["no space"]),
    ])


def exercises_are_judged(place: Place) -> None:
    """the answer to each exercise is right, the one it begins with is wrong, and other files are refused in a
    sentence"""
    place.needs_program()
    place.needs_second_program()
    exercise, folder = "fractal exercise", place.clone / "examples" / "exercises"
    for number, name in enumerate(EXERCISES, 1):
        for word in (name, str(number)):
            answer = place.call(exercise, word, str(folder / "answers" / name))
            expect(answer.status == 0 and answer.output.startswith(b"right: "), f"a right answer to {name}", answer)
    for path in folder.glob("answers/*/*"):
        if path.name in ("image.bin", "listing"):
            path.unlink()
    place.is_clean()
    for name in ("false_conflict", "order", "domains"):
        answer = place.call(exercise, name, str(folder / name))
        expect(answer.status == 1 and answer.output.startswith(b"wrong: "), f"a wrong answer to {name}", answer)
    place.call(exercise, "order", "").sentence("no such folder")
    own_exercises(place, exercise)
    wrong_files(place, exercise)
    one_sentence_each([
        (place.call(exercise), ["an exercise and the FILE"]),
        (place.call(exercise, "eight", "x"), ["`eight`", "journal, abort"]),
        (place.call(exercise, "journal", "nowhere"), ["nowhere", "no such file"]),
        (place.call(exercise, "order", "nowhere"), ["nowhere", "no such folder"]),
        (place.call(exercise, "journal", str(place.clone / "README.md")), ["README.md:3:", "line of a journal"]),
        (place.call(exercise, "abort", str(folder / "answers" / "stall")), ["stall:4:", "no core 1"]),
    ])


def wrong_files(place: Place, exercise: str) -> None:
    """Expects wrong journals and scripts to be judged wrong, with the reason."""
    stepped = "dispatch 0\ndispatch 1\nstep 1 0\nstep 0 0\nstep 0 0\n"
    for name, text, part in (
            ("journal", "1 0.0 1 0\n2 1.2 2 0\n", "line 2: the timestamp"),
            ("journal", "", "your journal has 0 turns, and more tasks"),
            ("journal", "1 0.0 1 0\n2 1.2 1 9\n", "line 2: the depth"),
            ("journal", "1 0.0 1 0\n2 1.2 2 9\n3 1.1 1 1\n4 0.1 1 2\n5 1.0 1 3\n6 0.2 1 4\n", "only 5 tasks"),
            ("abort", "commit\n", "no act aborts"), ("abort", stepped, "doesn't reach its end"),
            ("abort", "# no\n", "isn't an act"), ("why", "12 0.1 byte 0.0\n", "your list has 1 of the aborted"),
            ("why", "11 0.1 byte 0.0\n", "line 1: act 11 doesn't abort 0.1"),
            ("why", "12 0.4 byte 0.0\n", "line 1: act 12 doesn't abort 0.4"),
            ("why", "12 0.1 line 0.0\n", "line 1: 0.1 was aborted, but `line` isn't the reason"),
            ("why", "12 0.2 touched 0.0\n", "line 1: 0.2 was aborted for that reason, but another task caused it"),
            ("why", "12 0.1 byte 0.0\n12 0.1 byte 0.0\n", "line 2: 0.1 is listed twice"),
            ("abort", "dispatch 0\nabort 0\n", "no act aborts"), ("stall", "commit\n", "the reply `stall`"),
            ("stall", "dispatch 0\ndispatch 0\nstep 0 0\nstep 0 1\n", "doesn't reach its end")):
        (place.root / "answer").write_text(text)
        answer = place.call(exercise, name, "answer")
        told = answer.output.decode()
        expect(answer.status == 1 and told.startswith("wrong: ") and part in told, part, answer)


def own_exercises(place: Place, exercise: str) -> None:
    """Expects an exercise of your own to be judged by its file `wanted`."""
    folder, mine = place.clone / "examples" / "exercises", place.root / "mine"
    shutil.copytree(folder / "abort", mine)
    right = str(folder / "answers" / "abort")
    place.call(exercise, str(mine), right).sentence("wanted: no such file")
    for text, told in OWN:
        (mine / "wanted").write_text(f"answer script  # mine\n{text}")
        answer = place.call(exercise, str(mine), right)
        expect(answer.output.decode().startswith(told) and answer.errors == "", told, answer)
    for text, told in NOT_WANTED:
        (mine / "wanted").write_text(text)
        place.call(exercise, str(mine), right).sentence(told)
    (mine / "wanted").write_text("answer journal\n")
    shutil.copy(folder / "journal" / "image.bin", mine)
    answer = place.call(exercise, str(mine), str(folder / "answers" / "journal"))
    expect(answer.output.startswith(b"right: 5 tasks"), "a journal of your own", answer)


def releases_are_made_once(place: Place) -> None:
    """a release has archive, page, what is new and a checksum of each, and a tag; it is made once, and whole or not"""
    place.environment.update({f"GIT_COMMITTER_{name}": "a" for name in ("NAME", "EMAIL")})
    place.call(".ci/release").sentence("fractal_sim isn't built", status=70)
    build(place)
    folder = place.root / "releases"
    folder.mkdir()
    answer = place.call(".ci/release", str(folder))
    expect((answer.status, answer.errors) == (0, ""), "a release", answer)
    made, = folder.iterdir()
    version = Table().version
    expect(made.name == f"fractal-{version}", "its name", made)
    names = {path.name for path in made.iterdir()}
    archive, = made.glob("*.tar.gz")
    expect(names - {"fractal.mjs"} == {archive.name, "fractal.html", "CHANGES.md", "SHA256SUMS"}, "its files", names)
    done = subprocess.run(["sha256sum", "-c", "SHA256SUMS"], cwd=made, capture_output=True)
    expect(done.returncode == 0 and done.stdout.count(b": OK") == len(names) - 1, "the checksums", done)
    new = (made / "CHANGES.md").read_text()
    expect(new.startswith(f"## {version}, ") and new.count("\n## ") == 0, "the newest part alone", new[:200])
    told = subprocess.run(["git", "-C", place.clone, "tag", "-l", "-n9", f"v{version}"], capture_output=True, text=True)
    expect(archive.name in told.stdout, "a tag with the checksums", told)
    place.call(".ci/release", str(folder)).sentence("is there already", status=69)
    shutil.rmtree(made)
    place.call(".ci/release", str(folder)).sentence(f"its tag v{version} is there", status=69)
    one_sentence_each([(place.call(".ci/release", "--fast"), ["`--fast`"]),
                       (place.call(".ci/release", "one", "two"), ["one FOLDER"])])
    place.call(".ci/release", "nowhere").sentence("nowhere", "no such folder", status=69)
    expect(not any(folder.iterdir()), "nothing half made", list(folder.iterdir()))
    place.is_clean()


def exercises_are_rebuilt(place: Place) -> None:
    """the images and listings of the exercises are those of their sources"""
    for name in EXERCISES:
        place.call("fractal build", str(place.clone / "examples" / "exercises" / name))
    place.is_clean()


TRIES = (
    packages_run_elsewhere, archives_have_the_same_modes, programs_are_checked_again, packages_are_installed,
    packages_are_of_one_commit, shells_are_helped, exercises_are_judged, exercises_are_rebuilt, releases_are_made_once,
)
