"""Integration tests of ./fractal evaluation: the same bytes from one call, from shards apart, and from Snakemake."""
from __future__ import annotations

import shutil
import subprocess
from pathlib import Path
from typing import Dict

from tries.place import Omission, Place, expect, one_sentence_each

CALL = "fractal evaluation"
# One small application, so that an evaluation takes seconds.
ONE = ("--applications", "mis-coarse", "--seeds", "0..1")
SNAKEFILE = "tools/workflow/Snakefile"


def files_in(folder: Path) -> Dict[str, bytes]:
    """The files of an evaluation by their names; what an engine keeps beside them is hidden."""
    found = (path for path in sorted(folder.rglob("*")) if path.is_file())
    return {str(path.relative_to(folder)): path.read_bytes() for path in found if ".snakemake" not in path.parts}


def whole(place: Place, name: str) -> Path:
    """The folder of an evaluation that one call makes."""
    folder = place.root / name
    answer = place.call(CALL, str(folder), *ONE, "--jobs", "2")
    expect(answer.status == 0 and answer.output.decode() == f"{folder}/evaluation.md\n", "an evaluation", answer)
    return folder


def evaluations_go_on(place: Place) -> None:
    """an evaluation has a page, tables, rows and figures; a shard that is missing or cut is made again, and no other"""
    place.needs_second_program()
    folder = whole(place, "whole")
    before = files_in(folder)
    wanted = {"evaluation.md", "tables/speedup.md", "rows/core-time.csv", "figures/core-time.svg"}
    expect(wanted <= set(before), "its files", sorted(before))
    (folder / "shards/seeds.mis-coarse.csv").unlink()
    cut = folder / "shards/lines.mis-coarse.csv"
    cut.write_text("".join(cut.read_text().splitlines(keepends=True)[:-1]))
    answer = place.call(CALL, str(folder), *ONE)
    expect(answer.errors.count("shards; ") == 2, "two shards are made", answer)
    expect(files_in(folder) == before, "the same bytes")
    one_sentence_each([
        (place.call(CALL), ["FOLDER"]), (place.call(CALL, "x", "--size", "huge"), ["small, medium, large"]),
        (place.call(CALL, "--shard", "seeds.walk", "x.csv"), ["unknown shard seeds.walk"]),
        (place.call(CALL, "--finish", str(place.root / "nowhere"), *ONE), ["nowhere"])])


def shards_apart_are_the_same(place: Place) -> None:
    """shards made by processes of their own, each in a folder of its own, are the same bytes once they are joined"""
    place.needs_second_program()
    folder, joined = whole(place, "whole"), place.root / "joined"
    (joined / "shards").mkdir(parents=True)
    for name in place.call(CALL, "--list", *ONE).output.decode().split():
        apart = place.root / f"apart {name}"
        apart.mkdir()
        answer = place.call(CALL, "--shard", name, "rows.csv", *ONE, cwd=apart)
        expect(answer.status == 0, f"the shard {name}", answer)
        shutil.copyfile(apart / "rows.csv", joined / "shards" / f"{name}.csv")
    place.call(CALL, "--finish", str(joined), *ONE)
    expect(files_in(joined) == files_in(folder), "the same bytes")


def engines_make_the_same(place: Place) -> None:
    """Snakemake makes the same evaluation, and the same rows of a study; a shard that is missing is made again alone"""
    place.needs_second_program()
    if shutil.which("snakemake") is None:
        raise Omission("snakemake isn't installed")
    folder, made = whole(place, "whole"), place.root / "made"
    words = ["applications=mis-coarse", "seeds=0..1"]
    engine(place, made, words)
    expect(files_in(made) == files_in(folder), "the same bytes")
    image = place.root / "walk.bin"
    image.write_bytes(place.call("fractal generate", "walk", "7", "60").output)
    study = [str(image), "--tiles", "1,2,4", "--seed", "0..1"]
    place.call("fractal study", *study, "--csv", str(place.root / "study.csv"))
    words = [f"study={' '.join(study)}", "shards=3"]
    for left in (None, "shards/2.csv"):
        if left is not None:
            (place.root / "studied" / left).unlink()
        engine(place, place.root / "studied", words)
        expect((place.root / "studied/study.csv").read_bytes() == (place.root / "study.csv").read_bytes(), "its rows")


def engine(place: Place, folder: Path, config: list[str]) -> None:
    """Runs the workflow in a folder."""
    done = subprocess.run(["snakemake", "-q", "-s", str(place.clone / SNAKEFILE), "--directory", str(folder), "--cores",
                           "2", "--config", *config], capture_output=True, text=True, check=False)
    expect(done.returncode == 0, "snakemake", done.stderr)


TRIES = (evaluations_go_on, shards_apart_are_the_same, engines_make_the_same)
