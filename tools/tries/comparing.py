"""Tries of ./fractal compare."""
from __future__ import annotations

import pathlib
import shutil
import time

from yotarimu.images.compiler import GCC, need_compiler

from tries.place import Place, expect, one_sentence_each

CALL = "fractal compare"
# A run of all settings takes two seconds on an idle machine.
MOST_SECONDS = 10


def wrong_timestamp(place: Place) -> pathlib.Path:
    """The image of a tree of sums whose joins have the timestamp of what they join."""
    need_compiler(GCC, GCC)
    folder = place.root / "wrong"
    shutil.copytree(place.clone / "examples" / "c" / "tree_of_sums", folder)
    source = folder / "task.c"
    source.write_text(source.read_text().replace("enqueue_sub(join, 1,", "enqueue_sub(join, 0,"))
    expect(place.call("fractal build", str(folder)).status == 0, "an image")
    return folder / "image.bin"


def right_programs_leave_the_same(place: Place) -> None:
    """programs whose tasks have all their order leave the same under 64 settings"""
    place.needs_program()
    place.needs_second_program()
    for name in ("hello", "recursion", "c/shortest_paths"):
        answer = place.call(CALL, str(place.clone / "examples" / name / "image.bin"))
        expect(answer.status == 0 and b"64 runs leave what the serial run does" in answer.output, name, answer)
    place.is_clean()


def wrong_timestamps_are_found(place: Place) -> None:
    """a wrong timestamp is found in ten seconds, with the label, both last stores, and the turn where orders part"""
    place.needs_program()
    place.needs_second_program()
    image = wrong_timestamp(place)
    start = time.monotonic()
    answer = place.call(CALL, str(image))
    expect(time.monotonic() - start < MOST_SECONDS, "an answer in time")
    expect(answer.status == 1, "status 1", answer)
    for part in ("the word at total (10000000): 00014d60 (85,344) in the serial run",
                 "here: the last store is by the task", "task.c:16: *to = *left + *right;", "Their orders part at turn",
                 "Tasks with equal timestamps"):
        expect(part in answer.output.decode(), f"`{part}`", answer)
    # The programs find it too, without the orders of ties that are made here.
    answer = place.call(CALL, str(image), "--seed", "3", "--runs", "200", "--jobs", "2")
    expect(answer.status == 1, "status 1", answer)


def failing_images_become_smaller(place: Place) -> None:
    """a smaller image fails in the same way, and its instructions are printed with their lines"""
    place.needs_program()
    place.needs_second_program()
    image = wrong_timestamp(place)
    small = place.root / "small.bin"
    answer = place.call(CALL, str(image), "--reduce", str(small))
    told = answer.output.decode()
    expect(answer.status == 1 and "1 initial tasks, " in told and "differs still:" in told, "a smaller image", answer)
    left = [line for line in told.splitlines() if line.startswith("  0001")]
    expect(0 < len(left) < 100 and any("enqueue_sub(join" in line for line in left), "few instructions", left)
    again = place.call(CALL, str(small))
    expect(again.status == 1 and b"the word at 10000000" in again.output, "a difference", again)


def expected_bytes_are_compared(place: Place) -> None:
    """what the serial run leaves is compared with the bytes of files: the data, a variable, the output"""
    place.needs_program()
    place.needs_second_program()
    image = str(place.clone / "examples" / "c" / "shortest_paths" / "image.bin")
    left = place.call("fractal watch", "memory", "least", stdin=pathlib.Path(image).read_bytes()).output
    (place.root / "right").write_bytes(left)
    (place.root / "wrong").write_bytes(left[:8] + b"\7\0\0\0")
    (place.root / "none").write_bytes(b"")
    answer = place.call(CALL, image, "--runs", "4", "--expect", "right,distance:right,output:none")
    expect(answer.status == 0, "what was expected", answer)
    answer = place.call(CALL, image, "--expect", "distance:wrong")
    expect(answer.status == 1, "status 1", answer)
    for part in ("something else than is expected", "distance+8", "00000007 (7) is expected", "distance[node] ="):
        expect(part in answer.output.decode(), f"`{part}`", answer)


def compare_refuses_bad_words(place: Place) -> None:
    """invalid arguments, missing files and unbuilt programs are refused in a sentence"""
    image = str(place.clone / "examples" / "hello" / "image.bin")
    one_sentence_each([
        (place.call(CALL), ["an IMAGE", "--help"]),
        (place.call(CALL, "nowhere"), ["nowhere"]),
        (place.call(CALL, image, "--parts", "memory,all"), ["--parts", "`all`"]),
        (place.call(CALL, image, "--runs", "0"), ["--runs", "1 to 100000"]),
        (place.call(CALL, image, "--tiles", "17"), ["--tiles", "1 to 16"]),
        (place.call(CALL, image, "--budget", "1,2"), ["--budget", "one value"]),
        (place.call(CALL, image, "--reduce", image), [image]),
    ])
    place.is_clean()


TRIES = (
    right_programs_leave_the_same, wrong_timestamps_are_found, failing_images_become_smaller,
    expected_bytes_are_compared, compare_refuses_bad_words,
)
