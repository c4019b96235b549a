"""Reports that are changed: some are still those of a run, most aren't."""
from __future__ import annotations

from cases.chance import Chance


def alter(chance: Chance, report: bytes) -> bytes:
    """The report with a change; bytes."""
    lines = report.split(b"\n")
    change, place = chance.below(9), chance.below(len(lines))
    if change == 0:
        del lines[place]
    elif change == 1:
        lines.insert(place, chance.pick(lines))
    elif change == 2 and len(lines) > 3:
        # Two neighbours change places, and their numbers don't: right where the order is free.
        place = 1 + chance.below(len(lines) - 2)
        one, two = lines[place].split(b" ", 1), lines[place + 1].split(b" ", 1)
        lines[place:place + 2] = [b" ".join([one[0], *two[1:]]), b" ".join([two[0], *one[1:]])]
    elif change == 3:
        lines[-2:] = [chance.pick((b"end open", b"end limit", b"end normal", b"end trap 9 00010000 0.0", b"end")), b""]
    elif change == 4:
        return report[:chance.below(len(report))]
    elif change == 5:
        return report + chance.pick((b"\n", b" ", b"end normal\n", b"\x00"))
    elif change == 6:
        return change_digit(chance, report)
    elif change == 7:
        lines[place] += chance.pick((b" ", b"0", b"\r"))
    else:
        lines = lines[:1] + lines[1 + chance.below(len(lines)):]
    return b"\n".join(lines)


def change_digit(chance: Chance, report: bytes) -> bytes:
    places = [place for place, byte in enumerate(report) if 0x30 <= byte <= 0x39]
    if not places:
        return report
    place = chance.pick(places)
    return report[:place] + str(chance.below(10)).encode() + report[place + 1:]


def without_replies(said: bytes) -> bytes:
    """What `steps` wrote, from the report on."""
    before, found, report = said.partition(b"fractal 1\n")
    return found + report
