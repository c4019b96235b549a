"""Makes a page (HTML) on which one goes through a run act by act: tiles, memory, journal, listing, and curves.

usage: ./fractal show LINES [LISTING] [--from ACT] [--to ACT] [--cut] [--output PAGE]

LINES is what `./fractal watch` wrote; - is standard input. LISTING is that of the image, as ./fractal build wrote it.
The page stands alone: it needs no network, and PAGE#6 opens it at act 6. Up to 50,000 acts are shown:

  --from ACT         the page begins after this act (0 to 18,446,744,073,709,551,615; default 0)
  --to ACT           it ends after this act (0 to 18,446,744,073,709,551,615; default 18,446,744,073,709,551,615)
  --cut              shows what there is of a log that was cut before its end; otherwise such a log is refused

    cat IMAGE SCRIPT | ./fractal watch steps --tiles 2 --cores 1 > lines
    ./fractal show lines LISTING --output page.html
"""
from __future__ import annotations

from yotarimu.common.outcome import Refusal
from yotarimu.common.words import Words
from yotarimu.pictures.page import page_of


def main(words: list[str]) -> None:
    """Does what the words of the call ask for."""
    given = Words("show", page=__doc__).read(words)
    first, last = given.number("from"), given.number("to")
    if first > last:
        raise Refusal(f"no act from {first} to {last} exists.")
    path, *listing = given.need("LINES and perhaps a LISTING", 1, 2)
    print(page_of(path, listing[0] if listing else None, first, last, "cut" in given.flags), end="")
