"""What the programs print, against the reference: python3 texts.py [--price] PROGRAM SEED COUNT
                                              [finish | gap | loose | least | price] [--and-least COUNT]

Random sheets, and inputs longer than any sheet: each is given to PROGRAM on its standard input, standplan or, with --price in
front, standprice.
With finish, the sheets have limits from the end of a step, with gap, gaps too, with loose, also steps that no forward link
enters, with least, also least durations, with price, as with least, with offsets near 1,024 or a power of two; the longest of the
first two kinds is among them, with gap the one with the largest offset, with loose, least and price those at the limits. With
--and-least, COUNT sheets as with least follow behind those that the words before ask for, which stay as they are. Each word may
be written with -- before it.
"""
from __future__ import annotations

import random
import subprocess
import sys

import container
import generate as g
import planner as p
import price


def inputs(seed: int, count: int, finish: bool, gap: bool, loose: bool, least: bool = False, priced: bool = False) -> list[bytes]:
    """Random sheets, those at the limits, and some of the random ones with many bytes behind."""
    rng = random.Random(seed)
    sheets = g.generate(seed, count, finish, gap, loose, least, priced=priced)
    more = []
    if finish or gap:
        longest = container.longest_sheet(rng, gap)
        more += container.around(longest) + [longest + rng.randbytes(100000)]
    if gap:
        more.append(container.heaviest_sheet())
    if loose:
        more += container.largest_loose_sheets(rng)
    if least:
        more += container.largest_least_sheets(rng)
    if priced:
        more += container.largest_price_sheets(rng)
    long = [container.LONGEST_SHEET, 8192, 10000, 100000]
    return sheets + more + [sheet + rng.randbytes(rng.choice(long)) for sheet in sheets[:count // 20]]


if __name__ == "__main__":
    prices = sys.argv[1] == "--price"
    program, seed, count, *words = sys.argv[2 if prices else 1:]
    text = price.price_text if prices else p.standplan_text
    words = [word.removeprefix("--") for word in words]
    made = inputs(int(seed), int(count), *(word in words for word in ("finish", "gap", "loose", "least", "price")))
    if "and-least" in words:
        made += inputs(int(seed), int(words[words.index("and-least") + 1]), False, False, False, True)
    for number, sheet in enumerate(made):
        printed = subprocess.run([program], input=sheet, stdout=subprocess.PIPE, check=True).stdout.decode("ascii")
        if printed != text(sheet):
            sys.exit(f"input {number} of seed {seed}: printed {printed!r}, not {text(sheet)!r}")
    print(f"{len(made)} inputs, no difference")
