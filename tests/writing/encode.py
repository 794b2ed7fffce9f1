"""Parts of the reference's writer as the numbers of the C call: two for each step (map, ticks), seven for each link record (map, i, j, at least, at most, gap,
at most from the finish). What means the same is drawn: fields whose bit does not stand, which maps that are not allowed, and which numbers that are no step."""
from __future__ import annotations

import random
import sys
from pathlib import Path

sys.path.insert(0, str(Path(__file__).resolve().parent.parent / "reference"))
import planner  # noqa: E402
from writer import Part, fields_of  # noqa: E402

STEP_MAPS, LARGEST_MAP, NO_STEP, LARGEST = {0, 1, 2, 5}, 31, 255, 65535
STEP, RECORD = 2, 7            # numbers of a step and of a record


def count(rng: random.Random, number: int, most: int) -> int:
    """A count: in the place of one above the most at times one of more than 16 or 32 bits, its low ones a count that is allowed."""
    return number if number <= most else rng.choice([number, (1 << 16) + rng.randint(1, most), (1 << 32) + rng.randint(1, most)])


def unread(rng: random.Random) -> int:
    """A number that is not looked at."""
    return rng.choice([0, 1, LARGEST, rng.randint(0, LARGEST)])


def step(rng: random.Random, part: Part) -> list[int]:
    """A step: with both a fixed and a least duration it has any map that is not allowed."""
    if part.ticks is not None and part.least is not None:
        wrong = rng.choice([3, 4, 6, 7, 8, 9, 10, 13, 256, 257, 258, 261, rng.randint(0, LARGEST)])
        return [wrong if wrong not in STEP_MAPS else 7, unread(rng)]
    if part.least is not None:
        return [5, part.least]
    if part.ticks is None:
        return [1, unread(rng)]
    return [0, unread(rng)] if part.ticks == 0 and rng.random() < 0.5 else [2, part.ticks]


def end(rng: random.Random, number: int) -> int:
    """One end of a pair: from 255 on it is any number that is no step, whatever its low byte."""
    return number if number < NO_STEP else rng.choice([NO_STEP, 256, 257, LARGEST, 256 * rng.randint(1, 255) + rng.randint(0, 63)])


def record(rng: random.Random, one: planner.Record) -> list[int]:
    """A link record: with no link it has the empty map or one with a bit that is not known."""
    fields = fields_of(one)
    bits = one.after + sum(2 << k for k, field in enumerate(fields) if field is not None)
    if bits == 0:
        bits = rng.choice([0, 0, 32, 33, 64, 128, 255, 256, 257, rng.randint(LARGEST_MAP + 1, LARGEST)])
    return [bits, end(rng, one.i), end(rng, one.j), *(unread(rng) if field is None else field for field in fields)]


def more(rng: random.Random, size: int) -> list[int]:
    """Now and then numbers that are no whole part."""
    return [unread(rng) for _ in range(rng.randrange(size))] if rng.random() < 0.1 else []


def numbers(rng: random.Random, steps: list[Part], records: list[planner.Record]) -> tuple[list[int], list[int]]:
    """The numbers of the steps and those of the records."""
    return ([number for part in steps for number in step(rng, part)] + more(rng, STEP),
            [number for one in records for number in record(rng, one)] + more(rng, RECORD))
