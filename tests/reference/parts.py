"""Parts of sheets for the writer (request L4): random ones, with faults, and those of a sheet that is read.

    python3 parts.py SEED COUNT        how often each answer comes
"""
from __future__ import annotations

import random
import sys
from collections import Counter
from dataclasses import replace

import generate as g
import planner as p
from writer import Part, sheet_of, write

NAMES = ("at_least", "at_most", "gap", "from_end")
# The faults that random parts are given, by the refusal each aims at; 14 by a list, 0: none, only more in a list than its count.
FAULTS = [2, 3, 4, 4, 4, 26, 26, 26, 5, 5, 5, 6, 6, 6, 6, 6, 14, 14, 0, 0]
Parts = tuple[int, list[Part], int, list[p.Record]]


def number(rng: random.Random) -> int:
    """A field: often 0, or with one byte of 0, or the largest."""
    return rng.choice([0, 0, 1, 255, 256, 65280, 65535, rng.randint(0, 20), rng.randint(0, 65535)])


def random_step(rng: random.Random) -> Part:
    """A step other than 0, without a fault."""
    return rng.choice([Part(), Part(least=number(rng)), Part(ticks=number(rng)), Part(ticks=number(rng)), Part(ticks=0)])


def random_record(rng: random.Random, i: int, j: int) -> p.Record:
    """A record on this pair with some link and no fault."""
    while True:
        after = rng.random() < 0.7
        there = {name: number(rng) if rng.random() < 0.4 and (after or name in NAMES[:2]) else None for name in NAMES}
        if after or any(field is not None for field in there.values()):
            return p.Record(i, j, after, **there)


def sound_parts(rng: random.Random) -> tuple[list[Part], list[p.Record]]:
    """Steps, and records in any order, without a fault; at times rising, falling or as many as there may be."""
    n = rng.choice([1, 2, 3, rng.randint(2, 8), rng.randint(2, 8), rng.randint(9, 64), 63, 64])
    steps = [Part()] + [random_step(rng) for _ in range(n - 1)]
    pairs = [(i, j) for i in range(n) for j in range(n) if i != j]
    most = min(512, len(pairs))
    many = [rng.randint(0, 512), 512] if n > 23 else []
    r = min(most, rng.choice([0, 1, 2, rng.randint(0, 9), rng.randint(0, 9), rng.randint(0, 40)] + many))
    if rng.random() < 0.05:
        r = most
    records = [random_record(rng, i, j) for i, j in rng.sample(pairs, r)]
    if rng.random() < 0.2:
        records.sort(key=lambda one: (one.i, one.j), reverse=rng.random() < 0.5)
    return steps, records


def wrong_map(rng: random.Random, steps: list[Part], records: list[p.Record]) -> None:
    """Work in a fault of refusal 4: of a step, or of a record, if there is one."""
    kind = rng.randrange(4 if records else 2)
    at = rng.randrange(len(records)) if records else 0
    if kind == 0 or kind == 1 and len(steps) == 1:
        steps[0] = rng.choice([Part(ticks=0), Part(ticks=number(rng)), Part(least=0), Part(least=number(rng)), Part(0, 0)])
    elif kind == 1:
        steps[rng.randrange(1, len(steps))] = Part(rng.choice([0, number(rng)]), rng.choice([0, number(rng)]))
    elif kind == 2:
        records[at] = p.Record(records[at].i, records[at].j, False, None, None)
    else:
        records[at] = replace(records[at], after=False, gap=number(rng))       # at times with a limit from the end too: still 4


def from_no_end(rng: random.Random, records: list[p.Record]) -> None:
    """Work in a fault of refusal 26: alone in its record or beside plain limits, and at times beside a gap, which is 4."""
    at = rng.randrange(len(records))
    fewer = rng.choice([{}, {"at_least": None, "at_most": None}])
    records[at] = replace(records[at], after=False, from_end=number(rng), **fewer)
    if rng.random() < 0.8:
        records[at] = replace(records[at], gap=None)


def wrong_pair(rng: random.Random, records: list[p.Record], n: int) -> None:
    """Work in a fault of refusal 5."""
    at = rng.randrange(len(records))
    i, j = records[at].i, records[at].j
    wrong = rng.choice([n, n, 64, 255, rng.randint(n, 255)])
    i, j = rng.choice([(wrong, j), (i, wrong), (i, i), (j, j), (wrong, wrong)])
    records[at] = replace(records[at], i=i, j=j)


def twice(rng: random.Random, records: list[p.Record]) -> None:
    """Work in a fault of refusal 6: a pair once more, with the same fields or others, next to it or elsewhere."""
    at = rng.randrange(len(records))
    one = records[at]
    again = rng.choice([one, random_record(rng, one.i, one.j)])
    to = rng.choice([at + 1, 0, rng.randint(0, len(records)), len(records)])
    if len(records) < 512:
        records.insert(to, again)
    elif to < 512 and to != at:
        records[to] = again


def spoiled(rng: random.Random, faults: list[int], steps: list[Part], records: list[p.Record]) -> Parts:
    """The parts with these faults worked in, and their counts."""
    if not records and set(faults) & {26, 5, 6}:
        if len(steps) == 1:
            steps.append(random_step(rng))
        records.append(random_record(rng, 0, 1))
    n = len(steps)
    for fault in sorted(faults, key=(4, 26, 5, 6, 0, 14, 2, 3).index):
        if fault == 4:
            wrong_map(rng, steps, records)
        elif fault == 26:
            from_no_end(rng, records)
        elif fault == 5:
            wrong_pair(rng, records, n)
        elif fault == 6:
            twice(rng, records)
    r = len(records)
    if 0 in faults:                                # more than the counts say, with faults that are not to be looked at
        if rng.random() < 0.5:
            steps.extend(rng.choice([random_step(rng), Part(3, 3)]) for _ in range(rng.randint(1, 3)))
        else:
            one = records[0] if records else p.Record(0, 0, False, None, None)
            records.extend(rng.choice([one, p.Record(0, n, True, None, None), p.Record(1, 1, True, None, None),
                                       p.Record(0, 1, False, None, None, 4), p.Record(0, 1, False, None, None, None, 4)])
                           for _ in range(rng.randint(1, 3)))
    if 14 in faults:                               # fewer than the counts say
        short = rng.choice(["steps", "records", "both"])
        if short != "records" and rng.random() < 0.5:
            del steps[rng.choice([0, n - 1, rng.randrange(n)]):]
        elif short != "records":
            n = max(n, min(64, len(steps) + rng.choice([1, 1, 3, 64])))
        if short != "steps" and r and rng.random() < 0.5:
            del records[rng.choice([0, r - 1, rng.randrange(r)]):]
        elif short != "steps":
            r = max(r, min(512, len(records) + rng.choice([1, 1, 3, 512])))
    if 2 in faults:
        n = rng.choice([0, 0, 65, 65, 255, rng.randint(65, 255)])
    if 3 in faults:
        r = rng.choice([513, 513, 65535, rng.randint(513, 65535)])
        if rng.random() < 0.3:                     # as many as that are there
            records.extend(random_record(rng, 0, 1) for _ in range(min(r, 600) - len(records)))
    return n, steps, r, records


def random_parts(rng: random.Random) -> tuple[int, list[Part], int, list[p.Record], int]:
    """Counts and lists of steps and records, and the bytes of room there are: two of five without a fault of the parts,
    the others with one or several; with or without, the room is enough, just enough, too little by one, or anything."""
    steps, records = sound_parts(rng)
    faults = rng.sample(FAULTS, rng.choice([0, 0, 0, 0, 1, 1, 1, 2, 3, 5]))
    n, steps, r, records = spoiled(rng, faults, steps, records)
    size = len(sheet_of(steps[:n], records[:r]))
    room = rng.choice([size, size, size, size - 1, size + 1, size + rng.randint(0, 20), 5825, rng.randrange(size), 0])
    return n, steps, r, records, room


def taken_apart(sheet: bytes) -> tuple[list[Part], list[p.Record]]:
    """The parts of a sheet that is read, its steps with the fields that it has, 0 or not."""
    steps, records, leasts = p.read(sheet)[1]
    with_least = g.least_fields(sheet)
    return [Part(step, leasts[v] if v in with_least else None) for v, step in enumerate(steps)], records


def statistics(seed: int, count: int) -> str:
    """How often each answer comes among random parts."""
    rng = random.Random(seed)
    told: Counter = Counter()
    for _ in range(count):
        n, steps, r, records, room = random_parts(rng)
        kind, answer = write(n, steps, r, records, [0] * room)[0]
        told["ok" if kind == "ok" else f"refused {answer}"] += 1
    return "\n".join(f"{about}: {told[about]}" for about in sorted(told))


if __name__ == "__main__":
    print(statistics(int(sys.argv[1]), int(sys.argv[2])))
