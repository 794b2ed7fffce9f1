"""Self-check of writer.py (request L4): python3 check_write.py SECONDS [SEED]

Random parts, with faults: the refusal is worked out a second time, over maps and sorted pairs; what is written is
read again and gives the same steps and, rising, the same records. Random sheets: what is read is taken apart, shuffled,
written and read again; it means the same and is shorter by two bytes for each fixed duration that was written as 0.
"""
from __future__ import annotations

import random
import sys
import time
from collections import Counter

import generate as g
import parts
import planner as p
from writer import Part, write

STEP_MAPS = (0, 1, 2, 5)       # the allowed ones; step 0 has 1
LINK_MAPS = [bits for bits in range(1, 32) if bits & 1 or not bits & 24]
LONGEST_SHEET = 5825           # 3 + 1 + 63 * 3 + 512 * 11


def step_map(part: Part) -> int:
    """The map of a step with every field that it is given."""
    return (1 if part.ticks is None else 2) + (4 if part.least is not None else 0)


def link_map(record: p.Record) -> int:
    """The map of a record with every field that it is given."""
    return sum((record.after, 2 * (record.at_least is not None), 4 * (record.at_most is not None),
                8 * (record.gap is not None), 16 * (record.from_end is not None)))


def faults(n: int, steps: list[Part], r: int, records: list[p.Record], room: int) -> list[int]:
    """Every refusal whose fault is there, in their order; of lists that are short, of what is there."""
    found = []
    if n not in range(1, 65):
        found.append(2)
    if r not in range(513):
        found.append(3)
    seen, links = [step_map(part) for part in steps][:n], records[:r]
    maps = [link_map(record) for record in links]
    if seen[:1] not in ([], [1]) or set(seen) - set(STEP_MAPS) or any(bits == 0 or bits & 9 == 8 for bits in maps):
        found.append(4)
    if any(bits & 17 == 16 for bits in maps):
        found.append(26)
    if any(max(link.i, link.j) >= n or link.i == link.j for link in links):
        found.append(5)
    pairs = sorted((link.i, link.j) for link in links)
    if any(first == second for first, second in zip(pairs, pairs[1:])):
        found.append(6)
    size = 3 + sum(3 if part.ticks or part.least is not None else 1 for part in steps[:n])
    size += sum(3 + 2 * (bits >> 1).bit_count() for bits in maps)
    if len(seen) < n or len(links) < r or room < size:
        found.append(14)
    assert found or set(maps) <= set(LINK_MAPS)
    return found


def check_written(rng: random.Random, steps: list[Part], records: list[p.Record]) -> bytes:
    """Parts without a fault: what is written, read again; in any order the same bytes, with just enough room, and a byte less."""
    n, r = len(steps), len(records)
    kind, size = write(n, steps, r, records, [0] * LONGEST_SHEET)[0]
    lent = [rng.randrange(256) for _ in range(size + rng.randint(0, 3))]
    verdict, after = write(n, steps, r, records, lent)
    assert kind == "ok" and verdict == ("ok", size) and len(after) == len(lent) and after[size:] == lent[size:]
    sheet = bytes(after[:size])
    read = p.read(sheet)
    assert read[0] == "ok" and len(sheet) <= LONGEST_SHEET
    assert read[1] == ([part.ticks for part in steps], sorted(records, key=lambda one: (one.i, one.j)),
                       [part.least or 0 for part in steps])
    assert g.least_fields(sheet) == [v for v, part in enumerate(steps) if part.least is not None]
    assert write(n, steps, r, rng.sample(records, r), lent[:size]) == (("ok", size), list(sheet))
    assert write(n, steps, r, records, lent[:size - 1]) == (("refused", 14), lent[:size - 1])
    return sheet


def check_parts(rng: random.Random, tally: Counter) -> None:
    """Random parts, with faults or not."""
    n, steps, r, records, room = parts.random_parts(rng)
    lent = [rng.randrange(256) for _ in range(room)]
    verdict, after = write(n, steps, r, records, lent)
    found = faults(n, steps, r, records, room)
    if found:
        assert (verdict, after) == (("refused", found[0]), lent)
        tally[f"refused {found[0]}" + (", a later one too" if len(found) > 1 else "")] += 1
        return
    sheet = check_written(rng, steps[:n], records[:r])
    assert verdict == ("ok", len(sheet)) and after == list(sheet) + lent[len(sheet):]
    tally["written"] += 1
    # Taken apart, it is the parts again, the records rising; written again, the same bytes.
    apart = parts.taken_apart(sheet)
    assert apart == (steps[:n], sorted(records[:r], key=lambda one: (one.i, one.j)))
    assert check_written(rng, *apart) == sheet


def zeros(sheet: bytes) -> int:
    """How many fixed durations of a sheet that is read are written as 0."""
    found, at = 0, 3
    for _ in range(sheet[0]):
        found += sheet[at:at + 3] == b"\x02\x00\x00"
        at += 3 if sheet[at] & 6 else 1
    return found


def check_sheet(rng: random.Random, tally: Counter) -> None:
    """A random sheet: if it is read, through parts and back."""
    kind = rng.randrange(6)                        # 5: none of finish, gap, loose, least, clash
    sheet = g.random_sheet(rng, *(word == kind for word in range(5)))
    if p.read(sheet)[0] == "refused":
        tally["sheets not read"] += 1
        return
    steps, records = parts.taken_apart(sheet)
    rng.shuffle(records)
    again = check_written(rng, steps, records)
    assert p.read(again) == p.read(sheet)
    assert len(again) == len(sheet) - 2 * zeros(sheet) <= len(sheet) and zeros(again) == 0
    assert zeros(sheet) or again == sheet
    if sheet[0] < 9:
        assert p.standplan_text(again) == p.standplan_text(sheet)
    tally["sheets shorter" if zeros(sheet) else "sheets the same"] += 1


def main() -> None:
    """Check for so many seconds and print the tally."""
    end = time.time() + float(sys.argv[1])
    seed = int(sys.argv[2]) if len(sys.argv) > 2 else 1
    tally: Counter = Counter()
    while time.time() < end:
        try:
            check_parts(random.Random(seed), tally)
            if seed % 20 == 0:
                check_sheet(random.Random(seed), tally)
        except AssertionError:
            print("FAILED at seed", seed)
            raise
        seed += 1
    print(dict(sorted(tally.items())))


if __name__ == "__main__":
    main()
