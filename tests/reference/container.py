"""The input of the program compare, and what it has to print, from the reference planner.

    python3 container.py SEED COUNT STDIN STDOUT [--largest] [--finish | --gap | --loose | --least | --clash | --price]
                         [--and-finish COUNT] [--and-gap COUNT] [--and-loose COUNT] [--and-least COUNT] [--and-clash COUNT]
                         [--and-price COUNT]

STDIN holds, for each sheet, two bytes of length and the sheet; two bytes, the length of the list lent for the records that
clash, at most 600; two bytes, the length of the table lent for its plan; a byte, the number of lists; and for each list a byte
(1: waits allowed), two bytes, the number of its entries, two bytes, the length of the list lent for the start times, and the
entries, four bytes each. Numbers have the low byte first.
With --largest, sheets of N = 64 and R = 512 and one of each fault of the limits stand in front of the random ones.
With --finish, the sheets have limits from the end of a step (bit 4), with --gap, gaps too (bit 3), with --loose, also steps
that no forward link enters, with --least, least durations too (step map bit 2), with --clash, all of this, and most of them
are impossible, with --price, as with --least, and most of them have offsets near 1,024 or a power of two. With --and-finish,
COUNT sheets as with --finish, and the largest ones of this kind if --largest is given, follow behind those that the words
before ask for, which stay as they are; with --and-gap, behind all of these, COUNT sheets as with --gap, and the largest ones
likewise; with --and-loose the same as with --loose, then with --and-least the same as with --least, then with --and-clash the
same as with --clash, then with --and-price the same as with --price, last.

The lengths of the lists for the records that clash are drawn apart from all else, so that every sheet, table and list is the
same as it was before these were asked for.
"""
from __future__ import annotations

import argparse
import random
import sys
from collections import Counter

import generate as g
import planner as p
import price

LENT = 4_294_967_294           # what lent numbers hold before a call; no answer holds it
MOST = 128                     # entries of a list that the program takes
LONGEST_SHEET = 5825           # 3 + 1 + 63 * 3 + 512 * 11
MOST_CLASHING = 600            # numbers of a list for the records that clash that the program takes


def two(x: int) -> bytes:
    """A number of two bytes."""
    return x.to_bytes(2, "little")


def random_list(rng: random.Random, steps: list[p.Step], leasts: list[int] | None = None) -> list[int]:
    """A list of durations, most often as it has to be, at times with one entry wrong; if leasts are given, most often none
    below its least, at times some or all exactly at it, at times one below."""
    top = rng.choice([0, 3, 1000, p.LONGEST])
    entries = [0 if v == 0 or step is not p.OPEN else rng.choice([0, top, rng.randint(0, top)])
               for v, step in enumerate(steps)]
    if leasts is not None:
        respect_leasts(rng, entries, p.open_steps(steps), leasts)
    if rng.random() < 0.25 and entries:
        at = rng.choice([0, len(entries) - 1, rng.randrange(len(entries))])
        entries[at] = rng.choice([1, p.LONGEST + 1, 4_294_967_295, rng.randint(0, 2 ** 32 - 1)])
    return entries


def respect_leasts(rng: random.Random, entries: list[int], opens: list[int], leasts: list[int]) -> None:
    """Lift entries to their least or above it, and at times put one below."""
    exactly = rng.random() < 0.2
    for v in opens:
        more = 0 if exactly else rng.choice([0, entries[v], entries[v], rng.randint(0, 3)])
        entries[v] = rng.choice([max(entries[v], leasts[v]), leasts[v] + more])
        if exactly or entries[v] > p.LONGEST:
            entries[v] = leasts[v]
    below = [v for v in opens if leasts[v]]
    if below and rng.random() < 0.25:
        v = rng.choice(below)
        entries[v] = rng.choice([leasts[v] - 1, leasts[v] - 1, 0, rng.randrange(leasts[v])])


def lists_for(rng: random.Random, sheet: bytes, gap: bool = True, least: bool = True) -> list[tuple[bool, list[int], int]]:
    """Lists for a sheet: waits allowed or not, the entries, and the length lent for the start times.

    Without `gap`, a sheet that has gaps counts as one that is not read: it was refused when the stored sheets were drawn.
    So does, without `least`, a sheet with a least duration, be it 0.
    """
    kind, got = p.read(sheet)
    known = kind == "ok" and (gap or all(link.gap is None for link in got[1])) and (least or not g.least_fields(sheet))
    steps = got[0] if known else [p.OPEN] * rng.randint(0, 5)
    leasts = None if not least else got[2] if known else [0] * len(steps)
    lists = []
    for _ in range(rng.choice([1, 2, 3])):
        entries = random_list(rng, steps, leasts)
        if rng.random() < 0.15:                    # too short, or longer than need be
            entries = entries[:rng.randint(0, len(entries))]
        elif rng.random() < 0.15:
            entries += [rng.randint(0, 2 ** 32 - 1) for _ in range(rng.randint(1, 5))]
        length = rng.choice([len(steps)] * 5 + [len(steps) + rng.randint(1, 9), rng.randint(0, len(steps))])
        lists.append((rng.random() < 0.8, entries, length))
    return lists


def table_length(rng: random.Random, sheet: bytes) -> int:
    """The length of the table lent for the plan: most often enough."""
    n = sheet[0] if sheet and 1 <= sheet[0] <= 64 else 8
    return rng.choice([n * n] * 4 + [4096, max(0, n * n - 1), rng.randint(0, n * n), min(4096, n * n + 3)])


def clash_length(rng: random.Random, enough: int) -> int:
    """The length of the list lent for the records that clash, where so many numbers are enough: most often that, or room for
    every record a sheet may have."""
    near = [max(0, enough - 1)] * 2 + [enough + rng.randint(1, 9), 0, rng.choice([0, MOST_CLASHING])]
    return rng.choice([512] * 4 + [enough] * 5 + near)


def clash_lines(rng: random.Random, sheet: bytes, verdicts: Counter) -> tuple[bytes, list[str]]:
    """The length of the list lent for the records of a sheet that clash, in bytes, and the lines for them."""
    verdict, after = p.clashes(sheet, [LENT] * 512)
    length = clash_length(rng, verdict[1] if verdict[0] == "ok" else rng.randint(0, 9))
    if length != 512:
        verdict, after = p.clashes(sheet, [LENT] * length)
    verdicts[verdict] += 1
    return two(length), [f"clash{said(verdict)}", numbers(after)]


def said(verdict: p.Verdict) -> str:
    """A verdict as it is printed."""
    return f" {verdict[1]}" if verdict[0] == "ok" else f" refused {verdict[1]}"


def numbers(after: list[int]) -> str:
    """Lent numbers after a call, as they are printed."""
    held = "".join(f" {i} {x}" for i, x in enumerate(after) if x < LENT)
    return f"numbers{held} undecided {after.count(p.UNDECIDED)} lent {after.count(LENT)}"


def row_lines(table: list[int], n: int) -> list[str]:
    """Rows of a table for n steps that are asked for: one in the middle, the last one, and the one past it."""
    lines = []
    for v in [n // 2] + ([n - 1] if n else []) + [n]:
        kind, got = p.row(table, n, v)
        lines += [f"row {v}{said((kind, 0 if kind == 'ok' else got))}", numbers(got if kind == "ok" else [])]
    return lines


def record(rng: random.Random, sheet: bytes, gap: bool, least: bool, verdicts: Counter, room: bytes,
           clash: list[str]) -> tuple[bytes, list[str]]:
    """The bytes for a sheet, and the lines for it; `room` and `clash` are those for the records that clash."""
    length = table_length(rng, sheet)
    lists = lists_for(rng, sheet, gap, least)
    data = two(len(sheet)) + sheet + room + two(length) + bytes([len(lists)])
    strict, free = p.judge(sheet, False), p.judge(sheet, True)
    maps, count, verdict = p.waits(sheet)
    verdicts[strict] += 1
    lines = [f"sheet {len(sheet)}", f"judge 0{said(strict)}", f"judge 1{said(free)}", f"waits{said(verdict)} {count}"]
    lines += [f"map {i} {bits}" for i, bits in enumerate(maps) if bits] + clash
    verdict, table = p.plan(sheet, True, [LENT] * length)
    verdicts[verdict] += 1
    lines += [f"plan{said(verdict)}", numbers(table)]
    lines += row_lines(table, sheet[0] if sheet else 0)
    for allow, entries, room in lists:
        data += bytes([allow]) + two(len(entries)) + two(room) + b"".join(x.to_bytes(4, "little") for x in entries)
        verdict, times = p.starts(sheet, allow, entries, [LENT] * room)
        verdicts[verdict] += 1
        lines += [f"starts{said(verdict)}", numbers(times)]
    return data, lines


def whole_sheet(draft: g.Draft) -> bytes:
    """The bytes of a draft."""
    steps, records = draft.pieces()
    return bytes([draft.n]) + two(len(records)) + b"".join(steps) + b"".join(records)


def largest_sheets(rng: random.Random) -> list[bytes]:
    """Sheets at the limits: N 64 and R 512 with and without waits, N 65, R 513, and bytes past the longest sheet."""
    sheets = []
    for waits in (False, True, True):
        draft = g.Draft(rng, smallest=64)
        draft.n, draft.top, draft.flat = 64, 65535, False
        draft.steps = [p.OPEN] + [p.OPEN if rng.random() < 0.4 else draft.number() for _ in range(63)]
        draft.order = [0] + rng.sample(range(1, 64), 63)
        draft.fields = {}
        draft.forward_part(0)
        while len(draft.fields) < 512:
            a, b = sorted(rng.sample(range(64), 2))
            draft.put(draft.order[a], draft.order[b], **draft.some_forward())
        draft.return_part(12 if waits else 0)
        sheets.append(whole_sheet(draft))
    whole = sheets[0]
    sheets.append(bytes([65]) + whole[1:])
    sheets.append(whole[:1] + two(513) + whole[3:])
    sheets.append(whole + b"\x00")
    sheets.append(whole[:-1])
    sheets.append(b"")
    return sheets


def longest_sheet(rng: random.Random, gap: bool) -> bytes:
    """The longest accepted sheet, with gaps or the longest without: all steps but 0 fixed, every field in every record."""
    draft = g.Draft(rng, smallest=64, finish=True)
    draft.n, draft.top, draft.flat = 64, 300, False
    draft.steps = [p.OPEN] + [rng.randint(1, 300) for _ in range(63)]
    draft.order = [0] + rng.sample(range(1, 64), 63)
    pairs = [(0, k) for k in range(1, 64)]
    pairs += rng.sample([(a, b) for a in range(1, 64) for b in range(a + 1, 64)], 512 - 63)
    draft.fields = {(draft.order[a], draft.order[b]): {"after": 1, "at_least": draft.number()} for a, b in pairs}
    for fields in draft.fields.values() if gap else ():
        fields["gap"] = draft.number()
    start = draft.base()
    for (i, j), fields in draft.fields.items():
        fields["at_most"] = start[j] - start[i] + draft.number()
        fields["from_end"] = start[j] - start[i] - (draft.steps[i] or 0) + draft.number()
    return whole_sheet(draft)


def around(sheet: bytes) -> list[bytes]:
    """A sheet, the same with a byte too much, and with a byte too few."""
    return [sheet, sheet + b"\x00", sheet[:-1]]


def largest_finish_sheets(rng: random.Random) -> list[bytes]:
    """Sheets at the limits, with limits from the end: the longest, a byte too long and too short, and N 64 and R 512 with
    open steps: without waits, with waits, and with waits that leave no times."""
    sheets = around(longest_sheet(rng, gap=False))
    for wanted in (("ok", 0), ("refused", 12), ("refused", 28)):
        while True:
            draft = g.Draft(rng, smallest=64, finish=True)
            draft.n, draft.top, draft.flat = 64, rng.choice([20, 65535]), False
            draft.steps = [p.OPEN] + [p.OPEN if rng.random() < 0.3 else draft.number() for _ in range(63)]
            draft.order = [0] + rng.sample(range(1, 64), 63)
            draft.fields = {}
            draft.forward_part(12)
            while len(draft.fields) < 480:
                a, b = sorted(rng.sample(range(64), 2))
                draft.put(draft.order[a], draft.order[b], **draft.some_forward())
            draft.return_part(0 if wanted == ("ok", 0) else 12)
            while len(draft.fields) < 512:         # an after link from 0 changes nothing
                draft.put(0, rng.randrange(1, 64), after=1)
                if all((0, v) in draft.fields for v in range(1, 64)):
                    break
            sheet = whole_sheet(draft)
            verdict = p.judge(sheet, False)
            if len(draft.fields) == 512 and verdict == wanted and "from the end of an open step" in g.finish_facts(sheet, verdict):
                sheets.append(sheet)
                break
    return sheets


def heaviest_sheet() -> bytes:
    """The sheet with the largest offset there can be, 8,191,875: a chain of steps of 65,535, each with a gap of 65,535."""
    steps = b"\x01" + (b"\x02" + two(65535)) * 63
    return bytes([64]) + two(63) + steps + b"".join(bytes([9, v, v + 1]) + two(65535) for v in range(63))


def largest_gap_sheets(rng: random.Random) -> list[bytes]:
    """Sheets at the limits, with gaps: the longest, a byte too long and too short, and the one with the largest offset."""
    return around(longest_sheet(rng, gap=True)) + [heaviest_sheet()]


def loose_draft(rng: random.Random) -> g.Draft:
    """A draft of 64 steps with 480 forward links, into 42 of them."""
    draft = g.Draft(rng, smallest=64, finish=True, gap=True, loose=True)
    entered = rng.sample(range(1, 64), 42)
    while len(draft.fields) < 480:
        a, b = sorted(rng.sample(range(64), 2))
        if draft.order[b] in entered:
            draft.put(draft.order[a], draft.order[b], **draft.some_forward())
    return draft


def fill_with_returns(draft: g.Draft) -> None:
    """Further records up to 512: that 0 comes at most so long after a step changes nothing."""
    for v in draft.rng.sample(range(1, 64), 63):
        draft.put(v, 0, at_most=draft.number())


def full_loose_sheet(rng: random.Random, wanted: p.Verdict) -> bytes:
    """A sheet of N 64 and R 512 with loose steps and this verdict where waits are not allowed."""
    while True:
        draft = loose_draft(rng)
        draft.return_part(0 if wanted == ("ok", 0) else 12)
        fill_with_returns(draft)
        sheet = whole_sheet(draft)
        if len(draft.fields) == 512 and p.judge(sheet, False) == wanted:
            return sheet


def only_returns(rng: random.Random) -> bytes:
    """A sheet of N 64 and R 512 without any forward link: every step hangs from the start."""
    draft = g.Draft(rng, smallest=64)
    pairs = rng.sample([(i, j) for i in range(64) for j in range(64) if i != j], 512)
    draft.fields = {pair: {"at_most": draft.number()} for pair in pairs}
    return whole_sheet(draft)


def chain_of_all(back: bool) -> bytes:
    """A chain of steps of 65,535, each with a gap of 65,535, from step 1 on, which is loose; with `back`, to 0 again: a circle."""
    ends = list(range(2, 64)) + ([0] if back else [])
    steps = b"\x01" + (b"\x02" + two(65535)) * 63
    return bytes([64]) + two(len(ends)) + steps + b"".join(bytes([9, (v or 64) - 1, v]) + two(65535) for v in ends)


def largest_loose_sheets(rng: random.Random) -> list[bytes]:
    """Sheets at the limits, with loose steps: N 64 and R 512 without waits, with waits, with waits that leave no times, and
    with returns alone; N 64 and R 0; and the longest chain whose first step is loose, open and closed."""
    full = [full_loose_sheet(rng, wanted) for wanted in (("ok", 0), ("refused", 12), ("refused", 28))]
    bare = bytes([64]) + two(0) + b"\x01" * 64
    return full + [only_returns(rng), bare, chain_of_all(False), chain_of_all(True)]


def full_least_sheet(rng: random.Random, wanted: p.Verdict) -> bytes:
    """A sheet of N 64 and R 512 with loose steps, all leasts 65,535, and this verdict where waits are not allowed."""
    while True:
        draft = loose_draft(rng)
        draft.leasts = [65535 if v and step is p.OPEN else 0 for v, step in enumerate(draft.steps)]
        draft.return_part(0 if wanted == ("ok", 0) else 12)
        fill_with_returns(draft)
        sheet = whole_sheet(draft)
        if len(draft.fields) == 512 and any(draft.leasts) and p.judge(sheet, False) == wanted:
            return sheet


def longest_least_sheets(rng: random.Random) -> list[bytes]:
    """The longest sheets with leasts: one that is accepted, in which steps without links out of them are open, with a least;
    and one with all steps open, leasts of 65,535 and every field in every record, all 65,535: 10."""
    draft = g.Draft(rng, smallest=64)
    pairs = rng.sample([(a, b) for a in range(64) for b in range(a + 1, 64)], 512)
    draft.n, draft.steps, draft.leasts = 64, [p.OPEN] * 64, [0] + [65535] * 63
    names = ("at_least", "at_most", "gap", "from_end")
    draft.fields = {(draft.order[a], draft.order[b]): {"after": 1} | dict.fromkeys(names, 65535) for a, b in pairs}
    accepted = bytearray(longest_sheet(rng, gap=True))
    busy = {link.i for link in p.read(bytes(accepted))[1][1]}
    for v in set(range(64)) - busy:
        accepted[3 * v + 1] = 5                    # behind the 3 bytes of N and R, the one of step 0 and 3 of each other step
    return [bytes(accepted), whole_sheet(draft)]


def long_hands(gap: int, limit: int | None, last_open: bool = True) -> bytes:
    """A chain of 63 open steps with leasts of 65,535, the last one fixed at times; gaps and limits from the end, if given."""
    steps = b"\x01" + (b"\x05" + two(65535)) * 62 + (b"\x05" if last_open else b"\x02") + two(65535)
    fields = two(gap) + (b"" if limit is None else two(limit))
    bits = 9 if limit is None else 25
    return bytes([64]) + two(63) + steps + b"".join(bytes([bits, v, v + 1]) + fields for v in range(63))


def heaviest_before_least() -> bytes:
    """The largest offset there can be, 8,191,875, on an open step with a least: a chain of fixed steps before it."""
    steps = b"\x01" + (b"\x02" + two(65535)) * 62 + b"\x05" + two(65535)
    return bytes([64]) + two(63) + steps + b"".join(bytes([9, v, v + 1]) + two(65535) for v in range(63))


def each_waits() -> bytes:
    """Open steps 1 to 62 with leasts of 65,535, and step 63 after each, 65,535 at most from the end of each, so that each waits
    for each other one: 28."""
    steps = b"\x01" + (b"\x05" + two(65535)) * 62 + b"\x00"
    return bytes([64]) + two(62) + steps + b"".join(bytes([17, v, 63]) + two(65535) for v in range(1, 63))


def hands_before(late: int) -> bytes:
    """A chain of 63 - `late` open steps with leasts of 65,535, each at most 65,535 after the end of the one before, so that
    returns of 131,070 add up; the last of them behind a chain of `late` fixed steps, each of 65,535 and a gap of 65,535."""
    hands = 63 - late
    steps = b"\x01" + (b"\x05" + two(65535)) * hands + (b"\x02" + two(65535)) * late
    fixed = [0, *range(hands + 1, 64), hands] if late else []
    links = {(v, v + 1): bytes([17, v, v + 1]) + two(65535) for v in range(1, hands)}
    links |= {(i, j): bytes([9, i, j]) + two(65535) for i, j in zip(fixed, fixed[1:])}
    return bytes([64]) + two(len(links)) + steps + b"".join(links[pair] for pair in sorted(links))


def largest_least_sheets(rng: random.Random) -> list[bytes]:
    """Sheets at the limits, with leasts: the longest, also a byte too long and too short; N 64 and R 512 without waits, with
    waits, with waits that leave no times; chains of open steps, the last at 8,191,875 in the list of all leasts, with limits
    from the ends that just hold, and just do not; the largest offset; and returns from the ends that add up."""
    accepted, refused = longest_least_sheets(rng)
    full = [full_least_sheet(rng, wanted) for wanted in (("ok", 0), ("refused", 12), ("refused", 28))]
    hands = [long_hands(65535, None), long_hands(65535, None, False), long_hands(65535, 65535), long_hands(65535, 65534),
             long_hands(0, 0)]
    back = [each_waits()] + [hands_before(late) for late in (0, 1, 31, 62)]
    return around(accepted) + [refused] + full + hands + [heaviest_before_least()] + back


def one_clashes(rng: random.Random, pair: tuple[int, int], kind: int) -> bytes:
    """A sheet of N 64 and R 512 with forward links alone, save that one record clashes with itself, as 10 or as 11; the second
    step of its pair comes right behind the first."""
    draft = g.Draft(rng, smallest=64, finish=True, gap=True, loose=True, least=True)
    first, second = pair
    draft.order.remove(second)
    draft.order.insert(draft.order.index(first) + 1, second)
    if kind == 10:
        draft.fields[pair] = {"after": 1, "at_least": 3, "gap": 7, "from_end": 6}
    else:
        draft.steps[first], draft.leasts[first] = p.OPEN, 9
        draft.fields[pair] = {"after": 1, "at_least": 9, "at_most": 65535}
    while len(draft.fields) < 512:
        a, b = sorted(rng.sample(range(64), 2))
        if (draft.order[a], draft.order[b]) != pair:
            draft.put(draft.order[a], draft.order[b], **draft.some_forward())
    return whole_sheet(draft)


def all_clash(rng: random.Random, kind: int) -> bytes:
    """A sheet of N 64 and R 512 in which every record clashes with itself, and so every two do, as 10 or as 11."""
    draft = g.Draft(rng, smallest=64)
    draft.steps = [p.OPEN] * 64
    first = 0 if kind == 10 else 1                 # the duration of step 0 counts as 0
    pairs = rng.sample([(a, b) for a in range(first, 64) for b in range(a + 1, 64)], 512)
    fields = {"after": 1, "gap": 7, "from_end": 6} if kind == 10 else {"after": 1, "at_most": 65535}
    draft.fields = {(draft.order[a], draft.order[b]): dict(fields) for a, b in pairs}
    return whole_sheet(draft)


def each_with_its_limit(kind: int) -> bytes:
    """A sheet of N 64 and R 512 in which each of eight steps comes before each of 55 others, and these at tick 0, so that every
    limit clashes with every record into its step, as 10 or as 11; no other two clash, and none with itself."""
    forward = b"\x02%c%c\x01\x00" if kind == 10 else b"\x01%c%c"
    links = {(0, j): b"\x04\x00" + bytes([j]) + two(0) for j in range(9, 64)}
    links |= {(i, j): forward % (i, j) for i in range(1, 9) for j in range(9, 64)}
    links |= {(j, 0): bytes([4, j, 0]) + two(j) for j in range(1, 18)}
    return bytes([64]) + two(len(links)) + b"\x01" * 64 + b"".join(links[pair] for pair in sorted(links))


def circle_of_all(rng: random.Random, kind: int, size: int) -> bytes:
    """A sheet of N 64 in which as many records clash as can: those of a chain of all steps and the limit from 0 on the last; for
    11 one step is open, and the after link from 0 is not among them. Further records that add nothing, up to `size`: at leasts of
    0, or for 11, where these made a shorter way, limits with room."""
    draft = g.Draft(rng, smallest=64, loose=True)
    draft.order = [0] + rng.sample(range(1, 64), 63)
    draft.steps = [p.OPEN] + [rng.randint(1, 900) for _ in range(63)]
    draft.fields = {pair: {"after": 1} for pair in zip(draft.order, draft.order[1:])}
    first = draft.order[1]
    draft.fields[0, first] = {"after": 1, "gap": 5}
    if kind == 11:
        draft.steps[first], draft.leasts[first] = p.OPEN, 7
    room = p.heaviest_from(64, draft.links(), {0: 0})[draft.order[-1]]
    draft.fields[0, draft.order[-1]] = {"at_most": room - (kind == 10)}
    if kind == 10:
        draft.fill(size, bare=True)
    while len(draft.fields) < size:
        a, b = sorted(rng.sample(range(2, 64), 2))
        draft.put(draft.order[a], draft.order[b], at_most=65535)
    return whole_sheet(draft)


def heaviest_circle(limit: int) -> bytes:
    """A circle through all 64 steps with the largest numbers: 32 links of 131,070 forward, 32 returns of as much, save that 0
    has no duration; with a last limit of 65,535 it weighs 0, with less it weighs more, and all 64 records clash."""
    ahead, back = list(range(33)), [32, *range(33, 64)]
    links = {(i, j): bytes([9, i, j]) + two(65535) for i, j in zip(ahead, ahead[1:])}
    links |= {(i, j): bytes([17, i, j]) + two(65535) for j, i in zip(back, back[1:])}
    links[0, 63] = bytes([4, 0, 63]) + two(limit)
    steps = b"\x01" + (b"\x02" + two(65535)) * 63
    return bytes([64]) + two(len(links)) + steps + b"".join(links[pair] for pair in sorted(links))


def largest_clash_sheets(rng: random.Random) -> list[bytes]:
    """Sheets at the limits, with records that clash: of N 64 and R 512, one alone, the first, the last or another; all, each
    with itself; each with some; as many as can; the longest sheet, a byte too long and too short; and some that are not
    impossible or have a circle."""
    ones = [one_clashes(rng, pair, kind) for pair in ((0, 1), (63, 62), (31, 32)) for kind in (10, 11) if pair[0] or kind == 10]
    alls = [all_clash(rng, kind) for kind in (10, 11)] + [each_with_its_limit(kind) for kind in (10, 11)]
    circles = [circle_of_all(rng, kind, size) for kind in (10, 11) for size in (64, 512, 512)]
    circles += [heaviest_circle(limit) for limit in (65534, 65535)]
    others = [full_least_sheet(rng, verdict) for verdict in (("ok", 0), ("refused", 28))]
    others += [bytes([64]) + two(0) + b"\x01" * 64, chain_of_all(True)]
    return ones + alls + circles + around(longest_least_sheets(rng)[1]) + others


def hands_into_one(behind: int) -> bytes:
    """Hands 1 to 31; step 32 after each of them, and each later step at least `behind` after the one before it. Each hand decides
    32 steps, the last of them at 31 times `behind`."""
    links = [bytes([1, a, 32]) for a in range(1, 32)] + [bytes([2, v, v + 1]) + two(behind) for v in range(32, 63)]
    return bytes([64]) + two(len(links)) + b"\x01" * 32 + b"\x00" * 32 + b"".join(links)


def chain_to(first: int, last: int) -> bytes:
    """A chain of all 64 steps: 1 comes `first` after 0, 62 then 61 times 16 later, and 63 `last` after that; in all 976 more than
    the two."""
    links = [bytes([9, 0, 1]) + two(first)] + [bytes([1, v, v + 1]) for v in range(1, 62)] + [bytes([9, 62, 63]) + two(last)]
    return bytes([64]) + two(63) + b"\x01" + (b"\x02" + two(16)) * 61 + b"\x02\x00\x00" * 2 + b"".join(links)


def one_gap(hand: bool, ticks: int) -> bytes:
    """Step 2 so many ticks after the end of step 1, a hand, or a step of 0 that hangs from the start."""
    return b"\x03\x01\x00\x01" + bytes([hand, 0, 9, 1, 2]) + two(ticks)


def full_price_sheet(rng: random.Random, wanted: p.Verdict, waits: bool) -> bytes:
    """A sheet of N 64 and R 512 with loose steps, small numbers and this verdict of its price, with waits or without."""
    while True:
        draft = loose_draft(rng)
        draft.top = 90
        draft.steps = [p.OPEN if step is p.OPEN else step % 20 for step in draft.steps]
        for fields in draft.fields.values():
            fields.update({name: fields[name] % 20 for name in ("at_least", "gap") if name in fields})
        draft.return_part(12 if waits else 0)
        fill_with_returns(draft)
        numbers = [fields for fields in draft.fields.values() if "at_least" in fields]
        if wanted == ("refused", 19):
            rng.choice(numbers)["at_least"] = 1024
        sheet = whole_sheet(draft)
        verdict = price.price(sheet, True, [0] * 64, [0] * 64)[0]
        if len(draft.fields) == 512 and verdict == wanted and bool(p.waits(sheet)[1]) == waits:
            return sheet


def largest_price_sheets(rng: random.Random) -> list[bytes]:
    """Sheets at the limits, to be priced: offsets of 1,023 and 1,024 of the start and of a hand, by one gap, by a chain of all
    steps and of many hands, with many comparisons; the largest offset there can be; and N 64 and R 512, priced and not, with
    waits and without."""
    gaps = [one_gap(hand, ticks) for hand in (False, True) for ticks in (1023, 1024, 65535)]
    chains = [chain_to(first, last) for first, last in ((0, 47), (47, 0), (23, 24), (24, 24), (48, 0), (0, 48))]
    hands = [hands_into_one(behind) for behind in (0, 1, 32, 33, 34)]
    full = [full_price_sheet(rng, *wanted) for wanted in ((("ok", 0), False), (("ok", 1), True), (("refused", 19), False),
                                                          (("refused", 19), True))]
    return gaps + chains + hands + [heaviest_sheet(), heaviest_before_least()] + full


def make(seed: int, count: int, largest: bool, finish: bool = False, gap: bool = False, loose: bool = False,
         least: bool = False, clash: bool = False, priced: bool = False,
         reports: Counter | None = None) -> tuple[bytes, str, Counter]:
    """The input, what has to be printed, and how often each verdict is given; those on the records that clash are counted in
    `reports` alone."""
    rng = random.Random(seed)
    least = least or clash or priced
    loose = loose or least
    gap = gap or loose
    at_limits = (largest_price_sheets if priced else largest_clash_sheets if clash else largest_least_sheets if least else
                 largest_loose_sheets if loose else largest_gap_sheets if gap else largest_finish_sheets if finish else
                 largest_sheets)
    sheets = (at_limits(rng) if largest else []) + g.generate(seed, count, finish, gap, loose, least, clash, priced)
    taken = LONGEST_SHEET + 1 if gap else 4802 if finish else 4095     # bytes; without gaps as the stored ones were taken
    verdicts: Counter = Counter()
    reports = Counter() if reports is None else reports
    data, lines = [], []
    for at, sheet in enumerate(sheets):
        if len(sheet) <= taken:
            room, clashing = clash_lines(random.Random(f"records that clash, seed {seed}, sheet {at}"), sheet, reports)
            more, text = record(rng, sheet, gap, least, verdicts, room, clashing)
            data.append(more)
            lines += text
    return b"".join(data), "\n".join(lines) + "\n", verdicts


def told(reports: Counter) -> str:
    """How often each verdict on the records that clash is given, in other words than the other verdicts."""
    return " ".join(f"clash of {k} records: {reports[kind, k]};" if kind == "ok" else f"clash refused as {k}: {reports[kind, k]};"
                    for kind, k in sorted(reports))


def main() -> None:
    """Write both files, and say how often each verdict is given, on the records that clash in a line apart."""
    words = argparse.ArgumentParser()
    words.add_argument("seed", type=int)
    words.add_argument("count", type=int)
    words.add_argument("stdin")
    words.add_argument("stdout")
    words.add_argument("--largest", action="store_true")
    words.add_argument("--finish", action="store_true")
    words.add_argument("--gap", action="store_true")
    words.add_argument("--loose", action="store_true")
    words.add_argument("--least", action="store_true")
    words.add_argument("--clash", action="store_true")
    words.add_argument("--price", action="store_true")
    words.add_argument("--and-finish", type=int, default=0, metavar="COUNT")
    words.add_argument("--and-gap", type=int, default=0, metavar="COUNT")
    words.add_argument("--and-loose", type=int, default=0, metavar="COUNT")
    words.add_argument("--and-least", type=int, default=0, metavar="COUNT")
    words.add_argument("--and-clash", type=int, default=0, metavar="COUNT")
    words.add_argument("--and-price", type=int, default=0, metavar="COUNT")
    asked = words.parse_args()
    reports: Counter = Counter()
    stdin, stdout, given = make(asked.seed, asked.count, asked.largest, asked.finish, asked.gap, asked.loose, asked.least,
                                asked.clash, asked.price, reports)
    for count, *kinds in ((asked.and_finish, False, False, False, False, False), (asked.and_gap, True, False, False, False, False),
                          (asked.and_loose, True, True, False, False, False), (asked.and_least, True, True, True, False, False),
                          (asked.and_clash, True, True, True, True, False), (asked.and_price, True, True, True, False, True)):
        if count:
            more, lines, verdicts = make(asked.seed, count, asked.largest, True, *kinds, reports)
            stdin, stdout, given = stdin + more, stdout + lines, given + verdicts
    with open(asked.stdin, "wb") as file:
        file.write(stdin)
    with open(asked.stdout, "w", encoding="ascii") as file:
        file.write(stdout)
    print(" ".join(f"{kind} {k}: {given[kind, k]};" for kind, k in sorted(given)), file=sys.stderr)
    print(told(reports), file=sys.stderr)


if __name__ == "__main__":
    main()
