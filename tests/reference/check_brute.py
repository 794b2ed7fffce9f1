"""Brute-force self-check of planner.py on small random sheets.

    python3 check_brute.py SECONDS [SEED] [finish | gap | loose | least | clash]

Everything here is worked out a second time, straight from document 01's
sentences, with no function of planner.py beyond those under test. With
finish, the sheets have limits from the end of a step (request L11), with
gap, gaps too (request L1), with loose, also steps that no forward link
enters (request L3), with least, least durations too (request L6), with
clash, all of this, and most of them are impossible (request L14); of
every sheet all is worked out as completed, over lists that respect the
leasts. Which records clash is worked out by judging every sheet that is
left when a record is dropped, written anew in bytes.
"""
from __future__ import annotations

import itertools
import random
import sys
import time
from collections import Counter

import generate
import planner as p
import runs

BIG = p.LONGEST
MOST_LISTS = 400               # for which the least rival without foresight is sought
MOST_PARTS = 64                # of a sheet that are all judged
IMPOSSIBLE = (("refused", 10), ("refused", 11))
LARGEST_OFFSET = 4_128_705     # without gaps, 63 links of 65,535
LARGEST_WITH_GAPS = 8_191_875  # of the 63 links, all but that out of step 0 may weigh as much again
Pair = tuple[int, int]
# A sheet here: steps (None open, else duration) and links (kind, i, j, number), i and j
# as in the record; the number of an after link is its gap, 0 if it has none. Kinds: after, least,
# most, end (at most, from the end of i).
LinkT = tuple[str, int, int, int]


class Steps(list):
    """Steps, None open, else the duration, with the least durations of the open ones, 0 elsewhere."""

    def __init__(self, steps: list, leasts: list[int] | None = None) -> None:
        super().__init__(steps)
        self.leasts = leasts or [0] * len(steps)

def late_parts(rng: random.Random) -> tuple[list, list[LinkT]]:
    """Steps and links of a sheet that is 28 without a circle, or nearly: 2 waits for 1 because of q,
    and 3 comes so and so long after 2, but at most `end` after the end of 1."""
    steps = [None, None, rng.choice([None, 0, 1]), rng.choice([None, 0, 2]), 0]
    q = rng.choice([3, 4])
    end = rng.randint(0, 2)
    links = [("after", 0, 1, 0), ("after", 0, 2, 0), ("after", 1, 3, 0), ("end", 1, 3, end),
             ("least", 2, 3, end + rng.randint(0, 2)), ("after", 1, 4, 0)]
    limit = rng.randint(0, 4)
    links += [("most", 2, q, limit)] if rng.random() < 0.6 else [("after", 2, q, 0), ("end", 2, q, limit)]
    return steps, sorted(set(links))


def clash_parts(rng: random.Random) -> tuple[list, list[LinkT]]:
    """Steps and links of a sheet that is 28 by a circle, or nearly: 3 and 4 after 1 and 2, with limits
    from the ends of these."""
    steps = [None, None, None, rng.choice([None, 0, 1]), rng.choice([None, 0, 2])]
    links = [("after", 0, 1, 0), ("after", 0, 2, 0), ("after", 1, 3, 0), ("after", 2, 4, 0)]
    links += rng.sample([("after", 1, 4, 0), ("after", 2, 3, 0), ("least", 3, 4, 1), ("most", 3, 4, 2), ("most", 4, 3, 1),
                         ("after", 3, 4, 0), ("least", 1, 2, 2)], rng.randint(1, 3))
    links += [("end", i, j, rng.randint(0, 3)) for kind, i, j, _ in links if kind == "after" and i and rng.random() < 0.6]
    return steps, sorted(links)


def with_gaps(rng: random.Random, links: list[LinkT]) -> list[LinkT]:
    """The links with gaps: on some after links, and in the place of some at leasts."""
    after = {(i, j) for kind, i, j, _ in links if kind == "after"}
    top = rng.choice([1, 2, 4])
    out = []
    for kind, i, j, number in links:
        if kind == "after" and rng.random() < 0.5:
            number = rng.randint(0, top)
        elif kind == "least" and (i, j) not in after and rng.random() < 0.3:
            kind = "after"
        out.append((kind, i, j, number))
    return sorted(out)


def random_parts(rng: random.Random, finish: bool) -> tuple[list, list[LinkT]]:
    """Steps and links of a small random sheet, mostly well-formed, of every verdict."""
    if finish and rng.random() < 0.2:
        return rng.choice([late_parts, clash_parts])(rng)
    n = rng.choice([1, 2, 3, 3, 4, 4, 4, 5, 5, 5, 5])
    wide = rng.random() < 0.6        # mostly straight after step 0: more waits
    if wide:
        n = rng.choice([4, 5, 5])
    top = rng.choice([1, 2, 4])
    share = rng.choice([0.4, 0.7, 0.9] if finish else [0.3, 0.6, 0.9])
    steps = [None] + [None if rng.random() < share else rng.randint(0, top) for _ in range(n - 1)]
    order = [0] + rng.sample(range(1, n), n - 1)
    pairs: set[tuple[str, int, int]] = set()

    def forward_pair(i: int, j: int) -> None:
        pairs.add((rng.choice(["after", "after", "least"]), i, j))

    if rng.random() < 0.95:
        for k in range(1, n):
            forward_pair(order[rng.choice([0, rng.randrange(k)]) if wide else rng.randrange(k)],
                         order[k])
    if n > 1:
        for _ in range(rng.randint(0, 2 if wide else n)):
            a, b = sorted(rng.sample(range(n), 2))
            if rng.random() < 0.03:
                a, b = b, a
            forward_pair(order[a], order[b])
        sets = start_sets(Steps(steps), [(kind, i, j, 0) for kind, i, j in sorted(pairs)])
        for _ in range(rng.choice([0, 0, 0, 1, 1, 2] if finish else [0, 1, 1, 2, 2, 3, 4])):
            i, j = rng.sample(range(n), 2)
            for _ in range(30 if wide else 0):     # look for a pair that needs a wait
                if i != 0 and sets[j] - sets[i] - {i} and i not in sets[j]:
                    break
                i, j = rng.sample(range(n), 2)
            pairs.add(("most", i, j))
            sets[i] |= sets[j]                     # so that returns follow each other
        if finish:
            share = rng.choice([0.3, 0.6, 0.9])
            pairs |= {("end", i, j) for kind, i, j in sorted(pairs)
                      if kind == "after" and rng.random() < (share if i else 0.1)}
    return steps, [(kind, i, j, 0 if kind == "after" else rng.randint(0, top * rng.choice([1, 3, 5])))
                   for kind, i, j in sorted(pairs)]


def edge_parts(rng: random.Random) -> tuple[list, list[LinkT], list[int]]:
    """Steps, links and leasts of a sheet whose verdict hangs on a least, or nearly.

    Either 2 after 1 and a limit on (1, 2) from its end, but 2 comes some time after the start of 1, or also a plain limit.
    Or 3 and the open 2 wait for the open 1; 4 comes some time after 3, but at most so long after the end of 2; and 5 some
    time after the start of 2, but at most so long after the end of 1.
    """
    if rng.random() < 0.5:
        steps = [None, None, rng.choice([None, 0, 1]), rng.choice([None, 0, 2])]
        links = [("after", 0, 1, 0), ("after", 1, 2, rng.choice([0, 0, 1])), ("end", 1, 2, rng.randint(0, 3)),
                 ("least", 1, 2, rng.randint(0, 6)),
                 (rng.choice(["after", "least"]), rng.choice([0, 1, 2]), 3, rng.randint(0, 2))]
        if rng.random() < 0.4:
            links.append(("most", rng.choice([0, 1]), 3, rng.randint(0, 6)))
        if rng.random() < 0.4:
            links.append(("least", 0, rng.choice([2, 3]), rng.randint(0, 8)))
        leasts = [rng.randint(0, 6) if v and step is None else 0 for v, step in enumerate(steps)]
        return steps, sorted({link[:3]: link for link in links}.values()), leasts
    from_2, behind, room, edge = rng.randint(0, 2), rng.randint(0, 2), rng.randint(0, 1), rng.randint(0, 3)
    links = [("after", 1, 5, 0), ("end", 1, 5, behind + room), ("after", 2, 4, 0), ("end", 2, 4, from_2),
             ("least", 3, 4, from_2 + room + edge), ("least", 2, 5, behind), ("most", 3, 5, from_2 + room + edge + behind)]
    leasts = [0, rng.choice([0, 0, 2]), max(0, edge + rng.choice([-1, 0, 0, 1])), 0, 0, 0]
    return [None, None, None, rng.choice([0, 1]), 0, 0], sorted(links), leasts


def some_leasts(rng: random.Random, steps: list) -> list[int]:
    """Least durations for some of the open steps."""
    top, share = rng.choice([1, 2, 4, 8]), rng.choice([0.4, 0.8, 1.0])
    return [rng.randint(0, top) if v and step is None and rng.random() < share else 0 for v, step in enumerate(steps)]


def left_loose(rng: random.Random, n: int, links: list[LinkT]) -> list[LinkT]:
    """The links without those that lead forward into some of the steps, often just those after the start alone; at times
    with a return or an at least into such a step, with a limit from step 0, or with a forward link into step 0."""
    others = range(1, n)
    if not others:
        return links
    after_start = [v for v in others if all(i == 0 for kind, i, j, _ in links if j == v and kind != "most")]
    chosen = rng.choice([[1], [n - 1], list(others), *[[v for v in others if rng.random() < 0.5]] * 2, *[after_start] * 4])
    out = [link for link in links if link[0] == "most" or link[2] not in chosen]
    for v in chosen:
        u = rng.choice([u for u in range(n) if u != v])
        out += rng.choice([[]] * 8 + [[("least", u, v, rng.randint(0, 2))], [("most", v, u, rng.randint(0, 3))]])
    if rng.random() < 0.25:
        out.append(("most", 0, rng.choice(others), rng.randint(0, 4)))
    if rng.random() < 0.06:
        out.append((rng.choice(["after", "least"]), rng.choice(others), 0, 0))
    return sorted({link[:3]: link for link in out}.values())


def tightened(rng: random.Random, n: int, links: list[LinkT]) -> list[LinkT]:
    """The links with one limit more or several, most often on a pair that some chain of forward links leads along, or from 0;
    at times a limit from the end, with its after link."""
    ahead = {(i, j) for kind, i, j, _ in links if kind in ("after", "least")}
    for _ in range(n):
        ahead |= {(i, k) for i, j in ahead for x, k in ahead if x == j and i != k}
    out = {link[:3]: link for link in links}
    for _ in range(rng.choice([1, 1, 2, 3, 5]) if n > 1 else 0):
        i, j = rng.choice(sorted(ahead) or [(0, 1)])
        if rng.random() < 0.4:
            i = 0 if j else i
        if rng.random() < 0.1:
            i, j = rng.sample(range(n), 2)
        if rng.random() < 0.3 and (i == 0 or (i, j) in ahead):
            out.setdefault(("after", i, j), ("after", i, j, 0))
            out["end", i, j] = ("end", i, j, rng.choice([0, rng.randint(0, 4), rng.randint(5, 30)]))
        else:
            out["most", i, j] = ("most", i, j, rng.choice([0, rng.randint(0, 9), rng.randint(10, 40), rng.randint(10, 40)]))
    return sorted(out.values())


def completed(steps: list, links: list[LinkT]) -> list[LinkT]:
    """The links, and an after link from 0 to each other step that no after and no at least leads into."""
    entered = {j for kind, _, j, _ in links if kind in ("after", "least")}
    return links + [("after", 0, v, 0) for v in range(1, len(steps)) if v not in entered]


def encode(steps: list, links: list[LinkT], bare: bool = True) -> bytes:
    """The sheet in bytes; bare: a gap of 0 is no field."""
    records: dict[Pair, dict[str, int]] = {}
    for kind, i, j, number in links:
        records.setdefault((i, j), {})[kind] = number
        if kind == "after" and (number or not bare):
            records[i, j]["gap"] = number
    out = bytes([len(steps)]) + len(records).to_bytes(2, "little")
    for v, step in enumerate(steps):
        if steps.leasts[v]:
            out += b"\x05" + steps.leasts[v].to_bytes(2, "little")
            continue
        out += b"\x01" if step is None else b"\x00" if step == 0 else b"\x02" + step.to_bytes(2, "little")
    for (i, j), fields in sorted(records.items()):
        out += bytes([("after" in fields) + 2 * ("least" in fields) + 4 * ("most" in fields)
                      + 8 * ("gap" in fields) + 16 * ("end" in fields), i, j])
        for kind in ("least", "most", "gap", "end"):
            if kind in fields:
                out += fields[kind].to_bytes(2, "little")
    return out


def duration(steps: list, durations: list[int], v: int) -> int:
    """The duration of v: fixed, from the list, 0 for step 0."""
    return 0 if v == 0 else durations[v] if steps[v] is None else steps[v]


def keeps(steps: list, links: list[LinkT], durations: list[int], start: list[int]) -> bool:
    """Whether start times keep every link, each link's line as written."""
    for kind, i, j, number in links:
        if kind == "after" and not start[j] >= start[i] + duration(steps, durations, i) + number:
            return False
        if kind == "least" and not start[j] >= start[i] + number:
            return False
        if kind == "most" and not start[j] <= start[i] + number:
            return False
        if kind == "end" and not start[j] <= start[i] + duration(steps, durations, i) + number:
            return False
    return start[0] == 0


def solve(steps: list, links: list[LinkT], durations: list[int]) -> list[int] | None:
    """The least start times (none negative) that keep every link, or None: raise what must
    be raised, and give up once step 0 moves or N rounds have all moved something."""
    start = [0] * len(steps)
    for _ in range(len(steps) + 1):
        moved = False
        for kind, i, j, number in links:
            if kind == "most":
                low, at = start[j] - number, i
            elif kind == "end":
                low, at = start[j] - number - duration(steps, durations, i), i
            else:
                low = start[i] + number + (duration(steps, durations, i) if kind == "after" else 0)
                at = j
            if start[at] < low:
                start[at] = low
                moved = True
        if start[0] > 0:
            return None
        if not moved:
            return start
    return None


def solve_by_trying(steps: list, links: list[LinkT], durations: list[int], top: int):
    """All start times up to `top` that keep every link, tried one by one."""
    return [start for start in itertools.product([0], *[range(top + 1)] * (len(steps) - 1))
            if keeps(steps, links, durations, start)]


def moves(steps: list, links: list[LinkT]) -> list[tuple[int, int, int, str]]:
    """Every link as a walk follows it: from, to, weight with open durations at their least, kind (end only
    of an open step, else most)."""
    out = []
    for kind, i, j, number in links:
        if kind == "most":
            out.append((j, i, -number, kind))
        elif kind == "end":
            out.append((j, i, -number - (steps[i] or steps.leasts[i]), kind if open_end(steps, kind, i) else "most"))
        else:
            out.append((i, j, number + (steps[i] or steps.leasts[i] if kind == "after" else 0), kind))
    return out


def first_out_of(steps: list, every: list, a: int) -> list[tuple[int, int, int, str]]:
    """The after links out of a, as the first of a walk that counts from its end: no least is added."""
    return [(s, t, w - steps.leasts[a], kind) for s, t, w, kind in every if s == a and kind == "after"]


def open_end(steps: list, kind: str, i: int) -> bool:
    """Whether a link of this kind on (i, j) is a limit from the end of an open step other than 0."""
    return kind == "end" and i != 0 and steps[i] is None


def from_end_of(a: int, every: list) -> list:
    """The links that a walk may take that counts from the end of a."""
    return [m for m in every if not (m[3] == "end" and m[1] == a)]


def sound_links(steps: list, links: list[LinkT], sets: list[set[int]]) -> bool:
    """Whether start sets meet the rule for sound, with i added for a limit from the end of an open i."""
    return all(sets[j] <= sets[i] | ({i} if open_end(steps, kind, i) else set())
               for kind, i, j, _ in links if kind in ("most", "end"))


def walks(allowed: list, first: list, length: int) -> set[Pair]:
    """(end, weight) of every walk of 1 to `length` links whose first link is in `first`."""
    layer = {(t, w) for _, t, w, _ in first}
    found = set(layer)
    for _ in range(length - 1):
        layer = {(t, weight + w) for end, weight in layer for s, t, w, _ in allowed if s == end}
        found |= layer
    return found


def start_sets(steps: list, links: list[LinkT]) -> list[set[int]]:
    """Start sets by trying every chain of up to N forward links."""
    ahead = [m for m in moves(steps, links) if m[3] in ("after", "least")]
    sets = [{0} for _ in steps]
    for a in range(1, len(steps)):
        if steps[a] is None:
            for end, _ in walks(ahead, [m for m in ahead if m[0] == a and m[3] == "after"],
                                len(steps)):
                sets[end].add(a)
    return sets


def lists(rng: random.Random, steps: list) -> list[list[int]]:
    """Many lists of durations: every mix of the least, one more and the longest, one alone, random ones; none below its least."""
    opens = [v for v in range(1, len(steps)) if steps[v] is None]
    choices = list(itertools.product([0, 1, BIG], repeat=len(opens)))
    choices += [tuple(rng.choice([0, 1, 2, 3, 5, 8, 1000, BIG - 1, BIG]) for _ in opens)
                for _ in range(15)]
    choices += [tuple(rng.randint(0, 6) for _ in opens) for _ in range(25)]
    out = []
    for choice in choices:
        one = [0] * len(steps)
        for v, d in zip(opens, choice):
            one[v] = d + (steps.leasts[v] if d < 1000 else 0)
        out.append(one)
    return out


def closes_circle(steps: list, links: list[LinkT]) -> bool:
    """Whether the forward links close a circle, by trying every chain of up to N of them."""
    ahead = [m for m in moves(steps, links) if m[3] in ("after", "least")]
    return any(end == v for v in range(len(steps))
               for end, _ in walks(ahead, [m for m in ahead if m[0] == v], len(steps)))


def expected_refusal(steps: list, links: list[LinkT], many: list[list[int]]) -> int:
    """0, 8, 10 or 11, by trying chains, walks and lists of durations; the links are completed."""
    n = len(steps)
    ahead = [m for m in moves(steps, links) if m[3] in ("after", "least")]
    if closes_circle(steps, links):
        return 8
    assert all(target != 0 for _, target, _, _ in ahead)                   # every forward link into 0 is 8
    chained = {end for end, _ in walks(ahead, [m for m in ahead if m[0] == 0], n)} | {0}
    assert len(chained) == n                                               # 9 never occurs
    if solve(steps, links, steps.leasts) is None:
        return 10
    if any(solve(steps, links, one) is None for one in many):
        return 11
    return 0


def check_starts(steps, links, waits, sheet, many, offsets) -> None:
    """Starts keep all links and waits, are the least such, and follow the start rule. (With a limit
    from the end of an open step, one who knows the list could start steps earlier.)"""
    n = len(steps)
    ends = any(open_end(steps, kind, i) for kind, i, _, _ in links)
    whole = links + [("after", a, i, 0) for a, i in waits]
    for one in many:
        verdict, start = p.starts(sheet, True, one, [77] * (n + 1))
        assert verdict == ("ok", 1 if waits else 0) and start[n:] == [77]
        start = start[:n]
        assert keeps(steps, whole, one, start)
        least = solve(steps, whole, one)
        assert start == least or (ends and all(x >= y for x, y in zip(start, least)))
        for v in range(1, n):
            assert start[v] == max(start[a] + one[a] + offsets[v][a] for a in offsets[v])
    if n <= 4 and not ends:
        one = [least + min(d - least, 2) for d, least in zip(many[-1], steps.leasts)]
        _, start = p.starts(sheet, True, one, [0] * n)
        top = max(start) + 1
        if top <= 12:
            tried = solve_by_trying(steps, whole, one, top)
            assert tuple(start) in tried
            assert all(x >= y for other in tried for x, y in zip(other, start))


def check_deciding(steps, sheet, many, offsets, table) -> None:
    """The deciding set is the one smallest part with the same largest value on every list,
    and a member is dropped exactly if dropping it alone changes no start."""
    n = len(steps)
    starts = [p.starts(sheet, True, one, [0] * n)[1] for one in many]
    for v in range(n):
        decides = {a for a in range(n) if table[v * n + a] != p.UNDECIDED}
        assert decides <= set(offsets[v])
        assert all(table[v * n + a] == offsets[v][a] for a in decides)
        if v == 0:
            assert decides == {0}
            continue
        values = [{a: start[a] + one[a] + offsets[v][a] for a in offsets[v]}
                  for one, start in zip(many, starts)]
        same = []
        for size in range(1, len(offsets[v]) + 1):
            for part in itertools.combinations(sorted(offsets[v]), size):
                if all(max(value[a] for a in part) == max(value.values()) for value in values):
                    same.append(set(part))
        assert [part for part in same if len(part) == len(same[0])] == [decides]
        for a in offsets[v]:
            rest = set(offsets[v]) - {a}
            unchanged = bool(rest) and all(max(value[b] for b in rest) == max(value.values())
                                           for value in values)
            assert unchanged == (a not in decides)


def check_run(rng, steps, sheet, table, many) -> None:
    """A run whose open steps last as listed starts each step at its start, not before."""
    n = len(steps)
    small = [one for one in many if max(one) <= 8 + max(steps.leasts)]
    one = rng.choice(small)
    _, planned = p.starts(sheet, True, one, [0] * n)
    open_map = sum(1 << v for v in range(n) if steps[v] is None)
    (kind, bits), state = p.begin(p.State(), n, open_map, steps.leasts, table)
    assert kind == "ok"
    seen = {v: 0 for v in range(n) if bits >> v & 1}
    for now in range(max(planned) + 2):
        if now:
            (kind, bits), state = p.tick(state, table)
            assert kind == "ok"
            seen |= {v: now for v in range(n) if bits >> v & 1}
        ended = True
        while ended:
            ended = False
            for v in range(1, n):
                early = v in seen and now < seen[v] + steps.leasts[v]
                assert not early or p.finish(state, v, table) == (("refused", 20), state)
                if steps[v] is None and seen.get(v) == now - one[v] and not state.finished >> v & 1:
                    (kind, bits), state = p.finish(state, v, table)
                    assert kind == "ok"
                    seen |= {w: now for w in range(n) if bits >> w & 1}
                    ended = True
    assert [seen[v] for v in range(n)] == planned == list(state.start[:n])


def passed_over(steps, state, given, table) -> bool:
    """Whether a state given is the one before after some ticks that start nothing."""
    while state.tick < given.tick:
        verdict, state = p.tick(state, table)
        if verdict != ("ok", 0):
            return False
    return state == given


def check_random_run(rng, steps, sheet, offsets, tally) -> None:
    """A run with wrong calls between, begun with the sheet's own: each call's answer once more from the state before, a refusal
    changes nothing, no step lasts less than its least, and each step starts at its planned tick over the durations reported."""
    n = len(steps)
    made = runs.random_run(rng, sheet)
    state = p.State()
    for at, call in enumerate(made.calls):
        before = state if call.given is None else call.given
        if call.given is not None and at < made.from_anywhere:
            assert passed_over(steps, state, call.given, made.table)
        verdict, state = runs.answer(before, call, made.table)
        assert (verdict, state) == (call.verdict, call.state)
        if verdict[0] == "refused":
            assert state == before
            tally[f"run, {call.name} refused {verdict[1]}"] += 1
    own = [call for call in made.calls[:made.from_anywhere] if call.verdict[0] == "ok"]
    if not own:
        return
    last = own[-1].state
    assert last.least == tuple(steps.leasts) + (0,) * (64 - n) and own[0].name == "begin"
    lasted = [last.finish[v] - last.start[v] for v in range(n)]
    for v in range(1, n):
        if last.finished >> v & 1:
            assert steps[v] is None and lasted[v] >= steps.leasts[v]
            tally["run, finished at the least"] += lasted[v] == steps.leasts[v] > 0
        if all(last.finished >> a & 1 for a in range(n) if made.table[v * n + a] != p.UNDECIDED):
            assert all(last.finished >> a & 1 for a in offsets[v])
            planned = max(last.start[a] + lasted[a] + offsets[v][a] for a in offsets[v])
            assert (last.start[v] == planned) if last.started >> v & 1 else planned > last.tick
            tally["run, planned ticks"] += last.started >> v & 1


def check_rivals(rng, steps, links, sheet, many) -> bool:
    """No sound rival's sheet starts a step before ours; whether a rival was met."""
    n = len(steps)
    more = [("after" if rng.random() < 0.8 else "least", *rng.sample(range(n), 2), 0)
            for _ in range(rng.randint(1, 4))]
    rival = links + more
    sets = start_sets(steps, rival)
    if not sound_links(steps, rival, sets):
        return False
    for one in many:
        theirs = solve(steps, rival, one)
        if theirs is not None:
            _, ours = p.starts(sheet, True, one, [0] * n)
            assert all(x <= y for x, y in zip(ours, theirs))
    return True


def least_without_foresight(steps: list, links: list[LinkT], longest: int) -> dict | None:
    """The least start times for every list of durations from the leasts up to `longest` more by a rival that
    does not know the future, or None if there is no such rival.

    From 0 on, raise what some link demands, and a start that comes while two lists, apart in the
    duration of one step c, cannot be told apart (c has ended under neither), but under the other list
    comes later. Whoever keeps every link and starts the same steps then starts no earlier: if all its
    starts are at least those reached so far, its c ends no earlier and it cannot tell the lists apart
    either. What is left when nothing has to be raised is itself such a rival's. Where it has no end,
    starts pass three times the longest way forward.
    """
    n = len(steps)
    opens = [v for v in range(1, n) if steps[v] is None]
    way = sum(number for kind, _, _, number in links if kind in ("after", "least")) + sum(d or 0 for d in steps)
    way += sum(longest + steps.leasts[a] for a in opens)
    ranges = [range(steps.leasts[a], steps.leasts[a] + longest + 1) for a in opens]
    start = {}
    for choice in itertools.product(*ranges):
        start[choice] = [0] * n
    durations = {choice: [dict(zip(opens, choice)).get(v, 0) for v in range(n)] for choice in start}
    moved = True
    while moved:
        moved = False
        for choice, times in start.items():
            raised = True
            while raised:
                raised = False
                for kind, i, j, number in links:
                    if kind in ("most", "end"):
                        end = duration(steps, durations[choice], i) if kind == "end" else 0
                        low, at = times[j] - number - end, i
                    else:
                        low = times[i] + number + (duration(steps, durations[choice], i) if kind == "after" else 0)
                        at = j
                    if times[at] < low:
                        times[at] = low
                        raised = moved = True
                if times[0] > 0 or max(times) > 3 * way:
                    return None
        for choice, times in start.items():
            for at, c in enumerate(opens):
                for d in ranges[at]:
                    if d != choice[at]:
                        other = start[choice[:at] + (d,) + choice[at + 1:]]
                        until = min(times[c] + choice[at], other[c] + d)
                        for v in range(n):
                            if times[v] < until and times[v] < other[v]:
                                times[v] = min(other[v], until)
                                moved = True
    return {tuple(durations[choice]): times for choice, times in start.items()}


def check_foresight(steps, links, sheet, accepted: bool) -> bool:
    """Our starts are those of the least rival without foresight; a sheet that is 28 has no rival.

    With durations up to `longest` above the leasts only, a rival may know that a step which has run for long ends soon;
    of use is that only where the end is no further off than all limits taken together. Says whether
    the lists were few enough.
    """
    limits = sum(number + (steps[i] or steps.leasts[i] if kind == "end" else 0)
                 for kind, i, _, number in links if kind in ("most", "end"))
    longest = limits + 2
    opens = [v for v in range(1, len(steps)) if steps[v] is None]
    if (longest + 1) ** len(opens) > MOST_LISTS:
        return False
    rival = least_without_foresight(steps, links, longest)
    assert (rival is not None) == accepted
    if rival:
        for one, theirs in rival.items():
            if max(d - least for d, least in zip(one, steps.leasts)) <= longest - limits:
                assert p.starts(sheet, True, list(one), [0] * len(steps))[1] == theirs
    return True


def check_knows_nothing(steps, sheet) -> None:
    """Under two lists our starts are the same up to the first end of a step whose durations differ."""
    opens = [v for v in range(1, len(steps)) if steps[v] is None]
    known = []
    for choice in itertools.product([0, 1, 3], repeat=len(opens)):
        one = [steps.leasts[v] + dict(zip(opens, choice)).get(v, 0) for v in range(len(steps))]
        known.append((one, p.starts(sheet, True, one, [0] * len(steps))[1]))
    for (one, times), (other, theirs) in itertools.combinations(known, 2):
        until = min(min(times[c] + one[c], theirs[c] + other[c]) for c in opens if one[c] != other[c])
        assert all(x == y or min(x, y) >= until for x, y in zip(times, theirs))


def refused_so(sheet: bytes, number: int) -> None:
    """Every call that judges, lists waits, plans or works out starts gives this refusal."""
    no = ("refused", number)
    for allow in (False, True):
        assert p.judge(sheet, allow) == no
        assert p.plan(sheet, allow, [4] * 3) == (no, [4] * 3)
        assert p.starts(sheet, allow, [9], [4]) == (no, [4])
    assert p.waits(sheet) == ([0] * 64, 0, no)
    assert p.standplan_text(sheet) == f"refused {number}\n"


def spelled_out(steps: list, links: list[LinkT]) -> bytes:
    """The sheet in bytes, without gaps: between i and j a further step that lasts for the gap. The after
    link itself stays, for a limit from the end of i."""
    longer = Steps(steps, list(steps.leasts))
    plain = []
    for kind, i, j, number in links:
        if kind == "after" and number:
            plain += [(kind, i, len(longer), 0), (kind, len(longer), j, 0), (kind, i, j, 0)]
            longer.append(number)
            longer.leasts.append(0)
        else:
            plain.append((kind, i, j, number))
    return encode(longer, plain)


def check_spelled_out(rng: random.Random, steps: list, links: list[LinkT], sheet: bytes) -> bool:
    """A gap is the same as a further step that lasts as long: of the sheet's own steps each answer is
    the same. Says whether that is a sheet within the limits."""
    n = len(steps)
    gaps = sum(number > 0 for kind, _, _, number in links if kind == "after")
    if n + gaps > 64 or len({(i, j) for _, i, j, _ in links}) + 2 * gaps > 512:
        return False
    plain = spelled_out(steps, links)
    wide = n + gaps
    assert p.waits(plain) == p.waits(sheet)
    for allow in (False, True):
        assert p.judge(plain, allow) == p.judge(sheet, allow)
    if p.judge(sheet, True)[0] == "ok":
        table, longer = p.plan(sheet, True, [0] * (n * n))[1], p.plan(plain, True, [0] * (wide * wide))[1]
        assert table == [longer[v * wide + a] for v in range(n) for a in range(n)]
        one = some_list(rng, steps)
        assert p.starts(sheet, True, one, [0] * n)[1] == p.starts(plain, True, one + [0] * gaps, [0] * wide)[1][:n]
    return True


def some_list(rng: random.Random, steps: list) -> list[int]:
    """A list of durations that respects the leasts."""
    return [steps.leasts[v] + rng.randint(0, 9) if v and steps[v] is None else 0 for v in range(len(steps))]


def check_least_as_steps(rng: random.Random, steps: list, links: list[LinkT], sheet: bytes) -> bool:
    """A step with a least is the same as a fixed step that lasts so long with an open one just behind it, from which all that
    counts from the end then counts: of the sheet's own steps each answer is the same, save that the limit between the two calls
    for waits of both where there is one further ahead. Says whether that is a sheet within the limits."""
    n = len(steps)
    hands = [a for a in range(1, n) if steps.leasts[a]]
    behind = {a: n + k for k, a in enumerate(hands)}
    split = [steps.leasts[v] if v in behind else step for v, step in enumerate(steps)] + [None] * len(hands)
    plain = [(kind, behind.get(i, i) if kind in ("after", "end") else i, j, number) for kind, i, j, number in links]
    plain += [link for a in hands for link in (("after", a, behind[a], 0), ("most", a, behind[a], steps.leasts[a]))]
    wide = n + len(hands)
    if wide > 64 or len({(i, j) for _, i, j, _ in plain}) > 512:
        return False
    other = encode(Steps(split), plain)
    assert not any(p.read(other)[1][2])
    for allow in (False, True):
        assert p.judge(other, allow) == p.judge(sheet, allow)
    own = {behind.get(a, a): a for a in range(n)}      # the step that an open step stands for
    theirs = {(own[a], i) for i, bits in enumerate(p.waits(other)[0][:n]) for a in own if bits >> a & 1}
    waits = {(a, i) for i, bits in enumerate(p.waits(sheet)[0]) for a in range(n) if bits >> a & 1}
    assert waits <= theirs
    if p.judge(sheet, True)[0] == "ok":
        sets = p.start_sets(p.accept(sheet, True).steps, p.accept(sheet, True).links)
        assert all(a in sets[i] for a, i in theirs - waits)
        table, wider = p.plan(sheet, True, [0] * (n * n))[1], p.plan(other, True, [0] * (wide * wide))[1]
        assert table == [wider[v * wide + behind.get(a, a)] for v in range(n) for a in range(n)]
        assert all(wider[v * wide + a] == p.UNDECIDED for v in range(n) for a in hands)
        one = some_list(rng, steps)
        longer = [0 if v in behind else d for v, d in enumerate(one)] + [one[a] - steps.leasts[a] for a in hands]
        assert p.starts(sheet, True, one, [0] * n)[1] == p.starts(other, True, longer, [0] * wide)[1][:n]
        if hands:
            a = rng.choice(hands)
            for low in (steps.leasts[a] - 1, rng.randrange(steps.leasts[a])):
                assert p.starts(sheet, True, one[:a] + [low] + one[a + 1:], [3] * n) == (("refused", 13), [3] * n)
            assert p.starts(sheet, True, steps.leasts, [0] * n)[0][0] == "ok"
    return True


def check_written_out(rng: random.Random, steps: list, whole: list[LinkT], sheet: bytes) -> bool:
    """A sheet gives the same answers as that with the links from 0 written out, which are in `whole`. Says
    whether that is a sheet within the limits."""
    n = len(steps)
    if len({(i, j) for _, i, j, _ in whole}) > 512:
        return False
    written = encode(steps, whole)
    assert p.waits(written) == p.waits(sheet) and p.standplan_text(written) == p.standplan_text(sheet)
    one = some_list(rng, steps)
    for allow in (False, True):
        assert p.judge(written, allow) == p.judge(sheet, allow)
        assert p.plan(written, allow, [5] * (n * n)) == p.plan(sheet, allow, [5] * (n * n))
        assert p.starts(written, allow, one, [5] * n) == p.starts(sheet, allow, one, [5] * n)
    return True


def records_in(links: list[LinkT]) -> list[Pair]:
    """The pairs of the sheet's records, as they are written."""
    return sorted({(i, j) for _, i, j, _ in links})


def judge_part(steps: list, links: list[LinkT], pairs: list[Pair]) -> p.Verdict:
    """The verdict on the sheet of these records alone, written anew. As that of a part of a well-formed sheet it is never 8."""
    verdict = p.judge(encode(steps, [link for link in links if link[1:3] in pairs]), True)
    assert verdict != ("refused", 8)
    return verdict


def dropped_one_by_one(steps: list, links: list[LinkT]) -> list[Pair]:
    """What stays when each record, from the last to the first, is dropped whose loss leaves the sheet still impossible."""
    stay = records_in(links)
    for pair in reversed(records_in(links)):
        rest = [other for other in stay if other != pair]
        if judge_part(steps, links, rest) in IMPOSSIBLE:
            stay = rest
    return stay


def check_parts(rng: random.Random, steps: list, links: list[LinkT]) -> int:
    """Every part of a well-formed sheet, or some: none is 8, and one that is impossible makes impossible every part that has
    its records and more. How many parts were judged."""
    pairs = records_in(links)
    if 2 ** len(pairs) <= MOST_PARTS:
        parts = [set(part) for size in range(len(pairs) + 1) for part in itertools.combinations(pairs, size)]
    else:
        parts = [set(rng.sample(pairs, rng.randint(0, len(pairs)))) for _ in range(6)]
        parts += [part | {rng.choice(pairs)} for part in parts] + [set(pairs)]
    bad = [part for part in parts if judge_part(steps, links, sorted(part)) in IMPOSSIBLE]
    for part in parts:
        assert part in bad or not any(other <= part for other in bad)
    return len(parts)


def check_clashes(rng: random.Random, steps: list, links: list[LinkT], sheet: bytes, refusal: int, tally: Counter) -> None:
    """The records that clash, of a sheet that is read and is refused so or not at all (0); the links are those sent."""
    if refusal not in (10, 11):
        for lent in ([], [7] * 3):
            assert p.clashes(sheet, lent) == (("refused", 8 if refusal == 8 else 31), lent)
        if refusal != 8:
            tally["parts of sheets that are 31"] += check_parts(rng, steps, links)
        return
    (kind, count), lent = p.clashes(sheet, [-1] * 9 + [-2] * 503)
    report = lent[:count]
    assert kind == "ok" and lent[count:] == ([-1] * 9 + [-2] * 503)[count:]
    pairs = records_in(links)
    assert 1 <= count <= len(steps) and report == sorted(set(report)) and 0 <= report[0] and report[-1] < len(pairs)
    part = [pairs[number] for number in report]
    assert part == dropped_one_by_one(steps, links)
    # The part is impossible, and without any one of its records it is not: by judging, and by trying lists of durations.
    found = [link for link in links if link[1:3] in part]
    verdict = judge_part(steps, links, part)
    assert verdict in IMPOSSIBLE
    many = lists(rng, steps)
    assert expected_refusal(steps, completed(steps, found), many) == verdict[1]
    for pair in part:
        assert judge_part(steps, links, [other for other in part if other != pair]) not in IMPOSSIBLE
        fewer = [link for link in found if link[1:3] != pair]
        assert expected_refusal(steps, completed(steps, fewer), many[::4]) == 0
    for room in {0, count - 1, count, count + 1}:
        short, after = p.clashes(sheet, [-3] * room)
        assert (short, after) == ((("refused", 14), [-3] * room) if room < count else
                                  (("ok", count), report + [-3] * (room - count)))
    tally["parts of impossible sheets"] += check_parts(rng, steps, links)
    tally[f"clash of {count}, the sheet {refusal}, the part {verdict[1]}"] += 1
    entered = {j for kind, _, j, _ in links if kind in ("after", "least")}
    hang = {j for _, _, j, _ in completed(steps, found)[len(found):]}
    if entered & hang & {j for _, *pair, _ in found for j in pair}:
        tally["clash in which a step hangs from the start by what was dropped"] += 1
    if dropped_apart(steps, links) != part:
        tally["clash that would be another without the links from 0 worked out afresh"] += 1


def dropped_apart(steps: list, links: list[LinkT]) -> list[Pair]:
    """A wrong reading: the same, with the links from 0 as they are in the whole sheet."""
    stay = records_in(links)
    put_in = completed(steps, links)[len(links):]
    for pair in reversed(records_in(links)):
        rest = [other for other in stay if other != pair]
        kept = [link for link in links if link[1:3] in rest] + put_in
        steps_in = [p.Link(s, t, w, {"least": "at least", "most": "at most", "end": "from end"}.get(kind, kind),
                           steps.leasts[s] if kind == "after" else 0) for s, t, w, kind in moves(steps, kept)]
        if p.no_times(len(steps), steps_in) or p.outgrown(steps, steps_in):
            stay = rest
    return stay


def compare_bare(steps: list, links: list[LinkT], sheet: bytes, tally: Counter) -> None:
    """What the leasts change: never from accepted to refused."""
    ours, bare = p.judge(sheet, True), p.judge(encode(Steps(steps), links), True)
    if bare[0] == "ok":
        assert ours == bare and p.waits(sheet) == p.waits(encode(Steps(steps), links))
    if bare == ("refused", 28):
        assert ours[0] == "ok" or ours == bare
    if bare == ("refused", 11):
        assert ours in (bare, ("refused", 10))
    if ours != bare:
        tally[f"{bare[0]} {bare[1]}, by the leasts {ours[0]} {ours[1]}"] += 1
    elif ours[0] == "ok":
        n = len(steps)
        table, other = (p.plan(one, True, [0] * (n * n))[1] for one in (sheet, encode(Steps(steps), links)))
        tally["other deciding sets by the leasts"] += any((x == p.UNDECIDED) != (y == p.UNDECIDED) for x, y in zip(table, other))
        tally["other offsets by the leasts"] += any(x != y and p.UNDECIDED not in (x, y) for x, y in zip(table, other))


def check(rng: random.Random, tally: Counter, finish: bool, gap: bool, loose: bool, least: bool, clash: bool) -> None:
    """One random sheet, all checks."""
    steps, links = random_parts(rng, finish)
    leasts = some_leasts(rng, steps) if least else None
    if least and rng.random() < 0.25:
        steps, links, leasts = edge_parts(rng)
        gap = loose = False
    elif least:
        loose = rng.random() < 0.5
    steps = Steps(steps, leasts)
    if gap:
        links = with_gaps(rng, links)
    n = len(steps)
    if loose:
        links = left_loose(rng, n, links)
    if clash and rng.random() < 0.9:
        links = tightened(rng, n, links)
    sheet = encode(steps, links, bare=not gap or rng.random() < 0.5)
    if gap:
        tally["gaps spelled out"] += check_spelled_out(rng, steps, links, sheet)
        tally["verdicts by the gaps"] += p.judge(generate.without_gaps(sheet), True) != p.judge(sheet, True)
    if least:
        tally["leasts as steps"] += check_least_as_steps(rng, steps, links, sheet)
        compare_bare(steps, links, sheet, tally)
    as_sent, links = links, completed(steps, links)
    if loose:
        tally["loose steps"] += len(links) - len(as_sent)
        tally["written out"] += check_written_out(rng, steps, links, sheet)
    many = lists(rng, steps)
    expected = expected_refusal(steps, links, many)
    if expected:
        due = generate.by_completing(steps, p.links_of(steps, p.read(sheet)[1][1], steps.leasts), expected)
        tally[f"refused {expected}" + (", by the links from 0" if due else "")] += 1
        refused_so(sheet, expected)
        if expected == 10 and n <= 3:
            assert not solve_by_trying(steps, links, steps.leasts, 12)
        check_clashes(rng, steps, as_sent, sheet, expected, tally)
        return
    check_clashes(rng, steps, as_sent, sheet, 0, tally)

    # Waits, on the sheet as sent and completed, and soundness before and after.
    every = moves(steps, links)
    sets = start_sets(steps, links)
    waits = sorted({(a, i) for a in range(1, n) if steps[a] is None
                    for end, _ in walks(from_end_of(a, every), first_out_of(steps, every, a), 2 * n)
                    for kind, i, j, _ in links if kind in ("most", "end") and j == end
                    and a not in sets[i] and not (open_end(steps, kind, i) and a == i)})
    sound = sound_links(steps, links, sets)
    assert sound == (not waits)
    whole = links + [("after", a, i, 0) for a, i in waits]
    ends = any(open_end(steps, kind, i) for kind, i, _, _ in links)
    circle = closes_circle(steps, whole)
    if circle or solve(steps, whole, steps.leasts) is None:
        tally["refused 28, by a circle" if circle else "refused 28, without a circle"] += 1
        assert ends                                # never without a limit from the end of an open step
        refused_so(sheet, 28)
        tally["28, no rival"] += check_foresight(steps, links, sheet, False)
        return
    maps = [sum(1 << a for a, i in waits if i == v) for v in range(64)]
    assert p.waits(sheet) == (maps, len(waits), ("ok", 0 if sound else 1))
    assert p.judge(sheet, True) == ("ok", 0 if sound else 1)
    assert p.judge(sheet, False) == (("ok", 0) if sound else ("refused", 12))
    tally[("sound" if sound else "sound with waits") + (", from an open end" if ends else "")] += 1
    if len({i for _, i in waits}) > 1:
        tally["waits on several steps"] += 1
    if any(("after", 0, v, 0) in links[len(as_sent):] for wait in waits for v in wait):
        tally["waits of loose steps or for them"] += 1

    # Start sets and offsets with the waits in, by every walk of up to 2N links.
    every = moves(steps, whole)
    sets = start_sets(steps, whole)
    assert sound_links(steps, links, sets)
    offsets: list[dict[int, int]] = [{} for _ in steps]
    for a in range(n):
        first = first_out_of(steps, every, a) if a else [m for m in every if m[0] == 0]
        found = walks(from_end_of(a, every), first, 2 * n) | ({(0, 0)} if a == 0 else set())
        assert a == 0 or steps[a] is not None or all(end != a for end, _ in found)     # still not 11
        for v in range(n):
            if a in sets[v]:
                offsets[v][a] = max(weight for end, weight in found if end == v)
    accepted = p.accept(sheet, True)
    assert p.offsets_of(accepted.steps, accepted.links) == offsets

    verdict, table = p.plan(sheet, True, [5] * (n * n + 2))
    assert verdict == ("ok", 0 if sound else 1) and table[n * n:] == [5, 5]
    check_starts(steps, links, waits, sheet, many, offsets)
    check_deciding(steps, sheet, many, offsets, table)
    check_run(rng, steps, sheet, table, many)
    if finish:
        check_knows_nothing(steps, sheet)
        kind = ("sound" if sound else "sound with waits") + (", from an open end" if ends else "")
        tally[f"{kind}, least rival"] += check_foresight(steps, links, sheet, True)
    if waits and not ends:
        tally["rivals"] += sum(check_rivals(rng, steps, links, sheet, many[::5]) for _ in range(6))
    text = f"verdict {0 if sound else 1}\nwaits {len(waits)}\n"
    text += "".join(f"wait {a} {i}\n" for a, i in waits)
    text += "".join(f"start {v} {a} {table[v * n + a]}\n" for v in range(n) for a in range(n)
                    if table[v * n + a] != p.UNDECIDED)
    assert p.standplan_text(sheet) == text
    dropped = sum(len(row) for row in offsets) - sum(x != p.UNDECIDED for x in table[:n * n])
    tally["members dropped"] += dropped
    tally["members kept"] += sum(x != p.UNDECIDED for x in table[:n * n])
    check_random_run(rng, steps, sheet, offsets, tally)


def reach(allowed: list, first: list) -> set[int]:
    """Where walks end whose first link is in `first`, on a sheet of any size."""
    found = {m[1] for m in first}
    while True:
        more = {m[1] for m in allowed if m[0] in found} - found
        if not more:
            return found
        found |= more


def large_waits(steps: list, links: list[LinkT]) -> list[Pair]:
    """The waits of a sheet of any size."""
    every = moves(steps, links)
    found = []
    for a in range(1, len(steps)):
        if steps[a] is None:
            first = first_out_of(steps, every, a)
            there = reach(from_end_of(a, every), first)
            chained = reach([m for m in every if m[3] in ("after", "least")], first)
            found += sorted({(a, i) for kind, i, j, _ in links if kind in ("most", "end")
                             and j in there and i not in chained and i != a})
    return found


def large_circle(steps: list, links: list[LinkT]) -> bool:
    """Whether the forward links of a sheet of any size close a circle."""
    ahead = [m for m in moves(steps, links) if m[3] in ("after", "least")]
    return any(v in reach(ahead, [m for m in ahead if m[0] == v]) for v in range(len(steps)))


def check_large_clashes(rng: random.Random, sheet: bytes, verdict: p.Verdict, tally: Counter) -> None:
    """The records that clash, of a sheet of any size: a record is among them exactly if those before it and those of the
    report behind it make a sheet that is not impossible. That is judged for those of the report and for some others."""
    said, lent = p.clashes(sheet, [-1] * 512)
    if verdict not in IMPOSSIBLE:
        read_so = verdict[0] == "refused" and verdict[1] in (1, 2, 3, 4, 5, 6, 7, 8, 26)
        assert (said, lent) == (verdict if read_so else ("refused", 31), [-1] * 512)
        assert p.clashes(sheet, []) == (said, [])
        return
    report, r = lent[:said[1]], len(p.read(sheet)[1][1])
    assert said[0] == "ok" and lent[said[1]:] == [-1] * (512 - said[1])
    assert report == sorted(set(report)) and 0 < len(report) <= sheet[0]
    assert p.judge(generate.part_of(sheet, report), True) in IMPOSSIBLE
    for number in report:
        rest = [other for other in report if other != number]
        assert p.judge(generate.part_of(sheet, rest), True) not in IMPOSSIBLE
    for number in report + rng.sample(range(r), min(r, 8)):
        before = list(range(number)) + [other for other in report if other > number]
        part = p.judge(generate.part_of(sheet, before), True)
        assert part != ("refused", 8) and (part in IMPOSSIBLE) == (number not in report)
    assert p.clashes(sheet, [-1] * (len(report) - 1)) == (("refused", 14), [-1] * (len(report) - 1))
    tally[f"large, a clash of {'one' if len(report) == 1 else 'two to nine' if len(report) < 10 else 'ten or more'}"] += 1


def check_large(rng: random.Random, tally: Counter, finish: bool, gap: bool, loose: bool, least: bool, clash: bool) -> None:
    """One sheet of any size from generate.py: 8, 10, 11 and 28 by the solver, starts and table, and the records that clash."""
    sheet = generate.random_sheet(rng, finish, gap, loose, least, clash)
    verdict = p.judge(sheet, True)
    tally[f"large {verdict[0]} {verdict[1]}"] += 1
    check_large_clashes(rng, sheet, verdict, tally)
    if p.read(sheet)[0] == "refused":
        return
    steps, records, leasts = p.read(sheet)[1]
    steps = Steps(steps, leasts)
    n = len(steps)
    links: list[LinkT] = []
    for r in records:
        links += [("after", r.i, r.j, r.gap or 0)] if r.after else []
        links += [("least", r.i, r.j, r.at_least)] if r.at_least is not None else []
        links += [("most", r.i, r.j, r.at_most)] if r.at_most is not None else []
        links += [("end", r.i, r.j, r.from_end)] if r.from_end is not None else []
    if gap:
        tally["large, gaps spelled out"] += check_spelled_out(rng, steps, links, sheet)
    if least:
        tally["large, leasts as steps"] += check_least_as_steps(rng, steps, links, sheet)
        compare_bare(steps, links, sheet, tally)
    links = completed(steps, links)
    if loose:
        tally["large, written out"] += check_written_out(rng, steps, links, sheet)
    if large_circle(steps, links):
        assert verdict == ("refused", 8)
        return
    longest = [BIG if v and steps[v] is None else 0 for v in range(n)]
    possible = solve(steps, links, leasts) is not None
    # One step alone is the worst: a longer step makes room only from its own end.
    always = all(solve(steps, links, one) is not None for one in [longest] + [
        [d if v == a else leasts[v] for v in range(n)] for a, d in enumerate(longest) if d and finish])
    if not possible or not always:
        assert verdict == ("refused", 11 if possible else 10)
        return
    waits = large_waits(steps, links)
    whole = links + [("after", a, i, 0) for a, i in waits]
    if large_circle(steps, whole) or solve(steps, whole, leasts) is None:
        assert verdict == ("refused", 28)
        return
    assert verdict == ("ok", 1 if waits else 0)
    maps, _, _ = p.waits(sheet)
    assert waits == [(a, i) for a in range(n) for i in range(n) if maps[i] >> a & 1]
    ends = any(open_end(steps, kind, i) for kind, i, _, _ in links)
    _, table = p.plan(sheet, True, [0] * (n * n))
    gaps = any(kind == "after" and number for kind, _, _, number in links)
    assert max(x for x in table if x != p.UNDECIDED) <= (LARGEST_WITH_GAPS if gaps else LARGEST_OFFSET)
    for one in [leasts, longest] + [[max(leasts[v], rng.choice([0, rng.randint(0, 70_000), rng.randint(0, d)]))
                                     if d else 0 for v, d in enumerate(longest)] for _ in range(4)]:
        _, start = p.starts(sheet, True, one, [0] * n)
        assert keeps(steps, whole, one, start) and max(start) <= 4_294_967_295
        assert ends or start == solve(steps, whole, one)
        for v in range(1, n):
            assert start[v] == max(start[a] + one[a] + table[v * n + a] for a in range(n)
                                   if table[v * n + a] != p.UNDECIDED)


def main() -> None:
    """Check random sheets for so many seconds and print the tally."""
    end = time.time() + float(sys.argv[1])
    seed = int(sys.argv[2]) if len(sys.argv) > 2 else 1
    clash = "clash" in sys.argv[3:]
    least = clash or "least" in sys.argv[3:]
    loose = least or "loose" in sys.argv[3:]
    gap = loose or "gap" in sys.argv[3:]
    finish = gap or "finish" in sys.argv[3:]
    tally: Counter = Counter()
    while time.time() < end:
        try:
            check(random.Random(seed), tally, finish, gap, loose, least, clash)
            if seed % (30 if clash else 10) == 0:
                check_large(random.Random(seed), tally, finish, gap, loose, least, clash)
        except AssertionError:
            print("FAILED at seed", seed)
            raise
        tally["sheets"] += 1
        seed += 1
    print(dict(sorted(tally.items())))


if __name__ == "__main__":
    main()
