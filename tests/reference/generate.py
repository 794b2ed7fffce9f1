"""Random sheets of all sizes and verdicts.

    python3 generate.py SEED COUNT FILE [--finish | --gap | --loose | --least | --clash | --price] [--stats]

FILE holds, for each sheet, two bytes of length, low byte first, then its bytes.
With --finish, sheets have limits from the end of a step (bit 4, request L11);
with --gap, they have gaps too (bit 3, request L1); with --loose, they also leave out
the forward links into some steps (request L3); with --least, they also have least
durations (step map bit 2, request L6); with --clash, they have all of this and most are
impossible (request L14); with --price, they are as with --least, most are accepted and their
largest offsets come near 1,024 or a power of two (request L5). Without these words, and with
each of them, a seed draws the same sheets as before there were any of the kinds that came later.
The planner is used only to aim (which pairs to link, how tight a limit is).
"""
from __future__ import annotations

import random
import sys
from collections import Counter
from dataclasses import replace

import planner as p
import price

# What a sheet aims at: 0 sound, 12 waits, -1 anything, 9 a loose step (that was a refusal before L3), otherwise that refusal.
AIMS = [0, 0, 0, 12, 12, 12, 12, 1, 2, 3, 4, 5, 6, 7, 8, 9, 10, 10, 11, 11, -1, -1]
# The same for sheets with bit 4; 28: the waits close a circle, -28: they leave no times without one.
FINISH_AIMS = [0] * 6 + [12] * 6 + [28] * 2 + [-28] * 3 + [1, 4, 4, 5, 6, 7, 8, 9, 10, 10, 10, 11, 11, 11, 26, 26, -1, -1]
# The same for sheets with bits 3 and 4.
GAP_AIMS = FINISH_AIMS + [-28] * 3 + [1, 4, 4, 10, 10]
# The same for sheets with loose steps as well; the bytes are judged as before, so few aim at their faults.
LOOSE_AIMS = [0] * 6 + [12] * 6 + [28] * 2 + [-28] * 2 + [8] * 3 + [10] * 6 + [11] * 5 + [4, 26, -1, -1]
# The same for sheets with least durations as well. A least never makes a sheet 10 or 28 that is accepted without it: the circle
# would lead from the end of the step back to the step, 11. It makes 10 of 11 and, by a return from the end, none of 10 and 28.
LEAST_AIMS = [0] * 8 + [12] * 7 + [28] * 2 + [-28] * 5 + [8] + [10] * 7 + [11] * 5 + [1, 1, 4, 4, 4, 26, -1, -1]
# The same for sheets whose records clash; 21: by clashes of both kinds.
CLASH_AIMS = [10] * 14 + [11] * 19 + [21] * 5 + [8, 8, 0, 0, 12, 12, 28, -28, 1, 4, 26]
# The same for sheets to be priced.
PRICE_AIMS = [0] * 16 + [12] * 12 + [28, -28, 8, 10, 11, 1, 4, 26, -1]
# Where the count of registers changes or there is no entry any more; these are met most often.
PRICE_EDGES = [1023, 1024] * 8 + [1022, 1025] + [2 ** b + more for b in range(10) for more in (0, 1)]

IMPOSSIBLE = (("refused", 10), ("refused", 11))


def heaviest_walks(n: int, links: list[p.Link]) -> list[list[int | None]]:
    """Weight of the heaviest walk from u to v, the empty one counted; None: no walk.

    If some circle weighs more than 0, some number on the diagonal is above 0
    (and the numbers mean nothing else).
    """
    best: list[list[int | None]] = [[None] * n for _ in range(n)]
    for v in range(n):
        best[v][v] = 0
    for link in links:
        old = best[link.source][link.target]
        if old is None or link.weight > old:
            best[link.source][link.target] = link.weight
    for k in range(n):
        for u in range(n):
            first = best[u][k]
            if first is None:
                continue
            for v in range(n):
                second = best[k][v]
                if second is not None:
                    old = best[u][v]
                    if old is None or first + second > old:
                        best[u][v] = first + second
    return best


class Draft:
    """A sheet being made: steps, and fields by pair (a subset of after, at_least, at_most, gap, from_end)."""

    def __init__(self, rng: random.Random, smallest: int, finish: bool = False, gap: bool = False, loose: bool = False,
                 least: bool = False) -> None:
        self.rng = rng
        self.finish = finish                       # with limits from the end of a step
        self.gap = gap                             # with gaps
        self.loose = loose                         # with loose steps
        self.least = least                         # with least durations
        self.n = rng.choice([rng.randint(1, 5), rng.randint(2, 8), rng.randint(4, 12),
                             rng.randint(4, 12), rng.randint(9, 24), rng.randint(25, 64),
                             rng.choice([60, 61, 62, 63, 64, 64])])
        self.n = max(self.n, smallest)
        self.top = rng.choice([1, 3, 3, 20, 1000, 65535])
        self.flat = rng.random() < 0.1             # every number at the top
        share = rng.choice([0.1, 0.4, 0.4, 0.7, 1.0] if smallest < 4 else
                           [0.3, 0.4, 0.7, 0.7] if finish else [0.1, 0.4, 0.7, 0.7])
        self.steps: list[p.Step] = [p.OPEN] + [
            p.OPEN if rng.random() < share else self.number() for _ in range(self.n - 1)]
        self.order = [0] + rng.sample(range(1, self.n), self.n - 1)
        self.fields: dict[tuple[int, int], dict[str, int]] = {}
        self.leasts = [0] * self.n                 # 0 for step 0 and fixed steps
        if least:
            self.draw_leasts()

    def draw_leasts(self) -> None:
        """Least durations for some or all of the open steps; at times all the same, or the largest there is."""
        share = self.rng.choice([0.3, 0.7, 1.0])
        top = self.rng.choice([self.top] * 6 + [3, 8, 65535])
        same = self.rng.choice([None] * 6 + [8, top, 65535])
        for a in p.open_steps(self.steps):
            if self.rng.random() < share:
                self.leasts[a] = same if same is not None else self.rng.choice([1, top, self.rng.randint(0, top)])

    def number(self) -> int:
        """A duration or distance; often 0 or at the top, so that sums tie."""
        if self.flat:
            return self.top
        return self.rng.choice([0, self.top, self.rng.randint(0, self.top)])

    def put(self, i: int, j: int, **fields: int) -> None:
        """Put fields on the pair (i, j) unless that would be record 513."""
        if (i, j) in self.fields or len(self.fields) < 512:
            self.fields.setdefault((i, j), {}).update(fields)

    def after(self) -> dict[str, int]:
        """The fields of an after link: if gaps are drawn, often with one, at times a small or the largest one."""
        if not self.gap or self.rng.random() < 0.5:
            return {"after": 1}
        return {"after": 1, "gap": self.rng.choice([self.number()] * 10 + [self.rng.randint(0, 3)] * 3 + [65535])}

    def some_forward(self) -> dict[str, int]:
        """The fields of a random forward link."""
        fields = self.rng.choice([{"after": 1}, {"after": 1}, {"at_least": self.number()},
                                  {"after": 1, "at_least": self.number()}])
        return fields | self.after() if "after" in fields else fields

    def records(self) -> list[p.Record]:
        """The link records, rising."""
        return [p.Record(i, j, "after" in f, f.get("at_least"), f.get("at_most"), f.get("gap"), f.get("from_end"))
                for (i, j), f in sorted(self.fields.items())]

    def links(self) -> list[p.Link]:
        """The links as walks follow them, completed if there are to be loose steps."""
        return p.completed(self.n, self.plain_links()) if self.loose else self.plain_links()

    def plain_links(self) -> list[p.Link]:
        """The links of the records alone."""
        return p.links_of(self.steps, self.records(), self.leasts)

    def whole_links(self) -> list[p.Link]:
        """The links with the waits in."""
        links = self.links()
        return links + p.wait_links(p.waits_of(self.steps, links), self.leasts)

    def forward_part(self, aim: int) -> None:
        """Forward links that close no circle and reach every step; wide for aim 12."""
        near = self.rng.choice([3, 64, 64, 64] if aim == 12 else [1, 3, 64])
        for k in range(1, self.n):
            self.put(self.order[self.rng.randint(max(0, k - near), k - 1)], self.order[k],
                     **self.some_forward())
        if self.n > 1:
            pairs = self.n * (self.n - 1) // 2
            extra = [0, 1, self.n // 2, self.n, pairs // 2, pairs]
            for _ in range(self.rng.choice(extra[:5] + [pairs // 5] if aim == 12 else extra)):
                a, b = sorted(self.rng.sample(range(self.n), 2))
                if len(self.fields) < self.rng.choice([300, 512]):
                    self.put(self.order[a], self.order[b], **self.some_forward())

    def base(self) -> list[int]:
        """Start times that keep the forward links with each open step at its least, some later than needed."""
        start = [0] * self.n
        slack = self.rng.choice([0, 0, self.top])
        incoming: dict[int, list[p.Link]] = {}
        for link in p.forward(self.links()):
            incoming.setdefault(link.target, []).append(link)
        for v in self.order[1:]:
            start[v] = max((start[x.source] + x.weight for x in incoming.get(v, [])), default=0)
            start[v] += self.rng.randint(0, slack)
        return start

    def walk_sets(self) -> list[int]:
        """Per step the map of open a whose walks beginning with an after link reach it."""
        sets = [0] * self.n
        links = self.links()
        for a in p.open_steps(self.steps):
            for v in p.reached(p.from_the_end(links, a), p.after_targets(links, a)):
                sets[v] |= 1 << a
        return sets

    def return_part(self, aim: int) -> None:
        """At most links that leave the sheet possible; aim 0 without waits, 12 mostly with."""
        if self.n == 1:
            return
        start = self.base()
        sets = self.walk_sets()
        targets: list[set[int]] = [set() for _ in range(self.n)]
        ends: list[set[int]] = [set() for _ in range(self.n)]      # returns from the end of an open step
        for link in self.links():
            (ends if link.kind == "from end" else targets)[link.source].add(link.target)
        wanted = self.rng.choice([1, 2, 3, self.n // 2, self.n, 3 * self.n])
        if self.rng.random() < 0.05:
            wanted = 512
        known = list(self.fields)
        for _ in range(100 + 3 * wanted if aim == 12 else 3 * wanted):
            i, j = self.rng.choice(known) if known and self.rng.random() < 0.4 else \
                self.rng.sample(range(self.n), 2)
            name, own = "at_most", 0
            least = max(0, start[j] - start[i])
            if self.finish and self.rng.random() < 0.7:
                i, j = self.after_pair(sets, aim)
                name, own = "from_end", 1 << i if i and self.steps[i] is p.OPEN else 0
                least = max(0, start[j] - start[i] - (self.steps[i] or self.leasts[i])) if (i, j) != (0, 0) else 65536
            limit = least + self.rng.choice([0, 0, self.rng.randint(0, self.top)])
            makes_wait = sets[j] & ~sets[i] & ~own != 0
            if limit > 65535 or (aim == 0 and makes_wait):
                continue
            if aim == 12 and not makes_wait and self.rng.random() < 0.9:
                continue
            grown = list(sets)                     # the walk sets with this return in
            grown[i] |= grown[j] & ~own
            todo = [i]
            while todo:
                u = todo.pop()
                for v in targets[u]:
                    if grown[u] & ~grown[v]:
                        grown[v] |= grown[u]
                        todo.append(v)
                for v in ends[u]:
                    if grown[u] & ~grown[v] & ~(1 << v):
                        grown[v] |= grown[u] & ~(1 << v)
                        todo.append(v)
            if any(grown[a] >> a & 1 for a in p.open_steps(self.steps)):
                continue                           # would be 11
            if (i, j) in self.fields or len(self.fields) < 512:
                self.put(i, j, **{name: limit})
                (ends if own else targets)[j].add(i)
                sets = grown
                wanted -= 1
                if wanted == 0:
                    break

    def after_pair(self, sets: list[int], aim: int) -> tuple[int, int]:
        """A pair with an after link, for a limit from its end: mostly of an open step, without a
        wait for aim 0 and with one for 12, if that is soon found; (0, 0) if there is none."""
        pairs = [pair for pair in self.fields if "after" in self.fields[pair]]
        found = (0, 0)
        for _ in range(12 if pairs else 0):
            i, j = found = self.rng.choice(pairs)
            is_open = i != 0 and self.steps[i] is p.OPEN
            makes_wait = sets[j] & ~sets[i] & ~(1 << i) != 0
            if (is_open or self.rng.random() < 0.1) and aim in ((0, -1), (12, -1))[makes_wait]:
                break
        return found

    def apart(self) -> tuple[int, int, list[int]] | None:
        """Two steps next to each other in the order that no chain links, the first open, and those behind."""
        places = [k for k in range(1, self.n - 2) if p.OPEN in (self.steps[self.order[k]], self.steps[self.order[k + 1]])]
        if self.n < 4:
            return None
        k = self.rng.choice(places or range(1, self.n - 2))
        first, second = self.order[k], self.order[k + 1]
        if not places:
            self.steps[first] = p.OPEN
        self.fields.pop((first, second), None)
        self.put(0, second, **self.after())
        if self.steps[first] is not p.OPEN or (self.steps[second] is p.OPEN and self.rng.random() < 0.5):
            first, second = second, first
        return first, second, self.order[k + 2:]

    def clash(self) -> None:
        """Aim at 28 by a circle: limits from the ends of two open steps, each reached from the other one."""
        found = self.apart()
        if found:
            a, b, behind = found
            self.steps[b] = p.OPEN
            x = self.rng.choice(behind)
            y = self.rng.choice([x, x, self.rng.choice(behind)])
            for i, j in ((a, x), (b, x), (a, y), (b, y)):
                self.put(i, j, **self.after())
            best = heaviest_walks(self.n, self.links())
            for i, j in ((a, x), (b, y)):
                if "after" in self.fields.get((i, j), {}):
                    limit = best[i][j] + self.rng.choice([0, self.rng.randint(0, self.top)])
                    self.put(i, j, from_end=min(65535, max(0, limit - self.leasts[i])))

    def late(self) -> None:
        """Aim at 28 without a circle: i has to wait for a, but j comes too long after i for its limit from the end of a.

        The limit on (i, q) that makes the wait, from the start or the end of i, leaves the sheet possible.
        """
        found = self.apart()
        if found:
            a, i, behind = found
            j = self.rng.choice(behind)
            q = self.rng.choice([j, self.rng.choice(behind)])
            self.put(a, j, **self.after())
            self.put(a, q, **self.after())
            best = heaviest_walks(self.n, self.links())
            if "after" not in self.fields.get((a, j), {}):         # no room for more records
                return
            limit = max(0, best[a][j] + self.rng.choice([0, self.rng.randint(0, self.top)]) - self.leasts[a])
            more = limit + self.rng.choice([1, self.rng.randint(1, self.top)])
            if max(limit, more) <= 65535:
                if self.gap and self.steps[i] is not p.OPEN and more >= self.steps[i]:
                    self.put(i, j, after=1, gap=more - self.steps[i])
                else:
                    self.put(i, j, at_least=max(more, self.fields.get((i, j), {}).get("at_least", 0)))
                self.put(a, j, from_end=limit)
                from_end = self.steps[i] is p.OPEN and self.rng.random() < 0.5
                if from_end:
                    self.put(i, q, **self.after())
                    from_end = "after" in self.fields.get((i, q), {})
                best = heaviest_walks(self.n, self.links())
                limit = max(0, (best[i][q] or 0) - (self.leasts[i] if from_end else 0))
                limit += self.rng.choice([0, self.rng.randint(0, self.top)])
                self.put(i, q, **{"from_end" if from_end else "at_most": min(limit, 65535)})

    def tight_gap(self, with_waits: bool) -> None:
        """Aim at 10, or with the waits in at 28: a gap one above what the returns leave room for (at times just that)."""
        best = heaviest_walks(self.n, self.whole_links() if with_waits else self.links())
        rooms = {(i, j): -best[j][i] - (self.steps[i] or self.leasts[i]) for (i, j), fields in self.fields.items()
                 if "after" in fields and best[j][i] is not None}
        pairs = [pair for pair, room in rooms.items() if 0 <= room < 65535]
        if pairs:
            i, j = self.rng.choice(pairs)
            self.put(i, j, gap=rooms[i, j] + self.rng.choice([0, 1, 1]))

    def at_edge(self, with_waits: bool) -> None:
        """Move the least of some open step to where it decides, with the waits in or as sent, whether there are start times:
        the last least on one side or the first on the other. Nothing, if that is soon found for none."""
        def none_with(a: int, least: int) -> bool:
            self.leasts[a] = least
            return p.no_times(self.n, self.whole_links() if with_waits else self.links())

        ends = {i for (i, _), fields in self.fields.items() if "from_end" in fields}
        opens = p.open_steps(self.steps)
        self.rng.shuffle(opens)
        for a in sorted(opens, key=lambda a: a not in ends)[:6]:
            before = self.leasts[a]
            low, high = 0, 65535
            first = none_with(a, low)
            if first != none_with(a, high):
                while high - low > 1:
                    middle = (low + high) // 2
                    low, high = (middle, high) if none_with(a, middle) == first else (low, middle)
                self.leasts[a] = self.rng.choice([low, high])
                return
            self.leasts[a] = before

    def tie(self) -> None:
        """An at least from 0 on some step that what comes after the end of an open step at its least just reaches, or just
        does not."""
        links = self.links()
        for _ in range(self.rng.choice([1, 1, 3])):
            a = self.rng.choice(p.open_steps(self.steps) or [0])
            known = p.heaviest_from(self.n, links, {0: 0}) if a else None
            best = p.heaviest_from(self.n, p.from_the_end(links, a), p.after_targets(links, a)) if known else None
            ahead = [] if best is None else sorted(p.reached(p.forward(links), p.after_targets(links, a)) - {0, a})
            if ahead:
                v = self.rng.choice(ahead)
                least = known[a] + self.leasts[a] + best[v] + self.rng.choice([-1, 0, 0, 1, 1])
                if 0 <= least <= 65535:
                    self.put(0, v, at_least=least)

    def late_by_least(self) -> None:
        """Aim at 28 without a circle, by a least: i and a have to wait for c; j comes so long after i and, as it has a limit
        from the end of a, a so long before it, then y after a, but with a limit from the end of c. From its
        edge on, the least of a leaves times."""
        if self.n < 6:
            return
        c, a, i, j, y = self.rng.sample(range(1, self.n), 5)
        self.fields = {pair: fields for pair, fields in self.fields.items() if not {c, a, i, j, y} & set(pair)}
        for v in (c, a):
            if self.steps[v] is not p.OPEN:
                self.steps[v] = p.OPEN
                self.leasts[v] = self.number()
        if self.steps[i] is p.OPEN:
            self.steps[i], self.leasts[i] = self.number(), 0
        from_a, behind, room, edge = (self.rng.randint(0, min(self.top, 10000)) for _ in range(4))
        from_c, more = behind + room, from_a + room + edge
        self.put(c, y, after=1, from_end=from_c)
        self.put(a, j, after=1, from_end=from_a)
        self.put(i, j, at_least=more)
        self.put(a, y, at_least=behind)
        self.put(i, y, at_most=min(65535, more + behind + self.rng.choice([0, self.rng.randint(0, self.top)])))

    def circle(self) -> None:
        """Aim at 8: a forward link back along the order."""
        if self.n > 2:
            for _ in range(self.rng.randint(1, 3)):
                ahead = p.forward(self.links())
                v = self.rng.choice(self.order[1:])
                u = self.rng.choice(sorted(p.reached(ahead, {v})))
                if u != v:
                    self.put(u, v, **self.some_forward())

    def cut_off(self) -> None:
        """Aim at 9: no forward link into some step."""
        if self.n > 1:
            v = self.rng.choice(self.order[1:])
            for i, j in list(self.fields):
                if j == v:
                    limit = self.fields.pop((i, j)).get("at_most")
                    if limit is not None and self.rng.random() < 0.5:
                        self.fields[i, j] = {"at_most": limit}

    def loosen(self) -> None:
        """Leave out the forward links into some steps: the first one, the last, any one, half of them or all.

        At times such a step is then entered by a return alone, or by an at least alone.
        """
        others = self.order[1:]
        if not others:
            return
        chosen = self.rng.choice([[1], [self.n - 1], [self.rng.choice(others)], others,
                                  *[[v for v in others if self.rng.random() < 0.5]] * 4])
        for v in chosen:
            for i, j in list(self.fields):
                if j == v:
                    del self.fields[i, j]
            u = self.order[self.rng.randrange(self.order.index(v))]
            enter = self.rng.random()
            if enter < 0.15:
                self.put(u, v, at_least=self.number())
            elif enter < 0.3:                      # a return from 0: v may come so long before it
                self.put(v, 0, at_most=self.number())

    def unsaid(self) -> None:
        """Leave out after links from 0 that completing puts in again: those without more to them, nothing else entering."""
        entered = Counter(link.target for link in p.forward(self.links()))
        for v in range(1, self.n):
            fields = self.fields.get((0, v), {})
            if entered[v] == 1 and "after" in fields and not {"gap", "from_end"} & set(fields) and self.rng.random() < 0.8:
                del fields["after"]
                if not fields:
                    del self.fields[0, v]

    def back_to_start(self) -> None:
        """Aim at 8: a forward link into 0, at times the only one out of its step and that one loose."""
        if self.n > 1:
            v = self.rng.choice([1, self.rng.choice(self.order[1:])])
            if self.rng.random() < 0.5:
                self.fields = {pair: fields for pair, fields in self.fields.items() if v not in pair}
            self.put(v, 0, **self.some_forward())

    def limit_from_start(self, j: int, limit: int) -> None:
        """A limit from step 0 on j, at times from its end, which is the same."""
        limit = min(max(limit, 0), 65535)
        if self.rng.random() < 0.3:
            self.put(0, j, after=1, from_end=limit)
        else:
            self.put(0, j, at_most=limit)

    def hang_tight(self) -> None:
        """Aim at 10: what follows a loose step is limited so that this one had to come before 0 (at times it just need not)."""
        plain = self.plain_links()
        known = p.heaviest_from(self.n, plain, {0: 0}) or [None] * self.n
        pairs = []
        for v in p.loose_steps(self.n, plain):
            best = p.heaviest_from(self.n, plain, {v: 0}) or []
            pairs += [(j, weight) for j, weight in enumerate(best) if j and weight is not None
                      and max(0, known[j] or 0) < weight <= 65536]
        if pairs:
            j, weight = self.rng.choice(pairs)
            self.limit_from_start(j, weight - self.rng.choice([0, 1, 1, weight - max(0, known[j] or 0)]))
        else:
            self.too_tight()

    def hang_long(self) -> None:
        """Aim at 11: what follows the end of a loose open step is limited from step 0."""
        plain = self.plain_links()
        loose, known = p.loose_steps(self.n, plain), p.reached(plain, {0})
        behind = {a: p.reached(plain, p.after_targets(plain, a)) for a in p.open_steps(self.steps)}
        before = {0}.union(*(behind[a] for a in behind if a in known))
        ends = sorted(set().union(*(behind[a] for a in behind if a in loose)) - before)
        if ends:
            j = self.rng.choice(ends)
            self.limit_from_start(j, self.base()[j] + self.rng.randint(0, self.top))
        else:
            self.stretch()

    def too_tight(self) -> None:
        """Aim at 10: an at most just below the heaviest walk (at times just at it)."""
        best = heaviest_walks(self.n, self.links())
        pairs = [(i, j) for i in range(self.n) for j in range(self.n)
                 if i != j and best[i][j] is not None and 1 <= best[i][j] <= 65536]
        if pairs:
            i, j = self.rng.choice(pairs)
            limit = best[i][j] - self.rng.choice([0, 1, 1, 1, best[i][j]])
            if self.finish and self.rng.random() < 0.8:
                if self.rng.random() < 0.7:        # of an open step, if there is one
                    i, j = self.rng.choice([(u, v) for u, v in pairs if u and self.steps[u] is p.OPEN] or pairs)
                limit = best[i][j] - (self.steps[i] or self.leasts[i]) - self.rng.choice([0, 1, 1, 1])
                self.put(i, j, after=1, from_end=min(max(limit, 0), 65535))    # both or none
                return
            self.put(i, j, at_most=min(limit, 65535))

    def stretch(self) -> None:
        """Aim at 11: an at most across the after link of an open step."""
        links = self.links()
        start = self.base()
        open_steps = [a for a in p.open_steps(self.steps) if p.after_targets(links, a)]
        if open_steps:
            a = self.rng.choice(open_steps)
            j = self.rng.choice(sorted(p.reached(links, p.after_targets(links, a))))
            i = self.rng.choice([v for v in range(self.n) if a in p.reached(links, {v})])
            if i != j:
                limit = max(0, start[j] - start[i]) + self.rng.randint(0, self.top)
                if self.finish and self.rng.random() < 0.7:
                    self.put(i, j, after=1, from_end=min(limit, 65535))
                    return
                self.put(i, j, at_most=min(limit, 65535))

    def some_steps(self, size: int) -> list[int]:
        """So many steps, if there are, as forward links follow each other: those numbered first, those numbered last, or any,
        so that the records between them come first, last or anywhere."""
        size = min(size, self.n)
        near = self.rng.choice([range(size), range(self.n - size, self.n), range(self.n), range(self.n)])
        return sorted(self.rng.sample(near, size), key=self.order.index)

    def gather(self) -> list[int]:
        """A few steps, those numbered first or those numbered last, moved so that forward links lead from one to the next alone:
        no other step comes between them."""
        size = min(self.rng.choice([2, 3, 4]), self.n)
        first = self.rng.choice([0, self.n - size, self.n - size])
        few = [v for v in self.order if first <= v < first + size]
        others = [v for v in self.order if v not in few]
        at = self.rng.randint(1, len(others)) if few[0] and others else 0
        self.order = others[:at] + few + others[at:]
        return few

    def hang(self, v: int) -> None:
        """Leave out every record into v, so that it hangs from the start."""
        self.fields = {pair: fields for pair, fields in self.fields.items() if pair[1] != v}

    def any_chain(self) -> tuple[int, list[int]]:
        """Steps for a chain of forward links that is to clash with a limit on its last one, and the step that this limit is to
        count from: the first of the chain, or 0, from which the first hangs then."""
        chain = self.some_steps(self.rng.choice([2, 2, 3, 3, 3, 4, 4, 6, 9, self.n]))
        if self.rng.random() < 0.5:
            return chain[0], chain
        self.hang(chain[0])
        return 0, chain

    def link_chain(self, kind: int, chain: list[int]) -> None:
        """The forward links of a chain that is to clash as 10 or 11: for 10 it weighs more than 0, for 11 there is an after link
        out of an open step in it."""
        pairs = list(zip(chain, chain[1:]))
        for i, j in pairs:
            self.put(i, j, **self.some_forward())
            if self.rng.random() < 0.3:            # a word more, that need not clash
                self.put(i, j, **self.rng.choice([{"at_least": self.rng.randint(0, 2)}, {"after": 1, "from_end": 65535}] +
                                                 [{"at_most": 65535}] * (i != 0 and self.steps[i] is not p.OPEN)))
        i, j = self.rng.choice([pair for pair in pairs if pair[0]] or pairs)
        if kind == 10:
            self.put(i, j, at_least=self.rng.choice([1, 1, max(1, self.number())]))
        elif i:
            if self.steps[i] is not p.OPEN:        # every link weighs what it weighed
                self.steps[i], self.leasts[i] = p.OPEN, self.steps[i]
            self.put(i, j, after=1)

    def limit(self, i: int, j: int, limit: int, from_end: bool) -> None:
        """A limit on (i, j), at times counted from the end of i, if it may be: with i at its least that is the same."""
        own = self.steps[i] or self.leasts[i]
        if from_end and own <= limit and self.rng.random() < 0.5:
            self.put(i, j, after=1, from_end=min(limit - own, 65535))
        else:
            self.put(i, j, at_most=min(limit, 65535))

    def limit_chains(self, chains: list[tuple[int, int, list[int]]]) -> None:
        """Limits on chains that are to clash: as 10, often by 1 too short; as 11, with room for the chain, each open step at its
        least, and only from the end of another step than the open ones."""
        best = {start: p.heaviest_from(self.n, self.links(), {start: 0}) for _, start, _ in chains}
        for kind, start, chain in chains:
            length = best[start][chain[-1]] if best[start] else None
            if length is None or length < 0:       # another chain has taken a link of this one
                continue
            if kind == 10 and length:
                self.limit(start, chain[-1], length - self.rng.choice([1, 1, 1, self.rng.randint(1, length)]), True)
            elif kind == 11:
                room = self.rng.choice([0, self.rng.randint(0, self.top)])
                self.limit(start, chain[-1], length + room, start == 0 or self.steps[start] is not p.OPEN)

    def fill(self, size: int, bare: bool = False) -> None:
        """Further records up to so many, none of which adds anything: each follows from the forward links; with `bare` those
        between other steps than 0 are at leasts of 0."""
        best = heaviest_walks(self.n, p.forward(self.links()))
        pairs = [(i, j) for i in range(self.n) for j in range(self.n) if i != j and (best[i][j] is not None or j == 0)]
        for i, j in self.rng.sample(pairs, len(pairs)):
            if len(self.fields) >= size:
                return
            if (i, j) not in self.fields:
                least = 0 if bare else min(best[i][j] or 0, 65535)
                self.put(i, j, **({"at_most": self.number()} if j == 0 else
                                  {"at_least": self.rng.choice([0, least, self.rng.randint(0, least)])}))

    def anything(self) -> None:
        """Random records without any aim."""
        for _ in range(self.rng.choice([0, 2, self.n, 2 * self.n, 500])):
            i, j = self.rng.randrange(self.n), self.rng.randrange(self.n)
            if i != j:
                if self.rng.random() < 0.9 and self.order.index(i) > self.order.index(j):
                    i, j = j, i
                fields = self.some_forward()
                if self.rng.random() < 0.15:
                    fields = {"at_most": self.number()}
                if self.finish and "after" in fields and self.rng.random() < 0.15:
                    fields["from_end"] = self.number()
                self.put(i, j, **fields)

    def pieces(self) -> tuple[list[bytes], list[bytes]]:
        """The step records and the link records in bytes."""
        steps = []
        for v, step in enumerate(self.steps):
            if step is p.OPEN and (self.leasts[v] or self.least and v and self.rng.random() < 0.2):
                steps.append(b"\x05" + self.leasts[v].to_bytes(2, "little"))
            elif step is p.OPEN:
                steps.append(b"\x01")
            elif step == 0 and self.rng.random() < 0.7:
                steps.append(b"\x00")
            else:
                steps.append(b"\x02" + step.to_bytes(2, "little"))
        return steps, [record_bytes(record) for record in self.records()]


class PriceDraft(Draft):
    """A draft with gaps, leasts and distances of some hundred ticks at most, whose offsets are then moved to an edge."""

    def __init__(self, rng: random.Random, smallest: int) -> None:
        super().__init__(rng, smallest, finish=True, gap=True, loose=True, least=True)
        if self.n > 24 and rng.random() < 0.6:     # most are small
            self.n = rng.randint(smallest, 16)
        self.flat, self.top = False, rng.choice([20, 100, 300, 600, 900])
        self.steps = [p.OPEN] + [p.OPEN if step is p.OPEN else self.number() for step in self.steps[1:self.n]]
        self.order = [0] + rng.sample(range(1, self.n), self.n - 1)
        self.leasts = [0] * self.n
        self.draw_leasts()

    def draw_leasts(self) -> None:
        """Least durations for some of the open steps; at times the largest there is."""
        share = self.rng.choice([0, 0.3, 0.7])
        for a in p.open_steps(self.steps):
            if self.rng.random() < share:
                self.leasts[a] = self.rng.choice([self.number()] * 9 + [65535])

    def after(self) -> dict[str, int]:
        """The fields of an after link, often with a gap."""
        return {"after": 1} if self.rng.random() < 0.5 else {"after": 1, "gap": self.number()}

    def largest(self) -> dict[int, int]:
        """Of step 0 and each open step the largest offset in the plan; none where the sheet is refused."""
        try:
            accepted = p.accept_read(self.steps, self.records(), self.leasts, True)
        except p.Refusal:
            return {}
        return price.largest_offsets(self.steps, accepted.deciding)

    def numbers(self) -> list[tuple[dict | list, int | str]]:
        """The places of the numbers that make offsets: fixed durations, leasts, at leasts and gaps."""
        places = [(self.steps, v) for v, step in enumerate(self.steps) if step is not p.OPEN]
        places += [(self.leasts, a) for a in p.open_steps(self.steps)]
        return places + [(fields, name) for fields in self.fields.values() for name in ("at_least", "gap") if name in fields]

    def scale(self) -> None:
        """Bring every number down by the same factor, if some offset is far above the table, so that it comes near its end."""
        most = max(self.largest().values(), default=0)
        if most > 2 * price.ENTRIES:
            factor = self.rng.choice([400, 900, 1023, 1023, 1100]) / most
            for held, key in self.numbers():
                held[key] = int(held[key] * factor)
            for fields in self.fields.values():    # rounded up, so that most of what was possible still is
                fields.update({name: min(65535, int(fields[name] * factor) + self.n) for name in ("at_most", "from_end")
                               if name in fields})

    def to_edge(self) -> None:
        """Move a number so that the largest offset of some step, often that with the largest of all, is at an edge; at times those
        of a few. Nothing, if that is soon found for none."""
        self.scale()
        for _ in range(self.rng.choice([1, 1, 2, 4])):
            now = self.largest()
            for _ in range(12 if self.n < 25 and now else 4 if now else 0):
                a = self.rng.choice([max(now, key=now.get), self.rng.choice(sorted(now)), max(list(now)[1:] or [0], key=now.get)])
                edge = self.rng.choice(PRICE_EDGES)
                places = [(held, key) for held, key in self.numbers() if 0 <= held[key] + edge - now[a] <= 65535]
                if not places or now[a] == edge:
                    continue
                held, key = self.rng.choice(places)
                before = held[key]
                held[key] += edge - now[a]
                moved = self.largest()
                if moved.get(a) == edge and max(moved.values()) <= max(edge, price.ENTRIES + 1):
                    break
                held[key] = before


def record_bytes(record: p.Record) -> bytes:
    """A link record in bytes."""
    fields = (record.at_least, record.at_most, record.gap, record.from_end)
    bits = record.after + sum(2 << k for k, field in enumerate(fields) if field is not None)
    return bytes([bits, record.i, record.j]) + b"".join(
        field.to_bytes(2, "little") for field in fields if field is not None)


def spoil(rng: random.Random, fault: int, n: int, r: int, steps: list[bytes], records: list[bytes],
          finish: bool = False, gap: bool = False, least: bool = False) -> tuple[int, int]:
    """Work a fault 2 to 6 or 26 into the pieces of a sheet; N and R as they are then written.

    Of the maps for 4, those with bits 0 and 3 were wrong before there were gaps; now they shift the fields. So does the
    map 5 of a step since there are least durations.
    """
    at = rng.randrange(len(records)) if records else 0
    if fault == 2:
        n = rng.choice([0, 65, 255, rng.randint(65, 255)])
    elif fault == 3:
        r = rng.choice([513, 65535, rng.randint(513, 65535)])
    elif fault == 4 and (not records or rng.random() < 0.5):
        v = rng.choice([0, rng.randrange(len(steps))])
        bad = rng.choice([3, 4, 5, 6, 128, rng.randint(3, 255)])
        steps[v] = bytes([rng.choice([0, 2, bad]) if v == 0 else bad]) + steps[v][1:]
        if least and rng.random() < 0.8:           # a least on step 0, without bit 0, beside bit 1 or an unknown bit
            bits = rng.choice([5, 5, 4, 7] if v == 0 else [4, 6, 7, 0x0d, 0x85])
            steps[v] = bytes([bits]) + (steps[v][1:] or two_or_none(rng))
    elif fault == 4:
        records[at] = bytes([rng.choice([0, 8, 9, 255, rng.randint(8, 255)])]) + records[at][1:]
        if finish and rng.random() < 0.5:
            records[at] = bytes([rng.choice([0x18, 0x19, 0x1f, 0x30, 0x31, 0x90])]) + records[at][1:]
        if gap and rng.random() < 0.7:             # a gap without an after link, or beside an unknown bit
            bits = rng.choice([8, 10, 12, 14, 24, 26, 28, 30, records[at][0] & 0x16 | 8, 0x29, 0x4b, 0x99])
            records[at] = bytes([bits]) + records[at][1:]
    elif fault == 26:
        if not records:
            records.append(bytes([1, 0, 0]))
            r = 1
        records[at] = bytes([rng.choice([0x10, 0x10, 0x12, 0x14, 0x16])]) + records[at][1:]
    elif fault == 5:
        if not records:
            records.append(bytes([1, 0, 0]))
            r = 1
        bits, i, j = records[at][:3]
        wrong = rng.choice([n, 64, 255, rng.randint(n, 255)])
        i, j = rng.choice([(wrong, j), (i, wrong), (i, i), (j, j), (wrong, wrong)])
        records[at] = bytes([bits, i, j]) + records[at][3:]
    elif fault == 6 and records:
        to = rng.randrange(len(records))
        records[at], records[to] = records[to], records[at]
        if at == to and len(records) < 512:
            records.insert(at, records[at])
            r = len(records)
    return n, r


def two_or_none(rng: random.Random) -> bytes:
    """Two bytes, as if they were a field, or none."""
    return rng.choice([b"", rng.randbytes(2)])


def cut_in_least(rng: random.Random, steps: list[bytes]) -> list[bytes]:
    """The step records up to the least of some step, with none or one of its bytes; all, if no step has one."""
    with_least = [at for at, step in enumerate(steps) if step[0] == 5]
    if not with_least:
        return steps
    at = rng.choice(with_least)
    return steps[:at] + [steps[at][:1 + rng.choice([0, 1])]]


def cut_in_gap(rng: random.Random, records: list[bytes]) -> list[bytes]:
    """The records up to the gap of some record, with none or one of its bytes; all, if no record has a gap."""
    with_gap = [at for at, record in enumerate(records) if record[0] & 9 == 9]
    if not with_gap:
        return records
    at = rng.choice(with_gap)
    before = 3 + 2 * (records[at][0] & 6).bit_count()
    return records[:at] + [records[at][:before + rng.choice([0, 1])]]


def random_sheet(rng: random.Random, finish: bool = False, gap: bool = False, loose: bool = False,
                 least: bool = False, clash: bool = False, priced: bool = False) -> bytes:
    """One random sheet in bytes; one with gaps has limits from the end of a step too, one with loose steps both, one with
    leasts all of these, and one whose records clash, mostly, too, and one to be priced."""
    if priced:
        return price_sheet(rng)
    if clash:
        return clash_sheet(rng)
    loose = loose or least
    gap = gap or loose
    finish = finish or gap
    aim = rng.choice(LEAST_AIMS if least else LOOSE_AIMS if loose else GAP_AIMS if gap else FINISH_AIMS if finish else AIMS)
    sheet = aimed_sheet(rng, aim, finish, gap, loose, least)
    for _ in range(3 if finish and aim == 12 or loose and not least and aim in (10, 11) else 0):
        if met(sheet, aim):
            break
        sheet = aimed_sheet(rng, aim, finish, gap, loose, least)   # waits are often 28 here, links from 0 seldom decide
    return sheet


def met(sheet: bytes, aim: int) -> bool:
    """Whether a sheet that aims at 12, 10 or 11 is refused so, by the links from 0 if it is 10 or 11."""
    verdict = p.judge(sheet, False)
    return verdict == ("refused", aim) and (aim == 12 or "by the links from 0" in loose_facts(sheet, verdict))


def price_sheet(rng: random.Random) -> bytes:
    """One random sheet in bytes, with everything that there is, whose offsets are at an edge, mostly."""
    aim = rng.choice(PRICE_AIMS)
    for _ in range(3):
        sheet = aimed_sheet(rng, aim, True, True, True, True, priced=True)
        if aim != 12 or met(sheet, aim):           # waits are often 28 here
            break
    return sheet


def clash_sheet(rng: random.Random) -> bytes:
    """One random sheet in bytes, with everything that there is, whose records clash, mostly."""
    aim = rng.choice(CLASH_AIMS)
    for _ in range(4):
        if aim == 21 or aim in (10, 11) and rng.random() < 0.85:
            sheet = clashing_sheet(rng, aim)
        else:
            sheet = aimed_sheet(rng, aim, True, True, True, True)
        if aim not in (10, 11, 21) or p.judge(sheet, True) in (IMPOSSIBLE if aim == 21 else [("refused", aim)]):
            break
    return sheet


def clashing_sheet(rng: random.Random, aim: int) -> bytes:
    """One random sheet in bytes that aims at 10, at 11, or with 21 at both; at times with many more records that add nothing."""
    draft = rng.choice([several_clashes] * 6 + [gathered_clash] * 2 + [long_clash])(rng, aim)
    if rng.random() < 0.02:
        draft.circle()                             # 8 comes first
    draft.unsaid()
    steps, records = draft.pieces()
    return bytes([draft.n]) + len(records).to_bytes(2, "little") + b"".join(steps + records)


def several_clashes(rng: random.Random, aim: int) -> Draft:
    """A draft with one clash or more, each by a limit on a chain, or with one by a limit on what is there."""
    draft = Draft(rng, smallest=3, finish=True, gap=True, loose=True, least=True)
    draft.forward_part(rng.choice([0, 12]))
    if rng.random() < 0.4:
        draft.loosen()
    kinds = [rng.choice([10, 11]) if aim == 21 else aim for _ in range(rng.choice([1, 1, 1, 2, 3, 6]))]
    chains = []
    for kind in kinds:
        if len(draft.fields) + draft.n < 512:
            start, chain = draft.any_chain()
            draft.link_chain(kind, chain)
            chains.append((kind, start, chain))
    if rng.random() < 0.5:
        draft.return_part(rng.choice([0, 0, 12]))
    if rng.random() < 0.85:
        draft.limit_chains(chains)
    else:
        rng.choice([draft.too_tight, draft.hang_tight] if kinds[0] == 10 else [draft.stretch, draft.hang_long])()
    if rng.random() < 0.5:
        draft.fill(rng.choice([draft.n, 4 * draft.n, 300, 512, 512]))
    return draft


def gathered_clash(rng: random.Random, aim: int) -> Draft:
    """A draft with many records and a clash of those between a few steps, the first or the last ones, at times with one more."""
    draft = Draft(rng, smallest=rng.choice([3, 35]), finish=True, gap=True, loose=True, least=True)
    few = draft.gather()
    draft.forward_part(0)
    kind = rng.choice([10, 11]) if aim == 21 else aim
    draft.link_chain(kind, few)
    draft.limit_chains([(kind, few[0], few)])
    if aim == 21:
        (draft.stretch if kind == 10 else draft.hang_tight)()
    draft.fill(rng.choice([2 * draft.n, 300, 512, 512]), bare=True)
    return draft


def long_clash(rng: random.Random, aim: int) -> Draft:
    """A draft with a clash of many records: a limit on a chain of many steps, or of all, each of its links weighing something."""
    draft = Draft(rng, smallest=rng.choice([6, 12, 24]), finish=True, gap=True, loose=True, least=True)
    draft.flat, draft.top = False, min(draft.top, 20)
    chain = draft.order[rng.choice([0, 1, rng.randrange(draft.n // 2)]):]
    if aim == 11:                                  # one open step alone, else fewer records clash
        draft.steps[1:] = [draft.number() if step is p.OPEN else step for step in draft.steps[1:]]
        draft.leasts = [0] * draft.n
    draft.link_chain(11 if aim == 11 else 10, chain)
    for i, j in zip(chain, chain[1:]) if aim != 11 else ():
        if "after" not in draft.fields[i, j]:
            draft.put(i, j, at_least=rng.randint(1, 9))
        elif "gap" not in draft.fields[i, j]:
            draft.put(i, j, gap=rng.randint(1, 9))
    draft.limit_chains([(11 if aim == 11 else 10, rng.choice([0, chain[0]]), chain)])
    if rng.random() < 0.5:
        draft.fill(rng.choice([2 * draft.n, 512]), bare=True)
    return draft


def aimed_sheet(rng: random.Random, aim: int, finish: bool, gap: bool, loose: bool, least: bool, priced: bool = False) -> bytes:
    """One random sheet in bytes that aims at this; one to be priced has its offsets at an edge."""
    smallest = 6 if least and aim == -28 else 4 if aim in (12, 28, -28) else 1
    draft = PriceDraft(rng, smallest) if priced else \
        Draft(rng, smallest=smallest, finish=finish, gap=gap, loose=loose, least=least)
    if aim == -1:
        draft.anything()
    elif least and aim == -28 and rng.random() < 0.6:
        draft.forward_part(12)
        draft.late_by_least()
        draft.at_edge(with_waits=True)
    elif gap and aim in (10, -28) and rng.random() < (0.2 if loose else 0.5):
        draft.forward_part(12)
        if loose:
            draft.loosen()
        draft.return_part(12)
        draft.tight_gap(with_waits=aim == -28)
    else:
        draft.forward_part(aim)
        if loose and (not least or rng.random() < 0.3):
            draft.loosen()
        if least and aim in (0, 12) and rng.random() < 0.5:
            draft.tie()
        if aim == 12 or rng.random() < (0.3 if aim in (28, -28) else 0.9):
            draft.return_part(aim if aim in (0, 12) else 0 if aim in (28, -28) else rng.choice([0, 12, -1, -1]))
        if aim in (28, -28) or (finish and aim in (10, 11) and rng.random() < 0.2):
            (draft.clash if aim == 28 else draft.late)()
        # A later fault under an earlier one, at times.
        later = [k for k in (8, 9, 10, 11) if k > aim and 0 < aim < 11 and rng.random() < 0.15]
        for k in ([aim] if aim in (8, 9, 10, 11) else []) + later:
            faulty = {8: draft.circle, 9: draft.cut_off, 10: draft.too_tight, 11: draft.stretch}
            if loose and rng.random() < 0.7:
                faulty |= {8: draft.back_to_start, 10: draft.hang_tight, 11: draft.hang_long}
            faulty[k]()
        if least and aim in (10, 11, -28) and rng.random() < 0.7:
            draft.at_edge(with_waits=aim == -28)
    if priced:
        draft.to_edge()
    if loose:
        draft.unsaid()
    steps, records = draft.pieces()
    n, r = draft.n, len(records)
    faults = [aim] if 2 <= aim <= 6 or aim == 26 else []
    if (1 <= aim <= 7 or aim == 26) and rng.random() < 0.3:
        faults.append(rng.randint(2, 6))           # two faults: the first met is given
    for fault in faults:
        n, r = spoil(rng, fault, n, r, steps, records, finish, gap, least)
    if aim in (1, 7) and not faults and rng.random() < 0.2:
        r = max(0, min(512, r + (1 if aim == 1 else -1)))
    if least and aim == 1 and rng.random() < 0.5:
        return bytes([n]) + r.to_bytes(2, "little") + b"".join(cut_in_least(rng, steps))
    if gap and aim == 1 and rng.random() < 0.5:
        return bytes([n]) + r.to_bytes(2, "little") + b"".join(steps + cut_in_gap(rng, records))
    data = bytes([n]) + r.to_bytes(2, "little") + b"".join(steps) + b"".join(records)
    if aim == 7 or (1 <= aim <= 6 and rng.random() < 0.1):
        data += rng.randbytes(rng.choice([1, 1, 2, 3, 40]))
    if aim == 1 or (2 <= aim <= 6 and rng.random() < 0.1):
        data = data[:rng.choice([rng.randint(0, 8), rng.randrange(len(data)), len(data) - 1])]
    if aim == -1 and rng.random() < 0.1 and data:
        at = rng.randrange(len(data))              # any byte changed
        data = data[:at] + rng.randbytes(1) + data[at + 1:]
    return data


def generate(seed: int, count: int, finish: bool = False, gap: bool = False, loose: bool = False,
             least: bool = False, clash: bool = False, priced: bool = False) -> list[bytes]:
    """`count` random sheets for a seed, with limits from the end of a step, gaps too, loose steps too, leasts too, records
    that clash too, to be priced, or as before these."""
    rng = random.Random(seed)
    return [random_sheet(rng, finish, gap, loose, least, clash, priced) for _ in range(count)]


def container(sheets: list[bytes]) -> bytes:
    """The container file's bytes."""
    return b"".join(len(sheet).to_bytes(2, "little") + sheet for sheet in sheets)


def contents(data: bytes) -> list[bytes]:
    """The sheets of a container file."""
    sheets, at = [], 0
    while at < len(data):
        size = int.from_bytes(data[at:at + 2], "little")
        sheets.append(data[at + 2:at + 2 + size])
        at += 2 + size
    return sheets


def map_of(record: p.Record) -> int:
    """The bit map of a link record."""
    return record_bytes(record)[0]


def without_gaps(sheet: bytes) -> bytes:
    """A sheet that is read, its gaps left out."""
    records = p.read(sheet)[1][1]
    front = len(sheet) - sum(len(record_bytes(record)) for record in records)
    return sheet[:front] + b"".join(record_bytes(replace(record, gap=None)) for record in records)


def part_of(sheet: bytes, part: list[int]) -> bytes:
    """A sheet that is read, with these of its records alone."""
    records = p.read(sheet)[1][1]
    front = len(sheet) - sum(len(record_bytes(record)) for record in records)
    return sheet[:1] + len(part).to_bytes(2, "little") + sheet[3:front] + b"".join(record_bytes(records[k]) for k in part)


def least_fields(sheet: bytes) -> list[int]:
    """The steps of a sheet that is read whose map has bit 2."""
    found, at = [], 3
    for v in range(sheet[0]):
        found += [v] if sheet[at] & 4 else []
        at += 3 if sheet[at] & 6 else 1
    return found


def with_leasts(sheet: bytes, leasts: list[int]) -> bytes:
    """A sheet that is read, with other least durations of its open steps; 0 is left out."""
    steps, records, _ = p.read(sheet)[1]
    front = sheet[:3] + b"\x01"
    for step, least in zip(steps[1:], leasts[1:]):
        if step is p.OPEN:
            front += b"\x05" + least.to_bytes(2, "little") if least else b"\x01"
        else:
            front += b"\x02" + step.to_bytes(2, "little")
    return front + b"".join(record_bytes(record) for record in records)


def least_facts(sheet: bytes, verdict: p.Verdict) -> set[str]:
    """What is to be counted of a sheet that is read, about least durations."""
    steps, records, leasts = p.read(sheet)[1]
    fields = least_fields(sheet)
    facts = {"a least of 0" if leasts[a] == 0 else "the largest least" if leasts[a] == 65535 else "a least" for a in fields}
    if not any(leasts):
        return facts
    facts |= {"a return from the end of a step with a least" for r in records if r.from_end is not None and leasts[r.i]}
    bare = p.judge(with_leasts(sheet, [0] * len(steps)), False)
    if bare != verdict:
        facts.add(f"without the leasts {bare[0]} {bare[1]}")
    for by in (-1, 1):
        near = [[least + by if v == a else least for v, least in enumerate(leasts)]
                for a in fields if 0 <= leasts[a] + by < 65536]
        verdicts = {p.judge(with_leasts(sheet, some), False) for some in near[:8]} - {verdict}
        facts |= {f"with a least {'one more' if by > 0 else 'one less'} {kind} {k}" for kind, k in verdicts}
    if verdict in (("ok", 0), ("refused", 12)):
        accepted = p.accept(sheet, True)
        names = [set(row) for row in accepted.deciding]
        if names != [set(row) for row in p.deciding_sets(accepted.offsets, [0] * len(steps))]:
            facts.add("other deciding sets, were the least of b not added")
        if bare == verdict and names != [set(row) for row in p.accept(with_leasts(sheet, [0] * len(steps)), True).deciding]:
            facts.add("other deciding sets without the leasts")
    return facts


def price_facts(sheet: bytes, verdict: p.Verdict) -> set[str]:
    """What is to be counted of a sheet that is read, about its price."""
    if verdict not in (("ok", 0), ("refused", 12)):
        return set()
    accepted = p.accept(sheet, True)
    largest = price.largest_offsets(accepted.steps, accepted.deciding)
    facts = {"priced" if max(largest.values()) < price.ENTRIES else "not priced, 19"}
    for a, offset in largest.items():
        near = [edge for edge in range(1022, 1026) if edge == offset]
        facts |= {f"{step_kind(accepted.steps, a)} at {edge}" for edge in near}
        if 2 < offset < 1000 and (offset & offset - 1 == 0 or offset - 1 & offset - 2 == 0):
            facts.add("at a power of two or just past it")
    if len(largest) > 1 and max(largest, key=largest.get):
        facts.add("the largest offset of all not of 0")
    whole = {a: max((row[a] for row in accepted.offsets if a in row), default=0) for a in largest}
    if whole != largest:
        facts.add("other largest offsets over whole start sets")
        if max(largest.values()) < price.ENTRIES <= max(whole.values()):
            facts.add("19 only over whole start sets")
    return facts


def step_kind(steps: list[p.Step], v: int) -> str:
    """A step in words."""
    return "0" if v == 0 else "an open step" if steps[v] is p.OPEN else "a fixed step"


def gap_facts(sheet: bytes, verdict: p.Verdict) -> set[str]:
    """What is to be counted of a sheet that is read, about gaps."""
    steps, records, _ = p.read(sheet)[1]
    with_gap = [record for record in records if record.gap is not None]
    facts = {f"a gap after {step_kind(steps, record.i)}" for record in with_gap}
    facts |= {f"map {map_of(record):x}h" for record in with_gap}
    if p.judge(without_gaps(sheet), False) != verdict:
        facts.add("by the gaps")
    return facts


def finish_facts(sheet: bytes, verdict: p.Verdict) -> set[str]:
    """What is to be counted of a sheet that is read, about limits from the end of a step."""
    steps, records, leasts = p.read(sheet)[1]
    facts = set()
    for record in records:
        if record.from_end is not None:
            facts |= {f"from the end of {step_kind(steps, record.i)}", f"map {map_of(record):x}h"}
    if verdict == ("refused", 28):
        links = p.completed(len(steps), p.links_of(steps, records, leasts))
        ahead = p.forward(links) + p.wait_links(p.waits_of(steps, links), leasts)
        facts.add("by a circle" if p.circle(len(steps), ahead) else "without a circle")
    return facts


def by_completing(steps: list[p.Step], links: list[p.Link], refusal: int) -> bool:
    """Whether a refusal 8, 10 or 11 is due to completing: with these links alone it would not be given."""
    n = len(steps)
    if refusal == 8:
        return not p.circle(n, p.forward(links))
    if refusal == 10:
        return not p.no_times(n, links)
    return refusal == 11 and not p.outgrown(steps, links)


def loose_facts(sheet: bytes, verdict: p.Verdict) -> set[str]:
    """What is to be counted of a sheet that is read, about steps that no forward link enters."""
    steps, records, leasts = p.read(sheet)[1]
    n = len(steps)
    links = p.links_of(steps, records, leasts)
    loose = p.loose_steps(n, links)
    facts = {f"{step_kind(steps, v)} loose" for v in loose}
    facts |= {f"the {place} step loose" for place, v in (("first", 1), ("last", n - 1)) if v in loose}
    if loose:
        facts.add("all loose" if len(loose) == n - 1 else "half or more loose" if 2 * len(loose) >= n - 1 else "some loose")
    if any(link.target in loose for link in links):
        facts.add("a loose step that a return enters")
    after = {link.target for link in links if link.kind == "after"}
    if any(link.target not in after for link in p.forward(links)):
        facts.add("a step that an at least alone enters")
    if any(link.target == 0 for link in p.forward(links)):
        facts.add("a forward link into 0")
    if verdict[0] == "refused" and by_completing(steps, links, verdict[1]):
        facts.add("by the links from 0")
    if verdict in (("refused", 12), ("refused", 28)):
        waits = p.waits_of(steps, p.completed(n, links))
        facts |= {"a wait for a loose step" for a, _ in waits if a in loose}
        facts |= {"a wait of a loose step" for _, i in waits if i in loose}
    return facts


def clash_facts(sheet: bytes, verdict: p.Verdict) -> set[str]:
    """What is to be counted of a sheet that is read, about the records that clash."""
    if verdict not in IMPOSSIBLE:
        return set()
    steps, records, leasts = p.read(sheet)[1]
    r, report = len(records), p.clashing(sheet)
    few = [(1, "1 clashes"), (2, "2 clash"), (5, "3-5 clash"), (15, "6-15 clash"), (63, "16-63 clash"), (64, "64 clash")]
    facts = {f"R {'0-16' if r < 17 else '17-128' if r < 129 else '129-511' if r < 512 else '512'}, "
             + next(words for most, words in few if len(report) <= most)}
    if r > 16:
        facts.add("they stand " + ("in front" if report[-1] < r // 4 else "behind" if report[0] >= r - r // 4 else "elsewhere"))
    rest = part_of(sheet, [k for k in range(r) if k not in report])
    if p.judge(rest, True) in IMPOSSIBLE:
        facts.add("others clash apart from them")
    part = p.judge(part_of(sheet, report), True)
    if part != verdict:
        facts.add(f"the part {part[0]} {part[1]}")
    if by_completing(steps, p.links_of(steps, [records[k] for k in report], leasts), part[1]):
        facts.add("they clash by the links from 0")
    facts |= {f"a record that clashes with map {map_of(records[k]):x}h" for k in report}
    if any(word_to_spare(steps, [records[x] for x in report], records[k], leasts) for k in report):
        facts.add("a word of a record that clashes to spare")
    return facts


def word_to_spare(steps: list[p.Step], part: list[p.Record], record: p.Record, leasts: list[int]) -> bool:
    """Whether a part stays impossible without some word of one of its records, and what goes with that word."""
    fewer = [{"at_least": None}, {"at_most": None}, {"gap": None}, {"from_end": None}, dict(after=False, gap=None, from_end=None)]
    others = [other for other in part if other is not record]
    return any(replace(record, **words) != record and p.impossible(
        steps, p.links_of(steps, others + [replace(record, **words)], leasts)) for words in fewer)


def statistics(sheets: list[bytes]) -> str:
    """How many sheets each verdict (waits not allowed) and each size has."""
    verdicts: Counter = Counter()
    sizes: Counter = Counter()
    told: Counter = Counter()
    for sheet in sheets:
        verdict = p.judge(sheet, False)
        verdicts[verdict] += 1
        if verdict in (("ok", 0), ("refused", 12)):
            n, r = sheet[0], sheet[1] + 256 * sheet[2]
            sizes[f"N {'1' if n == 1 else '2-8' if n < 9 else '9-32' if n < 33 else '33-64'}",
                  f"R {'0-16' if r < 17 else '17-128' if r < 129 else '129-511' if r < 512 else '512'}",
                  "waits" if verdict[1] == 12 else "sound"] += 1
        if p.read(sheet)[0] == "ok":
            every = (finish_facts, gap_facts, loose_facts, least_facts, clash_facts, price_facts)
            facts = set().union(*(about(sheet, verdict) for about in every))
            told.update(f"{verdict[0]} {verdict[1]}, {about}" for about in facts)
    lines = [f"{kind} {k}: {verdicts[kind, k]}" for kind, k in sorted(verdicts)]
    lines += [f"{about}: {told[about]}" for about in sorted(told)]
    lines += [f"accepted, {', '.join(key)}: {sizes[key]}" for key in sorted(sizes)]
    return "\n".join(lines)


if __name__ == "__main__":
    kinds = (f"--{word}" in sys.argv[4:] for word in ("finish", "gap", "loose", "least", "clash", "price"))
    made = generate(int(sys.argv[1]), int(sys.argv[2]), *kinds)
    with open(sys.argv[3], "wb") as file:
        file.write(container(made))
    if "--stats" in sys.argv[4:]:
        print(statistics(made))
