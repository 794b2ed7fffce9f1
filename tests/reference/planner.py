"""Reference stand planner, written from document 01 (01-scope.md) and requests L1, L3, L6, L11 and L14 of document 02 alone.

Verdicts are ("ok", x) or ("refused", k).  Lent lists are never changed in
place: each call returns them as they are afterwards.
"""
from __future__ import annotations

from collections.abc import Iterable
from dataclasses import dataclass, replace

UNDECIDED = 4_294_967_295      # table entry where a does not decide v
LAST_TICK = 4_294_967_295
LONGEST = 16_777_215           # largest duration in a list of durations
OPEN = None                    # a step is OPEN or its fixed duration

Step = int | None
Verdict = tuple[str, int]


class Refusal(Exception):
    """A refusal with its number in the document."""

    def __init__(self, number: int) -> None:
        super().__init__(number)
        self.number = number


@dataclass(frozen=True)
class Record:
    """A link record for the pair (i, j)."""

    i: int
    j: int
    after: bool
    at_least: int | None
    at_most: int | None
    gap: int | None = None         # L1: of the after link, counted from the end of i
    from_end: int | None = None    # L11: at most, from the end of i


@dataclass(frozen=True)
class Link:
    """One link as a walk follows it: an at most link on (i, j) goes from j to i, from the end too."""

    source: int
    target: int
    weight: int                # open durations taken at their least
    kind: str                  # "after", "at least", "at most" or "from end" (of an open i, not 0)
    least: int = 0             # of an after link out of an open step: its least duration, a part of the weight


# ---------------------------------------------------------------- the bytes

class _Bytes:
    """The sheet, read from the front."""

    def __init__(self, data: bytes) -> None:
        self.data = data
        self.at = 0

    def number(self, size: int) -> int:
        """A field of `size` bytes, low byte first; 1 where the bytes end before."""
        if self.at + size > len(self.data):
            raise Refusal(1)
        value = int.from_bytes(self.data[self.at:self.at + size], "little")
        self.at += size
        return value


def _read(sheet: bytes) -> tuple[list[Step], list[Record], list[int]]:
    """Steps, link records and least durations (0 where none is given) of a sheet in bytes; raises refusals 1 to 7 and 26."""
    source = _Bytes(sheet)
    n = source.number(1)
    if n == 0 or n > 64:
        raise Refusal(2)
    r = source.number(2)
    if r > 512:
        raise Refusal(3)

    steps: list[Step] = []
    leasts: list[int] = []
    for v in range(n):
        bits = source.number(1)
        if bits not in ((1,) if v == 0 else (0, 1, 2, 5)):
            raise Refusal(4)
        if bits & 1:
            steps.append(OPEN)
        elif bits == 2:
            steps.append(source.number(2))
        else:
            steps.append(0)
        leasts.append(source.number(2) if bits & 4 else 0)

    records: list[Record] = []
    for _ in range(r):
        bits = source.number(1)
        if bits == 0 or bits & ~0b11111 or (bits & 8 and not bits & 1):
            raise Refusal(4)
        if bits & 16 and not bits & 1:
            raise Refusal(26)
        i = source.number(1)
        j = source.number(1)
        if i >= n or j >= n or i == j:
            raise Refusal(5)
        if records and (i, j) <= (records[-1].i, records[-1].j):
            raise Refusal(6)
        at_least = source.number(2) if bits & 2 else None
        at_most = source.number(2) if bits & 4 else None
        gap = source.number(2) if bits & 8 else None
        from_end = source.number(2) if bits & 16 else None
        records.append(Record(i, j, bool(bits & 1), at_least, at_most, gap, from_end))

    if source.at < len(sheet):
        raise Refusal(7)
    return steps, records, leasts


def read(sheet: bytes):
    """A sheet in bytes: ("ok", (steps, link records, least durations)) or ("refused", 1 to 7 or 26)."""
    try:
        return "ok", _read(sheet)
    except Refusal as refusal:
        return "refused", refusal.number


# ------------------------------------------------------- what links mean

def links_of(steps: list[Step], records: list[Record], leasts: list[int]) -> list[Link]:
    """What links mean: every link of the records, as walks follow them."""
    links = []
    for record in records:
        if record.after:
            duration = leasts[record.i] if steps[record.i] is OPEN else steps[record.i]
            links.append(Link(record.i, record.j, duration + (record.gap or 0), "after", leasts[record.i]))
        if record.at_least is not None:
            links.append(Link(record.i, record.j, record.at_least, "at least"))
        if record.at_most is not None:
            links.append(Link(record.j, record.i, -record.at_most, "at most"))
        if record.from_end is not None:
            duration = 0 if record.i == 0 else steps[record.i]
            if duration is OPEN:
                links.append(Link(record.j, record.i, -record.from_end - leasts[record.i], "from end"))
            else:              # the end of i is known: a plain at most
                links.append(Link(record.j, record.i, -(duration + record.from_end), "at most"))
    return links


def forward(links: list[Link]) -> list[Link]:
    """The forward links: after and at least."""
    return [link for link in links if link.kind in ("after", "at least")]


def loose_steps(n: int, links: list[Link]) -> list[int]:
    """The steps other than 0 that no forward link enters."""
    entered = {link.target for link in forward(links)}
    return [v for v in range(1, n) if v not in entered]


def completed(n: int, links: list[Link]) -> list[Link]:
    """L3: the links with an after link from 0 to each loose step; all that follows is taken on these."""
    return links + [Link(0, v, 0, "after") for v in loose_steps(n, links)]


def from_the_end(links: list[Link], a: int) -> list[Link]:
    """The links that a walk counting from the end of a may take: no return to a that is from its end.

    Such a return says that a is to end late enough; with the end of a given it says nothing of
    any start. So 11, waits and offsets leave it out for a alone; 10 and 28 take every link.
    """
    return [link for link in links if not (link.kind == "from end" and link.target == a)]


def open_steps(steps: list[Step]) -> list[int]:
    """The open steps other than step 0."""
    return [a for a in range(1, len(steps)) if steps[a] is OPEN]


def after_targets(links: list[Link], a: int) -> dict[int, int]:
    """The steps that an after link out of a leads to, with its weight from the end of a (of an open a: the gap)."""
    return {link.target: link.weight - link.least for link in links if link.kind == "after" and link.source == a}


def reached(links: list[Link], begin: Iterable[int]) -> set[int]:
    """The steps that walks along these links reach from `begin`, itself included."""
    targets: dict[int, list[int]] = {}
    for link in links:
        targets.setdefault(link.source, []).append(link.target)
    seen = set(begin)
    todo = list(seen)
    while todo:
        for v in targets.get(todo.pop(), []):
            if v not in seen:
                seen.add(v)
                todo.append(v)
    return seen


def start_sets(steps: list[Step], links: list[Link]) -> list[set[int]]:
    """The start set of each step."""
    sets = [{0} for _ in steps]
    ahead = forward(links)
    for a in open_steps(steps):
        for v in reached(ahead, after_targets(ahead, a)):
            sets[v].add(a)
    return sets


def waits_of(steps: list[Step], links: list[Link]) -> list[tuple[int, int]]:
    """The waits (a, i), by a, then by i, judged on the sheet as sent (completed, no waits in)."""
    sets = start_sets(steps, links)
    found = set()
    for a in open_steps(steps):
        there = reached(from_the_end(links, a), after_targets(links, a))
        for link in links:
            if link.kind in ("at most", "from end"):
                j, i = link.source, link.target
                if j in there and a not in sets[i] and a != i:     # a = i at an at most is 11
                    found.add((a, i))
    return sorted(found)


def wait_links(waits: list[tuple[int, int]], leasts: list[int]) -> list[Link]:
    """The after links, without a gap, that waits (a, i) put in."""
    return [Link(a, i, leasts[a], "after", leasts[a]) for a, i in waits]


def heaviest_from(n: int, links: list[Link], begin: dict[int, int]) -> list[int | None] | None:
    """Weight of the heaviest walk to each step, begun at any step of `begin` with the weight given
    there; in its place None: no walk. None alone: there is no heaviest, some circle on the way weighs
    more than 0."""
    best: list[int | None] = [begin.get(v) for v in range(n)]
    for _ in range(n + 1):
        moved = False
        for link in links:
            first, old = best[link.source], best[link.target]
            if first is not None and (old is None or first + link.weight > old):
                best[link.target] = first + link.weight
                moved = True
        if not moved:
            return best
    return None


def offsets_of(steps: list[Step], links: list[Link]) -> list[dict[int, int]]:
    """For each step v, the offset of v for each a in its start set."""
    best = {0: heaviest_from(len(steps), links, {0: 0})}
    for a in open_steps(steps):
        best[a] = heaviest_from(len(steps), from_the_end(links, a), after_targets(links, a))
    return [{a: best[a][v] for a in sorted(members)}
            for v, members in enumerate(start_sets(steps, links))]


def deciding_sets(offsets: list[dict[int, int]], leasts: list[int]) -> list[dict[int, int]]:
    """For each step v, its deciding set, with the offsets."""
    def left_out(v: int, a: int) -> bool:
        return any(b != a and a in offsets[b]
                   and offsets[b][a] + leasts[b] + offsets[v][b] >= offsets[v][a]
                   for b in offsets[v])
    return [{a: offset for a, offset in row.items() if not left_out(v, a)}
            for v, row in enumerate(offsets)]


# ------------------------------------------------------------ the judgement

@dataclass(frozen=True)
class Accepted:
    """An accepted sheet: its steps, its waits, its links, completed and with the waits in, and its least durations."""

    steps: list[Step]
    waits: list[tuple[int, int]]
    links: list[Link]
    leasts: list[int]

    @property
    def offsets(self) -> list[dict[int, int]]:
        """For each step v, the offset of v for each a in its start set."""
        return offsets_of(self.steps, self.links)

    @property
    def deciding(self) -> list[dict[int, int]]:
        """For each step v, its deciding set, with the offsets."""
        return deciding_sets(self.offsets, self.leasts)

    @property
    def verdict(self) -> Verdict:
        """0 is sound, 1 sound with waits."""
        return "ok", 1 if self.waits else 0


def circle(n: int, links: list[Link]) -> bool:
    """Whether these links close a circle."""
    return any(v in reached(links, {link.target for link in links if link.source == v}) for v in range(n))


def no_times(n: int, links: list[Link]) -> bool:
    """Whether no start times keep these links with each open step at its least: a circle weighs more than 0."""
    return heaviest_from(n, links, dict.fromkeys(range(n), 0)) is None


def outgrown(steps: list[Step], links: list[Link]) -> bool:
    """Whether some open step can last too long: a walk that counts from its end comes back to it."""
    return any(a in reached(from_the_end(links, a), after_targets(links, a)) for a in open_steps(steps))


def accept(sheet: bytes, allow_waits: bool) -> Accepted:
    """The accepted sheet; raises refusals 1 to 8, 10 to 12, 26 and 28."""
    return accept_read(*_read(sheet), allow_waits)


def accept_read(steps: list[Step], records: list[Record], leasts: list[int], allow_waits: bool) -> Accepted:
    """The accepted sheet with these steps, link records and least durations; raises refusals 8, 10 to 12 and 28."""
    n = len(steps)
    links = completed(n, links_of(steps, records, leasts))
    if circle(n, forward(links)):
        raise Refusal(8)
    if no_times(n, links):
        raise Refusal(10)
    if outgrown(steps, links):
        raise Refusal(11)
    waits = waits_of(steps, links)
    whole = links + wait_links(waits, leasts)
    if waits and (circle(n, forward(whole)) or no_times(n, whole)):
        raise Refusal(28)
    if waits and not allow_waits:
        raise Refusal(12)
    return Accepted(steps, waits, whole, leasts)


def judge(sheet: bytes, allow_waits: bool) -> Verdict:
    """Judge a sheet: ("ok", 0) sound, ("ok", 1) sound with waits, or ("refused", 1 to 8, 10 to 12, 26 or 28)."""
    try:
        return accept(sheet, allow_waits).verdict
    except Refusal as refusal:
        return "refused", refusal.number


def waits(sheet: bytes) -> tuple[list[int], int, Verdict]:
    """List the waits: 64 maps (bit a of map i), their count, the verdict (never 12)."""
    maps = [0] * 64
    try:
        accepted = accept(sheet, True)
    except Refusal as refusal:
        return maps, 0, ("refused", refusal.number)
    for a, i in accepted.waits:
        maps[i] |= 1 << a
    return maps, len(accepted.waits), accepted.verdict


def plan(sheet: bytes, allow_waits: bool, table: list[int]) -> tuple[Verdict, list[int]]:
    """Plan a sheet into a lent table: the verdict, and the table afterwards."""
    try:
        accepted = accept(sheet, allow_waits)
        n = len(accepted.steps)
        if len(table) < n * n:
            raise Refusal(14)
    except Refusal as refusal:
        return ("refused", refusal.number), list(table)
    deciding = accepted.deciding
    answer = [deciding[v].get(a, UNDECIDED) for v in range(n) for a in range(n)]
    return accepted.verdict, answer + list(table[n * n:])


def start_times(offsets: list[dict[int, int]], durations: list[int]) -> list[int]:
    """The start of each step by the rule, over its start set, for a list of durations."""
    known: dict[int, int] = {0: 0}

    def start(v: int) -> int:
        if v not in known:
            known[v] = max(start(a) + durations[a] + offset for a, offset in offsets[v].items())
        return known[v]

    return [start(v) for v in range(len(offsets))]


def starts(sheet: bytes, allow_waits: bool, durations: list[int],
           out: list[int]) -> tuple[Verdict, list[int]]:
    """Work out starts into a lent list: the verdict, and that list afterwards."""
    try:
        accepted = accept(sheet, allow_waits)
        n = len(accepted.steps)
        for v, duration in enumerate(durations[:n]):
            may_last = v != 0 and accepted.steps[v] is OPEN
            if not accepted.leasts[v] <= duration <= (LONGEST if may_last else 0):
                raise Refusal(13)
        if len(durations) < n or len(out) < n:
            raise Refusal(14)
    except Refusal as refusal:
        return ("refused", refusal.number), list(out)
    answer = start_times(accepted.offsets, durations)
    return accepted.verdict, answer + list(out[n:])


def row(table: list[int], n: int, v: int):
    """Row v of a lent table: ("ok", its N numbers) or ("refused", 2, 5 or 14)."""
    if not 1 <= n <= 64:
        return "refused", 2
    if v >= n:
        return "refused", 5
    if len(table) < n * n:
        return "refused", 14
    return "ok", table[v * n:(v + 1) * n]


# ------------------------------------------------ L14, the records that clash

def comes_round(raised_from: list[int | None]) -> bool:
    """Whether going from some step to the one it was raised from, and on, ends in a circle."""
    seen_on_way: list[int | None] = [None] * len(raised_from)
    for begin in range(len(raised_from)):
        v = begin
        while v is not None and seen_on_way[v] is None:
            seen_on_way[v] = begin
            v = raised_from[v]
        if v is not None and seen_on_way[v] == begin:
            return True
    return False


def heavy_circle(n: int, links: list[Link]) -> bool:
    """Whether a circle of these links weighs more than 0: the same as no_times, sooner known.

    Of the links between two steps the heaviest alone counts, and each step keeps the step it was last raised from. As every
    raise is by more than 0, such steps come round in a circle only if it weighs more than 0, and after n rounds that all
    raised something they do.
    """
    heaviest: dict[tuple[int, int], int] = {}
    for link in links:
        pair = link.source, link.target
        if pair not in heaviest or heaviest[pair] < link.weight:
            heaviest[pair] = link.weight
    ways = [(source, target, weight) for (source, target), weight in heaviest.items()]
    best = [0] * n
    raised_from: list[int | None] = [None] * n
    while not comes_round(raised_from):
        moved = False
        for source, target, weight in ways:
            if best[source] + weight > best[target]:
                best[target] = best[source] + weight
                raised_from[target] = source
                moved = True
        if not moved:
            return False
    return True


def comes_back(steps: list[Step], links: list[Link]) -> bool:
    """Whether a walk that counts from the end of some open step comes back to it: the same as outgrown, with maps of steps."""
    anyhow = [0] * len(steps)      # per step, the steps that a link leads to
    plainly = [0] * len(steps)     # the same, by a link that is no return from the end of an open step
    after = [0] * len(steps)       # the same, by an after link
    for link in links:
        bit = 1 << link.target
        anyhow[link.source] |= bit
        if link.kind != "from end":
            plainly[link.source] |= bit
        if link.kind == "after":
            after[link.source] |= bit
    for a in open_steps(steps):
        own = 1 << a
        there = todo = after[a]
        while todo:
            v = todo.bit_length() - 1
            more = (anyhow[v] & ~own | plainly[v] & own) & ~there
            there |= more
            todo = todo & ~(1 << v) | more
        if there & own:
            return True
    return False


def impossible(steps: list[Step], links: list[Link]) -> bool:
    """Whether a sheet with these links is refused as 10 or 11: it is completed here, and then closes no forward circle."""
    whole = completed(len(steps), links)
    return heavy_circle(len(steps), whole) or comes_back(steps, whole)


def clashing(sheet: bytes) -> list[int]:
    """The numbers of the records that clash, rising; raises refusals 1 to 8, 26 and 31.

    From the last record to the first, each one is dropped whose loss leaves what is there then impossible. Every part is
    completed afresh. None is 8: in a sheet that is not, no forward link leads into 0, so that links from 0 close no circle.
    """
    steps, records, leasts = _read(sheet)
    links = [links_of(steps, [record], leasts) for record in records]      # of each record

    def links_in(part: list[int]) -> list[Link]:
        return [link for number in part for link in links[number]]

    part = list(range(len(records)))
    if circle(len(steps), forward(completed(len(steps), links_in(part)))):
        raise Refusal(8)
    if not impossible(steps, links_in(part)):
        raise Refusal(31)
    for number in reversed(range(len(records))):
        rest = [other for other in part if other != number]
        if impossible(steps, links_in(rest)):
            part = rest
    return part


def clashes(sheet: bytes, lent: list[int]) -> tuple[Verdict, list[int]]:
    """Report the records that clash into a lent list: ("ok", how many) or ("refused", 1 to 8, 26, 31 or 14), and the list
    afterwards."""
    try:
        report = clashing(sheet)
        if len(lent) < len(report):
            raise Refusal(14)
    except Refusal as refusal:
        return ("refused", refusal.number), list(lent)
    return ("ok", len(report)), report + list(lent[len(report):])


# --------------------------------------------------------------- the runner

@dataclass(frozen=True)
class State:
    """The runner's state; as it stands here, no run has begun."""

    n: int = 0
    open: int = 0              # map of open steps
    tick: int = 0
    started: int = 0           # map
    finished: int = 0          # map
    start: tuple[int, ...] = (0,) * 64
    finish: tuple[int, ...] = (0,) * 64
    least: tuple[int, ...] = (0,) * 64     # the least durations, numbers of 16 bits


def _has(bits: int, v: int) -> bool:
    """Bit v of a map."""
    return bits >> v & 1 == 1


def _set(ticks: tuple[int, ...], v: int, tick: int) -> tuple[int, ...]:
    """The ticks with that of step v replaced."""
    return ticks[:v] + (tick,) + ticks[v + 1:]


def _start_due(state: State, table: list[int]) -> tuple[int, State]:
    """After each call: start the steps that are due; their map and the state."""
    due = []
    for v in range(state.n):
        named = [(a, offset) for a, offset in enumerate(table[v * state.n:(v + 1) * state.n])
                 if offset != UNDECIDED]
        if not _has(state.started, v) and named and all(
                _has(state.finished, a) and state.finish[a] + offset <= state.tick
                for a, offset in named):
            due.append(v)
    bits = 0
    start = state.start
    for v in due:
        bits |= 1 << v
        start = _set(start, v, state.tick)
    return bits, replace(state, started=state.started | bits, start=start)


def begin(state: State, n: int, open_map: int, leasts: list[int], table: list[int]) -> tuple[Verdict, State]:
    """Begin: ("ok", map of steps started) or ("refused", 16, 2 or 14), and the state.

    The first N least durations are kept as given, those of step 0 and fixed steps too, which count for nothing.
    """
    if _has(state.started, 0):
        return ("refused", 16), state
    if not 1 <= n <= 64:
        return ("refused", 2), state
    if len(table) < n * n or len(leasts) < n:
        return ("refused", 14), state
    kept = tuple(leasts[:n]) + (0,) * (64 - n)
    bits, after = _start_due(State(n=n, open=open_map, started=1, finished=1, least=kept), table)
    return ("ok", bits | 1), after


def _not_running(state: State, table: list[int]) -> int:
    """15, then 14, as Tick and Finish check them; 0 for neither."""
    if not _has(state.started, 0) or not 1 <= state.n <= 64:
        return 15
    return 14 if len(table) < state.n * state.n else 0


def tick(state: State, table: list[int]) -> tuple[Verdict, State]:
    """Tick: ("ok", map of steps started) or ("refused", 15, 14 or 18), and the state."""
    fault = _not_running(state, table)
    if not fault and state.tick == LAST_TICK:
        fault = 18
    if fault:
        return ("refused", fault), state
    bits, after = _start_due(replace(state, tick=state.tick + 1), table)
    return ("ok", bits), after


def finish(state: State, s: int, table: list[int]) -> tuple[Verdict, State]:
    """Finish s: ("ok", map of steps started) or ("refused", 15, 14, 17 or 20), and the state."""
    fault = _not_running(state, table)
    if not fault and (s == 0 or s >= state.n or not _has(state.open, s)
                      or not _has(state.started, s) or _has(state.finished, s)):
        fault = 17
    if not fault and state.tick < state.start[s] + state.least[s]:
        fault = 20
    if fault:
        return ("refused", fault), state
    ended = replace(state, finished=state.finished | 1 << s,
                    finish=_set(state.finish, s, state.tick))
    bits, after = _start_due(ended, table)
    return ("ok", bits), after


# ---------------------------------------------------------------- standplan

def standplan_text(sheet: bytes) -> str:
    """The text that standplan prints for a sheet, waits allowed."""
    try:
        accepted = accept(sheet, True)
    except Refusal as refusal:
        return f"refused {refusal.number}\n"
    lines = [f"verdict {accepted.verdict[1]}", f"waits {len(accepted.waits)}"]
    lines += [f"wait {a} {i}" for a, i in accepted.waits]
    for v, members in enumerate(accepted.deciding):
        lines += [f"start {v} {a} {members[a]}" for a in sorted(members)]
    return "\n".join(lines) + "\n"
