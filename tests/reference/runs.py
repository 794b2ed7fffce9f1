"""Random runs of accepted sheets: calls of the runner, wrong ones between them, with the answers and states of the reference.

    random_run(rng, sheet)

gives a Run: the plan's table, and the calls in order, each with the verdict and the state after it. A call works on the state
after the call before it (at first on State(), in which no run has begun), unless it has a state given. Up to the call number
`from_anywhere`, a state given is the one before after so many ticks in which nothing starts and no least is reached, only that
these ticks are not called one by one; from that call on, states given are from anywhere.
"""
from __future__ import annotations

import random
from dataclasses import dataclass, replace

import planner as p


@dataclass(frozen=True)
class Call:
    """A call of the runner, and what it has to answer."""

    name: str                      # "begin", "tick" or "finish"
    lent: int                      # so many numbers of the table are lent, from its front
    n: int = 0                     # of begin
    open: int = 0                  # of begin
    leasts: tuple[int, ...] = ()   # of begin
    step: int = 0                  # of finish
    given: p.State | None = None   # the state before it, if that is not the one after the call before
    verdict: p.Verdict = ("ok", 0)
    state: p.State = p.State()


@dataclass(frozen=True)
class Run:
    """The table of a sheet's plan (N x N numbers, at times with more behind), and the calls."""

    table: list[int]
    calls: list[Call]
    from_anywhere: int


def answer(state: p.State, call: Call, table: list[int]) -> tuple[p.Verdict, p.State]:
    """What the reference says to a call on a state."""
    lent = table[:call.lent]
    if call.name == "begin":
        return p.begin(state, call.n, call.open, list(call.leasts), lent)
    return p.tick(state, lent) if call.name == "tick" else p.finish(state, call.step, lent)


class _Drawing:
    """A run being drawn."""

    def __init__(self, rng: random.Random, sheet: bytes) -> None:
        accepted = p.accept(sheet, True)
        self.rng = rng
        self.n = len(accepted.steps)
        self.leasts = tuple(accepted.leasts)
        self.open = sum(1 << a for a in p.open_steps(accepted.steps))
        self.table = p.plan(sheet, True, [0] * self.n ** 2)[1] + [rng.randrange(2 ** 32) for _ in range(rng.choice([0, 0, 2]))]
        self.state = p.State()
        self.calls: list[Call] = []

    def call(self, name: str, given: p.State | None = None, **fields) -> p.Verdict:
        """Make a call, with all of the table lent if nothing else is said; its verdict."""
        call = Call(name, **{"lent": len(self.table)} | fields, given=given)
        verdict, self.state = answer(self.state if given is None else given, call, self.table)
        self.calls.append(replace(call, verdict=verdict, state=self.state))
        return verdict

    def short(self) -> int:
        """A length that is too short for the table."""
        return self.rng.choice([0, self.n ** 2 - 1, self.rng.randrange(self.n ** 2)])

    def begin(self, **fields) -> p.Verdict:
        """Begin with the sheet's own, if nothing else is said; at times with bit 0 of the map, or a longer list of leasts."""
        more = tuple(self.rng.randrange(65536) for _ in range(self.rng.choice([0, 0, 1, 70])))
        own = {"n": self.n, "open": self.open | self.rng.choice([0, 1]), "leasts": self.leasts + more}
        return self.call("begin", **own | fields)

    def wrong_begin(self) -> None:
        """Begin as it has to be refused: N wrong, the table or the list of leasts too short; on a run that has begun, any."""
        wrong = {"n": self.rng.choice([0, 65, 255])}
        if self.rng.random() < 0.8:
            wrong = {"leasts": self.leasts[:self.rng.choice([0, self.n - 1, self.rng.randrange(self.n)])]}
            if self.rng.random() < 0.5:
                wrong = {"lent": self.short()} | (wrong if self.rng.random() < 0.3 else {})
        elif self.rng.random() < 0.5:
            wrong |= {"lent": self.short(), "leasts": ()}
        self.begin(**({} if self.state.started & 1 and self.rng.random() < 0.4 else wrong))

    def running(self) -> list[int]:
        """The open steps that have started and not finished."""
        bits = self.open & self.state.started & ~self.state.finished
        return [a for a in range(1, self.n) if bits >> a & 1]

    def early(self) -> list[int]:
        """Those of them below their least."""
        return [a for a in self.running() if self.state.tick < self.state.start[a] + self.leasts[a]]

    def wrong_call(self) -> None:
        """A call that has to be refused as things are, whether the run has begun or not."""
        kind = self.rng.choice(["begin", "tick", "finish", "17", "17", "20", "20", "20"])
        early = self.early()
        if kind == "begin":
            self.wrong_begin()
        elif kind == "tick" or (kind == "20" and not early):
            self.call("tick", lent=self.short())
        elif kind == "20":
            self.call("finish", step=self.rng.choice(early))
        elif kind == "finish":
            self.call("finish", step=self.rng.choice(self.running() + [0, self.n]), lent=self.short())
        else:
            no = [s for s in range(self.n) if s not in self.running()]
            self.call("finish", step=self.rng.choice([self.rng.choice(no), self.rng.choice(no), 0, self.n, 64, 255]))

    def next_tick(self) -> int | None:
        """The next tick at which some step starts or reaches its least, if nothing is finished before it; None: there is none."""
        state = self.state
        ticks = [state.start[a] + self.leasts[a] for a in self.early()]
        for v in range(self.n):
            row = [(a, x) for a, x in enumerate(self.table[v * self.n:(v + 1) * self.n]) if x != p.UNDECIDED]
            if not state.started >> v & 1 and all(state.finished >> a & 1 for a, _ in row):
                ticks.append(max(state.finish[a] + x for a, x in row))
        return min(ticks, default=None)

    def right_call(self) -> None:
        """Finish a step that has reached its least, often at once, or tick; long times of ticking are passed over."""
        ready = [a for a in self.running() if a not in self.early()]
        at_once = [a for a in ready if self.state.tick == self.state.start[a] + self.leasts[a]]
        for steps, share in ((at_once, 0.5), (ready, 0.3)):
            if steps and self.rng.random() < share:
                self.call("finish", step=self.rng.choice(steps))
                return
        coming = self.next_tick()
        ahead = 0 if coming is None else coming - self.state.tick
        if ahead > 4 and self.rng.random() < 0.8:
            to = coming - self.rng.choice([1, 1, 2])
            given = replace(self.state, tick=to)
            early = self.early()
            if early and self.rng.random() < 0.5:
                self.call("finish", given, step=self.rng.choice(early))
            else:
                self.call("tick", given)
        else:
            self.call("tick")

    def anywhere(self) -> p.State:
        """A state from anywhere, mostly one in which a run of this sheet's size has begun."""
        def ticks(near: int) -> tuple[int, ...]:
            some = [0, near, p.LAST_TICK, p.LAST_TICK - 65535, self.rng.randrange(2 ** 32)]
            some += [max(0, near - 65535), max(0, near - self.rng.randrange(100))]
            some += [min(p.LAST_TICK, near + self.rng.randrange(100))]
            return tuple(self.rng.choice(some) for _ in range(64))

        now = self.rng.choice([0, 65535, p.LAST_TICK, p.LAST_TICK, p.LAST_TICK - 1, self.rng.randrange(2 ** 32)])
        bits = [self.rng.choice([self.rng.getrandbits(64), 2 ** 64 - 1]) for _ in range(3)]
        least = tuple(self.rng.choice([0, 65535, self.rng.randrange(65536), self.rng.randrange(100)]) for _ in range(64))
        return p.State(n=self.rng.choice([self.n] * 8 + [0, 65, self.rng.randint(1, 64)]), open=bits[0], tick=now,
                       started=bits[1] | (self.rng.random() < 0.9), finished=bits[2] & self.rng.getrandbits(64),
                       start=ticks(now), finish=ticks(now), least=least)

    def call_anywhere(self) -> None:
        """A call on a state from anywhere: mostly a finish of a step that runs, at times just at its least or one below."""
        state = self.anywhere()
        s = self.rng.choice([self.rng.randrange(self.n), self.rng.randrange(self.n), self.rng.randrange(70)])
        runs = state.open & state.started & ~state.finished
        running = [a for a in range(1, min(state.n, 64)) if runs >> a & 1]
        if running and self.rng.random() < 0.9:
            s = self.rng.choice(running)
            start, least = state.start[s], state.least[s]
            if self.rng.random() < 0.6:
                state = replace(state, tick=min(p.LAST_TICK, max(0, start + least + self.rng.choice([-1, -1, 0, 0, 1]))))
        name = self.rng.choice(["finish"] * 6 + ["tick", "tick", "begin"])
        if name == "begin":
            self.call("begin", state, n=self.n, open=self.open, leasts=self.leasts)
        else:
            self.call(name, state, **({"step": s} if name == "finish" else {}))


def random_run(rng: random.Random, sheet: bytes) -> Run:
    """A random run of an accepted sheet, waits allowed: wrong calls before it begins and between the right ones, among them
    finishes too early; then, at times, calls on states from anywhere."""
    run = _Drawing(rng, sheet)
    for _ in range(rng.choice([0, 0, 1, 3])):
        run.wrong_call()
    assert run.begin()[0] == "ok"
    wrong = rng.choice([0, 0.1, 0.3])
    for _ in range(rng.choice([5, 20, 20, 60])):
        (run.wrong_call if rng.random() < wrong else run.right_call)()
    own = len(run.calls)
    for _ in range(rng.choice([0, 0, 1, 4])):
        run.call_anywhere()
    return Run(run.table, run.calls, own)
