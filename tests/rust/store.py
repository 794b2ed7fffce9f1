"""Stores answers of the reference planner (tests/reference): python3 store.py

data/answers.txt: for sheets of every verdict a line for the sheet, then lines for what is asked of it, for what a run of it is begun with, and for the records
that clash.
data/runs.txt: runs, by lines that set the table or the state, and lines for calls, with the answer and the state after it.
data/parts.txt: parts of sheets to be written: the counts of steps and records and the bytes of room, the steps, the records, the answer, and the bytes written.
data/prices.txt: for the sheets of data/answers.txt and for more of them, drawn to be priced, lines for their prices; its head says how they read.
Fields are parted by semicolons; '-' is the number for undecided.
"""
import random
import sys
from functools import cache
from pathlib import Path

sys.path.insert(0, str(Path(__file__).parent.parent / "reference"))
import container  # noqa: E402
import examples  # noqa: E402
import generate  # noqa: E402
import parts as apart  # noqa: E402
import planner as p  # noqa: E402
import price  # noqa: E402
import runs as drawn  # noqa: E402
import writer  # noqa: E402

EACH = 4                       # sheets for each verdict
EACH_FINISH = 2                # the same with limits from the end of a step
EACH_LOOSE = 1                 # the same with steps that no forward link enters
EACH_LEAST = 2                 # the same with least durations
EACH_CLASH = 2                 # the same with records that clash, for each length of the report
EACH_PARTS = 20                # parts for each answer of the writer
EACH_PRICED = 24               # sheets to be priced, for each verdict of an accepted sheet's price, with waits and without
EACH_UNPRICED = 2              # the same for each other verdict
PRICES_HEAD = """\
# Prices of the control box (request L5), of the reference planner, stored by tests/rust/store.py.
# A line `sheet HEX` has the bytes of a sheet in hexadecimal; lines for calls on it follow:
#   price ALLOW; VERDICT; REGISTERS; COMPARISONS; TOTALS
# ALLOW is 1 where waits are allowed, else 0. VERDICT is `ok 0` (sound), `ok 1` (sound with waits) or `refused k`.
# REGISTERS and COMPARISONS are the two lent lists after the call, whole. Before it number i is 1000 + i in the first and 2000 + i in the second.
# Past the first N they stay so, and on a refusal all do. TOTALS are the two sums, registers first; on a refusal there are none.
"""


def words(numbers):
    return " ".join("-" if x == p.UNDECIDED else str(x) for x in numbers)


def lent(size):
    return [1000 + i for i in range(size)]


@cache
def chosen():
    """The worked sheets, then random ones: a few for each verdict where waits are not allowed, among them one of 64 steps."""
    sheets = [examples.STAND, examples.TWO_HANDS, b"", bytes([1, 0, 0, 1])]
    counts, largest = {}, False
    for sheet in generate.generate(2026, 3000):
        verdict = p.judge(sheet, False)
        accepted = verdict in (("ok", 0), ("refused", 12))
        n = sheet[0] if sheet else 0
        if accepted and n == 64 and not largest:
            largest = True
            sheets.append(sheet)
        elif counts.get(verdict, 0) < EACH and (n <= 12 if accepted else len(sheet) < 600):
            counts[verdict] = counts.get(verdict, 0) + 1
            sheets.append(sheet)
    return sheets


@cache
def chosen_finish():
    """Sheets with limits from the end of a step: the worked ones, then random ones, a few for each verdict."""
    sheets = [examples.EXPOSURE, examples.HAND_WAITS, examples.CLASH, examples.late(5), examples.late(6)]
    counts = {}
    for sheet in generate.generate(2026, 1000, finish=True):
        verdict = p.judge(sheet, False)
        if p.read(sheet)[0] == "ok":
            verdict = verdict, "from the end of an open step" in generate.finish_facts(sheet, verdict)
        n = sheet[0] if sheet else 0
        if counts.get(verdict, 0) < EACH_FINISH and n <= 12 and len(sheet) < 400:
            counts[verdict] = counts.get(verdict, 0) + 1
            sheets.append(sheet)
    return sheets


@cache
def chosen_loose():
    """Sheets with steps that no forward link enters: the worked ones, then random ones, a few for each verdict."""
    sheets = [examples.LOOSE_STAND, examples.LOOSE_HANDS, examples.LOOSE_ALL, examples.LOOSE_CIRCLE]
    counts = {}
    for sheet in generate.generate(2026, 300, loose=True):
        verdict = p.judge(sheet, False)
        small = sheet and sheet[0] <= 12 and len(sheet) < 400
        if counts.get(verdict, 0) < EACH_LOOSE and small and p.read(sheet)[0] == "ok" and examples.loose(sheet):
            counts[verdict] = counts.get(verdict, 0) + 1
            sheets.append(sheet)
    return sheets


@cache
def chosen_least():
    """Sheets with least durations: the worked ones, at their edges, then random ones, a few for each verdict."""
    edges = [examples.needs_least(least) for least in (3, 4)]
    sheets = [examples.HAND, examples.HAND[:8] + b"\x00\x00" + examples.HAND[10:], examples.HAND[:8] + b"\xff\xff" + examples.HAND[10:], *edges,
              *(bytes([2, 0, 0, first, second, 8, 0]) for first, second in ((5, 1), (1, 4), (1, 6), (1, 7), (1, 5))), bytes([2, 0, 0, 1, 5, 8])]
    counts = {}
    for sheet in generate.generate(2026, 600, least=True):
        verdict = p.judge(sheet, False)
        small = sheet and sheet[0] <= 12 and len(sheet) < 400
        if counts.get(verdict, 0) < EACH_LEAST and small and p.read(sheet)[0] == "ok" and any(p.read(sheet)[1][2]):
            counts[verdict] = counts.get(verdict, 0) + 1
            sheets.append(sheet)
    return sheets


@cache
def chosen_clash():
    """Sheets with records that clash: the worked one, then random ones, a few for each verdict and each length of the report."""
    sheets = [examples.TIGHT_STAND]
    counts = {}
    for sheet in generate.generate(2026, 200, clash=True):
        found = p.judge(sheet, True), p.clashes(sheet, lent(512))[0]
        if found[1][0] == "ok" and counts.get(found, 0) < EACH_CLASH and len(sheet) < 600:
            counts[found] = counts.get(found, 0) + 1
            sheets.append(sheet)
    return sheets


@cache
def chosen_price():
    """Sheets to be priced: the worked ones, at the edges of the table, then random ones, some for each verdict, among them two of 64 steps."""
    sheets = [container.one_gap(hand, ticks) for hand in (False, True) for ticks in (0, 1, 2, 3, 512, 513, 1023, 1024, 65535)]
    sheets += [examples.FAR, examples.WAITING, container.chain_to(23, 24), container.chain_to(24, 24), container.hands_into_one(33), container.hands_into_one(34)]
    counts, largest = {}, 0
    for sheet in generate.generate(2026, 400, priced=True):
        found = price_of(sheet, False, 64, 64)[0], price_of(sheet, True, 64, 64)[0]
        priced = found[1] in (("ok", 0), ("ok", 1), ("refused", 19))
        n = sheet[0] if sheet else 0
        if priced and n == 64 and largest < 2:
            largest += 1
            sheets.append(sheet)
        elif counts.get(found, 0) < (EACH_PRICED if priced else EACH_UNPRICED) and n <= 16 and len(sheet) < 400:
            counts[found] = counts.get(found, 0) + 1
            sheets.append(sheet)
    return sheets


def price_of(sheet, allow, first, second):
    """The price where lists of these lengths are lent."""
    return price.price(sheet, allow, lent(first), [x + 1000 for x in lent(second)])


def steps_of(sheet, lent_):
    """What a run of the sheet is begun with: the verdict, N, the map of the open steps, step 0 among them, and the leasts in the numbers lent."""
    verdict, read = p.read(sheet)
    if verdict == "ok" and len(lent_) < len(read[0]):
        verdict, read = "refused", 14
    if verdict == "refused":
        return (verdict, read), 1000, 1000, lent_
    steps, _, leasts = read
    return ("ok", 0), len(steps), sum(1 << v for v, step in enumerate(steps) if step is p.OPEN), leasts + lent_[len(steps):]


def durations(rng, sheet, size):
    """A random list: 0 for fixed steps, for open ones no less than their least; at times one number is wrong."""
    read = p.read(sheet)
    steps, leasts = (read[1][0], read[1][2]) if read[0] == "ok" else ([], [])
    numbers = [rng.choice([0, 1, rng.randint(0, 300), p.LONGEST]) if v and v < len(steps) and steps[v] is p.OPEN else 0
               for v in range(size)]
    numbers = [max(number, least) for number, least in zip(numbers, leasts)] + numbers[len(leasts):]
    if numbers and rng.random() < 0.3:
        numbers[rng.randrange(size)] = rng.choice([1, p.LONGEST + 1, p.UNDECIDED])
    elif any(leasts[:size]) and rng.random() < 0.3:
        below = rng.choice([v for v in range(size) if v < len(leasts) and leasts[v]])
        numbers[below] = leasts[below] - 1
    return numbers


def words_of(verdict):
    return f"{verdict[0]} {verdict[1]}"


def of_answers():
    """The sheets of data/answers.txt."""
    return chosen() + chosen_finish() + chosen_loose() + chosen_least() + chosen_clash()


def answers():
    """The lines of data/answers.txt."""
    rng = random.Random(1)
    for sheet in of_answers():
        # A refused sheet is lent little: no size makes a difference.
        n = (sheet[0] if p.judge(sheet, True)[0] == "ok" else 3) if sheet else 0
        yield f"sheet {sheet.hex()}"
        for allow in (0, 1):
            yield f"judge {allow}; {words_of(p.judge(sheet, bool(allow)))}"
        maps, count, verdict = p.waits(sheet)
        yield f"waits; {words_of(verdict)}; {count}; {' '.join(f'{m:x}' for m in maps)}"
        for size in (n, n + 2, max(0, n - 1)):
            verdict, count, open_, after = steps_of(sheet, lent(size))
            yield f"steps; {words_of(verdict)}; {count} {open_}; {words(after)}"
        sizes = [(0, n * n + 3), (1, n * n), (1, n * n + 2)] + ([(1, n * n - 1)] if n else [])
        for allow, size in sizes if n < 64 else [(1, n * n + 1)]:
            verdict, after = p.plan(sheet, bool(allow), lent(size))
            yield f"plan {allow}; {words_of(verdict)}; {words(after)}"
        for allow, short, room in [(0, 0, 2), (1, 0, 0), (1, 0, 3), (1, 1, 0), (1, 0, -1), (1, -2, 1)]:
            list_ = durations(rng, sheet, max(0, n - short))
            verdict, after = p.starts(sheet, bool(allow), list_, lent(max(0, n + room)))
            yield f"starts {allow}; {words_of(verdict)}; {words(list_)}; {words(after)}"
        # The records that clash: more room than the report needs, just enough, one number too few and none; where there is no report, no size makes a difference.
        verdict, _ = p.clashes(sheet, lent(512))
        for size in (verdict[1] + 2, verdict[1], verdict[1] - 1, 0) if verdict[0] == "ok" else (2, 0):
            verdict, after = p.clashes(sheet, lent(size))
            yield f"clashes; {words_of(verdict)}; {words(after)}"


def prices():
    """The lines of data/prices.txt."""
    yield PRICES_HEAD.rstrip("\n")
    for sheet in of_answers() + chosen_price():
        yield f"sheet {sheet.hex()}"
        # A refused sheet is lent little, but what 19 refuses is lent enough: no size makes a difference.
        found = price_of(sheet, True, 64, 64)[0]
        n = sheet[0] if found[0] == "ok" or found[1] == 19 else 2
        sizes = [(0, n, n + 1), (1, n, n), (1, n + 2, n + 1), (1, n - 1, n), (1, n, n - 1)] if found[0] == "ok" else [(0, n, n), (1, n + 1, n), (1, 0, 0)]
        for allow, first, second in sizes:
            verdict, registers, comparisons, totals = price_of(sheet, bool(allow), first, second)
            yield f"price {allow}; {words_of(verdict)}; {words(registers)}; {words(comparisons)}; {words(totals) if verdict[0] == 'ok' else ''}"


def ticks(numbers):
    """Ticks without the zeros at their end."""
    numbers = list(numbers)
    while numbers and numbers[-1] == 0:
        numbers.pop()
    return " ".join(map(str, numbers))


def state_words(state):
    return f"{state.n} {state.open} {state.tick} {state.started} {state.finished}; {ticks(state.start)}; {ticks(state.finish)}; {ticks(state.least)}"


def paper_run():
    """Document 01's run of the stand sheet, N = 65 at Begin before it, a second Finish and the clock's end behind it."""
    table = p.plan(examples.STAND, True, [0] * 25)[1]
    state = p.State()
    yield f"table; {' '.join(map(str, table))}"
    yield f"state; {state_words(state)}"
    answers = []
    none = [0] * 5
    for line, call in [("begin 25 65 4 0 0 0 0 0", lambda s: p.begin(s, 65, 4, none, table)), ("begin 25 5 4 0 0 0 0 0", lambda s: p.begin(s, 5, 4, none, table)),
                       ("finish 25 2", lambda s: p.finish(s, 2, table)), *[("tick 25", lambda s: p.tick(s, table))] * 3,
                       ("finish 25 2", lambda s: p.finish(s, 2, table))]:
        verdict, state = call(state)
        answers.append(verdict)
        yield f"{line}; {words_of(verdict)}; {state_words(state)}"
    assert answers == [("refused", 2), ("ok", 7), ("ok", 0), ("ok", 8), ("ok", 0), ("ok", 16), ("refused", 17)]
    state = p.replace(state, tick=p.LAST_TICK - 1)
    yield f"state; {state_words(state)}"
    for expected in (("ok", 0), ("refused", 18)):
        verdict, state = p.tick(state, table)
        assert verdict == expected
        yield f"tick 25; {words_of(verdict)}; {state_words(state)}"


def hand_run():
    """The stand sheet with a hand of at least eight ticks: Finish is 20 until then, and a list of leasts that is too short is 14."""
    table = p.plan(examples.HAND, True, [0] * 25)[1]
    leasts, state, answers = p.read(examples.HAND)[1][2], p.State(), []
    yield f"table; {' '.join(map(str, table))}"
    yield f"state; {state_words(state)}"
    steps = [("begin 25 5 5 0 0 8 0", lambda s: p.begin(s, 5, 5, leasts[:4], table)), ("begin 25 5 5 0 0 8 0 0", lambda s: p.begin(s, 5, 5, leasts, table)),
             ("finish 25 2", lambda s: p.finish(s, 2, table)), *[("tick 25", lambda s: p.tick(s, table))] * 7, ("finish 25 2", lambda s: p.finish(s, 2, table)),
             ("tick 25", lambda s: p.tick(s, table)), ("finish 25 2", lambda s: p.finish(s, 2, table)), *[("tick 25", lambda s: p.tick(s, table))] * 2]
    for line, call in steps:
        verdict, state = call(state)
        answers.append(verdict)
        yield f"{line}; {words_of(verdict)}; {state_words(state)}"
    assert answers == [("refused", 14), ("ok", 7), ("refused", 20), *[("ok", 0)] * 7, ("refused", 20), ("ok", 0), ("ok", 8), ("ok", 0), ("ok", 16)], answers


def calls(rng, state, n, open_, leasts, table, count):
    """Random calls from a state, the first two of them Begin."""
    yield f"table; {' '.join(map(str, table))}"
    yield f"state; {state_words(state)}"
    for i in range(count):
        size = len(table) if rng.random() < 0.93 else rng.randint(0, len(table))
        lent_ = table[:size]
        kind = rng.random()
        if i < 2 or kind < 0.06:
            m = n if rng.random() < 0.7 else rng.choice([0, 65])
            given = leasts if not any(leasts) or rng.random() < 0.9 else leasts[:rng.randrange(len(leasts))]
            verdict, state = p.begin(state, m, open_, given, lent_)
            line = " ".join(map(str, ["begin", size, m, open_, *given]))
        elif kind < 0.6:
            verdict, state = p.tick(state, lent_)
            line = f"tick {size}"
        else:
            can = [v for v in range(64) if open_ & state.started & ~state.finished & ~1 & 1 << v]
            s = rng.choice([rng.randrange(n + 1), rng.choice(can or [0]), rng.choice(can or [0])])
            verdict, state = p.finish(state, s, lent_)
            line = f"finish {size} {s}"
        yield f"{line}; {words_of(verdict)}; {state_words(state)}"


def sheet_runs(rng, sheets):
    """Random runs of those of the sheets that are accepted and not too large."""
    for sheet in sheets:
        if p.judge(sheet, True)[0] == "ok" and sheet[0] <= 12:
            n = sheet[0]
            steps, _, leasts = p.read(sheet)[1]
            open_ = sum(1 << v for v, step in enumerate(steps) if step is p.OPEN)
            table = p.plan(sheet, True, [0] * (n * n))[1]
            yield from calls(rng, p.State(), n, open_, leasts, table, 60)


def jumping_runs(sheets):
    """Runs of sheets with leasts as tests/reference draws them: long times of ticking are passed over, finishes too early among them."""
    for seed, sheet in enumerate(sheets):
        if p.judge(sheet, True)[0] == "ok" and sheet[0] <= 12:
            run = drawn.random_run(random.Random(seed), sheet)
            yield f"table; {' '.join(map(str, run.table))}"
            yield f"state; {state_words(p.State())}"
            for call in run.calls:
                if call.given is not None:
                    yield f"state; {state_words(call.given)}"
                more = {"begin": [call.n, call.open, *call.leasts], "finish": [call.step], "tick": []}[call.name]
                yield f"{' '.join(map(str, [call.name, call.lent, *more]))}; {words_of(call.verdict)}; {state_words(call.state)}"


def runs():
    """The lines of data/runs.txt: the paper's run, runs of accepted sheets, then runs from any state on any table, then
    runs of accepted sheets with limits from the end of a step and with loose ones, then those of sheets with leasts."""
    yield from paper_run()
    rng = random.Random(2)
    yield from sheet_runs(rng, chosen())
    for j in range(12):
        n = rng.randint(1, 6)
        table = [rng.choice([p.UNDECIDED, 0, 1, 2, p.UNDECIDED - 1]) for _ in range(n * n + rng.randint(0, 2))]
        state = p.State([n, n, n, 0, 65, 2**64 - 1][j % 6], rng.getrandbits(64), [0, 5, p.LAST_TICK - 1][j % 3],
                        rng.getrandbits(64) | 1, rng.getrandbits(64),
                        tuple(rng.getrandbits(32) for _ in range(64)), tuple(rng.choice([0, 3, rng.getrandbits(32)]) for _ in range(64)))
        yield from calls(rng, state, n, state.open, [0] * n, table, 12)
    yield from sheet_runs(rng, chosen_finish() + chosen_loose())
    yield from hand_run()
    yield from jumping_runs(chosen_least() * 2)


def step_word(part):
    """`open`, `open/8`, `3`; `3/8` for a fixed step with a least."""
    return ("open" if part.ticks is None else str(part.ticks)) + ("" if part.least is None else f"/{part.least}")


def link_word(record):
    """The pair, then a letter for each link, with its number: `3,4,a,m2`."""
    fields = zip("lmgf", writer.fields_of(record))
    return ",".join([f"{record.i},{record.j}", *(["a"] if record.after else []), *(f"{letter}{number}" for letter, number in fields if number is not None)])


def written(n, steps, r, records, room):
    """The line of parts that are written to a buffer of so many bytes."""
    verdict, after = writer.write(n, steps, r, records, [0] * room)
    data = bytes(after[:verdict[1]]).hex() if verdict[0] == "ok" else ""
    return f"write {n} {r} {room}; {' '.join(map(step_word, steps))}; {' '.join(map(link_word, records))}; {words_of(verdict)}; {data}"


def shortened(sheet):
    """A sheet that is read, each fixed duration of 0 left out."""
    found, at = sheet[:3], 3
    for _ in range(sheet[0]):
        size = 3 if sheet[at] & 6 else 1
        found += b"\0" if sheet[at:at + 3] == b"\2\0\0" else sheet[at:at + size]
        at += size
    return found + sheet[at:]


def parts_of_sheets(rng):
    """Each sheet of data/answers.txt that is read, taken apart, its records shuffled: written it is the sheet again, but for durations of 0; and 14 with a byte
    of room too few."""
    for sheet in chosen() + chosen_finish() + chosen_loose() + chosen_least() + chosen_clash():
        if p.read(sheet)[0] == "ok":
            steps, records = apart.taken_apart(sheet)
            records = rng.sample(records, len(records))
            n, r, wanted = len(steps), len(records), shortened(sheet)
            line = written(n, steps, r, records, len(wanted) + rng.randint(0, 2))
            assert line.endswith(f"; ok {len(wanted)}; {wanted.hex()}")
            yield line
            if len(sheet) < 60:
                yield written(n, steps, r, records, len(wanted) - 1)


def most_parts():
    """As many steps and records as there may be, and one more of each; the longest sheet."""
    pairs = [(i, j) for i in range(64) for j in range(64) if i != j]
    for n, r in ((64, 0), (65, 0), (64, 512), (64, 513), (65, 513)):
        yield written(n, [writer.Part()] * n, r, [p.Record(i, j, True, None, None) for i, j in pairs[r - 1::-1] if r], 5825)
    full = [p.Record(i, j, True, *[65535] * 4) for i, j in pairs[:512]]
    for room in (5825, 5824):
        yield written(64, [writer.Part()] + [writer.Part(least=65535)] * 63, 512, full, room)


def parts():
    """The lines of data/parts.txt: those of sheets, as many as there may be, then random ones, a few for each answer, of lists as long as their counts and not."""
    rng, counts = random.Random(3), {}
    yield from parts_of_sheets(rng)
    yield from most_parts()
    for _ in range(20000):
        n, steps, r, records, room = apart.random_parts(rng)
        verdict = writer.write(n, steps, r, records, [0] * room)[0]
        kind = verdict if verdict[0] == "refused" else "ok", (len(steps), len(records)) == (n, r)
        if counts.get(kind, 0) < EACH_PARTS and len(steps) <= 12 and len(records) <= 20:
            counts[kind] = counts.get(kind, 0) + 1
            yield written(n, steps, r, records, room)
    assert len(counts) == 15, counts       # each answer with such lists and with others; 3 only with lists that are shorter


def main():
    data = Path(__file__).parent / "data"
    for name, lines in (("answers.txt", answers()), ("runs.txt", runs()), ("parts.txt", parts()), ("prices.txt", prices())):
        (data / name).write_text("".join(line + "\n" for line in lines))


if __name__ == "__main__":
    main()
