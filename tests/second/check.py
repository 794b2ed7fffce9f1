"""Compares the second planner, the second runner and the second writer with the reference: python3 check.py LIBRARY SEED COUNT [KIND]

COUNT sheets of the kind, finish (limits from the finish), gap (gaps after the finish), loose (steps that follow nothing), least (least durations), clash
(records that clash) or price (offsets near the end of the register table), and the largest ones of it; without a kind, COUNT sheets with neither limit from the
finish nor gap and COUNT of the kind finish. Of each: judging with and without waits, listing waits, planning, starts for one to three lists, what a run is
begun with, the records that clash for several lengths of the list that is lent, and the price for several lengths, by the printed table and by another,
verdicts and every lent number, and the price report as text. Of each that is accepted: a random run, verdicts, maps and every part of the state, before and
after.
With write, COUNT random parts of sheets, with faults: the verdict, every byte of the buffer and the length.
The first difference ends the run with status 1."""
import ctypes as c
import pathlib
import random
import sys
from collections import Counter

tests = pathlib.Path(__file__).resolve().parent.parent
sys.path[:0] = [str(tests / "reference"), str(tests / "writing")]
import container  # noqa: E402
import encode  # noqa: E402
import generate  # noqa: E402
import parts  # noqa: E402
import planner  # noqa: E402
import price as reference_price  # noqa: E402
import runs  # noqa: E402
import writer  # noqa: E402

library = c.CDLL(sys.argv[1])
LENT = container.LENT
LENT_LEAST = 54321             # what lent numbers of 16 bits hold before a call


def number(verdict) -> int:
    """A verdict of the reference as one number."""
    return verdict[1] if verdict[0] == "ok" else 256 + verdict[1]


def lent(values: list[int], kind=c.c_uint32):
    """Numbers of 32 bits, or of another kind, lent; one element at least, so that there is a pointer."""
    return (kind * max(1, len(values)))(*values)


def judge(sheet: bytes, allow: bool) -> int:
    """The second planner's judgement."""
    return library.second_judge(sheet, c.c_size_t(len(sheet)), c.c_bool(allow))


def waits(sheet: bytes) -> tuple[list[int], int, int]:
    """The second planner's waits: maps, count, verdict."""
    maps, count = (c.c_uint64 * 64)(*[LENT] * 64), c.c_uint32(LENT)
    verdict = library.second_waits(sheet, c.c_size_t(len(sheet)), maps, c.byref(count))
    return list(maps), count.value, verdict


def plan(sheet: bytes, allow: bool, length: int) -> tuple[int, list[int]]:
    """The second planner's plan: verdict, and the table afterwards."""
    table = lent([LENT] * length)
    verdict = library.second_plan(sheet, c.c_size_t(len(sheet)), c.c_bool(allow), table, c.c_size_t(length))
    return verdict, list(table)[:length]


def starts(sheet: bytes, allow: bool, entries: list[int], room: int) -> tuple[int, list[int]]:
    """The second planner's starts: verdict, and the lent list afterwards."""
    out = lent([LENT] * room)
    verdict = library.second_starts(sheet, c.c_size_t(len(sheet)), c.c_bool(allow), lent(entries), c.c_size_t(len(entries)), out, c.c_size_t(room))
    return verdict, list(out)[:room]


def steps(sheet: bytes, room: int) -> tuple[int, int, int, list[int]]:
    """What the second planner says a run of the sheet is begun with: verdict, N, the map of the open steps and the lent leasts afterwards."""
    n, opened, leasts = c.c_size_t(LENT), c.c_uint64(LENT), lent([LENT_LEAST] * room, c.c_uint16)
    verdict = library.second_steps(sheet, c.c_size_t(len(sheet)), c.byref(n), c.byref(opened), leasts, c.c_size_t(room))
    return verdict, n.value, opened.value, list(leasts)[:room]


def reference_steps(sheet: bytes, room: int) -> tuple[int, int, int, list[int]]:
    """The same by what the reference reads."""
    kind, got = planner.read(sheet)
    if kind == "refused" or room < len(got[0]):
        return 256 + (got if kind == "refused" else 14), LENT, LENT, [LENT_LEAST] * room
    kinds, _, leasts = got
    opened = sum(1 << v for v, step in enumerate(kinds) if step is planner.OPEN)
    return 0, len(kinds), opened, leasts + [LENT_LEAST] * (room - len(kinds))


def steps_rooms(rng: random.Random, sheet: bytes) -> list[int]:
    """How many numbers are lent for the leasts: none, one too few, as many as there are steps, more."""
    n = sheet[0] if sheet and 1 <= sheet[0] <= 64 else 8
    return [0, n - 1, n, n + rng.choice([1, 1, 64]), rng.randint(0, n)]


def clashes(sheet: bytes, room: int) -> tuple[int, int, list[int]]:
    """The second planner's report of the records that clash: verdict, how many, and the lent numbers afterwards."""
    count, numbers = c.c_size_t(LENT), lent([LENT] * room)
    verdict = library.second_clashes(sheet, c.c_size_t(len(sheet)), numbers, c.c_size_t(room), c.byref(count))
    return verdict, count.value, list(numbers)[:room]


def reference_clashes(sheet: bytes, room: int) -> tuple[int, int, list[int]]:
    """The same by the reference."""
    verdict, numbers = planner.clashes(sheet, [LENT] * room)
    return (0, verdict[1], numbers) if verdict[0] == "ok" else (number(verdict), LENT, numbers)


def check_clashes(rng: random.Random, sheet: bytes, seen: Counter, same) -> None:
    """The records that clash, with enough numbers lent for any sheet and with none; where some clash, also with one too few, just enough and more. Of a long
    sheet, which takes the reference a while, one of these is drawn."""
    def lend(room: int) -> tuple[int, int, list[int]]:
        expected = reference_clashes(sheet, room)
        seen["clashes", expected[0]] += 1
        same(f"clashes {room}", clashes(sheet, room), expected)
        return expected

    verdict, count, _ = lend(512)
    rooms = [0] if verdict else [0, count - 1, count, count + rng.choice([1, 1, 64])]
    for room in rooms if len(sheet) < 1000 else [rng.choice(rooms)]:
        lend(room)


def price(sheet: bytes, allow: bool, table: list[int], rooms: tuple[int, int]) -> tuple[int, list[int], list[int], list[int]]:
    """The second planner's price: verdict, the lent registers and comparisons afterwards, and the totals afterwards."""
    registers, comparisons, totals = lent([LENT] * rooms[0]), lent([LENT] * rooms[1]), lent([LENT] * 2)
    verdict = library.second_price(sheet, c.c_size_t(len(sheet)), c.c_bool(allow), lent(table, c.c_uint16), registers, c.c_size_t(rooms[0]), comparisons,
                                   c.c_size_t(rooms[1]), totals)
    return verdict, list(registers)[:rooms[0]], list(comparisons)[:rooms[1]], list(totals)


def expected_price(sheet: bytes, allow: bool, table: list[int], rooms: tuple[int, int]) -> tuple[int, list[int], list[int], list[int]]:
    """The same by the reference."""
    verdict, registers, comparisons, totals = reference_price.price(sheet, allow, [LENT] * rooms[0], [LENT] * rooms[1], table)
    return number(verdict), registers, comparisons, list(totals) if verdict[0] == "ok" else [LENT] * 2


def report(sheet: bytes, table: list[int]) -> str:
    """What the second planner's price report says."""
    text = c.create_string_buffer(4096)
    library.second_report(sheet, c.c_size_t(len(sheet)), lent(table, c.c_uint16), text)
    return text.value.decode("ascii")


def second_table() -> list[int]:
    """The second planner's printed table."""
    entries = lent([LENT_LEAST] * reference_price.ENTRIES, c.c_uint16)
    library.second_printed(entries)
    return list(entries)


def other_table(rng: random.Random) -> list[int]:
    """A register table that does not fall, from any entry on, at times up to the largest number."""
    return sorted(rng.randint(0, rng.choice([9, 700, 65535])) for _ in range(reference_price.ENTRIES))


def check_price(rng: random.Random, sheet: bytes, seen: Counter, same) -> None:
    """The price by the printed table with just enough lent, and with other lengths, too short ones among them, at times by another table; and the report."""
    n = sheet[0] if sheet and 1 <= sheet[0] <= 64 else 8
    some = [0, n - 1, n, n, n, n + rng.choice([1, 64]), rng.randint(0, n)]
    tables = [reference_price.PRINTED, rng.choice([reference_price.PRINTED, other_table(rng)])]
    for table, rooms in zip(tables, ((n, n), (rng.choice(some), rng.choice(some)))):
        for allow in (False, True):
            expected = expected_price(sheet, allow, table, rooms)
            seen["price", expected[0]] += 1
            same(f"price {allow} {rooms} {table}", price(sheet, allow, table, rooms), expected)
    table = rng.choice(tables)
    same(f"report {table}", report(sheet, table), reference_price.price_text(sheet, table))


def run_call(call: runs.Call, before: planner.State, table: list[int]) -> tuple[int, int, planner.State]:
    """The second runner's answer to a call on a state: verdict, the map afterwards and the state afterwards."""
    words = lent([before.n, before.open, before.started, before.finished], c.c_uint64)
    ticks, started = c.c_uint32(before.tick), c.c_uint64(LENT)
    start, finish, least = lent(list(before.start)), lent(list(before.finish)), lent(list(before.least), c.c_uint16)
    more = {"begin": (c.c_size_t(call.n), c.c_uint64(call.open), lent(list(call.leasts), c.c_uint16), c.c_size_t(len(call.leasts))),
            "tick": (), "finish": (c.c_size_t(call.step),)}[call.name]
    given = lent(table[:call.lent])
    function = getattr(library, f"second_{call.name}")
    verdict = function(words, c.byref(ticks), start, finish, least, c.byref(started), *more, given, c.c_size_t(call.lent))
    state = planner.State(n=words[0], open=words[1], tick=ticks.value, started=words[2], finished=words[3],
                          start=tuple(start), finish=tuple(finish), least=tuple(least))
    return verdict, started.value, state


def check_run(rng: random.Random, sheet: bytes, seen: Counter, same) -> None:
    """A random run of an accepted sheet."""
    run = runs.random_run(rng, sheet)
    before = planner.State()
    for number_of_call, call in enumerate(run.calls):
        before = before if call.given is None else call.given
        ok = call.verdict[0] == "ok"
        seen[call.name, 0 if ok else 256 + call.verdict[1]] += 1
        expected = (0, call.verdict[1], call.state) if ok else (256 + call.verdict[1], LENT, before)
        same(f"call {number_of_call} of a run, {call}, on {before},", run_call(call, before, run.table), expected)
        before = call.state


def check(rng: random.Random, sheet: bytes, seen: Counter) -> None:
    """All calls on one sheet, and a run of it if it is accepted."""
    def same(call: str, mine, reference) -> None:
        if mine != reference:
            print(f"{call} differs on sheet {sheet.hex(' ')}\nsecond    {mine}\nreference {reference}", file=sys.stderr)
            sys.exit(1)

    for room in steps_rooms(rng, sheet):
        expected = reference_steps(sheet, room)
        seen["steps", expected[0]] += 1
        same(f"steps {room}", steps(sheet, room), expected)
    for allow in (False, True):
        verdict = number(planner.judge(sheet, allow))
        seen["sheets", verdict] += 1
        same(f"judge {allow}", judge(sheet, allow), verdict)
        room = container.table_length(rng, sheet)
        verdict, table = planner.plan(sheet, allow, [LENT] * room)
        seen["sheets", number(verdict)] += 1
        same(f"plan {allow} {room}", plan(sheet, allow, room), (number(verdict), table))
    maps, count, verdict = planner.waits(sheet)
    if verdict[0] == "refused":                    # what is lent stays as it was
        maps, count = [LENT] * 64, LENT
    same("waits", waits(sheet), (maps, count, number(verdict)))
    for allow, entries, room in container.lists_for(rng, sheet):
        verdict, times = planner.starts(sheet, allow, entries, [LENT] * room)
        seen["sheets", number(verdict)] += 1
        same(f"starts {allow} {entries} {room}", starts(sheet, allow, entries, room), (number(verdict), times))
    check_clashes(rng, sheet, seen, same)
    check_price(rng, sheet, seen, same)
    if planner.judge(sheet, True)[0] == "ok":
        check_run(rng, sheet, seen, same)


def check_write(rng: random.Random, seen: Counter) -> None:
    """Random parts, written into a buffer of so many bytes."""
    n, steps_there, r, records, room = parts.random_parts(rng)
    n, r = encode.count(rng, n, 64), encode.count(rng, r, 512)
    given_steps, given_records = encode.numbers(rng, steps_there, records)
    before = [rng.randrange(256) for _ in range(room)]
    buffer, length = lent(before, c.c_uint8), c.c_size_t(LENT)
    verdict = library.second_write(c.c_size_t(n), lent(given_steps, c.c_uint16), c.c_size_t(len(given_steps)), c.c_size_t(r), lent(given_records, c.c_uint16),
                                   c.c_size_t(len(given_records)), buffer, c.c_size_t(room), c.byref(length))
    (kind, answer), expected = writer.write(n, steps_there, r, records, before)
    seen["writes", 0 if kind == "ok" else 256 + answer] += 1
    mine, reference = (verdict, length.value, list(buffer)[:room]), (*((0, answer) if kind == "ok" else (256 + answer, LENT)), expected)
    if mine != reference:
        print(f"write differs on n {n}, steps {given_steps}, r {r}, records {given_records}, room {room}\nsecond    {mine}\nreference {reference}", file=sys.stderr)
        sys.exit(1)


def draw(rng: random.Random, kind: str, seed: int, count: int) -> list[bytes]:
    """The largest sheets of a kind, and so many others."""
    if kind == "price":
        return container.largest_price_sheets(rng) + generate.generate(seed, count, priced=True)
    if kind == "clash":
        return container.largest_clash_sheets(rng) + generate.generate(seed, count, clash=True)
    if kind == "least":
        return container.largest_least_sheets(rng) + generate.generate(seed, count, least=True)
    if kind == "loose":
        return container.largest_loose_sheets(rng) + generate.generate(seed, count, loose=True)
    if kind == "gap":
        return container.largest_gap_sheets(rng) + generate.generate(seed, count, gap=True)
    if kind == "finish":
        return container.largest_finish_sheets(rng) + generate.generate(seed, count, True)
    return container.largest_sheets(rng) + generate.generate(seed, count, False)


def given(seen: Counter, calls: str) -> str:
    """How often each verdict was given by these calls."""
    return ", ".join(f"{'refused ' * (v > 255)}{v % 256}: {k}" for (call, v), k in sorted(seen.items()) if call == calls)


def main() -> None:
    """Check the kind that is asked for, or the first two, and say how often each verdict was given."""
    seed, count = int(sys.argv[2]), int(sys.argv[3])
    said = {"": "", "finish": " with limits from the finish", "gap": " with gaps", "loose": " with steps that follow nothing",
            "least": " with least durations", "clash": " with records that clash", "price": " to be priced"}
    kinds = sys.argv[4:] or ["", "finish"]
    if kinds == ["write"]:
        rng, seen = random.Random(seed), Counter()
        for _ in range(count):
            check_write(rng, seen)
        print(f"parts of {count} sheets, no difference; verdicts {given(seen, 'writes')}")
        return
    if not set(kinds) <= set(said):
        sys.exit("a kind is finish, gap, loose, least, clash, price or write")
    if second_table() != reference_price.PRINTED:
        sys.exit("the printed register tables differ")
    for kind in kinds:
        rng, seen = random.Random(seed), Counter()
        sheets = draw(rng, kind, seed, count)
        for sheet in sheets:
            check(rng, sheet, seen)
        print(f"{len(sheets)} sheets{said[kind]}, no difference; verdicts {given(seen, 'sheets')}")
        print("; ".join(f"{call}: {given(seen, call)}" for call in ("steps", "clashes", "price", "begin", "tick", "finish")))


main()
