"""Sheets with least durations, worked out by hand from document 01 and requests L6 and L11, a run, records that clash (L14), parts that are written (L4), and
prices (L5): python3 worked.py LIBRARY

LIBRARY is made of second.cpp, runner.cpp and writer.cpp. The first difference ends the run with status 1."""
import ctypes as c
import sys

library = c.CDLL(sys.argv[1])
AFTER, AT_LEAST, AT_MOST, GAP, FINISH = 1, 2, 4, 8, 16
LENT, UNDECIDED = 12345, 4294967295


def two(x: int) -> bytes:
    """A number of two bytes."""
    return bytes((x % 256, x // 256))


def open_step(least: int | None = None) -> bytes:
    """An open step."""
    return b"\1" if least is None else b"\5" + two(least)


def fixed(ticks: int) -> bytes:
    """A fixed step."""
    return b"\2" + two(ticks)


def sheet(steps: list[bytes], links: list[tuple]) -> bytes:
    """The bytes of a sheet; step 0 is put in front. A link is its map, i, j and its numbers."""
    records = [bytes(link[:3]) + b"".join(map(two, link[3:])) for link in sorted(links, key=lambda link: link[1:3])]
    return bytes([len(steps) + 1]) + two(len(records)) + b"\1" + b"".join(steps) + b"".join(records)


def plan(data: bytes):
    """Waits and the rows of a plan, or the refusal."""
    table, maps, count = (c.c_uint32 * 4096)(), (c.c_uint64 * 64)(), c.c_uint32()
    verdict = library.second_plan(data, c.c_size_t(len(data)), c.c_bool(True), table, c.c_size_t(4096))
    assert library.second_waits(data, c.c_size_t(len(data)), maps, c.byref(count)) == verdict
    assert library.second_judge(data, c.c_size_t(len(data)), c.c_bool(True)) == verdict
    if verdict >= 256:
        return verdict - 256
    n = data[0]
    assert verdict == (count.value > 0)
    rows = [{a: table[v * n + a] for a in range(n) if table[v * n + a] != UNDECIDED} for v in range(n)]
    return [(a, i) for a in range(64) for i in range(64) if maps[i] >> a & 1], rows


def starts(data: bytes, entries: list[int], room: int = 64):
    """Start times, or the refusal."""
    out, n = (c.c_uint32 * 64)(*[LENT] * 64), data[0]
    lent = (c.c_uint32 * max(1, len(entries)))(*entries)
    verdict = library.second_starts(data, c.c_size_t(len(data)), c.c_bool(True), lent, c.c_size_t(len(entries)), out, c.c_size_t(room))
    assert list(out)[0 if verdict >= 256 else n:] == [LENT] * (64 if verdict >= 256 else 64 - n)
    return verdict - 256 if verdict >= 256 else list(out)[:n]


def steps(data: bytes, room: int = 64):
    """N, the open steps and the leasts, or the refusal."""
    n, opened, leasts = c.c_size_t(LENT), c.c_uint64(LENT), (c.c_uint16 * 64)(*[LENT] * 64)
    verdict = library.second_steps(data, c.c_size_t(len(data)), c.byref(n), c.byref(opened), leasts, c.c_size_t(room))
    if verdict >= 256:
        assert (n.value, opened.value, list(leasts)) == (LENT, LENT, [LENT] * 64)
        return verdict - 256
    assert list(leasts)[n.value:] == [LENT] * (64 - n.value)
    return n.value, opened.value, list(leasts)[:n.value]


def clashes(data: bytes, room: int = 512):
    """The records that clash, or the refusal."""
    numbers, count = (c.c_uint32 * 512)(*[LENT] * 512), c.c_size_t(LENT)
    verdict = library.second_clashes(data, c.c_size_t(len(data)), numbers, c.c_size_t(room), c.byref(count))
    if verdict:
        assert verdict >= 256 and (list(numbers), count.value) == ([LENT] * 512, LENT)
        return verdict - 256
    assert list(numbers)[count.value:] == [LENT] * (512 - count.value)
    return list(numbers)[:count.value]


def written(steps_there: list[tuple], records: list[tuple], room: int = 5825, n: int | None = None, r: int | None = None):
    """The bytes of the sheet of these steps, step 0 among them, each its map and ticks, and records, each seven numbers; or the refusal."""
    given = [(c.c_uint16 * max(1, len(flat)))(*flat) for flat in ([x for part in parts for x in part] for parts in (steps_there, records))]
    counts = len(steps_there) if n is None else n, len(records) if r is None else r
    buffer, length = (c.c_uint8 * 5900)(*[77] * 5900), c.c_size_t(LENT)
    verdict = library.second_write(c.c_size_t(counts[0]), given[0], c.c_size_t(2 * len(steps_there)), c.c_size_t(counts[1]), given[1],
                                   c.c_size_t(sum(map(len, records))), buffer, c.c_size_t(room), c.byref(length))
    if verdict:
        assert verdict >= 256 and (list(buffer), length.value) == ([77] * 5900, LENT)
        return verdict - 256
    assert list(buffer)[length.value:] == [77] * (5900 - length.value)
    return bytes(buffer)[:length.value]


def printed() -> list[int]:
    """The printed register table."""
    entries = (c.c_uint16 * 1024)(*[LENT] * 1024)
    library.second_printed(entries)
    return list(entries)


def price(data: bytes, allow: bool = True, rooms: tuple[int, int] = (64, 64), table: list[int] | None = None):
    """Registers, comparisons and totals, or the refusal."""
    registers, comparisons, totals = (c.c_uint32 * 64)(*[LENT] * 64), (c.c_uint32 * 64)(*[LENT] * 64), (c.c_uint32 * 2)(LENT, LENT)
    entries = (c.c_uint16 * 1024)(*(table or printed()))
    verdict = library.second_price(data, c.c_size_t(len(data)), c.c_bool(allow), entries, registers, c.c_size_t(rooms[0]), comparisons,
                                   c.c_size_t(rooms[1]), totals)
    n = 0 if verdict >= 256 else data[0]
    assert list(registers)[n:] == list(comparisons)[n:] == [LENT] * (64 - n)
    if verdict >= 256:
        assert list(totals) == [LENT] * 2
        return verdict - 256
    assert verdict == library.second_judge(data, c.c_size_t(len(data)), c.c_bool(allow))
    return list(registers)[:n], list(comparisons)[:n], list(totals)


def report(data: bytes) -> str:
    """The price report, its lines joined by a semicolon."""
    text = c.create_string_buffer(4096)
    library.second_report(data, c.c_size_t(len(data)), (c.c_uint16 * 1024)(*printed()), text)
    assert text.value.endswith(b"\n")
    return ";".join(text.value.decode("ascii").splitlines())


def same(what: str, given, wanted) -> None:
    """Ends the run where the two differ."""
    if given != wanted:
        sys.exit(f"{what}: given {given}, wanted {wanted}")


def stand(least: int | None) -> bytes:
    """The stand sheet, its hand with a least."""
    return sheet([fixed(3), open_step(least), fixed(2), fixed(1)],
                 [(AFTER, 0, 1), (AFTER, 0, 2), (AFTER, 1, 4), (AFTER, 2, 3), (AFTER | AT_MOST, 3, 4, 2)])


def bytes_read() -> None:
    """The map of a step."""
    for wanted, text in ((4, "01 00 00 05 08 00"), (4, "01 00 00 05"), (4, "02 00 00 01 04 08 00"), (4, "02 00 00 01 06 08 00"), (4, "02 00 00 01 07 08 00"),
                         (4, "02 00 00 01 03"), (4, "02 00 00 01 0d 08 00"), (1, "02 00 00 01"), (1, "02 00 00 01 05"), (1, "02 00 00 01 05 08"),
                         (7, "02 00 00 01 05 08 00 00"), (26, "02 01 00 01 05 08 00 10 00 01 00 00"), (5, "02 01 00 01 05 08 00 01 01 01")):
        same(text, (plan(bytes.fromhex(text)), steps(bytes.fromhex(text), 0)), (wanted, wanted))
    for least in (0, 8, 65535):
        same(f"one hand of {least}", plan(sheet([open_step(least)], [])), ([], [{0: 0}, {0: 0}]))
    same("steps", steps(stand(8)), (5, 0b00101, [0, 0, 8, 0, 0]))
    same("steps, 5 lent", steps(stand(65535), 5), (5, 0b00101, [0, 0, 65535, 0, 0]))
    same("steps, 4 lent", steps(stand(8), 4), 14)
    same("steps of the start", steps(bytes.fromhex("01 00 00 01")), (1, 1, [0]))
    same("steps of an impossible sheet", steps(sheet([open_step(3)], [(AFTER, 1, 0)])), (2, 3, [0, 3]))


def plans() -> None:
    """Walks, offsets, deciding sets, refusals."""
    hand = {0: 0}
    same("stand, 0", plan(stand(0)), plan(stand(None)))
    same("stand, none", plan(stand(None)), ([], [hand, hand, hand, {0: 1, 2: 0}, {0: 3, 2: 2}]))
    for least in (1, 8):                                # the lamps no longer matter: 0 + 1 + 0 reaches 1
        same("stand", plan(stand(least)), ([], [hand, hand, hand, {2: 0}, {2: 2}]))
    for least, wanted in ((8, {0: 10, 1: 0}), (9, {0: 10, 1: 0}), (10, {1: 0})):
        same("at least 10 out of the hand", plan(sheet([open_step(least), fixed(0)], [(AFTER | AT_LEAST, 1, 2, 10)])), ([], [hand, hand, wanted]))
    # From 1 the offset of 3 has the least of 2 in it and not that of 1; 2 decides alone. A gap beside the first link counts.
    same("two hands in a row", plan(sheet([open_step(8), open_step(4), fixed(0)], [(AFTER, 1, 2), (AFTER, 2, 3)])), ([], [hand, hand, {1: 0}, {2: 0}]))
    for least, wanted in ((4, {1: 11, 2: 0}), (5, {2: 0})):
        same("two hands in a row, and a gap", plan(sheet([open_step(8), open_step(least), fixed(0)],
             [(AFTER | GAP, 1, 2, 6), (AFTER, 2, 3), (AFTER | GAP, 1, 3, 11)])), ([], [hand, hand, {1: 6}, wanted]))
    same("two hands, a wait", plan(sheet([open_step(3), open_step(5), fixed(0), fixed(0)], [(AFTER, 1, 3), (AFTER, 2, 4), (AT_MOST, 3, 4, 5)])),
         ([(2, 3)], [hand, hand, hand, {1: 0, 2: 0}, {2: 0}]))
    for limit, wanted in ((7, 10), (8, 11)):
        same("from the start", plan(sheet([open_step(8), fixed(0)], [(AFTER, 1, 2), (AT_MOST, 0, 2, limit)])), wanted)
        same("from the hand's start", plan(sheet([open_step(8), fixed(0)], [(AFTER | AT_MOST, 1, 2, limit)])), wanted)
    same("impossible without its least too", plan(sheet([open_step(), fixed(0)], [(AFTER | AT_MOST, 1, 2, 7)])), 11)


def limits_from_the_finish() -> None:
    """L11's return, and 28."""
    hand = {0: 0}
    for least, at_least, wanted in ((8, 13, ([], [hand, hand, {0: 13, 1: 0}])), (8, 14, 10), (None, 13, 10), (None, 5, ([], [hand, hand, {0: 5, 1: 0}]))):
        same("a hand that is never too short", plan(sheet([open_step(least), fixed(0)], [(AFTER | AT_LEAST | FINISH, 1, 2, at_least, 5)])), wanted)
    # Hand 1 waits for hand 2: 3 comes 20 after the end of 2 and 5 after that of 1, which lasts 8. 7 + 8 + 0 does not reach 20.
    same("a wait of a hand", plan(sheet([open_step(8), open_step(), fixed(0)], [(AFTER | FINISH, 1, 3, 5), (AFTER | GAP, 2, 3, 20)])),
         ([(2, 1)], [hand, {2: 7}, hand, {1: 0, 2: 20}]))
    # 2 waits for hand 1, 3 comes 10 later, and must come so soon after the end of hand 1.
    for least in (None, 8):
        for limit, wanted in ((9, 28), (5, 28), (10, ([(1, 2)], [hand, hand, {1: 0}, {1: 10}]))):
            same("a wait that is too long", plan(sheet([open_step(least), fixed(10), fixed(0)],
                 [(AFTER | FINISH, 1, 3, limit), (AFTER | AT_MOST, 2, 3, 20)])), wanted)
    # 5 comes just 5 after the end of hand 1, which hand 2 waits for, and 5 after hand 2 starts: hand 2 starts at that end. So does 3, and 4 comes when 3 is
    # done, at most 3 after the end of hand 2.
    for least, ticks, wanted in ((None, 3, {1: 3, 2: 0}), (None, 4, 28), (8, 11, {1: 11, 2: 0}), (8, 12, 28), (9, 12, {1: 12, 2: 0}), (20, 12, {2: 0})):
        same("a least that makes room", plan(sheet([open_step(2), open_step(least), fixed(ticks), fixed(0), fixed(0)],
             [(AFTER | FINISH, 1, 5, 5), (AFTER | FINISH, 2, 4, 3), (AT_LEAST, 2, 5, 5), (AFTER, 3, 4), (AT_MOST, 3, 5, 100)])),
             wanted if wanted == 28 else ([(1, 2), (1, 3)], [hand, hand, {1: 0}, {1: 0}, wanted, {1: 5}]))


def lists() -> None:
    """Start times, and 13."""
    for entry, wanted in ((10, [0, 0, 0, 10, 12]), (8, [0, 0, 0, 8, 10]), (7, 13), (0, 13), (16777215, [0, 0, 0, 16777215, 16777217]), (16777216, 13)):
        same(f"stand, hand {entry}", starts(stand(8), [0, 0, entry, 0, 0]), wanted)
    same("stand, short list with a fault", starts(stand(8), [0, 0, 7], 0), 13)
    same("stand, short list", starts(stand(8), [0, 0, 8]), 14)
    same("stand, list that ends before the hand", starts(stand(8), [0, 0]), 14)
    same("stand, no room", starts(stand(8), [0, 0, 8, 0, 0], 4), 14)
    waiting = sheet([open_step(8), open_step(), fixed(0)], [(AFTER | FINISH, 1, 3, 5), (AFTER | GAP, 2, 3, 20)])
    same("a wait of a hand", starts(waiting, [0, 8, 0, 0]), [0, 7, 0, 20])
    same("a wait of a hand, longer", starts(waiting, [0, 14, 3, 0]), [0, 10, 0, 24])


class Run:
    """A run's state; each call gives the map of what it started, or the refusal, below 0."""

    def __init__(self, table: list[int]):
        self.words, self.tick_now = (c.c_uint64 * 4)(), c.c_uint32()
        self.start, self.finish_ticks, self.least = (c.c_uint32 * 64)(), (c.c_uint32 * 64)(), (c.c_uint16 * 64)(*[9] * 64)
        self.table, self.length = (c.c_uint32 * max(1, len(table)))(*table), c.c_size_t(len(table))

    def all(self) -> tuple:
        return list(self.words), self.tick_now.value, list(self.start), list(self.finish_ticks), list(self.least)

    def call(self, function, *rest) -> int:
        started, before = c.c_uint64(LENT), self.all()
        verdict = function(self.words, c.byref(self.tick_now), self.start, self.finish_ticks, self.least, c.byref(started), *rest, self.table, self.length)
        assert verdict == 0 or (verdict > 256 and (self.all(), started.value) == (before, LENT))
        return 256 - verdict if verdict else started.value

    def begin(self, n: int, opened: int, leasts: list[int]) -> int:
        return self.call(library.second_begin, c.c_size_t(n), c.c_uint64(opened), (c.c_uint16 * max(1, len(leasts)))(*leasts), c.c_size_t(len(leasts)))

    def tick(self) -> int:
        return self.call(library.second_tick)

    def finish(self, s: int) -> int:
        return self.call(library.second_finish, c.c_size_t(s))


def runs() -> None:
    """The runner."""
    data, table = stand(8), (c.c_uint32 * 25)()
    library.second_plan(data, c.c_size_t(len(data)), c.c_bool(True), table, c.c_size_t(25))
    run = Run(list(table))
    same("begin, leasts too short", run.begin(*steps(data)[:2], [0, 0, 8, 0]), -14)
    same("begin, 65 steps", run.begin(65, 5, []), -2)
    same("begin, table too short", Run(list(table)[:24]).begin(*steps(data)), -14)
    same("begin", run.begin(*steps(data)), 7)
    same("leasts", list(run.least), [0, 0, 8] + [0] * 61)
    same("begin again", run.begin(65, 5, []), -16)
    same("finish at once", run.finish(2), -20)
    same("finish of a step that has not started", run.finish(3), -17)
    for _ in range(7):
        same("tick", run.tick(), 0)
        same("finish too early", run.finish(2), -20)
    same("tick 8", run.tick(), 0)
    same("finish", run.finish(2), 8)
    same("finish again", run.finish(2), -17)
    same("ticks", [run.tick() for _ in range(3)], [0, 16, 0])
    given = Run([0, UNDECIDED, 0, UNDECIDED])           # kept as given, for steps that are not open too
    same("begin with leasts of anything", given.begin(2, 0, [3, 65535, 7]), 3)
    same("kept", list(given.least), [3, 65535] + [0] * 62)
    same("not open", given.finish(1), -17)
    for start, least, tick, wanted in ((4294967295, 1, 4294967295, -20), (4294967295, 1, 0, -20), (4294967295, 0, 4294967295, 0), (4294967290, 6, 3, -20),
                                       (4294901760, 65535, 4294967295, 0), (4294901761, 65535, 4294967295, -20), (5, 0, 4, -20), (5, 3, 7, -20), (5, 3, 8, 0)):
        run = Run([UNDECIDED] * 4)
        run.words[:], run.tick_now.value, run.start[1], run.least[1] = [2, 2, 3, 1], tick, start, least
        same(f"finish of {start}, {least}, {tick}", run.finish(1), wanted)


def impossible(steps_there: list[bytes], links: list[tuple]) -> bool:
    """Whether the sheet is judged 10 or 11."""
    return plan(sheet(steps_there, links)) in (10, 11)


def reported(what: str, steps_there: list[bytes], links: list[tuple], wanted: list[int]) -> None:
    """The report of a sheet; its part is impossible, and without any one of its records it is not. The same by the request's rule, parts judged as sheets of
    their own; and 14."""
    data = sheet(steps_there, links)
    same(what, clashes(data), wanted)
    links = sorted(links, key=lambda link: link[1:3])
    same(f"{what}, the part", impossible(steps_there, [links[k] for k in wanted]), True)
    for loss in wanted:
        same(f"{what}, the part without {loss}", impossible(steps_there, [links[k] for k in wanted if k != loss]), False)
    stay = list(range(len(links)))
    for k in reversed(range(len(links))):
        if impossible(steps_there, [links[r] for r in stay if r != k]):
            stay.remove(k)
    same(f"{what}, by the rule", stay, wanted)
    same(f"{what}, just enough lent", clashes(data, len(wanted)), wanted)
    for room in (0, len(wanted) - 1):
        same(f"{what}, {room} lent", clashes(data, room), 14)


def no_clashes() -> None:
    """The refusals of the report, none with room for a number."""
    for wanted, text in ((1, ""), (1, "01 00"), (2, "00"), (2, "41"), (3, "01 01 02"), (4, "01 00 00 00"), (26, "01 01 00 01 10"), (5, "01 01 00 01 01 00 00"),
                         (6, "02 02 00 01 00 01 00 01 01 00 01"), (7, "01 00 00 01 00"), (8, "02 01 00 01 00 01 01 00")):
        for room in (0, 512):
            same(text, clashes(bytes.fromhex(text), room), wanted)
    clash = (AT_LEAST | AT_MOST, 0, 1, 1, 0)            # 1 starts at tick 1 at the earliest and at tick 0 at the latest
    data = sheet([fixed(0), fixed(0), fixed(0)], [clash])
    same("a clash", clashes(data), [0])
    same("a clash and a byte too many", clashes(data + b"\0"), 7)
    same("a clash and a byte too few", clashes(data[:-1]), 1)
    same("a clash and a circle", clashes(sheet([fixed(0), fixed(0), fixed(0)], [clash, (AFTER, 2, 3), (AT_LEAST, 3, 2, 0)])), 8)
    same("a clash and a link into the start", clashes(sheet([fixed(0), fixed(0), fixed(0)], [clash, (AFTER, 3, 0)])), 8)
    for room in (0, 512):
        same("the start", clashes(bytes.fromhex("01 00 00 01"), room), 31)
        same("stand", clashes(stand(8), room), 31)
        same("two hands, a wait", clashes(sheet([open_step(), open_step(), fixed(0), fixed(0)], [(AFTER, 1, 3), (AFTER, 2, 4), (AT_MOST, 3, 4, 5)]), room), 31)
        same("28", clashes(sheet([open_step(), open_step(), fixed(0)], [(AFTER | FINISH, 1, 3, 0), (AFTER | FINISH, 2, 3, 0)]), room), 31)


def reports() -> None:
    """The records that clash."""
    hand, still = open_step(), fixed(0)
    reported("stand, limit 1", [fixed(3), hand, fixed(2), fixed(1)],
             [(AFTER, 0, 1), (AFTER, 0, 2), (AFTER, 1, 4), (AFTER, 2, 3), (AFTER | AT_MOST, 3, 4, 1)], [4])
    reported("from the hand's start", [hand, still], [(AFTER, 0, 1), (AFTER | AT_MOST, 1, 2, 9)], [1])
    for limit in (7, 8):                                # 10, and 11
        reported("from the start", [open_step(8), still], [(AT_MOST, 0, 2, limit), (AFTER, 1, 2)], [0, 1])
    # Of clashes that have no record in common the one whose last record comes first is reported, 10 or 11.
    never, sometimes = (AT_LEAST | AT_MOST, 1, 2, 1, 0), (AFTER | AT_MOST, 1, 2, 9)
    reported("10 twice", [hand, still, still], [never, (AT_LEAST | AT_MOST, 1, 3, 1, 0)], [0])
    reported("11 before 10", [hand, still, still], [sometimes, (AT_LEAST | AT_MOST, 1, 3, 1, 0)], [0])
    reported("10 before 11", [hand, still, still], [never, (AFTER | AT_MOST, 1, 3, 9)], [0])
    reported("a clash of two around another", [still, still, still],
             [(AT_MOST, 0, 3, 4), (AT_LEAST | AT_MOST, 1, 2, 1, 0), (AT_LEAST, 2, 3, 5)], [1])
    reported("a clash of two before another", [still, still, still],
             [(AT_MOST, 0, 2, 4), (AT_LEAST, 1, 2, 5), (AT_LEAST | AT_MOST, 2, 3, 1, 0)], [0, 1])
    # 1 to 2 takes 10 and 2 comes by tick 5. 1 hangs from the start once its record is gone; what leads into 1 matters where 1 to 2 takes less.
    reported("hangs from the start in the part", [still, still], [(AFTER, 0, 1), (AT_MOST, 0, 2, 5), (AT_LEAST, 1, 2, 10)], [1, 2])
    reported("hangs from the start in the part, after another step", [still, still, fixed(4)],
             [(AT_MOST, 0, 2, 5), (AT_LEAST, 1, 2, 10), (AFTER, 3, 1)], [0, 1])
    reported("does not hang from the start", [still, still, fixed(4)], [(AT_MOST, 0, 2, 5), (AT_LEAST, 1, 2, 2), (AFTER, 3, 1)], [0, 1, 2])
    reported("a hand before the limit", [still, still, hand], [(AT_MOST, 0, 2, 5), (AT_LEAST, 1, 2, 2), (AFTER, 3, 1)], [0, 1, 2])
    # Two ways from 1 to 4: that by 2 is reported if it is too long, for what leads by 3 is tried first.
    for by_two, wanted in ((6, [0, 2, 3]), (5, [1, 2, 4])):
        reported("two ways", [still] * 4, [(AT_LEAST, 1, 2, by_two), (AT_LEAST, 1, 3, 9), (AT_MOST, 1, 4, 5), (AFTER, 2, 4), (AFTER, 3, 4)], wanted)
    reported("a gap", [hand, still], [(AT_MOST, 0, 2, 5), (AFTER | GAP, 1, 2, 6)], [0, 1])
    reported("a gap of a fixed step", [fixed(2), still, still], [(AT_MOST, 0, 2, 5), (AFTER | GAP, 1, 2, 4), (AFTER, 1, 3)], [0, 1])
    same("a gap that fits", clashes(sheet([fixed(2), still, still], [(AT_MOST, 0, 2, 6), (AFTER | GAP, 1, 2, 4), (AFTER, 1, 3)])), 31)
    # A limit from the finish does not clash with the hand that it counts from, but with what lasts longer than the hand may, or with a hand in between.
    reported("longer than the hand and the limit", [open_step(8), still], [(AFTER, 0, 1), (AFTER | AT_LEAST | FINISH, 1, 2, 14, 5)], [1])
    reported("a hand in between", [hand, hand, still], [(AFTER, 1, 2), (AFTER | FINISH, 1, 3, 5), (AFTER, 2, 3)], [0, 1, 2])
    reported("a fixed step in between", [hand, fixed(6), still], [(AFTER, 1, 2), (AFTER | FINISH, 1, 3, 5), (AFTER, 2, 3)], [0, 1, 2])
    reported("what is refused 28 without one record", [hand, hand, still], [(AFTER, 1, 2), (AFTER | FINISH, 1, 3, 0), (AFTER | FINISH, 2, 3, 0)], [0, 1, 2])
    reported("two limits in a record that goes", [still, still], [(AFTER | AT_MOST | FINISH, 0, 1, 7, 9), (AT_MOST, 0, 2, 4), (AT_LEAST, 1, 2, 5)], [1, 2])
    reported("two limits in a record that stays", [still, fixed(7), still],
             [(AFTER | AT_MOST | FINISH, 0, 1, 9, 7), (AFTER, 0, 2), (AT_LEAST, 2, 1, 8), (AT_MOST, 2, 3, 0)], [0, 2])
    # The longest report: a row of 64 steps, a tick from each to the next, and the last one tick too late. Limits that ask nothing stand in between.
    row = [(AT_LEAST, v, v + 1, 1) for v in range(63)] + [(AT_MOST, 0, 63, 62)]
    more = [(AT_MOST, i, j, 65535) for i in range(62) for j in range(i + 2, 64) if (i, j) != (0, 63)][:512 - 64]
    links = sorted(row + more, key=lambda link: link[1:3])
    reported("512 records", [still] * 63, links, [k for k, link in enumerate(links) if link in row])


def parts_written() -> None:
    """What is written, and rising; which fields are left out."""
    start, hand = (1, 9), (1, 4)                        # the ticks of an open step are not looked at
    links = [(5, 3, 4, 9, 2, 9, 9), (1, 2, 3, 9, 9, 9, 9), (1, 0, 1, 0, 0, 0, 0), (1, 0, 2, 9, 9, 9, 9), (1, 1, 4, 9, 9, 9, 9)]
    stand_bytes = bytes.fromhex("05 05 00 01 02 03 00 01 02 02 00 02 01 00 01 00 01 01 00 02 01 01 04 01 02 03 05 03 04 02 00")
    for records in (links, links[::-1], sorted(links, key=lambda link: link[1:3])):
        for room in (5825, len(stand_bytes)):
            same("stand", written([start, (2, 3), hand, (2, 2), (2, 1)], records, room), stand_bytes)
        same("stand, a byte too few", written([start, (2, 3), hand, (2, 2), (2, 1)], records, len(stand_bytes) - 1), 14)
    same("the start", written([start], [], 4), bytes.fromhex("01 00 00 01"))
    same("the start, no room", written([start], [], 0), 14)
    same("durations of 0", written([start, (2, 0), (0, 7), (5, 0), (2, 256), (5, 255)], []), bytes.fromhex("06 00 00 01 00 00 05 00 00 02 00 01 05 ff 00"))
    every = (31, 1, 0, 0, 1, 256, 65535)
    same("every field, 0 too", written([start, start], [every]), bytes.fromhex("02 01 00 01 01 1f 01 00 00 00 01 00 00 01 ff ff"))
    same("fields of 0", written([start, start], [(14 | 1, 0, 1, 0, 0, 0, 5), (2, 1, 0, 0, 5, 5, 5)]),
         bytes.fromhex("02 02 00 01 01 0f 00 01 00 00 00 00 00 00 02 01 00 00 00"))
    same("by i, then by j", written([start] * 3, [(1, 2, 0, 0, 0, 0, 0), (1, 0, 2, 0, 0, 0, 0), (1, 1, 0, 0, 0, 0, 0), (1, 0, 1, 0, 0, 0, 0)]),
         bytes.fromhex("03 04 00 01 01 01 01 00 01 01 00 02 01 01 00 01 02 00"))
    # The longest sheet: 64 steps, all but step 0 with a field, and 512 records with every field.
    pairs = [(i, j) for i in range(64) for j in range(64) if i != j][:512]
    longest = written([start] + [(5, 1)] * 63, [(31, i, j, 1, 2, 3, 4) for i, j in reversed(pairs)])
    same("the longest sheet", longest, sheet([open_step(1)] * 63, [(31, i, j, 1, 2, 3, 4) for i, j in pairs]))
    same("the longest sheet, its bytes", len(longest), 5825)
    same("the longest sheet, a byte too few", written([start] + [(5, 1)] * 63, [(31, i, j, 1, 2, 3, 4) for i, j in pairs], 5824), 14)


def parts_refused() -> None:
    """Each fault, and which of two comes first: of the whole of the parts, by number."""
    start, link, none = (1, 0), (1, 0, 1, 0, 0, 0, 0), (0, 0, 0)
    two_steps = [start, start]

    def changed(**what) -> tuple:
        """The record (0, 1) with some of its numbers."""
        names = ("map", "i", "j", "least", "most", "gap", "finish")
        return tuple(what.get(name, was) for name, was in zip(names, link))

    for n in (0, 65, 256, 257, 65537, 2**32 + 2, 2**64 - 1):
        same(f"n {n}", written(two_steps, [none], 0, n=n, r=513), 2)
    for r in (513, 65536, 2**32, 2**32 + 1, 2**64 - 1):
        same(f"r {r}", written([(3, 0)], [changed(map=0)], 0, r=r), 3)
    for wrong in ([(0, 0)], [(2, 0)], [(5, 0)], [start, (3, 0)], [start, (4, 0)], [start, (6, 1)], [start, (7, 1)], [start, (9, 0)], [start, (257, 0)]):
        same(f"steps {wrong}", written(wrong, [changed(i=9)], 0), 4)
    for wrong in (0, 8, 10, 12, 14, 24, 26, 28, 30, 32, 33, 64, 128, 255, 256, 257, 65535):
        same(f"map {wrong}", written(two_steps, [changed(map=16), changed(i=1), link, link, changed(map=wrong)], 0), 4)
    for wrong in (16, 18, 20, 22):
        same(f"map {wrong}", written(two_steps, [changed(i=1), link, link, changed(map=wrong)], 0), 26)
    for wrong in (changed(i=2), changed(j=2), changed(i=1), changed(j=0), changed(i=255), changed(j=256), changed(j=257), changed(i=65535)):
        same(f"record {wrong}", written(two_steps, [link, link, wrong], 0), 5)
    for twice in ([link, link], [link, changed(map=4, most=3)], [link, changed(i=1, j=0), link], [changed(i=1, j=0), link, changed(map=2)]):
        same(f"records {twice}", written(two_steps, twice, 0), 6)
        same(f"records {twice}, more said than lent", written(two_steps, twice, n=3, r=9), 6)
    same("(0, 1) and (1, 0)", written(two_steps, [changed(i=1, j=0), link], 14), bytes.fromhex("02 02 00 01 01 01 00 01 01 01 00"))
    # Lists that are shorter than the counts, or longer: what is past the counts is not looked at.
    same("a step too few", written(two_steps, [link], n=3), 14)
    same("a record too few", written(two_steps, [link], r=2), 14)
    same("a record too few, its last number missing", written(two_steps, [link, changed(i=1, j=0)[:-1]], r=2), 14)
    same("no step", written([], [], n=1), 14)
    same("no step, and a fault", written([], [changed(i=1)], n=1), 5)
    same("more than the counts", written([start, start, (3, 0)], [link, link, none], n=2, r=1), bytes.fromhex("02 01 00 01 01 01 00 01"))


def valued(what: str, data: bytes, registers: dict[int, int], comparisons: list[int]) -> None:
    """The price of a sheet, registers of step 0 and the open steps: as numbers and as a report; with just enough lent, and 14."""
    n, totals = data[0], [sum(registers.values()), sum(comparisons)]
    wanted = [registers.get(v, 0) for v in range(n)], comparisons, totals
    same(what, price(data), wanted)
    same(f"{what}, just enough lent", price(data, rooms=(n, n)), wanted)
    for rooms in ((n - 1, 64), (64, n - 1), (0, 0)):
        same(f"{what}, {rooms} lent", price(data, rooms=rooms), 14)
    lines = [f"registers {a} {count}" for a, count in registers.items()] + [f"comparisons {v} {count}" for v, count in enumerate(comparisons)]
    same(f"{what}, the report", report(data), ";".join(lines + [f"total {totals[0]} {totals[1]}"]))


def not_valued(what: str, data: bytes, wanted: int, allow: bool = True) -> None:
    """The refusal of a sheet's price, whatever is lent."""
    for rooms in ((0, 0), (64, 0), (0, 64), (64, 64)):
        same(what, price(data, allow, rooms), wanted)
    if allow:
        same(f"{what}, the report", report(data), f"refused {wanted}")


def prices() -> None:
    """The price of the control box."""
    table, hand, still = printed(), open_step(), fixed(0)
    same("the table's front", table[:18], [0, 0, 1, 2, 2, 3, 3, 3, 3, 4, 4, 4, 4, 4, 4, 4, 4, 5])
    for n in range(2, 1024):
        same(f"entry {n}", (2 ** table[n] >= n, 2 ** (table[n] - 1) < n), (True, True))
    valued("the start", bytes.fromhex("01 00 00 01"), {0: 0}, [1])
    valued("stand", stand(None), {0: 2, 2: 1}, [1, 1, 1, 2, 2])         # 0 at 3 in row 4, the hand at 2
    valued("stand, a least", stand(8), {0: 0, 2: 1}, [1, 1, 1, 1, 1])
    valued("hands that nothing follows", sheet([hand, fixed(9), open_step(7)], []), {0: 0, 1: 0, 3: 0}, [1] * 4)
    # Each of three hands is compared at 4, which comes 1, 5 and 9 after them; 5 comes 8 later, 9, 13 and 17 after them, and 18 after the start.
    three = sheet([hand, hand, hand, fixed(8), still],
                  [(AFTER | GAP, 1, 4, 1), (AFTER | GAP, 2, 4, 5), (AFTER | GAP, 3, 4, 9), (AFTER, 4, 5), (AT_LEAST, 0, 5, 18)])
    valued("three hands", three, {0: 5, 1: 4, 2: 4, 3: 5}, [1, 1, 1, 1, 3, 4])
    # Hand 2 comes 700 after the start; 3 comes later by the gap, but there the hand alone decides.
    for gap, wanted in ((700, 10), (512, 9), (256, 8), (257, 9)):
        valued("a hand far off", sheet([still, hand, still], [(AT_LEAST, 0, 2, 700), (AFTER | GAP, 2, 3, gap)]), {0: 10, 2: wanted}, [1] * 4)
    # 3 comes 900 after hand 1, and at most 300 after hand 2, which waits for hand 1 and comes 600 after it.
    two_hands = [(AFTER | GAP, 1, 3, 900), (AT_MOST, 2, 3, 300)]
    valued("a wait by a limit", sheet([hand, hand, still], two_hands), {0: 0, 1: 10, 2: 0}, [1, 1, 1, 1])
    not_valued("a wait that is not allowed", sheet([hand, hand, still], two_hands), 12, False)
    not_valued("a wait that is not allowed, and far off", sheet([hand, hand, still], [(AFTER | GAP, 1, 3, 9000), (AT_MOST, 2, 3, 300)]), 12, False)
    not_valued("a wait, and far off", sheet([hand, hand, still], [(AFTER | GAP, 1, 3, 9000), (AT_MOST, 2, 3, 300)]), 19)
    for ticks, wanted in ((1, 0), (2, 1), (1022, 10), (1023, 10)):      # the start's, and a hand's
        valued("fixed steps", sheet([fixed(ticks), fixed(0), still], [(AFTER, 1, 2), (AFTER, 2, 3)]), {0: wanted}, [1] * 4)
        valued("at least after a hand", sheet([hand, still, still], [(AFTER, 1, 2), (AT_LEAST, 2, 3, ticks)]), {0: 0, 1: wanted}, [1] * 4)
    for ticks in (1024, 1025, 65535):
        not_valued("fixed steps, too far", sheet([fixed(ticks), fixed(0), still], [(AFTER, 1, 2), (AFTER, 2, 3)]), 19)
        not_valued("after a hand, too far", sheet([hand, still, still], [(AFTER, 1, 2), (AT_LEAST, 2, 3, ticks)]), 19)
        valued("a long least", sheet([open_step(ticks), still, still], [(AFTER, 1, 2), (AT_LEAST, 2, 3, 5)]), {0: 0, 1: 3}, [1] * 4)
    # An at least out of a hand counts from its start: from step 0.
    valued("from the hand's start", sheet([hand, still], [(AT_LEAST, 1, 2, 1023)]), {0: 10, 1: 0}, [1] * 3)
    not_valued("from the hand's start, too far", sheet([hand, still], [(AT_LEAST, 1, 2, 1024)]), 19)
    # Refusals that come first, on sheets whose offsets are too far.
    far = (AFTER | GAP, 1, 2, 2000)
    not_valued("a circle", sheet([hand, still], [far, (AFTER, 2, 1)]), 8)
    not_valued("too tight", sheet([hand, still], [far, (AT_MOST, 0, 2, 1999)]), 10)
    not_valued("no room for the hand", sheet([hand, still], [far, (AT_MOST, 0, 2, 2000)]), 11)
    not_valued("28", sheet([hand, hand, still], [(AFTER | GAP | FINISH, 1, 3, 2000, 2000), (AFTER | GAP | FINISH, 2, 3, 2000, 2000)]), 28)
    for wanted, text in ((1, ""), (2, "41"), (3, "01 01 02"), (4, "01 00 00 05"), (26, "02 01 00 01 00 10"), (5, "01 01 00 01 01 00 00"),
                         (6, "02 02 00 01 00 01 00 01 01 00 01"), (7, "01 00 00 01 00")):
        not_valued(text, bytes.fromhex(text), wanted)
    # Another table: its entry 0 counts too, for hands alone.
    other = [3] * 3 + [40] * 1021
    same("another table", price(stand(None), table=other), ([40, 0, 3, 0, 0], [1, 1, 1, 2, 2], [43, 7]))
    same("another table, hands that nothing follows", price(sheet([hand, fixed(9)], []), table=other), ([3, 3, 0], [1] * 3, [6, 3]))
    # 31 hands, a step after all of them, and 31 more steps in a row.
    for behind, wanted in ((2, 6), (33, 10)):
        row = sheet([hand] * 31 + [still] * 32, [(AFTER, a, 32) for a in range(1, 32)] + [(AT_LEAST, v, v + 1, behind) for v in range(32, 63)])
        valued("31 hands", row, {0: 0} | {a: wanted for a in range(1, 32)}, [1] * 32 + [31] * 32)


for part in (bytes_read, plans, limits_from_the_finish, lists, runs, no_clashes, reports, parts_written, parts_refused, prices):
    part()
print("worked sheets: as worked out")
