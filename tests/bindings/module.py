"""The Python module: its answers and its runs, state by state, the sheets that it writes and its prices, against those stored of the reference planner (tests/rust/data);
the stored plans of the examples; what its own example says; and what it does where Python's numbers go further than the library's."""
import ctypes
import os
import re
import subprocess
import sys
import tempfile
from pathlib import Path

ROOT = Path(__file__).resolve().parents[2]
sys.path.insert(0, str(ROOT / "bindings/python"))
import standplan  # noqa: E402
from standplan import Link, Plan, Refused, Run, Step  # noqa: E402


def check(found, wanted, what):
    assert found == wanted, f"{what}: {found!r}, not {wanted!r}"


def answer(call, *arguments):
    """What a call gives, or ('refused', its number)."""
    try:
        return call(*arguments)
    except Refused as fault:
        check(str(fault), f"refused {fault.number}: {standplan.SENTENCES[fault.number]}", "a refusal's text")
        return "refused", fault.number


def verdict_of(words):
    return int(words[1]) if words[0] == "ok" else ("refused", int(words[1]))


def numbers(words):
    return [standplan.UNDECIDED if word == "-" else int(word) for word in words]


def answers():
    """Refusal 14 of a table, of starts or of records that are lent too short cannot come up here: the module lends enough."""
    sheet, seen, count = b"", set(), 0
    for line in (ROOT / "tests/rust/data/answers.txt").read_text("ascii").splitlines():
        (kind, *rest), *fields = [field.split() for field in line.split(";")]
        if kind == "sheet":
            sheet = bytes.fromhex("".join(rest))
            continue
        wanted, what = verdict_of(fields[0]), f"{kind} {sheet.hex()}"
        n = sheet[0] if sheet else 0
        refused = isinstance(wanted, tuple)
        if kind == "judge":
            check(answer(standplan.judge, sheet, rest == ["1"]), wanted, what)
        elif kind == "waits":
            pairs = [(a, i) for a in range(64) for i, word in enumerate(fields[2]) if int(word, 16) >> a & 1]
            check(answer(standplan.waits, sheet), wanted if refused else pairs, what)
        elif kind == "steps" and wanted != ("refused", 14):
            count_, open_ = map(int, fields[1])
            given = count_, [v for v in range(64) if open_ >> v & 1], numbers(fields[2])[:n]
            check(answer(standplan.steps, sheet), wanted if refused else given, what)
        elif kind == "clashes" and wanted != ("refused", 14):
            check(answer(standplan.clashes, sheet), wanted if refused else numbers(fields[1])[:wanted], what)
        elif kind == "plan" and wanted != ("refused", 14):
            made = answer(standplan.plan, sheet, rest == ["1"])
            if not refused:
                check((made.verdict, made.n), (wanted, n), what)
                check(list(made.table), numbers(fields[1])[:n * n], what)
            else:
                check(made, wanted, what)
        elif kind == "starts" and (wanted != ("refused", 14) or len(fields[1]) < n):
            check(answer(standplan.starts, sheet, rest == ["1"], numbers(fields[1])), wanted if refused else numbers(fields[2])[:n], what)
        else:
            continue
        seen.add(wanted if refused or kind != "clashes" else kind)
        count += 1
    assert count > 900 and len(seen) == 19, (count, seen)     # both verdicts, records that clash, refusals 1 to 8, 10 to 14, 26, 28 and 31
    return count


def state_of(fields):
    n, open_, tick, started, finished = map(int, fields[0])
    return [n, open_, started, finished], tick, *([int(word) for word in words] + [0] * (64 - len(words)) for words in fields[1:])


def runs():
    run, table, seen, count = Run(Plan(0, [])), [], set(), 0
    for line in (ROOT / "tests/rust/data/runs.txt").read_text("ascii").splitlines():
        (kind, *rest), *fields = [field.split() for field in line.split(";")]
        if kind == "table":
            table = numbers(fields[0])
            continue
        if kind == "state":
            run._words[:], run._tick.value, run._start[:], run._finish[:], run._least[:] = state_of(fields)
            continue
        size, *more = map(int, rest)
        run.plan = Plan(more[0] if kind == "begin" else 0, table[:size])
        if kind == "begin":
            found = answer(run.begin, [v for v in range(64) if more[1] >> v & 1], more[2:])
        else:
            found = answer(getattr(run, kind), *more)
        wanted = verdict_of(fields[0])
        check(found, wanted if isinstance(wanted, tuple) else [v for v in range(64) if wanted >> v & 1], line)
        check((run._words[:], run.now, run._start[:], run._finish[:], run._least[:]), state_of(fields[1:]), line)
        check(run.started, {v: run._start[v] for v in range(64) if run._words[2] >> v & 1}, line)
        check(run.finished, {v: run._finish[v] for v in range(64) if run._words[3] >> v & 1}, line)
        seen.add((kind, wanted if isinstance(wanted, tuple) else "ok"))
        count += 1
    assert count > 300 and len(seen) == 13, (count, seen)      # each call goes through and is refused in each of its three ways, Finish in four
    return count


def step_of(word):
    """`open`, `open/8`, `3`; `3/8` is a fixed step with a least."""
    lasts, _, least = word.partition("/")
    return Step(None if lasts == "open" else int(lasts), int(least) if least else None)


def link_of(word):
    """The pair, then a letter for each link, with its number: `3,4,a,m2`."""
    i, j, *fields = word.split(",")
    names = {"l": "at_least", "m": "at_most", "g": "gap", "f": "at_most_from_finish"}
    return Link(int(i), int(j), after="a" in fields, **{names[field[0]]: int(field[1:]) for field in fields if field != "a"})


def written(n, steps, r, links, room):
    """What the library's call gives of parts as numbers, with counts of their own: the length or the refusal; then length and buffer, lent as 1000 and as 100,
    101 and so on."""
    numbers = [standplan._shorts(number for part in parts for number in call(part)) for parts, call in ((steps, standplan._step_numbers), (links, standplan._link_numbers))]
    buffer, length = (ctypes.c_uint8 * room)(*((100 + at) % 256 for at in range(room))), ctypes.c_size_t(1000)
    found = answer(standplan._called, "write", n, numbers[0], len(numbers[0]), r, numbers[1], len(numbers[1]), buffer, room, ctypes.byref(length))
    return found or length.value, length.value, bytes(buffer)


def parts():
    """Each line by the library's call as C makes it; by `write` where the lists are as long as their counts: it lends room enough, so that 14 does not come up."""
    count, seen, called = 0, set(), 0
    for line in (ROOT / "tests/rust/data/parts.txt").read_text("ascii").splitlines():
        (_, *counts), *fields = [field.split() for field in line.split(";")]
        (n, r, room), steps, links = map(int, counts), [step_of(word) for word in fields[0]], [link_of(word) for word in fields[1]]
        wanted, sheet, lent = verdict_of(fields[2]), bytes.fromhex("".join(fields[3])), bytes((100 + at) % 256 for at in range(room))
        refused = isinstance(wanted, tuple)
        check(written(n, steps, r, links, room), (wanted, 1000 if refused else wanted, sheet + lent[len(sheet):]), line)
        check(refused or len(sheet) == wanted, True, line)
        if (len(steps), len(links)) == (n, r) and wanted != ("refused", 14):
            check(answer(standplan.write, steps, iter(links)), wanted if refused else sheet, line)
            called += 1
        seen.add(wanted if refused else "written")
        count += 1
    assert count > 400 and called > 200 and len(seen) == 8, (count, called, seen)     # written, and refused 2 to 6, 26 and 14
    return count


def priced(sheet, allow, rooms):
    """What the library's call gives: the verdict or the refusal; then the lists, lent as 1000, 1001 and so on and 2000, 2001 and so on, and the totals, as 1000
    and 1001."""
    registers, comparisons, totals = ((ctypes.c_uint32 * room)(*range(first, first + room)) for first, room in ((1000, rooms[0]), (2000, rooms[1]), (1000, 2)))
    found = answer(standplan._called, "price", sheet, len(sheet), allow, registers, rooms[0], comparisons, rooms[1], totals)
    return found, list(registers), list(comparisons), list(totals)


def prices():
    """Each line by the library's call as C makes it; by `price` where 14 does not come up: it lends room enough."""
    sheet, count, seen, called = b"", 0, set(), 0
    for line in (ROOT / "tests/rust/data/prices.txt").read_text("ascii").splitlines():
        (kind, *rest), *fields = [field.split() for field in line.split(";")]
        if kind == "sheet":
            sheet = bytes.fromhex("".join(rest))
        if kind != "price":                                # a sheet, or a line of the head
            continue
        allow, wanted, (registers, comparisons, totals) = rest == ["1"], verdict_of(fields[0]), map(numbers, fields[1:])
        refused = isinstance(wanted, tuple)
        check(priced(sheet, allow, (len(registers), len(comparisons))), (wanted, registers, comparisons, [1000, 1001] if refused else totals), f"{line} {sheet.hex()}")
        if wanted != ("refused", 14):
            found = answer(standplan.price, sheet, allow)
            check(found, wanted if refused else (registers[:sheet[0]], comparisons[:sheet[0]], *totals, wanted), f"{line} {sheet.hex()}")
            called += 1
        seen.add(wanted)
        count += 1
    assert count > 1000 and called > 500 and len(seen) == 17, (count, called, seen)     # both verdicts, refusals 1 to 8, 10 to 12, 14, 19, 26 and 28
    return count


def documented():
    """The example at the head of the module: what stands behind an expression begins with what it gives."""
    names, count = {}, 0
    for line in standplan.__doc__.splitlines():
        found = re.fullmatch(r"    (\S.*?)(?:  +# (.*))?", line)
        if found and not (re.match(r"\w[\w, ]* = |import ", found[1])):
            said = repr(eval(found[1], names))
            assert found[2] and re.match(re.escape(said) + r"$|" + re.escape(said) + "[:,]", found[2]), f"{found[1]} gives {said}, and the module says {found[2]}"
            count += 1
        elif found:
            exec(found[1], names)
    assert count >= 8, count


def plans():
    count = 0
    for path in sorted((ROOT / "examples").glob("*.sheet")):
        sheet = path.read_bytes()
        made, waits = standplan.plan(sheet, True), standplan.waits(sheet)
        lines = [f"verdict {made.verdict}", f"waits {len(waits)}", *(f"wait {a} {i}" for a, i in waits),
                 *(f"start {v} {a} {offset}" for v in range(made.n) for a, offset in made.deciding(v).items())]
        check("".join(f"{line}\n" for line in lines), path.with_suffix(".plan").read_text("ascii"), path)
        count += 1
    assert count >= 3, count
    return count


def raised(call, *arguments):
    try:
        return call(*arguments)
    except (TypeError, ValueError, IndexError, standplan.NoLibrary) as fault:
        return type(fault)


def ring(links):
    """A chain of so many steps of 1 tick each, and a limit from its first to its last that is one tick too short: no record can be left out. It is the second of them."""
    return bytes([links + 2, links + 1, 0, 1]) + bytes([2, 1, 0]) * (links + 1) + bytes([1, 1, 2, 4, 1, links + 1, *(links - 1).to_bytes(2, "little")]) + \
        b"".join(bytes([1, v, v + 1]) for v in range(2, links + 1))


def writer_borders():
    """Parts with numbers that C would cut off, and what is no number."""
    for wrong, kind in (-1, ValueError), (65536, ValueError), (2**64, ValueError), (0.5, TypeError), ("3", TypeError):
        for step in Step(fixed=wrong), Step(least=wrong):
            check(raised(standplan.write, [Step(), step], []), kind, step)
        for name in ("gap", "at_least", "at_most", "at_most_from_finish"):
            check(raised(standplan.write, [Step()] * 2, [Link(0, 1, after=True, **{name: wrong})]), kind, f"{name} {wrong}")
    for i, j in (-1, 0), (0, -1):
        check(raised(standplan.write, [Step()] * 2, [Link(i, j, after=True)]), ValueError, (i, j))
    for far in 2, 64, 255, 256, 257, 65536, 65537, 2**64:
        for pair in (far, 1), (0, far):
            check(answer(standplan.write, [Step()] * 2, [Link(*pair, after=True)]), ("refused", 5), pair)
    check(raised(standplan.write, [Step(), Step(fixed=0.0)], []), TypeError, "a duration that is no whole number")
    check(answer(standplan.write, [Step(), Step(3, 8)], []), ("refused", 4), "a fixed step with a least")
    check(answer(standplan.write, [Step(), Step(0, 0)], []), ("refused", 4), "a fixed step with a least of 0")
    check(answer(standplan.write, [], []), ("refused", 2), "no step")


def borders():
    """Numbers that C would cut off, what is not bytes, and no library."""
    stand = (ROOT / "examples/stand.sheet").read_bytes()
    made = standplan.plan(bytearray(stand), True)
    check(list(standplan.plan(memoryview(stand), True).table), list(made.table), "a sheet in other bytes")
    check(answer(standplan.starts, stand, True, [0, 0, 2**32 + 10, 0, 0]), ("refused", 13), "a duration above 32 bits")
    check(raised(standplan.starts, stand, True, [0, 0, -1, 0, 0]), ValueError, "a duration below 0")
    check(raised(standplan.starts, stand, True, [0, 0, 0.5, 0, 0]), TypeError, "a half")
    for sheet in ("05", 5, None, [5, 5]):
        check(raised(standplan.judge, sheet, True), TypeError, f"{sheet!r}, no bytes")
        check(raised(standplan.clashes, sheet), TypeError, f"{sheet!r}, no bytes")
    late = stand[:-2] + bytes([1, 0])
    check((answer(standplan.judge, late, True), standplan.clashes(bytearray(late)), answer(standplan.clashes, stand)), (("refused", 10), [4], ("refused", 31)), "records that clash")
    check(standplan.clashes(ring(62)), list(range(63)), "a report of 63 records")
    check(raised(made.deciding, 5), IndexError, "a row that is not there")
    run = Run(made)
    check(answer(run.finish, 2), ("refused", 15), "no run")
    given = standplan.steps(stand)
    check(given, (5, [0, 2], [0, 0, 0, 0, 0]), "what a run of the stand sheet is begun with")
    check((given.n, given.open, given.leasts), tuple(given), "its parts by name")
    check(raised(run.begin, [64], given.leasts), ValueError, "a step that no map has")
    for wrong, kind in ([-1, 0, 0, 0, 0], ValueError), ([65536, 0, 0, 0, 0], ValueError), ([0.5, 0, 0, 0, 0], TypeError):
        check(raised(run.begin, [2], wrong), kind, f"leasts {wrong}")
    check((answer(run.begin, [2], [0, 0, 0, 0]), run.started), (("refused", 14), {}), "too few leasts")
    check((run.begin(given.open, given.leasts), answer(run.finish, 2**64 + 2), answer(run.begin, [2], given.leasts)), ([0, 1, 2], ("refused", 17), ("refused", 16)), "the run")
    check(raised(run.finish, -1), ValueError, "a step below 0")
    check((run.finish(2), run.tick(), run.now, run.started, run.finished), ([], [3], 1, {0: 0, 1: 0, 2: 0, 3: 1}, {0: 0, 2: 0}), "the run goes on")

    least = (ROOT / "examples/least.sheet").read_bytes()
    run, given = Run(standplan.plan(least, True)), standplan.steps(least)
    check(given, (5, [0, 2], [0, 0, 8, 0, 0]), "what a run with a least is begun with")
    check(answer(standplan.starts, least, True, [0, 0, 7, 0, 0]), ("refused", 13), "a duration below its least")
    check((run.begin(given.open, given.leasts), run._least[:6]), ([0, 1, 2], [*given.leasts, 0]), "the run with a least")
    for _ in range(8):
        check((answer(run.finish, 2), run.finished, run.tick()), (("refused", 20), {0: 0}, []), "a finish below the least")
    check((run.finish(2), run.now), ([3], 8), "a finish at the least")
    check(answer(standplan.steps, bytes([2, 1, 0, 1, 1, 1, 1, 0])), (2, [0, 1], [0, 0]), "a sheet that is refused 8")

    def elsewhere(folder, library):
        """What the module says where it stands alone."""
        (Path(folder) / "standplan.py").write_bytes((ROOT / "bindings/python/standplan.py").read_bytes())
        code = "import standplan\ntry: print(standplan.judge(bytes([1, 0, 0, 1]), True))\nexcept standplan.NoLibrary as fault: print(fault)"
        found = subprocess.run([sys.executable, "-c", code], cwd=folder, env={**os.environ, "STANDPLAN_LIBRARY": str(library)}, capture_output=True, text=True)
        check((found.returncode, found.stderr), (0, ""), "the module alone")
        return found.stdout

    with tempfile.TemporaryDirectory() as folder:
        check(elsewhere(folder, ROOT / "target/staticlib/libstandplan.so"), "0\n", "a library that is named")
        assert "is not the library of the planner" in elsewhere(folder, __file__)
        alone = elsewhere(folder, "")
        assert alone == "0\n" or "tools/library builds it" in alone, alone       # 0 where the system has a library


if __name__ == "__main__":
    os.chdir(ROOT)                                         # the module's example opens a file there
    counts = answers(), runs(), parts(), prices(), plans()
    documented()
    writer_borders()
    borders()
    print("the Python module gives {} stored answers, {} stored calls of the runner, {} stored answers of the writer, {} stored prices and {} stored plans".format(*counts))
