"""The library's writer beside the reference's (request L4); the shared object has to be built (tools/library).

    python3 compare.py parts SEED COUNT    random parts, with faults: verdict, every byte of the buffer and the length
    python3 compare.py stored              every stored sheet that is read, through parts and back: the same bytes but for the fixed durations of 0,
                                           which are left out, and the same answers

Parts come in chunks of at most 500, chunk k from the seed SEED * 1,000,000 + k. The first difference ends the run with status 1."""
from __future__ import annotations

import ctypes as c
import random
import sys
from collections import Counter
from pathlib import Path

ROOT = Path(__file__).resolve().parents[2]
sys.path.insert(0, str(ROOT / "bindings/python"))
import standplan  # noqa: E402                before the reference, which has a program of this name

sys.path.insert(0, str(ROOT / "tests/reference"))
import encode  # noqa: E402
import parts  # noqa: E402
import planner  # noqa: E402
import writer  # noqa: E402

library = c.CDLL(str(ROOT / "target/staticlib/libstandplan.so"))
CHUNK = 500
LENT_LENGTH = 0x1234567887654321           # what the length holds before a call: more than 32 bits
LONGEST_SHEET = standplan.MAX_SHEET
Answer = tuple[int, int, bytes]            # verdict, length and buffer after a call


def lent(numbers: list[int], kind) -> c.Array:
    """Numbers, lent; one at least, so that there is an address."""
    return (kind * max(1, len(numbers)))(*numbers)


def write(n: int, steps: list[int], r: int, records: list[int], buffer: bytes) -> Answer:
    """The library's answer."""
    given_steps, given_records, room = lent(steps, c.c_uint16), lent(records, c.c_uint16), lent(list(buffer), c.c_uint8)
    length = c.c_size_t(LENT_LENGTH)
    verdict = library.standplan_write(c.c_size_t(n), given_steps, c.c_size_t(len(steps)), c.c_size_t(r), given_records, c.c_size_t(len(records)), room,
                                      c.c_size_t(len(buffer)), c.byref(length))
    assert (list(given_steps)[:len(steps)], list(given_records)[:len(records)]) == (steps, records), "the parts that were lent have changed"
    return verdict, length.value, bytes(room)[:len(buffer)]


def expected(n: int, steps: list[writer.Part], r: int, records: list[planner.Record], buffer: bytes) -> Answer:
    """The reference's answer."""
    (kind, number), after = writer.write(n, steps, r, records, list(buffer))
    return (0, number, bytes(after)) if kind == "ok" else (256 + number, LENT_LENGTH, bytes(after))


def differs(what: str, ours, reference) -> None:
    """Ends the run."""
    print(f"{what}\nlibrary   {ours}\nreference {reference}", file=sys.stderr)
    sys.exit(1)


def compare_one(rng: random.Random, seen: Counter) -> None:
    """Random parts, into a buffer of random bytes."""
    n, steps, r, records, room = parts.random_parts(rng)
    n, r = encode.count(rng, n, standplan.MAX_STEPS), encode.count(rng, r, standplan.MAX_RECORDS)
    buffer = rng.randbytes(room)
    given = encode.numbers(rng, steps, records)
    ours, reference = write(n, given[0], r, given[1], buffer), expected(n, steps, r, records, buffer)
    if ours != reference:
        differs(f"n {n}, steps {given[0]}, r {r}, records {given[1]}, buffer {buffer.hex()}", ours, reference)
    seen[reference[0]] += 1


def compare_parts(seed: int, count: int) -> None:
    """Random parts, in chunks."""
    seen: Counter = Counter()
    for first in range(0, count, CHUNK):
        rng = random.Random(seed * 1000000 + first // CHUNK)
        for _ in range(min(CHUNK, count - first)):
            compare_one(rng, seen)
    for verdict in sorted(seen):
        print(f"{'refused ' + str(verdict - 256) if verdict else 'written'}: {seen[verdict]}")
    print(f"parts of {count} sheets, no difference")


def without_zeros(sheet: bytes) -> bytes:
    """A sheet that is read, without the fixed durations that are written as 0."""
    out, at = sheet[:3], 3
    for _ in range(sheet[0]):
        size = 3 if sheet[at] in (2, 5) else 1
        one = sheet[at:at + size]
        out += b"\0" if one == b"\2\0\0" else one
        at += size
    return out + sheet[at:]


def answers(sheet: bytes) -> list:
    """What the library says of a sheet."""
    def of(call, *arguments):
        try:
            return call(sheet, *arguments)
        except standplan.Refused as fault:
            return "refused", fault.number

    def plan_of(data: bytes, allow: bool) -> tuple[int, list[int]]:
        made = standplan.plan(data, allow)
        return made.verdict, list(made.table)

    leasts = standplan.steps(sheet).leasts
    said = [of(standplan.steps), of(standplan.waits), of(standplan.clashes)]
    for allow in (False, True):
        said += [of(standplan.judge, allow), of(plan_of, allow), of(standplan.starts, allow, leasts)]
    return said


def compare_stored() -> None:
    """Every stored sheet that is read."""
    lines = (ROOT / "tests/rust/data/answers.txt").read_text("ascii").splitlines()
    sheets = [bytes.fromhex(line[len("sheet"):]) for line in lines if line.startswith("sheet")]
    rng, same, shorter = random.Random(1), 0, 0
    for sheet in sheets:
        if planner.read(sheet)[0] == "refused":
            continue
        steps, records = parts.taken_apart(sheet)
        given = encode.numbers(rng, steps, rng.sample(records, len(records)))
        wanted, past = without_zeros(sheet), rng.randbytes(LONGEST_SHEET)
        ours = write(len(steps), given[0], len(records), given[1], past)
        reference = (0, len(wanted), wanted + past[len(wanted):])
        if ours != reference or len(wanted) > len(sheet):
            differs(f"sheet {sheet.hex()}", ours, reference)
        if answers(wanted) != answers(sheet):
            differs(f"answers on sheet {sheet.hex()}, what was written first", answers(wanted), answers(sheet))
        same, shorter = same + (wanted == sheet), shorter + (wanted != sheet)
    assert same and shorter, (same, shorter)
    print(f"stored sheets written again: {same} the same, {shorter} shorter; no difference")


if sys.argv[1:] == ["stored"]:
    compare_stored()
elif len(sys.argv) == 4 and sys.argv[1] == "parts":
    compare_parts(int(sys.argv[2]), int(sys.argv[3]))
else:
    sys.exit("usage: python3 compare.py parts SEED COUNT | stored")
