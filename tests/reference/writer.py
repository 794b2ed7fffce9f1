"""Reference sheet writer, written from request L4 of document 02, with the fields of L1, L6 and L11.

The parts are judged as a whole, by number: each refusal is given if its fault
is anywhere in them and no fault of an earlier number is. Fields are numbers of
16 bits; which are there is up to the caller, 0 or not. The lent buffer is never
changed in place: the call returns it as it is afterwards.
"""
from __future__ import annotations

from dataclasses import dataclass

from planner import Record, Refusal, Verdict


@dataclass(frozen=True)
class Part:
    """A step as a caller gives it: open if it has no ticks, else fixed. A least on a fixed step is a fault."""

    ticks: int | None = None       # its fixed duration, 0 too
    least: int | None = None       # L6: its least duration, 0 too


def fields_of(record: Record) -> list[int | None]:
    """The fields of a link record as they are written, lowest bit first, from bit 1 on."""
    return [record.at_least, record.at_most, record.gap, record.from_end]


def wrong_step(v: int, part: Part) -> bool:
    """Whether step v could only be written with a map that is not allowed."""
    if v == 0:
        return part != Part()
    return part.ticks is not None and part.least is not None


def wrong_record(record: Record) -> bool:
    """Whether a record could only be written with a map that is not allowed: an empty one, or a gap without after."""
    empty = not record.after and all(field is None for field in fields_of(record))
    return empty or (record.gap is not None and not record.after)


def judge_parts(n: int, steps: list[Part], r: int, records: list[Record]) -> None:
    """Raises 2, 3, 4, 26, 5 or 6: the first of these that is anywhere in the first n steps and r records that are there."""
    if n == 0 or n > 64:
        raise Refusal(2)
    if r > 512:
        raise Refusal(3)
    steps, records = steps[:n], records[:r]
    if any(wrong_step(v, part) for v, part in enumerate(steps)) or any(wrong_record(record) for record in records):
        raise Refusal(4)
    if any(record.from_end is not None and not record.after for record in records):
        raise Refusal(26)
    if any(record.i >= n or record.j >= n or record.i == record.j for record in records):
        raise Refusal(5)
    pairs = [(record.i, record.j) for record in records]
    if len(set(pairs)) < len(pairs):
        raise Refusal(6)


def two(number: int) -> list[int]:
    """A number of two bytes, low byte first."""
    return [number % 256, number // 256]


def step_bytes(part: Part) -> list[int]:
    """A step record; a fixed duration of 0 is left out, a least of 0 is not."""
    if part.ticks is None:
        return [0b001] if part.least is None else [0b101] + two(part.least)
    return [0b010] + two(part.ticks) if part.ticks > 0 else [0b000]


def record_bytes(record: Record) -> list[int]:
    """A link record, with every field that is there."""
    bits = 0b00001 if record.after else 0
    behind: list[int] = []
    for bit, field in zip((0b00010, 0b00100, 0b01000, 0b10000), fields_of(record)):
        if field is not None:
            bits |= bit
            behind += two(field)
    return [bits, record.i, record.j] + behind


def sheet_of(steps: list[Part], records: list[Record]) -> list[int]:
    """The bytes of the sheet with these steps and, rising, these records."""
    sheet = [len(steps)] + two(len(records))
    for part in steps:
        sheet += step_bytes(part)
    for record in sorted(records, key=lambda one: (one.i, one.j)):
        sheet += record_bytes(record)
    return sheet


def write(n: int, steps: list[Part], r: int, records: list[Record], buffer: list[int]) -> tuple[Verdict, list[int]]:
    """Write the sheet of the first n steps and r records into a lent buffer: ("ok", its length) or
    ("refused", 2, 3, 4, 26, 5, 6 or 14), and the buffer afterwards. Records may come in any order."""
    try:
        judge_parts(n, steps, r, records)
        if len(steps) < n or len(records) < r:
            raise Refusal(14)
        sheet = sheet_of(steps[:n], records[:r])
        if len(buffer) < len(sheet):
            raise Refusal(14)
    except Refusal as refusal:
        return ("refused", refusal.number), list(buffer)
    return ("ok", len(sheet)), sheet + list(buffer[len(sheet):])
