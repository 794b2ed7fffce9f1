"""Reference price report, written from request L5 of document 02: the registers and comparisons of the control box.

Registers are counted for step 0 and each open step, by a table of 1,024 entries: the printed one, if no other is
given. Comparisons are counted for each step. Lent lists are never changed in place: the call returns them as they
are afterwards.
"""
from __future__ import annotations

from dataclasses import dataclass

import planner as p

ENTRIES = 1024                 # of a register table


def smallest_power(n: int) -> int:
    """The smallest b whose power of two is at least n."""
    b = 0
    while 2 ** b < n:
        b += 1
    return b


PRINTED = [0] + [smallest_power(n) for n in range(1, ENTRIES)]


@dataclass(frozen=True)
class Price:
    """The price of an accepted sheet."""

    verdict: p.Verdict             # 0 is sound, 1 sound with waits
    registers: dict[int, int]      # of step 0 and each open step, rising
    comparisons: list[int]         # of each step

    @property
    def totals(self) -> tuple[int, int]:
        """The two sums, registers first."""
        return sum(self.registers.values()), sum(self.comparisons)


def largest_offsets(steps: list[p.Step], plan: list[dict[int, int]]) -> dict[int, int]:
    """Of step 0 and each open step the largest offset at which it stands in the plan, 0 if nowhere."""
    return {a: max((row[a] for row in plan if a in row), default=0) for a in [0] + p.open_steps(steps)}


def priced(sheet: bytes, allow_waits: bool, table: list[int] = PRINTED) -> Price:
    """The price of a sheet by a table; raises refusals 1 to 8, 10 to 12, 26 and 28, then 19."""
    accepted = p.accept(sheet, allow_waits)
    plan = accepted.deciding
    largest = largest_offsets(accepted.steps, plan)
    if any(offset >= ENTRIES for offset in largest.values()):
        raise p.Refusal(19)
    return Price(accepted.verdict, {a: table[offset] for a, offset in largest.items()}, [len(row) for row in plan])


def price(sheet: bytes, allow_waits: bool, registers: list[int], comparisons: list[int],
          table: list[int] = PRINTED) -> tuple[p.Verdict, list[int], list[int], tuple[int, int]]:
    """Price a sheet into two lent lists: the verdict, both lists afterwards, and the two totals.

    The registers of a fixed step are 0. A list shorter than N is 14, last. A refusal leaves both lists and has totals of 0.
    """
    try:
        found = priced(sheet, allow_waits, table)
        n = len(found.comparisons)
        if len(registers) < n or len(comparisons) < n:
            raise p.Refusal(14)
    except p.Refusal as refusal:
        return ("refused", refusal.number), list(registers), list(comparisons), (0, 0)
    counts = [found.registers.get(v, 0) for v in range(n)]
    return found.verdict, counts + list(registers[n:]), found.comparisons + list(comparisons[n:]), found.totals


def price_text(sheet: bytes, table: list[int] = PRINTED) -> str:
    """The text that the price program prints for a sheet, waits allowed."""
    try:
        found = priced(sheet, True, table)
    except p.Refusal as refusal:
        return f"refused {refusal.number}\n"
    lines = [f"registers {a} {count}" for a, count in found.registers.items()]
    lines += [f"comparisons {v} {count}" for v, count in enumerate(found.comparisons)]
    return "\n".join(lines + [f"total {found.totals[0]} {found.totals[1]}"]) + "\n"
