"""The verified stand planner, for Python: thin calls of its library (include/standplan.h has the same for C).

    import standplan
    sheet = open("examples/stand.sheet", "rb").read()
    standplan.judge(sheet, True)                        # 0, SOUND
    plan = standplan.plan(sheet, True)
    plan.deciding(3)                                    # {0: 1, 2: 0}: step 3 starts 1 tick after step 0 ends or 0 after step 2 does, the later
    standplan.starts(sheet, True, [0, 0, 10, 0, 0])     # [0, 0, 0, 10, 12]
    steps = standplan.steps(sheet)                      # Steps(n=5, open=[0, 2], leasts=[0, 0, 0, 0, 0]): what a run is begun with
    run = standplan.Run(plan)
    run.begin(steps.open, steps.leasts)                 # [0, 1, 2]: these steps start now
    run.tick()                                          # []
    run.finish(2)                                       # [3]
    late = sheet[:-2] + bytes([1, 0])                   # the limit of the last record is 1 in the place of 2: refused 10
    standplan.clashes(late)                             # [4]: that record alone cannot be kept
    Step, Link = standplan.Step, standplan.Link
    steps = [Step(), Step(least=8), Step(fixed=2)]      # open; open, at least 8 ticks; 2 ticks
    links = [Link(1, 2, after=True, at_most_from_finish=5), Link(0, 1, after=True)]
    standplan.write(steps, links).hex(" ")              # '03 02 00 01 05 08 00 02 02 00 01 00 01 11 01 02 05 00': the sheet of these
    standplan.price(sheet, True).registers              # [2, 0, 1, 0, 0]: step 0 needs two registers and step 2 one
    standplan.price(sheet, True).total_comparisons      # 7

`allow` says whether waits are allowed. What is refused raises Refused, with its number and sentence (docs/REFUSALS.md), and changes nothing.
The functions of the library are proved; this module is not: it lends them memory.

The shared object is the one that the variable STANDPLAN_LIBRARY names, else that of this repository, which the command tools/library builds,
else the one that the system finds (tools/library --install PREFIX). It is loaded at the first call.
"""
from __future__ import annotations

import ctypes
import os
from collections.abc import Iterable, Sequence
from functools import cache
from pathlib import Path
from typing import NamedTuple

__version__ = "2.4.0"
__all__ = ["SOUND", "SOUND_WITH_WAITS", "UNDECIDED", "MAX_STEPS", "MAX_RECORDS", "MAX_SHEET", "MAX_TABLE", "MAX_DURATION", "STACK", "SENTENCES",
           "Refused", "NoLibrary", "Plan", "Price", "Step", "Link", "Steps", "Run", "judge", "waits", "plan", "starts", "clashes", "price", "write", "steps"]

SOUND, SOUND_WITH_WAITS = 0, 1                          # the verdicts
UNDECIDED = 4294967295                                  # the number in a plan where a step does not decide another
MAX_STEPS, MAX_RECORDS, MAX_SHEET, MAX_TABLE, MAX_DURATION = 64, 512, 5825, 4096, 16777215
STACK = 102400                                           # bytes of stack that are enough for any call

SENTENCES = {
    1: "the bytes end before a field is complete",
    2: "N is 0 or above 64",
    3: "R is above 512",
    4: "a map that is not allowed or has an unknown bit",
    5: "i or j is N or more, or i = j",
    6: "the pair does not rise, or, in parts to be written, comes twice",
    7: "bytes follow the last record",
    8: "forward links close a circle",
    9: "retired: no sheet is refused so",
    10: "with each open step at its least, no start times keep every link",
    11: "for some list of durations no start times keep every link",
    12: "waits are needed and the caller did not allow them",
    13: "a duration is above 16,777,215 or below its step's least duration, or is not 0 and belongs to step 0 or to a fixed step",
    14: "a lent table, list or buffer is too short",
    15: "no run has begun, or the state's step count is not 1 to 64",
    16: "Begin on a run that has begun",
    17: "Finish of a step that is not open, is 0, has not started, or has finished",
    18: "Tick when the tick is 4,294,967,295",
    19: "a largest offset is 1,024 or more",
    20: "Finish at a tick below its start tick plus its least duration",
    26: "a link map with bit 4, at most from the finish, and without bit 0, after",
    28: "the waits close a circle of forward links, or leave no start times with each open step at its least",
    31: "the sheet is not refused as 10 or 11",
}


class Refused(Exception):
    """A call was refused: its number, and the sentence of it."""

    def __init__(self, number: int, sentence: str) -> None:
        super().__init__(number, sentence)
        self.number, self.sentence = number, sentence

    def __str__(self) -> str:
        return f"refused {self.number}: {self.sentence}"


class NoLibrary(OSError):
    """The shared object could not be loaded; the text says what builds it."""


# ---------------------------------------------------------------- the library

_U8, _U16, _U32, _U64 = ctypes.c_char_p, *map(ctypes.POINTER, (ctypes.c_uint16, ctypes.c_uint32, ctypes.c_uint64))
_SIZE = ctypes.c_size_t
_SHEET, _STATE = [_U8, _SIZE], [_U64, _U32, _U32, _U32, _U16, _U64]
_CALLS = {
    "judge": [*_SHEET, ctypes.c_bool],
    "waits": [*_SHEET, _U64, _U32],
    "plan": [*_SHEET, ctypes.c_bool, _U32, _SIZE],
    "starts": [*_SHEET, ctypes.c_bool, _U32, _SIZE, _U32, _SIZE],
    "steps": [*_SHEET, ctypes.POINTER(_SIZE), _U64, _U16, _SIZE],
    "clashes": [*_SHEET, _U32, _SIZE, ctypes.POINTER(_SIZE)],
    "price": [*_SHEET, ctypes.c_bool, _U32, _SIZE, _U32, _SIZE, _U32],
    "write": [_SIZE, _U16, _SIZE, _SIZE, _U16, _SIZE, ctypes.POINTER(ctypes.c_uint8), _SIZE, ctypes.POINTER(_SIZE)],
    "begin": [*_STATE, _SIZE, ctypes.c_uint64, _U16, _SIZE, _U32, _SIZE],
    "tick": [*_STATE, _U32, _SIZE],
    "finish": [*_STATE, _SIZE, _U32, _SIZE],
}


@cache
def _library() -> ctypes.CDLL:
    """The shared object, with the types of its calls."""
    built = Path(__file__).resolve().parent.parent.parent / "target/staticlib/libstandplan.so"
    named = os.environ.get("STANDPLAN_LIBRARY")
    place = named or (str(built) if built.exists() else f"libstandplan.so.{__version__.partition('.')[0]}")
    try:
        library = ctypes.CDLL(place)
        for name, types in _CALLS.items():
            call = getattr(library, f"standplan_{name}")
            call.argtypes, call.restype = types, ctypes.c_uint32
    except (OSError, AttributeError) as fault:
        if named or built.exists():
            raise NoLibrary(f"{place} is not the library of the planner: {fault}") from None
        raise NoLibrary(f"the library of the planner is not built: there is no {built}; the command tools/library builds it, or STANDPLAN_LIBRARY names one") from None
    return library


def _called(name: str, *arguments) -> int:
    """What a call returns; Refused where that is a refusal."""
    verdict = getattr(_library(), f"standplan_{name}")(*arguments)
    if verdict >= 256:
        raise Refused(verdict - 256, SENTENCES.get(verdict - 256, "a number that this module does not know"))
    return verdict


def _lent(sheet: bytes) -> tuple[bytes, int]:
    data = bytes(memoryview(sheet))                     # what is not bytes raises TypeError
    return data, len(data)


def _number(number: int, bits: int) -> int:
    """A number as one of so many bits. A larger one is lent as the largest, which the library does not take either, for a duration or a step."""
    if number < 0:
        raise ValueError(f"{number} is below 0")
    return min(number, (1 << bits) - 1)


def _numbers(numbers: Iterable[int]) -> ctypes.Array:
    given = [_number(number, 32) for number in numbers]
    return (ctypes.c_uint32 * len(given))(*given)


def _short(number: int, what: str) -> int:
    """A number of 16 bits. A larger one cannot be lent as the largest, which the library takes."""
    if not 0 <= number <= 65535:
        raise ValueError(f"{number} is no {what}: these are 0 to 65535")
    return number


def _shorts(numbers: Iterable[int]) -> ctypes.Array:
    given = list(numbers)
    return (ctypes.c_uint16 * len(given))(*given)


def _leasts(numbers: Iterable[int]) -> ctypes.Array:
    return _shorts(_short(number, "least duration") for number in numbers)


def _members(map_: int) -> list[int]:
    return [v for v in range(64) if map_ >> v & 1]


# ---------------------------------------------------------------- the planner

def judge(sheet: bytes, allow: bool) -> int:
    """Judges a sheet: SOUND or SOUND_WITH_WAITS. Refusals 1 to 8, 10 to 12, 26 and 28."""
    return _called("judge", *_lent(sheet), allow)


def waits(sheet: bytes) -> list[tuple[int, int]]:
    """The waits of a sheet: pairs (a, i), step i waits for the end of step a, by a, then by i. Refusals 1 to 8, 10, 11, 26 and 28."""
    maps, count = (ctypes.c_uint64 * 64)(), ctypes.c_uint32()
    _called("waits", *_lent(sheet), maps, ctypes.byref(count))
    return sorted((a, i) for i, map_ in enumerate(maps) for a in _members(map_))


class Plan:
    """The plan of a sheet of n steps: n times n numbers, row by row. `plan` makes one; a run is lent it."""

    def __init__(self, n: int, table: Iterable[int], verdict: int = SOUND) -> None:
        self.n, self.table, self.verdict = n, _numbers(table), verdict

    def deciding(self, v: int) -> dict[int, int]:
        """The steps that decide when step v starts, each with its offset: v starts at the latest of their ends, each plus its offset."""
        if not 0 <= v < self.n:
            raise IndexError(f"the plan has {self.n} steps")
        row = self.table[v * self.n:(v + 1) * self.n]
        return {a: offset for a, offset in enumerate(row) if offset != UNDECIDED}


def plan(sheet: bytes, allow: bool) -> Plan:
    """Plans a sheet. Refusals 1 to 8, 10 to 12, 26 and 28."""
    data, size = _lent(sheet)
    table = (ctypes.c_uint32 * MAX_TABLE)()
    verdict = _called("plan", data, size, allow, table, MAX_TABLE)
    n = data[0]
    return Plan(n, table[:n * n], verdict)


def starts(sheet: bytes, allow: bool, durations: Sequence[int]) -> list[int]:
    """The start times of a sheet for a list of durations, one for each step, 0 for step 0 and for fixed steps, for an open
    step no less than its least. Refusals 1 to 8, 10 to 14, 26 and 28."""
    data, size = _lent(sheet)
    given, out = _numbers(durations), (ctypes.c_uint32 * MAX_STEPS)()
    _called("starts", data, size, allow, given, len(given), out, MAX_STEPS)
    return out[:data[0]]


def clashes(sheet: bytes) -> list[int]:
    """The few records that clash, of a sheet that is refused as 10 or 11: their numbers, counted from 0, rising. From the last link record to the first each one is
    dropped whose loss leaves the sheet still refused so; without any one of those that stay the others are not. Refusals 1 to 8, 26 and 31."""
    numbers, count = (ctypes.c_uint32 * MAX_RECORDS)(), _SIZE()
    _called("clashes", *_lent(sheet), numbers, MAX_RECORDS, ctypes.byref(count))
    return numbers[:count.value]


class Price(NamedTuple):
    """The price of the control box of a sheet: the registers of each step, 0 for a fixed one, the comparisons of each, and the sums of both."""

    registers: list[int]
    comparisons: list[int]
    total_registers: int
    total_comparisons: int
    verdict: int = SOUND


def price(sheet: bytes, allow: bool) -> Price:
    """Prices the control box of a sheet. Refusals 1 to 8, 10 to 12, 26, 28, and 19 where a largest offset is 1,024 or more."""
    data, size = _lent(sheet)
    registers, comparisons, totals = (ctypes.c_uint32 * MAX_STEPS)(), (ctypes.c_uint32 * MAX_STEPS)(), (ctypes.c_uint32 * 2)()
    verdict = _called("price", data, size, allow, registers, MAX_STEPS, comparisons, MAX_STEPS, totals)
    return Price(registers[:data[0]], comparisons[:data[0]], *totals, verdict)


# ---------------------------------------------------------------- the writer

class Step(NamedTuple):
    """A step of a sheet that is to be written. Step() is open, Step(least=8) is open and lasts at least 8 ticks, Step(fixed=3) lasts 3. Not both."""

    fixed: int | None = None
    least: int | None = None


class Link(NamedTuple):
    """A link record of a sheet that is to be written, for the pair (i, j): Link(3, 4, after=True, at_most=2). None is a field that is not there; one of 0 is."""

    i: int
    j: int
    after: bool = False                                 # j starts after i ends,
    gap: int | None = None                              # and at least so many ticks after it; beside after only
    at_least: int | None = None                         # j starts at least so many ticks after i starts
    at_most: int | None = None                          # j starts at most so many ticks after i starts
    at_most_from_finish: int | None = None              # j starts at most so many ticks after i ends; beside after only


def _fields(bits: int, fields: Iterable[tuple[int, int | None, str]]) -> list[int]:
    """A map with these bits and those of the fields that are there, then the fields, 0 for one that is not."""
    numbers = []
    for bit, number, what in fields:
        bits |= 0 if number is None else bit
        numbers.append(0 if number is None else _short(number, what))
    return [bits, *numbers]


def _step_numbers(step: Step) -> list[int]:
    """Its map and its ticks. A step that is both fixed and open has a map that is refused."""
    bits, fixed, least = _fields(1 if step.fixed is None else 0, ((2, step.fixed, "duration"), (4, step.least, "least duration")))
    return [bits, least if step.fixed is None else fixed]


def _link_numbers(link: Link) -> list[int]:
    """Its map, i, j, at least, at most, the gap, at most from the finish."""
    bits, *numbers = _fields(1 if link.after else 0, ((2, link.at_least, "bound"), (4, link.at_most, "bound"), (8, link.gap, "gap"), (16, link.at_most_from_finish, "bound")))
    return [bits, _number(link.i, 16), _number(link.j, 16), *numbers]


def write(steps: Iterable[Step], links: Iterable[Link]) -> bytes:
    """The bytes of the sheet with these steps and links. The links come in any order and are written rising. A fixed duration of 0 is left out, any other
    field is kept, 0 or not. Refusals 2, 3, 4, 26, 5 and 6 (a pair comes twice), the first that holds of all the parts. A number of ticks that 16 bits do not
    hold raises ValueError."""
    steps, links = list(steps), list(links)
    operations, records = _shorts(number for step in steps for number in _step_numbers(step)), _shorts(number for link in links for number in _link_numbers(link))
    buffer, length = (ctypes.c_uint8 * MAX_SHEET)(), _SIZE()
    _called("write", len(steps), operations, len(operations), len(links), records, len(records), buffer, MAX_SHEET, ctypes.byref(length))
    return bytes(buffer[:length.value])


# ---------------------------------------------------------------- the runner

class Steps(NamedTuple):
    """What a run of a sheet is begun with: the number of steps, the open ones, step 0 among them, and the least durations, 0 for a step without one."""

    n: int
    open: list[int]
    leasts: list[int]


def steps(sheet: bytes) -> Steps:
    """What a run of a sheet is begun with, of any sheet that can be read. Refusals 1 to 7 and 26."""
    n, open_, leasts = _SIZE(), ctypes.c_uint64(), (ctypes.c_uint16 * MAX_STEPS)()
    _called("steps", *_lent(sheet), ctypes.byref(n), ctypes.byref(open_), leasts, MAX_STEPS)
    return Steps(n.value, _members(open_.value), leasts[:n.value])


class Run:
    """A run of a plan. Its calls return the steps that start now. The state is that of the library's runner."""

    def __init__(self, plan: Plan) -> None:
        self.plan = plan
        self._words, self._tick = (ctypes.c_uint64 * 4)(), ctypes.c_uint32()
        self._start, self._finish, self._least = (ctypes.c_uint32 * 64)(), (ctypes.c_uint32 * 64)(), (ctypes.c_uint16 * 64)()

    def _call(self, name: str, *arguments) -> list[int]:
        map_, table = ctypes.c_uint64(), self.plan.table
        _called(name, self._words, ctypes.byref(self._tick), self._start, self._finish, self._least, ctypes.byref(map_), *arguments, table, len(table))
        return _members(map_.value)

    def begin(self, open_steps: Iterable[int], leasts: Iterable[int]) -> list[int]:
        """Begins the run, with the open steps of the sheet (step 0 need not be among them) and its least durations, as `steps` gives both.
        Refusals 16, 2, 14."""
        map_, given = 0, _leasts(leasts)
        for v in open_steps:
            if not 0 <= v < 64:
                raise ValueError(f"no step has the number {v}")
            map_ |= 1 << v
        return self._call("begin", _number(self.plan.n, 64), map_, given, len(given))

    def tick(self) -> list[int]:
        """The tick grows by one. Refusals 15, 14, 18."""
        return self._call("tick")

    def finish(self, step: int) -> list[int]:
        """An open step ends at this tick. Refusals 15, 14, 17, and 20 where it has not lasted its least duration."""
        return self._call("finish", _number(step, 64))

    @property
    def now(self) -> int:
        """The tick."""
        return self._tick.value

    @property
    def started(self) -> dict[int, int]:
        """The steps that have started, each with its tick."""
        return {v: self._start[v] for v in _members(self._words[2])}

    @property
    def finished(self) -> dict[int, int]:
        """The open steps that have finished, and step 0, each with its tick."""
        return {v: self._finish[v] for v in _members(self._words[3])}
