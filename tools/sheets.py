"""Sheets as bytes and as text, for the tools beside this file. docs/FORMAT.md has both forms.

The planner does not use this: it reads bytes, by a reader that is proved. The text is for examples and reports only. The bytes of a sheet are written by the
library, whose sheet writer is proved (request L4); it is built on first use.
"""
from __future__ import annotations

import os
import re
import subprocess
import sys
from dataclasses import dataclass, field
from functools import cache
from pathlib import Path

ROOT = Path(__file__).resolve().parent.parent
sys.path.insert(0, str(ROOT / "bindings/python"))
import standplan  # noqa: E402
sys.path.pop(0)

STEPS, RECORDS, LARGEST = 64, 512, 65535
AFTER, GAP, AT_LEAST, AT_MOST, FROM_FINISH = "after", "gap", "at-least", "at-most", "at-most-from-finish"
BITS = {AFTER: 1, AT_LEAST: 2, AT_MOST: 4, GAP: 8, FROM_FINISH: 16}  # of a link map, in the order of their fields
WORDS = (AFTER, AT_LEAST, AT_MOST, FROM_FINISH)                      # the links that a pair may have, in the order of a line


@dataclass
class Sheet:
    """Steps: "open" or the fixed duration. Links: by the pair (i, j), each word with its number; that of after is its gap, or None where it has none."""

    steps: list[str | int] = field(default_factory=list)
    links: dict[tuple[int, int], dict[str, int | None]] = field(default_factory=dict)
    leasts: dict[int, int] = field(default_factory=dict)             # the least durations of open steps that have the field; 0 is one too
    names: dict[int, str] = field(default_factory=dict)              # the comments behind steps; text alone has them
    places: dict[tuple[int, int], str] = field(default_factory=dict)  # where each link stands: its line, or its record and byte
    ends: list[int] = field(default_factory=list)                    # in bytes, where the counts end, each step and each link


class NoSheet(Exception):
    """Bytes or a text that are no sheet; what is wrong, and where. Of bytes also the refusal's number, and a sentence that says it of these bytes."""

    number: int = 0
    sentence: str = ""


def refusal(number: int) -> str:
    """What docs/REFUSALS.md says of a refusal."""
    row = re.search(rf"^\| {number} \| (.*?)(?: \(also .*\))? \|$", (ROOT / "docs/REFUSALS.md").read_text("utf-8"), re.MULTILINE)
    return f"refused {number}: {row[1]}" if row else f"refused {number}"


def loose(sheet: Sheet) -> list[int]:
    """The steps other than 0 that no after or at-least link leads into, rising: the planner hangs them from the start, by an after link from 0."""
    entered = {j for (_, j), words in sheet.links.items() if AFTER in words or AT_LEAST in words}
    return [v for v in range(1, len(sheet.steps)) if v not in entered]


# ---------------------------------------------------------------- bytes

class _Bytes:
    """Bytes, read from the front. `part` says what is being read."""

    def __init__(self, data: bytes) -> None:
        self.data, self.at, self.part = data, 0, "the counts of steps and records"

    def number(self, size: int) -> int:
        """A field of `size` bytes, low byte first."""
        if self.at + size > len(self.data):
            raise self.fault(1, len(self.data), f"the sheet has {len(self.data)} bytes, and its end is inside {self.part}")
        self.at += size
        return int.from_bytes(self.data[self.at - size:self.at], "little")

    def fault(self, number: int, place: int, sentence: str) -> NoSheet:
        found = NoSheet(f"byte {place}: {refusal(number)}")
        found.number, found.sentence = number, f"byte {place}: {sentence}"
        return found


def from_bytes(data: bytes) -> Sheet:
    """The sheet that the bytes hold; NoSheet with refusals 1 to 7 and 26. Bytes and records are counted from 0."""
    source, sheet = _Bytes(data), Sheet()
    n = source.number(1)
    if not 1 <= n <= STEPS:
        raise source.fault(2, 0, f"N is {n}, and a sheet has 1 to {STEPS} steps")
    r = source.number(2)
    if r > RECORDS:
        raise source.fault(3, 1, f"R is {r}, and a sheet has at most {RECORDS} link records")
    sheet.ends.append(source.at)
    for v in range(n):
        source.part = f"the record of step {v}"
        bits = source.number(1)
        if bits not in (0, 1, 2, 5) or v == 0 and bits != 1:
            allowed = "01 (open), for it is the start" if v == 0 else "01 (open), 05 (open, with a least), 02 (fixed) or 00 (fixed, duration 0)"
            raise source.fault(4, source.at - 1, f"the map of step {v} is {bits:02x}, and it can only be {allowed}")
        sheet.steps.append("open" if bits & 1 else source.number(2) if bits == 2 else 0)
        if bits == 5:
            sheet.leasts[v] = source.number(2)
        sheet.ends.append(source.at)
    last = (-1, -1)
    for k in range(r):
        source.part = f"link record {k} of {r}"
        place = source.at
        bits = source.number(1)
        if bits == 0 or bits & ~sum(BITS.values()):
            wrong = "an empty map" if bits == 0 else "a bit that no link map has"
            raise source.fault(4, place, f"the map of link record {k} is {bits:02x}, {wrong}")
        for word, number, bit in ((GAP, 4, "bit 3, a gap"), (FROM_FINISH, 26, "bit 4, at most from the finish")):
            if bits & BITS[word] and not bits & BITS[AFTER]:
                raise source.fault(number, place, f"the map of link record {k} is {bits:02x}: {bit}, without bit 0, after")
        i, j = pair = source.number(1), source.number(1)
        if i >= n or j >= n or i == j:
            wrong = "from a step to itself" if i == j and i < n else f"and the steps are 0 to {n - 1}"
            raise source.fault(5, place + 1 if i >= n else place + 2, f"link record {k} is for the pair {i}, {j}, {wrong}")
        if pair <= last:
            raise source.fault(6, place + 1, f"link record {k} is for the pair {i}, {j}, and record {k - 1} before it for {last[0]}, {last[1]}; pairs rise")
        numbers = {word: source.number(2) for word, bit in BITS.items() if bits & bit and word != AFTER}
        sheet.links[pair] = {word: numbers.get(GAP if word == AFTER else word) for word in WORDS if bits & BITS[word]}
        sheet.places[pair] = f"record {k}, byte {place}"
        sheet.ends.append(source.at)
        last = pair
    if source.at < len(data):
        raise source.fault(7, source.at, f"the last record ends before it, and the sheet has {len(data)} bytes")
    return sheet


@cache
def library():
    """The Python module of the library (bindings/python), the library built; subprocess.CalledProcessError where it could not be."""
    subprocess.run([ROOT / "tools/library"], check=True)
    return standplan


def to_bytes(sheet: Sheet) -> bytes:
    """The bytes of the sheet, by the library: link records rise, and a fixed duration of 0 has no field."""
    steps = [standplan.Step(least=sheet.leasts.get(v)) if step == "open" else standplan.Step(fixed=step) for v, step in enumerate(sheet.steps)]
    links = [standplan.Link(*pair, AFTER in words, gap=words.get(AFTER), at_least=words.get(AT_LEAST), at_most=words.get(AT_MOST), at_most_from_finish=words.get(FROM_FINISH))
             for pair, words in sheet.links.items()]
    return library().write(steps, links)


# ---------------------------------------------------------------- text

_LINKS = ", ".join((AFTER, f"{AFTER} {GAP}", *WORDS[1:]))


def step_text(sheet: Sheet, v: int) -> str:
    """The line of a step."""
    step = sheet.steps[v]
    return f"step {v} fixed {step}" if step != "open" else f"step {v} open" + (f" least {sheet.leasts[v]}" if v in sheet.leasts else "")


def link_text(sheet: Sheet, pair: tuple[int, int]) -> str:
    """The line of a link."""
    words = sheet.links[pair]
    numbers = {GAP if word == AFTER else word: words[word] for word in WORDS if words.get(word) is not None}
    return f"link {pair[0]} {pair[1]}" + (" after" if AFTER in words else "") + "".join(f" {word} {x}" for word, x in numbers.items())


def lines_of(sheet: Sheet) -> list[str]:
    """The steps, then the links, rising."""
    return [step_text(sheet, v) for v in range(len(sheet.steps))] + [link_text(sheet, pair) for pair in sorted(sheet.links)]


def to_text(sheet: Sheet) -> str:
    """The sheet as text."""
    return "".join(f"{line}\n" for line in lines_of(sheet))


def pieces(data: bytes) -> list[tuple[bytes, str]]:
    """A sheet in bytes piece by piece, each with its line of text. The first piece has the counts, and no line."""
    sheet = from_bytes(data)
    return [(data[begin:end], line) for begin, end, line in zip([0, *sheet.ends], sheet.ends, ["", *lines_of(sheet)])]


def shown(data: bytes) -> str:
    """A sheet in bytes as text, each line with its bytes as a comment."""
    (counts, _), *rest = pieces(data)
    width = max(len(line) for _, line in rest)
    head = f"# steps {counts[0]}, links {int.from_bytes(counts[1:], 'little')}"
    return "".join(f"{line:{width}}  # {part.hex(' ')}\n" for part, line in [(counts, head), *rest])


def _number(word: str, top: int, what: str) -> int:
    if not (word.isascii() and word.isdigit()):
        raise NoSheet(f"'{word}' is no number")
    digits = word.lstrip("0") or "0"
    if len(digits) > 9 or int(digits) > top:
        raise NoSheet(f"{word} is too large: {what} at most {top}")
    return int(digits)


def _step_number(word: str) -> int:
    return _number(word, STEPS - 1, f"a sheet has at most {STEPS} steps, and their numbers are")


_FORMS = "'open', 'open least' and ticks, or 'fixed' and its ticks"


def _step_line(words: list[str]) -> tuple[int, str | int, int | None]:
    """A step's number, what it is, and its least, or None where it has none."""
    if len(words) < 2:
        raise NoSheet(f"a step has a number, then {_FORMS}")
    v, form = _step_number(words[0]), words[1:]
    if "least" in form and (v == 0 or form[0] != "open"):
        raise NoSheet("step 0 is the start and has no least" if v == 0 else "'least' stands only behind 'open' (refusal 4)")
    if v == 0 and form != ["open"]:
        raise NoSheet("step 0 is the start and has to be open")
    if form == ["open"]:
        return v, "open", None
    if form[:2] == ["open", "least"]:
        if len(form) == 2:
            raise NoSheet("'least' has no number behind it")
        if len(form) == 3:
            return v, "open", _number(form[2], LARGEST, "a least is")
    if form[0] != "fixed" or len(form) != 2:
        raise NoSheet(f"a step is {_FORMS}")
    return v, _number(form[1], LARGEST, "a duration is"), None


def _link_line(words: list[str]) -> tuple[tuple[int, int], dict[str, int | None]]:
    """A link line's pair, and its words with their numbers."""
    if len(words) < 3:
        raise NoSheet(f"a link has two steps, then one or more of {_LINKS}")
    pair, given, rest = (_step_number(words[0]), _step_number(words[1])), {}, words[2:]
    if pair[0] == pair[1]:
        raise NoSheet(f"a link from step {pair[0]} to itself")
    while rest:
        word, *rest = rest
        if word == GAP:
            raise NoSheet(f"'{GAP}' stands only right behind '{AFTER}'")
        if word not in WORDS:
            raise NoSheet(f"'{word}' is none of {_LINKS}")
        if word in given:
            raise NoSheet(f"'{word}' stands twice")
        if word == AFTER and rest[:1] != [GAP]:
            given[word] = None
            continue
        named = rest.pop(0) if word == AFTER else word
        if not rest:
            raise NoSheet(f"'{named}' has no number behind it")
        given[word] = _number(rest.pop(0), LARGEST, "a gap is" if named == GAP else "a bound is")
    if FROM_FINISH in given and AFTER not in given:
        raise NoSheet(f"'{FROM_FINISH}' stands only beside '{AFTER}' (refusal 26)")
    return pair, given


def from_text(data: bytes) -> Sheet:
    """The sheet that a text holds; NoSheet with the number of the line that is wrong, counted from 1."""
    sheet = Sheet()
    steps: dict[int, tuple[int, str | int]] = {}                     # by number: the line, and what the step is
    links: dict[tuple[int, int], int] = {}                           # by pair: the line
    lines = data.removeprefix(b"\xef\xbb\xbf").split(b"\n")
    line = 0
    try:
        for line, raw in enumerate(lines, 1):
            try:
                text, _, comment = raw.decode("utf-8").partition("#")
            except UnicodeDecodeError:
                raise NoSheet("this is no text") from None
            words = text.split()
            if not words:
                continue
            if words[0] == "step":
                v, step, least = _step_line(words[1:])
                if v in steps:
                    raise NoSheet(f"step {v} stands in line {steps[v][0]} already")
                steps[v] = line, step
                if least is not None:
                    sheet.leasts[v] = least
                if name := "".join(filter(str.isprintable, comment)).strip():
                    sheet.names[v] = name
            elif words[0] == "link":
                pair, given = _link_line(words[1:])
                if pair in links:
                    raise NoSheet(f"the pair {pair[0]} {pair[1]} stands in line {links[pair]} already; all that is said of a pair stands in one line")
                if len(links) == RECORDS:
                    raise NoSheet(f"a sheet has at most {RECORDS} links")
                links[pair], sheet.links[pair], sheet.places[pair] = line, given, f"line {line}"
            else:
                raise NoSheet(f"'{words[0]}' is neither 'step' nor 'link'")
        # What only the whole text can tell.
        if not steps:
            raise NoSheet("there is no step; the first is 'step 0 open'")
        for v, (line, _) in sorted(steps.items()):
            if v != len(sheet.steps):
                raise NoSheet(f"step {v} is here, and step {len(sheet.steps)} is missing")
            sheet.steps.append(steps[v][1])
        for pair, line in links.items():
            for v in pair:
                if v not in steps:
                    raise NoSheet(f"there is no step {v}")
    except NoSheet as fault:
        raise NoSheet(f"line {line}: {fault}") from None
    return sheet


def is_text(data: bytes) -> bool:
    """Whether this begins as a text. No text is a sheet in bytes: the third byte of a sheet is at most 2."""
    first = data.removeprefix(b"\xef\xbb\xbf").lstrip()[:1]
    return first in (b"s", b"l", b"#") and data[2:3] > b"\x02"


def from_either(data: bytes) -> Sheet:
    """A sheet from bytes, or from a text."""
    return from_text(data) if is_text(data) else from_bytes(data)


# ---------------------------------------------------------------- what tools read and print

def read(word: str) -> bytes:
    """What a file holds, or standard input for "-"."""
    with open(0 if word == "-" else word, "rb") as file:
        return file.read()


def put(tool: str, data: bytes) -> bool:
    """Writes to standard output; where it is full or closed, a sentence on standard error, and False."""
    try:
        while data:
            data = data[os.write(1, data):]
    except OSError as fault:
        print(f"{tool}: standard output cannot be written to: {fault.strerror}", file=sys.stderr)
        return False
    return True
