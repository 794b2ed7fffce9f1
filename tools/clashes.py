"""The records that clash in a sheet that is refused as 10 or 11, for the tools beside this file: which they are, the circle that their links close, and
words for them. Which records stay is the library's answer (`standplan_clashes`), and so is each verdict; the rest of this is not proved."""
from __future__ import annotations

from dataclasses import replace
from typing import NamedTuple

import sheets
from sheets import AFTER, AT_LEAST, AT_MOST, FROM_FINISH, Sheet, standplan

LIMITS = (AT_MOST, FROM_FINISH)
Pair = tuple[int, int]


# ---------------------------------------------------------------- words

def ticks(number: int) -> str:
    return f"{number} tick{'' if number == 1 else 's'}"


def listed(parts: list[str]) -> str:
    return parts[0] if len(parts) == 1 else f"{', '.join(parts[:-1])} and {parts[-1]}"


def step(sheet: Sheet, v: int) -> str:
    return f"{sheet.names[v]} ({v})" if v in sheet.names else f"step {v}"


def least_of(sheet: Sheet, v: int) -> int:
    return sheet.leasts.get(v, 0)


def is_open(sheet: Sheet, v: int) -> str:
    """Of an open step, with its least where it has one."""
    return "is open" + (f" and lasts at least {ticks(least_of(sheet, v))}" if least_of(sheet, v) else "")


def when(sheet: Sheet, pair: Pair, word: str) -> str:
    """When the second step starts, by one word of a link."""
    i, number = step(sheet, pair[0]), sheet.links[pair][word]
    if pair[0] == 0:                                       # it starts and ends at tick 0
        return f"at tick {number or 0} or {'later' if word in (AFTER, AT_LEAST) else 'before'}"
    if word == AFTER:
        return ("" if number is None else f"at least {ticks(number)} ") + f"after {i} ends"
    if word == AT_LEAST:
        return f"at least {ticks(number)} after {i} starts"
    return f"at most {ticks(number)} after {i} {'starts' if word == AT_MOST else 'ends'}"


def in_words(sheet: Sheet, pair: Pair, word: str) -> str:
    """What one word of a link asks for."""
    lasts = sheet.steps[pair[0]]
    said = f"{step(sheet, pair[1])} starts {when(sheet, pair, word)}"
    if word == AFTER and pair[0] > 0:
        said += f", which {is_open(sheet, pair[0]) if lasts == 'open' else f'lasts {ticks(lasts)}'}"
    return said


# ---------------------------------------------------------------- parts of a sheet

def left_out(sheet: Sheet, pair: Pair, word: str = "") -> Sheet:
    """The sheet without a record, or without one word of it."""
    words = {kept: number for kept, number in sheet.links[pair].items() if word and kept != word}
    return replace(sheet, links={other: words if other == pair else given for other, given in sheet.links.items() if other != pair or words})


def verdict(sheet: Sheet) -> int:
    """The number of the library's refusal, waits allowed, or 0."""
    try:
        standplan.judge(sheets.to_bytes(sheet), True)
    except standplan.Refused as refused:
        return refused.number
    return 0


def fewest_words(part: Sheet) -> Sheet:
    """The part without each word whose loss leaves it refused as it is, by the library; each record keeps one."""
    number = verdict(part)
    for pair in sorted(part.links):
        for word in (FROM_FINISH, AFTER, AT_LEAST, AT_MOST):    # the limit from the finish first, for it needs its after link
            words = part.links[pair]
            if word in words and len(words) > 1 and not (word == AFTER and FROM_FINISH in words) and verdict(left_out(part, pair, word)) == number:
                part = left_out(part, pair, word)
    return part


def words_of(part: Sheet) -> dict[Pair, list[str]]:
    return {pair: [word for word in sheets.WORDS if word in words] for pair, words in sorted(part.links.items())}


# ---------------------------------------------------------------- what cannot be kept

class Clash(NamedTuple):
    """The part of a sheet that cannot be kept: the records that clash, the words of them that have a part in it, and what these come to, in sentences."""

    part: Sheet
    words: dict[Pair, list[str]]
    said: list[str]


def impossible(sheet: Sheet, number: int) -> Clash:
    """Of a sheet that is refused as 10 or 11, by that number. The words that stay are the links of one circle, where more ticks are needed than allowed, or
    more with longer durations. From the start it may go on to a step that hangs from it, in 0 ticks."""
    rising, numbers = sorted(sheet.links), standplan.clashes(sheets.to_bytes(sheet))
    part = fewest_words(replace(sheet, links={rising[k]: sheet.links[rising[k]] for k in numbers}))
    words = words_of(part)
    needs, allows, opens, late = 0, 0, [], []              # open steps count at their least
    for pair, given in words.items():
        link, lasts = part.links[pair], part.steps[pair[0]]
        counted, lasting = (least_of(part, pair[0]), pair[0] > 0) if lasts == "open" else (lasts, False)
        if FROM_FINISH in given:
            if len(words) > 1 or len(given) > 2:           # else the two are the circle: a gap above the limit
                given.remove(AFTER)                        # it stands there for 26 alone
            allows += counted + link[FROM_FINISH]
            late += [pair[0]] if lasting else []
        if AFTER in given:
            needs += counted + (link[AFTER] or 0)
            opens += [pair[0]] if lasting else []
        needs, allows = needs + (link.get(AT_LEAST) or 0), allows + (link.get(AT_MOST) or 0)
    twice = sum(least_of(part, v) for v in opens if v in late)    # needed and allowed alike
    needs, allows = needs - twice, allows - twice
    if verdict(part) == 10:
        at = "their least" if any(least_of(part, v) for v in opens + late) else "0"
        return Clash(part, words, [f"Added up, {ticks(needs)} {'is' if needs == 1 else 'are'} needed where {allows} {'is' if allows == 1 else 'are'} allowed"
                                   f"{f', with open steps at {at}' if opens != late else ''}."])
    said = [f"They are refused even without the others, as 11: {standplan.SENTENCES[11]}."] if number == 10 else []
    opens = [v for v in opens if v not in late]
    left = allows - needs + sum(least_of(part, v) for v in opens)
    room = "longer than these limits leave" if late else f"more than the {ticks(left)} that these limits leave"
    said.append(f"{listed([step(sheet, v) for v in opens])} {'is open and may last' if len(opens) == 1 else 'are open and together may last'} {room}.")
    return Clash(part, words, said)


# ---------------------------------------------------------------- its circle

class Way(NamedTuple):
    """A link of a circle, from one step to the next: a forward link as it stands, a limit back from its second step to its first. From the start a circle may
    go on to a step by no record, for none starts before it."""

    here: int
    there: int
    pair: Pair | None
    word: str


class Circle(NamedTuple):
    """The links of a clash one behind the other, the last of them a limit, with durations and starts that keep all of them but that one.

    The step that the last limit counts from starts at 0, each other one as early as the way to it allows. Open steps last their least; but where this breaks
    nothing, the first of those that may last too long just does. `over` is how many ticks the last step then starts after the limit."""

    ways: list[Way]
    durations: dict[int, int]
    starts: dict[int, int]
    over: int


def around(words: dict[Pair, list[str]]) -> list[Way]:
    """The links one behind the other; from the start on where they lead through there."""
    ways = {}
    for pair, given in words.items():
        for word in given:
            here, there = pair[::-1] if word in LIMITS else pair
            ways[here] = Way(here, there, pair, word)
    entered = {way.there for way in ways.values()}
    if 0 in entered - ways.keys():
        v, = ways.keys() - entered
        ways[0] = Way(0, v, None, "")
    found = [ways[0 if 0 in ways else min(ways)]]
    while found[-1].there != found[0].here:
        found.append(ways[found[-1].there])
    assert len(found) == len(ways), words
    return found


def circle(clash: Clash) -> Circle:
    part, ways = clash.part, around(clash.words)
    steps = [way.here for way in ways]
    lasts = {v: 0 if v == 0 else least_of(part, v) if part.steps[v] == "open" else part.steps[v] for v in steps}

    def ticks_of(way: Way) -> int:
        """How many ticks after a step the next one starts at the least; of a limit, 0 or below."""
        if way.pair is None:
            return 0
        number = part.links[way.pair][way.word] or 0
        if way.word in LIMITS:
            return -number - (lasts[way.pair[0]] if way.word == FROM_FINISH else 0)
        return number + (lasts[way.pair[0]] if way.word == AFTER else 0)

    def total() -> int:
        return sum(map(ticks_of, ways))

    short = 1 - total()                                    # how much longer a step has to last where the leasts break nothing: 11
    for v in [v for v in steps if v and part.steps[v] == "open"] if short > 0 else []:
        before, lasts[v] = total(), lasts[v] + short
        if total() > before:
            break
        lasts[v] -= short

    def from_step(at: int) -> tuple[list[Way], list[int]]:
        """The circle from one of its steps on, and the starts along it; that step's own, when it is come to again, last."""
        turned, starts = ways[at:] + ways[:at], [0]
        for way in turned:
            starts.append(starts[-1] + ticks_of(way))
        return turned, starts

    # From the start where it is there, else from a step that none starts before.
    turns = [from_step(at) for at in range(len(ways)) if ways[at - 1].word in LIMITS]
    ways, starts = max(turns, key=lambda turn: (turn[0][0].here == 0, min(turn[1])))
    return Circle(ways, lasts, dict(zip([way.here for way in ways], starts)), starts[-1])
