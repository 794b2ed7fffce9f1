"""tools/explain on stored sheets of each verdict, with gaps and without, with loose steps and without, with leasts and without, beside the reference planner (tests/reference): what is
said is of the sheet's verdict; the records that clash are refused still, and not without any one of them, and of 10 and 11 they are those of request L14; a
circle is one, with a step that hangs from the start where it leads through there; plans are those of ./standplan, and each wait has a limit. For 10 and 11 the
library is asked once for the records, and judges no more than these few."""
import importlib.machinery
import importlib.util
import re
import sys
from collections import Counter
from dataclasses import replace
from pathlib import Path

ROOT = Path(__file__).resolve().parents[2]
sys.path[:0] = [str(ROOT / folder) for folder in ("tools", "tests/tools", "tests/reference")]
import planner  # noqa: E402
import sheets  # noqa: E402
import stored  # noqa: E402

loader = importlib.machinery.SourceFileLoader("explain", str(ROOT / "tools/explain"))
tool = importlib.util.module_from_spec(importlib.util.spec_from_loader("explain", loader))
loader.exec_module(tool)

EACH = 14
NUMBERS = {10: {10, 11}, 11: {10, 11}, 28: {28}}
LINK = re.compile(r"  record \d+, byte \d+, link (\d+) (\d+) ")
HANGS = re.compile(r"  step (\d+) hangs from the start: no after or at-least link leads into it")


def number(sheet):
    """The reference planner's refusal, or 0."""
    verdict = planner.judge(sheets.to_bytes(sheet), True)
    return verdict[1] if verdict[0] == "refused" else 0


def entered(sheet):
    """The steps that an after or an at-least link leads into."""
    return {j for (_, j), words in sheet.links.items() if "after" in words or "at-least" in words}


def named(said):
    """The records that are named, and the steps that hang from the start."""
    return [tuple(map(int, found.groups())) for found in map(LINK.match, said) if found], [int(found[1]) for found in map(HANGS.fullmatch, said) if found]


def circle(data, said):
    """Each step of the circle leads to the next, by a record that is named or because the next one hangs from the start, once at most."""
    sheet, (records, hanging) = sheets.from_bytes(data), named(said)
    around = [int(v) for v in re.findall(r"step (\d+)", said[1])]
    links = list(zip(around, around[1:]))
    assert around[0] == around[-1] and len(set(around)) == len(links), said
    assert sorted(records + [(0, v) for v in hanging]) == sorted(links) and len(hanging) <= 1, said
    assert all(sheet.links[pair].keys() & {"after", "at-least"} for pair in records) and entered(sheet).isdisjoint(hanging), said
    part = replace(sheet, links={pair: sheet.links[pair] for pair in records})
    assert number(part) == 8, said
    return len(records), len(hanging)


def few(data, refused, said):
    """The records that are named, each whole; of 10 and 11, where they lead through the start, a step that hangs from it."""
    sheet, (records, hanging) = sheets.from_bytes(data), named(said)
    assert records and len(set(records)) == len(records), said
    part = replace(sheet, links={pair: sheet.links[pair] for pair in records})
    assert number(part) in NUMBERS[refused], said
    if refused != 28:
        verdict, report = planner.clashes(data, [0] * len(sheet.links))
        assert verdict == ("ok", len(records)) and records == [sorted(sheet.links)[k] for k in report[:len(records)]], (said, report)
    for pair in records:
        rest = replace(part, links={other: words for other, words in part.links.items() if other != pair})
        assert number(rest) not in NUMBERS[refused], (pair, said)
    if hanging:
        v, = hanging
        limits = [pair for pair in records if pair[0] == 0 and sheet.links[pair].keys() & {"at-most", "at-most-from-finish"}]
        assert refused != 28 and len(limits) == 1 and v not in entered(sheet) and any(i == v for i, _ in records), said
    if said[-1].startswith("Added up"):
        needs, allows = re.match(r"Added up, (\d+) ticks? (?:is|are) needed where (\d+) (?:is|are) allowed", said[-1]).groups()
        assert number(part) == 10 and int(needs) > int(allows), said
    elif refused != 28:
        # Each step that may last too long: the part is kept by no times where it lasts long.
        opens = [int(v) for v in re.findall(r"step (\d+)", said[-1])]
        assert number(part) == 11 and opens and all(v and sheet.steps[v] == "open" for v in opens) and " open and " in said[-1], said
    return len(records), len(hanging)


def asked(data):
    """How often the library is asked, for the records and for verdicts, while a sheet is explained; and what is said."""
    calls, module = Counter(), tool.standplan
    kept = {name: getattr(module, name) for name in ("clashes", "judge")}

    def counted(name):
        def call(*arguments):
            calls[name] += 1
            return kept[name](*arguments)
        return call

    for name in kept:
        setattr(module, name, counted(name))
    try:
        return calls, tool.explained(data, [], True)
    finally:
        for name, call in kept.items():
            setattr(module, name, call)


def planned(data, said):
    """The first column is the plan; the line behind a wait names a limit of the step that waits; a line names the steps that hang from the start."""
    column = [line.split("   ")[0].rstrip() for line in said]
    assert "".join(f"{line}\n" for line in column if line) == planner.standplan_text(data), said
    for line, after in zip(said, said[1:]):
        if line.startswith("wait "):
            waits, limit = line.split()[2], re.match(r" +for record \d+, byte \d+, link (\d+) \d+ .*at-most", after)
            assert limit and limit[1] == waits, (line, after)
    sheet = sheets.from_bytes(data)
    hanging = [re.findall(r"step (\d+)", line) for line in said if "from the start" in line]
    loose = [str(v) for v in range(1, len(sheet.steps)) if v not in entered(sheet)]
    assert hanging == ([loose] if loose else []), said
    leasts = [(str(v), str(least)) for v, least in sorted(sheet.leasts.items()) if least]
    found = [re.findall(r"step (\d+) lasts at least (\d+) tick", line) for line in said if "lasts at least" in line]
    assert found == ([leasts] if leasts else []) and ("from their least on" in said[0]) == bool(leasts), said
    return len(loose)


if __name__ == "__main__":
    seen, counts = Counter(), Counter()
    for data, verdict in stored.sheets():
        kind = verdict, stored.has_gap(data), stored.has_loose(data), stored.has_least(data)
        if seen[kind] == EACH:
            continue
        seen[kind] += 1
        status, said = tool.explained(data, [], False)
        if verdict in ("refused 10", "refused 11"):
            calls, again = asked(data)
            records = len(named(said)[0])
            assert again == (status, said) and calls["clashes"] == 1 and calls["judge"] <= 3 + 4 * records, (calls, said)
            counts["long"] += records < len(sheets.from_bytes(data).links) // 10
        if verdict == "0":
            assert status == 0, said
            counts["loose"] += planned(data, said)
            continue
        refused = int(verdict.removeprefix("refused "))
        assert status == 1 and said[0].startswith(f"refused {refused}: ") and len(said) > 1, (verdict, said)
        if refused == 8 or refused in NUMBERS:
            records, hanging = circle(data, said) if refused == 8 else few(data, refused, said)
            counts.update(sheets=1, records=records, hanging=hanging)
        elif refused == 12:
            status, said = tool.explained(data, [], True)
            assert status == 0, said
            counts["loose"] += planned(data, said)
    assert {verdict for verdict, *_ in seen} == {"0", *(f"refused {k}" for k in (*range(1, 9), *range(10, 13), 26, 28))}, seen
    with_gaps, with_leasts = (sum(count for kind, count in seen.items() if kind[at]) for at in (1, 3))
    assert with_gaps and with_leasts and counts["loose"] and counts["hanging"] and counts["long"], (seen, counts)
    print(f"{seen.total()} stored sheets explained, {with_gaps} of them with gaps, {with_leasts} with leasts; {counts['records']} records clash in {counts['sheets']} of them, "
          f"{counts['hanging']} of these by a step that hangs from the start; of plans {counts['loose']} such steps are named")
