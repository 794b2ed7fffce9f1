"""tools/picture: start times are the library's, against stored answers of the reference planner; what is drawn is whole; what is refused gives no picture.
Pictures of records that clash: what can be read off them is that each link but one is kept, and that one not."""
import importlib.machinery
import importlib.util
import os
import re
import shutil
import subprocess
import sys
import tempfile
import xml.etree.ElementTree as tree
from pathlib import Path

import stored
from stored import ROOT

TOOL = ROOT / "tools/picture"
sys.path.insert(0, str(ROOT / "tools"))
import sheets  # noqa: E402

loader = importlib.machinery.SourceFileLoader("picture", str(TOOL))
tool = importlib.util.module_from_spec(importlib.util.spec_from_loader("picture", loader))
loader.exec_module(tool)


def check(found, wanted, what):
    assert found == wanted, f"{what}: {found!r}, not {wanted!r}"


def answers():
    """From tests/rust/data/answers.txt, waits allowed: a sheet, its maps of waits, a list of durations and its start times."""
    for line in (ROOT / "tests/rust/data/answers.txt").read_text("ascii").splitlines():
        head, *fields = line.split(";")
        if head.startswith("sheet"):
            sheet = bytes.fromhex(head[5:])
        elif head == "waits":
            maps = [int(word, 16) for word in fields[2].split()]
        elif head == "starts 1":
            n = sheet[0] if sheet else 0
            durations = [4294967295 if word == "-" else int(word) for word in fields[1].split()][:n]
            yield sheet, maps, fields[0].split(), durations, fields[2].split()[:n]


def drawn(svg):
    """Its width and height, the texts with their places, the bars, and the lines of each colour that run across, without those of the legend."""
    root = tree.fromstring(svg)
    texts = [(float(e.get("x")), float(e.get("y")), e.get("text-anchor"), e.text) for e in root.iterfind(".//{*}text")]
    bars = [e for e in root.iter() if e.tag.endswith(("rect", "path")) and (e.get("stroke") in (tool.FIXED, tool.OPEN))]
    lines = {colour: [(float(e.get("x1")), float(e.get("x2"))) for e in root.iterfind(".//{*}line") if e.get("stroke") == colour and e.get("y1") == e.get("y2")
                      and e.get("stroke-dasharray") != "1 2"][:-1]
             for colour in (tool.LIMIT, tool.WAIT)}
    return float(root.get("width")), float(root.get("height")), texts, bars, lines


def placed(texts):
    """Where a tick is, by the numbers on the axis."""
    axis = {int(text): x for x, _, anchor, text in texts if anchor == "middle"}
    last = max(axis)
    return lambda tick: axis[0] + (axis[last] - axis[0]) * tick / last


def solid(svg):
    """The parts of bars that are drawn solid, by their ends: the leasts, that of the legend last."""
    found = [e for e in tree.fromstring(svg).iterfind("{*}rect") if e.get("fill") == tool.OPEN]
    return [(float(e.get("x")), float(e.get("x")) + float(e.get("width"))) for e in found]


def left_of(bar):
    """Where a bar begins; of a diamond, its middle."""
    return float(bar.get("x") or bar.get("d")[1:].split()[0])


def same_places(found, wanted, what):
    assert len(found) == len(wanted) and all(abs(x - y) < 0.2 for pair, other in zip(found, wanted) for x, y in zip(pair, other)), f"{what}: {found}, not {wanted}"


def whole(what, wide, high, texts):
    """No text is cut, no label reaches into the plot, and no two texts of a line run into one another."""
    sizes = [(x, y, anchor, text, tool.width(text, 13 if y < 40 else tool.SIZE) * 0.93) for x, y, anchor, text in texts]
    for x, y, anchor, text, room in sizes:
        right = x + room * {"start": 1, "middle": 0.5}.get(anchor, 0)
        assert x >= 0 and right <= wide and y < high, f"{what}: {text} is cut"
    left = min(x for x, _, anchor, _ in texts if anchor == "middle")
    top, low = (most(y for _, y, anchor, _ in texts if anchor == "middle") for most in (min, max))
    assert all(x + room < left for x, y, anchor, text, room in sizes if anchor == "start" and x < left - 14 and top < y < low), what
    spans = {}
    for x, y, anchor, text, room in sizes:
        begin = x - room * {"start": 0, "middle": 0.5, "end": 1}[anchor]
        spans.setdefault(y, []).append((begin, begin + room, text))
    for line in map(sorted, spans.values()):
        for (_, end, text), (begin, _, other) in zip(line, line[1:]):
            assert end <= begin, f"{what}: '{text}' and '{other}' collide"


def linked(what, sheet, starts, ends, svg):
    """With links each forward link is a path from the tick that it counts from to the earliest that it allows, black exactly if it leaves no tick to spare;
    a gap has a label, bold then; and so for limits. Steps that nothing leads into have a label, and a dashed path from the start."""
    wide, high, texts, _, _ = drawn(svg)
    whole(what, wide, high, texts)
    x, root = placed(texts), tree.fromstring(svg)
    paths = []
    for e in root.iterfind(".//{*}path"):
        if e.get("fill") == "none" and e.get("shape-rendering"):
            since, earliest = re.match(r"M([\d.]+) [\d.]+(?:v[-\d.]+H([\d.]+))?", e.get("d")).groups()
            check(e.get("stroke-dasharray"), "4 3" if e.get("stroke") == tool.GREY else None, f"{what}: dashes")
            paths.append((e.get("stroke"), float(since), float(earliest or since)))
    loose = set(range(1, len(starts))) - {j for (_, j), words in sheet.links.items() if tool.AFTER in words or tool.AT_LEAST in words}
    wanted, gaps = [(tool.GREY, x(0), x(0))] * len(loose), []
    for (i, j), words in sorted(sheet.links.items()):
        for word, since in ((tool.AFTER, ends[i]), (tool.AT_LEAST, starts[i])):
            if word in words:
                earliest = since + (words[word] or 0)
                wanted.append((tool.INK if earliest == starts[j] else tool.SPARE, x(since), x(earliest)))
        if words.get(tool.AFTER) is not None:
            gaps.append((f"gap {words[tool.AFTER]} after {i} ends", "bold" if ends[i] + words[tool.AFTER] == starts[j] else "normal"))
    check(sum(text == "hangs from the start" for *_, text in texts), len(loose), f"{what}: labels of steps that nothing leads into")
    check(sum(text == tool.ADDED for *_, text in texts), bool(loose), f"{what}: their legend")
    for colour in (tool.INK, tool.SPARE, tool.GREY):
        same_places([places for stroke, *places in paths if stroke == colour], [places for stroke, *places in wanted if stroke == colour], f"{what}: links")
    check(len(paths), len(wanted), f"{what}: links")
    check(sorted((e.text, e.get("font-weight")) for e in root.iterfind(".//{*}text") if e.text.startswith("gap ")), sorted(gaps), f"{what}: gaps")
    bold = [text for e in root.iterfind(".//{*}text") if e.get("font-weight") == "bold" and (text := e.text).startswith("at most ")]
    tight = [word for (i, j), words in sheet.links.items() for word, since in ((tool.AT_MOST, starts[i]), (tool.FROM_FINISH, ends[i]))
             if word in words and since + words[word] == starts[j]]
    check(len(bold), len(tight), f"{what}: limits without a tick to spare")


def pictures():
    seen, refused, seen_leasts = 0, 0, 0
    for data, maps, verdict, durations, times in answers():
        what = f"{data.hex()} {durations}"
        if len(durations) < (data[0] if data else 0) or len(times) < len(durations):
            continue                                       # 14: the tool lends enough
        if verdict[0] == "refused":
            try:
                tool.planned(data, durations)
                found = "taken"
            except tool.Refused as fault:
                found = str(fault)
            assert found.startswith(f"refused {verdict[1]}: "), f"{what}: {found}"
            refused += 1
            continue
        sheet = sheets.from_bytes(data)
        n = len(sheet.steps)
        found, waits, starts = tool.planned(data, durations)
        check(found, int(verdict[1]), what)
        check(starts, [int(time) for time in times], what)
        check([sum(1 << a for a in each) for each in waits], maps[:n], what)
        svg = tool.picture("a title", sheet, durations, waits, starts)
        wide, high, texts, bars, lines = drawn(svg)
        said = [text for _, _, _, text in texts]
        for v, step in enumerate(sheet.steps):
            lasts = durations[v] if step == "open" else step
            least = sheet.leasts.get(v, 0)
            wanted = (f"{starts[v]} to {starts[v] + lasts}" if lasts else f"{starts[v]}") + (", open" if step == "open" and v else "") + (f", at least {least}" if least else "")
            assert wanted in said, f"{what}: {wanted}"
        limits = [word for words in sheet.links.values() for word in words if word in (tool.AT_MOST, tool.FROM_FINISH)]
        check(sum(text.startswith("at most ") for text in said), len(limits), what)
        check(sum(text.startswith("waits for ") for text in said), sum(1 for each in waits if each), what)
        kinds = {step == "open" for step in sheet.steps}
        check(len(bars), n + len(kinds), f"{what}: bars, and one of each kind below")
        # Bars, limits and waits are where the axis has their ticks.
        x, ends = placed(texts), [start + (durations[v] if step == "open" else step) for v, (start, step) in enumerate(zip(starts, sheet.steps))]
        same_places([(left_of(bar), left_of(bar) + float(bar.get("width") or 0)) for bar in bars[:n]],
                    [(x(start), x(start) + (max(x(end) - x(start), 1) if end > start else 0)) for start, end in zip(starts, ends)], what)
        leasts = [(v, least) for v, least in sorted(sheet.leasts.items()) if least]
        same_places(solid(svg)[:len(leasts)], [(x(starts[v]), x(starts[v] + least)) for v, least in leasts], f"{what}: leasts")
        check(len(solid(svg)), len(leasts) + bool(leasts), f"{what}: leasts, and one below")
        seen_leasts += len(leasts)
        outside = x(0) + tool.PLOT
        wanted = [(x(since), min(x(since + words[word]), outside)) for j in range(n) for (i, k), words in sorted(sheet.links.items()) if k == j
                  for word, since in ((tool.AT_MOST, starts[i]), (tool.FROM_FINISH, ends[i])) if word in words]
        same_places(lines[tool.LIMIT], wanted, what)
        same_places(lines[tool.WAIT], [(x(min(ends[a] for a in each)), x(starts[i])) for i, each in enumerate(waits) if each], what)
        whole(what, wide, high, texts)
        linked(what, sheet, starts, ends, tool.picture("a title", sheet, durations, waits, starts, True))
        seen += 1
    assert seen > 40 and refused > 40 and seen_leasts > 20, (seen, refused, seen_leasts)
    return seen, refused


def leasts():
    """Leasts, with start times worked out by hand: a step that lasts longer, one that lasts its least, a least of 0; those of a graph; and what is not named."""
    sheet = sheets.from_text(b"""step 0 open
step 1 open least 8 # hand
step 2 open least 3
step 3 open least 0
step 4 open
link 1 2 after
link 2 3 after
link 3 4 after
""")
    durations, waits, starts = [0, 10, 3, 0, 0], [[]] * 5, [0, 0, 10, 13, 13]
    svg = tool.picture("a title", sheet, durations, waits, starts)
    _, _, texts, bars, _ = drawn(svg)
    x, said = placed(texts), [text for *_, text in texts]
    for line in ("0 to 10, open, at least 8", "10 to 13, open, at least 3", "13, open", tool.LEAST):
        assert line in said, f"{line}: {said}"
    same_places(solid(svg)[:-1], [(x(0), x(8)), (x(10), x(13))], "solid parts")
    check(len(bars), 6, "bars, and one below")
    check(tool.asked_for([], sheet), [0, 8, 3, 0, 0], "what is not named lasts its least")
    check(tool.asked_for(["hand=4", "4=7"], sheet), [0, 4, 3, 0, 7], "and what is named what is said")
    lines = [line for line in tool.graph("a title", sheet, waits).splitlines() if "open" in line]
    check([re.search(r'label="(.*?)"', line)[1] for line in lines], [r"1 hand\nopen, at least 8", r"2\nopen, at least 3", r"3\nopen", r"4\nopen"], "a graph's leasts")
    status, _, said = ran("-", "hand=7", given=b"step 0 open\nstep 1 open least 8 # hand\n")
    check((status, said[:28]), (1, "standard input: refused 13: "), "below the least")


def gaps():
    """Gaps, with start times worked out by hand: one that leaves no tick to spare, one that leaves three, one out of the start, one of 0; and their graph."""
    sheet = sheets.from_text(b"""step 0 open
step 1 open # hand
step 2 fixed 2 # glass down
step 3 fixed 1 # exposure
link 0 1 after gap 4
link 1 2 after gap 6 at-most-from-finish 8
link 1 3 after gap 5
link 2 3 after gap 0 at-most 2
""")
    durations, waits, starts, ends = [0, 10, 0, 0], [[]] * 4, [0, 4, 20, 22], [0, 14, 22, 23]
    plain, svg = (tool.picture("a title", sheet, durations, waits, starts, links) for links in (False, True))
    assert ">gap " not in plain, "without links"
    linked("gaps", sheet, starts, ends, svg)
    for label in ("gap 4 after 0 ends", "gap 6 after 1 ends", "gap 0 after 2 ends"):
        assert f'font-weight="bold">{label}<' in svg, label
    assert f'fill="{tool.GREY}" text-anchor="start" font-weight="normal">gap 5 after 1 ends<' in svg
    lines = tool.graph("a title", sheet, waits).splitlines()
    check([line for line in lines if "gap" in line], [f'  {i} -> {j} [label="gap {gap}"];' for i, j, gap in ((0, 1, 4), (1, 2, 6), (1, 3, 5), (2, 3, 0))], "gaps of a graph")


def loose():
    """Steps that nothing leads into, with start times worked out by hand: two at tick 0, one later, behind a wait; and their graph."""
    sheet = sheets.from_text(b"""step 0 open
step 1 fixed 3 # lamps
step 2 open # hand
step 3 fixed 2 # lens
step 4 fixed 1 # exposure
link 0 1 at-most 90
link 1 4 after
link 2 4 after
link 3 4 after at-most 2
""")
    durations, waits, starts, ends = [0, 0, 10, 0, 0], [[], [], [], [2], []], [0, 0, 0, 10, 12], [0, 3, 10, 12, 13]
    plain, svg = (tool.picture("a title", sheet, durations, waits, starts, links) for links in (False, True))
    assert "hangs" not in plain and tool.ADDED not in plain, "without links"
    linked("loose steps", sheet, starts, ends, svg)
    check(svg.count(f'stroke="{tool.GREY}" stroke-width="1" stroke-dasharray="4 3" shape-rendering'), 3, "dashed paths")
    lines = tool.graph("a title", sheet, waits).splitlines()
    check([line for line in lines if re.match(r"  0 -> ", line)],
          [f'  0 -> 1 [label="at most 90", color="{tool.LIMIT}", fontcolor="{tool.LIMIT}", style=dashed, constraint=false];', *(f"  0 -> {v} [style=dashed];" for v in (1, 2, 3))],
          "a graph's lines from the start")
    assert f"purple: wait, grey dashes: {tool.ADDED}" in lines[1], lines[1]
    # Where each step is entered nothing is dashed; the start alone hangs from nothing.
    for text in (b"step 0 open\n", b"step 0 open\nstep 1 open\nlink 0 1 at-least 0\n"):
        sheet = sheets.from_text(text)
        n = len(sheet.steps)
        assert "dash" not in tool.graph("a title", sheet, [[]] * n) + tool.picture("a title", sheet, [0] * n, [[]] * n, [0] * n, True), text


BY_RECORD = re.compile(r"record (\d+), byte \d+: (.*)")
# Labels, with the words of a link that they can stand for: from another step, and from the start.
SAID = [(re.compile(r"after step (\d+) ends"), ["after"]), (re.compile(r"at least (?P<number>\d+) ticks? after step (\d+) ends"), ["after"]),
        (re.compile(r"at least (?P<number>\d+) ticks? after step (\d+) starts"), ["at-least"]), (re.compile(r"at most (?P<number>\d+) ticks? after step (\d+) starts"), ["at-most"]),
        (re.compile(r"at most (?P<number>\d+) ticks? after step (\d+) ends"), ["at-most-from-finish"]),
        (re.compile(r"at tick (?P<number>\d+) or later"), ["after", "at-least"]), (re.compile(r"at tick (?P<number>\d+) or before"), ["at-most", "at-most-from-finish"])]


def clash(what, data, svg):
    """What a picture of records that clash shows: its steps, each with its start and end and its labels; of each label the record, the word and the number.
    Each link is kept without a tick to spare, but for the last one, a limit, which is not. Returns the record numbers."""
    sheet, (wide, high, texts, bars, lines) = sheets.from_bytes(data), drawn(svg)
    whole(what, wide, high, texts)
    pairs, x = sorted(sheet.links), placed(texts)
    top, low = (most(y for _, y, anchor, _ in texts if anchor == "middle") for most in (min, max))
    left = [(y, at, text) for at, y, anchor, text in texts if top < y < low and anchor == "start" and at < x(0) - 14]
    right = {y: text for at, y, anchor, text in texts if top < y < low and anchor == "start" and at > x(0)}
    rows = []                                              # the step, its start and its end, its labels
    for y, at, text in sorted(left):
        if at == tool.MARGIN:
            starts, _, ends = re.match(r"(\d+)( to (\d+))?", right[y]).groups()
            rows.append((int(text), int(starts), int(ends or starts), []))
            is_open = sheet.steps[int(text)] == "open"
            lasts = int(ends or starts) - int(starts)
            assert lasts >= sheet.leasts.get(int(text), 0) if is_open and int(text) else lasts == (0 if is_open else sheet.steps[int(text)]), f"{what}: step {text} lasts {lasts}"
        elif BY_RECORD.match(text) or text in ("hangs from the start", "at tick 0 or later, as every step"):
            rows[-1][3].append(text)
        else:
            rows[-1][3][-1] += f" {text}"
    times = {v: (start, end) for v, start, end, _ in rows}
    check(len(times), len(rows), f"{what}: a step twice")
    numbers, forward, limits, over = [], [], [], []
    for v, start, _, labels in rows:
        for label in labels:
            if label == "hangs from the start" or label == "at tick 0 or later, as every step":
                check(label == "hangs from the start", v in sheets.loose(sheet), f"{what}: step {v}: {label}")
                check((0 in times, start), (True, 0), f"{what}: {label}")
                forward.append((0, 0))
                continue
            number, words = BY_RECORD.fullmatch(label).groups()
            numbers.append(int(number))
            i, j = pairs[int(number)]
            found = [(match, kinds) for match, kinds in ((form.fullmatch(words), kinds) for form, kinds in SAID) if match]
            check(len(found), 1, f"{what}: {label}")
            (match, kinds), = found
            check((j, str(i) in match.groups() or i == 0), (v, True), f"{what}: {label}")
            ticks = int(match.groupdict().get("number") or 0)
            kind, = [kind for kind in kinds if kind in sheet.links[i, j] and (sheet.links[i, j][kind] or 0) == ticks][:1] or [None]
            assert kind, f"{what}: {label}: {sheet.links[i, j]}"
            since = times[i][kind in ("after", "at-most-from-finish")]
            if kind in ("after", "at-least"):
                check(start, since + ticks, f"{what}: {label}")
                forward.append((since, start))
            else:
                limits.append((since, since + ticks))
                over += [(start - since - ticks, v)] if start != since + ticks else []
    # The last limit alone is not kept; it is one of the last step, and counts from the first one.
    (late, v), = over
    check((v, late > 0, limits[-1][0] in times[rows[0][0]], rows[0][1]), (rows[-1][0], True, True, 0), f"{what}: the limit that is not kept")
    check([text for text in right.values() if "late" in text], [f"{late} tick{'' if late == 1 else 's'} too late"], what)
    check(len(limits) + len(forward), len(rows), f"{what}: a circle")
    # All is where the axis has it.
    same_places([(left_of(bar), left_of(bar) + float(bar.get("width") or 0)) for bar in bars[:len(rows)]],
                [(x(start), x(start) + (max(x(end) - x(start), 1) if end > start else 0)) for _, start, end, _ in rows], what)
    same_places(lines[tool.LIMIT], [(x(since), x(last)) for since, last in limits], f"{what}: limits")
    root = tree.fromstring(svg)
    drawn_over = [(float(e.get("x")), float(e.get("x")) + float(e.get("width"))) for e in root.iterfind(".//{*}rect") if e.get("fill") == tool.PALE][:-1]
    same_places(drawn_over, [(x(times[v][0] - late), x(times[v][0] - late) + max(x(late) - x(0), 1))], f"{what}: over the limit")
    paths = [re.match(r"M([\d.]+) [\d.]+(?:v[-\d.]+H([\d.]+))?", e.get("d")).groups() for e in root.iterfind(".//{*}path") if e.get("shape-rendering")]
    same_places(sorted((float(since), float(to or since)) for since, to in paths), sorted((x(since), x(start)) for since, start in forward), f"{what}: links")
    said = " ".join(text for _, y, anchor, text in texts if y > low and anchor == "start")
    if "Added up" in said:
        needs, allows = map(int, re.search(r"Added up, (\d+) ticks? (?:is|are) needed where (\d+) ", said).groups())
        check(needs - allows, late, f"{what}: {said}")
    else:
        check((late, "open and" in said), (1, True), f"{what}: {said}")
    return sorted(set(numbers))


def clashing():
    """The stored sheets that are refused as 10 or 11; a few with names, worked out by hand; one of 300 records; what is refused otherwise."""
    called, count, records = tool.library(), 0, 0
    for data, verdict in stored.sheets():
        sheet = sheets.from_bytes(data) if verdict in ("refused 10", "refused 11") else None
        if sheet:
            said, found = tool.clash_of(sheet)
            check(said.split(":")[0], verdict, data.hex())
            check(clash(data.hex(), data, tool.clash_picture("a title", sheet, found)), called.clashes(data), data.hex())
            count, records = count + 1, records + len(found.words)
    assert count > 100 and records > 300, (count, records)

    # Two limits: b at 3 + 2, so c at 5 - 2 or later; d at 3 + 6, and it has to be at 8 by then. Of 11 the hand lasts one tick more than is left.
    two = "step 0 open\nstep 1 fixed 3 # a\nstep 2 fixed 4 # b\nstep 3 fixed 2 # c\nstep 4 fixed 1 # d\nlink 1 2 after gap 2\nlink 1 4 at-most 8\nlink 3 2 at-most 2\nlink 3 4 at-least 6\n"
    hand = "step 0 open\nstep 1 open least 3 # hand\nstep 2 fixed 2 # glass\nstep 3 fixed 1 # exposure\nstep 4 open\nlink 1 2 after\nlink 1 3 at-most 9\nlink 2 3 after\nlink 3 4 after\n"
    alone = "step 0 open\nstep 1 fixed 2\nlink 0 1 at-least 3 at-most 1\n"
    for text, starts, ends, lines in (
            (two, {1: 0, 2: 5, 3: 3, 4: 9}, {1: 3, 2: 9, 3: 5, 4: 10},
             ["Its 4 records clash; without any one of them the others do not.", "Ticks are counted from the start of a (1); each step starts as early as the one above lets it.",
              "line 6: at least 2 ticks after a (1) ends", "line 8: at most 2 ticks after c (3) starts", "line 9: at least 6 ticks after c (3) starts",
              "line 7: at most 8 ticks after a (1) starts", "1 tick too late", "Added up, 11 ticks are needed where 10 are allowed."]),
            (hand, {1: 0, 2: 8, 3: 10}, {1: 8, 2: 10, 3: 11},
             ["Of 4 records these 3 clash; without any one of them the others do not.",
              "Ticks are counted from the start of hand (1); each step starts as early as the one above lets it; hand (1) lasts 8 ticks here.", "0 to 8, open, at least 3",
              "1 tick too late", "hand (1) is open and may last more than the 7 ticks that these limits leave."]),
            (alone, {0: 0, 1: 3}, {0: 0, 1: 5}, ["Its record cannot be kept.", "Each step starts as early as the one above lets it.", "line 3: at tick 3 or later", "line 3: at tick 1 or before",
                                                 "2 ticks too late", "Added up, 3 ticks are needed where 1 is allowed."])):
        sheet = sheets.from_text(text.encode())
        said, found = tool.clash_of(sheet)
        circle = tool.clashes.circle(found)
        check((circle.starts, {v: start + circle.durations[v] for v, start in circle.starts.items()}), (starts, ends), text)
        shown = [line for *_, line in drawn(tool.clash_picture("a title", sheet, found))[2]]
        for line in lines:
            assert line in shown, f"{text}: {line}: {shown}"

    # Long names, in rows, above and below.
    names = "MMMM <&> WWWW " * 9 + "W" * 70
    long = "\n".join(f"{line.partition('#')[0]} # {names} {at}" if line.startswith("step") else line for at, line in enumerate(hand.splitlines()))
    sheet = sheets.from_text(long.encode())
    wide, high, texts, *_ = drawn(tool.clash_picture("a title", sheet, tool.clash_of(sheet)[1]))
    whole("long names", wide, high, texts)
    assert wide < 1300, wide

    # 300 records: after links all over 62 steps of 2 ticks, and limits, the fourth of them too short for five steps.
    pairs = [(v, w) for v in range(1, 63) for w in range(v + 1, min(v + 6, 63))]
    limits = {(1, 62): 200, (10, 20): 25, (20, 30): 25, (30, 37): 9, (40, 50): 25}
    long = "step 0 open\n" + "".join(f"step {v} fixed 2\n" for v in range(1, 63)) + "".join(f"link {v} {w} after\n" for v, w in pairs) + \
        "".join(f"link {v} {w} at-most {ticks}\n" for (v, w), ticks in limits.items())
    data = sheets.to_bytes(sheets.from_text(long.encode()))
    check(int.from_bytes(data[1:3], "little"), 300, "records")
    status, svg, said = ran("--clash", "-", given=data)
    rising = sorted([*pairs, *limits])
    check((status, said, [rising[k] for k in clash("300 records", data, svg)]), (0, "", [(30, 31), (30, 37), (31, 32), (32, 33), (33, 34), (34, 37)]), "300 records")
    assert "Of 300 records these 6 clash; without any one of them the others do not." in [text for *_, text in drawn(svg)[2]]
    for given, said in (((ROOT / "examples/stand.text").read_bytes(), "refused 31: the sheet is not refused as 10 or 11"), (b"step 0 open\nstep 1 open\nlink 1 0 after\n", "refused 8: forward links close a circle"),
                        ((ROOT / "examples/hands.sheet").read_bytes(), "refused 31: the sheet is not refused as 10 or 11"), (b"A", "byte 0: refused 2: N is 0 or above 64"),
                        (b"step 0 open\nstep 1 open\nstep 2 open\nstep 3 fixed 0\nlink 1 3 after at-most-from-finish 0\nlink 2 3 after at-most-from-finish 0\n", "refused 31: the sheet is not refused as 10 or 11")):
        check(ran("--clash", "-", given=given), (1, b"", f"standard input: {said}\n"), f"--clash {given}")
    return f"{count} pictures of {records} records that clash"


def ran(*words, given=b""):
    done = subprocess.run([TOOL, *words], capture_output=True, cwd="/", input=given)
    return done.returncode, done.stdout, done.stderr.decode()


def command():
    text, stand, kept = ROOT / "examples/stand.text", ROOT / "examples/stand.sheet", (ROOT / "examples/stand.svg").read_bytes()
    check(ran(text, "2=10"), (0, kept, ""), "examples/stand.svg is what tools/picture examples/stand.text 2=10 prints")
    status, svg, said = ran(stand, "2=10")
    check((status, said, b">3 to" in svg, b"lamps" in svg, b"10 to 12" in svg), (0, "", False, False, True), "the same in bytes")
    with tempfile.TemporaryDirectory() as place:
        path = Path(place) / "a <sheet>"
        path.write_text("step 0 open # <&>\nstep 1 open\nlink 0 1 after\n")
        assert "0 <&>" in [text for *_, text in drawn(ran(path)[1])[2]]
        path.write_text("step 0 open\nstep 1 open\nlink 1 0 after\n")
        check(ran(path), (1, b"", f"{path}: refused 8: forward links close a circle\n"), "a sheet that is refused")
        path.write_text("step 0 open\nstep 1 opens\n")
        check(ran(path), (1, b"", f"{path}: line 2: a step is 'open', 'open least' and ticks, or 'fixed' and its ticks\n"), "a text that is no sheet")
        path.write_bytes(b"A")
        check(ran(path), (1, b"", f"{path}: byte 0: refused 2: N is 0 or above 64\n"), "bytes that are no sheet")
    for word in ("3=1", "2=16777216", "2=4294967296", "2=9999999999", "lamps=1"):
        status, printed, said = ran(text, word)
        assert (status, printed) == (1, b"") and "refused 13: " in said, (word, said)
    check(ran(stand, "5=1"), (1, b"", f"{stand}: '5=1': the sheet has no step 5\n"), "no such step")
    for word in ("2:1", "2=", "=1", "2=x", "2=-1", "2=1.5", ""):
        check(ran(stand, word), (1, b"", f"{stand}: '{word}' is not a step, '=' and its ticks\n"), "no duration")
    check(ran(ROOT / "tests"), (2, b"", f"{ROOT / 'tests'}: Is a directory\n"), "a directory")
    check(ran()[:2], (2, b""), "no words")
    for words in (["--links"], ["--graph", "--links", stand], ["--graph", stand, "2=1"], ["--clash"], ["--clash", "--links", stand], ["--clash", "--graph", stand], ["--clash", stand, "2=1"],
                  ["--line", stand]):
        status, printed, said = ran(*words)
        assert (status, printed) == (2, b"") and "tools/picture [--links] SHEET" in said, (words, said)
    check(ran("-", "hand=10", given=text.read_bytes())[1].replace(b"standard input", b"stand.text"), kept, "from standard input")
    check(ran("-", given=b"A"), (1, b"", "standard input: byte 0: refused 2: N is 0 or above 64\n"), "no sheet from standard input")

    # Steps by name.
    check(ran(text, "hand=10"), (0, kept, ""), "a step by its name")
    check(ran(text, " hand =10")[1], kept, "a name with room around it")
    for words, said in ((("2=5", "2=6"), "'2=6': '2=5' says already how long step 2 lasts"), (("2=5", "hand=5"), "'hand=5': '2=5' says already how long step 2 lasts"),
                        (("2=5", "02=5"), "'02=5': '2=5' says already how long step 2 lasts"), (("foot=1",), "'foot=1': no step has this name; open steps with a name: hand")):
        check(ran(text, *words), (1, b"", f"{text}: {said}\n"), words)
    check(ran(stand, "hand=1"), (1, b"", f"{stand}: 'hand=1': no step has this name; open steps with a name: none\n"), "bytes have no names")
    twice = b"step 0 open\nstep 1 open # a=b\nstep 2 open # hand\nstep 3 open # hand\nlink 0 1 after\nlink 1 2 after\nlink 1 3 after\n"
    check(ran("-", "hand=1", given=twice), (1, b"", "standard input: 'hand=1': steps 2, 3 have this name; give the number\n"), "a name twice")
    check(b"7 to 8, open" in ran("-", "a=b=7", "3=1", given=twice)[1], True, "a name with a sign in it")

    # What cannot be written is said.
    if os.path.exists("/dev/full"):
        for words in ([text], ["--graph", text], ["--clash", "-"], ["--help"]):
            with open("/dev/full", "wb") as full:
                done = subprocess.run([TOOL, *words], stdout=full, stderr=subprocess.PIPE, input=text.read_bytes().replace(b"at-most 2", b"at-most 1"))
            check((done.returncode, done.stderr.decode()), (2, "tools/picture: standard output cannot be written: No space left on device\n"), "/dev/full")
    reader, writer = os.pipe()
    os.close(reader)
    done = subprocess.run([TOOL, text], stdout=writer, stderr=subprocess.PIPE)
    os.close(writer)
    check((done.returncode, done.stderr.decode()), (2, "tools/picture: standard output cannot be written: Broken pipe\n"), "a closed pipe")
    done = subprocess.run(["sh", "-c", 'exec "$0" "$1" >&-', TOOL, text], stderr=subprocess.PIPE)
    check((done.returncode, done.stderr.decode()), (2, "tools/picture: standard output cannot be written: it is closed\n"), "no standard output")


def of_64_steps():
    """The stored sheet of 64 steps that is sound."""
    return next(sheet for sheet, _, verdict, *_ in answers() if sheet[:1] == bytes([64]) and verdict == ["ok", "0"])


def graphs():
    """Each step, link and wait of a graph, by its own lines, and whether dot takes it, if dot is there. A sheet that is refused is drawn without waits."""
    dot, count = shutil.which("dot"), 0
    odd = b'step 0 open # a "quoted" \\ name\nstep 1 open # \\N\nlink 0 1 after\n'
    refused = [b"step 0 open\nstep 1 fixed 1\nstep 2 fixed 1\nlink 1 2 after\nlink 2 1 after at-least 3\n", b"step 0 open\nstep 1 open\nlink 1 0 after\n"]
    wanted = [*(("refused 8: forward links close a circle", 1, data) for data in refused), ("sound", 0, odd)]
    wanted += [("sound", 0, of_64_steps())] + [("sound with waits" if name == "hands" else "sound", 0, (ROOT / f"examples/{name}.text").read_bytes()) for name in ("stand", "hands", "exposure", "lip", "loose", "least")]
    for verdict, status, data in wanted:
        found, printed, said = ran("--graph", "-", given=data)
        check((found, said), (status, f"standard input: {verdict}\n" if status else ""), verdict)
        sheet, text = sheets.from_either(data), printed.decode()
        assert f"standard input: {verdict}\\n" in text, text
        lines = text.splitlines()
        links = sum(len(words) for words in sheet.links.values()) + len(sheets.loose(sheet))
        waits = 0 if status else sum(map(len, tool.waits_of(sheets.to_bytes(sheet), len(sheet.steps))[1]))
        check(sum(bool(re.match(r"  \d+ \[label=", line)) for line in lines), len(sheet.steps), "steps of a graph")
        check(sum(bool(re.match(r"  \d+ -> \d+", line)) for line in lines), links + waits, "links of a graph")
        check(text.count('label="wait"'), waits, "waits of a graph")
        if dot:
            done = subprocess.run([dot, "-Tplain"], input=printed, capture_output=True)
            check((done.returncode, done.stderr), (0, b""), f"dot: {text}")
            if data is odd:
                assert rb'"0 a \"quoted\" \\ name"' in done.stdout or b'a \\"quoted\\"' in done.stdout, done.stdout
        count += 1
    return f"{count} graphs" + ("" if dot else " (dot is not there: they were not drawn)")


def largest():
    """64 steps with every option, long names and long lists: well-formed, and whole."""
    sheet = sheets.from_bytes(of_64_steps())
    text = sheets.to_text(sheet).splitlines()
    words = ("W" * 60, "MMMM <&> WWWW " * 6, "hand", "Gr\u00f6\u00dfe \u9732\u5149\u3059\u308b" * 9)
    named = "".join(f"{line} # {words[at % 4]} {at}\n" if line.startswith("step") else f"{line}\n" for at, line in enumerate(text)).encode()
    open_ = [v for v, step in enumerate(sheet.steps) if step == "open" and v]
    for data in (sheets.to_bytes(sheet), named):
        for options in ([], ["--links"]):
            for ticks in (0, 7, 16777215):
                status, svg, said = ran(*options, "-", *(f"{v}={ticks}" for v in open_), given=data)
                check((status, said), (0, ""), "64 steps")
                wide, high, texts, bars, _ = drawn(svg)
                check(len(bars), 66, "64 bars, and two below")
                whole(f"64 steps, {options}, {ticks}", wide, high, texts)


if __name__ == "__main__":
    leasts()
    gaps()
    loose()
    seen, refused = pictures()
    command()
    largest()
    print(f"{seen} stored lists drawn, with links too, {refused} refused; {graphs()}; {clashing()}")
