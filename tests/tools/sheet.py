"""tools/sheet: every stored sheet goes to text and back, by the library's writer, each fixed duration of 0 left out; what no sheet can hold is refused, with
its line or its byte."""
import random
import re
import subprocess
import sys
import tempfile
from collections import Counter

import stored
from stored import ROOT

sys.path.insert(0, str(ROOT / "tools"))
import sheets  # noqa: E402

READER = {"1", "2", "3", "4", "5", "6", "7", "26"}         # the refusals of the planner's reader


def refused(read, data):
    try:
        read(data)
    except sheets.NoSheet as fault:
        return str(fault)
    return "taken"


def check(found, wanted, what):
    assert found == wanted, f"{what}: {found!r}, not {wanted!r}"


def shortened(data):
    """A sheet in bytes, each fixed duration of 0 left out."""
    (counts, _), *rest = sheets.pieces(data)
    return counts + b"".join(b"\0" if part == b"\2\0\0" else part for part, _ in rest)


def round_trips():
    rng, seen, gaps, leasts, shorter = random.Random(1), Counter(), 0, 0, 0
    for number, (data, verdict) in enumerate(stored.sheets()):
        what = f"stored sheet {number}, {verdict}"
        if verdict.removeprefix("refused ") in READER:
            found = re.fullmatch(r"byte (\d+): (refused \d+): .+", refused(sheets.from_bytes, data))
            assert found and int(found[1]) <= len(data), what
            check(found[2], verdict, what)
            seen[verdict] += 1
            continue
        sheet = sheets.from_bytes(data)
        text, wanted = sheets.to_text(sheet), shortened(data)
        check(sheets.to_bytes(sheets.from_text(text.encode())), wanted, what)
        check(sheets.to_text(sheets.from_text(text.encode())), text, what)
        check(bytes.fromhex("".join(line.rpartition("# ")[2] for line in sheets.shown(data).splitlines())), data, f"{what}, the bytes that are shown")
        check(sheets.to_bytes(sheets.from_text(sheets.shown(data).encode())), wanted, f"{what}, shown with its bytes")
        lines = text.splitlines()
        rng.shuffle(lines)
        check(sheets.to_bytes(sheets.from_text("\r\n \n".join(lines).encode())), wanted, f"{what}, its lines in another order")
        shorter += wanted != data
        seen["sheets"] += 1
        gaps += stored.has_gap(data)
        leasts += stored.has_least(data)
    check({key.removeprefix("refused ") for key in seen} - {"sheets"}, READER, "refusals among the stored sheets")
    assert gaps and leasts and shorter
    return seen["sheets"], gaps, leasts, shorter, seen.total() - seen["sheets"]


STEPS = "step 0 open\nstep 1 fixed 3\nstep 2 open\n"
FORMS = "'open', 'open least' and ticks, or 'fixed' and its ticks"
WORDS = "after, after gap, at-least, at-most, at-most-from-finish"
TEXTS = [
    ("", "line 1: there is no step; the first is 'step 0 open'"),
    ("# nothing\n\nlink 0 1 after\n", "line 4: there is no step; the first is 'step 0 open'"),
    ("step 0 fixed 0\n", "line 1: step 0 is the start and has to be open"),
    ("\nstep 0 fixed 3\n", "line 2: step 0 is the start and has to be open"),
    ("step 1 open\n", "line 1: step 1 is here, and step 0 is missing"),
    ("step 0 open\nstep 3 open\nstep 1 open\n", "line 2: step 3 is here, and step 2 is missing"),
    (STEPS + "step 1 open\n", "line 4: step 1 stands in line 2 already"),
    (STEPS + "step 64 open\n", "line 4: 64 is too large: a sheet has at most 64 steps, and their numbers are at most 63"),
    (STEPS + "step 3\n", f"line 4: a step has a number, then {FORMS}"),
    *((STEPS + f"step 3 {form}\n", f"line 4: a step is {FORMS}") for form in ("closed", "open 3", "fixed", "fixed 3 4", "open least 8 9", "open least 8 least 9", "open with-field", "fixed 0 with-field")),
    ("step 0 open least 8\n", "line 1: step 0 is the start and has no least"),
    ("step 0 open least 0\n", "line 1: step 0 is the start and has no least"),
    *((STEPS + f"step 3 {form}\n", "line 4: 'least' stands only behind 'open' (refusal 4)")
      for form in ("fixed 3 least 8", "fixed least 8", "least 8", "least 8 open", "fixed 0 least 0")),
    (STEPS + "step 3 open least\n", "line 4: 'least' has no number behind it"),
    (STEPS + "step 3 open least 65536\n", "line 4: 65536 is too large: a least is at most 65535"),
    (STEPS + "step 3 open least -1\n", "line 4: '-1' is no number"),
    (STEPS + "step 3 open least eight\n", "line 4: 'eight' is no number"),
    (STEPS + "step 3 fixed 65536\n", "line 4: 65536 is too large: a duration is at most 65535"),
    (STEPS + "step 3 fixed " + "9" * 5000 + "\n", "line 4: " + "9" * 5000 + " is too large: a duration is at most 65535"),
    (STEPS + "step 3 fixed -1\n", "line 4: '-1' is no number"),
    (STEPS + "step 3 fixed ²\n", "line 4: '²' is no number"),
    (STEPS + "stop 3 open\n", "line 4: 'stop' is neither 'step' nor 'link'"),
    (STEPS + "link 0 1\n", f"line 4: a link has two steps, then one or more of {WORDS}"),
    (STEPS + "link 0 1 before\n", f"line 4: 'before' is none of {WORDS}"),
    (STEPS + "link 0 1 after 3\n", f"line 4: '3' is none of {WORDS}"),
    (STEPS + "link 0 1 at-most\n", "line 4: 'at-most' has no number behind it"),
    (STEPS + "link 0 1 at-most after\n", "line 4: 'after' is no number"),
    (STEPS + "link 0 1 at-least 70000\n", "line 4: 70000 is too large: a bound is at most 65535"),
    (STEPS + "link 0 1 at-most 65536\n", "line 4: 65536 is too large: a bound is at most 65535"),
    (STEPS + "link 0 1 after at-most-from-finish 65536\n", "line 4: 65536 is too large: a bound is at most 65535"),
    (STEPS + "link 0 1 after gap 65536\n", "line 4: 65536 is too large: a gap is at most 65535"),
    (STEPS + "link 0 1 after gap\n", "line 4: 'gap' has no number behind it"),
    (STEPS + "link 0 1 after gap at-least 3\n", "line 4: 'at-least' is no number"),
    (STEPS + "link 0 1 after 6 gap\n", f"line 4: '6' is none of {WORDS}"),
    *((STEPS + f"link 0 1 {words}\n", "line 4: 'gap' stands only right behind 'after'")
      for words in ("gap 6", "gap 6 after", "at-most 3 gap 6", "after at-least 3 gap 6", "after gap 6 gap 6", "at-most-from-finish 9 gap 6 after")),
    (STEPS + "link 0 1 after gap 6 after gap 6\n", "line 4: 'after' stands twice"),
    (STEPS + "link 0 1 after after\n", "line 4: 'after' stands twice"),
    (STEPS + "link 0 1 at-most 3 at-most 3\n", "line 4: 'at-most' stands twice"),
    (STEPS + "link 0 1 at-most-from-finish 5\n", "line 4: 'at-most-from-finish' stands only beside 'after' (refusal 26)"),
    (STEPS + "link 1 1 after\n", "line 4: a link from step 1 to itself"),
    (STEPS + "link 0 3 after\nlink 4 0 after\n", "line 4: there is no step 3"),
    (STEPS + "link 0 1 after\n# again\nlink 0 1 at-most 3\n",
     "line 6: the pair 0 1 stands in line 4 already; all that is said of a pair stands in one line"),
    ("".join(f"step {v} open\n" for v in range(64)) + "".join(f"link {k // 63} {k % 63 + (k % 63 >= k // 63)} after\n" for k in range(513)),
     "line 577: a sheet has at most 512 links"),
    (b"step 0 open\n\xff\n", "line 2: this is no text"),
]
BYTES = [
    ("", "byte 0: refused 1"), ("00", "byte 0: refused 2"), ("41 00 00", "byte 0: refused 2"), ("05 01", "byte 2: refused 1"), ("01 01 02", "byte 1: refused 3"),
    ("01 00 00", "byte 3: refused 1"), ("01 00 00 02", "byte 3: refused 4"), ("02 00 00 01 03", "byte 4: refused 4"), ("02 00 00 01 02 05", "byte 6: refused 1"),
    ("01 00 00 05 08 00", "byte 3: refused 4"), ("02 00 00 01 05 08", "byte 6: refused 1"), ("02 00 00 01 05", "byte 5: refused 1"),
    ("02 01 00 01 01 00 00 01", "byte 5: refused 4"), ("02 01 00 01 01 20 00 01", "byte 5: refused 4"), ("02 01 00 01 01 10 00 01 05 00", "byte 5: refused 26"),
    ("02 01 00 01 01 08 00 01 06 00", "byte 5: refused 4"), ("02 01 00 01 01 18 00 01 06 00 05 00", "byte 5: refused 4"),
    ("02 01 00 01 01 09 00 01 06", "byte 9: refused 1"),
    ("02 01 00 01 01 01 02 01", "byte 6: refused 5"), ("02 01 00 01 01 01 00 02", "byte 7: refused 5"), ("02 01 00 01 01 01 01 01", "byte 7: refused 5"),
    ("02 02 00 01 01 01 00 01 01 00 01", "byte 9: refused 6"), ("02 01 00 01 01 04 00 01 05", "byte 9: refused 1"), ("01 00 00 01 00", "byte 4: refused 7"),
]
# A text, and its bytes: the limits, and a duration of 0, which is left out, a gap of 0 and a least of 0, which are not.
TAKEN = [
    ("step 0 open", "01 00 00 01"),
    ("\ufeffstep 0 open # ein Anfang: Größe\n  step  01\tfixed 065535 \n", "02 00 00 01 02 ff ff"),
    ("step 0 open\nstep 1 fixed 0\nstep 2 fixed 1\n", "03 00 00 01 00 02 01 00"),
    ("link 1 0 at-most 65535\nlink 0 1 at-most-from-finish 5 at-most 4 at-least 3 after\nstep 1 open\nstep 0 open\n",
     "02 02 00 01 01 17 00 01 03 00 04 00 05 00 04 01 00 ff ff"),
    ("step 0 open\nstep 1 open\nlink 0 1 at-most-from-finish 5 at-most 4 after gap 6 at-least 3\n", "02 01 00 01 01 1f 00 01 03 00 04 00 06 00 05 00"),
    ("step 0 open\nstep 1 open\nlink 0 1 after\nlink 1 0 after gap 0\n", "02 02 00 01 01 01 00 01 09 01 00 00 00"),
    ("step 0 open\nstep 1 open least 8\nstep 2 open least 0\nstep 3 open\n", "04 00 00 01 05 08 00 05 00 00 01"),
    ("step 1 open least 065535 # hand\nstep 0 open\nlink 0 1 after\n", "02 01 00 01 05 ff ff 01 00 01"),
    ("step 0 open\nstep 1 open\nlink 0 1 at-most 7 after gap 65535\n", "02 01 00 01 01 0d 00 01 07 00 ff ff"),
]
ALLOWED = {*range(1, 8), *range(9, 32, 2)}                 # link maps: bits 3 and 4 stand beside bit 0 only


def refusals_and_limits():
    for text, wanted in TEXTS:
        check(refused(sheets.from_text, text if isinstance(text, bytes) else text.encode()), wanted, f"text {text[-60:]!r}")
    for data, wanted in BYTES:
        check(refused(sheets.from_bytes, bytes.fromhex(data)).rpartition(":")[0], wanted, f"bytes {data}")
    for text, data in TAKEN:
        check(sheets.to_bytes(sheets.from_text(text.encode())).hex(" "), data, f"text {text!r}")
    most = TEXTS[-2][0].rsplit("\n", 2)[0]
    check(sheets.to_bytes(sheets.from_text(most.encode()))[:3].hex(" "), "40 00 02", "64 steps and 512 links")


def step_maps():
    """Every map of a step, with fields of 1 and 2 in the order of the bits: the allowed ones have a text with these numbers, and go back; others are 4. Step 0 is 01."""
    lines = {0: ("step 1 fixed 0", ""), 1: ("step 1 open", ""), 2: ("step 1 fixed 513", "01 02"), 5: ("step 1 open least 513", "01 02")}
    for bits in range(256):
        data = bytes([2, 0, 0, 1, bits]) + bytes.fromhex(lines.get(bits, ("", "01 02 03 04"))[1])
        if bits in lines:
            sheet = sheets.from_bytes(data)
            check(sheets.to_text(sheet).splitlines()[1], lines[bits][0], f"step map {bits}")
            check(sheets.to_bytes(sheets.from_text(sheets.to_text(sheet).encode())), data, f"step map {bits}")
        else:
            check(refused(sheets.from_bytes, data).rpartition(":")[0], "byte 4: refused 4", f"step map {bits}")
        if bits != 1:
            check(refused(sheets.from_bytes, bytes([1, 0, 0, bits, 1, 2])).rpartition(":")[0], "byte 3: refused 4", f"map {bits} of step 0")


def link_maps():
    """Every map of a link, with fields of 1, 2 and so on in the order of the bits: the allowed ones have a text with these numbers, and go back; others are 4 or 26."""
    words = {2: "at-least", 4: "at-most", 8: "gap", 16: "at-most-from-finish"}
    for bits in range(256):
        given = [bit for bit in words if bits & bit]
        data = bytes([2, 1, 0, 1, 1, bits, 0, 1]) + b"".join(bytes([k, 0]) for k in range(1, len(given) + 1))
        if bits in ALLOWED:
            numbers = {bit: f" {words[bit]} {k}" for k, bit in enumerate(given, 1)}
            line = "link 0 1" + (" after" if bits & 1 else "") + numbers.pop(8, "") + "".join(numbers.values())
            sheet = sheets.from_bytes(data)
            check(sheets.to_text(sheet).splitlines()[2], line, f"link map {bits}")
            check(sheets.to_bytes(sheets.from_text(sheets.to_text(sheet).encode())), data, f"link map {bits}")
        else:
            check(refused(sheets.from_bytes, data).rpartition(":")[0], f"byte 5: refused {26 if bits in (16, 18, 20, 22) else 4}", f"link map {bits}")


def longest():
    """The longest sheet: each field that there can be."""
    pairs = [(i, j) for i in range(64) for j in range(64) if i != j][:512]
    for bits in (2, 5):                                    # fixed steps, and open ones with a least
        data = bytes([64, 0, 2, 1]) + bytes([bits, 255, 255]) * 63 + b"".join(bytes([31, i, j]) + b"\xff" * 8 for i, j in pairs)
        check(sheets.to_bytes(sheets.from_text(sheets.to_text(sheets.from_bytes(data)).encode())), data, "the longest sheet")
    check(len(data), int(re.search(r"#define STANDPLAN_MAX_SHEET (\d+)", (ROOT / "include/standplan.h").read_text("ascii"))[1]), "its bytes, by the header")


def loose():
    """The steps that nothing leads into: after and at-least links do, also from such a step and in a circle; limits do not."""
    for links, wanted in (("", [1, 2, 3]), ("link 0 2 after\n", [1, 3]), ("link 1 2 at-least 0\n", [1, 3]), ("link 0 1 at-most 4\nlink 2 3 at-most 5\n", [1, 2, 3]),
                          ("link 1 2 after gap 3 at-most-from-finish 5\nlink 2 1 after\n", [3]), ("link 1 0 after\nlink 0 3 at-least 2 at-most 3\n", [1, 2])):
        sheet = sheets.from_text(f"step 0 open\nstep 1 open\nstep 2 fixed 3\nstep 3 open\n{links}".encode())
        check(sheets.loose(sheet), wanted, links)
        check(sheets.loose(sheets.from_bytes(sheets.to_bytes(sheet))), wanted, links)
    check(sheets.loose(sheets.from_bytes((ROOT / "examples/loose.sheet").read_bytes())), [1, 2, 3], "examples/loose.sheet")
    check(sheets.loose(sheets.from_text(b"step 0 open\n")), [], "the start alone")


def command():
    """The command itself, from another directory."""
    tool = ROOT / "tools/sheet"

    def ran(*words, given=b""):
        with tempfile.TemporaryDirectory() as place:
            done = subprocess.run([tool, *words], input=given, capture_output=True, cwd=place)
        return done.returncode, done.stdout, done.stderr.decode()

    for path in sorted((ROOT / "examples").glob("*.sheet")):
        data, text = path.read_bytes(), path.with_suffix(".text")
        check(ran("bytes", text), (0, data, ""), text.name)
        check(sheets.to_text(sheets.from_text(text.read_bytes())), ran("text", path)[1].decode(), text.name)
        check(ran("bytes", given=ran("show", path)[1]), (0, data, ""), path.name)
        check(ran("text", given=data), ran("text", path), path.name)
    check(ran("show", given=bytes.fromhex("030000010002 0000")), (0, b"# steps 3, links 0  # 03 00 00\nstep 0 open     # 01\nstep 1 fixed 0  # 00\nstep 2 fixed 0  # 02 00 00\n", ""), "durations of 0")
    check(ran("bytes", given=b"step 0 open\nstep 0 open\n"), (1, b"", "standard input: line 2: step 0 stands in line 1 already\n"), "a step twice")
    check(ran("text", given=b"A"), (1, b"", "standard input: byte 0: refused 2: N is 0 or above 64\n"), "no sheet")
    check(ran("text", ROOT / "tests"), (2, b"", f"{ROOT / 'tests'}: Is a directory\n"), "a directory")
    check(ran()[:2], (2, b""), "no words")
    check(ran("--help")[0], 0, "help")


if __name__ == "__main__":
    there, gaps, leasts, shorter, not_there = round_trips()
    refusals_and_limits()
    step_maps()
    link_maps()
    longest()
    loose()
    command()
    print(f"{there} stored sheets go to text and back, {gaps} of them with gaps, {leasts} with leasts, {shorter} shorter by durations of 0, {not_there} are refused as stored; {len(TEXTS)} texts and {len(BYTES)} inputs refused in their place")
