"""The marked and unmarked examples of document 01 as tests, its order of refusals, and worked sheets of requests L1, L3, L4,
L5, L6, L11 and L14."""
from __future__ import annotations

import random

import container
import generate
import parts
import planner as p
import price
import runs
from writer import Part, write

NO = p.UNDECIDED
NONE = [0] * 64                # no least durations
STAND = bytes.fromhex("05 05 00 01 02 03 00 01 02 02 00 02 01 00 01 00 01 01 00 02"
                      "01 01 04 01 02 03 05 03 04 02 00")
STAND_TEXT = """verdict 0
waits 0
start 0 0 0
start 1 0 0
start 2 0 0
start 3 0 1
start 3 2 0
start 4 0 3
start 4 2 2
"""


def encode(steps: list[p.Step], records: dict[tuple[int, int], dict], leasts: dict[int, int] | None = None) -> bytes:
    """A sheet in bytes; records: pair -> any of after=True, at_least=m, at_most=u, gap=g, from_end=u; leasts of open steps."""
    out = bytes([len(steps)]) + len(records).to_bytes(2, "little")
    for v, step in enumerate(steps):
        if leasts and v in leasts:
            out += b"\x05" + leasts[v].to_bytes(2, "little")
        else:
            out += b"\x01" if step is p.OPEN else b"\x02" + step.to_bytes(2, "little")
    for (i, j), fields in sorted(records.items()):
        bits = (1 if fields.get("after") else 0) | (2 if "at_least" in fields else 0) \
            | (4 if "at_most" in fields else 0) | (8 if "gap" in fields else 0) | (16 if "from_end" in fields else 0)
        out += bytes([bits, i, j])
        for name in ("at_least", "at_most", "gap", "from_end"):
            if name in fields:
                out += fields[name].to_bytes(2, "little")
    return out


def start_lines(sheet: bytes, v: int) -> dict[int, int]:
    """The deciding steps of v and their offsets, out of the plan's row."""
    n = sheet[0]
    verdict, table = p.plan(sheet, True, [7] * (n * n))
    assert verdict[0] == "ok"
    kind, numbers = p.row(table, n, v)
    assert kind == "ok"
    return {a: number for a, number in enumerate(numbers) if number != NO}


A = {"after": True}
TWO_HANDS = encode([None, None, None, 0, 0],
                   {(0, 1): A, (0, 2): A, (1, 3): A, (2, 4): A, (3, 4): {"at_most": 5}})


def test_marked() -> None:
    """Every example marked with a star."""
    assert p.standplan_text(bytes.fromhex("01 00 00 01")) == "verdict 0\nwaits 0\nstart 0 0 0\n"
    assert p.judge(bytes.fromhex("01 00 00 01"), False) == ("ok", 0)
    assert p.standplan_text(STAND) == STAND_TEXT
    assert p.judge(STAND[:-2] + b"\x01\x00", True) == ("refused", 10)
    assert p.waits(TWO_HANDS) == ([0, 0, 0, 4] + [0] * 60, 1, ("ok", 1))
    assert start_lines(TWO_HANDS, 3) == {1: 0, 2: 0}
    assert p.standplan_text(TWO_HANDS).startswith("verdict 1\nwaits 1\nwait 2 3\nstart 0 0 0\n")
    assert p.judge(TWO_HANDS, True) == ("ok", 1)
    assert p.judge(TWO_HANDS, False) == ("refused", 12)
    assert p.plan(TWO_HANDS, False, [5] * 30) == (("refused", 12), [5] * 30)
    assert p.starts(TWO_HANDS, False, [9] * 2, [5]) == (("refused", 12), [5])
    assert p.judge(encode([None, None, 0], {(0, 1): A, (1, 2): A | {"at_most": 9}}),
                   True) == ("refused", 11)
    both = encode([None, None, 0], {(0, 1): A, (1, 2): A | {"at_least": 10}})
    assert start_lines(both, 2) == {0: 10, 1: 0}
    assert p.judge(encode([None, 0], {(0, 1): A | {"at_most": 0}}), False) == ("ok", 0)
    assert p.judge(encode([None, 0, 0], {(0, 1): A, (1, 2): {"at_least": 0},
                                         (2, 1): {"at_least": 0}}), True) == ("refused", 8)
    assert p.starts(STAND, False, [0, 0, 10, 0, 0], [1] * 7) == (("ok", 0), [0, 0, 0, 10, 12, 1, 1])
    assert p.starts(STAND, True, [0] * 5, [1] * 5) == (("ok", 0), [0, 0, 0, 1, 3])


def test_run() -> None:
    """Run of the stand sheet, and the runner's refusals in their order."""
    _, table = p.plan(STAND, True, [0] * 25)
    open_map = 1 | 1 << 2
    verdict, state = p.begin(p.State(), 5, open_map, NONE, table)
    assert verdict == ("ok", 7)
    verdict, state = p.finish(state, 2, table)
    assert verdict == ("ok", 0)
    for expected in (8, 0, 16):
        verdict, state = p.tick(state, table)
        assert verdict == ("ok", expected)
    assert state.start[:5] == (0, 0, 0, 1, 3) and state.finish[:5] == (0,) * 5
    assert p.finish(state, 2, table) == (("refused", 17), state)
    for s in (0, 1, 3, 5, 64, 255):
        assert p.finish(state, s, table) == (("refused", 17), state)
    assert p.begin(state, 65, 0, [], []) == (("refused", 16), state)
    assert p.begin(p.State(), 65, 0, [], []) == (("refused", 2), p.State())
    assert p.begin(p.State(), 0, 0, [], []) == (("refused", 2), p.State())
    assert p.begin(p.State(), 5, 0, NONE, table[:24]) == (("refused", 14), p.State())
    assert p.tick(p.State(), [])[0] == ("refused", 15)
    assert p.finish(p.State(), 9, [])[0] == ("refused", 15)
    late = p.replace(state, tick=p.LAST_TICK)
    assert p.tick(late, table[:24])[0] == ("refused", 14)
    assert p.tick(late, table) == (("refused", 18), late)
    assert p.finish(late, 2, table[:24])[0] == ("refused", 14)
    for n in (0, 65):
        assert p.tick(p.replace(late, n=n), [])[0] == ("refused", 15)
    # A row that names none never starts; bit 0 of the open map counts for nothing.
    assert p.begin(p.State(), 2, 0, NONE, [NO] * 4)[0] == ("ok", 1)
    assert p.begin(p.State(), 1, 1, NONE, [NO])[0] == ("ok", 1)
    assert p.finish(p.begin(p.State(), 1, 1, NONE, [NO])[1], 0, [NO])[0] == ("refused", 17)


def test_limits() -> None:
    """N 64 and 65, R 512 and 513, durations 16,777,215 and 16,777,216; 13 before 14."""
    full = encode([None] * 64, {(0, v): A for v in range(1, 64)})
    assert p.judge(full, False) == ("ok", 0)
    assert p.read(b"\x41" + full[1:]) == ("refused", 2)
    assert p.read(b"\x41") == p.read(b"\x00") == ("refused", 2)
    pairs = [(i, j) for i in range(64) for j in range(i + 1, 64)]
    for count, expected in ((512, "ok"), (513, "refused")):
        result = p.read(encode([None] * 64, {pair: A for pair in pairs[:count]}))
        assert result[0] == expected
        assert result[1] == 3 if count == 513 else len(result[1][1]) == 512
    assert p.read(b"\x01\x01\x02") == ("refused", 3)
    heavy = encode([None] * 64, {(v, v + 1): {"at_least": 65535} for v in range(63)})
    assert start_lines(heavy, 63) == {0: 4_128_705}
    one = encode([None, None, 7], {(0, 1): A, (1, 2): A})
    assert p.starts(one, False, [0, 16_777_215, 0], [9] * 3) == (("ok", 0), [0, 0, 16_777_215])
    assert p.starts(one, False, [0, 16_777_216, 0], [9] * 3) == (("refused", 13), [9] * 3)
    assert p.starts(one, False, [0, 16_777_216], []) == (("refused", 13), [])
    assert p.starts(one, False, [1], [9]) == (("refused", 13), [9])
    assert p.starts(one, False, [0, 0, 1], [9]) == (("refused", 13), [9])
    assert p.starts(one, False, [0, 5], [9] * 3) == (("refused", 14), [9] * 3)
    assert p.starts(one, False, [0, 5, 0], [9] * 2) == (("refused", 14), [9] * 2)
    assert p.starts(one, False, [0, 5, 0, 99], [9] * 4) == (("ok", 0), [0, 0, 5, 9])
    assert p.plan(STAND, True, [3] * 24) == (("refused", 14), [3] * 24)
    assert p.plan(STAND, True, [3] * 27)[1][25:] == [3, 3]
    assert p.row([1], 0, 5) == p.row([1], 65, 5) == ("refused", 2)
    assert p.row([1], 2, 2) == ("refused", 5)
    assert p.row([1] * 3, 2, 1) == ("refused", 14)
    assert p.row([1, 2, 3, 4, 5], 2, 1) == ("ok", [3, 4])


def test_order() -> None:
    """The first fault met, read from the front."""
    for size in range(len(STAND)):
        assert p.read(STAND[:size]) == ("refused", 1)
    assert p.read(STAND + b"\0") == ("refused", 7)
    for bits in range(256):       # step 0, another step, a link record
        assert p.read(bytes([1, 0, 0, bits]))[0] == ("ok" if bits == 1 else "refused")
        assert p.read(bytes([2, 0, 0, 1, bits, 0, 0]))[1] == (
            {0: 7, 1: 7, 2: ([None, 0], [], [0, 0]), 5: ([None, None], [], [0, 0])}.get(bits, 4))
        expected = 1 if bits in (1, 2, 3, 4, 5, 6, 7, 9, 11, 13, 15, 17, 19, 21, 23, 25, 27, 29, 31) else \
            26 if bits in (16, 18, 20, 22) else 4
        assert p.read(bytes([2, 1, 0, 1, 0, bits])) == ("refused", expected)
        assert p.read(bytes([2, 1, 0, 1, 0, bits, 9])) == ("refused", expected)
        assert p.read(bytes([2, 1, 0, 1, 0, bits, 9, 0])) == ("refused", 5 if expected == 1 else expected)
    two = [2, 2, 0, 1, 0, 1, 1, 0]
    assert p.read(bytes(two + [2, 1, 1])) == ("refused", 5)      # 5 before 6
    assert p.read(bytes(two + [2, 0, 1])) == ("refused", 6)      # 6 before its fields
    assert p.read(bytes(two + [2, 1, 0])) == ("refused", 6)      # equal pairs do not rise
    assert p.read(bytes([2, 0, 0, 1, 0]))[0] == "ok"
    # 10 before 11: both hold.
    assert p.judge(encode([None, None, 0], {(0, 1): A | {"at_least": 3, "at_most": 2},
                                            (1, 2): A | {"at_most": 9}}), True) == ("refused", 10)


def test_wrong_readings() -> None:
    """The wrong readings give something else."""
    assert start_lines(STAND, 3) == {0: 1, 2: 0}
    # An at least from an open step counts from its start.
    sheet = encode([None, None, 0], {(0, 1): A, (1, 2): {"at_least": 4}})
    assert start_lines(sheet, 2) == {0: 4}
    # Waits for a chain of returns: 1 after 0, 2 after 1; at most on (3, 2) and on (4, 3).
    chain = encode([None, None, 0, 0, 0], {(0, 1): A, (0, 3): A, (0, 4): A, (1, 2): A,
                                           (3, 2): {"at_most": 5}, (4, 3): {"at_most": 5}})
    assert p.waits(chain) == ([0, 0, 0, 2, 2] + [0] * 59, 2, ("ok", 1))
    # An open step stays although a later one stands in the set: 1 at 10, 1 to 2 at 0, 2 at 0.
    sums = encode([None, None, None, 10, 0],
                  {(0, 1): A, (1, 2): A, (1, 3): A, (2, 4): A, (3, 4): A})
    assert start_lines(sums, 4) == {1: 10, 2: 0}


# Request L11. Exposure, step 2, at most five ticks after the hand, step 1, is done.
EXPOSURE = bytes.fromhex("03 02 00 01 01 00  01 00 01  11 01 02 05 00")
# Two hands, 3 after both; 3 at most 4 after the end of hand 1: hand 1 has to wait for hand 2.
HAND_WAITS = encode([None, None, None, 0], {(0, 1): A, (0, 2): A, (1, 3): A | {"from_end": 4}, (2, 3): A})
# The same, and 3 at most 4 after the end of hand 2 too: each has to wait for the other.
CLASH = encode([None, None, None, 0],
               {(0, 1): A, (0, 2): A, (1, 3): A | {"from_end": 4}, (2, 3): A | {"from_end": 4}})


def late(least: int) -> bytes:
    """4 after hand 1, at most 7 on (2, 4): 2 waits for hand 1, and 3 comes `least` after 2, so after the
    end of the hand; but at most 5 after it."""
    return encode([None, None, 0, 0, 0], {(0, 1): A, (0, 2): A, (1, 3): A | {"from_end": 5}, (1, 4): A,
                                          (2, 3): {"at_least": least}, (2, 4): {"at_most": 7}})


def refused_everywhere(sheet: bytes, number: int) -> bool:
    """Whether each call that judges, lists waits, plans or works out starts refuses the sheet so."""
    no = ("refused", number)
    return (p.judge(sheet, False) == p.judge(sheet, True) == no and p.waits(sheet) == ([0] * 64, 0, no)
            and all(p.plan(sheet, allow, [3]) == (no, [3]) and p.starts(sheet, allow, [9], [3]) == (no, [3])
                    for allow in (False, True))
            and p.standplan_text(sheet) == f"refused {number}\n")


def test_finish_accepted() -> None:
    """Limits from the end of an open step, without waits and with them."""
    assert p.read(EXPOSURE) == p.read(encode([None, None, 0], {(0, 1): A, (1, 2): A | {"from_end": 5}}))
    assert p.standplan_text(EXPOSURE) == "verdict 0\nwaits 0\nstart 0 0 0\nstart 1 0 0\nstart 2 1 0\n"
    assert p.judge(EXPOSURE, False) == ("ok", 0)
    assert p.starts(EXPOSURE, False, [0, 7, 0], [1] * 4) == (("ok", 0), [0, 0, 7, 1])
    # Exposure not before tick 10: the hand, which may last no time, starts at 5, whatever it lasts.
    not_before = encode([None, None, 0], {(0, 1): A, (0, 2): {"at_least": 10}, (1, 2): A | {"from_end": 5}})
    assert start_lines(not_before, 1) == {0: 5} and start_lines(not_before, 2) == {0: 10, 1: 0}
    assert p.starts(not_before, False, [0, 2, 0], [1] * 3) == (("ok", 0), [0, 5, 10])
    assert p.starts(not_before, False, [0, 9, 0], [1] * 3) == (("ok", 0), [0, 5, 14])
    assert p.standplan_text(HAND_WAITS) == ("verdict 1\nwaits 1\nwait 2 1\n"
                                            "start 0 0 0\nstart 1 2 0\nstart 2 0 0\nstart 3 1 0\n")
    assert p.waits(HAND_WAITS) == ([0, 4] + [0] * 62, 1, ("ok", 1))
    assert p.judge(HAND_WAITS, False) == ("refused", 12)
    assert p.starts(HAND_WAITS, True, [0, 5, 3, 0], [0] * 4) == (("ok", 1), [0, 3, 0, 8])
    # A walk from the end of hand 1 takes the return to hand 2: 3 comes 5 after hand 1, so 2 starts 4 after it.
    other = encode([None, None, None, 0, 0], {(0, 1): A, (0, 2): A, (1, 4): A, (2, 3): A | {"from_end": 1},
                                              (4, 3): {"at_least": 5}})
    assert p.waits(other) == ([0, 0, 2] + [0] * 61, 1, ("ok", 1))
    assert start_lines(other, 2) == {1: 4} and start_lines(other, 3) == {1: 5, 2: 0}
    # It does not take the return to hand 1: 3 at least 9 after the start of the hand, not 9 - 1 after its end.
    own = encode([None, None, 0, 0], {(0, 1): A, (1, 2): A | {"from_end": 1}, (1, 3): {"at_least": 9}, (2, 3): A})
    assert p.judge(own, False) == ("ok", 0) and start_lines(own, 3) == {0: 9, 1: 0}
    # With at least and at most on the same pair: the start counts for these, the end for the other.
    assert start_lines(encode([None, None, 0], {(0, 1): A, (1, 2): A | {"at_least": 5, "from_end": 5}}), 2) == {0: 5, 1: 0}


def test_finish_impossible() -> None:
    """10 and 11 by limits from the end of an open step."""
    # A hand that lasts no time ends 6 before exposure.
    assert refused_everywhere(encode([None, None, 0], {(0, 1): A, (1, 2): A | {"at_least": 6, "from_end": 5}}), 10)
    # A second hand between the first and exposure.
    assert refused_everywhere(encode([None, None, None, 0], {(0, 1): A, (1, 2): A, (1, 3): A | {"from_end": 9},
                                                             (2, 3): A}), 11)
    # At most 9 from the start, too.
    assert refused_everywhere(encode([None, None, 0], {(0, 1): A, (1, 2): A | {"at_most": 9, "from_end": 9}}), 11)


def test_finish_28() -> None:
    """Waits that close a circle, and waits that leave no times without one; both though waits are not allowed."""
    assert refused_everywhere(CLASH, 28)
    assert refused_everywhere(late(10), 28) and refused_everywhere(late(6), 28)
    # At 5 it just goes; 2 and 3 count from the end of the hand.
    assert p.waits(late(5)) == ([0, 0, 2] + [0] * 61, 1, ("ok", 1))
    assert start_lines(late(5), 2) == {1: 0} and start_lines(late(5), 3) == {1: 5}
    # Four steps are enough: 3 at least 6 and at most 8 after 2, at most 5 after the end of 1.
    assert refused_everywhere(encode([None, None, 0, 0], {(0, 1): A, (0, 2): A, (1, 3): A | {"from_end": 5},
                                                          (2, 3): {"at_least": 6, "at_most": 8}}), 28)
    # 10 and 11 come before 28.
    assert refused_everywhere(encode([None, None, None, 0], {
        (0, 1): A, (0, 2): A, (1, 3): A | {"at_least": 5, "from_end": 4}, (2, 3): A | {"from_end": 4}}), 10)
    assert refused_everywhere(encode([None, None, None, 0], {
        (0, 1): A, (0, 2): A, (0, 3): A | {"from_end": 9}, (1, 3): A | {"from_end": 4},
        (2, 3): A | {"from_end": 4}}), 11)


def test_finish_known() -> None:
    """From the end of a fixed step a plain at most of duration plus u, from that of step 0 one of u."""
    for least, lines in ((5, {0: 5}), (6, None)):
        sheet = encode([None, 3, 0], {(0, 1): A, (1, 2): A | {"at_least": least, "from_end": 2}})
        assert start_lines(sheet, 2) == lines if lines else refused_everywhere(sheet, 10)
    # 65,535 + 65,535 is not cut off.
    for last, verdict in ((0, ("ok", 0)), (1, ("refused", 10))):
        assert p.judge(encode([None, 65535, 65535, last, 0], {
            (0, 1): A, (1, 2): A, (1, 4): A | {"from_end": 65535}, (2, 3): A, (3, 4): A}), True) == verdict
    # Two hands, 3 after hand 1, 4 after hand 2, at most 5 after the end of 3, which lasts 2; 4 after 3.
    hands = encode([None, None, None, 2, 0], {(0, 1): A, (0, 2): A, (1, 3): A, (2, 4): A, (3, 4): A | {"from_end": 5}})
    assert p.waits(hands) == ([0, 0, 0, 4] + [0] * 60, 1, ("ok", 1))
    assert p.judge(encode([None, 0], {(0, 1): A | {"from_end": 0}}), False) == ("ok", 0)
    assert refused_everywhere(encode([None, 0], {(0, 1): A | {"at_least": 3, "from_end": 2}}), 10)
    assert start_lines(encode([None, 0], {(0, 1): A | {"at_least": 3, "from_end": 3}}), 1) == {0: 3}
    assert refused_everywhere(encode([None, None, 0], {(0, 1): A, (0, 2): A | {"from_end": 9}, (1, 2): A}), 11)


def read_whole(bits: int, fields: list[int], record: p.Record) -> None:
    """A sheet of one record on (0, 1) with this map and these bytes is read so; a byte less is 1, one more 7."""
    whole = bytes([2, 1, 0, 1, 0, bits, 0, 1] + fields)
    assert p.read(whole) == ("ok", ([None, 0], [record], [0, 0]))
    for size in range(len(whole)):
        assert p.read(whole[:size]) == ("refused", 1)
    assert p.read(whole + b"\x00") == ("refused", 7)


def test_finish_bytes() -> None:
    """The map of a link record, and its fields; 26 comes before i and j are looked at."""
    for bits, number in ((0x10, 26), (0x12, 26), (0x14, 26), (0x16, 26), (0x30, 4), (0x31, 4)):
        for rest in (b"", b"\x00", b"\x09\x09", b"\x00\x01" + b"\x00" * 6):
            assert p.read(bytes([2, 1, 0, 1, 0, bits]) + rest) == ("refused", number)
    head = [2, 1, 0, 1, 0]
    for bits, fields, record in ((0x11, [4, 1], (None, None, None, 260)), (0x13, [2, 0, 4, 0], (2, None, None, 4)),
                                 (0x15, [3, 0, 4, 0], (None, 3, None, 4)), (0x17, [2, 0, 3, 0, 4, 0], (2, 3, None, 4))):
        read_whole(bits, fields, p.Record(0, 1, True, *record))
        assert p.read(bytes(head + [bits, 0, 2])) == ("refused", 5)
    assert p.read(bytes([2, 2, 0, 1, 0, 1, 0, 1, 0x11, 0, 1])) == ("refused", 6)
    assert p.read(bytes([2, 2, 0, 1, 0, 1, 0, 1, 0x10, 0, 1])) == ("refused", 26)


# Request L1. The suction lip, step 2, lets go six ticks after the hand, step 1, is done.
LIP = bytes.fromhex("03 02 00 01 01 00  01 00 01  09 01 02 06 00")


def gap(ticks: int) -> dict:
    """An after link with a gap."""
    return A | {"gap": ticks}


def test_gap_accepted() -> None:
    """Gaps out of an open step, step 0 and a fixed step, in offsets, starts and a run."""
    assert p.read(LIP) == p.read(encode([None, None, 0], {(0, 1): A, (1, 2): gap(6)}))
    assert p.standplan_text(LIP) == "verdict 0\nwaits 0\nstart 0 0 0\nstart 1 0 0\nstart 2 1 6\n"
    assert p.starts(LIP, False, [0, 7, 0], [1] * 4) == (("ok", 0), [0, 0, 13, 1])
    _, table = p.plan(LIP, False, [0] * 9)
    verdict, state = p.begin(p.State(), 3, 3, NONE, table)
    assert verdict == ("ok", 3)
    verdict, state = p.finish(state, 1, table)
    assert verdict == ("ok", 0)
    for expected in (0, 0, 0, 0, 0, 4):
        verdict, state = p.tick(state, table)
        assert verdict == ("ok", expected)
    # Out of step 0 the gap is all of the weight, out of a fixed step it comes on top of the duration.
    assert start_lines(encode([None, 0], {(0, 1): gap(6)}), 1) == {0: 6}
    assert start_lines(encode([None, 4, 0], {(0, 1): gap(6), (1, 2): gap(3)}), 2) == {0: 13}
    # An at least on the same pair counts from the start and without the gap.
    assert start_lines(encode([None, None, 0], {(0, 1): A, (1, 2): gap(6) | {"at_least": 10}}), 2) == {0: 10, 1: 6}
    # A hand of no time and the gap reach an at least of 6 already: 0 is left out.
    assert start_lines(encode([None, None, 0], {(0, 1): A, (1, 2): gap(6) | {"at_least": 6}}), 2) == {1: 6}
    # A gap of 0 changes nothing.
    assert p.standplan_text(encode([None, None, 0], {(0, 1): A, (1, 2): gap(0)})) == \
        p.standplan_text(encode([None, None, 0], {(0, 1): A, (1, 2): A}))
    # At an equal gap a limit from the end just holds.
    assert start_lines(encode([None, None, 0], {(0, 1): A, (1, 2): gap(6) | {"from_end": 6}}), 2) == {1: 6}
    # Not before tick 10, at most 8 after the end of the hand: the hand starts at 2.
    assert start_lines(encode([None, None, 0], {(0, 1): A, (0, 2): gap(10), (1, 2): gap(6) | {"from_end": 8}}), 1) == {0: 2}


def test_gap_waits() -> None:
    """Two hands: a wait has gap 0, and the walk that calls for it may weigh more or less than that."""
    for ticks, offset in ((0, 0), (5, 0), (6, 1), (9, 4)):
        hands = encode([None, None, None, 0, 0],
                       {(0, 1): A, (0, 2): A, (1, 3): A, (2, 4): gap(ticks), (3, 4): {"at_most": 5}})
        assert p.waits(hands) == ([0, 0, 0, 4] + [0] * 60, 1, ("ok", 1))
        assert p.judge(hands, False) == ("refused", 12)
        assert start_lines(hands, 3) == {1: 0, 2: offset} and start_lines(hands, 4)[2] == ticks


def test_gap_refused() -> None:
    """10, 11 and 28 where gaps count."""
    # A gap above the limit from the end on the same pair: out of an open step, a fixed one and step 0.
    assert refused_everywhere(encode([None, None, 0], {(0, 1): A, (1, 2): gap(7) | {"from_end": 6}}), 10)
    assert refused_everywhere(encode([None, 3, 0], {(0, 1): A, (1, 2): gap(7) | {"from_end": 6}}), 10)
    assert refused_everywhere(encode([None, 0], {(0, 1): gap(7) | {"from_end": 6}}), 10)
    # Duration 3 and gap 7 against a limit from the start.
    for limit, verdict in ((10, ("ok", 0)), (9, ("refused", 10))):
        assert p.judge(encode([None, 3, 0], {(0, 1): A, (1, 2): gap(7) | {"at_most": limit}}), True) == verdict
    # From the start of a hand: 11, but 10 where the gap alone is above the limit.
    for ticks, number in ((9, 11), (10, 10)):
        assert refused_everywhere(encode([None, None, 0], {(0, 1): A, (1, 2): gap(ticks) | {"at_most": 9}}), number)
    # 2 waits for hand 1 and 3 comes after 2 and a gap, but at most 5 after the end of the hand.
    for ticks, verdict in ((5, ("ok", 1)), (6, ("refused", 28))):
        assert p.judge(encode([None, None, 0, 0, 0], {(0, 1): A, (0, 2): A, (1, 3): A | {"from_end": 5}, (1, 4): A,
                                                      (2, 3): gap(ticks), (2, 4): {"at_most": 7}}), True) == verdict


def test_gap_bytes() -> None:
    """The map of a link record with a gap, and its fields; without bit 0 it is 4, with bit 4 too."""
    for bits in (0x08, 0x0a, 0x0c, 0x0e, 0x18, 0x1a, 0x1c, 0x1e, 0x28, 0x29, 0x39):
        for rest in (b"", b"\x00", b"\x09\x09", b"\x00\x01" + b"\x00" * 8):
            assert p.read(bytes([2, 1, 0, 1, 0, bits]) + rest) == ("refused", 4)
    numbers = {2: 513, 4: 2, 8: 772, 16: 4}        # at least, at most, gap, at most from the end: in this order
    for others in (0, 2, 4, 6, 16, 18, 20, 22):
        bits = others | 9
        held = [numbers[bit] if bits & bit else None for bit in (2, 4, 8, 16)]
        fields = b"".join(number.to_bytes(2, "little") for number in held if number is not None)
        read_whole(bits, list(fields), p.Record(0, 1, True, *held))
    assert p.read(bytes([2, 2, 0, 1, 0, 1, 0, 1, 9, 0, 1])) == ("refused", 6)
    assert p.read(bytes([2, 2, 0, 1, 0, 1, 0, 1, 8, 0, 1])) == ("refused", 4)


def test_gap_limits() -> None:
    """The longest sheet, and the largest offset."""
    pairs = [(i, j) for i in range(64) for j in range(i + 1, 64)][:512]
    longest = encode([None] + [1] * 63, {pair: gap(1) | {"at_least": 1, "at_most": 65535, "from_end": 65535}
                                         for pair in pairs})
    assert len(longest) == container.LONGEST_SHEET and p.judge(longest, False) == ("ok", 0)
    chain = encode([None] + [65535] * 63, {(v, v + 1): gap(65535) for v in range(63)})
    assert start_lines(chain, 63) == {0: 8_191_875}


# Request L3. The stand sheet without "after start": half of its steps follow nothing.
LOOSE_STAND = bytes.fromhex("05 03 00 01 02 03 00 01 02 02 00 02 01 00 01 01 04 01 02 03 05 03 04 02 00")
# Document 01's two hands, likewise.
LOOSE_HANDS = encode([None, None, None, 0, 0], {(1, 3): A, (2, 4): A, (3, 4): {"at_most": 5}})
# No step has links.
LOOSE_ALL = encode([None, None, 7, None], {})
# The only forward link out of step 1 goes back to 0.
LOOSE_CIRCLE = encode([None, None], {(1, 0): A})


def loose(sheet: bytes) -> list[int]:
    """The steps of a sheet that an after link from 0 is put in for."""
    steps, records, leasts = p.read(sheet)[1]
    return p.loose_steps(len(steps), p.links_of(steps, records, leasts))


def test_loose_accepted() -> None:
    """Steps that follow nothing hang from the start: half of them, then all."""
    assert loose(LOOSE_STAND) == [1, 2] and p.standplan_text(LOOSE_STAND) == STAND_TEXT
    assert p.starts(LOOSE_STAND, False, [0, 0, 10, 0, 0], [1] * 7) == (("ok", 0), [0, 0, 0, 10, 12, 1, 1])
    assert p.plan(LOOSE_STAND, False, [0] * 25) == p.plan(STAND, False, [0] * 25)
    for bare in (LOOSE_ALL, encode([None, *[None, 7] * 31, None], {})):
        n = bare[0]
        assert loose(bare) == list(range(1, n)) and p.judge(bare, False) == ("ok", 0)
        assert all(start_lines(bare, v) == {0: 0} for v in range(n))
    # Links put in are no records: 512 of these, none a forward link, and 63 more links.
    pairs = [(i, j) for i in range(64) for j in range(64) if i != j][:512]
    full = encode([None] * 64, {pair: {"at_most": 1} for pair in pairs})
    assert len(loose(full)) == 63 and p.judge(full, False) == ("ok", 0) and start_lines(full, 63) == {0: 0}


def test_loose_entered() -> None:
    """A return does not enter a step, an at least does."""
    # 2 not before tick 9 and at most 5 after 1: 1 hangs from 0, and the return makes it later.
    for least, start in ((9, 4), (5, 0), (3, 0)):
        sheet = encode([None, 0, 0], {(0, 2): {"at_least": least}, (1, 2): {"at_most": 5}})
        assert loose(sheet) == [1] and start_lines(sheet, 1) == {0: start}
    # At most 3 on (1, 0): a return from 0 that weighs -3; at most 3 on (0, 1): a return to 0.
    for pair in ((1, 0), (0, 1)):
        sheet = encode([None, 0], {pair: {"at_most": 3}})
        assert loose(sheet) == [1] and start_lines(sheet, 1) == {0: 0}
    # 2 is entered by an at least alone, also one of 0; 1 is not.
    for least in (0, 4):
        sheet = encode([None, None, 0], {(1, 2): {"at_least": least}})
        assert loose(sheet) == [1] and start_lines(sheet, 2) == {0: least}
    assert loose(encode([None, None, 0], {(1, 2): gap(2)})) == [1]


def test_loose_impossible() -> None:
    """10 and 11 by the link put in: without it the step could come before 0."""
    for limit, verdict in ((3, ("ok", 0)), (2, ("refused", 10))):
        sheet = encode([None, 3, 0], {(0, 2): {"at_most": limit}, (1, 2): A})
        assert p.judge(sheet, True) == verdict
    assert refused_everywhere(encode([None, 0, 0], {(0, 2): A | {"from_end": 5}, (1, 2): {"at_least": 6}}), 10)
    assert refused_everywhere(encode([None, None, 0], {(0, 2): {"at_most": 9}, (1, 2): A}), 11)
    # Limits from the loose step itself are as ever.
    assert refused_everywhere(encode([None, None, 0], {(1, 2): A | {"at_most": 9}}), 11)
    assert start_lines(encode([None, None, 0], {(1, 2): A | {"from_end": 9}}), 2) == {1: 0}


def test_loose_waits() -> None:
    """Waits of loose steps and for them, and 28; the link from 0 is put in before them."""
    assert loose(LOOSE_HANDS) == [1, 2] and p.standplan_text(LOOSE_HANDS) == p.standplan_text(TWO_HANDS)
    assert p.judge(LOOSE_HANDS, False) == ("refused", 12)
    hand_waits = encode([None, None, None, 0], {(1, 3): A | {"from_end": 4}, (2, 3): A})
    assert loose(hand_waits) == [1, 2] and p.standplan_text(hand_waits) == p.standplan_text(HAND_WAITS)
    # 1 waits for 2, yet starts at 3 at the earliest: 3 comes at 7.
    later = encode([None, None, None, 0], {(0, 3): {"at_least": 7}, (1, 3): A | {"from_end": 4}, (2, 3): A})
    assert start_lines(later, 1) == {0: 3, 2: 0} and start_lines(later, 2) == {0: 0}
    assert refused_everywhere(encode([None, None, None, 0], {(1, 3): A | {"from_end": 4}, (2, 3): A | {"from_end": 4}}), 28)
    for least, verdict in ((5, ("ok", 1)), (6, ("refused", 28))):
        assert p.judge(encode([None, None, 0, 0, 0], {(1, 3): A | {"from_end": 5}, (1, 4): A, (2, 3): {"at_least": least},
                                                      (2, 4): {"at_most": 7}}), True) == verdict


def test_loose_circles() -> None:
    """A forward link into 0 is 8, a circle apart from 0 too; no sheet is 9."""
    assert refused_everywhere(LOOSE_CIRCLE, 8)
    for back in (A, {"at_least": 0}, gap(3)):
        assert refused_everywhere(encode([None, None], {(1, 0): back}), 8)
        assert refused_everywhere(encode([None, 0, 0], {(0, 2): A, (1, 0): back}), 8)
        assert refused_everywhere(encode([None, 0, 0], {(1, 2): A, (2, 0): back}), 8)
        assert refused_everywhere(encode([None, 0], {(0, 1): A, (1, 0): back}), 8)
    assert refused_everywhere(encode([None, 0, 0], {(1, 2): A, (2, 1): A}), 8)
    # Before 10: the circle weighs 5, and 1 is limited to tick 0.
    assert refused_everywhere(encode([None, 0], {(0, 1): {"at_most": 0}, (1, 0): {"at_least": 5}}), 8)
    # A return to 0 and one from it close no circle.
    assert p.judge(encode([None, 0], {(0, 1): {"at_most": 0}, (1, 0): {"at_most": 0}}), False) == ("ok", 0)


def test_loose_bytes() -> None:
    """The bytes are judged as sent: the link put in stands for no bit 0."""
    assert p.judge(bytes([2, 1, 0, 1, 0, 0x10, 0, 1, 4, 0]), True) == ("refused", 26)
    assert p.judge(bytes([2, 1, 0, 1, 0, 0x08, 0, 1, 4, 0]), True) == ("refused", 4)


# Request L6. The stand sheet, its hand, step 2, of at least eight ticks.
HAND = bytes.fromhex("05 05 00 01 02 03 00 05 08 00 02 02 00 02 01 00 01 00 01 01 00 02"
                     "01 01 04 01 02 03 05 03 04 02 00")


def offsets(sheet: bytes, v: int) -> dict[int, int]:
    """The offsets of v for all of its start set."""
    return p.accept(sheet, True).offsets[v]


def test_least_accepted() -> None:
    """A hand of at least eight ticks; the offset counts from its end, walks through it take the eight ticks."""
    assert p.read(HAND)[1][2] == [0, 0, 8, 0, 0] and p.judge(HAND, False) == ("ok", 0)
    # Glass down not before tick 8, so exposure at 10 or later: the lamps' 3 no longer count.
    assert p.standplan_text(HAND) == "verdict 0\nwaits 0\n" + "".join(
        f"start {line}\n" for line in ("0 0 0", "1 0 0", "2 0 0", "3 2 0", "4 2 2"))
    assert offsets(HAND, 3) == {0: 8, 2: 0} and offsets(HAND, 4) == {0: 10, 2: 2}
    assert p.starts(HAND, False, [0, 0, 10, 0, 0], [1] * 7) == (("ok", 0), [0, 0, 0, 10, 12, 1, 1])
    assert p.starts(HAND, False, [0, 0, 8, 0, 0], [1] * 5) == (("ok", 0), [0, 0, 0, 8, 10])
    assert p.starts(HAND, False, [0, 0, 7, 0, 0], [1] * 5) == (("refused", 13), [1] * 5)
    # At a least of 1 the hand reaches the lamps, at 0 it does not.
    for least, lines in ((0, {0: 1, 2: 0}), (1, {2: 0}), (2, {2: 0})):
        sheet = HAND[:8] + bytes([least, 0]) + HAND[10:]
        assert start_lines(sheet, 3) == lines
    assert p.standplan_text(HAND[:8] + b"\x00\x00" + HAND[10:]) == STAND_TEXT
    # The lip: six ticks after the end of the hand, whatever its least.
    lip = encode([None, None, 0], {(0, 1): A, (1, 2): gap(6)}, {1: 8})
    assert start_lines(lip, 2) == {1: 6} and offsets(lip, 2) == {0: 14, 1: 6}
    # Two hands in a row: from the end of the first, the least of the second alone.
    row = encode([None, None, None, 0], {(1, 2): gap(1), (2, 3): gap(2)}, {1: 30, 2: 400})
    assert offsets(row, 3) == {0: 433, 1: 403, 2: 2} and offsets(row, 2) == {0: 31, 1: 1} and start_lines(row, 3) == {2: 2}
    # An at least counts from the start of the hand, without its least.
    assert offsets(encode([None, None, 0], {(1, 2): {"at_least": 4}}, {1: 8}), 2) == {0: 4}


def test_least_deciding() -> None:
    """The least of b is added before the sums are compared."""
    for least, lines in ((0, {0: 10, 1: 0}), (9, {0: 10, 1: 0}), (10, {1: 0}), (11, {1: 0})):
        assert start_lines(encode([None, None, 0], {(0, 1): A, (1, 2): A | {"at_least": 10}}, {1: least}), 2) == lines
    # With a gap, that and the least are to reach it.
    for least, lines in ((3, {0: 10, 1: 6}), (4, {1: 6})):
        assert start_lines(encode([None, None, 0], {(0, 1): A, (1, 2): gap(6) | {"at_least": 10}}, {1: least}), 2) == lines
    # The wrong reading's sheet: 1 at 10, 1 to 2 at 0, 2 at 0. The least of 1 counts for nothing here, that of 2 does.
    links = {(0, 1): A, (1, 2): A, (1, 3): A, (2, 4): A, (3, 4): A}
    for leasts, lines in (({2: 9}, {1: 10, 2: 0}), ({2: 10}, {2: 0}), ({1: 50}, {1: 10, 2: 0}), ({1: 50, 2: 10}, {2: 0})):
        assert start_lines(encode([None, None, None, 10, 0], links, leasts), 4) == lines


def test_least_impossible() -> None:
    """11 becomes 10 once the least alone is above the limit; from the end of the hand itself it makes room instead."""
    for least, number in ((0, 11), (9, 11), (10, 10), (65535, 10)):
        assert refused_everywhere(encode([None, None, 0], {(0, 1): A, (1, 2): A | {"at_most": 9}}, {1: least}), number)
    for least, number in ((3, 11), (4, 10)):
        assert refused_everywhere(encode([None, None, 0], {(0, 1): A, (1, 2): gap(6) | {"at_most": 9}}, {1: least}), number)
        assert refused_everywhere(encode([None, None, 0], {(0, 2): A | {"from_end": 9}, (1, 2): gap(6)}, {1: least}), number)
    # A second hand between the first and exposure, which has nine ticks from the end of the first.
    for least, number in ((9, 11), (10, 10)):
        sheet = encode([None, None, None, 0], {(1, 2): A, (1, 3): A | {"from_end": 9}, (2, 3): A}, {1: 77, 2: least})
        assert refused_everywhere(sheet, number)
    # A gap above the limit from the end of the same hand is 10, whatever its least.
    for least in (0, 1, 65535):
        assert refused_everywhere(encode([None, None, 0], {(1, 2): gap(7) | {"from_end": 6}}, {1: least}), 10)
        assert p.judge(encode([None, None, 0], {(1, 2): gap(6) | {"from_end": 6}}, {1: least}), False) == ("ok", 0)


def test_least_finish() -> None:
    """A return from the end of a hand weighs its least too."""
    # Exposure at least 6 after the start of the hand, at most 5 after its end: the hand has to last 1.
    for least in (0, 1, 2):
        sheet = encode([None, None, 0], {(0, 1): A, (1, 2): A | {"at_least": 6, "from_end": 5}}, {1: least})
        assert refused_everywhere(sheet, 10) if least == 0 else start_lines(sheet, 2) == {0: 6, 1: 0}
    # Exposure not before tick 10, at most 5 after the hand is done: the longer the least, the earlier the hand.
    for least, start in ((0, 5), (3, 2), (4, 1), (5, 0), (8, 0), (10, 0), (11, 0)):
        sheet = encode([None, None, 0], {(0, 1): A, (0, 2): {"at_least": 10}, (1, 2): A | {"from_end": 5}}, {1: least})
        assert p.judge(sheet, False) == ("ok", 0) and start_lines(sheet, 1) == {0: start}
        assert start_lines(sheet, 2) == ({1: 0} if least >= 10 else {0: 10, 1: 0})
        assert p.starts(sheet, False, [0, least, 0], [0] * 3)[1] == [0, start, max(10, start + least)]
        assert p.starts(sheet, False, [0, 12, 0], [0] * 3)[1] == [0, start, start + 12]
    # From the end of another hand the return is taken with the least of the step it leads to, not of the one it counts from.
    other = encode([None, None, None, 0, 0], {(0, 1): A, (0, 2): A, (1, 4): A, (2, 3): A | {"from_end": 1},
                                              (4, 3): {"at_least": 5}}, {1: 90, 2: 3})
    assert p.waits(other) == ([0, 0, 2] + [0] * 61, 1, ("ok", 1))
    assert start_lines(other, 2) == {1: 1} and start_lines(other, 3) == {1: 5, 2: 0}
    assert offsets(other, 2) == {0: 91, 1: 1}


def test_least_waits() -> None:
    """A wait is an after link without a gap: behind the first link of a walk it weighs the least."""
    hands = encode([None, None, None, 0], {(0, 1): A, (0, 2): A, (1, 3): A | {"from_end": 4}, (2, 3): A}, {1: 5, 2: 7})
    assert p.standplan_text(hands) == p.standplan_text(HAND_WAITS)
    assert offsets(hands, 1) == {0: 7, 2: 0} and offsets(hands, 3) == {0: 12, 1: 0, 2: 5}
    assert p.judge(hands, False) == ("refused", 12)
    assert p.starts(hands, True, [0, 5, 7, 0], [0] * 4) == (("ok", 1), [0, 7, 0, 12])
    assert p.starts(hands, True, [0, 4, 7, 0], [2] * 4) == (("refused", 13), [2] * 4)
    assert p.starts(hands, False, [0, 4, 7, 0], [2] * 4) == (("refused", 12), [2] * 4)


def needs_least(least: int) -> bytes:
    """3 and hand 2 wait for hand 1. 4 comes 7 after 3, so 7 after the end of hand 1, but at most 1 after that of hand 2, which
    so starts 6 less its least after the end of hand 1; 5 comes 1 after that start, but at most 3 after the end of hand 1."""
    return encode([None, None, None, 0, 0, 0], {
        (1, 5): A | {"from_end": 3}, (2, 4): A | {"from_end": 1}, (2, 5): {"at_least": 1},
        (3, 4): {"at_least": 7}, (3, 5): {"at_most": 20}}, {2: least})


def test_least_28() -> None:
    """Waits that leave no start times with each open step at its least, but do with a greater least."""
    for least in (0, 3):
        assert refused_everywhere(needs_least(least), 28)
    for least in (4, 5, 9):
        assert p.waits(needs_least(least)) == ([0, 0, 2, 2] + [0] * 60, 2, ("ok", 1))
    assert start_lines(needs_least(4), 2) == {1: 2} and start_lines(needs_least(4), 4) == {1: 7, 2: 0}
    assert start_lines(needs_least(4), 5) == {1: 3} and start_lines(needs_least(9), 5) == {1: 1}
    assert start_lines(needs_least(9), 2) == {1: 0} and start_lines(needs_least(9), 4) == {2: 0}
    # The least of hand 1, whose end all else counts from, changes nothing.
    assert refused_everywhere(needs_least(3)[:4] + b"\x05\x09\x00" + needs_least(3)[5:], 28)
    # A circle of waits and forward links is 28, whatever the leasts.
    for leasts in ({}, {1: 9}, {1: 9, 2: 9}):
        assert refused_everywhere(encode([None, None, None, 0], {
            (0, 1): A, (0, 2): A, (1, 3): A | {"from_end": 4}, (2, 3): A | {"from_end": 4}}, leasts), 28)


def test_least_bytes() -> None:
    """Bit 2 of a step map, misplaced: 4, also where the bytes end behind it; its field, cut off: 1."""
    for bits in (4, 6, 7, 0x0d, 0x15, 0x25, 0x45, 0x85):
        for rest in (b"", b"\x08", b"\x08\x00", b"\x08\x00\x08\x00"):
            assert p.read(bytes([2, 0, 0, 1, bits]) + rest) == ("refused", 4)
    for bits in (4, 5, 6, 7):
        for rest in (b"", b"\x08", b"\x08\x00", b"\x08\x00\x00"):
            assert p.read(bytes([2, 0, 0, bits]) + rest) == ("refused", 4)
    whole = bytes([2, 0, 0, 1, 5, 8, 1])
    assert p.read(whole) == ("ok", ([None, None], [], [0, 264]))
    for size in range(len(whole)):
        assert p.read(whole[:size]) == ("refused", 1)
    assert p.read(whole + b"\x00") == ("refused", 7)
    # A map that is not allowed comes before the end of the bytes, and a field cut off before a later map.
    assert p.read(bytes([3, 0, 0, 1, 5, 8, 1, 6])) == ("refused", 4)
    assert p.read(bytes([3, 0, 0, 1, 5, 6])) == ("refused", 1)
    assert p.read(bytes([3, 0, 0, 1, 5, 255, 255, 5, 0, 0])) == ("ok", ([None] * 3, [], [0, 65535, 0]))


def test_least_lists() -> None:
    """Entries below their least are 13, if they are there; exactly at it they are taken."""
    one = encode([None, None, 7, None], {(0, 1): A, (1, 2): A}, {1: 8, 3: 65535})
    assert p.starts(one, False, [0, 8, 0, 65535], [9] * 4) == (("ok", 0), [0, 0, 8, 0])
    assert p.starts(one, False, [0, p.LONGEST, 0, p.LONGEST], [9] * 4) == (("ok", 0), [0, 0, p.LONGEST, 0])
    for wrong in ([0, 7, 0, 65535], [0, 0, 0, 65535], [0, 8, 0, 65534], [0, 8, 1, 65535], [1, 8, 0, 65535],
                  [0, p.LONGEST + 1, 0, 65535], [0, 7], [0, 8, 0, 0], [0] * 4):
        assert p.starts(one, False, wrong, [9] * 4) == (("refused", 13), [9] * 4)
        assert p.starts(one, False, wrong, [9]) == (("refused", 13), [9])
    for short in ([], [0], [0, 8], [0, 8, 0]):
        assert p.starts(one, False, short, [9] * 4) == (("refused", 14), [9] * 4)
    assert p.starts(one, False, [0, 8, 0, 65535], [9] * 3) == (("refused", 14), [9] * 3)
    assert p.starts(one, False, [0, 8, 0, 65535, 3], [9] * 5) == (("ok", 0), [0, 0, 8, 0, 9])


def test_least_run() -> None:
    """Run of the stand sheet with a hand of at least eight ticks: 20 before tick 8."""
    _, table = p.plan(HAND, False, [0] * 25)
    leasts = [0, 0, 8, 0, 0]
    verdict, state = p.begin(p.State(), 5, 5, leasts, table)
    assert verdict == ("ok", 7) and state.least == tuple(leasts) + (0,) * 59
    for now in range(8):
        assert state.tick == now and p.finish(state, 2, table) == (("refused", 20), state)
        verdict, state = p.tick(state, table)
        assert verdict == ("ok", 0)
    # 15, 14 and 17 come before 20.
    early = p.replace(state, tick=7)
    assert p.finish(p.replace(early, started=6), 2, table)[0] == ("refused", 15)
    assert p.finish(early, 2, table[:24])[0] == ("refused", 14)
    for s in (0, 1, 3, 5, 64):
        held = p.replace(early, least=(99,) * 64)
        assert p.finish(held, s, table) == (("refused", 17), held)
    ended = p.replace(early, finished=5)
    assert p.finish(ended, 2, table) == (("refused", 17), ended)
    assert p.finish(early, 2, table) == (("refused", 20), early)
    # Exactly at the least, at tick 8, it is done: 3 starts at once, 4 two ticks later.
    verdict, state = p.finish(state, 2, table)
    assert verdict == ("ok", 8) and state.finish[2] == 8
    assert p.finish(state, 2, table) == (("refused", 17), state)
    for expected in (0, 16):
        verdict, state = p.tick(state, table)
        assert verdict == ("ok", expected)
    assert list(state.start[:5]) == p.starts(HAND, False, leasts, [0] * 5)[1] == [0, 0, 0, 8, 10]


def test_least_begin() -> None:
    """Begin: 16, 2, 14, a short list of leasts too; the first N are kept as given, and 0 past these."""
    table = [0, NO, 0, NO]
    new = p.State()
    for lent in (table, table[:3]):
        for leasts in ([], [1]):
            assert p.begin(new, 2, 3, leasts, lent) == (("refused", 14), new)
            assert p.begin(new, 65, 3, leasts, lent) == (("refused", 2), new)
            begun = p.replace(new, started=1)
            assert p.begin(begun, 65, 3, leasts, lent) == (("refused", 16), begun)
    assert p.begin(new, 2, 3, [1, 2], table[:3]) == (("refused", 14), new)
    # All is set anew: nothing stays of the state lent, the list's further numbers are not looked at.
    old = p.State(n=9, open=9, tick=9, started=8, finished=9, start=(9,) * 64, finish=(9,) * 64, least=(9,) * 64)
    for leasts in ([7, 65535], [7, 65535, 3, 3]):
        verdict, state = p.begin(old, 2, 2, leasts, table)
        assert verdict == ("ok", 3)
        assert state == p.State(n=2, open=2, started=3, finished=1, least=(7, 65535) + (0,) * 62)
    verdict, state = p.begin(new, 64, 2 ** 64 - 1, [5] * 64, [NO] * 4096)
    assert verdict == ("ok", 1) and state.least == (5,) * 64


def test_least_ticks() -> None:
    """Start tick and least do not wrap, in states from anywhere."""
    table = [0, NO, 0, NO]
    for start, least, now, number in (
            (0, 65535, 65534, 20), (0, 65535, 65535, 0), (p.LAST_TICK, 0, p.LAST_TICK, 0), (p.LAST_TICK, 1, p.LAST_TICK, 20),
            (p.LAST_TICK, 1, 0, 20), (p.LAST_TICK, 65535, 65534, 20), (p.LAST_TICK - 65535, 65535, p.LAST_TICK, 0),
            (p.LAST_TICK - 65534, 65535, p.LAST_TICK, 20), (9, 0, 8, 20), (9, 0, 9, 0)):
        state = p.State(n=2, open=2, tick=now, started=3, finished=1, start=(0, start) + (0,) * 62, least=(0, least) + (0,) * 62)
        verdict, after = p.finish(state, 1, table)
        assert verdict == (("refused", number) if number else ("ok", 0))
        assert after == (state if number else p.replace(state, finished=3, finish=(0, now) + (0,) * 62))


def test_least_limits() -> None:
    """The longest sheets, the largest offset and start, and the largest returns."""
    rng = random.Random(1)
    for sheet in container.longest_least_sheets(rng):
        assert len(sheet) == container.LONGEST_SHEET and sheet[0] == 64 and 5 in sheet[4:4 + 3 * 63:3]
    chain = container.long_hands(65535, None)
    assert p.read(chain)[1][2] == [0] + [65535] * 63
    assert offsets(chain, 63)[0] == 8_191_875 and start_lines(chain, 63) == {62: 65535}
    assert p.starts(chain, False, [0] + [65535] * 63, [0] * 64)[1][63] == 8_191_875
    assert start_lines(container.heaviest_before_least(), 63) == {0: 8_191_875}
    assert p.judge(container.long_hands(65535, 65535), False) == ("ok", 0)
    assert refused_everywhere(container.long_hands(65535, 65534), 10)
    # The last hand at 31 x 131,070 + 65,535 or later, those before it 131,070 earlier each, none before 0.
    hands = container.hands_before(31)
    assert [start_lines(hands, v)[0] for v in (32, 31, 2, 1)] == [4_128_705, 3_997_635, 196_605, 65_535]
    assert refused_everywhere(container.each_waits(), 28)


def test_random_runs() -> None:
    """Random runs: begun with the sheet's own, wrong calls change nothing, and every refusal of the runner is met."""
    rng = random.Random(1)
    met = set()
    for sheet in (HAND, STAND, LIP, HAND_WAITS, needs_least(4), container.long_hands(3, None)) * 20:
        run = runs.random_run(rng, sheet)
        state = p.State()
        for call in run.calls:
            before = state if call.given is None else call.given
            assert runs.answer(before, call, run.table) == (call.verdict, call.state)
            state = call.state
            if call.verdict[0] == "refused":
                assert state == before
                met.add((call.name, call.verdict[1]))
    assert met >= {("begin", 16), ("begin", 2), ("begin", 14), ("tick", 15), ("tick", 14), ("tick", 18),
                   ("finish", 15), ("finish", 14), ("finish", 17), ("finish", 20)}


# Request L14. The stand sheet with its limit 1: glass down, step 3, lasts 2, and exposure comes at most 1 after its start.
TIGHT_STAND = STAND[:-2] + b"\x01\x00"


def clash(sheet: bytes) -> list[int]:
    """The records that clash, with room for just these, and with more, which stays as lent."""
    (kind, count), after = p.clashes(sheet, [77] * 512)
    assert kind == "ok" and after[count:] == [77] * (512 - count)
    assert p.clashes(sheet, [5] * count) == (("ok", count), after[:count])
    return after[:count]


def refused_clash(sheet: bytes, number: int, *lengths: int) -> bool:
    """Whether the call is refused so, with lent lists of no length, of these and of 512, and leaves them as lent."""
    return all(p.clashes(sheet, list(range(900, 900 + size))) == (("refused", number), list(range(900, 900 + size)))
               for size in (0, *lengths, 512))


def test_clash_one() -> None:
    """One record that clashes with itself, as 10 and as 11, in front, behind and between others."""
    assert clash(TIGHT_STAND) == [4]
    assert clash(encode([None, None, 0], {(0, 1): A, (1, 2): A | {"at_most": 9}})) == [1]
    for least in (0, 9, 10):                       # 11, 11 and 10
        assert clash(encode([None, None, 0], {(1, 2): A | {"at_most": 9}}, {1: least})) == [0]
    # Gap above the limit from the same end; the at least and the at most have nothing to do with it.
    for step in (None, 3):
        sheet = encode([None, step, 0, 0], {(0, 1): A, (0, 3): A | {"at_most": 5}, (1, 3): {"at_least": 0},
                                            (1, 2): gap(7) | {"at_least": 1, "from_end": 6}})
        assert clash(sheet) == [2]


def test_clash_several() -> None:
    """Several records, each needed; those that say less are dropped."""
    # The lamps, 3, then 2 more of the glass, 4 at the latest; the hand has nothing to do with it.
    links = {(0, 1): A, (0, 2): A, (0, 4): {"at_most": 4}, (1, 3): A, (2, 3): A, (3, 4): A}
    assert clash(encode([None, 3, 0, 2, 0], links)) == [2, 3, 5]
    # With an open hand a walk from its end to step 4 and back to 0 clashes too. The last record of either way is (3, 4), and of
    # (2, 3) and (1, 3) the later one is dropped first.
    assert p.judge(encode([None, 3, None, 2, 0], links), True) == ("refused", 10)
    assert clash(encode([None, 3, None, 2, 0], links)) == [2, 3, 5]
    # Were the lamps step 2 and the hand step 1, the hand would stay, and the part would be 11.
    other = encode([None, None, 3, 2, 0], links)
    assert p.judge(other, True) == ("refused", 10) and clash(other) == [2, 3, 5]
    assert p.judge(encode([None, None, 3, 2, 0], {(0, 4): {"at_most": 4}, (1, 3): A, (3, 4): A}), True) == ("refused", 11)
    # Four ways from 1 to 2 that are too long for the limit: the first stays.
    ways = {(1, v): {"at_least": 5} for v in (3, 4, 5, 6)} | {(v, 2): {"at_least": 5} for v in (3, 4, 5, 6)}
    assert clash(encode([None] + [0] * 6, ways | {(1, 2): {"at_most": 9}})) == [0, 1, 5]
    assert clash(encode([None] + [0] * 6, ways | {(1, 2): {"at_most": 9}, (1, 3): {"at_least": 4}})) == [0, 2, 6]


def test_clash_apart() -> None:
    """Several clashes that have nothing to do with each other: the one stays whose last record comes first."""
    eleven, ten = A | {"at_most": 9}, {"at_least": 5, "at_most": 4}
    for first, second, third in ((10, 11, 10), (11, 10, 10), (11, 10, 11), (11, 11, 11)):
        records = {(i, i + 1): ten if kind == 10 else eleven for i, kind in ((1, first), (3, second), (5, third))}
        sheet = encode([None] * 7, records)
        assert clash(sheet) == [0] and p.judge(sheet, True) == ("refused", 10 if 10 in (first, second, third) else 11)
        # What stays may be 11 where the sheet is 10: it is still refused.
        assert p.judge(encode([None] * 7, {(1, 2): records[1, 2]}), True) == ("refused", first)
    # (1, 2), (1, 5) and (2, 5) clash, and so do (3, 4) and (0, 4), which is the first of all; but (3, 4) is the last of all.
    sheet = encode([None, 3, 3, 8, 0, 0], {(0, 4): {"at_most": 7}, (1, 2): A, (1, 5): {"at_most": 5}, (2, 5): A, (3, 4): A})
    assert clash(sheet) == [1, 2, 3]


def test_clash_hangs() -> None:
    """The links from 0 of each part: a step hangs from the start once the last record with a forward link into it is dropped."""
    # 2 comes 3 after 1, and at most 2 after 0. That 1 comes after 0 is said, but were it not, it would be so.
    for first in (A, {"at_least": 0}, gap(9)):
        assert clash(encode([None, 3, 0], {(0, 1): first, (0, 2): {"at_most": 2}, (1, 2): A})) == [1, 2]
    assert clash(encode([None, 3, 0], {(0, 2): {"at_most": 2}, (1, 2): A})) == [0, 1]
    # Here the gap is needed: 1 that hangs from the start leaves room.
    assert clash(encode([None, 3, 0], {(0, 1): gap(1), (0, 2): {"at_most": 3}, (1, 2): A})) == [0, 1, 2]
    # 3 at most 4 after 0, behind 2, that lasts 5, behind 1: without (1, 2), 2 hangs from the start, and it is still too late.
    assert clash(encode([None, 7, 5, 0], {(0, 1): A, (0, 3): {"at_most": 4}, (1, 2): A, (2, 3): A})) == [1, 3]
    # The same as 11: hand 2 hangs from the start once it no longer follows hand 1.
    hands = encode([None, None, None, 0], {(0, 3): {"at_most": 4}, (1, 2): A, (2, 3): A})
    assert p.judge(hands, True) == ("refused", 11) and clash(hands) == [0, 2]
    # Only step 1 is open: the way from its end to 3 needs both.
    assert clash(encode([None, None, 0, 0], {(0, 3): {"at_most": 4}, (1, 2): A, (2, 3): A})) == [0, 1, 2]
    # A return into 1 does not keep it from hanging: that 0 comes at most 5 after 1.
    assert clash(encode([None, 3, 0], {(0, 1): A, (0, 2): {"at_most": 2}, (1, 0): {"at_most": 5}, (1, 2): A})) == [1, 3]
    # Of two forward links into 2 the last one is dropped, then 2 still follows 0 by the first, then it hangs from the start.
    assert clash(encode([None, 3, 4, 0], {(0, 1): A, (0, 2): A, (0, 3): {"at_most": 3}, (1, 2): A, (2, 3): A})) == [2, 4]


def test_clash_finish() -> None:
    """Limits from the end, with leasts."""
    # Exposure at least 6 after the start of the hand, at most 5 after its end: the hand has to last 1.
    for least, answer in ((0, [0]), (1, None)):
        sheet = encode([None, None, 0], {(1, 2): A | {"at_least": 6, "from_end": 5}}, {1: least})
        assert clash(sheet) == answer if answer else refused_clash(sheet, 31)
    # A second hand between the first and exposure: each record of the three, for 11 and, with a least of 10, for 10.
    for least, number in ((9, 11), (10, 10)):
        sheet = encode([None, None, None, 0], {(0, 1): A, (1, 2): A, (1, 3): A | {"from_end": 9}, (2, 3): A}, {1: 77, 2: least})
        assert p.judge(sheet, True) == ("refused", number) and clash(sheet) == [1, 2, 3]
    # The return to hand 1 is from its end: no walk from there takes it, so that the limit of 3 from 0 clashes.
    sheet = encode([None, None, 0, 0], {(0, 3): {"at_most": 9}, (1, 2): A | {"from_end": 1}, (2, 3): A})
    assert p.judge(sheet, True) == ("refused", 11) and clash(sheet) == [0, 1, 2]
    # An at least counts from the start of the hand: 2 has room, however long that lasts, and (3, 4) alone clashes.
    assert clash(encode([None, None, 0, None, 0], {(0, 2): {"at_most": 4}, (1, 2): {"at_least": 3},
                                                   (3, 4): A | {"at_most": 9}})) == [2]
    # From the end of step 0, with an after link that is there for that alone.
    assert clash(encode([None, None, 0], {(0, 1): A, (0, 2): A | {"from_end": 9}, (1, 2): A})) == [1, 2]


def test_clash_refused() -> None:
    """1 to 7 and 26, then 8, then 31, then 14, each before those behind it."""
    for size in range(len(TIGHT_STAND)):
        assert refused_clash(TIGHT_STAND[:size], 1, 1)
    assert refused_clash(b"\x00" + TIGHT_STAND[1:], 2) and refused_clash(b"\x41", 2)
    assert refused_clash(TIGHT_STAND[:1] + b"\x01\x02" + TIGHT_STAND[3:], 3)
    assert refused_clash(TIGHT_STAND[:3] + b"\x02" + TIGHT_STAND[4:], 4)
    two = [2, 2, 0, 1, 0, 1, 0, 1]
    for rest, number in (([8, 1, 0], 4), ([16, 0, 1], 26), ([1, 1, 1], 5), ([1, 0, 2], 5), ([1, 0, 1], 6)):
        assert refused_clash(bytes(two + rest), number, 1, 2)
    assert refused_clash(TIGHT_STAND + b"\x00", 7, 1)
    # 8 though it is impossible too, and though nothing is lent.
    impossible = {(1, 2): {"at_least": 5, "at_most": 4}}
    assert refused_clash(encode([None, 0, 0, 0], impossible | {(2, 1): A}), 8, 1)
    assert refused_clash(encode([None, 0, 0, 0], impossible | {(3, 0): A}), 8, 1)
    assert refused_clash(LOOSE_CIRCLE, 8)
    # 31: sound, with waits, 28, without records.
    for sheet in (STAND, TWO_HANDS, CLASH, late(10), LOOSE_ALL, bytes.fromhex("01 00 00 01")):
        assert refused_clash(sheet, 31, 1)
    # 14, if a number less is lent than there are records; with just as many not.
    chain = encode([None, 3, 0, 2, 0], {(0, 1): A, (0, 2): A, (0, 4): {"at_most": 4}, (1, 3): A, (2, 3): A, (3, 4): A})
    for size in range(3):
        assert p.clashes(chain, [4] * size) == (("refused", 14), [4] * size)
    assert p.clashes(chain, [4] * 3) == (("ok", 3), [2, 3, 5]) and p.clashes(chain, [4] * 5) == (("ok", 3), [2, 3, 5, 4, 4])
    assert p.clashes(TIGHT_STAND, []) == (("refused", 14), []) and p.clashes(TIGHT_STAND, [9]) == (("ok", 1), [4])


def test_clash_limits() -> None:
    """Sheets of N 64: as many records that clash as there can be, one of 512, and any of 512."""
    rng = random.Random(1)
    assert clash(container.circle_of_all(rng, 10, 64)) == list(range(64))
    assert clash(container.heaviest_circle(65534)) == list(range(64)) and refused_clash(container.heaviest_circle(65535), 31)
    for pair, kind, number in (((0, 1), 10, 0), ((63, 62), 10, 511), ((63, 62), 11, 511)):
        sheet = container.one_clashes(rng, pair, kind)
        assert sheet[1:3] == b"\x00\x02" and p.judge(sheet, True) == ("refused", kind)
        assert p.clashes(sheet, [8]) == (("ok", 1), [number])
    for kind in (10, 11):
        # The first record; the first limit, on step 9, and the first record into it, behind 55 limits and one on (1, 0).
        assert p.clashes(container.all_clash(rng, kind), [8]) == (("ok", 1), [0])
        assert p.clashes(container.each_with_its_limit(kind), [8] * 2) == (("ok", 2), [0, 56])
        full = container.circle_of_all(rng, kind, 512)
        assert full[1:3] == b"\x00\x02" and p.judge(full, True) == ("refused", kind)
        assert p.clashes(full, [8] * 512)[0] == ("ok", 64 if kind == 10 else 63)


# Request L4. The stand sheet from its parts, and the parts of a sheet of two steps.
STAND_STEPS = [Part(), Part(3), Part(), Part(2), Part(1)]
STAND_RECORDS = [p.Record(i, j, True, None, 2 if i == 3 else None) for i, j in ((3, 4), (1, 4), (0, 2), (2, 3), (0, 1))]
PAIR = [Part(), Part()]


def written(steps: list[Part], records: list[p.Record]) -> str:
    """The bytes written, in hexadecimal: with just enough room, and with more, which stays as lent; a byte less is 14."""
    n, r = len(steps), len(records)
    (kind, size), after = write(n, steps, r, records, [77] * 6000)
    assert kind == "ok" and after[size:] == [77] * (6000 - size)
    assert write(n, steps, r, records, [5] * size) == (("ok", size), after[:size])
    assert write(n, steps, r, records, [5] * (size - 1)) == (("refused", 14), [5] * (size - 1))
    return bytes(after[:size]).hex(" ")


def refused_write(number: int, steps: list[Part], records: list[p.Record], n: int | None = None, r: int | None = None) -> bool:
    """Whether the parts are refused so, with no room, little and plenty, which stay as lent; n, r: other counts than the lists'."""
    n, r = len(steps) if n is None else n, len(records) if r is None else r
    return all(write(n, steps, r, records, list(range(size))) == (("refused", number), list(range(size))) for size in (0, 4, 6000))


def on(i: int, j: int, after: bool = False, **fields: int) -> p.Record:
    """A record with these fields alone."""
    return p.Record(i, j, after, *(fields.get(name) for name in parts.NAMES))


def test_write_stand() -> None:
    """Document 01's stand sheet, its records in any order."""
    assert written(STAND_STEPS, STAND_RECORDS) == STAND.hex(" ")
    assert written(STAND_STEPS, STAND_RECORDS[::-1]) == written(STAND_STEPS, sorted(STAND_RECORDS, key=str)) == STAND.hex(" ")
    assert len(STAND) == 31 and write(5, STAND_STEPS, 5, STAND_RECORDS, [9] * 33) == (("ok", 31), list(STAND) + [9, 9])
    assert write(5, STAND_STEPS, 5, STAND_RECORDS, [9] * 30) == (("refused", 14), [9] * 30)
    assert p.standplan_text(bytes.fromhex(written(STAND_STEPS, STAND_RECORDS))) == STAND_TEXT
    assert written([Part()], []) == "01 00 00 01"
    # Rising by i, then by j, as numbers; both ways round are two pairs.
    steps = [Part()] + [Part(1)] * 20
    rising = bytes.fromhex(written(steps, [on(10, 2, True), on(2, 10, True), on(2, 9, True), on(1, 20, True), on(10, 1, True)]))
    assert rising[-15:].hex(" ") == "01 01 14 01 02 09 01 02 0a 01 0a 01 01 0a 02"


def test_write_fields() -> None:
    """A fixed 0 is left out; any other field is kept, 0 or not, low byte first."""
    assert written([Part(), Part(0), Part(1), Part(256), Part(65535)], []) == "05 00 00 01 00 02 01 00 02 00 01 02 ff ff"
    assert written([Part(), Part(), Part(least=0), Part(least=8), Part(least=513)], []) == \
        "05 00 00 01 01 05 00 00 05 08 00 05 01 02"
    for record, bits in ((on(0, 1, True), "01 00 01"), (on(0, 1, at_least=0), "02 00 01 00 00"),
                         (on(1, 0, at_most=0), "04 01 00 00 00"),
                         (on(0, 1, True, gap=0), "09 00 01 00 00"), (on(0, 1, True, from_end=0), "11 00 01 00 00"),
                         (on(0, 1, at_least=258, at_most=772), "06 00 01 02 01 04 03"),
                         (on(0, 1, True, at_least=1, at_most=2, gap=3, from_end=4), "1f 00 01 01 00 02 00 03 00 04 00"),
                         (on(0, 1, True, gap=6, from_end=5), "19 00 01 06 00 05 00")):
        assert written(PAIR, [record]) == "02 01 00 01 01 " + bits
    # A sheet read and written again: two bytes less for each fixed 0 that it has written out, the least of 0 stays.
    sheet = bytes.fromhex("04 02 00 01 02 00 00 05 00 00 02 00 00 0b 00 01 00 00 00 00 04 03 02 00 00")
    assert written(*parts.taken_apart(sheet)) == "04 02 00 01 00 05 00 00 00 0b 00 01 00 00 00 00 04 03 02 00 00"
    assert p.read(sheet) == p.read(bytes.fromhex(written(*parts.taken_apart(sheet))))
    # Written though it is then 8, or 10: only the parts are judged.
    assert p.judge(bytes.fromhex(written(PAIR, [on(1, 0, True), on(0, 1, True)])), True) == ("refused", 8)
    assert p.judge(bytes.fromhex(written(PAIR, [on(0, 1, at_least=5, at_most=4)])), True) == ("refused", 10)


def test_write_refused() -> None:
    """Each refusal of the parts."""
    after = [on(0, 1, True)]
    assert refused_write(2, PAIR, after, n=0) and refused_write(2, [], []) and refused_write(2, [Part()] * 65, []) and \
        refused_write(2, PAIR, after, n=65)
    assert refused_write(3, PAIR, after, r=513) and refused_write(3, PAIR, after, r=65535) and refused_write(3, PAIR, after * 513)
    for start in (Part(0), Part(7), Part(least=0), Part(least=7), Part(0, 0)):
        assert refused_write(4, [start, Part()], after) and refused_write(4, [start], [])
    for ticks, least in ((0, 0), (5, 0), (0, 5), (5, 5)):
        assert refused_write(4, PAIR + [Part(ticks, least)], after)
    assert refused_write(4, PAIR, [on(0, 1)])
    for fields in ({}, {"at_least": 3}, {"at_most": 3}, {"at_least": 3, "at_most": 3}):
        assert refused_write(4, PAIR, [on(0, 1, gap=0, **fields)]) and refused_write(26, PAIR, [on(0, 1, from_end=0, **fields)])
        assert refused_write(4, PAIR, [on(0, 1, gap=2, from_end=2, **fields)])
    for i, j in ((0, 2), (2, 0), (2, 2), (0, 0), (1, 1), (255, 1), (0, 64)):
        assert refused_write(5, PAIR, [on(i, j, True)])
    three = [on(0, 1, True), on(1, 0, at_most=9), on(1, 2, True)]
    steps = PAIR + [Part(4)]
    for again in three + [on(0, 1, at_least=4), on(1, 0, True), on(1, 2, at_most=0)]:
        for at in range(4):
            assert refused_write(6, steps, three[:at] + [again] + three[at:])
    # 14: fewer steps or records than their counts.
    assert refused_write(14, PAIR, after, n=3) and refused_write(14, PAIR, after, r=2) and refused_write(14, [], [], n=1)
    assert refused_write(14, PAIR, [], r=512) and refused_write(14, [], [on(0, 63, True)], n=64)
    # More of them are not looked at.
    wrong = [on(0, 1), on(0, 1, gap=3), on(0, 1, from_end=3), on(5, 5, True), on(0, 1, True)]
    assert write(2, PAIR + [Part(3, 3)], 1, after + wrong, [9] * 9) == (("ok", 8), [2, 1, 0, 1, 1, 1, 0, 1, 9])
    assert write(1, PAIR, 0, wrong, [9] * 5) == (("ok", 4), [1, 0, 0, 1, 9])


def test_write_order() -> None:
    """2, 3, 4, 26, 5, 6, 14, over the whole of the parts, wherever the faults stand."""
    records = {4: [on(0, 1)], 26: [on(1, 0, from_end=3)], 5: [on(0, 9, True)], 6: [on(2, 1, True), on(2, 1, at_most=3)]}
    order = [2, 3, 4, 26, 5, 6, 14]
    for faults in range(1, 128):
        there = [number for bit, number in enumerate(order) if faults >> bit & 1]
        parts_there = [record for number in there for record in records.get(number, [])]
        n, r = 66 if 2 in there else 3, 513 if 3 in there else len(parts_there)
        for lent in (parts_there, parts_there[::-1]):
            if 14 not in there or n > 64 or r > 512:
                more = lent + [on(1, 2, True)]
                assert write(n, PAIR + [Part()] * (n - 2), r, more, [1] * 6000) == (("refused", there[0]), [1] * 6000)
            else:                                  # a short list of steps, of records, and a short buffer
                assert refused_write(there[0], PAIR, lent, n=n) and refused_write(there[0], PAIR + [Part()], lent, r=r + 1)
                assert write(n, PAIR + [Part()], r, lent, [1] * 5) == (("refused", there[0]), [1] * 5)
    # By number, not as a reader meets them: R before what is said of the steps, the steps before the records.
    assert refused_write(3, [Part(1)], [], r=513) and refused_write(2, [Part(1)], [], n=65, r=513)
    assert refused_write(4, [Part(), Part(1, 1)], [on(5, 5, from_end=1)] * 2, n=2)
    # Of short lists what is there is judged, against N as given.
    assert refused_write(4, [Part(1)], [], n=64, r=9) and refused_write(26, [], [on(0, 1, from_end=1)], n=2, r=9)
    assert refused_write(5, [Part()], [on(0, 2, True)], n=2, r=9) and refused_write(6, [], [on(0, 1, True)] * 2, n=2, r=9)


def test_write_limits() -> None:
    """64 steps, 512 records and the longest sheets."""
    rng = random.Random(1)
    for sheet in container.longest_least_sheets(rng) + [container.longest_sheet(rng, gap=True), container.heaviest_sheet()]:
        steps, records = parts.taken_apart(sheet)
        rng.shuffle(records)
        assert written(steps, records) == sheet.hex(" ")
    full = [on(i, j, True) for i in range(23, -1, -1) for j in range(24) if i != j][:512]
    sheet = bytes.fromhex(written([Part()] * 64, full))
    assert sheet[:3] == b"\x40\x00\x02" and len(sheet) == 3 + 64 + 3 * 512 and p.judge(sheet, True) == ("refused", 8)
    assert refused_write(6, [Part()] * 64, full[:511] + full[:1]) and refused_write(3, [Part()] * 64, full + full[:1])


# Request L5. The start stands at 3 at most, the hand at 2.
STAND_PRICE = """registers 0 2
registers 2 1
comparisons 0 1
comparisons 1 1
comparisons 2 1
comparisons 3 2
comparisons 4 2
total 3 7
"""
# Hand 1 comes 1,000 after the start, 2 comes 1,000 after the hand: 2,000 after the start, but there the start does not decide.
FAR = encode([None, None, 0], {(0, 1): {"at_least": 1000}, (1, 2): A | {"gap": 1000}})
# Two hands, 3 waits for hand 2 by its limit on 4 and lasts 24, and 5 comes 1,000 after it: 1,024 after each hand.
WAITING = encode([None, None, None, 24, 0, 0], {(1, 3): A, (2, 4): A, (3, 4): {"at_most": 5}, (3, 5): A | {"gap": 1000}})


def counts(sheet: bytes, allow: bool = True, table: list[int] = price.PRINTED) -> tuple[list[int], list[int], tuple[int, int]]:
    """Registers, comparisons and totals: with just enough lent, and with more, which stays as lent; one number less is 14."""
    n = sheet[0]
    verdict, registers, comparisons, totals = price.price(sheet, allow, [7] * n, [8] * n, table)
    assert verdict == p.judge(sheet, allow) and totals == (sum(registers), sum(comparisons))
    more = price.price(sheet, allow, [7] * (n + 2), [8] * (n + 1), table)
    assert more == (verdict, registers + [7] * 2, comparisons + [8], totals)
    for less, enough in ((n - 1, n), (n, n - 1), (0, 64), (64, 0)):
        assert refused_price(sheet, 14, allow, (less, enough))
    return registers, comparisons, totals


def refused_price(sheet: bytes, number: int, allow: bool = True, *lengths: tuple[int, int]) -> bool:
    """Whether the price is refused so, with no numbers lent, few and plenty, or so many; they stay as lent."""
    return all(price.price(sheet, allow, list(range(first)), list(range(second)))
               == (("refused", number), list(range(first)), list(range(second)), (0, 0))
               for first, second in lengths or ((0, 0), (0, 64), (64, 0), (64, 64)))


def test_price_stand() -> None:
    """Document 01's sheets: the stand sheet, the smallest, two hands, and the refused ones."""
    assert price.price_text(STAND) == STAND_PRICE
    assert counts(STAND) == counts(STAND, False) == ([2, 0, 1, 0, 0], [1, 1, 1, 2, 2], (3, 7))
    assert price.price_text(bytes.fromhex("01 00 00 01")) == "registers 0 0\ncomparisons 0 1\ntotal 0 1\n"
    # With the wait 2 to 3 each hand is compared at 3, and hand 2 alone at 4.
    assert price.price_text(TWO_HANDS) == ("registers 0 0\nregisters 1 0\nregisters 2 0\ncomparisons 0 1\ncomparisons 1 1\n"
                                           "comparisons 2 1\ncomparisons 3 2\ncomparisons 4 1\ntotal 0 6\n")
    assert counts(TWO_HANDS) == ([0] * 5, [1, 1, 1, 2, 1], (0, 6)) and refused_price(TWO_HANDS, 12, False)
    assert price.price_text(STAND[:-2] + b"\x01\x00") == "refused 10\n" and refused_price(TIGHT_STAND, 10)
    assert price.price_text(STAND[:-1]) == "refused 1\n" and price.price_text(b"") == "refused 1\n"
    assert price.price_text(LOOSE_STAND) == STAND_PRICE and price.price_text(LOOSE_CIRCLE) == "refused 8\n"
    # A hand that nothing follows stands nowhere; a fixed step has no line.
    assert price.price_text(LOOSE_ALL) == ("registers 0 0\nregisters 1 0\nregisters 3 0\ncomparisons 0 1\ncomparisons 1 1\n"
                                           "comparisons 2 1\ncomparisons 3 1\ntotal 0 4\n")


def test_price_table() -> None:
    """The printed table, and the counts at its edges, of the start and of a hand."""
    assert len(price.PRINTED) == 1024 and price.PRINTED[:10] == [0, 0, 1, 2, 2, 3, 3, 3, 3, 4]
    for n, b in enumerate(price.PRINTED):
        assert 2 ** b >= n and (b == 0 or 2 ** (b - 1) < n)
    for b in range(1, 10):
        assert price.PRINTED[2 ** b - 1:2 ** b + 2] == [b if b > 1 else 0, b, b + 1]
    for ticks, registers in ((0, 0), (1, 0), (2, 1), (3, 2), (4, 2), (5, 3), (512, 9), (513, 10), (1023, 10)):
        assert counts(container.one_gap(False, ticks)) == ([registers, 0, 0], [1, 1, 1], (registers, 3))
        assert counts(container.one_gap(True, ticks)) == ([0, registers, 0], [1, 1, 1], (registers, 3))
    for ticks in (1024, 1025, 65535):
        for hand in (False, True):
            sheet = container.one_gap(hand, ticks)
            assert refused_price(sheet, 19) and price.price_text(sheet) == "refused 19\n"
    # Another table: entry 0 counts for a hand that stands nowhere too, and not for a fixed step.
    other = [5 + n for n in range(1024)]
    assert counts(STAND, table=other) == ([8, 0, 7, 0, 0], [1, 1, 1, 2, 2], (15, 7))
    assert counts(LOOSE_ALL, table=other) == ([5, 5, 0, 5], [1] * 4, (15, 4))
    assert price.price_text(container.one_gap(True, 1023), other).startswith("registers 0 5\nregisters 1 1028\n")


def test_price_plan() -> None:
    """The offsets are those of the plan, not of the whole start sets."""
    assert offsets(FAR, 2) == {0: 2000, 1: 1000} and start_lines(FAR, 2) == {1: 1000}
    assert counts(FAR) == ([10, 10, 0], [1, 1, 1], (20, 3))
    for at_least, wanted in ((1023, 10), (1024, None)):            # where the start stands
        sheet = encode([None, None, 0], {(0, 1): {"at_least": at_least}, (1, 2): A | {"gap": 1000}})
        assert refused_price(sheet, 19) if wanted is None else counts(sheet)[0] == [wanted, 10, 0]
    # By the limit the start decides step 3 of the stand sheet, at 1; where the limit has room, the hand alone does.
    assert counts(STAND[:-2] + b"\x03\x00")[:2] == ([2, 0, 1, 0, 0], [1, 1, 1, 1, 2])
    # The least of its own step is no part of an offset; with a least of 1 or more the start decides neither 3 nor 4.
    for least, wanted in ((0, ([2, 0, 1, 0, 0], [1, 1, 1, 2, 2], (3, 7))), (1, ([0, 0, 1, 0, 0], [1] * 5, (1, 5))),
                          (65535, ([0, 0, 1, 0, 0], [1] * 5, (1, 5)))):
        assert counts(HAND[:8] + least.to_bytes(2, "little") + HAND[10:]) == wanted
    # A wait counts as a comparison, and what follows it has its offset from the hand that is waited for.
    assert start_lines(HAND_WAITS, 1) == {2: 0} and start_lines(HAND_WAITS, 3) == {1: 0}
    assert counts(HAND_WAITS) == ([0] * 4, [1] * 4, (0, 4)) and refused_price(HAND_WAITS, 12, False)


def test_price_refused() -> None:
    """1 to 12, 26 and 28 before 19, 19 before 14."""
    assert start_lines(WAITING, 5) == {1: 1024, 2: 1024} and refused_price(WAITING, 12, False) and refused_price(WAITING, 19, True)
    near = bytearray(WAITING)
    near[7] = 23                                                   # step 3 lasts a tick less
    assert counts(bytes(near)) == ([0, 10, 10, 0, 0, 0], [1, 1, 1, 2, 1, 2], (20, 8)) and refused_price(bytes(near), 12, False)
    for sheet, number in ((b"", 1), (b"\x00", 2), (b"\x41", 2), (b"\x01\x01\x02", 3), (b"\x01\x00\x00\x00", 4), (STAND + b"\0", 7),
                          (bytes([2, 1, 0, 1, 0, 16]), 26), (bytes([2, 1, 0, 1, 0, 1, 1, 1]), 5), (CLASH, 28), (late(8), 28),
                          (bytes([2, 2, 0, 1, 0, 1, 0, 1, 1, 0, 1]), 6), (container.heaviest_sheet(), 19)):
        for allow in (False, True):
            assert refused_price(sheet, number, allow) and price.price_text(sheet) == f"refused {number}\n"
    # Far offsets and an earlier refusal: 8, 10, 11, 28.
    far = {(0, 1): A | {"gap": 5000}, (1, 2): A | {"gap": 5000}}
    for more, number in (({(2, 1): A}, 8), ({(0, 2): {"at_most": 9999}}, 10), ({(0, 2): {"at_most": 10000}}, 11), ({}, 19)):
        assert refused_price(encode([None, None, 0], far | more), number)
    assert refused_price(encode([None, None, None, 0], {(1, 3): A | {"gap": 2000, "from_end": 2000},
                                                        (2, 3): A | {"gap": 2000, "from_end": 2000}}), 28)


def test_price_limits() -> None:
    """64 steps: chains, and 31 hands that are compared at each of 32 steps."""
    for first, last in ((0, 47), (47, 0), (23, 24)):
        assert counts(container.chain_to(first, last)) == ([10] + [0] * 63, [1] * 64, (10, 64))
        assert refused_price(container.chain_to(first + 1, last), 19) and refused_price(container.chain_to(first, last + 1), 19)
    for behind, registers in ((0, 0), (1, 5), (32, 10), (33, 10)):
        assert counts(container.hands_into_one(behind)) == \
            ([0] + [registers] * 31 + [0] * 32, [1] * 32 + [31] * 32, (31 * registers, 1024))
    assert refused_price(container.hands_into_one(34), 19)
    largest = [65535] * 1024
    assert counts(container.hands_into_one(33), table=largest)[2] == (32 * 65535, 1024)
    for sheet, number in zip(container.largest_price_sheets(random.Random(1))[-4:], (0, 1, 19, 19)):
        assert sheet[:3] == b"\x40\x00\x02"
        assert refused_price(sheet, 19) if number == 19 else price.priced(sheet, True).verdict == ("ok", number)


def test_price_of_texts() -> None:
    """What standplan prints gives the price: a comparison for each start line, registers by the largest offset of the lines that
    name a step as deciding."""
    for sheet in generate.generate(1, 60, priced=True) + generate.generate(1, 60, least=True):
        lines = [list(map(int, line.split()[1:])) for line in p.standplan_text(sheet).splitlines() if line.startswith("start")]
        if not lines:
            assert price.price_text(sheet) == p.standplan_text(sheet)
            continue
        largest = {a: 0 for a, step in enumerate(p.read(sheet)[1][0]) if step is p.OPEN}
        for _, a, offset in lines:
            largest[a] = max(largest[a], offset)
        if max(largest.values()) > 1023:
            assert refused_price(sheet, 19)
            continue
        registers = [f"registers {a} {max(offset - 1, 0).bit_length()}" for a, offset in largest.items()]
        compared = [f"comparisons {v} {sum(line[0] == v for line in lines)}" for v in range(sheet[0])]
        total = sum(int(line.split()[2]) for line in registers)
        assert price.price_text(sheet).splitlines() == registers + compared + [f"total {total} {len(lines)}"]


if __name__ == "__main__":
    tests = [test for name, test in sorted(globals().items()) if name.startswith("test_")]
    for test in tests:
        test()
        print(test.__name__, "passed")
