"""tools/explain: what it says of a sheet for each refusal, of plans and of lists, word for word."""
import subprocess
import tempfile
from pathlib import Path

ROOT = Path(__file__).resolve().parents[2]
TOOL = ROOT / "tools/explain"

# Sheets in bytes that are refused at reading, and what is said of each.
BYTES = [
    ("", "refused 1: the bytes end before a field is complete\nbyte 0: the sheet has 0 bytes, and its end is inside the counts of steps and records\n"),
    ("02 00 00 01 02 05", "refused 1: the bytes end before a field is complete\nbyte 6: the sheet has 6 bytes, and its end is inside the record of step 1\n"),
    ("02 01 00 01 01 05 00 01 05", "refused 1: the bytes end before a field is complete\nbyte 9: the sheet has 9 bytes, and its end is inside link record 0 of 1\n"),
    ("00", "refused 2: N is 0 or above 64\nbyte 0: N is 0, and a sheet has 1 to 64 steps\n"),
    ("41 00 00", "refused 2: N is 0 or above 64\nbyte 0: N is 65, and a sheet has 1 to 64 steps\n"),
    ("01 01 02 01", "refused 3: R is above 512\nbyte 1: R is 513, and a sheet has at most 512 link records\n"),
    ("01 00 00 02", "refused 4: a map that is not allowed or has an unknown bit\nbyte 3: the map of step 0 is 02, and it can only be 01 (open), for it is the start\n"),
    ("02 00 00 01 03", "refused 4: a map that is not allowed or has an unknown bit\n"
     "byte 4: the map of step 1 is 03, and it can only be 01 (open), 05 (open, with a least), 02 (fixed) or 00 (fixed, duration 0)\n"),
    ("01 00 00 05 08 00", "refused 4: a map that is not allowed or has an unknown bit\nbyte 3: the map of step 0 is 05, and it can only be 01 (open), for it is the start\n"),
    ("02 00 00 01 06 08 00 03 00", "refused 4: a map that is not allowed or has an unknown bit\n"
     "byte 4: the map of step 1 is 06, and it can only be 01 (open), 05 (open, with a least), 02 (fixed) or 00 (fixed, duration 0)\n"),
    ("02 00 00 01 05 08", "refused 1: the bytes end before a field is complete\nbyte 6: the sheet has 6 bytes, and its end is inside the record of step 1\n"),
    ("02 01 00 01 01 00 00 01", "refused 4: a map that is not allowed or has an unknown bit\nbyte 5: the map of link record 0 is 00, an empty map\n"),
    ("02 01 00 01 01 21 00 01", "refused 4: a map that is not allowed or has an unknown bit\nbyte 5: the map of link record 0 is 21, a bit that no link map has\n"),
    ("02 01 00 01 01 0a 00 01", "refused 4: a map that is not allowed or has an unknown bit\nbyte 5: the map of link record 0 is 0a: bit 3, a gap, without bit 0, after\n"),
    ("02 01 00 01 01 18 00 01", "refused 4: a map that is not allowed or has an unknown bit\nbyte 5: the map of link record 0 is 18: bit 3, a gap, without bit 0, after\n"),
    ("02 01 00 01 01 09 00 01 06", "refused 1: the bytes end before a field is complete\nbyte 9: the sheet has 9 bytes, and its end is inside link record 0 of 1\n"),
    ("03 01 00 01 01 01 01 03 01", "refused 5: i or j is N or more, or i = j\nbyte 7: link record 0 is for the pair 3, 1, and the steps are 0 to 2\n"),
    ("02 01 00 01 01 01 01 01", "refused 5: i or j is N or more, or i = j\nbyte 7: link record 0 is for the pair 1, 1, from a step to itself\n"),
    ("03 02 00 01 01 01 01 00 02 01 00 01",
     "refused 6: the pair does not rise, or, in parts to be written, comes twice\nbyte 10: link record 1 is for the pair 0, 1, and record 0 before it for 0, 2; pairs rise\n"),
    ("01 00 00 01 00 00", "refused 7: bytes follow the last record\nbyte 4: the last record ends before it, and the sheet has 6 bytes\n"),
    ("02 01 00 01 01 10 00 01 05 00", "refused 26: a link map with bit 4, at most from the finish, and without bit 0, after\n"
     "byte 5: the map of link record 0 is 10: bit 4, at most from the finish, without bit 0, after\n"),
]

STEPS = "step 0 open # start\nstep 1 fixed 3 # lamps\nstep 2 open # hand\nstep 3 fixed 2 # glass down\nstep 4 fixed 1 # exposure\n"
LEASTS = STEPS.replace("step 2 open", "step 2 open least 8")
LINKS = "link 0 1 after\nlink 0 2 after\nlink 1 4 after\nlink 2 3 after\n"
CLASH = "These records clash; without any one of them the others do not:\n"
# Sheets as text: the words behind the file, the text, the status and what is said.
TEXTS = [
    # the circle's steps
    ([], STEPS + LINKS + "link 3 4 after at-most 2\nlink 4 2 at-least 0\n", 1, """refused 8: forward links close a circle
The circle: hand (2), then glass down (3), then exposure (4), then hand (2). Its links:
  line 9, link 2 3 after
    glass down (3) starts after hand (2) ends, which is open
  line 10, link 3 4 after at-most 2
    exposure (4) starts after glass down (3) ends, which lasts 2 ticks
  line 11, link 4 2 at-least 0
    hand (2) starts at least 0 ticks after exposure (4) starts
"""),
    # circles through the start: of a step that nothing leads into; of records alone; the shorter part of a chain, with an at-least link; beside a circle elsewhere
    ([], "step 0 open\nstep 1 open\nlink 1 0 after\n", 1, """refused 8: forward links close a circle
The circle: step 0, then step 1, then step 0. Its links:
  step 1 hangs from the start: no after or at-least link leads into it
  line 3, link 1 0 after
    step 0 starts after step 1 ends, which is open
"""),
    ([], "step 0 open\nstep 1 fixed 0\nlink 0 1 after\nlink 1 0 after\n", 1, """refused 8: forward links close a circle
The circle: step 0, then step 1, then step 0. Its links:
  line 3, link 0 1 after
    step 1 starts at tick 0 or later
  line 4, link 1 0 after
    step 0 starts after step 1 ends, which lasts 0 ticks
"""),
    ([], STEPS + LINKS.replace("link 0 2 after\n", "") + "link 3 4 after at-most 2\nlink 3 0 at-least 4\n", 1, """refused 8: forward links close a circle
The circle: start (0), then hand (2), then glass down (3), then start (0). Its links:
  hand (2) hangs from the start: no after or at-least link leads into it
  line 8, link 2 3 after
    glass down (3) starts after hand (2) ends, which is open
  line 10, link 3 0 at-least 4
    start (0) starts at least 4 ticks after glass down (3) starts
"""),
    ([], "step 0 open\nstep 1 open\nstep 2 open\nstep 3 open\nlink 0 1 after\nlink 1 2 after\nlink 2 1 after\nlink 3 0 after\n", 1, """refused 8: forward links close a circle
The circle: step 0, then step 3, then step 0. Its links:
  step 3 hangs from the start: no after or at-least link leads into it
  line 8, link 3 0 after
    step 0 starts after step 3 ends, which is open
"""),
    # a circle that nothing else leads into, before it and behind it other steps; a limit leads nowhere
    ([], "step 0 open\nstep 1 open\nstep 2 open\nstep 3 open\nstep 4 open\nlink 1 3 after\nlink 2 4 after at-least 3\nlink 3 2 after\nlink 4 3 at-least 1 at-most 2\n"
     "link 0 3 at-most 3\n", 1, """refused 8: forward links close a circle
The circle: step 2, then step 4, then step 3, then step 2. Its links:
  line 7, link 2 4 after at-least 3
    step 4 starts after step 2 ends, which is open
  line 9, link 4 3 at-least 1 at-most 2
    step 3 starts at least 1 tick after step 4 starts
  line 8, link 3 2 after
    step 2 starts after step 3 ends, which is open
"""),
    # a circle with gaps
    ([], STEPS + LINKS.replace("2 3 after", "2 3 after gap 6") + "link 3 4 after gap 0\nlink 4 2 after gap 1 at-most-from-finish 3\n", 1,
     """refused 8: forward links close a circle
The circle: hand (2), then glass down (3), then exposure (4), then hand (2). Its links:
  line 9, link 2 3 after gap 6
    glass down (3) starts at least 6 ticks after hand (2) ends, which is open
  line 10, link 3 4 after gap 0
    exposure (4) starts at least 0 ticks after glass down (3) ends, which lasts 2 ticks
  line 11, link 4 2 after gap 1 at-most-from-finish 3
    hand (2) starts at least 1 tick after exposure (4) ends, which lasts 1 tick
"""),
    # steps that nothing leads into: one; two, of which limits are no way into; with a wait
    ([], STEPS + LINKS.replace("link 0 2 after\n", "") + "link 3 4 after at-most 2\n", 0, """verdict 0     sound: it can be kept whatever time its open steps take
waits 0       no step has to wait for more than the sheet says
              hand (2) hangs from the start: no after or at-least link leads into it
start 0 0 0   start (0) starts at tick 0
start 1 0 0   lamps (1) starts at tick 0
start 2 0 0   hand (2) starts at tick 0
start 3 0 1   glass down (3) starts at tick 1,
start 3 2 0     or when hand (2) ends, whichever is later
start 4 0 3   exposure (4) starts at tick 3,
start 4 2 2     or 2 ticks after hand (2) ends, whichever is later
"""),
    ([], "step 0 open\nstep 1 open\nstep 2 open\nlink 0 2 at-most 5\nlink 2 1 at-most 3\n", 0, """verdict 0     sound: it can be kept whatever time its open steps take
waits 0       no step has to wait for more than the sheet says
              step 1 and step 2 hang from the start: no after or at-least link leads into them
start 0 0 0   step 0 starts at tick 0
start 1 0 0   step 1 starts at tick 0
start 2 0 0   step 2 starts at tick 0
"""),
    (["1=4"], "step 0 open\nstep 1 open # hand\nstep 2 fixed 2 # lens\nstep 3 fixed 1 # exposure\nlink 1 3 after\nlink 2 3 after at-most 2\n", 0,
     """verdict 1     sound with waits: it can be kept whatever time its open steps take, if steps wait as listed
waits 1
wait 1 2      lens (2) waits for the end of hand (1)
                for line 6, link 2 3 after at-most 2: exposure (3) starts at most 2 ticks after lens (2) starts
              hand (1) and lens (2) hang from the start: no after or at-least link leads into them
start 0 0 0   step 0 starts at tick 0
start 1 0 0   hand (1) starts at tick 0
start 2 1 0   lens (2) starts when hand (1) ends
start 3 1 2   exposure (3) starts 2 ticks after hand (1) ends

Where hand (1) lasts 4 ticks:
  step 0 starts at tick 0
  hand (1) starts at tick 0 and ends at 4
  lens (2) starts at tick 4 and ends at 6
  exposure (3) starts at tick 6 and ends at 7
"""),
    # such a step in what cannot be kept: behind a limit from the start, of a fixed step and of an open one; not where the circle goes another way
    ([], STEPS + "link 0 4 at-most 4\nlink 1 3 at-least 3\nlink 3 4 after\n", 1, """refused 10: with each open step at its least, no start times keep every link
""" + CLASH + """  line 6, link 0 4 at-most 4
    exposure (4) starts at tick 4 or before
  line 7, link 1 3 at-least 3
    glass down (3) starts at least 3 ticks after lamps (1) starts
  line 8, link 3 4 after
    exposure (4) starts after glass down (3) ends, which lasts 2 ticks
  lamps (1) hangs from the start: no after or at-least link leads into it
Added up, 5 ticks are needed where 4 are allowed.
"""),
    ([], STEPS + "link 0 4 after at-most-from-finish 5\nlink 2 4 at-least 3\nlink 2 3 after gap 1\nlink 3 4 after\n", 1,
     """refused 11: for some list of durations no start times keep every link
""" + CLASH + """  line 6, link 0 4 after at-most-from-finish 5
    exposure (4) starts at tick 5 or before
  line 8, link 2 3 after gap 1
    glass down (3) starts at least 1 tick after hand (2) ends, which is open
  line 9, link 3 4 after
    exposure (4) starts after glass down (3) ends, which lasts 2 ticks
  hand (2) hangs from the start: no after or at-least link leads into it
hand (2) is open and may last more than the 2 ticks that these limits leave.
"""),
    ([], STEPS + "link 1 3 after\nlink 2 4 at-most 9\nlink 2 3 after\nlink 3 4 after\n", 1, """refused 11: for some list of durations no start times keep every link
""" + CLASH + """  line 8, link 2 3 after
    glass down (3) starts after hand (2) ends, which is open
  line 7, link 2 4 at-most 9
    exposure (4) starts at most 9 ticks after hand (2) starts
  line 9, link 3 4 after
    exposure (4) starts after glass down (3) ends, which lasts 2 ticks
hand (2) is open and may last more than the 7 ticks that these limits leave.
"""),
    ([], STEPS + "link 3 4 after at-most 1\n", 1, """refused 10: with each open step at its least, no start times keep every link
This record alone cannot be kept:
  line 6, link 3 4 after at-most 1
    exposure (4) starts after glass down (3) ends, which lasts 2 ticks
    exposure (4) starts at most 1 tick after glass down (3) starts
Added up, 2 ticks are needed where 1 is allowed.
"""),
    # records that clash, open durations 0: one record; a chain that leads through step 0; a limit from the finish
    ([], STEPS + LINKS + "link 3 4 after at-most 1\n", 1, """refused 10: with each open step at its least, no start times keep every link
This record alone cannot be kept:
  line 10, link 3 4 after at-most 1
    exposure (4) starts after glass down (3) ends, which lasts 2 ticks
    exposure (4) starts at most 1 tick after glass down (3) starts
Added up, 2 ticks are needed where 1 is allowed.
"""),
    ([], STEPS + LINKS + "link 0 4 at-most 4\nlink 1 3 at-least 3\nlink 3 4 after\n", 1, """refused 10: with each open step at its least, no start times keep every link
""" + CLASH + """  line 10, link 0 4 at-most 4
    exposure (4) starts at tick 4 or before
  line 11, link 1 3 at-least 3
    glass down (3) starts at least 3 ticks after lamps (1) starts
  line 12, link 3 4 after
    exposure (4) starts after glass down (3) ends, which lasts 2 ticks
Added up, 5 ticks are needed where 4 are allowed.
"""),
    ([], STEPS + LINKS + "link 1 3 after at-most-from-finish 1\nlink 1 2 at-least 5\n", 1, """refused 10: with each open step at its least, no start times keep every link
""" + CLASH + """  line 11, link 1 2 at-least 5
    hand (2) starts at least 5 ticks after lamps (1) starts
  line 10, link 1 3 after at-most-from-finish 1
    glass down (3) starts at most 1 tick after lamps (1) ends
  line 9, link 2 3 after
    glass down (3) starts after hand (2) ends, which is open
Added up, 5 ticks are needed where 4 are allowed, with open steps at 0.
"""),
    # gaps: in a chain; above a limit from the finish of an open step, of a fixed one, of the start; beside one that an at-least link breaks
    ([], STEPS + LINKS.replace("2 3 after", "2 3 after gap 6") + "link 0 4 at-most 7\nlink 3 4 after\n", 1, """refused 10: with each open step at its least, no start times keep every link
""" + CLASH + """  line 10, link 0 4 at-most 7
    exposure (4) starts at tick 7 or before
  line 9, link 2 3 after gap 6
    glass down (3) starts at least 6 ticks after hand (2) ends, which is open
  line 11, link 3 4 after
    exposure (4) starts after glass down (3) ends, which lasts 2 ticks
Added up, 8 ticks are needed where 7 are allowed, with open steps at 0.
"""),
    ([], STEPS + LINKS.replace("2 3 after", "2 3 after gap 6 at-most-from-finish 5") + "link 3 4 after\n", 1,
     """refused 10: with each open step at its least, no start times keep every link
This record alone cannot be kept:
  line 9, link 2 3 after gap 6 at-most-from-finish 5
    glass down (3) starts at least 6 ticks after hand (2) ends, which is open
    glass down (3) starts at most 5 ticks after hand (2) ends
Added up, 6 ticks are needed where 5 are allowed.
"""),
    ([], STEPS + LINKS + "link 3 4 after gap 6 at-least 1 at-most 9 at-most-from-finish 5\n", 1, """refused 10: with each open step at its least, no start times keep every link
This record alone cannot be kept:
  line 10, link 3 4 after gap 6 at-least 1 at-most 9 at-most-from-finish 5
    exposure (4) starts at least 6 ticks after glass down (3) ends, which lasts 2 ticks
    exposure (4) starts at most 5 ticks after glass down (3) ends
Added up, 8 ticks are needed where 7 are allowed.
"""),
    ([], STEPS + LINKS.replace("0 1 after", "0 1 after gap 6 at-most-from-finish 5") + "link 3 4 after\n", 1,
     """refused 10: with each open step at its least, no start times keep every link
This record alone cannot be kept:
  line 6, link 0 1 after gap 6 at-most-from-finish 5
    lamps (1) starts at tick 6 or later
    lamps (1) starts at tick 5 or before
Added up, 6 ticks are needed where 5 are allowed.
"""),
    ([], STEPS + LINKS + "link 3 4 after gap 5 at-least 9 at-most-from-finish 5\n", 1, """refused 10: with each open step at its least, no start times keep every link
This record alone cannot be kept:
  line 10, link 3 4 after gap 5 at-least 9 at-most-from-finish 5
    exposure (4) starts at least 9 ticks after glass down (3) starts
    exposure (4) starts at most 5 ticks after glass down (3) ends
Added up, 9 ticks are needed where 7 are allowed.
"""),
    # a limit from the finish beside one that breaks: neither it nor its after link has a part
    ([], STEPS + LINKS + "link 3 4 after at-least 9 at-most 4 at-most-from-finish 60\n", 1, """refused 10: with each open step at its least, no start times keep every link
This record alone cannot be kept:
  line 10, link 3 4 after at-least 9 at-most 4 at-most-from-finish 60
    exposure (4) starts at least 9 ticks after glass down (3) starts
    exposure (4) starts at most 4 ticks after glass down (3) starts
Added up, 9 ticks are needed where 4 are allowed.
"""),
    # a gap takes of what a limit leaves
    ([], STEPS + LINKS.replace("2 3 after", "2 3 after gap 6") + "link 2 4 at-most 9\nlink 3 4 after\n", 1, """refused 11: for some list of durations no start times keep every link
""" + CLASH + """  line 9, link 2 3 after gap 6
    glass down (3) starts at least 6 ticks after hand (2) ends, which is open
  line 10, link 2 4 at-most 9
    exposure (4) starts at most 9 ticks after hand (2) starts
  line 11, link 3 4 after
    exposure (4) starts after glass down (3) ends, which lasts 2 ticks
hand (2) is open and may last more than the 1 tick that these limits leave.
"""),
    # an open step in a limit; two of them; beside a limit from the finish of another; inside a sheet that is refused as 10
    ([], STEPS + LINKS + "link 2 4 at-most 9\nlink 3 4 after\n", 1, """refused 11: for some list of durations no start times keep every link
""" + CLASH + """  line 9, link 2 3 after
    glass down (3) starts after hand (2) ends, which is open
  line 10, link 2 4 at-most 9
    exposure (4) starts at most 9 ticks after hand (2) starts
  line 11, link 3 4 after
    exposure (4) starts after glass down (3) ends, which lasts 2 ticks
hand (2) is open and may last more than the 7 ticks that these limits leave.
"""),
    ([], "step 0 open\nstep 1 open\nstep 2 open\nstep 3 open\nlink 0 1 at-least 0\nlink 0 3 at-most 8\nlink 1 2 after\nlink 2 3 at-least 1\n", 1,
     """refused 11: for some list of durations no start times keep every link
""" + CLASH + """  line 6, link 0 3 at-most 8
    step 3 starts at tick 8 or before
  line 7, link 1 2 after
    step 2 starts after step 1 ends, which is open
  line 8, link 2 3 at-least 1
    step 3 starts at least 1 tick after step 2 starts
step 1 is open and may last more than the 7 ticks that these limits leave.
"""),
    ([], "step 0 open\nstep 1 open # one\nstep 2 open # two\nstep 3 fixed 1 # three\nlink 0 1 after\nlink 1 2 after\nlink 2 3 after\nlink 1 3 at-most 5\n"
     "link 0 3 at-least 2\n", 1, """refused 11: for some list of durations no start times keep every link
""" + CLASH + """  line 6, link 1 2 after
    two (2) starts after one (1) ends, which is open
  line 8, link 1 3 at-most 5
    three (3) starts at most 5 ticks after one (1) starts
  line 7, link 2 3 after
    three (3) starts after two (2) ends, which is open
one (1) and two (2) are open and together may last more than the 5 ticks that these limits leave.
"""),
    ([], "step 0 open\nstep 1 open # one\nstep 2 open # two\nstep 3 fixed 1\nlink 0 1 after\nlink 1 2 at-least 0\nlink 2 3 after\nlink 1 3 after at-most-from-finish 4\n", 1,
     """refused 11: for some list of durations no start times keep every link
""" + CLASH + """  line 6, link 1 2 at-least 0
    two (2) starts at least 0 ticks after one (1) starts
  line 8, link 1 3 after at-most-from-finish 4
    step 3 starts at most 4 ticks after one (1) ends
  line 7, link 2 3 after
    step 3 starts after two (2) ends, which is open
two (2) is open and may last longer than these limits leave.
"""),
    ([], STEPS + LINKS + "link 0 3 at-most 9\nlink 3 4 after at-most 1\n", 1, """refused 10: with each open step at its least, no start times keep every link
""" + CLASH + """  line 10, link 0 3 at-most 9
    glass down (3) starts at tick 9 or before
  line 9, link 2 3 after
    glass down (3) starts after hand (2) ends, which is open
They are refused even without the others, as 11: for some list of durations no start times keep every link.
hand (2) is open and may last more than the 9 ticks that these limits leave.
"""),
    # waits that cannot be put in
    ([], "step 0 open\nstep 1 open # left hand\nstep 2 open # right hand\nstep 3 fixed 1 # left clamp\nstep 4 fixed 1 # right clamp\nlink 0 1 after\nlink 0 2 after\n"
     "link 1 3 after at-most-from-finish 5\nlink 2 3 after\nlink 1 4 after\nlink 2 4 after at-most-from-finish 6\nlink 3 4 at-least 0\n", 1,
     """refused 28: the waits close a circle of forward links, or leave no start times with each open step at its least
""" + CLASH + """  line 8, link 1 3 after at-most-from-finish 5
    left clamp (3) starts after left hand (1) ends, which is open
    left clamp (3) starts at most 5 ticks after left hand (1) ends
  line 10, link 1 4 after
    right clamp (4) starts after left hand (1) ends, which is open
  line 9, link 2 3 after
    left clamp (3) starts after right hand (2) ends, which is open
  line 11, link 2 4 after at-most-from-finish 6
    right clamp (4) starts after right hand (2) ends, which is open
    right clamp (4) starts at most 6 ticks after right hand (2) ends
Waits that cannot all be put in:
  right hand (2) waits for the end of left hand (1)
    for line 11, link 2 4 after at-most-from-finish 6: right clamp (4) starts at most 6 ticks after right hand (2) ends
  left hand (1) waits for the end of right hand (2)
    for line 8, link 1 3 after at-most-from-finish 5: left clamp (3) starts at most 5 ticks after left hand (1) ends
"""),
    # the same, with gaps
    ([], "step 0 open\nstep 1 open # left hand\nstep 2 open # right hand\nstep 3 fixed 1 # clamp\nlink 0 1 after\nlink 0 2 after gap 2\n"
     "link 1 3 after gap 6 at-most-from-finish 7\nlink 2 3 after gap 1 at-most-from-finish 2\n", 1,
     """refused 28: the waits close a circle of forward links, or leave no start times with each open step at its least
""" + CLASH + """  line 7, link 1 3 after gap 6 at-most-from-finish 7
    clamp (3) starts at least 6 ticks after left hand (1) ends, which is open
    clamp (3) starts at most 7 ticks after left hand (1) ends
  line 8, link 2 3 after gap 1 at-most-from-finish 2
    clamp (3) starts at least 1 tick after right hand (2) ends, which is open
    clamp (3) starts at most 2 ticks after right hand (2) ends
Waits that cannot all be put in:
  right hand (2) waits for the end of left hand (1)
    for line 8, link 2 3 after gap 1 at-most-from-finish 2: clamp (3) starts at most 2 ticks after right hand (2) ends
  left hand (1) waits for the end of right hand (2)
    for line 7, link 1 3 after gap 6 at-most-from-finish 7: clamp (3) starts at most 7 ticks after left hand (1) ends
"""),
    # the same, of hands that nothing leads into: the waits are between them
    ([], "step 0 open\nstep 1 open # left hand\nstep 2 open # right hand\nstep 3 fixed 0 # clamp\nlink 1 3 after at-most-from-finish 0\n"
     "link 2 3 after at-most-from-finish 0\n", 1, """refused 28: the waits close a circle of forward links, or leave no start times with each open step at its least
""" + CLASH + """  line 5, link 1 3 after at-most-from-finish 0
    clamp (3) starts after left hand (1) ends, which is open
    clamp (3) starts at most 0 ticks after left hand (1) ends
  line 6, link 2 3 after at-most-from-finish 0
    clamp (3) starts after right hand (2) ends, which is open
    clamp (3) starts at most 0 ticks after right hand (2) ends
Waits that cannot all be put in:
  right hand (2) waits for the end of left hand (1)
    for line 6, link 2 3 after at-most-from-finish 0: clamp (3) starts at most 0 ticks after right hand (2) ends
  left hand (1) waits for the end of right hand (2)
    for line 5, link 1 3 after at-most-from-finish 0: clamp (3) starts at most 0 ticks after left hand (1) ends
"""),
    # leasts: in 10, between a start and an end, beside one of 0, taken and needed alike; in 11, the ticks that are left; in a circle; in a wait
    ([], LEASTS + LINKS + "link 2 4 at-most 9\nlink 3 4 after\n", 1, """refused 10: with each open step at its least, no start times keep every link
""" + CLASH + """  line 9, link 2 3 after
    glass down (3) starts after hand (2) ends, which is open and lasts at least 8 ticks
  line 10, link 2 4 at-most 9
    exposure (4) starts at most 9 ticks after hand (2) starts
  line 11, link 3 4 after
    exposure (4) starts after glass down (3) ends, which lasts 2 ticks
Added up, 10 ticks are needed where 9 are allowed, with open steps at their least.
"""),
    ([], LEASTS + LINKS + "link 2 4 at-most 12\nlink 3 4 after\n", 1, """refused 11: for some list of durations no start times keep every link
""" + CLASH + """  line 9, link 2 3 after
    glass down (3) starts after hand (2) ends, which is open and lasts at least 8 ticks
  line 10, link 2 4 at-most 12
    exposure (4) starts at most 12 ticks after hand (2) starts
  line 11, link 3 4 after
    exposure (4) starts after glass down (3) ends, which lasts 2 ticks
hand (2) is open and may last more than the 10 ticks that these limits leave.
"""),
    ([], LEASTS + LINKS.replace("2 3 after", "2 3 after gap 6 at-most-from-finish 5") + "link 3 4 after\n", 1,
     """refused 10: with each open step at its least, no start times keep every link
This record alone cannot be kept:
  line 9, link 2 3 after gap 6 at-most-from-finish 5
    glass down (3) starts at least 6 ticks after hand (2) ends, which is open and lasts at least 8 ticks
    glass down (3) starts at most 5 ticks after hand (2) ends
Added up, 6 ticks are needed where 5 are allowed.
"""),
    # a limit from the finish allows the least too: 8 + 5, and 14 are needed from the start of the hand
    ([], LEASTS + LINKS.replace("2 3 after", "2 3 after at-least 14 at-most-from-finish 5") + "link 3 4 after\n", 1,
     """refused 10: with each open step at its least, no start times keep every link
This record alone cannot be kept:
  line 9, link 2 3 after at-least 14 at-most-from-finish 5
    glass down (3) starts at least 14 ticks after hand (2) starts
    glass down (3) starts at most 5 ticks after hand (2) ends
Added up, 14 ticks are needed where 13 are allowed, with open steps at their least.
"""),
    ([], "step 0 open\nstep 1 open least 2\nstep 2 open least 3\nstep 3 fixed 0\nlink 1 2 after\nlink 1 3 at-most 9\nlink 2 3 after gap 1\n", 1,
     """refused 11: for some list of durations no start times keep every link
""" + CLASH + """  line 5, link 1 2 after
    step 2 starts after step 1 ends, which is open and lasts at least 2 ticks
  line 6, link 1 3 at-most 9
    step 3 starts at most 9 ticks after step 1 starts
  line 7, link 2 3 after gap 1
    step 3 starts at least 1 tick after step 2 ends, which is open and lasts at least 3 ticks
step 1 and step 2 are open and together may last more than the 8 ticks that these limits leave.
"""),
    ([], "step 0 open\nstep 1 open least 1\nstep 2 open least 0\nlink 0 1 after\nlink 1 2 after\nlink 2 1 after\n", 1, """refused 8: forward links close a circle
The circle: step 1, then step 2, then step 1. Its links:
  line 5, link 1 2 after
    step 2 starts after step 1 ends, which is open and lasts at least 1 tick
  line 6, link 2 1 after
    step 1 starts after step 2 ends, which is open
"""),
    # a plan with leasts: offsets count from the end; open steps that are not named last their least
    (["right hand=9"], "step 0 open\nstep 1 open least 4 # left hand\nstep 2 open least 6 # right hand\nstep 3 fixed 2 # left clamp\nstep 4 fixed 1 # right clamp\n"
     "link 1 3 after\nlink 2 4 after gap 1\nlink 3 4 at-most 5\n", 0,
     """verdict 1     sound with waits: it can be kept whatever time its open steps take, from their least on, if steps wait as listed
waits 1
wait 2 3      left clamp (3) waits for the end of right hand (2)
                for line 8, link 3 4 at-most 5: right clamp (4) starts at most 5 ticks after left clamp (3) starts
              left hand (1) lasts at least 4 ticks and right hand (2) lasts at least 6 ticks
              left hand (1) and right hand (2) hang from the start: no after or at-least link leads into them
start 0 0 0   step 0 starts at tick 0
start 1 0 0   left hand (1) starts at tick 0
start 2 0 0   right hand (2) starts at tick 0
start 3 1 0   left clamp (3) starts when left hand (1) ends,
start 3 2 0     or when right hand (2) ends, whichever is later
start 4 2 1   right clamp (4) starts 1 tick after right hand (2) ends

Where left hand (1) lasts 4 ticks and right hand (2) lasts 9 ticks:
  step 0 starts at tick 0
  left hand (1) starts at tick 0 and ends at 4
  right hand (2) starts at tick 0 and ends at 9
  left clamp (3) starts at tick 9 and ends at 11
  right clamp (4) starts at tick 10 and ends at 11
"""),
    # entries below a least
    (["hand=7", "exposure=1"], LEASTS + LINKS + "link 3 4 after at-most 2\n", 1,
     """refused 13: a duration is above 16,777,215 or below its step's least duration, or is not 0 and belongs to step 0 or to a fixed step
hand (2) is open and lasts at least 8 ticks: its entry can be 8 to 16777215, and is 7.
exposure (4) lasts 1 tick, as the sheet says: its entry can only be 0, and is 1.
"""),
    # entries of a list
    (["0=1", "hand=16777216", "3=4294967296", "exposure=0"], STEPS + LINKS + "link 3 4 after at-most 2\n", 1,
     """refused 13: a duration is above 16,777,215 or below its step's least duration, or is not 0 and belongs to step 0 or to a fixed step
start (0) is the start and has ended at tick 0: its entry can only be 0, and is 1.
hand (2) is open: its entry can be at most 16777215, and is 16777216.
glass down (3) lasts 2 ticks, as the sheet says: its entry can only be 0, and is 4294967296.
"""),
    # a plan, and start times
    (["hand=10"], STEPS + LINKS + "link 3 4 after at-most 2\n", 0, """verdict 0     sound: it can be kept whatever time its open steps take
waits 0       no step has to wait for more than the sheet says
start 0 0 0   start (0) starts at tick 0
start 1 0 0   lamps (1) starts at tick 0
start 2 0 0   hand (2) starts at tick 0
start 3 0 1   glass down (3) starts at tick 1,
start 3 2 0     or when hand (2) ends, whichever is later
start 4 0 3   exposure (4) starts at tick 3,
start 4 2 2     or 2 ticks after hand (2) ends, whichever is later

Where hand (2) lasts 10 ticks:
  start (0) starts at tick 0
  lamps (1) starts at tick 0 and ends at 3
  hand (2) starts at tick 0 and ends at 10
  glass down (3) starts at tick 10 and ends at 12
  exposure (4) starts at tick 12 and ends at 13
"""),
    # a plan with gaps, one of them out of the start, and a wait
    (["left hand=5", "2=7"], "step 0 open\nstep 1 open # left hand\nstep 2 open # right hand\nstep 3 fixed 1 # left clamp\nstep 4 fixed 1 # right clamp\n"
     "link 0 1 after gap 4\nlink 0 2 after\nlink 1 3 after gap 6\nlink 2 4 after gap 3\nlink 3 4 at-most 2\n", 0,
     """verdict 1     sound with waits: it can be kept whatever time its open steps take, if steps wait as listed
waits 1
wait 2 3      left clamp (3) waits for the end of right hand (2)
                for line 10, link 3 4 at-most 2: right clamp (4) starts at most 2 ticks after left clamp (3) starts
start 0 0 0   step 0 starts at tick 0
start 1 0 4   left hand (1) starts at tick 4
start 2 0 0   right hand (2) starts at tick 0
start 3 1 6   left clamp (3) starts 6 ticks after left hand (1) ends,
start 3 2 1     or 1 tick after right hand (2) ends, whichever is later
start 4 2 3   right clamp (4) starts 3 ticks after right hand (2) ends

Where left hand (1) lasts 5 ticks and right hand (2) lasts 7 ticks:
  step 0 starts at tick 0
  left hand (1) starts at tick 4 and ends at 9
  right hand (2) starts at tick 0 and ends at 7
  left clamp (3) starts at tick 15 and ends at 16
  right clamp (4) starts at tick 10 and ends at 11
"""),
    # texts that are no sheet
    ([], STEPS + "link 5 1 after\n", 1, "This text holds no sheet: line 6: there is no step 5\n"),
    ([], STEPS + "link 0 1 gap 6\n", 1, "This text holds no sheet: line 6: 'gap' stands only right behind 'after'\n"),
]
# Two hands, a third one; the left clamp has a limit for the right clamp and one that calls for nothing.
WAITS = """step 0 open
step 1 open # left hand
step 2 open # right hand
step 3 fixed 1 # left clamp
step 4 fixed 1 # right clamp
step 5 fixed 0
step 6 open # third hand
link 0 1 after
link 0 2 after
link 0 6 after
link 1 3 after
link 2 4 after
link 6 4 after
link 3 4 at-most 5
link 3 5 after at-most 9
"""
LINES = """  left clamp (3) waits for the end of right hand (2)
    for line 14, link 3 4 at-most 5: right clamp (4) starts at most 5 ticks after left clamp (3) starts
  left clamp (3) waits for the end of third hand (6)
    for line 14, link 3 4 at-most 5: right clamp (4) starts at most 5 ticks after left clamp (3) starts
"""
ACCEPTED = """verdict 1     sound with waits: it can be kept whatever time its open steps take, if steps wait as listed
waits 2
wait 2 3      left clamp (3) waits for the end of right hand (2)
                for line 14, link 3 4 at-most 5: right clamp (4) starts at most 5 ticks after left clamp (3) starts
wait 6 3      left clamp (3) waits for the end of third hand (6)
                for line 14, link 3 4 at-most 5: right clamp (4) starts at most 5 ticks after left clamp (3) starts
start 0 0 0   step 0 starts at tick 0
start 1 0 0   left hand (1) starts at tick 0
start 2 0 0   right hand (2) starts at tick 0
start 3 1 0   left clamp (3) starts when left hand (1) ends,
start 3 2 0     or when right hand (2) ends,
start 3 6 0     or when third hand (6) ends, whichever is latest
start 4 2 0   right clamp (4) starts when right hand (2) ends,
start 4 6 0     or when third hand (6) ends, whichever is later
start 5 1 1   step 5 starts 1 tick after left hand (1) ends,
start 5 2 1     or 1 tick after right hand (2) ends,
start 5 6 1     or 1 tick after third hand (6) ends, whichever is latest
start 6 0 0   third hand (6) starts at tick 0
"""
# 300 records: clamps that take 2 ticks, each after the five before it, and limits, one of which is too short for the clamps between.
LONG = "step 0 open\n" + "".join(f"step {v} fixed 2 # {'left' if v % 2 else 'right'} clamp {(v + 1) // 2}\n" for v in range(1, 63)) + \
    "".join(f"link {v} {w} after\n" for v in range(1, 63) for w in range(v + 1, min(v + 6, 63))) + \
    "link 1 62 at-most 200\nlink 10 20 at-most 25\nlink 20 30 at-most 25\nlink 30 37 at-most 9\nlink 40 50 at-most 25\n"
HANDFUL = "refused 10: with each open step at its least, no start times keep every link\n" + CLASH + """  line 209, link 30 31 after
    left clamp 16 (31) starts after right clamp 15 (30) ends, which lasts 2 ticks
  line 362, link 30 37 at-most 9
    left clamp 19 (37) starts at most 9 ticks after right clamp 15 (30) starts
  line 214, link 31 32 after
    right clamp 16 (32) starts after left clamp 16 (31) ends, which lasts 2 ticks
  line 219, link 32 33 after
    left clamp 17 (33) starts after right clamp 16 (32) ends, which lasts 2 ticks
  line 224, link 33 34 after
    right clamp 17 (34) starts after left clamp 17 (33) ends, which lasts 2 ticks
  line 231, link 34 37 after
    left clamp 19 (37) starts after right clamp 17 (34) ends, which lasts 2 ticks
Added up, 10 ticks are needed where 9 are allowed.
"""


def ran(*words, given=b""):
    done = subprocess.run([TOOL, *words], input=given, capture_output=True, cwd="/")
    return done.returncode, done.stdout.decode(), done.stderr.decode()


def check(found, wanted, what):
    assert found == wanted, f"{what}:\n{found}\nnot\n{wanted}"


if __name__ == "__main__":
    for data, wanted in BYTES:
        check(ran("-", given=bytes.fromhex(data)), (1, wanted, ""), data)
    for words, text, status, wanted in TEXTS:
        check(ran("-", *words, given=text.encode()), (status, wanted, ""), text)
    check(ran("-", given=WAITS.encode()), (0, ACCEPTED, ""), "waits")
    check(LONG.count("\nlink"), 300, "records of a long sheet")
    check(ran("-", given=LONG.encode()), (1, HANDFUL, ""), "the few of 300 records")
    check(ran("--no-waits", "-", given=WAITS.encode()),
          (1, "refused 12: waits are needed and the caller did not allow them\nIt is sound with these waits:\n" + LINES, ""), "waits that are not allowed")
    check({int(wanted.split()[1].rstrip(":")) for _, wanted in BYTES} | {int(wanted.split()[1].rstrip(":")) for *_, wanted in TEXTS if wanted.startswith("refused")} | {12},
          {*range(1, 9), *range(10, 14), 26, 28}, "refusals of the input")

    stand = ROOT / "examples/stand.sheet"
    with tempfile.TemporaryDirectory() as name:
        path = Path(name) / "a sheet"
        path.write_text(STEPS + "link 0 1 after\n")
        check(ran(path)[1].splitlines()[2].strip(), "hand (2), glass down (3) and exposure (4) hang from the start: no after or at-least link leads into them", "a file")
        check(ran(path, "hands=3"), (2, "", f"{path}: 'hands=3': the sheet has no step hands\n"), "no such step")
        path.write_text("step 0 open\nstep 1 open # hand\nstep 2 open # hand\nstep 3 open # 1\n")
        check(ran(path, "hand=3"), (2, "", f"{path}: 'hand=3': more than one step has the name hand\n"), "two names")
        check(ran(path, "2=3", "2=4"), (2, "", f"{path}: '2=4': hand (2) has its ticks already\n"), "two entries")
    check(ran(stand, "2:3"), (2, "", f"{stand}: '2:3' is not a step, '=' and its ticks\n"), "no duration")
    check(ran(stand)[:2], (0, "".join(ran(ROOT / "examples/stand.text")[1]).replace("start (0)", "step 0").replace("lamps (1)", "step 1")
                           .replace("hand (2)", "step 2").replace("glass down (3)", "step 3").replace("exposure (4)", "step 4")), "bytes have no names")
    check(ran(ROOT / "tests"), (2, "", f"{ROOT / 'tests'}: Is a directory\n"), "a directory")
    check(ran("/none"), (2, "", "/none: No such file or directory\n"), "no file")
    check((ran()[:2], ran("-x")[:2], ran("--no-waits")[:2], ran("--help")[0]), ((2, ""), (2, ""), (2, ""), 0), "wrong use, help")
    print(f"{len(BYTES) + len(TEXTS) + 3} sheets explained word for word")
