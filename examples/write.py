"""Writes the stand sheet from its steps and links, in bytes to standard output: write.py > SHEET

    tools/library && PYTHONPATH=bindings/python python3 examples/write.py > target/stand.sheet

The module standplan is bindings/python: thin calls of the functions of include/standplan.h.
"""
import sys

import standplan
from standplan import Link, Step

START, LAMPS, HAND, GLASS_DOWN, EXPOSURE = range(5)

STEPS = [
    Step(),
    Step(fixed=3),
    Step(),                                             # where no hand is done in under eight ticks: Step(least=8)
    Step(fixed=2),
    Step(fixed=1),
]

# In any order. What is said of one pair stands in one link.
LINKS = [
    Link(GLASS_DOWN, EXPOSURE, after=True, at_most=2),
    Link(HAND, GLASS_DOWN, after=True),
    Link(LAMPS, EXPOSURE, after=True),
    Link(START, LAMPS, after=True),
    Link(START, HAND, after=True),
]

if __name__ == "__main__":
    try:
        sys.stdout.buffer.write(standplan.write(STEPS, LINKS))
    except standplan.Refused as refusal:
        sys.exit(f"write.py: {refusal}")
