"""Prints the price of the control box of the sheet in FILE, waits allowed, as ./standprice does: price.py FILE

    tools/library && PYTHONPATH=bindings/python python3 examples/price.py FILE

The module standplan is bindings/python: thin calls of the functions of include/standplan.h.
"""
import sys
from pathlib import Path

import standplan


def report(sheet):
    """The lines of a price."""
    price = standplan.price(sheet, True)
    for a in standplan.steps(sheet).open:
        print("registers", a, price.registers[a])
    for v, count in enumerate(price.comparisons):
        print("comparisons", v, count)
    print("total", price.total_registers, price.total_comparisons)


if __name__ == "__main__":
    try:
        report(Path(sys.argv[1]).read_bytes())
    except standplan.Refused as refusal:
        print(f"refused {refusal.number}", flush=True)
        sys.exit(f"price.py: {refusal}")
