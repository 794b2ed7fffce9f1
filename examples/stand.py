"""Judges, plans and runs a sheet, each of its open steps lasting TICKS ticks, or its least duration where that is more: stand.py SHEET TICKS
Of an impossible sheet it prints the few records that clash.

    tools/library && PYTHONPATH=bindings/python python3 examples/stand.py examples/stand.sheet 10

The module standplan is bindings/python: thin calls of the functions of include/standplan.h.
"""
import sys

import standplan


def words(numbers):
    return " ".join(map(str, numbers))


def show(sheet, ticks):
    # Judge, waits allowed. Planning and working out starts judge too; this call is for who wants the verdict alone.
    try:
        print("verdict", standplan.judge(sheet, True))
    except standplan.Refused as refusal:
        # Where no times keep every link: the few records that clash, by their numbers.
        if refusal.number in (10, 11):
            print("records that clash", words(standplan.clashes(sheet)))
        raise

    # What a run is begun with: N, the open steps, step 0 among them, and the least durations. The list has what open steps last here.
    n, open_steps, leasts = standplan.steps(sheet)
    lasts = [max(ticks, leasts[v]) if v and v in open_steps else 0 for v in range(n)]

    # Waits.
    waits = standplan.waits(sheet)
    print("waits", len(waits))
    for v in range(n):
        if found := [a for a, i in waits if i == v]:
            print(f"step {v} waits for {words(found)}")

    # Plan: which steps decide when step v starts.
    plan = standplan.plan(sheet, True)
    for v in range(n):
        print(f"step {v} starts at the latest of {', '.join(f'end of {a} + {offset}' for a, offset in plan.deciding(v).items())}")

    # Start times, for durations that are known.
    print("start times", words(standplan.starts(sheet, True, lasts)))

    # Run: here a step ends when it has lasted what the list says; at a stand, when somebody says so, and not below its least duration (refusal 20).
    run = standplan.Run(plan)
    print("tick 0: starts", words(run.begin(open_steps, leasts)))
    while len(run.started) < n:
        while ended := [v for v, tick in run.started.items() if v in open_steps and v not in run.finished and run.now - tick >= lasts[v]]:
            started = run.finish(ended[0])
            print(f"tick {run.now}: step {ended[0]} ends" + (f", starts {words(started)}" if started else ""))
        if started := run.tick():
            print(f"tick {run.now}: starts {words(started)}")


if __name__ == "__main__":
    if len(sys.argv) != 3 or not sys.argv[2].isdecimal():
        sys.exit("usage: stand.py SHEET TICKS")
    try:
        with open(sys.argv[1], "rb") as file:
            show(file.read(), int(sys.argv[2]))
    except standplan.Refused as refusal:
        print("refused", refusal.number)
        sys.exit(f"stand.py: {refusal}")
    except OSError as fault:
        sys.exit(f"stand.py: {fault}")
