"""Outputs that cannot be written to: a full device, a pipe that nobody reads, none. ./standplan, ./standprice and the tools say so in one line, with a status that is not 0."""
import os
import subprocess
from pathlib import Path

ROOT = Path(__file__).resolve().parents[2]
STAND, TEXT = ROOT / "examples/stand.sheet", ROOT / "examples/stand.text"
COMMANDS = [
    ["standplan", STAND], ["standplan", TEXT], ["standplan", "-"], ["standplan", "--help"], ["standplan", "--version"],
    ["standprice", STAND], ["standprice", TEXT], ["standprice", "-"], ["standprice", "--help"], ["standprice", "--version"],
    ["tools/sheet", "bytes", TEXT], ["tools/sheet", "text", STAND], ["tools/sheet", "show", STAND], ["tools/sheet", "--help"],
    ["tools/explain", TEXT], ["tools/explain", "-"], ["tools/explain", "--help"],
    ["tools/library", "--help"],
]


def full():
    return os.open("/dev/full", os.O_WRONLY)


def unread():
    ours, its = os.pipe()
    os.close(ours)
    return its


def said(command, **more):
    done = subprocess.run([ROOT / command[0], *command[1:]], stdin=subprocess.DEVNULL, stderr=subprocess.PIPE, **more)
    return done.returncode, done.stderr.decode()


if __name__ == "__main__":
    for command in COMMANDS:
        name = command[0].rpartition("/")[2]
        for way in (full, unread, None):
            if way:
                output = way()
                status, text = said(command, stdout=output)
                os.close(output)
            else:
                status, text = said(command, preexec_fn=lambda: os.close(1))
            *before, line = text.splitlines()
            what = f"{command} {way}: {status} {text}"
            assert status == 2 and f"{name}: standard output cannot be written to" in line and not before, what
    print(f"{len(COMMANDS)} commands say where their output cannot go")
