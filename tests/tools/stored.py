"""The sheets that the repository stores, with what judging them gives where waits are not allowed: "0" or "refused 10"."""
import sys
from pathlib import Path

ROOT = Path(__file__).resolve().parents[2]
sys.path.insert(0, str(ROOT / "tools"))
from sheets import AFTER, NoSheet, from_bytes, loose  # noqa: E402


def compared():
    """crates/test_compare/stdin and stdout; tests/reference/container.py has their form."""
    data, at = (ROOT / "crates/test_compare/stdin").read_bytes(), 0

    def number(size):
        nonlocal at
        at += size
        return int.from_bytes(data[at - size:at], "little")

    judged = [line[8:] for line in (ROOT / "crates/test_compare/stdout").read_text("ascii").splitlines() if line.startswith("judge 0 ")]
    for verdict in judged:
        size = number(2)
        yield data[at:at + size], verdict
        at += size
        number(2)                                          # lengths that are lent: for the records that clash, for the plan
        number(2)
        for _ in range(number(1)):
            number(1)
            entries = number(2)
            number(2)
            at += 4 * entries
    assert at == len(data), "crates/test_compare/stdin has more sheets than stdout has answers"


def answered():
    """tests/rust/data/answers.txt."""
    for line in (ROOT / "tests/rust/data/answers.txt").read_text("ascii").splitlines():
        if line.startswith("sheet"):
            sheet = bytes.fromhex(line[5:])
        elif line.startswith("judge 0; "):
            yield sheet, line[9:].removeprefix("ok ")


def worked():
    """The examples, and the program's own input; their plans are stored beside them."""
    examples = [(path, path.with_suffix(".plan")) for path in sorted((ROOT / "examples").glob("*.sheet"))]
    for sheet, plan in [(ROOT / "crates/standplan/stdin", ROOT / "crates/standplan/stdout"), *examples]:
        yield sheet.read_bytes(), "0" if plan.read_text("ascii").startswith("verdict 0\n") else "refused 12"


def has_gap(data):
    """Whether this is a sheet, and one of its after links has a gap."""
    try:
        return any(words.get(AFTER) is not None for words in from_bytes(data).links.values())
    except NoSheet:
        return False


def has_least(data):
    """Whether this is a sheet, and one of its steps has a least duration above 0."""
    try:
        return any(from_bytes(data).leasts.values())
    except NoSheet:
        return False


def has_loose(data):
    """Whether this is a sheet, and nothing leads into one of its steps."""
    try:
        return loose(from_bytes(data)) != []
    except NoSheet:
        return False


def sheets():
    return [*worked(), *answered(), *compared()]
