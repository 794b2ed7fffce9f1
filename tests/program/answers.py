"""./standplan and ./standprice: the standard output of each is its program's own, for files, redirected files and pipes, in bytes and as text; its status says whether the sheet is
accepted; the rest is said on standard error."""
import os
import pty
import re
import subprocess
import sys
import tempfile
from pathlib import Path

ROOT = Path(__file__).resolve().parents[2]
sys.path[:0] = [str(ROOT / "tools"), str(ROOT / "tests/tools")]
import sheets  # noqa: E402
import stored  # noqa: E402

# What each prints of the stand sheet, and the refusals that are told of the sheets chosen below: both those that reading and judging give, and one that a price has.
STORED = {"standplan": ROOT / "examples/stand.plan", "standprice": ROOT / "crates/standprice/stdout"}
JUDGED = {*range(1, 9), 10, 11, 26, 28}
TOLD = {"standplan": JUDGED, "standprice": JUDGED | {19}}


def ran(name, *words, **more):
    """Status, standard output and standard error of the script of that name."""
    return run([ROOT / name, *words], **more)


def run(words, **more):
    done = subprocess.run(words, stdout=subprocess.PIPE, stderr=subprocess.PIPE, **more)
    return done.returncode, done.stdout, done.stderr.decode()


def check(found, wanted, what):
    assert found == wanted, f"{what}: {found!r}, not {wanted!r}"


def chosen():
    """The examples, and a stored sheet of each verdict, with a gap and without, with a loose step and without, with a least and without."""
    kinds = {}
    for data, verdict in stored.sheets():
        kinds.setdefault((verdict, stored.has_gap(data), stored.has_loose(data), stored.has_least(data)), []).append(data)
    assert len(kinds) >= 14, sorted(kinds)
    return [data for data, _ in stored.worked()] + [data for each in kinds.values() for data in each[:1]]


def passed_on(name, place):
    """The ways in, against the program."""
    path, text = place / "a sheet", place / "its text"
    told = set()
    for data in chosen():
        path.write_bytes(data)
        own = subprocess.run([ROOT / "target/bin" / name], input=data, capture_output=True)
        check(own.returncode, 0, data.hex())
        given = [ran(name, path), ran(name, input=data), ran(name, "-", input=data)]
        with path.open("rb") as file:
            given.append(ran(name, stdin=file))
        try:
            text.write_text("# A sheet.\n" + sheets.to_text(sheets.from_bytes(data)))
            given += [ran(name, text), ran(name, "-", input=text.read_bytes())]
        except sheets.NoSheet:
            pass
        for status, printed, said in given:
            check(printed, own.stdout, data.hex())
            if own.stdout.startswith(b"refused "):
                number = own.stdout.decode().split()[1]
                head = f"{name}: refused {number}: "
                assert status == 1 and said.startswith(head) and "docs/REFUSALS.md" not in said and len(said) > len(head) + 8, (status, said)
                told.add(int(number))
            else:
                check((status, said), (0, ""), data.hex())
    check(told, TOLD[name], f"{name}: refusals told")


def texts(name, place):
    """Texts of every look, and what is none."""
    stand = (ROOT / "examples/stand.text").read_bytes()
    printed = STORED[name].read_bytes()
    for text in (stand, b"\xef\xbb\xbf" + stand, b"\n\r\n \t" + stand, b"#" * 20000 + b"\n" + stand, b"\n".join(reversed(stand.split(b"\n")))):
        check(ran(name, input=text), (0, printed, ""), text[:40])
    path = place / "text"
    path.write_bytes(b"step 0 open\nstop 1\n")
    fault = "line 2: 'stop' is neither 'step' nor 'link'\n"
    check(ran(name, path), (1, b"", f"{name}: {path}: {fault}"), "a text that is no sheet")
    check(ran(name, "-", input=path.read_bytes()), (1, b"", f"{name}: standard input: {fault}"), "the same from a pipe")
    path.write_bytes(b"step 0 open\nstep 1 open\nlink 0 1 at-least 3 gap 6\n")
    check(ran(name, path), (1, b"", f"{name}: {path}: line 3: 'gap' stands only right behind 'after'\n"), "a gap without after")
    path.write_bytes(b"step 0 open\nstep 1 fixed 3 least 8\n")
    check(ran(name, path), (1, b"", f"{name}: {path}: line 2: 'least' stands only behind 'open' (refusal 4)\n"), "a least on a fixed step")
    # Bytes that begin as a text may: N is 35.
    path.write_bytes(b"#\x22\x00\x01" + b"\x00" * 34 + b"".join(bytes([1, 0, v]) for v in range(1, 35)))
    status, first, said = ran(name, path)
    check((status, first.split()[0], said), (0, printed.split()[0], ""), "35 steps")


def wrong_use(name, place):
    check(ran(name, place), (2, b"", f"{name}: {place} is a directory; name a file with a sheet\n"), "a directory")
    here = os.open(place, os.O_RDONLY)
    check(ran(name, stdin=here), (2, b"", f"{name}: standard input is a directory; name a file with a sheet\n"), "a directory")
    os.close(here)
    check(ran(name, place / "none"), (2, b"", f"{name}: there is no file {place / 'none'}\n"), "no file")
    check(run(["/bin/sh", "-c", f"{ROOT / name} <&-"]), (2, b"", f"{name}: standard input cannot be read\n"), "closed")
    check(ran(name, stdin=subprocess.DEVNULL), (1, b"refused 1\n", f"{name}: refused 1: the bytes end before a field is complete\n"), "nothing")
    status, help_text, said = ran(name, "--help")
    check((status, help_text.splitlines()[0], said), (0, f"usage: ./{name} FILE".encode(), ""), "--help")
    check(ran(name, "-h"), (0, help_text, ""), "-h")
    for words in (["-x"], ["a", "b"], [""], ["--version", "a"], ["-", "-"]):
        check(ran(name, *words), (2, b"", help_text.decode()), words)
    ours, its = pty.openpty()
    check(ran(name, stdin=its, timeout=60), (2, b"", help_text.decode()), "a terminal")
    os.close(its)
    os.close(ours)
    # The table of statuses is the guide's.
    rows = re.findall(r"^(?:status| {6}) (\d)  (.+)$", help_text.decode(), re.MULTILINE)
    check([number for number, _ in rows], ["0", "1", "2", "3"], "statuses")
    guide = (ROOT / "docs/GUIDE.md").read_text("utf-8")
    for number, words in rows:
        assert f"| {number} | {words} |\n" in guide, f"docs/GUIDE.md: status {number}"


def version(name):
    number, toolchain = (ROOT / "VERSION").read_text("ascii").strip(), (ROOT / ".ci/toolchain").read_text("ascii").strip()
    check(ran(name, "--version"), (0, f"{name} {number}, proved with {toolchain}\n".encode(), ""), "--version")


if __name__ == "__main__":
    for script in STORED:
        with tempfile.TemporaryDirectory() as folder:
            passed_on(script, Path(folder))
            texts(script, Path(folder))
            wrong_use(script, Path(folder))
        version(script)
    print("standplan and standprice pass on what their programs print, with its status, and say what stops them")
