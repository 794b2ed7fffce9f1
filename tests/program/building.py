"""How ./standplan and ./standprice come by their programs, in small clones of this repository with an rt that proves nothing: progress, log, lock, age, statuses; and clones
that cannot be written to. tools/library says that it builds; a text needs it, and what is wrong with the text is said before."""
import os
import pty
import shutil
import subprocess
import tempfile
import time
from pathlib import Path

ROOT = Path(__file__).resolve().parents[2]
SHEET, PLAN = ROOT / "examples/stand.sheet", (ROOT / "examples/stand.plan").read_bytes()
PRICE = (ROOT / "crates/standprice/stdout").read_bytes()
NOT_BUILT, OLDER = "standplan: the program is not built yet", "standplan: the program is older than the crates"
FIRST = "; proving and building it first, which can take some minutes\n"
PROGRESS = "".join(f"standplan: proving crate {k} of 3: {name}\n" for k, name in ((1, "ground"), (2, "walls"), (3, "standplan")))
# It does with the program, its stamp and lines what rt does; `mode` says what goes wrong. It is called as `rt run` in a crate's folder. What it says goes to standard
# error, and what the program prints to standard output. Where the program is as it was built, and nothing has changed, it says so and proves nothing.
RT = """#!/bin/sh
exec 3>&1 >&2
name=${PWD##*/}
echo "$* $name" >> "$CALLS"
mode=$(cat "$CALLS.mode")
mkdir -p out
if [ "$mode" = proves ] && cmp -s "$PROGRAMS/$name" "out/$name" && [ -e "out/$name.stamp" ]; then
    echo "rt: nothing has changed since the last proved build, by out/$name.stamp, so nothing is checked now"
else
    rm -f "out/$name.stamp"
    echo "rt: chose --jobs 2 for ground"
    echo "fn ground::dig: proved"
    while [ "$mode" = held ] && [ ! -e "$CALLS.go" ]; do sleep 0.05; done
    echo "crate ground: modules loaded=0 checked=64"
    echo "logic=proved functions=1 native=nat,char,string"
    echo "rt: chose --jobs 2 for walls"
    if [ "$mode" = broken ]; then
        echo "fn walls::stand: not proved"
        echo "logic=not-proved functions=1 native=nat,char,string"
        echo "rt: the library walls did not build, so nothing above it was checked"
        exit 1
    fi
    echo "logic=proved functions=1 native=nat,char,string"
    echo "rt: chose --jobs 2 for $name"
    echo "logic=proved functions=1 native=nat,char,string"
    cp "$PROGRAMS/$name" "out/$name"
    touch "out/$name.stamp"
fi
echo "rt: running out/$name; to give it other input, run that file yourself"
exec "out/$name" >&3
"""


def check(found, wanted, what):
    assert found == wanted, f"{what}: {found!r}, not {wanted!r}"


class Clone:
    def __init__(self, place):
        self.at, self.tools, self.calls = place / "clone", place / "bin", place / "calls"
        for folder in ("crates/ground/src", "crates/standplan", "crates/standprice", "crates/c_planner", ".ci", "docs", "tools", "bindings/python"):
            (self.at / folder).mkdir(parents=True)
        for name in ("standplan", "standprice", "tools/program.sh", "VERSION", ".ci/toolchain", "docs/REFUSALS.md", "tools/sheet", "tools/sheets.py", "tools/library", "bindings/python/standplan.py"):
            shutil.copy(ROOT / name, self.at / name)
        (self.at / "crates.txt").write_text("# Crates.\nground:\nwalls: ground\nroof: walls ground\nstandplan: walls io libc   # the program\nstandprice: walls io libc\n")
        (self.at / "crates/ground/src/lib.rt").touch()
        self.tools.mkdir()
        (self.tools / "rt").write_text(RT)
        (self.tools / "rt").chmod(0o755)
        self.mode("proves")
        self.env = {**os.environ, "PATH": f"{self.tools}:{os.environ['PATH']}", "CALLS": str(self.calls), "PROGRAMS": str(ROOT / "target/bin")}

    def mode(self, mode):
        self.calls.with_suffix(".mode").write_text(mode)

    def started(self, *words, script="standplan", **more):
        return subprocess.Popen([self.at / script, *words], stdin=subprocess.DEVNULL, stdout=subprocess.PIPE, stderr=subprocess.PIPE, env={**self.env, **more.pop("env", {})}, **more)

    def ran(self, *words, **more):
        process = self.started(*words, **more)
        printed, said = process.communicate(timeout=60)
        return process.returncode, printed, said.decode()

    def count(self):
        return len(self.calls.read_text().splitlines()) if self.calls.exists() else 0

    def touch(self, name="crates/ground/src/lib.rt"):
        """Newer than the program."""
        (self.at / name).touch()
        later = time.time() + 1
        os.utime(self.at / name, (later, later))
        while time.time() <= later:
            time.sleep(0.05)


def first_and_later(place):
    clone = Clone(place)
    check(clone.ran(SHEET), (0, PLAN, NOT_BUILT + FIRST + PROGRESS), "the first call")
    check(clone.calls.read_text(), "run standplan\n", "what rt is asked for")
    log = (clone.at / "target/standplan.log").read_text()
    assert log.startswith("rt: chose --jobs 2 for ground\nfn ground::dig: proved\n") and log.endswith("\nrt: running out/standplan; to give it other input, run that file yourself\n"), log
    check((clone.ran(SHEET), clone.count()), ((0, PLAN, ""), 1), "the second call")
    (place / "link").symlink_to(clone.at / "standplan")
    check((clone.ran(SHEET, script=place / "link"), clone.count()), ((0, PLAN, ""), 1), "by a link from elsewhere")
    # A crate is touched, and nothing changed: rt proves nothing and makes no new program.
    clone.touch()
    check((clone.ran(SHEET), clone.count()), ((0, PLAN, OLDER + FIRST), 2), "older than a crate")
    check((clone.ran(SHEET), clone.count()), ((0, PLAN, ""), 2), "after that")
    # Something changed: the program is another.
    (clone.at / "target/bin/standplan").write_text("#!/bin/sh\necho old\n")
    clone.touch("crates.txt")
    clone.mode("changed")
    check((clone.ran(SHEET), clone.count()), ((0, PLAN, OLDER + FIRST + PROGRESS), 3), "older than crates.txt")
    # The program is gone, and rt has its own; or that is gone too.
    (clone.at / "target/bin/standplan").unlink()
    clone.mode("proves")
    check((clone.ran(SHEET), clone.count()), ((0, PLAN, NOT_BUILT + FIRST), 4), "the program is gone")
    check((clone.ran(SHEET), clone.count()), ((0, PLAN, ""), 4), "after that")
    for name in ("target/bin/standplan", "crates/standplan/out/standplan"):
        (clone.at / name).unlink()
    check((clone.ran(SHEET), clone.count()), ((0, PLAN, NOT_BUILT + FIRST + PROGRESS), 5), "both are gone")
    check((clone.ran(SHEET), clone.count()), ((0, PLAN, ""), 5), "after that")
    # A program that fails is no answer.
    (clone.at / "target/bin/standplan").write_text("#!/bin/sh\necho verdict 0\nexit 5\n")
    check(clone.ran(SHEET), (3, b"", f"standplan: the program {clone.at}/target/bin/standplan ended with status 5\n"), "a program that fails")


def the_other(place):
    """./standprice beside ./standplan: each has its own program and its own log, and neither builds the other's."""
    clone = Clone(place)
    said = (NOT_BUILT + FIRST + PROGRESS).replace("standplan", "standprice")
    check(clone.ran(SHEET, script="standprice"), (0, PRICE, said), "the first call")
    check(clone.calls.read_text(), "run standprice\n", "what rt is asked for")
    assert (clone.at / "target/standprice.log").exists() and not (clone.at / "target/standplan.log").exists()
    check(clone.ran(SHEET), (0, PLAN, NOT_BUILT + FIRST + PROGRESS), "the plan's first call")
    check((clone.ran(SHEET, script="standprice"), clone.ran(SHEET), clone.count()), ((0, PRICE, ""), (0, PLAN, ""), 2), "after that")
    # Another program in its place is no answer.
    shutil.copy(clone.at / "target/bin/standplan", clone.at / "target/bin/standprice")
    check(clone.ran(SHEET, script="standprice"), (3, b"", f"standprice: the program {clone.at}/target/bin/standprice ended with status 0\n"), "a plan in the place of a price")


def failures(place):
    clone = Clone(place)
    clone.mode("broken")
    log = clone.at / "target/standplan.log"
    # rt stops at the first crate that is not proved.
    progress = "".join(PROGRESS.splitlines(True)[:2])
    end = f"rt: the library walls did not build, so nothing above it was checked\nstandplan: the program could not be proved and built; {log} has what rt said\n"
    check(clone.ran(SHEET), (3, b"", NOT_BUILT + FIRST + progress + end), "a crate that is not proved")
    assert "fn walls::stand: not proved\n" in log.read_text()
    clone.mode("proves")
    check(clone.ran(SHEET)[:2], (0, PLAN), "mended")
    clone.mode("broken")
    clone.touch()
    for _ in range(2):
        check(clone.ran(SHEET), (3, b"", OLDER + FIRST + progress + end), "an old program is not run")
    # What is wrong with the sheet is said before anything is built.
    check(clone.ran("none"), (2, b"", "standplan: there is no file none\n"), "no file")
    # Without rt.
    few = place / "few"
    few.mkdir()
    for name in ("sh", "dirname", "readlink", "mktemp", "rm", "head", "od", "tr", "cut", "find", "cat", "flock"):
        (few / name).symlink_to(shutil.which(name))
    status, printed, said = clone.ran(SHEET, env={"PATH": str(few)})
    check((status, printed), (3, b""), "no rt")
    assert said.startswith(f"{OLDER}, and rt is not on the path (") and said.count("\n") == 1, said
    text = ROOT / "examples/stand.text"
    check(clone.ran(text, env={"PATH": str(few)}), (2, b"", "standplan: this is a sheet as text, and python3, which tools/sheet needs for it, is not on the path\n"), "no python3")


def on_a_terminal(place):
    clone = Clone(place)
    ours, its = pty.openpty()
    process = subprocess.Popen([clone.at / "standplan", SHEET], stdout=subprocess.PIPE, stderr=its, env=clone.env)
    printed = process.communicate(timeout=60)[0]
    os.close(its)
    said = b""
    while True:
        try:
            part = os.read(ours, 4096)
        except OSError:
            break
        if not part:
            break
        said += part
    os.close(ours)
    line = "".join(f"\rproving crate {k} of 3: {name}\x1b[K" for k, name in ((1, "ground"), (2, "walls"), (3, "standplan"))) + "\r\x1b[K"
    check((printed, said.decode()), (PLAN, (NOT_BUILT + FIRST).replace("\n", "\r\n") + line), "one line on a terminal")


def beside_each_other(place):
    """The second call begins while the first is in rt, which goes on once the second says that it waits."""
    clone = Clone(place)
    clone.mode("held")
    first = clone.started(SHEET)
    while clone.count() == 0:
        time.sleep(0.02)
    second = clone.started(SHEET)
    check(second.stderr.readline(), b"standplan: another call is building; this one waits for it\n", "the second call")
    clone.calls.with_suffix(".go").touch()
    ended = [(process.communicate(timeout=60), process.returncode) for process in (first, second)]
    check(ended, [((PLAN, (NOT_BUILT + FIRST + PROGRESS).encode()), 0), ((PLAN, b""), 0)], "two calls at once")
    check(clone.count(), 1, "calls of rt")


def read_only(place):
    """As nobody where this runs as root, whom no mode of a file keeps from writing."""
    clone = Clone(place)
    other = {"user": 65534, "group": 65534, "extra_groups": []} if os.getuid() == 0 else {}

    def mode(bits):
        for path in [clone.at, *clone.at.rglob("*")]:
            path.chmod(bits if path.is_dir() or os.access(path, os.X_OK) else bits & 0o666)

    for path in (place.parent, place):
        path.chmod(0o755)
    sheet = place / "sheet"                                # where nobody can read it
    shutil.copy(SHEET, sheet)
    sheet.chmod(0o644)
    mode(0o555)
    sentence = f", and cannot be built, for this clone cannot be written to: {clone.at}/target\n"
    check(clone.ran(sheet, **other), (3, b"", NOT_BUILT + sentence), "a clone that cannot be written to")
    status, printed, said = clone.ran(script="tools/library", **other)
    check((status != 0, printed, said), (True, b"", f"tools/library: the library is not built or is older than the crates, and cannot be built, for this clone cannot be written to: {clone.at}/target\n"), "tools/library there")
    mode(0o755)
    check(clone.ran(sheet)[:2], (0, PLAN), "built")
    mode(0o555)
    check(clone.ran(sheet, **other), (0, PLAN, ""), "a built clone that cannot be written to")
    mode(0o755)
    clone.touch()
    mode(0o555)
    check(clone.ran(sheet, **other), (3, b"", OLDER + sentence), "an old program in a clone that cannot be written to")
    mode(0o755)


def library(place):
    """With an rt that fails at once, what tools/library says comes first."""
    clone = Clone(place)
    (clone.tools / "rt").write_text("#!/bin/sh\necho nothing is proved\nexit 1\n")
    first = "tools/library: proving and building the library first, which can take some minutes\nnothing is proved\n"
    status, printed, said = clone.ran(script="tools/library")
    check((status != 0, printed, said), (True, b"", first), "tools/library")
    # The bytes of a text are the library's; a text that is none needs no library.
    text, wrong = ROOT / "examples/stand.text", place / "wrong"
    wrong.write_text("step 0 open\nstep 2 open\n")
    check(clone.ran(text), (3, b"", first + "standplan: the library could not be built\n"), "a text without a library")
    check(clone.ran("bytes", text, script="tools/sheet"), (3, b"", first + "sheet: the library could not be built\n"), "tools/sheet without a library")
    fault = f"{wrong}: line 2: step 2 is here, and step 1 is missing\n"
    check((clone.ran(wrong), clone.ran("bytes", wrong, script="tools/sheet")), ((1, b"", f"standplan: {fault}"), (1, b"", fault)), "a text that is no sheet")
    # With the library there, the text is planned.
    built = clone.at / "target/staticlib"
    for name in ("libstandplan.a", "libstandplan.so"):
        shutil.copy(ROOT / "target/staticlib" / name, built / name)
        later = time.time() + (1 if name.endswith("a") else 2)
        os.utime(built / name, (later, later))
    (clone.tools / "rt").write_text(RT)
    check(clone.ran(text), (0, PLAN, NOT_BUILT + FIRST + PROGRESS), "a text with a library")


if __name__ == "__main__":
    tests = (first_and_later, the_other, failures, on_a_terminal, beside_each_other, read_only, library)
    for test in tests:
        with tempfile.TemporaryDirectory() as name:
            place = Path(name) / "place"
            place.mkdir()
            test(place)
    print(f"{len(tests)} clones built the program once, when it was due, or said why not")
