"""The library as C meets it: what archives and shared object hold, what the archives need, where their functions begin; an installed copy, with a program built
by pkg-config; the header in C and C++; its refusals, version and maxima beside those of docs/REFUSALS.md, VERSION, the Rust crate and the Python module; sheets
written by its structs and functions; the stack that it says each call needs."""
import os
import re
import shlex
import shutil
import subprocess
import sys
import tempfile
from pathlib import Path

ROOT = Path(__file__).resolve().parents[2]
sys.path.insert(0, str(ROOT / "bindings/python"))
import standplan  # noqa: E402

HERE, BUILT = Path(__file__).parent, ROOT / "target/staticlib"
HEADER = (ROOT / "include/standplan.h").read_text("ascii")
CRATE = (ROOT / "bindings/rust/src/lib.rs").read_text("utf-8")
RETIRED = "retired: no sheet is refused so"
CALLS = {f"standplan_{call}" for call in ("judge", "waits", "plan", "starts", "steps", "clashes", "price", "write", "begin", "tick", "finish")}
ARCHIVES = ("standplan", "c_planner", "c_runner", "c_clashes", "c_writer", "c_price")


def check(found, wanted, what):
    assert found == wanted, f"{what}: {found!r}, not {wanted!r}"


def ran(*words, **how):
    done = subprocess.run([str(word) for word in words], capture_output=True, text=True, **how)
    assert done.returncode == 0, f"{words}: {done.stdout}{done.stderr}"
    return done.stdout


def symbols():
    """The calls of the header and nothing else; of others libc's copying and filling alone, of which the price copies nothing; no memory of its own."""
    def listed(*words):
        found = [line.split() for line in ran("nm", *words).splitlines()]
        return {words[-1].partition("@")[0] for words in found if len(words) > 1}

    check(listed("--defined-only", "-g", BUILT / "libstandplan.a"), CALLS, "the archive's functions")
    check(listed("--defined-only", "-D", BUILT / "libstandplan.so"), CALLS, "the shared object's functions")
    for name in ARCHIVES:
        check(listed("-u", BUILT / f"lib{name}.a"), {"memset"} if name == "c_price" else {"memcpy", "memset"}, f"what lib{name}.a needs")
    declared = set(re.findall(r"^STANDPLAN_CHECKED uint32_t (standplan_\w+)\(", HEADER, re.MULTILINE))
    check(declared, CALLS, "the header's functions")
    for line in ran("size", BUILT / "libstandplan.a").splitlines()[1:]:
        check(line.split()[1:3], ["0", "0"], f"memory that is written to: {line}")


def places():
    """Each function of an archive has a section of its own, which begins a cache line; so do the calls in the shared object."""
    for name in ARCHIVES:
        archive = BUILT / f"lib{name}.a"
        sections = re.findall(r"^ *\d+ \.text(\S*) +([0-9a-f]{8,}) .* 2\*\*(\d+)$", ran("objdump", "-h", archive), re.MULTILINE)
        own = [words for words in sections if words[0]]
        check({int(size, 16) for place, size, _ in sections if not place}, {0}, f"code of lib{name}.a outside them")
        check({power for _, _, power in own}, {"6"}, f"where functions of lib{name}.a begin")
        check(re.findall(r"^([0-9a-f]+) [tT] ", ran("nm", archive), re.MULTILINE), len(own) * [16 * "0"], f"functions and sections of lib{name}.a")
    begins = re.findall(r"^([0-9a-f]+) T standplan_", ran("nm", "-D", BUILT / "libstandplan.so"), re.MULTILINE)
    check([int(place, 16) % 64 for place in begins], len(CALLS) * [0], "where the calls of the shared object begin")


def compiles(source, *flags, compiler="cc", kind="c"):
    words = [compiler, *flags, "-Wall", "-Wextra", "-Wpedantic", "-Werror", "-I", str(ROOT / "include"), "-x", kind, "-c", "-o", os.devnull, "-"]
    done = subprocess.run(words, input=source, capture_output=True, text=True)
    return done.returncode == 0, done.stderr


def header():
    """It compiles in C and C++ without a warning; a verdict that is not looked at is one, of each call."""
    taken = '#include "standplan.h"\nint main(void) { return (int)standplan_judge((const uint8_t *)"", 0, true); }\n'
    for compiler, kind, standard in (("cc", "c", "c99"), ("cc", "c", "c11"), ("c++", "c++", "c++11"), ("c++", "c++", "c++17")):
        if shutil.which(compiler):
            good, said = compiles(taken, f"-std={standard}", compiler=compiler, kind=kind)
            assert good, said
    lines = {"judge": "standplan_judge(s, 1, true)", "waits": "standplan_waits(s, 1, w, t)", "plan": "standplan_plan(s, 1, true, t, 1)",
             "starts": "standplan_starts(s, 1, true, t, 1, t, 1)", "steps": "standplan_steps(s, 1, n, w, l, 1)", "clashes": "standplan_clashes(s, 1, t, 1, n)",
             "price": "standplan_price(s, 1, true, t, 1, t, 1, t)", "write": "standplan_write(1, l, 2, 1, l, 7, s, 1, n)", "write_sheet": "standplan_write_sheet(p, 1, k, 1, s, 1, n)",
             "step_open": "standplan_step_open()", "step_open_least": "standplan_step_open_least(1)", "step_fixed": "standplan_step_fixed(1)",
             "link_pair": "standplan_link_pair(0, 1)", "link_after": "standplan_link_after(*k)",
             **{f"link_{name}": f"standplan_link_{name}(*k, 1)" for name in ("gap", "at_least", "at_most", "at_most_from_finish")},
             "begin": "standplan_begin(w, t, t, t, l, w, 1, 0, l, 1, t, 1)",
             "tick": "standplan_tick(w, t, t, t, l, w, t, 1)", "finish": "standplan_finish(w, t, t, t, l, w, 1, t, 1)",
             "run_begin": "standplan_run_begin(r, 1, 0, l, 1, t, 1, w)", "run_tick": "standplan_run_tick(r, t, 1, w)", "run_finish": "standplan_run_finish(r, 1, t, 1, w)"}
    check({f"standplan_{call}" for call in lines}, CALLS | set(re.findall(r"^STANDPLAN_CHECKED static inline \w+ (standplan_\w+)\(", HEADER, re.MULTILINE)), "calls that are tried")
    lent = "uint8_t *s, uint64_t *w, uint32_t *t, uint16_t *l, size_t *n, standplan_run *r, standplan_step *p, standplan_link *k"
    for name, call in lines.items():
        body = "(void)s; (void)w; (void)t; (void)l; (void)n; (void)r; (void)p; (void)k; "
        field = ".map" if name.startswith(("step_", "link_")) else ""
        looked_at, said = compiles(f'#include "standplan.h"\nuint32_t f({lent});\nuint32_t f({lent}) {{ {body}return {call}{field}; }}\n')
        assert looked_at, f"{call}: {said}"
        good, said = compiles(f'#include "standplan.h"\nvoid f({lent});\nvoid f({lent}) {{ {body}{call}; }}\n')
        assert not good and "unused-result" in said, f"{call}: {said}"


def refusals():
    """The sentences of header, crate and module are those of docs/REFUSALS.md, up to a note behind a bracket or a semicolon; and the names agree."""
    rows = dict(re.findall(r"^\| (\d+) \| ([^|]*?) \|", (ROOT / "docs/REFUSALS.md").read_text("utf-8"), re.MULTILINE))
    numbers = dict(re.findall(r"^    STANDPLAN_(\w+) = (\d+),?$", HEADER, re.MULTILINE))
    said = {int(numbers[name]): sentence for name, sentence in re.findall(r'case STANDPLAN_(\w+): return "(.*)";', HEADER)}
    check(sorted(said), sorted(map(int, rows)), "the header's refusals beside docs/REFUSALS.md")
    check(len(numbers), len(rows), "the header's enum")
    for number, sentence in said.items():
        row = rows[str(number)]
        assert row.startswith(sentence) and row[len(sentence):][:2] in ("", " (", "; "), f"refusal {number}: the header says '{sentence}', docs/REFUSALS.md '{row}'"
    check(standplan.SENTENCES, said, "the module's sentences")
    crate = re.findall(r'^    (\d+) (\w+) "(.*)"$', CRATE, re.MULTILINE)
    check({int(number): sentence for number, _, sentence in crate}, said, "the crate's sentences")
    check([number for number, sentence in said.items() if sentence == RETIRED], [9], "the refusals that are retired")
    check({number: name.lower() for number, name, _ in crate}, {number: name.replace("_", "").lower() for name, number in numbers.items()}, "the crate's names")
    return len(said)


def numbers():
    """Version and maxima, wherever they stand."""
    version = (ROOT / "VERSION").read_text("ascii").strip()
    assert re.fullmatch(r"\d+\.\d+\.\d+", version), version
    macros = dict(re.findall(r"^#define STANDPLAN_(\w+) (?:UINT32_C\()?\"?([\d.]+)\"?\)?$", HEADER, re.MULTILINE))
    check(macros["VERSION"], version, "the header's version")
    check(".".join(macros[f"VERSION_{part}"] for part in ("MAJOR", "MINOR", "PATCH")), version, "the header's version in parts")
    check(standplan.__version__, version, "the module's version")
    for name in ("Cargo.toml", "Cargo.lock"):
        check(re.findall(r'^version = "(.*)"$', (ROOT / "bindings/rust" / name).read_text("ascii"), re.MULTILINE), [version], f"the crate's version in {name}")
    for name in ("MAX_STEPS", "MAX_RECORDS", "MAX_SHEET", "MAX_TABLE", "MAX_DURATION", "STACK", "UNDECIDED"):
        check(getattr(standplan, name), int(macros[name]), f"the module's {name}")
        check(re.findall(rf"pub const {name}: \w+ = ([\d_]+);", CRATE)[0].replace("_", ""), macros[name], f"the crate's {name}")


def plans(program, where):
    for path in sorted((ROOT / "examples").glob("*.sheet")):
        check(ran(program, path, env=where), path.with_suffix(".plan").read_text("ascii"), f"{program}: {path.name}")


def installed(place):
    """Under a prefix with a space in it: what is there, and a program built by what pkg-config says, with the shared object and without."""
    prefix, work = place / "a prefix", place
    for _ in range(2):                                     # a second time over the first
        ran(ROOT / "tools/library", "--install", "a prefix", cwd=place)
    version = (ROOT / "VERSION").read_text("ascii").strip()
    major = version.split(".")[0]
    check(sorted(str(path.relative_to(prefix)) for path in prefix.rglob("*") if not path.is_dir()),
          sorted(["include/standplan.h", "lib/libstandplan.a", "lib/libstandplan.so", f"lib/libstandplan.so.{major}", f"lib/libstandplan.so.{version}", "lib/pkgconfig/standplan.pc"]), "installed")
    shutil.copy(ROOT / "bindings/python/standplan.py", place)
    stand = [sys.executable, ROOT / "examples/stand.py", ROOT / "examples/stand.sheet", 10]
    found = ran(*stand, env={**os.environ, "PYTHONPATH": str(place), "LD_LIBRARY_PATH": str(prefix / "lib"), "STANDPLAN_LIBRARY": ""})
    check(found, (ROOT / "examples/stand.run").read_text("ascii"), "the Python module with an installed library")
    if not shutil.which("pkg-config"):
        return "pkg-config is not there: no program was built with it"
    known = {**os.environ, "PKG_CONFIG_PATH": str(prefix / "lib/pkgconfig")}
    check(ran("pkg-config", "--modversion", "standplan", env=known).strip(), version, "pkg-config's version")
    flags = shlex.split(ran("pkg-config", "--cflags", "--libs", "standplan", env=known))
    ran("cc", "-std=c11", "-Wall", "-Wextra", "-Werror", HERE / "plan.c", *flags, "-o", work / "shared")
    assert f"libstandplan.so.{major}" in ran("readelf", "-d", work / "shared"), "the program does not look for the shared object"
    plans(work / "shared", {**os.environ, "LD_LIBRARY_PATH": str(prefix / "lib")})
    ran("cc", "-std=c11", "-Wall", "-Wextra", "-Werror", HERE / "plan.c", *flags[:1], prefix / "lib/libstandplan.a", "-o", work / "alone")
    plans(work / "alone", os.environ)
    return "a program built with pkg-config prints the stored plans"


def in_words(line):
    """A line of tests/rust/data/parts.txt for parts.c: its words, and what is to be printed; none for what the functions cannot make: lists that are not as
    long as their counts, and a step that is fixed and has a least."""
    (_, n, r, room), steps, links, answer, data = (field.split() for field in line.split(";"))
    if (len(steps), len(links)) != (int(n), int(r)) or any("/" in step and not step.startswith("open") for step in steps):
        return None
    words = [n, r, room, *("o" if step == "open" else f"l {step[5:]}" if "/" in step else f"f {step}" for step in steps)]
    for link in links:
        i, j, *fields = link.split(",")
        words += [i, j, *(f"{field[0]} {field[1:]}" for field in reversed(fields)), "."]
    sheet, lent = bytes.fromhex("".join(data)), bytes((100 + at) % 256 for at in range(int(room)))
    if answer[0] == "ok":
        return " ".join(words), f"0 {len(sheet)} {(sheet + lent[len(sheet):]).hex()}"
    return " ".join(words), f"{256 + int(answer[1])} 1000 {lent.hex()}"


def parts(place):
    """Sheets written by the header's structs and functions, in C and C++: the stored parts, and numbers that 16 bits do not hold, which are not cut off."""
    stored = [made for made in map(in_words, (ROOT / "tests/rust/data/parts.txt").read_text("ascii").splitlines()) if made]
    for ticks in (65536, 65537, 2**32 - 1, 2**32 + 1, 2**64 - 1):
        stored += [(f"2 0 9 o {letter} {ticks}", "260 1000 6465666768696a6b6c") for letter in "lf"]
        stored += [(f"2 1 0 o o 0 1 {before} {letter} {ticks} {behind} .", "260 1000 ") for letter in "glmf" for before, behind in (("a", ""), ("", "a"), ("a m 3", f"{letter} 3"))]
        stored += [(f"2 1 0 o o {pair} a .", "261 1000 ") for pair in (f"{ticks} 1", f"0 {ticks}")]
    wanted = [line.rstrip() for _, line in stored]
    for answer in (0, *(256 + k for k in (2, 3, 4, 26, 5, 6, 14))):
        assert any(line.startswith(f"{answer} ") for line in wanted), answer
    for compiler, flags in (("cc", ["-std=c11", "-fsanitize=undefined", "-fno-sanitize-recover"]), ("cc", ["-std=c99", "-O2"]), ("c++", ["-std=c++11", "-x", "c++"])):
        if shutil.which(compiler):
            ran(compiler, *flags, "-Wall", "-Wextra", "-Wpedantic", "-Werror", "-I", ROOT / "include", HERE / "parts.c", "-x", "none", BUILT / "libstandplan.a", "-o", place / "parts")
            found = [line.rstrip() for line in ran(place / "parts", input="\n".join(words for words, _ in stored)).splitlines()]
            for (words, _), one, other in zip(stored, found, wanted):
                check(one, other, f"{compiler} {flags}: {words[:200]}")
            check(len(found), len(wanted), "sheets written from C")
    return len(stored)


def stack(place):
    """The stack of each call, on 64 steps with waits, on parts of large impossible sheets, and on the parts of the longest sheet, is not above what the header says."""
    said = re.search(r"at most: judge and waits (\d+) kB, plan and starts (\d+) kB, steps (\d+) kB, clashes (\d+) kB, price (\d+) kB, write (\d+) kB, begin, tick and finish (\d+) kB", HEADER)
    assert said, "the header does not say how much stack each call needs"
    most = dict(zip(("judge", "waits", "plan", "starts", "steps", "clashes", "price", "write", "begin", "tick", "finish"), (int(said[group]) for group in (1, 1, 2, 2, 3, 4, 5, 6, 7, 7, 7))))
    ran("cc", "-std=c11", "-O2", "-Wall", "-Wextra", "-I", ROOT / "include", HERE / "stack.c", BUILT / "libstandplan.a", "-o", place / "stack")
    found = dict(line.split() for line in ran(place / "stack", *(ROOT / f"bench/sets/{name}.bin" for name in ("small", "large", "worst", "l14"))).splitlines())
    check(list(found), list(most), "calls whose stack was measured")
    for call, needs in found.items():
        assert int(needs) <= 1000 * most[call], f"{call} needs {needs} bytes of stack; the header says {most[call]} kB"
    return max(map(int, found.values()))


def wrong_use():
    for words in (["--install"], ["--install", ""], ["here"], ["--install", "a", "b"]):
        done = subprocess.run([ROOT / "tools/library", *words], capture_output=True, text=True)
        check((done.returncode, done.stdout, done.stderr), (2, "", "usage: tools/library [--install PREFIX]\n"), f"tools/library {words}")
    done = subprocess.run([ROOT / "tools/library", "--install", "/dev/null/here"], capture_output=True, text=True)
    check((done.returncode, done.stderr.splitlines()[-1]), (2, "tools/library: the library could not be put under /dev/null/here"), "a place that cannot be")


if __name__ == "__main__":
    symbols()
    places()
    header()
    count = refusals()
    numbers()
    wrong_use()
    with tempfile.TemporaryDirectory() as folder:
        said = installed(Path(folder))
        written = parts(Path(folder))
        needs = stack(Path(folder))
    print(f"{count} refusals have one sentence in C, Rust and Python; {said}; the header's structs give {written} answers of the writer; no call needs more than {needs} bytes of stack")
