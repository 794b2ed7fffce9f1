"""The documents for newcomers: each command of docs/GUIDE.md and docs/PRICE.md prints what stands under it, its lines of C, Rust and Python are those of the examples, the tables
of docs/FORMAT.md hold the bytes and the text of the examples, the smallest sheets of docs/REFUSALS.md and the parts in it are refused as it says, each stored
plan is its sheet's, and files, theorems and contracts that docs/ names are there."""
import re
import subprocess
import sys

from stored import ROOT

sys.path.insert(0, str(ROOT / "tools"))
import sheets  # noqa: E402
from sheets import standplan  # noqa: E402


def printed(command):
    return subprocess.run(command, shell=True, cwd=ROOT, stdout=subprocess.PIPE, stderr=subprocess.STDOUT).stdout.decode()


def commands():
    """Blocks marked console: a line behind '$ ' is a command, the lines up to the next one are what it prints."""
    counts = []
    for page in ("docs/GUIDE.md", "docs/PRICE.md"):
        blocks = re.findall(r"^```console\n(.*?)^```$", (ROOT / page).read_text("utf-8"), re.MULTILINE | re.DOTALL)
        parts = [part for block in blocks for part in re.split(r"^\$ ", block, flags=re.MULTILINE)[1:]]
        for part in parts:
            command, _, wanted = part.partition("\n")
            found = printed(command)
            assert found == wanted, f"{page}: {command}\nprints\n{found}not\n{wanted}"
        counts.append(len(parts))
    assert min(counts) >= 12, counts
    assert (ROOT / "target/stand.svg").read_bytes() == (ROOT / "examples/stand.svg").read_bytes(), "README's picture is not the guide's"
    assert printed("target/stand examples/stand.sheet 10") == (ROOT / "examples/stand.run").read_text("ascii"), "examples/stand.run"
    for program in ("target/stand", "target/rust/debug/examples/stand", "PYTHONPATH=bindings/python python3 -B examples/stand.py"):
        assert printed(f"{program} target/late.sheet 10 2> /dev/null") == "records that clash 4\nrefused 10\n", f"{program}: records that clash"
    for program in ("target/price", "target/rust/debug/examples/price", "PYTHONPATH=bindings/python python3 -B examples/price.py"):
        for path in sorted((ROOT / "examples").glob("*.sheet")):
            assert printed(f"{program} examples/{path.name}") == printed(f"./standprice examples/{path.name}"), f"{program}: {path.name}"
    return sum(counts)


def excerpts():
    """Blocks marked c, rust or python: lines that stand so in an example of that language, first of what writes a sheet, then of what prices one."""
    found = re.findall(r"^```(c|rust|python)\n(.*?)^```$", (ROOT / "docs/GUIDE.md").read_text("utf-8"), re.MULTILINE | re.DOTALL)
    for at, (language, lines) in enumerate(found):
        path = ROOT / f"examples/{'write' if at < 3 else 'price'}.{dict(c='c', rust='rs', python='py')[language]}"
        assert lines in path.read_text("utf-8"), f"docs/GUIDE.md: not in {path.name}:\n{lines}"
    assert [language for language, _ in found] == ["c", "rust", "python"] * 2, found


def format_tables():
    """The tables with bytes, text and meaning, one for each example that is named in front of it."""
    text = (ROOT / "docs/FORMAT.md").read_text("utf-8")
    found = re.findall(r"^`([0-9a-f ]+)` \(examples/(\w+)\.sheet.*?\n\n\| bytes \| as text \| meaning \|\n\|---\|---\|---\|\n((?:\|.*\n)+)", text, re.MULTILINE)
    assert [name for _, name, _ in found] == ["stand", "exposure", "lip", "loose", "least"], found
    for line, name, rows in found:
        cells = [[cell.strip(" `") for cell in row.split("|")[1:3]] for row in rows.splitlines()]
        data = (ROOT / f"examples/{name}.sheet").read_bytes()
        assert bytes.fromhex(line) == data, f"docs/FORMAT.md: the bytes of {name}"
        pieces = [[part.hex(" "), written] for part, written in sheets.pieces(data)]
        assert cells == pieces, f"docs/FORMAT.md: the table of {name}: {cells}, not {pieces}"


def smallest():
    """By tools/explain: those that cannot be read, in bytes; the others in bytes and as text, and the one of the retired number, which is accepted."""
    text = (ROOT / "docs/REFUSALS.md").read_text("utf-8")
    found = [(number, data, "") for number, data in re.findall(r"^\| `refused (\d+)` \| (?:none|`([0-9a-f ]+)`) \|", text, re.MULTILINE)]
    found += re.findall(r"^\*\*(?:`refused (\d+)`|9 is retired\.)\*\*,? `([0-9a-f ]+)`.*?^```text\n(.*?)^```$", text, re.MULTILINE | re.DOTALL)
    for number, data, lines in found:
        given = [bytes.fromhex(data)]
        if lines:
            given.append(lines.encode())
            assert sheets.to_bytes(sheets.from_text(given[1])) == given[0], f"docs/REFUSALS.md: {data}"
        for sheet in given:
            said = subprocess.run([ROOT / "tools/explain", *(["--no-waits"] if number == "12" else []), "-"], input=sheet, stdout=subprocess.PIPE).stdout.decode()
            assert said.startswith(f"refused {number}: " if number else "verdict 0 "), f"docs/REFUSALS.md: {data}: {said}"
    assert [number for number, *_ in found] == ["1", "2", "3", "4", "26", "5", "6", "7", "8", "", "10", "11", "28", "12"], found


def refused_parts():
    """The parts in docs/REFUSALS.md that are not written are refused as it says, and the cure of 6 is taken."""
    two = [standplan.Step(), standplan.Step()]
    seen = []
    for number, cells in re.findall(r"^\| `refused (\d+)`, of parts \| (.*) \|$", (ROOT / "docs/REFUSALS.md").read_text("utf-8"), re.MULTILINE):
        for code in re.findall(r"`(standplan\.write\([^`]*\))`", cells):
            try:
                eval(code, {"standplan": standplan, "two": two})
                assert False, f"docs/REFUSALS.md: {code} is taken"
            except standplan.Refused as refused:
                assert str(refused.number) == number, f"docs/REFUSALS.md: {code}: {refused}"
        seen.append(number)
        for link in re.findall(r"`(standplan\.Link\([^`]*\))`", cells):
            standplan.write(two, [eval(link)])
    assert seen == ["2", "3", "4", "26", "5", "6", "14"], seen


def plans():
    for path in sorted((ROOT / "examples").glob("*.sheet")):
        assert printed(f"./standplan examples/{path.name}") == path.with_suffix(".plan").read_text("ascii"), path


def names():
    """Files that are named, and what docs/PROOFS.md and docs/CERTIFICATE.md have in code type: edits, files, names of the sources."""
    count = 0
    for path in [ROOT / "README.md", *(ROOT / "docs").rglob("*.md")]:
        for name in re.findall(r"(?<![\w/.])((?:bench|docs|examples|tools|tests|include|crates)/[\w./-]*\w)", path.read_text("utf-8")):
            assert (ROOT / name).exists(), f"{path.name} names {name}, which is not there"
            count += 1
    source = "\n".join(path.read_text("utf-8") for kind in ("specs/*.antt", "proofs/*.antt", "src/*.rt") for path in (ROOT / "crates").glob(f"*/{kind}"))
    known = set(re.findall(r"[^\s(){},;:.&]+", source))
    known |= {f"{path.parts[-3]}/{path.stem}" for path in (ROOT / "crates").glob("*/must-fail/*.edit")}
    known |= {path.name for path in (ROOT / "crates").iterdir()} | {"*", ""}
    for page in ("PROOFS.md", "CERTIFICATE.md"):
        for code in re.findall(r"`([^`\n]+)`", (ROOT / "docs" / page).read_text("utf-8")):
            if " " in code or code.startswith("_") or not code.isascii():
                continue                                   # a command, the end of a name, a sign
            if "/" in code:
                assert code in known or (ROOT / code).exists() or (ROOT / "crates" / code).exists(), f"docs/{page}: {code} is not there"
            else:
                missing = [part for part in re.split(r"::|\.", code) if part not in known]
                assert not missing, f"docs/{page}: {code}: there is no {missing}"
            count += 1
    assert count > 200, count
    return count


if __name__ == "__main__":
    ran = commands()
    excerpts()
    format_tables()
    smallest()
    refused_parts()
    plans()
    found = names()
    print(f"{ran} commands of the guide and of the page on prices print what they say; {found} names in the documents are there")
