#!/usr/bin/env python3
"""Counts the places of docs/DESIGN-PASS.md, by its points: count_forms.py [-v]; -v names each place."""
import glob
import os
import re
import sys

os.chdir(os.path.join(os.path.dirname(os.path.abspath(__file__)), ".."))
SAY = "-v" in sys.argv[1:]
SOURCES = sorted(glob.glob("crates/*/src/*.rt"))


def lines(path):
    """The lines of a file, with comments and ghost items left blank."""
    with open(path) as file:
        return ["" if re.match(r"\s*(//|ghost |ensures|requires)", line) else line.rstrip() for line in file]


def functions(path):
    """Each function of a file: its name, the line it begins at, its parameters and its body."""
    text = lines(path)
    found = []
    for at, line in enumerate(text):
        name = re.match(r'\s*(?:pub )?(?:extern "C" )?fn (\w+)', line)
        if name:
            end = next(k for k in range(at, len(text)) if text[k] == "}")
            whole = "\n".join(text[at : end + 1])
            head, _, body = whole.partition("{\n")
            found.append((name.group(1), at + 1, head, body))
    return found


def told(title, places):
    """Prints a count, and with -v the places."""
    print(f"{len(places):5}  {title}")
    if SAY:
        for place in places:
            print(f"         {place}")


def grep(pattern):
    return [f"{path[7:]}:{k + 1}: {line.strip()}" for path in SOURCES for k, line in enumerate(lines(path)) if re.search(pattern, line)]


def loops():
    """The while loops: those that count an index by hand, and the others."""
    counted, others = [], []
    for path in SOURCES:
        text = lines(path)
        for k, line in enumerate(text):
            loop = re.match(r"^(\s*)while (.*) \{$", line)
            if not loop:
                continue
            end = next(j for j in range(k, len(text)) if text[j] == loop.group(1) + "}")
            body = "\n".join(text[k + 1 : end])
            words = re.findall(r"\b([a-z]\w*)\b", loop.group(2))
            by_hand = any(re.search(rf"^\s*{word} [+-]= \d+;", body, re.M) for word in words)
            (counted if by_hand else others).append(f"{path[7:]}:{k + 1}: {line.strip()}")
    return counted, others


def together(*names):
    """The functions that have all these parameters."""
    return [f"{path[7:]}:{at}: {name}" for path in SOURCES for name, at, head, _ in functions(path) if all(re.search(rf"\b{word}: ", head) for word in names)]


def clauses(word):
    found = []
    for path in SOURCES:
        with open(path) as file:
            found += [f"{path[7:]}:{k + 1}" for k, line in enumerate(file) if re.match(r"\s+(requires|ensures)", line) and re.search(rf"\b{word}\b", line)]
    return found


print("1. Own enums of the shape of Option or Result, flags, numbers")
told("enums", grep(r"^(pub )?enum "))
told("fields of a struct that hold an answer", grep(r"^    (pub )?(reading|place|status|verdict): (Reading|Place|Status|Verdict|Result<)"))
told("refusals and verdicts as numbers", grep(r"(verdict|code|number): u32|refusal_number\(\w+\) ==|number == "))
print("2. Twins")
names = {}
for source in SOURCES:
    for name, at, _, _ in functions(source):
        names.setdefault(name, []).append(f"{source[7:]}:{at}")
told("functions with a name that another crate has too", [f"{name}: {', '.join(places)}" for name, places in sorted(names.items()) if len(places) > 1 and name != "main"])
print("3. Loops")
told("while loops that count an index by hand", loops()[0])
told("other while loops", loops()[1])
print("4. Conversions, copies and comparisons by hand")
told("casts", grep(r" as (u8|u16|u32|u64|usize|i32|i64)\b"))
told("functions that only cast", [f"{path[7:]}:{at}: {name}" for path in SOURCES for name, at, _, body in functions(path) if re.fullmatch(r"\s*\(?\w+ as \w+\)?\n\}", body)])
print("5. What travels together")
for group in (("es", "lists"), ("d", "number"), ("row", "via"), ("out", "at"), ("s", "at"), ("words", "count")):
    told("functions with " + " and ".join(group), together(*group))
told("clauses with Lists or WithLists", clauses("(With)?Lists"))
print("7. Which step to run")
told("matches on Question or Call", grep(r"match (\w+\.)*(question|call) \{|let Question::"))
print("8. Proofs")
told("Proof.antt files", sorted(glob.glob("crates/*/proofs/*/Proof.antt")))
told("answers", [line for path in glob.glob("crates/*/proofs/*/*.antt") for line in open(path) if re.match(r"(pub )?\S+ : (goal|tie)\.(Need-)?(?!invariant|decreases)\S+", line)])
told("lines of proofs of functions", [line for path in glob.glob("crates/*/proofs/*/*.antt") for line in open(path)])
