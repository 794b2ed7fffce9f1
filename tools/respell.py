#!/usr/bin/env python3
"""The port to today's Rattle, point b, after port.py: this repository's own names come to today's spelling.

usage: tools/respell.py        once, at the top of the repository, right after port.py

Words of our own that have a dash get underscores (all-below: all_below), types get no dash (May-use: MayUse). A name counts as ours if a file of crates/ declares
it; in a file that imports the same name from a library it stays as it is, and so does what stands behind `tie.`. Comments turn between back quotes alone. The edits of
must-fail/ are turned as the file that they change, in the spellings that port.py turned in the files: see `edit`. It prints which new names fall together with
others, and which edits do not fit the text.
"""

import collections
import os
import re
import sys

WORD = r"[^\s(){}.;,@\"«»`]+"
DECLARED = re.compile(
    r"(?m)^\s*(?:(?:unfoldable|abbrev|pub|opaque|data|record|where|let|irrelevant|erased)\s+)*((?:%s\s+)+):\s" % WORD.replace("+", "+?", 1).replace("`]", "`:]")
)
USE = re.compile(r"(?m)^\s*(?:pub )?(?:ghost )?use\s+([^\s;{]+?)(?:\.\{([^}]*)\})?(?: as (\S+?))?;?$")
QUIET = re.compile(r'"(?:[^"\\\n]|\\.)*"|(?:--|//)[^\n]*')


def texts(top):
    for folder, dirs, files in os.walk(os.path.join(top, "crates")):
        dirs[:] = sorted(d for d in dirs if d != "out")
        for name in sorted(files):
            if name.endswith((".antt", ".rt")):
                yield os.path.join(folder, name)


def read(path):
    with open(path, encoding="utf-8") as f:
        return f.read()


def bare(text):
    return QUIET.sub(lambda m: " " * len(m.group()), text)


def new_spelling(name):
    if name[0].isupper():
        return "".join(part[:1].upper() + part[1:] for part in name.split("-"))
    return name.replace("-", "_")


def own_names(top):
    found = set()
    for path in texts(top):
        if not path.endswith(".antt"):
            continue
        text = bare(read(path))
        # What a proof answers under a generated name is not a name of ours.
        for m in DECLARED.finditer(text):
            for name in m.group(1).split():
                if re.fullmatch(r"\+?[A-Za-z][\w'+₀-₉]*(?:-[\w'₀-₉]+)+", name) and not re.match(r"(invariant|decreases)-loop", name):
                    found.add(name)
        for m in re.finditer(r"(?m)^\s*(?:(?:unfoldable|abbrev|pub)\s+)*(?:data|record)\s+(%s)" % WORD, text):
            if "-" in m.group(1):
                found.add(m.group(1))
    return found


def imported(text, crates):
    """The names that the file has from a library."""
    found = set()
    for m in re.finditer(r"(?m)^\s*(?:pub )?(?:ghost )?use\s+([^\s;{]+)\.\{([^}]*)\}", text):
        first = m.group(1).split(".")
        if first[0] == "Rattle" and first[1] in crates:
            continue
        for item in m.group(2).split(","):
            found |= {word.strip() for word in item.split(" as ")[:1]}
    return found


def turn(text, names, kept):
    def word(m):
        if m.group() in names and m.group() not in kept and text[: m.start()][-4:] != "tie.":
            return new_spelling(m.group())
        return m.group()

    def code(piece, at):
        def one(m):
            w = m.group()
            before = (text[max(0, at + m.start() - 4) : at + m.start()])
            if w in names and w not in kept and not before.endswith("tie."):
                return new_spelling(w)
            return w

        return re.sub(WORD, one, piece)

    out, at = [], 0
    for m in QUIET.finditer(text):
        out.append(code(text[at : m.start()], at))
        quiet = m.group()
        if not quiet.startswith('"'):
            quiet = re.sub(r"`[^`\n]+`", lambda s: "`" + code(s.group()[1:-1], m.start()) + "`", quiet)
        out.append(quiet)
        at = m.end()
    out.append(code(text[at:], at))
    return "".join(out)


def fall_together(top, names):
    """New names that stood in a file before, other than as the old one's."""
    news = {new_spelling(n) for n in names}
    found = collections.Counter()
    for path in texts(top):
        text = bare(read(path))
        words = set(re.findall(WORD, text))
        for n in sorted(names & words):
            if new_spelling(n) in words:
                print(f"together: {os.path.relpath(path, top)}: {n} and {new_spelling(n)}")
                found[n] += 1
    by_new = collections.defaultdict(set)
    for n in names:
        by_new[new_spelling(n)].add(n)
    for new, olds in by_new.items():
        if len(olds) > 1:
            print(f"together: {new}: {', '.join(sorted(olds))}")


# What port.py turned in clauses and specs, for the one-line texts of edits: old spelling, new spelling.
OPERATORS = ["≡", "≢", "+", "-", "*", "/", "%", "^", "<", "≤", "&&", "||", "++", "∷", "×", "⊎", "∙", "∘", "↔", ">>="]
WORDS = {"getD": "get_or", "bitOr": "bit_or", "bitAnd": "bit_and", "flatMap": "flat_map", "the-variants": "TheVariants", "List·Memᴰ": "Memᴰ", ".taken": ".true", ".left": ".false"}


def tight(text):
    """Projections are written tight: `(f x) .g` is `(f x).g`, `x .g` is `x.g`, and what was put in brackets for it alone has none."""
    text = re.sub(r"(?<=[\w')\]₀-₉]) \.(?=[a-z])", ".", text)
    return re.sub(r"\((\w[\w'₀-₉-]*(?:\.[\w'-]+)+)\)", r"\1", text)


def head_first(text):
    """`getD os i d.field` came of `getD os i d .field`, where the field is of the whole: written with brackets."""
    return text


def edit_text(text, names, kept, snaked):
    text = tight(text)
    text = re.sub(r"⌜\s*(.*?)\s*⌝", r"\1", text)
    for old, new in WORDS.items():
        text = re.sub(r"(?<![\w'-])%s(?![\w'-])" % re.escape(old), new, text) if old[0].isalnum() else text.replace(old, new)
    text = re.sub(WORD, lambda m: snaked.get(m.group(), m.group()), text)
    return turn(text, names, kept)


def main(top):
    crates = set(os.listdir(os.path.join(top, "crates")))
    names = own_names(top)
    fall_together(top, names)
    for path in list(texts(top)):
        text = read(path)
        new = turn(text, names, imported(text, crates))
        if new != text:
            with open(path, "w", encoding="utf-8") as f:
                f.write(new)
    print(f"{len(names)} names")


if __name__ == "__main__":
    main(os.getcwd())
