#!/usr/bin/env python3
"""The port to today's Rattle, after respell.py and turn_proofs.py: the edits of must-fail/ come to today's spelling.

usage: tools/turn_edits.py        at the top of the repository

An edit's old text is looked for in its file without spaces, brackets and the difference of `-` and `_`; where it stands once, the edit's old text becomes what stands
there. The new text keeps of it what the edit kept, and what the edit writes anew is turned by the spellings below. An edit that fits already stays. What is left is
printed, for a hand to mend.
"""

import glob
import os
import re
import sys

WORDS = {
    "getD": "get_or", "bitOr": "bit_or", "bitAnd": "bit_and", "flatMap": "flat_map", "the-variants": "TheVariants", "List·Memᴰ": "Memᴰ", "taken": "true", "left": "false",
}
TOKEN = re.compile(r"[^\s(){}.;,@\"«»`⌜⌝\[\]]+|\s+|.")


def tight(text):
    text = re.sub(r"(?<=[\w')\]₀-₉]) \.(?=[a-z])", ".", text)
    before = None
    while before != text:
        before = text
        text = re.sub(r"(?<![\w')\]₀-₉])\((\w[\w'₀-₉-]*(?:\.[\w'-]+)+)\)", r"\1", text)
    return text


def word(w, words):
    if w in WORDS and w not in words:
        return WORDS[w]
    if "-" in w and w not in words and w.replace("-", "_") in words:
        return w.replace("-", "_")
    if re.fullmatch(r"[a-z][\w']*(-[\w']+)+", w) and w not in words:
        return w.replace("-", "_")
    return w


def spelled(text, words):
    """One-line text in today's spelling."""
    m = re.fullmatch(r"(.*?)λ (\w+)\. ⌜ (.*) ⌝(.*)", text)
    if m:
        body = re.sub(r"(?<![\w'.-])%s(?![\w'-])" % m.group(2), "result", m.group(3))
        text = m.group(1) + body + m.group(4)
    text = re.sub(r"⌜ ?(.*?) ?⌝", r"\1", text)
    text = re.sub(r"Rattle·(\w+)(?:·(?:specs|proofs))?\.(specs|proofs)", r"Rattle.\1.\2", text)
    text = tight(text)
    return "".join(word(t, words) for t in TOKEN.findall(text))


def shape(text):
    """The text without what the port may have changed, and for each character its place."""
    out, at = [], []
    for i, ch in enumerate(text):
        if ch in " ()⌜⌝":
            continue
        out.append("_" if ch == "-" else ch)
        at.append(i)
    return "".join(out), at


def found(text, old, words):
    """Where the old text stands: the lines' numbers and the span in the line, if once."""
    want = shape(spelled(old, words))[0]
    hits = []
    for n, line in enumerate(text.split("\n")):
        flat, at = shape(line)
        k = flat.find(want)
        while k >= 0 and want:
            hits.append((n, at[k], at[k + len(want) - 1] + 1))
            k = flat.find(want, k + 1)
    return hits


def balanced(line, a, b):
    """Widens or narrows a span so that its brackets close."""
    while line[a:b].count("(") > line[a:b].count(")") and b < len(line) and line[b] == ")":
        b += 1
    while line[a:b].count(")") > line[a:b].count("(") and a > 0 and line[a - 1] == "(":
        a -= 1
    return a, b


def common(a, b):
    n = 0
    while n < len(a) and n < len(b) and a[n] == b[n]:
        n += 1
    return n


def turned(old, new, text, words):
    """The pair in today's spelling, or None."""
    o, n = spelled(old, words), spelled(new, words)
    if text.count(o) == 1:
        return o, n
    hits = found(text, old, words)
    if len(hits) != 1:
        return None
    line = text.split("\n")[hits[0][0]]
    a, b = balanced(line, hits[0][1], hits[0][2])
    stands = line[a:b]
    # The edit's own change, in tokens: what stands before it and after it is as in the file.
    ot, nt = TOKEN.findall(o), TOKEN.findall(n)
    p = common(ot, nt)
    s = common(ot[::-1][: len(ot) - p], nt[::-1][: len(nt) - p])
    head, tail = shape("".join(ot[:p]))[0], shape("".join(ot[len(ot) - s :] if s else []))[0]
    flat, at = shape(stands)
    if not flat.startswith(head) or not flat.endswith(tail):
        return None
    i = at[len(head)] if len(head) < len(at) else len(stands)
    j = at[len(flat) - len(tail) - 1] + 1 if len(flat) - len(tail) > len(head) else i
    return stands, stands[:i] + "".join(nt[p : len(nt) - s]) + stands[j:]


def main():
    fit = mended = 0
    for path in sorted(glob.glob("crates/*/must-fail/*.edit")):
        crate = path.split("/")[1]
        lines = open(path, encoding="utf-8").read().split("\n")
        file, text, words, good, out = None, None, set(), True, []
        pairs, changed = [], False
        k = 0
        while k < len(lines):
            line = lines[k]
            if line.startswith("file: "):
                file = line[6:].strip()
                where = os.path.join("crates", crate, file)
                text = open(where, encoding="utf-8").read()
                words = set(re.findall(r"[^\s(){}.;,@\"«»`⌜⌝\[\]]+", text))
                out.append(line)
            elif line.startswith("old: ") and k + 1 < len(lines) and lines[k + 1].startswith("new: "):
                old, new = line[5:], lines[k + 1][5:]
                if text.count(old) != 1:
                    pair = turned(old, new, text, words)
                    if pair is None:
                        good = False
                    else:
                        old, new = pair
                        changed = True
                else:
                    n = spelled(new, words) if new != spelled(new, words) and old == spelled(old, words) else new
                    changed, new = changed or n != new, n
                text = text.replace(old, new)
                out += ["old: " + old, "new: " + new]
                k += 1
            else:
                out.append(line)
            k += 1
        if not good:
            print("left: " + path)
            continue
        if changed:
            open(path, "w", encoding="utf-8").write("\n".join(out))
            mended += 1
        else:
            fit += 1
    print(f"{fit} fit, {mended} mended")


if __name__ == "__main__":
    main()
