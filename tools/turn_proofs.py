#!/usr/bin/env python3
"""The port to today's Rattle, after respell.py: what each Proof.antt names of what Rattle generates comes to today's names.

usage: tools/turn_proofs.py NAMES LANDED        at the top of the repository

NAMES holds NAMES/CRATE/names.json, which `rattle check --generated NAMES/CRATE --old-names` wrote: for each function the goals, places, steps and loops by their old
and new names, compared with `_` for each `-`. LANDED is the repository before the port: its files have the goals' old names, which port.py turned in part, at the same
places. A goal's answer takes the goal's name.
"""

import json
import os
import re
import sys

WORD = r"[^\s(){}.;,@\"«»`:]+"
def plain(name):
    return name.replace("-", "_")


def need_of(needs, said):
    said = re.sub(r"^(loop\d*)-(holds|less|again)", lambda m: m.group(1) + {"holds": "-init", "less": "-smaller", "again": "-preserved"}[m.group(2)], said)
    for old, new in needs:
        if plain(old) == plain(said):
            return new
    return None


def with_old_goals(text, landed, where):
    """The text with the goals' names of the file as it landed."""
    asked = re.compile(r"\btie *\. *Need-(%s)" % WORD)
    olds = asked.findall(landed)
    if len(olds) != len(asked.findall(text)):
        print(f"left: {where}: other goals than in the file that landed")
        return text
    return asked.sub(lambda m: "tie.Need-" + olds.pop(0), text)


def turned(text, it, where):
    needs = it["needs"]
    by_name = it["places_by_name"]
    places = {plain(p[0]): by_name[i] for i, p in enumerate(it["places"])}
    steps = {}
    for p in it["places"]:
        old, new = p[2]
        if old:
            if steps.get(plain(old), new) != new:
                print(f"left: {where}: step {old} is {steps[plain(old)]} and {new}")
            steps[plain(old)] = new
    loops = {plain(l[0][0]): l[0][1] for l in it["loops"]}
    callee = {plain(p[2][0]): p[3] for p in it["places"] if p[3]}
    params = it["params"]

    # The goals: what the file's answer to each is called, and the goal.
    local = {}

    def goal(m):
        name, said = m.group(1), m.group(3)
        new = need_of(needs, said)
        if new is None:
            print(f"left: {where}: goal {said}: {[n[0] for n in needs]}")
            return m.group()
        local[name] = new
        return f"{new} : {m.group(2)}tie.Need-{new}"

    text = re.sub(r"(?m)^(%s) : ((?:\{[^}]*\} → )?)tie\.Need-(%s)" % (WORD, WORD), goal, text)

    def other(m):
        said = m.group(1)
        if said.startswith("Need-"):
            if said[5:] in [n[1] for n in needs]:
                return m.group()
            new = need_of(needs, said[5:])
            if new is None:
                print(f"left: {where}: goal {said}")
                return m.group()
            return "tie.Need-" + new
        for word in ("invariant-", "decreases-"):
            if said.startswith(word):
                rest = said[len(word):]
                return "tie." + word + loops.get(plain(rest), rest)
        if plain(said) in places:
            return "tie." + places[plain(said)]
        if said not in ("close", "spec"):
            print(f"left: {where}: tie.{said}")
        return m.group()

    text = re.sub(r"\btie\.(%s)" % WORD, other, text)
    # The loops' invariants and measures, as names of the file.
    for old, new in loops.items():
        for word in ("invariant", "decreases"):
            text = re.sub(r"(?<![\w'.-])%s[-_]%s(?![\w'-])" % (word, old.replace("_", "[-_]")), f"{word}-{new}", text)
    # The steps, as fields; and what a call left behind its arguments, by the parameter's name.
    held = {"args", "new", "auto", "last"} | set(steps.values())
    # What a loop, a test and the start say, where port.py did not see whose field it is. Records of ours have some of these names too: they turn behind a step alone.
    for old, new in (("inv", "invariant"), ("pre", "requires")):
        text = re.sub(r"(?<=[\w')\]₀-₉])\.%s(?![\w'-])" % old, "." + new, text)

    def of_step(m):
        now = {"taken": "true", "left": "false", "last": "new"}[m.group(2)]
        return f".{m.group(1)}.{now}" if plain(m.group(1)) in steps or m.group(1) in held else m.group()

    text = re.sub(r"\.([\w'-]+)\.(taken|left|last)(?![\w'-])", of_step, text)

    def field(m):
        said = plain(m.group(1))
        # A variable of a loop, an argument or what a call left is no step, though it may have a step's old name.
        holder = re.search(r"\.([\w'-]+)$", text[: m.start()])
        if holder and (holder.group(1) in held or plain(holder.group(1)) in steps):
            return m.group()
        if said in steps:
            return "." + steps[said]
        if said in ("type_inv", "well_formed"):
            return "." + said
        return m.group()

    def argument(m):
        step, kind, path = m.group(1), m.group(2), m.group(3)
        names = params.get(callee.get(plain(step)) or "")
        if not names:
            return m.group()
        at = path.count(".1")
        if path.endswith(".0") and at < len(names):
            return f".{step}.{kind}.{names[at]}"
        return m.group()

    text = re.sub(r"\.(%s)\.(new|auto|same)((?:\.1)*\.0)(?!\d)" % WORD, argument, text)
    # What a match knows of its value stands with the arm now.
    of_arms = {}
    for arm in it["arms"]:
        for name, step, path in arm[2] if arm else []:
            if path:
                of_arms.setdefault((plain(step), ".".join(path)), set()).add(f"{arm[0]}.{name}")

    def in_arm(m):
        now = of_arms.get((plain(m.group(1)), m.group(2)[1:]))
        if now and len(now) == 1:
            return "." + min(now)
        if now:
            print(f"left: {where}: {m.group()} is one of {sorted(now)}")
        return m.group()

    text = re.sub(r"\.([a-z_][\w'-]*)(\.given(?:\.[01])*)(?![\w.])", in_arm, text)
    text = re.sub(r"(?<=[\w')\]₀-₉])(?<!\bargs)\.([a-z_][\w'-]*)", field, text)
    # A step is reached without what came before it: its name is its own in the function.
    known = set(steps.values()) | {arm[0] for arm in it["arms"] if arm} | {"args", "requires", "ranges", "well_formed"}
    text = re.sub(r"(?:\.before)+\.([a-z_][\w'-]*)(?![\w'-])", lambda m: "." + m.group(1) if m.group(1) in known else m.group(), text)
    # The answers, as heads and in the last line.
    heads = sorted((old for old, new in local.items() if old != new), key=len, reverse=True)
    if heads:
        text = re.sub(r"(?<![\w'.-])(%s)(?![\w'-])(?! : *(?:\{[^}]*\} → )?tie\.Need)" % "|".join(map(re.escape, heads)), lambda m: local[m.group(1)], text)
    return text


def main(names, landed):
    for crate in sorted(os.listdir("crates")):
        listed = os.path.join(names, crate, "names.json")
        if not os.path.isfile(listed):
            continue
        known = json.load(open(listed))
        top = os.path.join("crates", crate, "proofs")
        for folder, dirs, files in os.walk(top):
            if "Proof.antt" not in files:
                continue
            path = os.path.join(folder, "Proof.antt")
            module = os.path.relpath(folder, top).replace(os.sep, ".")
            it = known.get(f"Rattle-{crate}-proofs.{module}.Lts")
            if it is None:
                print(f"left: {path}: no names for {module}: {[k for k in known if module.split('.')[-1].strip('+') in k]}")
                continue
            text = open(path, encoding="utf-8").read()
            before = open(os.path.join(landed, path), encoding="utf-8").read()
            new = turned(with_old_goals(text, before, path), it, path)
            if new != text:
                open(path, "w", encoding="utf-8").write(new)


if __name__ == "__main__":
    main(sys.argv[1], sys.argv[2])
