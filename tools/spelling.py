#!/usr/bin/env python3
"""Brings the repository's own definitions and lemmas to one spelling: words in snake case, types in camel case.

usage: python3 tools/spelling.py [--show]        at the top of the repository; --show writes nothing

What is renamed: what .antt files of specs/ and proofs/ declare, with its fields, wherever it is cited: in crates/, and between
backticks in README.md, CHANGES.md and docs/. What keeps its name: whatever src/ declares, and the names that Rattle makes for the
goals of a function (in Answers.antt, Invariants.antt and Given), constructors, and modules.
Two names that would fall together, or one that would fall on a name that stands somewhere, stop it, but for those of SETTLED.
"""
import os
import re
import sys

# Where the rule's own name stands for something else already: a lemma that would have its function's name gets _lem. And names
# that are words of the prover (first_of, ground), that read badly, or that a function of src/ has which does something else.
SETTLED = {
    "first_of": "first_on_way",
    "ground": "ground_of",
    "readMap": "read_map_at",
    "threeInARow": "three_in_a_row",
    "arcs-of": "arcs_of_lem",
    "no-road": "no_road_lem",
    "rises-to": "rises_to_lem",
    "tree-by": "tree_by_lem",
    "is-map": "is_map_lem",
    "is-plan": "is_plan_lem",
    "is-change": "is_change_lem",
    "is-walk": "is_walk_lem",
    "plan-of": "plan_of_lem",
    "read_at": "read_at_lem",
    "same_bool": "same_bool_lem",
    "away_of": "away_of_lem",
    "place_at": "place_at_lem",
    "goesOn": "goes_on_at",
    "Near-means": "NearMeansLess",
    "No-room": "NoRoomFound",
}
MADE = ("Answers.antt", "Invariants.antt", "Proof.antt")
NAME = r"[^\s:(){}\[\].,;@|λ→∷≡]+"
TOKEN = re.compile(r"[A-Za-z_◌ℕℤ][\w'′◌\-]*")


def files(root, ends, folder="crates"):
    for d, ds, fs in os.walk(os.path.join(root, folder)):
        ds[:] = sorted(x for x in ds if x not in ("out", ".git", "target"))
        for f in sorted(fs):
            if f.endswith(ends):
                yield os.path.join(d, f)


def text(path):
    with open(path, encoding="utf-8") as f:
        return f.read()


def declared(root):
    """The names that .antt files declare, but for the answers to goals."""
    found = {}
    head = re.compile(r"^\s*(?:abbrev |unfoldable )?(?:pub )?(?:abbrev |unfoldable )?(data |record )?(" + NAME + r")((?:\s+[({][^:]*:[^)}]*[)}])*) : (.*)$")
    for path in files(root, (".antt",)):
        made = os.path.basename(path) in MADE
        for line in text(path).split("\n"):
            if re.match(r"\s*(--|use |pub mod|mod |let )", line):
                continue
            m = head.match(line)
            if not m:
                continue
            if made and (m.group(4).startswith("goal.") or "goal." in m.group(4)):
                continue
            found.setdefault(m.group(2), []).append((os.path.relpath(path, root), m.group(1) or "", m.group(4)))
    return found


def standing(t):
    """The names that a text cites, but for modules on a path and for the functions of src/, which lie in modules of their own."""
    t = re.sub(r"(?m)^use [^{\n]*", "", t)
    t = re.sub(r"(?m)^(pub )?mod .*$", "", t)
    t = re.sub(r"--.*", "", t)
    t = re.sub(r"\.[A-Za-z_][\w'-]*", "", t)
    return set(TOKEN.findall(t))


def respelled(name):
    if name[:1].isupper():
        return "".join(w[:1].upper() + w[1:] for w in name.split("-")) if "-" in name else name
    new = name.replace("-", "_").replace("′", "'")
    if re.search(r"[a-z0-9][A-Z]", new):
        new = re.sub(r"(?<=[a-z0-9])(?=[A-Z])", "_", new).lower()
    return new


def main(argv):
    root = "."
    show = "--show" in argv
    own = declared(root)
    new = {n: SETTLED.get(n, respelled(n)) for n in own}
    new = {a: b for a, b in new.items() if a != b}
    tokens = {}
    for path in files(root, (".antt",)):
        for token in standing(text(path)):
            tokens.setdefault(token, []).append(path)
    back = {}
    for a, b in new.items():
        back.setdefault(b, []).append(a)
    bad = 0
    for b, olds in sorted(back.items()):
        if len(olds) > 1:
            print("fall together:", b, olds)
            bad += 1
        if b in tokens and b not in new:
            print("stands already:", b, "from", olds, "at", tokens[b][:4])
            bad += 1
    print(len(new), "names,", bad, "to settle")
    if show or bad:
        return 1 if bad else 0
    old = re.compile(r"(?<![\w'′◌\-])(" + "|".join(sorted(map(re.escape, new), key=len, reverse=True)) + r")(?![\w'′◌\-])")
    for path in files(root, (".antt", ".rt", ".edit")):
        t = text(path)
        u = old.sub(lambda m: new[m.group(1)], t)
        if u != t:
            with open(path, "w", encoding="utf-8") as f:
                f.write(u)
    pages = [p for p in ("README.md", "CHANGES.md") if os.path.exists(p)] + list(files(root, (".md",), "docs"))
    for path in pages:
        t = text(path)
        u = re.sub(r"`[^`\n]*`", lambda m: old.sub(lambda k: new[k.group(1)], m.group(0)), t)
        if u != t:
            with open(path, "w", encoding="utf-8") as f:
                f.write(u)
    return 0


if __name__ == "__main__":
    raise SystemExit(main(sys.argv[1:]))
