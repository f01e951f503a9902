#!/usr/bin/env python3
"""Brings the names of the repository's own definitions and lemmas to Rattle's spelling: words in snake case, facts in upper camel case.

usage: python3 tools/spell.py [--names]      at the top of the repository; --names prints the names alone

Renamed are names with a dash that specs/ or a lemma file of proofs/ declares: `hops-of` becomes `hops_of`,
`Line-is-lawful` becomes `LineIsLawful`. They are renamed in specs/, proofs/, src/ (outside string literals) and, between
backquotes, in README.md and docs/. Names that a library declares, names that Rattle makes (goals, steps) and functions of
src/ keep theirs. Two names that would fall together are told and stop the run. A file that imports the library's
`AllByRecursion` as `All`, which is the name of another word of the library, calls it by its own name.
"""

import glob
import os
import re
import sys

# A theorem whose name in camel case would be that of the relation that it speaks of.
APART = {
    "No-frame-leaves-later": "NoFrameEverLeavesLater",
    "No-port-holds-more": "NoPortEverHoldsMore",
}

# Names that are also words of comments.
WORDS = {"well-formed"}

NAME = re.compile(r"[A-Za-z_◌][A-Za-z0-9_']*(?:-[A-Za-z0-9_']+)*")
LIBRARY = re.compile(r"^\s*(?:ghost )?use (?:Rattle\.std|Rattle\.core|mathlib|native|lib|Prim)\b[^{]*\{(.*)\}")
DECLARED = re.compile(r"^\s*(?:pub |abbrev |unfoldable |record |data )*([^\s(){}:.,]+)(?: [({][^:]*[^\n]*)? :(?: |$)")
MADE = re.compile(r"^use Rattle\.\w+\.proofs\.[\w.+]*\.?(?:Goals|Given)\b")
GOAL = re.compile(r"^pub ([^\s:]+) : goal\.")


def own_files():
    return sorted(glob.glob("crates/*/specs/**/*.antt", recursive=True) + glob.glob("crates/*/proofs/*.antt"))


def answer_files():
    return sorted(set(glob.glob("crates/*/proofs/**/*.antt", recursive=True)) - set(own_files()))


def source_files():
    return sorted(glob.glob("crates/*/src/**/*.rt", recursive=True))


def text(path):
    with open(path, encoding="utf-8") as f:
        return f.read()


def of_libraries():
    found = set()
    for path in own_files() + answer_files() + source_files():
        for line in text(path).splitlines():
            m = LIBRARY.match(line)
            if m:
                found |= {n.strip().split(" as ")[0] for n in m[1].split(",")}
    return found


def respelled(name):
    if name in APART:
        return APART[name]
    if name[0].isupper():
        return "".join(w[:1].upper() + w[1:] for w in re.split("[-_]", name))
    return name.replace("-", "_")


def names():
    library = of_libraries()
    found = {}
    for path in own_files():
        for line in text(path).splitlines():
            m = DECLARED.match(line)
            if m and "-" in m[1] and NAME.fullmatch(m[1]) and m[1] not in library:
                found[m[1]] = respelled(m[1])
    return found


def fall_together(found):
    """Pairs of names that would be one, or that an upper camel case name already has."""
    used = {}
    for path in own_files():
        for line in text(path).splitlines():
            m = DECLARED.match(line)
            if m and m[1][0].isupper():
                used.setdefault(m[1], path)
    back, both = {}, []
    for old, new in found.items():
        if new in back or (new[0].isupper() and new in used):
            both.append(f"{old} and {back.get(new, new)}")
        back[new] = old
    return both


def turn(part, found, made=()):
    def one(m):
        start = part.rfind("\n", 0, m.start()) + 1
        prose = part.startswith(("--", "//"), start + len(part[start:]) - len(part[start:].lstrip()))
        return m[0] if m[0] in made or (prose and m[0] in WORDS) else found.get(m[0], m[0])

    return NAME.sub(one, part)


def turn_answers(t, found):
    """Keeps names of goals, and the steps behind `c.`, `l.` and `w.`."""
    made = {m[1] for line in t.splitlines() if (m := GOAL.match(line))}
    out = []
    for line in t.splitlines(keepends=True):
        if MADE.match(line):
            out.append(line)
            continue
        kept = []
        hidden = re.sub(r"(?<![\w'-])([clw]|goal)\.([A-Za-z_][\w'-]*)", lambda m: kept.append(m[0]) or f"\0{len(kept) - 1}\0", line)
        turned = turn(hidden, found, made) if not GOAL.match(line) else hidden
        out.append(re.sub(r"\0(\d+)\0", lambda m: kept[int(m[1])], turned))
    return "".join(out)


def turn_source(t, found):
    parts = re.split(r'("(?:[^"\\\n]|\\.)*")', t)
    return "".join(p if i % 2 else turn(p, found) for i, p in enumerate(parts))


def by_own_name(t):
    if "AllByRecursion as All" not in t:
        return t
    t = t.replace("AllByRecursion as All", "AllByRecursion")
    lines = t.splitlines(keepends=True)
    return "".join(x if x.lstrip().startswith("--") else re.sub(r"(?<![\w'.-])All(?![\w'-])", "AllByRecursion", x) for x in lines)


def turn_page(t, found):
    return re.sub(r"`[^`\n]*`", lambda m: turn(m[0], found), t)


def main():
    found = names()
    if "--names" in sys.argv:
        for old, new in sorted(found.items()):
            print(old, new)
        return 0
    both = fall_together(found)
    if both:
        print("spell: these names would fall together: " + ", ".join(both), file=sys.stderr)
        return 2
    pages = [p for p in ["README.md"] + sorted(glob.glob("docs/*.md")) if os.path.exists(p)]
    for files, how in ((own_files(), turn), (answer_files(), turn_answers), (source_files(), turn_source), (pages, turn_page)):
        for path in files:
            old = text(path)
            new = by_own_name(how(old, found))
            if new != old:
                with open(path, "w", encoding="utf-8") as f:
                    f.write(new)
    print(f"spell: {len(found)} names")
    return 0


if __name__ == "__main__":
    raise SystemExit(main())
