#!/usr/bin/env python3
"""Brings the repository's own definitions and lemmas to snake case.

usage: python3 tools/respell.py        at the top, once, on what port.py left

A name is respelled where it is declared in specs/ or proofs/, or by an import's "as", and has a dash or, after a small letter, a capital.
A type with a dash is brought to camel case. Names of goals, constructors, and of what a library has stay.
Words of Rust code stay: none has a dash or, after a small letter, a capital inside.
"""
import os
import re
import sys

NAME = r"[A-Za-z_][\w'-]*"
TOKEN = re.compile(r"(?<![\w'\-◌])" + NAME)
DECLARED = re.compile(r"^[ ]*(?:abbrev |unfoldable |pub |ruleset )*(" + NAME + r")[ ]*:(?!=)[ ]*(\S*)", re.M)
TYPE = re.compile(r"^[ ]*(?:pub )?(?:record|data) (" + NAME + r")", re.M)
ALIAS = re.compile(r" as ([a-z]\w*)(?=[,}])")
BOUND = re.compile(r"\blet (" + NAME + r")\s*(?::|=)")
USED = re.compile(r"^(?:ghost )?(?:pub )?use ([\w.+'·-]+)\.\{([^}]*)\}", re.M)
# lemmas that would fall together with the definition or the function that they are about
LEMMAS = (
    "any-over at-blob blob-at first-in keys-first last-of next-of too-low walk-all "
    "in-line-stands law-stands taken-stands useless-stands"
).split()
APART = {n: n.replace("-", "_") + "_lem" for n in LEMMAS}
# the same, of a name that was in snake case before
BEFORE = {"crates/slots/proofs/Settles.antt": {"cut_left": "cut_left_lem"}}


def files(root, endings):
    for folder, dirs, names in os.walk(os.path.join(root, "crates")):
        dirs[:] = sorted(d for d in dirs if d != "out")
        for n in sorted(names):
            if n.endswith(endings):
                yield os.path.join(folder, n)


def snake(name):
    if name in APART:
        return APART[name]
    if name[0].isupper():
        return "".join(w[0].upper() + w[1:] for w in name.split("-"))
    return re.sub(r"(?<=[a-z0-9])([A-Z])", r"_\1", name).replace("-", "_").lower()


def turns(name):
    return "-" in name or (name[0].islower() and re.search(r"[A-Z]", name))


def own(root, texts):
    crates = set(os.listdir(os.path.join(root, "crates")))
    found, goals = set(), set()
    for p, t in texts.items():
        for _, items in USED.findall(t):
            found.update(ALIAS.findall("{" + items + "}"))
        if not p.endswith(".antt"):
            continue
        found.update(TYPE.findall(t))
        for name, what in DECLARED.findall(t):
            (goals if re.match(r"(goal|need|given)\.", what) else found).add(name)
        found.update(BOUND.findall(t))
    return {n for n in found - goals if turns(n)}, crates


def foreign(text, crates):
    names = set()
    for path, items in USED.findall(text):
        parts = path.split(".")
        if parts[0] != "Rattle" or parts[1] not in crates or ".Goals" in path or ".Given" in path:
            names.update(i.strip() for i in items.split(",") if " as " not in i)
    return names


def main():
    root = os.getcwd()
    texts = {}
    for p in files(root, (".rt", ".antt")):
        with open(p, encoding="utf-8") as f:
            texts[p] = f.read()
        for old, to in BEFORE.get(os.path.relpath(p, root), {}).items():
            texts[p] = re.sub(rf"(?<![\w'-]){old}(?![\w'-])", to, texts[p])
    names, crates = own(root, texts)
    new = {n: snake(n) for n in names}
    said = 0
    back = {}
    for n, s in sorted(new.items()):
        back.setdefault(s, []).append(n)
    for p, t in sorted(texts.items()):
        keep = foreign(t, crates)
        seen = set(TOKEN.findall(t))
        for n in sorted(seen & names - keep):
            both = [o for o in back[new[n]] if o != n and o in seen and o not in keep]
            if new[n] in seen or both:
                print(f"falls together: {os.path.relpath(p, root)}: {n} -> {new[n]} {both}")
                said += 1

        def turn(m):
            w = m.group(0)
            return new[w] if w in names and w not in keep else w

        u = TOKEN.sub(turn, t)
        if u != t and "--dry" not in sys.argv:
            with open(p, "w", encoding="utf-8") as f:
                f.write(u)
    for s, olds in sorted(back.items()):
        if len(olds) > 1:
            print(f"two names, one spelling: {olds} -> {s}")
    print(f"{len(names)} names, {said} places to look at")


main()
