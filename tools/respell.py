#!/usr/bin/env python3
"""Brings this repository's own definitions and lemmas to snake case: forwardOf to forward_of, areaX to area_x.

usage: python3 tools/respell.py [--pages]     at the top of the repository, once, after port.py
       python3 tools/respell.py --clashes     only says which new names fall together with others

A name is turned where a file of specs/ or proofs/ declares it, and then wherever it stands: in clauses, definitions and proofs, and with --pages in the pages.
Types and modules keep their capitals; so do the names of the language's own library, which are never declared here.
"""
import os
import re
import sys

DECLARED = re.compile(r"^\s*(?:abbrev |unfoldable |private )*(?:pub )?([a-z][\w'-]*) :", re.M)
HUMPED = re.compile(r"^[a-z][a-z0-9]*(?:_[a-z0-9]+)*[A-Z][A-Za-z0-9_']*$")
TOKEN = re.compile(r"[A-Za-z_][\w']*")
# Names that would fall together with a turned one: these give way, in the files that name them.
GIVE_WAY = [
    ("crates/chain/proofs", "AtIndex", re.compile(r"(?<![.\w-])no_step(?![\w-])"), "step_past_end"),
    ("crates/theorems/proofs/Velocities.antt", "", re.compile(r"(?<![.\w-])no_value(?![\w-])"), "value-none"),
]


def snake(word):
    word = re.sub(r"([a-z0-9'])([A-Z])", r"\1_\2", word)
    word = re.sub(r"([A-Z])([A-Z][a-z])", r"\1_\2", word)
    return word.lower()


def files(root, ends):
    for folder, dirs, names in os.walk(root):
        dirs[:] = sorted(d for d in dirs if d not in ("out", ".git", "must-fail"))
        for name in sorted(names):
            if name.endswith(ends):
                yield os.path.join(folder, name)


def read(path):
    with open(path, encoding="utf-8") as f:
        return f.read()


def humped():
    found = set()
    for path in files("crates", ".antt"):
        for name in DECLARED.findall(read(path)):
            found |= {part for part in name.split("-") if HUMPED.match(part)}
    return {name: snake(name) for name in sorted(found)}


def clashes(turned):
    for path in files("crates", (".antt", ".rt")):
        words = set(TOKEN.findall(read(path)))
        for name, new in turned.items():
            if name in words and new in words:
                print(f"{path}: {name} and {new}")
    back = {}
    for name, new in turned.items():
        back.setdefault(new, []).append(name)
    for new, names in back.items():
        if len(names) > 1:
            print(f"{new}: {names}")


def give_way():
    for top, named, old, new in GIVE_WAY:
        for path in files(top, ".antt") if os.path.isdir(top) else [top]:
            if os.path.exists(path):
                text = read(path)
                if named in text or os.path.basename(path) == named + ".antt":
                    with open(path, "w", encoding="utf-8") as f:
                        f.write(old.sub(new, text))


def main():
    turned = humped()
    if "--clashes" in sys.argv:
        return clashes(turned)
    give_way()
    paths = list(files("crates", (".antt", ".rt")))
    if "--pages" in sys.argv:
        paths += [*files("docs", (".md", ".txt")), "README.md"]
    changed = 0
    for path in paths:
        text = read(path)
        new = TOKEN.sub(lambda m: turned.get(m.group(), m.group()), text)
        if new != text:
            changed += 1
            with open(path, "w", encoding="utf-8") as f:
                f.write(new)
    print(f"respell: {len(turned)} names, {changed} files")


main()
