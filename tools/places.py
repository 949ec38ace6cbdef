#!/usr/bin/env python3
"""tools/places.py [-v] [COMMIT]: the places in src/ of each point of docs/DESIGN-PASS.md, counted in the working tree or at a commit; -v lists them."""
import re
import subprocess
import sys
from collections import defaultdict

EITHER = r"Refused|Malformed|Missing|NoValue|Failed|Unsound|Nothing|Open|Unread"
FLAGS = r"(?:refusal|number): u8|(?:good|sound|fits|known|is_\w+): bool"
BY_HAND = r"same_\w+|equal|copy|least|status|minus|bit|flag|\w*_number|\w+_from|bytes_from"


def files(commit):
    """Each .rt file of crates/*/src with its text."""
    listed = ["git", "ls-tree", "-r", "--name-only", commit] if commit else ["git", "ls-files"]
    names = subprocess.run([*listed, "crates"], capture_output=True, text=True, check=True).stdout.split()
    for name in sorted(n for n in names if re.match(r"crates/[^/]+/src/.*\.rt$", n)):
        if commit:
            text = subprocess.run(["git", "show", f"{commit}:{name}"], capture_output=True, text=True, check=True).stdout
        else:
            text = open(name, encoding="utf-8").read()
        yield name.removeprefix("crates/"), re.sub(r"//.*", "", text)


def functions(text):
    """Each function: its name, its head with its clauses, its body."""
    for head in re.finditer(r"^( *)(?:pub(?:\(crate\))? )?fn (\w+)", text, re.M):
        rest = text[head.start() :]
        body = re.search(r"^" + head[1] + r"\{\n(.*?)^" + head[1] + r"\}", rest, re.M | re.S)
        one = re.match(r"[^\n]*\) (?:-> [^{\n]+ )?\{\n(.*?)^" + head[1] + r"\}", rest, re.M | re.S)
        found = one or body
        if found:
            yield head[2], rest[: found.start(1)], found[1]


def shape(body):
    """A body with its names, types and numbers taken out."""
    body = re.sub(r"\b0x[0-9a-fA-F_]+|\b\d[\w.]*|b'[^']+'", "N", body)
    return " ".join(re.findall(r"\b(?:if|else|while|for|in|match|return|let|mut|as|break|N)\b|[A-Za-z_]\w*|[^\w\s]", re.sub(r"\b(?!(?:if|else|while|for|in|match|return|let|mut|as|break|N)\b)[A-Za-z_]\w*(?:::\w+)*", "i", body)))


def count(commit):
    """The places of each point."""
    found = defaultdict(list)
    shapes, facts, sets = defaultdict(list), defaultdict(list), defaultdict(list)
    for name, text in files(commit):
        for enum in re.finditer(r"^(?:pub )?enum (\w+) \{(.*?)^\}", text, re.M | re.S):
            if re.search(rf"^ +(?:{EITHER})\b", enum[2], re.M):
                found["1 enums like Option or Result"].append(f"{name} {enum[1]}")
        for struct in re.finditer(r"^(?:pub(?:\(crate\))? )?struct (\w+)[^{]*\{(.*?)^\}", text, re.M | re.S):
            if re.search(FLAGS, struct[2]):
                found["1 a flag or a number with a value beside"].append(f"{name} {struct[1]}")
            if re.search(r"\[\w+; \w+\],?\n(?:.*\n)*.*(?:count|length): usize|(?:count|length): usize,?\n(?:.*\n)*.*\[\w+; \w+\]", struct[2]):
                found["6 buffers with a length beside"].append(f"{name} {struct[1]}")
        for const in re.finditer(r"^pub const (\w+): u8 = \d+;", text if name.startswith("refusal/") else "", re.M):
            found["1 numbers for refusals"].append(f"{name} {const[1]}")
        for it, head, body in functions(text):
            where = f"{name} {it}"
            if re.search(r"\) -> u8\b", head) and re.search(r"fault|first|refus", head):
                found["1 functions that answer a refusal's number, 0 for none"].append(where)
            found["3 loops that count by hand"] += [f"{where}: {w}" for w in re.findall(r"^ +(while .*) \{", body, re.M)]
            if re.fullmatch(BY_HAND, it):
                found["4 equality, copying, conversion by hand"].append(where)
            if len(shape(body).split()) >= 24:
                shapes[shape(body)].append(where)
            asked = re.findall(r"requires(?: \w+)? \{(.*?)\}\n", head)
            for fact in {re.sub(r"^\(|\)$", "", f.strip()) for a in asked for f in re.split(r" × ", a)}:
                facts[name.split("/")[0], fact].append(where)
            given = re.search(r"\(([^{]*?)\)(?: ->|\n| \{)", head, re.S)
            taken = re.findall(r"(\w+): ", given[1]) if given else []
            for k in range(len(taken) - 3):
                sets[name.split("/")[0], " ".join(taken[k : k + 4])].append(where)
            if len(re.findall(r"&(?:mut )?\[u64\]|&(?:mut )?\[usize\]", head)) >= 3:
                found["6 parallel arrays"].append(where)
            if len(re.findall(r"== b'\w'|== [A-Z_]{4,} \{", body)) >= 2:
                found["7 switches on which step to run"].append(where)
    found["2 functions of one shape"] = [", ".join(s) for s in shapes.values() if len(s) > 1]
    found["5 facts in three contracts or more"] = [f"{c}: {f} ({len(s)})" for (c, f), s in facts.items() if len(s) > 2]
    found["5 four parameters that travel together, in three functions or more"] = [f"{c}: {f} ({len(s)})" for (c, f), s in sets.items() if len(s) > 2]
    return found


if __name__ == "__main__":
    given = [a for a in sys.argv[1:] if a != "-v"]
    for point, places in sorted(count(given[0] if given else None).items()):
        print(f"{point}: {len(places)}")
        if "-v" in sys.argv:
            print("".join(f"    {p}\n" for p in places), end="")
