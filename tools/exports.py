#!/usr/bin/env python3
"""exports.py, at the top of the repository: writes the source of the static libraries capi_c and lot_plan_c, whose exports call the functions of the same name in
capi and lot_plan, with the same clauses. A function is exported if its name begins with swivelcrane_. Run it again after an edit of such a function's signature,
clauses or comment, then `rt fmt` in both folders."""
import os
import re

HEADS = {
    "capi": "// The functions of `capi` for C, under their own names and with the same clauses. Written by tools/exports.py; include/swivelcrane.h tells each call's\n// units, lengths and answers.\n",
    "lot_plan": "// The function of `lot_plan` for C, under its own name and with the same clauses. Written by tools/exports.py; include/swivelcrane_lot_plan.h tells the\n// call's units, lengths and answers.\n",
}
FUNCTION = re.compile(r"((?:^//[^\n]*\n)*)^pub fn (swivelcrane_\w+)\((.*?)\) -> i64\n((?:    [^\n]*\n)+)\{\n", re.M | re.S)


def names_in(text):
    return set(re.findall(r"[\w·◌+*/∷≡≤<\[\]'-]+", text))


def uses(source, clauses):
    """The `ghost use` lines of a source that name what the clauses say."""
    for start, names in re.findall(r"^(ghost use .*)\.\{(.*)\};$", source, re.M):
        said = names_in(clauses)
        keeps = []
        for it in names.split(", "):
            shown = it.split(" as ")[-1]
            parts = [p for p in shown.split("◌") if p]
            if shown in said or all(p in said for p in parts):
                keeps.append(it)
        if keeps:
            yield f"{start}.{{{', '.join(keeps)}}};\n"


def export(path, found):
    comment, name, parameters, clauses = found
    arguments = re.findall(r"(\w+):", parameters)
    return f'{comment}#[unsafe(no_mangle)]\npub extern "C" fn {name}({parameters}) -> i64\n{clauses}{{\n    {path}::{name}({", ".join(arguments)})\n}}\n'


def write(crate):
    made = {}
    base = f"crates/{crate}/src"
    for at, _, files in os.walk(base):
        for file in files:
            with open(f"{at}/{file}", encoding="utf-8") as it:
                source = it.read()
            functions = FUNCTION.findall(source)
            if not functions:
                continue
            path = os.path.relpath(f"{at}/{file}", base)[: -len(".rt")].split("/")
            head = re.match(r"(?://.*\n)*", source).group()
            body = "\n".join(export("::".join([crate, *path]), it) for it in functions)
            lines = "".join(uses(source, "".join(it[3] for it in functions)))
            made[path[-1]] = f"{head}{lines}\n{body}"
    to = f"crates/{crate}_c/src"
    os.makedirs(to, exist_ok=True)
    with open(f"{to}/lib.rt", "w", encoding="utf-8") as it:
        it.write(HEADS[crate] + "#![tactic(auto)]\n\n" + "".join(f"pub mod {name};\n" for name in sorted(made)))
    for name, text in made.items():
        with open(f"{to}/{name}.rt", "w", encoding="utf-8") as it:
            it.write(text)
    return sum(text.count("no_mangle") for text in made.values())


for crate in HEADS:
    print(f"{crate}_c: {write(crate)} exports")
