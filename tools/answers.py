#!/usr/bin/env python3
"""Turns walks of the older form, proofs/F/Proof.antt over `tie`, to Invariants.antt and Answers.antt.

usage: python3 tools/answers.py CRATE NAMES.json [PATH..]     at the top of the repository

NAMES.json is what `rattle check --generated DIR --old-names` writes for the crate. Answers that only search are left out, since the check searches by itself.
A file that it cannot turn stays, and is named.
"""
import json
import os
import re
import sys

DECL = re.compile(r"^(?:abbrev |unfoldable )?(?:pub )?([^\s:(]+) :", re.M)
TRIVIAL = re.compile(r"^\(*(?:λ [\w κ]*\. ?)?\(*(?:search rules|omega arith|tt|refl)\)*$")


def own(place):
    """A name for the type of what is known at a place."""
    return "The" + "".join(w[:1].upper() + w[1:] for w in re.split(r"[-_]", place))


def norm(s):
    return re.sub("-lem$", "", s.replace("_", "-").lower())


class Function:
    def __init__(self, key, d):
        self.d = d
        self.own = set()
        self.places = {p[0]: i for i, p in enumerate(d["places"])}
        self.needs = {}
        for i, (old, new) in enumerate(d["needs"]):
            self.needs[norm(old)] = (i, new)

    def need(self, name):
        n = norm(name)
        for cut in ("", "overflow-", "nonzero-", "bounds-", "settled-"):
            if n.startswith(cut) and n[len(cut):] in self.needs:
                return self.needs[n[len(cut):]]
        return None

    def place(self, name):
        n = norm(name)
        for p, i in self.places.items():
            if norm(p) == n:
                return i
        return None

    def parent(self, i):
        p = self.d["places"][i][1]
        return None if p is None else self.places[p]

    def resolve(self, i, path):
        """path: list of fields after the variable and its `before`s, at place i. Gives the new text of the path."""
        if not path:
            return []
        head = path[0]
        fixed = {"fits": "ranges", "pre": "requires", "well-formed": "well_formed", "type-inv": "type_inv"}
        path = [fixed.get(x, x) if k else x for k, x in enumerate(path)]
        if head in ("args", "ranges", "fits", "told") and len(path) > 1:
            for o, n in self.d["args"]:
                ow, nw = o.replace(" ", "").split("."), n.replace(" ", "").split(".")
                if len(ow) == 3 and ow[1] == head and ow[2] == path[1]:
                    path = [path[0], nw[2]] + path[2:]
                    break
        if head in fixed:
            return [fixed[head]] + path[1:]
        if head in ("args", "ranges", "requires", "well_formed"):
            return path
        j = i
        while j is not None:
            old, new = self.d["places"][j][2]
            if norm(old) == norm(head) and old:
                arm = self.d["arms"][j]
                best = None
                if arm:
                    for a in self.d["arms"]:
                        if a and a[0] == arm[0]:
                            for nf, os_, op in a[2]:
                                if norm(os_) == norm(head) and op and path[1:1 + len(op)] == op and (best is None or len(op) > len(best[1])):
                                    best = (nf, op)
                    if best:
                        return [arm[0], best[0]] + path[1 + len(best[1]):]
                    return [arm[0]] + path[1:]
                rest = path[1:]
                if new.startswith("if-") or new.endswith("-test"):
                    rest = [{"taken": "true", "left": "false"}.get(x, x) if k == 0 else x for k, x in enumerate(rest)]
                return [new] + self.clause(j, rest)
            j = self.parent(j)
        return path


    def clause(self, j, path):
        """A clause of a call by its name, where it was by its place in a product."""
        c = self.d["clauses"][j]
        if c and path[:1] == ["ensures"] and len(path) > 1 and path[1] in ("0", "1"):
            fields, at, k = c["fields"], 0, 1
            while k < len(path) and path[k] == "1" and at < len(fields) - 2:
                at += 1
                k += 1
            if k < len(path) and path[k] in ("0", "1"):
                at += int(path[k])
                if at < len(fields):
                    return ["ensures", fields[at]] + path[k + 1:]
        return path


def as_record(body, fields):
    """A tuple at the end of the body as a record of these fields."""
    b = body.rstrip()
    if not b.endswith(")"):
        return body
    depth = 0
    for i in range(len(b) - 1, -1, -1):
        if b[i] in ")}]":
            depth += 1
        if b[i] in "({[":
            depth -= 1
            if depth == 0:
                break
    inside = b[i + 1:-1]
    parts, depth, cur = [], 0, ""
    for ch in inside:
        if ch in "({[":
            depth += 1
        if ch in ")}]":
            depth -= 1
        if ch == "," and depth == 0:
            parts.append(cur)
            cur = ""
        else:
            cur += ch
    if cur.strip():
        parts.append(cur)
    if len(parts) < 2:
        return body
    if len(parts) > len(fields):
        return body
    if i and not b[i - 1].isspace():
        return body
    if len(parts) < len(fields):
        return body
    return b[:i] + "record { " + "; ".join(f"{n} = {p.strip()}" for n, p in zip(fields, parts)) + " }"


def blocks(text):
    """Top-level chunks: (comment lines, chunk text)."""
    out, cur = [], []
    for line in text.split("\n"):
        if line and not line[0].isspace() and not line.startswith("--") and not line.startswith("unfolding"):
            m = DECL.match(line)
            if (m or line.startswith(("use ", "module "))) and cur and not all(l.startswith("--") for l in cur if l):
                # comments before this line go with it
                k = len(cur)
                while k and (cur[k - 1].startswith("--") or not cur[k - 1]):
                    k -= 1
                out.append("\n".join(cur[:k]))
                cur = cur[k:]
        cur.append(line)
    out.append("\n".join(cur))
    return [b for b in out if b.strip()]


PATH = re.compile(r"(?<![\w.'-])([a-z_][\w']*)((?:\.[A-Za-z0-9_][\w'-]*)+)")


def turn_paths(f, text, env):
    env = dict(env)
    # aliases by let or where they are plain paths to a place
    def walk(var, fields):
        if var not in env:
            return None, fields
        i = env[var]
        k = 0
        while k < len(fields) and fields[k] == "before":
            i = f.parent(i)
            if i is None:
                return None, fields
            k += 1
        return i, fields[k:]

    out = []
    pos = 0
    alias = re.compile(r"(?:let |^\s*)([a-z][\w']*)(?: : tie\.[\w'-]+)? = ([a-z_][\w']*)((?:\.before)*)(?= in|\s*$)", re.M)
    for m in alias.finditer(text):
        if m[2] in env and (m[3] or m[1] != m[2]):
            i, rest = walk(m[2], m[3].split(".")[1:] if m[3] else [])
            if i is not None:
                env.setdefault(m[1], i)

    def merged(i, k):
        """How many records lie between place i and the one k places out: the parts of an arm are one."""
        n = 0
        while k:
            j = f.parent(i)
            a, b = f.d["arms"][i], f.d["arms"][j] if j is not None else None
            if not (a and b and a[0] == b[0]):
                n += 1
            i, k = j, k - 1
        return n

    def sub(m):
        var, fields = m[1], m[2].split(".")[1:]
        if var not in env:
            return m[0]
        i, rest = walk(var, fields)
        if i is None:
            return m[0]
        if not rest:
            return ".".join([var] + ["before"] * merged(env[var], len(fields)))
        new = f.resolve(i, rest)
        befores = fields[:len(fields) - len(rest)]
        return ".".join([var] + new)

    text = PATH.sub(sub, text)

    # a name for a place out, of which only fields are read: the same can be read of the goal's own record
    def plain(m):
        used = re.findall(r"(?<![\w.'-])" + re.escape(m[1]) + r"(?![\w'-])(\.before\b|\.)?", text)
        bare = [u for u in used if u != "."]
        return f"let {m[1]} = {m[2]} in" if len(bare) <= 1 and m[2] in env else m[0]

    text = re.sub(r"let ([a-z][\w']*) = ([a-z_][\w']*)(?:\.before)+ in", plain, text)
    # a test on `!x` says of x itself
    return re.sub(r"not-(?:true|false) _ (?=[a-z][\w']*\.(?:before\.)*if-not-)", "", text)


def rename_types(f, text, loops):
    def need(m):
        n = f.need(m[1])
        return "goal." + n[1] if n else m[0]

    text = re.sub(r"tie\.Need-([\w'-]+)", need, text)

    def place(m):
        i = f.place(m[1])
        if i is None:
            return m[0]
        f.own.add(f.d["places"][i][0])
        return own(f.d["places"][i][0])

    text = re.sub(r"tie\.((?:Start|After|Then|Else|At|In)[\w'-]*)", place, text)
    names = "|".join(re.escape(f"{kind}-{loop[0][0]}".replace("_", "-")) for loop in loops for kind in ("invariant", "decreases"))
    return re.sub(rf"(?<![\w.'-])(The[A-Z]\w*)(?: (?:{names}))+", r"\1", text) if names else text


def spec_args(text):
    m = re.search(r"tie\.spec\b", text)
    if not m:
        return []
    args, depth, cur = [], 0, ""
    i = m.end()
    # tie.spec stands in parentheses: read until they close
    while i < len(text):
        ch = text[i]
        if ch == "(":
            depth += 1
        if ch == ")":
            depth -= 1
            if depth < 0:
                break
        if ch.isspace() and depth == 0:
            if cur:
                args.append(cur)
            cur = ""
        else:
            cur += ch
        i += 1
    if cur:
        args.append(cur)
    return args


def turn(crate, key, d, root):
    path = key[len(f"Rattle-{crate}-proofs."):-len(".Lts")].split(".")
    folder = os.path.join(root, "crates", crate, "proofs", *path)
    proof = os.path.join(folder, "Proof.antt")
    if not os.path.exists(proof):
        return None
    text = open(proof, encoding="utf-8").read()
    if "tie.spec" not in text:
        return "by hand"
    f = Function(key, d)
    mod = f"Rattle.{crate}.proofs." + ".".join(path)
    bs = blocks(text)
    uses, inv, ans, left = [], [], [], []
    head = []
    args = []
    answered = {}
    for b in bs:
        lines = b.split("\n")
        code = [l for l in lines if l.strip() and not l.startswith("--")]
        if not code:
            head.append(b)
            continue
        first = code[0]
        if first.startswith("use "):
            for l in lines:
                if l.startswith("use ") and (f"{mod}.Statement" in l or f"{mod}.Tie" in l or l.rstrip().endswith((" as reads", " as lts"))):
                    continue
                uses.append(l)
            continue
        m = DECL.match(first)
        if m and re.search(r"tie\.invariant|tie\.decreases", first):
            inv.append(b)
            continue
        if "tie.close" in b and "tie.spec" in b:
            args = spec_args(b)
            continue
        ans.append(b)
    loops = d["loops"]
    # measures and invariants
    inv_text = []
    drop_names = set()
    for b in inv:
        first = [l for l in b.split("\n") if l.strip() and not l.startswith("--")][0]
        name = DECL.match(first)[1]
        drop_names.add(name)
        kind = re.search(r"tie\.(invariant|decreases)-([\w'-]+)", first)
        if not kind:
            left.append(b)
            continue
        which = None
        for li, (names, vars_) in enumerate(loops):
            if norm(names[0]) == norm(kind[2]):
                which = li
        if which is None:
            left.append(b)
            continue
        (old, new), vars_ = loops[which]
        changed = d["changed"][which]
        eq = re.search(r"^" + re.escape(name) + r"((?: [^\s=]+)*) =(.*)\Z", b, re.M | re.S)
        if not eq:
            left.append(b)
            continue
        params, body = eq[1].split(), eq[2]
        want = [("l.initial." if c else "l.") + v for v, c in zip(vars_, changed)] + ["l." + v for v, c in zip(vars_, changed) if c]
        if len(params) != len(want):
            left.append(b + f"\n-- variables {vars_} changed {changed}")
            continue
        table = dict(zip(params, want))
        body = re.sub(r"(?<![\w.'₀-])([a-z_][\w']*₀?)(?![\w'₀])", lambda m: table.get(m[1], m[1]), body)
        body = re.sub(r"\(to_[zu] w\d+ (l\.[\w.]+)\)", r"\1", body)
        body = re.sub(r"to_[zu] w\d+ (l\.[\w.]+)", r"\1", body)
        new_name = f"{kind[1]}-{new}"
        inv_text.append(f"abbrev pub {new_name} : goal.{new_name}\n{new_name} l ={body.rstrip()}")
    ans_text = []
    named = {}
    known_names = {}
    ans = [re.sub(r"\.fits\.", ".ranges.", re.sub(r"\.pre\.", ".requires.", b)) for b in ans]
    for b in ans:
        code = [l for l in b.split("\n") if l.strip() and not l.startswith("--")]
        m = DECL.match(code[0])
        n = re.search(r"tie\.Need-([\w'-]+)", code[0])
        if m and n and f.need(n[1]):
            known_names[m[1]] = f.need(n[1])[1]

    def respell(t, own=()):
        return re.sub(r"(?<![\w.'-])([a-z][\w'+-]*)(?![\w'-])", lambda m: known_names.get(m[1], m[1]) if m[1] not in own else m[1], t)

    for b in ans:
        lines = b.split("\n")
        code = [l for l in lines if l.strip() and not l.startswith("--")]
        comments = [l for l in lines if l.startswith("--") and not re.match(r"-- src/.*:\d+:\d+$", l)]
        if code[0].startswith("module "):
            env = {}
            for m in re.finditer(r"\((\w+) : tie\.([\w'-]+)[^()]*\)", code[0]):
                i = f.place(m[2])
                if i is not None:
                    env[m[1]] = i
            t = rename_types(f, turn_paths(f, "\n".join(lines), env), loops)
            ans_text.append(t)
            continue
        m = DECL.match(code[0])
        name = m[1] if m else None
        n = re.search(r"tie\.Need-([\w'-]+)", code[0])
        if name and n:
            known = f.need(n[1])
            body = "\n".join(code[1:])
            eq = re.match(re.escape(name) + r"((?: [^\s=]+)*) =\s*(.*)\Z", body, re.S)
            unf = ""
            if code[1].startswith("unfolding"):
                unf = code[1]
                body = "\n".join(code[2:])
                eq = re.match(re.escape(name) + r"((?: [^\s=]+)*) =\s*(.*)\Z", body, re.S)
            if not eq:
                left.append(b)
                continue
            named[name] = known
            if known is None:
                left.append(b)
                continue
            params = eq[1].split()
            if params and params[-1] == "κs":
                params = params[:-1]
            if TRIVIAL.match(" ".join(eq[2].split())) and not unf:
                continue
            i, new = known
            env = {}
            if params:
                p = d["asked_at"][i]
                env[params[0]] = f.place(p[0])
            t = respell(turn_paths(f, eq[2], env), params)
            t = rename_types(f, t, loops)
            if new in d["asked"]:
                t = as_record(t, d["asked"][new])
            uf = unf + "\n" if unf else ""
            sep = "\n    " if "\n" in t.strip() else " "
            ans_text.append("\n".join(comments + [""])[0 if comments else 1:] + f"pub {new} : goal.{new}\n{uf}{new}{''.join(' ' + p for p in params)} ={sep}{t.rstrip()}")
            answered[name] = new
            continue
        # a helper
        env = {}
        pl = re.search(r"tie\.((?:Start|After|Then|Else|At|In)[\w'-]*)", code[0])
        if name and pl and len(code) > 1:
            eq = re.search(r"^" + re.escape(name) + r"((?: [^\s=]+)+) =", b, re.M)
            i = f.place(pl[1])
            if eq and i is not None:
                # binders named in the signature come first
                env[eq[1].split()[0]] = i
        t = rename_types(f, turn_paths(f, b, env), loops)
        ans_text.append(t)
    # inline answers
    rest = [a for a in args if a not in drop_names]
    if len(rest) == len(d["needs"]):
        for a, (old, new) in zip(rest, d["needs"]):
            if a.startswith("(") and not TRIVIAL.match(a) and not re.match(r"^\(λ [^.]*\. ?(search rules|omega arith|tt|refl)\)$", a):
                i = f.needs[norm(old)][0]
                mm = re.match(r"^\(λ ([^.]*)\. ?(.*)\)$", a, re.S)
                if mm:
                    params = [p for p in mm[1].split() if p != "κs"]
                    env = {params[0]: f.place(d["asked_at"][i][0])} if params else {}
                    t = rename_types(f, respell(turn_paths(f, mm[2], env)), loops)
                    ans_text.append(f"pub {new} : goal.{new}\n{new} {' '.join(params)} = {t}")
                else:
                    ans_text.append(f"pub {new} : goal.{new}\n{new} = {a}")
    else:
        odd = [a for a in rest if a.startswith("(") and not re.match(r"^\((λ [^.]*\. ?)?(search rules|omega arith|tt|refl)\)$", a)]
        if odd:
            left.append("-- inline: " + " | ".join(odd) + f"\n-- needs {d['needs']}")
    heads = "\n".join(head).strip()
    title = re.match(r"^(--[^\n]*\n?)+", text)
    title = title[0].rstrip() if title else ""
    os.makedirs(folder, exist_ok=True)
    ulines = [u for u in uses if u.strip()]
    ulines = [u for u in ulines if not u.startswith("--")]
    os.remove(proof)
    if inv_text:
        open(os.path.join(folder, "Invariants.antt"), "w", encoding="utf-8").write("\n".join(ulines + [f"use {mod}.Given as goal", ""]) + "\n" + "\n\n".join(inv_text) + "\n")
    if any("goal." in t or True for t in ans_text) and ans_text:
        if any(re.search(r"^pub [\w'-]+ : goal\.", t, re.M) for t in ans_text):
            if any("tie." in t for t in ans_text) or f.own:
                ulines.append(f"use {mod}.Tie as tie")
            if f.own:
                more = " tie.handed_clauses" if d["asked"] or any(d["clauses"]) else ""
                ulines += [f"use {mod}.Lts as lts", f"use {mod}.Reads as reads"]
                for loop in loops:
                    more += f" goal.the-invariant-{loop[0][1]} goal.the-decreases-{loop[0][1]}"
                claims = "tie.the-claims " if any(p[3] for p in d["places"]) else ""
                ans_text[:0] = [f"abbrev {own(p)} : Type 0\n{own(p)} = lts.{p} {claims}reads.Pre reads.Post{more}" for p in sorted(f.own)]
            open(os.path.join(folder, "Answers.antt"), "w", encoding="utf-8").write((title + "\n" if title else "") + "\n".join(ulines + [f"use {mod}.Goals as goal", ""]) + "\n" + "\n\n".join(t.strip("\n") for t in ans_text) + "\n")
        else:
            left += ans_text
    if left:
        return "left:\n" + "\n\n".join(left)
    return None


def main():
    crate, names = sys.argv[1:3]
    only = sys.argv[3:]
    with open(names, encoding="utf-8") as fh:
        all_ = json.load(fh)
    for key, d in sorted(all_.items()):
        if not key.startswith(f"Rattle-{crate}-proofs."):
            continue
        if only and not any(o in key for o in only):
            continue
        if "places" not in d:
            print(key, "no places")
            continue
        try:
            said = turn(crate, key, d, os.getcwd())
        except Exception as e:
            said = f"failed: {e!r}"
        if said:
            print("==", key, said)


main()
