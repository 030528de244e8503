#!/usr/bin/env python3
"""Turns a function's proof that walks the code by hand (Proof.antt, over Tie) into Invariants.antt and Answers.antt.

usage: python3 tools/convert_proofs.py NAMES CRATE [FUNCTION ..]

NAMES is the folder in which `rt names NAMES`, run at the top, has listed the old and new name of each goal and step. What a tactic finds
alone is left out. The old file stays where the form is another: it is named in the output. Run it before anything of the crate is mended.
"""

import json
import os
import re
import sys

W = r"[^\s(){}.;,@\"«»\[\]\\]+"
TOKEN = re.compile(W)
EASY = re.compile(r"^(search rules|omega arith|search \(rules\))$")


def read(path):
    with open(path, encoding="utf-8") as it:
        return it.read()


def norm(name):
    name = name.replace("_", "-").lower()
    return re.sub(r"^(overflow|nonzero)-", "", name)


def chunks(text):
    """The file's head (comments, imports), and its declarations, each with the comment above it."""
    lines = text.split("\n")
    at = 0
    head = []
    while at < len(lines) and (lines[at].startswith(("--", "use ")) or not lines[at].strip()):
        head.append(lines[at])
        at += 1
    # a comment right above the first declaration is its own
    back = []
    while head and head[-1].startswith("--") and any(it.startswith("use ") for it in head):
        back.insert(0, head.pop())
    rest, out = back + lines[at:], []
    now = []
    for line in rest:
        if line.strip() and not line.startswith(" ") and now and not now[-1].strip():
            out.append(now)
            now = []
        now.append(line)
    if any(it.strip() for it in now):
        out.append(now)
    return head, ["\n".join(it).rstrip() for it in out]


def groups(text):
    """The top-level arguments of an application."""
    out, depth, now = [], 0, ""
    for ch in text:
        if ch in "([{":
            depth += 1
        if ch in ")]}":
            depth -= 1
        if ch.isspace() and depth == 0:
            if now:
                out.append(now)
            now = ""
        else:
            now += ch
    if now:
        out.append(now)
    return out


class Function:
    def __init__(self, entry):
        self.e = entry
        self.needs = entry["needs"]
        self.places = {}
        for row, new, arms in zip(entry["places"], entry["places_by_name"], entry["arms"]):
            old, parent, field = row[0], row[1], row[2]
            self.places[norm(old)] = dict(old=old, new=new, parent=parent and norm(parent), field=field, arms=arms)
        self.need_by_norm = {}
        for i, (old, new) in enumerate(self.needs):
            self.need_by_norm.setdefault(norm(old), i)
        self.loops = entry["loops"]

    def place_of_need(self, i):
        return norm(self.e["asked_at"][i][0])

    # a path's fields, from a place: (rest, place or None)
    def walk(self, place, fields):
        at = place
        befores = 0
        for k, f in enumerate(fields):
            if f == "before":
                at = self.places[at]["parent"]
                befores += 1
                if at is None:
                    return fields, None
                continue
            # an own field of this place, or of one above it
            up = at
            while up is not None:
                row = self.places[up]
                if row["field"][0] and norm(row["field"][0]) == norm(f):
                    rest = fields[k + 1 :]
                    if row["arms"]:
                        name, _, entries = row["arms"]
                        for new, of, path in entries:
                            if norm(of) == norm(f) and path == rest[: len(path)] and path and not new.endswith("-own"):
                                return [name, new] + rest[len(path) :], None
                    return [row["field"][1]] + rest, None
                up = self.places[up]["parent"]
            rest = fields[k:]
            if rest[0] == "requires" and len(rest) > 1 and rest[1].isdigit() and self.e["pre"]:
                named = self.e["pre"]["fields"]
                n = int(rest[1]) - self.e["pre"].get("before", 0)
                if 0 <= n < len(named) and len(named) > 1:
                    rest = [rest[0], named[n]] + rest[2:]
            return rest, None
        return fields, at


def binders(sig):
    """Names and types of a signature's explicit arguments, in order, as [(name or None, type)]."""
    out, at = [], 0
    sig = sig.strip()
    while True:
        while at < len(sig) and sig[at].isspace():
            at += 1
        if at >= len(sig):
            return out
        if sig[at] in "({":
            depth, k = 0, at
            while k < len(sig):
                depth += (sig[k] in "({[") - (sig[k] in ")}]")
                k += 1
                if depth == 0:
                    break
            inside = sig[at + 1 : k - 1]
            m = re.match(r"\s*((?:" + W + r"\s+)+):\s(.*)", inside, re.S)
            after = sig[k:].lstrip()
            if m and (after.startswith("→") or after[:1] in "({"):
                for n in m[1].split():
                    if sig[at] == "(":
                        out.append((n, m[2].strip()))
                at = k
                if after.startswith("→"):
                    at = k + len(sig[k:]) - len(after) + 1
                continue
        # T → ..
        depth, k = 0, at
        while k < len(sig):
            depth += (sig[k] in "({[") - (sig[k] in ")}]")
            if depth == 0 and sig[k] == "→":
                break
            k += 1
        if k >= len(sig):
            return out
        out.append((None, sig[at:k].strip()))
        at = k + 1


def convert(crate, folder, entry, module):
    path = os.path.join(folder, "Proof.antt")
    text = read(path).replace(".type-inv", ".type_inv").replace(".well-formed", ".well_formed")
    fn = Function(entry)
    head, decls = chunks(text)
    specs = [d for d in decls if "tie.close" in d]
    if len(specs) != 1:
        return "another form"
    spec = specs[0]
    m = re.search(r"tie\.close\s*\(\s*tie\.spec\b(.*)\)\s*$", spec, re.S)
    if not m:
        m2 = re.search(r"tie\.close\s+tie\.spec\s*$", spec)
        if not m2:
            return "the end is another form"
        args = []
    else:
        args = groups(m[1])
    opened_all = "".join(it + "\n" for it in re.findall(r"(?m)^unfolding .*$", spec))
    decls.remove(spec)

    # declarations by name
    named = {}
    for d in decls:
        for it in re.finditer(r"(?m)^(?:(?:abbrev|unfoldable|pub|data|record) )*(" + W + r")[^\n]*?(?: :|\n| where)", d):
            named.setdefault(it[1], d)
            break
    # skip comments in finding the name
    named = {}
    for d in decls:
        body = "\n".join(l for l in d.split("\n") if not l.startswith("--"))
        it = re.match(r"(?:(?:abbrev|unfoldable|pub|data|record|module) )*(" + W + r")", body)
        if it:
            named[it[1]] = d

    loops_n = 0
    while loops_n < len(args) and args[loops_n] in named and re.search(r":\s*tie\.(invariant|decreases)-", named[args[loops_n]].split("\n=")[0]):
        loops_n += 1
    invs, args = args[:loops_n], args[loops_n:]
    if len(args) != len(fn.needs):
        return f"{len(args)} answers for {len(fn.needs)} needs"

    inv_names = set(invs)
    # ---- the walk's types
    def types(t):
        inv_arg = "|".join(re.escape(i) for i in inv_names)
        strip = rf"((?:\s+(?:{inv_arg})(?![^\s(){{}}.;,]))*)" if inv_names else "()"

        def need(it):
            i = fn.need_by_norm.get(norm(it[1]))
            return f"goal.{fn.needs[i][1]}" if i is not None else f"goal.LOST-{it[1]}"

        t = re.sub(r"tie\.Need-(" + W + ")" + strip, need, t)

        def place(it):
            p = fn.places.get(norm(it[1]))
            return f"goal.{p['new']}" if p else it[0]

        t = re.sub(r"tie\.(?!invariant-|decreases-)(" + W + ")" + strip, place, t)
        return t

    # ---- paths, with the places that variables stand for
    imported = set()

    def paths(body, env, label=None):
        env = dict(env)
        labels = dict(label or {})

        def fields_of(it):
            var, rest = it[1], it[2]
            if var not in env:
                return it[0]
            fields = rest.split(".")[1:]
            new, place = fn.walk(env[var], fields)
            if place is not None:
                here = env[var]
                named = labels.get(var)
                if named is None:
                    named = fn.places[here]["new"]
                    imported.add(named)
                imported.add(fn.places[place]["new"])
                return f"(goal.at.{named} {var}).{fn.places[place]['new']}"
            return ".".join([var] + new)

        # let-bound places first, in order
        for it in re.finditer(r"\blet\s+(" + W + r")\s*=\s*(" + W + r")((?:\." + W + r")*)\s+in\b", body):
            var, base, rest = it[1], it[2], it[3]
            if base in env:
                _, place = fn.walk(env[base], rest.split(".")[1:])
                if place:
                    env[var] = place
                    labels.pop(var, None)
                elif var in env:
                    del env[var]
        return re.sub(r"(?<![^\s(){},;\[\]])(" + W + r")((?:\." + W + r")+)", fields_of, body)

    def env_of(decl):
        """Variables of a declaration's head that stand for places."""
        env = {}
        lines = [l for l in decl.split("\n") if not l.startswith("--")]
        code = "\n".join(lines)
        m = re.match(r"(?:(?:abbrev|unfoldable|pub) )*(" + W + r")\s*:\s(.*?)\n(?=\S)(.*)", code, re.S)
        if not m or code.startswith("module "):
            for it in re.finditer(r"\((" + W + r")\s*:\s*tie\.(" + W + r")", code):
                p = norm(it[2])
                if p in fn.places:
                    env[it[1]] = p
            for it in re.finditer(r"(?m)^  (?:abbrev )?(" + W + r")\s*:\s*tie\.(" + W + r")", code):
                p = norm(it[2])
                if p in fn.places:
                    env[it[1]] = p
            return env
        name, sig, rest = m[1], m[2], m[3]
        eq = re.search(r"(?m)^" + re.escape(name) + r"((?:\s+(?:\{[^}]*\}|" + W + r"))*)\s*=", rest)
        params = [p for p in groups(eq[1])] if eq else []
        params = [p for p in params if not p.startswith("{")]
        need = re.match(r"\s*tie\.Need-(" + W + ")", sig)
        if need:
            i = fn.need_by_norm.get(norm(need[1]))
            if i is None:
                i = next((k for k, a in enumerate(args) if a == name), None)
            if params and i is not None:
                env[params[0]] = fn.place_of_need(i)
            return env
        bs = binders(sig)
        for k, (n, t) in enumerate(bs):
            it = re.match(r"tie\.(" + W + ")", t)
            if it and norm(it[1]) in fn.places:
                if n:
                    env[n] = norm(it[1])
                if k < len(params):
                    env[params[k]] = norm(it[1])
        for it in re.finditer(r"\((" + W + r")\s*:\s*tie\.(" + W + r")", sig):
            if norm(it[2]) in fn.places:
                env.setdefault(it[1], norm(it[2]))
        return env

    # ---- invariants
    inv_out = []
    moved = set()
    renamed = {}
    for name in invs:
        d = named[name]
        it = re.search(r":\s*tie\.((?:invariant|decreases)-(" + W + r"))", d)
        kind, of = it[1].split("-", 1)[0], it[2]
        k = next((k for k, l in enumerate(fn.loops) if norm(l[0][0]) == norm(of)), None)
        if k is None:
            return f"no loop {of}"
        (old, new), vars_ = fn.loops[k]
        changed = entry["changed"][k]
        fresh = f"{kind}-{new}"
        code = "\n".join(l for l in d.split("\n") if not l.startswith("--"))
        note = [l for l in d.split("\n") if l.startswith("--")]
        eq = re.search(r"(?m)^" + re.escape(name) + r"((?:\s+" + W + r")*)\s*=\s*(.*)\Z", code, re.S)
        if not eq:
            return f"{name} has another form"
        params, body = eq[1].split(), eq[2].rstrip()
        if len(params) != len(vars_) + sum(changed):
            return f"{name} has {len(params)} variables for {vars_} {changed}"
        table = {}
        for p, v, ch in zip(params, vars_, changed):
            table[p] = f"l.initial.{v}" if ch else f"l.{v}"
        for p, v in zip(params[len(vars_) :], [v for v, ch in zip(vars_, changed) if ch]):
            table[p] = f"l.{v}"
        body = re.sub(r"(?<![^\s(){},;\[\]])(" + W + r")(?![^\s(){}.,;\[\]])", lambda it: table.get(it[1], it[1]), body)
        opened = re.findall(r"(?m)^unfolding .*$", code)
        inv_out.append("\n".join(note + [f"abbrev pub {fresh} : goal.{fresh}"] + opened + [f"{fresh} l = {body}"]))
        moved.add(d)
        renamed[name] = fresh
    # what they name goes with them
    inv_text = "\n".join(inv_out)
    todo = True
    with_them = []
    while todo:
        todo = False
        words = set(TOKEN.findall(inv_text + "\n".join(with_them)))
        for n, d in named.items():
            if n in words and d not in moved and d not in with_them and "tie." not in d and invs:
                with_them.append(d)
                todo = True
    order = [d for d in decls if d in with_them]
    shown = []
    for d in order:
        moved.add(d)

        def public(it):
            return it[1].replace("pub ", "") + ("pub " if "pub " not in it[0] else "pub ") + it[2]

        d2 = re.sub(r"(?m)^((?:abbrev |unfoldable )*)(?!pub )(?=(?:" + W + r")\s*:\s)", r"\1pub ", d, count=1)
        d2 = re.sub(r"(?m)^(record|data) ", r"pub \1 ", d2)
        if re.search(r"(?m)^pub record ", d2):
            d2 = re.sub(r"(?m)^  (?!pub )(" + W + r"\s*:\s)", r"  pub \1", d2)
        shown.append(d2)

    # ---- answers
    rename = {}
    out = []
    answers = []
    for i, a in enumerate(args):
        goal = fn.needs[i][1]
        if a in named:
            d = named[a]
            if a not in rename and re.search(r"(?m)^(?:abbrev )?" + re.escape(a) + r"\s*:\s*tie\.Need-", d):
                rename[a] = goal
                continue
            answers.append(f"pub {goal} : goal.{goal}\n{goal} = {rename.get(a, a)}")
            continue
        body = a
        if body.startswith("(") and body.endswith(")"):
            body = body[1:-1].strip()
        lam = re.match(r"λ ((?:" + W + r" ?)+)\.\s*(.*)", body, re.S)
        if lam:
            vs = lam[1].split()
            inner = lam[2]
            if EASY.match(inner.strip()):
                continue
            vs = [v for v in vs if v != "κs"]
            inner = paths(inner, {vs[0]: fn.place_of_need(i)}, {vs[0]: goal})
            answers.append(f"pub {goal} : goal.{goal}\n{opened_all}{goal} {' '.join(vs)} = {types(inner)}")
        else:
            answers.append(f"pub {goal} : goal.{goal}\n{opened_all}{goal} = {types(body)}")
    for d in decls:
        if d in moved:
            continue
        env = env_of(d)
        label = {}
        code = "\n".join(l for l in d.split("\n") if not l.startswith("--"))
        of = re.match(r"(?:abbrev )?(" + W + r")\s*:\s*tie\.Need-", code)
        if of and of[1] in args and len(env) == 1:
            label = {next(iter(env)): fn.needs[args.index(of[1])][1]}
        d2 = paths(d, env, label)
        d2 = types(d2)
        out.append(d2)
    # goals by their new names
    def rename_tokens(t):
        return re.sub(r"(?<![^\s(){},;\[\]])(" + W + r")(?![^\s(){},;\[\].])", lambda it: rename.get(it[1], it[1]), t)

    final = []
    for d in out:
        d = rename_tokens(d)
        d = re.sub(r"(?m)^(?:abbrev )?(" + W + r") : goal\.\1(?![^\s])", r"pub \1 : goal.\1", d)
        for goal in rename.values():
            d = re.sub(r"(?m)^(" + re.escape(goal) + r"(?: " + W + r")*?) κs((?: " + W + r")* =)", r"\1\2", d)
        # an answer that a tactic finds alone
        m = re.match(r"(?:--[^\n]*\n)*pub (" + W + r") : goal\.\1\n(?:\1 c = (?:search rules|omega arith))\s*$", d)
        if m and not any(re.search(r"(?<![^\s(){},;])" + re.escape(m[1]) + r"(?![^\s(){},;])", o) for o in out + answers if o is not d and not o.startswith(f"pub {m[1]} ")):
            continue
        final.append(d)
    final += [rename_tokens(a) if not a.startswith("pub ") else a.split("\n")[0] + "\n" + a.split("\n", 1)[1] for a in answers]
    final = [re.sub(r"(?m)^(pub (" + W + r") : goal\.\2\n)", r"\1", d) for d in final]

    uses = [l for l in head if l.startswith("use ")]
    notes = [l for l in head if l.startswith("--")]
    uses = [u for u in uses if ".Statement." not in u and not u.endswith(".Tie as tie")]
    wrote = []
    if inv_out:
        own = [u for u in uses]
        inv_file = notes + own + [f"use {module}.Given as goal", ""] + "\n\n".join(shown + inv_out).split("\n") + [""]
        with open(os.path.join(folder, "Invariants.antt"), "w", encoding="utf-8") as it:
            it.write("\n".join(inv_file))
        wrote.append("Invariants")
    if final:
        extra = []
        names_moved = []
        for d2 in shown:
            it = re.search(r"(?m)^(?:(?:abbrev|unfoldable|pub|data|record) )*(" + W + r")", "\n".join(l for l in d2.split("\n") if not l.startswith("--")))
            names_moved.append(it[1])
        text_final = "\n\n".join(final)
        named_clauses = (entry["pre"] or {}).get("fields") or []

        def clause(it):
            n = int(it[1]) - entry["pre"].get("before", 0)
            return f".requires.{named_clauses[n]}" if 0 <= n < len(named_clauses) else it[0]

        if len(named_clauses) > 1:
            text_final = re.sub(r"\.(?:pre|requires)\.(\d)(?!\d)", clause, text_final)
        text_final = re.sub(r"(?<=[\w)])\.pre(?![\w-])", ".requires", text_final)
        text_final = re.sub(r"\.fits\.(?=[a-z])", ".ranges.", text_final)
        cited = [n for n in names_moved if re.search(r"(?<![^\s(){},;\[\]])" + re.escape(n) + r"(?![^\s(){},;\[\].])", text_final)]
        if cited:
            extra.append(f"use {module}.Invariants.{{{', '.join(cited)}}}")
        places_used = sorted(imported)
        if places_used:
            text_final = "--PLACES " + " ".join(places_used) + "\n" + text_final
        ans = notes + uses + extra + [f"use {module}.Goals as goal", ""] + text_final.split("\n") + [""]
        with open(os.path.join(folder, "Answers.antt"), "w", encoding="utf-8") as it:
            it.write("\n".join(ans))
        wrote.append("Answers")
    os.remove(path)
    return "wrote " + ", ".join(wrote) if wrote else "nothing is left to say"


def respell(crate, folder, entry, module):
    """Keeps the walk, and writes its names as today's."""
    path = os.path.join(folder, "Proof.antt")
    text = read(path)
    fn = Function(entry)
    head, decls = chunks(text)
    spec = [d for d in decls if "tie.close" in d][0]
    m = re.search(r"tie\.close\s*\(\s*tie\.spec\b(.*)\)\s*$", spec, re.S)
    args = groups(m[1]) if m else []
    while args and re.search(r"(?m)^(?:abbrev )?" + re.escape(args[0]) + r"\s*:\s*tie\.(invariant|decreases)-", text):
        args.pop(0)

    def walk(place, fields):
        at, out = place, []
        for k, f in enumerate(fields):
            row = fn.places[at]
            if f == "before":
                out.append(f)
                at = row["parent"]
                if at is None:
                    return out + fields[k + 1 :], None
                continue
            if row["field"][0] and norm(row["field"][0]) == norm(f):
                return out + [row["field"][1]] + fields[k + 1 :], None
            rest = fields[k:]
            if rest[0] == "requires" and len(rest) > 1 and rest[1].isdigit() and entry["pre"]:
                named = entry["pre"]["fields"]
                n = int(rest[1]) - entry["pre"].get("before", 0)
                if 0 <= n < len(named) and len(named) > 1:
                    rest = [rest[0], named[n]] + rest[2:]
            return out + rest, None
        return fields, at

    def env_of(code):
        env = {}
        m = re.match(r"(?:(?:abbrev|unfoldable|pub) )*(" + W + r")\s*:\s(.*?)\n(?=\S)(.*)", code, re.S)
        for it in re.finditer(r"\((" + W + r")\s*:\s*tie\.(" + W + r")", code):
            if norm(it[2]) in fn.places:
                env[it[1]] = norm(it[2])
        if not m:
            return env
        name, sig, rest = m[1], m[2], m[3]
        eq = re.search(r"(?m)^" + re.escape(name) + r"((?:\s+(?:\{[^}]*\}|" + W + r"))*)\s*=", rest)
        params = [p for p in groups(eq[1]) if not p.startswith("{")] if eq else []
        need = re.match(r"\s*tie\.Need-(" + W + ")", sig)
        if need:
            i = fn.need_by_norm.get(norm(need[1]))
            if i is None:
                i = next((k for k, a in enumerate(args) if a == name), None)
            if params and i is not None:
                env[params[0]] = fn.place_of_need(i)
            return env
        for k, (n, t) in enumerate(binders(sig)):
            it = re.match(r"tie\.(" + W + ")", t)
            if it and norm(it[1]) in fn.places:
                if n:
                    env[n] = norm(it[1])
                if k < len(params):
                    env[params[k]] = norm(it[1])
        return env

    def paths(body, env):
        env = dict(env)
        for it in re.finditer(r"\blet\s+(" + W + r")\s*=\s*(" + W + r")((?:\." + W + r")*)\s+in\b", body):
            var, base, rest = it[1], it[2], it[3]
            if base in env:
                _, place = walk(env[base], rest.split(".")[1:])
                if place:
                    env[var] = place
                else:
                    env.pop(var, None)

        def one(it):
            if it[1] not in env:
                return it[0]
            return ".".join([it[1]] + walk(env[it[1]], it[2].split(".")[1:])[0])

        return re.sub(r"(?<![^\s(){},;\[\]])(" + W + r")((?:\." + W + r")+)", one, body)

    def types(t):
        def need(it):
            i = fn.need_by_norm.get(norm(it[1]))
            return f"tie.Need-{fn.needs[i][1]}" if i is not None else it[0]

        t = re.sub(r"tie\.Need-(" + W + ")", need, t)

        def place(it):
            p = fn.places.get(norm(it[1]))
            return f"tie.{p['new']}" if p else it[0]

        t = re.sub(r"tie\.(?!Need-|invariant-|decreases-)(" + W + ")", place, t)

        def loop(it):
            for (old, new), _ in fn.loops:
                if norm(old) == norm(it[2]):
                    return f"tie.{it[1]}-{new}"
            return it[0]

        return re.sub(r"tie\.(invariant|decreases)-(" + W + ")", loop, t)

    out = []
    for d in decls:
        if d is spec:
            new = []
            k = 0
            body = d
            for i, a in enumerate(args):
                lam = re.match(r"\(λ (" + W + r")( κs)?\.", a)
                if lam:
                    b = paths(a, {lam[1]: fn.place_of_need(i)})
                    body = body.replace(a, b, 1) if b != a else body
            name = re.search(r"(?m)^pub (\S+) :", body)[1]
            want = os.path.basename(folder) + "_spec"
            body = re.sub(r"(?<![^\s(])" + re.escape(name) + r"(?![^\s)])", want, body)
            out.append(types(body))
            continue
        code = "\n".join(l for l in d.split("\n") if not l.startswith("--"))
        env = env_of(code)
        out.append(types(paths(d, env)))
    with open(path, "w", encoding="utf-8") as it:
        it.write("\n".join(head + [""] + "\n\n".join(out).split("\n") + [""]))
    return "respelled"


def main(argv):
    walks = "--walk" in argv
    argv = [a for a in argv if a != "--walk"]
    names, crate, only = argv[0], argv[1], set(argv[2:])
    entries = json.loads(read(os.path.join(names, "crates", crate, "names.json")))
    top = os.path.join("crates", crate, "proofs")
    for folder, _, files in sorted(os.walk(top)):
        if "Proof.antt" not in files:
            continue
        rel = os.path.relpath(folder, top)
        if only and rel not in only:
            continue
        key = f"Rattle-{crate}-proofs.{rel.replace('/', '.')}.Lts"
        if key not in entries:
            print(f"{crate}/{rel}: no names")
            continue
        try:
            said = (respell if walks else convert)(crate, folder, entries[key], f"Rattle.{crate}.proofs.{rel.replace('/', '.')}")
        except Exception as e:  # the file stays
            said = f"stopped: {type(e).__name__} {e}"
        print(f"{crate}/{rel}: {said}")


if __name__ == "__main__":
    main(sys.argv[1:])
