#!/usr/bin/env python3
"""Respells the repository's own names as today's Rattle spells them. It runs once, right after the kit's port.py.

usage: python3 tools/respell.py [--check]

Definitions, lemmas, fields, constructors and ghost names of specs/ and proofs/ that have a dash or a hump become snake case, those that
begin with a capital become camel case: `verdict-of` -> `verdict_of`, `signedBytes` -> `signed_bytes`, `Within-half` -> `WithinHalf`.
Functions of src/, exported names, strings, and the names that Rattle makes for goals and steps stay. Two crates that are named as a
library of the kit get another name: bytes -> little_endian, log -> log_mean. It stops where two names would fall together.
"""

import os
import re
import subprocess
import sys

CRATES = {"bytes": "little_endian", "log": "log_mean"}
TOKEN = re.compile(r"[^\s(){}.;,@\"«»\[\]\\`]+")
DECLARED = re.compile(r"^(\s*)(?:(?:abbrev|unfoldable|pub|data|record|ruleset|infix[lr]?\s+\d+)\s+)*([^\s(){}.;,@\"]+)((?:\s+[({][^\n]*?[)}])*)\s+(?::(?!=)|where)\s?", re.M)
DATA = re.compile(r"^(?:abbrev |unfoldable |pub )*(data|record|ruleset) (?:pub )?([^\s(){}]+)", re.M)
KEPT = set("use pub mod module where let in elim abbrev unfoldable unfolding record data open ruleset".split())


def files(root, ends):
    for folder, dirs, names in os.walk(root):
        dirs[:] = sorted(d for d in dirs if d not in ("out", ".git", "target"))
        for name in sorted(names):
            if name.endswith(ends):
                yield os.path.join(folder, name)


def read(path):
    with open(path, encoding="utf-8", newline="") as it:
        return it.read()


def spelled(name):
    """The new spelling of a name, or the name itself."""
    if "◌" in name or not re.search(r"[A-Za-z]", name):
        return name
    if re.match(r"[A-Z]", name):
        head, *rest = name.split("-")
        if not rest:
            return name
        return head + "".join(it[:1].upper() + it[1:] for it in rest)
    name = re.sub(r"(?<=[a-z0-9])([A-Z])(?![A-Z])", lambda it: "_" + it[1].lower(), name)
    # a dash between parts; an operator's own minus stays
    return re.sub(r"(?<=[^\s-])-(?=[^\s-])", "_", name)


def walks(path):
    """Whether the file answers goals of a function: names there are Rattle's."""
    return os.path.basename(path) in ("Proof.antt", "Invariants.antt", "Answers.antt")


def declared():
    names = set()
    for path in files("crates", ".antt"):
        if walks(path):
            continue
        code = re.sub(r"--[^\n]*", "", read(path))
        for it in DECLARED.finditer(code):
            if it[2] not in KEPT:
                names.add(it[2])
        for it in DATA.finditer(code):
            names.add(it[2])
    return names


def taken():
    """Every word of the proofs and clauses."""
    words = set()
    for path in files("crates", (".antt", ".rt")):
        words.update(TOKEN.findall(re.sub(r"--[^\n]*|//[^\n]*", "", read(path))))
    return words


def in_code(text, table):
    return TOKEN.sub(lambda it: table.get(it[0], it[0]), text)


def in_spans(text, table):
    return re.sub(r"`[^`\n]*`", lambda it: in_code_spans(it[0], table), text)


def in_code_spans(span, table):
    return "`" + TOKEN.sub(lambda it: table.get(it[0], it[0]), span[1:-1]) + "`"


def antt(text, table):
    parts = re.split(r"(--[^\n]*|\"(?:[^\"\\\n]|\\.)*\")", text)
    for i, part in enumerate(parts):
        if part.startswith("--"):
            parts[i] = in_spans(part, table)
        elif not part.startswith('"'):
            parts[i] = in_code(part, table)
    return "".join(parts)


RT_TOKEN = re.compile(r"[^\s(){}.;,@\"«»\[\]\\`:&*!<>=|]+")


def rt(text, table):
    parts = re.split(r"(//[^\n]*|b?\"(?:[^\"\\]|\\.)*\"|b?'(?:[^'\\\n]|\\.)')", text)
    for i, part in enumerate(parts):
        if part.startswith("//"):
            parts[i] = in_spans(part, table)
        elif not re.match(r"b?[\"']", part):
            parts[i] = RT_TOKEN.sub(lambda it: table.get(it[0], it[0]), part)
    return "".join(parts)


def crate_names(text, path):
    for old, new in CRATES.items():
        text = re.sub(rf"\bRattle\.{old}(?=\.)", f"Rattle.{new}", text)
        if path.endswith((".rt", ".edit")):
            text = re.sub(rf"(?<![\w:]){old}::", f"{new}::", text)
            text = re.sub(rf"\buse {old};", f"use {new};", text)
            text = re.sub(rf"`{old}`(?= `)", f"`{new}`", text)
    return text


def main(argv):
    top = subprocess.run(["git", "rev-parse", "--show-toplevel"], capture_output=True, text=True).stdout.strip()
    os.chdir(top)
    words = taken()
    names = declared()
    table, back = {}, {}
    for name in sorted(names):
        new = spelled(name)
        if new == name:
            continue
        if new in names or new in words:
            print(f"look: {name} -> {new}, and {new} is there already", file=sys.stderr)
        if new in back:
            print(f"respell: {name} and {back[new]} fall together as {new}", file=sys.stderr)
            return 1
        back[new] = name
        table[name] = new
    if "--check" in argv:
        for name, new in table.items():
            print(f"{name}\t{new}")
        return 0
    for path in list(files("crates", (".antt", ".rt"))):
        text = read(path)
        new = antt(text, table) if path.endswith(".antt") else rt(text, table)
        new = crate_names(new, path)
        if new != text:
            with open(path, "w", encoding="utf-8", newline="") as it:
                it.write(new)
    for old, new in CRATES.items():
        if os.path.isdir(f"crates/{old}"):
            subprocess.run(["git", "mv", f"crates/{old}", f"crates/{new}"], check=True)
    text = read("crates.txt")
    for old, new in CRATES.items():
        text = re.sub(rf"(?<![\w]){old}(?![\w])", new, text)
    with open("crates.txt", "w", encoding="utf-8") as it:
        it.write(text)
    with open("tools/respelled.tsv", "w", encoding="utf-8") as it:
        it.write("".join(f"{name}\t{new}\n" for name, new in table.items()))
    for crate in sorted(os.listdir("crates")):
        subprocess.run(["rt", "fmt"], cwd=os.path.join("crates", crate), stdout=subprocess.DEVNULL, stderr=subprocess.DEVNULL)
    print(f"respell: {len(table)} names")
    return 0


if __name__ == "__main__":
    raise SystemExit(main(sys.argv[1:]))
