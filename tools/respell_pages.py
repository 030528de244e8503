#!/usr/bin/env python3
"""Turns the names in the code spans of README.md and docs/ to today's spelling: by tools/respelled.tsv, which tools/respell.py wrote, and where
the kit's port.py had turned a name before, by the rule of that script, if a crate has the name that comes of it and not the old one. It ran once,
after both. docs/PORT.md, which has old and new names side by side, stays.

usage: python3 tools/respell_pages.py
"""

import glob
import re

from respell import spelled

TOKEN = re.compile(r"[^\s(){}.;,@\"«»\[\]\\`]+")
CRATES = {"bytes": "little_endian", "log": "log_mean"}
# what is asked of a crate that has another name, or what it holds
OF_CRATE = re.compile(r"((?:[Pp]romises?|[Cc]rates?|edits?) )`(bytes|log)`")
PATH = re.compile(r"`((?:crates/|tests/attack/)?)(bytes|log)(/(?:src|specs|proofs|must-fail)/|/[a-z0-9_]+`)")


def names():
    with open("tools/respelled.tsv", encoding="utf-8") as it:
        return dict(line.rstrip("\n").split("\t") for line in it if line.strip())


def there():
    words = set()
    for path in glob.glob("crates/*/*/**/*.antt", recursive=True) + glob.glob("crates/*/src/**/*.rt", recursive=True):
        with open(path, encoding="utf-8") as it:
            words.update(TOKEN.findall(it.read()))
    return words


def turned(text, new, known):
    def word(found):
        by_rule = spelled(found[0])
        return new.get(found[0]) or (by_rule if by_rule in known and found[0] not in known else found[0])

    def span(found):
        return TOKEN.sub(word, found[0])

    parts = re.split(r"(^```.*?^```)", text, flags=re.M | re.S)
    for i in range(0, len(parts), 2):
        part = re.sub(r"`[^`\n]+`", span, parts[i])
        part = PATH.sub(lambda it: f"`{it[1]}{CRATES[it[2]]}{it[3]}", part)
        parts[i] = OF_CRATE.sub(lambda it: f"{it[1]}`{CRATES[it[2]]}`", part)
    return "".join(parts)


def main():
    new, known = names(), there()
    for path in ["README.md", *sorted(glob.glob("docs/*.md")), *sorted(glob.glob("docs/landings/*.md"))]:
        if path == "docs/PORT.md":
            continue
        with open(path, encoding="utf-8") as it:
            old = it.read()
        text = turned(old, new, known)
        if text != old:
            with open(path, "w", encoding="utf-8") as it:
                it.write(text)
            print(path)


if __name__ == "__main__":
    main()
