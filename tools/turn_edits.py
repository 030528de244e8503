#!/usr/bin/env python3
"""Turns the must-fail edits (crates/NAME/must-fail and tests/attack/NAME) to today's spelling, by the scripts that turned the sources.

usage: python3 tools/turn_edits.py variants WORK    makes the folders WORK/variant-N, each a repository
       python3 tools/turn_edits.py turn WORK N      turns the folder WORK/variant-N as commit TURNED turned the sources (some minutes)
       python3 tools/turn_edits.py texts WORK       writes the edits, once every variant is turned, and tells what is left to do by hand

It runs once, after respell.py. An edit is one or more pairs 'old:' and 'new:' of texts in the older spelling. Each variant is the sources of the
commit LANDED with as many edits applied at once as do not come near one another. The kit's port.py and this folder's respell.py turn a variant as they
turned the sources, with the sources' own table of names; where it then differs from the turned sources, there stand an edit's two texts in today's
spelling. A pair is cut back to the words that the landed pair had, or to as many more as it takes to stand once in its file.
"""

import collections
import difflib
import importlib.util
import os
import re
import subprocess
import sys

LANDED = "a4dd7c899ef5167f5e96c97c86a103eaf0270a48"
TURNED = "5f04a98bd43fbada35c38a677911b8946964d3e6"
PORT = "/opt/rattle/port/port.py"
HERE = os.path.dirname(os.path.realpath(__file__))
TOP = os.path.dirname(HERE)
# Edits that were turned by hand.
BY_HAND = {
    "crates/exact_fit/must-fail/sign_dropped.edit",
    "crates/gather/must-fail/twelve_at_its_byte.edit",
    "tests/attack/made_card/a_knot_more.edit",
    "tests/attack/writer/room_before_jumps.edit",
}
# Two edits in one variant are further apart than this, in lines of one file.
NEAR = 2


def git(*words, where=TOP):
    return subprocess.run(["git", *words], cwd=where, capture_output=True, check=True).stdout


def read(path):
    with open(path, encoding="utf-8", newline="") as it:
        return it.read()


def write(path, text):
    os.makedirs(os.path.dirname(path), exist_ok=True)
    with open(path, "w", encoding="utf-8", newline="") as it:
        it.write(text)


def respell():
    """This folder's respell.py, as a module."""
    spec = importlib.util.spec_from_file_location("respell", os.path.join(HERE, "respell.py"))
    module = importlib.util.module_from_spec(spec)
    spec.loader.exec_module(module)
    return module


def unpack(commit, folder, *paths):
    os.makedirs(folder, exist_ok=True)
    made = git("archive", commit, *paths)
    subprocess.run(["tar", "-x", "-C", folder], input=made, check=True)


class Edit:
    """An edit of LANDED: its place, its remarks, and its pairs, each with the file that it changes."""

    def __init__(self, path, text):
        self.path = path
        part = path.split("/")
        self.crate = part[1] if part[0] == "crates" else part[2]
        self.lines = text.split("\n")
        self.pairs = []
        name = old = None
        for n, line in enumerate(self.lines):
            if line.startswith("file: "):
                name = line[6:]
            elif line.startswith("old: "):
                old = line[5:]
            elif line.startswith("new:"):
                new = line[4:].removeprefix(" ")
                self.pairs.append((f"crates/{self.crate}/{name}", old, new))

    def changed(self, sources):
        """For each file that the edit changes: the lines that it changes there, by their number, as they then read."""
        now = {}
        for path, old, new in self.pairs:
            text = now.setdefault(path, sources[path])
            if text.count(old) != 1:
                raise SystemExit(f"{self.path}: stands {text.count(old)} times in {path}: {old}")
            now[path] = text.replace(old, new)
        places = {}
        for path, text in now.items():
            before, after = sources[path].split("\n"), text.split("\n")
            assert len(before) == len(after), self.path
            places[path] = {n: after[n] for n in range(len(after)) if after[n] != before[n]}
        return places


def landed(work):
    """The edits of LANDED, its sources, and the folder that they are in."""
    edits, sources = [], {}
    folder = os.path.join(work, "landed")
    if not os.path.isdir(folder):
        unpack(LANDED, folder, "crates", "crates.txt", "tests/attack", "README.md")
    for at, dirs, names in os.walk(folder):
        dirs.sort()
        for name in sorted(names):
            path = os.path.relpath(os.path.join(at, name), folder)
            if name.endswith(".edit"):
                edits.append(Edit(path, read(os.path.join(at, name))))
            elif name.endswith((".rt", ".antt")):
                sources[path] = read(os.path.join(at, name))
    return edits, sources, folder


def coloured(edits, sources):
    """The number of the variant of each edit: widest first, each into the first variant where nothing is near it."""
    taken = collections.defaultdict(list)
    number = {}
    for edit in sorted(edits, key=lambda it: (-sum(map(len, it.changed(sources).values())), it.path)):
        places = edit.changed(sources)
        n = 0
        while any(abs(a - b) <= NEAR for path, lines in places.items() for a in lines for b in taken[n, path]):
            n += 1
        for path, lines in places.items():
            taken[n, path] += lines
        number[edit.path] = n
    return number


def below(crates, listed):
    """The crates and all that they stand on."""
    found = set()
    left = list(crates)
    while left:
        crate = left.pop()
        if crate not in found and crate in listed:
            found.add(crate)
            left += listed[crate]
    return found


def variants(work):
    edits, sources, folder = landed(work)
    number = coloured(edits, sources)
    lines = [line for line in read(os.path.join(folder, "crates.txt")).split("\n") if ":" in line and not line.startswith("#")]
    listed = {line.split(":")[0]: line.split(":")[1].split() for line in lines}
    for n in range(max(number.values()) + 1):
        room = os.path.join(work, f"variant-{n}")
        if os.path.isdir(room):
            continue
        texts = {}
        for edit in edits:
            if number[edit.path] == n:
                for path, changed in edit.changed(sources).items():
                    text = texts.setdefault(path, sources[path].split("\n"))
                    for at, line in changed.items():
                        text[at] = line
        whole = below({path.split("/")[1] for path in texts}, listed)
        unpack(LANDED, room, *(f"crates/{crate}" for crate in sorted(whole)), "README.md", ".gitignore")
        write(os.path.join(room, "crates.txt"), "".join(f"{line}\n" for line in lines if line.split(":")[0] in whole))
        for path, text in texts.items():
            write(os.path.join(room, path), "\n".join(text))
        git("init", "-q", ".", where=room)
        git("add", "-A", where=room)
        git("-c", "user.name=turn", "-c", "user.email=turn@localhost", "commit", "-qm", "variant", where=room)
        print(f"variant-{n}: {sum(1 for it in number.values() if it == n)} edits")


def turn(work, n):
    """port.py, then respell.py's steps by the sources' own table."""
    room = os.path.join(work, f"variant-{n}")
    # port.py writes what its scripts say into one folder of the machine: another for each variant
    port = read(PORT).replace('SAID = "/tmp/port-said"', f'SAID = "{work}/said-{n}"')
    port = port.replace("HERE = os.path.dirname(os.path.realpath(__file__))", f'HERE = "{os.path.dirname(PORT)}"')
    write(os.path.join(work, f"port-{n}.py"), port)
    subprocess.run([sys.executable, os.path.join(work, f"port-{n}.py")], cwd=room, check=True)
    by = respell()
    table = dict(line.split("\t") for line in read(os.path.join(HERE, "respelled.tsv")).splitlines())
    os.chdir(room)
    for path in list(by.files("crates", (".antt", ".rt"))):
        text = read(path)
        new = by.antt(text, table) if path.endswith(".antt") else by.rt(text, table)
        new = by.crate_names(new, path)
        if new != text:
            write(path, new)
    for old, new in by.CRATES.items():
        if os.path.isdir(f"crates/{old}"):
            os.rename(f"crates/{old}", f"crates/{new}")
    text = read("crates.txt")
    for old, new in by.CRATES.items():
        text = re.sub(rf"(?<![\w]){old}(?![\w])", new, text)
    with open("crates.txt", "w", encoding="utf-8") as it:
        it.write(text)
    for crate in sorted(os.listdir("crates")):
        subprocess.run(["rt", "fmt"], cwd=os.path.join("crates", crate), stdout=subprocess.DEVNULL, stderr=subprocess.DEVNULL)
    with open(os.path.join(work, f"turned-{n}"), "w") as it:
        it.write("turned\n")


def renamed(path, crates):
    """The path, in the crate's name of today."""
    part = path.split("/")
    at = 1 if part[0] == "crates" else 2
    part[at] = crates.get(part[at], part[at])
    return "/".join(part)


def plain(line):
    """What is left of a line in both spellings: its letters and digits."""
    return re.sub(r"[^0-9a-z]", "", line.lower())


class Places:
    """Where the lines of a text stand in its turned text."""

    def __init__(self, before, after):
        self.blocks = difflib.SequenceMatcher(None, [plain(it) for it in before], [plain(it) for it in after], autojunk=False).get_opcodes()

    def of(self, line):
        for _, a, b, c, d in self.blocks:
            if a <= line < b:
                return c + (line - a) * (d - c) / (b - a)
        raise AssertionError


WORD = re.compile(r"[\w'′]+|\s+|[^\w\s]")


def like(a, b):
    return difflib.SequenceMatcher(None, a, b, autojunk=False).ratio()


def cut(old, new, text, landed_old, landed_new):
    """The stretch of a line and what stands for it, as near to the landed stretch as stands once in the text."""
    front = 0
    a, b = WORD.findall(old), WORD.findall(new)
    while front < min(len(a), len(b)) and a[front] == b[front]:
        front += 1
    back = 0
    while back < min(len(a), len(b)) - front and a[-1 - back] == b[-1 - back]:
        back += 1
    best = None
    for start in range(front + 1):
        if start and (a[start:] or b[start:] or [""])[0].isspace():
            continue
        for end in range(back + 1):
            one, two = "".join(a[start : len(a) - end]), "".join(b[start : len(b) - end])
            if not one or one[-1].isspace() or (two and two[-1].isspace()) or text.count(one) != 1:
                continue
            mark = (like(one, landed_old) + like(two, landed_new), -len(one))
            if best is None or mark > best[0]:
                best = (mark, one, two)
    return best[1:] if best else None


def texts(work, say):
    edits, sources, _ = landed(work)
    number = coloured(edits, sources)
    by = respell()
    table = dict(line.split("\t") for line in read(os.path.join(HERE, "respelled.tsv")).splitlines())
    base = {}

    def turned(path):
        if path not in base:
            base[path] = git("show", f"{TURNED}:{path}").decode().split("\n")
        return base[path]

    done = 0
    for n in range(max(number.values()) + 1):
        room = os.path.join(work, f"variant-{n}")
        if not os.path.exists(os.path.join(work, f"turned-{n}")):
            say(f"variant-{n} is not turned")
            continue
        inside = [edit for edit in edits if number[edit.path] == n]
        # for each file: the lines of LANDED that an edit changes, with the edit and the turned lines that came of it
        spots = collections.defaultdict(list)
        for edit in inside:
            for path, lines in edit.changed(sources).items():
                was = sources[path].split("\n")
                spots[path] += [{"edit": edit, "line": line, "was": was[line], "is": now, "came": []} for line, now in lines.items()]
        touched = {renamed(path, by.CRATES): path for path in spots}
        for path in by.files(os.path.join(room, "crates"), (".antt", ".rt")):
            path = os.path.relpath(path, room)
            old, new = turned(path), read(os.path.join(room, path)).split("\n")
            if old == new:
                continue
            if path not in touched:
                say(f"variant-{n}: no edit is in {path}, and yet it is turned otherwise")
                continue
            where = Places(sources[touched[path]].split("\n"), old)
            here = spots[touched[path]]
            for it in here:
                it["at"] = where.of(it["line"])
            for at, was, now, loose in differing(old, new):
                # an edit of an import may have moved into another import's line
                imports = IMPORT.match(was)
                among = [it for it in here if IMPORT.match(it["was"]) and all(plain(name) in plain(it["is"]) for name in set(NAME.findall(now)) - set(NAME.findall(was)))] if imports else here
                if imports and len({it["edit"].path for it in among}) != 1:
                    say(f"variant-{n}: {path}:{at + 1}: {was} => {now}: of " + (", ".join(it["edit"].path for it in among) or "no edit"))
                    continue
                near = min(among, key=lambda it: abs(it["at"] - at))
                if not imports and abs(near["at"] - at) > 2:
                    say(f"variant-{n}: {path}:{at + 1} is {abs(near['at'] - at):.1f} lines from {near['edit'].path}: {was} => {now}")
                near["came"].append((was, now, loose))
        for edit in inside:
            if edit.path in BY_HAND:
                continue
            loose = any(it[2] for path in touched.values() for spot in spots[path] if spot["edit"] is edit for it in spot["came"])
            if loose and stands(edit, turned, by):
                write(os.path.join(TOP, renamed(edit.path, by.CRATES)), "\n".join(edit.lines))
                done += 1
                continue
            if loose:
                say(f"{edit.path}: laid out otherwise, and turned word by word")
            wrong = write_edit(edit, spots, sources, turned, by, table)
            if wrong and stands(edit, turned, by):
                write(os.path.join(TOP, renamed(edit.path, by.CRATES)), "\n".join(edit.lines))
                done += 1
            elif wrong:
                say(f"{edit.path}: {wrong}")
            else:
                done += 1
    say(f"{done} of {len(edits)} edits are turned, {len(BY_HAND)} are by hand")


NAME = re.compile(r"\w+")
IMPORT = re.compile(r"\s*(?:pub |ghost )*use ")


def differing(old, new):
    """The lines of a text that read otherwise in another: each as its number, what it was, what it is, and whether the other is laid out otherwise there."""
    for kind, i, j, k, m in difflib.SequenceMatcher(None, old, new, autojunk=False).get_opcodes():
        if kind == "equal":
            continue
        if j - i == m - k:
            yield from ((i + x, old[i + x], new[k + x], False) for x in range(j - i) if old[i + x] != new[k + x])
            continue
        # laid out otherwise: word by word, within the lines as they are
        if i == j:
            i, k = i - 1, k - 1
        words = [(n, it.start(), it.end(), it[0]) for n in range(i, j) for it in re.finditer(WORD, old[n]) if not it[0].isspace()]
        after = "\n".join(new[k:m])
        others = [it for it in re.finditer(WORD, after) if not it[0].isspace()]
        lines = {n: old[n] for n in range(i, j)}
        for what, a, b, c, d in reversed(difflib.SequenceMatcher(None, [it[3] for it in words], [it[0] for it in others], autojunk=False).get_opcodes()):
            if what == "equal":
                continue
            put = re.sub(r"\s*\n\s*", " ", after[others[c].start() : others[d - 1].end()]) if d > c else ""
            if {it[3] for it in words[a:b]} | set(put.split()) <= {","}:
                continue
            if a == b:
                at, _, end, _ = words[a - 1]
                front = after[others[c - 1].end() : others[c].start()]
                lines[at] = lines[at][:end] + (" " if front else "") + put + lines[at][end:]
                continue
            for n in reversed(range(words[a][0], words[b - 1][0] + 1)):
                inside = [it for it in words[a:b] if it[0] == n]
                if inside:
                    lines[n] = lines[n][: inside[0][1]] + (put if n == words[a][0] else "") + lines[n][inside[-1][2] :]
        yield from ((n, old[n], lines[n].rstrip(), True) for n in lines if lines[n].rstrip() != old[n])


def stands(edit, turned, by):
    """Whether each of the edit's texts stands once in today's sources as it was."""
    today = {}
    for path, old, new in edit.pairs:
        text = today.setdefault(path, "\n".join(turned(renamed(path, by.CRATES))))
        if text.count(old) != 1:
            return False
        today[path] = text.replace(old, new)
    return True


def write_edit(edit, spots, sources, turned, by, table):
    """Writes the edit in today's spelling. Answers what is in the way, if something is."""
    now = {path: text for path, text in ((path, sources[path]) for path, _, _ in edit.pairs)}
    today = {path: "\n".join(turned(renamed(path, by.CRATES))) for path in now}
    out, pair, used = [], 0, set()
    for line in edit.lines:
        if line.startswith("old: "):
            continue
        if not line.startswith("new:"):
            out.append(line)
            continue
        path, old, new = edit.pairs[pair]
        pair += 1
        at = now[path][: now[path].index(old)].count("\n")
        now[path] = now[path].replace(old, new)
        respelled = by.antt if path.endswith(".antt") else by.rt

        def spell(text):
            return by.crate_names(respelled(text, table), path)

        for spot in spots[path]:
            if spot["edit"] is not edit or spot["line"] != at or (path, at) in used:
                continue
            if not spot["came"] and not IMPORT.match(spot["was"]):
                return f"nothing came of {old}"
            for one, two, _ in spot["came"]:
                found = cut(one, two, today[path], spell(old), spell(new))
                if not found:
                    return f"does not stand once: {one} => {two}"
                today[path] = today[path].replace(*found)
                out += [f"old: {found[0]}", f"new: {found[1]}".rstrip(" ")]
        used.add((path, at))
    write(os.path.join(TOP, renamed(edit.path, by.CRATES)), "\n".join(out))
    return None


def main(argv):
    if len(argv) == 2 and argv[0] == "texts":
        return texts(os.path.abspath(argv[1]), print)
    if len(argv) == 2 and argv[0] == "variants":
        return variants(os.path.abspath(argv[1]))
    if len(argv) == 3 and argv[0] == "turn":
        return turn(os.path.abspath(argv[1]), argv[2])
    print(__doc__)
    return 2


if __name__ == "__main__":
    raise SystemExit(main(sys.argv[1:]) or 0)
