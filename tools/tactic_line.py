#!/usr/bin/env python3
"""Writes `#![tactic(auto)]` above the first item of each crate's root file that has none."""
import glob

for path in glob.glob("crates/*/src/lib.rt") + glob.glob("crates/*/src/main.rt"):
    with open(path, encoding="utf-8") as it:
        lines = it.read().split("\n")
    if "#![tactic(auto)]" in lines:
        continue
    at = 0
    while at < len(lines) and lines[at].startswith("//"):
        at += 1
    lines.insert(at, "#![tactic(auto)]")
    with open(path, "w", encoding="utf-8") as it:
        it.write("\n".join(lines))
