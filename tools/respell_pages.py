#!/usr/bin/env python3
"""Brings the names in README.md, CHANGELOG.md, docs/ and the comments of tools/ to the spelling that the crates have now.

usage: respell_pages.py      at the top, after respell.py (docs/PORT.md); reads tools/respell.tsv. docs/PORT.md is left alone

Only what stands in backquotes turns, and only where the new name stands in the crates and the old one does not.
"""
import glob
import os
import re

ID = r"[A-Za-z_][\w'\-′]*"
rows = dict(line.rstrip("\n").split("\t") for line in open("tools/respell.tsv"))
known = set()
for folder, dirs, files in os.walk("crates"):
    dirs[:] = [d for d in dirs if d != "out"]
    for f in files:
        if f.endswith((".rt", ".antt")):
            known |= set(re.findall(r"[A-Za-z_][\w'\-]*", open(os.path.join(folder, f)).read()))


def snake(n):
    n = n.replace("getD", "get_or").replace("′", "'")
    n = re.sub(r"(?<=[a-z0-9])([A-Z])", lambda m: "_" + m.group(1).lower(), n) if n[0].islower() else n
    return n.replace("-", "_")


def one(m):
    n = m.group(0)
    new = rows.get(n) or snake(n)
    if new != n and n not in known and new in known:
        return new
    return n


for p in ["README.md", "CHANGELOG.md", *sorted(glob.glob("docs/**/*.md", recursive=True))]:
    if p == "docs/PORT.md":
        continue
    t = open(p).read()
    new = re.sub(r"`[^`\n]+`", lambda m: re.sub(r"(?<![\w'\-./])" + ID + r"(?![\w/]|\.(?:rt|antt|md|c|h|bin))", one, m.group(0)), t)
    if new != t:
        open(p, "w").write(new)
        print("respelled:", p, sum(1 for a, b in zip(t.split("\n"), new.split("\n")) if a != b), "lines")
