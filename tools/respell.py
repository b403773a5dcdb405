#!/usr/bin/env python3
"""Brings the repository's own definitions, lemmas and record fields to the spelling of today's Rattle: `byteAt` and
`byte-in` become `byte_at` and `byte_in`; a lemma that would have a definition's name gets `_lem`.

usage: respell.py [--table] [TOP]      once, at the top, after the toolchain's own script (docs/PORT.md)

A name is the repository's own where a file of specs/ or proofs/ declares it. What Rattle makes of a function (proofs/F/Proof.antt:
the records of goals) keeps its spelling, types and modules keep theirs, and so do functions of src/, strings and exported names.
--table prints old and new and writes nothing.
"""

import collections
import os
import re
import sys

ID = r"[A-Za-zα-ωΑ-Ω_][\w'\-₀-₉]*"
TOKEN = re.compile(r"(?<![\w'\-])" + ID)
DECLARED = re.compile(r"^(\s*)(?:unfoldable )?(?:abbrev )?(pub )?(?:abbrev )?(" + ID + r")(?: \{[^}]*\})? :(?= |$)", re.M)
LET = re.compile(r"\blet (" + ID + r") :")
RECORD = re.compile(r"^\s*(?:pub )?record ", re.M)
BINDER = re.compile(r"[({]((?:" + ID + r" )+):")
MADE = ("tie", "goal", "reads", "lts", "c", "w", "l", "code")
WORDS = re.compile(r"[a-z]+|[A-Z]+(?![a-z])[0-9]*|[A-Z][a-z]*|[0-9]+(?:[A-Z]+(?![a-z]))?|[^A-Za-z0-9]+")


def snake(name):
    parts = []
    name = name.replace("getD", "get_or")
    for piece in re.split(r"[-_]", name):
        if re.search(r"[A-Z]", piece):
            run = ""
            for w in WORDS.findall(piece):
                joined = run and not (w[0] in "'₀₁₂₃₄₅₆₇₈₉" or run[-1] == "'")
                run += ("_" if joined else "") + w.lower()
            piece = run
        parts.append(piece)
    return "_".join(parts)


def is_ours(name):
    return name[0].islower() and ("-" in name or re.search(r"[A-Z]", name))


def walk(top):
    for folder, dirs, files in os.walk(os.path.join(top, "crates")):
        dirs[:] = sorted(d for d in dirs if d != "out")
        for f in sorted(files):
            if f.endswith((".antt", ".rt", ".edit")):
                yield os.path.join(folder, f)


def declared(path, text):
    """The names that a file declares: (name, whether a field of a record)."""
    lines = text.split("\n")
    inside, depth = False, 0
    for line in lines:
        m = RECORD.match(line)
        if m:
            inside, depth = True, len(line) - len(line.lstrip())
            continue
        if line.strip() and inside and len(line) - len(line.lstrip()) <= depth:
            inside = False
        m = DECLARED.match(line)
        if m:
            yield m.group(3), inside
        for m in LET.finditer(line):
            yield m.group(1), False
        if not inside:
            for m in BINDER.finditer(line):
                for n in m.group(1).split():
                    yield n, False


def table(top):
    fields, others, files = set(), set(), {}
    for p in walk(top):
        with open(p, encoding="utf-8") as f:
            files[p] = f.read()
        if not p.endswith(".antt"):
            continue
        text = files[p]
        own = p.endswith("/Proof.antt")
        for name, is_field in declared(p, text):
            if own and re.search(r"^" + re.escape(name) + r" : (tie|goal)\.", text, re.M):
                continue
            if own and name.endswith("-spec") or name.startswith("which-"):
                continue
            (fields if is_field else others).add(name)
    rows = {}
    plain = {n for n in fields | others if not is_ours(n)}
    camel = {n for n in others if is_ours(n) and "-" not in n}
    taken = {snake(n) for n in camel} | {n for n in others if not is_ours(n)}
    for n in sorted(fields | others):
        if not is_ours(n):
            continue
        s = snake(n)
        if "-" in n and s in taken:
            s += "_lem"
        rows[n] = s
    # names that the toolchain's script brought to a definition's spelling already
    lemmas = {n for n in others if n in set(rows.values()) and n not in rows}
    back = collections.defaultdict(set)
    for n, s in rows.items():
        back[s].add(n)
    for s, ns in back.items():
        if len(ns) > 1:
            sys.stderr.write(f"look: together: {s}: {sorted(ns)}\n")
    return rows, files, lemmas


def respelled(path, text, rows, lemmas):
    made = set(MADE) if path.endswith("/Proof.antt") else set()
    if made:
        for m in re.finditer(r"^use Rattle\.[\w.+]+\.(?:Tie|Reads|Lts|Goals|Given|Code|Statement)(?: as (" + ID + r"))?", text, re.M):
            if m.group(1):
                made.add(m.group(1))
        for m in re.finditer(r"^(" + ID + r") : (?:tie|goal)\.", text, re.M):
            made.add("=" + m.group(1))
    out, last = [], 0
    heads = {}
    for m in TOKEN.finditer(text):
        name, at = m.group(0), m.start()
        if at and text[at - 1] == ".":
            # the chain's head
            head = heads.get(at - 1, name)
            heads[m.end()] = head
            if head in made:
                continue
        else:
            heads[m.end()] = name
            if path.endswith("/Proof.antt") and "=" + name in made:
                continue
        if name in lemmas and path.endswith(".antt") and not path.endswith("/Proof.antt") and (not at or text[at - 1] != "."):
            out.append(text[last:at] + name + "_lem")
            last = m.end()
            continue
        if name in rows:
            if path.endswith(".rt") and text.rfind('"', text.rfind("\n", 0, at) + 1, at) >= 0 and text[text.rfind("\n", 0, at) + 1 : at].count('"') % 2:
                continue
            if path.endswith(".rt") and "-" in name:
                line = text[text.rfind("\n", 0, at) + 1 : (text.find("\n", at) + 1 or len(text))]
                if not re.search(r"ghost |requires|ensures|invariant|//", line):
                    sys.stderr.write(f"look: {path}: {line.strip()}\n")
            out.append(text[last:at])
            out.append(rows[name])
            last = m.end()
    out.append(text[last:])
    return "".join(out)


def main():
    words = [w for w in sys.argv[1:] if w != "--table"]
    top = words[0] if words else "."
    rows, files, lemmas = table(top)
    if "--table" in sys.argv:
        for n, s in sorted([*rows.items(), *((n, n + "_lem") for n in lemmas)]):
            print(f"{n}\t{s}")
        return
    turned = 0
    for p, text in files.items():
        new = respelled(p, text, rows, lemmas)
        if new != text:
            with open(p, "w", encoding="utf-8") as f:
                f.write(new)
            turned += 1
    print(f"respelled: {turned} files, {len(rows)} names")


main()
