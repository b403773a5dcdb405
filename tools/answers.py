#!/usr/bin/env python3
"""Turns proofs/F/Proof.antt, which answered each goal by its older name and position, into Answers.antt and Invariants.antt.

usage: answers.py CRATE_FOLDER [--keep]     with CRATE_FOLDER/proofs, and the source in a state that the front end accepts

It asks `rt check --generated DIR --old-names` for each goal's older and newer name. An answer that was `search rules` goes, since the
check finds it; the others keep their terms, with the ways through `c` respelled. What it is not sure of it prints on a line 'look:'.
--keep leaves Proof.antt where it is. A proof by hand, with no `tie.close`, is left alone.
"""

import json
import os
import re
import shutil
import subprocess
import sys
import tempfile

NAME = r"[^\s(){}.;,@\"«»\[\]\\]+"
PLAIN = ("args", "requires", "ranges", "lifetimes", "well_formed", "well-formed", "auto", "new", "type_inv", "type-inv", "initial", "fn")


def norm(s):
    return s.replace("_", "-")


def step_norm(s):
    # goes-on2, goes_on-2: one spelling
    return re.sub(r"-(?=\d+$)", "", norm(s)).lower()


def need_norm(s):
    return norm(s)


class Fn:
    def __init__(self, row):
        self.row = row
        self.index = {p[0]: i for i, p in enumerate(row["places"])}
        self.norm_index = {norm(p[0]): i for i, p in enumerate(row["places"])}
        self.needs = {need_norm(o): (n, row["asked_at"][i][0]) for i, (o, n) in enumerate(row["needs"])}

    def parent(self, i):
        p = self.row["places"][i][1]
        return self.index[p] if p is not None else None

    def way(self, start, befores, rest, look):
        """The new way for c(.before)*befores.rest at the place numbered start; rest is a list of names."""
        at = start
        for _ in range(befores):
            up = self.parent(at)
            if up is None:
                break
            at = up
        if not rest:
            return None
        x = rest[0]
        if norm(x) in PLAIN or x in PLAIN:
            return ["c"] + [x.replace("-", "_")] + rest[1:]
        here = at
        while here is not None:
            place = self.row["places"][here]
            arm = self.row["arms"][here]
            if arm:
                for new, old, path in arm[2]:
                    if step_norm(old) == step_norm(x) and rest[1 : 1 + len(path)] == path and (path or not new.endswith("-own")):
                        return ["c", arm[0], new] + rest[1 + len(path) :]
            if arm:
                for new, old, path in arm[2]:
                    if step_norm(old) == step_norm(x) and not path and len(rest) > 1:
                        return ["c", arm[0], new] + rest[1:]
            if step_norm(place[2][0]) == step_norm(x):
                return ["c", place[2][1]] + rest[1:]
            here = self.parent(here)
        if at != start:
            return self.way(start, 0, rest, look)
        look("no step " + ".".join(rest))
        return ["c"] + rest


def decls(text):
    """(head comment and use lines, list of (name, type, unfolding, equations, whole))."""
    lines = text.split("\n")
    head, out, cur, pend = [], [], None, []
    seen = False
    for line in lines:
        m = re.match(r"(pub )?(abbrev )?(pub )?(" + NAME + r")((?: \{[^}]*\})*) :(?: |$)(.*)$", line)
        if m and not line.startswith(" ") and not line.startswith("use "):
            seen = True
            cur = {"name": m.group(4), "line": line, "type": m.group(6), "body": [], "before": pend, "abbrev": bool(m.group(2))}
            pend = []
            out.append(cur)
            continue
        if not seen:
            if line.startswith("use ") or (line.startswith("--") and not out):
                head.append(line)
            continue
        if line.startswith("--"):
            pend.append(line)
            continue
        if line.strip() == "" and cur is not None and pend:
            continue
        cur["body"].append(line)
    for d in out:
        while d["body"] and d["body"][-1].strip() == "":
            d["body"].pop()
        d["before"] = [b for b in d["before"] if not re.match(r"-- \S*src/\S+:\d+:\d+$", b)]
    return head, out


def turn_ways(text, fn, at, look, arms):
    alias = {}

    def one(m):
        chain = m.group(0).split(".")
        head, rest = chain[0], chain[1:]
        extra = alias[head] if head in alias else 0
        k = 0
        while rest and rest[0] == "before":
            rest = rest[1:]
            k += 1
        new = fn.way(at, k + extra, rest, look)
        if new is None:
            return m.group(0)
        word = ".".join(new)
        if re.fullmatch(r"keys\d+", new[-1]) and len(new) > 2 and new[-2].endswith("-own") and "default" in new[-2]:
            arms.add("")
            return f"(opened {word})"
        return word

    def bind(m):
        alias[m.group(1)] = m.group(2).count(".before")
        return ""

    text = re.sub(r"(?<=\.)«([^»]*)»", r"\1", text)
    text = re.sub(r"let (" + NAME + r") = c((?:\.before)+) in\s*", bind, text)
    heads = "|".join(["c"] + [re.escape(a) for a in alias])
    text = re.sub(r"(?<![\w.'\-])(?:" + heads + r")(?:\." + NAME + r")+", one, text)
    text = re.sub(r"(\.wrapping_\w+(?:-[\w-]+)?\.ensures)(?![\w.'\-])", r"\1.value", text)
    sides = re.compile(r"⊎_elim \(λ (\w+)\. ((?:[^()]|\([^()]*\))*)\) \(λ (\w+)\. ((?:[^()]|\([^()]*\))*)\) (c\.if-(" + NAME + r")\.branch)")

    def split(m):
        look("arms " + m.group(6))
        arms.update({"then-" + m.group(6), "else-" + m.group(6)})
        return f"(elim {m.group(5)} [ then-{m.group(6)} {m.group(1)} ↦ {m.group(2)} | else-{m.group(6)} {m.group(3)} ↦ {m.group(4)} ])"

    return sides.sub(split, text)


def turn(crate, folder, fn, path, keep):
    with open(path, encoding="utf-8") as f:
        text = f.read()
    said = []
    name = folder.replace("/", ".")
    if "tie.close" not in text:
        return [f"left: {path}: a proof by hand"]
    head, all_ = decls(text)
    uses, comments = [], []
    for line in head:
        if line.startswith("--"):
            comments.append(line)
        elif re.match(r"use Rattle\.[\w.+'-]+\.(Statement|Tie|Reads|Lts|Goals|Given|Code)(\.\{.*\}| as \S+)?$", line):
            if ".Lts" in line and "{" in line:
                said.append(f"look: {path}: {line}")
        else:
            uses.append(line)
    answers, invariants, lemmas = [], [], []
    has_loop = False
    inlines, arms = {}, set()
    for d in all_:
        look = lambda t, d=d: said.append(f"look: {path}: {d['name']}: {t}")
        if d["name"].endswith("-spec") or d["name"].endswith("_spec") or d["name"].startswith("which-"):
            continue
        if "which-" in "\n".join(d["body"]):
            said.append(f"look: {path}: {d['name']}: left to the check, an arm of several variants")
            at = next((i for i, b in enumerate(d["body"]) if b.startswith(d["name"] + " ")), 0)
            d["body"] = d["body"][:at] + [d["name"] + " c = search rules"]
            if not at:
                inlines[d["name"]] = "(search rules)"
                continue
        m = re.match(r"tie\.(invariant|decreases)-(\S+)$", d["type"])
        if m:
            has_loop = True
            kind, loop = m.groups()
            n = next((i for i, l in enumerate(fn.row["loops"]) if step_norm(l[0][0]) == step_norm(loop)), 0)
            (_, new), names = fn.row["loops"][n]
            changed = fn.row["changed"][n]
            body = "\n".join(d["body"])
            e = re.match(r"(" + NAME + r")((?: " + NAME + r")*) =(.*)$", body, re.S)
            if not e:
                said.append(f"look: {path}: {d['name']}: not read")
                continue
            params = e.group(2).split()
            want = [("l.initial." if c else "l.") + v for v, c in zip(names, changed)] + ["l." + v for v, c in zip(names, changed) if c]
            if len(params) != len(want):
                said.append(f"look: {path}: {d['name']}: {params} for {want}")
            table = dict(zip(params, want))
            term = re.sub(r"(?<![\w.'\-₀-₉])" + r"(" + NAME + r")", lambda k: table.get(k.group(1), k.group(1)) if k.group(1) != "_" else "_", e.group(3))
            invariants.append(f"abbrev pub {kind}-{new} : goal.{kind}-{new}\n{kind}-{new} l ={term}")
            continue
        m = re.match(r"tie\.Need-(\S+?)(?: .*)?$", d["type"])
        if m:
            old = need_norm(m.group(1))
            body = "\n".join(d["body"])
            if re.fullmatch(r"\S+(?: \S+)* = search rules", body.strip()):
                inlines[d["name"]] = "(search rules)"
                continue
            if old.startswith("overflow-") and old not in fn.needs:
                old = old[len("overflow-") :]
            if old not in fn.needs:
                look(f"no goal {old}")
                continue
            new, place = fn.needs[old]
            at = fn.index[place]
            lines = body.split("\n")
            out = []
            for line in lines:
                if line.startswith(d["name"] + " "):
                    line = new + line[len(d["name"]) :]
                    if old.endswith("requires") or "-requires-" in old:
                        line = re.sub(r"^(\S+ c) κs", r"\1", line)
                out.append(line)
            turned = turn_ways("\n".join(out), fn, at, look, arms)
            left, equal, right = turned.partition(" =")
            for local, term in inlines.items():
                right = re.sub(r"(?<![\w.'\-])" + re.escape(local) + r" c(?:\.before)*(?: κs)?(?![\w.'\-])", lambda k: term, right)
            turned = left + equal + right
            answers.append("\n".join(d["before"] + [f"pub {new} : goal.{new}", turned]))
            e = re.fullmatch(re.escape(new) + r" c = (.*)", turned, re.S)
            if e:
                inlines[d["name"]] = e.group(1) if re.fullmatch(r"\S+|\(.*\)", e.group(1)) else "(" + e.group(1) + ")"
            continue
        lemmas.append("\n".join(d["before"] + [d["line"]] + d["body"]))
    base = os.path.dirname(path)
    goal = f"Rattle.{crate}.proofs.{name}"
    comment = [c for c in comments if not re.match(r"-- \S*src/\S+:\d+:\d+$", c)]
    wrote = False
    if answers:
        t = "\n".join(comment + uses + [f"use {goal}.Goals as goal"] + ([f"use {goal}.Goals.{{{', '.join(sorted(arms - {''}))}}}"] if arms - {""} else []) + (["use borrow.Enum.Refused.{opened}"] if "" in arms else [])) + "\n\n" + "\n\n".join(lemmas + answers) + "\n"
        with open(os.path.join(base, "Answers.antt"), "w", encoding="utf-8") as f:
            f.write(t)
        wrote = True
    if has_loop:
        t = "\n".join(([] if wrote else comment) + uses + [f"use {goal}.Given as goal"]) + "\n\n" + "\n\n".join(invariants) + "\n"
        with open(os.path.join(base, "Invariants.antt"), "w", encoding="utf-8") as f:
            f.write(t)
    if not keep:
        os.remove(path)
        if not os.listdir(base):
            os.rmdir(base)
    return said


def main():
    crate_folder = sys.argv[1].rstrip("/")
    keep = "--keep" in sys.argv
    crate = os.path.basename(os.path.abspath(crate_folder))
    tmp = tempfile.mkdtemp()
    r = subprocess.run(["rt", "check", "--generated", tmp, "--old-names"], cwd=crate_folder, capture_output=True, text=True)
    try:
        with open(os.path.join(tmp, "names.json")) as f:
            names = json.load(f)
    except OSError:
        print(r.stdout[-2000:], r.stderr[-2000:])
        raise SystemExit(1)
    shutil.rmtree(tmp)
    fns = {}
    for key, row in names.items():
        m = re.match(r"Rattle-" + re.escape(crate) + r"-proofs\.(.+)\.Lts", key)
        if "places" in row:
            fns[m.group(1).replace(".", "/")] = Fn(row)
    root = os.path.join(crate_folder, "proofs")
    for folder, dirs, files in os.walk(root):
        if "Proof.antt" in files:
            rel = os.path.relpath(folder, root)
            p = os.path.join(folder, "Proof.antt")
            if rel not in fns:
                print(f"left: {p}: no names for it")
                continue
            for line in turn(crate, rel, fns[rel], p, keep):
                print(line)


main()
