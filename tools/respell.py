#!/usr/bin/env python3
"""Brings the names of this repository's own definitions and lemmas to today's
spelling: words in snake case, types in camel case. A dash stays where a lemma
names a call and what it is applied to, as in length-added.

Run once at the top of the repository, after Rattle's own port script."""
import collections
import glob
import os
import re
import sys

# Calls that lemmas are named after, and what they are applied to.
CALLS = {"length", "lookup", "lookup_at", "sum_by", "replaced", "replaced_at", "without", "get_or", "set", "inserted", "removed", "All"}
APPLIED = {"added", "replaced", "replaced_at", "without", "place_of", "place_for", "records", "set", "written", "decimal", "missing", "append", "from"}

TOKEN = r"[^\s(){}\[\],;.:\"λ@«»]+"
# What Rattle itself names: goals, invariants and measures.
GOAL = re.compile(r":\s*goal[.]")


def snake(part):
    part = part.replace("′", "'")
    if re.fullmatch(r"[A-Z]\w*", part):
        return part
    return re.sub(r"(?<=[a-z0-9])([A-Z])", lambda m: "_" + m.group(1).lower(), part)


def spelled(name):
    parts = name.split("-")
    if name[0].isupper() and not name.startswith("All-"):
        return parts[0] + "".join(p[0].upper() + p[1:] for p in parts[1:])
    parts = [snake(p) for p in parts]
    new = parts[0]
    for before, part in zip(parts, parts[1:]):
        new += ("-" if before in CALLS and part.split("_")[0] in {a.split("_")[0] for a in APPLIED} else "_") + part
    return new


def own_names(files):
    names = {}
    for path in files:
        with open(path) as f:
            for line in f:
                if line.lstrip().startswith(("--", "use ", "let ", "module ", "pub mod", "mod ")) or GOAL.search(line):
                    continue
                m = re.match(r"\s*(?:abbrev |unfoldable )?(?:pub )?(?:record |data )?(" + TOKEN + r")\s*(?:\{|\(|:|where|=)", line)
                if not m:
                    continue
                name = m.group(1)
                if "◌" in name or not re.search(r"[a-zA-Z]", name):
                    continue
                if re.search(r"-|[a-z][A-Z]|′", name) and spelled(name) != name:
                    names.setdefault(name, set()).add(path)
    return names


def imported(files):
    found = collections.defaultdict(set)
    for path in files:
        with open(path) as f:
            for m in re.finditer(r"use (Rattle\.(?:std|core)\S*|Rattle\.\S*proofs\S*\.(?:Goals|Given)\S*|lib\S*|native\S*|denote\S*|mathlib\S*)\.\{([^}]*)\}", f.read()):
                for n in m.group(2).split(","):
                    found[n.strip().split(" as ")[0]].add(path)
    return found


def local_names(text, table):
    """Variables that a file binds: parameters and lets."""
    found = set()
    for m in re.finditer(r"[({]((?:" + TOKEN + r" )+): |\blet (" + TOKEN + r")(?= [:=(])|λ ((?:" + TOKEN + r" ?)+)\.", text):
        for n in (m.group(1) or m.group(2) or m.group(3)).split():
            if re.fullmatch(r"[a-z][\w']*(?:-[\w']+)+", n) and n not in table:
                found.add(n)
    for n in found:
        text = re.sub(r"(?<![\w'·.-])" + re.escape(n) + r"(?![\w'-])", n.replace("-", "_"), text)
    return text


def main():
    top = sys.argv[1] if len(sys.argv) > 1 else "."
    os.chdir(top)
    antt = sorted(glob.glob("crates/*/specs/*.antt") + glob.glob("crates/*/proofs/**/*.antt", recursive=True))
    rest = sorted(glob.glob("crates/*/src/*.rt") + glob.glob("crates/*/must-fail/*.edit"))
    names = own_names(antt)
    goals = set()
    for path in antt:
        with open(path) as f:
            for m in re.finditer(r"^\s*(?:abbrev )?(?:pub )?(" + TOKEN + r")\s*:\s*goal[.]", f.read(), re.M):
                goals.add(m.group(1))
    std = imported(antt)
    table = {n: spelled(n) for n in names if n not in goals and n not in std}
    skipped = sorted(n for n in names if n in std)
    back = collections.defaultdict(set)
    for n, s in table.items():
        back[s].add(n)
    for s, ns in sorted(back.items()):
        if len(ns) > 1:
            print("falls together:", s, sorted(ns))
    bound = re.compile(r"(?<![\w'·-])(" + "|".join(re.escape(n) for n in sorted(table, key=len, reverse=True)) + r")(?![\w'-]|′)")
    taken = collections.defaultdict(set)
    texts = {}
    for path in antt + rest:
        with open(path) as f:
            texts[path] = f.read()
        for t in set(re.findall(r"(?<![\w'·-])[^\W\d][\w'-]*", texts[path])):
            if t in back:
                taken[t].add(path)
    for t, paths in sorted(taken.items()):
        print("stands already:", t, sorted(back[t]), sorted(p for p in paths if p.endswith(".antt"))[:4])
    for path, text in texts.items():
        new = bound.sub(lambda m: table[m.group(1)], text)
        if path.endswith(".antt"):
            new = local_names(new, table)
        if new != text:
            with open(path, "w") as f:
                f.write(new)
    for n in skipped:
        print("std's name, kept:", n)
    print(len(table), "names respelled")


main()
