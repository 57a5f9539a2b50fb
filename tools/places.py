#!/usr/bin/env python3
"""places.py [POINT]: the places of each point of docs/DESIGN-PASS.md in crates/*/src, as that page counts them; with a point, each place."""
import collections
import difflib
import glob
import os
import re
import sys

os.chdir(os.path.join(os.path.dirname(os.path.abspath(__file__)), ".."))
sources = {path: open(path, encoding="utf-8").read() for path in sorted(glob.glob("crates/*/src/**/*.rt", recursive=True)) if "/built_in" not in path}
found = collections.defaultdict(list)


def place(point, path, text, start, what):
    found[point].append(f"{path}:{text.count(chr(10), 0, start) + 1}: {what}")


def functions(text):
    return re.finditer(r"^( *)(?:#\[[^\n]*\]\n *)*(?:pub )?(?:const )?(?:extern \"C\" )?fn (\w+).*?^\1\}\n", text, re.S | re.M)


def plain(body):
    body = re.sub(r"//.*", "", body)
    body = re.sub(r"(requires|ensures).*?\}\n", "", body, flags=re.S)
    return re.sub(r"\bu(8|32|64|size)\b", "U", body).split()


bodies = []
clauses = collections.Counter()
for path, text in sources.items():
    crate = path.split("/")[1]
    for m in re.finditer(r"^\s*(?:pub )?enum (\w+)", text, re.M):
        place("1a enums", path, text, m.start(1), m.group(1))
    for s in re.finditer(r"^(?:pub )?struct \w+[^;{]*\{.*?^\}", text, re.S | re.M):
        for m in re.finditer(r"\w+: bool\b", s.group(0)):
            place("1b flags in a struct", path, text, s.start() + m.start(), m.group(0))
    codes = r"\b(?:refuse|unfit)\(\d+|number: \d+|Refused\(\d+|\breturn [5-9];|^ +[5-8]$|\bkind [!=]= \d|xs\[p \+ 1\] != \d|before [!<>=]=? \d|\b(?:fault|k|n|at\.row|c|ends|totals|x) [!=]= 0\b|number == \d+"
    for m in re.finditer(codes, text, re.M):
        place("1c numbers for kinds, refusals or none", path, text, m.start(), m.group(0).strip())
    for m in re.finditer(r"^ *(?:'\w+: )?(while|loop)\b[^\n]*", text, re.M):
        place("3 loops that are no for", path, text, m.start(1), m.group(0).strip())
    for m in functions(text):
        bodies.append((crate, path, m.group(2), plain(m.group(0)), text.count("\n", 0, m.start()) + 1))
        if re.search(r"\{\n +(?:\(?[\w.% /-]+\)? as \w+)(?: [+-] \d+)?\n *\}\n$", m.group(0)):
            place("4 conversions in a function of their own", path, text, m.start(2), m.group(2))
        head = m.group(0).split("\n{\n")[0]
        if re.search(r": &(?:'\w+ )?mut \[[^\]]*\]", head) and re.search(r"\b(?:at|from|w|n|p|q|many|m|i|r|used|end|size): usize\b", head):
            place("6a a lent list and a place or a length beside it", path, text, m.start(2), m.group(2))
        for b in re.finditer(r"\b(\w+): bool\b", head.split("->")[0]):
            place("7 flags as parameters", path, text, m.start(2), f"{m.group(2)}({b.group(1)})")
    for m in re.finditer(r"requires(?: \w+)? \{(.*?)\}\n", text, re.S):
        for part in " ".join(m.group(1).split()).split(" × "):
            part = re.sub(r"\b(xs|rows)\.now (t|table)\.now\b", "rows index", part.strip().strip("()"))
            clauses[part] += 1
for part, times in sorted(clauses.items(), key=lambda x: -x[1]):
    if times >= 3:
        found["5 facts in three or more requires"].append(f"{times} times: {part}")
for i, (crate, path, name, a, line) in enumerate(bodies):
    for other, far, twin, b, there in bodies[i + 1 :]:
        if min(len(a), len(b)) >= 12 and abs(len(a) - len(b)) <= 0.4 * max(len(a), len(b)):
            if difflib.SequenceMatcher(None, a, b).ratio() > 0.8:
                found["2 pairs of functions alike in four words of five"].append(f"{path}:{line}: {name}, {far}:{there}: {twin}")
for path in sorted(glob.glob("crates/*/proofs/**/Answers.antt", recursive=True)):
    text = open(path, encoding="utf-8").read()
    for m in re.finditer(r"^(?:abbrev )?pub ([\w.+-]+) :", text, re.M):
        place("8 answers", path, text, m.start(1), m.group(1))
want = sys.argv[1] if len(sys.argv) > 1 else None
for point in sorted(found):
    if want is None:
        print(f"{len(found[point]):5} {point}")
    elif point.startswith(want):
        print("\n".join([point] + found[point]))
