#!/usr/bin/env python3
"""Brings the repository's own names in antt to the spelling of today's Rattle, after the kit's own script has run at the top, uncommitted:
definitions, fields and lemmas in snake case, types and modules in camel case. A dash stays where it joins the name of a definition to
another name; between plain words it is an underscore. The table of names, respell.tsv, lies beside this file. Must-fail edits and
refutations, which the kit's script leaves, are turned too: a wrong version of each whole file, by the kit's script, and then what differs.
    python3 tools/respell.py            the names, in specs, proofs and the clauses of src
    python3 tools/respell.py edits      the edits and refutations, against the files as HEAD has them"""
import collections
import glob
import os
import re
import shutil
import subprocess
import sys
import tempfile

KIT = os.path.join(os.path.dirname(subprocess.run(["rt", "doc"], capture_output=True, text=True).stdout.strip()), "port", "port.py")
HERE = os.path.dirname(os.path.abspath(__file__))
TOKEN = re.compile(r"[^\s(){}\[\].;,@\"|`«»]+")


def table():
    return dict(line.rstrip("\n").split("\t") for line in open(os.path.join(HERE, "respell.tsv")))


def files(*patterns):
    return sorted(f for p in patterns for f in glob.glob(p, recursive=True))


# Names that are English too: in a comment they are that.
ENGLISH = {"follow-ons"}
COMMENT = re.compile(r"(?:^|(?<=\s))(?:--|//|#).*", re.M)


def turn(text, names):
    """Comments have names too, but for those that are English."""
    outside = TOKEN.sub(lambda m: m.group(0) if m.group(0) in ENGLISH else names.get(m.group(0), m.group(0)), text)
    if not any(word in outside for word in ENGLISH):
        return outside
    parts, end = [], 0
    for m in COMMENT.finditer(outside):
        parts += [outside[end:m.start()], None, m.group(0)]
        end = m.end()
    parts.append(outside[end:])
    named = lambda p: TOKEN.sub(lambda m: names.get(m.group(0), m.group(0)) if m.group(0) in ENGLISH else m.group(0), p)
    out, i = [], 0
    while i < len(parts):
        if parts[i] is None:
            out.append(parts[i + 1])
            i += 2
        else:
            out.append(named(parts[i]))
            i += 1
    return "".join(out)


def turn_source(text, names):
    """Code and clauses. A word of the code has neither capitals in it nor dashes, so nothing of it is touched; strings stay."""
    names = {a: b for a, b in names.items() if re.search(r"[A-Z-]", a)}
    return "".join(p if p.startswith('"') else turn(p, names) for p in re.split(r'("(?:[^"\\\n]|\\.)*")', text))


def rewrite(path, new):
    if open(path).read() != new:
        open(path, "w").write(new)


def respell_all(root, names):
    for f in files(root + "/crates/*/specs/**/*.antt", root + "/crates/*/proofs/**/*.antt"):
        rewrite(f, turn(open(f).read(), names))
    for f in files(root + "/crates/*/src/**/*.rt"):
        rewrite(f, turn_source(open(f).read(), names))


# ---- edits

def pairs_of(edit):
    """The changes of an edit: the file, the old text, the new; where a file is of a crate, by a whole path."""
    crate = edit.split("/")[1]
    out, path = [], None
    for line in open(edit):
        line = line.rstrip("\n")
        if line.startswith("file: "):
            path = ("crates/" if "/must-fail/model/" in edit else "crates/%s/" % crate) + line[6:]
        elif line.startswith("old: "):
            old = line[5:]
        elif line.startswith("new: "):
            out.append((path, old, line[5:]))
    return out


def at_head(path):
    return subprocess.run(["git", "show", "HEAD:" + path], capture_output=True, text=True, check=True).stdout


def fits(pairs):
    text = {}
    for path, old, new in pairs:
        t = text.get(path) or open(path).read()
        if t.count(old) != 1:
            return False
        text[path] = t.replace(old, new)
    return True


def fragment(old, new, whole):
    """What differs of two lines, with as much beside it as makes the old text stand once in the file."""
    a = 0
    while a < min(len(old), len(new)) and old[a] == new[a]:
        a += 1
    z = 0
    while z < min(len(old), len(new)) - a and old[-1 - z] == new[-1 - z]:
        z += 1
    left, right = a, len(old) - z
    while left > 0 and not old[left - 1].isspace():
        left -= 1
    while right < len(old) and not old[right].isspace():
        right += 1
    while whole.count(old[left:right]) != 1 or right - left < 24:
        if left == 0 and right == len(old):
            break
        moved = False
        if left > 0:
            left -= 1
            while left > 0 and not old[left - 1].isspace():
                left -= 1
            moved = True
        if right < len(old) and (whole.count(old[left:right]) != 1 or right - left < 24):
            right += 1
            while right < len(old) and not old[right].isspace():
                right += 1
            moved = True
        if not moved:
            break
    tail = len(old) - right
    cut = len(old[left:right]) - len(old[left:right].lstrip())
    left += cut
    return old[left:right], new[left:len(new) - tail]


def turn_edits(names):
    edits = [e for e in files("crates/*/must-fail/**/*.edit") if not fits(pairs_of(e))]
    refutations = files("crates/*/must-fail/**/*.refuted")
    work = tempfile.mkdtemp()
    where = {}
    for i, edit in enumerate(edits):
        text = {}
        for path, old, new in pairs_of(edit):
            t = text.get(path)
            t = at_head(path) if t is None else t
            if t.count(old) != 1:
                print("not once in the old file:", edit, old)
            text[path] = t.replace(old, new)
        for path, t in text.items():
            stem, ending = os.path.splitext(path)
            copy = "%s/%s__%d%s" % (work, stem, i, ending)
            where[edit, path] = copy
            os.makedirs(os.path.dirname(copy), exist_ok=True)
            open(copy, "w").write(t)
    for i, f in enumerate(refutations):
        copy = "%s/crates/demands/proofs/Refuted__%d.antt" % (work, i)
        os.makedirs(os.path.dirname(copy), exist_ok=True)
        shutil.copy(f, copy)
    for crate in sorted(os.listdir(work + "/crates")):
        os.makedirs("%s/crates/%s/src" % (work, crate), exist_ok=True)
        open("%s/crates/%s/src/lib.rt" % (work, crate), "a").close()
    # The files that the copies stand beside: the kit's script looks at whole crates.
    for path in subprocess.run(["git", "ls-files", "crates/*/src", "crates/*/specs", "crates.txt"], capture_output=True, text=True).stdout.split():
        to = os.path.join(work, path)
        os.makedirs(os.path.dirname(to), exist_ok=True)
        open(to, "w").write(at_head(path))
    subprocess.run("git init -q . && git add -A && git -c user.name=x -c user.email=x@x commit -qm x", shell=True, cwd=work, check=True)
    subprocess.run([sys.executable, KIT], cwd=work, stdout=subprocess.DEVNULL)
    respell_all(work, names)
    for i, f in enumerate(refutations):
        shutil.copy("%s/crates/demands/proofs/Refuted__%d.antt" % (work, i), f)
    for edit in edits:
        lines = open(edit).read().split("\n")
        head = []
        for l in lines:
            if l.startswith(("file: ", "old: ")):
                break
            head.append(l)
        tail = [l for l in lines[len(head):] if not l.startswith(("file: ", "old: ", "new: "))]
        body, last = [], None
        done = collections.OrderedDict()
        for path, _, _ in pairs_of(edit):
            done[path] = None
        good = True
        for path in done:
            base, wrong = open(path).read().split("\n"), open(where[edit, path]).read().split("\n")
            if len(base) != len(wrong):
                import difflib
                good = False
                print("lines:", edit, path, [l for l in difflib.unified_diff(base, wrong, n=0, lineterm="")][:12])
                continue
            if len(done) > 1 or True:
                shown = path[len("crates/"):] if "/must-fail/model/" in edit else path.split("/", 2)[2]
                if shown != last:
                    body.append("file: " + shown)
                    last = shown
            whole = "\n".join(base)
            for n, (a, b) in enumerate(zip(base, wrong)):
                if a != b:
                    old, new = fragment(a, b, whole)
                    if whole.count(old) != 1:
                        print("not once:", edit, old)
                    whole = whole.replace(old, new, 1)
                    body += ["old: " + old, "new: " + new]
        if good:
            open(edit, "w").write("\n".join(head + body + tail))
    print("edits: %d, refutations: %d" % (len(edits), len(refutations)), work)


if __name__ == "__main__":
    if sys.argv[1:] == ["edits"]:
        turn_edits(table())
    else:
        respell_all(".", table())
