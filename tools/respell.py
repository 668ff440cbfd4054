#!/usr/bin/env python3
"""Brings the repository's own definitions and lemmas to the spelling of Rattle's library, once, behind port.py.

usage: python3 tools/respell.py LANDED     at the top; LANDED is the commit whose edits port.py left as they were

Names that a definition, lemma, field or constructor of specs/ or proofs/ declares turn to snake case; a dash stays only between two
names of definitions. A name that a file imports from a library stays in that file, and so do the labels that Rattle makes. The
must-fail edits follow: what port.py and this script made of each word of a file is made of the words of its edits too.
"""

import collections
import difflib
import glob
import os
import re
import subprocess
import sys

WORD = re.compile(r'[^\s(){}.;,@"«»]+')
DECLARED = re.compile(r"^(?:(?:unfoldable|abbrev|opaque|pub|instance|macro|private) +)*([^\s:(){}.,;@\"«»]+)(?= (?:: |:$|\{))")
INSIDE = re.compile(r"^ +(?:pub +)?([^\s:(){}.,;@\"«»]+)(?: [^\s:(){}]+)* :(?: |$)")
HEADED = re.compile(r"^(?:pub +)?(?:abbrev +)?(?:pub +)?(?:record|data) +([^\s:(){}]+)")
LIBRARY = re.compile(r"^\s*(?:pub )?(?:ghost )?use ((?:mathlib|borrow|logic|lib|Rattle\.(?:std|core|std_\w+|io|libc|bytes|check))\.[^\s{]*)(?:\{([^}]*)\})?", re.M)
MADE = re.compile(r"/proofs/(?:.*/)?(?:Proof|Answers|Invariants)\.antt$")
KEYWORDS = {"where", "with", "let", "in", "do", "elim", "record", "data", "use", "mod", "pub", "abbrev", "unfoldable", "unfolding"}
HEADS = {"tie", "goal", "c", "w", "l", "g", "args", "new", "initial", "fn"}


def texts():
    for p in sorted(glob.glob("crates/*/**/*", recursive=True)):
        if p.endswith((".rt", ".antt")) and "/out/" not in p:
            yield p


def read(p):
    with open(p, encoding="utf-8") as f:
        return f.read()


def gather():
    """The names that the texts declare, each with its kind, and the words of libraries."""
    kinds, library = {}, set()
    for p in texts():
        t = read(p)
        for m in LIBRARY.finditer(t):
            for it in (m.group(2) or "").split(","):
                library.add(it.split(" as ")[0].strip())
        if not p.endswith(".antt") or MADE.search(p):
            continue
        block = None
        for line in t.split("\n"):
            h = HEADED.match(line)
            if h:
                kinds.setdefault(h.group(1), "type")
                block = "record" if "record" in line.split(h.group(1))[0] else "data"
                continue
            if line and not line.startswith((" ", "--")):
                block = None
            m = DECLARED.match(line)
            if m and m.group(1) not in KEYWORDS:
                definition = re.match(r"(?:pub )?(?:unfoldable|abbrev)", line)
                if definition or kinds.get(m.group(1)) != "definition":
                    kinds[m.group(1)] = "definition" if definition else kinds.get(m.group(1), "lemma")
            m = block and INSIDE.match(line)
            if m and m.group(1) not in KEYWORDS:
                kinds[m.group(1)] = "field"
    return kinds, library


def snake(piece):
    if not re.match(r"[a-z]", piece):
        return piece
    return re.sub(r"(?<=[a-z0-9])([A-Z])", lambda m: "_" + m.group(1).lower(), piece)


def table(kinds, library):
    names = {n for n, k in kinds.items() if k in ("definition", "type")} | library
    rows = {}
    for name, kind in kinds.items():
        if not re.search(r"[A-Za-z]", name) or name in library:
            continue
        pieces = name.split("-")
        new = snake(pieces[0])
        for a, b in zip(pieces, pieces[1:]):
            # a dash joins two names; behind '_' a name's own words stand
            left, right = a.split("_")[-1] if a not in names else a, b
            joined = kind == "lemma" and (left in names) and (right in names)
            new += ("-" if joined or not a or not b else "_") + snake(b)
        if new != name:
            rows[name] = new
    taken = {rows.get(n, n) for n, k in kinds.items() if k == "definition"}
    for name, new in rows.items():
        if kinds[name] == "lemma" and new in taken:
            rows[name] = new + "_lem"
    return rows


def drop_meetings(rows, kinds):
    """Names that would meet another in some file stay as they are. A source's function may be called as a word of its clauses; a
    parameter may not."""
    met = set()
    for p in texts():
        t = read(p)
        words = set(WORD.findall(t))
        if p.endswith(".rt"):
            words = set(re.findall(r"\b(\w+): ", t)) | set(re.findall(r"\blet (?:mut )?(\w+)", t)) | {w for w in words if w in rows}
            words |= set(WORD.findall(" ".join(re.findall(r"ghost use [^;]*;", t))))
        came = {}
        for w in words:
            new = rows.get(w, w)
            if new in came and came[new] != w:
                met.update(x for x in (w, came[new]) if x in rows and kinds.get(x) != "field")
            came[new] = w
    return met


def turned(text, rows, stay, made):
    out, at, behind = [], 0, ""
    for m in WORD.finditer(text):
        gap = text[at : m.start()]
        out.append(gap)
        word = m.group()
        labelled = gap == "." and (behind == "Memᴰ" or made and behind in HEADS)
        out.append(word if labelled or word in stay else rows.get(word, word))
        behind, at = word, m.end()
    out.append(text[at:])
    return "".join(out)


def clauses(text, rows, stay):
    """A source's clauses, ghost lines and comments follow; its code does not."""
    out, depth, ghost = [], 0, False
    for line in text.split("\n"):
        start = re.match(r"\s*(?:pub )?(?:ghost\b|requires\b|ensures\b|also_|//)", line)
        if start or ghost or depth > 0:
            new = turned(line, rows, stay, False)
            if line.lstrip().startswith("//"):
                out.append(new)
                continue
            depth += line.count("{") - line.count("}")
            ghost = depth > 0
            out.append(new)
        else:
            out.append(line)
    return "\n".join(out)


def pairs(old, new):
    """Which word became which, by the words of a file before and after."""
    a, b = WORD.findall(old), WORD.findall(new)
    found = collections.Counter()
    for tag, i, j, k, l in difflib.SequenceMatcher(None, a, b, autojunk=False).get_opcodes():
        if tag == "replace" and j - i == l - k:
            found.update(zip(a[i:j], b[k:l]))
    return found


def edits(landed):
    """Each edit's texts in the words of today's file."""
    left, words = [], {}
    for p in sorted(glob.glob("crates/*/must-fail/*.edit")):
        crate = p.split("/")[1]
        lines = subprocess.run(["git", "show", f"{landed}:{p}"], capture_output=True, text=True, check=True).stdout.split("\n")
        file, out = None, []
        for line in lines:
            key, _, value = line.partition(": ")
            if key == "file":
                file = f"crates/{crate}/{value}"
            if key in ("old", "new") and file:
                if file not in words:
                    before = subprocess.run(["git", "show", f"{landed}:{file}"], capture_output=True, text=True, check=True).stdout
                    rows = {}
                    for (x, y), n in pairs(before, read(file)).most_common():
                        rows.setdefault(x, y)
                    words[file] = rows
                value = turned(value, words[file], (), False)
                if key == "old" and read(file).count(value) != 1:
                    left.append(f"{p}: {read(file).count(value)} times in {file}: {value}")
                line = f"{key}: {value}"
            out.append(line)
        with open(p, "w", encoding="utf-8") as f:
            f.write("\n".join(out))
    return left


def main():
    landed = sys.argv[1]
    kinds, library = gather()
    rows = table(kinds, library)
    met = drop_meetings(rows, kinds)
    for old in sorted(met):
        print(f"left: {old} would meet {rows.pop(old)}")
    for p in texts():
        t = read(p)
        stay = set()
        for m in LIBRARY.finditer(t):
            stay.update(it.split(" as ")[-1].strip() for it in (m.group(2) or "").split(","))
        new = turned(t, rows, stay, bool(MADE.search(p))) if p.endswith(".antt") else clauses(t, rows, stay)
        if new != t:
            with open(p, "w", encoding="utf-8") as f:
                f.write(new)
    print(f"{len(rows)} names turned, {len(met)} left")
    for crate in sorted(glob.glob("crates/*")):
        subprocess.run(["rt", "fmt"], cwd=crate, check=True, stdout=subprocess.DEVNULL, stderr=subprocess.DEVNULL)
    for line in edits(landed):
        print("edit: " + line)


main()
