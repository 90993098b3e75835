#!/usr/bin/env python3
"""Counts the places of docs/DESIGN-PASS.md in the src/ of all crates: python3 tools/forms.py [--list] [FOLDER]."""
import collections
import glob
import os
import re
import sys

LIST = "--list" in sys.argv
FOLDER = next((a for a in sys.argv[1:] if not a.startswith("--")), ".")
FILES = sorted(glob.glob(os.path.join(FOLDER, "crates/*/src/*.rt")))
TEXT = {f: open(f).read() for f in FILES}


def short(f):
    return os.path.relpath(f, os.path.join(FOLDER, "crates")).replace("/src/", "/")


def code(text):
    """The text without comments and ghost imports."""
    return "\n".join("" if re.match(r"\s*//|ghost use", l) else l for l in text.split("\n"))


def functions():
    """Each function: file, name, line, signature with clauses, body."""
    for f in FILES:
        lines = code(TEXT[f]).split("\n")
        i = 0
        while i < len(lines):
            m = re.match(r'(\s*)(?:pub(?:\([a-z]+\))? )?(?:final )?(?:extern "C" )?fn (\w+)', lines[i])
            if not m:
                i += 1
                continue
            indent = m.group(1)
            start = i
            while i < len(lines) and lines[i] != indent + "{" and not lines[i].rstrip().endswith("{") and not lines[i].rstrip().endswith(";"):
                i += 1
            head = "\n".join(lines[start : i + 1])
            first = i + 1
            while i < len(lines) and lines[i] != indent + "}":
                i += 1
            yield f, m.group(2), start + 1, head, "\n".join(lines[first:i])
            i += 1


def grep(pattern):
    hits = []
    for f in FILES:
        for n, l in enumerate(code(TEXT[f]).split("\n"), 1):
            if re.search(pattern, l):
                hits.append(f"{short(f)}:{n}: {l.strip()}")
    return hits


def show(what, hits):
    print(f"{len(hits):5}  {what}")
    if LIST:
        for h in hits:
            print("         " + h)


def twins():
    """Functions whose bodies are the same up to names, numbers and types."""
    groups = collections.defaultdict(list)
    for f, name, line, head, body in functions():
        tokens = re.findall(r"[A-Za-z_]\w*|\d+|\S", body)
        if len(tokens) < 25:
            continue
        seen = {}
        keep = {"let", "mut", "if", "else", "while", "for", "in", "return", "match", "as", "true", "false", "loop", "break", "continue"}
        shape = []
        for t in tokens:
            if t in keep or not re.match(r"\w", t):
                shape.append(t)
            elif t[0].isdigit():
                shape.append("0")
            else:
                shape.append("x" + str(seen.setdefault(t, len(seen))))
        groups[" ".join(shape)].append(f"{short(f)}:{line} {name}")
    return [", ".join(g) for g in groups.values() if len(g) > 1]


def clauses():
    """Facts that a clause of three or more functions states, with old, new and now taken as one."""
    facts = collections.defaultdict(set)
    for f, name, line, head, body in functions():
        for c in re.findall(r"(?:requires|ensures)(?: \w+)? \{ (.*) \}", head):
            c = re.sub(r"\.(old|new|now)\b", "", c)
            facts[c].add(f"{short(f)} {name}")
    return [f"{len(w)} functions: {c}" for c, w in sorted(facts.items(), key=lambda x: -len(x[1])) if len(w) >= 3]


def buffers():
    return [f"{short(f)}:{n} {name}" for f, name, n, head, body in functions() if all(re.search(rf"\b{p}: &", head) for p in ("control", "frames", "pages", "ranges"))]


show("1 enums", grep(r"^(pub )?enum "))
show("1 a flag in a struct", grep(r"^    (pub )?\w+: bool,"))
show("1 a number of a refusal, asked or made", grep(r"number [!=]= 0|judged != 0|number: \d|answer\(\d+\)|refusal\(\d+\)"))
show("1 a number for a kind", grep(r"\bkind: u32|match kind|kind [<!=]"))
show("2 groups of functions that are the same but for names, numbers and types", twins())
show("3 while and loop", grep(r"^\s*(while|(let \w+ = )?('\w+: )?loop)\b"))
show("3 for over indices of a slice", [h for h in grep(r"^\s*for \w+ in \S.*\.\.")])
show("4 equality, least, copies, conversions and tests of all fields by hand", [f"{short(f)}:{n} {name}" for f, name, n, h, b in functions() if re.match(r"(alike|least|copy|shift|zero_page|zero_range|one_if\w*|outcome|found|none|answer|refusal|index|leaf_word|more|number|byte_at|word|mark_at)$", name)])
show("4 ladders of `return false`", [f"{short(f)}:{n} {name}" for f, name, n, h, b in functions() if len(re.findall(r"return false;", b)) >= 2 and not re.search(r"\bwhile\b|\bfor\b", b)])
show("5 facts that three or more functions state", clauses())
show("5 functions that take control, frames, pages and ranges", buffers())
show("8 answers", [l for f in glob.glob(os.path.join(FOLDER, "crates/*/proofs/**/Answers.antt"), recursive=True) for l in open(f) if l.startswith("pub ")])
