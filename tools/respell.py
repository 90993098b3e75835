#!/usr/bin/env python3
"""Brings this repository's own words to the spelling of today's Rattle: functions, lemmas and fields in snake case.

usage: python3 tools/respell.py        at the top, once, after the kit's port.py

A word is respelled where it begins with a small letter and goes on in camel case, as `takeBlock`: it becomes `take_block`.
In a name of parts joined by dashes each part is respelled by itself. Names of the kit, types, modules, strings and the functions of src/ keep their spelling.
A lemma or a field that has the new name of a definition already gets `_lem` at its end, as in the kit.
A definition may get the name of the function of src/ that computes it, as the kit's own words do; that is no clash.
It prints each word with its new spelling, and stops, changing nothing, where two words would fall together.
"""
import os
import re
import sys

TOP = os.path.join(os.path.dirname(os.path.abspath(__file__)), "..")
WORD = re.compile(r"[A-Za-z_◌ℕℤ][A-Za-z0-9_'◌ℕℤ₀-₉]*(?:-[A-Za-z0-9_'◌ℕℤ]+)*")
# words that are local to one proof and name no definition
LOCAL = {"kK", "mL", "nF", "topL"}
# parts of the repository's lemma names that are words of the kit, whose spelling the kit changed
KIT = {"getD": "get_or"}


def files(*endings):
    for folder, dirs, names in os.walk(TOP):
        dirs[:] = [d for d in dirs if d not in ("out", "target", ".git", "tools")]
        for name in sorted(names):
            if name.endswith(endings):
                yield os.path.join(folder, name)


def part(p):
    if p in KIT:
        return KIT[p]
    if not re.match(r"[a-z][a-z0-9']*[A-Z]", p) or re.search(r"_[A-Z]", p):
        return p
    return re.sub(r"([a-z0-9'])([A-Z])", lambda m: m.group(1) + "_" + m.group(2).lower(), p)


def respelled(word):
    if word in LOCAL:
        return word
    return "-".join(part(p) for p in word.split("-"))


def code(text, ending):
    return re.sub(r"--[^\n]*" if ending == ".antt" else r"//[^\n]*", "", text)


def main():
    words = set()
    functions = set()
    for path in files(".antt", ".rt"):
        ending = os.path.splitext(path)[1]
        text = code(open(path, encoding="utf-8").read(), ending)
        words |= set(WORD.findall(text))
        if ending == ".rt":
            functions |= set(re.findall(r"\bfn ([a-z][a-z0-9_]*)", text))
    new = {w: respelled(w) for w in words if respelled(w) != w}
    clash = []
    for n in sorted(set(new.values()) & words - functions):
        if n + "_lem" in words:
            clash.append((n, n + "_lem"))
        new[n] = n + "_lem"
    taken = {}
    for w, n in sorted(new.items()):
        if n in taken:
            clash.append((w, n))
        taken[n] = w
    if clash:
        for w, n in clash:
            print(f"{w} and {n} would fall together", file=sys.stderr)
        sys.exit(1)
    for path in files(".antt", ".rt", ".edit", ".md", "surface"):
        old = open(path, encoding="utf-8").read()
        text = WORD.sub(lambda m: new.get(m.group(), m.group()), old)
        if text != old:
            open(path, "w", encoding="utf-8").write(text)
    for w, n in sorted(new.items()):
        print(w, n)


main()
