#!/usr/bin/env python3
"""Brings the names that README.md and docs/ (the landing notes aside) give in backquotes to the spelling that the crates have today.

usage: respell_pages.py [TOP]
"""
import glob
import os
import re
import sys

TOP = sys.argv[1] if len(sys.argv) > 1 else "."


def words():
    found = set()
    for f in glob.glob(os.path.join(TOP, "crates/*/*/**/*"), recursive=True):
        if f.endswith((".antt", ".rt")) and "/out/" not in f:
            found.update(re.findall(r"[^\W\d][\w'₀-₉]*(?:-[\w'₀-₉]+)*", open(f, encoding="utf-8").read()))
    return found


def main():
    known = words()

    def turn(m):
        name = m.group(0)
        camel = "".join(p[:1].upper() + p[1:] for p in name.split("-"))
        for new in ([camel] if name[0].isupper() else []) + [name.replace("-", "_")]:
            if name not in known and new in known:
                return new
        return name

    for f in [os.path.join(TOP, "README.md")] + sorted(glob.glob(os.path.join(TOP, "docs/*.md"))):
        if f.endswith("PORT.md"):
            continue
        old = open(f, encoding="utf-8").read()
        new = re.sub(r"`[^`\n]*`", lambda q: re.sub(r"[^\W\d][\w'₀-₉]*(?:-[\w'₀-₉]+)+", turn, q.group(0)), old)
        if new != old:
            open(f, "w", encoding="utf-8").write(new)
            print(f, sum(a != b for a, b in zip(old.split("\n"), new.split("\n"))), "lines")
        left = sorted({t for q in re.findall(r"`[^`\n]*`", new) for t in re.findall(r"[^\W\d][\w'₀-₉]*(?:-[\w'₀-₉]+)+", q)} - known)
        if left:
            print(f, "left:", " ".join(left))


main()
