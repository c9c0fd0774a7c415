#!/usr/bin/env python3
"""Brings the repository's own definitions and lemmas to the spelling of today's Rattle: words in snake case, types and statements in camel case.

usage: respell.py [TOP]    rewrites crates/ in place: .rt (clauses alone), .antt and .edit; comments only where a name stands in quotes
"""
import collections
import glob
import os
import re
import sys

TOP = sys.argv[1] if len(sys.argv) > 1 else "."
WORD = re.compile(r"(?<![\w'◌₀-₉-])[^\W\d][\w'₀-₉]*(?:-[\w'₀-₉]+)*(?![\w'◌-])")
DECLARED = re.compile(r"^\s*(?:(?:abbrev|unfoldable|pub|data|record|opaque|ruleset)\s+)*([^\s:(){}.,;=λ]+)(?:\s+[^:=]*)?\s:\s")
SHAPE = re.compile(r"^\s*(?:pub\s+)?(?:record|data|ruleset)\s+(?:pub\s+)?([^\s:(){}]+)")


def files(*patterns):
    return sorted(f for p in patterns for f in glob.glob(os.path.join(TOP, p), recursive=True) if "/out/" not in f)


def code_of(line):
    return line.split("--")[0] if "--" in line else line


def declared():
    """The names with a dash that the files of specs/ and proofs/ declare, but for those of a function's own proof."""
    found = collections.defaultdict(set)
    for f in files("crates/*/specs/**/*.antt", "crates/*/proofs/*.antt"):
        for line in open(f, encoding="utf-8"):
            line = code_of(line)
            if line.startswith("use ") or "=" in line.split(" : ")[0]:
                continue
            m = SHAPE.match(line) or DECLARED.match(line)
            if m and "-" in m.group(1).strip("◌-"):
                found[m.group(1)].add(f)
            if "/specs/" in f:
                for name in re.findall(r"\blet ([\w'-]+) (?:: [^=]*)?= ", line):
                    if "-" in name:
                        found[name].add(f)
    for f in files("crates/*/specs/**/*.antt", "crates/*/proofs/*.antt"):
        for uses in re.findall(r"^use [^;]*", open(f, encoding="utf-8").read(), re.M):
            for name in re.findall(r" as ([\w'-]+)", uses):
                if "-" in name:
                    found[name].add(f)
    return found


def borrowed():
    """The names with a dash that come from the library: they keep their spelling."""
    names = set()
    for f in files("crates/**/*.antt", "crates/**/*.rt"):
        text = open(f, encoding="utf-8").read()
        for m in re.finditer(r"use ([\w.◌'-]+)\.\{([^}]*)\}", text):
            own = re.match(r"Rattle\.(\w+)\.", m.group(1))
            if own and os.path.isdir(os.path.join(TOP, "crates", own.group(1))):
                continue
            names.update(n.strip().split(" as ")[0].strip() for n in m.group(2).split(",") if "-" in n)
    return names


def respelled(name):
    if "◌" in name:
        return "◌".join(p.replace("-", "_") for p in name.split("◌"))
    if name[0].isupper():
        return "".join(p[0].upper() + p[1:] for p in name.split("-"))
    return name.replace("-", "_")


def main():
    names = declared()
    library = borrowed()
    clash = sorted(n for n in names if n in library)
    for n in clash:
        print("left: also the library's:", n, sorted(names[n]))
    table = {n: respelled(n) for n in names if n not in clash}
    mixfix = {p: p.replace("-", "_") for n in table if "◌" in n for p in n.split("◌") if "-" in p}
    table.update(mixfix)
    back = collections.defaultdict(list)
    for old, new in table.items():
        back[new].append(old)
    for new, olds in back.items():
        if len(olds) > 1:
            print("fall together:", olds)
    mixed = re.compile("◌[^◌\\s,{}]*-[^◌\\s,{}]*◌")

    def turn(text):
        text = mixed.sub(lambda m: table.get(m.group(0), m.group(0)), text)
        return WORD.sub(lambda m: table.get(m.group(0), m.group(0)), text)

    def quoted(text):
        return re.sub(r"'[^'\n]*'|`[^`\n]*`", lambda m: turn(m.group(0)), text)

    turned = 0
    for f in files("crates/**/*.antt", "crates/**/*.rt", "crates/*/must-fail/*.edit"):
        old = open(f, encoding="utf-8").read()
        mark = "--" if f.endswith(".antt") else "//"
        out = []
        for line in old.split("\n"):
            at = line.find(mark) if mark == "//" else (m.start() if (m := re.search(r"(?:^|\s)--", line)) else -1)
            code, comment = (line, "") if at < 0 else (line[:at], line[at:])
            if not (f.endswith(".rt") and '"' in code):
                code = turn(code)
            out.append(code + quoted(comment))
        new = "\n".join(out)
        if new != old:
            open(f, "w", encoding="utf-8").write(new)
            turned += 1
    print(f"respelled {len(table)} names in {turned} files")


main()
