#!/usr/bin/env python3
"""Brings the repository's own definitions, lemmas, fields and local names to Rattle's spelling of today.

usage: python3 tools/respell.py [--list]     at the top of the repository, once, after the kit's port.py

Types and facts are written in upper camel case and everything else in snake case. Names that Rattle makes (of loops, branches, calls and goals), functions of
src/, strings and comments of .rt files keep their spelling. Where two names of one file would fall together, the
script says so and writes nothing. With --list it only prints what it would rename.
"""
import glob
import re
import sys

NAME = r"[^\s(){}.,;\[\]:λ\"]+"
TOKEN = re.compile(r"[^\s(){}.,;\[\]:λ\"]+")
HEAD = re.compile(rf"^(\s*)(?:(abbrev|unfoldable)\s+)?(?:(pub)\s+)?(?:(record|data)\s+)?({NAME})((?:\s+[({{].*?[)}}])*)\s*:(?=\s)(.*)$")
# made by Rattle
MADE = re.compile(r"^(loop|returns|if|then|else|invariant|decreases|in|overflow|index|offset|part|add|sub|mul|div|match|call|from|end)[-_]")


def files(pattern):
    return sorted(p for p in glob.glob("crates/*/" + pattern, recursive=True) if "/out/" not in p)


def is_type(kind, rest):
    return kind in ("record", "data") or re.search(r"(^|→\s*)Type\s+0\s*(where)?\s*$", rest.strip()) is not None


def camel(name):
    return "".join(p[:1].upper() + p[1:] for p in name.split("-"))


def collect():
    types, words, lemmas, locals_ = set(), set(), set(), set()
    for p in files("specs/**/*.antt") + files("proofs/**/*.antt"):
        made = p.endswith(("Answers.antt", "Invariants.antt"))
        for line in open(p, encoding="utf-8"):
            if line.lstrip().startswith("--"):
                continue
            m = HEAD.match(line)
            if m:
                name, kind, mark, rest = m.group(5), m.group(4), m.group(2), m.group(7)
                if made and ("goal." in rest or MADE.match(name)):
                    continue
                if is_type(kind, rest):
                    types.add(name)
                elif mark or "/specs/" in p:
                    words.add(name)
                else:
                    lemmas.add(name)
            # binders: (a b : T), {a : T}, λ (a b : T)., let a = / let a : T =, record fields a = .., where-locals
            for b in re.findall(rf"[({{]((?:{NAME}\s+)+):\s", line):
                locals_.update(b.split())
            for b in re.findall(rf"\blet\s+({NAME})\s*[:=]", line):
                locals_.add(b)
            for b in re.findall(rf"λ\s+((?:{NAME}\s+)*{NAME})\.", line):
                locals_.update(b.split())
    return types, words, lemmas, locals_


def spelled(types, words, lemmas, locals_):
    new = {}
    for n in types:
        if "-" in n or n[:1].islower():
            new[n] = camel(n)
    for n in words | lemmas | locals_:
        if "-" in n and not n.startswith("-") and n not in types:
            new[n] = n.replace("-", "_")
    for n in list(new):
        if MADE.match(n) and n not in types | words | lemmas:
            del new[n]
    return {k: v for k, v in new.items() if k != v}


def turn(path, text, new, fields):
    rust = path.endswith(".rt")
    made = path.endswith(("Answers.antt", "Invariants.antt"))
    out = []
    for line in text.split("\n"):
        if rust and line.lstrip().startswith("//"):
            out.append(line)
            continue
        if made and re.match(r"use .*\.(Goals|Given)( as goal|\.\{.*\})$", line):
            out.append(line)
            continue
        res, last = [], 0
        spans = [(m.start(), m.end()) for m in re.finditer(r'"[^"]*"', line)]
        for m in TOKEN.finditer(line):
            if any(a <= m.start() < b for a, b in spans):
                continue
            t = m.group(0)
            if t not in new:
                continue
            before = line[:m.start()]
            if made:
                if re.search(r"\bgoal\.$", before) or re.search(r"(?<![\w'])[cl]\.$", before):
                    continue
                if before.endswith(".") and t not in fields:
                    continue
                if before.strip() in ("pub", "abbrev pub", "") and MADE.match(t):
                    continue
            res.append(line[last:m.start()] + new[t])
            last = m.end()
        out.append("".join(res) + line[last:])
    return "\n".join(out)


def record_fields():
    found = set()
    for p in files("specs/**/*.antt") + files("proofs/**/*.antt"):
        inside = False
        for line in open(p, encoding="utf-8"):
            if re.match(r"\s*(pub )?record\b.*where\s*$", line):
                inside = True
            elif inside:
                m = re.match(rf"\s+(?:pub )?({NAME})\s*:", line)
                if m:
                    found.add(m.group(1))
                elif line.strip() and not line.lstrip().startswith("--"):
                    inside = False
    return found


def main():
    types, words, lemmas, locals_ = collect()
    new = spelled(types, words, lemmas, locals_)
    fields = record_fields()
    for f in fields:
        if "-" in f and f not in types:
            new[f] = f.replace("-", "_")
    clash = False
    turned = {}
    for p in files("specs/**/*.antt") + files("proofs/**/*.antt") + files("src/**/*.rt"):
        text = open(p, encoding="utf-8").read()
        have = set()
        for line in text.split("\n"):
            if not p.endswith(".rt") and not line.lstrip().startswith("--"):
                line = re.sub(r"^(use|ghost use) [^{]*", "", line)
                have.update(m.group(0) for m in TOKEN.finditer(line) if not line[:m.start()].endswith("."))
        for n in sorted(have & set(new)):
            if new[n] in have or any(new[m] == new[n] and m != n for m in have & set(new)):
                print(f"fall together in {p}: {n} and {new[n]}")
                clash = True
        turned[p] = turn(p, text, new, fields)
    if "--list" in sys.argv:
        for k in sorted(new):
            print(k, new[k])
        return
    if clash and "--force" not in sys.argv:
        sys.exit("nothing was written")
    for p, t in turned.items():
        if t != open(p, encoding="utf-8").read():
            open(p, "w", encoding="utf-8").write(t)


main()
