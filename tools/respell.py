#!/usr/bin/env python3
"""Brings the names of definitions and lemmas to one spelling: words in snake case, facts and types in camel case.

usage: tools/respell.py [--list]      at the top of the repository
  --list   prints what would be renamed, and which new names are taken already, and changes nothing

A name counts that a file of specs/ or a lemma file of proofs/ declares (signatures, record fields, constructors), or that a
Proof.antt declares for itself. Names of src/, of the library and of what the toolchain makes are left alone. Comments are
left alone but for names in backticks; in pages only names in backticks and in blocks of code are changed.
"""
import glob
import re
import sys

SIGNATURE = re.compile(r"(?:(?:pub|abbrev|unfoldable|record|data)\s+)*([^\s:(){}.,;]+)(?:\s+[({].*)?\s*:(?:\s|$)")
TOKEN = re.compile(r"[^\s(){}.,;\"`:\[\]]+")
COMMENT = re.compile(r"(?:(?<=\s)|^)(?:--|//)(?=\s)")


def new(name):
    if name == "whyNumber":
        return "why_number"
    if "-" not in name:
        return name
    parts = name.split("-")
    if name[0].isupper():
        return parts[0] + "".join(p[:1].upper() + p[1:] for p in parts[1:])
    return "_".join(parts)


def declared(text):
    names = set()
    data = False
    for line in text.splitlines():
        code = COMMENT.split(line)[0]
        m = SIGNATURE.match(code.strip())
        if m:
            names.add(m[1])
        if data and " : " in code:
            names.update(TOKEN.findall(code.split(" : ")[0]))
        data = code.lstrip().startswith(("data ", "pub data ")) or (data and (code.startswith(" ") or not code))
    return names


def made(text):
    """The names of a Proof.antt that stand for something that the toolchain makes."""
    return set(re.findall(r"(?m)^(?:pub |abbrev )*([^\s:]+) : (?:tie\.|goal\.|\{M : Type 1\} → statement)", text))


def rename(code, table):
    return TOKEN.sub(lambda m: table.get(m[0], m[0]), code)


def ticks(text, table):
    return re.sub(r"`[^`\n]+`", lambda m: rename(m[0], table), text)


def source(text, table):
    out = []
    for line in text.split("\n"):
        m = COMMENT.search(line)
        cut = m.start() if m else len(line)
        out.append(rename(line[:cut], table) + ticks(line[cut:], table))
    return "\n".join(out)


def edit(text, table):
    return "\n".join(ticks(l, table) if l.startswith("#") else rename(l, table) for l in text.split("\n"))


def page(text, table):
    parts = re.split(r"(?m)(^```.*?^```$)", text, flags=re.S)
    return "".join(rename(p, table) if i % 2 else ticks(p, table) for i, p in enumerate(parts))


def main():
    read = lambda f: open(f, encoding="utf-8").read()
    lemmas = sorted(glob.glob("crates/*/specs/*.antt") + glob.glob("crates/*/proofs/*.antt"))
    walks = sorted(glob.glob("crates/*/proofs/**/Proof.antt", recursive=True))
    sources = sorted(glob.glob("crates/*/src/**/*.rt", recursive=True))
    edits = sorted(glob.glob("crates/*/must-fail/*.edit"))
    pages = sorted(["README.md"] + glob.glob("docs/*.md"))
    names = set().union(*(declared(read(f)) for f in lemmas))
    table = {n: new(n) for n in names if new(n) != n}
    if "--list" in sys.argv:
        tokens = {}
        for f in lemmas + walks + sources:
            for t in TOKEN.findall(read(f)):
                tokens.setdefault(t, set()).add(f)
        for n in sorted(table):
            print(n, table[n], *(["taken in"] + sorted(tokens[table[n]])[:5] if table[n] in tokens else []))
        return
    for f in lemmas + walks + sources + edits + pages:
        text = read(f)
        own = table
        if f in walks:
            own = dict(table)
            own.update({n: new(n) for n in declared(text) - made(text) if new(n) != n})
        turn = edit if f in edits else page if f in pages else source
        turned = turn(text, own)
        if turned != text:
            open(f, "w", encoding="utf-8").write(turned)


main()
