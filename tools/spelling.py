#!/usr/bin/env python3
"""Spells this repository's own definitions and lemmas as today's Rattle does: words in snake case.

usage: python3 tools/spelling.py [--list]     at the top, after the kit's port.py and its commit

A name that a file of specs/ or proofs/ declares, and of which a part between dashes begins in lower case and has a capital
(netIn, drop-putAt), gets that part in snake case (net_in, drop-put_at), wherever crates/ and the pages name it. Types, facts
and modules keep their capitals, and so do functions of src/, exported names and strings, since none of them is declared so.
Names that would fall together are refused. --list prints the pairs and changes nothing.
"""
import os
import re
import sys

DECLARED = re.compile(r"\s*(?:(?:pub|abbrev|unfoldable|data|record) )*([^\s:(){}]+)(?: \{[^}]*\})*(?: \([^)]*\))* :(?: |$)")
TOKEN = re.compile(r"[A-Za-z_ℕℤ⊎][\w'ℕℤ⊎≤<≡*+\-]*")


def files(tops, ends):
    for top in tops:
        if os.path.isfile(top):
            yield top
        for folder, dirs, names in os.walk(top):
            dirs[:] = sorted(d for d in dirs if d != "out")
            for name in sorted(names):
                if name.endswith(ends):
                    yield os.path.join(folder, name)


def snake(part):
    if not re.match(r"[a-z][a-z0-9]*[A-Z]", part):
        return part
    return re.sub(r"(?<=[a-z0-9])([A-Z])", lambda m: "_" + m[1].lower(), part)


def spelled(name):
    return "-".join("get_or" if part == "getD" else snake(part) for part in name.split("-"))


# Local lemmas that would have the name of a definition in their file get another; at_mark of method names nothing of tables.
AWAY = {"crates/whole/proofs/Reading.antt": ("leaves_in", "leaves-alike"), "crates/records/proofs/Paired.antt": ("sinks_in", "sinks-put")}
APART = {"at_mark"}
for path, (old, new) in AWAY.items():
    text = open(path, encoding="utf-8").read()
    if "--list" not in sys.argv:
        open(path, "w", encoding="utf-8").write(TOKEN.sub(lambda m: new if m[0] == old else m[0], text))
declared, tokens = set(), set()
for path in files(["crates"], (".antt", ".rt")):
    text = open(path, encoding="utf-8").read()
    tokens |= set(TOKEN.findall(text))
    if path.endswith(".antt"):
        for line in text.splitlines():
            m = DECLARED.match(line)
            if m:
                declared.add(m[1])
turned = {n: spelled(n) for n in sorted(declared) if spelled(n) != n}
met = [f"{n} and {m}" for n, m in turned.items() if m in declared - APART - {old for old, _ in AWAY.values()}]
met += [f"{n} and another" for n, m in turned.items() if list(turned.values()).count(m) > 1]
if met:
    sys.exit("spelling: names fall together: " + ", ".join(met))
if "--list" in sys.argv:
    for n, m in turned.items():
        print(n, m, "(also a word elsewhere)" if m in tokens else "")
    sys.exit()
count = 0
for path in files(["crates", "docs", "README.md"], (".antt", ".rt", ".edit", ".md")):
    old = open(path, encoding="utf-8").read()
    new = TOKEN.sub(lambda m: turned.get(m[0], m[0]), old)
    if new != old:
        open(path, "w", encoding="utf-8").write(new)
        count += 1
print(f"spelling: {len(turned)} names, {count} files")
