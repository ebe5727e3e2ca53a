#!/usr/bin/env python3
"""Respells this repository's own definitions and lemmas as today's Rattle spells names: words in snake case, types and
modules in camel case.

usage: python3 tools/respell.py        at the top, once, behind the kit's port.py, which leaves these names as they were

A name is this repository's if a file of specs/, or a file right in proofs/, defines it. It is respelled wherever it stands
as a whole word: in specs/, proofs/, the clauses of src/, and in back quotes under docs/ and in README.md. Names of src/ have
no dash, so none of them is touched. It stops, with nothing written, if two names would fall together.
"""

import os
import re
import sys

WORD = r"[A-Za-zℕ_][\w'\-₀-₉]*"
DEFINED = re.compile(r"^\s*(?:(?:abbrev|unfoldable|record|data|pub) )*(" + WORD + r")\s*(?::(?!=)|[({])")
DECLARED = re.compile(r"^\s*(?:(?:abbrev|unfoldable|record|data|pub) )+(" + WORD + r")\b")
LIBRARY = re.compile(r"^(?:ghost )?use (?!Rattle\.(?!std\b|core\b))[\w.]+\.\{([^}]*)\}")


def texts():
    for folder, dirs, files in os.walk("crates"):
        dirs[:] = sorted(d for d in dirs if d != "out")
        for name in sorted(files):
            if name.endswith((".rt", ".antt")):
                yield os.path.join(folder, name)


def is_shared(path):
    """A file of specs/, or one right in proofs/; the answers in proofs/F/ have the names that the check gives them."""
    parts = path.split(os.sep)
    return parts[2] == "specs" or (parts[2] == "proofs" and len(parts) == 4)


def respelled(name):
    if name[0].isupper():
        return "".join(word[:1].upper() + word[1:] for word in name.split("-"))
    return name.replace("-", "_")


def own_names():
    names, plain = set(), set()
    for path in texts():
        if path.endswith(".antt"):
            with open(path, encoding="utf-8") as f:
                for line in f:
                    found = DEFINED.match(line) or DECLARED.match(line)
                    if found and "-" not in found.group(1):
                        plain.add(found.group(1))
                    elif found and is_shared(path):
                        names.add(found.group(1))
    return names, plain


def main():
    names, plain = own_names()
    new = {name: respelled(name) for name in names}
    together = sorted(n for n in names if new[n] in plain or list(new.values()).count(new[n]) > 1)
    if together:
        sys.exit("respell: these fall together with others: " + ", ".join(together))
    words = re.compile(r"(?<![\w'\-])(" + "|".join(sorted(map(re.escape, names), key=len, reverse=True)) + r")(?![\w'\-])")
    for path in texts():
        with open(path, encoding="utf-8") as f:
            old = f.read()
        taken = {n.strip() for line in old.splitlines() for m in [LIBRARY.match(line)] if m for n in m.group(1).split(",")}
        text = words.sub(lambda m: m.group(1) if m.group(1) in taken else new[m.group(1)], old)
        if text != old:
            with open(path, "w", encoding="utf-8") as f:
                f.write(text)
    pages = ["README.md"] + [os.path.join("docs", n) for n in sorted(os.listdir("docs")) if n.endswith(".md")]
    for path in pages:
        with open(path, encoding="utf-8") as f:
            old = f.read()
        text = re.sub(r"`[^`\n]*`", lambda q: words.sub(lambda m: new[m.group(1)], q.group(0)), old)
        if text != old:
            with open(path, "w", encoding="utf-8") as f:
                f.write(text)
    print(f"respell: {len(names)} names")


main()
