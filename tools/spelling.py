#!/usr/bin/env python3
"""Brings the repository's own definitions and lemmas to snake case, as today's Rattle spells them.

usage: python3 tools/spelling.py            at the top of the repository, once, behind port.py
       python3 tools/spelling.py --look     prints what it would rename, and which names a variable bears already

It renames each name in camel case that a file of specs/ or proofs/ defines (functions, laws, fields, names bound
there), wherever it stands: in those files, in clauses, in must-fail edits, in README and docs/. Rust's names have no
such spelling, so nothing of the code is touched. Types keep their capitals. Names that would fall together stop it.
"""

import collections
import os
import re
import sys

LETTER = r"A-Za-z0-9_'\u2080-\u2089\-"
# A law of that file has a name that a definition which it cites gets.
BEFORE = {"crates/leaves/proofs/text/FieldLaws.antt": ("is_digit", "digit-is")}
TOKEN = re.compile(rf"(?<![{LETTER}])[a-z][A-Za-z0-9]*[A-Z][A-Za-z0-9]*(?![{LETTER}])")


def snake(name):
    name = re.sub(r"([a-z0-9])([A-Z])", lambda m: m.group(1) + "_" + m.group(2), name)
    return name.lower()


def files(root, endings, folders):
    for top in folders:
        path = os.path.join(root, top)
        if os.path.isfile(path):
            yield path
        for folder, dirs, names in os.walk(path):
            dirs[:] = sorted(d for d in dirs if d not in ("out", "target", ".git"))
            for n in sorted(names):
                if n.endswith(endings):
                    yield os.path.join(folder, n)


def read(path):
    with open(path, encoding="utf-8") as f:
        return f.read()


def code(text):
    """A file of antt without its comments."""
    return re.sub(r"(^|\s)--\s.*", r"\1", text)


def main(look):
    names = collections.Counter()
    for p in files(".", ".antt", ["crates"]):
        names.update(TOKEN.findall(code(read(p))))
    new = {n: snake(n) for n in names}
    together = collections.defaultdict(set)
    for n, s in new.items():
        together[s].add(n)
    clash = {s: sorted(n) for s, n in together.items() if len(n) > 1}
    if clash:
        print("these names fall together:", clash)
        return 1
    if look:
        for p in files(".", (".antt", ".rt"), ["crates"]):
            text = code(read(p)) if p.endswith(".antt") else read(p)
            for n, s in sorted(new.items()):
                if re.search(rf"(?<![{LETTER}.:]){s}(?![{LETTER}])", text) and re.search(rf"(?<![{LETTER}]){n}(?![{LETTER}])", text):
                    print(f"{p}: {n} -> {s}")
        print(len(new), "names")
        return 0
    changed = 0
    for p in files(".", (".antt", ".rt", ".edit", ".md"), ["crates", "docs", "examples", "README.md"]):
        if os.path.basename(p) == "PORT.md":
            continue
        text = to = read(p)
        old, other = BEFORE.get(os.path.relpath(p), ("", ""))
        if old:
            to = re.sub(rf"(?<![{LETTER}]){old}(?![{LETTER}])", other, to)
        to = TOKEN.sub(lambda m: new.get(m.group(), m.group()), to)
        if to != text:
            with open(p, "w", encoding="utf-8") as f:
                f.write(to)
            changed += 1
    print(f"{len(new)} names, {changed} files")
    return 0


if __name__ == "__main__":
    raise SystemExit(main(sys.argv[1:] == ["--look"]))
