#!/usr/bin/env python3
"""Gives this repository's `if .. then .. else ..` of definitions its own name, `when .. then .. else ..`.

usage: python3 tools/rename_if.py       at the top of the repository, once, behind tools/spelling.py

The library has an operator `if◌then◌else◌` now, which binds otherwise (`infix 5`, and not `infixr 10`), and a file may
not bring in another under that name. Only the name changes: in specs/, proofs/, clauses of src/ and must-fail edits of
specs/. Code, comments and names such as `if-not-found` stay.
"""

import os
import re

NAME = "if◌then◌else◌"
NEW = "when◌then◌else◌"
WORD = re.compile(r"(?<![\w'.\-«])if(?![\w'\-◌»])")


def antt(text):
    lines = []
    for line in text.split("\n"):
        comment = re.search(r"(^|\s)--(\s|$)", line)
        cut = comment.start() if comment else len(line)
        lines.append(WORD.sub("when", line[:cut].replace(NAME, NEW)) + line[cut:])
    return "\n".join(lines)


def clauses(text):
    """A file of code with the clauses (and imports of definitions) turned."""
    out, at = [], 0
    for found in re.finditer(r"(?m)^[ \t]+(?:requires|ensures)\*?(?:[ \t]+\w+)?[ \t]*\{", text):
        if found.start() < at:
            continue
        depth, end = 1, found.end()
        while depth:
            depth += {"{": 1, "}": -1}.get(text[end], 0)
            end += 1
        out += [text[at : found.end()], WORD.sub("when", text[found.end() : end])]
        at = end
    return ("".join(out) + text[at:]).replace(NAME, NEW)


def edit(text):
    lines, turned = [], False
    for line in text.split("\n"):
        if line.startswith("file: "):
            turned = line.endswith(".antt")
        lines.append(WORD.sub("when", line) if turned and line.startswith(("old: ", "new: ")) else line)
    return "\n".join(lines)


def main():
    changed = 0
    for folder, dirs, names in os.walk("crates"):
        dirs[:] = sorted(d for d in dirs if d != "out")
        for name in sorted(names):
            turn = {".antt": antt, ".rt": clauses, ".edit": edit}.get(os.path.splitext(name)[1])
            if not turn:
                continue
            path = os.path.join(folder, name)
            with open(path, encoding="utf-8") as f:
                text = f.read()
            to = turn(text)
            if to != text:
                with open(path, "w", encoding="utf-8") as f:
                    f.write(to)
                changed += 1
    print(changed, "files")


main()
