#!/usr/bin/env python3
"""Brings the repository's own definitions and lemmas to today's spelling: words in snake case.

usage: python3 tools/respell.py            in the repository, once, after port.py: every .antt file, and the clauses and ghost uses of every .rt file
       python3 tools/respell.py --pages FILE..   names in backquotes in pages of text

The table tools/respelled.tsv has each old name and its new one. A name that a file imports from the kit's own libraries is left there as it is.
Strings, and code of Rattle outside clauses, are not touched: functions of src/ keep their names.
"""

import os
import re
import subprocess
import sys

HERE = os.path.dirname(os.path.realpath(__file__))
KIT = {"lib", "native", "mathlib", "borrow", "Prim", "denote", "seplogic", "core"}
TOKEN = re.compile(r"\"(?:[^\"\\\n]|\\.)*\"|[^\s(){}\[\].,;:\"]+")
USE = re.compile(r"^(?:pub )?(?:ghost )?use ([\w.+-]+)\.\{([^}]*)\}", re.M)
CLAUSE = re.compile(r"^\s*(?:pub |pub\(crate\) )?(?:ghost |requires|ensures|invariant|decreases|//)")


def table():
    with open(os.path.join(HERE, "respelled.tsv"), encoding="utf-8") as f:
        return dict(line.rstrip("\n").split("\t") for line in f)


def kits(text, own):
    """The names that a file imports from the kit."""
    names = set()
    for m in USE.finditer(text):
        root = m.group(1).split(".")
        if root[0] in KIT or (root[0] == "Rattle" and root[1] not in own):
            names |= {x.strip().split(" as ")[-1].strip() for x in m.group(2).split(",")}
    return names


def turned(text, names):
    return TOKEN.sub(lambda m: names.get(m.group(0), m.group(0)), text)


def turned_clauses(text, names):
    """Only the lines of a .rt file that are ghost items, comments or clauses; a clause may go on over lines until its brace closes."""
    out, depth = [], 0
    for line in text.split("\n"):
        if depth == 0 and not CLAUSE.match(line):
            out.append(line)
            continue
        bare = "" if line.lstrip().startswith("//") else line
        depth = max(0, depth + bare.count("{") - bare.count("}"))
        out.append(turned(line, names))
    return "\n".join(out)


def main(argv):
    names = table()
    if argv[:1] == ["--pages"]:
        for path in argv[1:]:
            with open(path, encoding="utf-8") as f:
                text = f.read()
            new = re.sub(r"`[^`\n]+`", lambda m: turned(m.group(0), names), text)
            if new != text:
                with open(path, "w", encoding="utf-8") as f:
                    f.write(new)
        return 0
    root = subprocess.run(["git", "rev-parse", "--show-toplevel"], capture_output=True, text=True, check=True).stdout.strip()
    own = set(os.listdir(os.path.join(root, "crates")))
    for folder, dirs, files in os.walk(os.path.join(root, "crates")):
        dirs[:] = sorted(d for d in dirs if d != "out")
        for name in sorted(files):
            if not name.endswith((".rt", ".antt")):
                continue
            path = os.path.join(folder, name)
            with open(path, encoding="utf-8") as f:
                text = f.read()
            mine = {k: v for k, v in names.items() if k not in kits(text, own)}
            new = turned(text, mine) if name.endswith(".antt") else turned_clauses(text, mine)
            if new != text:
                with open(path, "w", encoding="utf-8") as f:
                    f.write(new)
    for crate in sorted(own):
        where = os.path.join(root, "crates", crate)
        if os.path.isdir(os.path.join(where, "src")):
            subprocess.run(["rt", "fmt"], cwd=where, stdout=subprocess.DEVNULL, stderr=subprocess.DEVNULL, check=False)
    return 0


if __name__ == "__main__":
    raise SystemExit(main(sys.argv[1:]))
