#!/usr/bin/env python3
"""Brings the repository's own names in specs/ and proofs/ to snake case, as port.py leaves them to be done.

usage: python3 tools/respell.py        at the top, once, right after port.py

A name is the repository's own where a file of specs/ or proofs/ declares it. `lowByte` and `low-byte` become `low_byte`. Where
two would fall together the definition keeps the plain name, and the lemma or the field of facts gets `_lem`. Paths of functions
and what Rattle itself names stay. The names are turned in clauses, in must-fail edits and, between backticks, in pages too.
"""
import collections
import os
import re
import sys

NAME = r"[A-Za-z][A-Za-z0-9_'₀-₉]*(?:-[A-Za-z0-9_'₀-₉]+)*"
TOKEN = re.compile(r"(?<![\w'\-₀-₉])" + NAME + r"(?![\w'\-₀-₉])")
# names that would read as another thing of this repository
CHOSEN = {"inPlace": "in_place_part"}


def files(root, ends):
    for folder, dirs, names in os.walk(root):
        dirs[:] = sorted(d for d in dirs if d not in ("out", "target", ".git"))
        for n in sorted(names):
            if n.endswith(ends):
                yield os.path.join(folder, n)


def snake(n):
    n = n.replace("getD", "get_or")
    return re.sub(r"(?<=[a-z0-9])([A-Z])", lambda m: "_" + m.group(1).lower(), n).replace("-", "_")


def of_libraries(root):
    """Names that some file brings in from a library: they are spelled as the library has them."""
    own = set(os.listdir(os.path.join(root, "crates")))
    found = set()
    for p in files(os.path.join(root, "crates"), (".antt", ".rt")):
        with open(p, encoding="utf-8") as f:
            for m in re.finditer(r"^\s*(?:ghost )?use ([\w.]+)\.\{([^}]*)\}", f.read(), re.M):
                path = m.group(1).split(".")
                if path[0] != "Rattle" or path[1] not in own:
                    for n in m.group(2).split(","):
                        found.update(n.split())
    return found


def declared(root):
    found = set()
    for p in files(os.path.join(root, "crates"), ".antt"):
        with open(p, encoding="utf-8") as f:
            for line in f:
                m = re.match(r"^\s*(?:pub |abbrev |unfoldable )*(" + NAME + r")\s*:(?!:)", line)
                if m and not line.lstrip().startswith("--"):
                    found.add(m.group(1))
                for m in re.finditer(r"[(λ]\s*((?:" + NAME + r"\s+)*" + NAME + r")\s*[:.]\s", line):
                    found.update(n for n in m.group(1).split() if "-" in n or re.search(r"[a-z][A-Z]", n))
    return {n for n in found if n[0].islower()} - of_libraries(root)


def plan(root):
    names = declared(root)
    by = collections.defaultdict(list)
    for n in sorted(names):
        by[CHOSEN.get(n, snake(n))].append(n)
    turned = {}
    for new, olds in by.items():
        camel = [n for n in olds if re.search(r"[a-z0-9][A-Z]", n)]
        plain = [n for n in olds if n == new]
        first = (camel or plain or olds)[0]
        for n in olds:
            to = new if n == first or (n in camel) else new + "_lem"
            if n != to:
                turned[n] = to
    return turned


def in_code(text, turned, proofs):
    def one(m):
        n = m.group(0)
        if n not in turned:
            return n
        before = text[max(0, m.start() - 7) : m.start()]
        if before.endswith("proofs.") or "-" not in n and not re.search(r"[a-z0-9][A-Z]", n) and not proofs:
            return n
        return turned[n]

    return TOKEN.sub(one, text)


def main():
    root = "."
    turned = plan(root)
    for p in files(os.path.join(root, "crates"), (".antt", ".rt", ".edit")):
        with open(p, encoding="utf-8") as f:
            old = f.read()
        new = in_code(old, turned, p.endswith(".antt"))
        if new != old:
            with open(p, "w", encoding="utf-8") as f:
                f.write(new)
    for p in files(root, ".md"):
        with open(p, encoding="utf-8") as f:
            old = f.read()
        new = re.sub(r"`[^`\n]+`", lambda m: in_code(m.group(0), turned, False), old)
        if new != old:
            with open(p, "w", encoding="utf-8") as f:
                f.write(new)
    for p in (os.path.join(root, "tests", "definitions"),):
        with open(p, encoding="utf-8") as f:
            old = f.read()
        new = in_code(old, turned, False)
        if new != old:
            with open(p, "w", encoding="utf-8") as f:
                f.write(new)
    for n in sorted(turned):
        if "--list" in sys.argv:
            print(n, turned[n])
    print(f"{len(turned)} names turned")


if __name__ == "__main__":
    main()
