#!/usr/bin/env python3
"""Brings the project's own names to today's spelling, after the kit's port.py.

usage: python3 tools/spell.py [FOLDER]      FOLDER: the repository, by default the one that this file is in

Words are in snake case: a definition or lemma `childOf` becomes `child_of`, a field `few-classes` of a record
`few_classes`. Types and modules keep their camel case, and a dash stays where it joins two names of a lemma.
Strings, functions of src/ (which are in snake case), exported names, inputs and outputs are as they were.
Every .rt and .antt file below crates/ is read, and the must-fail edits. Running it twice changes nothing more.
"""
import os
import re
import subprocess
import sys

ROOT = sys.argv[1] if len(sys.argv) > 1 else os.path.join(os.path.dirname(os.path.abspath(__file__)), "..")
CRATES = os.path.join(ROOT, "crates")
IDENT = re.compile(r'"(?:[^"\\\n]|\\.)*"|[^\s(){}\[\].,;:"|⟦⟧`/]+')
SEGMENT = re.compile(r"[A-Za-z0-9_'\u2080-\u2089]+")
# Fields that share their name with a lemma of the kit's library, which is not ours to rename.
KEPT = {"one-add"}
# A lemma whose name would fall together with the definition that it speaks of.
APART = {("crates/file_rows/", "cell_in"): "cell_in-read"}


def snake(segment):
    if not re.match(r"[a-z]", segment) or not re.search(r"[a-z0-9\u2080-\u2089'][A-Z]", segment):
        return segment  # `uint_Tells` is a name of the kit's
    s = re.sub(r"([a-z0-9\u2080-\u2089'])([A-Z])", r"\1_\2", segment)
    return re.sub(r"([A-Z])([A-Z][a-z])", r"\1_\2", s).lower()


def files():
    for folder, dirs, names in os.walk(CRATES):
        dirs[:] = sorted(d for d in dirs if d != "out")
        for n in sorted(names):
            if n.endswith((".rt", ".antt", ".edit")):
                yield os.path.join(folder, n)


def labels():
    """The fields, with a dash in their name, of the records that specs/ and proofs/ declare."""
    found = set()
    for p in files():
        if not p.endswith(".antt") or p.endswith("/Proof.antt"):
            continue
        lines = open(p, encoding="utf-8").read().split("\n")
        inside = False
        for line in lines:
            if re.match(r"(pub )?record\b", line):
                inside = True
            elif line and not line[0].isspace() and not line.startswith("--"):
                inside = False
            if inside:
                m = re.match(r"[ \t]+(?:pub )?([a-z][^\s:(){}]*-[^\s:(){}]*)(?= :| *$)", line)
                if m:
                    found.add(m.group(1))
    return found - KEPT


def main():
    dashed = labels()
    for p in files():
        old = open(p, encoding="utf-8").read()
        where = os.path.relpath(p, ROOT)

        def word(m):
            w = m.group()
            if w[0] == '"':
                return w
            for (folder, name), apart in APART.items():
                if w == name and where.startswith(folder) and "cellIn" in first:
                    return apart
            if w in dashed:
                w = w.replace("-", "_")
            return SEGMENT.sub(lambda s: snake(s.group()), w)

        first = old
        new = IDENT.sub(word, old)
        if new != old:
            with open(p, "w", encoding="utf-8") as f:
                f.write(new)
            print(where)
    for c in sorted(os.listdir(CRATES)):
        if os.path.isdir(os.path.join(CRATES, c, "src")):
            subprocess.run(["rt", "fmt"], cwd=os.path.join(CRATES, c), stdout=subprocess.DEVNULL)


if __name__ == "__main__":
    main()
