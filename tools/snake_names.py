#!/usr/bin/env python3
"""Turns the dashes in this repository's own names of definitions, lemmas, fields and constructors to underscores.

usage: python3 tools/snake_names.py        at the top, once, after the toolchain's own script has turned the rest

It reads which names the files of specs/ and proofs/ declare, and writes them anew in specs/, proofs/, the clauses of
src/ and the must-fail edits. Names of the library, and names that the check makes of the code (of goals, of steps and of
the facts at them), keep their dashes.
"""

import os
import re

DECLARED = re.compile(r"^(\s*)(?:abbrev |unfoldable |pub |data |record |\| )*([A-Za-z][A-Za-z0-9_']*(?:-[A-Za-z0-9_']+)+)\s*(?::|\()")
MADE = re.compile(r":\s*(?:goal|needs?)\.")
NAME = re.compile(r"(?<![A-Za-z0-9_'\u00b7+-])([A-Za-z][A-Za-z0-9_']*(?:-[A-Za-z0-9_'*+]+)+)")
# names of variables, and of imports
EXTRA = {"under-way", "when-open", "zero-most", "mono-v", "mono-w", "cause-of", "layer-of", "passed-onward"}
SPECIAL = {"Passed-start": "passed_start", "getD-replicated": "get_or_replicated"}


def files(*ends):
    for folder, dirs, names in os.walk("crates"):
        dirs[:] = sorted(d for d in dirs if d != "out")
        for name in sorted(names):
            if name.endswith(ends):
                path = os.path.join(folder, name)
                with open(path, encoding="utf-8") as f:
                    yield path, f.read()


def declared():
    own, fields = set(EXTRA), set()
    for path, text in files(".antt"):
        for line in text.split("\n"):
            m = DECLARED.match(line)
            if m and not MADE.search(line):
                own.add(m.group(2))
                if m.group(1):
                    fields.add(m.group(2))
    return own, fields


def main():
    own, fields = declared()
    new = {n: n.replace("-", "_") for n in own} | SPECIAL
    taken = {}
    for n, s in sorted(new.items()):
        if s in taken:
            raise SystemExit(f"{n} and {taken[s]} fall together")
        taken[s] = n
    for path, text in files(".antt", ".rt", ".edit"):
        answers = path.endswith("Answers.antt") or path.endswith("Invariants.antt")

        def turn(m):
            n, before = m.group(1), text[: m.start()]
            if re.search(r"(?:-- |//)[^\n]*\Z", before):
                return n
            # behind a dot a name is a field: the check's own, or one that a record of ours declares
            if before.endswith(".") and not re.search(r"Rattle\.[A-Za-z_.]*\Z", before):
                if n not in fields or (answers and re.search(r"(?<![\w.])[clw]\.\Z", before)):
                    return n
            return new.get(n, n)

        out = NAME.sub(turn, text)
        if out != text:
            with open(path, "w", encoding="utf-8") as f:
                f.write(out)
    print(len(new), "names")


if __name__ == "__main__":
    main()
