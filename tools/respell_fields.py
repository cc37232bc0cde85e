#!/usr/bin/env python3
"""What tools/respell.py leaves: the fields of the repository's own records where they are taken from a value, as `h.page-some`, which
is `h.page_some`. Run once, at the top, after it. A name that the prover makes, as in `c.loop-i`, is no field of ours and stays."""

import os
import re

FIELD = re.compile(r"^\s*pub ([a-z][\w']*) :", re.M)
TAKEN = re.compile(r"(?<=[\w')\]\u00bb])\.([a-z][\w']*(?:-[\w']+)+)")


def files(kinds):
    for folder, folders, names in os.walk("crates"):
        folders[:] = sorted(f for f in folders if f != "out")
        for n in sorted(names):
            if n.endswith(kinds):
                yield os.path.join(folder, n)


def main():
    fields = set()
    for path in files((".antt",)):
        with open(path, encoding="utf-8") as f:
            fields.update(FIELD.findall(f.read()))
    changed = 0

    def turn(m):
        name = m[1].replace("-", "_")
        if name in fields:
            return "." + name
        if name + "_lem" in fields:
            return "." + name + "_lem"
        return m[0]

    for path in files((".antt", ".rt", ".edit")):
        with open(path, encoding="utf-8") as f:
            text = f.read()
        new = TAKEN.sub(turn, text)
        if new != text:
            changed += 1
            with open(path, "w", encoding="utf-8") as f:
                f.write(new)
    print(f"respell_fields: {changed} files changed")


main()
