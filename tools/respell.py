#!/usr/bin/env python3
"""Brings the repository's own definitions and lemmas to today's spelling: words in snake case, so `stateNumber` is `state_number`
and `mark-stays` is `mark_stays`. Run once, at the top, after the toolchain's port.py. Names of the library, of Rust, of C and in
strings stay, and so do the names in a Proof.antt that only that proof uses.

usage: tools/respell.py [--check]     --check changes nothing and lists names that would fall together
"""

import os
import re
import sys

IDENT = r"[A-Za-z0-9_'\u2080-\u2089\u1d43-\u1d63\u207f]"
TOKEN = re.compile(r"(?<![\w'.-])(\.?)([A-Za-z]" + IDENT + r"*(?:-" + IDENT + r"+)*)")
USE = re.compile(r"\s*(?:pub |ghost )*use ([^ {;]+?)(?:\.\{(.*)\})?(?: as (\S+?))?;?\s*$")
DECLARED = re.compile(
    r"^\s*(?:abbrev |unfoldable |pub |record |data |ruleset )*([A-Za-z]\S*)(?= )", re.M)
# Names whose plain respelling is taken already, or reads wrongly.
NAMED = {
    "getD-done": "get_or_done",
    "getD-open": "get_or_open",
    "Block-of": "block_of",
    "sizes-line": "SizesLineIs",
    "lengths-line": "LengthsLineIs",
    "command-line": "CommandLineIs",
}


def snake(name):
    """A lemma that would get its definition's name gets `_lem` behind it."""
    if name in NAMED:
        return NAMED[name]
    plain = respelled(name)
    return plain + "_lem" if "-" in name and plain in DEFINED else plain


DEFINED = set()


def respelled(name):
    name = name.replace("-", "_")
    if re.match(r"[a-z][a-z0-9]+\w*[A-Z]", name) or re.match(r"[a-z]{2,}[A-Z]", name):
        name = re.sub(r"([a-z0-9])([A-Z])", lambda m: m[1] + "_" + m[2].lower(), name)
    return name


def old_form(name):
    return "-" in name or re.match(r"[a-z][a-z0-9]+[A-Z]", name)


def files(kinds):
    for top in ("crates",):
        for folder, folders, names in os.walk(top):
            folders[:] = sorted(f for f in folders if f != "out")
            for n in sorted(names):
                if n.endswith(kinds):
                    yield os.path.join(folder, n)


def read(path):
    with open(path, encoding="utf-8") as f:
        return f.read()


def uncommented(text):
    return "\n".join(line.split("--")[0] if "--" in line else line for line in text.split("\n"))


def library_names(text, own):
    """The names that a file imports from elsewhere."""
    names = set()
    for line in text.split("\n"):
        m = USE.match(line)
        if not m:
            continue
        crate = re.match(r"Rattle\.(\w+)\.", m[1])
        if crate and crate[1] in own:
            # what the prover makes of a contract keeps its spelling
            continue
        for item in (m[2] or "").split(","):
            names.update(x.strip() for x in item.split(" as ")[:1])
        names.add(m[1].split(".")[-1])
    return names


def main():
    check = "--check" in sys.argv[1:]
    own = set(os.listdir("crates"))
    shared = set()
    for path in files((".antt",)):
        if path.endswith("/Proof.antt"):
            continue
        text = uncommented(read(path))
        library = library_names(text, own)
        for m in TOKEN.finditer(text):
            name = m[2]
            if old_form(name) and name not in library:
                shared.add(name)
    DEFINED.update(respelled(n) for n in shared if "-" not in n)
    clashes = 0
    changed = 0
    for path in files((".antt", ".rt", ".edit")):
        text = read(path)
        proof = path.endswith("/Proof.antt")
        library = library_names(text, own) if path.endswith(".antt") else set()
        here = set(re.findall(r"^(?:pub |abbrev )*([a-z][\w'-]*)(?= :)", text, re.M)) if proof else set()
        seen = {}

        def turn(m):
            nonlocal clashes
            dot, name = m[1], m[2]
            after = text[m.end():m.end() + 1]
            if name in shared and name not in library and name not in here and old_form(name):
                new = respelled(name) if dot and proof and name not in NAMED else snake(name)
            else:
                new = name
            if not dot and seen.setdefault(new, name) != name:
                clashes += 1
                print(f"{path}: {seen[new]} and {name} are both {new}")
            return dot + new

        def turn_line(line):
            if path.endswith(".antt"):
                code, dash, comment = line.partition("--")
                return TOKEN.sub(turn, code) + dash + re.sub(r"`[^`]*`", lambda q: TOKEN.sub(turn, q[0]), comment)
            if path.endswith(".rt"):
                code, slash, comment = line.partition("//")
                if '"' in code:
                    return line
                return TOKEN.sub(turn, code) + slash + re.sub(r"`[^`]*`", lambda q: TOKEN.sub(turn, q[0]), comment)
            return TOKEN.sub(turn, line) if re.match(r"(old|new):", line) else line

        new_text = []
        for line in text.split("\n"):
            new_text.append(turn_line(line))
        new = "\n".join(new_text)
        if new != text:
            changed += 1
            if not check:
                with open(path, "w", encoding="utf-8") as f:
                    f.write(new)
    for path in ["README.md", "CONTRIBUTING.md"] + ["docs/" + n for n in sorted(os.listdir("docs")) if n.endswith(".md")] + [
            "docs/changes/" + n for n in sorted(os.listdir("docs/changes"))]:
        text = read(path)

        def quoted(q):
            return re.sub(r"(?<![\w/.-])[A-Za-z][\w'-]*(?![\w/-])", lambda m: snake(m[0]) if m[0] in shared else m[0], q[0])

        new = re.sub(r"(?<!`)`[^`\n]+`(?!`)", quoted, text)
        if new != text:
            changed += 1
            if not check:
                with open(path, "w", encoding="utf-8") as f:
                    f.write(new)
    print(f"respell: {len(shared)} names, {changed} files changed, {clashes} names fall together")


main()
