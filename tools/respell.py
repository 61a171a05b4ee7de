#!/usr/bin/env python3
"""Brings the names of definitions and lemmas in specs/ and proofs/ to the toolchain's spelling.

usage: tools/respell.py [--list]     at the top of the repository, once, after the toolchain's port.py

Words are in snake case; a dash stays where it joins the names of two definitions; a fact is spelled as a type.
Functions of src/, strings, inputs and outputs keep their names. It stops if two names would fall together.
"""
import os
import re
import sys

DECLARED = re.compile(r"^\s*(?:(?:abbrev|unfoldable|pub)\s+)*(?:(?:record|data)\s+)?([^\s:(){}=,;.λ→]+)\s+:\s+(.*)$")
STRING = re.compile(r'"(?:[^"\\]|\\.)*"')
# Where two names would fall together: a lemma on a definition of its name gets `_lem`.
SETTLED = {n: n.replace("-", "_") + "_lem" for n in "accepted-sums ask-sums can-put held-sums no-bin open-token settle-sums settled-from with-bins shown_by".split()}
SETTLED["bothOut"] = "both_outside"
# Facts, and the files in which they have the name.
FACTS = {"holds": ("Holds", ("crates/model/specs/Examples.antt", "crates/model/proofs/Examples.antt"))}
# The text of an edit of a definition, which port.py leaves.
IN_EDITS = [(r"\((\w+) (\.\w+)\)", r"\1\2"), (r"(\w) (\.\w)", r"\1\2"), (r"\bltZ\b", "int_lt"), (r"\bleZ\b", "int_le"), (r"\beqb (\S+) 0", r"\1 == 0"), (r"\banyOf\b", "any_of")]
# Words of the library that a lemma's name may join to another.
LIBRARY = {"length", "get_or", "take", "drop", "set", "append", "map", "replicate", "cond", "codes", "decimal"}


def files(root, endings):
    for folder, dirs, names in os.walk(os.path.join(root, "crates")):
        dirs[:] = sorted(d for d in dirs if d not in ("out", ".git"))
        for n in sorted(names):
            if n.endswith(endings):
                yield os.path.join(folder, n)


def read(path):
    with open(path, encoding="utf-8") as f:
        return f.read()


def snake(name):
    name = re.sub(r"([a-z0-9])([A-Z]+)(?=[A-Z][a-z])", lambda m: m.group(1) + "_" + m.group(2).lower() + "_", name)
    return re.sub(r"([a-z0-9])([A-Z])", lambda m: m.group(1) + "_" + m.group(2).lower(), name)


def declared(root):
    """Own names, each with whether it is a definition (and no lemma), and the names that the check itself makes."""
    own, made = {}, set()
    for path in files(root, ".antt"):
        for line in read(path).splitlines():
            m = DECLARED.match(line)
            if not m:
                continue
            name, kind = m.groups()
            if kind.startswith(("goal.", "Goal")):
                made.add(name)
            elif not name[0].isupper():
                own[name] = own.get(name, False) or "abbrev" in line or "unfoldable" in line
    return {n: d for n, d in own.items() if n not in made}, made


def respelled(own):
    words = {snake(n) for n, definition in own.items() if definition and "-" not in n} | LIBRARY
    to = {}
    for name in own:
        if not re.search(r"[a-z0-9][A-Z]|[^\W_]-[^\W_]", name):
            continue
        parts = snake(name.replace("getD", "get_or")).split("-")
        new = "_".join(parts)
        for k in range(1, len(parts)):
            left, right = "_".join(parts[:k]), "_".join(parts[k:])
            if left in words and right in words:
                new = left + "-" + right
                break
        if new != name:
            to[name] = new
    return to


def main():
    root = os.getcwd()
    own, made = declared(root)
    to = respelled(own)
    texts = {p: read(p) for p in files(root, (".antt", ".rt", ".edit"))}
    to |= SETTLED
    back = {}
    for old, new in to.items():
        back.setdefault(new, []).append(old)
    clash = [olds for olds in back.values() if len(olds) > 1]
    if clash or "--list" in sys.argv:
        for old in sorted(to):
            print(old, to[old])
        print("fall together:", clash)
        return 1
    one = re.compile(r"(?<![\w'-])(" + "|".join(re.escape(n) for n in sorted(to, key=len, reverse=True)) + r")(?![\w'-])")
    for path, text in texts.items():
        pieces, at = [], 0
        for m in STRING.finditer(text):
            pieces.append(one.sub(lambda k: to[k.group(1)], text[at:m.start()]))
            pieces.append(m.group(0))
            at = m.end()
        pieces.append(one.sub(lambda k: to[k.group(1)], text[at:]))
        new = "".join(pieces)
        for old, text_now in IN_EDITS if path.endswith(".edit") and "\nold: " in text and "file: specs/" in text else ():
            new = re.sub(old, text_now, new)
        for old, (fact, where) in FACTS.items():
            if os.path.relpath(path, root) in where:
                new = re.sub(r"(?<![\w'.-])" + old + r"(?= [:(x]|  )", fact, new)
        if new != text:
            with open(path, "w", encoding="utf-8") as f:
                f.write(new)
    print(len(to), "names")
    return 0



if __name__ == "__main__":
    raise SystemExit(main())
