#!/usr/bin/env python3
"""Respells the definitions, fields and lemmas of this repository: words in snake case, as the toolchain's library spells its own.

usage: respell.py TREE

Run once, after the toolchain's port.py, on a tree that it turned. tools/respell.json has the names: `names` holds everywhere below crates/, `scoped` in one
file alone. Functions of src/, strings and exported names stay. In comments only names with a capital inside are turned, since others are words.
A name that a proof of one function declares for itself stays in that file.
"""

import json
import os
import re
import sys

HERE = os.path.dirname(os.path.realpath(__file__))
WORD = re.compile(r"[\w'′?-]+")
PARTS = {
    ".antt": re.compile(r"(?P<comment>--[^\n]*)|(?P<text>\"(?:[^\"\\]|\\.)*\")|(?P<code>[\w'′?-]+)"),
    ".rt": re.compile(r"(?P<comment>//[^\n]*)|(?P<text>b?\"(?:[^\"\\]|\\.)*\"|b?'(?:[^'\\\n]|\\.[^'\n]*)'(?!\w))|(?P<code>[\w'′?-]+)"),
}
OWN = re.compile(r"^(?:abbrev |unfoldable )?(?:pub )?(?:data |record )?([^\s(){}:,;.]+)[^:=\n]*:(?!\S)", re.M)


def respelled(text, kind, names, kept):
    def turned(m):
        if m["text"]:
            return m[0]
        if m["comment"]:
            return WORD.sub(lambda w: names.get(w[0], w[0]) if re.search("[a-z][A-Z]", w[0]) else w[0], m[0])
        word = m["code"]
        projected = m.start() > 0 and text[m.start() - 1] == "."
        if word in kept and not projected:
            return word
        return names.get(word, word)

    return PARTS[kind].sub(turned, text)


def main(tree):
    with open(os.path.join(HERE, "respell.json"), encoding="utf-8") as f:
        table = json.load(f)
    inside = os.path.join(tree, "crates")
    changed = 0
    for folder, dirs, files in os.walk(inside):
        dirs[:] = sorted(d for d in dirs if d != "out")
        for name in sorted(files):
            path = os.path.join(folder, name)
            kind = os.path.splitext(name)[1]
            if kind not in PARTS:
                continue
            with open(path, encoding="utf-8") as f:
                text = f.read()
            kept = set(OWN.findall(text)) if name == "Proof.antt" else set()
            names = {**table["names"], **table["scoped"].get(os.path.relpath(path, inside), {})}
            new = respelled(text, kind, names, kept)
            if new != text:
                changed += 1
                with open(path, "w", encoding="utf-8") as f:
                    f.write(new)
    print(f"respell: {changed} files")


if __name__ == "__main__":
    main(sys.argv[1])
