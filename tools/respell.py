#!/usr/bin/env python3
"""Brings the repository's own antt names to today's spelling: words in snake case.

usage: respell.py [FOLDER]      rewrites crates/ below FOLDER (the top of a checkout), its must-fail edits and its pages

It goes by text, and was run once, after port.py. A name of several words, as `leftBreak`, becomes `left_break`, also
inside a longer name: `numbers-inRange` becomes `numbers-in_range`. Names that begin with a capital (types, modules)
stay. An alias with a middle dot, as `Shape·next`, becomes `shape_next`. Code of functions, which has no such names,
stays, and so do strings. Two names that would fall together are told, and nothing is written.
"""
import collections
import os
import re
import sys

WORD = re.compile(r"(?<![A-Za-z0-9_'])[a-z][a-z0-9_]*[A-Z][A-Za-z0-9_']*")
DOTTED = re.compile(r"(?<![A-Za-z0-9_'·.])[A-Z][A-Za-z]+·[A-Za-z_]+")
ALIAS = re.compile(r"\bas ([A-Z][A-Za-z]+·[A-Za-z_]+)")
SPLIT = re.compile(r"[\s(){}\[\];,`]+")
COMMENT = re.compile(r"(?m)(?:^|(?<=\s))--.*$")
STRING = re.compile(r'b?"(?:[^"\\\n]|\\.)*"')
KEPT = {"macOS", "localStorage", "innerHTML", "viewBox"}
# What would fall together with a name of several words: a lemma of `sizedRows`, and a constructor beside `notFinite`.
ASIDE = {"sized_rows": "sized_rows_lem", "not_finite": "not-finite"}


def snake(name):
    if name in KEPT:
        return name
    name = re.sub(r"([A-Z]+)([A-Z][a-z])", r"\1_\2", name)
    return re.sub(r"([a-z0-9])([A-Z])", r"\1_\2", name).lower()


def undotted(name):
    return snake(name[0].lower() + name[1:].replace("·", "_"))


def texts(root, top):
    for folder, dirs, files in os.walk(os.path.join(root, top)):
        dirs[:] = sorted(d for d in dirs if d not in ("out", "target", ".git", "landings"))
        yield from (os.path.join(folder, f) for f in sorted(files))


def respelled(text, dotted, in_code):
    """The text in today's spelling; strings of code are kept."""
    def turn(part):
        part = re.sub(r"(?<![\w'-])(?:%s)(?![\w'-])" % "|".join(ASIDE), lambda m: ASIDE[m[0]], part)
        part = DOTTED.sub(lambda m: undotted(m[0]) if m[0] in dotted else m[0], part)
        return WORD.sub(lambda m: snake(m[0]), part)

    if not in_code:
        return turn(text)
    at, out = 0, []
    for m in STRING.finditer(text):
        out += [turn(text[at:m.start()]), m[0]]
        at = m.end()
    return "".join([*out, turn(text[at:])])


def main(root):
    crates = [p for p in texts(root, "crates") if p.endswith((".rt", ".antt", ".edit"))]
    said = {p: open(p, encoding="utf8").read() for p in crates}
    dotted = {n for t in said.values() for n in ALIAS.findall(t)}
    turned = {p: respelled(t, dotted, p.endswith(".rt")) for p, t in said.items()}
    together = False
    for p, new in turned.items():
        before = collections.defaultdict(set)
        if p.endswith(".antt"):
            for old, now in zip(SPLIT.split(COMMENT.sub("", said[p])), SPLIT.split(COMMENT.sub("", new)), strict=True):
                before[now].add(old)
        for now, olds in before.items():
            if len(olds) > 1:
                together = True
                print(f"together: {p}: {now} of {', '.join(sorted(olds))}")
    if together:
        sys.exit("nothing was written")
    for p, new in turned.items():
        if new != said[p]:
            open(p, "w", encoding="utf8").write(new)
    names = {n for t in said.values() for n in WORD.findall(t)}
    pages = [os.path.join(root, f) for f in ("README.md", "CONTRIBUTING.md")] + [p for p in texts(root, "docs") if p.endswith(".md")]
    for p in pages:
        t = open(p, encoding="utf8").read()
        new = WORD.sub(lambda m: snake(m[0]) if m[0] in names else m[0], t)
        new = DOTTED.sub(lambda m: undotted(m[0]) if m[0] in dotted else m[0], new)
        if new != t:
            open(p, "w", encoding="utf8").write(new)
    print(len(names), "names,", len(dotted), "aliases")


if __name__ == "__main__":
    main(sys.argv[1] if len(sys.argv) > 1 else ".")
