#!/usr/bin/env python3
"""Brings the repository's own names to the spelling of today's Rattle, once, after the kit's port.py: `python3 tools/respell.py` at the top.

A definition is in snake case (`greatestSplit` becomes `greatest_split`), and the modules below `specs/ways` stand below `specs/Ways`. A lemma keeps its dashes, as those of std do: where
port.py gave one underscores, it gets them back if a definition would bear the same name. Sources, contracts, proofs, edits and pages follow; functions of `src/` and strings keep their names.
"""

import os
import re

CAMEL = re.compile(r"(?<![A-Za-z0-9_'])[a-z][a-z0-9]*(?:[A-Z][a-z0-9]*)+(?![A-Za-z0-9_])")
DASHED = ["after_line", "diff_left", "fit_line", "go_on", "in_one", "in_order", "in_two", "is_name"]
PAGES = ["README.md", "CONTRIBUTING.md", "CHANGELOG.md"]
WAYS = re.compile(r"(?<![A-Za-z0-9_'-])specs([./])ways(?![A-Za-z0-9_'-])")


def snake(name):
    return re.sub(r"[A-Z]", lambda m: "_" + m.group(0).lower(), name)


def files(ends):
    for folder, folders, names in os.walk("crates"):
        folders[:] = sorted(d for d in folders if d != "out")
        for name in sorted(names):
            if name.endswith(ends):
                yield os.path.join(folder, name)


def read(path):
    with open(path, encoding="utf-8", newline="") as f:
        return f.read()


def write(path, old, new):
    if new != old:
        with open(path, "w", encoding="utf-8", newline="") as f:
            f.write(new)


def main():
    known = set()
    for path in files((".antt", ".rt")):
        known.update(CAMEL.findall(read(path)))
    # in edits and pages also the names that port.py respelt, which it did not there
    words = set()
    for path in files(".antt"):
        words.update(re.findall(r"(?<![A-Za-z0-9_'-])[a-z][a-z0-9_]*(?![A-Za-z0-9_'-])", read(path)))
    lemma = re.compile(r"(?<![A-Za-z0-9_'-])(" + "|".join(DASHED) + r")(?![A-Za-z0-9_'-])")

    def respelt(text, also=()):
        text = WAYS.sub(r"specs\1Ways", text)
        return CAMEL.sub(lambda m: snake(m.group(0)) if m.group(0) in known or snake(m.group(0)) in also else m.group(0), text)

    for path in list(files((".antt", ".rt", ".edit"))):
        old = text = read(path)
        if path.endswith(".antt"):
            text = lemma.sub(lambda m: m.group(1).replace("_", "-"), text)
            if path.endswith("specs/Lib.antt"):
                text = re.sub(r"^pub mod ways$", "pub mod Ways", text, flags=re.M)
        write(path, old, respelt(text, words if path.endswith(".edit") else ()))
    pages = [p for p in PAGES if os.path.exists(p)]
    for folder, _, names in os.walk("docs"):
        pages += [os.path.join(folder, n) for n in sorted(names) if n.endswith(".md")]
    for path in pages:
        old = read(path)
        write(path, old, respelt(old, words))
    for crate in sorted(os.listdir("crates")):
        at = os.path.join("crates", crate, "specs", "ways")
        for end in ("", ".antt"):
            if os.path.exists(at + end):
                os.rename(at + end, os.path.join("crates", crate, "specs", "Ways" + end))


main()
