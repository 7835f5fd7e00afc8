#!/usr/bin/env python3
"""Tries that definitions and laws are in files of their own, below each crate's specs/.

    python3 tools/laws_apart.py     says what is where it should not be; the status is 1 then

A file whose name does not end in Laws has definitions alone. A file whose name does, and that has a lemma, has no
definition that `tools/trusted.py --list` prints. So whoever reads what `utm_twin` promises passes over no lemma.
"""

import sys

sys.dont_write_bytecode = True

from antt_text import antt_pages
from trusted import Finder


def lemmas_of(page):
    return [it for it in page.definitions if it.shape == "plain"]


def faults(pages, reached):
    for page in pages:
        lemmas = lemmas_of(page)
        if not page.path.stem.endswith("Laws"):
            yield from (f"a lemma in a file of definitions: {it.place()}" for it in lemmas)
        elif lemmas:
            yield from (f"a definition that is to be read in a file of laws: {it}" for it in reached[page.relative])


def main():
    finder = Finder()
    finder.run()
    pages = [it for it in antt_pages() if it.relative.split("/")[1] == "specs"]
    reached = {it.relative: [] for it in pages}
    for one in finder.reached.values():
        if one.file.startswith("specs/") and one.shape != "plain":
            reached[f"{one.crate}/{one.file}"].append(f"{one.crate}/{one.file}: {one.name}")
    found = list(faults(pages, reached))
    for it in found:
        print("tools/laws_apart.py:", it)
    return 1 if found else 0


if __name__ == "__main__":
    sys.exit(main())
