#!/usr/bin/env python3
"""Tries that the links of the documents lead somewhere.

    python3 tools/links.py      says each one that does not; the status is 1 then

Looked at are README.md, docs/*.md and crates/*.md. A link is to a file or folder of the repository, and behind `#` to a
heading of that page.
"""

import re
import sys

sys.dont_write_bytecode = True

from crates import TOP

LINK = re.compile(r"\[[^][]*(?:\[[^][]*\][^][]*)*\]\(([^()\s]*)\)")


def pages():
    return [it for pattern in ("*.md", "docs/*.md", "crates/*.md") for it in sorted(TOP.glob(pattern))]


def without_blocks(text):
    return re.sub(r"(?ms)^```.*?^```$|^    .*?$", "", text)


def anchors_of(page):
    """The anchors of a page's headings: small letters, digits, - and _, with - for a blank. A second one has a number."""
    found = {}
    for heading in re.findall(r"(?m)^#+ +(.*?) *$", without_blocks(page.read_text(encoding="utf-8"))):
        name = re.sub(r"[^\w -]", "", re.sub(r"\[([^]]*)\]\([^)]*\)", r"\1", heading).lower()).replace(" ", "-")
        count = found.get(name, 0)
        found[name] = count + 1
        if count:
            found[f"{name}-{count}"] = 1
    return found


def faults(page):
    for link in LINK.findall(without_blocks(page.read_text(encoding="utf-8"))):
        if re.match(r"[a-z]+:", link):
            continue
        path, _, anchor = link.partition("#")
        target = (page.parent / path).resolve() if path else page
        if not target.exists():
            yield f"{link}: no such file"
        elif anchor and (target.suffix != ".md" or anchor not in anchors_of(target)):
            yield f"{link}: no such heading"


def main():
    found = [f"{page.relative_to(TOP)}: {it}" for page in pages() for it in faults(page)]
    for it in found:
        print("tools/links.py:", it)
    return 1 if found else 0


if __name__ == "__main__":
    sys.exit(main())
