#!/usr/bin/env python3
"""Writes which crates each crate uses into the tables of crates in docs/ARCHITECTURE.md.

    python3 tools/uses.py            writes the last cells of their rows
    python3 tools/uses.py --check    says where these are others; the status is 1 then

In the row of a crate are the highest of those that it uses: those that its sources name, and that no other one of these
stands on, in the order of crates.txt. It is tried too that the page has each crate, after all that it uses, and that crates.txt
names no crate for another one that does not use it, by itself or by one that it uses.
"""

import re
import sys

sys.dont_write_bytecode = True

from crates import TOP, listed_crates

PAGE = TOP / "docs" / "ARCHITECTURE.md"
BEGIN, END = "## The crates", "## The path of the data"
ROW = re.compile(r"(?m)^\| \*\*(\w+)\*\* \| ([^|]+) \| ([^|]*) \|$")
NAMED = re.compile(r"(?m)^\s*(?:pub )?use (?!Rattle\b)(\w+)|\bRattle\.(\w+)")


def named_in(crate):
    """The words that the imports of a crate's sources begin with."""
    texts = [it.read_text(encoding="utf-8") for it in crate.sources() if it.suffix in (".rt", ".antt")]
    return {word for text in texts for pair in NAMED.findall(text) for word in pair}


def below_of(crates):
    """By each crate's name all that it stands on; crates.txt has the lower crates first."""
    below = {}
    for name, crate in crates.items():
        below[name] = {one for it in crate.libraries if it in crates for one in [it, *below[it]]}
    return below


def uses_of(crates):
    """By each crate's name the highest of those that it uses; and what crates.txt names without need."""
    below, uses, faults = below_of(crates), {}, []
    for name, crate in crates.items():
        named = named_in(crate)
        used = [it for it in crate.libraries if it in below and it in named]
        reached = {one for it in used for one in [it, *below[it]]}
        uses[name] = [it for it in used if not any(it in below[other] for other in used)]
        faults += [f"crates.txt: {name} does not use {it}" for it in crate.libraries if it in below and it not in reached]
    return uses, faults


def words_of(uses):
    return ", ".join(uses) or "no other crate"


def list_faults(section, uses):
    """What is wrong in the tables of crates."""
    seen = []
    for name, _, said in ROW.findall(section):
        if name not in uses:
            yield f"{name} is no crate"
            continue
        if name in seen:
            yield f"{name} has two rows"
        if said != words_of(uses[name]):
            yield f"{name} uses {words_of(uses[name])}"
        yield from (f"{name} is before {it}" for it in uses[name] if it not in seen)
        seen.append(name)
    yield from (f"{name} has no row" for name in uses if name not in seen)


def with_uses(section, uses):
    """The tables of crates with what each uses."""

    def mend(row):
        name, purpose, said = row.groups()
        return f"| **{name}** | {purpose} | {words_of(uses[name]) if name in uses else said} |"

    return ROW.sub(mend, section)


def main(words):
    if words not in ([], ["--check"]):
        sys.exit(__doc__)
    uses, faults = uses_of(listed_crates())
    text = PAGE.read_text(encoding="utf-8")
    begin, end = text.index(BEGIN), text.index(END)
    if not words:
        PAGE.write_text(text[:begin] + with_uses(text[begin:end], uses) + text[end:], encoding="utf-8")
        text = PAGE.read_text(encoding="utf-8")
        end = text.index(END)
    faults += [f"docs/ARCHITECTURE.md: {it}" for it in list_faults(text[begin:end], uses)]
    for it in faults:
        print("tools/uses.py:", it)
    return 1 if faults else 0


if __name__ == "__main__":
    sys.exit(main(sys.argv[1:]))
