#!/usr/bin/env python3
"""Tries that numbers which the documents give of the sources are right.

    python3 tools/numbers.py    says each that is another one; the status is 1 then

They are those of crates, of cases, of checks in a group, and of what is proved anew. Of lines and definitions
tools/trusted.py tries them.
"""

import re
import sys

sys.dont_write_bytecode = True

from above import stands_on
from crates import TOP, listed_crates, measured_seconds
from named import RULE, rows_of

PAGES_OF_SCRIPTS = ("docs/scripts.md", "docs/terminal.md", "docs/services.md")


def text_of(path):
    return (TOP / path).read_text(encoding="utf-8")


# ---- what the sources have


def crates_below(name, listed):
    """This crate and all that it stands on."""
    return {name}.union(*(crates_below(it, listed) for it in listed[name].libraries if it in listed))


def anew(*names):
    """How many crates stand on these, themselves too, and the seconds of their proofs; of no name those of all."""
    listed, seconds = listed_crates(), measured_seconds()
    found = [it for it in listed if not names or stands_on(listed[it], set(names), listed)]
    return len(found), sum(seconds.get(it, 0) for it in found)


def cases():
    texts = (TOP / "crates/utm_cases/data").glob("*.cases")
    return sum(len(re.findall(r"(?m)^case ", it.read_text(encoding="utf-8"))) for it in texts)


def commands(text):
    """The commands in the blocks of a page that .ci/documents tries."""
    return sum(len(re.findall(r"(?m)^\$ ", it)) for it in re.findall(r"(?ms)^```\n(.*?)^```$", text))


def scripts(text):
    """The scripts of a page: its blocks with what is printed, between ``` or after four blanks."""
    fenced = re.compile(r"(?ms)^```\n(.*?)^```$")
    indented = re.findall(r"(?m)(?:^    .*\n|(?<=\n)\n(?=    ))+", fenced.sub("", text))
    return sum(re.search(r"\n *\*> ", it) is not None for it in [*fenced.findall(text), *indented])


def documents():
    """The checks of the group documents."""
    group = text_of(".ci/documents")
    pages = re.search(r"for page in (README\.md [^;]*);", group)[1].split()
    stands = len(re.findall(r"(?m)^stands_still '", group))
    return stands + sum(commands(text_of(it)) for it in pages) + sum(scripts(text_of(it)) for it in PAGES_OF_SCRIPTS)


def sources():
    """The checks of the group sources."""
    rows = [it for section in text_of("docs/RULES.md").split("\n## ")[1:] for it in rows_of(section) if len(it) == len(RULE)]
    return sum(it[-1] != "" for it in rows) + len(re.findall(r"(?m)^holds ", text_of(".ci/sources")))


# ---- what the documents say


def numbers():
    """Where numbers are: the page, the words around them with a group for each, and what they are to be."""
    yield "README.md", r"minutes for (\d+) crates", [len(crates_below("utm", listed_crates()))]
    yield "docs/PROVED.md", r"in (\d+) cases", [cases()]
    yield "docs/building.md", r"\| `cases` \|.*\| ([\d,]+) \|", [cases() + 2]
    yield "docs/building.md", r"\| `documents` \|.*\| ([\d,]+) \|", [documents()]
    yield "docs/building.md", r"\| `sources` \|.*\| ([\d,]+) \|", [sources()]
    yield "docs/changing.md", r"\| application_check, .*\| (\d+) \| ([\d,]+) \|", anew("application_check")
    yield "docs/changing.md", r"\| abstract_monitor too.*\| (\d+) \| ([\d,]+) \|", anew("application_check", "abstract_monitor")
    yield "docs/changing.md", r"every crate \| (\d+) \| ([\d,]+) \|", anew()
    yield "docs/changing.md", r"so (\d+) crates\s+are\s+proved\s+anew,\s+([\d,]+)\s+processor", anew("kdcs_types")


def main():
    faults = []
    for page, words, right in numbers():
        found = re.search(words, text_of(page))
        said, wanted = ", ".join(found.groups()) if found else "nothing", ", ".join(f"{it:,}" for it in right)
        if said != wanted:
            faults.append(f"{page}: {words}: it says {said}, and right is {wanted}")
    for it in faults:
        print("tools/numbers.py:", it)
    return 1 if faults else 0


if __name__ == "__main__":
    sys.exit(main())
