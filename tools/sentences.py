#!/usr/bin/env python3
"""Tries that the sentences of the documents are short and plain.

    python3 tools/sentences.py      says each sentence of more than 40 words, and each phrase for which there is a plainer
                                    one; the status is 1 then

Looked at are README.md and docs/*.md, but for headings and blocks. An item of a list begins a sentence, and so does a
paragraph, and a cell of a table. A link counts as its text, and what is quoted as one word.
"""

import re
import sys

sys.dont_write_bytecode = True

from links import LINK, without_blocks
from named import TOP, pages

MOST = 40
# What is said more plainly by "if", "exactly" or "only".
PHRASE = re.compile(r"(?i)\bjust (?:where|that|this|these|what|so)\b")


def paragraphs(text):
    """The paragraphs, the items of lists and the cells of tables, each in one line."""
    text = without_blocks(text)
    for row in re.findall(r"(?m)^\|(.*)\|$", text):
        yield from (it.strip() for it in re.split(r"(?<!\\)\|", row))
    text = re.sub(r"(?m)^(?:#+ .*|\|.*|!\[.*)$", "", text)
    for part in re.split(r"\n\s*\n|\n(?=\s*(?:[-*]|\d+\.) )", text):
        part = re.sub(r"^\s*(?:[-*]|\d+\.) +", "", part)
        if part.strip():
            yield re.sub(r"\s+", " ", part).strip()


def sentences(paragraph):
    plain = re.sub(r"`[^`]*`", "`quoted`", paragraph)
    plain = re.sub(r"\[([^]]*)\]\([^)]*\)", r"\1", plain)
    return re.split(r"(?<=[.!?])\**\)? +(?=[\"'*`(\w])", plain)


def main():
    faults = []
    for page in pages():
        text = page.read_text(encoding="utf-8")
        faults += [f"{page.relative_to(TOP)}: say it more plainly: {it}" for it in PHRASE.findall(without_blocks(text))]
        for paragraph in paragraphs(text):
            for one in sentences(paragraph):
                count = len(re.findall(r"[\w`'][^\s]*", one))
                if count > MOST:
                    faults.append(f"{page.relative_to(TOP)}: {count} words: {one[:90]}..")
    for it in faults:
        print("tools/sentences.py:", it)
    return 1 if faults else 0


if __name__ == "__main__":
    sys.exit(main())
