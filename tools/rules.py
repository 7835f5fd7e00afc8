#!/usr/bin/env python3
"""Tries that each rule of docs/RULES.md is proved of the code that its row names.

    python3 tools/rules.py      says each row of which it is not found; the status is 1 then

The clause of a row, of the function and the file that the row or its section names, has to come to the definition of the
row: it names it, or a definition that names it, and so on. A row without a clause is of all clauses of its function.
"""

import re
import sys
from pathlib import Path

sys.dont_write_bytecode = True

from antt_text import TOP, closing
from named import CODE, HOME, RECORDS, clauses_of_rule, home_of, pairs_of, rows_of
from trusted import Finder, contract_words

CLAUSE = re.compile(r"\bensures (\w*) *\{ *(\w*)")


class Reach:
    """Which definitions the clauses of a function come to."""

    def __init__(self):
        self.finder = Finder()
        self.pages = {page.relative: page for page in self.finder.rust.values()}
        self.known = {}

    def of(self, file, clause):
        """The places and names of the definitions that this text of a clause comes to."""
        if (file, clause) not in self.known:
            finder, page = self.finder, self.pages[file]
            finder.reached = {}
            finder.follow_words(page, contract_words(page, clause))
            while finder.left:
                finder.left.pop()()
            self.known[file, clause] = {(f"{it.crate}/{it.file}", it.name) for it in finder.reached.values()}
        return self.known[file, clause]


def clauses_of(file, call, names):
    """The texts of the clauses of these names, or of all, in the contracts of the functions of this name in a file. A
    clause may be a record with a field of this name."""
    crate = Path(file).parts[0]
    for head in re.finditer(rf"\bfn {re.escape(call)}\b.*?(?:;\n|\n *\{{)", CODE[Path(file)], re.S):
        for clause in CLAUSE.finditer(head.group()):
            fields = RECORDS.get((crate, clause[2]), [])
            if not names or clause[1] in names or any(it in fields for it in names):
                yield head.group()[clause.start(2) : closing(head.group(), clause.start(2))]


def files_of(call, files, named):
    """The files that have a function of this name: of these, else of the named ones, else of the same homes."""
    homes = {home_of(it) for it in files}
    for some in (files, named, [str(it) for it in CODE if HOME[it] in homes]):
        found = [it for it in some if re.search(rf"\bfn {call}\b", CODE.get(Path(it), ""))]
        if found:
            return found
    return []


def texts_of_row(code, named):
    """The texts of the clauses of a row, each with its file."""
    files = [file for _, file in pairs_of(code)] or named
    for names, call in clauses_of_rule(code):
        for file in files_of(call, files, named):
            yield from ((file, it) for it in clauses_of(file, call, names))


def faults(text):
    reach = Reach()
    for section in re.split(r"(?m)^## ", text)[1:]:
        named = re.findall(r"\w+/src/[\w/]+\.rt", section)
        for rule, definition, code, *_ in rows_of(section):
            wanted = {(file if "/" in file else f"abstract_monitor/specs/{file}", word) for word, file in pairs_of(definition)}
            reached = set()
            for file, clause in texts_of_row(code, named):
                reached |= reach.of(file, clause)
            yield from (f"{rule}: its clause does not come to {word} in {file}" for file, word in sorted(wanted - reached))


def main():
    found = list(faults((TOP / "docs" / "RULES.md").read_text(encoding="utf-8")))
    for it in found:
        print("tools/rules.py: docs/RULES.md:", it)
    return 1 if found else 0


if __name__ == "__main__":
    sys.exit(main())
