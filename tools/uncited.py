#!/usr/bin/env python3
"""Finds what nobody cites: public functions, definitions, lemmas and imports.

    python3 tools/uncited.py            says what tools/uncited.txt lacks, and which of its lines are met by none; the
                                        status is 1 then
    python3 tools/uncited.py --write    writes that list as the repository stands

Found are
- functions of src/ that are public, and that no other file names but to hand them on; a law, which is there for its
  clauses alone, only where neither `tools/named.py --laws` prints it nor a document of docs/ names it;
- definitions and lemmas of specs/ and proofs/ that no other definition, contract or tactic names; those by which a
  proof answers a goal of the kit, in the folder of its function, are named by the kit;
- imports of .antt files whose word the file does not use.

A function is cited where a word of its name stands, so one that shares its name with a cited one is not found. What is
cited by uncited ones alone is found when those have gone.
"""

import re
import sys

sys.dont_write_bytecode = True

from antt_text import TOP, GHOST_USE, LITERAL, Reader, antt_pages, head_of, parts_of, rust_pages, tokens_of
from accepted_list import compare, write
from named import laws_of_sources

LIST = TOP / "tools" / "uncited.txt"
HEAD = """# What nobody cites today, as tools/uncited.py finds it. A new line is to be avoided, and one that is met by none
# goes.
"""
FUNCTION = re.compile(r"^\s*pub(?:\([a-z]+\))? (?:const |unsafe )*fn (\w+)", re.M)
USE = re.compile(r"^\s*(?:pub(?:\([a-z]+\))? )?use [^;]*;", re.M)
PATH = re.compile(r"\b(\w+(?:::\w+)+)")


# ---- functions


def uncited_functions(pages):
    words = {page.relative: words_of_code(page.code) for page in pages}
    files = {}
    for relative, found in words.items():
        for word in found:
            files.setdefault(word, set()).add(relative)
    told = words_of_documents() | {name for _, name in laws_of_sources()}
    return [
        f"{'law' if is_law(page, name) else 'function'} {page.relative}: {name}"
        for page in pages
        for name in FUNCTION.findall(page.code)
        if not files[name] - {page.relative} and not (name in told and is_law(page, name))
    ]


def words_of_documents():
    return {word for path in (TOP / "docs").glob("*.md") for word in re.findall(r"\w+", path.read_text(encoding="utf-8"))}


def is_law(page, name):
    """Whether the function does nothing, or takes and gives nothing, so that it is there for its clauses alone."""
    item = page.item(name)
    if item is None:
        return False
    return item.code.rstrip().endswith("{}") or re.search(rf"fn {name}\(\)\s*(?!\s|->)", item.code) is not None


def words_of_code(code):
    """The words of the code but for its imports and its contracts' imports."""
    return set(re.findall(r"\w+", USE.sub("", GHOST_USE.sub("", LITERAL.sub("", code))))) | set(FUNCTION.findall(code))


# ---- definitions and lemmas


class Citations:
    """Which definitions are named, as pairs of module and name."""

    def __init__(self, pages, rust):
        self.modules = {page.module: page for page in pages}
        self.found = set()
        for page in pages:
            for one in page.definitions:
                self.cite_of_definition(page, one)
        for page in rust:
            self.cite_of_rust(page)

    def cite_of_definition(self, page, one):
        for word in Reader(page).named_by(one) + unfolded_by(one):
            for target in self.targets(page, word):
                if target != (page.module, one.name):
                    self.found.add(target)

    def cite_of_rust(self, page):
        for word in set(tokens_of(GHOST_USE.sub("", page.code))):
            for target in self.targets(page, word):
                self.found.add(target)
        for path in PATH.findall(page.code):
            names = path.split("::")
            crate = page.crate if names[0] == "crate" else names[0]
            self.found.add((".".join(["Rattle", crate] + names[1:-1]), names[-1]))

    def targets(self, page, word):
        """The definitions that this word may stand for; more than one where it is a piece of a name."""
        local = page.local(word)
        if local is not None:
            return [(page.module, local.name)]
        one = page.words.get(word) or page.words.get(head_of(word))
        if one is None:
            return []
        behind = word[len(head_of(word)) :] if word not in page.words else ""
        return self.within(one.path + behind)

    def within(self, path):
        """The definition whose path this is, or which the path goes into."""
        names = path.split(".")
        for end in range(len(names) - 1, 2, -1):
            page = self.modules.get(".".join(names[:end]))
            if page is not None:
                one = page.named.get(names[end]) or page.built.get(names[end])
                return [(page.module, one.name)] if one is not None else []
        return []


def unfolded_by(definition):
    """The words behind `unfolding`, of the definition and of its helpers."""
    found = list(definition.unfolds)
    for clause in definition.clauses:
        for helper in clause.helpers:
            found += unfolded_by(helper)
    return found


def answers_the_kit(page, definition):
    """Whether the kit asks for it by its name: a goal, or a public one in the folder of a function."""
    if any(token.startswith("goal.") for token in definition.signature[:2]):
        return True
    parts = page.relative.split("/")
    return definition.public and parts[1] == "proofs" and len(parts) > (3 if page.home == page.crate else 4)


def uncited_definitions(pages, rust):
    cited = Citations(pages, rust).found
    return [
        f"{'lemma' if one.shape == 'plain' else 'definition'} {one.place()}"
        for page in pages
        for one in page.definitions
        if (page.module, one.name) not in cited and not answers_the_kit(page, one)
    ]


# ---- imports


def unused_imports(pages):
    return [f"import {page.relative}: {one.word}" for page in pages for one in unused_in(page)]


def unused_in(page):
    lines = [line for line in page.code if not line.startswith("use ")]
    words = set()
    for token in tokens_of("\n".join(lines)):
        words |= {token, head_of(token)}
    return [one for one in page.imports if one.word not in words and not words.issuperset(parts_of(one.word))]


def main(words):
    if words not in ([], ["--write"]):
        sys.exit(__doc__)
    pages, rust = antt_pages(), rust_pages()
    found = uncited_functions(rust) + uncited_definitions(pages, rust) + unused_imports(pages)
    if words:
        return write(LIST, HEAD, found)
    return compare("tools/uncited.py", LIST, found, "cited by none")


if __name__ == "__main__":
    sys.exit(main(sys.argv[1:]))
