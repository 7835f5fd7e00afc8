#!/usr/bin/env python3
"""Tries that what the documents name is there.

    python3 tools/named.py            says each name that is not found; the status is 1 then
    python3 tools/named.py --laws     prints the laws, each with its crate or module and what it says

Looked at are README.md and docs/*.md:
- a path is that of a file, from the top, from crates/, from a crate or from docs/; a file that is named without its
  folder is there under this name, in docs/MODEL.md among the definitions of abstract_monitor;
- a name of several words, as `first_due` or `Core::turn`, is a crate, a file, an edit, or a word of the sources;
- the tables of crates in docs/ARCHITECTURE.md: in the row of each crate are its public modules, and no others, and the
  first lines of crate and module say what they are for;
- `WORD in FILE` of docs/ARCHITECTURE.md: the file has the word;
- a row of docs/RULES.md: it leads to a page; in `FILE WORD` the file has the word; in `FILE CALL: CLAUSE` the contract of
  the call has the clause; and the proof of that call is where it is said to be;
- a row of docs/changing.md with a file of crates/ and a word in quotes: the file has the word;
- the table of docs/edits.md: it has each must-fail edit, with the crate or module that the edit is of;
- a name after that of a crate or of a public module, as kdcfile_images `create`, is a word of this one; one after a file
  of definitions, as `Turns.antt`, `turn_of`, a word of that file;
- the clauses of docs/PROVED.md are those of `utm` and of `utm_twin`, with the parts of `laws`, each in its section, and all
  of them; the calls of the other programs have the clauses behind them; and so has each call in the last column of the
  drawing;
- the laws in the table of docs/MODEL.md are those of the sources, and each law, a function without arguments and results,
  has a comment that says it;
- the names of clauses in docs/words.md are those of clauses in the sources;
- README.md and docs/DECISIONS.md have at most 150 lines.

What is a word of a public module is none of the crate that the module is in.
"""

import re
import sys
from pathlib import Path

sys.dont_write_bytecode = True

from antt_text import CRATES, HOMES, TOP, home_of


def texts_of(pattern):
    crates = TOP / "crates"
    return {it.relative_to(crates): it.read_text(encoding="utf-8") for it in crates.glob(pattern)}


CODE = texts_of("*/src/**/*.rt")
HOME = {path: home_of(path) for path in CODE}
SPECS = texts_of("*/specs/*.antt")
PROOFS = texts_of("*/proofs/**/*.antt")
OTHER_FILES = [it for pattern in ("*", "tools/*", "docs/*", "crates/*/data/*") for it in TOP.glob(pattern)]
FILES = {it.name for it in (*OTHER_FILES, *CODE, *SPECS, *PROOFS)}
WORDS = set(re.findall(r"[\w-]+", " ".join([*CODE.values(), *SPECS.values()])))
# Pages for who changes the sources name words of proofs too.
PAGES_OF_PROOFS = ("changing.md", "style.md")
PROOF_WORDS = set(re.findall(r"[\w-]+", " ".join(PROOFS.values())))
PATH = re.compile(r"[\w./-]*\w\.(?:antt|rt|py|cases)\b|\bcrates/\w+\b|\.ci/\w+")
QUOTED = re.compile(r"`([^`]+)`")
EDITS = {it.stem: it for it in (TOP / "crates").glob("*/must-fail/*.edit")}
KIT = {"start_lib"}
RULE = ["Rule", "Definition", "Code", "Proof", "Case"]
MOST_LINES = 150


def pages():
    return [TOP / "README.md", *sorted((TOP / "docs").glob("*.md"))]


def prose_of(text):
    """The text without the blocks between ```, those after four blanks, and what is planned."""
    text = re.sub(r"(?ms)^```.*?^```$|^## What is planned$.*?(?=^## )", "", text)
    return re.sub(r"(?m)^    .*$", "", text)


# ---- what the sources have


def records_of(pages):
    """The fields of each record, by its crate and its name."""
    found = {}
    for path, text in pages.items():
        for name, fields in re.findall(r"(?m)^(?:pub )?record (\w+).* where\n((?:  .*\n)*)", text):
            found[path.parts[0], name] = re.findall(r"(?m)^  (?:pub )?(\w+) :", fields)
    return found


RECORDS = records_of(SPECS)


def contracts(name, home, file=None):
    """The names of the clauses of each function of this name, and the fields of a record that is a clause; a clause
    without a name is the empty one."""
    found = []
    for path, text in CODE.items():
        if HOME[path] == home and file in (None, str(path)):
            for head in re.finditer(rf"\bfn {re.escape(name)}\b.*?(?:;\n|\n *\{{)", text, re.S):
                clauses = re.findall(r"\bensures (\w*) *\{ *(\w*)", head.group())
                fields = [it for _, word in clauses for it in RECORDS.get((path.parts[0], word), [])]
                found.append([it for it, _ in clauses] + fields)
    return found


def has_word(home, word):
    return any(HOME[path] == home and re.search(rf"\b{re.escape(word)}\b", text) for path, text in CODE.items())


def is_path(path):
    folders = [TOP, TOP / "crates", TOP / "docs", *(TOP / "crates" / it for it in CRATES)]
    return any((it / path).exists() for it in folders) or ("/" not in path and path in FILES)


def is_name(word):
    """Whether the word of several words is one of the sources, or names a crate, a module or a file."""
    parts = word.split("::")
    if parts[0] in HOMES and len(parts) == 2:
        return has_word(parts[0], parts[1]) or parts[1] in EDITS
    return all(it in WORDS or it in HOMES or it in FILES or it in EDITS or it in KIT for it in parts)


# ---- what the documents name


def names_of(text):
    """The names of several words: small words with low lines, and what is quoted with :: or with capitals within."""
    found = set(re.findall(r"(?<![\w/.<-])[a-z][a-z0-9]*(?:_[a-z0-9]+)+(?![\w/.-])", text))
    return found | {it for it in QUOTED.findall(text) if re.fullmatch(r"\w+(::\w+)+|[A-Z][a-z]+([A-Z][a-z]*)+", it)}


def page_faults(page):
    text = prose_of(page.read_text(encoding="utf-8"))
    for path in sorted({it.rstrip(".") for it in PATH.findall(text)}):
        if page.name == "MODEL.md" and path.endswith(".antt") and "/" not in path:
            path = f"abstract_monitor/specs/{path}"
        if not is_path(path) and not re.search(r"\b(?:NAME|FILE|FUNCTION)\b|^X", path):
            yield f"no file {path}"
    for word in sorted(names_of(text)):
        if not is_name(word) and not (page.name in PAGES_OF_PROOFS and word in PROOF_WORDS):
            yield f"no name {word}"
    for home, word in re.findall(r"\b([a-z_]+)\s+`([\w:]+)`", text):
        if home in HOMES and not is_name(f"{home}::{word.split('::')[-1]}"):
            yield f"no {word} in {home}"
    pairs = re.findall(r"`(\w+\.antt)`,\s+`(\w+)`", text)
    if page.name == "MODEL.md":
        pairs += [(file, word) for word, file in re.findall(r"`(\w+)` in (\w+\.antt)", text)]
    for file, word in pairs:
        if not re.search(rf"\b{word}\b", SPECS.get(Path(f"abstract_monitor/specs/{file}"), "")):
            yield f"no {word} in {file}"


def rows_of(section):
    """The rows of the tables of rules: each the cells of one rule, which are as many as RULE has."""
    lines = [it for it in section.split("\n") if it.startswith("|") and not set(it) <= set("|-")]
    rows = [[it.strip() for it in line.strip("|").split("|")] for line in lines]
    return [it for it in rows if it != RULE]


def pairs_of(text):
    """The words with their files: `WORD` in FILE in a sentence, FILE `WORD` in a row."""
    in_rows = re.findall(r"([\w/]+\.(?:antt|rt)) +`([\w-]+)`", text)
    return re.findall(r"`([\w-]+)` in +([\w/]+\.(?:antt|rt))", text) + [(word, file) for file, word in in_rows]


def pair_faults(text):
    for word, file in pairs_of(text.replace("\n", " ")):
        path = Path(file if "/" in file else f"abstract_monitor/specs/{file}")
        if not re.search(rf"(?<![\w-]){re.escape(word)}(?![\w-])", CODE.get(path, SPECS.get(path, ""))):
            yield f"no {word} in {path}"


def rule_faults(text):
    yield from pair_faults(text)
    for section in re.split(r"(?m)^## ", text)[1:]:
        named = re.findall(r"\w+/src/[\w/]+\.rt", section)
        for place, row in enumerate(rows_of(section)):
            if len(row) != len(RULE):
                yield f"{row[0]}: {len(row)} cells"
                continue
            if place == 0 and not row[-1]:
                yield f"{row[0]}: no case"
            rule, definition, code, proof, _ = row
            if not pairs_of(definition):
                yield f"{rule}: no definition"
            if not re.match(r"\[[^]]+\]\([\w.#-]+\)", rule):
                yield f"{rule}: no link to the plain words"
            files = [file for _, file in pairs_of(code)] or named
            for clauses, call in clauses_of_rule(code):
                found = contracts_in(call, files) or contracts_in(call, named)
                found = found or [it for file in files for it in contracts(call, home_of(file))]
                yield from clause_faults(rule, call, clauses, found)
            calls = [call for _, call in clauses_of_rule(code.split("; ")[-1])]
            yield from proof_faults(rule, proof, calls, files, named)


def proof_faults(rule, proof, calls, files, named):
    """What is wrong with the place of a proof: it is empty where the calls have none, `beside` where it is at their own
    place, or the file of lemmas that such a file takes."""
    beside = [it for call in calls for it in proofs_of(call, files, named)]
    if bool(proof) != bool(beside):
        yield f"{rule}: {'no proof is named' if beside else 'the prover needs no proof'}"
    for name in proof.split(", ") if proof not in ("", "beside") else []:
        crates = {it.relative_to(TOP / "crates").parts[0] for it in beside}
        taken = [crate for crate in crates if (TOP / "crates" / crate / name).is_file()]
        words = [f"Rattle.{crate}.{name.removesuffix('.antt').replace('/', '.')}." for crate in taken]
        if not any(word in it.read_text(encoding="utf-8") for word in words for it in beside):
            yield f"{rule}: its proof takes no {name}"


def proofs_of(call, files, named):
    """The proofs that stand at the place of a call: it is in one of these files, else in one of the named ones, else in
    one of the same crate or module."""
    homes = {home_of(it) for it in files}
    others = [str(path) for path in CODE if HOME[path] in homes]
    has_call = re.compile(rf"\bfn {call}\b")
    for some in (files, named, others):
        found = [Path(it) for it in some if has_call.search(CODE.get(Path(it), ""))]
        if found:
            return [it for file in found for it in proofs_at(file, call)]
    return []


def proofs_at(file, call):
    crate, _, *place = file.with_suffix("").parts
    folder = TOP / "crates" / crate / "proofs" / Path(*([] if place == ["lib"] else place))
    return [it for name in ("Answers", "Invariants") for it in folder.glob(f"**/{call}/{name}.antt")]


def contracts_in(call, files):
    return [it for file in files for it in contracts(call, home_of(file), file)]


def clauses_of_rule(cell):
    """The calls of a cell, each with the clauses that the cell names of it: FILE `call`: `clause`, `clause`; `call`: .."""
    for part in cell.split("; "):
        calls, _, clauses = part.partition(": ")
        for call in QUOTED.findall(calls):
            yield QUOTED.findall(clauses), call


def clause_faults(where, call, clauses, found):
    if not found:
        yield f"{where}: no call {call}"
    for clause in clauses:
        if found and not any(clause in it for it in found):
            yield f"{where}: {call} has no clause {clause}"


def architecture_faults(text):
    """The tables of crates: in the row of each crate are its public modules, and the first lines of each say what it is for."""
    section = text[text.index("## The crates") : text.index("## The path of the data")]
    for crate, purpose in re.findall(r"(?m)^\| \*\*(\w+)\*\* \| ([^|]*) \|", section):
        modules = {it for it in HOMES if HOMES[it] == crate and it != crate}
        said = set(re.findall(r"\w+", purpose.partition("; modules: ")[2]))
        for name in sorted(modules ^ said):
            yield f"{crate}: the module {name} {'is not in its row' if name in modules else 'is none of it'}"
        for path in (Path(crate, "src", f"{it}.rt") for it in ["lib", *sorted(modules)]):
            if path in CODE and not re.search(r"(?m)^//! \w", CODE[path]):
                yield f"{path}: its first lines do not say what it is for"


def change_faults(text):
    """The rows of a page that name the places of a change: a file, and a word of it."""
    for file, word in re.findall(r"(?m)^\| crates/(\S+\.(?:rt|antt)) \|[^|\n]*?`(\w+)`", text):
        path = Path(file)
        if not re.search(rf"\b{word}\b", CODE.get(path, SPECS.get(path, PROOFS.get(path, "")))):
            yield f"no {word} in {file}"


def edit_faults(text):
    """The table of edits: each edit that there is, once, with the crate or the module of the file that it changes first."""
    rows = re.findall(r"(?m)^\|[^|]+\| *(\w+) *\| *`(\w+)` *\|$", text)
    for home, edit in rows:
        if edit not in EDITS or home_of_edit(EDITS[edit]) != home:
            yield f"no edit {edit} in {home}"
    counts = [(it, [edit for _, edit in rows].count(it)) for it in EDITS]
    yield from (f"{it} has {count} rows" for it, count in counts if count != 1)


def home_of_edit(path):
    file = re.search(r"(?m)^file: *(\S+)$", path.read_text(encoding="utf-8"))
    return home_of(f"{path.parts[-3]}/{file[1]}")


def proved_faults(text):
    """The clauses of both top calls, each said, and no others."""
    one = (("utm_cli", "AnswersOne"), ("call_ends", "RunsLawfully"))
    for title, records in (("## One disk", one), ("## Two disks", (("utm_cli", "AnswersTwo"),))):
        said = clauses_said(section_of(text, title))
        fields = [it for record in records for it in RECORDS[record]]
        fields = [it for it in fields if it != "laws" or len(records) == 1]
        yield from (f"{title}: no clause {it}" for it in said if it not in fields)
        yield from (f"{title}: the clause {it} is not said" for it in fields if it not in said)
        yield from (f"{title}: the clause {it} is said twice" for it in sorted(set(said)) if said.count(it) > 1)
    for item in items_of(section_of(text, "## The laboratory")):
        yield from call_faults(item)
    for home, call, clauses in re.findall(r"(?m)^([a-z_]+) `(\w+)`: ((?:`\w+`(?:, )?)+):", text):
        yield from clause_faults(f"the call of {home}", call, QUOTED.findall(clauses), contracts(call, home))
    for home, call, clause in re.findall(r"(?m) (\w+) (\w+): (\w+)$", section_of(text, "## From the disk")):
        yield from clause_faults(f"the drawing, {home}", call, [clause], contracts(call, home))


def section_of(text, title):
    """What is below this heading, up to the next one of its height."""
    level = title.split(" ")[0]
    found = re.search(rf"(?ms)^{re.escape(title)}.*?\n(.*?)(?=^{level} |\Z)", text)
    return found.group(1) if found else ""


def items_of(section):
    """The items of the lists, each in one line."""
    return re.findall(r"(?m)^- (.*)$", re.sub(r"\n +", " ", section))


def clauses_said(section):
    """The clauses at the beginning of each item, as `a`, `b`: what they say."""
    heads = [re.match(r"(`\w+`(?:, `\w+`)*): ", it) for it in items_of(section)]
    return [name for head in heads if head for name in QUOTED.findall(head.group(1))]


def call_faults(item):
    """An item of calls: home `call`, `call`: `clause`, `clause`: what they say."""
    head = re.match(r"(\w+) ((?:`[\w:]+`(?:, )?)+): ((?:`\w+`(?:, )?)*)", item)
    if head is None or head.group(1) not in HOMES:
        yield f"the laboratory: no call at the beginning of: {item[:40]}"
        return
    for call in QUOTED.findall(head.group(2)):
        found = contracts(call.split("::")[-1], head.group(1))
        yield from clause_faults("the laboratory", call, QUOTED.findall(head.group(3)), found)


def laws_of_sources():
    """The functions without arguments and results, by their homes, each with the comment above it."""
    law = re.compile(r"(?m)((?:^(?:///|#\[).*\n)*)^pub fn (\w+)\(\)\n")
    found = ((HOME[path], one[2], one[1]) for path, text in CODE.items() for one in law.finditer(text))
    return {(home, name): " ".join(re.findall(r"(?m)^/// ?(.*)$", above)) for home, name, above in found}


def law_faults(model):
    """The laws in the table are there; and each law says what it is."""
    laws = laws_of_sources()
    for home, names in re.findall(r"(\w+) ((?:`\w+`(?:, )?)+)", section_of(model, "## What is proved of")):
        for name in QUOTED.findall(names):
            if home in HOMES and (home, name) not in laws and not contracts(name, home):
                yield f"no law {name} in {home}"
    yield from (f"the law {name} of {home} has no comment" for (home, name), says in sorted(laws.items()) if not says)


def clause_names_faults(text):
    """The table of names of clauses: each is the name of a clause in the sources."""
    clauses = set(re.findall(r"\bensures (\w+) *\{", " ".join(CODE.values())))
    named = re.findall(r"(?m)^\| ((?:`\w+`(?:, )?)+) \|", section_of(text, "## Names of clauses"))
    yield from (f"no clause {it}" for row in named for it in QUOTED.findall(row) if it not in clauses)


def length_faults(page):
    lines = len(page.read_text(encoding="utf-8").split("\n")) - 1
    if lines > MOST_LINES:
        yield f"{lines} lines, and at most {MOST_LINES} are to be read"


def main(words):
    if words == ["--laws"]:
        for (home, name), says in sorted(laws_of_sources().items()):
            print(f"{home} {name}: {says}")
        return 0
    if words:
        sys.exit(__doc__)
    faults = [f"{page.relative_to(TOP)}: {it}" for page in pages() for it in page_faults(page)]
    docs = TOP / "docs"
    for page in (TOP / "README.md", docs / "DECISIONS.md"):
        faults += [f"{page.relative_to(TOP)}: {it}" for it in length_faults(page)]
    faults += [f"docs/words.md: {it}" for it in clause_names_faults((docs / "words.md").read_text(encoding="utf-8"))]
    architecture = (docs / "ARCHITECTURE.md").read_text(encoding="utf-8")
    faults += [f"docs/ARCHITECTURE.md: {it}" for it in [*architecture_faults(architecture), *pair_faults(architecture)]]
    faults += [f"docs/RULES.md: {it}" for it in rule_faults((docs / "RULES.md").read_text(encoding="utf-8"))]
    changing = (docs / "changing.md").read_text(encoding="utf-8")
    faults += [f"docs/changing.md: {it}" for it in change_faults(changing)]
    faults += [f"docs/edits.md: {it}" for it in edit_faults((docs / "edits.md").read_text(encoding="utf-8"))]
    proved = (docs / "PROVED.md").read_text(encoding="utf-8")
    faults += [f"docs/PROVED.md: {it}" for it in proved_faults(proved)]
    model = (docs / "MODEL.md").read_text(encoding="utf-8")
    faults += [f"docs/MODEL.md: {it}" for it in law_faults(model)]
    for it in faults:
        print("tools/named.py:", it)
    return 1 if faults else 0


if __name__ == "__main__":
    sys.exit(main(sys.argv[1:]))
