#!/usr/bin/env python3
"""Finds what a reader has to read to know what the call `utm_twin` promises.

    python3 tools/trusted.py            writes docs/TRUSTED.md: the order in which to read, and the sums
    python3 tools/trusted.py --list     prints each definition with its file and its lines
    python3 tools/trusted.py --check    says where the page is another one; the status is 1 then

It begins with the clauses of `utm_twin` in crates/utm_cli/src/twin/top.rt, and follows each word to its definition, and the words
of that one to theirs, down to the words of the kit.
"""

import re
import sys
from pathlib import Path
from textwrap import fill, wrap

sys.dont_write_bytecode = True

from antt_text import TOP, Item, Page, Reader, antt_paths, free_words, head_of, is_kit, module_of, rust_pages, tokens_of

PAGE = TOP / "docs" / "TRUSTED.md"
START = ("utm_cli", ["twin", "top"], "utm_twin")
LANGUAGE = ("⊥", "⊤", "Unit", "tt", "absurd")

# The order in which to read: parts, and in each the crates with the files to begin with, below specs/.
PARTS = (
    ("The clauses", "what a call may answer, send and leave, for each word", (
        ("utm_cli", "Answers Promise PromiseTwo Doing DoingTwo"),
        ("call_ends", "Stops LawfulRuns"),
        ("call_parts", "Requests Asking Words Opening Leaving LeavingTwo"),
        ("refusals", "Statuses Lines"),
    )),
    ("The outside", "what a disk, a line and a folder do, and what a stop leaves", (
        ("kd_device", "Device Room Twin"),
    )),
    ("The cut", "acts that are done, over one file and two", (
        ("device_acts", "Stands Opening Acting Said"),
        ("device_run", "Running"),
        ("twin_run", "Running"),
        ("kdcfile_double", "Opening"),
        ("monitor_core", "CoreValue"),
    )),
    ("The monitor", "tables, states, calls, endings, turns, commands: the trace of a script ([MODEL](MODEL.md))", (
        ("kdcs_types", "Tables Keys Difference"),
        ("abstract_monitor", "State Turns Statements Calls Locks Outcomes Endings Sessions Commands Trace"),
    )),
    ("The laws", "what the clause `laws` says of a run", (
        ("laws_of_runs", "Lawful Access QueueLaws ManyRuns ResumeLaws SerialCuts"),
        ("laws_of_states", "Cut Suits Facts Commits Replay"),
    )),
    ("The file", "which bytes stand for which tables ([kdcfile](kdcfile.md))", (
        ("kdcfile_layout", "Layout Places Fresh Bound"),
        ("kd_records", "Contents Keys Charge Identity"),
        ("record_codec", "Values Records"),
        ("kdcfile_store", "Paged"),
        ("kdcfile_copies", "Copies"),
        ("table_fit", "Suiting"),
    )),
    ("The texts", "what a definition, units and a script say, and their first faults", (
        ("application_read", "Texts Definition"),
        ("application_types", "Statements Generation Soundness UnitText Fitted"),
        ("texts", "Grammar Spelling Faults Lines"),
        ("kdcdef_read", "Meaning Said Table Values"),
        ("application_check", "Generating Faults FitFaults"),
        ("unit_read", "Grammar Spelling Faults"),
        ("script_read", "Commands Script"),
    )),
    ("Updates", "which rows stay, and why a file is refused", (
        ("kdcfile_update", "Updating Report"),
        ("kd_update", "Carrying Judging"),
    )),
    ("Trails", "what `trail` prints and `audit` asks", (
        ("trail_run", "Entries OwnTrails OwnAudits InTurn"),
        ("serial_audit", "Audit"),
        ("audit_trail", "Written Lines Places Kept"),
    )),
    ("Base words", "names, numbers, printed bytes", (
        ("kd_base", "Text Field"),
    )),
)

INTRODUCTION = """# What has to be read

What the one call of the program, `utm_twin`, promises is what its clauses say: the record `AnswersTwo` of utm_cli, with
the clauses of `utm` as `AnswersOne`. Who has read the definitions that these reach, down to the words of the kit, knows
what is promised.

{sums}

    python3 tools/trusted.py --list

prints each definition with its file and its lines, the sums of each crate, and the {kit} words of the kit.

The rest of `specs/`, all of `proofs/`, and the bodies of functions are checked by the prover, and need not be read or
trusted. A file of `specs/` has definitions alone, or its name ends in `Laws`; what has to be read is in the former, but
for the lemmas named below. `main`, and the twin and the room of kd_host, are no part of the list: they are
[trusted](PROVED.md#what-is-trusted).

## The order in which to read

From the clauses down; in each crate begin with the files named, which are in its `specs/`. For one promise alone, read
its clause in Answers.antt and follow its words.

| Part | It says | Crates and files to begin with | Definitions | Lines |
|---|---|---|---|---|
{parts}

## What counts

- Of `utm_twin` its comment, its signature and its clauses.
- A definition, a record or a data type, with its clauses, helpers and fields, and the comment right above it. All that
  it names is reached, but for what comes after `unfolding`, which says only how a body is checked.
- A Rust type, and its `impl Model` if it has one, which says what its value is. A constant, if a definition names it. A
  trait, with the clauses of its calls: they are what is asked of a device and of a room.
{lemmas}
- Empty lines and imports do not count.

`tools/trusted.py` makes this page, and `./test` checks it.
"""

SUMS = """In sum there are {} crates, {} definitions and {} lines: {} in `specs/` and {} in `src/`.
Of these lines, {} are comments."""

KIT = """
## Words of the kit

These {count} words are defined in the kit, or belong to the language.

"""


class Reached:
    """A definition that is reached, and where it is: `at` is its place within the file."""

    def __init__(self, page, name, counted, at, shape):
        self.crate, self.file = page.relative.split("/", 1)
        self.name = name
        self.lines = counted.lines
        self.comments = counted.comments
        self.at = at
        self.shape = shape


class Finder:
    """Follows words to definitions."""

    def __init__(self):
        self.pages = {module_of(it): it for it in antt_paths()}
        self.rust = {(it.crate, tuple(it.module)): it for it in rust_pages()}
        self.reached = {}
        self.kit = set()
        self.unknown = set()
        self.left = []

    def page(self, module):
        """The page of a module. It is read when it is asked for the first time."""
        if isinstance(self.pages.get(module), Path):
            self.pages[module] = Page(self.pages[module])
        return self.pages.get(module)

    # what is reached

    def take_definition(self, definition):
        key = (definition.page.module, definition.name)
        if key not in self.reached:
            page = definition.page
            self.reached[key] = Reached(page, definition.name, definition, definition.first, definition.shape)
            self.left.append(lambda: self.follow_words(page, Reader(page).named_by(definition)))

    def take_item(self, item, lines=None, code=None):
        key = (item.page.relative, item.kind, item.name)
        if key in self.reached:
            return
        page = item.page
        name = item.name if item.kind != "impl" else ("impl " + item.name).replace("impl <", "impl<")
        self.reached[key] = Reached(page, name, item, page.items.index(item), item.kind)
        if lines is not None:
            self.reached[key].lines = lines
        self.left.append(lambda: self.follow_item(item, code))
        if item.kind in ("struct", "enum"):
            self.take_model(item)

    def take_model(self, item):
        """The impl that says which value stands for the type."""
        for page in self.rust.values():
            if page.home == item.page.home:
                for it in page.items:
                    if it.kind == "impl" and re.search(rf"\bModel for {item.name}\b", it.name):
                        self.take_item(it)

    # what a text names

    def follow_words(self, page, words):
        for word in words:
            self.follow_word(page, word)

    def follow_word(self, page, word):
        one = page.words.get(word) or page.words.get(head_of(word))
        local = page.local(word)
        if local is not None:
            self.take_definition(local)
        elif one is not None:
            behind = "" if word in page.words else word[len(head_of(word)) :]
            self.follow_path(one.path + behind)
        elif word in LANGUAGE:
            self.kit.add(("the language", word))
        elif not word.startswith("."):
            self.unknown.add((page.relative, word))

    def follow_path(self, path):
        names = path.split(".")
        if is_kit(path):
            self.kit.add((".".join(names[1:-1]), names[-1]))
        elif len(names) > 3 and names[3] == "declared":
            self.follow_declared(names)
        else:
            self.follow_antt(names)

    def follow_antt(self, names):
        """Rattle.CRATE.specs.MODULE.name, or a name within it."""
        for end in range(len(names) - 1, 2, -1):
            page = self.page(".".join(names[:end]))
            if page is not None:
                local = page.named.get(names[end]) or page.built.get(names[end])
                if local is not None:
                    self.take_definition(local)
                else:
                    self.unknown.add((page.relative, names[end]))
                return
        self.unknown.add(("", ".".join(names)))

    def follow_declared(self, names):
        """Rattle.CRATE.specs.declared.MODULE.Type..., which stands in CRATE/src/MODULE.rt."""
        crate, rest = names[1], names[4:]
        for end in range(len(rest) - 1, -1, -1):
            page = self.rust.get((crate, tuple(rest[:end])))
            name = rest[end + 1] if rest[end] == "TheConstants" and len(rest) > end + 1 else rest[end]
            if page is not None and page.item(name) is not None:
                self.take_item(page.item(name))
                return
        self.unknown.add(("", ".".join(names)))

    def follow_item(self, item, code):
        page = item.page
        text = item if code is None else Item(page, item.kind, item.name, code, 0, 0)
        for contract in text.contracts():
            self.follow_words(page, contract_words(page, contract))
        for word in set(re.findall(r"[A-Za-z_]\w*", text.rust())):
            self.follow_rust(page, word)

    def follow_rust(self, page, word):
        local = page.item(word)
        if local is not None and local.kind != "fn":
            self.take_item(local)
            return
        for one in page.uses:
            if one.word == word:
                self.follow_use(page, one.path.split("."))

    def follow_use(self, page, names):
        """A path of Rust: crate.module.Name, or library.Name, which its lib.rt hands on."""
        crate = page.crate if names[0] == "crate" else names[0]
        if (crate, ()) not in self.rust:
            return
        for end in range(len(names) - 1, 0, -1):
            target = self.rust.get((crate, tuple(names[1:end])))
            if target is None:
                continue
            found = target.item(names[end])
            if found is not None and found.kind != "fn":
                self.take_item(found)
                return
            for one in target.uses:
                if one.word == names[end] and one.path != ".".join(names):
                    self.follow_use(target, self.from_crate(target, one.path.split(".")))
                    return

    def from_crate(self, page, names):
        """The path that a module hands on, from its crate: it may begin with a module within this one."""
        within = (page.crate, (*page.module, names[0])) in self.rust
        return ["crate", *page.module, *names] if within else names

    def run(self):
        start = self.rust[(START[0], tuple(START[1]))]
        item = start.item(START[2])
        code = head_of_function(item.code)
        self.take_item(item, item.lines - lines_of(item.code) + lines_of(code), code)
        while self.left:
            self.left.pop()()


def head_of_function(code):
    """The signature of a function and its clauses, without its body."""
    return code[: code.index("\n{\n")]


def lines_of(code):
    return sum(1 for line in code.split("\n") if line.strip())


def contract_words(page, contract):
    """The words of a contract that are imported, and those of the language. The rest are arguments and members."""
    found, _ = free_words(tokens_of(contract), (), page.words.__contains__)
    return [it for it in found if it in page.words or head_of(it) in page.words or it in LANGUAGE]


# ---- the page


def page_text(finder):
    """The whole page."""
    reached = list(finder.reached.values())
    lemmas = lemmas_text([it for it in reached if it.shape == "plain"])
    sums = sums_text(len({it.crate for it in reached}), reached)
    kit = len({word for _, word in finder.kit})
    return INTRODUCTION.format(sums=sums, kit=kit, parts=parts_text(reached), lemmas=lemmas)


def parts_text(reached):
    """The rows of the parts."""
    rows = []
    for place, (part, says, crates) in enumerate(PARTS):
        names = {crate for crate, _ in crates}
        within = [it for it in reached if it.crate in names]
        files = "; ".join(f"{crate}: {', '.join(files.split())}" for crate, files in crates)
        rows.append(f"| {place + 1}. {part} | {says} | {files} | {grouped(len(within))} | {lines_in(within)} |")
    return "\n".join(rows)


def lines_in(reached):
    return grouped(sum(it.lines for it in reached))


def order_faults(reached):
    """What the order of reading leaves out or names in vain."""
    ordered = [crate for _, _, crates in PARTS for crate, _ in crates]
    crates = {it.crate for it in reached}
    files = {(it.crate, it.file) for it in reached}
    yield from (f"{it} is in no part of the order" for it in sorted(crates - set(ordered)))
    yield from (f"{it} is not reached" for it in ordered if it not in crates)
    yield from (f"{it} is in two parts" for it in sorted({it for it in ordered if ordered.count(it) > 1}))
    for _, _, parts in PARTS:
        for crate, names in parts:
            yield from (f"no {it}.antt in {crate}" for it in names.split() if (crate, f"specs/{it}.antt") not in files)


def list_text(finder):
    """Each definition with its file and its lines, the highest crate first, and the words of the kit."""
    reached = list(finder.reached.values())
    crates = [it for it in crates_from_above() if any(one.crate == it for one in reached)]
    return "".join(crate_text(it, [one for one in reached if one.crate == it]) for it in crates).lstrip("\n") + kit_text(finder.kit)


def sums_text(crates, reached):
    specs = sum(it.lines for it in reached if it.file.startswith("specs/"))
    lines = sum(it.lines for it in reached)
    sums = [crates, len(reached), lines, specs, lines - specs, sum(it.comments for it in reached)]
    return fill(SUMS.format(*(grouped(it) for it in sums)), 120)


def grouped(number):
    return f"{number:,}"


def lemmas_text(lemmas):
    if not lemmas:
        return "- A lemma, if a reached definition names it. There is none."
    names = [f"`{it.name}` of {it.crate}" for it in sorted(lemmas, key=lambda it: (it.crate, it.name))]
    text = f"- A lemma, if a reached definition names it. There are {len(lemmas)}: {', '.join(names)}."
    return fill(text, 120, subsequent_indent="  ")


def crates_from_above():
    """The crates of crates.txt, each before those that it stands on."""
    lines = (TOP / "crates.txt").read_text(encoding="utf-8").split("\n")
    parts = [line.split(":") for line in lines if ":" in line and line[0] != "#"]
    below = {part[0].split()[0]: part[1].split() for part in parts}
    heights = {}
    for crate in below:
        take_height(crate, below, heights)
    return sorted(heights, key=lambda it: (-heights[it], it))


def take_height(crate, below, heights):
    """The height of a crate is that of the highest one below it, and one more."""
    if crate not in heights:
        heights[crate] = 1 + max((take_height(it, below, heights) for it in below[crate] if it in below), default=0)
    return heights[crate]


def crate_text(crate, reached):
    lines = sum(it.lines for it in reached)
    count = f"{grouped(len(reached))} definition{'s' if len(reached) > 1 else ''}"
    text = f"\n## {crate}: {count}, {grouped(lines)} lines\n\n| File | Definitions | Lines |\n|---|---|---|\n"
    for file in sorted({it.file for it in reached}):
        within = sorted((it for it in reached if it.file == file), key=lambda it: it.at)
        names = ", ".join(f"`{it.name}` {it.lines}" for it in within)
        text += row_text(file, names, grouped(sum(it.lines for it in within)))
    return text


def row_text(file, names, lines):
    """The row of a file, or several where it would be too long."""
    parts = wrapped(re.sub(r"` (?=\d)", "`\xa0", names), 120 - len(f"| {file} |  | {lines} |"))
    return f"| {file} | {parts[0]} | {lines} |\n" + "".join(f"| | {it} | |\n" for it in parts[1:])


def wrapped(text, width, indent=""):
    """The lines of a text, broken at blanks alone; a blank that holds its words together becomes an ordinary one."""
    found = wrap(text, width, subsequent_indent=indent, break_long_words=False, break_on_hyphens=False)
    return [it.replace("\xa0", " ") for it in found]


def kit_text(kit):
    text = KIT.format(count=len({word for _, word in kit}))
    for module in sorted({it for it, _ in kit}):
        words = sorted(word for it, word in kit if it == module)
        line = f"- {module}: {', '.join(f'`{word}`' for word in words)}"
        text += "\n".join(wrapped(line, 120, "  ")) + "\n"
    return text


# ---- the check


def differences(old, new):
    """The lines of the page that are there no longer, and those that are to be there."""
    before, now = old.split("\n"), new.split("\n")
    found = [f"no longer: {it}" for it in before if it not in now] + [f"now: {it}" for it in now if it not in before]
    return found or ["the order of its lines"]


def check(text):
    old = PAGE.read_text(encoding="utf-8") if PAGE.is_file() else ""
    if old == text:
        return 0
    print("docs/TRUSTED.md is not up to date; python3 tools/trusted.py writes it:")
    for it in differences(old, text):
        print(" ", it)
    return 1


def main(words):
    if words not in ([], ["--check"], ["--list"]):
        sys.exit(__doc__)
    finder = Finder()
    finder.run()
    if finder.unknown:
        print("tools/trusted.py: no definition is found for:", *sorted(finder.unknown), sep="\n  ")
        return 1
    faults = list(order_faults(finder.reached.values()))
    if faults:
        print("tools/trusted.py: the order in which to read:", *faults, sep="\n  ")
        return 1
    if words == ["--list"]:
        print(list_text(finder), end="")
        return 0
    text = page_text(finder)
    if words:
        return check(text)
    PAGE.write_text(text, encoding="utf-8")
    return 0


if __name__ == "__main__":
    sys.exit(main(sys.argv[1:]))
