"""Reads .antt files and the contracts of .rt files: imports, definitions, and the words that a definition names.

It is a library of the other scripts of this folder, and is not run. It reads the texts as they stand, without the kit:
names are found by their spelling, imports and scopes. What it cannot see are names that a tactic finds by itself.
"""

import re
from pathlib import Path

TOP = Path(__file__).resolve().parent.parent
TOKEN = re.compile(r'"(?:[^"\\]|\\.)*"|[(){};,]|[^\s(){};,"]+')
LAMBDA_DOT = re.compile(r"(?<=\S)\.(?=\s|$)")
MODIFIERS = ("pub", "abbrev", "unfoldable")
SHAPES = ("record", "data")
SETTINGS = ("mod", "infixl", "infixr", "infix")
PUNCTUATION = set(': = . ; , | → × λ ↦ _ let in where record elim as Type unfolding pub'.split())
HOLE = "◌"


def without_comments(text, mark):
    """Returns the text with comments cut off; lines stay. A mark within a string starts none."""
    return "\n".join(without_comment(line, mark) for line in text.split("\n"))


def without_comment(line, mark):
    at = line.find(mark)
    while at >= 0:
        if not is_quoted(line, at) and (at == 0 or line[at - 1].isspace() or mark == "//"):
            return line[:at].rstrip()
        at = line.find(mark, at + 1)
    return line


def is_quoted(line, at):
    """Whether this place stands within a string."""
    quotes = line.count('"', 0, at) - line.count('\\"', 0, at) - line.count("'\"'", 0, at)
    return quotes % 2 == 1


def tokens_of(text):
    """Returns the words and brackets of a text without comments. The dot behind the variables of a λ is a word."""
    return TOKEN.findall(LAMBDA_DOT.sub(" .", text))


# ---- imports


class Import:
    """A name of another text, as this one spells it: `path` is the whole name, and `word` stands for it here."""

    def __init__(self, path, word):
        self.path = path
        self.word = word


def imports_of(text):
    """Returns the imports of `A.B.{c, d as e, F.{g}}`, the text between `use` and its end."""
    tokens = re.findall(r"[{},]|[^\s{},]+", text)
    found = []
    take_imports(tokens, 0, "", found)
    return found


def take_imports(tokens, at, before, found):
    """Takes the items from `at` up to the closing bracket, and answers the place behind it."""
    while at < len(tokens) and tokens[at] != "}":
        if tokens[at] == ",":
            at += 1
            continue
        path = before + tokens[at]
        at += 1
        if path.endswith(".") and at < len(tokens) and tokens[at] == "{":
            at = take_imports(tokens, at + 1, path, found)
            continue
        word = path.rsplit(".", 1)[-1]
        if at < len(tokens) and tokens[at] == "as":
            word = tokens[at + 1]
            at += 2
        found.append(Import(path, word))
    return at + 1


def parts_of(word):
    """Returns the pieces of a name with places for operands; ◌+◌ has +."""
    return [part for part in word.split(HOLE) if part] or [word]


def by_word(imports):
    """Returns the imports by each piece of their words, and by the words themselves."""
    found = {}
    for one in imports:
        for part in parts_of(one.word) + [one.word]:
            found.setdefault(part, one)
    return found


CRATES = {it.name for it in (TOP / "crates").iterdir()}


def public_modules(crate):
    """The modules that a crate hands on whole. NAME is in src/NAME.rt, and in src/NAME/ and proofs/NAME/ where it has
    more files."""
    library = TOP / "crates" / crate / "src" / "lib.rt"
    return re.findall(r"(?m)^pub mod (\w+);", library.read_text(encoding="utf-8")) if library.is_file() else []


# What the documents name in front of a call: a crate, or a public module, with the crate that it is in.
HOMES = {name: crate for crate in sorted(CRATES) for name in (crate, *public_modules(crate))}


def home_of(relative):
    """The home of a file, whose place below crates/ this is: the public module that it is of, else its crate."""
    names = str(relative).split("/")
    module = Path(names[2]).stem if len(names) > 2 and names[1] in ("src", "proofs") else ""
    return module if HOMES.get(module) == names[0] else names[0]


def is_kit(path):
    """Whether the name is none of the repository's crates."""
    names = path.split(".")
    return names[0] != "Rattle" or names[1] not in CRATES


# ---- definitions


class Clause:
    """One equation: what stands left and right of the first `=`, and the definitions of its `where`."""

    def __init__(self, left, right, helpers):
        self.left = left
        self.right = right
        self.helpers = helpers


class Definition:
    """A record, a data type, a definition or a lemma, with its clauses and the parameters of the modules around."""

    def __init__(self, page, name, shape, public, signature, outer):
        self.page = page
        self.name = name
        self.shape = shape  # record, data, abbrev, unfoldable, or plain
        self.public = public
        self.signature = signature  # the tokens behind the name
        self.outer = outer  # the tokens of the parameters of the modules around
        self.clauses = []
        self.unfolds = []
        self.lines = 0  # with comments, without empty lines
        self.comments = 0
        self.first = 0

    def place(self):
        return f"{self.page.relative}: {self.name}"

    def statement(self):
        """The tokens of the type, with the parameters of the modules around; for a record, with its fields."""
        signature = self.signature[1:] if self.signature[:1] == [":"] else self.signature
        return self.outer + signature

    def fields(self):
        """The places of the colons behind the names that a record or a data type declares: fields or constructors."""
        found, depth = [], 0
        tokens = self.signature
        body = tokens.index("where") + 1 if "where" in tokens else len(tokens)
        for at in range(body, len(tokens)):
            depth += (tokens[at] in ("(", "{")) - (tokens[at] in (")", "}"))
            if depth == 0 and tokens[at] == ":":
                found.append(at)
        return found

    def constructors(self):
        """The names of a record's fields or a data type's constructors."""
        return [self.signature[at - 1] for at in self.fields()]


class Page:
    """An .antt file."""

    def __init__(self, path):
        self.path = path
        self.relative = str(path.relative_to(TOP / "crates"))
        self.crate = self.relative.split("/")[0]
        self.home = home_of(self.relative)
        self.module = module_of(path)
        self.imports = []
        self.definitions = []
        self.text = path.read_text(encoding="utf-8")
        raw = self.text.split("\n")
        self.code = without_comments(self.text, "--").split("\n")
        take_block(self, list(range(len(raw))), raw, self.code, [], self.definitions)
        self.words = by_word(self.imports)
        self.named = {}
        for one in self.definitions:
            for part in parts_of(one.name) + [one.name]:
                self.named.setdefault(part, one)
        self.built = {name: one for one in self.definitions if one.shape == "data" for name in one.constructors()}

    def local(self, word):
        """The definition of this page that the word names, or of which it takes a field, as `lemma.field`."""
        for name in (word, head_of(word)):
            found = self.named.get(name) or self.built.get(name)
            if found is not None:
                return found
        return None


def module_of(path):
    """The name of a file: Rattle.CRATE.specs.MODULE."""
    return ".".join(("Rattle",) + path.relative_to(TOP / "crates").with_suffix("").parts)


def indent_of(line):
    return len(line) - len(line.lstrip(" "))


def take_block(page, lines, raw, code, outer, definitions):
    """Reads the lines with these numbers as items of one block, and puts its definitions into the list."""
    kept = [n for n in lines if code[n].strip()]
    if not kept:
        return
    base = indent_of(code[kept[0]])
    for item in items_of(lines, code, base):
        take_item(page, item, raw, code, outer, definitions)


def items_of(lines, code, base):
    """Returns the items of a block, lists of the numbers of their lines. A line that is deeper, or closes a bracket,
    goes on with the one before."""
    items = []
    for n in lines:
        if not code[n].strip():
            continue
        line = code[n]
        if items and (indent_of(line) > base or line.lstrip()[0] in "})]"):
            items[-1].append(n)
        else:
            items.append([n])
    return items


def take_item(page, item, raw, code, outer, definitions):
    """Takes an import, a block or a definition, or a clause of the definition before."""
    first = tokens_of(code[item[0]])
    if first[0] == "use":
        page.imports += imports_of(text_of(item, code).strip()[len("use") :])
    elif first[0] in SETTINGS or first[:2] == ["pub", "mod"]:
        return
    elif first[0] == "module":
        take_module(page, item, raw, code, outer, definitions)
    elif is_signature(first):
        definitions.append(begin(page, tokens_of(text_of(item, code)), outer))
        definitions[-1].first = item[0]
        count_lines(definitions[-1], item, raw, code)
    elif definitions:
        continue_with(page, definitions[-1], item, raw, code, first)


def text_of(item, code):
    return "\n".join(code[n] for n in item)


def take_module(page, item, raw, code, outer, definitions):
    """A block `module _ PARAMETERS where`: its parameters are those of each of its definitions."""
    last = next((k for k, n in enumerate(item) if code[n].rstrip().endswith("where")), len(item) - 1)
    head = tokens_of(text_of(item[: last + 1], code))
    rest = list(range(item[last] + 1, item[-1] + 1))
    take_block(page, rest, raw, code, outer + head[2:-1], definitions)


def is_signature(tokens):
    if tokens[0] in MODIFIERS or tokens[0] in SHAPES:
        return True
    return len(tokens) > 1 and tokens[1] == ":"


def begin(page, tokens, outer):
    at, public, shape = 0, False, "plain"
    while tokens[at] in MODIFIERS or tokens[at] in SHAPES:
        public = public or tokens[at] == "pub"
        if tokens[at] != "pub":
            shape = tokens[at]
        at += 1
    return Definition(page, tokens[at], shape, public, tokens[at + 1 :], outer)


def comment_above(n, raw, code):
    """How many lines of comment stand right above this line."""
    count = 0
    while n - count - 1 >= 0 and raw[n - count - 1].strip() and not code[n - count - 1].strip():
        count += 1
    return count


def count_lines(definition, item, raw, code):
    """Counts the lines of an item, with the comments within it and right above it."""
    within = sum(1 for n in range(item[0], item[-1]) if raw[n].strip() and not code[n].strip())
    comments = comment_above(item[0], raw, code) + within
    definition.comments += comments
    definition.lines += len(item) + comments


def continue_with(page, definition, item, raw, code, first):
    count_lines(definition, item, raw, code)
    if first[0] == "unfolding":
        definition.unfolds += tokens_of(text_of(item, code))[1:]
        return
    definition.clauses.append(clause_of(page, item, raw, code))


def clause_of(page, item, raw, code):
    """The equation of these lines. Its helpers stand behind a line that ends in `where`."""
    last = next((k for k, n in enumerate(item) if code[n].split()[-1] == "where"), None)
    helpers = []
    head = item if last is None else item[: last + 1]
    if last is not None:
        take_block(page, list(range(item[last] + 1, item[-1] + 1)), raw, code, [], helpers)
    tokens = tokens_of(text_of(head, code))
    if last is not None and tokens and tokens[-1] == "where":
        tokens = tokens[:-1]
    at = tokens.index("=") if "=" in tokens else len(tokens)
    return Clause(tokens[:at], tokens[at + 1 :], helpers)


# ---- the words that a text names


class Level:
    """What is open within one pair of brackets: the variables, those of a group `(x y : T)`, which are variables behind
    it, and whether the words are those of a pattern, or of a λ in front of its dot."""

    def __init__(self, variables, behind, in_pattern):
        self.variables = set(variables)
        self.behind = behind
        self.is_pattern = in_pattern
        self.in_pattern = in_pattern
        self.in_lambda = False


class Walk:
    """Goes through the tokens of a type or of the right side of an equation, and collects the words that are no
    variables there."""

    def __init__(self, tokens, variables, is_constructor):
        self.tokens = tokens
        self.is_constructor = is_constructor
        self.levels = [Level(variables, [], False)]
        self.after_let = False
        self.at = 0
        self.found = []
        while self.at < len(tokens):
            self.step(tokens[self.at])
            self.at += 1

    def step(self, token):
        level = self.levels[-1]
        if token in ("(", "{"):
            self.open(level)
        elif token in (")", "}"):
            self.close(level)
        elif token == "λ":
            level.in_lambda = True
        elif token == ".":
            level.in_lambda = False
        elif token in ("|", "["):
            level.in_pattern = True
        elif token == "↦":
            level.in_pattern = False
        elif token == "let":
            self.after_let = True
        elif token not in PUNCTUATION and not self.is_label(token):
            self.word(token, level)

    def open(self, level):
        names = group_names(self.tokens, self.at)
        self.levels.append(Level(level.variables, names, (level.in_lambda or level.in_pattern) and not names))
        self.at += len(names)

    def close(self, level):
        if len(self.levels) > 1:
            self.levels.pop()
            self.levels[-1].variables.update(level.behind)
            if level.is_pattern:
                self.levels[-1].variables.update(level.variables)

    def word(self, token, level):
        if self.after_let or (level.in_lambda or level.in_pattern) and not self.is_constructor(token):
            level.variables.add(token)
        elif is_name(token) and head_of(token) not in level.variables:
            self.found.append(token)
        self.after_let = False

    def is_label(self, token):
        """Whether it is a field of a record that is made: a word before `=` and behind a bracket or a semicolon."""
        before, behind = self.tokens[self.at - 1 : self.at], self.tokens[self.at + 1 : self.at + 2]
        return behind == ["="] and before in (["{"], [";"])


def free_words(tokens, variables, is_constructor):
    """Returns the words that are no variables, given those around, and the variables that stand to the end."""
    walk = Walk(tokens, variables, is_constructor)
    return walk.found, walk.levels[0].variables


def is_name(token):
    return token[0] != '"' and not token[0].isdigit()


def head_of(token):
    """The variable of `x.field`, or the whole word."""
    return token.split(".")[0] if "." in token.strip(".") else token


def group_names(tokens, at):
    """Returns x and y of a group `(x y : T)` that opens here; none where it is another bracket."""
    end = at + 1
    while end < len(tokens) and tokens[end] not in ("(", ")", "{", "}", ",", ";", ":", "=", "λ", "→", "×"):
        end += 1
    if end < len(tokens) and tokens[end] == ":" and end > at + 1:
        return tokens[at + 1 : end]
    return []


class Reader:
    """Reads which words of a page a definition names, in the page's own spelling."""

    def __init__(self, page):
        self.page = page

    def is_constructor(self, token):
        if token in self.page.built:
            return True
        one = self.page.words.get(head_of(token))
        if one is None:
            return token.startswith('"') or token[0].isdigit() or token in PUNCTUATION
        return is_kit(one.path) or "TheVariants" in one.path or one.path.rsplit(".", 1)[-1][:1].isupper()

    def named_by(self, definition, scope=()):
        """The free words of the definition: those of its type, of its clauses and of their helpers. Those behind
        `unfolding` are left out, for they say nothing of what it means."""
        statement, bound = free_words(definition.outer, scope, self.is_constructor)
        found = list(statement)
        if definition.shape in SHAPES:
            found += self.named_in_fields(definition, bound)
        else:
            found += free_words(definition.signature, bound, self.is_constructor)[0]
        for clause in definition.clauses:
            found += self.named_in(clause, bound | {definition.name})
        return found

    def named_in_fields(self, definition, bound):
        """Those of the parameters, and of each field's type, in which the fields above are variables."""
        tokens = definition.signature
        begins = definition.fields()
        head = tokens[: begins[0] - 1] if begins else tokens
        found, inside = free_words(head, bound, self.is_constructor)
        for at, begin in enumerate(begins):
            end = begins[at + 1] - 1 if at + 1 < len(begins) else len(tokens)
            found += free_words(tokens[begin + 1 : end], inside, self.is_constructor)[0]
            if definition.shape == "record":
                inside = inside | {tokens[begin - 1]}
        return found

    def named_in(self, clause, bound):
        left = [it for it in clause.left if it not in PUNCTUATION and it not in "(){}"]
        variables = {it for it in left if not self.is_constructor(it)}
        found = [it for it in left if it not in variables]
        helpers = {it.name for it in clause.helpers}
        inside = bound | variables | helpers
        found += free_words(clause.right, inside, self.is_constructor)[0]
        for helper in clause.helpers:
            found += self.named_by(helper, inside)
        return found


def antt_paths():
    """All .antt files of specs/ and proofs/, in the order of their names."""
    folders = [it for it in sorted((TOP / "crates").iterdir()) if it.is_dir()]
    return [it for folder in folders for part in ("specs", "proofs") for it in sorted((folder / part).rglob("*.antt"))]


def antt_pages():
    return [Page(it) for it in antt_paths()]


# ---- .rt files


NAMED = ("fn", "struct", "enum", "trait", "type", "const", "static")
ITEM = re.compile(rf"(?:pub(?:\([a-z]+\))? )?(?:unsafe |const (?=fn))*({'|'.join(NAMED)}|impl|use|mod)\b\s*(.*)", re.S)
GHOST_USE = re.compile(r"ghost use ([^;]*);", re.S)
LITERAL = re.compile(r'b?"(?:[^"\\]|\\.)*"|b?\'(?:[^\'\\]|\\[^\']+)\'', re.S)


class Item:
    """A function, a type, a trait, an impl or a constant of a .rt file, with the comment above it."""

    def __init__(self, page, kind, name, code, lines, comments):
        self.page = page
        self.kind = kind
        self.name = name
        self.code = code  # without comments
        self.lines = lines  # with comments, without empty lines
        self.comments = comments

    def contracts(self):
        """The texts of the contracts: what stands in the brackets of clauses and of ghost members."""
        return [self.code[start:end] for start, end in contract_places(self.code)]

    def rust(self):
        """The code without its contracts and imports."""
        text = self.code
        for start, end in reversed(contract_places(text)):
            text = text[:start] + text[end:]
        return GHOST_USE.sub("", text)


def contract_places(code):
    """Where the contracts of this code stand, without their brackets."""
    found = []
    for it in re.finditer(r"\b(?:requires|ensures|invariant|decreases)\b[ \w]*\{|\bghost \w+ ?[:=] \{", code):
        if not found or it.start() >= found[-1][1]:
            found.append((it.end(), closing(code, it.end())))
    return found


def closing(code, at):
    """The place of the bracket that closes the one before `at`."""
    depth = 1
    while at < len(code) and depth:
        depth += (code[at] == "{") - (code[at] == "}")
        at += 1
    return at - 1


class RustPage:
    """An .rt file."""

    def __init__(self, path):
        self.path = path
        self.relative = str(path.relative_to(TOP / "crates"))
        names = self.relative[: -len(".rt")].split("/")
        self.crate = names[0]
        self.home = home_of(self.relative)
        self.module = [] if names[2:] == ["lib"] else names[2:]
        self.raw = path.read_text(encoding="utf-8").split("\n")
        self.code = without_comments("\n".join(self.raw), "//")
        self.ghosts = [one for text in GHOST_USE.findall(self.code) for one in imports_of(text)]
        self.words = by_word(self.ghosts)
        self.items = rust_items(self)
        uses = [it.name.replace("::", ".").rstrip(";") for it in self.items if it.kind == "use"]
        self.uses = [one for path in uses for one in imports_of(path)]

    def local(self, word):
        """A .rt file has no definitions for contracts of its own."""
        return None

    def item(self, name):
        return next((it for it in self.items if it.name == name and it.kind in NAMED), None)


def rust_items(page):
    """Returns the items that begin at the first column."""
    found, at = [], 0
    code = page.code.split("\n")
    while at < len(code):
        if not code[at] or code[at][0] in " #}" or code[at].startswith("ghost use"):
            at += 1
            continue
        end = item_end(code, at)
        text = "\n".join(code[at : end + 1])
        it = ITEM.match(text)
        if it:
            lines = [line.strip() for line in page.raw[at - lines_above(page.raw, at) : end + 1]]
            lines = [line for line in lines if line and not line.startswith("ghost use")]
            comments = sum(1 for line in lines if line.startswith("//"))
            found.append(Item(page, it.group(1), item_name(it.group(1), it.group(2)), text, len(lines), comments))
        at = end + 1
    return found


def item_end(code, at):
    depth = 0
    while at < len(code):
        plain = LITERAL.sub("", code[at])
        depth += sum(plain.count(it) for it in "{([") - sum(plain.count(it) for it in "})]")
        ends = plain.rstrip()
        # A clause stands on a line of its own, behind blanks.
        if depth == 0 and (ends.endswith(";") or ends.endswith("}") and not plain.startswith("    ")):
            return at
        at += 1
    return len(code) - 1


def item_name(kind, rest):
    """The name of the item; of an impl all words up to its bracket; of an import its path."""
    if kind == "impl":
        return " ".join(rest.split("{")[0].split())
    if kind == "use":
        return rest
    return re.match(r"\w*", rest).group(0)


def lines_above(raw, at):
    """How many lines of comment and attributes stand right above this line."""
    count = 0
    while at - count - 1 >= 0 and re.match(r"//(?!!)|#\[", raw[at - count - 1]):
        count += 1
    return count


def rust_pages():
    """All .rt files of the crates, in the order of their names."""
    return [RustPage(it) for it in sorted((TOP / "crates").glob("*/src/**/*.rt"))]
