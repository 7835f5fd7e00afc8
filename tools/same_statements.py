#!/usr/bin/env python3
"""Finds lemmas that say the same under several names or in several places.

    python3 tools/same_statements.py            says which repetitions tools/same_statements.txt lacks, and which of its
                                                lines are met by none; the status is 1 then
    python3 tools/same_statements.py --write    writes that list as the repository stands

Two statements are the same if they differ only in the names of variables, in the names under which words are imported,
in how arguments are grouped, and in blanks. Records with parameters count as one where they ask for the same. A parameter
of the modules around counts as an argument where the statement names it, or where it is a condition that the proof uses.
Left out are statements of functions, goals of the kit, and statements of fewer than SHORTEST words.
"""

import sys

sys.dont_write_bytecode = True

from antt_text import TOP, SHAPES, antt_pages, head_of, is_kit
from accepted_list import compare, write

LIST = TOP / "tools" / "same_statements.txt"
SHORTEST = 8
HEAD = """# Lemmas that say the same in several places, as tools/same_statements.py finds them. Each line is a group that stands
# today. A new one is to be avoided: the statement once, in the lowest crate that has its words. A line that is met by
# none goes.
"""
RELATIONS = {"≡", "≢", "≤", "<", "⊥", "⊎", "⊤", "≥", ">"}
DATA = {"ℕ", "Bool", "List", "Option", "Result", "Type", "Ordering", "Vec", "Unit"}
CLOSING = {"(": ")", "{": "}"}


# ---- statements as trees: a word, or a list with a bracket in front


def tree_of(tokens):
    """Returns the tokens as a list of words and of groups, which are lists with their bracket in front."""
    stack = [["("]]
    for token in tokens:
        if token in CLOSING:
            stack.append([token])
        elif token in (")", "}"):
            if len(stack) > 1:
                stack[-2].append(stack.pop())
        else:
            stack[-1].append(token)
    while len(stack) > 1:
        stack[-2].append(stack.pop())
    return stack[0]


def is_group_of_variables(group):
    """Whether it is `(x y : T)` or `{x : T}`."""
    if not isinstance(group, list) or ":" not in group:
        return False
    at = group.index(":")
    return at > 1 and all(isinstance(it, str) for it in group[1:at])


def variables_of(item):
    """The variables that an item in front of the dot of a λ names."""
    if is_group_of_variables(item):
        return item[1 : item.index(":")]
    return [it for it in item[1:] if isinstance(it, str) and it != ","] if isinstance(item, list) else [item]


class Normal:
    """Writes a statement so that equal ones are written alike: words by their whole names, and variables by numbers."""

    def __init__(self, page, alike):
        self.page = page
        self.alike = alike  # for a record that asks for the same as another, the name of that one
        self.count = 0

    def word(self, token, variables):
        head = head_of(token)
        if head in variables:
            return variables[head] + token[len(head) :]
        return self.whole_name(token, head)

    def whole_name(self, token, head):
        local = self.page.local(token)
        if local is not None:
            return self.common(self.page.module + "." + (token if token not in self.page.named else local.name))
        one = self.page.words.get(token) or self.page.words.get(head)
        if one is None:
            return token
        behind = "" if token in self.page.words else token[len(head) :]
        return one.path.rsplit(".", 1)[-1] if is_kit(one.path) else self.common(one.path) + behind

    def common(self, name):
        return self.alike.get(name, name)

    def group(self, items, variables):
        """The items of one group, in which variables are bound from where they stand to the end."""
        variables = dict(variables)
        found, at = [], 0
        while at < len(items):
            item = items[at]
            if is_group_of_variables(item):
                found += self.bound(item, items[at + 1 :], variables)
                at += 2 if items[at + 1 : at + 2] == ["→"] else 1
            elif item == "λ":
                at = self.take_lambda(items, at + 1, variables, found)
            else:
                inner = self.inner(items, at, variables)
                whole = found[-1:] in ([], ["→"]) and items[at + 1 : at + 2] in ([], ["→"])
                found += as_argument(inner) if whole else in_brackets(inner)
                at += 1
        return found

    def inner(self, items, at, variables):
        """The words of one item: of a bracket, or of a word, which names no variable where it is a label, as in
        `record { label = x }`."""
        item = items[at]
        if isinstance(item, list):
            return self.group(item[1:], variables)
        is_label = items[at + 1 : at + 2] == ["="] and items[at - 1 : at] in ([], [";"])
        return [item] if is_label else [self.word(item, variables)]

    def bound(self, group, behind, variables):
        """Each variable of the group for itself; one that nothing behind names is an argument without a name."""
        at = group.index(":")
        found = []
        for k, name in enumerate(group[1:at]):
            written = self.group(group[at + 1 :], variables)
            if behind[:1] == ["×"] or group[0] == "{" or names_variable(group[k + 2 : at] + behind, name):
                self.count += 1
                variables[name] = f"#{self.count}"
                found += ["(", variables[name], ":"] + written + [")", "→"]
            else:
                variables.pop(name, None)
                found += as_argument(written) + ["→"]
        return found[:-1] if behind[:1] == ["×"] else found

    def take_lambda(self, items, at, variables, found):
        found.append("λ")
        while at < len(items) and items[at] != ".":
            item = items[at]
            for name in variables_of(item):
                self.count += 1
                variables[name] = f"#{self.count}"
                found.append(variables[name])
            at += 1
        found.append(".")
        return at + 1


def in_brackets(words):
    return words if len(words) == 1 else ["("] + words + [")"]


def as_argument(words):
    """An argument as it stands in front of an arrow: with brackets only where it has an arrow of its own."""
    return in_brackets(words) if "→" in words or "λ" in words else words


def names_variable(items, name):
    """Whether one of the items, or of those within, begins with this variable."""
    for item in items:
        if isinstance(item, list) and names_variable(item, name):
            return True
        if isinstance(item, str) and head_of(item) == name:
            return True
    return False


def result_of(tree):
    """The items behind the last arrow: what is said where the arguments are given."""
    at = max((k for k, it in enumerate(tree) if it == "→"), default=-1)
    items = tree[at + 1 :]
    while items and is_group_of_variables(items[0]):
        items = items[1:]
    return items


def is_said(page, items, predicates):
    """Whether this is a statement, not a type of values: a relation, or a predicate of the repository, of the kit or
    among the variables."""
    if any(it in RELATIONS for it in items if isinstance(it, str)):
        return True
    first = items[0] if items else ""
    if isinstance(first, list):
        return is_said(page, first[1:], predicates)
    if "×" in items:
        return any(is_said(page, part, predicates) for part in split_at(items, "×"))
    one = page.words.get(first)
    if one is None:
        return first not in DATA and (first in predicates or len(items) > 1 and page.local(first) is None)
    name = one.path.rsplit(".", 1)[-1]
    return name not in DATA and (name in predicates or is_kit(one.path) and name[:1].isupper())


def split_at(items, mark):
    parts = [[]]
    for it in items:
        if it == mark:
            parts.append([])
        else:
            parts[-1].append(it)
    return [it for it in parts if it]


def predicates_of(pages):
    """The names of records with parameters, and of definitions that give a type, or a type that is named so."""
    definitions = [it for page in pages for it in page.definitions]
    kinds = {it.name for it in definitions if any("Type" in clause.right[-2:] for clause in it.clauses)}
    return {it.name for it in definitions if is_predicate(it, kinds)}


def is_predicate(definition, kinds):
    if definition.shape in SHAPES:
        return definition.signature[:1] in (["("], ["{"])
    last = definition.signature[-2:]
    return definition.shape != "plain" and ("Type" in last or not kinds.isdisjoint(last[-1:]))


# ---- the parameters of the modules around


def parameters_of(definition):
    """The parameters of the modules around, each with the bracket, the name and the items of the type."""
    groups = [it for it in tree_of(definition.outer)[1:] if is_group_of_variables(it)]
    return [(it[0], name, it[it.index(":") + 1 :]) for it in groups for name in it[1 : it.index(":")]]


def words_of(definition):
    """All words of a definition, its proof with them."""
    found = {head_of(it) for it in definition.signature}
    for clause in definition.clauses:
        found.update(head_of(it) for it in clause.right)
        found.update(*(words_of(it) for it in clause.helpers))
    return found


def takes_unseen(one, other):
    """Whether a definition takes the parameters of this one unseen: it is in the same module or in one around."""
    return bool(one.outer) and other.outer[: len(one.outer)] == one.outer


def words_beside(definition):
    """Those words, and those of each definition among them that takes parameters of the same modules unseen."""
    beside = {it.name: it for it in definition.page.definitions if takes_unseen(it, definition)}
    found, left = set(), [definition]
    while left:
        more = words_of(left.pop()) - found
        found |= more
        left += [beside[it] for it in more if it in beside]
    return found


def arguments_of(definition, items, predicates):
    """The items of a statement, with those parameters of the modules around in front that are arguments of it."""
    if not definition.outer:
        return items
    used = words_beside(definition)
    for bracket, name, kind in reversed(parameters_of(definition)):
        is_used = name in used and is_said(definition.page, kind, predicates)
        if is_used or names_variable(items, name):
            items = [[bracket, name, ":"] + kind] + items
    return items


# ---- the records and the statements


def asked_by(record):
    """What a record asks for, as the type of a function: its parameters, then its fields as arguments."""
    tokens, begins = record.signature, record.fields()
    head = tokens[: tokens.index(":")]
    ends = [begin - 1 for begin in begins[1:]] + [len(tokens)]
    fields = [[name, ":", *(it for it in tokens[begin + 1 : end] if it != "pub")] for name, begin, end in
              zip(record.constructors(), begins, ends)]
    return tree_of(head + [word for field in fields for word in ("(", *field, ")", "→")] + ["Type"])[1:]


def alike_records(pages, predicates):
    """For each record with parameters that asks for the same as an earlier one, the name of that one."""
    first, alike = {}, {}
    for page in pages:
        for it in page.definitions:
            if it.shape == "record" and it.name in predicates and it.constructors():
                items = arguments_of(it, asked_by(it), predicates)
                name = f"{page.module}.{it.name}"
                asked = " ".join(Normal(page, alike).group(items, {}))
                if first.setdefault(asked, name) != name:
                    alike[name] = first[asked]
    return alike


def groups_of(pages):
    """The places of each statement that stands in several."""
    predicates = predicates_of(pages)
    alike = alike_records(pages, predicates)
    found = {}
    for page in pages:
        for it in page.definitions:
            if it.shape != "plain" or it.signature[1:2] and it.signature[1].startswith("goal."):
                continue
            tree = tree_of(it.signature[1:])[1:]
            if not is_said(page, result_of(tree), predicates):
                continue
            normal = Normal(page, alike).group(arguments_of(it, tree, predicates), {})
            if sum(1 for word in normal if word not in ("(", ")", "→", ":")) >= SHORTEST:
                found.setdefault(" ".join(normal), []).append(it)
    return [group for group in found.values() if len(group) > 1]


def line_of(group):
    return " = ".join(sorted(it.place().replace(": ", ":") for it in group))


def main(words):
    if words not in ([], ["--write"]):
        sys.exit(__doc__)
    found = [line_of(it) for it in groups_of(antt_pages())]
    if words:
        return write(LIST, HEAD, found)
    return compare("tools/same_statements.py", LIST, found, "the same is said in several places")


if __name__ == "__main__":
    sys.exit(main(sys.argv[1:]))
