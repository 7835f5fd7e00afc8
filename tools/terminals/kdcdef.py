"""What a page has to know of a definition: its terminals and printers, how many tasks there are, how long a message may
be, and which program a TAC has. docs/kdcdef.md has the form of the text.

Only a text that the monitor has accepted is read, so nothing here looks for faults.
"""

import re
from typing import Dict, NamedTuple, Tuple

BLANKS = " \t"
CONTINUED = ("-", "\\")
TOKEN = re.compile(r"[CX]?'(?:[^']|'')*'|[,=()]|[^ \t,=()']+")


class Definition(NamedTuple):
    """Terminals and printers are PTERMs, in the order of the text; a message has at most so many bytes."""

    terminals: Tuple[str, ...]
    printers: Tuple[str, ...]
    tasks: int
    longest_message: int
    programs: Dict[str, str]


def is_passed(line):
    """Whether the line is no statement: it has blanks alone, or is a comment."""
    token = TOKEN.search(line)
    return token is None or line.lstrip(BLANKS).startswith("*") or token[0].upper() == "REMARK"


def statements_of(text):
    """Yields each statement as one line."""
    lines = iter([it[:-1] if it.endswith("\r") else it for it in text.split("\n")])
    for line in lines:
        if is_passed(line):
            continue
        statement = ""
        while line.rstrip(BLANKS).endswith(CONTINUED):
            statement += line.rstrip(BLANKS)[:-1]
            line = next(lines, "")
        yield statement + line


def parts_of(statement):
    """The keyword of a statement, and the words of each operand by its key; the first without a key has the key ''."""
    keyword, *tokens = TOKEN.findall(statement)
    operands, key, words, is_inside = {}, "", [], False
    for token in [*tokens, ","]:
        if token in "()":
            is_inside = token == "("
        elif token == "=":
            key = words.pop().upper()
        elif token != "," or is_inside:
            words.append(token)
        else:
            operands.setdefault(key, words)
            key, words = "", []
    return keyword.upper(), operands


def read_definition(text):
    """What a page has to know of this text."""
    usages, logical, programs, limits = {}, {}, {}, {"TASKS": 1, "NB": 2048}
    for statement in statements_of(text):
        keyword, operands = parts_of(statement)
        if keyword == "LTERM":
            usages[operands[""][0]] = operands.get("USAGE", ["D"])[0].upper()
        elif keyword == "PTERM" and "LTERM" in operands:
            logical[operands[""][0]] = operands["LTERM"][0]
        elif keyword == "TAC":
            programs[operands[""][0]] = operands["PROGRAM"][0]
        elif keyword == "MAX":
            limits.update({key: int(operands[key][0]) for key in limits if key in operands})

    def named(usage):
        return tuple(name for name, lterm in logical.items() if usages[lterm] == usage)

    return Definition(named("D"), named("O"), limits["TASKS"], limits["NB"], programs)
