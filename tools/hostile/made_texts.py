"""Made texts: the definitions, units and scripts of the examples with tokens dropped, doubled, swapped, put in and cut,
and with other bytes. What is answered is by the readers in definition.py and units.py: the first fault, or the report
and the file that is made, and then that the script is read."""

import re
from functools import lru_cache

import words
from cases import TOP, Book, text_lines, written
from definition import Fault, generation_of
from kdcfile import NOT_A_KDCFILE, fresh
from made_files import fingerprint_of
from units import fit, read_script, units_of

EXAMPLES = ("shop", "bank", "bank", "registry", "registry", "clock")
TOKEN = re.compile(rb"[ \t]+|[A-Za-z0-9$#@_.]+|'(?:[^'\n]|'')*'|\r?\n|.", re.DOTALL)
KINDS = ("def", "units", "script")
WORDS = dict(zip(KINDS, (words.DEFINITION_WORDS, words.UNIT_WORDS, words.SCRIPT_WORDS)))
LINES = dict(zip(KINDS, (words.DEFINITION_LINES, words.UNIT_LINES, words.SCRIPT_LINES)))


def change_tokens(random, kind, text):
    """A token dropped, doubled, swapped, put in or in the place of another one, or the text cut there."""
    tokens = TOKEN.findall(text)
    if not tokens:
        return random.choice(WORDS[kind])
    at, other = random.randrange(len(tokens)), random.randrange(len(tokens))
    how = random.choice(("drop", "double", "swap", "near", "put", "replace", "replace", "cut"))
    word = random.choice(WORDS[kind])
    if how == "drop":
        del tokens[at]
    elif how == "double":
        tokens.insert(at, tokens[at])
    elif how == "swap":
        tokens[at], tokens[other] = tokens[other], tokens[at]
    elif how == "near":
        other = min(at + random.randint(1, 3), len(tokens) - 1)
        tokens[at], tokens[other] = tokens[other], tokens[at]
    elif how == "put":
        put = (word, b" " + word, b"," + word, b" ", b"\t", b"\n", b"\r\n", b"-\n", b" \\ \n")
        tokens.insert(at, random.choice(put))
    elif how == "replace":
        tokens[at] = word
    elif random.random() < 0.3:
        del tokens[at:]
    return b"".join(tokens)


def change_lines(random, kind, text):
    """A line dropped, doubled, moved or put in, the text cut behind one, or another end of a line."""
    lines = text.split(b"\n")
    at = random.choice((random.randrange(len(lines)), random.randrange(len(lines)), len(lines) - 1))
    how = random.choice(("drop", "double", "move", "put", "put", "put", "cut", "end"))
    if how == "drop":
        del lines[at]
    elif how == "double":
        lines.insert(random.randrange(len(lines)), lines[at])
    elif how == "move":
        lines.insert(random.randrange(len(lines)), lines.pop(at))
    elif how == "put":
        lines.insert(at, random.choice(LINES[kind]))
    elif how == "cut":
        del lines[at + 1 :]
    else:
        lines[at] += random.choice((b"\r", b"\r\r", b" ", b"\t", b" -", b"-", b"\\"))
    return b"\n".join(lines)


def change_bytes(random, kind, text):
    """A byte in the place of another one, dropped or put in, or the last bytes cut."""
    at = random.randrange(len(text) + 1)
    byte = bytes([random.choice((*b"\0\t\r\n *'(),-=\\AaZz09_:\x7f\x80\xff", random.randrange(256)))])
    how = random.choice(("put", "replace", "replace", "drop", "cut"))
    if how == "cut":
        return text[:at] if random.random() < 0.2 else text[: len(text) - random.randint(0, 3)]
    return text[:at] + (b"" if how == "drop" else byte) + text[at + (how != "put") :]


def change_words(random, kind, text):
    """A word in the place of another one, and a number in that of a number."""
    tokens = TOKEN.findall(text)
    places = [it for it, token in enumerate(tokens) if token[:1].isalnum()]
    if places:
        at = random.choice(places)
        others = WORDS[kind] + [tokens[it] for it in places]
        tokens[at] = random.choice([it for it in others if it.isdigit() == tokens[at].isdigit()])
    return b"".join(tokens)


def change_operands(random, kind, text):
    """Of a definition: another value of an operand, an operand more, or the first one in another form."""
    if kind != "def":
        return change_words(random, kind, text)
    how = random.random()
    found = list(re.finditer(rb"=[^,\s]+" if how < 0.5 else rb"(?m)^\w+ +[^,\s]+", text))
    if not found:
        return text
    one = random.choice(found)
    if how < 0.5:
        key = re.search(rb"(\w*) *$", text[: one.start()])[1]
        said = b"=" + value_of(random, key)
    elif how < 0.85:
        key = random.choice(words.KEYS)
        said = one[0] + b"," + key + b"=" + value_of(random, key)
    else:
        said = one[0].split()[0] + random.choice((b" ", b" ", b"", b" K=")) + value_of(random, b"")
    return text[: one.start()] + said + text[one.end() :]


def value_of(random, key):
    """A value for an operand of this key."""
    if random.random() < 0.8 and key in words.VALUES:
        return random.choice(words.VALUES[key])
    return random.choice(random.choice((words.NUMBERS, words.CHOICES, *words.VALUES.values())))


CHANGES = (change_tokens, change_tokens, change_words, change_operands, change_operands, change_lines, change_bytes)


# Most tries change one text of three.
generation_made = lru_cache(50)(generation_of)
units_read = lru_cache(50)(units_of)


class Try:
    """A definition, units and a script, and what they answer."""

    def __init__(self, texts):
        self.texts = texts
        self.generation = self.refused = self.refused_script = None
        try:
            generation = generation_made(texts["def"])
            fit(units_read(texts["units"]), generation)
            if generation.double:
                raise Fault("DEF", generation.double, "NotInProfile")
            self.generation = generation
            read_script(texts["script"], generation)
        except Fault as fault:
            if self.generation:
                self.refused_script = str(fault)
            else:
                self.refused = str(fault)

    def ask(self, book, title):
        """`gen` and then `run`, which finds a file that is none."""
        book.case(title)
        for kind in KINDS:
            book.add(f"file app.{kind}", *text_lines(self.texts[kind]))
        if not self.generation:
            book.call("gen app", 2, [self.refused])
            book.call("run app", 2, [self.refused])
            return
        book.call("gen app", 0, self.generation.report())
        made = fresh(self.generation, fingerprint_of(self.texts["def"], self.texts["units"]))
        book.add(f"length {len(made)}", f"holds 0 {written(made[:13])}", f"holds 8192 {written(made[8192:8256])}")
        book.add("cut 1")
        if self.refused_script:
            book.call("run app", 3, [self.refused_script])
        else:
            book.call("run app", 4, [NOT_A_KDCFILE])
        book.add("same")


class Batch:
    """Made texts, each in a case of its own."""

    def __init__(self, random, count, first):
        self.book = Book()
        self.examples = {it: example(it) for it in EXAMPLES}
        self.tries = []  # with the number of the first line of each
        for number in range(1, count + 1):
            one = Try(self.changed(random))
            self.tries.append((len(self.book.lines), one))
            one.ask(self.book, f"made texts {number}")

    def changed(self, random):
        """The texts of an example, of which one or two are changed."""
        texts = dict(self.examples[random.choice(EXAMPLES)])
        for kind in random.choice((["def"], ["def"], ["units"], ["script"], KINDS)):
            for _ in range(random.choice((1, 1, 1, 2, 3))):
                texts[kind] = random.choice(CHANGES)(random, kind, texts[kind])
        return texts

    def differences(self, program):
        """The case of each try that was answered otherwise."""
        found = self.book.tried(program)
        for (start, one), (end, _) in zip(self.tries, self.tries[1:] + [(len(self.book.lines), None)]):
            wrong = [f"* {it}: {found[it]}" for it in found if start < it <= end + 1]
            if wrong:
                book = Book()
                one.ask(book, "made texts")
                yield wrong, book.lines


def example(name):
    """The texts of an example, by their kind."""
    return {it: (TOP / f"examples/{name}/{name}.{it}").read_bytes() for it in KINDS}
