"""Two copies of a KDCFILE by docs/kdcfile.md, docs/calls.md and docs/operating.md: which one counts, what a call over them
answers, and the bytes that it leaves."""

from collections import namedtuple

from kdcfile import LAST_CLOCK, NOT_A_KDCFILE, NoImage, Tables, image_of, key_of, row_of, suits, table_lines, value_of

FIRST, SECOND = 0, 1
LETTER = "AB"
SEQUENCE = bytes([7]) + bytes(24)
LAST_SEQUENCE = 10**18
IS_DOUBLE, IS_SPENT = "KDCFILE IS DOUBLE", "KDCFILE SEQUENCE SPENT"

# What a copy has: its number, and the image without the record of it.
Copy = namedtuple("Copy", "sequence image")

# The copy that counts, its number and its tables, and the half that is to be written anew. There is none that counts where
# both files are empty. Of files that are refused there is the line.
Opened = namedtuple("Opened", "chosen sequence tables behind refused")

# What a call answers. `files` are the bytes that it leaves, and none for a half whose bytes are not promised; `opened` is
# what the files have then.
Answer = namedtuple("Answer", "status lines files opened")


def copy_of(file):
    """The copy that these bytes are, or none."""
    try:
        image = image_of(file)
    except NoImage:
        return None
    number = image.records.get(SEQUENCE, b"")
    if len(number) != 8:
        return None
    rest = {key: value for key, value in image.records.items() if key != SEQUENCE}
    return Copy(int.from_bytes(number, "big"), image._replace(records=rest))


def rows_of(image):
    """The tables of a copy, with the PGPOOL of its definition; or NoImage is raised."""
    rows = [row_of(key, image.records[key]) for key in sorted(image.records)]
    return Tables(image.fingerprint, image.clock, image.next, image.blksize, image.pgpool - 1, rows)


def empty_tables(application):
    generation = application.generation
    return Tables(application.fingerprint, 0, 1, generation.blksize, generation.max[b"PGPOOL"], [])


def refusal(copy, application):
    """Why the copy that counts is refused, if it is."""
    try:
        tables = rows_of(copy.image)
    except NoImage:
        return NOT_A_KDCFILE
    if tables.fingerprint != application.fingerprint:
        return f"KDCFILE OTHER GENERATION {tables.fingerprint.hex()}"
    if not suits(tables, application.generation):
        return NOT_A_KDCFILE
    return IS_SPENT if copy.sequence > LAST_SEQUENCE else None


def opened(files, application):
    """What the two files have."""
    if not any(files):
        return Opened(None, 0, empty_tables(application), None, None)
    copies = [copy_of(it) for it in files]
    if not any(copies):
        return Opened(None, 0, None, None, NOT_A_KDCFILE)
    if not all(copies):
        chosen = FIRST if copies[FIRST] else SECOND
    else:
        chosen = SECOND if copies[SECOND].sequence > copies[FIRST].sequence else FIRST
    why = refusal(copies[chosen], application)
    if why:
        return Opened(chosen, copies[chosen].sequence, None, None, why)
    behind = None if copies[FIRST] == copies[SECOND] else 1 - chosen
    return Opened(chosen, copies[chosen].sequence, rows_of(copies[chosen].image), behind, None)


def mended(files, behind):
    """The files after this half was written anew."""
    good, old = files[1 - behind], files[behind]
    new = good + old[len(good) :]
    return (new, good) if behind == FIRST else (good, new)


def trail_lines(tables, script):
    """The lines of `trail` for a script of TICK and RESTART."""
    rows = [(key_of(kind, key), value_of(kind, content)) for kind, key, content in tables.rows]
    yield f"TRAIL {tables.fingerprint.hex()}"
    yield f"START {tables.clock} {tables.next}"
    yield from [f"S {key[0]} {key[1:].hex()} {value.hex() or '-'}" for key, value in rows]
    clock = tables.clock
    for command in script:
        if command != "RESTART" and clock + int(command[5:]) <= LAST_CLOCK:
            clock += int(command[5:])
            yield from (f"N {int(command[5:])}", f"C {clock} {tables.next}")
    yield "END"


def performed(state, script):
    """The lines of a script of TICK and RESTART, and what the files have after it."""
    lines, tables, sequence = [], state.tables, state.sequence
    for command in script:
        if command == "RESTART":
            lines.append("RESTART")
        elif tables.clock + int(command[5:]) > LAST_CLOCK:
            lines.append("TICK REFUSED")
        else:
            tables, sequence = tables._replace(clock=tables.clock + int(command[5:])), sequence + 1
            lines.append(f"TICK {tables.clock}")
    return lines, committed(tables, sequence)


def committed(tables, sequence):
    """What two equal copies have."""
    spent = IS_SPENT if sequence > LAST_SEQUENCE else None
    return Opened(FIRST, sequence, tables, None, spent)


def mended_lines(state):
    return [] if state.behind is None else [f"COPY {LETTER[state.behind]} MENDED"]


def answered(files, state, application, word, script=()):
    """What a call of this word answers over these files, whose content is this."""
    if word == "update":
        return Answer(4, [IS_DOUBLE], files, state)
    if state.refused:
        return Answer(4, [state.refused], files, state)
    if word == "show":
        return Answer(0, table_lines(state.tables), files, state)
    if word == "trail":
        return Answer(0, list(trail_lines(state.tables, script)), files, state)
    lines = mended_lines(state)
    if state.behind is not None:
        files = mended(files, state.behind)
    elif state.chosen is None:
        files = (None, None)
    after = committed(state.tables, state.sequence)
    if word == "gen":
        return Answer(0, lines + application.generation.report(), files, after)
    said, last = performed(after, script)
    if last.sequence != after.sequence:
        files = (None, None)
    return Answer(0, lines + said, files, last)
