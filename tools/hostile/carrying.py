"""What `update` answers by docs/calls.md and docs/operating.md: which rows stay, which go, why a file is refused."""

from collections import namedtuple

from kdcfile import NOT_A_KDCFILE, NoImage, charged, gssbs_of, numbers_suit, row_suits, suits, tables_of

# The status, the lines, and the tables that the file has then; none where it stays as it is.
Answer = namedtuple("Answer", "status lines tables")
UP_TO_DATE = "KDCFILE UP TO DATE"
REPORTED = {"TLS": 2, "ULS": 3, "SERVICES": 4, "JOBS": 5, "SHOWN": 6, "GSSBS": 1}


def refitted(kb, length):
    """A KB that is filled with spaces to this length, or cut to it where the bytes that go are spaces."""
    return kb if kb[length:].strip(b" ") else kb[:length].ljust(length)


def kept_rows(rows, generation):
    """The rows that stay, as they are then."""
    for kind, key, content in rows:
        if kind == 4:
            content = content._replace(kb=refitted(content.kb, generation.max[b"KB"]))
        if row_suits(kind, key, content, generation):
            yield kind, key, content


def refusal(tables, kept, generation):
    """Why tables of which these rows would stay are refused; nothing where they are carried."""
    blksize, pgpool = generation.blksize, generation.max[b"PGPOOL"]
    gssbs, pages = len(gssbs_of(kept)), charged(kept, blksize)
    if not numbers_suit(tables):
        return NOT_A_KDCFILE
    if tables.blksize != blksize:
        return f"KDCFILE OTHER BLKSIZE {tables.blksize}"
    if tables.pgpool > pgpool:
        return f"KDCFILE SMALLER POOL {tables.pgpool}"
    if gssbs > generation.max[b"GSSBS"]:
        return f"KDCFILE TOO MANY GSSBS {gssbs}"
    if pages > pgpool:
        return f"KDCFILE TABLES TOO LARGE {pages}"
    return None


def dropped(rows, kept):
    """The line with how many rows of each kind go."""
    before, after = ([row[0] for row in it] for it in (rows, kept))
    counts = [f"{name} {before.count(kind) - after.count(kind)}" for name, kind in REPORTED.items()]
    return " ".join(["DROPPED", *counts])


def carried(tables, application):
    """What `update` to this application answers where the file has these tables."""
    generation = application.generation
    if tables.fingerprint == application.fingerprint:
        return Answer(0, [UP_TO_DATE], None) if suits(tables, generation) else Answer(4, [NOT_A_KDCFILE], None)
    kept = list(kept_rows(tables.rows, generation))
    why = refusal(tables, kept, generation)
    if why:
        return Answer(4, [why], None)
    name, pgpool = generation.max[b"APPLINAME"].decode(), generation.max[b"PGPOOL"]
    lines = [f"UPDATE {name}", dropped(tables.rows, kept), "KDCFILE READY"]
    return Answer(0, lines, tables._replace(fingerprint=application.fingerprint, pgpool=pgpool, rows=kept))


def updated(file, application):
    """What `update` to this application answers where the file has these bytes."""
    try:
        return carried(tables_of(file), application)
    except NoImage:
        return Answer(4, [NOT_A_KDCFILE], None)
