"""Compares what a script of this folder finds with the list of what stands today. It is a library, and is not run.

Such a list has one finding in a line; a line that begins with # is none.
"""


def lines_of(path):
    if not path.is_file():
        return []
    return [line for line in path.read_text(encoding="utf-8").split("\n") if line and line[0] != "#"]


def write(path, head, found):
    path.write_text(head + "".join(line + "\n" for line in sorted(found)), encoding="utf-8")
    return 0


def compare(script, path, found, what):
    """Says what the list lacks and what it has too much, and answers the status."""
    listed = set(lines_of(path))
    more = sorted(set(found) - listed)
    gone = sorted(listed - set(found))
    for line in more:
        print(f"{script}: {what}: {line}")
    for line in gone:
        print(f"{script}: no longer so, take the line out of tools/{path.name}: {line}")
    return 1 if more or gone else 0
