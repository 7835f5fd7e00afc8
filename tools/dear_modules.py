#!/usr/bin/env python3
"""Prints which modules of a crate's proof are dear: the seconds that each took in a check with one job.

    cd crates/NAME
    rm -rf out/incremental
    rt check --jobs 1
    python3 ../../tools/dear_modules.py out/incremental [HOW MANY]

A check from nothing with one job writes a file for each module as soon as it has checked it. The time since the file
before is what the module took. Printed are the dearest modules, the sums by kind of module, which is the last part of
its name, and the dearest functions.
"""

import sys
from collections import Counter
from pathlib import Path

HOW_MANY = 25


def modules(folder):
    """Returns name and seconds of each module but the first, of which it is not known when its check began."""
    files = [it for it in Path(folder).rglob("*.oantt") if "records" not in it.parent.parts]
    written = sorted((it.stat().st_mtime, it.stem) for it in files)
    return [(name, at - before) for (before, _), (at, name) in zip(written, written[1:])]


def print_dearest(title, seconds, how_many):
    print(title)
    for name, took in seconds.most_common(how_many):
        print(f"{took:8.1f} {name}")


def main(words):
    if not 1 <= len(words) <= 2:
        sys.exit(__doc__)
    how_many = int(words[1]) if len(words) == 2 else HOW_MANY
    each, kinds, functions = Counter(), Counter(), Counter()
    for name, took in modules(words[0]):
        function, _, kind = name.rpartition(".")
        each[name] += took
        kinds["specs" if "specs" in name else kind] += took
        functions[function] += took
    print(f"{len(each)} modules, {sum(each.values()):.0f} seconds from the first to the last")
    print_dearest("modules", each, how_many)
    print_dearest("kinds", kinds, how_many)
    print_dearest("functions", functions, how_many)
    return 0


if __name__ == "__main__":
    sys.exit(main(sys.argv[1:]))
