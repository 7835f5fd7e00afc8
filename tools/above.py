#!/usr/bin/env python3
"""Says what is proved anew after an edit of some crates.

    python3 tools/above.py NAME..

It prints these crates and all that stand on one of them, each with the processor seconds that tools/seconds.txt has of
its proof, and the sum. A crate that is not in that table has a question mark, and counts nothing.
"""

import sys

sys.dont_write_bytecode = True

from crates import listed_crates, measured_seconds


def stands_on(crate, names, listed):
    """Whether a crate is one of these, or stands on one; a line of crates.txt may name only the highest ones."""
    return crate.name in names or any(it in listed and stands_on(listed[it], names, listed) for it in crate.libraries)


def main(names):
    listed, seconds = listed_crates(), measured_seconds()
    unknown = [it for it in names if it not in listed]
    if unknown or not names:
        sys.exit(f"tools/above.py: no crate {unknown[0]}" if unknown else __doc__)
    found = [it for it in listed.values() if stands_on(it, set(names), listed)]
    for crate in found:
        print(f"{seconds.get(crate.name, '?'):>6}  {crate.name}")
    print(f"{sum(seconds.get(it.name, 0) for it in found):>6}  seconds, {len(found)} crates")


if __name__ == "__main__":
    main(sys.argv[1:])
