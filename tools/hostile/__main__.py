"""Tries the program on cases that nobody wrote: made from a seed, with answers by readers written apart from it.

    python3 tools/hostile KIND SEED COUNT [--program PROGRAM]

KIND is one of those below, and COUNT how many things of it are tried. The program is the built utm_cases, but for `disks`
the built utm, and for `laboratory` the built kdcs_lab. What is answered otherwise is printed, where it is one as a case in
the form of docs/cases.md; the status is 1 then. The last line has how many passed and failed. The first lines of
made_KIND.py say what a kind makes and what must be answered.
"""

import argparse
import random
import sys
from pathlib import Path

sys.dont_write_bytecode = True

import made_disks
import made_files
import made_laboratory
import made_pairs
import made_runs
import made_texts
import made_trails
import made_updates
from cases import PROGRAM

KINDS = {
    "files": made_files,
    "texts": made_texts,
    "runs": made_runs,
    "updates": made_updates,
    "pairs": made_pairs,
    "disks": made_disks,
    "trails": made_trails,
    "laboratory": made_laboratory,
}
AT_ONCE = 500


def main():
    parser = argparse.ArgumentParser(description=__doc__.splitlines()[0])
    parser.add_argument("kind", choices=KINDS)
    parser.add_argument("seed", type=int)
    parser.add_argument("count", type=int)
    parser.add_argument("--program", type=Path)
    asked = parser.parse_args()
    kind = KINDS[asked.kind]
    program = asked.program or getattr(kind, "PROGRAM", PROGRAM)
    why_not = getattr(kind, "why_not", lambda: None)()
    if why_not:
        print(f"{asked.kind}: none is tried: {why_not}")
        print(f"{asked.kind} {asked.seed}: 0 passed, 0 failed")
        return 0
    tried = wrong = 0
    while tried < asked.count:
        made = random.Random(f"{asked.kind} {asked.seed} {tried}")
        batch = kind.Batch(made, min(AT_ONCE, asked.count - tried), not tried)
        for complaints, case in batch.differences(program.resolve()):
            wrong += 1
            print(f"* {asked.kind} {asked.seed}", *complaints, *case, "", sep="\n")
        tried += len(batch.tries)
        print(f"{asked.kind}: {tried} tried, {wrong} answered otherwise", file=sys.stderr)
    print(f"{asked.kind} {asked.seed}: {tried - wrong} passed, {wrong} failed")
    return wrong != 0


sys.exit(main())
