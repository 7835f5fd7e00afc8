#!/usr/bin/env python3
"""Writes tools/seconds.txt, the processor seconds that the proof of each crate takes with one job.

    python3 tools/measure.py [--anew] [--jobs N]

It proves what is not proved yet of the crates that the programs stand on, and with --anew all of them: N crates side by
side, each with one job. Of the others the table keeps what was measured before, as far as they are in crates.txt. The
machine should have nothing else to do.
"""

import argparse
import sys

sys.dont_write_bytecode = True

from build import Build
from crates import MEASURED, PROGRAMS, TOP, note_seconds
from launched import Launcher, count_of


def main():
    parser = argparse.ArgumentParser(description=__doc__.splitlines()[0])
    parser.add_argument("--anew", action="store_true")
    parser.add_argument("--jobs", type=int, default=0, metavar="N")
    asked = parser.parse_args()
    launcher = Launcher("measure.py")
    build = Build(launcher, list(PROGRAMS), asked.jobs, most_jobs=1, is_anew=asked.anew)
    status = build.answer()
    note_seconds(build.seconds)
    launcher.say(f"{count_of(len(build.seconds), 'crate')} measured, for {MEASURED.relative_to(TOP)}")
    return status


if __name__ == "__main__":
    sys.exit(main())
