#!/usr/bin/env python3
"""Puts a commit of the built program beside one of a bare store, in one run on one machine.

    python3 bench/peers.py [--inputs N] [--program PATH]

The work is that of `make`: an input counts in one row and makes a job, in one transaction; a second one takes the job and
adds it to another row. The peers are called from Python: SQLite by its own library, LMDB and Berkeley DB where their
modules are installed. They do what the two transactions keep, and no more: no terminals, no services, no locks, no script.
What the same loop takes over a dictionary, which is the interpreter's part, is subtracted. The files lie in memory where
the machine has /dev/shm. Nothing here passes or fails: it prints numbers.
"""

import argparse
import os
import shutil
import sqlite3
import subprocess
import sys
import tempfile
from pathlib import Path

from applications import lines, made
from bench import BUILT, MEMORY, instructions_of, run_once

COUNTED = 400  # inputs whose instructions are counted


class Dictionary:
    """No store: what the loop itself takes."""

    def __init__(self, folder):
        self.rows = {}

    def transaction(self, work):
        work(self.rows.get, self.rows.__setitem__, self.rows.pop)


class Sqlite:
    """One table of keys and values, with a log that is written ahead and synced at each commit."""

    def __init__(self, folder):
        self.base = sqlite3.connect(str(Path(folder) / "peer.sqlite"), isolation_level=None)
        for statement in ("PRAGMA journal_mode=WAL", "PRAGMA synchronous=FULL",
                          "CREATE TABLE IF NOT EXISTS rows(key TEXT PRIMARY KEY, value TEXT) WITHOUT ROWID"):
            self.base.execute(statement)

    def get(self, key):
        found = self.base.execute("SELECT value FROM rows WHERE key=?", (key,)).fetchone()
        return found and found[0]

    def put(self, key, value):
        self.base.execute("INSERT OR REPLACE INTO rows VALUES(?,?)", (key, value))

    def remove(self, key):
        self.base.execute("DELETE FROM rows WHERE key=?", (key,))

    def transaction(self, work):
        self.base.execute("BEGIN IMMEDIATE")
        work(self.get, self.put, self.remove)
        self.base.execute("COMMIT")


class Lmdb:
    def __init__(self, folder):
        import lmdb
        self.base = lmdb.open(str(Path(folder) / "peer.lmdb"), map_size=1 << 26)

    def transaction(self, work):
        with self.base.begin(write=True) as opened:
            work(lambda key: (opened.get(key.encode()) or b"").decode() or None,
                 lambda key, value: opened.put(key.encode(), value.encode()), lambda key: opened.delete(key.encode()))


class Berkeley:
    def __init__(self, folder):
        try:
            from berkeleydb import db
        except ImportError:
            from bsddb3 import db
        kinds = db.DB_CREATE | db.DB_INIT_MPOOL | db.DB_INIT_LOG | db.DB_INIT_LOCK | db.DB_INIT_TXN
        self.room = db.DBEnv()
        self.room.open(str(folder), kinds)
        self.base = db.DB(self.room)
        self.base.open("peer.db", None, db.DB_BTREE, db.DB_CREATE | db.DB_AUTO_COMMIT)

    def transaction(self, work):
        opened = self.room.txn_begin()
        work(lambda key: (self.base.get(key.encode(), txn=opened) or b"").decode() or None,
             lambda key, value: self.base.put(key.encode(), value.encode(), txn=opened),
             lambda key: self.base.delete(key.encode(), txn=opened))
        opened.commit()


PEERS = {"dictionary": Dictionary, "sqlite": Sqlite, "lmdb": Lmdb, "berkeley": Berkeley}
MODULES = {"lmdb": ("lmdb",), "berkeley": ("berkeleydb", "bsddb3")}


def work_through(peer, inputs):
    """What `make` keeps of so many inputs."""
    for k in range(1, inputs + 1):
        job = f"JOB {k:012d}"

        def count(get, put, _, job=job, digit=str(k % 10)):
            put("CNT", f"{int(get('CNT') or 0) + 1:08d}")
            put(job, digit)

        def tally(get, put, remove, job=job):
            put("TOTAL", f"{int(get('TOTAL') or 0) + int(get(job)):08d}")
            remove(job)

        peer.transaction(count)
        peer.transaction(tally)


def is_installed(name):
    """Whether Python has one of the modules of a peer."""
    tried = ([sys.executable, "-c", f"import {module}"] for module in MODULES.get(name, ("sys",)))
    return any(subprocess.run(it, stderr=subprocess.DEVNULL).returncode == 0 for it in tried)


def emptied(folder):
    for it in folder.iterdir():
        shutil.rmtree(it) if it.is_dir() else it.unlink()


def prepared(folder, name, inputs):
    """A folder in which the call is to be made, and its words."""
    emptied(folder)
    if name != "utm":
        return [str(Path(__file__).resolve()), "--peer", name, "--inputs", str(inputs)]
    bench = made(2, 64)
    (folder / "app.def").write_text(bench.definition)
    (folder / "app.units").write_text(bench.units)
    commands = [command for k in range(inputs) for command in bench.one(k)]
    (folder / "app.script").write_text(lines(*bench.before, *commands))
    return ["run", "app"]


def commit_of(program, folder, name, inputs):
    """Microseconds of user time, and instructions, of one commit of two an input."""
    few, many = (run_once(program, folder, prepared(folder, name, n)).user for n in (inputs // 10, inputs))
    instructions = 0.0
    if shutil.which("valgrind"):
        less, more = (instructions_of(program, folder, prepared(folder, name, n)) for n in (COUNTED // 4, COUNTED))
        instructions = (more - less) / (2 * (COUNTED - COUNTED // 4))
    return (many - few) * 1e6 / (2 * (inputs - inputs // 10)), instructions


def main() -> int:
    parser = argparse.ArgumentParser(description=__doc__.splitlines()[0])
    parser.add_argument("--inputs", type=int, default=20000, help="inputs whose time is taken; 20000 without it")
    parser.add_argument("--program", type=Path, default=BUILT, help="the program; the one that ./utm builds without it")
    parser.add_argument("--peer", choices=PEERS, help=argparse.SUPPRESS)
    given = parser.parse_args()
    if given.peer:
        work_through(PEERS[given.peer](os.getcwd()), given.inputs)
        return 0
    names = [name for name in PEERS if is_installed(name)]
    with tempfile.TemporaryDirectory(prefix="peers-", dir=MEMORY if os.path.isdir(MEMORY) else None) as at:
        folder = Path(at)
        own = commit_of(given.program, folder, "utm", given.inputs)
        loop, *others = (commit_of(Path(sys.executable), folder, name, given.inputs) for name in names)
    print(f"{'a commit':12} {'microseconds':>14} {'instructions':>14}   (user time of the processor)")
    print(f"{'utm':12} {own[0]:14.1f} {own[1]:14.0f}")
    for name, it in zip(names[1:], others):
        print(f"{name:12} {it[0] - loop[0]:14.1f} {it[1] - loop[1]:14.0f}")
    return 0


if __name__ == "__main__":
    sys.exit(main())
