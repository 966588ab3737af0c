"""Runs sqlite3_expert, and SQLite's own sqlite3_expert beside it, on three workloads.

    python3 bench/beside_sqlite.py PROGRAM [FOLDER [ROUNDS]]

PROGRAM is ours. FOLDER has SQLite's two programs `sqlite3` and `sqlite3_expert`, which its source
builds (ext/expert); without it ours runs alone. Ours reads the dump and gives its advice in one run.
For SQLite's, `sqlite3` makes a database of the dump first, without waiting for the disk, and both runs
count. The two take turns, ROUNDS times each (3), and the median counts. Both sample all rows.
"""

import os
import statistics
import sys
import tempfile

from measured import Run, run
from workloads import WORKLOADS, make


def ours(program, folder):
    with open(os.path.join(folder, "ours"), "wb") as out:
        return [run([program, "-file", "script.sql", "dump.sql"], folder, out)]


def sqlites(peers, folder):
    """Loading, and then advice."""
    database = os.path.join(folder, "database")
    if os.path.exists(database):
        os.remove(database)
    with open(os.path.join(folder, "dump.sql"), "rb") as dump:
        load = run([os.path.join(peers, "sqlite3"), "-bail", "-cmd", "PRAGMA synchronous=OFF; PRAGMA journal_mode=OFF;",
                    database], folder, standard_input=dump)
    with open(os.path.join(folder, "theirs"), "wb") as out:
        return [load, run([os.path.join(peers, "sqlite3_expert"), "-file", "script.sql", database], folder, out)]


def middle(rounds):
    """The median seconds of rounds of some runs each, and the greatest peak."""
    seconds = statistics.median(sum(one.seconds for one in runs) for runs in rounds)
    return Run(max(one.status or 0 for runs in rounds for one in runs), seconds,
               max(one.peak for runs in rounds for one in runs))


def mib(size):
    return f"{size / 2**20:,.1f} MiB"


def main():
    if not 2 <= len(sys.argv) <= 4:
        sys.exit(__doc__)
    program = os.path.abspath(sys.argv[1])
    peers = os.path.abspath(sys.argv[2]) if len(sys.argv) > 2 else None
    rounds = int(sys.argv[3]) if len(sys.argv) > 3 else 3
    print("| Workload | Dump | Time | Memory | of it for a byte of dump | SQLite's time | its memory | our time for its |")
    print("|---|---|---|---|---|---|---|---|", flush=True)
    for workload in WORKLOADS:
        with tempfile.TemporaryDirectory() as folder:
            make(workload, folder)
            size = os.path.getsize(os.path.join(folder, "dump.sql"))
            turns = [(ours(program, folder), sqlites(peers, folder) if peers else []) for _ in range(rounds)]
            mine = middle([turn[0] for turn in turns])
            what = f"{workload.name}: {workload.tables} of {workload.rows:,} rows, {workload.statements:,} statements"
            line = f"| {what} | {mib(size)} | {mine.seconds:.2f} s | {mib(mine.peak)} | {mine.peak / size:.1f} |"
            if peers:
                theirs = middle([turn[1] for turn in turns])
                line += f" {theirs.seconds:.2f} s | {mib(theirs.peak)} | {mine.seconds / theirs.seconds:.2f} |"
            else:
                theirs = Run(0, 0, 0)
                line += " | | |"
            if mine.status or theirs.status:
                line += f" (status {mine.status} and {theirs.status})"
            print(line, flush=True)


if __name__ == "__main__":
    main()
