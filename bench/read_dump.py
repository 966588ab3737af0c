"""Makes a dump of 540,000 rows and 49 MB, and prints how long a program takes to read it.

    python3 bench/read_dump.py PROGRAM

PROGRAM is sqlite3_expert; it is run with the dump as its database and an empty script.
"""

import os
import random
import resource
import subprocess
import sys
import tempfile
import time

ROWS = 540_000


def write_dump(path):
    chance = random.Random(1)
    with open(path, "w") as file:
        file.write("PRAGMA foreign_keys=OFF;\nBEGIN TRANSACTION;\n")
        file.write("CREATE TABLE sale(id INTEGER PRIMARY KEY, customer INT, day TEXT,\n")
        file.write("  price REAL, note TEXT COLLATE NOCASE, paid UNIQUE);\n")
        for number in range(1, ROWS + 1):
            day = f"20{chance.randrange(10, 30)}-{chance.randrange(1, 13):02}-{chance.randrange(1, 29):02}"
            price = f"{chance.randrange(1, 99999)}.{chance.randrange(1, 99):02}"
            note = "it''s " + "".join(chance.choice("abcdefgh ") for _ in range(14))
            file.write(f"INSERT INTO sale VALUES({number},{chance.randrange(50000)},'{day}',"
                       f"{price},'{note}',{-number});\n")
        file.write("CREATE INDEX sale_day ON sale(day, customer DESC);\nCOMMIT;\n")


def main():
    if len(sys.argv) != 2:
        sys.exit(__doc__)
    with tempfile.TemporaryDirectory() as folder:
        path = os.path.join(folder, "sale.sql")
        write_dump(path)
        size = os.path.getsize(path)
        start = time.monotonic()
        status = subprocess.run([sys.argv[1], "-sql", "", path], stdout=subprocess.DEVNULL).returncode
        seconds = time.monotonic() - start
        peak = resource.getrusage(resource.RUSAGE_CHILDREN).ru_maxrss * 1024
        print(f"{ROWS} rows, {size} bytes: status {status}, {seconds:.2f} s, "
              f"{peak / 2**20:.0f} MiB at most, {peak / size:.1f} bytes of memory for a byte of dump")


main()
