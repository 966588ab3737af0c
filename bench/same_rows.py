"""Asks SQLite whether its rows stay the same once the recommended indexes are there.

    python3 bench/same_rows.py PROGRAM [COUNT [SEED]]

The tables are those of demo/shop.sql, with more rows. COUNT (200) random SELECTs over them are given to
PROGRAM; SQLite, as this Python has it, then answers each without the recommended indexes and with them.
Told are the statements that it answers otherwise, how many it answers by such an index, and how many
steps of its machine all took. So this shows that SQLite takes the printed statements, that they change no
rows, and whether they help; it doesn't look at the rows of the printed plans.

A condition under another collation than its column's is asked of one table alone: SQLite 3.40.1 loses rows of
`x AS b CROSS JOIN x AS a ON b.c = a.c WHERE a.c COLLATE NOCASE = 'Bern'` once x(c) is indexed.
"""

import collections
import os
import random
import sqlite3
import subprocess
import sys
import tempfile

HERE = os.path.dirname(os.path.abspath(__file__))
STEPS = 100  # of SQLite's machine, between two counts

TOWNS = ("Bern", "Oslo", "Rome", "bern", None)
NAMES = ("Ada", "ada", "Grace", "Alan", "Barbara", "O'Brien", "Edsger", "edith", "Tony", "Niklaus")
THINGS = ("cup", "pot", "spoon", "plate", "fork", "bowl", "knife", "jug")

# The columns of each table, with values that a condition may compare them with.
COLUMNS = {
    "customer": {"id": (1, 7, 150, 900), "name": ("'ada'", "'Grace'", "'nobody'"), "city": ("'Bern'", "'Oslo'", "'bern'")},
    "item": {"id": (3, 11, 40), "title": ("'cup 3'", "'pot'", "'jug 7'"), "price": ("4.5", "12", "20.25", "30")},
    "sale": {"id": (1, 500, 1999), "customer_id": (1, 20, 77), "item_id": (2, 3, 30),
             "day": ("'2024-01-02'", "'2024-06-01'", "'2025-03'"), "note": ("-7", "'gift'", "x'00ff'")},
}
LINKS = (("sale", "customer_id", "customer", "id"), ("sale", "item_id", "item", "id"), ("sale", "day", "sale", "day"),
         ("customer", "city", "customer", "city"), ("item", "price", "item", "price"))


def text(value):
    if value is None:
        return "NULL"
    return "'" + value.replace("'", "''") + "'" if isinstance(value, str) else str(value)


def dump(chance):
    """The demo's dump, with more rows before its last line."""
    with open(os.path.join(HERE, "../demo/shop.sql")) as file:
        lines = file.read().splitlines()
    more = []
    for number in range(10, 210):
        more.append(f"INSERT INTO customer VALUES({number},{text(chance.choice(NAMES))},{text(chance.choice(TOWNS))});")
    for number in range(10, 60):
        more.append(f"INSERT INTO item VALUES({number},'{chance.choice(THINGS)} {number}',{chance.randrange(160) / 4});")
    for number in range(10, 2010):
        day = f"202{chance.randrange(3, 6)}-{chance.randrange(1, 13):02}-{chance.randrange(1, 29):02}"
        note = chance.choice(("NULL", "NULL", "'gift'", "-7", "1.5", "x'00ff'", "'Gift'"))
        more.append(f"INSERT INTO sale VALUES({number},{chance.randrange(1, 210)},{chance.randrange(1, 60)},'{day}',{note});")
    return "\n".join(lines[:-1] + more + lines[-1:]) + "\n"


class Asker:
    """Makes a SELECT: its text, and the numbers of the results by which it is ordered."""

    def __init__(self, chance):
        self.chance = chance

    def condition(self, name, table, depth=1):
        chance = self.chance
        if depth and chance.random() < 0.25:
            word = chance.choice((" OR ", " OR ", " AND "))
            return "(" + word.join(self.condition(name, table, depth - 1) for _ in range(chance.choice((2, 3)))) + ")"
        column = chance.choice(list(COLUMNS[table]))
        value, other = (chance.choice(COLUMNS[table][column]) for _ in range(2))
        spelled = f"{name}.{column}"
        collation = " COLLATE NOCASE" if self.alone else ""
        return chance.choice((f"{spelled} = {value}", f"{spelled} = {value}", f"{spelled} >= {value}", f"{spelled} < {value}",
                              f"{spelled} IN ({value}, {other})", f"{spelled} BETWEEN {value} AND {other}",
                              f"{spelled} IS NULL", f"{spelled} IS NOT NULL", f"{value} = {spelled}{collation}",
                              f"{spelled} LIKE 'g%'", f"+{spelled} = {value}", f"NOT {spelled} = {value}"))

    def statement(self):
        chance = self.chance
        tables = [chance.choice(list(COLUMNS))]
        source = f"{tables[0]} AS t0"
        count = chance.choice((1, 1, 1, 2, 2, 3))
        self.alone = count == 1
        for number in range(1, count):
            at = chance.randrange(len(tables))
            links = [link for link in LINKS + tuple((c, d, a, b) for a, b, c, d in LINKS) if link[0] == tables[at]]
            _, column, other, of_other = chance.choice(links)
            on = f"t{number}.{of_other} = t{at}.{column}"
            if chance.random() < 0.3:
                on += " AND " + self.condition(f"t{number}", other)
            source += chance.choice((" JOIN ", " JOIN ", " CROSS JOIN ", " LEFT JOIN ")) + f"{other} AS t{number} ON {on}"
            tables.append(other)
        results = [f"t{number}.id" for number in range(len(tables))]
        for number, table in enumerate(tables):
            results += [f"t{number}.{column}" for column in COLUMNS[table] if column != "id" and chance.random() < 0.5]
        where = " AND ".join(self.condition(f"t{k}", tables[k]) for k in
                             (chance.randrange(len(tables)) for _ in range(chance.choice((0, 1, 1, 2, 3)))))
        asked = f"SELECT {', '.join(results)} FROM {source}" + (f" WHERE {where}" if where else "")
        keys = []
        if chance.random() < 0.5:
            keys = chance.sample(range(len(results)), chance.randint(1, min(3, len(results))))
            turned = [chance.choice(("", "", " DESC")) for _ in keys]
            cut = ""
            if chance.random() < 0.4:  # what is cut must be in one order only
                rest = [number for number in range(len(tables)) if number not in keys]
                turned += [""] * len(rest)
                keys += rest
                cut = chance.choice((" LIMIT 10", " LIMIT 5 OFFSET 3"))
            asked += " ORDER BY " + ", ".join(results[key] + turn for key, turn in zip(keys, turned)) + cut
        return asked, keys


def opened(dumped, more=""):
    base = sqlite3.connect(":memory:")
    base.executescript(dumped + more)
    return base


def answer(base, asked):
    """The rows, and the steps that they took."""
    steps = [0]

    def count():
        steps[0] += STEPS
        return 0
    base.set_progress_handler(count, STEPS)
    rows = base.execute(asked).fetchall()
    base.set_progress_handler(None, 0)
    return rows, steps[0]


def typed(value):
    return type(value).__name__, value


def by_keys(rows, keys):
    """The keys of the rows in their order, letters folded, since names are equal with letters of either case."""
    return [tuple(typed(row[key].lower() if isinstance(row[key], str) else row[key]) for key in keys) for row in rows]


def main():
    if not 2 <= len(sys.argv) <= 4:
        sys.exit(__doc__)
    program = os.path.abspath(sys.argv[1])
    count = int(sys.argv[2]) if len(sys.argv) > 2 else 200
    chance = random.Random(sys.argv[3] if len(sys.argv) > 3 else "1")
    dumped = dump(chance)
    asker = Asker(chance)
    asked = [asker.statement() for _ in range(count)]
    with tempfile.TemporaryDirectory() as folder:
        for name, content in (("dump", dumped), ("script", ";\n".join(one for one, _ in asked))):
            with open(os.path.join(folder, name), "w") as file:
                file.write(content)
        done = subprocess.run([program, "-file", "script", "dump"], cwd=folder, capture_output=True, text=True)
    if done.returncode != 0:
        sys.exit(f"status {done.returncode}: {done.stderr}{done.stdout[-2000:]}")
    recommended = done.stdout.partition("-- Recommended\n")[2]
    indexes = recommended.count("CREATE INDEX")
    plain, indexed = opened(dumped), opened(dumped, recommended if indexes else "")
    before = after = used = rows_in_all = 0
    other = []
    for one, keys in asked:
        rows, steps = answer(plain, one)
        with_rows, with_steps = answer(indexed, one)
        before, after, rows_in_all = before + steps, after + with_steps, rows_in_all + len(rows)
        used += any("_idx_" in line[3] for line in indexed.execute("EXPLAIN QUERY PLAN " + one))
        same = [collections.Counter(tuple(map(typed, row)) for row in some) for some in (rows, with_rows)]
        if same[0] != same[1] or by_keys(rows, keys) != by_keys(with_rows, keys):
            other.append(one)
            print(f"other rows: {one}\n  {len(rows)} without, {len(with_rows)} with")
    print(f"SQLite {sqlite3.sqlite_version}: {count} statements with {rows_in_all} rows, {indexes} indexes recommended; "
          f"{len(other)} have other rows with them, {used} use one; "
          f"{before / 1e6:.1f} million steps without, {after / 1e6:.1f} with")
    return 1 if other else 0


if __name__ == "__main__":
    sys.exit(main())
