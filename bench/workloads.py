"""Makes the three workloads of beside_sqlite.py: a dump and a script each.

    python3 bench/workloads.py FOLDER [NAME..]

Both are in the part of SQL that sqlite3_expert reads, and SQLite takes them too. The same call makes
the same bytes. A workload is some tables of eight columns, and statements that ask for them as an
application does: by a key, by a range, in an order, joined along foreign keys.
"""

import collections
import os
import random
import sys

Workload = collections.namedtuple("Workload", "name tables rows statements")

WORKLOADS = (
    Workload("many statements", 12, 200, 500),
    Workload("many rows", 6, 90_000, 20),
    Workload("many tables", 40, 20, 2_000),
)

TOWNS = ("Aarau", "Basel", "Bern", "Chur", "Genf", "Lugano", "Luzern", "Olten", "Sion", "Thun", "Zug", "Uster")


class Maker:
    def __init__(self, workload):
        self.tables, self.rows, self.statements = workload.tables, workload.rows, workload.statements
        self.chance = random.Random(workload.name)

    def below(self, end):
        return self.chance.randrange(end)

    def write_dump(self, file):
        file.write("PRAGMA foreign_keys=OFF;\nBEGIN TRANSACTION;\n")
        for number in range(self.tables):
            file.write(f"CREATE TABLE box{number}(id INTEGER PRIMARY KEY, owner INT, kind INT, code TEXT,\n"
                       "  town TEXT COLLATE NOCASE, weight NUMERIC, ended, remark TEXT);\n")
            for row in range(1, self.rows + 1):
                file.write(
                    f"INSERT INTO box{number} VALUES({row},{1 + self.below(self.rows)},{self.below(40)},"
                    f"'C-{self.below(self.rows // 8 + 1)}','{self.chance.choice(TOWNS)}',"
                    f"{self.below(2000)}.{1 + self.below(9)},"
                    f"{'NULL' if self.below(5) else self.below(1000)},'set {self.below(10**7)} by hand');\n")
        file.write("COMMIT;\n")

    def write_script(self, file):
        for _ in range(self.statements):
            file.write(self.statement() + ";\n")

    def statement(self):
        kinds = (self.look_up,) * 9 + (self.pair,) * 4 + (self.trio, self.trio, self.chain, self.chain,
                                                          self.either, self.either, self.change)
        return self.chance.choice(kinds)()

    def table(self):
        return f"box{self.below(self.tables)}"

    def condition(self, name=""):
        """One condition on the table of that name, or on the only table."""
        column = f"{name}." if name else ""
        kind = self.below(8)
        if kind == 0:
            return f"{column}owner = {self.below(1000)}"
        if kind == 1:
            return f"{column}kind >= {self.below(40)}"
        if kind == 2:
            return f"{column}code = 'C-{self.below(100)}'"
        if kind == 3:
            return f"{column}town = '{self.chance.choice(TOWNS).lower()}'"
        if kind == 4:
            low = self.below(1000)
            return f"{column}weight BETWEEN {low} AND {low + self.below(500)}.5"
        if kind == 5:
            return f"{column}kind IN ({self.below(40)}, {self.below(40)}, {self.below(40)}, ?)"
        if kind == 6:
            return f"{column}ended IS NULL"
        return f"{column}town = ? AND {column}owner = ?"

    def look_up(self):
        order = self.chance.choice(("", "", "", " ORDER BY owner", " ORDER BY kind, code DESC",
                                    " ORDER BY town LIMIT 20", " ORDER BY id DESC LIMIT 5"))
        more = f" AND {self.condition()}" if self.below(3) else ""
        return f"SELECT id, owner, kind FROM {self.table()} WHERE {self.condition()}{more}{order}"

    def pair(self):
        return (f"SELECT p.id, q.code FROM {self.table()} AS p JOIN {self.table()} AS q ON q.id = p.owner "
                f"WHERE {self.condition('p')}" + (f" AND {self.condition('q')}" if self.below(2) else ""))

    def trio(self):
        return (f"SELECT p.id, r.town FROM {self.table()} AS p, {self.table()} AS q, {self.table()} AS r "
                f"WHERE p.kind = q.kind AND q.owner = r.owner AND {self.condition('p')} AND {self.condition('r')}")

    def chain(self):
        return (f"SELECT * FROM {self.table()} AS p, {self.table()} AS q, {self.table()} AS r, {self.table()} AS s "
                f"WHERE p.owner = q.owner AND q.kind = r.kind AND r.code = s.code AND {self.condition('s')} "
                f"AND {self.condition('p')}")

    def either(self):
        return (f"SELECT * FROM {self.table()} WHERE ({self.condition()} AND {self.condition()}) "
                f"OR owner = {self.below(500)}")

    def change(self):
        if self.below(2):
            return f"UPDATE {self.table()} SET kind = 1, ended = NULL WHERE {self.condition()} AND {self.condition()}"
        return f"DELETE FROM {self.table()} WHERE {self.condition()}"


def make(workload, folder):
    """Writes dump.sql and script.sql into the folder."""
    os.makedirs(folder, exist_ok=True)
    maker = Maker(workload)
    with open(os.path.join(folder, "dump.sql"), "w") as file:
        maker.write_dump(file)
    with open(os.path.join(folder, "script.sql"), "w") as file:
        maker.write_script(file)


def main():
    if len(sys.argv) < 2:
        sys.exit(__doc__)
    for workload in WORKLOADS:
        if len(sys.argv) == 2 or workload.name in sys.argv[2:]:
            make(workload, os.path.join(sys.argv[1], workload.name.replace(" ", "_")))


if __name__ == "__main__":
    main()
