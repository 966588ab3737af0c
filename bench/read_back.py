"""Gives the program its own recommended indexes as part of the dump, and looks that it reads them as it meant them.

    python3 bench/read_back.py PROGRAM [COUNT [SEED]]

COUNT (1,000) random schemas, whose names hold spaces, quotes and reserved words, get a random script each. Its
recommended indexes are then written behind the dump, and the program runs again: it must tell the same plans and the
same costs, and recommend nothing more. A CREATE INDEX whose name, table, columns, collations or directions were read
otherwise than they were meant would be told once more. Each difference is printed.
"""

import os
import random
import re
import subprocess
import sys
import tempfile

NAMES = ("a", "b", "name", "Total", "two words", "order", "select", "it's", 'a "b"', "x[1]", "a.b", "größe", "é", "1st", "_", "rowid",
         "index", "a;b", "--c", "/*d*/", "key\tvalue", "UPPER", "group", "null", "text")
TYPES = ("", " INTEGER", " TEXT", " REAL", " NUMERIC", " BLOB", " VARCHAR(10)", " INTEGER PRIMARY KEY")
COLLATIONS = ("", "", "", " COLLATE NOCASE", " COLLATE RTRIM", " COLLATE BINARY")


def quoted(name, chance):
    """The name as a token of one of its spellings."""
    spellings = ['"' + name.replace('"', '""') + '"']
    if "`" not in name:
        spellings.append(f"`{name}`")
    if "]" not in name:
        spellings.append(f"[{name}]")
    return chance.choice(spellings)


def literal(chance):
    return chance.choice(("1", "-2", "2.5", "'x'", "'It''s'", "x'00ff'", "NULL", "?"))


class Schema:
    def __init__(self, chance):
        self.chance = chance
        self.tables = []
        text = ""
        for table in chance.sample(NAMES, chance.choice((1, 1, 2, 3))):
            columns = chance.sample(NAMES, chance.choice((1, 2, 3, 5)))
            types = [chance.choice(TYPES) for _ in columns]
            types = [one if one != TYPES[-1] or types.index(one) == place else "" for place, one in enumerate(types)]
            spelled = ", ".join(quoted(column, chance) + one + chance.choice(COLLATIONS) for column, one in zip(columns, types))
            text += f"CREATE TABLE {quoted(table, chance)}({spelled});\n"
            for _ in range(chance.choice((0, 0, 2, 9))):
                values = ",".join(str(number) if one == TYPES[-1] else chance.choice(("NULL", "1", "2.5", "'x'", "'X '", "x'00'"))
                                  for number, one in enumerate(types))
                text += f"INSERT INTO {quoted(table, chance)} VALUES({values});\n"
            self.tables.append((table, columns))
        self.text = text

    def condition(self, number):
        chance = self.chance
        column = f"t{number}.{quoted(chance.choice(self.tables[number][1]), chance)}"
        collation = chance.choice(COLLATIONS)
        return chance.choice((f"{column} = {literal(chance)}{collation}", f"{column}{collation} > {literal(chance)}",
                              f"{column} IN ({literal(chance)}, {literal(chance)})", f"{column} LIKE 'ab%'", f"{column} IS NULL",
                              f"({column} = {literal(chance)} OR {column}{collation} < {literal(chance)})"))

    def statement(self):
        chance = self.chance
        count = chance.randint(1, len(self.tables))
        source = ", ".join(f"{quoted(self.tables[number][0], chance)} AS t{number}" for number in range(count))
        conditions = [self.condition(chance.randrange(count)) for _ in range(chance.choice((0, 1, 1, 2, 3)))]
        for number in range(1, count):
            left, right = (f"t{at}.{quoted(chance.choice(self.tables[at][1]), chance)}" for at in (number - 1, number))
            conditions.append(f"{left} = {right}{chance.choice(COLLATIONS)}")
        order = ""
        if chance.random() < 0.5:
            keys = [f"t{at}.{quoted(chance.choice(self.tables[at][1]), chance)}" for at in (chance.randrange(count) for _ in range(2))]
            order = " ORDER BY " + ", ".join(key + chance.choice(COLLATIONS) + chance.choice(("", "", " DESC")) for key in keys)
        where = f" WHERE {' AND '.join(conditions)}" if conditions else ""
        return f"SELECT t0.* FROM {source}{where}{order}"


def ask(program, folder, dump, script, percent):
    for name, content in (("dump", dump), ("script", script)):
        with open(os.path.join(folder, name), "w", encoding="utf-8") as file:
            file.write(content)
    words = [program, "-verbose", "1", "-sample", percent, "-file", "script", "dump"]
    done = subprocess.run(words, cwd=folder, capture_output=True, text=True, encoding="utf-8")
    return done.returncode, done.stdout


def plans(report):
    """The lines of plans and costs, without those of new indexes. What the written order costs hangs on the indexes' numbers, by
    which offers that cost the same are told apart, and these change."""
    return [line.partition(", written order ")[0] for line in report.partition("-- Statement 1\n")[2].partition("-- Recommended\n")[0].split("\n")
            if not line.startswith("CREATE INDEX") and line != "(no new indexes)"]


def main():
    if not 2 <= len(sys.argv) <= 4:
        sys.exit(__doc__)
    program = os.path.abspath(sys.argv[1])
    count = int(sys.argv[2]) if len(sys.argv) > 2 else 1000
    chance = random.Random(sys.argv[3] if len(sys.argv) > 3 else "1")
    indexes = wrong = 0
    with tempfile.TemporaryDirectory() as folder:
        for _ in range(count):
            schema = Schema(chance)
            script = ";\n".join(schema.statement() for _ in range(chance.choice((1, 2, 5))))
            percent = chance.choice(("0", "0", "100"))
            status, report = ask(program, folder, schema.text, script, percent)
            recommended = report.partition("-- Recommended\n")[2]
            lines = re.findall(r"CREATE INDEX [^;]*(?:;[^\n][^;]*)*;\n", recommended)
            indexes += len(lines)
            again, second = ask(program, folder, schema.text + ("" if "(no new" in recommended else recommended), script, percent)
            if (status, again) != (0, 0) or plans(report) != plans(second) or not second.endswith("-- Recommended\n(no new indexes)\n"):
                wrong += 1
                print(f"status {status} and {again}\n{schema.text}{script}\n{recommended}--\n{second}\n====", flush=True)
    print(f"{count} schemas, {indexes} recommended indexes, {wrong} read otherwise")
    return 1 if wrong else 0


if __name__ == "__main__":
    sys.exit(main())
