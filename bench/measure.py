"""Prints how long the program takes for inputs at its limits, and its peak of memory.

    python3 bench/measure.py PROGRAM [NAME..]

Each input is made in a folder that is given up behind it. NAME takes those whose name holds it. A
status other than the expected one is told, and makes the script fail.
"""

import os
import random
import sys
import tempfile

from measured import run, shown

SCRIPT_LIMIT = 4_194_304


def join_of(count):
    """Tables with two indexes, each joined to its neighbour by indexed columns."""
    dump = "".join(f"CREATE TABLE j{n}(a INT, b INT, c);\nCREATE INDEX j{n}_a ON j{n}(a);\nCREATE INDEX j{n}_b ON j{n}(b);\n"
                   for n in range(count))
    tables = ", ".join(f"j{n}" for n in range(count))
    links = " AND ".join(f"j{n}.b = j{n + 1}.a" for n in range(count - 1))
    yield dump, f"SELECT * FROM {tables} WHERE {links}"


def chain_of_links(backwards, tail=""):
    """256 conjuncts that link 257 columns of 64 items to one class, in order or from the far end."""
    columns = [f"t{n % 64}.c{n // 64}" for n in range(257)]
    links = [f"{left} = {right}" for left, right in zip(columns, columns[1:])]
    if tail:
        links[-1] = f"{columns[-2]} = {tail}"
    if backwards:
        links.reverse()
    dump = "CREATE TABLE t(" + ", ".join(f"c{n} INT" for n in range(5)) + ");\n"
    tables = ", ".join(f"t AS t{n}" for n in range(64))
    yield dump, f"SELECT t0.c0 FROM {tables} WHERE {' AND '.join(links)}"


def rows_with_indexes(rows):
    """A table with four indexes, and a row for each line of the dump."""
    chance = random.Random(rows)
    yield ("CREATE TABLE r(id INTEGER PRIMARY KEY, a INT, b TEXT, c NUMERIC, d TEXT COLLATE NOCASE);\n"
           "CREATE INDEX r_a ON r(a);\nCREATE INDEX r_ba ON r(b, a);\nCREATE INDEX r_dc ON r(d, c DESC, a);\n"
           "CREATE INDEX r_ad ON r(a, d, b, c);\n",
           "SELECT * FROM r WHERE a = ?; SELECT b, a FROM r WHERE b > ? ORDER BY b; SELECT * FROM r WHERE c = ? AND d = ?")
    for n in range(1, rows + 1):
        yield (f"INSERT INTO r VALUES({n},{chance.randrange(rows)},'text {chance.randrange(1000)}',"
               f"{chance.randrange(500)}.5,'{chance.choice('abcXYZ')}{chance.randrange(5000)}');\n", None)


def rows_of_one_value(rows):
    """All rows alike, so that nothing tells them apart in any index."""
    yield ("CREATE TABLE r(a, b, c, d);\nCREATE INDEX r_ab ON r(a, b);\nCREATE INDEX r_c ON r(c);\n"
           "CREATE INDEX r_dcba ON r(d, c, b, a);\n", "SELECT * FROM r WHERE b = 1")
    for _ in range(rows):
        yield "INSERT INTO r VALUES('the same in all of them',1,NULL,x'00');\n", None


def candidates(count):
    """Two for each of a thousand tables, and one more where it is asked for."""
    dump = "".join(f"CREATE TABLE t{n}(a,b,c);\n" for n in range(1000))
    script = "".join(f"SELECT * FROM t{n} WHERE a=1; SELECT * FROM t{n} WHERE b=1;" for n in range(1000))
    yield dump, script + "SELECT * FROM t0 WHERE c=1" * (count - 2000)


def candidates_of_one_table():
    """A candidate for each column of a table of 2,000."""
    names = [f"c{n}" for n in range(2000)]
    yield f"CREATE TABLE wide({', '.join(names)});\n", ";".join(f"SELECT * FROM wide WHERE {name}=1" for name in names)


def indexes_of_one_table(count):
    """A table with so many indexes, all of which may serve, and a join of eight of it."""
    dump = "CREATE TABLE w(a, b, c, d, e, f);\n" + "".join(
        f"CREATE INDEX w{n} ON w({', '.join('abcdef'[(n + k) % 6] for k in range(1 + n % 3))});\n" for n in range(count))
    links = " AND ".join(f"w{n}.a = w{n + 1}.b AND w{n}.c = w{n + 1}.d" for n in range(7))
    yield dump, f"SELECT * FROM {', '.join(f'w AS w{n}' for n in range(8))} WHERE {links} AND w7.e = 1 ORDER BY w0.a, w1.b"


def offers_of_one_item(statements):
    """So many statements over one table with 64 indexes, each with 64 terms."""
    columns = [f"c{n}" for n in range(64)]
    dump = f"CREATE TABLE w({', '.join(columns)});\n" + "".join(
        f"CREATE INDEX w{n} ON w({columns[n]}, {columns[(n + 1) % 64]});\n" for n in range(64))
    yield dump, ";\n".join([f"SELECT * FROM w WHERE {' AND '.join(f'{column}=1' for column in columns)}"] * statements)


def conjuncts(text):
    """256 times a condition on one table."""
    yield "CREATE TABLE x1(a,b,c);\nCREATE INDEX x1_c ON x1(c);\n", "SELECT * FROM x1 WHERE " + " AND ".join([text] * 256)


def long_list(members, text, between):
    """One condition with so many members."""
    yield "CREATE TABLE x1(a,b,c);\n", "SELECT * FROM x1 WHERE " + text.format(between.join(
        f"b={n}" if " OR " in between else str(n) for n in range(members)))


def script_of_joins():
    """4 MB of joins of four tables."""
    dump = "".join(f"CREATE TABLE s{n}(id INTEGER PRIMARY KEY, p INT, q INT, r TEXT);\n" for n in range(30))
    chance = random.Random(4)
    pieces, size = [], 0
    while True:
        a, b, c, d = (chance.randrange(30) for _ in range(4))
        text = (f"SELECT * FROM s{a} AS a, s{b} AS b, s{c} AS c, s{d} AS d WHERE a.p = b.id AND b.q = c.q "
                f"AND c.p = d.p AND d.r = '{chance.randrange(1000)}' AND a.q > {chance.randrange(90)} ORDER BY a.p;\n")
        if size + len(text) > SCRIPT_LIMIT:
            break
        pieces.append(text)
        size += len(text)
    yield dump, "".join(pieces) + " " * (SCRIPT_LIMIT - size)


def script_of_short_statements():
    """4 MB of the shortest statements that are planned."""
    text = "SELECT*FROM t;"
    yield "CREATE TABLE t(a);\n", text * (SCRIPT_LIMIT // len(text))


def statements_over_tables():
    """2,000 statements over 1,000 tables."""
    dump = "".join(f"CREATE TABLE t{n}(id INTEGER PRIMARY KEY, a INT, b TEXT);\nINSERT INTO t{n} VALUES(1,{n},'x');\n"
                   for n in range(1000))
    script = "".join(f"SELECT * FROM t{n} WHERE a = {n};\nSELECT t{n}.b FROM t{n}, t{(n + 1) % 1000} "
                     f"WHERE t{n}.a = t{(n + 1) % 1000}.id AND t{n}.b = 'x';\n" for n in range(1000))
    yield dump, script


def measures():
    """Names, inputs and expected statuses."""
    for count in (2, 4, 8, 16, 32, 64):
        yield f"join of {count} tables", join_of(count), 0
    yield "64 items, 256 links in a chain", chain_of_links(False), 0
    yield "64 items, 256 links from the far end", chain_of_links(True), 0
    yield "64 items, 255 links and a constant", chain_of_links(False, "7"), 0
    yield "64 items, 255 links and a constant from the far end", chain_of_links(True, "7"), 0
    for rows in (1_000, 10_000, 100_000, 500_000):
        yield f"{rows:,} rows, four indexes", rows_with_indexes(rows), 0
    yield "500,000 rows alike", rows_of_one_value(500_000), 0
    yield "2,000 candidates", candidates(2000), 0
    yield "2,001 candidates", candidates(2001), 2
    yield "2,000 candidates of one table", candidates_of_one_table(), 0
    yield "60 indexes, join of 8", indexes_of_one_table(60), 0
    yield "64 indexes and 64 terms, once", offers_of_one_item(1), 0
    yield "64 indexes and 64 terms, 1,000 times", offers_of_one_item(1000), 0
    yield "256 conjuncts: equal", conjuncts("a=1"), 0
    yield "256 conjuncts: OR", conjuncts("(a=1 OR b=2)"), 0
    yield "256 conjuncts: bounds", conjuncts("c>1"), 0
    yield "IN of 100,000", long_list(100_000, "a IN ({})", ","), 0
    yield "OR of 100,000", long_list(100_000, "{}", " OR "), 0
    yield "OR of 2,000 beside another column", long_list(2_000, "a=1 OR {}", " OR "), 0
    yield "4 MB of joins", script_of_joins(), 0
    yield "4 MB of short statements", script_of_short_statements(), 0
    yield "2,000 statements over 1,000 tables", statements_over_tables(), 0


def write(pieces, folder):
    """The dump comes in pieces, and the script with the first one. The sizes of both."""
    with open(os.path.join(folder, "dump"), "w") as dump:
        for piece, script in pieces:
            dump.write(piece)
            if script is not None:
                with open(os.path.join(folder, "script"), "w") as file:
                    file.write(script)
    return os.path.getsize(os.path.join(folder, "dump")), os.path.getsize(os.path.join(folder, "script"))


def main():
    if len(sys.argv) < 2:
        sys.exit(__doc__)
    program, wanted = os.path.abspath(sys.argv[1]), sys.argv[2:]
    wrong = 0
    for name, pieces, status in measures():
        if wanted and not any(part in name for part in wanted):
            continue
        with tempfile.TemporaryDirectory() as folder:
            dump, script = write(pieces, folder)
            with open(os.path.join(folder, "report"), "wb") as out:
                done = run([program, "-file", "script", "dump"], folder, out)
            report = os.path.getsize(os.path.join(folder, "report"))
        told = "" if done.status == status else f", and status {status} was expected"
        wrong += bool(told)
        print(f"{name:52} {shown(done)}  dump {dump:,}, script {script:,}, report {report:,} bytes{told}", flush=True)
    return 1 if wrong else 0


if __name__ == "__main__":
    sys.exit(main())
