"""Runs the program on random and changed inputs, and tells each run that ends as none may.

    python3 bench/fuzz.py PROGRAM [COUNT [SEED]]

An input is a command line, a dump and a script: from the cases of tests/ and the demo, from pieces of SQL
put together at random, or from bytes. Most are then changed: cut, repeated, mixed with another one, a byte
turned. Each run must end within ten seconds with a status from 0 to 6, with the standard output and error
that belong to it. COUNT is 1,000 by default. One that fails is kept in a folder, whose name is told.
"""

import collections
import os
import random
import re
import shutil
import subprocess
import sys
import tempfile

HERE = os.path.dirname(os.path.abspath(__file__))
LIMIT = 10  # seconds

WORDS = (b"SELECT FROM WHERE AND OR NOT IN BETWEEN IS NULL ISNULL NOTNULL LIKE COLLATE NOCASE RTRIM BINARY ORDER BY "
         b"ASC DESC LIMIT OFFSET JOIN LEFT OUTER CROSS INNER ON AS UPDATE SET DELETE GROUP HAVING DISTINCT UNION ALL "
         b"CASE WHEN CAST EXISTS INSERT INTO VALUES CREATE TABLE INDEX UNIQUE PRIMARY KEY INTEGER TEXT REAL NUMERIC "
         b"BLOB VIEW TRIGGER TEMP IF WITHOUT ROWID STRICT CHECK DEFAULT REFERENCES CONSTRAINT FOREIGN GENERATED "
         b"ALWAYS sqlite_stat1 ANALYZE BEGIN END COMMIT rowid oid _rowid_ TRUE FALSE main a b c d t u v x1 t0 t1 "
         b"idx").split()
MARKS = (b"( ) , ; . * = == <> != < <= > >= + - / % || | & ~ << >> -> ->> ' '' \" \"\" ` [ ] -- /* */ ? ?1 ?2 ?32766 "
         b"?32767 ?0 :n @n $n # ! \\ 'x' 'a b' x'00' x'0' X'ff' \"t\" [a b] `c` 0 1 -1 1.5 1.50000 1.23456 .5 5. 1e5 0x1f "
         b"9223372036854775807 9223372036854775808 99999999999 100000000000.5 '1' '1.0' '' {").split()
SPACES = (b" ", b" ", b" ", b" ", b"\n", b"\t", b"", b"\r\n", b"  ")
OPTIONS = (b"-sql", b"-file", b"-sample", b"-verbose", b"-stat", b"--sql", b"--file", b"--sample", b"--verbose", b"--stat",
           b"-", b"--", b"", b"-selfcheck", b"-x", b"---sql")
VALUES = (b"0", b"1", b"2", b"50", b"99", b"100", b"101", b"007", b"given", b"sampled", b"", b"-1", b"db", b"script", b"nope",
          b".", b"\xff")


def seeds():
    """(dump, script) of the repository's own cases, and of the demo."""
    found = [(open(os.path.join(HERE, "../demo/shop.sql"), "rb").read(),
              open(os.path.join(HERE, "../demo/shop.query"), "rb").read())]
    folder = os.path.join(HERE, "../tests")
    for path in sorted(os.path.join(at, name) for at, _, names in os.walk(folder) for name in names):
        if not path.endswith(".case"):
            continue
        parts, name = collections.defaultdict(bytes), b""
        with open(path, "rb") as lines:
            for line in lines:
                if line.startswith(b"== "):
                    name = line[3:].strip()
                else:
                    parts[name] += line
        if b"script" in parts:
            found.append((parts[b"database"], parts[b"script"]))
    return found


class Chance(random.Random):
    def soup(self, length):
        """Words and marks at random."""
        return b"".join(self.choice(self.choice((WORDS, MARKS))) + self.choice(SPACES) for _ in range(length))

    def table(self, number):
        types = (b"", b" INT", b" TEXT", b" TEXT COLLATE NOCASE", b" NUMERIC", b" REAL", b" BLOB", b" UNIQUE",
                 b" INTEGER PRIMARY KEY", b" COLLATE RTRIM NOT NULL", b" DEFAULT (1)")
        columns = b", ".join(b"abcd"[k:k + 1] + self.choice(types) for k in range(4))
        text = b"CREATE TABLE t%d(%s);\n" % (number, columns)
        for _ in range(self.choice((0, 0, 1, 3, 20))):
            values = b",".join(self.choice((b"NULL", b"1", b"'x'", b"'X '", b"-2.5", b"x'00'", b"'7'")) for _ in
                               range(columns.count(b",") + 1))
            text += b"INSERT INTO t%d VALUES(%s);\n" % (number, values)
        for k in range(self.choice((0, 0, 1, 2))):
            keys = b", ".join(self.choice((b"a", b"b", b"c", b"d")) + self.choice((b"", b"", b" DESC", b" COLLATE NOCASE"))
                              for _ in range(self.randint(1, 3)))
            text += b"CREATE INDEX i%d_%d ON t%d(%s);\n" % (number, k, number, keys)
        if self.random() < 0.1:
            text += b"INSERT INTO sqlite_stat1 VALUES('t%d','i%d_0','%s');\n" % (
                number, number, self.choice((b"100 10", b"9 9 9", b"1000 1 unordered", b"x", b"99999999999999999999 1")))
        return text

    names = (b"p",)  # those of FROM

    def column(self):
        name = self.choice(self.names) + b"."
        if self.random() < 0.02 or len(self.names) == 1 and self.random() < 0.5:
            name = b""
        return name + self.choice((b"a", b"b", b"c", b"d", b"rowid"))

    def value(self):
        return self.choice((b"1", b"'x'", b"?", b"NULL", b"2.5", b":n", b"-3", b"x'00'", self.column(), self.column()))

    def condition(self, depth=3):
        kind = self.randrange(9 if depth else 6)
        if kind < 3:
            return self.column() + self.choice((b"=", b"=", b"=", b"<", b">=", b">", b"<>")) + self.value()
        if kind == 3:
            return self.column() + b" IN (" + b",".join(self.value() for _ in range(self.randrange(5))) + b")"
        if kind == 4:
            return self.column() + self.choice((b" IS NULL", b" NOTNULL", b" LIKE 'ab%'", b" NOT LIKE '_'"))
        if kind == 5:
            return self.column() + b" BETWEEN " + self.value() + b" AND " + self.value()
        word = self.choice((b" AND ", b" OR "))
        return b"(" + word.join(self.condition(depth - 1) for _ in range(self.randint(2, 4))) + b")"

    def statement(self):
        kind = self.randrange(10)
        self.names = ([b"p", b"q"] + [b"r%d" % k for k in range(self.choice((0, 0, 0, 1, 3, 8)))])[:self.choice((1, 2, 9))]
        if kind < 2:
            self.names = (b"p",)
        where = b" WHERE " + self.condition() if self.random() < 0.8 else b""
        if kind == 0:
            return b"UPDATE t%d AS p SET a=1" % self.randrange(3) + where
        if kind == 1:
            return b"DELETE FROM t%d AS p" % self.randrange(3) + where
        joins = (b", ", b" JOIN ", b" CROSS JOIN ", b" LEFT JOIN ")
        text = b"SELECT * FROM " + b"".join((self.choice(joins) if k else b"") + b"t%d AS %s" % (self.randrange(3), name)
                                            for k, name in enumerate(self.names))
        order = b" ORDER BY " + b", ".join(self.column() + self.choice((b"", b" DESC")) for _ in range(self.randint(1, 3)))
        return text + where + (order if self.random() < 0.4 else b"") + self.choice((b"", b"", b" LIMIT 3"))

    def changed(self, text, other):
        """The text with some changes."""
        for _ in range(self.choice((1, 1, 2, 5))):
            at, to = sorted((self.randrange(len(text) + 1), self.randrange(len(text) + 1)))
            to = min(to, at + self.choice((1, 5, 40, 1000)))
            kind = self.randrange(7)
            if kind == 0:
                text = text[:at] + text[to:]
            elif kind == 1:
                text = text[:at] + text[at:to] * self.choice((2, 3, 50)) + text[to:]
            elif kind == 2:
                text = text[:at] + bytes([self.randrange(256)]) + text[at + 1:]
            elif kind == 3:
                text = text[:at] + self.choice(self.choice((WORDS, MARKS))) + text[at:]
            elif kind == 4:
                start = self.randrange(len(other) + 1)
                text = text[:at] + other[start:start + 200] + text[to:]
            elif kind == 5:
                text = text[:at]
            else:
                text = text[:at] + self.choice((b"(", b"NOT ", b"+", b"a IN (", b"((((", b"'", b";")) * self.choice((1, 3, 250)) + text[at:]
        return text[:200_000]

    def input(self, found):
        """(words, dump, script)"""
        kind = self.randrange(10)
        if kind < 4:
            dump, script = self.choice(found)
            if self.random() < 0.3:
                script = self.choice(found)[1]
        elif kind < 8:
            dump = b"".join(self.table(n) for n in range(3))
            script = b";\n".join(self.statement() for _ in range(self.choice((1, 1, 2, 5))))
        elif kind < 9:
            dump, script = self.soup(self.randrange(60)), self.soup(self.randrange(60))
        else:
            dump, script = self.randbytes(self.randrange(300)), self.randbytes(self.randrange(300))
        if self.random() < 0.25:
            dump = self.changed(dump, script)
        if self.random() < 0.35:
            script = self.changed(script, self.choice(found)[1])
        words = [b"-file", b"script"] if self.random() < 0.8 else [b"-sql", script.replace(b"\0", b"")[:100_000]]
        for option, values in ((b"-sample", VALUES[:6]), (b"-verbose", VALUES[:2]), (b"-stat", (b"given", b"sampled"))):
            if self.random() < 0.3:
                words += [option, self.choice(values)]
        words.append(b"db")
        if self.random() < 0.05:
            at = self.randrange(len(words) + 1)
            words[at:at + self.randrange(3)] = [self.choice((self.choice(OPTIONS), self.choice(VALUES)))
                                                for _ in range(self.randrange(3))]
        return words, dump, script


USAGE = re.compile(rb"usage: sqlite3_expert \[-sql SQL\].* DATABASE\n")
LINES = {2: re.compile(rb"sqlite3_expert: (database too large|database file format not read|script too large|too many tables"
                       rb"|too many candidates|damaged database|database version not read|UTF-16 database not read)\n"),
         4: re.compile(rb"sqlite3_expert: cannot read [^\0]*\n", re.DOTALL),
         5: re.compile(rb"sqlite3_expert: cannot write\n"), 6: re.compile(rb"(sqlite3_expert: out of memory\n)?"), 1: USAGE}


def fault(done):
    """What is wrong with a run, or None."""
    status = done.returncode
    if not 0 <= status <= 6:
        return f"status {status}"
    if status not in (0, 3):
        if status != 5 and done.stdout:
            return f"status {status} with a report"
        return None if LINES[status].fullmatch(done.stderr) else f"status {status} with another line: {done.stderr!r}"
    if done.stderr:
        return f"status {status} with a line: {done.stderr!r}"
    at = done.stdout.rfind(b"-- Recommended\n")
    if at < 0 or not done.stdout.endswith(b"\n"):
        return "a report without its end"
    if (status == 3) != (b"\nrefused: " in done.stdout):
        return f"status {status}, and refusals tell otherwise"
    return None


def main():
    if not 2 <= len(sys.argv) <= 4:
        sys.exit(__doc__)
    program = os.path.abspath(sys.argv[1])
    count = int(sys.argv[2]) if len(sys.argv) > 2 else 1000
    seed = sys.argv[3] if len(sys.argv) > 3 else "1"
    found, statuses, faults = seeds(), collections.Counter(), 0
    with tempfile.TemporaryDirectory() as folder:
        for number in range(count):
            words, dump, script = Chance(f"{seed}/{number}").input(found)
            for name, text in (("db", dump), ("script", script)):
                with open(os.path.join(folder, name), "wb") as file:
                    file.write(text)
            try:
                done = subprocess.run([os.fsencode(program)] + words, cwd=folder, stdin=subprocess.DEVNULL,
                                      capture_output=True, timeout=LIMIT)
                statuses[done.returncode] += 1
                wrong = fault(done)
            except subprocess.TimeoutExpired:
                statuses["stopped"] += 1
                wrong = f"no end within {LIMIT} s"
            if wrong:
                faults += 1
                kept = tempfile.mkdtemp(prefix="fuzz-")
                for name in ("db", "script"):
                    shutil.copy(os.path.join(folder, name), kept)
                print(f"{seed}/{number}: {wrong}; words {words!r}, files in {kept}", flush=True)
    print(f"{count} inputs, by status {dict(sorted(statuses.items(), key=str))}, {faults} faults")
    return 1 if faults else 0


if __name__ == "__main__":
    sys.exit(main())
