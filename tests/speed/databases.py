#!/usr/bin/env python3
"""Asks the queries of journal.py of SQLite and PostgreSQL, and times them.

    python3 tests/speed/databases.py                 counts and times of both, as Markdown
    python3 tests/speed/databases.py --counts        counts alone
    python3 tests/speed/databases.py --seconds S     S seconds of rounds for each statement, not 2
    python3 tests/speed/databases.py --no-indexes    the tables without indexes
    python3 tests/speed/databases.py --sql NAME      the statements for one ask

SQLite is Python's module, in memory. PostgreSQL is Debian's: apt-get install -y postgresql. Its server
is started in a new folder on a unix socket, with the settings of a new cluster, and stopped at the end.

A database has no symbols, so each cell that is not shown is NULL. A query becomes two statements:

low    The conditions as they are: NULL makes a comparison not true. A difference takes the high
       statement of its right part, and drops each left row for which the right part has a row that
       is equal, or NULL on either side, in every column.
high   Each comparison also holds where a side is NULL; "not" goes inward to the comparisons. A
       difference takes the low statement of its right part, and drops each left row that is equal
       to a right row in every column, with NULL on neither side.

That is not all the work of an ask:

- NULL is no variable. A hidden cell and itself are unknown in a comparison, "maybe equal" in a low
  difference and never equal in a high one. There are no pseudonyms: a linked cell is NULL too.
- Whether two rows can be the same is asked column by column, not of whole rows.
- Different rows that are NULL in the same columns become one row by DISTINCT.
- The rows have no order, the high statement gives the certain rows once more, nothing is refused, and
  no bytes are written.
- Only the tables that a query names are masked, not the whole book.

Each ask is timed in two ways: over tables that were masked beforehand, with indexes, and with the
masked tables made from the stored ones within the statement by CASE, in the low and in the high one.

SQLite: a statement is prepared once, and a round fetches all rows into Python. PostgreSQL: a DO block
plans the statement once, and a round is one PERFORM between two readings of clock_timestamp(), which
puts all rows into the server's memory, so the client and the socket are not in the figure.
"""

import argparse
import gc
import os
import shutil
import sqlite3
import statistics
import subprocess
import sys
import tempfile
import time
from contextlib import contextmanager
from pathlib import Path

from journal import ASKS, BOOKS, BROKER, FILTERS, PREFIX

LOW, HIGH = "low", "high"


# Masking ----------------------------------------------------------------------------------------


def joined(word, parts, dominant, neutral):
    """Conditions joined by a word, TRUE and FALSE left out."""
    if dominant in parts:
        return dominant
    parts = [part for part in dict.fromkeys(parts) if part != neutral]
    text = f" {word} ".join(parts) or neutral
    return f"({text})" if len(parts) > 1 else text


def all_of(*parts):
    return joined("AND", parts, "FALSE", "TRUE")


def any_of(*parts):
    return joined("OR", parts, "TRUE", "FALSE")


def holds(rule):
    """The condition under which a rule holds. Who asks is put in for {broker} later."""
    _, _, _, test = rule
    asks = f"{{broker}} = {BROKER}"
    return asks if test is None else all_of(asks, f"b.c{test[0]} = {test[1]}")


def shown(policy, t, c):
    """The condition under which a policy shows a cell. A linked cell is not shown."""
    name, *parts = policy
    if name == "filter":
        rules = [rule for rule in FILTERS[parts[0]] if rule[:2] == (t, c)]
        allowed = any_of(*[holds(rule) for rule in rules if rule[2] == 1])
        prohibited = any_of(*[holds(rule) for rule in rules if rule[2] == 0])
        return allowed if prohibited == "FALSE" else all_of(allowed, f"NOT ({prohibited})")
    if name == "register":
        return "TRUE" if t != 3 else f"k{parts[0]}.shown & {1 << c} <> 0"
    both = [shown(part, t, c) for part in parts]
    return all_of(*both) if name == "both" else any_of(*both)


def registers(policy):
    name, *parts = policy
    if name in ("both", "either"):
        return set().union(*map(registers, parts))
    return set(parts) if name == "register" else set()


def masked(b, policy, t):
    """A statement that makes the masked rows of a table of a book from its stored ones."""
    cells = []
    for c in range(len(BOOKS[b].columns[t])):
        condition = shown(policy, t, c)
        cell = f"b.c{c}" if condition == "TRUE" else f"CASE WHEN {condition} THEN b.c{c} END"
        cells.append(f"{cell} AS c{c}")
    text = f"SELECT {', '.join(cells)} FROM stored_{b}_{t} AS b"
    for n in sorted(registers(policy)) if t == 3 else ():
        text += f" LEFT JOIN consent_{b} AS k{n} ON k{n}.register = {n} AND k{n}.key = b.c0"
    return text


# Rewriting --------------------------------------------------------------------------------------


class Rewriting:
    """The two statements of a query. A dialect says how "covers" is asked."""

    def __init__(self, dialect, b, names):
        self.dialect = dialect
        self.b = b
        self.names = names  # for each table number what stands for it in FROM

    def compared(self, operator, left, right):
        if operator == 5 and self.dialect == "postgres":
            return f"starts_with({right}, {left})"
        if operator == 5:
            return f"substr({right}, 1, length({left})) = {left}"
        if operator == 6:
            return f"length({left}) < length({right})"
        return f"{left} {['=', '<>', '<', '<='][operator - 1]} {right}"

    def condition(self, condition, mode, negated=False):
        name, *parts = condition
        if name == "not":
            return self.condition(parts[0], mode, not negated)
        if name != "compare":
            word = "AND" if (name == "and") != negated else "OR"
            return "(" + f" {word} ".join(self.condition(p, mode, negated) for p in parts) + ")"
        operator, column, right = parts
        sides = [f"s.c{column}"]
        if isinstance(right, tuple):
            sides.append(f"s.c{right[1]}")
        constant = right if isinstance(right, int) else f"'{right}'"
        text = self.compared(operator, sides[0], sides[-1] if len(sides) == 2 else constant)
        text = f"NOT ({text})" if negated else text
        if mode == LOW:
            return text
        return "(" + " OR ".join([text] + [f"{side} IS NULL" for side in sides]) + ")"

    def width(self, query):
        name, *parts = query
        if name == "table":
            return len(BOOKS[self.b].columns[parts[0]])
        if name == "project":
            return len(parts[1])
        if name == "product":
            return sum(map(self.width, parts))
        return self.width(parts[0])

    def source(self, query, mode):
        return self.names[query[1]] if query[0] == "table" else f"({self.rows(query, mode)})"

    def rows(self, query, mode):
        """A statement for the rows of an answer, which may have repeats."""
        name, *parts = query
        if name == "table":
            return f"SELECT * FROM {self.names[parts[0]]}"
        left = self.source(parts[0], mode)
        if name == "select":
            return f"SELECT * FROM {left} AS s WHERE {self.condition(parts[1], mode)}"
        if name == "project":
            listed = ", ".join(f"s.c{c} AS c{i}" for i, c in enumerate(parts[1]))
            return f"SELECT {listed} FROM {left} AS s"
        if name == "difference":
            right = self.source(parts[1], HIGH if mode == LOW else LOW)
            same = [f"l.c{c} = r.c{c}" for c in range(self.width(query))]
            if mode == LOW:
                either = " OR l.c{0} IS NULL OR r.c{0} IS NULL"
                same = [f"({text}{either.format(c)})" for c, text in enumerate(same)]
            inner = f"SELECT 1 FROM {right} AS r WHERE {' AND '.join(same)}"
            return f"SELECT * FROM {left} AS l WHERE NOT EXISTS ({inner})"
        right = self.source(parts[1], mode)
        if name == "union":
            return f"SELECT * FROM {left} AS l UNION SELECT * FROM {right} AS r"
        first, second = map(self.width, parts)
        listed = [f"l.c{c} AS c{c}" for c in range(first)]
        listed += [f"r.c{c} AS c{first + c}" for c in range(second)]
        return f"SELECT {', '.join(listed)} FROM {left} AS l, {right} AS r"

    def answer(self, query, mode):
        text = self.rows(query, mode)
        return text if query[0] == "union" else f"SELECT DISTINCT * FROM ({text}) AS a"


def parts_of(query):
    """The queries that a query is made of."""
    return query[1 : {"table": 1, "select": 2, "project": 2}.get(query[0], 3)]


def tables_of(query):
    if query[0] == "table":
        return {query[1]}
    return set().union(*map(tables_of, parts_of(query)))


def has_difference(query):
    return query[0] == "difference" or any(map(has_difference, parts_of(query)))


POLICIES = list(dict.fromkeys((BOOKS.index(book), repr(ask.policy)) for book, ask in ASKS))


def place(b, policy):
    """The number of a policy over a book, which its masked tables have in their names."""
    return POLICIES.index((b, repr(policy)))


def beforehand(dialect, b, ask, mode):
    """A statement over tables that were masked beforehand."""
    names = {t: f"masked_{place(b, ask.policy)}_{t}" for t in range(4)}
    return Rewriting(dialect, b, names).answer(ask.query, mode)


def within(dialect, b, ask, mode):
    """The same, the masked tables being made in the statement: once each where a difference would
    make them for each pair of rows, and else as the database decides."""
    word = "MATERIALIZED " if has_difference(ask.query) else ""
    made = [f"v{t} AS {word}({masked(b, ask.policy, t)})" for t in sorted(tables_of(ask.query))]
    names = {t: f"v{t}" for t in range(4)}
    return f"WITH {', '.join(made)} {Rewriting(dialect, b, names).answer(ask.query, mode)}"


# Tables -----------------------------------------------------------------------------------------


def indexes(b, t):
    """The columns with an index of their own: keys, and a tariff's prefix and carrier."""
    return [0, 2] if BOOKS[b].columns[t][0][0] == PREFIX else [6]


def literal(cell):
    return str(cell) if isinstance(cell, int) else f"'{cell}'"


def values(rows):
    return ", ".join("(" + ", ".join(map(literal, row)) + ")" for row in rows)


def script(indexed):
    """Statements that make the stored and the masked tables, in both dialects."""
    for b, book in enumerate(BOOKS):
        for t, columns in enumerate(book.columns):
            kinds = ["text" if kind == PREFIX else "bigint" for kind, _ in columns]
            listed = ", ".join(f"c{c} {kind} NOT NULL" for c, kind in enumerate(kinds))
            yield f"CREATE TABLE stored_{b}_{t} ({listed})"
            yield f"INSERT INTO stored_{b}_{t} VALUES {values(book.tables[t])}"
            for c in indexes(b, t) if indexed else ():
                yield f"CREATE INDEX stored_{b}_{t}_{c} ON stored_{b}_{t} (c{c})"
        yield (
            f"CREATE TABLE consent_{b} (register bigint, key bigint, shown bigint NOT NULL,"
            " PRIMARY KEY (register, key))"
        )
        entries = [(n, k, s) for n, entries in enumerate(book.registers) for k, s, _ in entries]
        yield f"INSERT INTO consent_{b} VALUES {values(entries)}"
    for book, ask in ASKS:
        b = BOOKS.index(book)
        p = place(b, ask.policy)
        for t in range(4):
            made = masked(b, ask.policy, t).format(broker=BROKER)
            yield f"CREATE TABLE IF NOT EXISTS masked_{p}_{t} AS {made}"
            for c in indexes(b, t) if indexed else ():
                yield f"CREATE INDEX IF NOT EXISTS masked_{p}_{t}_{c} ON masked_{p}_{t} (c{c})"
    yield "ANALYZE"


# SQLite -----------------------------------------------------------------------------------------


class Sqlite:
    name = "SQLite"
    dialect = "sqlite"

    def __init__(self, indexed):
        db = sqlite3.connect(":memory:", isolation_level=None)
        for statement in script(indexed):
            db.execute(statement)
        self.cursor = db.cursor()

    def version(self):
        return f"SQLite {sqlite3.sqlite_version}, Python {sys.version.split()[0]}"

    def rows(self, statement):
        return self.cursor.execute(statement.format(broker=BROKER)).fetchall()

    def times(self, statement, seconds):
        """The least and the median time of a round in milliseconds."""
        statement, given = statement.format(broker=":broker"), {"broker": BROKER}
        execute, clock = self.cursor.execute, time.perf_counter_ns
        execute(statement, given).fetchall()
        took, left = [], seconds * 1e9
        gc.disable()
        while left > 0:
            start = clock()
            execute(statement, given).fetchall()
            took.append((clock() - start) / 1e6)
            left -= took[-1] * 1e6
        gc.enable()
        return min(took), statistics.median(took)


# PostgreSQL -------------------------------------------------------------------------------------

TIMED = """
SET plan_cache_mode = force_generic_plan;
CREATE TEMP TABLE took (ms double precision);
DO $block$
DECLARE
    broker CONSTANT bigint := {broker};
    began timestamptz := clock_timestamp();
    start timestamptz;
    stop timestamptz;
    took double precision[] := '{{}}';
BEGIN
    LOOP
        start := clock_timestamp();
        PERFORM * FROM ({statement}) AS whole;
        stop := clock_timestamp();
        took := took || (extract(epoch FROM stop - start) * 1000)::double precision;
        EXIT WHEN extract(epoch FROM stop - began) >= {seconds};
    END LOOP;
    INSERT INTO took SELECT unnest(took[2:]);
    INSERT INTO took SELECT took[1] WHERE cardinality(took) = 1;
END $block$;
SELECT min(ms), percentile_cont(0.5) WITHIN GROUP (ORDER BY ms) FROM took;
"""


def postgres_programs():
    """The folder with PostgreSQL's programs, or none."""
    found = sorted(Path("/usr/lib/postgresql").glob("*/bin/initdb"))
    if found:
        return found[-1].parent
    program = shutil.which("initdb")
    return Path(program).parent if program else None


class Postgres:
    name = "PostgreSQL"
    dialect = "postgres"

    def __init__(self, folder, indexed):
        self.folder = folder
        self.run(";\n".join(script(indexed)) + ";\nVACUUM ANALYZE;")

    def run(self, text):
        command = ["psql", "-h", self.folder, "-U", "postgres", "-d", "postgres"]
        command += ["-X", "-q", "-A", "-t", "-v", "ON_ERROR_STOP=1", "-P", "null=NULL"]
        return subprocess.run(
            command, input=text, capture_output=True, text=True, check=True
        ).stdout

    def version(self):
        return f"PostgreSQL {self.run('SHOW server_version').strip()}"

    def rows(self, statement):
        text = self.run(statement.format(broker=BROKER))
        return [tuple(line.split("|")) for line in text.splitlines()]

    def times(self, statement, seconds):
        statement = statement.format(broker="broker")
        text = TIMED.format(broker=BROKER, statement=statement, seconds=seconds)
        least, median = self.run(text).strip().split("|")
        return float(least), float(median)


@contextmanager
def postgres_server():
    """A server of a new cluster; root runs it as the user postgres."""
    programs = postgres_programs()
    folder = tempfile.mkdtemp(prefix="speed-")
    prefix = []
    if os.geteuid() == 0:
        shutil.chown(folder, "postgres")
        prefix = ["runuser", "-u", "postgres", "--"]

    def call(program, *arguments):
        subprocess.run(
            [*prefix, programs / program, "-D", f"{folder}/data", *arguments],
            check=True,
            stdout=subprocess.DEVNULL,
            cwd="/",
        )

    try:
        call("initdb", "-A", "trust", "-U", "postgres", "-E", "UTF8", "--locale=C.UTF-8", "-N")
        listen = f"-k {folder} -c listen_addresses=''"
        call("pg_ctl", "-w", "-o", listen, "-l", f"{folder}/log", "start")
        try:
            yield folder
        finally:
            call("pg_ctl", "-w", "-m", "fast", "stop")
    finally:
        shutil.rmtree(folder, ignore_errors=True)


# Counts and times -------------------------------------------------------------------------------


def statements(database, book, ask):
    """Low and high, over tables masked beforehand and with the masking in the statement."""
    b = BOOKS.index(book)
    return [
        [beforehand(database.dialect, b, ask, mode) for mode in (LOW, HIGH)],
        [within(database.dialect, b, ask, mode) for mode in (LOW, HIGH)],
    ]


def counted(database, pair):
    """Certain rows, and possible ones: those of the high statement alone."""
    low, high = (set(database.rows(statement)) for statement in pair)
    assert low <= high
    return len(low), len(high - low)


def counts(databases):
    """Prints the counts, and how many asks have others in some database."""
    print("| Query | Certain | Possible | " + " | ".join(d.name for d in databases) + " |")
    print("|---|---|---|" + "---|" * len(databases))
    other = 0
    for book, ask in ASKS:
        said, wanted = [], (ask.certain, ask.possible)
        for database in databases:
            ways = [counted(database, pair) for pair in statements(database, book, ask)]
            assert ways[0] == ways[1]
            said.append("the same" if ways[0] == wanted else "{} and {}".format(*ways[0]))
        other += any(word != "the same" for word in said)
        print(f"| {ask.name} | {ask.certain} | {ask.possible} | " + " | ".join(said) + " |")
    print(f"\n{other} of {len(ASKS)} asks have other counts in a database.\n")


def figure(ms):
    """Two digits, and three decimals at most."""
    return f"{ms:.0f}" if ms >= 10 else f"{ms:.1f}" if ms >= 1 else f"{ms:.2f}"


def timed(databases, seconds):
    """Prints the least time of the low and the high statement together, and the median."""
    print("Milliseconds, low and high together: the least, and in brackets the median.\n")
    heads = [f"{d.name}, {way}" for d in databases for way in ("masked before", "masked within")]
    print("| Query | " + " | ".join(heads) + " |\n|---|" + "---|" * len(heads))
    for book, ask in ASKS:
        figures = []
        for database in databases:
            for pair in statements(database, book, ask):
                times = [database.times(statement, seconds) for statement in pair]
                least, median = map(sum, zip(*times))
                figures.append(f"{figure(least)} ({figure(median)})")
        print(f"| {ask.name} | " + " | ".join(figures) + " |", flush=True)
    read = "SELECT * FROM stored_0_0 UNION ALL SELECT * FROM stored_0_1"
    for database in databases:
        least, median = database.times(read, seconds)
        print(f"\n{database.name}: reading 512 rows of 8 numbers takes {least:.3f} ({median:.3f}) ms.")


def machine():
    names = [
        line.split(":", 1)[1].strip()
        for line in Path("/proc/cpuinfo").read_text().splitlines()
        if line.startswith("model name")
    ]
    load = " ".join(f"{n:.2f}" for n in os.getloadavg())
    return f"{names[0] if names else 'unknown'}, {os.cpu_count()} cores, load {load}"


def report(databases, options):
    print(f"{machine()}; " + "; ".join(d.version() for d in databases) + "\n")
    counts(databases)
    if not options.counts:
        timed(databases, options.seconds)
        print(f"\nAt the end: {machine()}")


def show(name):
    """Prints the statements of an ask in both dialects."""
    for book, ask in ASKS:
        if ask.name == name:
            for database in (Sqlite, Postgres):
                for pair in statements(database, book, ask):
                    for statement in pair:
                        print(f"{database.name}: {statement.format(broker=BROKER)};\n")


def main():
    parser = argparse.ArgumentParser()
    parser.add_argument("--counts", action="store_true")
    parser.add_argument("--seconds", type=float, default=2)
    parser.add_argument("--no-indexes", action="store_true")
    parser.add_argument("--sql")
    options = parser.parse_args()
    indexed = not options.no_indexes
    if options.sql:
        show(options.sql)
    elif postgres_programs():
        with postgres_server() as folder:
            report([Sqlite(indexed), Postgres(folder, indexed)], options)
    else:
        print("PostgreSQL is not installed: apt-get install -y postgresql", file=sys.stderr)
        report([Sqlite(indexed)], options)


if __name__ == "__main__":
    main()
