#!/usr/bin/env python3
"""Writes a journal (docs/RULES.md, section 14) of full books and of queries to be timed.

    python3 tests/speed/journal.py > JOURNAL            the journal
    python3 tests/speed/journal.py --names              the names of its asks, in order, one a line
    python3 tests/speed/journal.py --check < OUTCOMES   holds the replies against the counts below

`tests/speed/compare OLD NEW` times it in two builds and holds the counts against these. Each ask has
the certain and possible rows that it must have, and why. The marks are those of filters and consents,
so linked cells are in table 3 alone.
"""

import sys
from dataclasses import dataclass

NUMBER, PREFIX = 1, 2
BROKER = 7
EQUAL, UNEQUAL, LESS, AT_MOST, COVERS, SHORTER = 1, 2, 3, 4, 5, 6
EVEN, ODD, ALL = 0x55, 0xAA, 0xFF  # sets of columns


# Queries ----------------------------------------------------------------------------------------
#
# A query is a tree: ("table", t), ("select", part, condition), ("project", part, columns),
# ("product", left, right), ("union", left, right), ("difference", left, right).
#
# A condition is ("compare", operator, column, right), the right side being a number, digits or
# ("column", c), or ("and", p, q), ("or", p, q), ("not", p).


def table(t):
    return ("table", t)


def select(part, condition):
    return ("select", part, condition)


def less(column, number):
    return ("compare", LESS, column, number)


def negated(condition):
    return ("not", condition)


def difference(left, *rights):
    """The left part less each right part, one after another."""
    for right in rights:
        left = ("difference", left, right)
    return left


# Policies ---------------------------------------------------------------------------------------
#
# A policy is ("filter", n), ("register", n), ("both", p, q) or ("either", p, q).


def allow(columns):
    """Rules that allow the broker these columns of all tables: (table, column, sign, test)."""
    return [(t, c, 1, None) for t in range(4) for c in columns]


# 4 tables of 4 columns: as many rules as a filter policy has.
FILTERS = [allow([0, 2, 4, 6]), allow([1, 3, 5, 7])]

HALF = ("filter", 0)  # even columns are shown, odd ones hidden
SHOWN = ("either", ("filter", 0), ("filter", 1))  # all columns are shown
FIRST, SECOND = ("register", 0), ("register", 1)


# Books ------------------------------------------------------------------------------------------


@dataclass
class Ask:
    name: str
    policy: tuple
    query: tuple
    certain: int
    possible: int


@dataclass
class Book:
    columns: list  # for each table its columns, each a kind and a domain
    tables: list  # for each table its rows, each a list of numbers and strings of digits
    registers: list  # each a list of entries: key, shown columns, linked columns
    asks: list


def numbers(first_key, last, first=lambda r: 1):
    """256 rows of a first number, 2 to 6, a key and a last number."""
    return [[first(r), 2, 3, 4, 5, 6, first_key + r, last + r] for r in range(256)]


TARIFFS = [[str(r), 1000 + r, r % 16, 2000 + r % 8] for r in range(256)]
PRICE, CARRIER = 1, 2

EIGHT_NUMBERS = [(NUMBER, 1)] * 8
TARIFF_COLUMNS = [(PREFIX, 0), (NUMBER, 0), (NUMBER, 0), (NUMBER, 0)]
COLUMNS = [EIGHT_NUMBERS, EIGHT_NUMBERS, TARIFF_COLUMNS, EIGHT_NUMBERS]

COVERING = select(table(2), ("compare", COVERS, 0, "25512345"))

DIFFERENCES = difference(*[table(t) for t in (0, 1, 3, 1, 3, 1, 3, 1)])

# Tables 0, 1 and 3 have the numbers 1 to 6, a key and a last number in each row, table 2 has tariffs.
# Tables 0 and 1 share the eight keys 1248 to 1255. The first cell of each row of table 3 is 1, so one
# entry gives the marks of the whole table.
BENCH = Book(
    columns=COLUMNS,
    tables=[numbers(1000, 1000), numbers(1248, 1248), TARIFFS, numbers(2000, 3000)],
    registers=[[(1, ODD, EVEN)], [(1, 0, ALL)]],
    asks=[
        # The carriers 0 to 3 of 16, with 16 rows each: 64 certain. Carriers are in an even column.
        Ask("select", HALF, select(table(2), less(CARRIER, 4)), 64, 0),
        # Prices are hidden. Carriers 0 to 7: unknown, 8 x 16 = 128 possible. Carriers 8 to 11: not.
        # Carriers 12 to 15: 4 x 16 = 64 certain.
        Ask(
            "and, or, not",
            HALF,
            select(
                table(2),
                (
                    "or",
                    ("and", less(CARRIER, 8), less(PRICE, 2000)),
                    negated(less(CARRIER, 12)),
                ),
            ),
            64,
            128,
        ),
        # 16 carriers, shown: 16 certain, and 240 repeats.
        Ask("project", HALF, ("project", table(2), [CARRIER]), 16, 0),
        # 16 tariffs of carrier 0, each followed by the 32 of carriers 0 and 1: 512 certain.
        Ask(
            "product",
            HALF,
            ("product", select(table(2), less(CARRIER, 1)), select(table(2), less(CARRIER, 2))),
            512,
            0,
        ),
        # 2, 25 and 255 cover the number, and 2 and 25 are shorter than another: 1 certain. The rows
        # taken away are identical to themselves, hidden cells and all, so none is possible.
        Ask(
            "longest prefix",
            HALF,
            difference(
                COVERING,
                (
                    "project",
                    select(
                        ("product", COVERING, COVERING),
                        ("compare", SHORTER, 0, ("column", 4)),
                    ),
                    [0, 1, 2, 3],
                ),
            ),
            1,
            0,
        ),
        # 256 + 256 rows, of which those of the 8 shared keys are identical: 504 certain.
        Ask("union, shown", SHOWN, ("union", table(0), table(1)), 504, 0),
        # Keys are shown. The 248 rows of table 0 whose key is in no other table are certain. The 8
        # others are compatible with the row of their key and identical to none: 8 possible.
        Ask("differences, hidden", HALF, DIFFERENCES, 248, 8),
        # The 8 others are identical to the row of their key: none possible.
        Ask("differences, shown", SHOWN, DIFFERENCES, 248, 0),
        # In table 3 even columns are linked and odd ones shown, and all of the other tables
        # is shown. Column 7 tells a row of table 0 from those of table 3; else as where all is shown.
        Ask("differences, linked in table 3", FIRST, DIFFERENCES, 248, 0),
        # Linked cells in both parts, under the same marks: rows 0 to 127 of table 3
        # less rows 120 to 255, four times, in 14 records. Column 7 is shown, so which rows these are is
        # certain. Different rows have different pseudonyms of one domain in column 6, so they are not
        # compatible. Rows 120 to 127 are identical to themselves: 120 certain, none possible.
        Ask(
            "differences, linked in both parts",
            FIRST,
            difference(
                select(table(3), less(7, 3128)),
                *[select(table(3), negated(less(7, 3120)))] * 4,
            ),
            120,
            0,
        ),
        # Table 3 is linked and the others are shown. A row of the left has one value in columns 6 and
        # 7, a row of table 3 two different pseudonyms of one domain. So no two rows are compatible, but
        # no column by itself tells: 504 certain, all rows of the union.
        Ask(
            "difference, groups",
            SECOND,
            difference(("union", table(0), table(1)), table(3)),
            504,
            0,
        ),
    ],
)


def consent(key):
    """The entry of a key: all is shown, or even columns are linked, or all are, or nothing is given."""
    shown, linked = [(ALL, 0), (ODD, EVEN), (0, ALL), (0, 0)][key % 4]
    return key, shown, linked


# The same rows, but that the first cell of row r of table 3 is r % 64: keys for a full register.
KEYS = Book(
    columns=COLUMNS,
    tables=[numbers(1000, 1000), numbers(1248, 1248), TARIFFS, numbers(2000, 3000, lambda r: r % 64)],
    registers=[[consent(key) for key in range(64)], [(key, 0x01, 0) for key in range(64)]],
    asks=[
        # Filters and consents combined, two policies of 16 rules and two registers
        # of 64 keys. The marks of table 3 are those of the first register, and column 0 is shown in
        # any case. Rows are told by r % 4, as keys are: in rows of 0 all is shown, of 1 columns 2, 4
        # and 6 are linked, of 2 all but column 0 are linked, of 3 all but column 0 are hidden.
        #
        # Rows of table 3 with column 7 below 3128, less those with column 7 not below 3120. Of 0 and
        # 1 column 7 is known: rows 0 to 127 are 32 each on the left, low and high. Rows of 2 and 3,
        # 64 each, are on both sides in the high answers alone. So 64 low rows on the left; the
        # right high rows of 2 and 3 have other keys than they, and of 0 and 1 rows 120, 124, 121 and
        # 125 are taken out by themselves, others differ in column 7: 64 - 4 = 60 certain. The left has
        # 64 + 128 high rows; the same 4 are identical to right low rows: 188, so 128 possible.
        Ask(
            "filters and consents",
            ("either", ("both", SHOWN, FIRST), ("both", HALF, SECOND)),
            difference(select(table(3), less(7, 3128)), select(table(3), negated(less(7, 3120)))),
            60,
            128,
        ),
    ],
)


def prefixes(t, last):
    """256 rows of a key and seven prefixes of eight digits."""
    rows = []
    for r in range(256):
        first = 10_000_000 + 8 * (256 * t + r)
        rows.append([r % 64] + [str(first + step) for step in (1, 2, 3, 4, 5, 6, last)])
    return rows


# Prefixes, but for column 0: a register goes by a number, so it is r % 64 in row r, of a domain of its
# own. In tables 0 and 1 column 7 holds what column 6 holds.
PREFIXES = Book(
    columns=[[(NUMBER, 2)] + [(PREFIX, 1)] * 7] * 4,
    tables=[prefixes(t, last) for t, last in enumerate((6, 6, 7, 7))],
    registers=[[(key, 0, ALL) for key in range(64)]],
    asks=[
        # Table 3 is linked and the others are shown. As in "difference, groups": column 0 has a value
        # and a pseudonym, columns 6 and 7 one value and two pseudonyms. No two rows are compatible and
        # no two of the union identical: 512 certain. 15 records, 6 x 512 x 256 pairs of rows.
        Ask(
            "longest answer, seven prefixes",
            FIRST,
            difference(("union", table(0), table(1)), *[table(3)] * 6),
            512,
            0,
        ),
    ],
)

BOOKS = [BENCH, KEYS, PREFIXES]
ASKS = [(book, ask) for book in BOOKS for ask in book.asks]


# Bytes ------------------------------------------------------------------------------------------


def u16(n):
    return n.to_bytes(2, "little")


def u32(n):
    return n.to_bytes(4, "little")


def record(kind, body=b""):
    return u16(len(body)) + u16(kind) + body


def condition_bytes(condition):
    name, *parts = condition
    if name == "compare":
        operator, column, right = parts
        head = bytes([operator, column])
        if isinstance(right, tuple):
            return record(0x10, head + bytes([right[1]]))
        if isinstance(right, int):
            return record(0x11, head + u32(right))
        return record(0x12, head + right.encode())
    kind = {"and": 0x13, "or": 0x14, "not": 0x15}[name]
    return b"".join(map(condition_bytes, parts)) + record(kind)


def query_bytes(query):
    name, *parts = query
    if name == "table":
        return record(1, bytes(parts))
    if name == "select":
        return query_bytes(parts[0]) + record(2, condition_bytes(parts[1]))
    if name == "project":
        return query_bytes(parts[0]) + record(3, bytes(parts[1]))
    kind = {"product": 4, "union": 5, "difference": 6}[name]
    return b"".join(map(query_bytes, parts)) + record(kind)


def cell_bytes(cell):
    if isinstance(cell, int):
        return b"\x01" + u32(cell)
    return bytes([2, len(cell)]) + cell.encode()


def steps(policy):
    name, *parts = policy
    if name == "filter":
        return bytes(parts)
    if name == "register":
        return bytes([0x10 + parts[0]])
    return b"".join(map(steps, parts)) + bytes([{"both": 0x20, "either": 0x21}[name]])


def rule_bytes(number, rule):
    t, column, sign, test = rule
    body = bytes([number]) + u16(BROKER) + bytes([t, column, sign])
    return record(0x36, body if test is None else body + bytes([test[0]]) + u32(test[1]))


def book_calls(book):
    """The calls that make a book, its rules and its entries, from a begin on."""
    yield record(0x30)
    for t, columns in enumerate(book.columns):
        for kind, domain in columns:
            yield record(0x31, bytes([t, kind, domain]))
    yield record(0x32, u32(8192))
    for t, rows in enumerate(book.tables):
        for row in rows:
            yield record(0x33, bytes([t]) + b"".join(map(cell_bytes, row)))
    for number, rules in enumerate(FILTERS):
        for rule in rules:
            yield rule_bytes(number, rule)
    for number, entries in enumerate(book.registers):
        for key, shown, linked in entries:
            yield record(0x37, bytes([number]) + u32(key) + bytes([shown, linked]))


def calls():
    for book in BOOKS:
        yield from book_calls(book)
        for ask in book.asks:
            yield record(0x38, steps(ask.policy))
            head = u16(BROKER) + u32(122_880) + u32(43_016)
            yield record(0x39, head + query_bytes(ask.query))


# Checking outcomes ------------------------------------------------------------------------------


def records(data):
    """The records of a list of bytes, each a kind and a body."""
    at = 0
    while at < len(data):
        size, kind = int.from_bytes(data[at : at + 2], "little"), data[at + 2]
        yield kind, data[at + 4 : at + 4 + size]
        at += 4 + size


def found(outcomes):
    """For each ask the certain and possible rows of its reply. Any refusal ends this."""
    counts = []
    for kind, body in records(outcomes):
        if kind == 0x23:
            raise SystemExit(f"a call was refused with {body[0]} at {body[1]}")
        if kind == 0x20:
            counts.append((body[0] + 256 * body[1], body[2] + 256 * body[3]))
    return counts


def check(outcomes):
    counts = found(outcomes)
    wrong = abs(len(counts) - len(ASKS))
    for (_, ask), (certain, possible) in zip(ASKS, counts):
        same = (certain, possible) == (ask.certain, ask.possible)
        wrong += not same
        said = "" if same else f"  not {ask.certain} and {ask.possible}"
        print(f"{ask.name:<34} {certain:>4} {possible:>4}{said}")
    print(f"{len(counts)} of {len(ASKS)} replies, {wrong} wrong")
    return 1 if wrong else 0


def main():
    if sys.argv[1:] == ["--names"]:
        for _, ask in ASKS:
            print(ask.name)
    elif sys.argv[1:] == ["--check"]:
        return check(sys.stdin.buffer.read())
    elif not sys.argv[1:]:
        for call in calls():
            sys.stdout.buffer.write(call)
    else:
        print(__doc__)
        return 2
    return 0


if __name__ == "__main__":
    sys.exit(main())
