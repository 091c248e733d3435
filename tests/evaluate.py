#!/usr/bin/env python3
"""Answers queries as docs/RULES.md says, and makes random ones.

    python3 tests/evaluate.py < crates/worked/stdin     what the program `worked` is to write
    python3 tests/evaluate.py --make SEED N             N random lines for its standard input
    python3 tests/evaluate.py --count < LINES           how often each outcome occurs
    python3 tests/evaluate.py --try SEED N              N random pairs of rows, compatible by two ways

It is written from the rules alone and shares nothing with the crates. The first 128 lines of
crates/worked/stdin are worked cases by name, and the others are `--make 47110 150`.
"""

import random
import sys
from collections import Counter

NUMBER, PREFIX = 1, 2
HIDDEN, LINKED, SHOWN = 0, 1, 2

# A cell is ("number", n), ("prefix", digits), ("variable", table, row, column) or
# ("pseudonym", domain, index). The first two are values.


def number(n):
    return ("number", n)


def prefix(digits):
    return ("prefix", digits)


def is_value(cell):
    return cell[0] in ("number", "prefix")


# The books and the policy -----------------------------------------------------------------------

COLUMNS = [
    [(PREFIX, 1), (NUMBER, 0), (NUMBER, 0)],
    [(PREFIX, 1), (NUMBER, 2), (NUMBER, 0)],
    [(NUMBER, 2), (NUMBER, 2), (PREFIX, 0)],
    [(NUMBER, 0), (PREFIX, 1), (PREFIX, 1), (NUMBER, 2), (NUMBER, 2), (NUMBER, 3)],
]


def row_of(values):
    return [number(v) if isinstance(v, int) else prefix(v) for v in values]


SHORT = [
    [("47", 1, 3100), ("4711", 2, 2750), ("48", 1, 2900)],
    [
        ("47", 1, 3100),
        ("47", 1, 3100),
        ("4711", 2, 2750),
        ("", 0, 0),
        ("48", 1, 2900),
        ("4711", 1, 2900),
    ],
    [
        (1, 1, "47110000"),
        (1, 2, "47110001"),
        (2, 1, "47120000"),
        (0, 0, "00000000"),
        (4294967295, 0, "48000000"),
        (2, 2, "99999999"),
        (7, 1, "48000001"),
        (1, 7, "04711000"),
    ],
    [
        (10, "47", "4711", 1, 2, 1),
        (10, "4711", "47", 2, 1, 2),
        (11, "47", "47", 1, 1, 1),
        (12, "48", "47", 7, 1, 7),
        (12, "", "48", 1, 7, 1),
        (13, "47", "4711", 2, 2, 2),
        (14, "4711", "4711", 1, 2, 1),
        (11, "48", "4711", 7, 7, 7),
    ],
]

TALL = [
    [],
    [("4711", 5, 6)],
    [(r % 16, r // 16, "%03d" % r) for r in range(256)],
    [(10 + r % 5, "%02d" % (r % 100), "%d" % (r % 10), r % 7, r, r // 2) for r in range(256)],
]

BOOKS = {
    name: [[row_of(row) for row in rows] for rows in book]
    for name, book in (("short", SHORT), ("tall", TALL))
}


def filters(rules):
    """Rules (broker, table, column, allow or prohibit, test), a test being None or (column, number)."""

    def mark(broker, table, row, column):
        signs = set()
        for rule_broker, rule_table, rule_column, sign, test in rules:
            if (rule_broker, rule_table, rule_column) != (broker, table, column):
                continue
            if test is None or (test[0] < len(row) and row[test[0]] == number(test[1])):
                signs.add(sign)
        return SHOWN if signs == {"allow"} else HIDDEN

    return mark


def consents(entries):
    """Entries {key: (shown columns, linked columns)}."""

    def mark(broker, table, row, column):
        if table != 3:
            return SHOWN
        if not row or row[0][0] != "number" or row[0][1] not in entries:
            return HIDDEN
        shown, linked = entries[row[0][1]]
        return SHOWN if column in shown else LINKED if column in linked else HIDDEN

    return mark


def both(first, second):
    return lambda *question: min(first(*question), second(*question))


def either(first, second):
    return lambda *question: max(first(*question), second(*question))


def allow(broker, table, columns):
    return [(broker, table, column, "allow", None) for column in columns]


POLICY = either(
    filters(
        allow(65535, 0, [0, 1, 2])
        + allow(65535, 1, [0, 1, 2])
        + allow(65535, 2, [0, 1, 2])
        + allow(65535, 3, [0, 1, 2, 3, 4, 5])
    ),
    either(
        both(
            filters(
                allow(7, 0, [0, 1, 2])
                + [(7, 0, 0, "prohibit", (1, 2))]
                + [(7, 1, 0, "allow", (1, 1))]
                + allow(7, 1, [1, 2])
                + allow(7, 2, [0, 1])
                + [(7, 2, 0, "prohibit", (1, 2))]
                + allow(7, 3, [0, 1, 2, 3, 4, 5])
            ),
            consents(
                {
                    10: ({0}, {1, 2, 3, 4, 5}),
                    11: ({0, 1}, {2, 3, 5}),
                    12: ({0}, {1, 3, 4, 5}),
                    13: (set(), {0, 1, 2}),
                }
            ),
        ),
        both(
            filters(
                allow(7, 3, [3])
                + allow(8, 1, [2])
                + allow(8, 3, [0, 1, 2, 3, 4, 5])
                + allow(9, 0, [0, 2])
                + allow(9, 1, [0, 1, 2])
                + allow(9, 3, [1, 2, 3])
            ),
            consents(
                {
                    10: ({0}, {1, 2, 3, 4, 5}),
                    11: (set(), {0, 1, 2, 3, 4, 5}),
                    12: ({1, 3}, {2, 3, 4}),
                    14: ({0}, {1, 2, 3, 4, 5}),
                }
            ),
        ),
    ),
)


# The view ---------------------------------------------------------------------------------------


def view_of(book, policy, broker):
    linked = {}  # for each domain, the values of its linked cells in order
    view = []
    for t, rows in enumerate(book):
        view.append([])
        for r, row in enumerate(rows):
            seen = []
            for c, value in enumerate(row):
                mark = policy(broker, t, row, c)
                domain = COLUMNS[t][c][1]
                if mark == SHOWN:
                    seen.append(value)
                elif mark == LINKED and domain:
                    values = linked.setdefault(domain, [])
                    values.append(value)
                    seen.append(("pseudonym", domain, values.index(value)))
                else:
                    seen.append(("variable", t, r, c))
            view[-1].append(tuple(seen))
    return view


VIEWS = {}


def view_for(name, broker):
    if (name, broker) not in VIEWS:
        VIEWS[name, broker] = view_of(BOOKS[name], POLICY, broker)
    return VIEWS[name, broker]


# Reading a query --------------------------------------------------------------------------------


class Refused(Exception):
    """A refusal: a number and a place."""


def u16(data, at):
    return data[at] + 256 * data[at + 1]


def split_record(data, at):
    """The kind and the body of the record at a place, and where it ends; None if it is cut off."""
    if len(data) - at < 4:
        return None
    end = at + 4 + u16(data, at)
    if end > len(data):
        return None
    return u16(data, at + 2), data[at + 4 : end], end


def read_condition(body):
    """The condition records of a select's body; None where the form is wrong."""
    terms, at, depth = [], 0, 0
    while at < len(body):
        record = split_record(body, at)
        if record is None:
            return None
        kind, inner, at = record
        if kind in (0x10, 0x11, 0x12):
            if kind == 0x10 and len(inner) != 3 or kind == 0x11 and len(inner) != 6:
                return None
            if kind == 0x12 and not 2 <= len(inner) <= 10:
                return None
            if not 1 <= inner[0] <= 6:
                return None
            if kind == 0x10:
                right = ("column", inner[2])
            elif kind == 0x11:
                right = number(int.from_bytes(inner[2:], "little"))
            else:
                if any(not 0x30 <= byte <= 0x39 for byte in inner[2:]):
                    return None
                right = prefix(inner[2:].decode())
            terms.append(("compare", inner[0], inner[1], right))
            depth += 1
        elif kind in (0x13, 0x14, 0x15):
            if inner or depth < (1 if kind == 0x15 else 2):
                return None
            terms.append(({0x13: "and", 0x14: "or", 0x15: "not"}[kind],))
            if kind != 0x15:
                depth -= 1
        else:
            return None
    return terms if 1 <= len(terms) <= 15 and depth == 1 else None


def read_record(kind, body):
    """A record as (name, content); None where the form is wrong."""
    if kind == 1:
        return ("table", body[0]) if len(body) == 1 else None
    if kind == 2:
        terms = read_condition(body)
        return None if terms is None else ("select", terms)
    if kind == 3:
        return ("project", list(body)) if 1 <= len(body) <= 8 else None
    return ({4: "product", 5: "union", 6: "difference"}[kind], None) if not body else None


OPERATORS_OF = {NUMBER: {1, 2, 3, 4}, PREFIX: {1, 2, 5, 6}}


def fits(terms, kinds):
    for term in terms:
        if term[0] != "compare":
            continue
        _, operator, left, right = term
        if right[0] == "column":
            right_kind = kinds[right[1]]
        else:
            right_kind = NUMBER if right[0] == "number" else PREFIX
        if operator not in OPERATORS_OF[kinds[left]] or right_kind != kinds[left]:
            return False
    return True


def columns_named(name, content):
    if name == "project":
        return content
    columns = [term[2] for term in content if term[0] == "compare"]
    return columns + [t[3][1] for t in content if t[0] == "compare" and t[3][0] == "column"]


def kinds_after(place, name, content, stack):
    """Puts questions 16 to 19 to a record, and changes the stack of kinds."""
    takes = {"table": 0, "select": 1, "project": 1}.get(name, 2)
    if len(stack) < takes:
        raise Refused(16, place)
    taken = [stack.pop() for _ in range(takes)][::-1]
    if name == "table":
        if content > 3 or not COLUMNS[content]:
            raise Refused(17, place)
        stack.append([kind for kind, _ in COLUMNS[content]])
        return
    if name in ("select", "project"):
        if any(column >= len(taken[0]) for column in columns_named(name, content)):
            raise Refused(17, place)
    if name == "select" and not fits(content, taken[0]):
        raise Refused(18, place)
    if name in ("union", "difference") and taken[0] != taken[1]:
        raise Refused(18, place)
    if name == "product" and len(taken[0]) + len(taken[1]) > 8:
        raise Refused(19, place)
    if name == "project":
        stack.append([taken[0][column] for column in content])
    elif name == "product":
        stack.append(taken[0] + taken[1])
    else:
        stack.append(taken[0])


def read_query(query):
    """The records of a query, in order."""
    if not 1 <= len(query) <= 1024:
        raise Refused(11, 0)
    records, stack, at = [], [], 0
    while at < len(query):
        place = len(records)
        if place >= 15:
            raise Refused(12, place)
        record = split_record(query, at)
        if record is None:
            raise Refused(13, place)
        kind, body, at = record
        if not 1 <= kind <= 6:
            raise Refused(14, place)
        said = read_record(kind, body)
        if said is None:
            raise Refused(15, place)
        kinds_after(place, said[0], said[1], stack)
        records.append(said)
    if len(stack) != 1:
        raise Refused(20, len(records))
    return records


# Comparing --------------------------------------------------------------------------------------

TRUE, UNKNOWN, FALSE = "true", "unknown", "false"


def compare(operator, left, right):
    if is_value(left) and is_value(right):
        a, b = left[1], right[1]
        holds = {
            1: lambda: left == right,
            2: lambda: left != right,
            3: lambda: a < b,
            4: lambda: a <= b,
            5: lambda: b.startswith(a),
            6: lambda: len(a) < len(b),
        }[operator]()
        return TRUE if holds else FALSE
    if left == right:
        return TRUE if operator in (1, 4, 5) else FALSE
    if left[0] == right[0] == "pseudonym" and left[1] == right[1]:
        return {1: FALSE, 2: TRUE}.get(operator, UNKNOWN)
    return UNKNOWN


def truth(terms, row):
    stack = []
    for term in terms:
        if term[0] == "compare":
            _, operator, left, right = term
            other = row[right[1]] if right[0] == "column" else right
            stack.append(compare(operator, row[left], other))
        elif term[0] == "not":
            stack.append({TRUE: FALSE, FALSE: TRUE, UNKNOWN: UNKNOWN}[stack.pop()])
        else:
            pair = {stack.pop(), stack.pop()}
            # "and" is the lesser of false < unknown < true, "or" the greater
            order = (FALSE, UNKNOWN, TRUE) if term[0] == "and" else (TRUE, UNKNOWN, FALSE)
            stack.append(next(value for value in order if value in pair))
    (result,) = stack
    return result


def compatible(left, right):
    """Whether some lawful valuation makes the rows the same: joins the cells that have to be the
    same, and looks for a group with two values or two pseudonyms of one domain."""
    if left == right:
        return True
    beside = {}  # each cell with the cells that it has to be the same as
    for a, b in zip(left, right):
        beside.setdefault(a, set()).add(b)
        beside.setdefault(b, set()).add(a)
    seen = set()
    for start in beside:
        if start in seen:
            continue
        group, todo = {start}, [start]
        while todo:
            for cell in beside[todo.pop()] - group:
                group.add(cell)
                todo.append(cell)
        seen |= group
        fixed = [cell[:2] if cell[0] == "pseudonym" else "value" for cell in group if cell[0] != "variable"]
        if len(fixed) != len(set(fixed)):
            return False
    return True


def compatible_by_trial(left, right, kinds):
    """The same by trying values for the symbols one after another: those that stand in the rows, and
    enough others."""
    symbols = sorted({cell for cell in left + right if not is_value(cell)})
    kind_of = {cell: kind for row in (left, right) for cell, kind in zip(row, kinds)}
    pools = {}
    for kind, word in ((NUMBER, "number"), (PREFIX, "prefix")):
        pool = {cell for cell in left + right if cell[0] == word}
        spare = 90000000
        while len(pool) < len(symbols) + 8:
            pool.add(number(spare) if kind == NUMBER else prefix(str(spare)))
            spare += 1
        pools[kind] = sorted(pool)

    def tried(given):
        for a, b in zip(left, right):
            a, b = given.get(a, a), given.get(b, b)
            if is_value(a) and is_value(b) and a != b:
                return False
        if len(given) == len(symbols):
            return True
        symbol = symbols[len(given)]
        taken = {
            value
            for other, value in given.items()
            if symbol[0] == other[0] == "pseudonym" and symbol[1] == other[1]
        }
        return any(
            tried({**given, symbol: value})
            for value in pools[kind_of[symbol]]
            if value not in taken
        )

    return tried({})


# Answers ----------------------------------------------------------------------------------------


def distinct(rows):
    return list(dict.fromkeys(rows))


def answer_of(record, stack, view):
    """The low and the high answer of a record; takes its parts from the stack."""
    name, content = record
    if name == "table":
        rows = distinct(view[content])
        return rows, rows
    low, high = stack.pop()
    if name == "select":
        truths = {row: truth(content, row) for row in high}
        return (
            [row for row in low if truths[row] == TRUE],
            [row for row in high if truths[row] != FALSE],
        )
    if name == "project":
        return tuple(
            distinct(tuple(row[column] for column in content) for row in rows)
            for rows in (low, high)
        )
    (left_low, left_high), (right_low, right_high) = stack.pop(), (low, high)
    if name == "product":
        return (
            distinct(a + b for a in left_low for b in right_low),
            distinct(a + b for a in left_high for b in right_high),
        )
    if name == "union":
        return distinct(left_low + right_low), distinct(left_high + right_high)
    removed = set(right_low)
    return (
        [row for row in left_low if not any(compatible(row, other) for other in right_high)],
        [row for row in left_high if row not in removed],
    )


def evaluate(records, view, limit):
    """The low and the high answer of the last record, and the most rows of a high answer."""
    stack, most = [], 0
    for place, record in enumerate(records):
        low, high = answer_of(record, stack, view)
        assert set(low) <= set(high)
        if len(high) > limit:
            raise Refused(21, place)
        most = max(most, len(high))
        stack.append((low, high))
    return stack[0] + (most,)


def cell_bytes(cell):
    if cell[0] == "number":
        return b"\x01" + cell[1].to_bytes(4, "little")
    if cell[0] == "prefix":
        return bytes([2, len(cell[1])]) + cell[1].encode()
    if cell[0] == "variable":
        return bytes([3, *cell[1:]])
    return bytes([4, cell[1]]) + cell[2].to_bytes(2, "little")


def record_bytes(kind, body):
    return len(body).to_bytes(2, "little") + kind.to_bytes(2, "little") + body


def reply_bytes(low, high):
    certain = set(low)
    possible = [row for row in high if row not in certain]
    counts = len(low).to_bytes(2, "little") + len(possible).to_bytes(2, "little")
    parts = [record_bytes(0x20, counts)]
    for kind, rows in ((0x21, low), (0x22, possible)):
        parts += [record_bytes(kind, b"".join(map(cell_bytes, row))) for row in rows]
    return b"".join(parts)


def ask(view, query, cells, length):
    records = read_query(query)
    low, high, _ = evaluate(records, view, min(cells // 240, 512))
    reply = reply_bytes(low, high)
    if len(reply) > length:
        raise Refused(22, len(records))
    return reply


def outcome(book, broker, cells, length, query):
    """The reply, or the refusal record."""
    try:
        return ask(view_for(book, broker), query, cells, length)
    except Refused as refused:
        return record_bytes(0x23, bytes(refused.args))


def parse(line):
    name, rest = line.rstrip("\n").split(":", 1)
    words = rest.split() + [""]
    return name, words[0], int(words[1]), int(words[2]), int(words[3]), bytes.fromhex(words[4])


# Random queries ---------------------------------------------------------------------------------

NUMBERS = [0, 1, 1, 2, 2, 7, 10, 11, 12, 13, 14, 2750, 2900, 3000, 3100, 4294967295]
PREFIXES = ["", "4", "47", "47", "4711", "4711", "47110", "48", "48", "47110000", "00", "99999999", "1"]


class Maker:
    """Makes trees of records. A tree is (its records' bytes, its kinds)."""

    def __init__(self, seed):
        self.random = random.Random(seed)

    def table(self):
        table = self.random.choices(range(4), (3, 3, 2, 6))[0]
        return [record_bytes(1, bytes([table]))], [kind for kind, _ in COLUMNS[table]]

    def comparison(self, kinds):
        left = self.random.randrange(len(kinds))
        operator = self.random.choice(sorted(OPERATORS_OF[kinds[left]]))
        same = [column for column, kind in enumerate(kinds) if kind == kinds[left]]
        if self.random.random() < 0.5:
            right = self.random.choice(same)
            return record_bytes(0x10, bytes([operator, left, right]))
        if kinds[left] == NUMBER:
            value = self.random.choice(NUMBERS).to_bytes(4, "little")
            return record_bytes(0x11, bytes([operator, left]) + value)
        digits = self.random.choice(PREFIXES).encode()
        return record_bytes(0x12, bytes([operator, left]) + digits)

    def condition(self, kinds, size):
        """A condition of at most `size` records."""
        if size == 1 or self.random.random() < 0.4:
            return self.comparison(kinds)
        if size == 2 or self.random.random() < 0.25:
            return self.condition(kinds, size - 1) + record_bytes(0x15, b"")
        left = self.random.randint(1, size - 2)
        joined = self.condition(kinds, left) + self.condition(kinds, size - 1 - left)
        return joined + record_bytes(self.random.choice((0x13, 0x14)), b"")

    def select(self, tree):
        size = self.random.choice((1, 1, 2, 3, 3, 5, 8, 15))
        return tree[0] + [record_bytes(2, self.condition(tree[1], size))], tree[1]

    def project(self, tree, columns=None):
        if columns is None:
            width = self.random.choice((1, 1, 2, 2, 3, 4, 8))
            columns = [self.random.randrange(len(tree[1])) for _ in range(width)]
        return tree[0] + [record_bytes(3, bytes(columns))], [tree[1][c] for c in columns]

    def fitted(self, tree, kinds):
        """The tree, projected so that it has these kinds; None where it lacks one."""
        if any(kind not in tree[1] for kind in kinds):
            return None
        if tree[1] == kinds and self.random.random() < 0.7:
            return tree
        choices = [[c for c, k in enumerate(tree[1]) if k == kind] for kind in kinds]
        return self.project(tree, [self.random.choice(columns) for columns in choices])

    def tree(self, size):
        """A tree of at most `size` records."""
        if size == 1:
            return self.table()
        form = self.random.choices(
            ("table", "select", "project", "product", "union", "difference"),
            (2, 4, 4, 3 if size > 2 else 0, 4 if size > 2 else 0, 7 if size > 2 else 0),
        )[0]
        if form == "table":
            return self.table()
        if form == "select":
            return self.select(self.tree(size - 1))
        if form == "project":
            return self.project(self.tree(size - 1))
        if form == "product":
            return self.product(size)
        return self.joined(size, 5 if form == "union" else 6)

    def product(self, size):
        left = self.tree(self.random.randint(1, size - 2))
        right = self.tree(self.random.randint(1, max(1, size - 1 - len(left[0]))))
        wide = len(left[1]) + len(right[1]) > 8
        if wide or len(left[0]) + len(right[0]) + 1 > size:
            return left
        return left[0] + right[0] + [record_bytes(4, b"")], left[1] + right[1]

    def joined(self, size, kind):
        """A union or a difference. Its right part is a part of the left, or another tree."""
        left = self.tree(self.random.randint(1, size - 2))
        room = size - 1 - len(left[0])
        right = None
        if len(left[0]) < room and self.random.random() < 0.35:
            right = self.select(left)
        else:
            for _ in range(6):
                right = self.fitted(self.tree(self.random.randint(1, room)), left[1])
                if right and len(right[0]) <= room:
                    break
        if not right or len(right[0]) > room:
            return left
        parts = (left, right) if self.random.random() < 0.7 else (right, left)
        return parts[0][0] + parts[1][0] + [record_bytes(kind, b"")], left[1]

    def damaged(self, records):
        """The bytes of records, nearly well-formed."""
        records = list(records)
        at = self.random.randrange(len(records))
        form = self.random.randrange(7)
        if form == 0:
            del records[at]
        elif form == 1:
            records.insert(at, self.random.choice(records))
        elif form == 2:
            records[at] = records[at][:-1]
        elif form == 3:
            record = bytearray(records[at])
            record[self.random.randrange(len(record))] = self.random.randrange(24)
            records[at] = bytes(record)
        elif form == 4:
            record = bytearray(records[at])
            record[-1] = self.random.randrange(10)
            records[at] = bytes(record)
        elif form == 5:
            records.append(self.table()[0][0])
        else:
            records.append(bytes([self.random.randrange(8)]))
        return b"".join(records)

    def dull(self, view, query):
        """Whether a query is to be dropped: of those that are refused whatever memory they are lent,
        and of those without certain or without possible rows, only some are kept."""
        try:
            low, high, _ = evaluate(read_query(query), view, 512)
        except Refused as refused:
            return refused.args[0] == 21 and self.random.random() < 0.8
        chance = 0.9 if not high else 0.7 if len(low) == len(high) else 0.5 if not low else 0
        return self.random.random() < chance

    def memory(self, view, query):
        """How many cells and bytes to lend: around what the query needs, or round numbers."""
        try:
            low, high, most = evaluate(read_query(query), view, 512)
        except Refused:
            return self.random.choice((0, 240, 1920, 122880)), self.random.choice((0, 64, 4096))
        needed = len(reply_bytes(low, high))
        cells = self.random.choices(
            (240 * most, 240 * most + 239, 240 * most - 1, 240 * self.random.randint(0, most), 122880),
            (8, 4, 2, 1, 1),
        )[0]
        length = self.random.choices(
            (needed, needed - 1, self.random.randrange(needed), needed + 7, 65536), (8, 2, 1, 4, 1)
        )[0]
        return max(0, cells), length

    def line(self, name):
        book = "tall" if self.random.random() < 0.03 else "short"
        broker = self.random.choices((7, 8, 9, 0, 65535), (10, 8, 8, 2, 2))[0]
        view = view_for(book, broker)
        size = self.random.choice((3, 5, 7, 9, 12, 15) if book == "short" else (2, 3))
        while True:
            records, _ = self.tree(size)
            damage = self.random.random() < 0.05
            query = self.damaged(records) if damage else b"".join(records)
            if len(records) < size / 2 or len(query) > 1024 or self.dull(view, query):
                continue
            cells, length = self.memory(view, query)
            return f"{name}: {book} {broker} {cells} {length} {query.hex()}"


def kind_of_outcome(reply):
    if reply[2] == 0x23:
        return [f"refused {reply[4]}"]
    said = ["answered"]
    said += ["certain rows"] if u16(reply, 4) else []
    said += ["possible rows"] if u16(reply, 6) else []
    return said


def count(lines):
    """How often each outcome and each kind of cell occurs."""
    counter = Counter()
    for line in lines:
        name, book, broker, cells, length, query = parse(line)
        reply = outcome(book, broker, cells, length, query)
        counter.update(kind_of_outcome(reply))
        if reply[2] == 0x20:
            low, high, _ = evaluate(read_query(query), view_for(book, broker), 512)
            counter.update({f"with a {cell[0]}" for row in high for cell in row})
            counter.update(["certain and possible"] if low and len(low) < len(high) else [])
    for said, times in sorted(counter.items()):
        print(f"{times:6} {said}")


def try_compatible(seed, times):
    """Random pairs of short rows, put to both ways of deciding whether they are compatible."""
    chance = random.Random(seed)
    counter = Counter()
    for _ in range(times):
        kinds = [chance.choice((NUMBER, NUMBER, PREFIX)) for _ in range(chance.randint(1, 4))]
        cells = {
            NUMBER: [number(1), number(2)]
            + [("variable", 2, row, 0) for row in range(2)]
            + [("pseudonym", 2, index) for index in range(3)]
            + [("pseudonym", 3, index) for index in range(2)],
            PREFIX: [prefix("47"), prefix("48"), ("variable", 1, 0, 0)]
            + [("pseudonym", 1, index) for index in range(2)],
        }
        left, right = (tuple(chance.choice(cells[kind]) for kind in kinds) for _ in range(2))
        first, second = compatible(left, right), compatible_by_trial(left, right, kinds)
        assert first == second, (left, right)
        counter[first] += 1
    print(f"{counter[True]} pairs compatible, {counter[False]} not")


def main(words):
    if words[:1] == ["--make"] and len(words) == 3:
        maker = Maker(int(words[1]))
        for i in range(int(words[2])):
            print(maker.line(f"random {i}"))
    elif words[:1] == ["--try"] and len(words) == 3:
        try_compatible(int(words[1]), int(words[2]))
    elif words == ["--count"]:
        count(sys.stdin)
    elif not words:
        for line in sys.stdin:
            name, *rest = parse(line)
            print(f"{name}: {outcome(*rest).hex()} clear kept")
    else:
        sys.exit(__doc__)


if __name__ == "__main__":
    main(sys.argv[1:])
