#!/usr/bin/env python3
"""Writes crates/explain/stdin: one query with every kind of record and of condition."""

import os
import struct


def record(kind, body=b""):
    return struct.pack("<HH", len(body), kind) + body


def by_column(operator, left, right):
    return record(0x10, bytes([operator, left, right]))


def by_number(operator, left, number):
    return record(0x11, bytes([operator, left]) + struct.pack("<I", number))


def by_prefix(operator, left, digits):
    return record(0x12, bytes([operator, left]) + digits)


AND, OR, NOT = record(0x13), record(0x14), record(0x15)
EQUAL, LESS, COVERS = 1, 3, 5

CONDITION = (
    by_prefix(COVERS, 0, b"47110") + by_number(LESS, 2, 3000) + AND
    + by_column(EQUAL, 1, 2) + NOT
    + OR
)

QUERY = (
    record(1, b"\x00")          # 0: table 0
    + record(2, CONDITION)      # 1: select
    + record(3, b"\x01\x02")    # 2: project columns 1, 2
    + record(1, b"\x01")        # 3: table 1
    + record(5)                 # 4: union of 2 and 3
    + record(1, b"\x01")        # 5: table 1
    + record(1, b"\x01")        # 6: table 1
    + record(4)                 # 7: product of 5 and 6
    + record(3, b"\x00\x03")    # 8: project columns 0, 3
    + record(6)                 # 9: difference of 4 and 8
)

ROOT = os.path.dirname(os.path.dirname(os.path.abspath(__file__)))
with open(os.path.join(ROOT, "crates", "explain", "stdin"), "wb") as out:
    out.write(QUERY)
