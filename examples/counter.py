#!/usr/bin/env python3
"""A broker's counter that talks to `replay` over pipes: it opens a small book, and asks as it goes.

Usage: counter.py REPLAY, where REPLAY is the program, crates/replay/out/replay once `rt run` has built it.
"""

import struct
import subprocess
import sys

BEGIN, DECLARE, OPEN, STORE, STRIKE, AMEND, RULE, CONSENT, COMBINE, ASK = range(0x30, 0x3A)
COUNTS, CERTAIN, POSSIBLE, REFUSAL, DONE = range(0x20, 0x25)


def record(kind, body=b""):
    return struct.pack("<HH", len(body), kind) + body


def number(n):
    return struct.pack("<BI", 1, n)


def prefix(digits):
    return bytes([2, len(digits)]) + digits.encode()


class Counter:
    """One `replay` that runs as long as the counter does."""

    def __init__(self, program):
        pipe = subprocess.PIPE
        self.replay = subprocess.Popen([program], stdin=pipe, stdout=pipe)

    def read(self):
        """One record of an outcome: its kind and its body."""
        length, kind = struct.unpack("<HH", self.replay.stdout.read(4))
        return kind, self.replay.stdout.read(length)

    def call(self, kind, body=b""):
        """Makes a call: None once it is carried out, a refusal's number and place, or the rows of a reply."""
        self.replay.stdin.write(record(kind, body))
        self.replay.stdin.flush()
        kind, body = self.read()
        if kind == DONE:
            return None
        if kind == REFUSAL:
            return {"refused": body[0], "at": body[1]}
        certain, possible = struct.unpack("<HH", body)
        rows = [self.read()[1] for _ in range(certain + possible)]
        return {"certain": rows[:certain], "possible": rows[certain:]}

    def ask(self, broker, query, cells=1920, reply=4096):
        return self.call(ASK, struct.pack("<HII", broker, cells, reply) + query)

    def close(self):
        """Ends the journal; the status that `replay` ends with."""
        self.replay.stdin.close()
        return self.replay.wait()


def cells(row):
    """The cells of a row as a person reads them."""
    shown = []
    while row:
        if row[0] == 1:
            shown.append(str(struct.unpack("<I", row[1:5])[0]))
            row = row[5:]
        elif row[0] == 2:
            end = 2 + row[1]
            shown.append('"' + row[2:end].decode() + '"')
            row = row[end:]
        elif row[0] == 3:
            shown.append("?%d.%d.%d" % tuple(row[1:4]))
            row = row[4:]
        else:
            shown.append("%d#%d" % struct.unpack("<BH", row[1:4]))
            row = row[4:]
    return " ".join(shown)


def show(answer):
    if "refused" in answer:
        print("  refused %(refused)d at %(at)d" % answer)
        return
    for standing in ("certain", "possible"):
        for row in answer[standing]:
            print("  %-8s %s" % (standing, cells(row)))


def main(program):
    counter = Counter(program)
    for kind, domain in ((2, 1), (1, 0), (1, 0)):
        counter.call(DECLARE, bytes([0, kind, domain]))
    counter.call(OPEN, struct.pack("<I", 96))
    for digits, carrier, price in (("47", 1, 3100), ("4711", 2, 2750), ("48", 1, 2900)):
        counter.call(STORE, b"\0" + prefix(digits) + number(carrier) + number(price))
    for column in range(3):
        counter.call(RULE, struct.pack("<BHBBB", 0, 7, 0, column, 1))
    counter.call(RULE, struct.pack("<BHBBBBI", 0, 7, 0, 0, 0, 1, 2))

    covers = record(1, b"\0") + record(2, record(0x12, bytes([5, 0]) + b"47110"))
    print("Broker 7: the tariffs whose prefix covers 47110.")
    show(counter.ask(7, covers))
    print("Row 0 is struck. Once more:")
    counter.call(STRIKE, struct.pack("<BH", 0, 0))
    show(counter.ask(7, covers))
    print("Broker 8, with a reply buffer of 8 bytes:")
    show(counter.ask(8, covers, reply=8))
    return counter.close()


if __name__ == "__main__":
    sys.exit(main(sys.argv[1]))
