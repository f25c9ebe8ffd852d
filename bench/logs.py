#!/usr/bin/env python3
"""Writes log1.mp to log8.mp as a crash leaves them after a run of four primaries on a fresh store: COUNT transactions,
each of one put and its commit, over 512 keys. Of `docs/formats.md` it makes what such a run has: the root and leaves,
their splits, undo pages and commit records. Usage: logs.py COUNT"""
import struct
import sys

TOP, ROWS = 1 << 32, 15


class Page:
    def __init__(self):
        self.llsn, self.low, self.high, self.rows, self.children = 0, 0, TOP, {}, None


def cell(key, row):
    """A row's cell. A row is its value, writer (node, slot, version) and link, or None where it is gone."""
    if row is None:
        return struct.pack("<I60x", key)
    value, (node, slot, version), link = row
    head = struct.pack("<IBBHBBHIII", key, 1, len(value), 0, node, 0, slot, version, link, 0)
    return head + value.ljust(32, b"\0") + bytes(8)


class Run:
    def __init__(self):
        self.pages = {0: Page(), 1: Page()}
        self.next_page = 2
        self.llsn = {p: 0 for p in range(1, 5)}
        self.undo = {p: None for p in range(1, 5)}
        self.logs = {p: bytearray() for p in range(1, 5)}

    def leaf_of(self, key):
        root = self.pages[1]
        if root.children is None:
            return 1
        return root.children[max(low for low in root.children if low <= key)]

    def record(self, kind, number, fields=b""):
        page = self.pages[number]
        self.records.append(struct.pack("<BHQ", kind, number, page.llsn) + fields)
        page.llsn = self.at

    def take(self):
        number, self.next_page = self.next_page, self.next_page + 1
        self.pages[number] = Page()
        self.record(9, 0, struct.pack("<H", number))
        return number

    def make_leaf(self, number, low, high, rows):
        page = self.pages[number]
        page.low, page.high, page.rows = low, high, dict(rows)
        cells = b"".join(cell(key, row) for key, row in rows)
        self.record(1, number, struct.pack("<QQB", low, high, len(rows)) + cells)

    def split(self, leaf, new):
        page = self.pages[leaf]
        rows = sorted(page.rows.items())
        left, right, middle = rows[:8], rows[8:], rows[8][0]
        if leaf == 1:
            self.make_leaf(new[0], 0, middle, left)
            self.make_leaf(new[1], middle, TOP, right)
            page.children = {0: new[0], middle: new[1]}
            children = b"".join(struct.pack("<IHH", k, n, 0) for k, n in sorted(page.children.items()))
            self.record(2, 1, struct.pack("<QQB", 0, TOP, 2) + children)
        else:
            self.make_leaf(new[0], middle, page.high, right)
            page.rows, page.high = dict(left), middle
            self.record(6, leaf, struct.pack("<I", middle))
            self.pages[1].children[middle] = new[0]
            self.record(7, 1, struct.pack("<IHH", middle, new[0], 0))

    def put(self, primary, key, value, writer):
        leaf = self.leaf_of(key)
        full = len(self.pages[leaf].rows) == ROWS and key not in self.pages[leaf].rows
        undo = self.undo[primary]
        fresh = undo is None or len(self.pages[undo].rows) == ROWS
        touched = {1, leaf} | ({0} if full or fresh else set()) | (set() if fresh else {undo})
        self.at = 1 + max([self.llsn[primary]] + [self.pages[n].llsn for n in touched])
        self.records = []
        if fresh:
            undo = self.undo[primary] = self.take()
        new = [self.take() for _ in range((2 if leaf == 1 else 1) if full else 0)]
        if fresh:
            self.record(3, undo)
        if full:
            self.split(leaf, new)
        leaf = self.leaf_of(key)
        place = len(self.pages[undo].rows)
        former = self.pages[leaf].rows.get(key)
        self.record(8, undo, cell(key, former))
        self.pages[undo].rows[place] = former
        row = (value, writer, 16 * undo + place)
        self.record(4, leaf, cell(key, row))
        self.pages[leaf].rows[key] = row
        self.force(primary, self.at, self.records)

    def commit(self, primary, writer, cts):
        node, slot, version = writer
        record = struct.pack("<BBBHIQ", 10, node, 0, slot, version, cts)
        self.force(primary, self.llsn[primary] + 1, [record])

    def force(self, primary, llsn, records):
        mtr = struct.pack("<BBQ", primary, len(records), llsn) + b"".join(records)
        self.logs[primary] += struct.pack("<BI", 0xA5, len(mtr)) + mtr
        self.llsn[primary] = llsn


def main():
    run = Run()
    for i in range(int(sys.argv[1])):
        primary = i % 4 + 1
        writer = (primary, i // 4, i + 1)
        run.put(primary, 1000 * (i % 16 + 1) + 7 * (i // 16) % 32, b"v%d" % i, writer)
        run.commit(primary, writer, i + 1)
    for primary in range(1, 9):
        with open("log%d.mp" % primary, "wb") as log:
            log.write(bytes(run.logs.get(primary, b"")) + b"\0")


main()
