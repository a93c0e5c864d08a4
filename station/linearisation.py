"""A weir's table for LIN_TYPE 1: its pairs as a file has them, the call that loads them, and what a value becomes by them."""

import bisect
import math
import os
import struct

from record import bytes_of, cells_of, lines_of
from text import Stop, many, number, of_single, plain, read_again, shown, single

MOST_SENT = 32  # pairs that a line of a call script has room for: more than a head takes


class Table:
    """Pairs x, y with the rows that they stand in."""

    def __init__(self, path):
        self.name = read_again(os.path.basename(path))
        self.rows, self.xs, self.ys = [], [], []
        try:
            self.read(list(lines_of(bytes_of(path))))
        except Stop as stop:
            raise Stop("%s: %s" % (shown(path, 200), stop)) from None
        words = b"".join(struct.pack(">II", single(x), single(y)) for x, y in list(zip(self.xs, self.ys))[:MOST_SENT])
        self.line = "load" + "".join(" 0x%02X" % byte for byte in words)
        self.asked, self.call = "the table " + shown(path, 200), "load, " + many(len(self.rows), "pair")

    def read(self, lines):
        lines = ["" if line.lstrip().startswith("#") else line.strip(" \n") for line in lines]
        separator = next((mark for mark in ";\t" if mark in "".join(lines)), ",")
        first = True
        for row, line in enumerate(lines, 1):
            if not line.strip(separator + " "):
                continue
            try:
                cells = cells_of(line, separator)
                # the first line may have the names of the columns
                if not first or any(number(cell) is not None for cell in cells):
                    self.add(row, cells)
                first = False
            except Stop as stop:
                raise Stop("row %d: %s" % (row, stop)) from None
        if not self.rows:
            raise Stop("has no pair")

    def add(self, row, cells):
        if len(cells) != 2:
            raise Stop("%s, where a pair has 2" % many(len(cells), "cell"))
        for cell, values in zip(cells, (self.xs, self.ys)):
            value = number(cell)
            if value is None:
                raise Stop("%s is no number" % (shown(cell) or "an empty cell"))
            try:
                values.append(of_single(single(value)))
                fits = math.isfinite(value)
            except OverflowError:
                fits = False
            if not fits:
                raise Stop("%s is beyond what a single can hold" % shown(cell))
        self.rows.append(row)

    def hint(self, ground):
        """More about a refusal of the load: the row in which x do not rise."""
        if ground == 10:
            for before, x, row in zip(self.xs, self.xs[1:], self.rows[1:]):
                if not before < x:
                    return "; row %d has x %s after %s" % (row, plain(x), plain(before))
        return ""

    def value(self, x):
        """What a value becomes, for the picture; the head computes in singles."""
        at = bisect.bisect_right(self.xs, x)
        if at in (0, len(self.xs)):
            return self.ys[min(at, len(self.xs) - 1)]
        x0, x1, y0, y1 = self.xs[at - 1], self.xs[at], self.ys[at - 1], self.ys[at]
        return y0 + (x - x0) * (y1 - y0) / (x1 - x0)

    def told(self):
        return "table %s: %s, x from %s to %s" % (shown(self.name), many(len(self.rows), "pair"), plain(self.xs[0]), plain(self.xs[-1]))
