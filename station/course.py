"""What is kept of a course of values: as much as table, picture and summary need, however many ticks it has."""

import itertools
import operator

from head import ALARM_NAMES, alarm_mask

FEW = 3  # rises of an alarm that are told one by one


class Columns:
    """Lowest and highest value in each column of the picture, with their places; one kind of value is kept apart from another."""

    def __init__(self, length, columns):
        self.length, self.columns = length, columns
        self.cells = {}

    def column(self, place):
        return place * self.columns // self.length

    def begin(self, column):
        """The first place of a column."""
        return -(-column * self.length // self.columns)

    def add(self, column, kind, low_at, low, high_at, high):
        cell = self.cells.get((column, kind))
        if cell is None:
            self.cells[column, kind] = [low_at, low, high_at, high]
            return
        if low < cell[1]:
            cell[:2] = low_at, low
        if high > cell[3]:
            cell[2:] = high_at, high

    def add_values(self, first, values, kind):
        """Values at places one after the other."""
        done = 0
        while done < len(values):
            column = self.column(first + done)
            end = min(len(values), self.begin(column + 1) - first)
            part = values[done:end]
            low, high = min(part), max(part)
            self.add(column, kind, first + done + part.index(low), low, first + done + part.index(high), high)
            done = end

    def add_level(self, begin, end, value, kind):
        """One value from a place up to another."""
        for column in range(self.column(begin), self.column(max(begin, end - 1)) + 1):
            at = max(begin, self.begin(column))
            self.add(column, kind, at, value, at, value)

    def points(self):
        """(place, value, kind) in the order of places."""
        found = {(cell[at], cell[at + 1], kind) for (_, kind), cell in self.cells.items() for at in (0, 2)}
        return sorted(found, key=lambda point: point[0])


class Alarm:
    """When an alarm rose and fell: the first few times, and how often."""

    def __init__(self):
        self.count = 0
        self.times = []  # [tick of the rise, tick of the fall or None, OUT at the rise]

    def rise(self, tick, value):
        self.count += 1
        if self.count <= FEW:
            self.times.append([tick, None, value])

    def fall(self, tick):
        if self.count <= FEW:
            self.times[-1][1] = tick


def is_good(status):
    """Of a status as two hexadecimal digits: quality 2, and not 3."""
    return status[:1] in b"89AB"


class Course:
    """OUT of one filter time over all ticks."""

    def __init__(self, ftime, words, ticks, columns):
        self.ftime, self.words = ftime, words  # the filter time in seconds, and as it is written
        self.line = Columns(ticks, columns)
        self.alarms = {name: Alarm() for name in ALARM_NAMES.values()}
        self.standing = 0
        self.not_good = 0  # ticks
        self.spells = 0
        self.good = True

    def add(self, first, values, statuses, alarms):
        """The answers to the ticks from `first` on."""
        at = 0
        for good, run in runs(statuses, is_good):
            self.line.add_values(first + at, values[at : at + run], good)
            if not good:
                self.not_good += run
                self.spells += self.good
            self.good = good
            at += run
        at = 0
        for mask, run in runs(alarms, alarm_mask):
            self.change(first + at, mask, values[at])
            at += run

    def change(self, tick, mask, value):
        for bit, name in ALARM_NAMES.items():
            if mask & ~self.standing & bit:
                self.alarms[name].rise(tick, value)
            elif self.standing & ~mask & bit:
                self.alarms[name].fall(tick)
        self.standing = mask


def runs(items, meaning):
    """How long each meaning lasts in a list of few different items: (meaning, length) in turn."""
    kinds = {item: meaning(item) for item in set(items)}
    if len(set(kinds.values())) == 1:
        return [(next(iter(kinds.values())), len(items))]
    return [(kind, sum(1 for _ in run)) for kind, run in itertools.groupby(map(kinds.__getitem__, items))]


class Difference:
    """The largest difference between two courses, and the first tick that has it."""

    def __init__(self):
        self.most = 0.0
        self.tick = None

    def add(self, first, one, other):
        differences = list(map(abs, map(operator.sub, one, other)))
        most = max(differences)
        if most > self.most:
            self.most, self.tick = most, first + differences.index(most)


class Spells:
    """When the input was Bad and when there was no value: each spell by itself, (kind, from, to)."""

    def __init__(self):
        self.list = []

    def add(self, kind, begin, end):
        last = self.list[-1] if self.list else None
        if last and last[0] == kind and last[2] == begin:
            last[2] = end
        else:
            self.list.append([kind, begin, end])
