"""Reading a stage record: a CSV file with a row for each reading, its time, value and status."""

import array
import collections
import io
import math
import os
import re
import stat

from text import Stop, many, number, plain, shown, single
from times import Form

NO_VALUE = math.nan
GOOD = 0x80
NO_STATUS = 0x100 | GOOD  # the record gives none: Good is what the head gets
STATUS_WORDS = {"good": 0x80, "uncertain": 0x40, "bad": 0x00}
# Names that columns usually have, capitals, blanks and what is in brackets aside.
NAMES = {
    "time": ("time", "uhrzeit", "zeit", "heure"),
    "moment": ("datetime", "date/time", "date_time", "timestamp", "zeitstempel", "datum/zeit", "datum/uhrzeit", "datumzeit", "horodatage"),
    "date": ("date", "datum"),
    "value": ("value", "wert", "valeur"),
    "status": ("status",),
    "number": ("record",),  # of the row, as loggers count
}
HEADER_WITHIN = 200  # lines
MOST_UNITS = 3  # rows of units under the header
GROUPED = re.compile(r"[+-]?[0-9]{1,3}(?:[ .,'\u00a0\u2019\u202f][0-9]{3})+(?:[.,][0-9]*)?")
THOUSAND = re.compile(r"[+-]?[1-9][0-9]{0,2}[.,][0-9]{3}")
# What loggers write where they have no value: -777, -888, nines, and nines behind the point too.
LIKELY_MISSING = frozenset([-777.0, -888.0] + [
    float(sign + "9" * digits + "." + "9" * places) for digits in range(3, 8) for places in range(4) for sign in "-+" if sign == "-" or digits > 3])


class Record:
    """The readings of a record, row by row; times in microseconds."""

    def __init__(self, order=None):
        self.times = array.array("q")
        self.values = array.array("d")  # NaN where there is none
        self.statuses = array.array("H")
        self.texts = bytearray()  # each row's time as the record has it
        self.ends = array.array("Q")
        self.form = Form(order)
        self.remarks = []  # what is to be said of it, though it was read
        self.time_name = self.value_name = ""
        self.has_status = True

    def add(self, time, text, value, status):
        self.times.append(time)
        self.values.append(value)
        self.statuses.append(status)
        self.texts += text.encode()
        self.ends.append(len(self.texts))

    def time_text(self, row):
        return self.texts[self.ends[row - 1] if row else 0 : self.ends[row]].decode()

    def usual_step(self):
        """The median of the steps from row to row, the lower one of two."""
        times = self.times
        counts = collections.Counter(times[at] - times[at - 1] for at in range(1, len(times)))
        left = (len(times) - 2) // 2
        for step in sorted(counts):
            left -= counts[step]
            if left < 0:
                return step

    def remark_unusable(self):
        """A quality of another system than PA shows itself in this: the head can use no reading."""
        frequent = collections.Counter(status for status, value in zip(self.statuses, self.values) if value == value).most_common()
        if frequent and not any(0x40 <= status & 0xFF < 0xC0 for status, _ in frequent):
            self.remarks.append("no reading is usable: a status is a PA status byte, 0x80 is Good; the most frequent here is 0x%02X, in %s" % (
                frequent[0][0], many(frequent[0][1], "row")))


# ---- the file and its lines


def bytes_of(path):
    try:
        kind = os.stat(path).st_mode
        if stat.S_ISDIR(kind):
            raise Stop("is a folder")
        if not (stat.S_ISREG(kind) or stat.S_ISFIFO(kind)):
            raise Stop("is no file")
        with open(path, "rb") as file:
            return file.read()
    except FileNotFoundError:
        raise Stop("no such file") from None
    except (OSError, ValueError) as error:
        raise Stop("cannot be read: %s" % (getattr(error, "strerror", None) or error)) from None


def lines_of(data):
    """The lines of the file as an editor counts them."""
    if data.startswith((b"\xff\xfe", b"\xfe\xff")):
        coding = "utf-16"
    else:
        coding = "utf-8-sig"
        if b"\0" in data:
            raise Stop("row %d: a NUL byte, so this is no text; save the record as CSV" % (data.count(b"\n", 0, data.index(b"\0")) + 1))
    try:
        if "\0" in data.decode(coding):
            raise Stop("a NUL among its letters, so this is no text; save the record as CSV")
    except UnicodeDecodeError:
        if coding == "utf-16":
            raise Stop("begins as UTF-16 and is none; save the record as CSV in UTF-8") from None
        coding = "latin-1"  # as older programs write: only names have other letters than ASCII
    return io.TextIOWrapper(io.BytesIO(data), coding, newline=None)


def cells_of(line, separator):
    """The cells of a line, blanks around them dropped."""
    if '"' not in line:
        return [cell.strip() for cell in line.split(separator)]
    cells, at = [], 0
    cell = re.compile(r' *(?:"((?:[^"]|"")*)" *|([^"%s]*))(?:(%s)|$)' % (separator, separator))
    while True:
        found = cell.match(line, at)
        if not found:
            raise Stop("a quoted cell is not closed, or has something beside its quotes")
        cells.append((found[2] if found[1] is None else found[1].replace('""', '"')).strip())
        at = found.end()
        if found[3] is None:
            return cells


# ---- columns


def name_key(name):
    return "".join(name.split()).lower().lstrip("#")


def short_key(name):
    """A name without what it has in brackets or parentheses, as a unit or a zone."""
    return name_key(re.sub(r"\([^()]*\)|\[[^][]*\]", "", name))


def found_separator(line, wanted):
    """The separator of a header: the one that parts most of the wanted names, then the most cells."""
    best = None
    for separator in (";", "\t", ","):
        try:
            cells = cells_of(line, separator)
        except Stop:
            continue
        rank = (sum(name_key(cell) in wanted or short_key(cell) in wanted for cell in cells), len(cells))
        if best is None or rank > best[0]:
            best = (rank, separator)
    if best is None:
        raise Stop("a quoted cell is not closed, or has something beside its quotes")
    return best[1]


class Columns:
    """Which cells of a row are its time, value and status."""

    def __init__(self, header):
        self.header = header
        self.keys = [name_key(name) for name in header]
        self.short_keys = [short_key(name) for name in header]
        self.date = self.time = self.value = self.status = None

    def find_time(self, choice):
        if choice.time:
            self.time = self.place(choice.time)
            self.date = self.place(choice.date) if choice.date else None
            return
        self.time = self.usual("time")
        self.date = self.place(choice.date) if choice.date else self.usual("date")
        if self.date is not None and self.time is not None:
            return
        if choice.date:
            raise self.missing("time")
        if self.time is None:
            self.time = self.usual("moment")
        if self.time is None:
            self.time = self.date
        self.date = None
        if self.time is None:
            raise self.missing("time")

    def find_others(self, choice):
        self.status = self.place(choice.status) if choice.status else self.usual("status")
        self.value = self.place(choice.value) if choice.value else self.likely_value()
        taken = [at for at in (self.date, self.time, self.value, self.status) if at is not None]
        if len(set(taken)) < len(taken):
            raise Stop("one column cannot be two of time, value and status")

    def usual(self, what):
        """The column that has a usual name of what is looked for; None where there is none."""
        for name in NAMES[what]:
            if name in self.keys or name in self.short_keys:
                return self.place(name)

    def place(self, name):
        """The column of a name. With brackets and all it goes before the name without them: stage [cm] beside stage [m]."""
        key = name_key(name)
        for keys in (self.keys, self.short_keys):
            if keys.count(key) > 1:
                raise Stop("%d columns have the name %s" % (keys.count(key), shown(name)))
            if key in keys:
                return keys.index(key)
        raise self.missing(name)

    def missing(self, name):
        there = ", ".join(shown(name, 30) or "(no name)" for name in self.header[:8]) + (", .." if len(self.header) > 8 else "")
        return Stop("no column %s; the columns are: %s" % (shown(name), there))

    def likely_value(self):
        at = self.usual("value")
        if at is not None:
            return at
        known = [name for what in ("time", "moment", "date") for name in NAMES[what]]
        others = [at for at, key in enumerate(self.keys) if key and at not in (self.date, self.time, self.status)
            and self.short_keys[at] not in known]
        if len(others) > 1:
            others = [at for at in others if self.short_keys[at] not in NAMES["number"]]
        # a line above the header may be `Date;14.07.2026`
        if len(others) != 1 or is_time(self.header[others[0]]):
            missing = self.missing("value")
            raise Stop("%s%s" % (missing, "; --value NAME chooses one" if others else ""))
        return others[0]


def is_time(text, order=None):
    try:
        Form(order).read(text)
        return True
    except Stop:
        return False


# ---- cells


class Values:
    """Reads the cells of the value column. The decimal mark is the same in all rows: 1.234 beside 12,5 may be a thousand."""

    def __init__(self, separator, missing):
        self.comma_parts = separator == ","
        self.mark = None
        self.words = {"", "nan"} | {word.strip().lower() for word in missing}
        self.numbers = {number(word.strip()) for word in missing} - {None}
        self.likely_missing = {}  # how many rows have such a value, and the first of them
        self.maybe_thousands = separator != ","  # all cells with a mark may be thousands
        self.first_thousand = None
        self.has_hundreds = False

    def read(self, text, row):
        if text.lower() in self.words:
            return NO_VALUE
        value = number(text)
        if value is None:
            if GROUPED.fullmatch(text):
                raise Stop("value %s: separators of thousands are not read; write 1234.5" % shown(text))
            raise Stop("value %s is no number; empty, NaN or a word given by --missing stands for none" % shown(text))
        if "," in text or "." in text:
            self.marked("," if "," in text else ".", text)
            if self.maybe_thousands:
                self.maybe_thousands = bool(THOUSAND.fullmatch(text))
                self.first_thousand = self.first_thousand or (row, text)
        if value in self.numbers:
            return NO_VALUE
        if value in LIKELY_MISSING:
            count, first = self.likely_missing.get(value, (0, row))
            self.likely_missing[value] = count + 1, first
        elif abs(value) >= 100 and "," not in text and "." not in text:
            self.has_hundreds = True
        try:
            single(value)
            fits = math.isfinite(value)
        except OverflowError:
            fits = False
        if not fits:
            raise Stop("value %s is beyond what a single can hold" % shown(text))
        return value

    def marked(self, mark, text):
        if mark == "," and self.comma_parts:
            raise Stop("value %s: a decimal comma, where commas part the cells; use semicolons or a decimal point" % shown(text))
        if self.mark not in (None, mark):
            raise Stop("value %s: a decimal %s, where the rows before have a decimal %s; separators of thousands are not read" % (
                (shown(text), "comma", "point") if mark == "," else (shown(text), "point", "comma")))
        self.mark = mark

    def end(self):
        """Only all cells together show whether 1.012 may be a thousand: it may beside 987 and 998, and not beside 0.998."""
        if self.maybe_thousands and self.first_thousand and self.has_hundreds:
            row, text = self.first_thousand
            raise Stop("row %d: value %s may be a thousand or have three decimals; write %s or %s0" % (
                row, text, re.sub("[.,]", "", text), text))

    def remarks(self):
        for value, (count, first) in self.likely_missing.items():
            rows = "in row %d" % first if count == 1 else "in %s, the first is row %d" % (many(count, "row"), first)
            yield "%s %s: --missing %s if it stands for no value" % (plain(value), rows, plain(value))


def status_of(text, has_value):
    if not text:
        if has_value:
            raise Stop("a value without a status; write 0x80 or good where it is Good")
        return NO_STATUS
    status = STATUS_WORDS.get(text.lower())
    if status is None:
        if re.fullmatch("[0-9]{1,9}", text):
            status = int(text)
        elif re.fullmatch("0[xX][0-9a-fA-F]{1,8}", text):
            status = int(text, 16)
        if status is None or status > 255:
            raise Stop("status %s: write 0 to 255, 0x00 to 0xFF, good, uncertain or bad" % shown(text))
    return status


# ---- the record


def header_of(lines, choice):
    """Row number, separator and columns of the header: the first line in which time and value are found."""
    chosen = (choice.time, choice.date, choice.value, choice.status)
    wanted = {name for names in NAMES.values() for name in names} | {name_key(name) for name in chosen if name}
    nearest = None  # what is wrong with the line that is most likely meant as the header
    for row, line in enumerate(lines, 1):
        line = line.strip(" \n")
        if not line.strip() or re.fullmatch("sep=.?", line.strip()):  # the second is what some spreadsheets begin with
            continue
        likely = 0 if line.startswith("#") else 1
        try:
            line = line.lstrip("# ")
            separator = found_separator(line, wanted)
            columns = Columns(cells_of(line, separator))
            columns.find_time(choice)
            likely = 2
            columns.find_others(choice)
            return row, separator, columns
        except Stop as stop:
            if nearest is None or likely > nearest[0]:
                nearest = likely, "row %d: %s" % (row, stop)
        if row >= HEADER_WITHIN:
            break
    if nearest is None:
        raise Stop("is empty")
    raise Stop(nearest[1] + ("" if nearest[0] == 2 else "; a header further down was not found"))


def time_text(cells, columns):
    text = cells[columns.time]
    if columns.date is None:
        return text
    date = cells[columns.date]
    if not text or not date:
        raise Stop("a date without a time" if date else "a time without a date" if text else "no time")
    return date + " " + text


def is_units(cells, columns, values, order):
    """Whether a row under the header says what the columns hold, as `TS,cm`, and is no reading, not even a wrong one."""
    value = cells[columns.value]
    try:
        text = time_text(cells, columns)
    except Stop:
        text = cells[columns.time] + cells[columns.date]
    if is_time(text, order):
        return False
    if not re.search("[0-9]", text + value):
        return True
    return number(value) is None and not GROUPED.fullmatch(value) and value.lower() not in values.words


def read(path, choice, progress):
    """The record of a file. Whatever is wrong with it is told with its row."""
    lines = lines_of(bytes_of(path))
    row, separator, columns = header_of(lines, choice)
    record = Record(choice.order)
    record.time_name = columns.header[columns.time]
    record.value_name = columns.header[columns.value]
    record.has_status = columns.status is not None
    values = Values(separator, choice.missing)
    statuses = {}  # cells that were read before
    before = None
    for row, line in enumerate(lines, row + 1):
        if row & 0x3FFF == 0:
            progress("reading the record, row {:,}".format(row))
        line = line.rstrip("\n")
        try:
            cells = cells_of(line, separator)
            if not any(cells):
                continue
            if len(cells) != len(columns.header):
                raise Stop("%s, where the header has %d" % (many(len(cells), "cell"), len(columns.header)))
            if before is None and len(record.remarks) < MOST_UNITS and is_units(cells, columns, values, choice.order):
                record.remarks.append("row %d under the header is no reading and is passed over" % row)
                continue
            text = time_text(cells, columns)
            time = record.form.read(text)
            if before is not None and time <= before:
                raise Stop("time %s is %s" % (shown(text), "that of the row before" if time == before else "before that of the row before"))
            before = time
            value = values.read(cells[columns.value], row)
            if columns.status is None:
                status = NO_STATUS
            else:
                key = cells[columns.status], value == value
                if key not in statuses:
                    statuses[key] = status_of(*key)
                status = statuses[key]
        except Stop as stop:
            raise Stop("row %d: %s" % (row, stop)) from None
        record.add(time, text, value, status)
    values.end()
    if len(record.times) < 2:
        raise Stop("row %d: %s; two at least are needed" % (row, "one reading" if record.times else "no reading under the header"))
    record.remarks.extend(values.remarks())
    record.remark_unusable()
    return record
