#!/usr/bin/env python3
"""./run compare RECORD.csv --ftime 8 32: a stage record through the head's analog input, once with each filter time.

docs/stations.md is the guide. Called as `compare.py REPLAY ARGUMENTS`, REPLAY being the built program `replay`, or `-` to look at
the arguments and the record alone, before replay is built.
"""

import os
import sys

try:
    import signal

    if __name__ == "__main__" and signal.getsignal(signal.SIGINT) is signal.default_int_handler:
        # as long as there is nothing to be put in order, an interrupt ends it without a word
        signal.signal(signal.SIGINT, lambda *_: os._exit(130))
except KeyboardInterrupt:
    os._exit(130)

sys.dont_write_bytecode = True  # the folder may be another's
sys.path.insert(0, os.path.dirname(os.path.abspath(__file__)))  # PYTHONSAFEPATH leaves it out

try:
    import contextlib
    import math
    import re
    import tempfile
    import time

    import record as records
    from course import Columns, Course, Difference, Spells
    from head import LIMITS, TICK, Head, Write, alarm_mask, alarm_text, count_ticks, pieces, ticks_before
    from linearisation import Table
    from picture import COLOURS, COLUMNS, Picture
    from text import Stop, many, number, of_single, plain, plain_single, read_again, rounded, shown
    from times import DAY, MINUTE, SECOND, decimals
except MemoryError:
    sys.exit("run: compare: out of memory")
except ImportError as error:  # a part of python3 that cannot be loaded, for want of memory as a rule
    sys.exit("run: compare: cannot be started: %s" % error)

HELP = """\
./run compare RECORD.csv --ftime 8 32

Sends a stage record through the head's analog input, AIN, once with each filter time (PV_FTIME, in
seconds, one to four of them), a tick for each 0.1 s. Gives a table, RECORD-compare.csv, and a picture,
RECORD-compare.svg, in the current folder; their names go to standard output, all else to standard error.

  --ftime S ..            the filter times
  --set NAME VALUE        a parameter of AIN: --set HI_LIM 80 --set PV_SCALE 0 250
  --table FILE.csv        a weir's table, 2 to 21 rows of stage and discharge: it is loaded, and LIN_TYPE set to 1
  --every S               the table has a row each S seconds (0.1: every tick), not one for each of the record's
  --gap S                 a step longer than this is a gap, in which the head gets no value
                          (five usual steps; none: no step is, for records that have a row for each change)
  --missing WORD          a cell that stands for no value, as -9999; may be given again
  --time, --date, --value, --status NAME
                          the columns, where they are not called time, date, value and status
  --day-first, --month-first
                          how dates as 07/08/2026 are meant
  --unit TEXT             the unit, for the picture
  --out PATH              another place and name: PATH.csv and PATH.svg, or PATH/ for a folder
  --help                  this text

Status: 0 done; 1 the record, the head or a result stood in the way; 2 the words were not understood.
docs/stations.md says how a record is written and what each message means.
"""
LOOK = "-"
CHUNK = 8192  # ticks that are taken at a time
MOST_FTIMES = len(COLOURS)
TOLD_GAPS = 20
FTIME_WORD = re.compile(r"[+-]?[0-9.,]*[0-9][0-9.,]*(?:[eE][+-]?[0-9]+)?")
SIGNALS = (signal.SIGINT, signal.SIGTERM, signal.SIGHUP)  # the last: the terminal was closed


def say(words):
    to_standard_error("run: compare: %s\n" % words)


def to_standard_error(text):
    """Letters as the terminal has them; a byte of a name that is no letter goes out as it came in."""
    coding = getattr(sys.stderr, "encoding", None) or "utf-8"
    if coding.lower() in ("ascii", "us-ascii", "ansi_x3.4-1968"):
        coding = "utf-8"  # the locale says nothing of letters, and that is what files and terminals have
    try:
        data = text.encode(coding, "surrogateescape")
    except UnicodeEncodeError:
        data = text.encode(coding, "backslashreplace")
    try:
        write_whole(2, data)
    except OSError:
        pass  # there is nobody to tell


def write_whole(stream, data):
    while data:
        data = data[os.write(stream, data) :]


class Progress:
    """How far it is: on a terminal a line that is written over, elsewhere a line each two seconds, and none before."""

    def __init__(self):
        self.terminal = sys.stderr is not None and sys.stderr.isatty()
        self.pause = 0.3 if self.terminal else 2
        self.next = time.monotonic() + self.pause
        self.wide = 0

    def __call__(self, words):
        if time.monotonic() < self.next:
            return
        self.next = time.monotonic() + self.pause
        if self.terminal:
            to_standard_error("\r" + words.ljust(self.wide))
            self.wide = len(words)
        else:
            say(words)

    def clear(self):
        if self.wide:
            to_standard_error("\r" + " " * self.wide + "\r")
            self.wide = 0


# ---- the words of the command


class Options:
    def __init__(self):
        self.record = self.every = self.out = self.gap = self.table = None
        self.ftimes = []
        self.sets = []
        self.missing = []
        self.time = self.date = self.value = self.status = None
        self.order = None  # of dates as 07/08/2026: "day" or "month" first
        self.unit = ""


def understood(words):
    """The options that the words after `compare` ask for; None where they ask for help."""
    options, words, rest = Options(), list(words), []
    while words:
        word = words.pop(0)
        if word in ("--help", "-h"):
            return None
        name, equals, value = word.partition("=")
        if equals and name.startswith("--"):
            words.insert(0, value)
            word = name
        if word == "--ftime":
            while words and FTIME_WORD.fullmatch(words[0]) and (number(words[0]) is not None or "," in words[0]):
                options.ftimes.append(words.pop(0))
        elif word == "--set":
            name = taken(words, word, "the name of a parameter")
            options.sets.append(Write(name, [taken(words, "--set " + shown(name), "a value") for _ in range(Write.count(name))]))
        elif word == "--missing":
            options.missing.append(taken(words, word, "a word"))
        elif word in ("--every", "--gap"):
            setattr(options, word[2:], taken(words, word, "seconds"))
        elif word in ("--time", "--date", "--value", "--status", "--unit", "--out", "--table"):
            setattr(options, word[2:], taken(words, word, "a path" if word in ("--out", "--table") else "a name"))
        elif word in ("--day-first", "--month-first"):
            order = word[2:].partition("-")[0]
            if options.order not in (None, order):
                raise misused("--day-first and --month-first: it is one of them")
            options.order = order
        elif word.startswith("-") and len(word) > 1:
            raise misused("no option %s" % shown(word))
        else:
            rest.append(word)
    if len(rest) != 1:
        raise misused("no record is named" if not rest else "one record at a time, and there are: %s" % ", ".join(shown(word) for word in rest[:4]))
    options.record = rest[0]
    judge(options)
    return options


def taken(words, option, what):
    if not words:
        raise misused("%s wants %s" % (option, what))
    return words.pop(0)


def misused(words):
    return Stop(words + "; ./run compare --help shows what there is", 2)


def judge(options):
    """Names of the options with their letters; numbers, read and within their bounds."""
    for name in ("time", "date", "value", "status", "unit"):
        setattr(options, name, getattr(options, name) and read_again(getattr(options, name)))
    options.missing = [read_again(word) for word in options.missing]
    for text in options.ftimes:
        if "," in text:
            raise Stop("--ftime %s: %s" % (shown(text), written_otherwise(text)), 2)
    if not 1 <= len(options.ftimes) <= MOST_FTIMES:
        raise misused("--ftime wants one to %d numbers of seconds, and has %d" % (MOST_FTIMES, len(options.ftimes)))
    options.ftimes = [(plain(number(text)), Write("PV_FTIME", [text])) for text in options.ftimes]
    if len({of_single(write.words[0]) for _, write in options.ftimes}) < len(options.ftimes):
        raise misused("--ftime has equal numbers")
    if any(write.name == "PV_FTIME" for write in options.sets):
        raise misused("--set PV_FTIME: filter times are given by --ftime")
    if options.table is not None and not any(write.name == "LIN_TYPE" for write in options.sets):
        options.sets.insert(0, Write("LIN_TYPE", ["1"]))
    if options.out == "":
        raise misused("--out wants a path")
    if options.every is not None:
        options.every = microseconds("--every", options.every)
        if options.every <= 0 or options.every % TICK:
            raise misused("--every wants whole ticks of 0.1 s")
    if options.gap is not None:
        options.gap = 0 if options.gap == "none" else microseconds("--gap", options.gap)
        if options.gap < 0:
            raise misused("--gap wants seconds, or none")


def written_otherwise(text):
    """What to write for filter times with a comma, which may stand between two of them or before decimals."""
    parts = [part for part in text.split(",") if part]
    count = {1: "one filter time", 2: "two filter times", 3: "three filter times"}.get(len(parts), "%d filter times" % len(parts))
    words = "write %s for %s" % (shown(" ".join(parts)), count)
    return words + (", or %s for one" % shown(text.replace(",", ".")) if len(parts) == 2 and number(text) is not None else "")


def microseconds(option, text):
    seconds = number(text)
    if seconds is None or not abs(seconds) < 1e11 or not (round(seconds * SECOND) or set(text) <= set("0.,")):
        raise misused("%s wants seconds, and has %s" % (option, shown(text)))
    return round(seconds * SECOND)


# ---- the results


class Result:
    """A file that is written whole or not at all: beside its place under another name, and then renamed."""

    def __init__(self, path):
        self.path = path
        self.file = self.hidden = self.earlier = None
        folder = os.path.dirname(path) or "."
        if os.path.isdir(path):
            raise Stop("%s: is a folder" % shown(path, 200))
        try:
            handle, self.hidden = tempfile.mkstemp(prefix=".compare-", dir=folder)
            self.file = open(handle, "w", encoding="utf-8", errors="replace", newline="\n")
            mask = os.umask(0)
            os.umask(mask)
            os.chmod(self.hidden, 0o666 & ~mask)
        except OSError as error:
            self.drop()
            raise self.stop(error) from None

    def stop(self, error):
        return Stop("%s: cannot be written: %s" % (shown(self.path, 200), error.strerror or error))

    def write(self, text):
        try:
            self.file.write(text)
        except OSError as error:
            raise self.stop(error) from None

    def close(self):
        try:
            self.file.close()
        except OSError as error:
            raise self.stop(error) from None

    def put(self):
        """Into its place. What was there has a second name until both results are in theirs."""
        try:
            if os.path.lexists(self.path) and not os.path.isdir(self.path):
                self.earlier = self.hidden + ".old"
                try:
                    os.link(self.path, self.earlier, follow_symlinks=False)
                except (OSError, NotImplementedError):  # not every disk has second names
                    os.rename(self.path, self.earlier)
            os.replace(self.hidden, self.path)
            self.hidden = None
        except OSError as error:
            raise self.stop(error) from None

    def take_back(self, reason):
        """As if nothing had been put in its place. The reason to do so is handed back, with what stands in the way of it."""
        try:
            if self.earlier and os.path.lexists(self.earlier):
                # where the file is still in its place, the second name alone is dropped
                if self.hidden is None or not os.path.lexists(self.path):
                    os.rename(self.earlier, self.path)
            elif self.hidden is None:
                os.unlink(self.path)
            return reason
        except OSError as error:
            kept, self.earlier = self.earlier, None
            there = "; what was there is now %s" % shown(kept, 200) if kept else ""
            return Stop("%s; %s: cannot be put back: %s%s" % (reason, shown(self.path, 200), error.strerror or error, there))

    def drop(self):
        """Leaves nothing behind but what was put in its place."""
        try:
            if self.file is not None:
                self.file.close()
        except OSError:
            pass
        for name in (self.hidden, self.earlier):
            with contextlib.suppress(OSError):
                if name is not None:
                    os.unlink(name)


def put_in_place(results):
    """Both results or neither."""
    try:
        for result in results:
            result.put()
    except BaseException as error:
        reason = error
        for result in results:
            reason = result.take_back(reason)
        raise reason from None


def result_paths(options):
    name = os.path.splitext(os.path.basename(options.record))[0] + "-compare"
    base = name
    if options.out is not None:
        base = options.out
        if os.path.isdir(base) or base.endswith("/"):
            base = os.path.join(base, name)
        elif os.path.splitext(base)[1].lower() in (".csv", ".svg"):
            base = os.path.splitext(base)[0]
    paths = [base + ".csv", base + ".svg"]
    for path in paths:
        for what, source in (("record", options.record), ("table", options.table)):
            if source is not None and os.path.exists(path) and os.path.samefile(path, source):
                raise Stop("%s: is the %s itself; give the results another name with --out" % (shown(path, 200), what))
    return paths


# ---- the work


class Scene:
    """All that table, picture and summary are made of."""

    def __init__(self, options, record, table):
        self.options, self.record, self.table = options, record, table
        self.start = record.times[0]
        self.ticks = count_ticks(record)
        self.usual = record.usual_step()
        self.gap = 5 * self.usual if options.gap is None else options.gap or None
        self.places = max(1, decimals(self.start))
        self.courses = [Course(of_single(write.words[0]), text + " s", self.ticks, COLUMNS) for text, write in options.ftimes]
        self.difference = Difference()
        self.spells = Spells()
        self.recorded = Columns(self.ticks * TICK, COLUMNS)  # the record's line, its stretches apart
        self.stage = Columns(self.ticks * TICK, COLUMNS)  # the same before a table, if there is one
        self.stretch = self.drawn_until = 0
        self.settings = {write.name: [of_single(word) for word in write.words] for write in options.sets}
        self.limits = {name: self.settings[name][0] for name in LIMITS if math.isfinite(self.settings.get(name, [math.inf])[0])}
        self.title = read_again(os.path.basename(options.record))
        self.told = []
        self.name_axis()

    def name_axis(self):
        """What the upright axis is of. It is OUT's; the record is drawn as the head linearises and scales it."""
        low, high = self.settings.get("PV_SCALE", [0.0, 100.0])
        out_low, out_high = self.settings.get("OUT_SCALE", [0.0, 100.0])
        name = self.record.value_name if records.name_key(self.record.value_name) != "value" else ""
        self.stage_name, self.record_words = name, "record"
        linearises = [write.words for write in self.options.sets if write.name == "LIN_TYPE"][-1:] == [[1]]
        self.drawn_table = self.table if linearises else None
        self.scaled = lambda value: value
        if self.drawn_table:
            self.record_words = "record; below by the table"
            name = "OUT"
        if (low, high) != (out_low, out_high) and low != high:
            self.scaled = lambda value: out_low + (value - low) / (high - low) * (out_high - out_low)
            self.record_words += ", scaled as OUT"
            name = "OUT"
        self.axis_name = name

    def as_out(self, value):
        """A reading as it is drawn."""
        return self.scaled(self.drawn_table.value(value) if self.drawn_table else value)

    def pieces(self):
        return pieces(self.record, self.usual, self.gap)

    def text(self, time):
        """A time of the record, with the decimals it needs."""
        return self.record.form.text(time, decimals(time))

    def tick_text(self, tick):
        return self.record.form.text(self.start + tick * TICK, self.places)

    def short_tick_text(self, tick):
        """The same for the picture: without the zone, which its axis has, and without the date where the record lies within one day."""
        form, last, time = self.record.form, self.record.times[-1], self.start + tick * TICK
        if form.kind != "date":
            return self.tick_text(tick)
        return ("" if self.start // DAY == last // DAY else form.date(time) + " ") + form.clock(time, self.places)

    def look_over(self):
        """What is to be said of the record before the head has seen it; its line and its spells for the picture."""
        for remark in self.record.remarks:
            say(remark)
        unseen = gaps = 0
        for begin, end, value, status, row in self.pieces():
            if row is None:
                gaps += 1
                if gaps <= TOLD_GAPS:
                    say("gap in the record: no value from %s to %s" % (self.text(begin), self.text(end)))
            elif ticks_before(end, self.start) == ticks_before(begin, self.start):
                unseen += 1
            self.draw(begin - self.start, end - self.start, value, status & 0xFF)
        if gaps > TOLD_GAPS:
            say("and %s" % many(gaps - TOLD_GAPS, "more gap"))
        if unseen:
            say("%s between two ticks: a head never sees %s" % (many(unseen, "reading"), "it" if unseen == 1 else "them"))
        outside = sum(not self.table.xs[0] <= value <= self.table.xs[-1] for value in self.record.values if value == value) if self.drawn_table else 0
        if outside:
            say("%s outside the table, x from %s to %s: there the y of its end holds" % (
                many(outside, "reading"), plain(self.table.xs[0]), plain(self.table.xs[-1])))
        if not self.record.has_status:
            say("no column status: every reading is taken as Good, 0x80")
        least = min(self.courses, key=lambda course: course.ftime or math.inf)
        if self.usual > least.ftime * SECOND > 0:
            usual = plain(self.usual / SECOND)
            say("the usual step of the record, %s s, is longer than PV_FTIME %s: little can be seen of that filter" % (usual, least.words))

    def draw(self, place, until, value, status):
        """What stands from a place to another: a piece of the record's line, or of a spell in which the head has no use for it."""
        if value != value:
            self.spells.add("no value", place, until)
        elif not 0x40 <= status < 0xC0:
            self.spells.add("Bad", place, until)
        else:
            # a break within one column of the picture would not be seen
            if self.drawn_until != place and self.recorded.column(self.drawn_until) != self.recorded.column(place):
                self.stretch += 1
            self.recorded.add_level(place, until, self.as_out(value), self.stretch)
            if self.drawn_table:
                self.stage.add_level(place, until, value, self.stretch)
            self.drawn_until = until

    # ---- the table

    def table_rows(self):
        """(tick, time, value, status) of each row of the table."""
        if self.options.every is None:
            record = self.record
            for row, at in enumerate(record.times):
                yield (at - self.start) // TICK, record.time_text(row).replace(",", "."), record.values[row], record.statuses[row]
            return
        every, form = self.options.every, self.record.form
        places = max(decimals(self.start), decimals(every))
        seconds = form.has_seconds or bool(self.start % MINUTE or every % MINUTE)
        at = self.start
        for begin, end, value, status, row in self.pieces():
            while at < end and (at - self.start) // TICK < self.ticks:
                yield (at - self.start) // TICK, form.text(at, places, seconds), value, status if row is not None else records.NO_STATUS
                at += every

    def table_head(self):
        names = [name for text, _ in self.options.ftimes for name in ("OUT %s s" % text, "status %s s" % text, "alarms %s s" % text)]
        return ",".join(["time", "value", "status"] + names) + "\n"

    # ---- the heads

    def run(self, program, table, progress):
        """Sends the record through a head for each filter time, all in step, and writes the table as they go."""
        first = [self.table] * (self.table is not None) + self.options.sets
        heads = [Head(program, first + [write], self.pieces) for _, write in self.options.ftimes]
        try:
            for head in heads:
                head.start()
            for head in heads:
                head.begin()
            self.look_over()
            table.write(self.table_head())
            rows = self.table_rows()
            row = next(rows)
            for first in range(0, self.ticks, CHUNK):
                count = min(CHUNK, self.ticks - first)
                answers = [head.take(count) for head in heads]
                for course, answer in zip(self.courses, answers):
                    course.add(first, *answer)
                if len(heads) > 1:
                    self.difference.add(first, answers[0][0], answers[-1][0])
                row = self.write_rows(table, rows, row, first, count, answers)
                progress("{:,} of {:,} ticks, {} %".format(first + count, self.ticks, 100 * (first + count) // self.ticks))
            for head in heads:
                head.finish()
        finally:
            for head in heads:
                head.stop()

    def write_rows(self, table, rows, row, first, count, answers):
        """Writes the rows of the table that fall on some ticks; the first row after them is handed back."""
        lines = []
        names = {line: alarm_text(alarm_mask(line)) for answer in answers for line in set(answer[2])}
        while row is not None and row[0] < first + count:
            tick, time_text, value, status = row
            has = value == value
            cells = [time_text, plain(value) if has else "", "0x%02X" % (status & 0xFF) if has or status != records.NO_STATUS else ""]
            for values, statuses, alarms in answers:
                cells += plain_single(values[tick - first]), "0x" + statuses[tick - first].decode(), names[alarms[tick - first]]
            lines.append(",".join(cells))
            row = next(rows, None)
        if lines:
            table.write("\n".join(lines) + "\n")
        return row

    # ---- the summary

    def tell(self):
        """The lines of the summary."""
        record = self.record
        self.told.append("%s from %s to %s, usual step %s s, {:,} ticks".format(self.ticks) % (
            many(len(record.times), "reading"), record.time_text(0), record.time_text(len(record.times) - 1), plain(self.usual / SECOND)))
        if self.table:
            self.told.append(self.table.told() + ("" if self.drawn_table else ", not used"))
        for course in self.courses:
            self.told.append("PV_FTIME %s: %s; %s" % (course.words, self.alarms_told(course), self.quality_told(course)))
        if len(self.courses) > 1:
            names = [course.words for course in (self.courses[0], self.courses[-1])]
            most = self.difference
            self.told.append("OUT with PV_FTIME %s and %s: %s" % (*names, "no difference" if most.tick is None else "largest difference %s, at %s" % (
                rounded(most.most), self.tick_text(most.tick))))

    def alarms_told(self, course):
        told = []
        for name, alarm in course.alarms.items():
            for rise, fall, _ in alarm.times:
                fell = "stands at the end" if fall is None else "fell " + self.tick_text(fall)
                told.append("%s rose %s, %s" % (name, self.tick_text(rise), fell))
            if alarm.count > len(alarm.times):
                told.append("%s rose %s" % (name, many(alarm.count - len(alarm.times), "more time")))
        return "; ".join(told) or "no alarm"

    def quality_told(self, course):
        if not course.not_good:
            return "OUT Good in all ticks"
        return "OUT not Good in %s, %s" % (many(course.not_good, "tick"), many(course.spells, "spell"))


def is_pipe(path):
    return os.path.exists(path) and not os.path.isfile(path) and not os.path.isdir(path)


def compare(program, options, progress):
    if program == LOOK and any(path is not None and is_pipe(path) for path in (options.record, options.table)):
        return  # it can be read once
    try:
        record = records.read(options.record, options, progress)
    except Stop as stop:
        raise Stop("%s: %s" % (shown(options.record, 200), stop)) from None
    progress.clear()
    scene = Scene(options, record, None if options.table is None else Table(options.table))
    if program == LOOK:
        result_paths(options)
        return
    results = []
    try:
        for path in result_paths(options):
            with undisturbed():
                results.append(Result(path))
        scene.run(program, results[0], progress)
        progress.clear()
        scene.tell()
        results[1].write(Picture(scene).draw())
        for result in results:
            result.close()
        with undisturbed():
            put_in_place(results)
            heed_signals(signal.SIG_DFL)  # all is done, and there is nothing left to be put in order
            for result in results:
                result.drop()
    finally:
        for result in results:
            result.drop()
    for line in scene.told:
        say(line)
    try:
        give("".join(result.path + "\n" for result in results))
    except Stop as stop:
        raise Stop("the results are written, but their names cannot be told: %s" % stop) from None


def give(text):
    """Text to standard output, names of files with whatever bytes they have."""
    try:
        write_whole(1, os.fsencode(text))
    except OSError as error:
        raise Stop("standard output: %s" % (error.strerror or error)) from None


# ---- signals and streams


def heed_signals(handler):
    """Signals that were ignored from the start, as under nohup, stay so."""
    for number_ in SIGNALS:
        if signal.getsignal(number_) is not signal.SIG_IGN:
            signal.signal(number_, handler)


def interrupted(number_, _):
    heed_signals(signal.SIG_IGN)  # a second one must not keep the first from leaving all in order
    raise KeyboardInterrupt(number_)


@contextlib.contextmanager
def undisturbed():
    """Signals wait until what was begun is done."""
    before = signal.pthread_sigmask(signal.SIG_BLOCK, SIGNALS)
    try:
        yield
    finally:
        signal.pthread_sigmask(signal.SIG_SETMASK, before)


def open_streams():
    """A closed stream's number would go to the next file that is opened, and what is said to the stream into that file."""
    for number_ in range(3):
        try:
            os.fstat(number_)
        except OSError:
            os.open(os.devnull, os.O_RDWR)


def main(arguments):
    heed_signals(interrupted)
    open_streams()
    progress = Progress()
    words, status = None, 0
    try:
        options = understood(arguments[1:])
        if sys.stdout is None:
            raise Stop("standard output is closed")
        if options is None:
            give(HELP)
        else:
            compare(arguments[0], options, progress)
    except Stop as stop:
        words, status = stop, stop.status
    except KeyboardInterrupt as stopped:
        words, status = "stopped; nothing was written", 128 + (stopped.args or (signal.SIGINT,))[0]
    except MemoryError:
        words, status = "out of memory", 1
    except Exception as error:  # nothing that a record holds should lead here
        words, status = fault_told(error), 1
    progress.clear()
    if words is not None:
        say(words)
    return status


def fault_told(error):
    where = error.__traceback__
    while where.tb_next:
        where = where.tb_next
    place = "%s:%d" % (os.path.basename(where.tb_frame.f_code.co_filename), where.tb_lineno)
    return "a fault of its own, %s at %s: %s" % (type(error).__name__, place, shown(str(error), 200))


if __name__ == "__main__":
    sys.exit(main(sys.argv[1:]))
