"""Times as records write them: read to whole microseconds, and written in the form of the record."""

import datetime
import re

from text import Stop, shown

SECOND = 1_000_000
MINUTE = 60 * SECOND
HOUR = 60 * MINUTE
DAY = 24 * HOUR
LAST_DAY = datetime.date.max.toordinal()  # a tick may come after the last time of a record

SECONDS = re.compile(r"(-?)([0-9]{1,10})(?:[.,]([0-9]+))?")
CLOCK = r"([0-9]{1,2}):([0-9]{2})(?::([0-9]{2})(?:[.,]([0-9]+))?)?"
ZONE = r"(?: ?(Z|UTC|[+-][0-9]{2}(?::?[0-9]{2})?))?"
TIME_OF_DAY = re.compile(CLOCK)
YEAR_FIRST = r"[0-9]{4}-[0-9]{1,2}-[0-9]{1,2}|[0-9]{4}/[0-9]{1,2}/[0-9]{1,2}"
YEAR_LAST = r"[0-9]{1,2}\.[0-9]{1,2}\.[0-9]{4}|[0-9]{1,2}/[0-9]{1,2}/[0-9]{4}|[0-9]{1,2}-[0-9]{1,2}-[0-9]{4}"
DATED = re.compile("(" + YEAR_FIRST + "|" + YEAR_LAST + ")(?:(?: +|T)" + CLOCK + ZONE + ")?")
UNCLEAR_DATE = re.compile(r"[0-9]{1,2}([/-])[0-9]{1,2}\1([0-9]{2,4})(?:[ T].*)?")
HALF_OF_DAY = re.compile(r"(?:.*[^0-9:.])?([0-9]{1,2})((?::[0-9]{2}){0,2}(?:\.[0-9]+)?) ?([ap])\.?m\.?", re.IGNORECASE)
UNMARKED = re.compile(r"((?:19|20)[0-9]{2})([0-9]{2})([0-9]{2})(?:[ T]?([0-9]{2})(?::?([0-9]{2})(?::?([0-9]{2}))?)?Z?)?")


def fraction(digits, text):
    """Digits behind the point, as microseconds."""
    if digits is None:
        return 0
    if digits[6:].strip("0"):
        raise Stop("%s is finer than a microsecond" % shown(text))
    return int(digits[:6].ljust(6, "0"))


def of_clock(groups, text):
    hours, minutes, seconds = int(groups[0]), int(groups[1]), int(groups[2] or 0)
    if hours > 23 or minutes > 59 or seconds > 59:
        raise Stop("%s is no time of day, 00:00 to 23:59:59" % shown(text))
    return hours * HOUR + minutes * MINUTE + seconds * SECOND + fraction(groups[3], text)


def style_of(date, order):
    """Which part of a date comes first, and the character between them."""
    if date[:4].isdigit():
        return "year" + date[4]
    if "." in date:
        return "day."
    return (order or "?") + ("/" if "/" in date else "-")


def day_number(text, style):
    parts = [int(part) for part in re.split("[-/.]", text)]
    if style.startswith("year"):
        year, month, day = parts
    else:
        day, month, year = parts if style.startswith("day") else (parts[1], parts[0], parts[2])
    try:
        return datetime.date(year, month, day).toordinal()
    except ValueError:
        first = ", the %s being first" % style[:-1] if style[-1] != "." and not style.startswith("year") else ""
        raise Stop("there is no day %s%s" % (shown(text), first)) from None


def with_marks(text):
    """What to write for a date that is one number, as 20260714 or 202607141604; None where the text is no such date."""
    found = UNMARKED.fullmatch(text)
    if not found:
        return None
    try:
        parts = [int(part or 0) for part in found.groups()]
        moment = datetime.datetime(*parts)
    except ValueError:
        return None
    return moment.strftime("%Y-%m-%d" + (" %H:%M" if found[4] else "") + (":%S" if found[6] else "") + ("Z" if text.endswith("Z") else ""))


def in_24_hours(found):
    """A time with am or pm as it is to be written; hours beyond 12 are so already."""
    hours = int(found[1])
    if hours <= 12:
        hours = hours % 12 + (12 if found[3] in "pP" else 0)
    return "%02d%s" % (hours, found[2] or ":00")


def unread(text, order):
    if not text:
        return Stop("no time")
    found = UNCLEAR_DATE.fullmatch(text)
    if found and len(found[2]) == 4 and order is None:
        return Stop("%s may have the day or the month first; write 2026-07-14, or say --day-first or --month-first" % shown(text))
    if found and len(found[2]) < 4:
        return Stop("%s: a year has four digits; write 2026-07-14" % shown(text))
    found = HALF_OF_DAY.fullmatch(text)
    if found:
        return Stop("%s: write hours from 0 to 23, without am and pm, here %s" % (shown(text), in_24_hours(found)))
    marked = with_marks(text)
    if marked:
        return Stop("%s is no time but a date without marks; write %s" % (shown(text), marked))
    return Stop("%s is no time; write 16:04, 16:04:05.3, 2026-07-14 16:04:05 or seconds" % shown(text))


def decimals(microseconds):
    """How many decimals a number of microseconds needs as seconds."""
    count, step = 0, SECOND
    while microseconds % step:
        count, step = count + 1, step // 10
    return count


class Form:
    """How a record writes its times. The first time read settles it; one in another form is named."""

    def __init__(self, order=None):
        self.order = order  # of 07/08/2026: "day" or "month" first; None where nobody said
        self.kind = None  # "seconds", "clock", "date"
        self.style = ""  # of a date: its first part, and the character between its parts
        self.zone = ""
        self.timed = True  # a date with a time of day
        self.joined = " "
        self.has_seconds = False
        self.dates = {}
        self.day = 0
        self.before = None

    def read(self, text):
        """The time in microseconds: of its day, from the first day of all, or from the record's own zero."""
        found = TIME_OF_DAY.fullmatch(text)
        if found:
            self.settle("clock", "", "", True)
            self.has_seconds |= found[3] is not None
            return self.past_midnight(of_clock(found.groups(), text))
        found = DATED.fullmatch(text)
        if found:
            date, zone, timed = found[1], found[6] or "", found[2] is not None
            style = style_of(date, self.order)
            if style.startswith("?"):
                raise unread(text, None)
            self.settle("date", style, "Z" if zone == "UTC" else zone, timed)
            self.has_seconds |= found[4] is not None
            self.joined = "T" if "T" in text else " "
            if date not in self.dates:
                self.dates = {date: day_number(date, style) * DAY}
            return self.dates[date] + (of_clock(found.groups()[1:5], text) if timed else 0)
        found = SECONDS.fullmatch(text)
        # 20260714 is a date if a record begins with it, and one of many numbers if it comes later
        if found and (self.kind is not None or not with_marks(text)):
            self.settle("seconds", "", "", True)
            whole = int(found[2]) * SECOND + fraction(found[3], text)
            return -whole if found[1] else whole
        raise unread(text, self.order)

    def settle(self, kind, style, zone, timed):
        if self.kind is None:
            self.kind, self.style, self.zone, self.timed = kind, style, zone, timed
        elif kind != self.kind:
            names = {"clock": "a time of day alone", "date": "a date", "seconds": "seconds"}
            raise Stop("%s, where the rows before have %s" % (names[kind], names[self.kind]))
        elif zone != self.zone:
            raise Stop("%s, where the rows before have %s" % ("zone " + zone if zone else "no zone", "zone " + self.zone if self.zone else "none"))
        elif style != self.style:
            raise Stop("a date in another form than in the rows before")
        elif timed != self.timed:
            raise Stop("a date %s a time of day, where the rows before have %s" % (("with", "none") if timed else ("without", "one")))

    def past_midnight(self, clock):
        # a clock without a date that goes back by more than half a day has passed midnight
        if self.before is not None and self.before - clock > DAY // 2:
            self.day += DAY
        self.before = clock
        return self.day + clock

    def date(self, time):
        day = datetime.date.fromordinal(min(time // DAY, LAST_DAY))
        year, month, day = "%04d" % day.year, "%02d" % day.month, "%02d" % day.day
        orders = {"year": (year, month, day), "day": (day, month, year), "month": (month, day, year)}
        return self.style[-1].join(orders[self.style[:-1]])

    def clock(self, time, places=0, seconds=True):
        rest = time % DAY
        text = "%02d:%02d" % (rest // HOUR, rest % HOUR // MINUTE)
        if seconds or places:
            text += ":%02d" % (rest % MINUTE // SECOND)
        return text + (".%06d" % (rest % SECOND))[: places + 1] if places else text

    def text(self, time, places=0, seconds=True):
        """A time as the record writes them, with so many decimals."""
        if self.kind == "seconds":
            whole, rest = divmod(abs(time), SECOND)
            return ("-" if time < 0 else "") + str(whole) + ((".%06d" % rest)[: places + 1] if places else "")
        clock = self.clock(time, places, seconds)
        return clock if self.kind == "clock" else self.date(time) + self.joined + clock + self.zone
