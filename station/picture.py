"""The picture: OUT for each filter time over the record, as SVG."""

import itertools
import math
from xml.sax.saxutils import escape

from head import TICK
from text import plain, rounded
from times import DAY, HOUR, MINUTE, SECOND

WIDTH, PLOT_WIDTH, PLOT_HEIGHT = 960, 880, 320
STAGE_HEIGHT, TABLE_WIDTH = 120, 190  # of the two plots more that a table has
LEFT, BELOW = 64, 62
RIGHT = LEFT + PLOT_WIDTH
EDGE = WIDTH - 8  # up to which words may go
SIZE, TITLE_SIZE = 12, 15
ROW = 19  # of the legend
GRAVEST_FIRST = ("HI_HI", "LO_LO", "HI", "LO")
RINGED = ("HI_HI", "LO_LO")
COLUMNS = PLOT_WIDTH
COLOURS = ("#1565b0", "#d95f02", "#2e8b3d", "#8a4fa3")
GREY, RED = "#9a9a9a", "#b00020"
BANDS = {"Bad": "#f6d5d5", "no value": "#e3e3ea"}
TIME_STEPS = [SECOND // 10, SECOND // 5, SECOND // 2] + [n * SECOND for n in (1, 2, 5, 10, 15, 30)] + [n * MINUTE for n in (1, 2, 5, 10, 15, 30)] + [
    n * HOUR for n in (1, 2, 3, 6, 12)] + [n * DAY for n in (1, 2, 5, 7, 14, 28, 56, 100, 200, 365, 730, 1825, 3650, 18250, 36500, 365000)]


def clean(text):
    """Text from outside for XML: what XML cannot hold is left out, the rest escaped."""
    return escape("".join(c for c in text if c.isprintable()).encode("utf-8", "replace").decode(), {'"': "&quot;", "'": "&#39;"})


# how wide letters are, in parts of their size, in the widest of the usual fonts; other ASCII letters are 0.64, all else is 1
LETTERS = dict.fromkeys("mMW@%", 1.0) | dict.fromkeys("w+=<>~#^", 0.85) | dict.fromkeys("ABCDEFGHJKLNOPQRSTUVXYZ&", 0.79)
LETTERS |= dict.fromkeys("iIjl.,:;!|' ()[]/\\-ftr`\"", 0.47)
BOLD = 1.12


def wide(text, size=SIZE):
    """How many pixels a text takes, or fewer: no font of the reader's is known here."""
    return size * sum(LETTERS.get(letter, 0.64 if letter.isascii() else 1) for letter in text)


def short(text, room, size=SIZE):
    """A text cut off where its room ends."""
    if wide(text, size) <= room:
        return text
    while text and wide(text + "..", size) > room:
        text = text[:-1]
    return text + ".."


def nice_step(span, most):
    """The smallest of 1, 2, 5, 10 .. that parts a span into so many steps or fewer."""
    power = 10.0 ** math.floor(math.log10(span / most))
    return next(power * factor for factor in (1, 2, 5, 10, 20) if power * factor * most >= span * (1 - 1e-9))


class Scale:
    """The upright axis: ends at whole steps around what has to be seen."""

    def __init__(self, low, high, most=8):
        least = max(abs(low), abs(high)) * 1e-5
        if high - low <= least:
            low, high = low - (least or 1), high + (least or 1)
        self.step = nice_step(high - low, most)
        self.first, self.last = math.floor(low / self.step + 1e-9), math.ceil(high / self.step - 1e-9)

    def up(self, value):
        """From 0 at the low end to 1 at the high one."""
        return (value / self.step - self.first) / (self.last - self.first)

    def marks(self):
        places = max(0, -math.floor(math.log10(self.step) + 1e-9))
        for at in range(self.first, self.last + 1):
            value = at * self.step
            far = max(abs(self.first), abs(self.last)) * self.step >= 1e7 or places > 5
            yield value, "%.6g" % value if far else "%.*f" % (places, value)


class Legend:
    """Signs with their words in lines over the plot; what does not fit in a line begins another."""

    def __init__(self):
        self.parts = []
        self.x = self.indent = LEFT
        self.y = 46

    def line(self, indent=LEFT):
        self.x = self.indent = indent
        self.y += ROW

    def entry(self, words, sign=None, lead=0, width=0, colour="#333"):
        """A sign, which is made for a place, and its words to the right of it."""
        if self.x > self.indent and self.x + lead + wide(words) > EDGE:
            self.line(self.indent)
        if sign:
            self.parts.append(sign(self.x, self.y - 4))
        self.parts.append(text_at(self.x + lead, self.y, short(words, EDGE - self.x - lead), colour))
        self.x += lead + max(width, wide(words) + 14)


def text_at(x, y, words, colour="#333", anchor="start", more=""):
    return '<text x="%.1f" y="%.1f" fill="%s" text-anchor="%s"%s>%s</text>' % (x, y, colour, anchor, more, clean(words))


def line_sign(colour, width, more=""):
    return lambda x, y: '<path d="M%.1f,%.1fh22" stroke="%s" stroke-width="%s"%s/>' % (x, y, colour, width, more)


def band_sign(colour):
    return lambda x, y: '<rect x="%.1f" y="%.1f" width="22" height="11" fill="%s"/>' % (x, y - 6, colour)


def dot(x, y, name, colour, kind, told):
    """The dot of an alarm: full for a high one, hollow for a low one, with a ring where a second limit was passed."""
    form = '<circle class="%s" cx="%.1f" cy="%.1f" r="%s" fill="%s" stroke="%s" stroke-width="%s"><title>%s</title></circle>'
    look = (4.2, colour, "#fff", 1) if name.startswith("HI") else (3.5, "#fff", colour, 1.8)
    ring = '<circle class="ring" cx="%.1f" cy="%.1f" r="6.9" fill="none" stroke="%s" stroke-width="1.4"/>' % (x, y, colour)
    return form % (kind, x, y, *look, clean(told)) + (ring if name in RINGED else "")


class Picture:
    """One plot; with a table the stage has a plot of its own over it, and the table's line one to its right."""

    def __init__(self, scene):
        self.scene, self.table = scene, scene.drawn_table
        self.start = scene.record.times[0]
        self.span = scene.ticks * TICK
        self.recorded, self.stage = scene.recorded.points(), scene.stage.points()
        self.given = [self.given_points(course) for course in scene.courses]
        self.stage_scale = self.found_stage_scale() if self.table else None
        self.scale = self.found_scale()
        # long numbers at the upright axis take their room from the plot
        marks = [words for scale in (self.scale, self.stage_scale) if scale for _, words in scale.marks()]
        self.left = max(LEFT, 29 + max(map(wide, marks)))
        self.right = RIGHT - TABLE_WIDTH - 40 if self.table else RIGHT
        self.edge = self.right + 14 if self.table else WIDTH  # up to which words at the time axis may go
        self.legend = self.made_legend()
        self.upper = self.legend.y + 25  # end of the uppermost plot
        self.top = self.upper + (STAGE_HEIGHT + 24 if self.table else 0)
        self.bottom = self.top + PLOT_HEIGHT
        self.height = self.bottom + BELOW
        self.taken = []  # by words in the plot: left, right and base line of each
        self.parts = []

    @staticmethod
    def given_points(course):
        """OUT's line. Where a tick is as wide as a pixel or wider, the last value is seen to stand for its tick, as the record's is."""
        points = course.line.points()
        if course.line.length <= course.line.columns:
            points.append((course.line.length, *points[-1][1:]))
        return points

    def found_scale(self):
        lines = [self.recorded] + self.given + ([self.table_points()] if self.table else [])
        values = [point[1] for points in lines for point in points]
        low, high = min(values), max(values)
        # a limit that is far from all values is named but not reached for
        room = (high - low) or 1
        seen = [limit for limit in self.scene.limits.values() if low - room <= limit <= high + room]
        low, high = min([low] + seen), max([high] + seen)
        room = (high - low) / 40
        return Scale(max(low - room, 0) if low >= 0 else low - room, high + room)

    def found_stage_scale(self):
        """What the record has before the table; where it has nothing, what the table has."""
        values = [point[1] for point in self.stage] or self.table.xs
        return Scale(min(values), max(values), 4)

    # ---- places

    def across(self, place):
        """Pixels from the left, for microseconds from the start."""
        return self.left + (self.right - self.left) * place / self.span

    def up(self, value):
        return self.bottom - PLOT_HEIGHT * self.scale.up(value)

    # ---- parts

    def add(self, form, *values):
        self.parts.append(form % values)

    def text(self, x, y, words, colour="#333", anchor="start", more=""):
        self.parts.append(text_at(x, y, words, colour, anchor, more))

    @staticmethod
    def way(points):
        """A line through points, as part of a path; points in the middle of a level stretch are left out."""
        kept = []
        for point in points:
            point = ("%.1f" % point[0], "%.1f" % point[1])
            if len(kept) > 1 and kept[-1][1] == kept[-2][1] == point[1]:
                kept[-1] = point
            elif not kept or kept[-1] != point:
                kept.append(point)
        return "M" + " ".join(",".join(point) for point in kept) + ("h.1" if len(kept) == 1 else "")

    def path(self, name, ways, colour, width, more=""):
        """All stretches of a line in one path, which keeps the file small."""
        if ways:
            self.add('<path class="%s" d="%s" fill="none" stroke="%s" stroke-width="%s"%s/>', name, "".join(ways), colour, width, more)

    def draw(self):
        scene = self.scene
        self.add('<svg xmlns="http://www.w3.org/2000/svg" viewBox="0 0 %d %d" width="%d" height="%d" role="img" aria-labelledby="title desc" '
                 'font-family="Helvetica, Arial, sans-serif" font-size="%d" stroke-linejoin="round" stroke-linecap="round">',
                 WIDTH, self.height, WIDTH, self.height, SIZE)
        self.add('<title id="title">%s</title>', clean(scene.title))
        self.add('<desc id="desc">%s</desc>', clean(" ".join(line + "." for line in scene.told)))
        self.add('<rect width="%d" height="%d" fill="#fff"/>', WIDTH, self.height)
        self.bands()
        self.upright_axis()
        self.time_axis()
        if self.table:
            self.stage_plot()
            self.table_plot()
        self.recorded_line("record", self.recorded, self.up)
        for points, colour in zip(self.given, COLOURS):
            self.given_line(points, colour)
        self.limits()
        for course, colour in zip(scene.courses, COLOURS):
            self.rises(course, colour)
        self.text(LEFT, 24, short(scene.title, EDGE - LEFT, BOLD * TITLE_SIZE), "#111", more=' font-size="%d" font-weight="bold"' % TITLE_SIZE)
        self.parts += self.legend.parts
        self.add("</svg>")
        return "\n".join(self.parts) + "\n"

    def bands(self):
        for kind, colour in BANDS.items():
            drawn = []
            for begin, end in ((begin, end) for name, begin, end in self.scene.spells.list if name == kind):
                x, until = self.across(begin), min(self.across(end), self.right)
                if drawn and x - drawn[-1][1] < 0.7:  # nearer than the eye can part
                    drawn[-1][1] = until
                else:
                    drawn.append([x, until])
            if drawn:
                self.add('<g class="%s" fill="%s">', kind.replace(" ", "-"), colour)
                for x, until in drawn:
                    self.add('<rect x="%.1f" y="%d" width="%.1f" height="%d"/>', x, self.upper, max(until - x, 0.8), self.bottom - self.upper)
                self.add("</g>")
            for x, until in drawn:
                if until - x > wide(kind) + 4:
                    self.taken.append(((x + until - wide(kind)) / 2, (x + until + wide(kind)) / 2, self.top + 14))
                    self.text((x + until) / 2, self.top + 14, kind, "#777", "middle")

    def upright_axis(self):
        for value, words in self.scale.marks():
            self.add('<path d="M%.1f,%.1fH%d" stroke="#e2e2e2"/>', self.left, self.up(value), self.right)
            self.text(self.left - 7, self.up(value) + 4, words, anchor="end")
        label = self.axis_label(PLOT_HEIGHT)
        if label:
            self.text(0, 0, label, anchor="middle", more=' transform="translate(15,%.1f) rotate(-90)"' % (self.top + PLOT_HEIGHT / 2))

    def axis_label(self, room):
        """Name and unit. Where there is no room for both the name is cut off: without the unit the axis says little."""
        name, unit = self.scene.axis_name, self.scene.options.unit
        if not name or not unit:
            return short(name or unit, room)
        unit = " [%s]" % short(unit, room / 2)
        return short(name, room - wide(unit)) + unit

    # ---- the axis of time

    def time_axis(self):
        form = self.scene.record.form
        self.add('<path d="M%.1f,%dV%dH%d" fill="none" stroke="#666"/>', self.left, self.top, self.bottom, self.right)
        if form.kind == "seconds":
            step, words = self.step_of_seconds(), lambda time: plain(time / SECOND)
        else:
            step = next((step for step in TIME_STEPS if self.span / step <= self.most_marks(step)), TIME_STEPS[-1])
            words = self.time_words(form, step)
        until = 0
        for time in range(-(-self.start // step) * step, self.start + self.span + 1, step):
            x = self.across(time - self.start)
            self.add('<path d="M%.1f,%dv5" stroke="#666"/>', x, self.bottom)
            half = wide(words(time)) / 2
            middle = min(x, self.edge - 2 - half)
            if middle - half > until:
                self.text(middle, self.bottom + 18, words(time), anchor="middle")
                until = middle + half + 4
        if form.kind != "seconds" and step < DAY:
            self.days(form)
        name = self.scene.record.time_name + (", seconds" if form.kind == "seconds" else "") + (" (%s)" % form.zone if form.zone else "")
        self.text((LEFT + self.right) / 2, self.bottom + BELOW - 10, short(name, self.right - LEFT), anchor="middle")

    def step_of_seconds(self):
        """As many marks as fit beside each other, 13 at most."""
        widest = max(wide(plain(time // SECOND)) for time in (self.start, self.start + self.span)) + 30
        most = max(2, min(13, int((self.right - self.left) / widest)))
        return max(1, round(nice_step(self.span / SECOND, most) * SECOND))

    def most_marks(self, step):
        """So many marks of a step fit beside each other with their words."""
        return (self.right - self.left) / (62 if MINUTE <= step < DAY else 92)

    def time_words(self, form, step):
        if step >= DAY:
            return form.date if form.kind == "date" else lambda time: "day %d" % (time // DAY - self.start // DAY + 1)
        return lambda time: form.clock(time, 1 if step < SECOND else 0, step < MINUTE)

    def days(self, form):
        """A line at each midnight, and under the times which day it is."""
        name = form.date if form.kind == "date" else lambda time: "day %d" % (time // DAY - self.start // DAY + 1)
        midnights = list(range(-(-self.start // DAY) * DAY, self.start + self.span, DAY))
        places = [(self.across(time - self.start), name(time)) for time in midnights]
        for x, _ in places:
            self.add('<path class="midnight" d="M%.1f,%dV%d" stroke="#bbb"/>', x, self.upper, self.bottom + 24)
        if form.kind == "date" and (not places or places[0][0] > self.left + 84):
            places.insert(0, (self.left, name(self.start)))
        until = 0
        for x, words in places:
            if x >= until and x + 3 + wide(words) < self.edge:
                self.text(x + 3, self.bottom + 34, words, "#555")
                until = x + wide(words) + 8

    # ---- lines

    def recorded_line(self, name, points, up):
        """The record, with a break wherever it has no usable value."""
        stretches = itertools.groupby(points, lambda point: point[2])
        self.path(name, [self.way([(self.across(place), up(value)) for place, value, _ in run]) for _, run in stretches], GREY, 0.9)

    def given_line(self, points, colour):
        """OUT, solid where it is Good; a stretch with an end that is not is dotted."""
        places = [(self.across(tick * TICK), self.up(value), good) for tick, value, good in points]
        ways = {True: [], False: []}
        for good, run in itertools.groupby(range(1, len(places)), lambda at: places[at - 1][2] and places[at][2]):
            run = list(run)
            ways[good].append(self.way(places[run[0] - 1 : run[-1] + 1]))
        self.path("good", ways[True], colour, 1.9)
        self.path("not-good", ways[False], colour, 1.9, ' stroke-dasharray="0.1 4.2"')

    def limits(self):
        for name, limit in self.scene.limits.items():
            if not self.in_sight(limit):
                continue
            y = self.up(limit)
            self.add('<path class="limit" d="M%.1f,%.1fH%d" stroke="%s" stroke-width="1" stroke-dasharray="7 5"/>', self.left, y, self.right, RED)
            words = "%s %s" % (name, rounded(limit))
            self.text(*self.free_place(y, wide(words)), words, RED, "end", ' stroke="#fff" stroke-width="3" paint-order="stroke"')

    def free_place(self, y, width):
        """Where the name of a line ends: at its right end over the line or else under it, or further left, where no words are yet."""
        for right in range(self.right - 6, int(self.left + width), -40):
            for base in (y - 5, y + 14):
                others = (at for at in self.taken if abs(at[2] - base) < SIZE + 2 and at[0] < right + 6 and right - width - 6 < at[1])
                if self.top - 8 < base < self.bottom and not any(others):
                    self.taken.append((right - width, right, base))
                    return right, base
        return self.right - 6, y - 5

    def in_sight(self, value):
        return -1e-9 <= self.scale.up(value) <= 1 + 1e-9

    def rises(self, course, colour):
        for name, alarm in course.alarms.items():
            for rise, _, value in alarm.times:
                told = "%s rose %s" % (name, self.scene.tick_text(rise))
                self.parts.append(dot(self.across(rise * TICK), self.up(value), name, colour, "rise", told))

    # ---- the plots of a table

    def stage_plot(self):
        """The record as it is before the table."""
        bottom = self.upper + STAGE_HEIGHT
        up = lambda value: bottom - STAGE_HEIGHT * self.stage_scale.up(value)
        for value, words in self.stage_scale.marks():
            self.add('<path d="M%.1f,%.1fH%d" stroke="#e2e2e2"/>', self.left, up(value), self.right)
            self.text(self.left - 7, up(value) + 4, words, anchor="end")
        self.add('<path d="M%.1f,%dV%dH%d" fill="none" stroke="#666"/>', self.left, self.upper, bottom, self.right)
        self.text(0, 0, short(self.scene.stage_name, STAGE_HEIGHT), anchor="middle",
            more=' transform="translate(15,%.1f) rotate(-90)"' % (self.upper + STAGE_HEIGHT / 2))
        self.recorded_line("stage", self.stage, up)

    def table_points(self):
        """(x, OUT) of the table's line over the stages that the record has: its pairs, and the ends."""
        scale = self.stage_scale
        low, high = scale.first * scale.step, scale.last * scale.step
        xs = [low] + [x for x in self.table.xs if low < x < high] + [high]
        return [(x, self.scene.as_out(x)) for x in xs]

    def table_plot(self):
        """OUT over stage, with the upright axis of the plot to its left."""
        scale, left = self.stage_scale, RIGHT - TABLE_WIDTH
        across = lambda x: left + TABLE_WIDTH * scale.up(x)
        for value, _ in self.scale.marks():
            self.add('<path d="M%d,%.1fH%d" stroke="#e2e2e2"/>', left, self.up(value), RIGHT)
        self.add('<path d="M%d,%dV%dH%d" fill="none" stroke="#666"/>', left, self.top, self.bottom, RIGHT)
        until = self.edge
        for value, words in scale.marks():
            x, half = across(value), wide(words) / 2
            self.add('<path d="M%.1f,%dv5" stroke="#666"/>', x, self.bottom)
            middle = min(x, WIDTH - 2 - half)
            if middle - half > until:
                self.text(middle, self.bottom + 18, words, anchor="middle")
                until = middle + half + 4
        points = [(across(x), self.up(y)) for x, y in self.table_points()]
        self.path("table", [self.way(points)], "#444", 1.4)
        for x, y in points:
            if any(abs(across(pair) - x) < 0.05 for pair in self.table.xs):
                self.add('<circle class="pair" cx="%.1f" cy="%.1f" r="2.2" fill="#444"/>', x, y)
        self.text(left + TABLE_WIDTH / 2, self.top - 8, short(self.table.name, TABLE_WIDTH), "#555", "middle")
        self.text(left + TABLE_WIDTH / 2, self.bottom + BELOW - 10, short(self.scene.stage_name, TABLE_WIDTH), anchor="middle")

    # ---- the legend

    def made_legend(self):
        scene, legend = self.scene, Legend()
        legend.entry(scene.record_words, line_sign(GREY, 1.2), 28)
        if any(course.not_good for course in scene.courses):
            legend.entry("OUT not Good", line_sign("#444", 2, ' stroke-dasharray="0.1 4.2"'), 28)
        for kind, words in (("Bad", "input Bad"), ("no value", "input without a value")):
            if any(spell[0] == kind for spell in scene.spells.list):
                legend.entry(words, band_sign(BANDS[kind]), 28)
        for name, limit in scene.limits.items():
            if not self.in_sight(limit):
                legend.entry("%s %s is out of the picture" % (name, rounded(limit)))
        for course, colour in zip(scene.courses, COLOURS):
            legend.line()
            legend.entry("OUT, PV_FTIME " + course.words, line_sign(colour, 2.4), 28, 190)
            legend.indent = legend.x
            self.rises_told(legend, course, colour)
        return legend

    def rises_told(self, legend, course, colour):
        """The first rise of each alarm, the gravest first, and how many rises there are beside these."""
        rose = [name for name in GRAVEST_FIRST if course.alarms[name].count]
        for name in rose:
            words = "%s %s" % (name, self.scene.short_tick_text(course.alarms[name].times[0][0]))
            legend.entry(words, lambda x, y: dot(x + 7, y, name, colour, "sign", words), 18)
        more = sum(alarm.count for alarm in course.alarms.values()) - len(rose)
        if more or not rose:
            legend.entry("and {:,} more".format(more) if more else "no alarm", colour="#777")
