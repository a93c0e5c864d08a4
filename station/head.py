"""The head: what is sent to the program `replay` for a record, and what is made of its answers.

The form of the calls and answers is in docs/call-script.md, the parameters in docs/parameters.md.
"""

import itertools
import math
import re
import struct
import subprocess
import tempfile
import threading

from record import GOOD
from text import Stop, many, number, shown, single

TICK = 100_000  # microseconds: the head has no clock but its ticks, and PV_FTIME counts ten of them as a second
AIN = 1
NO_NUMBER = 0x7FC00000

# AIN's parameters: number, what its words are, and what is allowed as docs/parameters.md has it
PARAMETERS = {
    "ST_REV": (1, "code", "none"),
    "TARGET_MODE": (5, "code", "0x80, 0x10 or 0x08"),
    "ACTUAL_MODE": (6, "code", "none"),
    "ALARMS": (7, "code", "none"),
    "OUT": (10, "float code", "float, finite; status 0 to 255"),
    "PV_SCALE": (11, "float float", "low, high: floats, finite, unequal"),
    "OUT_SCALE": (12, "float float", "low, high: floats, finite, unequal"),
    "LIN_TYPE": (13, "code", "0 to 1"),
    "PV_FTIME": (16, "float", "float, 0 to 3,600"),
    "FSAFE_TYPE": (17, "code", "0 to 2"),
    "FSAFE_VALUE": (18, "float", "float, finite"),
    "ALARM_HYS": (19, "float", "float, finite, at least 0"),
    "HI_HI_LIM": (21, "float", "float, finite or +infinity"),
    "HI_LIM": (23, "float", "float, finite or +infinity"),
    "LO_LIM": (25, "float", "float, finite or −infinity"),
    "LO_LO_LIM": (27, "float", "float, finite or −infinity"),
}
ALARM_NAMES = {1: "HI_HI", 2: "HI", 4: "LO", 8: "LO_LO"}
LIMITS = ("HI_HI_LIM", "HI_LIM", "LO_LIM", "LO_LO_LIM")

# the grounds of refusal that a write, a read or a load can meet
REFUSALS = {
    1: "no such block",
    2: "no such parameter",
    3: "it can only be read",
    4: "writes are locked",
    5: "words not allowed",
    6: "TARGET_MODE is not Man",
    9: "not 2 to 21 pairs",
    10: "x do not rise, or a number is not finite",
}

OUT_READ = b"read %d %d" % (AIN, PARAMETERS["OUT"][0])
ALARMS_READ = b"read %d %d" % (AIN, PARAMETERS["ALARMS"][0])
LINES = 3  # of each tick: the tick and two reads
ORDERS = re.compile(rb"(?:position 0x[0-9A-F]{8}|safe|rest) (?:position [01]|safe|rest)\n")  # AO's, then DO's
OUTS = re.compile(rb"(?:words 0x[0-9A-F]{8} 0x000000[0-9A-F]{2}\n)*")
ALARMS = re.compile(rb"words 0x0000000([0-9A-F]) 0x00000000\n")


def tick_line(value, status, rate=0.0, rate_status=GOOD, contact=0, contact_status=GOOD, fault=0):
    """A tick with what AIN, TOT and DI are fed, NaN being no value."""
    return b"tick %d 0x%08X 0x%02X 0x%08X 0x%02X %d 0x%02X" % (fault, fed_bits(value), status & 0xFF, fed_bits(rate), rate_status & 0xFF, contact,
        contact_status & 0xFF)


def telegram_line(input_, value, status=GOOD):
    """A telegram to a setpoint input."""
    return "telegram %d %s 0x%02X" % (input_, " ".join("0x%02X" % byte for byte in struct.pack(">f", value)), status)


def fed_bits(value):
    return NO_NUMBER if value != value else single(value)


def tick_lines(value, status):
    """The lines of one tick: OUT and the alarms are read after every one. TOT gets no flow and DI the value 0, and nothing of them is looked at."""
    return b"%s\n%s\n%s\n" % (tick_line(value, status), OUT_READ, ALARMS_READ)


# ---- writes


def word(kind, text):
    """The word of one value of a parameter, or None where the text is no such value."""
    if kind == "code":
        try:
            value = int(text, 0)
        except ValueError:
            return None
        return value if 0 <= value < 1 << 32 else None
    value = number(text)
    if value is None and text.lower().lstrip("+-") in ("inf", "infinity"):
        value = -math.inf if text.startswith("-") else math.inf
    try:
        return None if value is None else single(value)
    except OverflowError:
        return None


class Write:
    """A write of a parameter of AIN: its line, and how it was asked for."""

    def __init__(self, name, texts):
        name = name.upper()
        if name not in PARAMETERS:
            raise Stop("--set %s: AIN has no such parameter; it has %s" % (shown(name), ", ".join(PARAMETERS)), 2)
        number_, kinds, self.allowed = PARAMETERS[name]
        self.name, self.asked = name, " ".join([name] + texts)
        self.words = []
        for kind, text in zip(kinds.split(), texts):
            value = word(kind, text)
            if value is None:
                wanted = "whole number of 32 bits" if kind == "code" else "number that a single can hold"
                raise Stop("%s: %s is no %s" % (name, shown(text), wanted), 2)
            self.words.append(value)
        self.line = "write %d %d %s" % (AIN, number_, " ".join("0x%08X" % value if value > 255 else str(value) for value in (self.words + [0])[:2]))
        self.call = self.line

    def hint(self, ground):
        """More about a refusal: what is allowed."""
        if ground != 5:
            return ""
        return ", " + self.allowed.replace("float, ", "") + ("; 1 wants a table, --table FILE" if (self.name, self.words) == ("LIN_TYPE", [1]) else "")

    @staticmethod
    def count(name):
        """How many values a parameter has."""
        return len(PARAMETERS[name.upper()][1].split()) if name.upper() in PARAMETERS else 1


def judge_write(answer, write):
    """Stops unless a write, or the load of a table, was accepted."""
    if answer == b"ok\n":
        return
    refused = re.fullmatch(rb"refused ([0-9]{1,9})\n", answer)
    if not refused:
        raise not_understood(answer, write.call, write.asked)
    ground = int(refused[1])
    meaning = REFUSALS.get(ground, "a ground that is not known here") + write.hint(ground)
    raise Stop("the head refused %s (%s) as %d: %s" % (write.asked, write.call, ground, meaning))


def not_understood(answer, line, purpose):
    text = answer.decode("latin-1").rstrip("\n")
    if text == "error" or text.startswith("refused "):
        return Stop("the head answered %s to %s (%s)" % (shown(text), line, purpose))
    return Stop("replay answered %s to %s (%s), which is no answer to it" % (shown(text) or "nothing", line, purpose))


# ---- what the head is fed


def pieces(record, usual, gap):
    """What stands from when to when, in turn: (from, to, value, status, row), row being None in a gap of the record.

    A row's value stands until the next row. Where that is more than `gap` later (None: never), it stands for one usual step, and
    from there on the head gets no number: a value that is only held must not pass as Good.
    """
    times, values, statuses = record.times, record.values, record.statuses
    for row in range(len(times) - 1):
        start, end = times[row], times[row + 1]
        if gap is not None and end - start > gap:
            stands = start + min(usual, gap)
            yield start, stands, values[row], statuses[row], row
            yield stands, end, math.nan, GOOD, None
        else:
            yield start, end, values[row], statuses[row], row
    # one tick sees the last row
    yield times[-1], times[-1] + TICK, values[-1], statuses[-1], len(times) - 1


def ticks_before(time, start):
    """How many ticks there are before a time, the first one being at the start."""
    return -((start - time) // TICK)


def count_ticks(record):
    return ticks_before(record.times[-1] + TICK, record.times[0])


# ---- one head


class Head:
    """A replay of its own for one filter time. A thread feeds it; its answers are taken in chunks."""

    def __init__(self, program, writes, fed):
        self.writes, self.fed = writes, fed
        self.answers = 0
        self.ticks = 0
        self.program, self.process = program, None
        self.fault = None  # what kept the feeder from its work
        self.feeder = threading.Thread(target=self.feed, daemon=True)

    def start(self):
        try:
            self.said = tempfile.TemporaryFile()
            self.process = subprocess.Popen([self.program], stdin=subprocess.PIPE, stdout=subprocess.PIPE, stderr=self.said, bufsize=1 << 18)
        except OSError as error:
            raise Stop("replay cannot be started: %s" % (error.strerror or error)) from None
        try:
            self.feeder.start()
        except RuntimeError as error:
            raise Stop("replay cannot be fed: %s" % error) from None

    def feed(self):
        to = self.process.stdin
        try:
            to.write(b"factory\n" + b"".join(write.line.encode() + b"\n" for write in self.writes))
            start = None
            for begin, end, value, status, _ in self.fed():
                start = begin if start is None else start
                count = ticks_before(end, start) - ticks_before(begin, start)
                lines = tick_lines(value, status)
                for done in range(0, count, 4096):
                    to.write(lines * min(4096, count - done))
        except OSError:
            pass  # it has ended or was stopped: whoever takes its answers says so
        except BaseException as error:  # for want of memory, say; a thread's own end would be a traceback
            self.fault = error
        finally:
            closed(to)

    def begin(self):
        """Takes the answers to the writes."""
        answers = list(itertools.islice(self.process.stdout, 1 + len(self.writes)))
        if answers and answers[0] != b"ok\n":
            raise not_understood(answers[0], "factory", "a new head")
        for answer, write in zip(answers[1:], self.writes):
            judge_write(answer, write)
        self.answers = len(answers)
        if len(answers) < 1 + len(self.writes):
            raise self.ended_early()

    def take(self, count):
        """The answers to the next ticks: OUT's values, its statuses as two hexadecimal digits each, and the alarms' lines."""
        lines = list(itertools.islice(self.process.stdout, LINES * count))
        self.answers += len(lines)
        orders, outs, alarms = lines[::LINES], lines[1::LINES], lines[2::LINES]
        for answers, form, call in ((orders, ORDERS, b"tick"), (alarms, ALARMS, ALARMS_READ)):
            for answer in set(answers):
                if not form.fullmatch(answer):
                    raise self.wrong(answers, answer, form, call)
        if not OUTS.fullmatch(b"".join(outs)):
            raise self.wrong(outs, None, re.compile(OUTS.pattern[3:-2]), OUT_READ)
        if len(lines) < LINES * count:
            raise self.ended_early()
        values = struct.unpack(">%df" % count, bytes.fromhex(b"".join([line[8:16] for line in outs]).decode()))
        self.ticks += count
        return values, [line[25:27] for line in outs], alarms

    def wrong(self, answers, answer, form, call):
        at = answers.index(answer) if answer is not None else next(at for at, line in enumerate(answers) if not form.fullmatch(line))
        if not answers[at].endswith(b"\n"):
            return self.ended_early()
        return not_understood(answers[at], call.decode(), "tick {:,}".format(self.ticks + at + 1))

    def finish(self):
        """Stops unless replay ended well and with the last answer."""
        more = self.process.stdout.read(1)
        if more:
            raise Stop("replay gave more answers than there were calls")
        self.process.wait()
        self.feeder.join()
        if self.process.returncode or self.words_said():
            raise Stop("replay ended %s%s" % (self.how_ended(), self.words_said()))

    def ended_early(self):
        try:
            self.process.wait(5)
        except subprocess.TimeoutExpired:
            self.process.kill()
            self.process.wait()
        if self.fault is not None:
            return self.fault
        answers = many(self.answers, "answer")
        return Stop("replay ended %s after %s, before all calls were answered%s" % (self.how_ended(), answers, self.words_said()))

    def how_ended(self):
        code = self.process.returncode
        return "by signal %d" % -code if code < 0 else "with status %d" % code

    def words_said(self):
        self.said.seek(0)
        text = self.said.read(400).decode("utf-8", "replace").strip()
        return ", and said: " + shown(text, 200) if text else ""

    def stop(self):
        """Ends it, whatever it is doing, if it was started."""
        if self.process is None:
            return
        if self.process.poll() is None:
            self.process.kill()
        self.process.wait()
        if self.feeder.ident is not None:
            self.feeder.join()
        closed(self.process.stdin)
        self.process.stdout.close()
        self.said.close()


def closed(pipe):
    """Closes a pipe whose reader may be gone."""
    try:
        pipe.close()
    except OSError:
        pass


def alarm_mask(line):
    return int(ALARMS.fullmatch(line)[1], 16)


def alarm_text(mask):
    return " ".join(name for bit, name in ALARM_NAMES.items() if mask & bit)
