"""Words and numbers as people and files write them, and the one way in which the command stops."""

import math
import re
import struct

NUMBER = re.compile(r"[+-]?(?:[0-9]+(?:[.,][0-9]*)?|[.,][0-9]+)(?:[eE][+-]?[0-9]+)?")


class Stop(Exception):
    """What the command cannot go on with: its one line, and the status it ends with."""

    def __init__(self, words, status=1):
        super().__init__(words)
        self.status = status


def read_again(text):
    """A word of the command with its letters, where the locale took them for single bytes. Not for paths, which the locale takes back."""
    try:
        return text.encode("utf-8", "surrogateescape").decode("utf-8", "surrogateescape")
    except UnicodeEncodeError:
        return text


def shown(text, most=60):
    """Text from outside as part of one line: what cannot be printed as an escape, the rest of a long one left out."""
    text = "".join(map(shown_letter, read_again(text)[: most + 1]))
    return text if len(text) <= most else text[: most - 2] + ".."


def shown_letter(letter):
    if letter.isprintable() or "\udca0" <= letter <= "\udcff":  # the latter is a byte that is no letter, from the name of a file
        return letter
    if "\udc80" <= letter <= "\udc9f":  # such a byte that some terminals take as a command
        return "\\x%02x" % (ord(letter) & 0xFF)
    return letter.encode("unicode_escape", "backslashreplace").decode()


def number(text):
    """A number with decimal point or comma, as the double nearest to it; None where the text is no such number."""
    return float(text.replace(",", ".")) if NUMBER.fullmatch(text) else None


def single(value):
    """The bits of the single nearest to a value; OverflowError where that is beyond all finite singles."""
    return struct.unpack(">I", struct.pack(">f", value))[0]


def of_single(bits):
    return struct.unpack(">f", struct.pack(">I", bits))[0]


def plain(value):
    """A double as short as people write it: 8 and not 8.0."""
    return "%.15g" % (value + 0.0) if value else "0"


def plain_single(value):
    """A value that a single holds, in eight digits where these are enough to find the same single again, else in nine."""
    text = "%.8g" % value
    return text if struct.unpack("f", struct.pack("f", float(text)))[0] == value else "%.9g" % value


def rounded(value):
    """For the eye: four digits behind the first."""
    return "%.5g" % value if math.isfinite(value) else str(value)


def many(count, thing):
    """Thousands by comma, and the plural."""
    return "{:,} {}{}".format(count, thing, "" if count == 1 else "s")
