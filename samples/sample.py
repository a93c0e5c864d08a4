"""What the samples with a picture of their own share: remarks in a call script, the head's answers to it, and the command."""

import os
import subprocess
import sys
import textwrap

HERE = os.path.dirname(os.path.abspath(__file__))
sys.path.insert(0, os.path.join(HERE, "../station"))

from text import Stop, shown
from times import SECOND, Form

FORM = Form()
FORM.kind = "clock"


def clock(start, second, places=0):
    """The time of day some seconds after a start."""
    return FORM.clock(start + round(second * SECOND), places)


def remark(words):
    print(textwrap.fill(words, 130, initial_indent="# ", subsequent_indent="# ", break_on_hyphens=False))


def print_script(length, time, events, calls):
    """The script second by second: what happens, as remarks with its calls, then the calls of every second."""
    for second in range(length):
        happens = [event for event in events if event[0] == second]
        if second % 10 == 0 and not happens:
            remark(time(second))
        for _, words, more in happens:
            remark("%s %s" % (time(second), words))
            print("".join(call + "\n" for call in more), end="")
        print("\n".join(calls(second)))


def answered(calls):
    """The head's answer to each call."""
    run = subprocess.run([os.path.join(HERE, "../run"), "-"], input="\n".join(calls), stdout=subprocess.PIPE, stderr=subprocess.PIPE, text=True)
    answers = run.stdout.splitlines()
    if run.returncode or len(answers) != len(calls):
        raise Stop("./run ended with status %d and %d answers to %d calls: %s" % (run.returncode, len(answers), len(calls), shown(run.stderr, 200)))
    for call, answer in zip(calls, answers):
        if answer == "error" or answer.startswith("refused"):
            raise Stop("%s is answered %s" % (shown(call), answer))
    return answers


def print_picture(path, drawn):
    try:
        with open(path, encoding="ascii") as file:
            calls = [line for line in file.read().splitlines() if line and not line.startswith("#")]
        print(drawn(os.path.basename(path), calls).draw(), end="")
    except OSError as error:
        raise Stop("%s: %s" % (shown(path), error.strerror)) from None
    except UnicodeDecodeError:
        raise Stop("%s is no call script" % shown(path)) from None


def main(name, usage, script, drawn):
    """The command of a sample: `script`, or `picture SCRIPT`, which draws what `drawn` makes of a title and calls."""
    words = sys.argv[1:]
    try:
        if words == ["script"]:
            script()
        elif len(words) == 2 and words[0] == "picture":
            print_picture(words[1], drawn)
        else:
            sys.exit(usage)
    except Stop as stop:
        sys.exit("%s: %s" % (name, stop))
