#!/usr/bin/env python3
"""Spells the repository's own definitions, lemmas, fields and variables of contracts in snake case, as the kit's library does.

  tools/respell.py            at the top of the repository, once, after the kit's scripts
  tools/respell.py --table    prints each old name with its new one

A word of specs/, proofs/ and contracts that begins with a small letter and has a capital after a small letter or a digit is one of
these: `freshState` becomes `fresh_state`, `atFraction-unfinished` becomes `at_fraction-unfinished`. No library of the kit has such a
word, and a name of src/ has none. A fact that is a type gets a capital: the table TYPES. Texts that cite them (edits, docs, the lists
of tests) follow; strings, inputs and outputs have none. A name that would fall together with another of its file is told, and nothing
is written.
"""

import glob
import os
import re
import subprocess
import sys

WORD = re.compile(r"(?<![\w'\-])[a-z][\w'\-]*[a-z0-9][A-Z][\w'\-]*")
HUMP = re.compile(r"(?<=[a-z0-9])([A-Z])|(?<=[A-Z])([A-Z])(?=[a-z])")
# the commit before the kit's scripts ran: they turned some of the names in specs/ and proofs/, and left the texts that cite them
LANDED = "14d88cabc2c213474e879166ebe02037fd3c040b"
# facts: what gives a `Type`
TYPES = {"Row-by": "RowBy", "sized": "Sized"}
TYPE_FILES = {"sized": ("numbers",), "Row-by": ("parameters",)}
# lemmas that would have the new name of what they speak of
LEMMAS = [("text", "all_digits", "all_digits-digits")]


def snake(word):
    return HUMP.sub(lambda m: "_" + m.group(0).lower(), word)


def is_of_kit(word, text):
    """Whether the older kit's libraries had it: it is imported from there and declared nowhere."""
    return not re.search(r"(?m)^ *(?:\w+ )*%s(?: \{[^{}\n]*\})* :" % re.escape(word), text)


def read(path):
    with open(path, encoding="utf-8") as file:
        return file.read()


def own(root):
    """The words that are to be turned: those of the proof language's files."""
    words = set()
    for path in glob.glob(os.path.join(root, "crates/*/specs/**/*.antt"), recursive=True) + glob.glob(os.path.join(root, "crates/*/proofs/**/*.antt"), recursive=True):
        words |= set(WORD.findall(read(path)))
    before = subprocess.run(["git", "grep", "-h", "-e", ".", LANDED, "--", "crates/*.antt"], cwd=root, stdout=subprocess.PIPE, encoding="utf-8").stdout
    words |= {word for word in WORD.findall(before) if not is_of_kit(word, before)}
    return {word: snake(word) for word in words}


def texts(root):
    for pattern in ("crates/*/specs/**/*.antt", "crates/*/proofs/**/*.antt", "crates/*/src/*.rt", "crates/*/edits/*.edit", "crates/*/must-fail/*.edit", "docs/*.md", "README.md", "tests/cited"):
        yield from sorted(glob.glob(os.path.join(root, pattern), recursive=True))


def main(argv):
    root = os.getcwd()
    table = own(root)
    if argv == ["--table"]:
        for word in sorted(table):
            print(word, table[word])
        return 0
    clashes, written = [], {}
    for path in texts(root):
        text = read(path)
        present = {word for word in WORD.findall(text) if word in table}
        others = set(re.findall(r"(?<![\w'\-])[\w'\-]+", text)) - present
        for word in sorted(present):
            if table[word] in others and path.endswith(".antt"):
                clashes.append("%s: %s and %s" % (os.path.relpath(path, root), word, table[word]))
        for crate, name, other in LEMMAS:
            if "%scrates%s%s%s" % (os.sep, os.sep, crate, os.sep) in path and path.endswith(".antt"):
                text = re.sub(r"(?<![\w'\-])%s(?![\w'\-])" % re.escape(name), other, text)
        new = WORD.sub(lambda m: table.get(m.group(0), m.group(0)), text)
        for old, name in TYPES.items():
            if os.sep + "crates" + os.sep + TYPE_FILES[old][0] + os.sep in path:
                new = re.sub(r"(?<![\w'\-])%s(?![\w'\-])" % re.escape(old), name, new) if path.endswith(".antt") else new
        if new != read(path):
            written[path] = new
    for clash in clashes:
        print("two names fall together in " + clash, file=sys.stderr)
    if clashes and argv != ["--anyway"]:
        return 1
    for path, text in written.items():
        with open(path, "w", encoding="utf-8") as file:
            file.write(text)
    print("%d names in %d files" % (len(table), len(written)))
    return 0


sys.exit(main(sys.argv[1:]))
