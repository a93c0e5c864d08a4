"""Rattle source as text: where functions are, what differs, and several changes in one text.

A place is (path, start, end), where path is `crate/part/..` below crates/.
"""

import glob
import os

import prover
from mutants import places


def place(path):
    return os.path.join(prover.ROOT, "crates", path)


def text_of(path):
    return prover.read(place(path))


def texts_of(crate):
    """The texts of a crate's source files."""
    return [prover.read(path) for path in sorted(glob.glob(place(crate + "/src/**/*.rt"), recursive=True))]


def module_of(path):
    """`floats` for numbers/src/floats.rt; nothing for a crate's root."""
    parts = path[: -len(".rt")].split("/")[2:]
    return "" if parts in (["lib"], ["main"]) else "::".join(part for part in parts if part != "mod")


def functions_of(crate):
    """The functions of a crate, as the prover names them."""
    files = places.sources(prover.ROOT, crate).values()
    return ["%s::%s" % (crate, function.name) for file in files for function in file.functions if function.body_start is not None]


def function_at(path, start, end):
    """The function, as the prover names it (`crate::module::name`, `crate::Type::name` of a method, `crate::TypeTrait::name` of a
    trait's), whose body holds a place whole; None if there is none."""
    crate, part = path.split("/")[:2]
    if part == "src":
        for function in places.functions(text_of(path), module_of(path)):
            if function.body_start < start and end < function.body_end:
                return "%s::%s" % (crate, function.name)
    return None


def proof_of(path):
    """The function whose proof a file is, as `crate::module::name`, also where it is of a closure in it; None for another file."""
    crate, *parts = path.split("/")
    if parts[0] != "proofs" or parts[-1] not in prover.PROOF_FILES:
        return None
    name = "::".join([crate] + parts[1:-1])
    of = [function for function in functions_of(crate) if prover.is_of(name, function)]
    return max(of, key=len) if of else name


def difference(path, text):
    """The place of a file that a changed text of it replaces."""
    old = text_of(path)
    start = len(os.path.commonprefix([old, text]))
    same = len(os.path.commonprefix([old[start:][::-1], text[start:][::-1]]))
    return (path, start, len(old) - same)


def merged(changes):
    """The texts of files with several changes made, each (path, start, end, changed text), none within another."""
    texts, later = {}, {}
    for path, start, end, text in sorted(changes, reverse=True):
        old = text_of(path)
        if end > later.get(path, len(old)):
            raise ValueError("two changes of one place in " + path)
        later[path] = start
        new = text[start : len(text) - (len(old) - end)]
        base = texts.get(path, old)
        texts[path] = base[:start] + new + base[end:]
    return texts
