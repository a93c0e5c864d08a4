"""A fact for a change that is refused because its function's proof does not fit: it cites what the changed text no longer has.

A goal and a step have the name of what stands in the code, as `returns-then-x-lt0` and `if-x-lt0` where it says `x < 0`. Where that is
changed, the proof is tried by the names of the changed text. For a mutant two more ways are tried: a form of it that does the same and
keeps the shape of the function, so that the proof as it is fits (a condition that never holds for a return that is dropped, the last
arm's body for an arm, what stood there for an assignment); and the answers that fit alone, the others left to rattle's own search.
"""

import difflib
import glob
import os
import re

import prover
import source

TURNS = 8  # how often a proof's names are mended
# A step of a proof that the record at hand does not have, with those that it may be now.
NO_FIELD = re.compile(r"record `[^`]*`(?: \(nearest: (?P<before>[^)]+)\))?\s+has no field `(?P<step>[^`]+)`(?: \(nearest: (?P<after>[^)]+)\))?")
# A goal that rattle does not ask for.
NO_GOAL = re.compile(r"module `[^`]*\.(?:Goals|Given)` has no `([^`]+)`")
ASKED = re.compile(r"^help: `(?:Goals|Given)` has no .*?; rattle asks for ([^;]*)", re.M)
# An answer to a goal: a declaration whose type is one of the goals, with its definition.
ANSWER = re.compile(r"(?:(?:pub|abbrev|unfoldable) )*(\S+) : goal\.(\S+)")


def files_of(function):
    """The files of a function's proof that are there, as `crate/proofs/..`: its own, then those of its measure and its closures."""
    crate, *path = function.split("::")
    folders = ["/".join(path), "/".join(path[:-1] + ["+" + path[-1]])]
    folders += ["/".join(path[:at] + ["fn"] + path[at:]) + "/**" for at in range(len(path))]
    top = source.place(crate + "/proofs/")
    names = [name for folder in folders for file in prover.PROOF_FILES for name in sorted(glob.glob(top + folder + "/" + file, recursive=True))]
    return ["%s/proofs/%s" % (crate, name[len(top) :]) for name in dict.fromkeys(names)]


def errors_in(report, path):
    return [error for error in report.errors if "%s/%s" % (error.crate, error.file) == path]


def new_names(proof, report, path):
    """The goals and steps that the changed text names otherwise: old name to new."""
    asked = [name for names in ASKED.findall(report.log) for name in re.findall(r"`([^`]+)`", names)]
    answered = {match[1] for match in map(ANSWER.match, proof.split("\n")) if match}
    names = {}
    for error in errors_in(report, path):
        goal, step = NO_GOAL.search(error.text), NO_FIELD.search(error.text)
        if goal:
            open_ones = [name for name in dict.fromkeys(asked) if name not in answered and name not in names.values()]
            names.update({goal[1]: name for name in difflib.get_close_matches(goal[1], open_ones, 1, 0.5)})
        elif step and (step["before"] or step["after"]):
            near = [name.strip(" .") for name in (step["before"] or step["after"]).split(",")]
            by_goal = [step["step"].replace(old.partition("-then-")[2], new.partition("-then-")[2]) for old, new in names.items() if old.partition("-then-")[2]]
            names.setdefault(step["step"], next((name for name in by_goal if name in near), near[0]))
    return names


def renamed(proof, names):
    return re.sub(r"(?<![\w'-])(%s)(?![\w'-])" % "|".join(map(re.escape, sorted(names, key=len, reverse=True))), lambda match: names[match[1]], proof) if names else proof


def by_new_names(worker, top, sources, texts, function, report, whole=False):
    """The report on a change with the function's proof by the names of the changed text; the given report if no name is another's.
    `whole`: the names are mended further where a fact fails and a name is still not there."""
    for _ in range(TURNS):
        mended = {}
        for path in files_of(function):
            proof = texts.get(path) or source.text_of(path)
            mended[path] = renamed(proof, new_names(proof, report, path))
        if all(mended[path] == (texts.get(path) or source.text_of(path)) for path in mended):
            return report
        texts = {**texts, **mended}
        report = worker.check(top, sources, texts)
        if report.proved or report.facts() and not (whole and report.unnamed(function)):
            return report
    return report


def without(lines, at):
    """The lines of a proof without the answer in which a line stands; as they are if it stands in none."""
    start = next((line for line in range(at, -1, -1) if ANSWER.match(lines[line])), None)
    if start is None:
        return lines
    end = next((line for line in range(start + 1, len(lines)) if not lines[line].strip()), len(lines))
    return lines[:start] + lines[end + 1 :]


def tries(worker, crate, mutant):
    """Reports on the mutant, each with the words for what was tried."""
    texts, sources = crate.texts([mutant], alike=bool(mutant.alike)), [crate.name]
    report = worker.check(crate.name, sources, texts)
    if mutant.alike:
        yield "in a form of the same shape", report
    # with returns more or fewer, the answers would be those of other returns
    elif mutant.kind == "branch" or mutant.old.count("return ") != mutant.new.count("return "):
        return
    function = crate.function(mutant)
    paths = [path for path in files_of(function) if path.endswith("/Answers.antt")]
    if not paths:
        return
    bare = worker.check(crate.name, sources, {**texts, **dict.fromkeys(paths)})
    if bare.proved:
        yield "without the function's answers", bare
    report = by_new_names(worker, crate.name, sources, texts, function, report)
    yield "by the names of the mutant", report
    proofs = {path: source.text_of(path) for path in paths}
    for _ in range(TURNS):
        fewer = {}
        for path, proof in proofs.items():
            errors = errors_in(report, path)
            fewer[path] = "\n".join(without(proof.split("\n"), errors[0].line - 1)) if errors else proof
        if fewer == proofs:
            return
        proofs = fewer
        report = worker.check(crate.name, sources, {**texts, **proofs})
        yield "with the answers that fit", report
