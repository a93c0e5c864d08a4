#!/usr/bin/env python3
"""What the history rules and the claim cite of other crates, read from the text of the definitions in crates/*/specs/.

  tests/cited.py --list     prints it, a line each

A definition is `crate/specs/File.antt name`; a constructor stands for its data type, and a struct or enum of the code is
`crate type Name`. From all of crates/history/specs/Past.antt, Rules.antt and Claim.antt names are followed within `history`; a
name outside it is listed and not followed. tests/cited has the list with a reason for each line, and tests/gate/cited holds it
to the specs. A local variable that has the name of a definition in scope counts as that definition.
"""

import functools
import glob
import os
import re
import sys

sys.dont_write_bytecode = True
import prover

THEOREM, STARTS, POINTS = "history", ("Past", "Rules", "Claim"), "Cited"
LIST = "tests/cited"
CALLS, ARITHMETIC, TYPES = "calls and reads", "arithmetic and encodings", "types"

NAME = r"[^\s:(){};,]+"
TYPE = re.compile(r"(?:pub )?(?:record|data) (%s)" % NAME)
VALUE = re.compile(r"(?:(?:abbrev|unfoldable|pub) )*(%s) :(?:\s|$)" % NAME)
USE = re.compile(r"(?:pub )?use (\S+?)(?:\.\{([^}]*)\}| as (\S+))?")


class Unread(ValueError):
    """A text that is not of the forms that are read here."""


class Definition:
    def __init__(self, name, heads):
        self.name, self.pieces, self.made = name, list(heads), {name}

    def tokens(self, piece):
        return [token.rstrip(".") for token in re.findall(r"[^\s(){};,]+", piece) if not token.startswith(".")]


class Spec:
    """A specs file: its definitions, and what the names in it stand for."""

    def __init__(self, path, text):
        self.path, self.definitions, self.fixities = path, {}, []
        self.names, self.modules = {}, {}  # a name in scope to the paths that it may stand for, and so a file's
        self.read(re.sub(r"(?m)(^|\s)--.*", "", text))
        crate, _, *parts = path[: -len(".antt")].split("/")
        own = "Rattle.%s.specs.%s." % (crate, ".".join(parts))
        for definition in self.definitions.values():
            for name in definition.made:
                self.bring(name, own + name)

    def bring(self, name, path):
        """Takes a name into scope; an operator also by its parts."""
        for part in [name] + ([part for part in name.split("◌") if part] if not name.startswith("«") else []):
            self.names.setdefault(part, set()).add(path)

    def read(self, text):
        if re.search(r"--|\{-|-\}", text):
            raise Unread("crates/%s has a remark of a form that is not read" % self.path)
        text = re.sub(r"(?m)^((?:pub )?use \S+\.\{)([^}]*)\}", lambda match: "%s%s}" % (match[1], " ".join(match[2].split())), text)
        text = re.sub(r"(?m)^ *module (?:.*(?<! where)\n)+.* where$", lambda match: re.sub(r"\n +", " ", match[0]), text)  # a head on some lines
        modules, here, held = [], None, None  # the modules around, the definition, and the depth of the line that may go on
        for line in text.splitlines():
            depth, body = len(line) - len(line.lstrip()), line.strip()
            if not body or re.fullmatch(r"(pub )?mod \S+|ruleset .*", body):
                continue
            if held is not None and depth > held:
                here.pieces[-1] += "\n" + body
                if here.data and VALUE.match(body):
                    here.made.add(VALUE.match(body)[1])
                continue
            while modules and depth <= modules[-1][0]:
                modules.pop()
            value = TYPE.match(body) or VALUE.match(body)
            held = None
            if body.startswith(("use ", "pub use ")):
                self.use(body)
            elif body.startswith("infix"):
                self.fixities.append(body)
            elif body.startswith("module "):
                if not body.endswith(" where"):
                    raise Unread("crates/%s: a module's head without an end: %s" % (self.path, body))
                modules.append((depth, body))
            elif value:
                if value[1] in self.definitions:
                    raise Unread("crates/%s has two definitions of %s" % (self.path, value[1]))
                here = self.definitions[value[1]] = Definition(value[1], [module for _, module in modules])
                here.data = bool(re.match(r"(pub )?data ", body))
                here.pieces.append(body)
                held = depth
            elif here is not None:
                here.pieces.append(body)
                held = depth
            else:
                raise Unread("crates/%s: a line of no definition: %s" % (self.path, body))

    def use(self, body):
        match = USE.fullmatch(body)
        if not match:
            raise Unread("crates/%s: a use of a form that is not read: %s" % (self.path, body))
        path, names, module = match.groups()
        if names is None:
            self.modules[module or path.split(".")[-1]] = path
        for name in (names or "").split(","):
            name, _, other = name.strip().partition(" as ")
            if name:
                self.bring(other.strip() or name, path + "." + name)

    def paths_of(self, token):
        """What a word of the text may stand for, as paths; none for what is not in scope."""
        head, _, rest = token.partition(".")
        if token.startswith("Rattle."):
            return {token}
        return self.names.get(head, set()) | ({self.modules[head] + "." + rest} if rest and head in self.modules else set())

    def text_of(self, definition):
        """A definition as it is compared: its lines, and what the names in it stand for."""
        tokens = {token for piece in definition.pieces for token in definition.tokens(piece)}
        paths = sorted("%s is %s" % (token, path) for token in tokens for path in self.paths_of(token))
        ways = [line for line in self.fixities if any(part in tokens for part in line.split()[-1].split("◌") if part)]
        return "\n".join(" ".join(piece.split()) for piece in definition.pieces + ways + paths)

    def paths(self, definition, sure=False):
        """The paths that a definition names. `sure`: without those whose word is also bound in the same clause or type."""
        found = set()
        for piece in definition.pieces:
            words = definition.tokens(piece)
            if sure and words[:1] == ["unfolding"]:
                continue
            left = self.bound(definition, piece) if sure else set()
            found |= {path for word in words if word not in left for path in self.paths_of(word)}
        return found

    def bound(self, definition, piece):
        """The words that a piece binds: left of `=`, after λ and let, before `:` in brackets, labels of records, local names."""
        left = piece.partition(" = ")[0].split("\n")[0] if " = " in piece and not VALUE.match(piece) else ""
        words = definition.tokens(left)[1:]
        # what a clause takes apart is a constructor, which no variable can be named like
        words = [word for word in words if not any(made for path in self.paths_of(word) for made in labels_of(path, self.path).values())]
        for group in re.findall(r"λ ([^.]*)\.(?:\s|$)", piece) + re.findall(r"[({]([^(){}:]+) :\s", piece):
            words += group.split()
        words += re.findall(r"(?:\blet|[{;])\s*(\S+) = ", piece)
        words += [match[1] for match in map(VALUE.match, piece.split("\n")[1:]) if match]
        return set(words)


@functools.lru_cache(maxsize=None)
def specs():
    """All specs files, by their path below crates/."""
    crates = os.path.join(prover.ROOT, "crates")
    paths = sorted(os.path.relpath(path, crates) for path in glob.glob(os.path.join(crates, "*/specs/**/*.antt"), recursive=True))
    return {path: Spec(path, prover.read(os.path.join(crates, path))) for path in paths}


def labels_of(path, where):
    """What a path may name: labels, and for each whether a constructor is meant; none for what is not of the repository."""
    whose = re.match(r"Rattle\.(\w+)\.", path)
    if not whose or whose[1] not in prover.USES:
        return {}
    match = re.fullmatch(r"Rattle\.(\w+)\.specs\.(.+)", path)
    if not match:
        raise Unread("crates/%s: a path of a form that is not read: %s" % (where, path))
    crate, parts = match[1], match[2].split(".")
    if parts[0] == "declared":
        variants = "TheVariants" in parts
        return {"%s type %s" % (crate, "::".join(parts[1 : parts.index("TheVariants") if variants else -1])): variants}
    for end in range(len(parts) - 1, 0, -1):
        spec, name = specs().get("%s/specs/%s.antt" % (crate, "/".join(parts[:end]))), parts[end]
        found = [definition.name for definition in spec.definitions.values() if name in definition.made] if spec else []
        if found:
            return {"%s %s" % (spec.path, other): other != name for other in found}
    raise Unread("crates/%s: there is no definition %s" % (where, path))


def named(label, sure=False):
    """The labels that a definition's text names."""
    path, _, name = label.partition(" ")
    spec = specs().get(path)
    if spec is None or name not in spec.definitions:  # a type of the code, or a line of tests/cited that is not true
        return set()
    return {label for path in spec.paths(spec.definitions[name], sure) for label in labels_of(path, spec.path)}


@functools.lru_cache(maxsize=None)
def closure():
    """The labels outside `history` that the rules and the claim name, directly or through definitions of `history`."""
    reached, todo = set(), []
    for start in STARTS:
        path = "%s/specs/%s.antt" % (THEOREM, start)
        if path not in specs():
            raise Unread("there is no crates/" + path)
        todo += ["%s %s" % (path, name) for name in specs()[path].definitions]
    while todo:
        label = todo.pop()
        if label not in reached:
            reached.add(label)
            if re.split("[/ ]", label)[0] == THEOREM:
                todo += named(label)
    return frozenset(label for label in reached if re.split("[/ ]", label)[0] != THEOREM)


def below(labels):
    """These definitions and all that they rest on."""
    reached, todo = set(), list(labels)
    while todo:
        label = todo.pop()
        if label not in reached:
            reached.add(label)
            todo += named(label, sure=True)
    return reached


def changed(texts):
    """The definitions that differ where files have other texts: `crate/specs/..` to a text."""
    found = set()
    for path, text in texts.items():
        if path.split("/")[1] == "specs" and path.endswith(".antt"):
            old, new = specs()[path], Spec(path, text)
            for name in old.definitions.keys() | new.definitions.keys():
                before, after = ([spec.text_of(spec.definitions[name])] if name in spec.definitions else [] for spec in (old, new))
                if before != after:
                    found.add("%s %s" % (path, name))
    return found


@functools.lru_cache(maxsize=None)
def listed():
    """tests/cited: its groups, each a label to the reason."""
    groups = {CALLS: {}, ARITHMETIC: {}, TYPES: {}}
    group = None
    for line in prover.read(os.path.join(prover.ROOT, LIST)).splitlines():
        heading = re.fullmatch(r"\[(.*)\]", line)
        label, _, reason = line.partition("  ")
        if not line or line.startswith("#"):
            continue
        if heading:
            group = groups.get(heading[1])
        if group is None:
            raise Unread("%s: not under a heading that is known: %s" % (LIST, line))
        if heading:
            continue
        if not reason.strip():
            raise Unread("%s: no reason: %s" % (LIST, line))
        if any(label in other for other in groups.values()):
            raise Unread("%s: twice: %s" % (LIST, label))
        group[label] = reason.strip()
    return groups


def all_listed():
    return {label for group in listed().values() for label in group}


def narrowed(texts):
    """Of the definitions that differ, those that the rules and the claim reach and that tests/cited does not have."""
    return sorted(changed(texts) & closure() - all_listed())


def may_be_points(texts):
    """Whether a definition differs that stands under arithmetic or that the points pin, or one that such a definition rests on."""
    points = specs().get("%s/specs/%s.antt" % (THEOREM, POINTS))
    pinned = {label for name in (points.definitions if points else ()) for label in named("%s %s" % (points.path, name))}
    outside = {label for label in pinned if re.split("[/ ]", label)[0] != THEOREM and " type " not in label}
    return bool(changed(texts) & below(set(listed()[ARITHMETIC]) | outside))


def problems():
    """How tests/cited and the specs differ."""
    found = ["not in %s: %s" % (LIST, label) for label in sorted(closure() - all_listed())]
    found += ["in %s, and neither the rules nor the claim reach it: %s" % (LIST, label) for label in sorted(all_listed() - closure())]
    return found + ["%s: a type of the code under another heading: %s" % (LIST, label) for label in sorted(all_listed() - set(listed()[TYPES])) if " type " in label]


if __name__ == "__main__":
    if sys.argv[1:] != ["--list"]:
        sys.exit(__doc__.strip())
    try:
        print("\n".join(sorted(closure())))
    except Unread as reason:
        sys.exit("tests/cited.py: %s" % reason)
