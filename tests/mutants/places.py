#!/usr/bin/env python3
"""Makes every mutant of one place in the function bodies of a library crate.

A mutant is a small wrong change: a number one up or down, an operator, a comparison or one of the library's methods exchanged
(`all` for `any`), a condition negated, two arguments or two fields of one type exchanged, two neighbours in an array or in the
pattern of a slice, an assignment, a call of a method or with `?` that stands alone, a return or an arm dropped or made another's,
the arms of `Ok` and `Err` exchanged. Signatures, contracts, types and declarations stay as they are; of a constant only its
numbers change; macros and tests are left alone. Types are worked out as far as it takes to exchange like for like, so that nearly
every mutant compiles.

    python3 tests/mutants/places.py [CRATE..]       how many there are, by crate and kind
    python3 tests/mutants/places.py --list CRATE    the name of each
    python3 tests/mutants/places.py --check         compares the mutants of small texts with those written down below
"""

import ast
import glob
import os
import re
import struct
import sys
from collections import Counter, namedtuple
from itertools import combinations

ROOT = os.path.dirname(os.path.dirname(os.path.dirname(os.path.abspath(__file__))))
KINDS = ["number", "comparison", "arithmetic", "negation", "bool", "arguments", "field", "assignment", "return", "branch", "arm"]
# what each operator is exchanged for, also with a = behind it
EXCHANGED = {
    "comparison": {"<": "<= >=", "<=": "< >", ">": ">= <=", ">=": "> <", "==": "!=", "!=": "=="},
    "arithmetic": {"+": "- * /", "-": "+ * /", "*": "+ - /", "/": "+ - *", "%": "/", "<<": ">>", ">>": "<<", "&": "|", "|": "&", "&&": "||", "||": "&&"},
}
# methods of the library
METHODS = {"all": "any", "min": "max", "is_some": "is_none", "is_ok": "is_err"}
METHODS.update({other: one for one, other in METHODS.items()})
ASSIGNMENTS = {"=", "+=", "-=", "*=", "/=", "%=", "^=", "&=", "|=", "<<=", ">>="}
LEVELS = ["||", "&&", "== != < <= > >=", "|", "^", "&", "<< >>", "+ -", "* / %"]
LEVEL = {sign: level for level, signs in enumerate(LEVELS, 1) for sign in signs.split()}

# ---- tokens

Token = namedtuple("Token", "kind text start end")
TOKEN = re.compile(r"""
    (?P<space> \s+ | //[^\n]* | /\*.*?\*/ )
  | (?P<bytes> b"(?:[^"\\]|\\.)*" )
  | (?P<byte> b'(?:[^'\\]|\\x[0-9a-fA-F]{2}|\\.)' )
  | (?P<raw> b?r(?P<hashes>\#*)".*?"(?P=hashes) | c"(?:[^"\\]|\\.)*" )
  | (?P<string> "(?:[^"\\]|\\.)*" )
  | (?P<char> '(?:[^'\\\s]|[ ]|\\x[0-9a-fA-F]{2}|\\u\{[0-9a-fA-F_]+\}|\\.)' )
  | (?P<lifetime> '[A-Za-z_]\w* )
  | (?P<float> \d[\d_]*(?:\.\d[\d_]*(?:[eE][+-]?\d+)?(?:f32|f64)?|[eE][+-]?\d+(?:f32|f64)?|f32|f64)(?!\w) )
  | (?P<int> (?:0x[0-9a-fA-F_]+?|0o[0-7_]+?|0b[01_]+?|\d[\d_]*?)(?:[iu](?:8|16|32|64|128|size))?(?!\w) )
  | (?P<word> [^\W\d]\w* )
  | (?P<sign> <<=|>>=|\.\.=|::|->|=>|[=!<>+\-*/%&|^]=|&&|\|\||<<|>>|\.\.|. )
    """, re.X | re.S)
OPENING, CLOSING = ("(", "[", "{"), (")", "]", "}")
CLAUSES, ADDED = ("requires", "ensures", "ghost"), ("unsafe", "default", "final", "extern", "const")
PRIMITIVE = re.compile(r"[iu](?:8|16|32|64|128|size)|f32|f64|bool|char|str")


class Reader:
    """The tokens of a text, taken one after the other."""

    token = property(lambda self: self.tokens[self.at])  # the next one
    end = property(lambda self: self.tokens[self.at - 1].end)  # where the last one ended

    def __init__(self, text):
        self.text, self.at = text, 0
        found = [m for m in TOKEN.finditer(text) if m.lastgroup != "space"]
        self.tokens = [Token("raw" if m["raw"] else m.lastgroup, m[0], m.start(), m.end()) for m in found]
        self.tokens.append(Token("end", "", len(text), len(text)))

    def sees(self, *texts):
        return self.token.text in texts

    def after(self, count=1):
        """The text of a token behind the next one."""
        return self.tokens[min(self.at + count, len(self.tokens) - 1)].text

    def take(self, text=None):
        if self.token.kind == "end" or text not in (None, self.token.text):
            raise SyntaxError("line %d: %r, not %r" % (self.text.count("\n", 0, self.token.start) + 1, self.token.text, text))
        self.at += 1
        return self.tokens[self.at - 1]

    def passes(self, *texts):
        return self.sees(*texts) and bool(self.take())

    def split(self):
        """Makes two tokens of a sign whose first character is taken by itself, as `>>` at the end of two lists of types."""
        token, middle = self.token, self.token.start + 1
        both = [Token("sign", token.text[0], token.start, middle), Token("sign", token.text[1:], middle, token.end)]
        self.tokens[self.at : self.at + 1] = both

    def begins(self, sign):
        """Takes a sign, also where it is the front of a longer one."""
        if self.token.kind == "sign" and self.token.text.startswith(sign) and self.token.text not in (sign, "=>"):
            self.split()
        return self.passes(sign)

    def past(self, text):
        """Passes over all up to a text that stands in no brackets of its own."""
        while not self.passes(text):
            if self.sees(*OPENING):
                self.group()
            else:
                self.take()

    def group(self):
        """Passes over what stands in brackets, with the words before it."""
        depth, text = 0, ""
        while depth > 0 or text not in CLOSING:
            text = self.take().text
            depth += (text in OPENING) - (text in CLOSING)

    def listed(self, closing):
        """For each of what stands in a list, its number."""
        at = 0
        while not self.passes(closing):
            yield at
            self.passes(",")
            at += 1

    def attributes(self):
        """Passes over attributes; whether one of them makes what follows a part of tests."""
        start = self.at
        while self.passes("#"):
            self.group()
        words = [token.text for token in self.tokens[start : self.at]]
        return "test" in words and words[words.index("test") - 2] in ("#", "cfg")

    def left(self, word):
        """Passes over an item: up to its semicolon, or its braces."""
        ends = word in ("use", "type", "ghost", "const", "static")
        while not self.passes(";"):
            last = self.token.text
            if last in OPENING:
                self.group()
                if last == "{" and not ends:
                    return
            elif last in CLOSING or not last:
                return
            else:
                self.take()

    def path(self):
        """The words of a path; a list of types in it, as in `Vec::<u8>::new`, is passed over."""
        if self.begins("<"):  # <Type as Trait>::name
            kind = base(self.type())
            self.passes("as") and self.type()
            self.begins(">")
            path = kind if isinstance(kind, str) else "?"
        else:
            self.passes("::")
            path = self.take(None if self.token.kind == "word" else "a name").text
        while self.passes("::"):
            if self.sees("<", "<<"):
                self.types()
            else:
                path += "::" + self.take().text
        return path

    def types(self):
        """What stands between < and >: the types in it, without lifetimes, numbers and names of a trait's own."""
        kinds = []
        self.begins("<")
        while not self.begins(">"):
            if self.token.kind in ("lifetime", "int") or self.sees("-", "true", "false"):
                self.take()
            elif self.sees("{"):
                self.group()
            elif self.token.kind == "word" and self.after() in ("=", ":"):
                self.take()
                self.bounds() if self.take().text == ":" else self.type()
            else:
                kinds.append(self.type())
            self.passes(",")
        return tuple(kinds)

    def bounds(self):
        """Passes over what is asked of a type: traits, lifetimes, joined by +."""
        while self.token.kind in ("lifetime", "word") and not self.sees("where", *CLAUSES) or self.sees("?", "(", "::", "~"):
            if self.token.kind == "lifetime":
                self.take()
            elif self.passes("("):
                self.bounds()
                self.take(")")
            else:
                self.passes("?", "~")
                self.type()
            if not self.passes("+"):
                return

    def type(self):
        """A type: a path, ("<>", path, types), ("&" or "&mut", type), ("[]", type, length or nothing), or ("()", types)."""
        if self.sees("&&"):
            self.split()
        if self.passes("&"):
            if self.token.kind == "lifetime":
                self.take()
            return ("&mut" if self.passes("mut") else "&", self.type())
        if self.passes("["):
            element, start = self.type(), self.end
            self.past("]")
            return ("[]", element, self.text[start : self.end - 1].strip("; "))
        if self.passes("("):
            kinds, comma = [], False
            for _ in self.listed(")"):
                kinds.append(self.type())
                while self.passes("+"):
                    self.bounds()
                comma = self.tokens[self.at - 1].text == "," or comma
            return "()" if not kinds else kinds[0] if len(kinds) == 1 and self.tokens[self.at - 2].text != "," else ("()", tuple(kinds))
        start = self.token.start
        if self.passes("*"):
            return (self.take().text and "*", self.type())
        if self.passes("dyn", "impl"):
            self.bounds()
            return self.text[start : self.end]
        if self.passes("_", "!"):
            return self.text[start : self.end]
        if self.passes("for"):
            self.types()
        while self.passes("unsafe", "extern"):
            if self.token.kind == "string":
                self.take()
        if self.sees("<", "<<"):
            return self.path()
        path, kinds = self.word_path()
        if self.sees("(") and (path == "fn" or path.rpartition("::")[2] in ("Fn", "FnMut", "FnOnce", "AsyncFn")):
            self.group()
            if self.passes("->"):
                self.type()
            return self.text[start : self.end]
        return ("<>", path, kinds) if kinds else path

    def word_path(self):
        """A path in a type, with the types that its last word has."""
        self.passes("::")
        path, kinds = self.take(None if self.token.kind == "word" else "a name").text, ()
        while True:
            if self.sees("<", "<<") and not PRIMITIVE.fullmatch(path):
                kinds = self.types()
            if not self.passes("::"):
                return path, kinds
            if not self.sees("<", "<<"):
                path, kinds = path + "::" + self.take().text, ()


def base(kind):
    """The path of a type, without the types that it is made over."""
    return kind[1] if isinstance(kind, tuple) and kind[0] == "<>" else kind


def printed(kind, left=()):
    """A type as a part of an impl's name: `RefSliceU8` of `&[u8]`, `AinState` of `ain::State`. `left` are the parameters, which say
    nothing."""
    if isinstance(kind, str):
        words = [word for name in kind.split("::") if name not in ("crate", "super", "self", *left) for word in name.split("_")]
        return "" if kind in left else "Tuple0" if kind == "()" else "".join(word[:1].upper() + word[1:] for word in words)
    if kind[0] == "()":
        return "Tuple%d" % len(kind[1]) + "".join(printed(part, left) for part in kind[1])
    if kind[0] == "<>":
        return printed(kind[1]) + "".join(printed(part, left) for part in kind[2])
    word = {"&": "Ref", "&mut": "RefMut", "*": "Ptr"}.get(kind[0]) or ("Array" if kind[2] else "Slice")
    return word + printed(kind[1], left)


def joined(kind):
    """The words of a type, as they stand behind the + in the name of an impl of one of its forms: `Loose+Option+T`."""
    if isinstance(kind, str):
        return [kind.rpartition("::")[2] if kind != "()" else "unit"]
    within = (kind[1], *kind[2]) if kind[0] == "<>" else kind[1] if kind[0] == "()" else kind[1:2]
    return [word for part in within for word in joined(part)]


def impl_name(kind, trait, parameters):
    """An impl as `rt check` prints it: by the type and, but for Drop, the trait, with what that is of if it is not the type itself.
    Without a trait: what the type is of, if these are not parameters alone."""
    of_trait = base(trait).rpartition("::")[2] if trait else ""
    if of_trait in ("", "Drop"):
        of = kind[2] if isinstance(kind, tuple) and kind[0] == "<>" and not trait else ()
        plain = all(isinstance(part, str) and part in parameters for part in of)
        first = printed(base(kind).rpartition("::")[2] if isinstance(base(kind), str) and not trait else base(kind), parameters)
        return "+".join([first] + ([] if plain else [word for part in of for word in joined(part)]))
    itself = (printed(kind, parameters), "Self")
    of = tuple(part for part in trait[2] if printed(part, parameters) not in itself) if isinstance(trait, tuple) else ()
    return (printed(kind, parameters) or "Any") + printed(("<>", of_trait, of), parameters)


# ---- declarations

# start and end are those of all its text, body_start and body_end those of its body with the braces (of a constant, and of a
# method that a trait leaves open, None): a place before the body is of the signature or the contract. name is as `rt check`
# prints it, qualified by modules and, for a method, by its type or trait, as `Pair::to_bytes` and `PairTryFromRefSliceU8::try_from`.
# owner is the type that `Self` stands for, generics are the names of the parameters that are types; public is whether other
# crates can name it, as far as the item itself, its impl or its trait says.
Function = namedtuple(
    "Function", "name start end body_start body_end home owner parameters result first generics public", defaults=((), False)
)


class File(Reader):
    """What a file declares, by full path. Types are as written, beside the module (home) that they are written in."""

    def __init__(self, text, home):
        super().__init__(text)
        self.functions, self.constants, self.fields, self.makes, self.uses = [], [], {}, {}, {}
        self.methods = []  # of the impls without a trait: the functions from one number to another, with the type
        self.items(home)
        if self.token.kind != "end":
            self.take("the end")
        for first, last, owner in self.methods:
            of_type = self.module_of(self.functions[first].home, owner).partition("::")[2] if first < last else ""
            for at in range(first, last):
                one = self.functions[at]
                self.functions[at] = one._replace(name="::".join(filter(None, [of_type, *one.name.split("::")[-2:]])))

    def module_of(self, home, owner):
        """The module of a type that an impl names: its methods are named by that, wherever the impl stands."""
        if not isinstance(owner, str) or home + "::" + owner in self.makes.values():
            return home
        first, colons, rest = owner.partition("::")
        path = self.uses.get(home + "::" + first, ("", first if colons else ""))[1]
        if not path:
            return home
        head, colons, rest = (path + colons + rest).partition("::")
        at = {"crate": home.partition("::")[0], "self": home, "super": home.rpartition("::")[0]}.get(head) or home + "::" + head
        while rest.startswith("super::"):
            at, rest = at.rpartition("::")[0], rest[len("super::") :]
        return (at + "::" + rest).rpartition("::")[0]

    def items(self, home, owner="", within="", generics=(), shown=False):
        """The items of a module, or the members of an impl or a trait, whose printed name is `within`; `shown`: all are public."""
        while not self.sees("}", ""):
            start = self.token.start
            tests = self.attributes()
            public = self.public() or shown
            if self.sees("}", ""):
                return
            word = self.word()
            if tests:
                self.left(word)
            elif word == "fn":
                self.function(start, home, owner, within, generics, public)
            elif word in ("const", "static") and not self.passes("mut"):
                self.constant(start, home, owner, within)
            elif word in ("struct", "union"):
                full = home + "::" + self.take().text
                self.made(full, full, home)
            elif word == "enum":
                self.variants(home)
            elif word == "impl":
                self.implementation(home)
            elif word == "trait":
                self.trait(home, public)
            elif word == "mod" and self.after() == "{":
                full = home + "::" + self.take().text
                self.take("{")
                self.items(full)
                self.take("}")
            elif word == "use":
                self.used(home, "")
                self.take(";")
            else:  # a module's file, a type's other name, a ghost member, ghost use, a macro
                self.left(word)

    def word(self):
        """The word that says what an item is, behind those that only add to it."""
        word = self.take().text
        while word in ADDED and (self.token.kind == "string" or self.sees("fn", "impl", "trait", *ADDED)):
            if self.token.kind == "string":
                self.take()
                if self.sees("{"):  # what another language declares
                    return word
            word = self.take().text
        return word

    def used(self, home, before):
        """A use, or a part of one."""
        self.passes("::")
        if self.passes("{"):
            for _ in self.listed("}"):
                self.used(home, before)
            return
        name = self.take().text
        if self.passes("::"):
            return self.used(home, before + name + "::")
        path = before + name if name != "self" else before[:-2]
        other = self.take().text if self.passes("as") else path.rpartition("::")[2]
        if name != "*":
            self.uses[home + "::" + other] = (home, path)

    def constant(self, start, home, owner, within):
        name = self.take().text
        self.take(":")
        kind = self.type()
        while self.passes("+"):
            self.bounds()
        first = self.at + 1
        given = self.sees("=")
        self.past(";")
        if given:
            name = "::".join(filter(None, [home.partition("::")[2], within, name]))
            self.constants.append(Function(name, start, self.end, None, None, home, owner, [], kind, first))

    def variants(self, home):
        full = home + "::" + self.take().text
        self.parameters()
        self.where()
        self.take("{")
        for _ in self.listed("}"):
            self.attributes()
            self.made(full + "::" + self.take().text, full, home, True)
            if self.passes("="):
                while not self.sees(",", "}"):
                    self.take()

    def implementation(self, home):
        parameters = self.parameters()
        self.passes("!")
        kind, trait = self.type(), None
        if self.passes("for"):
            kind, trait = self.type(), kind
        self.where()
        name = impl_name(kind, trait, parameters)
        first = len(self.functions)
        self.take("{")
        self.items(home, kind, name, parameters, trait is not None)
        self.take("}")
        if trait is None and "+" not in name:
            self.methods.append((first, len(self.functions), base(kind)))

    def trait(self, home, public):
        name = self.take().text
        parameters = self.parameters()
        if self.passes(":"):
            self.bounds()
        self.where()
        self.take("{")
        self.items(home, name, name, parameters, public)
        self.take("}")

    def parameters(self):
        """The names of a declaration's parameters that are types or numbers."""
        names = []
        if not self.begins("<"):
            return ()
        while not self.begins(">"):
            self.attributes()
            if self.passes("const"):
                names.append(self.take().text)
                self.take(":")
                self.type()
            elif self.token.kind == "lifetime":
                self.take()
                self.passes(":") and self.bounds()
            else:
                names.append(self.take().text)
                self.passes(":") and self.bounds()
            if self.passes("="):
                self.group() if self.sees("{") else self.take() if self.token.kind == "int" else self.type()
            self.passes(",")
        return tuple(names)

    def where(self):
        if self.passes("where"):
            while not self.sees("{", ";", *CLAUSES) and self.token.kind != "end":
                if self.passes("for"):
                    self.types()
                if self.token.kind == "lifetime":
                    self.take()
                else:
                    self.type()
                self.take(":")
                self.bounds()
                self.passes(",")

    def public(self):
        """Passes over pub; whether it says it to all."""
        if not self.passes("pub"):
            return False
        inside = self.sees("(") and self.after() in ("crate", "super", "self", "in")
        if inside:
            self.group()
        return not inside

    def made(self, name, kind, home, variant=False):
        """What a struct or a variant is made of: its fields' types, by name or number."""
        fields = {}
        if not variant:
            self.parameters()
            self.where()
        if self.sees("(", "{"):
            named = self.take().text == "{"
            for at in self.listed("}" if named else ")"):
                self.attributes()
                self.public()
                if named and self.sees("ghost") and self.after() != ":":
                    while not self.sees(",", "}"):
                        self.group() if self.sees(*OPENING) else self.take()
                    continue
                field = self.take().text if named else str(at)
                self.passes(":")
                fields[field] = self.type()
        if not variant:
            self.where()
        self.passes(";")
        self.fields[name], self.makes[name] = (home, fields), kind

    def function(self, start, home, owner, within, generics, public):
        name = self.take().text
        generics += self.parameters()
        self.take("(")
        parameters = []
        for _ in self.listed(")"):
            self.attributes()
            words, at, depth = [], self.at, 0
            while depth > 0 or not self.sees(":", ",", ")"):
                depth += self.sees(*OPENING) - self.sees(*CLOSING)
                words.append(self.take().text)
            itself = ("&", owner) if "&" in words else owner
            plain = not set(words) & {"(", "[", "{"}
            parameters.append((words[-1] if plain else "", self.type() if self.passes(":") else itself))
        result = self.type() if self.passes("->") else ""
        self.where()
        while not self.sees("{", ";"):  # a clause of the contract
            self.group()
        name = "::".join(filter(None, [home.partition("::")[2], within, name]))
        if self.passes(";"):
            self.functions.append(Function(name, start, self.end, None, None, home, owner, parameters, result, None, generics, public))
            return
        body, first = self.token.start, self.at
        self.group()
        self.functions.append(Function(name, start, self.end, body, self.end, home, owner, parameters, result, first, generics, public))


def functions(text, module):
    """The functions of a file's text; module is '' for lib.rt, 'floats' for floats.rt, 'a::b' for a/b.rt."""
    return [function for function in File(text, "crate::" + module if module else "crate").functions if function.body_start is not None]


class World:
    """What a few files declare, with every type by its full path."""

    def __init__(self, files):
        self.uses, self.fields, self.makes, self.functions, self.constants = {}, {}, {}, {}, {}
        for file in files:
            self.uses.update(file.uses)
            self.makes.update(file.makes)
        self.names = set(self.makes) | set(self.makes.values())
        for file in files:
            for name, (home, fields) in file.fields.items():
                self.fields[name] = {field: self.full(home, kind) for field, kind in fields.items()}
            for f in file.functions:
                name = self.of(f) + "::" + f.name.rpartition("::")[2]
                types = [self.full(f.home, kind, f.owner) for _, kind in f.parameters], self.full(f.home, f.result, f.owner), f.generics
                # of two traits' methods of one name it tells nothing
                self.functions[name] = types if self.functions.get(name, types) == types else (None, None, ())
            for c in file.constants:
                self.constants[self.of(c) + "::" + c.name.rpartition("::")[2]] = self.full(c.home, c.result, c.owner)
        self.names |= set(self.functions) | set(self.constants)

    def of(self, f):
        """The full path of what a function or a constant is declared in."""
        owner = base(f.owner)
        return self.full(f.home, owner) if isinstance(owner, str) and owner else f.home if not owner else str(owner)

    def full(self, home, kind, owner=""):
        """The full path that a path in a module stands for; a type with the full paths in it."""
        if isinstance(kind, tuple):
            if kind[0] == "()":
                return ("()", tuple(self.full(home, part, owner) for part in kind[1]))
            if kind[0] == "<>":
                return ("<>", self.full(home, kind[1]), tuple(self.full(home, part, owner) for part in kind[2]))
            return (kind[0], self.full(home, kind[1], owner), *kind[2:])
        if kind.partition("::")[0] == "Self" and owner:
            if kind == "Self":
                return self.full(home, owner)
            kind = base(owner) + kind[len("Self") :] if isinstance(base(owner), str) else kind
        return self.led(home, kind, ())

    def led(self, home, path, before):
        """Where a path leads by uses; `before` are those that led here."""
        first, colons, rest = path.partition("::")
        first = {"crate": home.partition("::")[0], "self": home, "super": home.rpartition("::")[0]}.get(first) or first
        one = home + "::" + first
        if one in self.uses and one not in before:
            first = self.led(*self.uses[one], (*before, one))
        for path in (home + "::" + first + colons + rest, first + colons + rest):
            if path in self.uses and path not in before:
                path = self.led(*self.uses[path], (*before, path))
            if path in self.names:
                break
        return path


# ---- types of expressions


class Open:
    """A type that nothing has told yet, as that of a literal. None is one that nothing will tell."""

    link = None


def known(kind):
    while isinstance(kind, Open) and kind.link is not None:
        kind = kind.link
    return kind


def same(a, b):
    """Takes note that two types are one."""
    a, b = known(a), known(b)
    if isinstance(b, Open):
        a, b = b, a
    if isinstance(a, Open):
        a.link = b if a is not b and b != "_" else None
    elif isinstance(a, tuple) and isinstance(b, tuple):
        if isinstance(a[-1], tuple) and a[0] in ("()", "<>") and a[0] == b[0]:
            for one, other in zip(a[-1], b[-1]):
                same(one, other)
        elif not {a[0], b[0]} & {"()", "<>"}:
            same(a[1], b[1])


def behind(kind):
    """What a reference refers to, and any other type itself."""
    kind = known(kind)
    return behind(kind[1]) if isinstance(kind, tuple) and kind[0] in ("&", "&mut") else kind


def parts(kind, path, count):
    """The types that a type is made over, as that of `Option<u8>`; where nothing tells, as many new ones."""
    kind = behind(kind)
    if isinstance(kind, Open):
        kind.link = ("<>", path, tuple(Open() for _ in range(count)))
        return kind.link[2]
    same_path = isinstance(kind, tuple) and kind[0] == "<>" and kind[1].rpartition("::")[2] == path
    return kind[2] if same_path and len(kind[2]) == count else (None,) * count


def put(kind, given):
    """A type with others in place of parameters."""
    if isinstance(kind, str):
        return given.get(kind, kind)
    if not isinstance(kind, tuple):
        return kind
    if kind[0] in ("()", "<>"):
        return (*kind[:-1], tuple(put(part, given) for part in kind[-1]))
    return (kind[0], put(kind[1], given), *kind[2:])


# ---- numbers one up and one down


def grouped(digits, like):
    """Digits with a _ wherever those that they replace have one, counted from the right."""
    places = {len(like[at:].replace("_", "")) for at, sign in enumerate(like) if sign == "_"}
    return "".join("_" * (at > 0 and len(digits) - at in places) + digit for at, digit in enumerate(digits))


def wholes(text, kind):
    """One up and one down, within the type; below 0 only where it is signed."""
    prefix, digits, suffix = re.fullmatch(r"(0x|0o|0b)?([0-9a-fA-F_]+?)([iu]\w+)?", text).groups("")
    plain, sized = digits.replace("_", ""), re.fullmatch(r"([iu])(\d+|size)", suffix or str(kind))
    signed, bits = bool(sized) and sized[1] == "i", int(sized[2].replace("size", "64")) if sized else 64
    for step in (1, -1):
        new = int(plain, {"0x": 16, "0o": 8, "0b": 2, "": 10}[prefix]) + step
        if new == -1 and signed:
            yield "-1" + suffix
        elif 0 <= new < 1 << (bits - signed):
            turned = format(new, prefix[1:] or "d").zfill(len(plain) if prefix else 0)
            yield prefix + grouped(turned.upper() if plain != plain.lower() else turned, digits) + suffix


def floats(text, kind):
    """One up and one down; the next singles, or doubles, where these lie further apart."""
    digits, suffix = re.fullmatch(r"(.+?)(f\d+)?", text).groups("")
    value = float(digits.replace("_", ""))
    double = (suffix or kind) == "f64"
    whole, single = ("<Q", "<d") if double else ("<I", "<f")
    for step in (1, -1):
        new = value + step
        if value > 1 << (53 if double else 24):
            try:
                (bits,) = struct.unpack(whole, struct.pack(single, value))
                (new,) = struct.unpack(single, struct.pack(whole, bits + step))
            except OverflowError:  # more than a single holds, where nothing tells that it is a double
                continue
        if new in (float("inf"), float("-inf")):
            continue
        front, dot, rest = ("%d.0" % new if new == int(new) else repr(new)).partition(".")
        yield grouped(front, digits.partition(".")[0]) + dot + rest + suffix


def octets(text, kind):
    """Of a byte or a character the next and the one before; of a byte string the one with the next as its first byte."""
    if text[0] == "'":
        value = ord(ast.literal_eval(re.sub(r"\\u\{(\w+)\}", lambda match: "\\U" + match[1].replace("_", "").zfill(8), text)))
        for new in (value + 1, value - 1):
            if 0 <= new < 0x110000 and not 0xD800 <= new < 0xE000:
                yield "'%s'" % (chr(new).replace("\\", "\\\\").replace("'", "\\'") if 31 < new < 127 else "\\u{%x}" % new)
        return
    quote, value = text[-1], ast.literal_eval(text)[:1]
    rest = re.sub(r"^(\\x..|\\.|[^\\])", "", text[2:-1])
    for new in (value[0] + 1, value[0] - 1)[: 2 if quote == "'" else 1] if value else ():
        if 0 <= new < 256:
            yield "b" + quote + repr(bytes([new]))[2:-1].replace(quote, "\\" + quote) + rest + quote


# ---- bodies

# alike: a change that does the same and keeps the shape of the function, as (start, end, new), or nothing
Change = namedtuple("Change", "kind start end new label place alike")
Arm = namedtuple("Arm", "start end comma tokens names wild")


class Body(Reader):
    """Reads a function's body or a constant's value and notes the changes of it. What reads an expression gives its type."""

    def __init__(self, file, world, of):
        self.text, self.at, self.world, self.of = file.text, 0, world, of
        self.tokens = [token for token in file.tokens[of.first : of.first + of.end - of.start] if token.start < of.end]
        self.tokens.append(Token("end", "", of.end, of.end))
        self.changes, self.numbers, self.places, self.given, self.assigned, self.tail = [], [], [], [], [], []
        # where a { begins a block and no struct; where a call of a method or a ? ended; the result of the function, or closure
        self.header, self.called, self.result = False, None, self.full(of.result)
        self.locals = {name: self.full(kind) for name, kind in of.parameters}
        same(self.result, self.block() if self.sees("{") else self.placed(self.expression))
        if self.end not in (of.body_end, of.end - 1):
            raise SyntaxError("%s ends before its end, at line %d" % (of.name, self.text.count("\n", 0, self.end) + 1))
        self.others("return", self.given + self.tail)
        self.others("assignment", self.assigned)
        for token, kind in self.numbers:
            for new in {"int": wholes, "float": floats}.get(token.kind, octets)(token.text, known(kind)):
                self.change("number", token.start, token.end, new)

    def full(self, kind):
        return self.world.full(self.of.home, kind, self.of.owner)

    def placed(self, reader):
        """Reads a place, by whose text a change in it is named."""
        start, given = self.token.start, reader()
        self.places.append((start, self.end))
        return given

    def change(self, kind, start, end, new, label=None, place=None, alike=None):
        self.changes.append(Change(kind, start, end, new, label, place, alike))

    def drop(self, kind, start, end, new="", alike=None):
        self.change(kind, start, end, new, "dropped", (start, end), alike)

    def exchange(self, token):
        sign, equals = (token.text[:-1], "=") if token.text in ASSIGNMENTS else (token.text, "")
        for kind, table in EXCHANGED.items():
            for new in table.get(sign, "").split():
                self.change(kind, token.start, token.end, new + equals)

    def others(self, kind, values):
        """Of the values that are returned, or assigned, each is made the next one that says something else."""
        for at, (start, end) in enumerate(values):
            texts = [self.text[slice(*value)] for value in values[at:] + values[:at]]
            for new in [text for text in texts if text.split() != texts[0].split()][:1]:
                self.change(kind, start, end, new)

    def neighbours(self, kind, given):
        """Two that stand one after the other, each (start, end), are exchanged."""
        for (start, middle), (after, end) in zip(given, given[1:]):
            first, second = self.text[start:middle], self.text[after:end]
            if first.split() != second.split() and ".." not in (first[-2:], second[-2:]):
                label = "%s <-> %s" % (short(first, 60), short(second, 60))
                self.change(kind, start, end, second + self.text[middle:after] + first, label)

    def within(self, header, reader, *words):
        """Reads something in which a { begins a block, or may begin a struct."""
        outer, self.header = self.header, header
        given = reader(*words)
        self.header = outer
        return given

    # -- statements

    def block(self):
        return self.within(False, self.statements)

    def statements(self):
        """Gives the last expression's type; self.returns are the statements that return, self.alone is whether that is all,
        self.tail where the last expression is, if it is a plain one."""
        outer, returns, count, kind, tail = dict(self.locals), [], 0, None, []
        self.take("{")
        while not self.passes("}"):
            start, leaves = self.token.start, self.sees("return")
            plain = not self.sees("let", "return", "{", "if", "match", "while", "loop", "for", "unsafe", "use", "const", "fn", "#")
            kind, count = self.statement(), count + 1
            tail = [(start, self.end)] if plain and self.text[self.end - 1] != ";" else []
            returns += [(start, self.end)] if leaves else []
        self.locals, self.returns, self.alone, self.tail = outer, returns, len(returns) == count == 1, tail
        return kind

    def statement(self):
        self.attributes()
        start = self.token.start
        if self.passes(";"):
            return None
        if self.token.kind == "lifetime" and self.take():
            self.take(":")
        if self.passes("let"):
            return self.let(start)
        if self.sees("const") and self.after() != "{":
            self.take()
            name = self.take().text
            self.take(":")
            self.locals[name] = self.full(self.type())
            self.take("=")
            same(self.locals[name], self.placed(self.expression))
            return self.take(";") and None
        if self.sees("use", "type", "static", "fn", "struct", "enum", "trait", "impl", "macro_rules", "ghost"):  # an item of its own
            return self.left(self.take().text)
        if self.sees("{", "if", "match", "while", "loop", "for") or self.sees("unsafe") and self.after() == "{":
            kind = self.primary()
            while self.sees(".", "?"):
                kind = self.part(behind(kind))
        else:
            kind, idle = self.placed(self.effect)
            if idle:
                self.drop("assignment", start, self.token.end if self.sees(";") else self.end, alike=idle)
            elif self.called == (start, self.end) and self.sees(";"):
                self.drop("assignment", start, self.token.end)
        return None if self.passes(";") else kind

    def let(self, start):
        kind = Open()
        names = self.pattern(kind)
        if self.passes(":"):
            same(kind, self.full(self.type()))
        if self.passes("="):
            first = self.at
            same(kind, self.placed(self.expression))
            if self.at == first + 1:  # one token says too little
                self.places[-1] = (start, self.end)
        self.places.append((start, self.end))  # of a change in the pattern
        if self.passes("else"):
            self.block()
        self.take(";")
        self.locals.update(names)

    def effect(self):
        """An expression or an assignment; gives the type, and of an assignment a change by which it assigns what was there."""
        left = self.token.start
        kind, place = self.expression(), self.text[left : self.end]
        if self.token.text not in ASSIGNMENTS:
            return kind, None
        self.exchange(self.take())
        start = self.token.start
        same(kind, self.expression())
        self.assigned.append((start, self.end))
        return None, (left, self.end, "%s = %s" % (place, place))

    def condition(self):
        """Gives a change by which it never holds; none for a pattern."""
        return self.within(True, self.conditions)

    def conditions(self):
        matched = False
        while True:
            if self.passes("let"):
                matched = True
                kind = Open()
                names = self.pattern(kind)
                self.take("=")
                same(kind, self.placed(lambda: self.expression(LEVEL["&&"] + 1)))
                self.locals.update(names)
            else:
                chained = matched or any(token.text == "let" for token in self.tokens[self.at : self.at + self.ahead()])
                self.placed(lambda: self.expression(LEVEL["&&"] + 1) if chained else self.expression())
                place = self.places[-1]
                self.change("negation", *place, "!(%s)" % self.text[slice(*place)], "negated", place)
                if not chained:
                    return (*place, "(%s) & false" % self.text[slice(*place)])
            if not self.passes("&&"):
                return None

    def ahead(self):
        """How many tokens there are before the next brace."""
        return next(count for count, token in enumerate(self.tokens[self.at :]) if token.text in ("{", ""))

    def choice(self, chained=False):
        outer, start = dict(self.locals), self.take("if").start
        never = self.condition()
        bound = self.locals.keys() - outer.keys()
        first, then = self.at, self.token.start
        kind = self.block()
        self.locals = outer
        needs = any(token.text in bound for token in self.tokens[first : self.at])
        then = self.text[then : self.end]
        if self.passes("else"):
            other = self.token.start
            same(kind, self.choice(True) if self.sees("if") else self.block())
            for branch in ([] if needs else [then]) + [self.text[other : self.end]]:
                self.change("branch", start, self.end, branch, "only " + short(branch, 60), (start, self.end))
        else:
            for place in [(start, self.end)] if self.alone and not chained else self.returns:
                self.drop("return", *place, alike=never if place[0] == start else None)
        return kind

    def loop(self):
        outer, word = dict(self.locals), self.take().text
        if word == "while":
            self.condition()
        if word == "for":
            kind = Open()
            names = self.pattern(kind)
            self.take("in")
            same(("range", kind), self.within(True, self.placed, self.expression))
            self.locals.update(names)
        while not self.sees("{"):  # an invariant or a measure
            self.group()
        self.block()
        self.locals = outer
        for place in self.returns:
            self.drop("return", *place)

    # -- match

    def match(self):
        self.take("match")
        subject, kind = self.within(True, self.placed, self.expression), Open()
        self.take("{")
        arms = [self.within(False, self.arm, subject, kind) for _ in self.listed("}")]
        for at, arm in enumerate(arms):
            for wild in [other for other in arms if other.wild and not arm.wild]:
                self.drop("arm", arm.start, arm.end + arm.comma, alike=(*self.body_of(arm), self.body_for(arm, wild)))
            self.other_body(arm, arms[at + 1 :] + arms[:at])
        if len(arms) == 2 and {self.text[arm.start :].partition("(")[0] for arm in arms} == {"Ok", "Err"}:
            self.exchanged(*arms)
        return kind

    def arm(self, subject, kind):
        self.attributes()
        outer, wild, start = dict(self.locals), self.sees("_"), self.token.start
        names = self.pattern(subject)
        self.locals.update(names)
        if self.passes("if"):
            wild = False
            self.condition()
        self.take("=>")
        first, body = self.at, self.token.start
        value, idle = (self.block(), None) if self.sees("{") else self.effect()
        same(kind, value)
        if idle:
            self.drop("assignment", body, self.end, "{}", alike=idle)
        self.locals = outer
        self.places.append((start, self.end))
        comma = self.token.end - self.end if self.sees(",") else 0
        return Arm(start, self.end, comma, self.tokens[first : self.at], names, wild)

    def missing(self, arm, other):
        """The names of another arm that its body needs and this arm has not."""
        used = {token.text for before, token in zip([None] + other.tokens, other.tokens) if not before or before.text != "."}
        return [name for name, kind in other.names.items() if name in used and known(arm.names.get(name)) != known(kind)]

    def other_body(self, arm, others):
        """The body of the next arm that says something else and needs no name that this arm has not."""
        for other in others:
            bodies = [self.text[slice(*self.body_of(one))].split() for one in (arm, other)]
            if bodies[0] != bodies[1] and not self.missing(arm, other):
                self.change("arm", *self.body_of(arm), self.body_for(arm, other))
                return

    def exchanged(self, arm, other):
        """The bodies of two arms are exchanged where neither needs a name of its own."""
        (start, middle), (after, end) = self.body_of(arm), self.body_of(other)
        first, second = self.text[start:middle], self.text[after:end]
        if first.split() != second.split() and not self.missing(arm, other) + self.missing(other, arm):
            between = ("" if arm.comma or second[0] == "{" else ",") + self.text[middle:after]
            label = "%s <-> %s" % (short(first, 60), short(second, 60))
            self.change("arm", start, end, second + between + first, label, (arm.start, other.end))

    def body_of(self, arm):
        return arm.tokens[0].start, arm.end

    def body_for(self, arm, other):
        """Another arm's body as it stands in this one."""
        new = self.text[slice(*self.body_of(other))]
        return new + ("" if new[0] == "{" or arm.comma else ",")

    # -- patterns

    def pattern(self, kind):
        """Gives the names that the pattern binds, with their types."""
        self.passes("|")
        names = self.simple(kind)
        while self.passes("|"):
            names.update(self.simple(kind))
        return names

    def simple(self, kind):
        """A pattern without the others that it may stand with."""
        if self.sees("&&"):
            self.split()
        if self.passes("&"):
            self.passes("mut")
            inner = known(kind)
            return self.simple(inner[1] if isinstance(inner, tuple) and inner[0] in ("&", "&mut") else None)
        if self.passes("("):
            return self.tuple_pattern(kind)
        if self.passes("["):
            return self.slice_pattern(kind)
        while self.passes("mut", "ref"):
            pass
        names, number = {}, self.literal(kind)
        if not number and self.token.kind in ("string", "bytes", "raw"):
            self.take()
        elif not number and not self.sees("..", "..=") and not self.passes("_"):
            names = self.named_pattern(kind)
        if self.passes("..", "..=") and not self.literal(kind) and self.token.kind == "word" and not self.sees("if"):
            self.path()
        return names

    def literal(self, kind):
        if self.sees("-") or self.token.kind in ("int", "byte", "char", "float"):
            self.passes("-")
            self.number(kind)
            return True
        return False

    def tuple_pattern(self, kind):
        names, given, kind, rest = {}, [], behind(kind), False
        kinds = kind[1] if isinstance(kind, tuple) and kind[0] == "()" else ()
        for at in self.listed(")"):
            rest = rest or self.sees("..")  # behind it nothing tells which is which
            given.append(None if rest else kinds[at] if at < len(kinds) else Open())
            names.update(self.pattern(given[-1]))
        if given and not rest:
            same(kind, ("()", tuple(given)) if len(given) > 1 else given[0])
        return names

    def slice_pattern(self, kind):
        names, given, element = {}, [], Open()
        same(behind(kind), ("[]", element, ""))
        for _ in self.listed("]"):
            start, first = self.token.start, self.at
            bound = self.pattern(element)
            rest = any(token.text == ".." for token in self.tokens[first : self.at])
            names.update(dict.fromkeys(bound) if rest else bound)  # a rest is no element
            given.append((start, self.end))
        self.neighbours("field", given)
        return names

    def named_pattern(self, kind):
        path = self.path()
        if self.sees("!") and self.after() in OPENING:
            self.group()
            return {}
        names, fields = {}, self.world.fields.get(self.full(path), {})
        if self.passes("("):
            word = path.rpartition("::")[2]
            standard = {"Some": ("Option", 1, 0), "Ok": ("Result", 2, 0), "Err": ("Result", 2, 1)}.get(word) if not fields else None
            if standard:
                fields = {"0": parts(kind, standard[0], standard[1])[standard[2]]}
            for at in self.listed(")"):
                names.update(self.pattern(fields.get(str(at))))
        elif self.passes("{"):
            for _ in self.listed("}"):
                self.attributes()
                if self.passes(".."):
                    continue
                while self.sees("mut", "ref") and self.after() != ":":
                    self.take()
                name = self.take().text
                names.update(self.pattern(fields.get(name)) if self.passes(":") else {name: fields.get(name)})
        elif re.fullmatch(r"[a-z_]\w*", path):
            names[path] = kind
            if self.passes("@"):
                names.update(self.pattern(kind))
        return names

    # -- expressions

    def expression(self, least=0):
        kind = None if self.sees("..", "..=") else self.unary()
        while True:
            while self.passes("as"):
                kind = self.full(self.type())
            sign, level = self.token.text, LEVEL.get(self.token.text, 0)
            if least == 0 and self.passes("..", "..="):
                ended = self.sees("]", ")", "{", "}", ",", ";", "=>", ".", "else")
                other = None if ended else self.expression(1)
                same(kind, other)
                return ("range", kind or other)
            if level == 0 or level < least:
                return kind
            self.exchange(self.take())
            other = self.expression(level + 1)
            if sign not in ("<<", ">>"):
                same(kind, other)
            kind = "bool" if level <= 3 else kind or other

    def unary(self):
        if self.sees("-", "!"):
            sign = self.take()
            self.change("negation", sign.start, sign.end, "", sign.text + " dropped")
            return self.unary()
        if self.sees("&&"):
            self.split()
        if self.passes("&"):
            if self.sees("raw") and self.after() in ("const", "mut"):
                self.take()
                self.passes("const")
            return ("&mut" if self.passes("mut") else "&", self.unary())
        if self.passes("*"):
            kind = known(self.unary())
            return kind[-1][0] if isinstance(kind, tuple) and kind[0] == "<>" else kind[1] if isinstance(kind, tuple) else None
        start, kind = self.token.start, self.primary()
        while self.sees(".", "[", "?", "("):
            calls = self.sees("?") or self.sees(".") and self.after(2) in ("(", "::")
            kind = self.part(behind(kind))
            self.called = (start, self.end) if calls else None
        return kind

    def part(self, kind):
        """An element, a range, a field, a method of a value, a call of it, or what a ? leaves of it."""
        if self.passes("?"):
            return kind[2][0] if isinstance(kind, tuple) and kind[0] == "<>" else None
        if self.sees("("):
            self.arguments(None)
            return None
        if self.passes("["):
            index = known(self.within(False, self.expression))
            self.take("]")
            element = kind[1] if isinstance(kind, tuple) and kind[0] != "<>" else kind[2][0] if isinstance(kind, tuple) else None
            same(index[1] if isinstance(index, tuple) else index, "usize")
            return ("[]", element, "") if isinstance(index, tuple) else element
        dot = self.take(".")
        if self.token.kind == "float":  # the field of a field of tuples
            self.take()
            return None
        name, of = self.take(), base(kind)
        if self.passes("::"):
            self.types()
        if not self.sees("("):
            if isinstance(kind, tuple) and kind[0] == "()":
                return kind[1][int(name.text)] if name.text.isdigit() and int(name.text) < len(kind[1]) else None
            return self.field(of, name)
        unknown = (None, "usize" if name.text == "len" else None, ())
        types, result, generics = self.world.functions.get("%s::%s" % (of, name.text), unknown)
        if types is None and name.text in METHODS:
            self.change("comparison", name.start, name.end, METHODS[name.text], ".%s -> .%s" % (name.text, METHODS[name.text]))
        given = {name: Open() for name in generics}
        self.arguments(types and types[1:], given)
        if types is None and name.text == "rev":
            self.change("negation", dot.start, self.end, "", ".rev() dropped")
        return put(result, given)

    def field(self, owner, name):
        """A field of a struct; where it is not known of which, of any that has such a field."""
        old, world = name.text, self.world
        structs = [owner] if isinstance(owner, str) and owner in world.fields else [s for s, made in world.makes.items() if s == made]
        having = [world.fields[s] for s in structs if old in world.fields[s]]
        for fields in having:
            for new in fields:
                if new != old and fields[new] == fields[old]:
                    self.change("field", name.start, name.end, new, ".%s -> .%s" % (old, new))
        kinds = {fields[old] for fields in having}
        return kinds.pop() if len(kinds) == 1 else None

    def number(self, kind):
        self.numbers.append((self.take(), kind))
        return kind

    def primary(self):
        kind, text = self.token.kind, self.token.text
        if kind in ("int", "float"):
            suffix = re.fullmatch(r"(?:0\w+?(?=[iu])|[\d_.]+)([iuf]\w+)", text)
            return self.number(suffix[1] if suffix else Open())
        if kind in ("byte", "bytes"):
            return self.number("u8" if kind == "byte" else ("&", ("[]", "u8", "")))
        if kind == "char":
            return self.number("char")
        if kind in ("string", "raw"):
            return self.take() and ("&", "str")
        if kind == "lifetime":
            self.take()
            self.take(":")
            return self.primary()
        if text in ("true", "false"):
            self.change("bool", self.token.start, self.token.end, "false" if text == "true" else "true")
            return self.take() and "bool"
        if text in ("return", "break", "continue"):
            self.take()
            if self.token.kind == "lifetime":
                self.take()
            start = self.token.start
            value = None if self.sees(";", ",", "}", ")", "]", "=>") else self.expression()
            self.given += [(start, self.end)] if text == "return" and self.end > start else []
            return same(self.result if text == "return" else None, value)
        if text in ("|", "||") or text in ("move", "static") and self.after() in ("|", "||"):
            return self.closure()
        if text in ("unsafe", "const") and self.after() == "{":
            self.take()
            return self.block()
        readers = {"(": self.bracketed, "[": self.bracketed, "{": self.block, "if": self.choice, "match": self.match}
        return self.loop() if text in ("while", "for", "loop") else readers.get(text, self.named)()

    def closure(self):
        outer = dict(self.locals), self.given, self.result
        self.given, self.result = [], None
        self.passes("move", "static")
        if not self.passes("||"):
            self.take("|")
            while not self.passes("|"):
                kind = Open()
                names = self.simple(kind)
                if self.passes(":"):
                    same(kind, self.full(self.type()))
                self.locals.update(names)
                self.passes(",")
        if self.passes("->"):
            self.result = self.full(self.type())
        while self.sees(*CLAUSES) and self.after() != "(" and not self.sees("{"):
            self.group()
        first = self.at
        if self.sees("{"):
            self.block()
            self.others("return", self.given + self.tail)
        else:
            self.placed(self.effect)
            if self.at == first + 1:
                self.places.pop()
        self.locals, self.given, self.result = outer

    def bracketed(self):
        return self.within(False, self.elements)

    def elements(self):
        """What stands in parentheses, a tuple, or an array."""
        closing, kind, length = {"(": ")", "[": "]"}[self.take().text], Open(), ""
        kinds, given, comma = [], [], False
        for _ in self.listed(closing):
            self.attributes()
            start = self.token.start
            kinds.append(self.effect()[0] if closing == ")" else self.expression())
            given.append((start, self.end))
            comma = comma or self.sees(",")
            if self.passes(";"):
                length = self.token.text
                same("usize", self.expression())
        if closing == ")" and (len(kinds) != 1 or comma):
            for at, other in combinations(range(len(kinds)), 2):
                if isinstance(known(kinds[at]), (str, tuple)) and known(kinds[at]) == known(kinds[other]):
                    self.swapped("arguments", given[at], given[other])
            return ("()", tuple(kinds)) if kinds else "()"
        for one in kinds:
            same(kind, one)
        if closing == "]":
            self.neighbours("arguments", given)
        return ("[]", kind, length) if closing == "]" else kind

    def swapped(self, kind, one, other):
        """Two places are exchanged."""
        (start, middle), (after, end) = one, other
        first, second = self.text[start:middle], self.text[after:end]
        if first.split() != second.split():
            label = "%s <-> %s" % (short(first, 60), short(second, 60))
            self.change(kind, start, end, second + self.text[middle:after] + first, label)

    def named(self):
        """A path: of a local or a constant, of a function or a variant that is called, or of a struct that is made; or a macro."""
        path = self.path()
        if self.sees("!") and self.after() in OPENING:
            self.group()
            return None
        full = self.full(path)
        fields, made = self.world.fields.get(full), self.world.makes.get(full)
        primitive = re.fullmatch(r"([iuf]\d+|[iu]size)::(?:[A-Z]+|from_\w+)", path)
        if self.sees("("):
            unknown = (None, primitive[1] if primitive else None, ())
            types, result, generics = (list(fields.values()), made, ()) if made else self.world.functions.get(full, unknown)
            given = {name: Open() for name in generics}
            kinds = self.arguments(types, given)
            if types is None and len(kinds) == 1 and path in ("Some", "Ok", "Err"):
                both = (kinds[0],) if path == "Some" else (kinds[0], Open()) if path == "Ok" else (Open(), kinds[0])
                return ("<>", "Option" if path == "Some" else "Result", both)
            return put(result, given)
        if self.sees("{") and not self.header and (made is None or "0" not in fields) and re.match(r"[A-Z]", path.rpartition("::")[2]):
            self.within(False, self.record, fields or {})
            return made
        return self.locals.get(path) or made or (primitive[1] if primitive else self.world.constants.get(full))

    def arguments(self, types, generics={}):
        """Two arguments of one type are exchanged, and any two where the types are not known. Gives the types of what is given."""
        return self.within(False, self.argument_list, types, generics)

    def argument_list(self, types, generics):
        self.take("(")
        given, kinds = [], []
        for at in self.listed(")"):
            start, kind = self.token.start, self.expression()
            same(put(types[at], generics) if types and at < len(types) else None, kind)
            given.append((start, self.end, self.text[start : self.end]))
            kinds.append(kind)
        for (a, (start, middle, first)), (b, (after, end, second)) in combinations(enumerate(given), 2):
            if first != second and (types is None or max(a, b) < len(types) and types[a] == types[b]):
                label = "%s <-> %s" % (short(first, 60), short(second, 60))
                self.change("arguments", start, end, second + self.text[middle:after] + first, label)
        return kinds

    def record(self, fields):
        """The values of two fields of one type are exchanged."""
        self.take("{")
        given = []
        for _ in self.listed("}"):
            self.attributes()
            if self.passes(".."):
                self.expression()
                continue
            start, name = self.token.start, self.token.text
            self.at += 2 if self.after() == ":" else 0
            value = self.token.start
            same(fields.get(name), self.expression())
            given.append((name, self.text[value : self.end], start, self.end))
            self.places.append((start, self.end))
        for (a, first, start, middle), (b, second, after, end) in combinations(given, 2):
            if first != second and a in fields and fields[a] == fields.get(b):
                label = "%s: %s <-> %s: %s" % (a, short(first, 60), b, short(second, 60))
                self.change("field", start, end, "%s: %s%s%s: %s" % (a, second, self.text[middle:after], b, first), label)


# ---- mutants


def short(text, length):
    """A text on one line without remarks, cut where it is longer."""
    text = " ".join(re.sub(r"//[^\n]*", "", text).split())
    return text if len(text) <= length else text[: length - 3] + " .."


class Mutant:
    """A change of a crate's file: new in place of old, from start to end, in a function or a constant."""

    def __init__(self, file, text, of, change, places):
        self.file, self.kind, self.start, self.end, self.new = file, change.kind, change.start, change.end, change.new
        self.old = text[self.start : self.end]
        self.function, self.constant = (of.name, None) if of.body_start is not None else (None, of.name)
        self.member = bool(of.owner)
        around = [place for place in places if place[0] <= self.start and self.end <= place[1]]
        place = change.place or min(around, key=lambda place: place[1] - place[0])
        self.alike = change.alike
        label = change.label or "%s -> %s" % (short(self.old, 60), short(self.new, 60))
        self.name = '%s%s: %s in "%s"' % ("" if self.function else "const ", of.name, label, short(text[slice(*place)], 100))

    def applied(self, text):
        return text[: self.start] + self.new + text[self.end :]


def mutants_of(files, world):
    """The mutants of a crate's files, given as path to File. Of those that give one text, one that replaces least is kept."""
    found, times = [], Counter()
    for path, file in files.items():
        kept = {}
        for of in [of for of in file.functions if of.first is not None] + file.constants:
            body = Body(file, world, of)
            for change in body.changes:
                mutant = Mutant(path, file.text, of, change, body.places)
                text = mutant.applied(file.text)
                if text != file.text and (mutant.function or mutant.kind == "number"):
                    kept[text] = min(kept.get(text, mutant), mutant, key=lambda one: (len(one.old), KINDS.index(one.kind)))
        found += sorted(kept.values(), key=lambda mutant: mutant.start)
    for mutant in found:
        times[mutant.name] += 1
        mutant.name += " #%d" % times[mutant.name] if times[mutant.name] > 1 else ""
    return found


def libraries(root):
    return sorted(path.split(os.sep)[-3] for path in glob.glob(os.path.join(root, "crates/*/src/lib.rt")))


def sources(root, crate):
    """The files of a crate, by their path in it."""
    top, files = os.path.join(root, "crates", crate), {}
    for path in sorted(glob.glob(os.path.join(top, "src/**/*.rt"), recursive=True)):
        name = os.path.relpath(path, top)
        modules = [part for part in name[:-3].split(os.sep)[1:] if part not in ("lib", "mod")]
        with open(path, encoding="utf-8") as file:
            files[name] = File(file.read(), "::".join([crate] + modules))
    return files


def mutants(root, crate):
    """Every mutant of a crate, in source order."""
    every = {name: sources(root, name) for name in libraries(root)}
    return mutants_of(every[crate], World([file for files in every.values() for file in files.values()]))


# ---- the check

# declarations for the bodies below
GIVEN = """
use outer::lent;
const LIMIT: i64 = 999 / 999;
struct P { a: u8, b: u8, c: bool }
struct Q { p: P, q: P, n: u64 }
enum E { A, B(u8), C(P, u8) }
fn g(x: u8, y: bool, z: u8) -> P requires { ⌜ x < 1 ⌝ } ensures { λ r. ⌜ r .a + 1 ≡ x ⌝ } { P { a: x, b: z, c: y } }
fn pick<T: Drop, const N: usize>(x: T, y: T, z: [T; N]) -> T where T: Copy, { x }
impl P { fn set<'a>(&'a mut self, x: u8, y: u8, z: Option<bool>) -> Option<u8> { x } }
"""
# items of today's forms; the names of their mutants are ITEM_NAMES
ITEMS = """
#![tactic(auto, using(crate::proofs::M::x))]
use outer::{self, inner::{Deep as Deeper, *}};
ghost use Rattle.std.specs.Prelude.{◌≡◌};
macro_rules! made { ($t:ty) => { impl Clone for $t { fn clone(&self) -> $t { 1 } } }; }
made!(u8);
pub trait Shape: Copy + 'static where Self: Sized {
    type Side: Into<u64>;
    const CORNERS: u8;
    ghost area: { Self → ℕ } = { λ s. 1 };
    fn area(&self) -> u64
        ensures { result ≡ area self.now };
    #[tactic(auto)]
    fn corners(&self) -> u8 { 4 }
}
#[repr(C)]
#[derive(Clone, Copy)]
pub struct Pair<'a, T: 'a, const N: usize> where T: Copy { pub(crate) items: [&'a T; N], ghost small: { N < 9 }, }
struct Byte(pub u8);
enum Code { A = 1, #[default] B(u8), C { x: u8 }, }
impl<'a, T: Copy, const N: usize> Pair<'a, T, N> {
    pub const SIZE: usize = 7;
    pub const fn size(&'a self, by: usize) -> usize requires bound { by < 9 } ensures* { ⌜ result ≡ 1 ⌝ } { 5 }
}
impl<T> Pair<'_, Option<T>, 3> { fn first(&self) {} fn none() -> u8 { 1 } }
impl<'a> TryFrom<&'a [u8]> for Code { type Error = (); fn try_from(s: &'a [u8]) -> Result<Self, ()> { h(3) } }
impl From<Code> for u8 { fn from(code: Code) -> u8 { 6 } }
impl<T, F> Shape for &mut Pair<'_, Vec<T>, 3> where F: Fn(u8) -> Vec<Vec<u8>>, {
    type Side = u8;
    const CORNERS: u8 = 0x4;
    ghost area = { 1 };
}
impl core::ops::Add for part::Code { fn add(self, other: Self) -> Code { Self::B(8) } }
impl Mul<Code> for Code { fn mul(self, (a, _): (u8, u8), [b, _]: [u8; 2], f: &dyn Fn(u8) -> u8) -> Code { Code::B(2) } }
unsafe impl<T: ?Sized> Drop for Box<T> { fn drop(&mut self) { h(0) } }
pub mod part {
    use super::{Byte};
    pub unsafe extern "C" fn at<A: for<'x> Fn(&'x u8) -> u8>(a: impl Fn(u8), b: *const u8, c: <A as FnOnce<(u8,)>>::Output) -> u8 { 9 }
    impl Byte { fn value(self) -> u8 { 65u8 } }
}
extern "C" { fn other(x: u8) -> u8; }
static LIMITS: [u8; 2] = [1, 1];
#[cfg(test)]
mod tests { fn left() -> u8 { 1 } }
#[test]
fn left() -> u8 { 1 }
"""
# kind, the head of a function, its body, and what the body becomes in each mutant of that kind
CASES = [
    ("number", "fn f(x: i64) -> bool", "x < 0", "x < 1", "x < -1"),
    ("number", "fn f(x: u8) -> bool", "(x < 0) | (x == 255)", "(x < 1) | (x == 255)", "(x < 0) | (x == 254)"),
    ("number", "fn f() -> u64", "0x0f_ff + 10u64", "0x10_00 + 10u64", "0x0f_fe + 10u64", "0x0f_ff + 11u64", "0x0f_ff + 9u64"),
    ("number", "fn f(x: f32) -> f32", "x * 0.5 // 7", "x * 1.5 // 7", "x * -0.5 // 7"),
    ("number", "fn f() -> f32", "1_000_000_000.0", "1_000_000_064.0", "999_999_936.0"),
    ("number", "fn f() -> u8", r"""h(b"\n2"); b'~'""", r"""h(b"\x0b2"); b'~'""", r"""h(b"\n2"); b'\x7f'""", r"""h(b"\n2"); b'}'"""),
    ("comparison", "fn f(x: u8, y: u8) -> bool", "x < y", "x <= y", "x >= y"),
    ("comparison", "fn f(x: u8) -> bool", "(x >= 1) & (x != 2)", "(x > 1) & (x != 2)", "(x < 1) & (x != 2)", "(x >= 1) & (x == 2)"),
    ("arithmetic", "fn f(x: &u8) -> u8", "h(&y); *x + 1", "h(&y); *x - 1", "h(&y); *x * 1", "h(&y); *x / 1"),
    ("arithmetic", "fn f(mut x: u8)", "x %= 2 << x; -x & 1", "x /= 2 << x; -x & 1", "x %= 2 >> x; -x & 1", "x %= 2 << x; -x | 1"),
    ("negation", "fn f(x: i8)", "while !(x < -1) {}", "while (x < -1) {}", "while !(x < 1) {}", "while !(!(x < -1)) {}"),
    ("bool", "fn f() -> P", "g(1, true, 2)", "g(1, false, 2)"),
    ("arguments", "fn f(x: u8) -> P", "lent(x, &x); g(x, true, 2)", "lent(&x, x); g(x, true, 2)", "lent(x, &x); g(2, true, x)"),
    ("arguments", "fn f(p: P, x: u8) -> E", "E::C(p, x)"),
    ("field", "fn f(s: Q) -> u8", "s.p.a", "s.q.a", "s.p.b"),
    ("field", "fn f(e: E) -> u8", "match e { E::C(p, _) => p.b, _ => g(0, true, 1).c }", "match e { E::C(p, _) => p.a, _ => g(0, true, 1).c }"),
    ("field", "fn f(a: u8) -> P", "P { a, b: 2, c: true }", "P { a: 2, b: a, c: true }"),
    ("assignment", "fn f(mut p: P, s: &mut [u8])", "let mut i = 0; p.a = 1; s[i] += 2;", "let mut i = 0;  s[i] += 2;", "let mut i = 0; p.a = 1; "),
    ("assignment", "fn f(mut p: P, x: u8)", "p.a = x; p.b = 9;", " p.b = 9;", "p.a = x; ", "p.a = 9; p.b = 9;", "p.a = x; p.b = x;"),
    ("assignment", "fn f(mut p: P, x: u8)", "match x { 1 => p.a = 1, _ => {} }", "match x { 1 => {}, _ => {} }"),
    ("return", "fn f(x: u8) -> u8", "if x < 1 { return 1; } if x < 2 { h(x); return 3; } x", " if x < 2 { h(x); return 3; } x",
        "if x < 1 { return 1; } if x < 2 { h(x);  } x", "if x < 1 { return 3; } if x < 2 { h(x); return 3; } x",
        "if x < 1 { return 1; } if x < 2 { h(x); return x; } x", "if x < 1 { return 1; } if x < 2 { h(x); return 3; } 1"),
    ("branch", "fn f(x: u8) -> u8", "if x < 1 { 1 } else { x }", "{ 1 }", "{ x }"),
    ("arm", "fn f(e: E) -> u8", "match e { E::A => { 0 } E::B(x) => x, _ => 1 }", "match e {  E::B(x) => x, _ => 1 }",
        "match e { E::A => { 0 }  _ => 1 }", "match e { E::A => 1, E::B(x) => x, _ => 1 }", "match e { E::A => { 0 } E::B(x) => 1, _ => 1 }",
        "match e { E::A => { 0 } E::B(x) => x, _ => { 0 } }"),
    # today's forms
    ("number", "fn f(x: u8) -> u8", "match x { 1..=3 | 7 => x, _ => x }", "match x { 2..=3 | 7 => x, _ => x }",
        "match x { 0..=3 | 7 => x, _ => x }", "match x { 1..=4 | 7 => x, _ => x }", "match x { 1..=2 | 7 => x, _ => x }",
        "match x { 1..=3 | 8 => x, _ => x }", "match x { 1..=3 | 6 => x, _ => x }"),
    ("number", "fn f(c: char) -> bool", "c == 'a' || c == '\\''", "c == 'b' || c == '\\''", "c == '`' || c == '\\''",
        "c == 'a' || c == '('", "c == 'a' || c == '&'"),
    ("number", "fn f(x: u8) -> bool", 'println!("{}", 1); assert!(x < 2); matches!(x, 1..=3 if x > 2)'),
    ("number", "fn f() -> u8", "'a: loop { 'b: while true { continue 'a; } break 'a 3; }",
        "'a: loop { 'b: while true { continue 'a; } break 'a 4; }", "'a: loop { 'b: while true { continue 'a; } break 'a 2; }"),
    ("number", "fn f(x: i8) -> i8", "let t = ((1, x), x); t.0.1 - if let (0, n) = t.0 { n } else { x }",
        "let t = ((2, x), x); t.0.1 - if let (0, n) = t.0 { n } else { x }",
        "let t = ((0, x), x); t.0.1 - if let (0, n) = t.0 { n } else { x }",
        "let t = ((1, x), x); t.0.1 - if let (1, n) = t.0 { n } else { x }"),
    ("number", "fn f<T: AsRef<[u8]>, const N: usize>(s: &T) -> usize where T: Clone,",
        "N + Vec::<u8>::with_capacity(1).len() + <T as Size>::size(s)", "N + Vec::<u8>::with_capacity(2).len() + <T as Size>::size(s)",
        "N + Vec::<u8>::with_capacity(0).len() + <T as Size>::size(s)"),
    ("number", "fn f(s: &[u8]) -> u8", "const K: u8 = 255; use outer::x; let &[mut a, ref b @ .., c] = s else { return K; }; a",
        "const K: u8 = 254; use outer::x; let &[mut a, ref b @ .., c] = s else { return K; }; a"),
    ("comparison", "fn f(s: &[u8]) -> bool", "s.iter().rev().all(|x| *x < 3)", "s.iter().rev().any(|x| *x < 3)",
        "s.iter().rev().all(|x| *x <= 3)", "s.iter().rev().all(|x| *x >= 3)"),
    ("comparison", "fn f(x: u8) -> bool", "(|a: u8, (b, _)| -> bool ensures c { result ≡ a < b } { a < b })(x, (x, 1))",
        "(|a: u8, (b, _)| -> bool ensures c { result ≡ a < b } { a <= b })(x, (x, 1))",
        "(|a: u8, (b, _)| -> bool ensures c { result ≡ a < b } { a >= b })(x, (x, 1))"),
    ("arithmetic", "fn f(x: u8) -> u8", "(0..x).map(move |y| y as u8 + x).sum::<u8>()", "(0..x).map(move |y| y as u8 - x).sum::<u8>()",
        "(0..x).map(move |y| y as u8 * x).sum::<u8>()", "(0..x).map(move |y| y as u8 / x).sum::<u8>()"),
    ("negation", "fn f(s: &[u8]) -> u8", "for (i, x) in s.iter().enumerate().rev() invariant { 0 < 1 } { h(i); } 0",
        "for (i, x) in s.iter().enumerate() invariant { 0 < 1 } { h(i); } 0"),
    ("negation", "fn f(o: Option<u8>) -> u8", "match o { Some(n) if n > 1 => n, _ => 0 }",
        "match o { Some(n) if !(n > 1) => n, _ => 0 }"),
    ("negation", "fn f(o: Option<u8>) -> u8", "if let Some(x) = o && x > 1 { x } else { 0 }",
        "if let Some(x) = o && !(x > 1) { x } else { 0 }"),
    ("negation", "fn f(mut v: Vec<u8>) -> u8", "while let Some(x) = v.pop() { if p == (P { a: x, ..p }) { return x; } } 0",
        "while let Some(x) = v.pop() { if !(p == (P { a: x, ..p })) { return x; } } 0"),
    ("arguments", "fn f(a: u8, b: u8) -> [u8; 3]", "let c = [0u8; 4]; [a, b, b]", "let c = [0u8; 4]; [b, a, b]"),
    ("arguments", "fn f(a: u8, b: u8, c: bool) -> (u8, u8, bool)", "(a, b, c)", "(b, a, c)"),
    ("arguments", "fn f(mut p: P, x: u8) -> u8", "p.set(1, x, None)?; pick(x, 2, [])", "p.set(x, 1, None)?; pick(x, 2, [])",
        "p.set(1, x, None)?; pick(2, x, [])"),
    ("field", "fn f(s: &[u8]) -> u8", "let [a, b, ..] = *s else { return 0; }; a", "let [b, a, ..] = *s else { return 0; }; a"),
    ("field", "fn f(p: P) -> P", "let Self { a, b: c, .. } = p; P { a, b: c, ..p }",
        "let Self { a, b: c, .. } = p; P { a: c, b: a, ..p }"),
    ("field", "fn f(o: Option<&P>) -> u8", "o.map_or(0, |p| p.a) + match o { Some(&P { a, .. }) => a, None => 0 }",
        "o.map_or(0, |p| p.b) + match o { Some(&P { a, .. }) => a, None => 0 }"),
    ("assignment", "fn f(v: &mut [u8]) -> Option<()>", "v.reverse(); h(v)?; h(v); v[0] += 1; Some(())",
        " h(v)?; h(v); v[0] += 1; Some(())", "v.reverse();  h(v); v[0] += 1; Some(())", "v.reverse(); h(v)?; h(v);  Some(())"),
    ("return", "fn f(r: Result<u8, E>) -> Result<u8, E>",
        "let Ok(x) = r else { return Err(E::A); }; let y = s.map(|x| { if x { return k; } 2 })?; Ok(y)",
        "let Ok(x) = r else { return Ok(y); }; let y = s.map(|x| { if x { return k; } 2 })?; Ok(y)",
        "let Ok(x) = r else { return Err(E::A); }; let y = s.map(|x| {  2 })?; Ok(y)",
        "let Ok(x) = r else { return Err(E::A); }; let y = s.map(|x| { if x { return 2; } 2 })?; Ok(y)",
        "let Ok(x) = r else { return Err(E::A); }; let y = s.map(|x| { if x { return k; } k })?; Ok(y)",
        "let Ok(x) = r else { return Err(E::A); }; let y = s.map(|x| { if x { return k; } 2 })?; Err(E::A)"),
    ("branch", "fn f(o: Option<u8>) -> u8", "if let Some(x) = o { x } else { 0 }", "{ 0 }"),
    ("arm", "fn f(r: Result<u8, u8>) -> bool", "match r { Ok(_) => true, Err(_) => { false } }",
        "match r { Ok(_) => { false }, Err(_) => { false } }", "match r { Ok(_) => true, Err(_) => true, }",
        "match r { Ok(_) => { false }, Err(_) => true }"),
    ("arm", "fn f(o: Option<u8>) -> u8", "match o { Some(x) => x, None => 0 }", "match o { Some(x) => 0, None => 0 }"),
]
ITEM_NAMES = [
    'Shape::corners: 4 -> 5 in "4"', 'Shape::corners: 4 -> 3 in "4"', 'const Pair::SIZE: 7 -> 8 in "7"', 'const Pair::SIZE: 7 -> 6 in "7"',
    'Pair::size: 5 -> 6 in "5"', 'Pair::size: 5 -> 4 in "5"', 'Pair+Option+T::none: 1 -> 2 in "1"', 'Pair+Option+T::none: 1 -> 0 in "1"',
    'CodeTryFromRefSliceU8::try_from: 3 -> 4 in "h(3)"', 'CodeTryFromRefSliceU8::try_from: 3 -> 2 in "h(3)"',
    'U8FromCode::from: 6 -> 7 in "6"', 'U8FromCode::from: 6 -> 5 in "6"', 'const RefMutPairVecShape::CORNERS: 0x4 -> 0x5 in "0x4"',
    'const RefMutPairVecShape::CORNERS: 0x4 -> 0x3 in "0x4"',
    'PartCodeAdd::add: 8 -> 9 in "Self::B(8)"', 'PartCodeAdd::add: 8 -> 7 in "Self::B(8)"',
    'CodeMul::mul: 2 -> 3 in "Code::B(2)"', 'CodeMul::mul: 2 -> 1 in "Code::B(2)"', 'Box::drop: 0 -> 1 in "h(0)"',
    'part::at: 9 -> 10 in "9"', 'part::at: 9 -> 8 in "9"', 'Byte::value: 65u8 -> 66u8 in "65u8"', 'Byte::value: 65u8 -> 64u8 in "65u8"',
    'const LIMITS: 1 -> 2 in "[1, 1]"', 'const LIMITS: 1 -> 0 in "[1, 1]"',
    'const LIMITS: 1 -> 2 in "[1, 1]" #2', 'const LIMITS: 1 -> 0 in "[1, 1]" #2',
]
NAMES = [
    'const LIMIT: 999 -> 1000 in "999 / 999"', 'const LIMIT: 999 -> 998 in "999 / 999"', 'const LIMIT: 999 -> 1000 in "999 / 999" #2',
    'const LIMIT: 999 -> 998 in "999 / 999" #2', 'g: a: x <-> b: z in "P { a: x, b: z, c: y }"',
]


def check():
    """Whether each case has exactly the mutants that are written down, and GIVEN and ITEMS those of the names written down."""
    failed = 0
    for kind, head, body, *expected in [*CASES, (None, "", "", *NAMES)]:
        file = File(GIVEN + (head and head + "\n    ensures { ⌜ 1 < 2 ⌝ }\n{ " + body + "\n}"), "c")
        place, made = file.functions[-1].body_start + 2, mutants_of({"src/lib.rt": file}, World([file]))
        given = {m.applied(file.text)[place:-2] for m in made if m.function == "f" and m.kind == kind} if kind else {m.name for m in made}
        for text in given ^ set(expected):
            print("FAILED: %s of %s: %s: %s" % (kind, body, "missing" if text in expected else "not expected", text))
            failed += 1
    file = File(ITEMS, "c")
    given = {mutant.name for mutant in mutants_of({"src/lib.rt": file}, World([file]))}
    for name in given ^ set(ITEM_NAMES):
        print("FAILED: of the items: %s: %s" % ("missing" if name in ITEM_NAMES else "not expected", name))
        failed += 1
    print("%d cases, %d differences" % (len(CASES) + 1, failed))
    return failed == 0


def main(words):
    if words == ["--check"]:
        return check()
    if words[:1] == ["--list"]:
        for mutant in [mutant for crate in words[1:] for mutant in mutants(ROOT, crate)]:
            print("%-10s  %s" % (mutant.kind, mutant.name))
        return True
    rows = {crate: Counter(mutant.kind for mutant in mutants(ROOT, crate)) for crate in words or libraries(ROOT)}
    print("%-12s%s%12s" % ("", "".join("%12s" % kind for kind in KINDS), "all"))
    for crate, counts in [*rows.items(), ("all", sum(rows.values(), Counter()))]:
        print("%-12s%s%12d" % (crate, "".join("%12d" % counts[kind] for kind in KINDS), sum(counts.values())))
    return True


if __name__ == "__main__":
    sys.exit(0 if main(sys.argv[1:]) else 1)
