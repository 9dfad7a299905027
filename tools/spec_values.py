"""Computes closed terms of the definitions in crates/*/specs by Python, from their text: what the checker computes by `refl`.

    spec_values.Terms().value(MODULE, TEXT)

It knows what the definitions of the exchange use: equations by patterns, records, `if`, `let`, `λ`, fields, operators, and
other names of `use` lines; neither `elim` nor `do` nor modules with parameters. Arguments are computed before a call, the
branches of `if`, `&&` and `||` alone when they are asked for. The natives of spec_natives.py stand for the library's
functions, hashes and ciphers, and for the readers of DER, of UTF-16 and of chains. A number is an int, a list a tuple.
"""
import glob
import os
import re

from spec_natives import BY_MODULE, NATIVES, REPLACED
from spec_words import Case, Function, Record, applied

TOP = os.path.dirname(os.path.dirname(os.path.abspath(__file__)))
WORD = re.compile(r'"[^"]*"|[(){};,]|\[\]|[^\s(){};,\[\]"]+')
NUMBER = re.compile(r"0x[0-9a-fA-F_]+|[0-9][0-9_]*")
BINDS = {">>=": (1, 0), "or_else": (1, 0), "||": (2, 1), "&&": (3, 1), "==": (4, 0), "\u2237": (5, 1), "++": (5, 1)}
BINDS |= {"+": (6, 0), "-": (6, 0), "*": (7, 0), "/": (7, 0), "%": (7, 0), "^": (8, 1)}  # how strongly, and whether to the right
STRICT = {
    "==": lambda a, b: a == b,
    "\u2237": lambda a, b: (a,) + b,
    "++": lambda a, b: a + b,
    "+": lambda a, b: a + b,
    "-": lambda a, b: max(a - b, 0),
    "*": lambda a, b: a * b,
    "/": lambda a, b: a // b,
    "%": lambda a, b: a % b,
    "^": lambda a, b: a**b,
}
ENDS = {"then", "else", "in", ")", "}", ";", ",", "where", "=", None}


def number(word):
    return int(word.replace("_", ""), 0) if NUMBER.fullmatch(word) else None


# ---- patterns: a function of a value and of the bindings, which says whether it fits


def nested(words):
    """Words with what stands in parentheses as lists; implicit arguments are left out."""
    stack = [[]]
    for word in words:
        if word in "({":
            stack.append([])
        elif word in ")}":
            inner = stack.pop()
            if word == ")":
                stack[-1].append(inner)
        else:
            stack[-1].append(word)
    return stack[0]


class Pattern:
    """Of one argument: a word, or the list of words that stands in parentheses."""

    def __init__(self, part, uses):
        self.part, self.uses = part, uses

    def fits(self, value, bound):
        return self.fits_list(self.part, value, bound) if isinstance(self.part, list) else self.fits_word(self.part, value, bound)

    def fits_list(self, parts, value, bound):
        if "," in parts:
            at = parts.index(",")
            return self.inner(parts[:at], value[0], bound) and self.inner(parts[at + 1 :], value[1], bound)
        if "\u2237" in parts:
            at = parts.index("\u2237")
            return bool(value) and self.inner(parts[:at], value[0], bound) and self.inner(parts[at + 1 :], value[1:], bound)
        if len(parts) == 1:
            return self.inner(parts[0], value, bound)
        if parts[0] == "suc":
            return value > 0 and self.inner(parts[1], value - 1, bound)
        if not isinstance(value, Case) or value.name != self.named(parts[0]):
            return False
        return all(self.inner(part, one, bound) for part, one in zip(parts[1:], value.parts))

    def inner(self, part, value, bound):
        return Pattern(part, self.uses).fits(value, bound)

    def named(self, word):
        return self.uses.get(word, (None, word))[1].split(".")[-1]

    def fits_word(self, word, value, bound):
        if word == "_":
            return True
        if word in ("true", "false", "[]", "zero") or number(word) is not None:
            return value == {"true": True, "false": False, "[]": (), "zero": 0}.get(word, number(word))
        if len(word) > 1 and word.split(".")[-1][0].isupper():
            return isinstance(value, Case) and value.name == self.named(word)
        bound[word] = value
        return True


# ---- expressions: read to functions of the bindings


class Reader:
    def __init__(self, words, module):
        self.words, self.at, self.module = words, 0, module

    def peek(self):
        return self.words[self.at] if self.at < len(self.words) else None

    def next(self, due=None):
        word = self.peek()
        if word is None or due not in (None, word):
            raise ValueError(f"{self.module.name}: {word} where {due} is due: {' '.join(self.words[:self.at + 5])}")
        self.at += 1
        return word

    def whole(self):
        read = self.expression()
        if self.peek() not in (None, "where"):
            raise ValueError(f"{self.module.name}: {self.peek()} isn't understood")
        return read

    def expression(self, least=0):
        first = {"if": self.choice, "let": self.binding, "\u03bb": self.closure}.get(self.peek())
        if first:
            return first()
        left = self.application()
        while self.peek() in BINDS and BINDS[self.peek()][0] >= least:
            word = self.next()
            strength, right_first = BINDS[word]
            left = self.joined(word, left, self.expression(strength if right_first else strength + 1))
        return left

    def joined(self, word, left, right):
        if word == "&&":
            return lambda bound: left(bound) and right(bound)
        if word == "||":
            return lambda bound: left(bound) or right(bound)
        if word in STRICT:
            return lambda bound: STRICT[word](left(bound), right(bound))
        return lambda bound: applied(self.module.value(f"\u25cc{word}\u25cc"), [left(bound), right(bound)])

    def choice(self):
        self.next("if")
        test = self.expression()
        self.next("then")
        one = self.expression()
        self.next("else")
        other = self.expression()
        return lambda bound: one(bound) if test(bound) else other(bound)

    def binding(self):
        self.next("let")
        name = self.next()
        self.next("=")
        what = self.expression()
        self.next("in")
        where = self.expression()
        return lambda bound: where({**bound, name: what(bound)})

    def closure(self):
        self.next("\u03bb")
        names = [self.next()]
        while not names[-1].endswith("."):
            names.append(self.next())
        names[-1] = names[-1][:-1]
        body = self.expression()
        return lambda bound: Function(len(names), lambda *values: body({**bound, **dict(zip(names, values))}))

    def application(self):
        head, rest = self.atom(), []
        while self.peek() not in ENDS and self.peek() not in BINDS:
            rest.append(self.expression() if self.peek() in ("if", "let", "\u03bb") else self.atom())
        return (lambda bound: applied(head(bound), [one(bound) for one in rest])) if rest else head

    def atom(self):
        word = self.next()
        if word == "(":
            return self.with_fields(self.parenthesis())
        if word == "record":
            return self.record()
        known = {"[]": ()}.get(word, number(word))
        if word[0] == '"':
            known = word[1:-1]
        return self.name(word) if known is None else lambda bound: known

    def parenthesis(self):
        inner = [self.expression()]
        while self.peek() == ",":
            self.next()
            inner.append(self.expression())
        self.next(")")
        return inner[0] if len(inner) == 1 else lambda bound: tuple(one(bound) for one in inner)

    def with_fields(self, read):
        while self.peek() is not None and re.match(r"\.\w", self.peek()):
            for name in self.next()[1:].split("."):
                read = field(read, name)
        return read

    def record(self):
        base = None if self.peek() == "{" else self.atom()
        self.next("{")
        fields = {}
        while self.peek() != "}":
            name = self.next()
            self.next("=")
            fields[name] = self.expression()
            if self.peek() == ";":
                self.next()
        self.next("}")
        return lambda bound: Record({**(base(bound).fields if base else {}), **{name: one(bound) for name, one in fields.items()}})

    def name(self, word):
        first, *rest = word.split(".")
        module = self.module

        def read(bound):
            return bound[first] if first in bound else module.value(first)

        if rest and first in module.aliases:
            second, *rest = rest

            def read(bound, first=first):
                return part_of(bound[first], second) if first in bound else module.terms.named(module.aliases[first], second)

        for one in rest:
            read = field(read, one)
        return read


def part_of(value, name):
    return value[int(name)] if name.isdigit() else value.fields[name]


def field(read, name):
    return lambda bound: part_of(read(bound), name)


# ---- modules


class Module:
    """The definitions of one file of specs."""

    def __init__(self, terms, name, text):
        self.terms, self.name, self.uses, self.aliases, self.known = terms, name, {}, {}, {}
        self.declared, self.equations = set(), {}
        chunks = []
        for line in re.sub(r"(?m)--[^\n]*$", "", text).split("\n"):
            if line.strip() and line[0] in " \t})]" and chunks:
                chunks[-1] += "\n" + line
            elif line.strip():
                chunks.append(line)
        equations = [chunk for chunk in chunks if not self.is_told(chunk)]
        for chunk in equations:
            self.take(WORD.findall(chunk))

    def is_told(self, chunk):
        """A `use`, a declaration, or what has no value."""
        many, one = re.match(r"(?:pub )?use ([\w.]+)\.\{([^}]*)\}", chunk), re.match(r"(?:pub )?use ([\w.]+)(?: as (\w+))?", chunk)
        if many:
            for item in many[2].split(","):
                told, _, other = item.strip().partition(" as ")
                self.uses[other or told] = (many[1], told)
        elif one:
            self.aliases[one[2] or one[1].split(".")[-1]] = one[1]
        declares = re.match(r"(?:(?:unfoldable|abbrev) )?(?:pub )?(\S+) :\s", chunk + "\n")
        if declares:
            self.declared.add(declares[1])
        return bool(one or declares or re.match(r"(pub )?(data|record|mod|infix\w*|unfolding|module)\b", chunk))

    def take(self, words):
        depth, at = 0, None
        for place, word in enumerate(words):
            depth += (word in "({") - (word in ")}")
            if word == "=" and depth == 0:
                at = place
                break
        if at is None:
            return
        left = nested(words[:at])
        name, patterns = left[0], left[1:]
        operator = [place for place, word in enumerate(left) if isinstance(word, str) and f"\u25cc{word}\u25cc" in self.declared]
        if operator:
            name, patterns = f"\u25cc{left[operator[0]]}\u25cc", [left[: operator[0]], left[operator[0] + 1 :]]
        if isinstance(name, str):
            self.equations.setdefault(name, []).append(([Pattern(part, self.uses) for part in patterns], words[at + 1 :]))

    def value(self, name):
        if name not in self.known:
            self.known[name] = self.computed(name)
        return self.known[name]

    def computed(self, name):
        base = self.name.split(".")[-1]
        if name in REPLACED or (base, name) in BY_MODULE:
            return BY_MODULE.get((base, name)) or NATIVES[name]
        if name in self.equations:
            return self.function(name)
        if name in self.uses:
            return self.terms.named(*self.uses[name])
        return self.terms.native(name, self.name)

    def function(self, name):
        clauses, bodies = self.equations[name], {}

        def called(*values):
            for place, (patterns, words) in enumerate(clauses):
                bound = {}
                if all(pattern.fits(value, bound) for pattern, value in zip(patterns, values)):
                    if place not in bodies:
                        bodies[place] = Reader(words, self).whole()
                    return bodies[place](bound)
            raise ValueError(f"no clause of {self.name}.{name} fits")

        count = len(clauses[0][0])
        return Function(count, called) if count else called()


class Terms:
    """All definitions of the repository; `top` is another folder of crates."""

    def __init__(self, top=os.path.join(TOP, "crates")):
        self.modules = {}
        for path in glob.glob(os.path.join(top, "*", "specs", "**", "*.antt"), recursive=True):
            crate, _, *module = os.path.relpath(path, top)[: -len(".antt")].split(os.sep)
            base = ".".join(module)
            with open(path, encoding="utf-8") as file:
                name = f"Rattle.{crate}.specs.{base}"
                self.modules[name] = Module(self, name, file.read())

    def named(self, module, name):
        base = module.split(".")[-1]
        if (base, name) in BY_MODULE:
            return BY_MODULE[base, name]
        found = self.modules.get(module)
        if found and (name in found.equations or name in found.uses):
            return found.value(name)
        return self.native(name, module)

    def native(self, name, module):
        if name in NATIVES:
            return NATIVES[name]
        if name[0].isupper():
            return Case(name)
        raise ValueError(f"{name} of {module} isn't known")

    def value(self, module, text):
        return Reader(WORD.findall(text), self.modules[module]).whole()({})
