"""The functions, types and traits of `crates/*/src`, read from the text: nothing is run or proved.

`Source(crates)` reads all files. `found` tells what a path stands for in a module, by its `use` items, and `typed` the type that
is written somewhere. `source_calls.py` reads the bodies of functions by them."""

import glob
import os
import re

TOKEN = re.compile(
    r"""//[^\n]*|\s+|(?P<text>b?"(?:\\.|[^"\\])*"|b?'(?:\\[^u]|\\u\{\w+\}|\\x\w\w|[^'\\])')|(?P<life>'[^\W\d]\w*)"""
    r"""|(?P<number>\d\w*(?:\.\d\w*)?)|(?P<word>[^\W\d]\w*)"""
    r"""|(?P<mark>::|->|=>|==|!=|<=|>=|&&|\|\||\.\.=|\.\.\.|\.\.|[-+*/%^&|]=|.)""",
    re.S,
)
UNKNOWN = ("?", ())
NUMBER = ("number", ())
CLAUSES = ("requires", "ensures")
PAIRS = {"(": ")", "[": "]", "{": "}"}


def tokens(text):
    out = []
    for found in TOKEN.finditer(text):
        if found.lastgroup:
            out.append((found.lastgroup, found.group()))
    return out


def below(path):
    """for each crate the crates on which it stands, also those further down"""
    with open(path, encoding="utf-8") as file:
        direct = {name: words.split() for name, words in re.findall(r"^(\w+)[^:#\n]*:([^#\n]*)", file.read(), re.M)}
    found = {}

    def all_of(name):
        if name not in found:
            found[name] = set().union(*({one} | all_of(one) for one in direct[name] if one in direct))
        return found[name]

    for name in direct:
        all_of(name)
    return found


class Function:
    def __init__(self, crate, module, name, owner, generics):
        self.crate, self.module, self.name, self.owner, self.generics = crate, module, name, owner, generics
        self.takes, self.gives, self.body, self.trait = [], None, None, None

    def shown(self):
        owner = self.owner[1][-1][0] + "::" if self.owner and self.owner[0] == "path" else ""
        return "%s::%s%s" % (self.module, owner, self.name)


class Cursor:
    """a place in the tokens of a file"""

    def __init__(self, toks, at=0):
        self.toks, self.at = toks, at

    def peek(self, ahead=0):
        return self.toks[self.at + ahead][1] if self.at + ahead < len(self.toks) else ""

    def kind(self, ahead=0):
        return self.toks[self.at + ahead][0] if self.at + ahead < len(self.toks) else ""

    def next(self):
        self.at += 1
        return self.toks[self.at - 1][1]

    def eat(self, what):
        if self.peek() == what:
            self.at += 1
            return True
        return False

    def need(self, what):
        if not self.eat(what):
            around = " ".join(tok for _, tok in self.toks[max(0, self.at - 12) : self.at + 6])
            raise SyntaxError("%r is wanted: %s" % (what, around))

    def skip_group(self):
        """over a group in brackets, whose opening one is next"""
        depth = 0
        while True:
            tok = self.next()
            if tok in PAIRS and self.toks[self.at - 1][0] == "mark":
                depth += 1
            elif tok in (")", "]", "}") and self.toks[self.at - 1][0] == "mark":
                depth -= 1
                if depth == 0:
                    return

    def skip_to(self, *ends):
        while self.peek() not in ends:
            if not self.peek():
                return
            if self.peek() in PAIRS and self.kind() == "mark":
                self.skip_group()
            else:
                self.at += 1

    def attributes(self):
        found = []
        while self.peek() == "#" and self.peek(1) in ("[", "!"):
            self.at += 1
            self.eat("!")
            begin = self.at
            self.skip_group()
            found.append("".join(tok for _, tok in self.toks[begin : self.at]))
        return found

    # types, as they are written
    def type(self):
        tok = self.peek()
        if tok in ("&", "&&"):
            self.at += 1
            if self.kind() == "life":
                self.at += 1
            self.eat("mut")
            return self.type()
        if tok in ("dyn", "impl"):
            self.at += 1
            return ("any", self.bounds())
        if tok == "*":
            self.at += 2
            return self.type()
        if tok == "(":
            return ("tuple", self.listed("(", ")"))
        if tok == "[":
            self.at += 1
            inner = self.type()
            self.skip_to("]")
            self.need("]")
            return ("slice", inner)
        if tok == "!":
            self.at += 1
            return ("tuple", [])
        if tok == "fn":
            self.at += 1
            self.skip_group()
            if self.eat("->"):
                return ("fn", self.type())
            return ("fn", None)
        if tok == "<":
            self.at += 1
            inner = self.type()
            trait = self.type() if self.eat("as") else None
            self.need(">")
            self.need("::")
            return ("part", inner, trait, self.next())
        return ("path", self.path(False))

    def listed(self, begin, end):
        self.need(begin)
        found = []
        while not self.eat(end):
            if self.kind() == "life" or self.kind() == "number" or self.peek() == "_":
                self.at += 1
            elif self.peek() == "{":
                self.skip_group()
            elif self.kind() == "word" and self.peek(1) == "=":
                self.at += 2
                self.type()
            else:
                found.append(self.type())
            self.eat(",")
        return found

    def path(self, in_code):
        """names, each with the types behind it"""
        segments = []
        while True:
            name = self.next()
            args = []
            if self.peek() == "::" and self.peek(1) == "<":
                self.at += 1
                args = self.listed("<", ">")
            elif not in_code and self.peek() == "<":
                args = self.listed("<", ">")
            elif not in_code and name in ("Fn", "FnMut", "FnOnce") and self.peek() == "(":
                self.skip_group()
                if self.eat("->"):
                    self.type()
            segments.append((name, args))
            if self.peek() == "::" and (self.kind(1) == "word"):
                self.at += 1
            else:
                return segments

    def bounds(self):
        found = []
        while True:
            if self.kind() == "life":
                self.at += 1
            elif self.eat("?"):
                self.path(False)
            elif self.kind() == "word":
                found.append(self.path(False))
            if not self.eat("+"):
                return found

    def generics(self):
        found = {}
        if not self.eat("<"):
            return found
        while not self.eat(">"):
            if self.kind() == "life":
                self.at += 1
                if self.eat(":"):
                    self.bounds()
            elif self.eat("const"):
                self.at += 1
                self.need(":")
                self.type()
            else:
                name = self.next()
                found[name] = self.bounds() if self.eat(":") else []
                if self.eat("="):
                    self.type()
            self.eat(",")
        return found

    def where(self, generics):
        if not self.eat("where"):
            return
        while self.peek() not in ("{", ";", "*", *CLAUSES):
            if self.kind() == "life":
                self.at += 1
                self.need(":")
                self.bounds()
            else:
                of = self.type()
                self.need(":")
                found = self.bounds()
                if of[0] == "path" and len(of[1]) == 1 and of[1][0][0] in generics:
                    generics[of[1][0][0]] = generics[of[1][0][0]] + found
            self.eat(",")

    def clauses(self):
        while self.peek() in CLAUSES or self.peek() == "*" and self.peek(1) in CLAUSES:
            self.eat("*")
            self.at += 1
            if self.peek() != "{":
                self.at += 1
            self.skip_group()


class Source:
    def __init__(self, crates):
        self.modules, self.functions, self.types, self.traits, self.methods, self.parts = {}, {}, {}, {}, {}, {}
        self.impls, self.below = [], below(os.path.join(crates, "..", "crates.txt"))
        for path in sorted(glob.glob(os.path.join(crates, "*", "src", "**", "*.rt"), recursive=True)):
            words = os.path.relpath(path, crates)[:-3].split(os.sep)
            crate, inside = words[0], [word for word in words[2:] if word not in ("lib", "main", "mod")]
            with open(path, encoding="utf-8") as file:
                toks = tokens(file.read())
            module = "::".join([crate] + inside)
            self.scope(module)
            for depth, name in enumerate(inside):
                above = "::".join([crate] + inside[:depth])
                self.scope(above).setdefault(name, ("module", above + "::" + name))
            self.items(Cursor(toks), crate, module, "")
        for function, of in self.impls:
            head = self.typed(of, function.module, function.generics, None)[0]
            if head[0] != "$":  # an `impl` for each type, as that of a trait for `&mut D`, is of none that is given
                self.methods.setdefault((head, function.name), []).append(function)

    def scope(self, module):
        return self.modules.setdefault(module, {})

    # items
    def items(self, c, crate, module, end):
        names = self.scope(module)
        while c.peek() != end:
            notes = c.attributes()
            if c.peek() == end:
                return
            public = c.eat("pub")
            if public and c.peek() == "(":
                c.skip_group()
            tok = c.peek()
            if "[test]" in notes:
                c.skip_to("{")
                c.skip_group()
            elif tok == "ghost":
                c.skip_to(";")
                c.need(";")
            elif tok == "use":
                c.at += 1
                for name, path in self.used(c, []):
                    if name == "*":
                        names.setdefault("*", []).append(path)
                    else:
                        names.setdefault(name, ("use", path))
                c.need(";")
            elif tok == "mod":
                c.at += 1
                name = c.next()
                names[name] = ("module", module + "::" + name)
                if c.eat("{"):
                    self.items(c, crate, module + "::" + name, "}")
                    c.need("}")
                else:
                    c.need(";")
            elif tok == "impl":
                self.impl(c, crate, module)
            elif tok == "trait":
                self.trait(c, crate, module)
            elif tok in ("struct", "enum", "type"):
                self.shape(c, module)
            elif tok == "const" and c.peek(1) != "fn" or tok == "static":
                c.at += 1
                name = c.next()
                c.need(":")
                names[name] = ("const", c.type(), module)
                c.skip_to(";")
                c.need(";")
            else:
                function = self.function(c, crate, module, None, {})
                names[function.name] = ("function", function)

    def used(self, c, front):
        """each name that a `use` brings in, with its path"""
        path = list(front)
        while True:
            if c.peek() == "{":
                c.at += 1
                while not c.eat("}"):
                    yield from self.used(c, path)
                    c.eat(",")
                return
            word = c.next()
            if word == "*":
                yield "*", path
                return
            if word != "self" or not path:
                path = path + [word]
            if not c.eat("::"):
                name = c.next() if c.eat("as") else path[-1]
                yield name, path
                return

    def function(self, c, crate, module, owner, generics):
        while c.peek() != "fn":
            c.at += 1
        c.need("fn")
        out = Function(crate, module, c.next(), owner, dict(generics))
        out.generics.update(c.generics())
        c.need("(")
        while not c.eat(")"):
            c.attributes()
            begin = c.at
            c.eat("&")
            if c.kind() == "life":
                c.at += 1
            c.eat("mut")
            if c.peek() == "self":
                c.at += 1
                if c.eat(":"):
                    c.type()
                out.takes.append(("self", ("path", [("Self", [])])))
            else:
                c.at = begin
                pattern = c.at
                c.skip_to(":")
                c.need(":")
                out.takes.append((pattern, c.type()))
            c.eat(",")
        if c.eat("->"):
            out.gives = c.type()
        c.where(out.generics)
        c.clauses()
        if not c.eat(";"):
            begin = c.at
            c.skip_group()
            out.body = (c.toks, begin, c.at)
        out.toks = c.toks
        return out

    def impl(self, c, crate, module):
        c.need("impl")
        generics = c.generics()
        of, trait = c.type(), None
        if c.eat("for"):
            of, trait = c.type(), of
        c.where(generics)
        c.need("{")
        while not c.eat("}"):
            notes = c.attributes()
            if c.eat("pub") and c.peek() == "(":
                c.skip_group()
            if c.peek() == "ghost" or c.peek() == "const" and c.peek(1) != "fn":
                c.skip_to(";")
                c.need(";")
            elif c.eat("type"):
                name = c.next()
                c.need("=")
                self.parts.setdefault((module, repr(of)), {})[name] = c.type()
                c.need(";")
            elif "[test]" in notes:
                c.skip_to("{")
                c.skip_group()
            else:
                function = self.function(c, crate, module, of, generics)
                function.trait = trait
                self.impls.append((function, of))

    def trait(self, c, crate, module):
        c.need("trait")
        name = c.next()
        generics = c.generics()
        if c.eat(":"):
            c.bounds()
        c.where(generics)
        methods = self.traits.setdefault(module + "::" + name, {})
        self.scope(module)[name] = ("trait", module + "::" + name)
        c.need("{")
        while not c.eat("}"):
            c.attributes()
            if c.peek() in ("ghost", "const", "type"):
                c.skip_to(";")
                c.need(";")
            else:
                function = self.function(c, crate, module, ("path", [("Self", [])]), generics)
                methods[function.name] = function

    def shape(self, c, module):
        kind, name = c.next(), c.next()
        generics = c.generics()
        out = {"kind": kind, "module": module, "generics": list(generics), "bounds": generics, "fields": {}, "variants": {}, "is": None}
        self.types[module + "::" + name] = out
        self.scope(module)[name] = ("type", module + "::" + name)
        if kind == "type":
            c.need("=")
            out["is"] = c.type()
            c.need(";")
            return
        c.where(generics)
        if c.eat(";"):
            return
        if kind == "struct":
            out["fields"] = self.fields(c)
            if c.peek() == "where":
                c.where(generics)
            c.eat(";")
            return
        c.need("{")
        while not c.eat("}"):
            c.attributes()
            variant = c.next()
            out["variants"][variant] = self.fields(c) if c.peek() in ("(", "{") else {}
            if c.eat("="):
                c.skip_to(",", "}")
            c.eat(",")

    def fields(self, c):
        found = {}
        if c.eat("("):
            while not c.eat(")"):
                c.attributes()
                if c.eat("pub") and c.peek() == "(" and c.peek(1) in ("crate", "super"):
                    c.skip_group()
                found[str(len(found))] = c.type()
                c.eat(",")
            return found
        c.need("{")
        while not c.eat("}"):
            c.attributes()
            if c.peek() == "ghost":
                c.skip_to(",", "}")
            else:
                if c.eat("pub") and c.peek() == "(":
                    c.skip_group()
                name = c.next()
                c.need(":")
                found[name] = c.type()
            c.eat(",")
        return found

    # names
    def found(self, module, path, seen=()):
        """what a path of names stands for in a module: a pair that tells its kind, or None"""
        if (module, tuple(path)) in seen:
            return None
        seen = seen + ((module, tuple(path)),)
        first, rest = path[0], path[1:]
        crate = module.split("::")[0]
        if first == "crate":
            here = ("module", crate)
        elif first == "self":
            here = ("module", module)
        elif first == "super":
            here = ("module", module.rpartition("::")[0])
        else:
            here = self.in_module(module, first, seen)
            if here is None and first in self.modules:
                here = ("module", first)
        for at, name in enumerate(rest):
            if here is None:
                return None
            if here[0] == "module":
                here = self.in_module(here[1], name, seen)
            elif here[0] == "type" and name in self.types[here[1]]["variants"]:
                here = ("variant", here[1], name)
            elif here[0] in ("type", "trait"):
                return ("of", here, name) if at == len(rest) - 1 else None
            else:
                return None
        return here

    def in_module(self, module, name, seen):
        names = self.modules.get(module, {})
        if name in names:
            item = names[name]
            return self.found(module, item[1], seen) if item[0] == "use" else item
        for path in names.get("*", []):
            found = self.found(module, path + [name], seen)
            if found:
                return found
        return None

    # types: a pair of a name and the types behind it
    def typed(self, written, module, generics, own, known=None):
        if written is None:
            return ("tuple", ())
        kind = written[0]
        if kind == "tuple":
            return ("tuple", tuple(self.typed(one, module, generics, own, known) for one in written[1]))
        if kind == "slice":
            return ("slice", (self.typed(written[1], module, generics, own, known),))
        if kind == "fn":
            return ("fn", (self.typed(written[1], module, generics, own, known),))
        if kind == "any":
            return ("any", tuple(self.trait_named(path, module) for path in written[1]))
        if kind == "part":
            return self.part(self.typed(written[1], module, generics, own, known), written[3], module, generics)
        path = written[1]
        names, args = [name for name, _ in path], path[-1][1]
        if names[0] == "Self":
            if own is None:
                return UNKNOWN
            return own if len(names) == 1 else self.part(own, names[1], module, generics)
        if known and len(names) == 1 and names[0] in known:
            return known[names[0]]
        if names[0] in generics:
            given = known[names[0]] if known and names[0] in known else ("$" + names[0], ())
            return given if len(names) == 1 else self.part(given, names[1], module, generics)
        given = tuple(self.typed(one, module, generics, own, known) for one in args)
        if names[-1] == "Box" and given:
            return given[0]
        found = self.found(module, names)
        if found and found[0] == "type":
            shape = self.types[found[1]]
            if shape["is"]:
                return self.typed(shape["is"], shape["module"], {}, None, dict(zip(shape["generics"], given)))
            return (found[1], given)
        if found and found[0] == "trait":
            return ("any", (found[1],))
        if names[-1] in ("u8", "u16", "u32", "u64", "u128", "usize", "i32", "i64"):
            return NUMBER
        return (names[-1], given)

    def part(self, of, name, module, generics):
        return ("%s::%s" % (of[0], name), ())

    def trait_named(self, path, module):
        found = self.found(module, [name for name, _ in path])
        return found[1] if found and found[0] == "trait" else path[-1][0]

    def named(self, shown):
        """the functions of these paths"""
        found = [item[1] for names in self.modules.values() for item in names.values() if item[0] == "function"]
        found += [function for functions in self.methods.values() for function in functions]
        return [function for function in found if function.shown() in shown]
