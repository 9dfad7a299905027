"""Which functions of `crates/*/src` each calls on a way through them, read from the text: nothing is run or proved.

`Way(source, roots, taken, given, left_out)` walks from the functions `roots` over the calls in their bodies. `taken` has for some
enums the variants that are on the way: an arm of another one isn't followed, and where one of these has an arm without a guard,
neither is an arm for all others. For `name()` it has the numbers that are taken where the function `name` matches on one. No arm for
`Err` is followed. `given` names the type that stands for a trait, and `left_out` functions that aren't followed.

A path is resolved by `use` items, the receiver of a method by the types that parameters, fields, results and patterns have; where
it has no type here, by a name that one method alone has. `unknown` keeps the calls for which neither tells. Not seen are the
conversion of an error by `?`, what drops a value, and operators."""

from source_items import NUMBER, PAIRS, UNKNOWN, Cursor

BOOL, FOREIGN = ("bool", ()), ("foreign", ())
BINARY = {"+", "-", "*", "/", "%", "^", "&", "|", "&&", "||", "==", "!=", "<", ">", "<=", ">=", "=", "+=", "-=", "*=", "/="}
BINARY |= {"%=", "^=", "&=", "|="}
TELLING = {"&&", "||", "==", "!=", "<", ">", "<=", ">="}
SAME = set("as_ref as_mut as_slice as_mut_slice as_deref as_bytes as_str copied cloned take skip rev to_vec filter by_ref".split())
GIVES_ONE = set("get get_mut first last last_mut first_mut pop next find next_back pop_front pop_back".split())
GOES_OVER = set("iter iter_mut into_iter values keys drain chunks".split())
UNWRAPS = set("unwrap_or unwrap_or_default unwrap expect unwrap_or_else into_inner".split())

OF_STD = SAME | GIVES_ONE | GOES_OVER | UNWRAPS
OF_STD |= set("len push insert remove map lock range load store exchange count extend copy write read clear append min max".split())


class Way:
    """The functions that some reach, and each pair of them of which one calls the other."""

    def __init__(self, source, roots, taken, given, left_out):
        self.source, self.taken, self.given, self.left_out = source, taken, given, left_out
        self.calls, self.unknown, self.reached = {}, set(), []
        waiting = source.named(roots)
        seen = set(map(id, waiting))
        while waiting:
            function = waiting.pop()
            self.reached.append(function)
            for called in Body(self, function).calls:
                self.calls[function.shown(), called.shown()] = function, called
                if id(called) not in seen:
                    seen.add(id(called))
                    waiting.append(called)


class Body:
    """The calls in one function's body, found while its expressions are read."""

    def __init__(self, way, function):
        self.way, self.source, self.f = way, way.source, function
        self.calls, self.live = [], True
        own = None
        if function.owner is not None:
            own = self.source.typed(function.owner, function.module, function.generics, None)
        self.own = own
        if function.body is None:
            return
        env = {}
        for pattern, written in function.takes:
            kind = self.typed(written)
            if pattern == "self":
                env["self"] = kind
            else:
                self.c = Cursor(function.toks, pattern)
                self.pattern(kind, env)
        toks, begin, _ = function.body
        self.c = Cursor(toks, begin)
        self.block(env)

    def typed(self, written, known=None):
        return self.source.typed(written, self.f.module, self.f.generics, self.own, known)

    # blocks and statements
    def block(self, env):
        c = self.c
        c.need("{")
        env = dict(env)
        last = ("tuple", ())
        while not c.eat("}"):
            c.attributes()
            last = ("tuple", ())
            tok = c.peek()
            if tok == "ghost" or tok == "use":
                c.skip_to(";")
                c.need(";")
            elif tok == "const":
                c.skip_to(";")
                c.need(";")
            elif tok == "let":
                self.let(env)
            elif c.eat(";"):
                pass
            else:
                last = self.expression(env, statement=True)
                if c.eat(";"):
                    last = ("tuple", ())
        return last

    def let(self, env):
        c = self.c
        c.need("let")
        begin = c.at
        self.pattern(UNKNOWN, {})
        written = c.type() if c.eat(":") else None
        kind = self.typed(written) if written else UNKNOWN
        if c.eat("="):
            got = self.expression(env)
            kind = got if kind[0] in ("?", "_") else kind
        if c.eat("else"):
            self.block(env)
        end = c.at
        c.at = begin
        self.pattern(kind, env)
        c.at = end
        c.need(";")

    # patterns: the names that they bind, and the variants that they name, by alternatives
    def pattern(self, kind, env):
        c = self.c
        c.eat("|")
        ways = [self.one_pattern(kind, env)]
        while c.peek() == "|":
            c.at += 1
            ways.append(self.one_pattern(kind, env))
        return ways

    def one_pattern(self, kind, env):
        """the variants that a pattern names, in order; `None` for one that matches all"""
        c = self.c
        if c.peek() in ("&", "&&"):
            c.at += 1
            c.eat("mut")
            return self.one_pattern(kind, env)
        c.eat("ref")
        c.eat("mut")
        tok = c.peek()
        if tok == "(":
            return self.parts("(", ")", kind[1] if kind[0] == "tuple" else (), env)
        if tok == "[":
            return self.parts("[", "]", (), env, one(kind))
        if c.kind() in ("number", "text") or tok in ("-", "true", "false"):
            c.eat("-")
            number = c.next()
            if c.peek() in ("..=", ".."):
                c.at += 2
            return [("number", number)]
        if tok in ("..", "..="):
            c.at += 1
            return []
        path = c.path(True)
        names = [name for name, _ in path]
        found = self.named(names)
        if c.peek() == "(":
            shape = self.shape_of(found, names, kind)
            inner = [self.field(shape, kind, str(at)) for at in range(12)]
            return self.heads(found, names) + self.parts("(", ")", inner, env)
        if c.peek() == "{":
            shape = self.shape_of(found, names, kind)
            c.at += 1
            seen = self.heads(found, names)
            while not c.eat("}"):
                if c.eat(".."):
                    continue
                c.eat("ref")
                c.eat("mut")
                name = c.next()
                inner = self.field(shape, kind, name)
                if c.eat(":"):
                    seen += [v for alternative in self.pattern(inner, env) for v in alternative]
                else:
                    env[name] = inner
                c.eat(",")
            return seen
        if c.peek() == "@":
            c.at += 1
            env[names[0]] = kind
            return self.one_pattern(kind, env)
        if found and found[0] in ("variant", "const", "type") or len(names) > 1 or names[0] == "None":
            if c.peek() in ("..=", ".."):
                c.at += 2
            return self.heads(found, names)
        if names[0] != "_":
            env[names[0]] = kind
        return []

    def heads(self, found, names):
        if found and found[0] == "variant":
            return [(found[1].rpartition("::")[2], found[2])]
        return [("other", names[-1])]

    def parts(self, begin, end, kinds, env, each=UNKNOWN):
        c = self.c
        c.need(begin)
        seen, at = [], 0
        while not c.eat(end):
            inner = kinds[at] if at < len(kinds) else each
            seen += [v for alternative in self.pattern(inner, env) for v in alternative]
            at += 1
            c.eat(",")
        return seen

    def shape_of(self, found, names, kind):
        if found and found[0] == "variant":
            return self.source.types[found[1]], self.source.types[found[1]]["variants"][found[2]]
        if found and found[0] == "type":
            return self.source.types[found[1]], self.source.types[found[1]]["fields"]
        if names == ["Self"] and self.own and self.own[0] in self.source.types:
            shape = self.source.types[self.own[0]]
            return shape, shape["fields"]
        if names[-1] in ("Some", "Ok"):
            return None, {"0": kind[1][0] if kind[1] else UNKNOWN}
        if names[-1] == "Err":
            return None, {"0": kind[1][1] if len(kind[1]) > 1 else UNKNOWN}
        return None, {}

    def field(self, shape, kind, name):
        of, fields = shape
        if name not in fields:
            return UNKNOWN
        if of is None:
            return fields[name]
        known = dict(zip(of["generics"], kind[1])) if kind[0] in self.source.types else {}
        return self.source.typed(fields[name], of["module"], of["bounds"], None, known)

    def named(self, names):
        if names[0] == "Self" and self.own and self.own[0] in self.source.types:
            if len(names) == 1:
                return ("type", self.own[0])
            if names[1] in self.source.types[self.own[0]]["variants"]:
                return ("variant", self.own[0], names[1])
            return ("of", ("type", self.own[0]), names[1])
        if names[0] in self.f.generics:
            return ("of", ("param", names[0]), names[1]) if len(names) == 2 else None
        return self.source.found(self.f.module, names)

    def off(self, seen):
        """whether a pattern names a variant that isn't on the way"""
        for kind, name in seen:
            if kind == "other" and name == "Err":
                return True
            if kind == "number":
                wanted = self.way.taken.get(self.f.name + "()")
            else:
                wanted = self.way.taken.get(kind)
            if wanted is not None and name not in wanted:
                return True
        return False

    def takes(self, seen):
        return bool(seen) and not self.off(seen) and self.is_chosen(seen[0])

    def is_chosen(self, head):
        return (self.f.name + "()" if head[0] == "number" else head[0]) in self.way.taken

    # expressions
    def expression(self, env, structs=True, statement=False):
        c = self.c
        if c.peek() in ("..", "..="):
            c.at += 1
            if c.peek() not in (")", "]", "}", ",", ";"):
                self.expression(env, structs)
            return ("Range", (NUMBER,))
        blocks = ("if", "match", "for", "while", "loop", "{")
        if statement and (c.peek() in blocks or c.kind() == "life"):
            kind = self.primary(env, structs)
            if c.peek() not in (".", "?"):
                return kind
            kind = self.behind(kind, env, structs)
        else:
            kind = self.unary(env, structs)
        told = False
        while True:
            tok = c.peek()
            if tok == "as":
                c.at += 1
                kind = self.typed(c.type())
            elif tok in ("..", "..="):
                c.at += 1
                if c.peek() not in (")", "]", "}", ",", ";") and not (c.peek() == "{" and not structs):
                    self.expression(env, structs)
                return ("Range", (kind,))
            elif tok in BINARY and c.kind() == "mark":
                c.at += 1
                while c.peek() == tok and tok in ("<", ">"):
                    c.at += 1
                    tok = "shift"
                told = told or tok in TELLING
                if tok == "shift":
                    c.eat(">=")
                self.unary(env, structs)
            else:
                return BOOL if told else kind

    def unary(self, env, structs):
        c = self.c
        if c.peek() in ("&", "&&", "*", "-", "!") and c.kind() == "mark":
            c.at += 1
            c.eat("mut")
            return self.unary(env, structs)
        return self.behind(self.primary(env, structs), env, structs)

    def behind(self, kind, env, structs):
        c = self.c
        while True:
            if c.eat("?"):
                kind = kind[1][0] if kind[0] in ("Result", "Option") and kind[1] else UNKNOWN
            elif c.peek() == "." and c.kind(1) in ("word", "number"):
                c.at += 1
                name = c.next()
                if c.peek() == "(" or c.peek() == "::" and c.peek(1) == "<":
                    turbo = []
                    if c.eat("::"):
                        turbo = c.listed("<", ">")
                    kind = self.method(kind, name, turbo, env)
                else:
                    for part in name.split("."):
                        kind = self.of_field(kind, part)
            elif c.peek() == "[":
                c.at += 1
                inner = self.expression(env)
                c.need("]")
                kind = kind if inner[0] == "Range" else one(kind)
            elif c.peek() == "(":
                self.arguments(env)
                kind = kind[1][0] if kind[0] == "fn" and kind[1] else UNKNOWN
            else:
                return kind

    def of_field(self, kind, name):
        if kind[0] == "tuple" and name.isdigit():
            return kind[1][int(name)] if int(name) < len(kind[1]) else UNKNOWN
        if kind[0] in self.source.types:
            shape = self.source.types[kind[0]]
            return self.field((shape, shape["fields"]), kind, name)
        return UNKNOWN if kind[0] == "?" else FOREIGN

    def arguments(self, env, closure=()):
        c = self.c
        c.need("(")
        kinds = []
        while not c.eat(")"):
            kinds.append(self.closure(env, closure) if c.peek() in ("|", "||", "move") else self.expression(env))
            c.eat(",")
        return kinds

    def closure(self, env, given=()):
        c = self.c
        c.eat("move")
        env, at = dict(env), 0
        if not c.eat("||"):
            c.need("|")
            while not c.eat("|"):
                self.one_pattern(given[at] if at < len(given) else UNKNOWN, env)
                if c.eat(":"):
                    c.type()
                at += 1
                c.eat(",")
        if c.eat("->"):
            c.type()
        c.clauses()
        got = self.block(env) if c.peek() == "{" else self.expression(env)
        return ("fn", (got,))

    def primary(self, env, structs):
        c = self.c
        tok, kind = c.peek(), c.kind()
        if kind == "life":
            c.at += 1
            if c.eat(":"):
                return self.primary(env, structs)
            return UNKNOWN
        if kind in ("number", "text"):
            c.at += 1
            return NUMBER if kind == "number" else ("str", ())
        if tok == "(":
            kinds = self.arguments(env)
            trailing = c.peek(-2) == ","
            return kinds[0] if len(kinds) == 1 and not trailing else ("tuple", tuple(kinds))
        if tok == "[":
            c.at += 1
            kinds = []
            while not c.eat("]"):
                kinds.append(self.expression(env))
                if not c.eat(","):
                    c.eat(";")
            return ("slice", (kinds[0] if kinds else UNKNOWN,))
        if tok == "{":
            return self.block(env)
        if tok in ("|", "||", "move"):
            return self.closure(env)
        if tok == "if":
            return self.if_(env)
        if tok == "match":
            return self.match(env)
        if tok == "loop":
            c.at += 1
            self.block(env)
            return UNKNOWN
        if tok == "while":
            c.at += 1
            env = dict(env)
            self.condition(env)
            self.block(env)
            return ("tuple", ())
        if tok == "for":
            return self.for_(env)
        if tok in ("return", "break", "continue"):
            c.at += 1
            if c.kind() == "life":
                c.at += 1
            if c.peek() not in (";", "}", ",", ")"):
                self.expression(env)
            return UNKNOWN
        if tok in ("true", "false"):
            c.at += 1
            return BOOL
        if tok == "<":
            part = c.type()
            inner = self.typed(part[1])
            return self.called_on(inner, part[3], env) if c.peek() == "(" else UNKNOWN
        if kind != "word":
            raise SyntaxError("no expression: " + " ".join(t for _, t in c.toks[max(0, c.at - 12) : c.at + 6]))
        if c.peek(1) == "!" and c.peek(2) in PAIRS:
            return self.macro(env)
        return self.pathed(env, structs)

    def if_(self, env):
        c = self.c
        c.need("if")
        inner, live = dict(env), self.live
        seen = self.condition(inner)
        self.live = live and not any(all(self.off(s) for s in alternatives) for alternatives in seen)
        kind = self.block(inner)
        self.live = live
        if c.eat("else"):
            other = self.if_(env) if c.peek() == "if" else self.block(env)
            kind = other if kind[0] == "?" else kind
        return kind

    def condition(self, env):
        c = self.c
        seen = []
        while True:
            if c.eat("let"):
                begin = c.at
                alternatives = self.pattern(UNKNOWN, {})
                seen.append(alternatives)
                c.need("=")
                kind = self.unary(env, False)
                end = c.at
                c.at = begin
                self.pattern(kind, env)
                c.at = end
            else:
                self.expression(env, False)
            if not c.eat("&&"):
                return seen

    def for_(self, env):
        c = self.c
        c.need("for")
        begin = c.at
        self.pattern(UNKNOWN, {})
        c.need("in")
        kind = self.expression(env, False)
        end = c.at
        c.at = begin
        env = dict(env)
        self.pattern(one(kind), env)
        c.at = end
        self.block(env)
        return ("tuple", ())

    def match(self, env):
        c = self.c
        c.need("match")
        kind = self.expression(env, False)
        begin, live = c.at, self.live
        self.live = False
        arms = self.arms(env, kind, None)
        chosen = any(self.takes(s) and not guard for alternatives, guard in arms for s in alternatives)
        wanted = []
        for alternatives, _ in arms:
            on = not all(self.off(s) for s in alternatives)
            if chosen and any(not s for s in alternatives):
                on = False
            wanted.append(on and live)
        c.at = begin
        kinds = self.arms(env, kind, wanted)
        self.live = live
        return next((one for one in kinds if one[0] not in ("?", "tuple") or one[1]), kinds[0] if kinds else UNKNOWN)

    def arms(self, env, kind, wanted):
        c = self.c
        c.need("{")
        told, at = [], 0
        while not c.eat("}"):
            c.attributes()
            inner = dict(env)
            alternatives = self.pattern(kind, inner)
            guard = c.eat("if")
            if wanted is not None:
                self.live = wanted[at]
            if guard:
                self.expression(inner, False)
            c.need("=>")
            got = self.expression(inner, statement=c.peek() == "{")
            told.append((alternatives, guard) if wanted is None else got)
            at += 1
            c.eat(",")
        return told

    def macro(self, env):
        c = self.c
        name = c.next()
        c.need("!")
        if name not in ("vec", "format", "matches", "write", "writeln"):
            c.skip_group()
            return UNKNOWN
        closing = PAIRS[c.next()]
        if c.eat("in"):
            self.expression(env)
            c.need(";")
        first = UNKNOWN
        while not c.eat(closing):
            if name == "matches" and first is not UNKNOWN:
                self.pattern(UNKNOWN, {})
                if c.eat("if"):
                    self.expression(env)
            else:
                got = self.expression(env)
                first = got if first is UNKNOWN else first
            if not c.eat(","):
                c.eat(";")
        if name == "vec":
            return ("Result", (("Vec", (first,)), ("AllocError", ())))
        if name == "format":
            return ("Result", (("String", ()), ("AllocError", ())))
        return BOOL if name == "matches" else UNKNOWN

    def pathed(self, env, structs):
        """a name, a call of a function, a value of a struct or of a variant"""
        c = self.c
        path = c.path(True)
        names = [name for name, _ in path]
        if len(names) == 1 and names[0] in env:
            return env[names[0]]
        found = self.named(names)
        if c.peek() == "{" and structs and (names[0] == "Self" or names[-1][0].isupper()):
            return self.struct(found, names, env)
        if found and found[0] == "function":
            function = found[1]
            self.call(function)
            if c.peek() != "(":
                return ("fn", (self.result_of(function, {}),))
            return self.result_of(function, {}, self.arguments(env), path[-1][1])
        if found and found[0] == "variant":
            if c.peek() == "(":
                self.arguments(env)
            return (found[1], ())
        if found and found[0] == "const":
            return self.source.typed(found[1], found[2], {}, None)
        if found and found[0] == "type":
            shape = self.source.types[found[1]]
            if c.peek() == "(":
                return (found[1], tuple(self.arguments(env)[: len(shape["generics"])]))
            return (found[1], ())
        if found and found[0] == "of":
            kind = {"type": lambda: (found[1][1], ()), "trait": lambda: ("any", (found[1][1],)), "param": lambda: ("$" + found[1][1], ())}
            of = kind[found[1][0]]()
            if of[0] in self.source.types and self.source.types[of[0]]["is"]:
                of = self.typed(("path", [(n, a) for n, a in path[:-1]]))
            if path[-2][1]:
                of = (of[0], tuple(self.typed(one) for one in path[-2][1]))
            return self.called_on(of, found[2], env)
        if len(names) > 1 and (names[-2], names[-1]) in self.source.methods:
            return self.called_on((names[-2], ()), names[-1], env)
        if c.peek() == "(":
            kinds = self.arguments(env)
            first = kinds[0] if kinds else UNKNOWN
            if names[-1] == "Some":
                return ("Option", (first,))
            if names[-1] == "Ok":
                return ("Result", (first, UNKNOWN))
            if names[-1] == "Err":
                return ("Result", (UNKNOWN, first))
            return self.made(path, first)
        return UNKNOWN

    def made(self, path, first):
        """what a function of std gives that makes a value"""
        if len(path) < 2:
            return UNKNOWN
        of, name = path[-2][0], path[-1][0]
        args = tuple(self.typed(one) for one in path[-2][1])
        if name in ("with_capacity", "try_with_capacity", "from_array", "from_slice", "try_from"):
            return ("Result", ((of, args or (UNKNOWN,)), UNKNOWN))
        if of == "Box" and name == "new":
            return ("Result", (first, UNKNOWN))
        if of == "mem" and name in ("take", "replace"):
            return first
        if of == "Mutex" and name == "new":
            return ("Mutex", (first,))
        if of in ("u8", "u16", "u32", "u64", "u128", "usize"):
            return NUMBER
        return (of, args) if of[0].isupper() else UNKNOWN

    def struct(self, found, names, env):
        c = self.c
        c.need("{")
        values = {}
        while not c.eat("}"):
            if c.eat(".."):
                self.expression(env)
                continue
            name = c.next()
            values[name] = self.expression(env) if c.eat(":") else env.get(name, UNKNOWN)
            c.eat(",")
        if found and found[0] == "variant":
            return (found[1], ())
        if found and found[0] == "type":
            shape = self.source.types[found[1]]
            if shape["is"]:
                return self.typed(("path", [(name, []) for name in names]))
            args = []
            for param in shape["generics"]:
                of = [name for name, written in shape["fields"].items() if written == ("path", [(param, [])])]
                args.append(values.get(of[0], UNKNOWN) if of else UNKNOWN)
            return (found[1], tuple(args))
        return self.own if names == ["Self"] and self.own else UNKNOWN

    # calls
    def call(self, function):
        if self.live and function not in self.calls and function.shown() not in self.way.left_out:
            self.calls.append(function)

    def result_of(self, function, known, kinds=(), turbo=()):
        known = dict(known)
        own = None
        if function.owner is not None:
            own = self.source.typed(function.owner, function.module, function.generics, None, known)
        takes = [written for pattern, written in function.takes if pattern != "self"]
        named = [name for name in function.generics if name not in known]
        for name, written in zip(named, turbo):
            known[name] = self.typed(written)
        for written, kind in zip(takes, kinds):
            fits(written, kind, function.generics, known)
        return self.source.typed(function.gives, function.module, function.generics, own, known)

    def called_on(self, kind, name, env):
        """a call `Type::name(..)`"""
        functions = self.methods_of(kind, name)
        for function in functions:
            self.call(function)
        takes_self = functions and functions[0].takes[:1] and functions[0].takes[0][0] == "self"
        kinds = self.arguments(env) if self.c.peek() == "(" else []
        if functions:
            function = functions[0]
            is_bare = all(one is UNKNOWN for one in kind[1])
            known = self.known(function, kinds[0] if is_bare and takes_self and kinds else kind)
            return self.result_of(function, known, kinds[1:] if takes_self else kinds)
        return kind if kind[0] in self.source.types and name in ("new", "default", "from") else UNKNOWN

    def known(self, function, kind):
        known = {}
        if function.owner is not None:
            fits(function.owner, kind, function.generics, known, self, function.module)
        return known

    def methods_of(self, kind, name):
        """the functions that a method's name may stand for on a type: of a trait, those at the type that is given for it"""
        if (kind[0], name) in self.source.methods:
            return self.source.methods[kind[0], name]
        for trait in self.traits_of(kind):
            if name in self.source.traits.get(trait, {}):
                return self.at_given(trait, name)
        return []

    def traits_of(self, kind):
        if kind[0] == "any":
            return kind[1]
        if kind[0][:1] == "$":
            head = kind[0][1:].split("::")[0]
            if "::" in kind[0]:
                return ()
            bounds = self.f.generics.get(head, [])
            return [self.source.trait_named(path, self.f.module) for path in bounds]
        return ()

    def at_given(self, trait, name):
        bare = trait.rpartition("::")[2]
        wanted = self.way.given.get(bare)
        if wanted is None:
            return [self.source.traits[trait][name]]
        found = []
        for (head, method), functions in self.source.methods.items():
            if method == name and head.rpartition("::")[2] == wanted:
                found += [one for one in functions if one.trait is not None and self.trait_of(one) == trait]
        return found or [self.source.traits[trait][name]]

    def trait_of(self, function):
        named = self.source.typed(function.trait, function.module, function.generics, None)
        return named[1][0] if named[0] == "any" else None

    def of_name(self, name):
        """the methods of that name in this crate and those below it"""
        seen = self.source.below.get(self.f.crate, set()) | {self.f.crate}
        found = [one for (_, method), functions in self.source.methods.items() if method == name for one in functions]
        return [one for one in found if one.crate in seen]

    def only_one(self, name):
        """the one method of that name, where the receiver's type isn't known; none where std has such a method too"""
        if name in OF_STD:
            return []
        found = self.of_name(name)
        found = [one for one in found if one.crate == self.f.crate] or found
        if not any(one.trait for one in found) and len(found) == 1:
            return found
        traits = [trait for trait, methods in self.source.traits.items() if name in methods]
        return self.at_given(traits[0], name) if len(traits) == 1 and all(one.trait for one in found) else []

    def method(self, kind, name, turbo, env):
        functions = self.methods_of(kind, name) or kind[0] == "?" and self.only_one(name)
        if functions:
            for function in functions:
                self.call(function)
            function = functions[0]
            return self.result_of(function, self.known(function, kind), self.arguments(env), turbo)
        inner = one(kind)
        closure = (("tuple", (inner, inner)), inner) if name == "fold" else (inner, inner)
        if kind[0] == "Result" and name == "map_err":
            closure = (kind[1][1] if len(kind[1]) > 1 else UNKNOWN,)
        kinds = self.arguments(env, closure)
        if kind[0] == "?" and self.live and name not in OF_STD and self.of_name(name):
            self.way.unknown.add((self.f.shown(), name))
        return told(kind, name, kinds, [self.typed(one) for one in turbo])


def one(kind):
    """what a list, an option or a walk has"""
    if kind[0] in ("Option", "Result", "Vec", "slice", "VecDeque", "Walk", "Range", "Mutex", "Rc", "Arc", "Iter") and kind[1]:
        return kind[1][0]
    if kind[0] in ("BTreeMap", "HashMap") and len(kind[1]) > 1:
        return kind[1][1]
    return UNKNOWN


def told(kind, name, kinds, turbo):
    """what a method of std gives"""
    inner, head = one(kind), kind[0]
    if name in ("len", "count", "saturating_add", "saturating_sub", "wrapping_add", "wrapping_sub", "min", "max", "div_ceil"):
        return NUMBER
    if name.startswith("is_") or name in ("contains", "starts_with", "ends_with", "contains_key"):
        return BOOL
    if name in ("checked_add", "checked_sub", "checked_mul", "position"):
        return ("Option", (NUMBER,))
    if name in ("to_ascii_uppercase", "to_ascii_lowercase"):
        return ("Result", (("String", ()), UNKNOWN))
    if name == "clone":
        return kind if head in ("number", "bool", "?") else ("Result", (kind, UNKNOWN))
    if name in SAME:
        return kind
    if name in GIVES_ONE:
        return ("Option", (inner,))
    if name in ("remove", "insert") and head in ("BTreeMap", "HashMap"):
        return ("Option", (inner,))
    if name in ("remove", "swap_remove"):
        return inner
    if name in GOES_OVER:
        return ("Walk", (inner,))
    if name == "chars":
        return ("Walk", (("char", ()),))
    if name in ("forever", "range"):
        return ("Walk", (("tuple", (UNKNOWN, inner)),)) if name == "range" else ("Walk", (NUMBER,))
    if name == "enumerate":
        return ("Walk", (("tuple", (NUMBER, inner)),))
    if name in UNWRAPS or name == "lock":
        return inner
    if name == "ok":
        return ("Option", (inner,))
    if name in ("ok_or", "ok_or_else"):
        return ("Result", (inner, kinds[0] if kinds else UNKNOWN))
    if name == "map_err":
        return ("Result", (inner, kinds[0][1][0] if kinds and kinds[0][0] == "fn" else UNKNOWN))
    if name == "map" and kinds and kinds[0][0] == "fn":
        return (head, (kinds[0][1][0], *kind[1][1:]))
    if name == "and_then" and kinds and kinds[0][0] == "fn":
        return kinds[0][1][0]
    if name == "collect":
        return ("Result", (turbo[0] if turbo else ("Vec", (inner,)), UNKNOWN))
    if name == "split_first":
        return ("Option", (("tuple", (inner, kind)),))
    if name in ("split_at", "split_at_mut"):
        return ("tuple", (kind, kind))
    return UNKNOWN


def fits(written, kind, generics, known, body=None, module=None):
    """what the parameters of a type stand for, so that it is this type"""
    if written[0] == "path" and len(written[1]) == 1 and written[1][0][0] in generics:
        if kind[0] != "?":
            known.setdefault(written[1][0][0], kind)
        return
    if written[0] == "path":
        if body is not None:
            found = body.source.found(module, [name for name, _ in written[1]])
            if found and found[0] == "type" and body.source.types[found[1]]["is"]:
                return
        for one_of, inner in zip(written[1][-1][1], kind[1]):
            fits(one_of, inner, generics, known)
    elif written[0] == "slice" and kind[1]:
        fits(written[1], kind[1][0], generics, known)
    elif written[0] == "tuple" and kind[0] == "tuple":
        for one_of, inner in zip(written[1], kind[1]):
            fits(one_of, inner, generics, known)
