"""Definitions in antt as functions of Python: what a definition computes, without the checker.

A definition is translated when it is first called: its clauses become an `if` each, lists and pairs are tuples, records are
dicts, a constructor with its arguments is a tuple with its name in front, numbers and truth values are Python's. What the
standard library defines stands in PRELUDE. Types are not looked at, so only definitions that compute can be called.
"""

import functools
import pathlib
import re
import sys

TOP = pathlib.Path(__file__).resolve().parents[2]

TOKEN = re.compile(
    r"""\s*(?:(?P<string>"(?:[^"\\]|\\.)*")
    |(?P<number>\d+)
    |(?P<field>\.\w+)
    |(?P<word>[A-Za-z_][\w'-]*\w(?:\.\w+)*|[A-Za-z_](?:\.\w+)*)
    |(?P<sign>\+\+|\+ℤ|-ℤ|==|&&|\|\||[(){}\[\]=;,.∷+*/%^→λ-]))""",
    re.VERBOSE,
)
BINARY = [["||"], ["&&"], ["=="], ["∷", "++"], ["+", "-", "+ℤ", "-ℤ"], ["*", "/", "%"], ["^"]]
RIGHT = {"||", "&&", "∷", "++", "^"}
WORDS = {"if", "then", "else", "record", "where"}


class Unknown(Exception):
    """Something that the translation does not know."""


def tokens_of(text):
    """The tokens of a piece of antt, each with its kind and whether a blank stands before it."""
    found, done = [], 0
    text = text.rstrip()
    while done < len(text):
        match = TOKEN.match(text, done)
        if match is None:
            raise Unknown(text[done : done + 40])
        kind = match.lastgroup
        found.append((kind, match.group(kind)))
        done = match.end()
    return found


class Parser:
    """Reads expressions and patterns as nested lists."""

    def __init__(self, text):
        self.tokens, self.place = tokens_of(text), 0

    def peek(self):
        return self.tokens[self.place] if self.place < len(self.tokens) else (None, None)

    def take(self, *texts):
        kind, text = self.peek()
        if texts and text not in texts:
            raise Unknown(f"{text} in place of {texts}: {self.tokens[max(0, self.place - 8) : self.place + 3]}")
        self.place += 1
        return text

    def is_next(self, text):
        kind, found = self.peek()
        return found == text and kind != "string"

    def expression(self, level=0):
        if self.is_next("λ"):
            self.take()
            names = []
            while not self.is_next("."):
                names.append(self.atom())
            self.take(".")
            return ["lambda", names, self.expression()]
        if self.is_next("if"):
            self.take()
            test = self.expression()
            self.take("then")
            yes = self.expression()
            self.take("else")
            return ["if", test, yes, self.expression()]
        if level == len(BINARY):
            return self.application()
        left = self.expression(level + 1)
        while self.peek()[1] in BINARY[level] and self.peek()[0] == "sign":
            sign = self.take()
            right = self.expression(level if sign in RIGHT else level + 1)
            left = ["binary", sign, left, right]
        return left

    def starts_atom(self):
        kind, text = self.peek()
        if kind in ("string", "number"):
            return True
        if kind == "word":
            return text not in ("then", "else", "where")
        return text in ("(", "[", "{", "λ")

    def application(self):
        found = [self.atom()]
        while self.starts_atom():
            found.append(self.atom() if not self.is_next("λ") else self.expression())
        return found[0] if len(found) == 1 else ["call", *found]

    def atom(self):
        atom = self.plain()
        while self.peek()[0] == "field":
            atom = ["field", atom, self.take()[1:]]
        return atom

    def plain(self):
        kind, text = self.peek()
        self.place += 1
        if kind == "string":
            return ["string", text]
        if kind == "number":
            return ["number", int(text)]
        if text == "record":
            return self.record()
        if kind == "word":
            return ["word", text]
        if text == "[":
            self.take("]")
            return ["nil"]
        if text == "(":
            items = [self.expression()]
            while self.is_next(","):
                self.take()
                items.append(self.expression())
            self.take(")")
            pair = items[-1]
            for item in reversed(items[:-1]):
                pair = ["pair", item, pair]
            return pair
        raise Unknown(f"{text}: {self.tokens[max(0, self.place - 8) : self.place + 3]}")

    def record(self):
        base = None if self.is_next("{") else self.atom()
        self.take("{")
        fields = []
        while not self.is_next("}"):
            name = self.take()
            self.take("=")
            fields.append((name, self.expression()))
            if self.is_next(";"):
                self.take()
        self.take("}")
        return ["record", base, fields]


USE = re.compile(r"^(?:unfoldable )?(?:pub )?use (\S+?)(?:\.\{(.*)\}| as (\w+)|)$")
HEAD = re.compile(r"^(?:abbrev |unfoldable |pub )*(\S+) : ")


class Module:
    """A file of definitions: what it imports, and the clauses of what it defines."""

    def __init__(self, world, name, text):
        self.world, self.name = world, name
        self.names, self.spaces, self.clauses, self.made = {}, {}, {}, {}
        for item in items_of(text):
            self.add(item)

    def add(self, item):
        use = USE.match(item)
        if use:
            self.add_use(*use.groups())
        elif item.startswith(("pub data", "data")):
            for line in item.splitlines()[1:]:
                if " : " in line:
                    self.made[line.split(" : ")[0].strip()] = ("constructor", count_arrows(line.split(" : ", 1)[1]))
        elif re.match(r"^(pub )?(record|mod|module)\b", item) or item.startswith("unfolding "):
            pass
        elif HEAD.match(item) and not clause_of(item):
            self.clauses.setdefault(HEAD.match(item)[1], [])
        elif clause_of(item):
            name = item.split()[0]
            self.clauses.setdefault(name, []).append(item)

    def add_use(self, module, names, alias):
        if alias or names is None:
            self.spaces[alias or module.rpartition(".")[2]] = module
        for name in split_commas(names or ""):
            old, _, new = name.partition(" as ")
            if not old.startswith("◌") and "if◌" not in old:
                self.names[new or old] = (module, old)

    def find(self, name):
        """What a name stands for here."""
        if name in self.clauses:
            return self.world.function(self.name, name)
        if name in self.made:
            return ("constructor", name, self.made[name][1])
        if name in self.names:
            module, old = self.names[name]
            return self.world.find(module, old)
        if name in PRELUDE:
            return ("native", *PRELUDE[name])
        raise Unknown(f"{name} in {self.name}")


def clause_of(item):
    """Whether an item is a clause, and not a signature."""
    depth = 0
    for kind, text in tokens_of_safely(item):
        if text in ("(", "{", "["):
            depth += 1
        elif text in (")", "}", "]"):
            depth -= 1
        elif depth == 0 and text == "=" and kind == "sign":
            return True
        elif depth == 0 and text == "→":
            return False
    return False


def tokens_of_safely(item):
    for match in re.finditer(r'"(?:[^"\\]|\\.)*"|→|λ|[(){}\[\]]|(?<![≡=])=(?!=)|\S', item):
        yield ("sign", match.group())


def items_of(text):
    """The items of a file: each begins at the front of a line."""
    items = []
    for line in text.splitlines():
        line = re.sub(r"(^|\s)--( .*)?$", "", line)
        if not line.strip():
            continue
        if line[0] in " }" and items:
            items[-1] += "\n" + line
        else:
            items.append(line)
    return items


def split_commas(text):
    return [part.strip() for part in text.split(",") if part.strip()]


def count_arrows(text):
    depth, count = 0, 0
    for character in text:
        depth += character in "({"
        depth -= character in ")}"
        count += depth == 0 and character == "→"
    named = len(re.findall(r"\(((?:\w+ )+):", text))
    words = sum(len(group.split()) for group in re.findall(r"\(((?:\w+ )+):", text))
    return count - named + words


class World:
    """All files of definitions."""

    def __init__(self, top=TOP, more=None):
        self.top, self.modules, self.functions, self.more = top, {}, {}, more or {}

    def module(self, name):
        if name not in self.modules:
            self.modules[name] = Module(self, name, self.text_of(name))
        return self.modules[name]

    def text_of(self, name):
        if name in self.more:
            return self.more[name]
        parts = name.split(".")
        path = self.top / "crates" / parts[1] / parts[2] / ("/".join(parts[3:]) + ".antt")
        return path.read_text()

    def find(self, module, name):
        if ".declared." in module:
            return self.variant(module, name)
        if module.split(".")[0] != "Rattle" or module.split(".")[1] in ("std", "core", "std_alloc"):
            if name in PRELUDE_CONSTRUCTORS:
                return ("constructor", name, PRELUDE_CONSTRUCTORS[name])
            if name not in PRELUDE:
                raise Unknown(f"{name} of {module}")
            return ("native", *PRELUDE[name])
        return self.module(module).find(name)

    def space(self, module, name):
        """A constructor of a type, by the module of its variants."""
        if ".declared." in module:
            return self.variant(module, name)
        found = self.module(module.rpartition(".")[0]).spaces.get(module.rpartition(".")[2])
        return self.space(found, name)

    def variant(self, module, name):
        parts = module.split(".")
        if parts[1] == "std":
            return ("constructor", name, PRELUDE_CONSTRUCTORS[name])
        place = parts.index("declared")
        return ("constructor", name, variants_of(self.top, parts[1], parts[place + 1], parts[place + 2])[name])

    def function(self, module, name):
        key = (module, name)
        if key not in self.functions:
            self.functions[key] = Function(self, module, name)
        return ("function", self.functions[key])


@functools.cache
def variants_of(top, crate, module, name):
    """How many arguments each variant of an enum takes."""
    if name == "TheVariants":
        raise Unknown(module)
    text = (top / "crates" / crate / "src" / f"{module}.rt").read_text()
    text = re.sub(r"//.*", "", text)
    start = re.search(rf"enum {name}\b[^{{]*{{", text).end()
    depth, end = 1, start
    while depth:
        depth += {"{": 1, "}": -1}.get(text[end], 0)
        end += 1
    body = text[start : end - 1]
    found = {}
    for match in re.finditer(r"(\w+)\s*(\((?:[^()]|\([^()]*\))*\)|\{[^{}]*\})?\s*(?:,|$)", body):
        rest = (match[2] or "").strip("(){} \n")
        found[match[1]] = len(split_top(rest)) if rest else 0
    return found


def split_top(text):
    depth, parts = 0, [""]
    for character in text:
        depth += character in "(<"
        depth -= character in ")>"
        if character == "," and depth == 0:
            parts.append("")
        else:
            parts[-1] += character
    return [part for part in parts if part.strip()]


class Function:
    """A definition: translated when it is first called."""

    def __init__(self, world, module, name):
        self.world, self.name = world, f"{module}.{name}"
        self.module = world.module(module)
        self.texts = self.module.clauses[name]
        if not self.texts:
            raise Unknown(f"{self.name} has no clause")
        self.heads = [split_clause(text) for text in self.texts]
        self.arity = len(self.heads[0][0])
        self.code = None
        self.value = None

    def __call__(self, *arguments):
        if self.code is None:
            self.code = Translator(self.world, self.module).function(self.name, self.heads)
            if self.arity == 0:
                self.value = self.code()
        return self.value if self.arity == 0 else self.code(*arguments)


def split_clause(text):
    """The patterns and the body of a clause, and the local definitions behind `where`."""
    body, where = text, None
    match = re.search(r"\bwhere$", text, re.MULTILINE)
    if match:
        body, where = text[: match.start()], text[match.end() :]
    parser = Parser(body)
    parser.take()
    patterns = []
    while not parser.is_next("="):
        patterns.append(parser.atom())
    parser.take("=")
    return patterns, (parser, where)


class Translator:
    """Writes Python for the clauses of a definition."""

    def __init__(self, world, module):
        self.world, self.module = world, module
        self.scope = {"NIL": (), "match_failed": match_failed, "apply": apply, "codes": codes}
        self.count = 0

    def fresh(self, name="v"):
        self.count += 1
        return f"{re.sub(r'[^A-Za-z0-9_]', '_', name)}_{self.count}"

    def function(self, name, heads):
        code = self.definition("f", heads, {})
        exec("\n".join(code), self.scope)
        return self.scope["f"]

    def definition(self, python_name, heads, outer):
        arguments = [f"a{self.fresh()}" for _ in heads[0][0]]
        lines = [f"def {python_name}({', '.join(arguments)}):"]
        for patterns, (parser, where) in heads:
            tests, names, binds = [], dict(outer), []
            for argument, pattern in zip(arguments, patterns, strict=True):
                self.pattern(argument, pattern, tests, names, binds)
            inner = []
            if where:
                inner = self.local(where, names)
            if not isinstance(parser, list):
                parser = parser.expression_to_end()
            body = [*binds, *inner, f"return {self.expression(parser, names)}"]
            lines += [f"    if {' and '.join(tests) or 'True'}:", *(f"        {line}" for line in body)]
        return [*lines, f"    return match_failed({python_name!r}, {', '.join(arguments)})"]

    def local(self, where, names):
        groups = {}
        text = "\n".join(line[2:] if line.startswith("  ") else line for line in where.splitlines())
        for item in items_of(text):
            if clause_of(item):
                groups.setdefault(item.split()[0], []).append(split_clause(item))
        lines = []
        for name, heads in groups.items():
            python_name = self.fresh(name)
            names[name] = ("local", python_name, len(heads[0][0]))
        for name, heads in groups.items():
            lines += self.definition(names[name][1], heads, names)
        return lines

    def pattern(self, path, pattern, tests, names, binds):
        kind = pattern[0]
        if kind == "number":
            tests.append(f"{path} == {pattern[1]}")
        elif kind == "nil":
            tests.append(f"not {path}")
        elif kind == "pair":
            self.pattern(f"{path}[0]", pattern[1], tests, names, binds)
            self.pattern(f"{path}[1]", pattern[2], tests, names, binds)
        elif kind == "binary" and pattern[1] == "∷":
            tests.append(f"len({path}) > 0")
            self.pattern(f"{path}[0]", pattern[2], tests, names, binds)
            self.pattern(f"{path}[1:]", pattern[3], tests, names, binds)
        elif kind == "call":
            self.constructor(path, pattern[1][1], pattern[2:], tests, names, binds)
        elif kind == "word":
            word = pattern[1]
            if word == "_":
                return
            if self.is_constructor(word):
                self.constructor(path, word, [], tests, names, binds)
            else:
                python_name = self.fresh(word)
                names[word] = ("name", python_name)
                binds.append(f"{python_name} = {path}")
        else:
            raise Unknown(f"pattern {pattern}")

    def is_constructor(self, word):
        if word in ("true", "false", "zero"):
            return True
        try:
            return self.resolve(word)[0] == "constructor"
        except Unknown:
            return False

    def resolve(self, word):
        head, _, rest = word.partition(".")
        if rest and head in self.module.spaces:
            return self.world.space(self.module.spaces[head], rest)
        return self.module.find(word)

    def constructor(self, path, word, arguments, tests, names, binds):
        if word == "true":
            tests.append(path)
        elif word == "false":
            tests.append(f"not {path}")
        elif word == "zero":
            tests.append(f"{path} == 0")
        elif word == "suc":
            tests.append(f"{path} > 0")
            self.pattern(f"({path} - 1)", arguments[0], tests, names, binds)
        else:
            tests.append(f"{path}[0] == {self.resolve(word)[1]!r}")
            for place, argument in enumerate(arguments, 1):
                self.pattern(f"{path}[{place}]", argument, tests, names, binds)

    # ---- expressions

    def expression(self, e, names):
        return getattr(self, "on_" + e[0])(e, names)

    def on_number(self, e, names):
        return str(e[1])

    def on_string(self, e, names):
        return repr(e[1][1:-1].replace('\\"', '"').replace("\\\\", "\\"))

    def on_nil(self, e, names):
        return "NIL"

    def on_pair(self, e, names):
        return f"({self.expression(e[1], names)}, {self.expression(e[2], names)})"

    def on_if(self, e, names):
        test, yes, no = (self.expression(part, names) for part in e[1:])
        return f"({yes} if {test} else {no})"

    def on_binary(self, e, names):
        left, right = self.expression(e[2], names), self.expression(e[3], names)
        if e[1] == "∷":
            return f"(({left},) + {right})"
        if e[1] == "-":
            return f"max(0, {left} - {right})"
        sign = {"||": "or", "&&": "and", "++": "+", "+ℤ": "+", "-ℤ": "-", "/": "//", "^": "**"}.get(e[1], e[1])
        return f"({left} {sign} {right})"

    def on_lambda(self, e, names):
        names, text = dict(names), []
        for pattern in e[1]:
            if pattern[0] != "word":
                raise Unknown(f"λ {pattern}")
            python_name = self.fresh(pattern[1])
            names[pattern[1]] = ("name", python_name)
            text.append(f"lambda {python_name}: ")
        return f"({''.join(text)}{self.expression(e[2], names)})"

    def on_record(self, e, names):
        fields = ", ".join(f"{name!r}: {self.expression(value, names)}" for name, value in e[2])
        base = f"**{self.expression(e[1], names)}, " if e[1] else ""
        return f"{{{base}{fields}}}"

    def on_field(self, e, names):
        return self.fields(self.expression(e[1], names), [e[2]])

    def fields(self, text, fields):
        for field in fields:
            text += f"[{field}]" if field.isdigit() else f"[{field!r}]"
        return text

    def on_word(self, e, names):
        head, *fields = e[1].split(".")
        if head in names:
            kind, *found = names[head]
            if kind == "name":
                return self.fields(found[0], fields)
            return self.curried(found[0], found[1])
        if e[1] in ("true", "false"):
            return e[1].title()
        if e[1] == "zero":
            return "0"
        if fields and head in self.module.spaces:
            return self.value(self.resolve(e[1]))
        return self.fields(self.value(self.resolve(head)), fields)

    def value(self, found):
        kind, *what = found
        if kind == "constructor":
            name, arity = what
            if arity == 0:
                return f"({name!r},)"
            variables = [self.fresh() for _ in range(arity)]
            return f"({''.join(f'lambda {v}: ' for v in variables)}({name!r}, {', '.join(variables)}))"
        if kind == "native":
            code, arity = what
            return self.curried(self.put(code), arity)
        function = what[0]
        if function.arity == 0:
            return f"{self.put(function)}()"
        return self.curried(self.put(function), function.arity)

    def put(self, thing):
        name = f"g_{id(thing)}"
        self.scope[name] = thing
        return name

    def curried(self, name, arity):
        if arity == 1:
            return name
        variables = [self.fresh() for _ in range(arity)]
        return f"({''.join(f'lambda {v}: ' for v in variables)}{name}({', '.join(variables)}))"

    def on_call(self, e, names):
        head, arguments = e[1], [self.expression(argument, names) for argument in e[2:]]
        if head[0] == "word" and head[1] == "codes":
            return f"codes({arguments[0]})"
        if head[0] == "word":
            first = head[1].split(".")[0]
            if first in names:
                kind, *found = names[first]
                if kind == "local":
                    return self.saturated(found[0], found[1], arguments)
            elif head[1] == "suc":
                return f"({arguments[0]} + 1)"
            elif first in self.module.spaces or "." not in head[1]:
                found = self.resolve(head[1])
                if found[0] == "constructor":
                    return self.built(found[1], found[2], arguments)
                if found[0] == "native":
                    return self.saturated(self.put(found[1]), found[2], arguments)
                if found[1].arity:
                    return self.saturated(self.put(found[1]), found[1].arity, arguments)
        return self.applied(self.expression(head, names), arguments)

    def built(self, name, arity, arguments):
        missing = [self.fresh() for _ in range(arity - len(arguments))]
        return f"({''.join(f'lambda {v}: ' for v in missing)}({', '.join([repr(name), *arguments, *missing])},))"

    def saturated(self, name, arity, arguments):
        if len(arguments) < arity:
            missing = [self.fresh() for _ in range(arity - len(arguments))]
            given = [self.fresh() for _ in arguments]
            inner = f"{''.join(f'lambda {v}: ' for v in missing)}{name}({', '.join([*given, *missing])})"
            return f"(lambda {', '.join(given)}: {inner})({', '.join(arguments)})"
        return self.applied(f"{name}({', '.join(arguments[:arity])})", arguments[arity:])

    def applied(self, text, arguments):
        return text + "".join(f"({argument})" for argument in arguments)


def expression_to_end(parser):
    found = parser.expression()
    if parser.place != len(parser.tokens):
        raise Unknown(f"left: {parser.tokens[parser.place : parser.place + 6]}")
    return found


Parser.expression_to_end = expression_to_end


def match_failed(name, *arguments):
    raise Unknown(f"no clause of {name}: {str(arguments)[:300]}")


def apply(f, x):
    return f(x)


def codes(text):
    return tuple(text.encode())


def some(x):
    return ("Some", x)


NONE = ("None",)


def find(test, xs):
    for x in xs:
        if test(x):
            return some(x)
    return NONE


def position(test, xs):
    for i, x in enumerate(xs):
        if test(x):
            return some(i)
    return NONE


def fold(f, start, xs):
    for x in xs:
        start = f(start)(x)
    return start


def flat_map(f, xs):
    return tuple(y for x in xs for y in f(x))


def compared(a, b):
    return ("Less",) if a < b else ("Greater",) if a > b else ("Equal",)


def option_map(f, o):
    return some(f(o[1])) if len(o) > 1 else NONE


def slice_set(xs, i, y):
    return xs[:i] + (y,) + xs[i + 1 :] if i < len(xs) else xs


def filter_map(f, xs):
    return tuple(o[1] for o in map(f, xs) if len(o) > 1)


PRELUDE_CONSTRUCTORS = {"Some": 1, "None": 0, "Ok": 1, "Err": 1, "Less": 0, "Equal": 0, "Greater": 0}
PRELUDE = {
    "map": (lambda f, xs: tuple(map(f, xs)), 2),
    "filter": (lambda f, xs: tuple(filter(f, xs)), 2),
    "filter_map": (filter_map, 2),
    "flat_map": (flat_map, 2),
    "fold": (fold, 3),
    "find": (find, 2),
    "position": (position, 2),
    "length": (len, 1),
    "take": (lambda n, xs: xs[:n], 2),
    "drop": (lambda n, xs: xs[n:], 2),
    "replicate": (lambda n, x: (x,) * n, 2),
    "reverse": (lambda xs: xs[::-1], 1),
    "zip": (lambda xs, ys: tuple(zip(xs, ys)), 2),
    "sum_by": (lambda f, xs: sum(map(f, xs)), 2),
    "count_by": (lambda f, xs: sum(map(bool, map(f, xs))), 2),
    "max": (max, 2),
    "min": (min, 2),
    "nat_lt": (lambda a, b: a < b, 2),
    "nat_le": (lambda a, b: a <= b, 2),
    "nat_eq": (lambda a, b: a == b, 2),
    "int_le": (lambda a, b: a <= b, 2),
    "int_lt": (lambda a, b: a < b, 2),
    "nat_cmp": (compared, 2),
    "int_cmp": (compared, 2),
    "slice_cmp": (lambda cmp, a, b: compared(a, b), 3),
    "is_eq": (lambda o: o[0] == "Equal", 1),
    "is_lt": (lambda o: o[0] == "Less", 1),
    "not": (lambda b: not b, 1),
    "unwrap_or": (lambda o, x: o[1] if len(o) > 1 else x, 2),
    "option_map": (option_map, 2),
    "option_map_or": (lambda f, o, x: f(o[1]) if len(o) > 1 else x, 3),
    "option_and_then": (lambda f, o: f(o[1]) if len(o) > 1 else NONE, 2),
    "option_to_list": (lambda o: o[1:], 1),
    "is_some": (lambda o: len(o) > 1, 1),
    "is_none": (lambda o: len(o) == 1, 1),
    "slice_get": (lambda xs, i: some(xs[i]) if i < len(xs) else NONE, 2),
    "slice_set": (slice_set, 3),
    "list_any": (lambda f, xs: any(map(f, xs)), 2),
    "list_all": (lambda f, xs: all(map(f, xs)), 2),
    "bytes_eq": (lambda a, b: a == b, 2),
    "decimal": (lambda n: codes(str(n)), 1),
    "signed_decimal": (lambda n: codes(str(n)), 1),
    "pos": (lambda n: n, 1),
    "negsuc": (lambda n: -n - 1, 1),
    "div_ceil": (lambda a, b: -(-a // b), 2),
    "pred": (lambda n: max(0, n - 1), 1),
}

sys.setrecursionlimit(200_000)
