"""Runs definitions of the crates' specs/*.antt: what is computed there by clauses becomes functions of Python.

Of the language this reads what specs/ use: clauses with patterns, `where`, `let`, `if`, lambdas, records and their fields,
operators. Types are not read, and nothing is proved. A definition of the toolchain's library is not read either: STD has
each that is used, as its name in the library says. What that trusts beside the definitions stands in docs/CLAIMS.md.
"""

import functools
import operator
import re
from pathlib import Path

from antt_std import BUILT_IN, STD, Value, apply, curry, record, tag_of

ROOT = Path(__file__).resolve().parent.parent

TOKEN = re.compile(r'"(?:[^"\\]|\\.)*"|λ|[(){};,]|\.|[^\s(){}.;,"]+')
INFIX = {  # how tight, and to which side
    ">>=": (10, "l"), "||": (30, "r"), "&&": (35, "r"), "==": (40, "n"), "++": (60, "r"), "∷": (60, "r"),
    "+": (65, "l"), "-": (65, "l"), "*": (70, "l"), "/": (70, "l"), "%": (70, "l"), "^": (75, "r"),
}  # fmt: skip


IN_PYTHON = {"std_true": "True", "std_false": "False", "std_not": "(not {})"}


class Stuck(Exception):
    """No clause fits, or a text is not of the part of the language that is read."""


# ---- reading


def tokens_of(text):
    """Tokens, each with its column and whether a name touches it from the left."""
    found = []
    for at, line in enumerate(text.split("\n")):
        line = re.sub(r"(^|\s)--.*", r"\1", line)
        for it in TOKEN.finditer(line):
            touches = it.start() > 0 and not line[it.start() - 1].isspace() and line[it.start() - 1] not in "({;,"
            found.append((it[0], at, it.start(), touches))
    return found


def chunks_of(text, indent=0):
    """What begins at this column, each with the lines below it that stand further in."""
    chunk = []
    for line in text.split("\n"):
        bare = re.sub(r"(^|\s)--.*", "", line).rstrip()
        if not bare:
            continue
        if len(bare) - len(bare.lstrip()) <= indent and chunk and bare.lstrip()[0] not in ")}":
            yield "\n".join(chunk)
            chunk = []
        chunk.append(bare)
    if chunk:
        yield "\n".join(chunk)


class Module:
    """A file of specs/: what it brings in, and its own definitions."""

    def __init__(self, path):
        self.path, self.brings, self.aliases, self.clauses, self.data = path, {}, {}, {}, {}
        self.again, self.infix = {}, set()
        for chunk in chunks_of((ROOT / "crates" / path[0] / "specs" / f"{'/'.join(path[1:])}.antt").read_text()):
            self.read(chunk)

    def read(self, chunk):
        first = chunk.split(None, 1)[0]
        bare = re.sub(r"^(?:(?:pub|abbrev|unfoldable) )*", "", chunk)
        if bare.startswith("use "):
            self.read_use(bare[len("use ") :], chunk.startswith("pub"))
        elif bare.startswith("data "):
            self.read_data(bare)
        elif bare.startswith("infix"):
            self.infix.update(it.strip("◌") for it in bare.split()[2:])
        elif first in ("mod", "module", "open") or bare.startswith(("record ", "mod ")):
            return
        else:
            self.read_definition(chunk)

    def read_use(self, text, is_again):
        text = " ".join(text.split())
        if found := re.fullmatch(r"([^{}]*)\.\{(.*)\}", text):
            for item in found[2].split(","):
                name, _, alias = item.strip().partition(" as ")
                path = (*found[1].split("."), *name.split("."))
                self.brings[alias or path[-1]] = path
                if is_again:
                    self.again[alias or path[-1]] = path
        else:
            name, _, alias = text.partition(" as ")
            self.aliases[alias or name.split(".")[-1]] = tuple(name.split("."))

    def read_data(self, text):
        lines = text.split("\n")
        name = lines[0].split()[1]
        self.data[name] = {}
        for line in lines[1:]:
            if ":" in line:
                names, _, kind = line.partition(" : ")
                for it in names.split():
                    self.data[name][it] = count_arrows(kind)

    def read_definition(self, chunk):
        tokens = tokens_of(chunk)
        depth = 0
        for at, (word, *_) in enumerate(tokens):
            depth += (word in "({") - (word in ")}")
            if depth == 0 and word == ":":
                return  # a signature
            if depth == 0 and word == "=":
                name, patterns = Patterns(self, tokens[:at]).clause()
                self.clauses.setdefault(name, []).append((patterns, tokens[at + 1 :], chunk))
                return


def count_arrows(kind):
    depth, count = 0, 0
    for it in re.findall(r"[({]|[)}]|→", kind):
        depth += (it in "({") - (it in ")}")
        count += it == "→" and depth == 0
    return count


class Reader:
    """Goes over tokens."""

    def __init__(self, module, tokens):
        self.module, self.tokens, self.at = module, tokens, 0

    def peek(self, ahead=0):
        return self.tokens[self.at + ahead][0] if self.at + ahead < len(self.tokens) else None

    def touches(self, ahead=0):
        return self.at + ahead < len(self.tokens) and self.tokens[self.at + ahead][3]

    def next(self):
        self.at += 1
        return self.tokens[self.at - 1][0]

    def want(self, word):
        if self.peek() != word:
            raise Stuck(f"{self.module.path}: {word} is wanted at {self.peek()}: {' '.join(it[0] for it in self.tokens)[:300]}")
        return self.next()

    def dotted(self):
        """A name with what follows it by dots."""
        parts = [self.next()]
        while self.peek() == "." and self.touches() and self.touches(1):
            self.next()
            parts.append(self.next())
        return parts


class Patterns(Reader):
    """Reads what stands left of `=`: patterns are ("var", name), ("any",), ("number", n), ("tuple", ..), ("ctor", names, ..)."""

    def clause(self):
        infix = [at for at, it in enumerate(self.tokens) if it[0] in INFIX and it[0] != "∷" or it[0] in self.module.infix]
        depth, outer = 0, None
        for at, it in enumerate(self.tokens):
            depth += (it[0] in "({") - (it[0] in ")}")
            if depth == 0 and at in infix:
                outer = at
        if outer is not None:
            left = Patterns(self.module, self.tokens[:outer]).whole()
            right = Patterns(self.module, self.tokens[outer + 1 :]).whole()
            return f"◌{self.tokens[outer][0]}◌", [left, right]
        name = self.next()
        patterns = []
        while self.peek() is not None:
            if self.peek() == "{":
                while self.next() != "}":
                    pass
                continue
            patterns.append(self.atom())
        return name, patterns

    def whole(self):
        """A pattern that may be applied or be a list's."""
        if self.peek() == "(" or self.peek()[0].isdigit() or self.peek() in ("[]", "_"):
            first = self.atom()
        else:
            parts = self.dotted()
            args = []
            while self.peek() is not None and self.peek() not in ("∷", ")", ",", "]"):
                args.append(self.atom())
            first = ("name", parts, args)
        if self.peek() == "∷":
            self.next()
            return ("name", ["∷"], [first, self.whole()])
        return first

    def atom(self):
        word = self.peek()
        if word == "(":
            self.next()
            inside = [self.whole()]
            if self.peek() == ":":
                while self.peek() != ")":
                    self.next()
            while self.peek() == ",":
                self.next()
                inside.append(self.whole())
            self.want(")")
            return inside[0] if len(inside) == 1 else ("tuple", inside)
        if word == "_":
            self.next()
            return ("any",)
        if word[0].isdigit():
            return ("number", int(self.next(), 0))
        return ("name", self.dotted(), [])


class Expressions(Reader):
    """Makes expressions of Python of what stands right of `=`. `here` has the names that are bound around it."""

    def __init__(self, module, tokens, world, here):
        super().__init__(module, tokens)
        self.world, self.here = world, here

    def whole(self):
        made = self.expression(0)
        if self.peek() is not None:
            raise Stuck(f"{self.module.path}: {self.peek()} is left of {' '.join(it[0] for it in self.tokens)[:300]}")
        return made

    def binder(self):
        """One binder of a lambda, or a let's pattern: a name, `_`, a name with its type, or a tuple of names."""
        if self.peek() == "(":
            self.next()
            names = [self.binder()]
            if self.peek() == ":":
                self.skip_type((")",))
            while self.peek() == ",":
                self.next()
                names.append(self.binder())
            self.want(")")
            return names[0] if len(names) == 1 else names
        if self.peek() == "{":
            while self.next() != "}":
                pass
            return None
        return self.next()

    def skip_type(self, ends):
        depth = 0
        while self.peek() is not None:
            if depth == 0 and self.peek() in ends:
                return
            depth += (self.peek() in "({") - (self.peek() in ")}")
            self.next()

    def bind(self, binder, here):
        """The variable of Python for a binder, whose names are bound to it or to its parts."""
        variable = self.world.fresh()
        if isinstance(binder, list):
            here.update((it, f"{variable}[{at}]") for at, it in enumerate(binder))
        else:
            here[binder] = variable
        return variable

    def expression(self, tightness):
        word = self.peek()
        if word == "λ":
            return self.function()
        if word == "let":
            return self.let()
        if word == "do":
            return self.actions()
        if word == "if":
            self.next()
            test = self.expression(0)
            self.want("then")
            left = self.expression(0)
            self.want("else")
            return f"({left} if {test} else {self.expression(5)})"
        return self.operators(tightness)

    def body(self, here):
        """An expression in which these names are bound."""
        inner = Expressions(self.module, self.tokens, self.world, here)
        inner.at = self.at
        made = inner.expression(0)
        self.at = inner.at
        return made

    def function(self):
        self.want("λ")
        here, variables = dict(self.here), []
        while self.peek() != ".":
            variables.append(self.bind(self.binder(), here))
        self.want(".")
        return "".join(f"(lambda {it}: " for it in variables) + self.body(here) + ")" * len(variables)

    def let(self):
        self.want("let")
        binder = self.binder()
        if self.peek() == ":":
            self.skip_type(("=",))
        self.want("=")
        value = self.expression(0)
        self.want("in")
        here = dict(self.here)
        variable = self.bind(binder, here)
        return f"(lambda {variable}: {self.body(here)})({value})"

    def actions(self):
        """A `do` block: each statement begins at the column of the first."""
        self.next()
        column, statements, depth = self.tokens[self.at][2], [], 0
        while self.peek() is not None:
            word, row, at, _ = self.tokens[self.at]
            is_first = row != self.tokens[self.at - 1][1]
            if depth == 0 and (is_first and at < column or word in (")", "}", ",")):
                break
            if is_first and at == column or not statements:
                statements.append([])
            depth += (word in "({") - (word in ")}")
            statements[-1].append(self.tokens[self.at])
            self.next()
        return self.chain(statements, self.here)

    def chain(self, statements, here):
        first, rest = statements[0], statements[1:]
        if not rest:
            return Expressions(self.module, first, self.world, here).all()
        arrow = next((at for at, it in enumerate(first) if it[0] == "←"), None)
        is_let = first[0][0] == "let"
        if is_let:
            arrow = next(at for at, it in enumerate(first) if it[0] == "=")
        if arrow is None:
            raise Stuck("a statement that binds nothing")
        inside = dict(here)
        variable = self.bind(Expressions(self.module, first[is_let:arrow], self.world, here).binder(), inside)
        value = Expressions(self.module, first[arrow + 1 :], self.world, here).all()
        following = f"(lambda {variable}: {self.chain(rest, inside)})"
        return f"{following}({value})" if is_let else self.operate(">>=", value, following)

    def all(self):
        return self.as_text(self.whole())

    def operators(self, tightness):
        left = self.application()
        while self.peek() in INFIX:
            operator = self.peek()
            tight, side = INFIX[operator]
            if tight < tightness:
                break
            self.next()
            right = self.expression(tight if side == "r" else tight + 1)
            left = self.operate(operator, left, right)
        return left

    def operate(self, operator, left, right):
        if operator == ">>=":
            return self.call(self.world.look_up(self.module, ["◌>>=◌"]), [left, right])
        if operator == "-":
            return f"max({left} - {right}, 0)"
        if operator == "/":
            return f"({left} // {right})"
        if operator == "∷":
            return f"(({left},) + {right})"
        words = {"&&": "and", "||": "or", "++": "+", "^": "**"}
        return f"({left} {words.get(operator, operator)} {right})"

    def application(self):
        head = self.atom()
        args = []
        while (word := self.peek()) is not None:
            if word in ("λ", "let", "do"):
                args.append(self.expression(0))
                break
            if word == "{":
                while self.next() != "}":
                    pass
                continue
            if word in INFIX or word in (")", "}", ",", ";", "then", "else", "in", "=", "|", "where", "."):
                break
            args.append(self.as_text(self.atom()))
        return self.call(head, args)

    def as_text(self, made):
        return self.call(made, []) if isinstance(made, tuple) else made

    def call(self, head, args):
        """`head` is a text, or what a name stands for, with how many arguments it takes."""
        if not isinstance(head, tuple):
            return f"apply({head}, {', '.join(args)})" if args else head
        name, count = head
        if name in IN_PYTHON and len(args) == count:
            return IN_PYTHON[name].format(*args)
        if len(args) < count:
            return f"apply(curry({name}, {count}), {', '.join(args)})" if args else f"curry({name}, {count})"
        made = f"{name}({', '.join(args[:count])})"
        return f"apply({made}, {', '.join(args[count:])})" if args[count:] else made

    def atom(self):
        word = self.peek()
        if word == "(":
            self.next()
            inside = [self.expression(0)]
            while self.peek() == ",":
                self.next()
                if self.peek() != ")":
                    inside.append(self.expression(0))
            self.want(")")
            inside = [self.as_text(it) for it in inside]
            return self.fields(inside[0] if len(inside) == 1 else f"({', '.join(inside)})")
        if word == "record":
            return self.record()
        if word[0] == '"':
            return self.next()
        if word[0].isdigit():
            return str(int(self.next().replace("_", ""), 0))
        if word == "[]":
            self.next()
            return "()"
        parts = self.dotted()
        if parts[0] in self.here:
            return self.project(self.here[parts[0]], parts[1:])
        made, used = self.world.name(self.module, parts)
        return self.project(self.as_text(made), parts[used:]) if parts[used:] else made

    def fields(self, made):
        parts = []
        while self.peek() == "." and self.touches() and self.touches(1):
            self.next()
            parts.append(self.next())
        return self.project(made, parts)

    def project(self, made, parts):
        for it in parts:
            made = f"{made}[{it}]" if it.isdigit() else f"{made}.f_{it}"
        return made

    def record(self):
        self.next()
        of = None if self.peek() == "{" else self.as_text(self.atom())
        self.want("{")
        fields = []
        while self.peek() != "}":
            name = self.next()
            self.want("=")
            fields.append((name, self.as_text(self.expression(0))))
            if self.peek() == ";":
                self.next()
        self.want("}")
        if of:
            return f"{of}._replace({', '.join(f'f_{name}={made}' for name, made in fields)})"
        return f"record({', '.join(f'{name}={made}' for name, made in fields)})"


# ---- the whole


class World:
    """All modules that are asked for, and what their definitions have become."""

    def __init__(self):
        self.modules, self.made, self.count, self.arities = {}, {}, 0, {}
        self.hits = []  # of each clause, whether it was taken
        self.clauses = {}  # by number: the module, the name and the text of it
        self.scope = {"apply": apply, "curry": curry, "record": record, "Stuck": Stuck, "Value": Value, "HIT": self.hits, "keeping": keeping}
        self.scope |= {f"std_{name}": made for name, (_, made) in STD.items()}
        self.waiting = []

    def fresh(self):
        self.count += 1
        return f"v{self.count}"

    def module(self, path):
        if path not in self.modules:
            self.modules[path] = Module(path)
        return self.modules[path]

    def is_module(self, path):
        return len(path) > 1 and (ROOT / "crates" / path[0] / "specs" / f"{'/'.join(path[1:])}.antt").is_file()

    # -- names

    def resolve(self, path):
        """What a whole path names: ("def", module, name), ("ctor", tag, count), ("std", name) or ("type", path)."""
        path = path[1:] if path[0] == "Rattle" else path
        if path[0] in ("std", "core", "mathlib", "lib", "Prim", "arrayvec"):
            return self.library(path[-1])
        path = tuple(it for it in path if it != "specs")
        if "declared" in path:
            return self.declared(path)
        for cut in range(len(path) - 1, 1, -1):
            if self.is_module(path[:cut]):
                return self.member(self.module(path[:cut]), path[cut:])
        raise Stuck(f"{'.'.join(path)} is not found")

    def library(self, name):
        if name in BUILT_IN:
            return "ctor", ("", name), BUILT_IN[name]
        return "std", name

    def declared(self, path):
        """A type of the code, or one of its variants."""
        at = path.index("TheVariants") if "TheVariants" in path else None
        if at is None:
            return "type", path
        place = path[:at]
        if at == len(path) - 1:
            return "type", place
        variants = self.variants(place)
        return "ctor", (".".join(place), path[-1]), variants[path[-1]]

    @functools.lru_cache(maxsize=None)
    def variants(self, place):
        """Of each variant of an enum how many fields it has."""
        crate, name = place[0], place[-1]
        stem = place[place.index("declared") + 1 : -1]
        for file in ((ROOT / "crates" / crate / "src").joinpath(*stem).with_suffix(".rt"), *(ROOT / "crates" / crate / "src").rglob("*.rt")):
            if file.is_file() and (found := re.search(rf"^(?:pub(?:\([a-z]+\))? )?enum {name}\b[^{{]*\{{\n(.*?)^\}}", file.read_text(), re.M | re.S)):
                body = re.sub(r"^\s*(///?.*|#\[.*\])$", "", found[1], flags=re.M)
                return {it[1]: count_fields(it[2] or "") for it in re.finditer(r"^    (\w+)(\(.*?\)|\s*\{.*?\})?(?: = \d+)?,$", body, re.M | re.S)}
        raise Stuck(f"enum {name} of {crate} is not found")

    def member(self, module, path):
        """What a path below a module names."""
        name = path[0]
        if len(path) > 1:
            if name in module.data:
                return "ctor", (".".join((*module.path, name)), path[1]), module.data[name][path[1]]
            if name in module.again:
                return self.resolve((*module.again[name], *path[1:]))
            raise Stuck(f"{'.'.join(path)} is not in {'.'.join(module.path)}")
        if name in module.clauses:
            return "def", module, name
        if name in module.data:
            return "type", (*module.path, name)
        for kind, constructors in module.data.items():
            if name in constructors:
                return "ctor", (".".join((*module.path, kind)), name), constructors[name]
        if name in module.again:
            return self.resolve(module.again[name])
        return "type", (*module.path, name)

    def find(self, module, parts):
        """What the first words of a dotted name stand for, and how many they are; None if it is unknown."""
        name = parts[0]
        if len(parts) > 1:
            if name in module.data and parts[1] in module.data[name]:
                return self.member(module, tuple(parts[:2])), 2
            if name in module.aliases:
                return self.resolve((*module.aliases[name], parts[1])), 2
            if name in module.brings and self.resolve(module.brings[name])[0] == "type":
                place = self.resolve(module.brings[name])[1]
                if "declared" in place:
                    return self.declared((*place, "TheVariants", parts[1])), 2
                return self.resolve((*place, parts[1])), 2
        if name in module.clauses or any(name in it for it in module.data.values()):
            return self.member(module, (name,)), 1
        if name in module.brings:
            return self.resolve(module.brings[name]), 1
        if name in BUILT_IN or name in STD:
            return self.library(name), 1
        return None

    def name(self, module, parts):
        """What a name is in Python, with how many arguments it takes, and how many of the words it takes."""
        found = self.find(module, parts)
        if found is None:
            raise Stuck(f"{'.'.join(parts)} is unknown in {'.'.join(module.path)}")
        what, used = found
        return self.stands_for(what), used

    def look_up(self, module, parts):
        return self.name(module, parts)[0]

    def stands_for(self, what):
        if what[0] == "def":
            return self.define(what[1], what[2])
        if what[0] == "std":
            if what[1] not in STD:
                raise Stuck(f"{what[1]} of the library is not in STD")
            return f"std_{what[1]}", STD[what[1]][0]
        if what[0] == "ctor":
            tag, count = what[1], what[2]
            name = f"c_{'_'.join(re.sub(r'[^a-zA-Z0-9]', '_', it) for it in tag)}"
            if name not in self.scope:
                self.scope[name] = (lambda made: lambda: made)(Value(tag)) if not count else (lambda *args: Value(tag, args))
            return name, count
        raise Stuck(f"{what[1]} is a type")

    def tag(self, tag):
        """The variable of Python for a constructor's tag."""
        name = f"t_{'_'.join(re.sub(r'[^a-zA-Z0-9]', '_', it) for it in tag)}"
        self.scope[name] = tag_of(tag)
        return name

    # -- definitions

    def define(self, module, name):
        key = (module.path, name)
        if key not in self.made:
            label = f"d{len(self.made)}_{re.sub(r'[^a-zA-Z0-9_]', '_', name)}"
            self.made[key] = label, len(module.clauses[name][0][0])
            self.waiting.append((module, name, label))
        return self.made[key]

    def get(self, path):
        """The function that a whole path names, of all its arguments."""
        what = self.resolve(tuple(path.split(".")))
        label, count = self.stands_for(what)
        while self.waiting:
            module, name, made = self.waiting.pop()
            exec(compile(self.function(module, name, made), f"<{'.'.join(module.path)}.{name}>", "exec"), self.scope)
        return self.scope[label]

    def function(self, module, name, label):
        clauses = module.clauses[name]
        count = len(clauses[0][0])
        lines = [f"def {label}({', '.join(f'a{at}' for at in range(count))}):"]
        if count == 0:
            lines.insert(0, "@__import__('functools').lru_cache(maxsize=None)")
        for patterns, tokens, text in clauses:
            number = len(self.clauses)
            self.clauses[number] = module, name, text
            self.hits.append(False)
            lines += self.clause(module, patterns, tokens, text, number, "    ", {}, "a")
        lines.append(f"    raise Stuck({label!r})")
        made = "\n".join(lines)
        again = made.replace(f"{label}(", f"{label}_again(")
        return f"{again}\n{label} = keeping({label}_again)" if count and made.count(f"{label}(") > 1 else made

    def clause(self, module, patterns, tokens, text, number, indent, here, prefix):
        tests, here = [], dict(here)
        for at, pattern in enumerate(patterns):
            self.match(module, pattern, f"{prefix}{at}", tests, here)
        lines, inner = [], indent
        if tests:
            lines.append(f"{indent}if {' and '.join(tests)}:")
            inner += "    "
        if number is not None:
            lines.append(f"{inner}HIT[{number}] = True")
        body, helpers = tokens, None
        depth = 0
        for at, it in enumerate(tokens):
            depth += (it[0] in "({") - (it[0] in ")}")
            if it[0] == "where" and depth == 0:
                body, helpers = tokens[:at], it[1]
                break
        if helpers is not None:
            lines += self.helpers(module, text, helpers, inner, here)
        reader = Expressions(module, body, self, here)
        lines.append(f"{inner}return {reader.as_text(reader.whole())}")
        return lines

    def helpers(self, module, text, row, indent, here):
        """What stands below a `where`, as functions inside the one around it."""
        below = text.split("\n")[row + 1 :]
        depth = min(len(it) - len(it.lstrip()) for it in below if it.strip())
        named, lines = {}, []
        for chunk in chunks_of("\n".join(below), depth):
            tokens = tokens_of(chunk)
            level = 0
            for at, (word, *_) in enumerate(tokens):
                level += (word in "({") - (word in ")}")
                if level == 0 and word == ":":
                    break
                if level == 0 and word == "=":
                    name, patterns = Patterns(module, tokens[:at]).clause()
                    named.setdefault(name, []).append((patterns, tokens[at + 1 :], chunk))
                    break
        for name, clauses in named.items():
            label = self.fresh()
            count = len(clauses[0][0])
            inside = dict(here)
            lines.append(f"{indent}def {label}({', '.join(f'{label}_{at}' for at in range(count))}):")
            for patterns, tokens, chunk in clauses:
                lines += self.clause(module, patterns, tokens, chunk, None, indent + "    ", inside, f"{label}_")
            lines.append(f"{indent}    raise Stuck({name!r})")
            here[name] = f"curry({label}, {count})"
        return lines

    def match(self, module, pattern, place, tests, here):
        """What must hold of a value for a pattern, and what the pattern binds."""
        if pattern[0] == "any":
            return
        if pattern[0] == "number":
            tests.append(f"{place} == {pattern[1]}")
        elif pattern[0] == "tuple":
            for at, it in enumerate(pattern[1]):
                self.match(module, it, f"{place}[{at}]", tests, here)
        else:
            self.match_name(module, pattern[1], pattern[2], place, tests, here)

    def match_name(self, module, parts, args, place, tests, here):
        if parts == ["∷"]:
            tests.append(place)
            self.match(module, args[0], f"{place}[0]", tests, here)
            self.match(module, args[1], f"{place}[1:]", tests, here)
        elif parts == ["[]"]:
            tests.append(f"not {place}")
        elif parts in (["true"], ["false"]):
            tests.append(place if parts == ["true"] else f"not {place}")
        elif parts == ["zero"]:
            tests.append(f"{place} == 0")
        elif parts == ["suc"]:
            tests.append(f"{place} > 0")
            self.match(module, args[0], f"({place} - 1)", tests, here)
        else:
            found = self.find(module, parts)
            if found and found[0][0] == "ctor":
                tests.append(f"{place}.tag is {self.tag(found[0][1])}")
                for at, it in enumerate(args):
                    self.match(module, it, f"{place}.args[{at}]", tests, here)
            elif len(parts) == 1 and not args:
                here[parts[0]] = place
            else:
                raise Stuck(f"{'.'.join(parts)} is no constructor in {'.'.join(module.path)}")


def keeping(function):
    """The function, which goes over a list by calling itself, with what it gave last for the very same arguments."""
    kept = []

    def made(*args):
        for these, told in kept:
            if all(map(operator.is_, these, args)):
                return told
        told = function(*args)
        kept.insert(0, (args, told))
        del kept[4:]
        return told

    return made


def count_fields(text):
    """How many fields a variant has, of the text between its brackets."""
    inside = text.strip()[1:-1]
    depth, count = 0, 1 if inside.strip() else 0
    for at, it in enumerate(inside):
        depth += (it in "(<[{") - (it in ")>]}")
        count += it == "," and depth == 0 and bool(inside[at + 1 :].strip())
    return count
