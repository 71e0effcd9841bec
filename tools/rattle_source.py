"""The functions of the crates' .rt files: parameters, bodies as trees, and what each calls.

A tree is a tuple: ("num", text), ("name", n), ("path", text), ("call", path, args), ("method", object, name, args), ("field", object, name),
("index", object, index), ("range", from, to), ("un", operator, x), ("bin", operator, x, y), ("cast", x, type), ("array", items), which a tuple is too,
("closure", names, x), ("try", x), ("struct", path, values) of ("value", field or .., x), ("let", names, x), ("set", place, x), ("for", names, range or
iterator, block), ("while", condition, block), ("if", condition, block, block), ("match", x, arms), ("return", x), ("block", items), which a `loop` is too.
The names are those of a pattern, in a list. What isn't read by these forms is an error.

A method, and `^` on a struct, is followed by the type of what it is called on, as far as parameters, fields and results tell it; a function of a
type parameter's trait is each of the trait's types'. What is called and is no crate's function is the library's.
Another operator's impl is an error.
"""
import re

TOKEN = re.compile(r"0x[0-9a-f_]+(?:u\d+|usize)?|\d[\d_]*(?:u\d+|usize)?|[A-Za-z_]\w*|::|->|<<|>>|\.\.=?|[-+*/%^&|=!<>]=|&&|\|\||[^\s\w]")
CONTRACT = re.compile(r"\b(?:requires|ensures)(?:\s+\w+)?\s*\{")
STRING = re.compile(r'"(?:[^"\\\n]|\\.)*"')
# what the program asks of the runtime: files, streams and arguments
OUTSIDE = re.compile(r"^pub trait \w+[^{;]*\{|^impl \w+ for HostRuntime \{", re.M)
LEVELS = [["||"], ["&&"], ["==", "!=", "<", ">", "<=", ">="], ["|"], ["^"], ["&"], ["<<", ">>"], ["+", "-"], ["*", "/", "%"]]


def code(text):
    """The text without comments, ghost imports, clauses, what stands in strings and what is asked of the runtime."""
    text = STRING.sub('""', re.sub(r"^ghost use [^;]*;", "", re.sub(r"//[^\n]*", "", text), flags=re.M))
    while m := CONTRACT.search(text) or OUTSIDE.search(text):
        depth, end = 1, m.end()
        while depth:
            depth += {"{": 1, "}": -1}.get(text[end], 0)
            end += 1
        text = text[: m.start()] + text[end:]
    return text


def imported(text):
    """The paths of the use items, a group's one by one."""
    for path, group in re.findall(r"^(?:pub )?use ([\w:]+?)(?:::\{([^{}]*)\})?;", text, flags=re.M):
        yield from [f"{path}::{name}" if name != "self" else path for name in re.findall(r"\w+", group)] or [path]


def last(kind):
    """A type's own name, of its path."""
    return re.sub(r"^&|'\w+|mut |<.*", "", kind).split("::")[-1].strip()


def arguments(kind):
    """The types that a type is made of, in its angle brackets."""
    inner = re.search(r"<(.*)>", kind)
    depth, parts = 0, [""]
    for c in inner.group(1) if inner else "":
        depth += {"<": 1, "[": 1, ">": -1, "]": -1}.get(c, 0)
        if c == "," and not depth:
            parts.append("")
        else:
            parts[-1] += c
    return [p.strip() for p in parts if p.strip() and not p.strip().startswith("'")]


class Function:
    def __init__(self, crate, module, owner, name, params, result, bounds):
        self.crate, self.module, self.name, self.params, self.result = crate, module, name, params, result
        self.owner, self.bounds = owner, bounds  # the type of a method; a type parameter -> its trait
        self.path = "::".join([crate] + module + ([owner] if owner else []) + [name])
        self.start, self.body, self.calls = None, None, []  # calls: (path, arguments)
        self.library = []  # what it calls of the library, a method with a dot before it, and functions that it names and doesn't call: (name, tree)


class Parser:
    def __init__(self, text, where):
        self.tokens, self.at, self.where = TOKEN.findall(code(text)), 0, where

    def next(self, ahead=0):
        return self.tokens[self.at + ahead] if self.at + ahead < len(self.tokens) else ""

    def take(self, *expected):
        token = self.next()
        if expected and token not in expected:
            raise SystemExit(f"{self.where}: {' or '.join(expected)} expected at: {' '.join(self.tokens[self.at:self.at + 12])}")
        self.at += 1
        return token

    def skip(self, token):
        if self.next() == token:
            self.at += 1
            return True
        return False

    def until(self, *ends):
        """The text up to one of `ends`, brackets whole."""
        out, depth = [], 0
        while depth or self.next() not in ends:
            if not self.next():
                raise SystemExit(f"{self.where}: {' or '.join(ends)} expected before the end")
            token = self.take()
            depth += (token in "([{") - (token in ")]}")
            out.append(token)
        return "".join(out).replace("mut", "mut ")

    def typed(self, *ends):
        """A type or what else stands up to one of `ends`, angle brackets whole too."""
        out, depth = [], 0
        while depth or self.next() not in ends:
            if not self.next():
                raise SystemExit(f"{self.where}: {' or '.join(ends)} expected before the end")
            token = self.take()
            depth += {"(": 1, "[": 1, "<": 1, ")": -1, "]": -1, ">": -1, ">>": -2}.get(token, 0)
            out.append(token)
        return "".join(out).replace("mut", "mut ")

    def pattern(self, *ends):
        """The names that a pattern binds, in order; a struct's fields aren't among what is read."""
        if "{" in (text := self.typed(*ends).replace("mut ", " ")):
            raise SystemExit(f"{self.where}: a pattern of a struct isn't read: {text}")
        return [t for t in re.findall(r"[a-z_]\w*", text) if t not in ("ref", "mut")]

    def listed(self, end, item):
        items = []
        while not self.skip(end):
            items.append(item())
            if self.next() != end:
                self.take(",")
        return items

    def path(self):
        parts = [self.take()]
        while self.skip("::"):
            if self.skip("<"):
                self.typed(">")
                self.take(">")
            else:
                parts.append(self.take())
        return "::".join(parts)

    # statements
    def block(self):
        self.take("{")
        items = []
        while not self.skip("}"):
            items.append(self.statement())
        return ("block", items)

    def statement(self):
        token = self.next()
        if token == "if":
            return self.branch()
        keyword = {"let": self.binding, "for": self.counted, "while": self.repeated, "loop": self.endless}.get(token)
        keyword = keyword or {"break": self.left, "continue": self.left, "match": self.cases, "return": self.returned}.get(token)
        if keyword:
            self.take()
            return keyword()
        return self.assignment()

    def binding(self):
        names = self.pattern(":", "=")
        if self.skip(":"):
            self.until("=")
        self.take("=")
        x = self.expression()
        self.take(";")
        return ("let", names, x)

    def counted(self):
        names = self.pattern("in")
        self.take("in")
        bounds = self.expression(struct=False)
        return ("for", names, bounds, self.block())

    def repeated(self):
        condition = self.expression(struct=False)
        return ("while", condition, self.block())

    def endless(self):
        return self.block()

    def left(self):
        self.take(";")
        return ("block", [])

    def cases(self):
        x, arms = self.expression(struct=False), []
        self.take("{")
        while not self.skip("}"):
            while self.take() != "=" or self.take() != ">":
                pass
            arms.append(self.block() if self.next() == "{" else self.expression())
            self.skip(",")
        return ("match", x, arms)

    def returned(self):
        x = None if self.next() == ";" else self.expression()
        self.take(";")
        return ("return", x)

    def assignment(self):
        x = self.expression()
        if self.next() in ("=", "+=", "-=", "*=", "^=", "&=", "|="):
            op = self.take()
            y = self.expression()
            x = ("set", x, y if op == "=" else ("bin", op[0], x, y))
        if self.next() != "}":
            self.take(";")
        return x

    def branch(self):
        self.take("if")
        condition = self.expression(struct=False)
        then, other = self.block(), ("block", [])
        if self.skip("else"):
            other = self.branch() if self.next() == "if" else self.block()
        return ("if", condition, then, other)

    # expressions
    def expression(self, struct=True):
        x = None if self.next() in ("..", "..=") else self.binary(0, struct)
        if self.next() in ("..", "..="):
            self.take()
            end = None if self.next() in ("]", ")", "{") else self.binary(0, struct)
            x = ("range", x, end)
        return x

    def binary(self, level, struct):
        if level == len(LEVELS):
            return self.cast(struct)
        x = self.binary(level + 1, struct)
        while self.next() in LEVELS[level]:
            op = self.take()
            x = ("bin", op, x, self.binary(level + 1, struct))
        return x

    def cast(self, struct):
        x = self.unary(struct)
        while self.skip("as"):
            x = ("cast", x, self.take())
        return x

    def unary(self, struct):
        if self.next() in ("!", "-"):
            return ("un", self.take(), self.unary(struct))
        if self.skip("&") or self.skip("*"):
            self.skip("mut")
            return self.unary(struct)  # a loan is what it lends
        return self.postfix(struct)

    def postfix(self, struct):
        x = self.primary(struct)
        while True:
            if self.skip("."):
                name = self.take()
                x = ("method", x, name, self.listed(")", self.expression)) if self.skip("(") else ("field", x, name)
            elif self.skip("["):
                x = ("index", x, self.expression())
                self.take("]")
            elif self.skip("?"):
                x = ("try", x)
            else:
                return x

    def closure(self):
        names = [] if self.skip("||") else None
        if names is None:
            self.take("|")
            names = self.pattern("|")
            self.take("|")
        return ("closure", names, self.block() if self.next() == "{" else self.expression())

    def primary(self, struct):
        token = self.next()
        if token == "(":
            self.take()
            items = self.listed(")", self.expression)
            return items[0] if len(items) == 1 else ("array", items)
        if token in ("|", "||"):
            return self.closure()
        if token == "[":
            self.take()
            if self.next() == "]":
                self.take()
                return ("array", [])
            x = self.expression()
            if self.skip(";"):
                self.expression()
                self.take("]")
                return ("array", [x])
            self.skip(",")
            return ("array", [x] + self.listed("]", self.expression))
        if token[:1].isdigit():
            return ("num", self.take())
        if not re.match(r"[A-Za-z_]", token):
            self.take("an expression")
        path = self.path()
        if self.skip("("):
            return ("call", path, self.listed(")", self.expression))
        if struct and self.next() == "{" and path.split("::")[-1][:1].isupper():
            self.take()
            return ("struct", path, self.listed("}", self.value))
        if path in ("true", "false"):
            return ("num", path)
        return ("path", path) if "::" in path else ("name", path)

    def value(self):
        if self.skip(".."):
            return ("value", "..", self.expression())
        name = self.take()
        return ("value", name, self.expression() if self.skip(":") else ("name", name))


class Source:
    """All functions of the crates, by path, and what each calls."""

    def __init__(self, crates):
        self.functions, self.types = {}, set()
        self.methods, self.fields, self.traits = {}, {}, {}  # of a type's name: its functions, its fields' types; of a trait's: its types
        self.parameters, self.aliases = {}, {}  # of a type's name: its type parameters; what it stands for
        self.names, self.modules = {}, {}  # a module's path -> what its names stand for; -> the modules in it
        for root in sorted(crates.glob("*/src/lib.rt")):
            for file in sorted(root.parent.rglob("*.rt")):
                module = file.relative_to(root.parent).with_suffix("").parts
                self.read(root.parent.parent.name, [] if file == root else list(module), file)

    def read(self, crate, module, file):
        text, here = file.read_text(), [crate] + module
        names, inner = self.names.setdefault("::".join(here), {}), self.modules.setdefault("::".join(here), set())
        for name in re.findall(r"^(?:pub(?:\(crate\))? )?mod (\w+);", text, flags=re.M):
            inner.add(name)
        for path in imported(text):
            first, *rest = path.split("::")
            start = [crate] if first == "crate" else here + [first] if first in inner else [first]
            names[path.split("::")[-1]] = "::".join(start + rest)
        for name in re.findall(r"^\s*(?:pub(?:\(crate\))? )?(?:struct|enum|type|const) (\w+)", text, flags=re.M):
            self.types.add("::".join(here + [name]))
            names[name] = "::".join(here + [name])
        for name, parameters, body in re.findall(r"\bstruct (\w+)(<[^{;(]*>)?[^{;(]*\{([^}]*)\}", code(text)):
            self.fields[name] = {n: t.strip() for n, t in re.findall(r"(\w+): ([^,}]+)", body)}
            self.parameters[name] = [a.split(":")[0].strip() for a in arguments(parameters)]
        self.aliases.update(re.findall(r"\btype (\w+) = ([^;]+);", code(text)))
        parser = Parser(text, file)
        while parser.next():
            token = parser.take()
            if token == "fn":
                self.function(crate, module, "", parser, names)
            elif token in ("impl", "trait"):
                self.methods_of(token, crate, module, parser, names)

    def methods_of(self, token, crate, module, parser, names):
        """What stands in an impl or a trait; a trait's own functions are its impls'."""
        if parser.skip("<"):
            parser.typed(">")
            parser.take(">")
        head = parser.typed("{").replace("for", " for ", 1) if token == "impl" else parser.typed("{")
        trait, _, owner = head.rpartition(" for ")
        if re.match(r"(Add|Sub|Mul|Div|Rem|Neg|Not|BitAnd|BitOr|Shl|Shr|Index|Deref|\w*Assign)", last(trait)):
            raise SystemExit(f"{parser.where}: the operator {last(trait)} isn't followed")
        if trait:
            self.traits.setdefault(last(trait), set()).add(last(owner))
        parser.take("{")
        depth = 1
        while depth:
            inner = parser.take()
            depth += (inner == "{") - (inner == "}")
            if inner == "fn":
                self.function(crate, module, last(owner) if token == "impl" else None, parser, names)

    def function(self, crate, module, owner, parser, names):
        name, bounds = parser.take(), {}
        if parser.skip("<"):
            bounds = {p: last(b) for p, b in re.findall(r"(\w+):(\w+)", parser.typed(">"))}
            parser.take(">")
        parser.take("(")
        params = []
        while not parser.skip(")"):
            while parser.next() in ("&", "mut"):
                parser.take()
            param = parser.take()
            if param != "self":
                parser.take(":")
            params.append((param, parser.typed(",", ")") if param != "self" else owner or "Self"))
            parser.skip(",")
        result = parser.until("{", ";") if parser.skip("->") else ""
        if parser.skip(";"):
            return
        f = Function(crate, module, owner, name, params, owner if result == "Self" else result, bounds)
        f.start = parser, parser.at
        if f.path in self.functions or name in self.methods.get(owner, {}):
            raise SystemExit(f"{parser.where}: {f.path} stands twice")
        if owner is not None:
            self.functions[f.path] = f
        if owner:
            self.methods.setdefault(owner, {})[name] = f.path
        elif owner is not None:
            names[name] = f.path
        parser.take("{")
        parser.until("}")
        parser.take("}")

    def resolve(self, f, path):
        """The full path of what `path` names in f's module."""
        here, (first, *rest) = "::".join([f.crate] + f.module), path.split("::")
        if first == "crate":
            full = "::".join([f.crate] + rest)
        elif not rest or first not in self.modules[here]:
            full = "::".join([self.names[here].get(first, first)] + rest)
        else:
            full = "::".join([here] + [first] + rest)
        while full not in self.functions and full not in self.types:  # names that a module hands on
            module, _, name = full.rpartition("::")
            to = self.names.get(module, {}).get(name, full)
            if to == full:
                break
            full = to
        return full

    def kind(self, f, x):
        """The type of x, where a parameter, a field or a result tells it, else nothing."""
        if x[0] == "name":
            return f.kinds.get(x[1], "")
        if x[0] == "field":
            of = self.kind(f, x[1])
            of = self.aliases.get(last(of), of)
            kind = self.fields.get(last(of), {}).get(x[2], "")
            return dict(zip(self.parameters.get(last(of), []), arguments(of))).get(kind, kind)
        if x[0] == "struct":
            return last(x[1])
        if x[0] == "bin":
            return self.kind(f, x[2])
        if x[0] in ("call", "method"):
            to = self.called(f, x)
            return self.functions[to[0]].result if to else ""
        return ""

    def called(self, f, x):
        """The functions that a call, a method or an operator may be."""
        if x[0] == "call":
            first, _, name = x[1].rpartition("::")
            types = self.traits.get(f.bounds[first], ()) if first in f.bounds else [f.owner if first == "Self" else last(first)]
            found = [self.methods[t][name] for t in sorted(types) if t and name in self.methods.get(t, {})]
            to = self.resolve(f, x[1])
            return found if found and len(found) == len(types) else [to] * (to in self.functions)
        name = x[2] if x[0] == "method" else {"^": "bitxor"}.get(x[1]) if x[0] == "bin" else None
        to = name and self.methods.get(last(self.kind(f, x[1] if x[0] == "method" else x[2])), {}).get(name)
        return [to] if to else []

    def open(self, path):
        """The function with its body read and its calls followed."""
        f = self.functions[path]
        if f.body is None:
            parser, parser.at = f.start
            f.body = parser.block()
            f.kinds = dict(f.params)
            handed = set(f.kinds)  # a closure among them is followed where it is made
            here = self.names["::".join([f.crate] + f.module)].keys() - handed - {n for x in nodes(f.body) if x[0] in ("let", "for", "closure") for n in x[1]}
            for node in nodes(f.body):
                if node[0] == "let" and len(node[1]) == 1:
                    f.kinds[node[1][0]] = self.kind(f, node[2])
                if node[0] == "path" or node[0] == "name" and node[1] in here:
                    to = self.resolve(f, node[1])
                    f.library += [(to, node)] * (to in self.functions or to.split("::")[-1][0].islower())
                if node[0] not in ("call", "method", "bin") or node[0] == "call" and node[1] in handed:
                    continue
                found = self.called(f, node)
                f.calls += [(to, node[2] if node[0] == "call" else [node[1]] + node[3] if node[0] == "method" else list(node[2:])) for to in found]
                if node[0] != "bin" and not found:
                    f.library.append((self.resolve(f, node[1]) if node[0] == "call" else "." + node[2], node))
        return f

    def below(self, path):
        """All functions that `path` reaches, itself among them, with their callers."""
        callers, rest = {path: set()}, [path]
        while rest:
            f = self.open(rest.pop())
            for to, _ in f.calls:
                if to not in callers:
                    callers[to] = set()
                    rest.append(to)
                callers[to].add(f.path)
        return callers


def nodes(x):
    """Every tree in x, x first."""
    if isinstance(x, tuple):
        yield x
        for part in x:
            yield from nodes(part)
    elif isinstance(x, list):
        for part in x:
            yield from nodes(part)
