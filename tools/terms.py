#!/usr/bin/env python3
"""terms.py: antt's terms as contracts have them: read, their abbreviations opened, and shown in one way, so that two can be compared.

What contracts.py compares contracts with. A term is a tuple: var, app, field, op, rec, lam, pi. Types of lambdas are not kept, and implicit
arguments are not compared. Names of bound variables do not matter in what `show` gives.
"""
import itertools
import re

LEVELS = [["→"], ["×"], ["≡", "<", "≤"], ["||", "&&", "and"], ["++", "∷"], ["+", "-"], ["*", "/", "%"], ["^"]]
OPERATORS = {o for level in LEVELS for o in level}
RIGHT = {"×", "∷", "++"}
CLOSING = {"(": ")", "{": "}", "⌜": "⌝"}
NUMBERS = itertools.count()


def tokens(text):
    return re.findall(r"λ|[(){};,⌜⌝]|«[^»]*»|[^\s(){};,⌜⌝λ]+", text)


class Reader:
    def __init__(self, text):
        self.tokens, self.at = tokens(text), 0

    def peek(self):
        return self.tokens[self.at] if self.at < len(self.tokens) else None

    def next(self):
        if self.at == len(self.tokens):
            raise ValueError("the end")
        self.at += 1
        return self.tokens[self.at - 1]

    def expect(self, token):
        if self.peek() != token:
            raise ValueError(f"{token} expected at {self.tokens[max(0, self.at - 4):self.at + 2]}")
        self.at += 1

    def term(self, level=0):
        if level == len(LEVELS):
            return self.application()
        if level == 0 and (found := self.binders()):
            body = self.term()
            for names, type_ in reversed(found):
                body = ("pi", names, type_, body)
            return body
        left = self.term(level + 1)
        while self.peek() in LEVELS[level]:
            op = self.next()
            left = ("op", op, left, self.term(0 if op == "→" else level if op in RIGHT else level + 1))
        return left

    def binders(self):
        """(x y : T) .. →, or nothing read."""
        start, found = self.at, []
        while self.peek() in ("(", "{") and (one := self.binder()):
            found.append(one)
        if found and self.peek() == "→":
            self.next()
            return found
        self.at = start
        return None

    def binder(self):
        start, close, names = self.at, CLOSING[self.next()], []
        while self.peek() not in (":", None) and self.peek() not in OPERATORS and re.match(r"^[^\s(){}.,:;]+$", self.peek()):
            names.append(self.next())
        try:
            if names:
                self.expect(":")
                type_ = self.term()
                self.expect(close)
                return names, type_
        except ValueError:
            pass
        self.at = start
        return None

    def application(self):
        f, args = None, []
        while (token := self.peek()) is not None and token not in OPERATORS and token not in (")", "}", ";", ",", "⌝", "=", "in"):
            if f and len(token) > 1 and token.startswith("."):
                self.next()
                f, args = ("field", applied(f, args), token[1:]), []
            elif f:
                args.append(self.atom())
            else:
                f = self.atom()
        if f is None:
            raise ValueError(f"a term expected at {self.tokens[max(0, self.at - 4):self.at + 2]}")
        return applied(f, args)

    def atom(self):
        token = self.next()
        if token in ("(", "⌜"):
            inner = self.term()
            while self.peek() == ",":
                self.next()
                inner = ("op", ",", inner, self.term())
            self.expect(CLOSING[token])
            return inner
        if token == "{":
            inner = self.term()
            if self.peek() == "=":
                self.next()
                inner = self.term()
            self.expect("}")
            return ("implicit", inner)
        if token == "λ":
            return ("lam", self.parameters(), self.term())
        if token == "record" and self.peek() == "{":
            return self.record()
        if token == "let":
            return self.let()
        return ("var", token.strip("«»"))

    def parameters(self):
        names = []
        while True:
            token = self.next()
            if token == "(":
                self.at -= 1
                names += self.binder()[0]
                if self.peek() == ".":
                    self.next()
                    return names
            elif token.endswith("."):
                return names + [token[:-1]]
            else:
                names.append(token)

    def record(self):
        fields = {}
        self.expect("{")
        while self.peek() != "}":
            name = self.next()
            self.expect("=")
            fields[name] = self.term()
            if self.peek() == ";":
                self.next()
        self.next()
        return ("rec", fields)

    def let(self):
        name = self.next()
        if self.peek() == ":":
            self.next()
            self.term()
        self.expect("=")
        value = self.term()
        self.expect("in")
        return ("app", ("lam", [name], self.term()), [value])


def applied(f, args):
    if not args:
        return f
    return ("app", f[1], f[2] + args) if f[0] == "app" else ("app", f, args)


def mapped(term, f):
    """f at each part of a term that binds nothing there."""
    sort = term[0]
    if sort == "app":
        return applied(f(term[1]), [f(a) for a in term[2]])
    if sort in ("field", "implicit"):
        return (sort, f(term[1]), *term[2:])
    if sort == "op":
        return ("op", term[1], f(term[2]), f(term[3]))
    if sort == "rec":
        return ("rec", {name: f(x) for name, x in term[1].items()})
    return term


def put(term, values):
    """A term with values for variables. Bound variables get new names."""
    if term[0] == "var":
        return values.get(term[1], term)
    if term[0] in ("lam", "pi"):
        names = [f"{n.partition('#')[0]}#{next(NUMBERS)}" for n in term[1]]
        inner = values | {old: ("var", new) for old, new in zip(term[1], names)}
        if term[0] == "lam":
            return ("lam", names, put(term[2], inner))
        return ("pi", names, put(term[2], values), put(term[3], inner))
    return mapped(term, lambda x: put(x, values))


def free(term):
    if term[0] == "var":
        return {term[1]}
    if term[0] == "lam":
        return free(term[2]) - set(term[1])
    if term[0] == "pi":
        return free(term[2]) | free(term[3]) - set(term[1])
    found = set()
    mapped(term, lambda x: found.update(free(x)) or x)
    return found


def opened(term, abbrevs):
    """The term computed as far as abbreviations, lambdas and records go. `abbrevs` has for each name its parameters and its body."""
    sort = term[0]
    if sort == "var":
        return opened(abbrevs[term[1]][1], abbrevs) if term[1] in abbrevs and not abbrevs[term[1]][0] else term
    if sort == "app":
        return opened_call(term[1], [a for a in term[2] if a[0] != "implicit"], abbrevs)
    if sort == "field":
        of = opened(term[1], abbrevs)
        return opened(of[1][term[2]], abbrevs) if of[0] == "rec" and term[2] in of[1] else ("field", of, term[2])
    if sort == "lam":
        return eta(term[1], opened(term[2], abbrevs))
    if sort == "pi":
        return ("pi", term[1], opened(term[2], abbrevs), opened(term[3], abbrevs))
    return mapped(term, lambda x: opened(x, abbrevs))


def opened_call(f, args, abbrevs):
    if f[0] == "var" and f[1] in abbrevs and len(args) >= len(abbrevs[f[1]][0]) > 0:
        names, body = abbrevs[f[1]]
    else:
        f = opened(f, abbrevs)
        if f[0] != "lam" or not args:
            args = [opened(a, abbrevs) for a in args]
            if f[0] == "var" and f[1].rpartition("/")[2] == "now" and args and args[0][0] == "rec":  # what a lent slice holds
                return args[0][1]["now"]
            return applied(f, args)
        names, body = f[1], f[2]
    n = min(len(names), len(args))
    body = put(body, dict(zip(names, args)))
    return opened(applied(("lam", names[n:], body) if names[n:] else body, args[n:]), abbrevs)


def eta(names, body):
    names = list(names)
    if body[0] == "lam":
        names, body = names + body[1], body[2]
    while names and body[0] == "app" and body[2][-1] == ("var", names[-1]) and names[-1] not in free(applied(body[1], body[2][:-1])):
        body = applied(body[1], body[2][:-1])
        names.pop()
    return ("lam", names, body) if names else body


def show(term, bound=None):
    bound = bound or {}
    sort = term[0]
    if sort == "var":
        return bound.get(term[1], re.split(r"[/.](?=.)", term[1])[-1]).replace("_", "-")
    if sort == "app":
        return f"({' '.join(show(x, bound) for x in [term[1], *term[2]])})"
    if sort == "field":
        return f"{show(term[1], bound)} .{term[2].strip('«»').replace('_', '-')}"
    if sort == "op":
        return f"({show(term[2], bound)} {term[1]} {show(term[3], bound)})"
    if sort == "rec":
        return "{" + "; ".join(f"{name} = {show(x, bound)}" for name, x in sorted(term[1].items())) + "}"
    inner = dict(bound)
    for name in term[1]:
        inner[name] = f"x{len(inner)}"
    names = " ".join(inner[name] for name in term[1])
    if sort == "lam":
        return f"(λ {names}. {show(term[2], inner)})"
    return f"(({names} : {show(term[2], bound)}) → {show(term[3], inner)})"


def imported(text):
    """The names that a file takes from specs, each with where it stands: CRATE/FILE/NAME."""
    found = {}
    for crate, path, names in re.findall(r"^(?:ghost )?use Rattle·(\w+)(?:·specs)?\.specs\.([\w.]+)\.\{([^}]*)\}", text, flags=re.M):
        if not path.startswith("declared"):
            found |= {name.strip(): f"{crate}/{path}/{name.strip()}" for name in names.split(",")}
    return found


def placed(term, where):
    return put(term, {name: ("var", place) for name, place in where.items()})


def abbreviations(text, place):
    """The abbreviations of a spec file, `place` being CRATE/FILE, that have one clause with plain parameters: where it stands, parameters, body."""
    own = re.findall(r"^abbrev (?:pub )?(\S+) :", text, flags=re.M)
    where = imported(text) | {name: f"{place}/{name}" for name in own}
    found = {}
    clause = r"^abbrev (?:pub )?(\S+) : [^\n]*(?:\n    [^\n]*)*\n(?:unfolding[^\n]*\n)?((?:\1[ =][^\n]*\n(?:    [^\n]*\n)*)+)"
    for m in re.finditer(clause, text, flags=re.M):
        clauses = re.split(r"\n(?=\S)", m.group(2).strip("\n"))
        head, equals, body = re.split(r"( =\s)", clauses[0], maxsplit=1) if re.search(r" =\s", clauses[0]) else ("", "", "")
        names = head.split()[1:]
        if len(clauses) == 1 and equals and all(re.match(r"^[^\s(){}]+$", n) for n in names):
            try:
                body = placed(Reader(body).term(), {n: at for n, at in where.items() if n not in names})
                found[where[m.group(1)]] = (names, body)
            except ValueError:
                pass  # a form that contracts do not have
    return found
