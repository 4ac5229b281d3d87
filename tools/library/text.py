"""Canonical text of types and terms, and a reader of it that also finds what a person leaves out: type arguments, the types of
bound variables, and the brackets around variables whose types were declared."""

import re

from .terms import (
    BOOL, Abs, Comb, Const, Free, Index, Type, apply, const, free, fun, is_fun, lam, type_app, type_put, type_variable,
    type_variables,
)

BETWEEN = {"eq": "=", "conj": "/\\", "disj": "\\/", "imp": "==>"}
BINDERS = {"all": "!", "ex": "?"}
SIGNS = {sign: name for name, sign in (BETWEEN | BINDERS).items()}


class NotRead(Exception):
    """A text that is no type or term, or has no types."""


# Printing.


def type_text(ty):
    if ty.args is None:
        return "'" + ty.name
    if is_fun(ty):
        return type_argument(ty.args[0]) + " -> " + type_text(ty.args[1])
    if not ty.args:
        return ty.name
    if len(ty.args) == 1:
        return type_argument(ty.args[0]) + " " + ty.name
    return "(" + ",".join(type_text(arg) for arg in ty.args) + ") " + ty.name


def type_argument(ty):
    return "(" + type_text(ty) + ")" if is_fun(ty) else type_text(ty)


def sugar(t):
    """What kind of sign the text of the term has, if any."""
    if not isinstance(t, Comb):
        return None
    if isinstance(t.fun, Const):
        if t.fun.name in BINDERS and isinstance(t.arg, Abs):
            return "binder"
        return "not" if t.fun.name == "not" else None
    if isinstance(t.fun, Comb) and isinstance(t.fun.fun, Const) and t.fun.fun.name in BETWEEN:
        return "between"
    return None


def term_text(t, depth=0):
    """The text of a term below so many binders."""
    if isinstance(t, Index):
        return "x%d" % (depth - 1 - t.number)
    if isinstance(t, Free):
        return "[%s:%s]" % (t.name, type_text(t.type))
    if isinstance(t, Const):
        return t.name + ("{" + ",".join(type_text(arg) for arg in t.args) + "}" if t.args else "")
    if isinstance(t, Abs):
        return "\\" + scope(t, depth)
    kind = sugar(t)
    if kind == "binder":
        return BINDERS[t.fun.name] + scope(t.arg, depth)
    if kind == "not":
        return "~ " + operand(t.arg, depth)
    if kind == "between":
        return "%s %s %s" % (operand(t.fun.arg, depth), BETWEEN[t.fun.fun.name], operand(t.arg, depth))
    head = term_text(t.fun, depth)
    if isinstance(t.fun, Abs) or sugar(t.fun):
        head = "(" + head + ")"
    arg = term_text(t.arg, depth)
    return head + " " + ("(" + arg + ")" if isinstance(t.arg, (Comb, Abs)) else arg)


def scope(t, depth):
    return "x%d:%s. %s" % (depth, type_text(t.bound), term_text(t.body, depth + 1))


def operand(t, depth):
    text = term_text(t, depth)
    return "(" + text + ")" if isinstance(t, Abs) or sugar(t) else text


Type.__repr__ = type_text
for kind in (Index, Free, Const, Comb, Abs):
    kind.__repr__ = term_text


# Reading. While types are not yet known, a type is a Hole, a pair of a name and types, or a Type.

TOKEN = re.compile(r"\s*(==>|->|/\\|\\/|[(){}\[\],:.=\\!?~]|'\w+|[^\W\d]\w*(?:\.[^\W\d]\w*)*|0)")
LEVELS = {"==>": 1, "\\/": 2, "/\\": 3, "=": 4}
KEYWORDS = {"define", "datatype", "codatatype", "primrec", "primcorec", "where", "and"}
ENDS = {None, ")", ",", ".", "}", "]", ":"} | set(LEVELS)


class Hole:
    """A type that is not known yet."""

    def __init__(self):
        self.is_type = None


def known(ty):
    while isinstance(ty, Hole) and ty.is_type is not None:
        ty = ty.is_type
    return ty


def parts(ty):
    return (ty.name, ty.args) if isinstance(ty, Type) else ty


def unify(a, b):
    a, b = known(a), known(b)
    if a is b:
        return
    if isinstance(a, Hole):
        a.is_type = b
    elif isinstance(b, Hole):
        b.is_type = a
    else:
        (name, args), (other, others) = parts(a), parts(b)
        if name != other or (args is None) != (others is None) or len(args or ()) != len(others or ()):
            raise NotRead("types differ: %s and %s" % (name, other))
        for x, y in zip(args or (), others or ()):
            unify(x, y)


def whole(ty):
    ty = known(ty)
    if isinstance(ty, Hole):
        raise NotRead("a type is not determined")
    if isinstance(ty, Type):
        return ty
    return type_app(ty[0], *(whole(arg) for arg in ty[1]))


def with_holes(ty, holes):
    if ty.args is None:
        return holes[ty.name]
    return (ty.name, tuple(with_holes(arg, holes) for arg in ty.args))


class Reader:
    """Reads one text over a signature: the numbers of arguments of types, and the generic types of constants."""

    def __init__(self, text, signature, variables):
        self.tokens = []
        self.at = 0
        self.signature = signature
        self.variables = variables
        place = 0
        while place < len(text.rstrip()):
            found = TOKEN.match(text, place)
            if not found:
                raise NotRead("no token at %r" % text[place:place + 20])
            self.tokens.append(found.group(1))
            place = found.end()

    def peek(self):
        return self.tokens[self.at] if self.at < len(self.tokens) else None

    def take(self, expected=None):
        token = self.peek()
        if token is None or token in KEYWORDS or expected not in (None, token):
            raise NotRead("%s where %s has to stand" % (token, expected or "a token"))
        self.at += 1
        return token

    def end(self):
        if self.peek() is not None:
            raise NotRead("%s is left over" % self.peek())

    def type(self):
        ty = self.applied_type()
        if self.peek() != "->":
            return ty
        self.take()
        return fun(ty, self.type())

    def applied_type(self):
        token = self.take()
        if token == "(":
            args = self.types(")")
            ty = args[0] if len(args) == 1 else self.type_named(self.take(), args)
        elif token.startswith("'"):
            ty = type_variable(token[1:])
        else:
            ty = self.type_named(token, [])
        while self.peek() in self.signature.types:
            ty = self.type_named(self.take(), [ty])
        return ty

    def types(self, end):
        found = [self.type()]
        while self.peek() == ",":
            self.take()
            found.append(self.type())
        self.take(end)
        return found

    def type_named(self, name, args):
        if self.signature.types.get(name) != len(args):
            raise NotRead("no type %s of %d arguments" % (name, len(args)))
        return type_app(name, *args)

    # Terms are read as pairs: what makes the term once all types are known, given the free variables that stand for bound
    # ones; and the type. A tree is ("term", t), ("bound", key), ("const", name, holes), ("comb", f, x) or ("abs", key, body).

    def term(self, bound, level=0):
        tree, ty = self.application(bound)
        while LEVELS.get(self.peek(), -1) >= level:
            sign = self.take()
            other, other_type = self.term(bound, LEVELS[sign] + (sign == "="))
            unify(ty, other_type)
            if sign != "=":
                unify(ty, BOOL)
            name = SIGNS[sign]
            tree = ("comb", ("comb", ("const", name, [ty] if sign == "=" else []), tree), other)
            ty = BOOL
        return tree, ty

    def application(self, bound):
        if self.peek() in ("\\", "!", "?"):
            return self.binder(bound)
        if self.peek() == "~":
            self.take()
            tree, ty = self.application(bound)
            unify(ty, BOOL)
            return ("comb", ("const", "not", []), tree), BOOL
        tree, ty = self.atom(bound)
        while self.peek() not in ENDS:
            arg, arg_type = self.binder(bound) if self.peek() in ("\\", "!", "?") else self.atom(bound)
            result = Hole()
            unify(ty, ("fun", (arg_type, result)))
            tree, ty = ("comb", tree, arg), result
        return tree, ty

    def binder(self, bound):
        sign = self.take()
        made = []
        while self.peek() != ".":
            name, ty = self.take(), Hole()
            if self.peek() == ":":
                self.take()
                ty = self.type()
            made.append((name, (name, len(bound) + len(made)), ty))
        self.take(".")
        tree, body_type = self.term(bound | {name: (key, ty) for name, key, ty in made})
        for _, key, ty in reversed(made):
            tree, body_type = ("abs", key, ty, tree), ("fun", (ty, body_type))
            if sign != "\\":
                unify(body_type[1][1], BOOL)
                tree, body_type = ("comb", ("const", SIGNS[sign], [ty]), tree), BOOL
        return tree, body_type

    def atom(self, bound):
        token = self.take()
        if token == "(":
            tree, ty = self.term(bound)
            if self.peek() == ":":
                self.take()
                unify(ty, self.type())
            self.take(")")
            return tree, ty
        if token == "[":
            name = self.take()
            self.take(":")
            ty = self.type()
            self.take("]")
            return ("term", free(name, ty)), ty
        if token in bound and self.peek() != "{":
            key, ty = bound[token]
            return ("bound", key), ty
        if token in self.variables and self.peek() != "{":
            variable = self.variables[token]
            return ("term", variable), variable.type
        if token not in self.signature.consts:
            raise NotRead("no name %s" % token)
        generic = self.signature.consts[token]
        names = type_variables(generic)
        args = [Hole() for _ in names]
        if self.peek() == "{":
            self.take()
            args = self.types("}")
        return ("const", token, args), with_holes(generic, dict(zip(names, args)))

    def made(self, tree, frees):
        if tree[0] == "term":
            return tree[1]
        if tree[0] == "bound":
            return frees[tree[1]]
        if tree[0] == "const":
            return self.signature.const(tree[1], *(whole(arg) for arg in tree[2]))
        if tree[0] == "comb":
            return apply(self.made(tree[1], frees), self.made(tree[2], frees))
        # A space is in no name, so this variable is no other.
        variable = free("%s %d" % tree[1], whole(tree[2]))
        return lam(variable, self.made(tree[3], frees | {tree[1]: variable}))


class Signature:
    """The numbers of arguments of types, and the generic types of constants."""

    def __init__(self):
        alpha = type_variable("a")
        self.types = {"bool": 0, "fun": 2, "ind": 0}
        self.consts = {"eq": fun(alpha, alpha, BOOL), "some": fun(fun(alpha, BOOL), alpha)}

    def const(self, name, *args):
        """The constant at type arguments."""
        generic = self.consts[name]
        names = type_variables(generic)
        if len(names) != len(args):
            raise NotRead("%s has %d type arguments" % (name, len(names)))
        return const(name, args, type_put(dict(zip(names, args)), generic))

    def own(self, name):
        """The constant at its own type variables."""
        return self.const(name, *(type_variable(n) for n in type_variables(self.consts[name])))

    def read_type(self, text):
        reader = Reader(text, self, {})
        ty = reader.type()
        reader.end()
        return ty

    def read_term(self, text, variables={}, ty=None):
        """The term of a text; variables is a dict of free ones that are written without brackets."""
        reader = Reader(text, self, variables)
        try:
            tree, found = reader.term({})
            reader.end()
            if ty is not None:
                unify(found, ty)
            return reader.made(tree, {})
        except NotRead as fault:
            raise NotRead("%s, in %s" % (fault, text)) from None
