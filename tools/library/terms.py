"""Types and terms: plain trees with indices for bound variables. Each distinct one is made once, so that `is` compares them."""

from dataclasses import dataclass
from functools import cache


class IllTyped(Exception):
    """A function and an argument that it doesn't take, or a name that isn't there."""


# Types.


@dataclass(frozen=True, eq=False)
class Type:
    """A type variable, where args is None, or a name applied to types."""

    name: str
    args: tuple | None


@cache
def type_variable(name):
    return Type(name, None)


@cache
def type_app(name, *args):
    return Type(name, args)


BOOL = type_app("bool")
ALPHA = type_variable("a")


def fun(*types):
    """fun(a, b, c) is a -> b -> c."""
    made = types[-1]
    for ty in reversed(types[:-1]):
        made = type_app("fun", ty, made)
    return made


def is_fun(ty):
    return ty.args is not None and ty.name == "fun"


@cache
def type_variables(ty):
    """The names of its type variables, by first occurrence."""
    if ty.args is None:
        return (ty.name,)
    return tuple(dict.fromkeys(name for arg in ty.args for name in type_variables(arg)))


def type_put(pairs, ty):
    """The type with types for variables, all at once; pairs is a dict by name."""
    if ty.args is None:
        return pairs.get(ty.name, ty)
    return type_app(ty.name, *(type_put(pairs, arg) for arg in ty.args))


def type_match(pattern, ty, found):
    """Adds to the dict what makes the pattern the type; answers whether there is such."""
    if pattern.args is None:
        return found.setdefault(pattern.name, ty) is ty
    if ty.args is None or pattern.name != ty.name or len(pattern.args) != len(ty.args):
        return False
    return all(type_match(p, t, found) for p, t in zip(pattern.args, ty.args))


# Terms.


@dataclass(frozen=True, eq=False)
class Index:
    type: Type
    number: int


@dataclass(frozen=True, eq=False)
class Free:
    type: Type
    name: str


@dataclass(frozen=True, eq=False)
class Const:
    type: Type
    name: str
    args: tuple


@dataclass(frozen=True, eq=False)
class Comb:
    type: Type
    fun: object
    arg: object


@dataclass(frozen=True, eq=False)
class Abs:
    type: Type
    bound: Type
    body: object


@cache
def index(number, ty):
    return Index(ty, number)


@cache
def free(name, ty):
    return Free(ty, name)


@cache
def const(name, args, ty):
    return Const(ty, name, args)


@cache
def comb(f, x):
    if not is_fun(f.type) or f.type.args[0] is not x.type:
        raise IllTyped("%r does not take %r" % (f, x))
    return Comb(f.type.args[1], f, x)


@cache
def abstraction(ty, body):
    return Abs(fun(ty, body.type), ty, body)


def apply(f, *args):
    for arg in args:
        f = comb(f, arg)
    return f


@cache
def frees(t):
    """The free variables of a term."""
    if isinstance(t, Free):
        return frozenset([t])
    if isinstance(t, Comb):
        return frees(t.fun) | frees(t.arg)
    if isinstance(t, Abs):
        return frees(t.body)
    return frozenset()


@cache
def loose(t):
    """How many binders around the term would bind all its indices."""
    if isinstance(t, Index):
        return t.number + 1
    if isinstance(t, Comb):
        return max(loose(t.fun), loose(t.arg))
    if isinstance(t, Abs):
        return max(loose(t.body) - 1, 0)
    return 0


@cache
def term_type_variables(t):
    """The names of the type variables of a term, by first occurrence."""
    if isinstance(t, Free):
        return type_variables(t.type)
    if isinstance(t, Const):
        parts = [type_variables(arg) for arg in t.args]
    elif isinstance(t, Comb):
        parts = [term_type_variables(t.fun), term_type_variables(t.arg)]
    elif isinstance(t, Abs):
        parts = [type_variables(t.bound), term_type_variables(t.body)]
    else:
        parts = []
    return tuple(dict.fromkeys(name for part in parts for name in part))


@cache
def opened(t, x):
    """The body of an abstraction, with a term that has no loose index for the bound variable."""
    return put_at(0, x, t.body)


@cache
def put_at(depth, x, t):
    if loose(t) <= depth:
        return t
    if isinstance(t, Index):
        return x if t.number == depth else t
    if isinstance(t, Comb):
        return comb(put_at(depth, x, t.fun), put_at(depth, x, t.arg))
    return abstraction(t.bound, put_at(depth + 1, x, t.body))


@cache
def lam(v, t):
    """The abstraction of a variable from a term."""
    return abstraction(v.type, bind(0, v, t))


@cache
def bind(depth, v, t):
    if v not in frees(t):
        return t
    if isinstance(t, Free):
        return index(depth, v.type)
    if isinstance(t, Comb):
        return comb(bind(depth, v, t.fun), bind(depth, v, t.arg))
    return abstraction(t.bound, bind(depth + 1, v, t.body))


def lams(variables, t):
    for v in reversed(variables):
        t = lam(v, t)
    return t


def term_put(pairs, t):
    """The term with terms for free variables, all at once."""
    if frees(t).isdisjoint(pairs):
        return t
    if isinstance(t, Free):
        return pairs[t]
    if isinstance(t, Comb):
        return comb(term_put(pairs, t.fun), term_put(pairs, t.arg))
    return abstraction(t.bound, term_put(pairs, t.body))


def types_put(pairs, t):
    """The term with types for type variables, all at once."""
    if isinstance(t, Index):
        return index(t.number, type_put(pairs, t.type))
    if isinstance(t, Free):
        return free(t.name, type_put(pairs, t.type))
    if isinstance(t, Const):
        return const(t.name, tuple(type_put(pairs, arg) for arg in t.args), type_put(pairs, t.type))
    if isinstance(t, Comb):
        return comb(types_put(pairs, t.fun), types_put(pairs, t.arg))
    return abstraction(type_put(pairs, t.bound), types_put(pairs, t.body))


def replaced(old, new, t):
    """The term with `new` for each topmost subterm that is `old`."""
    if t is old:
        return new
    if isinstance(t, Comb):
        return comb(replaced(old, new, t.fun), replaced(old, new, t.arg))
    if isinstance(t, Abs):
        return abstraction(t.bound, replaced(old, new, t.body))
    return t


def has_subterm(part, t):
    return replaced(part, free(" ", part.type), t) is not t


# Equations and connectives.


def eq(s, t):
    return apply(const("eq", (s.type,), fun(s.type, s.type, BOOL)), s, t)


def is_sign(name, t):
    """The term is the constant of that name, applied to two terms."""
    return isinstance(t, Comb) and isinstance(t.fun, Comb) and isinstance(t.fun.fun, Const) and t.fun.fun.name == name


def is_eq(t):
    return is_sign("eq", t)


def left(t):
    return t.fun.arg


def right(t):
    return t.arg


def is_binder(name, t):
    """The term is the constant of that name, applied to an abstraction."""
    return isinstance(t, Comb) and isinstance(t.fun, Const) and t.fun.name == name and isinstance(t.arg, Abs)


def quantified(name, v, t):
    return comb(const(name, (v.type,), fun(fun(v.type, BOOL), BOOL)), lam(v, t))


TRUTH = const("T", (), BOOL)
FALSITY = const("F", (), BOOL)
NOT = const("not", (), fun(BOOL, BOOL))


def connective(name, p, q):
    return apply(const(name, (), fun(BOOL, BOOL, BOOL)), p, q)


def conj(p, q):
    return connective("conj", p, q)


def disj(p, q):
    return connective("disj", p, q)


def imp(p, q):
    return connective("imp", p, q)


def negation(p):
    return comb(NOT, p)
