"""The ten rules of the kernel, definitions and axioms. A theorem is made here and nowhere else."""

from dataclasses import dataclass

from .terms import (
    BOOL, Abs, Comb, Free, comb, eq, free, frees, fun, is_eq, lam, left, loose, opened, right, term_put, term_type_variables,
    type_app, type_variable, type_variables, types_put,
)
from .text import Signature

NO_HYPS = frozenset()


class Refused(Exception):
    """A condition of a rule that doesn't hold."""


@dataclass(frozen=True)
class Thm:
    hyps: frozenset
    concl: object

    def __repr__(self):
        return ", ".join(map(repr, self.hyps)) + " |- " + repr(self.concl)


def need(condition, rule, *what):
    if not condition:
        raise Refused(rule + ": " + "; ".join(map(repr, what)))


def refl(t):
    return Thm(NO_HYPS, eq(t, t))


def trans(a, b):
    need(is_eq(a.concl) and is_eq(b.concl) and right(a.concl) is left(b.concl), "trans", a, b)
    return Thm(a.hyps | b.hyps, eq(left(a.concl), right(b.concl)))


def mk_comb(a, b):
    need(is_eq(a.concl) and is_eq(b.concl), "comb", a, b)
    return Thm(a.hyps | b.hyps, eq(comb(left(a.concl), left(b.concl)), comb(right(a.concl), right(b.concl))))


def mk_abs(v, a):
    need(isinstance(v, Free) and is_eq(a.concl) and all(v not in frees(h) for h in a.hyps), "abs", v, a)
    return Thm(a.hyps, eq(lam(v, left(a.concl)), lam(v, right(a.concl))))


def beta(t):
    need(isinstance(t, Comb) and isinstance(t.fun, Abs) and isinstance(t.arg, Free) and t.arg not in frees(t.fun), "beta", t)
    return Thm(NO_HYPS, eq(t, opened(t.fun, t.arg)))


def assume(p):
    need(p.type is BOOL, "assume", p)
    return Thm(frozenset([p]), p)


def eq_mp(a, b):
    need(is_eq(a.concl) and left(a.concl) is b.concl, "eq_mp", a, b)
    return Thm(a.hyps | b.hyps, right(a.concl))


def deduct(a, b):
    return Thm((a.hyps - {b.concl}) | (b.hyps - {a.concl}), eq(a.concl, b.concl))


def inst_type(a, pairs):
    """pairs is a dict from names of type variables to types."""
    need(pairs, "inst_type")
    return Thm(frozenset(types_put(pairs, h) for h in a.hyps), types_put(pairs, a.concl))


def inst(a, pairs):
    """pairs is a dict from free variables to terms."""
    need(pairs and all(isinstance(v, Free) and v.type is t.type for v, t in pairs.items()), "inst", *pairs)
    return Thm(frozenset(term_put(pairs, h) for h in a.hyps), term_put(pairs, a.concl))


class Theory:
    """Definitions in their order, with their theorems: one of a constant's, two of a type's."""

    def __init__(self):
        self.signature = Signature()
        self.names = []
        self.theorems = []
        self.axioms = []

    def must_be_new(self, *names):
        for name in names:
            need(name not in self.signature.types and name not in self.signature.consts, "new name", name)

    def define(self, name, t):
        self.must_be_new(name)
        closed = not frees(t) and not loose(t) and set(term_type_variables(t)) <= set(type_variables(t.type))
        need(closed, "define", t)
        self.signature.consts[name] = t.type
        return self.add(name, Thm(NO_HYPS, eq(self.signature.own(name), t)))

    def define_type(self, name, a):
        """A type from `|- P t`: its elements stand for the values that P holds of."""
        self.must_be_new(name, name + ".abs", name + ".rep")
        need(isinstance(a.concl, Comb) and not a.hyps and not frees(a.concl.fun), "define_type", a)
        predicate, old = a.concl.fun, a.concl.arg.type
        names = term_type_variables(predicate)
        new = type_app(name, *map(type_variable, names))
        self.signature.types[name] = len(names)
        self.signature.consts[name + ".abs"] = fun(old, new)
        self.signature.consts[name + ".rep"] = fun(new, old)
        to_new, to_old = self.signature.own(name + ".abs"), self.signature.own(name + ".rep")
        a, r = free("a", new), free("r", old)
        abs_rep = eq(comb(to_new, comb(to_old, a)), a)
        rep_abs = eq(comb(predicate, r), eq(comb(to_old, comb(to_new, r)), r))
        return self.add(name, Thm(NO_HYPS, abs_rep), Thm(NO_HYPS, rep_abs))

    def add(self, name, *theorems):
        self.names.append(name)
        self.theorems.append(theorems)
        return theorems

    def axiom(self, n):
        return Thm(NO_HYPS, self.axioms[n - 1])
