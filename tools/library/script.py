"""The language of the proof scripts. A script is a function of a `Proof`, whose methods each make one line of the table, or a few.

A term is written as text: variables that `fix` declared stand without brackets, and type arguments and the types of bound
variables are left out where they are determined."""

import re
from dataclasses import dataclass

from . import kernel
from .terms import BOOL, Comb, free, frees, is_binder, left, replaced, type_match, type_variable
from .text import Hole


class Wrong(Exception):
    """A script that doesn't prove what it has to."""


@dataclass(eq=False)
class Line:
    """A theorem, and the rule and the operands that gave it; a fact of the library has the rule `fact` and its name."""

    number: int
    thm: kernel.Thm
    rule: str
    operands: tuple

    @property
    def concl(self):
        return self.thm.concl


class Proof:
    """A proof under way: its variables, and its lines in order, one for each sequent."""

    def __init__(self, library):
        self.library = library
        self.signature = library.theory.signature
        self.variables = {}
        self.lines = {}

    # Terms.

    def fix(self, text):
        """Declares variables: `p q:bool, f:'a -> 'b`."""
        for names, ty in re.findall(r"([\w ]+):((?:\([^()]*\)|[^,(])+)", text):
            for name in names.split():
                self.variables[name] = free(name, self.signature.read_type(ty))

    def let(self, name, text):
        """A name for a term."""
        self.variables[name] = self.term(text)

    def term(self, text, ty=None):
        return self.signature.read_term(text, self.variables, ty) if isinstance(text, str) else text

    def formula(self, text):
        return self.term(text, BOOL)

    def line(self, rule, thm, *operands):
        return self.lines.setdefault((thm.hyps, thm.concl), Line(len(self.lines), thm, rule, operands))

    # Rules of the kernel.

    def refl(self, t):
        t = self.term(t)
        return self.line("refl", kernel.refl(t), t)

    def beta(self, t):
        t = self.term(t)
        return self.line("beta", kernel.beta(t), t)

    def assume(self, p):
        p = self.formula(p)
        return self.line("assume", kernel.assume(p), p)

    def trans(self, *equations):
        th = equations[0]
        for other in equations[1:]:
            th = self.line("trans", kernel.trans(th.thm, other.thm), th, other)
        return th

    def comb(self, a, b):
        return self.line("comb", kernel.mk_comb(a.thm, b.thm), a, b)

    def eq_mp(self, a, b):
        return self.line("eq_mp", kernel.eq_mp(a.thm, b.thm), a, b)

    def deduct(self, a, b):
        return self.line("deduct", kernel.deduct(a.thm, b.thm), a, b)

    def abs(self, v, a):
        v = self.term(v)
        return self.line("abs", kernel.mk_abs(v, a.thm), v, a)

    def inst_type(self, a, /, **types):
        """The theorem with types for type variables: `b="'a -> bool"`."""
        return self.put_types(a, {name: self.signature.read_type(text) for name, text in types.items()})

    def put_types(self, a, pairs):
        operands = [operand for pair in pairs.items() for operand in pair]
        return self.line("inst_type", kernel.inst_type(a.thm, pairs), a, *operands) if pairs else a

    def inst(self, a, /, **terms):
        """The theorem with terms for variables: `x="f y"`."""
        pairs = {self.variables[name]: self.term(t, self.variables[name].type) for name, t in terms.items()}
        operands = [operand for pair in pairs.items() for operand in pair]
        return self.line("inst", kernel.inst(a.thm, pairs), a, *operands)

    def axiom(self, n):
        return self.line("axiom", self.library.theory.axiom(n), n)

    def definition(self, name, at=None):
        """`c = t` of a constant's definition, at the types of a constant."""
        n = self.library.theory.names.index(name)
        th = self.line("def", self.library.theory.theorems[n][0], n)
        pairs = {}
        type_match(self.signature.consts[name], at.type if at else self.signature.consts[name], pairs)
        return self.put_types(th, changed(pairs))

    def type_abs(self, name):
        n = self.library.theory.names.index(name)
        return self.line("type_abs", self.library.theory.theorems[n][0], n)

    def type_rep(self, name):
        n = self.library.theory.names.index(name)
        return self.line("type_rep", self.library.theory.theorems[n][1], n)

    # Derived rules and conversions.

    def rule(self, name, *operands):
        thms = [operand.thm if isinstance(operand, Line) else operand for operand in operands]
        return self.line(name, getattr(self.library.rules, name)(*thms), *operands)

    def conj_i(self, a, b):
        return self.rule("conj_i", a, b)

    def conj_l(self, a):
        return self.rule("conj_l", a)

    def conj_r(self, a):
        return self.rule("conj_r", a)

    def disj_l(self, a, q):
        return self.rule("disj_l", a, self.formula(q))

    def disj_r(self, p, a):
        return self.rule("disj_r", self.formula(p), a)

    def disj_e(self, a, b, c):
        return self.rule("disj_e", a, b, c)

    def not_i(self, a):
        return self.rule("not_i", a)

    def not_e(self, a):
        return self.rule("not_e", a)

    def disch(self, p, a):
        return self.rule("disch", self.formula(p), a)

    def mp(self, a, *premises):
        """What an implication gives, from its premises in their order."""
        for b in premises:
            a = self.rule("mp", a, b)
        return a

    def gen(self, variables, a):
        """The theorem generalised over variables, the last one first: `gen("x y", a)` is `!x. !y. ..`."""
        for v in reversed(variables.split()):
            a = self.rule("gen", self.variables[v], a)
        return a

    def spec(self, a, *terms):
        for t in terms:
            need_binder(a.concl)
            a = self.rule("spec", self.term(t, a.concl.arg.bound), a)
        return a

    def ex_i(self, e, t, a):
        e = self.formula(e)
        need_binder(e)
        return self.rule("ex_i", e, self.term(t, e.arg.bound), a)

    def choose(self, v, a, b):
        return self.rule("choose", self.variables[v], a, b)

    def subst(self, v, t, a, b):
        return self.rule("subst", self.term(v), self.formula(t), a, b)

    def sym(self, a):
        return self.rule("sym", a)

    def eqt_i(self, a):
        return self.rule("eqt_i", a)

    def eqt_e(self, a):
        return self.rule("eqt_e", a)

    def eta_conv(self, t):
        return self.rule("eta_conv", self.term(t))

    def beta_conv(self, t):
        return self.rule("beta_conv", self.term(t))

    def beta_norm(self, t):
        return self.rule("beta_norm", self.term(t))

    def norm(self, a):
        return self.rule("norm", a)

    def rewrite_all(self, t, a):
        return self.rule("rewrite_all", self.term(t), a)

    def rewrite_at(self, t, a, *path):
        return self.rule("rewrite_at", self.term(t), a, *path)

    # What a person does in one step.

    def by(self, name, *terms):
        """The fact of that name at terms, and at the types that they ask for."""
        a = self.line("fact", self.library.thm(name), name)
        terms = [self.term(t) for t in terms]
        pairs, scope = {}, a.concl
        for t in terms:
            need_binder(scope)
            type_match(scope.arg.bound, t.type, pairs)
            scope = scope.arg.body
        return self.spec(self.put_types(a, changed(pairs)), *terms)

    def iff(self, there, back):
        """`p = q`, where q is shown from p, and p from q."""
        return self.deduct(back, there)

    def back(self, equation, a):
        """The left side of an equation from its right side."""
        return self.eq_mp(self.sym(equation), a)

    def to(self, equation, t):
        """Both sides applied to a term."""
        return self.comb(equation, self.refl(t))

    def of(self, f, equation):
        """A function applied to both sides."""
        return self.comb(self.refl(self.term(f, ("fun", (left(equation.concl).type, Hole())))), equation)

    def absurd(self, no, yes):
        """F from `~ p` and p."""
        return self.mp(self.not_e(no), yes)

    def deny(self, p, a):
        """`~ p`, where F is shown from p."""
        return self.not_i(self.disch(p, a))

    def anything(self, q, a):
        """q from F."""
        return self.spec(self.eq_mp(self.definition("F"), a), self.formula(q))

    def induction(self, n, p, zero, step):
        """`!n. p` for numbers, from p of zero, and p of the successor of n shown from p."""
        rule = self.norm(self.by("NumInduction", r"\%s. %s" % (n, p)))
        return self.mp(rule, zero, self.gen(n, self.disch(p, step)))

    def open(self, v, exists, a):
        """What is shown of v, from there being one: `exists` is assumed."""
        return self.choose(v, self.assume(exists), a)

    def unfold(self, t):
        """`c x y = t`, where the definition of c gives t of x and y."""
        t = self.term(t)
        return self.norm(self.rewrite_all(t, self.definition(head(t).name, head(t))))

    def expand(self, a, *texts):
        """The theorem with the definitions of constants in their places."""
        for text in texts:
            c = self.signature.own(text) if text in self.signature.consts else self.term(text)
            a = self.rewrite(a, self.definition(c.name, c))
        return self.norm(a)

    def rewrite(self, a, *equations):
        """The theorem with the right side of each equation in all places of its left side."""
        for equation in equations:
            old = left(equation.concl)
            v = next(v for v in (free(name, old.type) for name in "vwu") if v not in frees(a.concl))
            a = self.subst(v, replaced(old, v, a.concl), equation, a)
        return a


def need_binder(t):
    if not (is_binder("all", t) or is_binder("ex", t)):
        raise Wrong("no quantifier: %r" % t)


def changed(pairs):
    return {name: ty for name, ty in pairs.items() if ty is not type_variable(name)}


def head(t):
    while isinstance(t, Comb):
        t = t.fun
    return t
