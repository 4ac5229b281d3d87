"""A second reader of tables. It takes the text of a table line by line, from the statements of the facts alone, and computes each
sequent as the runner does: a rule is one partial function on sequents, in the words of the specs of hol_terms, nd_rules and
hol_conv. It shares terms and the reading of their text with the scripts, and no rule."""

from .terms import (
    BOOL, FALSITY, TRUTH, Abs, Comb, Const, Free, IllTyped, Index, abstraction, comb, conj, const, disj, eq, free, fun, imp, index,
    negation, type_put,
)
from .text import NotRead, term_text, type_text


class Fails(Exception):
    """A line that gives no sequent, with the reason."""


class Sequent:
    """Hypotheses ascend in the order of terms, each once."""

    def __init__(self, hyps, concl):
        self.hyps = hyps
        self.concl = concl

    def __str__(self):
        return (", ".join(map(term_text, self.hyps)) + " |- " if self.hyps else "|- ") + term_text(self.concl)


# The order of types and terms, and sets of hypotheses.


def type_key(ty):
    return (0, ty.name.encode()) if ty.args is None else (1, ty.name.encode(), tuple(map(type_key, ty.args)))


def term_key(t):
    if isinstance(t, Index):
        return (0, t.number, type_key(t.type))
    if isinstance(t, Free):
        return (1, t.name.encode(), type_key(t.type))
    if isinstance(t, Const):
        return (2, t.name.encode(), tuple(map(type_key, t.args)), type_key(t.type))
    if isinstance(t, Comb):
        return (3, term_key(t.fun), term_key(t.arg))
    return (4, type_key(t.bound), term_key(t.body))


def union(*lists):
    return sorted({h for hyps in lists for h in hyps}, key=term_key)


def without(t, hyps):
    return [h for h in hyps if h is not t]


# Terms.


def has_free(v, t):
    if isinstance(t, Comb):
        return has_free(v, t.fun) or has_free(v, t.arg)
    return has_free(v, t.body) if isinstance(t, Abs) else t is v


def free_in_none(v, hyps):
    return not any(has_free(v, h) for h in hyps)


def bound(k, v, t):
    """The variable becomes the index that k binders lie before."""
    if isinstance(t, Comb):
        return comb(bound(k, v, t.fun), bound(k, v, t.arg))
    if isinstance(t, Abs):
        return abstraction(t.bound, bound(k + 1, v, t.body))
    return index(k, v.type) if t is v else t


def closure(v, t):
    return abstraction(v.type, bound(0, v, t))


def shift(n, c, t):
    """The term below n more binders; indices below c point inside."""
    if isinstance(t, Index):
        return t if t.number < c else index(t.number + n, t.type)
    if isinstance(t, Comb):
        return comb(shift(n, c, t.fun), shift(n, c, t.arg))
    return abstraction(t.bound, shift(n, c + 1, t.body)) if isinstance(t, Abs) else t


def put(k, u, t):
    """u for the index that k binders lie before, and one binder less for the indices above it."""
    if isinstance(t, Index):
        if t.number == k:
            return shift(k, 0, u)
        return t if t.number < k else index(t.number - 1, t.type)
    if isinstance(t, Comb):
        return comb(put(k, u, t.fun), put(k, u, t.arg))
    return abstraction(t.bound, put(k + 1, u, t.body)) if isinstance(t, Abs) else t


def contracted(t):
    """The term with its leftmost outermost redex contracted, or None."""
    if isinstance(t, Comb):
        if isinstance(t.fun, Abs):
            return put(0, t.arg, t.fun.body)
        inner = contracted(t.fun)
        if inner is not None:
            return comb(inner, t.arg)
        inner = contracted(t.arg)
        return None if inner is None else comb(t.fun, inner)
    if isinstance(t, Abs):
        inner = contracted(t.body)
        return None if inner is None else abstraction(t.bound, inner)
    return None


def normal(t):
    while (reduct := contracted(t)) is not None:
        t = reduct
    return t


def with_terms(pairs, t):
    if isinstance(t, Comb):
        return comb(with_terms(pairs, t.fun), with_terms(pairs, t.arg))
    if isinstance(t, Abs):
        return abstraction(t.bound, with_terms(pairs, t.body))
    return next((u for v, u in pairs if v is t), t)


def with_types(pairs, t):
    pairs = dict(pairs)

    def go(t):
        if isinstance(t, Comb):
            return comb(go(t.fun), go(t.arg))
        if isinstance(t, Abs):
            return abstraction(type_put(pairs, t.bound), go(t.body))
        ty = type_put(pairs, t.type)
        if isinstance(t, Index):
            return index(t.number, ty)
        return free(t.name, ty) if isinstance(t, Free) else const(t.name, tuple(type_put(pairs, a) for a in t.args), ty)

    return go(t)


def swapped(old, new, t):
    """Each topmost subterm that is `old` becomes `new`."""
    if t is old:
        return new
    if isinstance(t, Comb):
        return comb(swapped(old, new, t.fun), swapped(old, new, t.arg))
    return abstraction(t.bound, swapped(old, new, t.body)) if isinstance(t, Abs) else t


def swapped_at(path, old, new, t):
    if not path:
        require(t is old, "another term stands there")
        return new
    if path[0] == 0 and isinstance(t, Abs):
        return abstraction(t.bound, swapped_at(path[1:], old, new, t.body))
    require(isinstance(t, Comb) and path[0] in (0, 1), "no such place")
    if path[0] == 0:
        return comb(swapped_at(path[1:], old, new, t.fun), t.arg)
    return comb(t.fun, swapped_at(path[1:], old, new, t.arg))


# The parts of what a rule is given.


def require(condition, reason):
    if not condition:
        raise Fails(reason)


def sides(a, *name):
    """The operands of an equation, or of the connective of that name."""
    t, name = a.concl, (name or ("eq",))[0]
    applied = isinstance(t, Comb) and isinstance(t.fun, Comb) and isinstance(t.fun.fun, Const) and t.fun.fun.name == name
    require(applied, "%s is no application of %s" % (a, name))
    return t.fun.arg, t.arg


def scope(name, ty, t):
    """The body of a quantification over a type."""
    is_one = isinstance(t, Comb) and isinstance(t.fun, Const) and t.fun.name == name and isinstance(t.arg, Abs)
    require(is_one and t.arg.bound is ty, "%s is no quantification by %s over %s" % (term_text(t), name, type_text(ty)))
    return t.arg.body


def variable(v):
    require(isinstance(v, Free), "%s is no variable" % term_text(v))
    return v


def boolean(p):
    require(p.type is BOOL, "%s is not boolean" % term_text(p))
    return p


# Rules.


def refl(t):
    return Sequent([], eq(t, t))


def trans(a, b):
    (s, t), (u, v) = sides(a), sides(b)
    require(t is u, "%s is not %s" % (term_text(t), term_text(u)))
    return Sequent(union(a.hyps, b.hyps), eq(s, v))


def mk_comb(a, b):
    (f, g), (x, y) = sides(a), sides(b)
    return Sequent(union(a.hyps, b.hyps), eq(comb(f, x), comb(g, y)))


def mk_abs(v, a):
    s, t = sides(a)
    require(free_in_none(variable(v), a.hyps), "the variable is free in a hypothesis")
    return Sequent(a.hyps, eq(closure(v, s), closure(v, t)))


def beta(t):
    require(isinstance(t, Comb) and isinstance(t.fun, Abs), "no beta redex")
    require(not has_free(variable(t.arg), t.fun), "the variable is in the function")
    return Sequent([], eq(t, put(0, t.arg, t.fun.body)))


def assume(p):
    return Sequent([boolean(p)], p)


def eq_mp(a, b):
    p, q = sides(a)
    require(p is b.concl, "%s is not %s" % (term_text(p), term_text(b.concl)))
    return Sequent(union(a.hyps, b.hyps), q)


def deduct(a, b):
    return Sequent(union(without(b.concl, a.hyps), without(a.concl, b.hyps)), eq(a.concl, b.concl))


def distinct(pairs):
    require(pairs and len({left for left, _ in pairs}) == len(pairs), "no pairs, or two of one left side")


def inst_type(a, pairs):
    distinct(pairs)
    return Sequent(union([with_types(pairs, h) for h in a.hyps]), with_types(pairs, a.concl))


def inst(a, pairs):
    distinct(pairs)
    require(all(variable(v).type is t.type for v, t in pairs), "a term of another type")
    return Sequent(union([with_terms(pairs, h) for h in a.hyps]), with_terms(pairs, a.concl))


def conj_i(a, b):
    return Sequent(union(a.hyps, b.hyps), conj(a.concl, b.concl))


def conj_l(a):
    return Sequent(a.hyps, sides(a, "conj")[0])


def conj_r(a):
    return Sequent(a.hyps, sides(a, "conj")[1])


def disj_l(a, q):
    return Sequent(a.hyps, disj(a.concl, boolean(q)))


def disj_r(p, a):
    return Sequent(a.hyps, disj(boolean(p), a.concl))


def disj_e(a, b, c):
    p, q = sides(a, "disj")
    require(b.concl is c.concl, "the cases differ: %s, %s" % (b, c))
    return Sequent(union(a.hyps, without(p, b.hyps), without(q, c.hyps)), b.concl)


def not_i(a):
    p, q = sides(a, "imp")
    require(q is FALSITY, "no implication of F")
    return Sequent(a.hyps, negation(p))


def not_e(a):
    require(isinstance(a.concl, Comb) and a.concl is negation(a.concl.arg), "no negation")
    return Sequent(a.hyps, imp(a.concl.arg, FALSITY))


def disch(p, a):
    return Sequent(without(boolean(p), a.hyps), imp(p, a.concl))


def mp(a, b):
    p, q = sides(a, "imp")
    require(p is b.concl, "%s is not %s" % (term_text(p), term_text(b.concl)))
    return Sequent(union(a.hyps, b.hyps), q)


def gen(v, a):
    require(free_in_none(variable(v), a.hyps), "the variable is free in a hypothesis")
    return Sequent(a.hyps, comb(const("all", (v.type,), fun(fun(v.type, BOOL), BOOL)), closure(v, a.concl)))


def spec(t, a):
    return Sequent(a.hyps, put(0, t, scope("all", t.type, a.concl)))


def ex_i(e, t, a):
    case = put(0, t, scope("ex", t.type, e))
    require(case is a.concl, "%s is not %s" % (a, term_text(case)))
    return Sequent(a.hyps, e)


def choose(v, a, b):
    case = put(0, v, scope("ex", variable(v).type, a.concl))
    others = without(case, b.hyps)
    require(not has_free(v, a.concl) and not has_free(v, b.concl) and free_in_none(v, others), "the variable is free elsewhere")
    return Sequent(union(a.hyps, others), b.concl)


def subst(v, t, a, b):
    s, u = sides(a)
    require(s.type is variable(v).type, "the variable has another type")
    case = with_terms([(v, s)], t)
    require(case is b.concl, "%s is not %s" % (b, term_text(case)))
    return Sequent(union(a.hyps, b.hyps), with_terms([(v, u)], t))


def sym(a):
    s, t = sides(a)
    return Sequent(a.hyps, eq(t, s))


def eqt_i(a):
    return Sequent(a.hyps, eq(a.concl, TRUTH))


def eqt_e(a):
    p, t = sides(a)
    require(t is TRUTH, "no equation with T")
    return Sequent(a.hyps, p)


def beta_conv(t):
    require(isinstance(t, Comb) and isinstance(t.fun, Abs), "no beta redex")
    return Sequent([], eq(t, put(0, t.arg, t.fun.body)))


def eta_conv(t):
    require(isinstance(t, Abs) and isinstance(t.body, Comb) and t.body.arg is index(0, t.bound), "no eta redex")
    f = t.body.fun
    require(put(0, TRUTH, shift(1, 0, f)) is f, "the bound variable is in the function")
    return Sequent([], eq(t, f))


def beta_norm(t):
    return Sequent([], eq(t, normal(t)))


def norm(a):
    return Sequent(a.hyps, normal(a.concl))


def rewrite_all(t, a):
    old, new = sides(a)
    to = swapped(old, new, t)
    return Sequent(a.hyps if swapped(old, free(" ", old.type), t) is not t else [], eq(t, to))


def rewrite_at(t, a, *path):
    old, new = sides(a)
    return Sequent(a.hyps, eq(t, swapped_at(path, old, new, t)))


# By its word, a rule and its operands: T is a term, A a theorem.
RULES = {
    "refl": ("T", refl), "beta": ("T", beta), "assume": ("T", assume), "trans": ("AA", trans), "comb": ("AA", mk_comb),
    "eq_mp": ("AA", eq_mp), "deduct": ("AA", deduct), "abs": ("TA", mk_abs), "conj_i": ("AA", conj_i), "conj_l": ("A", conj_l),
    "conj_r": ("A", conj_r), "disj_l": ("AT", disj_l), "disj_r": ("TA", disj_r), "disj_e": ("AAA", disj_e),
    "not_i": ("A", not_i), "not_e": ("A", not_e), "disch": ("TA", disch), "mp": ("AA", mp), "gen": ("TA", gen),
    "spec": ("TA", spec), "ex_i": ("TTA", ex_i), "choose": ("TAA", choose), "subst": ("TTAA", subst), "sym": ("A", sym),
    "eqt_i": ("A", eqt_i), "eqt_e": ("A", eqt_e), "beta_conv": ("T", beta_conv), "eta_conv": ("T", eta_conv),
    "beta_norm": ("T", beta_norm), "norm": ("A", norm), "rewrite_all": ("TA", rewrite_all),
}


WORDS = [*RULES, "rewrite_at", "inst", "inst_type", "axiom", "def", "type_abs", "type_rep"]


class Run:
    """A run of one table: its registers, after the lines so far."""

    def __init__(self, signature, definitions, axioms, facts):
        self.signature = signature
        self.definitions = definitions  # by number, what it says: one term of a constant's, two of a type's
        self.axioms = axioms
        self.types = []
        self.terms = []
        self.theorems = [Sequent([], statement) for statement in facts]

    def number(self, word):
        require(word.isdecimal() and word == str(int(word)), "%s is no number" % word)
        return int(word)

    def entry(self, register, word):
        n = self.number(word)
        require(n < len(register), "%s is not there yet" % word)
        return register[n]

    def term(self, word):
        return self.entry(self.terms, word)

    def theorem(self, word):
        return self.entry(self.theorems, word)

    def said(self, word, count, which):
        said = self.entry(self.definitions, word)
        require(len(said) == count, "a definition of the other kind")
        return Sequent([], said[which])

    def line(self, line):
        """Puts what the line gives at the end of its register."""
        word, _, rest = line.partition(" ")
        if word == "type":
            ty = self.signature.read_type(rest)
            require(type_text(ty) == rest, "not canonical text")
            self.types.append(ty)
        elif word == "term":
            t = self.signature.read_term(rest)
            require(term_text(t) == rest, "not canonical text")
            self.terms.append(t)
        else:
            self.theorems.append(self.step(word, rest.split(" ")))

    def step(self, word, words):
        if word in RULES:
            kinds, rule = RULES[word]
            require(len(words) == len(kinds), "%d operands" % len(words))
            return rule(*(self.term(w) if kind == "T" else self.theorem(w) for kind, w in zip(kinds, words)))
        if word == "rewrite_at":
            return rewrite_at(self.term(words[0]), self.theorem(words[1]), *map(self.number, words[2:]))
        if word in ("inst", "inst_type"):
            require(len(words) % 2 == 1, "half a pair")
            pairs = list(zip(words[1::2], words[2::2]))
            if word == "inst":
                return inst(self.theorem(words[0]), [(self.term(v), self.term(t)) for v, t in pairs])
            return inst_type(self.theorem(words[0]), [(name, self.entry(self.types, ty)) for name, ty in pairs])
        require(len(words) == 1, "%d operands" % len(words))
        if word == "axiom":
            return Sequent([], self.entry([None] + self.axioms, words[0]))
        if word == "def":
            return self.said(words[0], 1, 0)
        if word in ("type_abs", "type_rep"):
            return self.said(words[0], 2, word == "type_rep")
        raise Fails("no such word")


def ran(run, text):
    """The sequent of a table's last line; where a line fails, which, why, and what the lines before it compute."""
    require(text.endswith("\n"), "the last line has no end")
    for n, line in enumerate(text.removesuffix("\n").split("\n")):
        try:
            run.line(line)
        except (Fails, NotRead, IllTyped) as fault:
            shown = ["%4d %s" % (i, th) for i, th in enumerate(run.theorems)]
            raise Fails("line %d, `%s`: %s\n%s" % (n + 1, line, fault, "\n".join(shown))) from None
    return run.theorems[-1]
