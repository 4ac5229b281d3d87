"""The derived rules and the conversions, each by the ten rules alone, with the exact hypotheses."""

from .kernel import assume, beta, deduct, eq_mp, inst, inst_type, mk_abs, mk_comb, need, refl, trans
from .terms import (
    ALPHA, BOOL, FALSITY, TRUTH, Abs, Comb, abstraction, comb, conj, const, disj, eq, free, frees, fun, has_subterm, imp, index,
    is_binder, is_eq, is_sign, lam, lams, left, loose, negation, opened, quantified, replaced, right,
)

P, Q, R = free("p", BOOL), free("q", BOOL), free("r", BOOL)
X = free("x", ALPHA)
PRED = free("P", fun(ALPHA, BOOL))


class Rules:
    """The rules over a theory that begins with the ten base definitions."""

    def __init__(self, theory):
        self.theory = theory
        self.definition = {name: theorems[0] for name, theorems in zip(theory.names, theory.theorems)}
        self.fresh_names = 0
        self.prepare()

    def fresh(self, ty):
        self.fresh_names += 1
        return free("v %d" % self.fresh_names, ty)

    # Conversions.

    def beta_conv(self, t):
        v = self.fresh(t.arg.type)
        return inst(beta(comb(t.fun, v)), {v: t.arg})

    def beta_step(self, t):
        """The equation that contracts the leftmost outermost redex, or None."""
        if isinstance(t, Comb):
            if isinstance(t.fun, Abs):
                return self.beta_conv(t)
            step = self.beta_step(t.fun)
            if step:
                return mk_comb(step, refl(t.arg))
            step = self.beta_step(t.arg)
            return step and mk_comb(refl(t.fun), step)
        if isinstance(t, Abs):
            v = self.fresh(t.bound)
            step = self.beta_step(opened(t, v))
            return step and mk_abs(v, step)
        return None

    def beta_norm(self, t):
        th = refl(t)
        while step := self.beta_step(right(th.concl)):
            th = trans(th, step)
        return th

    def norm(self, a):
        return eq_mp(self.beta_norm(a.concl), a)

    def eta_conv(self, t):
        need(isinstance(t, Abs) and isinstance(t.body, Comb) and not loose(t.body.fun), "eta_conv", t)
        f = t.body.fun
        need(t.body.arg is index(0, t.bound), "eta_conv", t)
        return self.spec(f, inst_type(self.theory.axiom(1), {"a": t.bound, "b": f.type.args[1]}))

    def under(self, v, context, a):
        """`A |- c[l] = c[r]` from `A |- l = r`, where c[v] is the context."""
        th = mk_comb(refl(lam(v, context)), a)
        return trans(trans(self.sym(self.beta_conv(left(th.concl))), th), self.beta_conv(right(th.concl)))

    def rewrite_all(self, t, a):
        need(is_eq(a.concl), "rewrite_all", a)
        if not has_subterm(left(a.concl), t):
            return refl(t)
        v = self.fresh(left(a.concl).type)
        return self.under(v, replaced(left(a.concl), v, t), a)

    def rewrite_at(self, t, a, *path):
        v = self.fresh(left(a.concl).type)
        return self.under(v, at_path(path, left(a.concl), v, t), a)

    # What the definitions of the connectives say of variables.

    def applied(self, name, *args):
        th = self.definition[name]
        for arg in args:
            th = mk_comb(th, refl(arg))
            th = trans(th, self.beta_conv(right(th.concl)))
        return th

    def prepare(self):
        self.truth = eq_mp(self.sym(self.definition["T"]), refl(right(self.definition["T"].concl).arg))
        by_p = deduct(assume(P), self.truth)
        self.is_true = deduct(eq_mp(self.sym(assume(eq(P, TRUTH))), self.truth), by_p)
        conj_means, imp_means = self.applied("conj", P, Q), self.applied("imp", P, Q)
        self.conj_meant, self.imp_meant = self.sym(conj_means), self.sym(imp_means)
        both = eq_mp(conj_means, assume(conj(P, Q)))
        self.first, self.second = (self.component(both, lams([P, Q], side)) for side in (P, Q))
        there = self.sym(eq_mp(imp_means, assume(imp(P, Q))))
        back = eq_mp(self.imp_meant, self.sym(assume(eq(P, conj(P, Q)))))
        self.imp_as = deduct(back, there)
        all_means = self.applied("all", PRED)
        self.all_meant = self.sym(all_means)
        each = mk_comb(eq_mp(all_means, assume(left_part("all", PRED))), refl(X))
        self.each = self.eqt_e(trans(each, self.beta_conv(right(each.concl))))
        ex_means = self.applied("ex", PRED)
        every = quantified("all", X, imp(comb(PRED, X), Q))
        shown = self.mp(self.spec(X, assume(every)), assume(comb(PRED, X)))
        self.some_one = eq_mp(self.sym(ex_means), self.gen(Q, self.disch(every, shown)))
        self.chosen = self.disch(left_part("ex", PRED), self.spec(Q, eq_mp(ex_means, assume(left_part("ex", PRED)))))
        disj_means = self.applied("disj", P, Q)
        self.either = [self.injection(disj_means, side) for side in (P, Q)]
        self.cases = self.disch(disj(P, Q), self.spec(R, eq_mp(disj_means, assume(disj(P, Q)))))
        not_means = self.applied("not", P)
        self.not_out = eq_mp(not_means, assume(negation(P)))
        self.not_in = eq_mp(self.sym(not_means), assume(imp(P, FALSITY)))

    def component(self, both, selector):
        th = mk_comb(both, refl(selector))
        ends = [self.beta_norm(side) for side in (left(th.concl), right(th.concl))]
        return self.eqt_e(trans(trans(self.sym(ends[0]), th), ends[1]))

    def injection(self, disj_means, side):
        shown = self.mp(assume(imp(side, R)), assume(side))
        shown = self.disch(imp(P, R), self.disch(imp(Q, R), shown))
        return eq_mp(self.sym(disj_means), self.gen(R, shown))

    # Rules. A cut with a closed lemma of one hypothesis is exact.

    def cut(self, a, b):
        return eq_mp(deduct(a, b), a)

    def sym(self, a):
        need(is_eq(a.concl), "sym", a)
        s = left(a.concl)
        return eq_mp(mk_comb(mk_comb(refl(a.concl.fun.fun), a), refl(s)), refl(s))

    def eqt_i(self, a):
        return eq_mp(inst(self.is_true, {P: a.concl}), a)

    def eqt_e(self, a):
        return eq_mp(self.sym(a), self.truth)

    def conj_i(self, a, b):
        f = self.fresh(fun(BOOL, BOOL, BOOL))
        th = mk_abs(f, mk_comb(mk_comb(refl(f), self.eqt_i(a)), self.eqt_i(b)))
        return eq_mp(inst(self.conj_meant, {P: a.concl, Q: b.concl}), th)

    def conj_l(self, a):
        need(is_sign("conj", a.concl), "conj_l", a)
        return self.cut(a, inst(self.first, {P: left(a.concl), Q: right(a.concl)}))

    def conj_r(self, a):
        need(is_sign("conj", a.concl), "conj_r", a)
        return self.cut(a, inst(self.second, {P: left(a.concl), Q: right(a.concl)}))

    def disj_l(self, a, q):
        return self.cut(a, inst(self.either[0], {P: a.concl, Q: q}))

    def disj_r(self, p, a):
        return self.cut(a, inst(self.either[1], {P: p, Q: a.concl}))

    def disj_e(self, a, b, c):
        need(is_sign("disj", a.concl) and b.concl is c.concl, "disj_e", a, b, c)
        p, q = left(a.concl), right(a.concl)
        cases = self.mp(inst(self.cases, {P: p, Q: q, R: b.concl}), a)
        return self.mp(self.mp(cases, self.disch(p, b)), self.disch(q, c))

    def not_i(self, a):
        need(is_sign("imp", a.concl) and right(a.concl) is FALSITY, "not_i", a)
        return self.cut(a, inst(self.not_in, {P: left(a.concl)}))

    def not_e(self, a):
        need(isinstance(a.concl, Comb) and a.concl is negation(a.concl.arg), "not_e", a)
        return self.cut(a, inst(self.not_out, {P: a.concl.arg}))

    def disch(self, p, a):
        both = self.conj_i(assume(p), a)
        back = self.cut(assume(both.concl), inst(self.first, {P: p, Q: a.concl}))
        return eq_mp(inst(self.imp_meant, {P: p, Q: a.concl}), deduct(both, back))

    def mp(self, a, b):
        need(is_sign("imp", a.concl) and left(a.concl) is b.concl, "mp", a, b)
        pair = {P: left(a.concl), Q: right(a.concl)}
        both = eq_mp(eq_mp(inst(self.imp_as, pair), a), b)
        return self.cut(both, inst(self.second, pair))

    def at_type(self, a, ty):
        return a if ty is ALPHA else inst_type(a, {"a": ty})

    def gen(self, v, a):
        th = mk_abs(v, self.eqt_i(a))
        predicate = left(th.concl)
        meant = inst(self.at_type(self.all_meant, v.type), {free("P", predicate.type): predicate})
        return eq_mp(meant, th)

    def spec(self, t, a):
        need(is_binder("all", a.concl) and a.concl.arg.bound is t.type, "spec", t, a)
        predicate = a.concl.arg
        pairs = {free("P", predicate.type): predicate, free("x", t.type): t}
        th = self.cut(a, inst(self.at_type(self.each, t.type), pairs))
        return eq_mp(self.beta_conv(th.concl), th)

    def ex_i(self, e, t, a):
        need(is_binder("ex", e) and e.arg.bound is t.type, "ex_i", e, t)
        pairs = {free("P", e.arg.type): e.arg, free("x", t.type): t}
        th = eq_mp(self.sym(self.beta_conv(comb(e.arg, t))), a)
        return self.cut(th, inst(self.at_type(self.some_one, t.type), pairs))

    def choose(self, v, a, b):
        need(is_binder("ex", a.concl) and v not in frees(a.concl) and v not in frees(b.concl), "choose", v, a, b)
        predicate = a.concl.arg
        case = self.disch(opened(predicate, v), b)
        unfolded = self.sym(self.beta_conv(comb(predicate, v)))
        case = eq_mp(mk_comb(mk_comb(refl(case.concl.fun.fun), unfolded), refl(b.concl)), case)
        th = inst(self.at_type(self.chosen, v.type), {free("P", predicate.type): predicate, Q: b.concl})
        return self.mp(self.mp(th, a), self.gen(v, case))

    def subst(self, v, t, a, b):
        return eq_mp(self.under(v, t, a), b)


def left_part(name, predicate):
    """A quantifier applied to a predicate that is a variable."""
    return comb(const(name, (ALPHA,), fun(fun(ALPHA, BOOL), BOOL)), predicate)


def at_path(path, old, new, t):
    """The term with `new` at the place where `old` has to stand: 0 is a function or a body, 1 an argument."""
    if not path:
        need(t is old, "path", t, old)
        return new
    step, rest = path[0], path[1:]
    if isinstance(t, Abs) and step == 0:
        return abstraction(t.bound, at_path(rest, old, new, t.body))
    need(isinstance(t, Comb) and step in (0, 1), "path", t)
    if step == 0:
        return comb(at_path(rest, old, new, t.fun), t.arg)
    return comb(t.fun, at_path(rest, old, new, t.arg))
