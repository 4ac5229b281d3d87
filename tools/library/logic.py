"""Logic, choice, the identity and the conditional."""

from .build import LIBRARY

LIBRARY.begin("th_base", "logic", "logic_facts", "logic, choice, the identity and the conditional")

fact = LIBRARY.fact


@fact("T", "The truth value T holds.")
def truth(s):
    return s.eqt_e(s.refl("T"))


@fact("!x0:'a -> 'b. !x1:'a -> 'b. (!x2:'a. x0 x2 = x1 x2) ==> (x0 = x1)", "Functions that agree at each argument are equal.")
def extensionality(s):
    s.fix("f g:'a -> 'b, x:'a")
    agree = s.assume("!x. f x = g x")
    whole = s.abs("x", s.spec(agree, "x"))
    equal = s.trans(s.sym(s.eta_conv(r"\x. f x")), whole, s.eta_conv(r"\x. g x"))
    return s.gen("f g", s.disch(agree.concl, equal))


@fact(r"!x0:bool. x0 \/ (~ x0)", "A truth value or its negation holds.")
def excluded_middle(s):
    """Diaconescu: choose y with `y = T \\/ p`, and y with `y = F \\/ p`. Where p holds, the two predicates are one, and so T would
    be F if both first cases held."""
    s.fix("p c y:bool")
    choice = s.spec(s.inst_type(s.axiom(2), a="bool"), r"\y. y = c \/ p", "c")
    chosen = s.mp(s.norm(choice), s.disj_l(s.refl("c"), "p"))
    p = s.assume("p")
    same = s.abs("y", s.deduct(s.disj_r("y = F", p), s.disj_r("y = T", p)))
    false_is_true = s.trans(s.of("some{bool}", same), s.assume(r"some (\y. y = T \/ p) = T"))
    falsity = s.eq_mp(s.assume(r"some (\y. y = F \/ p) = F"), s.eqt_e(false_is_true))
    no = s.disj_r("p", s.deny("p", falsity))
    yes = s.disj_l(p, "~ p")
    return s.gen("p", s.disj_e(s.inst(chosen, c="T"), s.disj_e(s.inst(chosen, c="F"), no, yes), yes))


@fact("!x0:bool. ((~ x0) ==> F) ==> x0", "What cannot be false holds.")
def contradiction(s):
    s.fix("p:bool")
    never = s.assume("~ p ==> F")
    otherwise = s.anything("p", s.mp(never, s.assume("~ p")))
    holds = s.disj_e(s.by("ExcludedMiddle", "p"), s.assume("p"), otherwise)
    return s.gen("p", s.disch(never.concl, holds))


@fact("!x0:bool. (~ (~ x0)) = x0", "A truth value is its double negation.")
def double_negation(s):
    s.fix("p:bool")
    there = s.mp(s.by("Contradiction", "p"), s.not_e(s.assume("~ ~ p")))
    back = s.deny("~ p", s.absurd(s.assume("~ p"), s.assume("p")))
    return s.gen("p", s.iff(there, back))


@fact(r"!x0:bool. !x1:bool. (~ (x0 \/ x1)) = ((~ x0) /\ (~ x1))", "De Morgan: a disjunction fails where both of its sides do.")
def not_disj(s):
    s.fix("p q:bool")
    neither = s.assume(r"~ (p \/ q)")
    no_p = s.deny("p", s.absurd(neither, s.disj_l(s.assume("p"), "q")))
    no_q = s.deny("q", s.absurd(neither, s.disj_r("p", s.assume("q"))))
    both = s.assume(r"~ p /\ ~ q")
    one = s.assume(r"p \/ q")
    cases = s.disj_e(one, s.absurd(s.conj_l(both), s.assume("p")), s.absurd(s.conj_r(both), s.assume("q")))
    return s.gen("p q", s.iff(s.conj_i(no_p, no_q), s.deny(one.concl, cases)))


@fact(r"!x0:bool. !x1:bool. (~ (x0 /\ x1)) = ((~ x0) \/ (~ x1))", "De Morgan: a conjunction fails where one of its sides does.")
def not_conj(s):
    s.fix("p q:bool")
    neither = s.by("NotDisj", "~ p", "~ q")
    neither = s.rewrite(neither, s.by("DoubleNegation", "p"), s.by("DoubleNegation", "q"))
    return s.gen("p q", s.trans(s.sym(s.of("not", neither)), s.by("DoubleNegation", r"~ p \/ ~ q")))


@fact(r"!x0:bool. !x1:bool. (x0 ==> x1) = ((~ x0) \/ x1)", "An implication holds where its premise fails or its conclusion holds.")
def imp_as_disj(s):
    s.fix("p q:bool")
    implied = s.disj_r("~ p", s.mp(s.assume("p ==> q"), s.assume("p")))
    there = s.disj_e(s.by("ExcludedMiddle", "p"), implied, s.disj_l(s.assume("~ p"), "q"))
    otherwise = s.anything("q", s.absurd(s.assume("~ p"), s.assume("p")))
    back = s.disch("p", s.disj_e(s.assume(r"~ p \/ q"), otherwise, s.assume("q")))
    return s.gen("p q", s.iff(there, back))


@fact(
    r"!x0:bool. !x1:bool. (~ (x0 ==> x1)) = (x0 /\ (~ x1))",
    "An implication fails where its premise holds and its conclusion does not.",
)
def not_imp(s):
    s.fix("p q:bool")
    fails = s.trans(s.of("not", s.by("ImpAsDisj", "p", "q")), s.by("NotDisj", "~ p", "q"))
    return s.gen("p q", s.rewrite(fails, s.by("DoubleNegation", "p")))


@fact("!x0:'a -> bool. (~ (?x1:'a. x0 x1)) = (!x1:'a. ~ x0 x1)", "Where there is none, all are not.")
def not_ex(s):
    s.fix("P:'a -> bool, x:'a")
    here = s.assume("P x")
    none = s.assume("~ (?x. P x)")
    there = s.gen("x", s.deny("P x", s.absurd(none, s.ex_i("?x. P x", "x", here))))
    clash = s.absurd(s.spec(s.assume("!x. ~ P x"), "x"), here)
    back = s.deny("?x. P x", s.open("x", "?x. P x", clash))
    return s.gen("P", s.iff(there, back))


@fact("!x0:'a -> bool. (~ (!x1:'a. x0 x1)) = (?x1:'a. ~ x0 x1)", "Where not all are, there is one that is not.")
def not_all(s):
    s.fix("P:'a -> bool, x:'a")
    none = s.norm(s.by("NotEx", r"\x. ~ P x"))
    everywhere = s.of("all", s.abs("x", s.by("DoubleNegation", "P x")))
    some = s.of("not", s.trans(none, everywhere))
    return s.gen("P", s.trans(s.sym(some), s.by("DoubleNegation", "?x. ~ P x")))


@fact("!x0:bool. (~ x0) = (x0 = F)", "A negation says that the truth value is F.")
def not_as_equation(s):
    s.fix("p:bool")
    no = s.absurd(s.assume("~ p"), s.assume("p"))
    there = s.deduct(s.anything("p", s.assume("F")), no)
    back = s.deny("p", s.eq_mp(s.assume("p = F"), s.assume("p")))
    return s.gen("p", s.iff(there, back))


@fact("!x0:'a -> 'b. !x1:'a -> 'b. (~ (x0 = x1)) = (?x2:'a. ~ (x0 x2 = x1 x2))", "Different functions differ at some argument.")
def functions_differ(s):
    s.fix("f g:'a -> 'b, x:'a")
    agree = s.gen("x", s.to(s.assume("f = g"), "x"))
    equal = s.mp(s.by("Extensionality", "f", "g"), s.assume("!x. f x = g x"))
    differ = s.of("not", s.iff(agree, equal))
    return s.gen("f g", s.trans(differ, s.norm(s.by("NotAll", r"\x. f x = g x"))))


@fact(
    r"!x0:bool. !x1:bool. (~ (x0 = x1)) = ((x0 /\ (~ x1)) \/ ((~ x0) /\ x1))",
    "Of two different truth values one holds and the other does not.",
)
def truth_values_differ(s):
    s.fix("p q r:bool")
    equal = s.assume("p = q")
    there = s.disch("p", s.eq_mp(equal, s.assume("p")))
    back = s.disch("q", s.back(equal, s.assume("q")))
    both = s.assume(r"(p ==> q) /\ (q ==> p)")
    agree = s.deduct(s.mp(s.conj_r(both), s.assume("q")), s.mp(s.conj_l(both), s.assume("p")))
    differ = s.of("not", s.iff(s.conj_i(there, back), agree))
    differ = s.trans(differ, s.by("NotConj", "p ==> q", "q ==> p"))
    pair = s.assume(r"q /\ r")
    turned = s.conj_i(s.conj_r(pair), s.conj_l(pair))
    turned = s.iff(s.inst(turned, r="~ p"), s.inst(turned, q="~ p", r="q"))
    return s.gen("p q", s.rewrite(differ, s.by("NotImp", "p", "q"), s.by("NotImp", "q", "p"), turned))


@fact("!x0:'a -> bool. (?x1:'a. x0 x1) ==> x0 (some{'a} x0)", "Where there is one, the chosen one is.")
def some_holds(s):
    s.fix("P:'a -> bool, x:'a")
    chosen = s.mp(s.spec(s.axiom(2), "P", "x"), s.assume("P x"))
    return s.gen("P", s.disch("?x. P x", s.open("x", "?x. P x", chosen)))


@fact(
    "!x0:'a -> 'b -> bool. (!x1:'a. ?x2:'b. x0 x1 x2) ==> (?x1:'a -> 'b. !x2:'a. x0 x2 (x1 x2))",
    "Where each argument has a value, there is a function that chooses one.",
)
def choice(s):
    s.fix("R:'a -> 'b -> bool, x:'a")
    each = s.assume("!x. ?y. R x y")
    chosen = s.gen("x", s.mp(s.by("SomeHolds", "R x"), s.spec(each, "x")))
    chosen = s.back(s.beta_norm(r"!x. R x ((\x. some (R x)) x)"), chosen)
    function = s.ex_i("?f. !x. R x (f x)", r"\x. some (R x)", chosen)
    return s.gen("R", s.disch(each.concl, function))


@fact(
    "!x0:'a -> bool. !x1:'a -> 'b -> bool. (!x2:'a. x0 x2 ==> (?x3:'b. x1 x2 x3)) ==> (?x2:'a -> 'b. !x3:'a. x0 x3 ==> x1 x3 (x2 "
    "x3))",
    "The same for the arguments of a set.",
)
def choice_on(s):
    s.fix("S:'a -> bool, R:'a -> 'b -> bool, x:'a")
    each = s.assume("!x. S x ==> (?y. R x y)")
    chosen = s.mp(s.by("SomeHolds", "R x"), s.mp(s.spec(each, "x"), s.assume("S x")))
    chosen = s.gen("x", s.disch("S x", chosen))
    chosen = s.back(s.beta_norm(r"!x. S x ==> R x ((\x. some (R x)) x)"), chosen)
    function = s.ex_i("?f. !x. S x ==> R x (f x)", r"\x. some (R x)", chosen)
    return s.gen("S R", s.disch(each.concl, function))


@fact(
    "!x0:'a -> bool. !x1:'a. x0 x1 ==> ((!x2:'a. x0 x2 ==> (x2 = x1)) ==> (some{'a} x0 = x1))",
    "The chosen one of a set with one element is that element.",
)
def unique_choice(s):
    s.fix("P:'a -> bool, a:'a")
    here, only = s.assume("P a"), s.assume("!x. P x ==> x = a")
    chosen = s.mp(s.spec(s.axiom(2), "P", "a"), here)
    same = s.mp(s.spec(only, "some P"), chosen)
    return s.gen("P a", s.disch(here.concl, s.disch(only.concl, same)))


LIBRARY.define(11)


@fact("!x0:'a. id{'a} x0 = x0", "The identity gives its argument.")
def identity(s):
    s.fix("x:'a")
    return s.gen("x", s.unfold("id x"))


LIBRARY.define(12)

CONDITIONAL = r"\z. (c = T ==> z = x) /\ (c = F ==> z = y)"


@fact("!x0:bool. !x1:'a. !x2:'a. x0 ==> (if{'a} x0 x1 x2 = x1)", "A conditional gives its first value where its condition holds.")
def if_true(s):
    s.fix("c:bool, x y z:'a")
    c = s.assume("c")
    choice = s.norm(s.by("UniqueChoice", CONDITIONAL, "x"))
    first = s.disch("c = T", s.refl("x"))
    second = s.disch("c = F", s.anything("x = y", s.eq_mp(s.assume("c = F"), c)))
    value = s.assume(r"(c = T ==> z = x) /\ (c = F ==> z = y)")
    only = s.gen("z", s.disch(value.concl, s.mp(s.conj_l(value), s.eqt_i(c))))
    chosen = s.mp(s.mp(choice, s.conj_i(first, second)), only)
    return s.gen("c x y", s.disch("c", s.trans(s.unfold("if c x y"), chosen)))


@fact("!x0:bool. !x1:'a. !x2:'a. (~ x0) ==> (if{'a} x0 x1 x2 = x2)", "A conditional gives its second value where its condition fails.")
def if_false(s):
    s.fix("c:bool, x y z:'a")
    fails = s.assume("~ c")
    choice = s.norm(s.by("UniqueChoice", CONDITIONAL, "y"))
    first = s.disch("c = T", s.anything("y = x", s.absurd(fails, s.eqt_e(s.assume("c = T")))))
    second = s.disch("c = F", s.refl("y"))
    value = s.assume(r"(c = T ==> z = x) /\ (c = F ==> z = y)")
    is_false = s.eq_mp(s.by("NotAsEquation", "c"), fails)
    only = s.gen("z", s.disch(value.concl, s.mp(s.conj_r(value), is_false)))
    chosen = s.mp(s.mp(choice, s.conj_i(first, second)), only)
    return s.gen("c x y", s.disch("~ c", s.trans(s.unfold("if c x y"), chosen)))
