"""Sums."""

from .build import LIBRARY

LIBRARY.begin("th_base", "sums", "sum_facts", "sums")

fact = LIBRARY.fact
makes_type = LIBRARY.makes_type

LIBRARY.define(24, 25)


@makes_type(26)
def sum_inhabited(s):
    """The relation of a left value represents an element of the sum."""
    s.fix("x:'a")
    is_left = s.ex_i("?w. sum.left{'a,'b} x = sum.left w", "x", s.refl("sum.left{'a,'b} x"))
    either = s.disj_l(is_left, "?w. sum.left{'a,'b} x = sum.right w")
    predicate = r"\r:bool -> 'a -> 'b -> bool. (?w. r = sum.left w) \/ (?w. r = sum.right w)"
    return s.back(s.beta_norm("(%s) (sum.left x)" % predicate), either)


@fact("!x0:('a,'b) sum. sum.abs{'a,'b} (sum.rep{'a,'b} x0) = x0", "An element of a sum is the one that its representation stands for.")
def sum_abs_rep(s):
    s.fix("a:('a,'b) sum")
    return s.gen("a", s.type_abs("sum"))


@fact(
    r"!x0:bool -> 'a -> 'b -> bool. ((?x1:'a. x0 = sum.left{'a,'b} x1) \/ (?x1:'b. x0 = sum.right{'b,'a} x1)) = (sum.rep{'a,'b} "
    "(sum.abs{'a,'b} x0) = x0)",
    "A relation represents an element of a sum where it is that of a left or a right value.",
)
def sum_rep_abs(s):
    s.fix("r:bool -> 'a -> 'b -> bool")
    return s.norm(s.gen("r", s.type_rep("sum")))


LIBRARY.define(27, 28)


@fact("!x0:'a. sum.rep{'a,'b} (inl{'a,'b} x0) = sum.left{'a,'b} x0", "How a left value is represented.")
def inl_rep(s):
    s.fix("x:'a")
    is_left = s.ex_i("?w. sum.left{'a,'b} x = sum.left w", "x", s.refl("sum.left{'a,'b} x"))
    either = s.disj_l(is_left, "?w. sum.left{'a,'b} x = sum.right w")
    represents = s.eq_mp(s.by("SumRepAbs", "sum.left{'a,'b} x"), either)
    return s.gen("x", s.trans(s.of("sum.rep", s.unfold("inl{'a,'b} x")), represents))


@fact("!x0:'b. sum.rep{'a,'b} (inr{'b,'a} x0) = sum.right{'b,'a} x0", "How a right value is represented.")
def inr_rep(s):
    s.fix("x:'b")
    is_right = s.ex_i("?w. sum.right{'b,'a} x = sum.right w", "x", s.refl("sum.right{'b,'a} x"))
    either = s.disj_r("?w. sum.right{'b,'a} x = sum.left w", is_right)
    represents = s.eq_mp(s.by("SumRepAbs", "sum.right{'b,'a} x"), either)
    return s.gen("x", s.trans(s.of("sum.rep", s.unfold("inr{'b,'a} x")), represents))


@fact("!x0:'a. !x1:'a. (inl{'a,'b} x0 = inl{'a,'b} x1) ==> (x0 = x1)", "Equal left values have equal contents.")
def inl_injective(s):
    s.fix("x y:'a, b:'b")
    equal = s.assume("inl{'a,'b} x = inl y")
    relation = s.rewrite(s.by("InlRep", "x"), equal)
    relation = s.trans(s.sym(relation), s.by("InlRep", "y"))
    values = s.expand(s.to(s.to(s.to(relation, "T"), "x"), "b"), "sum.left")
    same = s.eq_mp(values, s.conj_i(s.by("Truth"), s.refl("x")))
    return s.gen("x y", s.disch(equal.concl, s.conj_r(same)))


@fact("!x0:'b. !x1:'b. (inr{'b,'a} x0 = inr{'b,'a} x1) ==> (x0 = x1)", "Equal right values have equal contents.")
def inr_injective(s):
    s.fix("x y:'b, a:'a")
    equal = s.assume("inr{'b,'a} x = inr y")
    relation = s.rewrite(s.by("InrRep", "x"), equal)
    relation = s.trans(s.sym(relation), s.by("InrRep", "y"))
    values = s.expand(s.to(s.to(s.to(relation, "F"), "a"), "x"), "sum.right{'b,'a}")
    same = s.eq_mp(values, s.conj_i(s.deny("F", s.assume("F")), s.refl("x")))
    return s.gen("x y", s.disch(equal.concl, s.conj_r(same)))


@fact("!x0:'a. !x1:'b. ~ (inl{'a,'b} x0 = inr{'b,'a} x1)", "A left value is no right value.")
def inl_not_inr(s):
    s.fix("x:'a, y:'b")
    equal = s.assume("inl{'a,'b} x = inr y")
    relation = s.rewrite(s.by("InlRep", "x"), equal)
    relation = s.trans(s.sym(relation), s.by("InrRep", "y"))
    values = s.expand(s.to(s.to(s.to(relation, "T"), "x"), "y"), "sum.left{'a,'b}", "sum.right{'b,'a}")
    same = s.eq_mp(values, s.conj_i(s.by("Truth"), s.refl("x")))
    return s.gen("x y", s.deny(equal.concl, s.absurd(s.conj_l(same), s.by("Truth"))))


@fact("!x0:'a. !x1:'b. ~ (inr{'b,'a} x1 = inl{'a,'b} x0)", "A right value is no left value.")
def inr_not_inl(s):
    s.fix("x:'a, y:'b")
    equal = s.assume("inr{'b,'a} y = inl x")
    return s.gen("x y", s.deny(equal.concl, s.absurd(s.by("InlNotInr", "x", "y"), s.sym(equal))))


@fact(
    r"!x0:('a,'b) sum. (?x1:'a. x0 = inl{'a,'b} x1) \/ (?x1:'b. x0 = inr{'b,'a} x1)",
    "Each element of a sum is a left or a right value.",
)
def inl_or_inr(s):
    s.fix("s:('a,'b) sum, x:'a, y:'b")
    same = s.by("SumAbsRep", "s")
    either = s.back(s.by("SumRepAbs", "sum.rep s"), s.of("sum.rep", same))

    def case(equal, unfolded):
        equal = s.of("sum.abs", s.assume(equal))
        return s.trans(s.sym(same), equal, s.sym(s.unfold(unfolded)))

    is_left = s.ex_i("?x. s = inl x", "x", case("sum.rep s = sum.left x", "inl{'a,'b} x"))
    is_left = s.open("x", "?x. sum.rep s = sum.left x", s.disj_l(is_left, "?y. s = inr y"))
    is_right = s.ex_i("?y. s = inr y", "y", case("sum.rep s = sum.right y", "inr{'b,'a} y"))
    is_right = s.open("y", "?y. sum.rep s = sum.right y", s.disj_r("?x. s = inl x", is_right))
    return s.gen("s", s.disj_e(either, is_left, is_right))


LIBRARY.define(29)


# On sums of 'a and 'b first, as the facts above have them, and with 'b and 'c exchanged at the end.
VALUE = r"(?a. s = inl a /\ %s = f a) \/ (?b. s = inr b /\ %s = g b)"


@fact("!x0:'a -> 'b. !x1:'c -> 'b. !x2:'a. sum.case{'a,'b,'c} x0 x1 (inl{'a,'c} x2) = x0 x2", "Case analysis of a left value.")
def case_inl(s):
    s.fix("f:'a -> 'c, g:'b -> 'c, x a:'a, b:'b")
    s.let("s", "inl{'a,'b} x")
    s.let("v", r"some (\z. %s)" % VALUE % ("z", "z"))
    there = s.ex_i(r"?a. s = inl a /\ f x = f a", "x", s.conj_i(s.refl("s"), s.refl("f x")))
    there = s.ex_i("?z. " + VALUE % ("z", "z"), "f x", s.disj_l(there, r"?b. s = inr b /\ f x = g b"))
    chosen = s.mp(s.norm(s.by("SomeHolds", r"\z. " + VALUE % ("z", "z"))), there)
    left = s.assume(r"s = inl a /\ v = f a")
    same = s.sym(s.mp(s.by("InlInjective", "x", "a"), s.conj_l(left)))
    left = s.open("a", r"?a. s = inl a /\ v = f a", s.rewrite(s.conj_r(left), same))
    right = s.assume(r"s = inr b /\ v = g b")
    no = s.absurd(s.by("InlNotInr", "x", "b"), s.conj_l(right))
    right = s.open("b", r"?b. s = inr b /\ v = g b", s.anything("v = f x", no))
    value = s.inst_type(s.disj_e(chosen, left, right), b="'c", c="'b")
    s.fix("f:'a -> 'b, g:'c -> 'b, x:'a")
    return s.gen("f g x", s.trans(s.unfold("sum.case f g (inl x)"), value))


@fact("!x0:'a -> 'b. !x1:'c -> 'b. !x2:'c. sum.case{'a,'b,'c} x0 x1 (inr{'c,'a} x2) = x1 x2", "Case analysis of a right value.")
def case_inr(s):
    s.fix("f:'a -> 'c, g:'b -> 'c, x b:'b, a:'a")
    s.let("s", "inr{'b,'a} x")
    s.let("v", r"some (\z. %s)" % VALUE % ("z", "z"))
    there = s.ex_i(r"?b. s = inr b /\ g x = g b", "x", s.conj_i(s.refl("s"), s.refl("g x")))
    there = s.ex_i("?z. " + VALUE % ("z", "z"), "g x", s.disj_r(r"?a. s = inl a /\ g x = f a", there))
    chosen = s.mp(s.norm(s.by("SomeHolds", r"\z. " + VALUE % ("z", "z"))), there)
    left = s.assume(r"s = inl a /\ v = f a")
    no = s.absurd(s.by("InrNotInl", "a", "x"), s.conj_l(left))
    left = s.open("a", r"?a. s = inl a /\ v = f a", s.anything("v = g x", no))
    right = s.assume(r"s = inr b /\ v = g b")
    same = s.sym(s.mp(s.by("InrInjective", "x", "b"), s.conj_l(right)))
    right = s.open("b", r"?b. s = inr b /\ v = g b", s.rewrite(s.conj_r(right), same))
    value = s.inst_type(s.disj_e(chosen, left, right), b="'c", c="'b")
    s.fix("f:'a -> 'b, g:'c -> 'b, x:'c")
    return s.gen("f g x", s.trans(s.unfold("sum.case f g (inr x)"), value))


LIBRARY.define(30, 31, 32, 33)
