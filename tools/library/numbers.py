"""Numbers, recursion over them, and their order."""

from .build import LIBRARY

LIBRARY.begin("th_num", "numbers", "number_facts", "numbers")

fact = LIBRARY.fact
makes_type = LIBRARY.makes_type


LIBRARY.define(34)


@fact(r"one_one{ind,ind} num.suc_ind /\ (~ onto{ind,ind} num.suc_ind)", "The successor on ind is injective and not onto.")
def ind_infinite(s):
    chosen = s.norm(s.by("SomeHolds", r"\f:ind -> ind. one_one f /\ ~ onto f"))
    return s.rewrite(s.mp(chosen, s.axiom(3)), s.sym(s.definition("num.suc_ind")))


LIBRARY.define(35)


@fact("!x0:ind. ~ (num.suc_ind x0 = num.zero_ind)", "What stands for zero in ind is no successor.")
def zero_ind_not_suc(s):
    """What the successor misses is no successor."""
    s.fix("x y:ind")
    not_onto = s.expand(s.conj_r(s.by("IndInfinite")), "onto{ind,ind}")
    missed = s.eq_mp(s.norm(s.by("NotAll", r"\y. ?x. y = num.suc_ind x")), not_onto)
    hit = s.ex_i("?x. y = num.suc_ind x", "x", s.sym(s.assume("num.suc_ind x = y")))
    no_suc = s.deny("num.suc_ind x = y", s.absurd(s.assume("~ ?x. y = num.suc_ind x"), hit))
    no_suc = s.ex_i("?y. !x. ~ (num.suc_ind x = y)", "y", s.gen("x", no_suc))
    chosen = s.norm(s.by("SomeHolds", r"\y. !x. ~ (num.suc_ind x = y)"))
    return s.rewrite(s.mp(chosen, s.choose("y", missed, no_suc)), s.sym(s.definition("num.zero_ind")))


LIBRARY.define(36)


@fact("num.is num.zero_ind", "It represents a number.")
def zero_ind_is_num(s):
    s.fix("P:ind -> bool")
    closed = s.assume(r"P num.zero_ind /\ (!i. P i ==> P (num.suc_ind i))")
    return s.back(s.unfold("num.is num.zero_ind"), s.gen("P", s.disch(closed.concl, s.conj_l(closed))))


@fact("!x0:ind. num.is x0 ==> num.is (num.suc_ind x0)", "The successor of what represents a number represents one.")
def suc_ind_is_num(s):
    s.fix("P:ind -> bool, i:ind")
    number = s.assume("num.is i")
    closed = s.assume(r"P num.zero_ind /\ (!i. P i ==> P (num.suc_ind i))")
    means = s.unfold("num.is i")
    here = s.mp(s.spec(s.eq_mp(means, number), "P"), closed)
    there = s.gen("P", s.disch(closed.concl, s.mp(s.spec(s.conj_r(closed), "i"), here)))
    return s.gen("i", s.disch(number.concl, s.back(s.inst(means, i="num.suc_ind i"), there)))


@makes_type(37)
def num_inhabited(s):
    """What stands for zero represents a number: the proof of that fact, since the element of a type takes no facts."""
    return zero_ind_is_num(s)


@fact("!x0:num. num.abs (num.rep x0) = x0", "A number is the one that its representation stands for.")
def num_abs_rep(s):
    s.fix("a:num")
    return s.gen("a", s.type_abs("num"))


@fact(
    "!x0:ind. num.is x0 = (num.rep (num.abs x0) = x0)",
    "An element of ind represents a number where it is reached from zero by successors.",
)
def num_rep_abs(s):
    s.fix("r:ind")
    return s.gen("r", s.type_rep("num"))


@fact("!x0:num. num.is (num.rep x0)", "The representation of a number represents one.")
def rep_is_num(s):
    s.fix("n:num")
    same = s.of("num.rep", s.by("NumAbsRep", "n"))
    return s.gen("n", s.back(s.by("NumRepAbs", "num.rep n"), same))


LIBRARY.define(38)


@fact("num.rep 0 = num.zero_ind", "How zero is represented.")
def rep_zero(s):
    represents = s.eq_mp(s.by("NumRepAbs", "num.zero_ind"), s.by("ZeroIndIsNum"))
    return s.trans(s.of("num.rep", s.definition("0")), represents)


LIBRARY.define(39)


@fact("!x0:num. num.rep (suc x0) = num.suc_ind (num.rep x0)", "How a successor is represented.")
def rep_suc(s):
    s.fix("n:num")
    number = s.mp(s.by("SucIndIsNum", "num.rep n"), s.by("RepIsNum", "n"))
    represents = s.eq_mp(s.by("NumRepAbs", "num.suc_ind (num.rep n)"), number)
    return s.gen("n", s.trans(s.of("num.rep", s.unfold("suc n")), represents))


@fact("!x0:num. ~ (suc x0 = 0)", "A successor is not zero.")
def suc_not_zero(s):
    s.fix("n:num")
    equal = s.assume("suc n = 0")
    rep = s.trans(s.sym(s.by("RepSuc", "n")), s.of("num.rep", equal), s.by("RepZero"))
    return s.gen("n", s.deny(equal.concl, s.absurd(s.by("ZeroIndNotSuc", "num.rep n"), rep)))


@fact("!x0:num. !x1:num. (suc x0 = suc x1) ==> (x0 = x1)", "Numbers with equal successors are equal.")
def suc_injective(s):
    s.fix("m n:num")
    equal = s.assume("suc m = suc n")
    rep = s.trans(s.sym(s.by("RepSuc", "m")), s.of("num.rep", equal), s.by("RepSuc", "n"))
    injective = s.expand(s.conj_l(s.by("IndInfinite")), "one_one{ind,ind}")
    same = s.mp(s.spec(injective, "num.rep m", "num.rep n"), rep)
    same = s.trans(s.sym(s.by("NumAbsRep", "m")), s.of("num.abs", same), s.by("NumAbsRep", "n"))
    return s.gen("m n", s.disch(equal.concl, same))


@fact("!x0:num -> bool. x0 0 ==> ((!x1:num. x0 x1 ==> x0 (suc x1)) ==> (!x1:num. x0 x1))", "Induction over numbers.")
def num_induction(s):
    """What represents n is in each set with zero and successors, so also in that of what represents a number with P."""
    s.fix("P:num -> bool, n:num, i:ind")
    zero, step = s.assume("P 0"), s.assume("!n. P n ==> P (suc n)")
    reached = s.eq_mp(s.unfold("num.is (num.rep n)"), s.by("RepIsNum", "n"))
    reached = s.norm(s.spec(reached, r"\i. num.is i /\ P (num.abs i)"))
    at_zero = s.conj_i(s.by("ZeroIndIsNum"), s.rewrite(zero, s.definition("0")))
    here = s.assume(r"num.is i /\ P (num.abs i)")
    represents = s.eq_mp(s.by("NumRepAbs", "i"), s.conj_l(here))
    after = s.expand(s.mp(s.spec(step, "num.abs i"), s.conj_r(here)), "suc")
    after = s.conj_i(s.mp(s.by("SucIndIsNum", "i"), s.conj_l(here)), s.rewrite(after, represents))
    found = s.mp(reached, s.conj_i(at_zero, s.gen("i", s.disch(here.concl, after))))
    holds = s.gen("n", s.rewrite(s.conj_r(found), s.by("NumAbsRep", "n")))
    return s.gen("P", s.disch(zero.concl, s.disch(step.concl, holds)))


@fact(r"!x0:num. (x0 = 0) \/ (?x1:num. x0 = suc x1)", "A number is zero or a successor.")
def num_cases(s):
    s.fix("n:num")
    induction = s.norm(s.by("NumInduction", r"\n. n = 0 \/ (?m. n = suc m)"))
    zero = s.disj_l(s.refl("0"), "?m. 0 = suc m")
    step = s.disj_r("suc n = 0", s.ex_i("?m. suc n = suc m", "n", s.refl("suc n")))
    return s.mp(induction, zero, s.gen("n", s.disch(r"n = 0 \/ (?m. n = suc m)", step)))


LIBRARY.begin("th_num", "graphs", "graph_facts", "the graph of a recursion")


@fact(
    "!x0:('a -> 'b -> bool) -> 'a -> 'b -> bool. (!x1:'a -> 'b -> bool. !x2:'a -> 'b -> bool. (!x3:'a. !x4:'b. x1 x3 x4 ==> x2 x3 "
    "x4) ==> (!x3:'a. !x4:'b. x0 x1 x3 x4 ==> x0 x2 x3 x4)) ==> (?x1:'a -> 'b -> bool. !x2:'a. !x3:'b. x1 x2 x3 = x0 x1 x2 x3)",
    "Knaster and Tarski: a monotone function of relations has a fixed relation.",
)
def fixed_relation(s):
    """G is the least relation that F makes no larger."""
    s.fix("F:('a -> 'b -> bool) -> 'a -> 'b -> bool, R:'a -> 'b -> bool, x:'a, y:'b")
    s.let("G", r"\x y. !R. (!x y. F R x y ==> R x y) ==> R x y")
    monotone = s.assume("!R S. (!x y. R x y ==> S x y) ==> (!x y. F R x y ==> F S x y)")
    closed = s.assume("!x y. F R x y ==> R x y")
    in_each = s.eq_mp(s.beta_norm("G x y"), s.assume("G x y"))
    below = s.gen("x y", s.disch("G x y", s.mp(s.spec(in_each, "R"), closed)))
    image = s.spec(s.mp(s.spec(monotone, "G", "R"), below), "x", "y")
    image = s.mp(s.spec(closed, "x", "y"), s.mp(image, s.assume("F G x y")))
    back = s.back(s.beta_norm("G x y"), s.gen("R", s.disch(closed.concl, image)))
    shrinks = s.gen("x y", s.disch("F G x y", back))
    there = s.mp(s.spec(in_each, "F G"), s.mp(s.spec(monotone, "F G", "G"), shrinks))
    fixed = s.ex_i("?G. !x y. G x y = F G x y", "G", s.gen("x y", s.iff(there, back)))
    return s.gen("F", s.disch(monotone.concl, fixed))


# The equation of a graph, a relation of numbers n and values b: b is the start z at zero, or comes by a last step.
START = r"n = 0 /\ b = z"
VALUE = r"?a. %s p a /\ b = f i p a"
LAST = r"n = c i p /\ (%s)" % VALUE
GRAPH = r"%s \/ (?i p. %s)" % (START, LAST)


@fact(
    r"!x0:'a. !x1:'b -> num -> 'a -> 'a. !x2:'b -> num -> num. ?x3:num -> 'a -> bool. !x4:num. !x5:'a. x3 x4 x5 = (((x4 = 0) /\ (x5 "
    r"= x0)) \/ (?x6:'b. ?x7:num. (x4 = x2 x6 x7) /\ (?x8:'a. x3 x7 x8 /\ (x5 = x1 x6 x7 x8))))",
    "There is a relation that satisfies the equation of a graph of recursion along a step function c.",
)
def recursion_graph(s):
    s.fix("z a b:'a, f:'b -> num -> 'a -> 'a, c:'b -> num -> num, n p:num, i:'b, R S:num -> 'a -> bool")
    fixed = s.norm(s.by("FixedRelation", r"\G n b. " + GRAPH % "G"))
    larger = s.assume("!n b. R n b ==> S n b")
    value = s.assume(r"R p a /\ b = f i p a")
    value = s.conj_i(s.mp(s.spec(larger, "p", "a"), s.conj_l(value)), s.conj_r(value))
    last = s.assume(LAST % "R")
    last = s.conj_i(s.conj_l(last), s.choose("a", s.conj_r(last), s.ex_i(VALUE % "S", "a", value)))
    last = s.ex_i("?i p. " + LAST % "S", "i", s.ex_i("?p. " + LAST % "S", "p", last))
    last = s.open("i", "?i p. " + LAST % "R", s.open("p", "?p. " + LAST % "R", last))
    start = s.disj_l(s.assume(START), "?i p. " + LAST % "S")
    either = s.disj_e(s.assume(GRAPH % "R"), start, s.disj_r(START, last))
    monotone = s.gen("n b", s.disch(GRAPH % "R", either))
    return s.gen("z f c", s.mp(fixed, s.gen("R S", s.disch(larger.concl, monotone))))


VARIABLES = "z a b:'a, f:'b -> num -> 'a -> 'a, c:'b -> num -> num, G:num -> 'a -> bool, n p q:num, i j:'b"
EQUATION = "!n b. G n b = (%s)" % GRAPH % "G"
NEVER_ZERO = "!i p. ~ (c i p = 0)"
INJECTIVE = r"!i p j q. c i p = c j q ==> i = j /\ p = q"
AT_ZERO = "!b. G 0 b = (b = z)"
AT_STEP = r"!i p b. G (c i p) b = (%s)" % VALUE % "G"
INDUCTION = "!P. P 0 ==> ((!i p. P p ==> P (c i p)) ==> (!n. P n))"


@fact(
    r"!x0:'a. !x1:'b -> num -> 'a -> 'a. !x2:'b -> num -> num. !x3:num -> 'a -> bool. (!x4:num. !x5:'a. x3 x4 x5 = (((x4 = 0) /\ "
    r"(x5 = x0)) \/ (?x6:'b. ?x7:num. (x4 = x2 x6 x7) /\ (?x8:'a. x3 x7 x8 /\ (x5 = x1 x6 x7 x8))))) ==> ((!x4:'b. !x5:num. ~ (x2 "
    "x4 x5 = 0)) ==> (!x4:'a. x3 0 x4 = (x4 = x0)))",
    "Where no step gives zero, such a relation has the start alone at zero.",
)
def graph_at_zero(s):
    s.fix(VARIABLES)
    s.let("n", "0")
    equation, never_zero = s.assume(EQUATION), s.assume(NEVER_ZERO)
    last = s.sym(s.conj_l(s.assume(LAST % "G")))
    never = s.anything("b = z", s.absurd(s.spec(never_zero, "i", "p"), last))
    never = s.open("i", "?i p. " + LAST % "G", s.open("p", "?p. " + LAST % "G", never))
    there = s.disj_e(s.assume(GRAPH % "G"), s.conj_r(s.assume(START)), never)
    back = s.disj_l(s.conj_i(s.refl("n"), s.assume("b = z")), "?i p. " + LAST % "G")
    value = s.gen("b", s.trans(s.spec(equation, "n", "b"), s.iff(there, back)))
    return s.gen("z f c G", s.disch(equation.concl, s.disch(never_zero.concl, value)))


@fact(
    r"!x0:'a -> 'b -> 'c. (!x1:'a. !x2:'b. !x3:'a. !x4:'b. (x0 x1 x2 = x0 x3 x4) ==> ((x1 = x3) /\ (x2 = x4))) ==> (!x1:'a -> 'b -> "
    r"bool. !x2:'a. !x3:'b. (?x4:'a. ?x5:'b. (x0 x2 x3 = x0 x4 x5) /\ x1 x4 x5) = x1 x2 x3)",
    "One-point rule: there are arguments of P at which an injective function has its value at i and p where P holds of i and p.",
)
def one_point_of_two(s):
    s.fix("c:'a -> 'b -> 'c, P:'a -> 'b -> bool, i j:'a, p q:'b")
    injective = s.assume(INJECTIVE)
    other = s.assume(r"c i p = c j q /\ P j q")
    same = s.mp(s.spec(injective, "i", "p", "j", "q"), s.conj_l(other))
    there = s.rewrite(s.conj_r(other), s.sym(s.conj_l(same)), s.sym(s.conj_r(same)))
    there = s.open("j", r"?j q. c i p = c j q /\ P j q", s.open("q", r"?q. c i p = c j q /\ P j q", there))
    back = s.conj_i(s.refl("c i p"), s.assume("P i p"))
    back = s.ex_i(r"?j q. c i p = c j q /\ P j q", "i", s.ex_i(r"?q. c i p = c i q /\ P i q", "p", back))
    return s.gen("c", s.disch(injective.concl, s.gen("P i p", s.iff(there, back))))


@fact(
    r"!x0:'a. !x1:'b -> num -> 'a -> 'a. !x2:'b -> num -> num. !x3:num -> 'a -> bool. (!x4:num. !x5:'a. x3 x4 x5 = (((x4 = 0) /\ "
    r"(x5 = x0)) \/ (?x6:'b. ?x7:num. (x4 = x2 x6 x7) /\ (?x8:'a. x3 x7 x8 /\ (x5 = x1 x6 x7 x8))))) ==> ((!x4:'b. !x5:num. ~ (x2 "
    r"x4 x5 = 0)) ==> ((!x4:'b. !x5:num. !x6:'b. !x7:num. (x2 x4 x5 = x2 x6 x7) ==> ((x4 = x6) /\ (x5 = x7))) ==> (!x4:'b. !x5:num. "
    r"!x6:'a. x3 (x2 x4 x5) x6 = (?x7:'a. x3 x5 x7 /\ (x6 = x1 x4 x5 x7)))))",
    "Where steps are also injective, it has at a step what the function makes of the values before it.",
)
def graph_at_step(s):
    s.fix(VARIABLES)
    s.let("n", "c i p")
    equation, never_zero, injective = s.assume(EQUATION), s.assume(NEVER_ZERO), s.assume(INJECTIVE)
    one_point = s.spec(s.mp(s.by("OnePointOfTwo", "c"), injective), r"\i p. " + VALUE % "G", "i", "p")
    either = s.rewrite(s.spec(equation, "n", "b"), s.norm(one_point))
    never = s.absurd(s.spec(never_zero, "i", "p"), s.conj_l(s.assume(START)))
    value = s.assume(VALUE % "G")
    there = s.disj_e(s.assume(r"%s \/ (%s)" % (START, VALUE % "G")), s.anything(value.concl, never), value)
    value = s.gen("i p b", s.trans(either, s.iff(there, s.disj_r(START, value))))
    value = s.disch(never_zero.concl, s.disch(injective.concl, value))
    return s.gen("z f c G", s.disch(equation.concl, value))


LIBRARY.begin("th_num", "recursion", "recursion_facts", "recursion over numbers")


@fact(
    r"!x0:'a -> bool. !x1:'a. (!x2:'a. x0 x2 = (x2 = x1)) ==> (!x2:'a -> bool. (?x3:'a. x0 x3 /\ x2 x3) = x2 x1)",
    "One-point rule: where b alone satisfies P, there is one that satisfies P and Q where b satisfies Q.",
)
def only_one(s):
    s.fix("P Q:'a -> bool, a b:'a")
    only, both = s.assume("!a. P a = (a = b)"), s.assume(r"P a /\ Q a")
    same = s.eq_mp(s.spec(only, "a"), s.conj_l(both))
    there = s.open("a", r"?a. P a /\ Q a", s.rewrite(s.conj_r(both), same))
    here = s.back(s.spec(only, "b"), s.refl("b"))
    back = s.ex_i(r"?a. P a /\ Q a", "b", s.conj_i(here, s.assume("Q b")))
    return s.gen("P b", s.disch(only.concl, s.gen("Q", s.iff(there, back))))


@fact(
    "!x0:'a. !x1:'b -> num -> 'a -> 'a. !x2:'b -> num -> num. !x3:num -> 'a -> bool. (!x4:'a. x3 0 x4 = (x4 = x0)) ==> ((!x4:'b. "
    r"!x5:num. !x6:'a. x3 (x2 x4 x5) x6 = (?x7:'a. x3 x5 x7 /\ (x6 = x1 x4 x5 x7))) ==> ((!x4:num -> bool. x4 0 ==> ((!x5:'b. "
    "!x6:num. x4 x6 ==> x4 (x2 x5 x6)) ==> (!x5:num. x4 x5))) ==> (!x4:num. ?x5:'a. !x6:'a. x3 x4 x6 = (x6 = x5))))",
    "By induction along the steps, it has one value everywhere.",
)
def graph_values(s):
    """The one value at a step is what f makes of the one before it."""
    s.fix(VARIABLES)
    at_zero, at_step, induction = s.assume(AT_ZERO), s.assume(AT_STEP), s.assume(INDUCTION)
    by_induction = s.norm(s.spec(induction, r"\n. ?b. !a. G n a = (a = b)"))
    zero = s.ex_i("?b. !a. G 0 a = (a = b)", "z", at_zero)
    only = s.assume("!a. G p a = (a = b)")
    value = s.norm(s.spec(s.mp(s.by("OnlyOne", "G p", "b"), only), r"\b. a = f i p b"))
    value = s.gen("a", s.trans(s.spec(at_step, "i", "p", "a"), value))
    value = s.open("b", "?b. !a. G p a = (a = b)", s.ex_i("?b. !a. G (c i p) a = (a = b)", "f i p b", value))
    step = s.gen("i p", s.disch("?b. !a. G p a = (a = b)", value))
    values = s.disch(at_step.concl, s.disch(induction.concl, s.mp(by_induction, zero, step)))
    return s.gen("z f c G", s.disch(at_zero.concl, values))


@fact(
    "!x0:'a. !x1:'b -> num -> 'a -> 'a. !x2:'b -> num -> num. !x3:num -> 'a -> bool. (!x4:'a. x3 0 x4 = (x4 = x0)) ==> ((!x4:'b. "
    r"!x5:num. !x6:'a. x3 (x2 x4 x5) x6 = (?x7:'a. x3 x5 x7 /\ (x6 = x1 x4 x5 x7))) ==> ((!x4:num. ?x5:'a. !x6:'a. x3 x4 x6 = (x6 = "
    r"x5)) ==> (?x4:num -> 'a. (x4 0 = x0) /\ (!x5:'b. !x6:num. x4 (x2 x5 x6) = x1 x5 x6 (x4 x6)))))",
    "The function of these values satisfies the equations of recursion.",
)
def graph_function(s):
    """Choice gives the function h of the values; the equations of the graph at `h n` are those of recursion."""
    s.fix(VARIABLES + ", h:num -> 'a")
    at_zero, at_step, values = s.assume(AT_ZERO), s.assume(AT_STEP), s.assume("!n. ?b. !a. G n a = (a = b)")
    function = s.mp(s.norm(s.by("Choice", r"\n b. !a. G n a = (a = b)")), values)
    graph = s.assume("!n a. G n a = (a = h n)")
    value = s.back(s.spec(graph, "n", "h n"), s.refl("h n"))
    zero = s.eq_mp(s.spec(at_zero, "h 0"), s.inst(value, n="0"))
    only = s.spec(s.mp(s.by("OnlyOne", "G p", "h p"), s.spec(graph, "p")), r"\a. h (c i p) = f i p a")
    step = s.eq_mp(s.spec(at_step, "i", "p", "h (c i p)"), s.inst(value, n="c i p"))
    step = s.gen("i p", s.eq_mp(s.norm(only), step))
    recursion = s.ex_i(r"?h. h 0 = z /\ (!i p. h (c i p) = f i p (h p))", "h", s.conj_i(zero, step))
    recursion = s.disch(values.concl, s.choose("h", function, recursion))
    return s.gen("z f c G", s.disch(at_zero.concl, s.disch(at_step.concl, recursion)))


@fact(
    "!x0:'a. !x1:'b -> num -> 'a -> 'a. !x2:'b -> num -> num. !x3:num -> 'a -> bool. (!x4:'a. x3 0 x4 = (x4 = x0)) ==> ((!x4:'b. "
    r"!x5:num. !x6:'a. x3 (x2 x4 x5) x6 = (?x7:'a. x3 x5 x7 /\ (x6 = x1 x4 x5 x7))) ==> ((!x4:num -> bool. x4 0 ==> ((!x5:'b. "
    r"!x6:num. x4 x6 ==> x4 (x2 x5 x6)) ==> (!x5:num. x4 x5))) ==> (?x4:num -> 'a. (x4 0 = x0) /\ (!x5:'b. !x6:num. x4 (x2 x5 x6) = "
    "x1 x5 x6 (x4 x6)))))",
    "By induction along the steps, a relation with both equations of the graph gives a function of recursion.",
)
def recursion_from_graph(s):
    s.fix(VARIABLES)
    at_zero, at_step, induction = s.assume(AT_ZERO), s.assume(AT_STEP), s.assume(INDUCTION)
    values = s.mp(s.by("GraphValues", "z", "f", "c", "G"), at_zero, at_step, induction)
    recursion = s.mp(s.by("GraphFunction", "z", "f", "c", "G"), at_zero, at_step, values)
    recursion = s.disch(at_step.concl, s.disch(induction.concl, recursion))
    return s.gen("z f c G", s.disch(at_zero.concl, recursion))


@fact(
    "!x0:'b -> num -> num. (!x1:'b. !x2:num. ~ (x0 x1 x2 = 0)) ==> ((!x1:'b. !x2:num. !x3:'b. !x4:num. (x0 x1 x2 = x0 x3 x4) ==> "
    r"((x1 = x3) /\ (x2 = x4))) ==> ((!x1:num -> bool. x1 0 ==> ((!x2:'b. !x3:num. x1 x3 ==> x1 (x0 x2 x3)) ==> (!x2:num. x1 x2))) "
    r"==> (!x1:'a. !x2:'b -> num -> 'a -> 'a. ?x3:num -> 'a. (x3 0 = x1) /\ (!x4:'b. !x5:num. x3 (x0 x4 x5) = x2 x4 x5 (x3 x5)))))",
    "Recursion along steps that are injective, never zero, and reach each number.",
)
def recursion(s):
    s.fix(VARIABLES)
    never_zero, injective, induction = s.assume(NEVER_ZERO), s.assume(INJECTIVE), s.assume(INDUCTION)
    equation = s.assume(EQUATION)
    at_zero = s.mp(s.by("GraphAtZero", "z", "f", "c", "G"), equation, never_zero)
    at_step = s.mp(s.by("GraphAtStep", "z", "f", "c", "G"), equation, never_zero, injective)
    function = s.mp(s.by("RecursionFromGraph", "z", "f", "c", "G"), at_zero, at_step, induction)
    function = s.gen("z f", s.choose("G", s.by("RecursionGraph", "z", "f", "c"), function))
    function = s.disch(injective.concl, s.disch(induction.concl, function))
    return s.gen("c", s.disch(never_zero.concl, function))


@fact(
    r"!x0:'a. !x1:num -> 'a -> 'a. ?x2:num -> 'a. (x2 0 = x0) /\ (!x3:num. x2 (suc x3) = x1 x3 (x2 x3))",
    "Recursion over numbers: there is a function with these two equations.",
)
def num_recursion(s):
    """Recursion along the successor, the step for the one element of unit."""
    s.fix("z:'a, f:num -> 'a -> 'a, h:num -> 'a, P:num -> bool, i j:unit, p q:num")
    recursion = s.norm(s.by("Recursion", r"\i:unit. suc"))
    never_zero = s.gen("i", s.by("SucNotZero"))
    equal = s.assume("suc p = suc q")
    injective = s.conj_i(s.by("UnitEqual", "i", "j"), s.mp(s.by("SucInjective", "p", "q"), equal))
    injective = s.gen("i p j q", s.disch(equal.concl, injective))
    zero, step = s.assume("P 0"), s.assume("!i:unit. !p. P p ==> P (suc p)")
    induction = s.mp(s.by("NumInduction", "P"), zero, s.spec(step, "one"))
    induction = s.gen("P", s.disch(zero.concl, s.disch(step.concl, induction)))
    function = s.mp(recursion, never_zero, injective, induction)
    function = s.norm(s.spec(function, "z", r"\i:unit. f"))
    both = s.assume(r"h 0 = z /\ (!i:unit. !p. h (suc p) = f p (h p))")
    both = s.conj_i(s.conj_l(both), s.spec(s.conj_r(both), "one"))
    both = s.ex_i(r"?h. h 0 = z /\ (!n. h (suc n) = f n (h n))", "h", both)
    return s.gen("z f", s.choose("h", function, both))


LIBRARY.define(40)


@fact(
    r"!x0:'a. !x1:num -> 'a -> 'a. (num.rec{'a} x0 x1 0 = x0) /\ (!x2:num. num.rec{'a} x0 x1 (suc x2) = x1 x2 (num.rec{'a} x0 x1 "
    "x2))",
    "The recursor satisfies both equations.",
)
def rec_equations(s):
    s.fix("z:'a, f:num -> 'a -> 'a")
    chosen = s.norm(s.by("SomeHolds", r"\h. h 0 = z /\ (!n. h (suc n) = f n (h n))"))
    both = s.mp(chosen, s.by("NumRecursion", "z", "f"))
    return s.gen("z f", s.rewrite(both, s.sym(s.unfold("num.rec z f"))))


@fact("!x0:'a. !x1:num -> 'a -> 'a. num.rec{'a} x0 x1 0 = x0", "The recursor at zero.")
def rec_zero(s):
    s.fix("z:'a, f:num -> 'a -> 'a")
    return s.gen("z f", s.conj_l(s.by("RecEquations", "z", "f")))


@fact("!x0:'a. !x1:num -> 'a -> 'a. !x2:num. num.rec{'a} x0 x1 (suc x2) = x1 x2 (num.rec{'a} x0 x1 x2)", "The recursor at a successor.")
def rec_suc(s):
    s.fix("z:'a, f:num -> 'a -> 'a")
    return s.gen("z f", s.conj_r(s.by("RecEquations", "z", "f")))


LIBRARY.begin("th_num", "order", "order_facts", "the order of numbers")


LIBRARY.define(41)


@fact("!x0:num. num.le x0 x0", "A number is at most itself.")
def le_reflexive(s):
    s.fix("m:num, P:num -> bool")
    closed = s.assume(r"P m /\ (!k. P k ==> P (suc k))")
    return s.gen("m", s.back(s.unfold("num.le m m"), s.gen("P", s.disch(closed.concl, s.conj_l(closed)))))


@fact("!x0:num. !x1:num. num.le x0 x1 ==> num.le x0 (suc x1)", "What is at most a number is at most its successor.")
def le_suc(s):
    s.fix("m n:num, P:num -> bool")
    below = s.assume("num.le m n")
    closed = s.assume(r"P m /\ (!k. P k ==> P (suc k))")
    means = s.unfold("num.le m n")
    here = s.mp(s.spec(s.eq_mp(means, below), "P"), closed)
    there = s.gen("P", s.disch(closed.concl, s.mp(s.spec(s.conj_r(closed), "n"), here)))
    return s.gen("m n", s.disch(below.concl, s.back(s.inst(means, n="suc n"), there)))


@fact(
    "!x0:num -> bool. !x1:num. !x2:num. x0 x1 ==> ((!x3:num. x0 x3 ==> x0 (suc x3)) ==> (num.le x1 x2 ==> x0 x2))",
    "Induction from a number upwards.",
)
def le_induction(s):
    s.fix("m n:num, P:num -> bool")
    start, step, below = s.assume("P m"), s.assume("!k. P k ==> P (suc k)"), s.assume("num.le m n")
    reached = s.spec(s.eq_mp(s.unfold("num.le m n"), below), "P")
    there = s.disch(below.concl, s.mp(reached, s.conj_i(start, step)))
    return s.gen("P m n", s.disch(start.concl, s.disch(step.concl, there)))


@fact("!x0:num. !x1:num. !x2:num. num.le x0 x1 ==> (num.le x1 x2 ==> num.le x0 x2)", "The order is transitive.")
def le_transitive(s):
    s.fix("k m n:num")
    start = s.assume("num.le k m")
    above = s.mp(s.by("LeInduction", "num.le k", "m", "n"), start, s.by("LeSuc", "k"))
    return s.gen("k m n", s.disch(start.concl, above))


@fact("!x0:num. !x1:num. num.le x0 x1 ==> num.le (suc x0) (suc x1)", "Successors keep the order.")
def le_suc_suc(s):
    s.fix("k m n:num")
    induction = s.norm(s.by("LeInduction", r"\k. num.le (suc m) (suc k)", "m", "n"))
    step = s.gen("k", s.by("LeSuc", "suc m", "suc k"))
    return s.gen("m n", s.mp(induction, s.by("LeReflexive", "suc m"), step))


@fact(r"!x0:num. !x1:num. num.le x0 x1 ==> ((x0 = x1) \/ num.le (suc x0) x1)", "What is at most a number is that number or below it.")
def le_cases(s):
    s.fix("k m n:num")
    induction = s.norm(s.by("LeInduction", r"\k. m = k \/ num.le (suc m) k", "m", "n"))
    start = s.disj_l(s.refl("m"), "num.le (suc m) m")
    same = s.subst("n", "num.le (suc m) (suc n)", s.assume("m = k"), s.by("LeReflexive", "suc m"))
    below = s.mp(s.by("LeSuc", "suc m", "k"), s.assume("num.le (suc m) k"))
    either = s.assume(r"m = k \/ num.le (suc m) k")
    step = s.disch(either.concl, s.disj_r("m = suc k", s.disj_e(either, same, below)))
    return s.gen("m n", s.mp(induction, start, s.gen("k", step)))


@fact("!x0:num. ~ num.le (suc x0) 0", "Nothing is below zero.")
def none_below_zero(s):
    s.fix("k n:num")
    induction = s.norm(s.by("LeInduction", r"\k. ~ (k = 0)", "suc n", "0"))
    step = s.gen("k", s.disch("~ (k = 0)", s.by("SucNotZero", "k")))
    below = s.assume("num.le (suc n) 0")
    never = s.mp(induction, s.by("SucNotZero", "n"), step, below)
    return s.gen("n", s.deny(below.concl, s.absurd(never, s.refl("0"))))


@fact("!x0:num. !x1:num. num.le (suc x0) (suc x1) ==> num.le x0 x1", "The order of successors is that of the numbers.")
def le_of_sucs(s):
    """By induction from suc m upwards: each number is the successor of one that m is at most."""
    s.fix("j k m n:num")
    induction = s.norm(s.by("LeInduction", r"\k. ?j. k = suc j /\ num.le m j", "suc m", "suc n"))
    start = s.conj_i(s.refl("suc m"), s.by("LeReflexive", "m"))
    start = s.ex_i(r"?j. suc m = suc j /\ num.le m j", "m", start)
    here = s.assume(r"k = suc j /\ num.le m j")
    step = s.rewrite(s.mp(s.by("LeSuc", "m", "j"), s.conj_r(here)), s.sym(s.conj_l(here)))
    step = s.ex_i(r"?j. suc k = suc j /\ num.le m j", "k", s.conj_i(s.refl("suc k"), step))
    step = s.open("j", r"?j. k = suc j /\ num.le m j", step)
    step = s.gen("k", s.disch(r"?j. k = suc j /\ num.le m j", step))
    below = s.assume("num.le (suc m) (suc n)")
    found = s.mp(induction, start, step, below)
    here = s.assume(r"suc n = suc j /\ num.le m j")
    same = s.mp(s.by("SucInjective", "n", "j"), s.conj_l(here))
    result = s.choose("j", found, s.rewrite(s.conj_r(here), s.sym(same)))
    return s.gen("m n", s.disch(below.concl, result))


@fact(
    "!x0:num -> bool. (!x1:num. (!x2:num. num.le (suc x2) x1 ==> x0 x2) ==> x0 x1) ==> (!x1:num. x0 x1)",
    "Induction over smaller numbers.",
)
def strong_induction(s):
    """By induction over n, P holds of all numbers below n."""
    s.fix("P:num -> bool, m n:num")
    progress = s.assume("!n. (!m. num.le (suc m) n ==> P m) ==> P n")
    induction = s.norm(s.by("NumInduction", r"\n. !m. num.le (suc m) n ==> P m"))
    never = s.anything("P m", s.absurd(s.by("NoneBelowZero", "m"), s.assume("num.le (suc m) 0")))
    zero = s.gen("m", s.disch("num.le (suc m) 0", never))
    smaller = s.assume("!m. num.le (suc m) n ==> P m")
    at_n = s.mp(s.spec(progress, "n"), smaller)
    below = s.assume("num.le (suc m) (suc n)")
    cases = s.mp(s.by("LeCases", "m", "n"), s.mp(s.by("LeOfSucs", "m", "n"), below))
    last = s.rewrite(at_n, s.sym(s.assume("m = n")))
    other = s.mp(s.spec(smaller, "m"), s.assume("num.le (suc m) n"))
    step = s.gen("m", s.disch(below.concl, s.disj_e(cases, last, other)))
    all_smaller = s.mp(induction, zero, s.gen("n", s.disch(smaller.concl, step)))
    holds = s.gen("n", s.mp(s.spec(progress, "n"), s.spec(all_smaller, "n")))
    return s.gen("P", s.disch(progress.concl, holds))
