"""Doubling and path codes."""

from .build import LIBRARY

LIBRARY.begin("th_num", "doubling", "doubling_facts", "doubling")

fact = LIBRARY.fact


LIBRARY.define(42)

TWO_MORE = r"\n:num r. suc (suc r)"


@fact("num.dbl 0 = 0", "Twice zero.")
def double_zero(s):
    return s.rewrite(s.by("RecZero", "0", TWO_MORE), s.sym(s.definition("num.dbl")))


@fact("!x0:num. num.dbl (suc x0) = suc (suc (num.dbl x0))", "Twice a successor.")
def double_suc(s):
    return s.rewrite(s.norm(s.by("RecSuc", "0", TWO_MORE)), s.sym(s.definition("num.dbl")))


VALUES = r"!n. r (num.dbl n) = (\f g. f n) /\ r (suc (num.dbl n)) = (\f g. g n)"


@fact(
    r"?x0:num -> (num -> 'a) -> (num -> 'a) -> 'a. !x1:num. (x0 (num.dbl x1) = (\x2:num -> 'a. \x3:num -> 'a. x2 x1)) /\ (x0 (suc "
    r"(num.dbl x1)) = (\x2:num -> 'a. \x3:num -> 'a. x3 x1))",
    "A function that gives the first of two functions of n at twice n, and the second at the number after it.",
)
def even_odd_selector(s):
    """`r 0 f g` is f 0, and `r (suc n) f g` is `r n g f'`, where f' is f after the successor. So two steps go from f
    and g to f' and g', and twice n steps to the value of f at n."""
    s.fix("n:num, r:num -> (num -> 'a) -> (num -> 'a) -> 'a")
    step = r"\n:num. \r:(num -> 'a) -> (num -> 'a) -> 'a. \f g. r g (\x. f (suc x))"
    recursion = s.norm(s.by("NumRecursion", r"\f:num -> 'a. \g:num -> 'a. f 0", step))
    both = s.assume(r"r 0 = (\f g. f 0) /\ (!n. r (suc n) = (\f g. r n g (\x. f (suc x))))")

    def after(n, value):
        return s.norm(s.rewrite(s.spec(s.conj_r(both), n), value))

    p = r"r (num.dbl n) = (\f g. f n)"
    zero = s.subst("n", r"r n = (\f g. f 0)", s.sym(s.by("DoubleZero")), s.conj_l(both))
    suc = after("suc (num.dbl n)", after("num.dbl n", s.assume(p)))
    suc = s.rewrite(suc, s.sym(s.by("DoubleSuc", "n")))
    even = s.spec(s.induction("n", p, zero, suc), "n")
    values = s.gen("n", s.conj_i(even, after("num.dbl n", even)))
    selector = s.ex_i("?r:num -> (num -> 'a) -> (num -> 'a) -> 'a. " + VALUES, "r", values)
    return s.choose("r", recursion, selector)


@fact("!x0:num. !x1:num. ~ (num.dbl x0 = suc (num.dbl x1))", "An even number is not odd.")
def double_not_odd(s):
    """A selector between constant functions to T and F tells even from odd."""
    s.fix("m n:num, r:num -> (num -> bool) -> (num -> bool) -> bool")
    values = s.assume(VALUES)
    equal = s.assume("num.dbl m = suc (num.dbl n)")
    even = s.rewrite(s.conj_l(s.spec(values, "m")), equal)
    same = s.rewrite(s.conj_r(s.spec(values, "n")), even)
    same = s.norm(s.to(s.to(same, r"\x:num. T"), r"\x:num. F"))
    falsity = s.eq_mp(same, s.by("Truth"))
    falsity = s.choose("r", s.inst_type(s.by("EvenOddSelector"), a="bool"), falsity)
    return s.gen("m n", s.deny(equal.concl, falsity))


@fact("!x0:num. !x1:num. (num.dbl x0 = num.dbl x1) ==> (x0 = x1)", "Numbers of which the doubles are equal are equal.")
def double_injective(s):
    """A selector of the identity at even numbers halves them."""
    s.fix("m n:num, r:num -> (num -> num) -> (num -> num) -> num")
    values = s.assume(VALUES)
    equal = s.assume("num.dbl m = num.dbl n")
    first = s.rewrite(s.conj_l(s.spec(values, "m")), equal)
    same = s.rewrite(s.conj_l(s.spec(values, "n")), first)
    same = s.norm(s.to(s.to(same, r"\x:num. x"), r"\x:num. x"))
    same = s.choose("r", s.inst_type(s.by("EvenOddSelector"), a="num"), same)
    return s.gen("m n", s.disch(equal.concl, same))


@fact("!x0:num. (num.dbl x0 = 0) ==> (x0 = 0)", "Twice zero alone is zero.")
def double_is_zero(s):
    s.fix("n:num")
    zero = s.assume("num.dbl n = 0")
    same = s.mp(s.by("DoubleInjective", "n", "0"), s.trans(zero, s.sym(s.by("DoubleZero"))))
    return s.gen("n", s.disch(zero.concl, same))


@fact("!x0:num. num.le x0 (num.dbl x0)", "A number is at most its double.")
def le_double(s):
    s.fix("n:num")
    zero = s.subst("n", "num.le n (num.dbl 0)", s.by("DoubleZero"), s.by("LeReflexive", "num.dbl 0"))
    suc = s.mp(s.by("LeSucSuc", "n", "num.dbl n"), s.assume("num.le n (num.dbl n)"))
    suc = s.mp(s.by("LeSuc", "suc n", "suc (num.dbl n)"), suc)
    suc = s.rewrite(suc, s.sym(s.by("DoubleSuc", "n")))
    return s.induction("n", "num.le n (num.dbl n)", zero, suc)


@fact(r"!x0:num. (x0 = 0) \/ num.le (suc x0) (num.dbl x0)", "A number is zero or below its double.")
def below_double(s):
    s.fix("n:num")
    zero = s.disj_l(s.refl("0"), "num.le (suc 0) (num.dbl 0)")
    suc = s.mp(s.by("LeSucSuc", "n", "num.dbl n"), s.by("LeDouble", "n"))
    suc = s.mp(s.by("LeSucSuc", "suc n", "suc (num.dbl n)"), suc)
    suc = s.disj_r("suc n = 0", s.rewrite(suc, s.sym(s.by("DoubleSuc", "n"))))
    return s.induction("n", r"n = 0 \/ num.le (suc n) (num.dbl n)", zero, suc)


@fact(r"!x0:num. ?x1:num. (x0 = num.dbl x1) \/ (x0 = suc (num.dbl x1))", "A number is even or odd.")
def even_or_odd(s):
    s.fix("m n:num")
    p = r"?m. n = num.dbl m \/ n = suc (num.dbl m)"
    later = r"?m. suc n = num.dbl m \/ suc n = suc (num.dbl m)"
    zero = s.disj_l(s.sym(s.by("DoubleZero")), "0 = suc (num.dbl 0)")
    zero = s.ex_i(r"?m. 0 = num.dbl m \/ 0 = suc (num.dbl m)", "0", zero)
    even = s.of("suc", s.assume("n = num.dbl m"))
    even = s.ex_i(later, "m", s.disj_r("suc n = num.dbl m", even))
    odd = s.of("suc", s.assume("n = suc (num.dbl m)"))
    odd = s.trans(odd, s.sym(s.by("DoubleSuc", "m")))
    odd = s.ex_i(later, "suc m", s.disj_l(odd, "suc n = suc (num.dbl (suc m))"))
    either = s.disj_e(s.assume(r"n = num.dbl m \/ n = suc (num.dbl m)"), even, odd)
    return s.induction("n", p, zero, s.open("m", p, either))


LIBRARY.begin("th_num", "paths", "path_facts", "path codes")


LIBRARY.define(43)

DOUBLED = r"\n:num r. num.dbl r"


@fact("!x0:num. num.cons 0 x0 = suc (num.dbl x0)", "The path code of a step 0.")
def cons_zero(s):
    s.fix("p:num")
    value = s.by("RecZero", "suc (num.dbl p)", DOUBLED)
    return s.gen("p", s.trans(s.unfold("num.cons 0 p"), value))


@fact("!x0:num. !x1:num. num.cons (suc x0) x1 = num.dbl (num.cons x0 x1)", "The path code of a step that is a successor.")
def cons_suc(s):
    s.fix("i p:num")
    value = s.norm(s.by("RecSuc", "suc (num.dbl p)", DOUBLED, "i"))
    meaning = s.rewrite_all("num.cons (suc i) p = num.dbl (num.cons i p)", s.definition("num.cons"))
    return s.gen("i p", s.back(s.norm(meaning), value))


@fact("!x0:num. !x1:num. num.le (suc x1) (num.cons x0 x1)", "The rest of a path has a smaller code than the path.")
def below_cons(s):
    s.fix("i p:num")
    p = "!p. num.le (suc p) (num.cons i p)"
    zero = s.mp(s.by("LeSucSuc", "p", "num.dbl p"), s.by("LeDouble", "p"))
    zero = s.gen("p", s.rewrite(zero, s.sym(s.by("ConsZero", "p"))))
    suc = s.by("LeTransitive", "suc p", "num.cons i p", "num.dbl (num.cons i p)")
    suc = s.mp(suc, s.spec(s.assume(p), "p"), s.by("LeDouble", "num.cons i p"))
    suc = s.gen("p", s.rewrite(suc, s.sym(s.by("ConsSuc", "i", "p"))))
    return s.induction("i", p, zero, suc)


@fact("!x0:num. !x1:num. ~ (num.cons x0 x1 = 0)", "The path code of a step is not zero, which is that of the empty path.")
def cons_not_zero(s):
    s.fix("i p:num")
    zero = s.assume("num.cons i p = 0")
    below = s.rewrite(s.by("BelowCons", "i", "p"), zero)
    return s.gen("i p", s.deny(zero.concl, s.absurd(s.by("NoneBelowZero", "p"), below)))


@fact(
    r"!x0:num. !x1:num. !x2:num. (num.cons x0 x1 = num.cons 0 x2) ==> ((x0 = 0) /\ (x1 = x2))",
    "A path code that is one of a step 0 has the step 0 and the same rest.",
)
def cons_step_zero(s):
    s.fix("i p q:num")
    equal = s.assume("num.cons 0 p = num.cons 0 q")
    same = s.rewrite(equal, s.by("ConsZero", "p"), s.by("ConsZero", "q"))
    same = s.mp(s.by("SucInjective", "num.dbl p", "num.dbl q"), same)
    same = s.mp(s.by("DoubleInjective", "p", "q"), same)
    zero = s.gen("p q", s.disch(equal.concl, s.conj_i(s.refl("0"), same)))
    equal = s.assume("num.cons (suc i) p = num.cons 0 q")
    differ = s.rewrite(equal, s.by("ConsSuc", "i", "p"), s.by("ConsZero", "q"))
    differ = s.absurd(s.by("DoubleNotOdd", "num.cons i p", "q"), differ)
    suc = s.gen("p q", s.disch(equal.concl, s.anything(r"suc i = 0 /\ p = q", differ)))
    return s.induction("i", r"!p q. num.cons i p = num.cons 0 q ==> i = 0 /\ p = q", zero, suc)


@fact(
    r"!x0:num. !x1:num. !x2:num. (num.cons 0 x0 = num.cons x1 x2) ==> ((0 = x1) /\ (x0 = x2))",
    "Where a path code of a step 0 is another code, the steps and the rests are equal.",
)
def cons_zero_injective(s):
    s.fix("p j q:num")
    equal = s.assume("num.cons 0 p = num.cons j q")
    parts = s.mp(s.by("ConsStepZero", "j", "q", "p"), s.sym(equal))
    parts = s.conj_i(s.sym(s.conj_l(parts)), s.sym(s.conj_r(parts)))
    return s.gen("p j q", s.disch(equal.concl, parts))


@fact(
    r"!x0:num. !x1:num. !x2:num. !x3:num. (num.cons x0 x1 = num.cons x2 x3) ==> ((x0 = x2) /\ (x1 = x3))",
    "Equal path codes have equal first steps and equal rests.",
)
def cons_injective(s):
    """By induction on i, and for its successor by cases on j."""
    s.fix("i p j q:num")
    injective = r"!p j q. num.cons i p = num.cons j q ==> i = j /\ p = q"
    zero = s.by("ConsStepZero", "suc i", "p")
    equal = s.assume("num.cons (suc i) p = num.cons (suc j) q")
    same = s.rewrite(equal, s.by("ConsSuc", "i", "p"), s.by("ConsSuc", "j", "q"))
    same = s.mp(s.by("DoubleInjective", "num.cons i p", "num.cons j q"), same)
    parts = s.mp(s.spec(s.assume(injective), "p", "j", "q"), same)
    parts = s.conj_i(s.of("suc", s.conj_l(parts)), s.conj_r(parts))
    suc = s.gen("q", s.disch(equal.concl, parts))
    suc = s.induction("j", r"!q. num.cons (suc i) p = num.cons j q ==> suc i = j /\ p = q", zero, suc)
    return s.induction("i", injective, s.by("ConsZeroInjective"), s.gen("p", suc))


@fact(
    "!x0:num. (?x1:num. ?x2:num. x0 = num.cons x1 x2) ==> (?x1:num. ?x2:num. num.dbl x0 = num.cons x1 x2)",
    "Twice the path code of a step is the path code of one.",
)
def double_is_code(s):
    s.fix("n i p:num")
    code = s.of("num.dbl", s.assume("n = num.cons i p"))
    code = s.trans(code, s.sym(s.by("ConsSuc", "i", "p")))
    code = s.ex_i("?p. num.dbl n = num.cons (suc i) p", "p", code)
    code = s.ex_i("?i p. num.dbl n = num.cons i p", "suc i", code)
    code = s.open("i", "?i p. n = num.cons i p", s.open("p", "?p. n = num.cons i p", code))
    return s.gen("n", s.disch("?i p. n = num.cons i p", code))


@fact(r"!x0:num. (x0 = 0) \/ (?x1:num. ?x2:num. x0 = num.cons x1 x2)", "Each number is a path code.")
def path_cases(s):
    s.fix("n m:num")
    rule = s.norm(s.by("StrongInduction", r"\n. n = 0 \/ (?i p. n = num.cons i p)"))
    smaller = s.assume(r"!m. num.le (suc m) n ==> m = 0 \/ (?i p. m = num.cons i p)")
    twice = s.assume("n = num.dbl m")
    zero = s.rewrite(twice, s.assume("m = 0"), s.by("DoubleZero"))
    zero = s.disj_l(zero, "?i p. n = num.cons i p")
    code = s.mp(s.by("DoubleIsCode", "m"), s.assume("?i p. m = num.cons i p"))
    code = s.disj_r("n = 0", s.rewrite(code, s.sym(twice)))
    half = s.mp(s.rewrite(s.spec(smaller, "m"), twice), s.assume("num.le (suc m) (num.dbl m)"))
    even = s.disj_e(s.by("BelowDouble", "m"), zero, s.disj_e(half, zero, code))
    odd = s.trans(s.assume("n = suc (num.dbl m)"), s.sym(s.by("ConsZero", "m")))
    odd = s.ex_i("?i p. n = num.cons i p", "0", s.ex_i("?p. n = num.cons 0 p", "m", odd))
    either = s.disj_e(s.assume(r"n = num.dbl m \/ n = suc (num.dbl m)"), even, s.disj_r("n = 0", odd))
    either = s.choose("m", s.by("EvenOrOdd", "n"), either)
    return s.mp(rule, s.gen("n", s.disch(smaller.concl, either)))


@fact(
    "!x0:num -> bool. x0 0 ==> ((!x1:num. !x2:num. x0 x2 ==> x0 (num.cons x1 x2)) ==> (!x1:num. x0 x1))",
    "Induction along path codes.",
)
def path_induction(s):
    s.fix("P:num -> bool, n i p:num")
    start, step = s.assume("P 0"), s.assume("!i p. P p ==> P (num.cons i p)")
    smaller = s.assume("!m. num.le (suc m) n ==> P m")
    zero = s.rewrite(start, s.sym(s.assume("n = 0")))
    code = s.assume("n = num.cons i p")
    rest = s.mp(s.rewrite(s.spec(smaller, "p"), code), s.by("BelowCons", "i", "p"))
    path = s.rewrite(s.mp(s.spec(step, "i", "p"), rest), s.sym(code))
    path = s.open("i", "?i p. n = num.cons i p", s.open("p", "?p. n = num.cons i p", path))
    holds = s.disj_e(s.by("PathCases", "n"), zero, path)
    holds = s.mp(s.by("StrongInduction", "P"), s.gen("n", s.disch(smaller.concl, holds)))
    return s.gen("P", s.disch("P 0", s.disch(step.concl, holds)))


@fact(
    r"!x0:'a. !x1:num -> num -> 'a -> 'a. ?x2:num -> 'a. (x2 0 = x0) /\ (!x3:num. !x4:num. x2 (num.cons x3 x4) = x1 x3 x4 (x2 x4))",
    "Recursion along path codes.",
)
def path_recursion(s):
    rule = s.by("Recursion", "num.cons")
    return s.mp(rule, s.by("ConsNotZero"), s.by("ConsInjective"), s.by("PathInduction"))
