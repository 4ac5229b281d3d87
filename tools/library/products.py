"""Unit and products."""

from .build import LIBRARY

LIBRARY.begin("th_base", "products", "product_facts", "unit and products")

fact = LIBRARY.fact
makes_type = LIBRARY.makes_type


@makes_type(13)
def unit_inhabited(s):
    """The truth value T represents an element of unit."""
    return s.eqt_e(s.beta_norm(r"(\b. b) T"))


@fact("!x0:unit. unit.abs (unit.rep x0) = x0", "An element of unit is the one that its representation stands for.")
def unit_abs_rep(s):
    s.fix("a:unit")
    return s.gen("a", s.type_abs("unit"))


@fact("!x0:bool. x0 = (unit.rep (unit.abs x0) = x0)", "A truth value represents an element of unit where it holds.")
def unit_rep_abs(s):
    s.fix("r:bool")
    return s.norm(s.gen("r", s.type_rep("unit")))


@fact("!x0:unit. !x1:unit. x0 = x1", "Unit has one element.")
def unit_equal(s):
    s.fix("u v:unit")
    same = s.by("UnitAbsRep", "u")
    true = s.eqt_i(s.back(s.by("UnitRepAbs", "unit.rep u"), s.of("unit.rep", same)))
    is_one = s.trans(s.sym(same), s.of("unit.abs", true))
    return s.gen("u v", s.trans(is_one, s.sym(s.inst(is_one, u="v"))))


LIBRARY.define(14, 15)


@makes_type(16)
def prod_inhabited(s):
    """The graph of a pair represents an element of the product."""
    s.fix("x:'a, y:'b")
    graph = s.ex_i("?w. prod.graph x y = prod.graph x w", "y", s.refl("prod.graph x y"))
    graph = s.ex_i("?z w. prod.graph x y = prod.graph z w", "x", graph)
    return s.back(s.beta_norm(r"(\r:'a -> 'b -> bool. ?z w. r = prod.graph z w) (prod.graph x y)"), graph)


@fact(
    "!x0:('a,'b) prod. prod.abs{'a,'b} (prod.rep{'a,'b} x0) = x0",
    "An element of a product is the one that its representation stands for.",
)
def prod_abs_rep(s):
    s.fix("a:('a,'b) prod")
    return s.gen("a", s.type_abs("prod"))


@fact(
    "!x0:'a -> 'b -> bool. (?x1:'a. ?x2:'b. x0 = prod.graph{'a,'b} x1 x2) = (prod.rep{'a,'b} (prod.abs{'a,'b} x0) = x0)",
    "A relation represents an element of a product where it is the graph of a pair.",
)
def prod_rep_abs(s):
    s.fix("r:'a -> 'b -> bool")
    return s.norm(s.gen("r", s.type_rep("prod")))


LIBRARY.define(17, 18, 19)


@fact("!x0:'a. !x1:'b. prod.rep{'a,'b} (pair{'a,'b} x0 x1) = prod.graph{'a,'b} x0 x1", "A pair is represented by its graph.")
def pair_rep(s):
    s.fix("x:'a, y:'b")
    graph = s.ex_i("?w. prod.graph x y = prod.graph x w", "y", s.refl("prod.graph x y"))
    graph = s.ex_i("?z w. prod.graph x y = prod.graph z w", "x", graph)
    represents = s.eq_mp(s.by("ProdRepAbs", "prod.graph x y"), graph)
    return s.gen("x y", s.trans(s.of("prod.rep", s.unfold("pair x y")), represents))


@fact(
    r"!x0:'a. !x1:'b. !x2:'a. !x3:'b. (pair{'a,'b} x0 x1 = pair{'a,'b} x2 x3) ==> ((x0 = x2) /\ (x1 = x3))",
    "Equal pairs have equal components.",
)
def pair_injective(s):
    s.fix("x z:'a, y w:'b")
    equal = s.assume("pair x y = pair z w")
    graph = s.rewrite(s.by("PairRep", "x", "y"), equal)
    graph = s.trans(s.sym(graph), s.by("PairRep", "z", "w"))
    values = s.expand(s.to(s.to(graph, "x"), "y"), "prod.graph")
    components = s.eq_mp(values, s.conj_i(s.refl("x"), s.refl("y")))
    return s.gen("x y z w", s.disch(equal.concl, components))


@fact("!x0:('a,'b) prod. ?x1:'a. ?x2:'b. x0 = pair{'a,'b} x1 x2", "Each element of a product is a pair.")
def pair_exhausts(s):
    s.fix("p:('a,'b) prod, x:'a, y:'b")
    same = s.by("ProdAbsRep", "p")
    graph = s.back(s.by("ProdRepAbs", "prod.rep p"), s.of("prod.rep", same))
    equal = s.of("prod.abs", s.assume("prod.rep p = prod.graph x y"))
    equal = s.trans(s.sym(same), equal, s.sym(s.unfold("pair x y")))
    pair = s.ex_i("?x y. p = pair x y", "x", s.ex_i("?y. p = pair x y", "y", equal))
    return s.gen("p", s.choose("x", graph, s.open("y", "?y. prod.rep p = prod.graph x y", pair)))


@fact("!x0:'a. !x1:'b. fst{'a,'b} (pair{'a,'b} x0 x1) = x0", "The first component of a pair.")
def fst_pair(s):
    s.fix("x a:'a, y b:'b")
    first = s.unfold("fst (pair x y)")
    choice = s.norm(s.by("UniqueChoice", r"\a. ?b. pair x y = pair a b", "x"))
    there = s.ex_i("?b. pair x y = pair x b", "y", s.refl("pair x y"))
    components = s.mp(s.by("PairInjective", "x", "y", "a", "b"), s.assume("pair x y = pair a b"))
    same = s.open("b", "?b. pair x y = pair a b", s.sym(s.conj_l(components)))
    only = s.gen("a", s.disch("?b. pair x y = pair a b", same))
    return s.gen("x y", s.trans(first, s.mp(s.mp(choice, there), only)))


@fact("!x0:'a. !x1:'b. snd{'a,'b} (pair{'a,'b} x0 x1) = x1", "The second component of a pair.")
def snd_pair(s):
    s.fix("x a:'a, y b:'b")
    second = s.unfold("snd (pair x y)")
    choice = s.norm(s.by("UniqueChoice", r"\b. ?a. pair x y = pair a b", "y"))
    there = s.ex_i("?a. pair x y = pair a y", "x", s.refl("pair x y"))
    components = s.mp(s.by("PairInjective", "x", "y", "a", "b"), s.assume("pair x y = pair a b"))
    same = s.open("a", "?a. pair x y = pair a b", s.sym(s.conj_r(components)))
    only = s.gen("b", s.disch("?a. pair x y = pair a b", same))
    return s.gen("x y", s.trans(second, s.mp(s.mp(choice, there), only)))


@fact("!x0:('a,'b) prod. pair{'a,'b} (fst{'a,'b} x0) (snd{'a,'b} x0) = x0", "An element of a product is the pair of its components.")
def pair_of_components(s):
    s.fix("p:('a,'b) prod, x:'a, y:'b")
    same = s.comb(s.of("pair{'a,'b}", s.by("FstPair", "x", "y")), s.by("SndPair", "x", "y"))
    same = s.rewrite(same, s.sym(s.assume("p = pair x y")))
    same = s.choose("x", s.by("PairExhausts", "p"), s.open("y", "?y. p = pair x y", same))
    return s.gen("p", same)


LIBRARY.define(20, 21, 22, 23)
