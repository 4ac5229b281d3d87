"""The type of countable sets, and its functor laws."""

from .build import LIBRARY

LIBRARY.begin("th_count", "csets", "cset_facts", "the type of countable sets")

fact = LIBRARY.fact
makes_type = LIBRARY.makes_type


@makes_type(45)
def cset_inhabited(s):
    """The empty set represents a countable set."""
    s.fix("k:'a -> num, x y:'a")
    injective = s.disch("F", s.anything("F ==> (k x = k y ==> x = y)", s.assume("F")))
    injection = s.ex_i("?k:'a -> num. !x y. F ==> (F ==> (k x = k y ==> x = y))", "k", s.gen("x y", injective))
    return s.back(s.unfold(r"countable (\x:'a. F)"), injection)


@fact("!x0:'a cset. cset.abs{'a} (cset.rep{'a} x0) = x0", "A countable set is the one that its representation stands for.")
def cset_abs_rep(s):
    s.fix("a:'a cset")
    return s.gen("a", s.type_abs("cset"))


@fact(
    "!x0:'a -> bool. countable{'a} x0 = (cset.rep{'a} (cset.abs{'a} x0) = x0)",
    "A predicate represents a countable set where it is countable.",
)
def cset_rep_abs(s):
    s.fix("r:'a -> bool")
    return s.gen("r", s.type_rep("cset"))


@fact("!x0:'a cset. countable{'a} (cset.rep{'a} x0)", "The members of a countable set are countable.")
def cset_countable(s):
    s.fix("c:'a cset")
    same = s.of("cset.rep", s.by("CsetAbsRep", "c"))
    return s.gen("c", s.back(s.by("CsetRepAbs", "cset.rep c"), same))


@fact(
    "!x0:'a cset. !x1:'a cset. (!x2:'a. cset.rep{'a} x0 x2 = cset.rep{'a} x1 x2) ==> (x0 = x1)",
    "Countable sets with the same members are equal.",
)
def cset_extensionality(s):
    s.fix("c d:'a cset")
    agree = s.assume("!x. cset.rep c x = cset.rep d x")
    same = s.of("cset.abs", s.mp(s.by("Extensionality", "cset.rep c", "cset.rep d"), agree))
    equal = s.trans(s.sym(s.by("CsetAbsRep", "c")), same, s.by("CsetAbsRep", "d"))
    return s.gen("c d", s.disch(agree.concl, equal))


@fact(
    "!x0:'a -> bool. countable{'a} x0 ==> (!x1:'a. cset.rep{'a} (cset.abs{'a} x0) x1 = x0 x1)",
    "The set of a countable predicate has the members of the predicate.",
)
def cset_member(s):
    s.fix("s:'a -> bool, x:'a")
    represents = s.eq_mp(s.by("CsetRepAbs", "s"), s.assume("countable s"))
    return s.gen("s", s.disch("countable s", s.gen("x", s.to(represents, "x"))))


LIBRARY.define(46, 47)


@fact(
    r"!x0:'a -> 'b. !x1:'a cset. !x2:'b. cset.rep{'b} (cset.map{'a,'b} x0 x1) x2 = (?x3:'a. cset.rep{'a} x1 x3 /\ (x2 = x0 x3))",
    "The members of an image.",
)
def cset_map_member(s):
    s.fix("f:'a -> 'b, c:'a cset, y:'b")
    countable = s.mp(s.by("CountableImage", "cset.rep c", "f"), s.by("CsetCountable", "c"))
    members = s.mp(s.by("CsetMember", r"\y. ?x. cset.rep c x /\ y = f x"), countable)
    member = s.norm(s.spec(members, "y"))
    return s.gen("f c y", s.rewrite(member, s.sym(s.unfold("cset.map f c"))))


@fact(
    r"!x0:'a -> 'b. !x1:'a cset. !x2:'b cset. (!x3:'b. (?x4:'a. cset.rep{'a} x1 x4 /\ (x3 = x0 x4)) = cset.rep{'b} x2 x3) ==> "
    "(cset.map{'a,'b} x0 x1 = x2)",
    "The image is the countable set of the values.",
)
def cset_map_is(s):
    s.fix("f:'a -> 'b, c:'a cset, d:'b cset, y:'b")
    values = s.assume(r"!y. (?x. cset.rep c x /\ y = f x) = cset.rep d y")
    agree = s.gen("y", s.trans(s.by("CsetMapMember", "f", "c", "y"), s.spec(values, "y")))
    equal = s.mp(s.by("CsetExtensionality", "cset.map f c", "d"), agree)
    return s.gen("f c d", s.disch(values.concl, equal))


@fact(
    r"!x0:'a -> 'b. !x1:'a cset. !x2:'b -> bool. (?x3:'b. cset.rep{'b} (cset.map{'a,'b} x0 x1) x3 /\ x2 x3) = (?x3:'a. cset.rep{'a} "
    r"x1 x3 /\ x2 (x0 x3))",
    "There is one of a kind in an image where there is one in the set whose value is of the kind.",
)
def cset_map_exists(s):
    s.fix("f:'a -> 'b, c:'a cset, P:'b -> bool, x:'a, y:'b")
    image = s.assume(r"cset.rep (cset.map f c) y /\ P y")
    value = s.assume(r"cset.rep c x /\ y = f x")
    argument = s.conj_i(s.conj_l(value), s.rewrite(s.conj_r(image), s.conj_r(value)))
    argument = s.ex_i(r"?x. cset.rep c x /\ P (f x)", "x", argument)
    values = s.eq_mp(s.by("CsetMapMember", "f", "c", "y"), s.conj_l(image))
    there = s.open("y", r"?y. cset.rep (cset.map f c) y /\ P y", s.choose("x", values, argument))
    argument = s.assume(r"cset.rep c x /\ P (f x)")
    value = s.conj_i(s.conj_l(argument), s.refl("f x"))
    value = s.ex_i(r"?z. cset.rep c z /\ f x = f z", "x", value)
    image = s.conj_i(s.back(s.by("CsetMapMember", "f", "c", "f x"), value), s.conj_r(argument))
    image = s.ex_i(r"?y. cset.rep (cset.map f c) y /\ P y", "f x", image)
    back = s.open("x", r"?x. cset.rep c x /\ P (f x)", image)
    return s.gen("f c P", s.iff(there, back))


@fact("!x0:'a cset. cset.map{'a,'a} id{'a} x0 = x0", "Functor law map_id of cset.")
def cset_map_id(s):
    s.fix("c:'a cset, x y:'a")
    value = s.assume(r"cset.rep c x /\ y = id x")
    equal = s.trans(s.conj_r(value), s.by("Identity", "x"))
    there = s.open("x", r"?x. cset.rep c x /\ y = id x", s.rewrite(s.conj_l(value), s.sym(equal)))
    value = s.conj_i(s.assume("cset.rep c y"), s.sym(s.by("Identity", "y")))
    back = s.ex_i(r"?x. cset.rep c x /\ y = id x", "y", value)
    values = s.gen("y", s.iff(there, back))
    return s.gen("c", s.mp(s.by("CsetMapIs", "id{'a}", "c", "c"), values))


@fact(
    r"!x0:'a -> 'b. !x1:'b -> 'c. !x2:'a cset. cset.map{'b,'c} x1 (cset.map{'a,'b} x0 x2) = cset.map{'a,'c} (\x3:'a. x1 (x0 x3)) x2",
    "Functor law map_comp of cset.",
)
def cset_map_comp(s):
    s.fix("f:'a -> 'b, g:'b -> 'c, c:'a cset, z:'c")
    through = s.norm(s.by("CsetMapExists", "f", "c", r"\y. z = g y"))
    member = s.norm(s.by("CsetMapMember", r"\x. g (f x)", "c", "z"))
    values = s.gen("z", s.trans(through, s.sym(member)))
    return s.gen("f g c", s.mp(s.by("CsetMapIs", "g", "cset.map f c", r"cset.map (\x. g (f x)) c"), values))


LIBRARY.define(48)


@fact("cset.set1{'a} = cset.rep{'a}", "The set function is the representation.")
def cset_set_is_rep(s):
    return s.trans(s.definition("cset.set1"), s.eta_conv(r"\c:'a cset. cset.rep c"))


@fact("!x0:'a cset. !x1:'a. cset.set1{'a} x0 x1 = cset.rep{'a} x0 x1", "The set function gives the members.")
def cset_set_member(s):
    s.fix("c:'a cset, x:'a")
    return s.gen("c x", s.unfold("cset.set1 c x"))


@fact(
    r"!x0:'a -> 'b. !x1:'a cset. !x2:'b. cset.set1{'b} (cset.map{'a,'b} x0 x1) x2 = (?x3:'a. cset.set1{'a} x1 x3 /\ (x2 = x0 x3))",
    "Functor law set1_map of cset.",
)
def cset_set_map(s):
    is_set = s.sym(s.by("CsetSetIsRep"))
    return s.rewrite(s.by("CsetMapMember"), is_set, s.inst_type(is_set, a="'b"))


@fact("!x0:'a cset. countable{'a} (cset.set1{'a} x0)", "Functor law set1_count of cset.")
def cset_set_count(s):
    return s.rewrite(s.by("CsetCountable"), s.sym(s.by("CsetSetIsRep")))


@fact(
    "!x0:'a -> 'b. !x1:'a -> 'b. !x2:'a cset. (!x3:'a. cset.set1{'a} x2 x3 ==> (x0 x3 = x1 x3)) ==> (cset.map{'a,'b} x0 x2 = "
    "cset.map{'a,'b} x1 x2)",
    "Functor law map_cong of cset.",
)
def cset_map_cong(s):
    s.fix("f g:'a -> 'b, c:'a cset, x:'a, y:'b")
    agree = s.assume("!z. cset.set1 c z ==> f z = g z")
    equal = s.spec(s.rewrite(agree, s.by("CsetSetIsRep")), "x")
    first, second = s.assume(r"cset.rep c x /\ y = f x"), s.assume(r"cset.rep c x /\ y = g x")
    there = s.rewrite(first, s.mp(equal, s.conj_l(first)))
    back = s.rewrite(second, s.sym(s.mp(equal, s.conj_l(second))))
    values = s.of("ex", s.abs("x", s.iff(there, back)))
    values = s.gen("y", s.trans(values, s.sym(s.by("CsetMapMember", "g", "c", "y"))))
    same = s.mp(s.by("CsetMapIs", "f", "c", "cset.map g c"), values)
    return s.gen("f g c", s.disch(agree.concl, same))


LIBRARY.begin("th_count", "relators", "relator_facts", "the relator of countable sets")


LIBRARY.define(49)


@fact(
    "!x0:'b -> 'c -> bool. !x1:'a -> 'b. !x2:'a -> 'c. !x3:'a cset. (!x4:'a. cset.rep{'a} x3 x4 ==> x0 (x1 x4) (x2 x4)) ==> "
    r"(!x4:'b. cset.rep{'b} (cset.map{'a,'b} x1 x3) x4 ==> (?x5:'c. cset.rep{'c} (cset.map{'a,'c} x2 x3) x5 /\ x0 x4 x5))",
    "Where two functions are related on a set, each member of the one image has a related member of the other.",
)
def cset_maps_relate_each(s):
    s.fix("r:'b -> 'c -> bool, f:'a -> 'b, g:'a -> 'c, w:'a cset, p:'a, x:'b")
    related = s.assume("!p. cset.rep w p ==> r (f p) (g p)")
    value = s.assume(r"cset.rep w p /\ x = f p")
    here = s.mp(s.spec(related, "p"), s.conj_l(value))
    here = s.conj_i(s.conj_l(value), s.rewrite(here, s.sym(s.conj_r(value))))
    here = s.ex_i(r"?p. cset.rep w p /\ r x (g p)", "p", here)
    image = s.assume("cset.rep (cset.map f w) x")
    here = s.choose("p", s.eq_mp(s.by("CsetMapMember", "f", "w", "x"), image), here)
    other = s.back(s.by("CsetMapExists", "g", "w", "r x"), here)
    return s.gen("r f g w", s.disch(related.concl, s.gen("x", s.disch(image.concl, other))))


@fact(
    "!x0:'b -> 'c -> bool. !x1:'a -> 'b. !x2:'a -> 'c. !x3:'a cset. (!x4:'a. cset.rep{'a} x3 x4 ==> x0 (x1 x4) (x2 x4)) ==> "
    "cset.rel{'b,'c} x0 (cset.map{'a,'b} x1 x3) (cset.map{'a,'c} x2 x3)",
    "Functions that are related on a set give related images.",
)
def cset_maps_related(s):
    s.fix("r:'b -> 'c -> bool, f:'a -> 'b, g:'a -> 'c, w:'a cset")
    related = s.assume("!p. cset.rep w p ==> r (f p) (g p)")
    there = s.mp(s.by("CsetMapsRelateEach", "r", "f", "g", "w"), related)
    back = s.mp(s.norm(s.by("CsetMapsRelateEach", r"\y x. r x y", "g", "f", "w")), related)
    images = s.back(s.unfold("cset.rel r (cset.map f w) (cset.map g w)"), s.conj_i(there, back))
    return s.gen("r f g w", s.disch(related.concl, images))


# p is a pair of a member of c and one of d that r relates.
PAIR = r"(cset.rep c (fst p) /\ cset.rep d (snd p)) /\ r (fst p) (snd p)"


@fact(
    r"!x0:'a -> 'b -> bool. !x1:'a cset. !x2:'b cset. ?x3:('a,'b) prod cset. cset.rep{('a,'b) prod} x3 = (\x4:('a,'b) prod. "
    r"(cset.rep{'a} x1 (fst{'a,'b} x4) /\ cset.rep{'b} x2 (snd{'a,'b} x4)) /\ x0 (fst{'a,'b} x4) (snd{'a,'b} x4))",
    "The related pairs of two countable sets are a countable set.",
)
def cset_related_pairs(s):
    s.fix("r:'a -> 'b -> bool, c:'a cset, d:'b cset, p:('a,'b) prod")
    s.let("pairs", r"\p. cset.rep c (fst p) /\ cset.rep d (snd p)")
    s.let("related", r"\p. " + PAIR)
    countable = s.by("CountableProduct", "cset.rep c", "cset.rep d")
    countable = s.mp(countable, s.by("CsetCountable", "c"), s.by("CsetCountable", "d"))
    countable = s.norm(s.mp(s.by("CountableSubset", "related", "pairs"), countable))
    pair = s.assume(PAIR)
    countable = s.mp(countable, s.gen("p", s.disch(pair.concl, s.conj_l(pair))))
    represents = s.eq_mp(s.by("CsetRepAbs", "related"), countable)
    return s.gen("r c d", s.ex_i("?w. cset.rep w = related", "cset.abs related", represents))


@fact(
    "!x0:'a -> 'b -> bool. !x1:'a cset. !x2:'b cset. cset.rel{'a,'b} x0 x1 x2 ==> (!x3:'a. (?x4:('a,'b) prod. ((cset.rep{'a} x1 "
    r"(fst{'a,'b} x4) /\ cset.rep{'b} x2 (snd{'a,'b} x4)) /\ x0 (fst{'a,'b} x4) (snd{'a,'b} x4)) /\ (x3 = fst{'a,'b} x4)) = "
    "cset.rep{'a} x1 x3)",
    "The first components of the related pairs of related sets are the members of the first set.",
)
def cset_rel_firsts(s):
    s.fix("r:'a -> 'b -> bool, c:'a cset, d:'b cset, p:('a,'b) prod, x v:'a, y w:'b")
    component = s.assume(r"(%s) /\ x = fst p" % PAIR)
    there = s.rewrite(s.conj_l(s.conj_l(s.conj_l(component))), s.sym(s.conj_r(component)))
    there = s.open("p", r"?p. (%s) /\ x = fst p" % PAIR, there)
    related = s.assume("cset.rel r c d")
    member, other = s.assume("cset.rep c x"), s.assume(r"cset.rep d y /\ r x y")
    pair = s.conj_i(s.conj_i(member, s.conj_l(other)), s.conj_r(other))
    first, second = s.sym(s.by("FstPair", "x", "y")), s.sym(s.by("SndPair", "x", "y"))
    pair = s.subst("w", r"(cset.rep c x /\ cset.rep d w) /\ r x w", second, pair)
    pair = s.subst("v", r"(cset.rep c v /\ cset.rep d (snd (pair x y))) /\ r v (snd (pair x y))", first, pair)
    pair = s.ex_i(r"?p. (%s) /\ x = fst p" % PAIR, "pair x y", s.conj_i(pair, first))
    each = s.conj_l(s.expand(related, "cset.rel"))
    back = s.choose("y", s.mp(s.spec(each, "x"), member), pair)
    return s.gen("r c d", s.disch(related.concl, s.gen("x", s.iff(there, back))))


@fact(
    "!x0:'a -> 'b -> bool. !x1:'a cset. !x2:'b cset. cset.rel{'a,'b} x0 x1 x2 ==> (!x3:'b. (?x4:('a,'b) prod. ((cset.rep{'a} x1 "
    r"(fst{'a,'b} x4) /\ cset.rep{'b} x2 (snd{'a,'b} x4)) /\ x0 (fst{'a,'b} x4) (snd{'a,'b} x4)) /\ (x3 = snd{'a,'b} x4)) = "
    "cset.rep{'b} x2 x3)",
    "The second components of the related pairs of related sets are the members of the second set.",
)
def cset_rel_seconds(s):
    s.fix("r:'a -> 'b -> bool, c:'a cset, d:'b cset, p:('a,'b) prod, x v:'a, y w:'b")
    component = s.assume(r"(%s) /\ y = snd p" % PAIR)
    there = s.rewrite(s.conj_r(s.conj_l(s.conj_l(component))), s.sym(s.conj_r(component)))
    there = s.open("p", r"?p. (%s) /\ y = snd p" % PAIR, there)
    related = s.assume("cset.rel r c d")
    member, other = s.assume("cset.rep d y"), s.assume(r"cset.rep c x /\ r x y")
    pair = s.conj_i(s.conj_i(s.conj_l(other), member), s.conj_r(other))
    first, second = s.sym(s.by("FstPair", "x", "y")), s.sym(s.by("SndPair", "x", "y"))
    pair = s.subst("w", r"(cset.rep c x /\ cset.rep d w) /\ r x w", second, pair)
    pair = s.subst("v", r"(cset.rep c v /\ cset.rep d (snd (pair x y))) /\ r v (snd (pair x y))", first, pair)
    pair = s.ex_i(r"?p. (%s) /\ y = snd p" % PAIR, "pair x y", s.conj_i(pair, second))
    each = s.conj_r(s.expand(related, "cset.rel"))
    back = s.choose("x", s.mp(s.spec(each, "y"), member), pair)
    return s.gen("r c d", s.disch(related.concl, s.gen("y", s.iff(there, back))))


LIBRARY.begin("th_count", "pairs", "pair_facts", "the related pairs of countable sets")


@fact(
    r"!x0:'a -> 'b -> bool. !x1:'a cset. !x2:'b cset. !x3:('a,'b) prod cset. (cset.rep{('a,'b) prod} x3 = (\x4:('a,'b) prod. "
    r"(cset.rep{'a} x1 (fst{'a,'b} x4) /\ cset.rep{'b} x2 (snd{'a,'b} x4)) /\ x0 (fst{'a,'b} x4) (snd{'a,'b} x4))) ==> "
    r"(cset.rel{'a,'b} x0 x1 x2 ==> ((!x4:('a,'b) prod. cset.rep{('a,'b) prod} x3 x4 ==> x0 (fst{'a,'b} x4) (snd{'a,'b} x4)) /\ "
    r"((cset.map{('a,'b) prod,'a} fst{'a,'b} x3 = x1) /\ (cset.map{('a,'b) prod,'b} snd{'a,'b} x3 = x2))))",
    "Related sets are the images of the set of their related pairs.",
)
def cset_rel_of_pairs(s):
    s.fix("r:'a -> 'b -> bool, c:'a cset, d:'b cset, w:('a,'b) prod cset, p:('a,'b) prod")
    pairs, related = s.assume(r"cset.rep w = (\p. %s)" % PAIR), s.assume("cset.rel r c d")
    pair = s.assume("cset.rep w p")
    each = s.conj_r(s.eq_mp(s.norm(s.to(pairs, "p")), pair))
    each = s.gen("p", s.disch(pair.concl, each))
    first = s.norm(s.rewrite(s.by("CsetMapIs", "fst{'a,'b}", "w", "c"), pairs))
    first = s.mp(first, s.mp(s.by("CsetRelFirsts", "r", "c", "d"), related))
    second = s.norm(s.rewrite(s.by("CsetMapIs", "snd{'a,'b}", "w", "d"), pairs))
    second = s.mp(second, s.mp(s.by("CsetRelSeconds", "r", "c", "d"), related))
    images = s.conj_i(each, s.conj_i(first, second))
    return s.gen("r c d w", s.disch(pairs.concl, s.disch(related.concl, images)))


@fact(
    "!x0:'a -> 'b -> bool. !x1:'a cset. !x2:'b cset. cset.rel{'a,'b} x0 x1 x2 = (?x3:('a,'b) prod cset. (!x4:('a,'b) prod. "
    r"cset.set1{('a,'b) prod} x3 x4 ==> x0 (fst{'a,'b} x4) (snd{'a,'b} x4)) /\ ((cset.map{('a,'b) prod,'a} fst{'a,'b} x3 = x1) /\ "
    "(cset.map{('a,'b) prod,'b} snd{'a,'b} x3 = x2)))",
    "Functor law rel_in of cset.",
)
def cset_rel_in(s):
    s.fix("r:'a -> 'b -> bool, c:'a cset, d:'b cset, w:('a,'b) prod cset")
    images = r"(!p. cset.rep w p ==> r (fst p) (snd p)) /\ (cset.map fst w = c /\ cset.map snd w = d)"
    pairs, related = s.assume(r"cset.rep w = (\p. %s)" % PAIR), s.assume("cset.rel r c d")
    there = s.mp(s.by("CsetRelOfPairs", "r", "c", "d", "w"), pairs, related)
    there = s.ex_i("?w. " + images, "w", there)
    there = s.choose("w", s.by("CsetRelatedPairs", "r", "c", "d"), there)
    each, equal = s.conj_l(s.assume(images)), s.conj_r(s.assume(images))
    back = s.mp(s.by("CsetMapsRelated", "r", "fst{'a,'b}", "snd{'a,'b}", "w"), each)
    back = s.rewrite(back, s.conj_l(equal), s.conj_r(equal))
    back = s.open("w", "?w. " + images, back)
    is_set = s.inst_type(s.sym(s.by("CsetSetIsRep")), a="('a,'b) prod")
    return s.rewrite(s.gen("r c d", s.iff(there, back)), is_set)


LIBRARY.begin("th_count", "compositions", "composition_facts", "compositions of relations of countable sets")


@fact(
    "!x0:'b -> 'c -> bool. !x1:'c -> 'd -> bool. !x2:'a -> 'b. !x3:'a -> 'd. !x4:'a cset. (!x5:'a. cset.rep{'a} x4 x5 ==> (?x6:'c. "
    r"x0 (x2 x5) x6 /\ x1 x6 (x3 x5))) ==> (?x5:'c cset. cset.rel{'b,'c} x0 (cset.map{'a,'b} x2 x4) x5 /\ cset.rel{'c,'d} x1 x5 "
    "(cset.map{'a,'d} x3 x4))",
    "Where a composition relates the values of two functions on a set, there is a set between the images.",
)
def cset_rel_between(s):
    """The set between is the image under a choice k of what is between the values."""
    s.fix("r:'b -> 'c -> bool, s:'c -> 'd -> bool, f:'a -> 'b, g:'a -> 'd, k:'a -> 'c, u:'a cset, p:'a")
    each = s.assume(r"!p. cset.rep u p ==> (?y. r (f p) y /\ s y (g p))")
    choice = s.mp(s.norm(s.by("ChoiceOn", "cset.rep u", r"\p y. r (f p) y /\ s y (g p)")), each)
    chosen = s.assume(r"!p. cset.rep u p ==> r (f p) (k p) /\ s (k p) (g p)")
    member = s.assume("cset.rep u p")
    both = s.mp(s.spec(chosen, "p"), member)
    first = s.gen("p", s.disch(member.concl, s.conj_l(both)))
    first = s.mp(s.by("CsetMapsRelated", "r", "f", "k", "u"), first)
    second = s.gen("p", s.disch(member.concl, s.conj_r(both)))
    second = s.mp(s.by("CsetMapsRelated", "s", "k", "g", "u"), second)
    between = r"?w. cset.rel r (cset.map f u) w /\ cset.rel s w (cset.map g u)"
    between = s.choose("k", choice, s.ex_i(between, "cset.map k u", s.conj_i(first, second)))
    return s.gen("r s f g u", s.disch(each.concl, between))


@fact(
    r"!x0:'a -> 'b -> bool. !x1:'b -> 'c -> bool. !x2:'a cset. !x3:'c cset. cset.rel{'a,'c} (\x4:'a. \x5:'c. ?x6:'b. x0 x4 x6 /\ x1 "
    r"x6 x5) x2 x3 ==> (?x4:'b cset. cset.rel{'a,'b} x0 x2 x4 /\ cset.rel{'b,'c} x1 x4 x3)",
    "Where a composition relates two sets, there is a set between them.",
)
def cset_rel_split(s):
    """Both sets are images of one set of pairs, by the law rel_in."""
    s.fix("r:'a -> 'b -> bool, s:'b -> 'c -> bool, c:'a cset, d:'c cset, u:('a,'c) prod cset")
    related = s.assume(r"cset.rel (\x z. ?y. r x y /\ s y z) c d")
    pairs = s.norm(s.eq_mp(s.by("CsetRelIn", r"\x z. ?y. r x y /\ s y z", "c", "d"), related))
    pairs = s.rewrite(pairs, s.inst_type(s.by("CsetSetIsRep"), a="('a,'c) prod"))
    images = s.assume(
        r"(!p. cset.rep u p ==> (?y. r (fst p) y /\ s y (snd p))) /\ (cset.map fst u = c /\ cset.map snd u = d)"
    )
    each, equal = s.conj_l(images), s.conj_r(images)
    between = s.mp(s.by("CsetRelBetween", "r", "s", "fst{'a,'c}", "snd{'a,'c}", "u"), each)
    between = s.choose("u", pairs, s.rewrite(between, s.conj_l(equal), s.conj_r(equal)))
    return s.gen("r s c d", s.disch(related.concl, between))


@fact(
    r"!x0:'a -> 'b -> bool. !x1:'b -> 'c -> bool. !x2:'a cset. !x3:'b cset. !x4:'c cset. (cset.rel{'a,'b} x0 x2 x3 /\ "
    r"cset.rel{'b,'c} x1 x3 x4) ==> (!x5:'a. cset.rep{'a} x2 x5 ==> (?x6:'c. cset.rep{'c} x4 x6 /\ (?x7:'b. x0 x5 x7 /\ x1 x7 x6)))",
    "Of three sets in a row, each member of the first has one of the last that the composition relates it to.",
)
def cset_rel_forwards(s):
    s.fix("r:'a -> 'b -> bool, s:'b -> 'c -> bool, c:'a cset, w:'b cset, d:'c cset, x:'a, y:'b, z:'c")
    both = s.assume(r"cset.rel r c w /\ cset.rel s w d")
    first = s.conj_l(s.expand(s.conj_l(both), "cset.rel"))
    second = s.conj_l(s.expand(s.conj_r(both), "cset.rel{'b,'c}"))
    member, middle = s.assume("cset.rep c x"), s.assume(r"cset.rep w y /\ r x y")
    last = s.assume(r"cset.rep d z /\ s y z")
    composed = s.ex_i(r"?y. r x y /\ s y z", "y", s.conj_i(s.conj_r(middle), s.conj_r(last)))
    composed = s.conj_i(s.conj_l(last), composed)
    composed = s.ex_i(r"?z. cset.rep d z /\ (?y. r x y /\ s y z)", "z", composed)
    composed = s.choose("z", s.mp(s.spec(second, "y"), s.conj_l(middle)), composed)
    composed = s.choose("y", s.mp(s.spec(first, "x"), member), composed)
    return s.gen("r s c w d", s.disch(both.concl, s.gen("x", s.disch(member.concl, composed))))


@fact(
    r"!x0:'a -> 'b -> bool. !x1:'b -> 'c -> bool. !x2:'a cset. !x3:'b cset. !x4:'c cset. (cset.rel{'a,'b} x0 x2 x3 /\ "
    r"cset.rel{'b,'c} x1 x3 x4) ==> (!x5:'c. cset.rep{'c} x4 x5 ==> (?x6:'a. cset.rep{'a} x2 x6 /\ (?x7:'b. x0 x6 x7 /\ x1 x7 x5)))",
    "Of three sets in a row, each member of the last has one of the first that the composition relates to it.",
)
def cset_rel_backwards(s):
    s.fix("r:'a -> 'b -> bool, s:'b -> 'c -> bool, c:'a cset, w:'b cset, d:'c cset, x:'a, y:'b, z:'c")
    both = s.assume(r"cset.rel r c w /\ cset.rel s w d")
    first = s.conj_r(s.expand(s.conj_l(both), "cset.rel"))
    second = s.conj_r(s.expand(s.conj_r(both), "cset.rel{'b,'c}"))
    member, middle = s.assume("cset.rep d z"), s.assume(r"cset.rep w y /\ s y z")
    last = s.assume(r"cset.rep c x /\ r x y")
    composed = s.ex_i(r"?y. r x y /\ s y z", "y", s.conj_i(s.conj_r(last), s.conj_r(middle)))
    composed = s.conj_i(s.conj_l(last), composed)
    composed = s.ex_i(r"?x. cset.rep c x /\ (?y. r x y /\ s y z)", "x", composed)
    composed = s.choose("x", s.mp(s.spec(first, "y"), s.conj_l(middle)), composed)
    composed = s.choose("y", s.mp(s.spec(second, "z"), member), composed)
    return s.gen("r s c w d", s.disch(both.concl, s.gen("z", s.disch(member.concl, composed))))


@fact(
    r"!x0:'a -> 'b -> bool. !x1:'b -> 'c -> bool. !x2:'a cset. !x3:'c cset. cset.rel{'a,'c} (\x4:'a. \x5:'c. ?x6:'b. x0 x4 x6 /\ x1 "
    r"x6 x5) x2 x3 = (?x4:'b cset. cset.rel{'a,'b} x0 x2 x4 /\ cset.rel{'b,'c} x1 x4 x3)",
    "Functor law rel_comp of cset.",
)
def cset_rel_comp(s):
    s.fix("r:'a -> 'b -> bool, s:'b -> 'c -> bool, c:'a cset, d:'c cset, w:'b cset")
    related = s.assume(r"cset.rel (\x z. ?y. r x y /\ s y z) c d")
    there = s.mp(s.by("CsetRelSplit", "r", "s", "c", "d"), related)
    both = s.assume(r"cset.rel r c w /\ cset.rel s w d")
    forwards = s.mp(s.by("CsetRelForwards", "r", "s", "c", "w", "d"), both)
    backwards = s.mp(s.by("CsetRelBackwards", "r", "s", "c", "w", "d"), both)
    back = s.back(s.unfold(related.concl), s.conj_i(forwards, backwards))
    return s.gen("r s c d", s.iff(there, s.open("w", there.concl, back)))
