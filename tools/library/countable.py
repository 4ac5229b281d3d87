"""Countable sets. By the first two facts they are those that the numbers enumerate; the others follow from this."""

from .build import LIBRARY

LIBRARY.begin("th_count", "countable", "countable_facts", "countable sets")

fact = LIBRARY.fact

LIBRARY.define(44)


@fact(
    "!x0:'a -> bool. !x1:num -> 'a. (!x2:'a. x0 x2 ==> (?x3:num. x2 = x1 x3)) ==> countable{'a} x0",
    "What the numbers enumerate is countable.",
)
def countable_enumerated(s):
    """A number is chosen for each element, and it stands for that element alone."""
    s.fix("s:'a -> bool, f:num -> 'a, g:'a -> num, x y:'a")
    enumerated = s.assume("!x. s x ==> ?n. x = f n")
    chosen = s.mp(s.norm(s.by("ChoiceOn", "s", r"\x n. x = f n")), enumerated)
    value = s.mp(s.spec(s.assume("!x. s x ==> x = f (g x)"), "x"), s.assume("s x"))
    equal = s.assume("g x = g y")
    same = s.trans(s.rewrite(value, equal), s.sym(s.inst(value, x="y")))
    apart = s.gen("x y", s.disch("s x", s.disch("s y", s.disch(equal.concl, same))))
    numbering = s.ex_i("?g:'a -> num. !x y. s x ==> s y ==> g x = g y ==> x = y", "g", apart)
    countable = s.choose("g", chosen, s.back(s.unfold("countable s"), numbering))
    return s.gen("s f", s.disch(enumerated.concl, countable))


@fact(
    "?x0:('a -> bool) -> num -> 'a. !x1:'a -> bool. countable{'a} x1 ==> (!x2:'a. x1 x2 ==> (?x3:num. x2 = x0 x1 x3))",
    "There is a function that enumerates each countable set by numbers.",
)
def countable_enumeration(s):
    """Of each set, with the numbering g: n enumerates some element that has the number n."""
    s.fix("s:'a -> bool, g:'a -> num, x:'a")
    s.let("f", r"\n. some (\z. s z /\ g z = n)")
    s.let("w", r"some (\z. s z /\ g z = g x)")
    countable, member = s.assume("countable s"), s.assume("s x")
    there = s.ex_i(r"?z. s z /\ g z = g x", "x", s.conj_i(member, s.refl("g x")))
    chosen = s.mp(s.norm(s.by("SomeHolds", r"\z. s z /\ g z = g x")), there)
    same = s.spec(s.assume("!x y. s x ==> s y ==> g x = g y ==> x = y"), "w", "x")
    same = s.mp(same, s.conj_l(chosen), member, s.conj_r(chosen))
    value = s.sym(s.trans(s.beta_conv("f (g x)"), same))
    enumerated = s.gen("x", s.disch("s x", s.ex_i("?n. x = f n", "g x", value)))
    enumerated = s.ex_i("?f:num -> 'a. !x. s x ==> ?n. x = f n", "f", enumerated)
    enumerated = s.choose("g", s.expand(countable, "countable"), enumerated)
    choice = s.by("ChoiceOn", "countable{'a}", r"\s:'a -> bool. \f:num -> 'a. !x. s x ==> ?n. x = f n")
    return s.mp(s.norm(choice), s.gen("s", s.disch(countable.concl, enumerated)))


def number_of(s, e, countable, member):
    """`?n. x = e s n` from `countable s` and `s x`, where e is an enumeration as the fact above gives one."""
    enumeration = s.assume("!s. countable s ==> !x. s x ==> ?n. x = %s s n" % e)
    return s.mp(s.spec(s.mp(s.spec(enumeration, countable.concl.arg), countable), member.concl.arg), member)


@fact(
    "!x0:'a -> bool. !x1:'a -> bool. countable{'a} x1 ==> ((!x2:'a. x0 x2 ==> x1 x2) ==> countable{'a} x0)",
    "A subset of a countable set is countable.",
)
def countable_subset(s):
    s.fix("s t:'a -> bool, e:('a -> bool) -> num -> 'a, x:'a")
    countable, within = s.assume("countable t"), s.assume("!x. s x ==> t x")
    number = number_of(s, "e", countable, s.mp(s.spec(within, "x"), s.assume("s x")))
    subset = s.mp(s.by("CountableEnumerated", "s", "e t"), s.gen("x", s.disch("s x", number)))
    subset = s.choose("e", s.by("CountableEnumeration"), subset)
    return s.gen("s t", s.disch(countable.concl, s.disch(within.concl, subset)))


@fact(r"!x0:'a -> bool. countable{'a} (\x1:'a. T) ==> countable{'a} x0", "Each set of elements of a countable type is countable.")
def countable_on_type(s):
    s.fix("s:'a -> bool, x:'a")
    countable = s.assume(r"countable (\x:'a. T)")
    subset = s.mp(s.norm(s.by("CountableSubset", "s", r"\x:'a. T")), countable)
    subset = s.mp(subset, s.gen("x", s.disch("s x", s.by("Truth"))))
    return s.gen("s", s.disch(countable.concl, subset))


@fact(r"countable{num} (\x0:num. T)", "The numbers are countable.")
def countable_num(s):
    s.fix("x:num")
    number = s.gen("x", s.disch("T", s.ex_i("?n. x = n", "x", s.refl("x"))))
    return s.mp(s.norm(s.by("CountableEnumerated", r"\x:num. T", r"\n:num. n")), number)


@fact(r"countable{'a} (\x0:'a. F)", "The empty set is countable.")
def countable_empty(s):
    s.fix("f:num -> 'a, x:'a")
    number = s.gen("x", s.disch("F", s.anything("?n. x = f n", s.assume("F"))))
    return s.mp(s.norm(s.by("CountableEnumerated", r"\x:'a. F", "f")), number)


@fact(r"!x0:'a. countable{'a} (\x1:'a. x1 = x0)", "A set of one element is countable.")
def countable_singleton(s):
    s.fix("a x:'a")
    number = s.gen("x", s.disch("x = a", s.ex_i("?n:num. x = a", "0", s.assume("x = a"))))
    return s.gen("a", s.mp(s.norm(s.by("CountableEnumerated", r"\x. x = a", r"\n:num. a")), number))


@fact(r"countable{unit} (\x0:unit. T)", "Unit is countable.")
def countable_unit(s):
    s.fix("u x:unit")
    all_equal = s.abs("x", s.eqt_i(s.by("UnitEqual", "x", "u")))
    return s.eq_mp(s.of("countable{unit}", all_equal), s.by("CountableSingleton", "u"))


@fact(r"countable{bool} (\x0:bool. T)", "The truth values are countable.")
def countable_bool(s):
    """The number n stands for the truth value of `n = 0`."""
    s.fix("p:bool, n:num")
    true = s.ex_i("?n. p = (n = 0)", "0", s.deduct(s.assume("p"), s.refl("0")))
    not_zero = s.eq_mp(s.by("NotAsEquation", "suc n = 0"), s.by("SucNotZero", "n"))
    false = s.trans(s.eq_mp(s.by("NotAsEquation", "p"), s.assume("~ p")), s.sym(not_zero))
    false = s.ex_i("?n. p = (n = 0)", "suc n", false)
    number = s.gen("p", s.disch("T", s.disj_e(s.by("ExcludedMiddle", "p"), true, false)))
    return s.mp(s.norm(s.by("CountableEnumerated", r"\p:bool. T", r"\n. n = 0")), number)


@fact(
    "!x0:'a -> bool. !x1:num -> num -> 'a. (!x2:'a. x0 x2 ==> (?x3:num. ?x4:num. x2 = x1 x3 x4)) ==> countable{'a} x0",
    "What the pairs of numbers enumerate is countable.",
)
def countable_enumerated_twice(s):
    """The path code of m and n stands for the value at m and n."""
    s.fix("s:'a -> bool, f:num -> num -> 'a, h:num -> 'a, x z:'a, m n:num")
    enumerated = s.assume("!x. s x ==> ?m n. x = f m n")
    recursion = s.norm(s.by("PathRecursion", "z", r"\m n. \a:'a. f m n"))
    code = s.spec(s.conj_r(s.assume(r"h 0 = z /\ !m n. h (num.cons m n) = f m n")), "m", "n")
    value = s.trans(s.assume("x = f m n"), s.sym(code))
    number = s.open("n", "?n. x = f m n", s.ex_i("?k. x = h k", "num.cons m n", value))
    number = s.choose("m", s.mp(s.spec(enumerated, "x"), s.assume("s x")), number)
    countable = s.mp(s.by("CountableEnumerated", "s", "h"), s.gen("x", s.disch("s x", number)))
    return s.gen("s f", s.disch(enumerated.concl, s.choose("h", recursion, countable)))


LIBRARY.begin("th_count", "unions", "union_facts", "unions, images, products and sums of countable sets")


@fact(
    "!x0:'a -> bool. !x1:'a -> 'b -> bool. countable{'a} x0 ==> ((!x2:'a. x0 x2 ==> countable{'b} (x1 x2)) ==> countable{'b} "
    r"(\x2:'b. ?x3:'a. x0 x3 /\ x1 x3 x2))",
    "The union of countably many countable sets is countable.",
)
def countable_union(s):
    """The numbers m and n stand for the n-th element of the set of the m-th index."""
    s.fix("s:'a -> bool, i:'a -> 'b -> bool, e:('a -> bool) -> num -> 'a, d:('b -> bool) -> num -> 'b")
    s.fix("z:'a, y:'b, m:num")
    indices, each = s.assume("countable s"), s.assume("!z. s z ==> countable (i z)")
    both = s.assume(r"s z /\ i z y")
    index, member = s.conj_l(both), s.conj_r(both)
    number = number_of(s, "d", s.mp(s.spec(each, "z"), index), member)
    number = s.ex_i("?m n. y = d (i (e s m)) n", "m", s.rewrite(number, s.assume("z = e s m")))
    number = s.choose("m", number_of(s, "e", indices, index), number)
    number = s.gen("y", s.disch(r"?z. s z /\ i z y", s.open("z", r"?z. s z /\ i z y", number)))
    union = s.norm(s.by("CountableEnumeratedTwice", r"\y. ?z. s z /\ i z y", r"\m. d (i (e s m))"))
    enumeration = s.by("CountableEnumeration")
    union = s.choose("e", enumeration, s.mp(union, number))
    union = s.choose("d", s.inst_type(enumeration, a="'b"), union)
    return s.gen("s i", s.disch(indices.concl, s.disch(each.concl, union)))


@fact(
    r"!x0:'a -> bool. !x1:'a -> bool. countable{'a} x0 ==> (countable{'a} x1 ==> countable{'a} (\x2:'a. x0 x2 \/ x1 x2))",
    "The union of two countable sets is countable.",
)
def countable_union_of_two(s):
    """The numbers 0 and n stand for the n-th element of the first set, other m and n for that of the second."""
    s.fix("s t:'a -> bool, e:('a -> bool) -> num -> 'a, f:num -> num -> 'a, x:'a, m:num")
    first, second = s.assume("countable s"), s.assume("countable t")
    number = number_of(s, "e", first, s.assume("s x"))
    recursion = s.norm(s.by("NumRecursion", "e s", r"\m:num. \f:num -> 'a. e t"))
    equations = s.assume(r"f 0 = e s /\ !m. f (suc m) = e t")
    left = s.ex_i("?m n. x = f m n", "0", s.rewrite(number, s.sym(s.conj_l(equations))))
    right = s.rewrite(s.inst(number, s="t"), s.sym(s.spec(s.conj_r(equations), "m")))
    right = s.ex_i("?m n. x = f m n", "suc m", right)
    either = s.assume(r"s x \/ t x")
    number = s.gen("x", s.disch(either.concl, s.disj_e(either, left, right)))
    union = s.mp(s.norm(s.by("CountableEnumeratedTwice", r"\x. s x \/ t x", "f")), number)
    union = s.choose("e", s.by("CountableEnumeration"), s.choose("f", recursion, union))
    return s.gen("s t", s.disch(first.concl, s.disch(second.concl, union)))


@fact(
    r"!x0:'a -> bool. !x1:'a -> 'b. countable{'a} x0 ==> countable{'b} (\x2:'b. ?x3:'a. x0 x3 /\ (x2 = x1 x3))",
    "The image of a countable set is countable.",
)
def countable_image(s):
    """The image is the union of the sets of one value."""
    s.fix("s:'a -> bool, f:'a -> 'b, x:'a")
    countable = s.assume("countable s")
    image = s.mp(s.norm(s.by("CountableUnion", "s", r"\x y. y = f x")), countable)
    image = s.mp(image, s.gen("x", s.disch("s x", s.by("CountableSingleton", "f x"))))
    return s.gen("s f", s.disch(countable.concl, image))


@fact(
    r"!x0:'a -> 'b. countable{'a} (\x1:'a. T) ==> countable{'b} (\x1:'b. ?x2:'a. x1 = x0 x2)",
    "The values of a function on a countable type are countable.",
)
def countable_range(s):
    s.fix("f:'a -> 'b, x:'a, y:'b")
    countable = s.assume(r"countable (\x:'a. T)")
    image = s.mp(s.norm(s.by("CountableImage", r"\x:'a. T", "f")), countable)
    member = s.conj_i(s.by("Truth"), s.assume("y = f x"))
    member = s.open("x", "?x. y = f x", s.ex_i(r"?x. T /\ y = f x", "x", member))
    subset = s.norm(s.by("CountableSubset", r"\y. ?x. y = f x", r"\y. ?x. T /\ y = f x"))
    subset = s.mp(subset, image, s.gen("y", s.disch("?x. y = f x", member)))
    return s.gen("f", s.disch(countable.concl, subset))


@fact(
    "!x0:'a -> bool. !x1:'b -> bool. !x2:'a -> 'b. countable{'b} x1 ==> ((!x3:'a. x0 x3 ==> x1 (x2 x3)) ==> ((!x3:'a. !x4:'a. x0 "
    "x3 ==> (x0 x4 ==> ((x2 x3 = x2 x4) ==> (x3 = x4)))) ==> countable{'a} x0))",
    "What is mapped injectively into a countable set is countable.",
)
def countable_injection(s):
    """The set is part of the image of the countable set under an inverse of k."""
    s.fix("s:'a -> bool, t:'b -> bool, k:'a -> 'b, x:'a")
    s.let("inverse", r"\y. some (\z. s z /\ k z = y)")
    s.let("w", r"some (\z. s z /\ k z = k x)")
    countable, within = s.assume("countable t"), s.assume("!x. s x ==> t (k x)")
    injective = s.assume("!x y. s x ==> s y ==> k x = k y ==> x = y")
    member = s.assume("s x")
    there = s.ex_i(r"?z. s z /\ k z = k x", "x", s.conj_i(member, s.refl("k x")))
    chosen = s.mp(s.norm(s.by("SomeHolds", r"\z. s z /\ k z = k x")), there)
    same = s.mp(s.spec(injective, "x", "w"), member, s.conj_l(chosen))
    same = s.conj_i(s.mp(s.spec(within, "x"), member), s.mp(same, s.sym(s.conj_r(chosen))))
    same = s.ex_i(r"?y. t y /\ x = some (\z. s z /\ k z = y)", "k x", same)
    image = s.mp(s.norm(s.by("CountableImage", "t", "inverse")), countable)
    subset = s.norm(s.by("CountableSubset", "s", r"\x. ?y. t y /\ x = some (\z. s z /\ k z = y)"))
    subset = s.mp(subset, image, s.gen("x", s.disch("s x", same)))
    return s.gen("s t k", s.disch(countable.concl, s.disch(within.concl, s.disch(injective.concl, subset))))


@fact(
    r"!x0:'a -> bool. !x1:'b -> bool. countable{'a} x0 ==> (countable{'b} x1 ==> countable{('a,'b) prod} (\x2:('a,'b) prod. x0 "
    r"(fst{'a,'b} x2) /\ x1 (snd{'a,'b} x2)))",
    "The pairs from two countable sets are countable.",
)
def countable_product(s):
    """The pairs are the union, over a in the first set, of the images of the second set under pairing with a."""
    s.fix("s:'a -> bool, t:'b -> bool, a:'a, p:('a,'b) prod")
    first, second = s.assume("countable s"), s.assume("countable t")
    union = s.norm(s.by("CountableUnion", "s", r"\a:'a. \p. ?b. t b /\ p = pair a b"))
    each = s.mp(s.by("CountableImage", "t", "pair{'a,'b} a"), second)
    union = s.mp(union, first, s.gen("a", s.disch("s a", each)))
    both = s.assume(r"s (fst p) /\ t (snd p)")
    member = s.conj_i(s.conj_r(both), s.sym(s.by("PairOfComponents", "p")))
    member = s.ex_i(r"?b. t b /\ p = pair (fst p) b", "snd p", member)
    member = s.ex_i(r"?a. s a /\ ?b. t b /\ p = pair a b", "fst p", s.conj_i(s.conj_l(both), member))
    pairs = s.by("CountableSubset", r"\p. s (fst p) /\ t (snd p)", r"\p. ?a. s a /\ ?b. t b /\ p = pair a b")
    pairs = s.mp(s.norm(pairs), union, s.gen("p", s.disch(both.concl, member)))
    return s.gen("s t", s.disch(first.concl, s.disch(second.concl, pairs)))


@fact(
    r"countable{'a} (\x0:'a. T) ==> (countable{'b} (\x0:'b. T) ==> countable{('a,'b) prod} (\x0:('a,'b) prod. T))",
    "The product of countable types is countable.",
)
def countable_prod(s):
    first, second = s.assume(r"countable (\x:'a. T)"), s.assume(r"countable (\y:'b. T)")
    pairs = s.norm(s.by("CountableProduct", r"\x:'a. T", r"\y:'b. T"))
    pairs = s.mp(pairs, first, second)
    pairs = s.rewrite(pairs, s.eqt_i(s.conj_i(s.by("Truth"), s.by("Truth"))))
    return s.disch(first.concl, s.disch(second.concl, pairs))


@fact(
    r"countable{'a} (\x0:'a. T) ==> (countable{'b} (\x0:'b. T) ==> countable{('a,'b) sum} (\x0:('a,'b) sum. T))",
    "The sum of countable types is countable.",
)
def countable_sum(s):
    """The sum is the union of the values of inl and of inr."""
    s.fix("p:('a,'b) sum")
    first, second = s.assume(r"countable (\x:'a. T)"), s.assume(r"countable (\y:'b. T)")
    left = s.mp(s.by("CountableRange", "inl{'a,'b}"), first)
    right = s.mp(s.by("CountableRange", "inr{'b,'a}"), second)
    union = s.norm(s.by("CountableUnionOfTwo", r"\p. ?x. p = inl{'a,'b} x", r"\p. ?y. p = inr{'b,'a} y"))
    union = s.mp(union, left, right)
    whole = s.abs("p", s.eqt_i(s.by("InlOrInr", "p")))
    union = s.eq_mp(s.of("countable{('a,'b) sum}", whole), union)
    return s.disch(first.concl, s.disch(second.concl, union))
