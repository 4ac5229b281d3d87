"""The library as it is built: the base definitions in their order, and between them the facts that scripts prove. Each part of it is built
by a crate of its own."""

from dataclasses import dataclass

from . import sources
from .derived import Rules
from .kernel import Theory
from .script import Line, Proof, Wrong
from .text import term_text


def make(theory, line, a=None):
    """Adds the definition of a line of canonical text to a theory; that of a type from the theorem that it has an element."""
    word, rest = line.split(" ", 1)
    left_side, body = rest.split(" = ", 1)
    if word == "def":
        name, ty = left_side.split(" : ")
        theory.define(name, theory.signature.read_term(body, {}, theory.signature.read_type(ty)))
    else:
        if term_text(a.concl.fun) != body:
            raise Wrong("%r is of another type than %s" % (a, left_side))
        theory.define_type(left_side.split(" ")[-1], a)


@dataclass
class Entry:
    """What a proof is for: a fact, or a type that has an element (no statement)."""

    name: str
    sentence: str
    text: str | None  # the statement of a fact, in canonical text
    statement: object  # the term that has to be proved
    result: Line


@dataclass
class Part:
    """What a crate builds by the scripts of one file: its steps, how many base definitions are there before them, and the parts before."""

    crate: str
    name: str  # of the file, and of the tables' file in the crate
    facts: str  # the name of the list of its facts
    title: str
    before: int
    earlier: list
    steps: list  # ("define", n, None), ("type", n, Entry) or ("fact", None, Entry)

    @property
    def proved(self):
        """The facts that it proves, in order."""
        return [entry for _, _, entry in self.steps if entry and entry.text]

    @property
    def lists(self):
        """The names of the lists of facts that are there before: one for each whole crate, then one a part."""
        whole = dict.fromkeys(WHOLE[part.crate] for part in self.earlier if part.crate != self.crate)
        return list(whole) + [part.facts for part in self.earlier if part.crate == self.crate]


# How the list of all facts of a crate is called.
WHOLE = {"th_base": "base_facts", "th_num": "num_facts", "th_count": "count_facts"}


class Library:
    """The parts of the library, in the order in which they are built."""

    def __init__(self):
        self.theory = Theory()
        self.base, axioms = sources.base_lines()
        self.parts = []
        self.proved = {}
        for line in self.base[:10]:
            make(self.theory, line)
        self.theory.axioms = [self.theory.signature.read_term(text) for text in axioms]
        self.rules = Rules(self.theory)

    def begin(self, crate, name, facts, title):
        """Begins a part."""
        self.parts.append(Part(crate, name, facts, title, len(self.theory.names), list(self.parts), []))

    @property
    def steps(self):
        return [step for part in self.parts for step in part.steps]

    def step(self, kind, n, entry):
        self.parts[-1].steps.append((kind, n, entry))

    def define(self, *numbers):
        for n in numbers:
            self.make(n)
            self.step("define", n, None)

    def make(self, n, a=None):
        if n != len(self.theory.names) + 1:
            raise Wrong("base definition %d is not the next one" % n)
        make(self.theory, self.base[n - 1], a)

    def thm(self, name):
        return self.proved[name].result.thm

    def run(self, script, sentence, text):
        """Runs a script that is named as what it proves: `excluded_middle` is for ExcludedMiddle."""
        name = name_of(script)
        if name in self.proved:
            raise Wrong("there are two scripts for %s" % name)
        statement = text and self.theory.signature.read_term(text)
        if text and term_text(statement) != text:
            raise Wrong("%s is stated by %r, which is not canonical: that is %r" % (name, text, term_text(statement)))
        result = script(Proof(self))
        if result.thm.hyps or statement not in (None, result.concl):
            raise Wrong("%s gives %r where %r is stated" % (name, result.thm, statement))
        self.proved[name] = Entry(name, sentence, text, statement, result)
        return self.proved[name]

    def fact(self, text, sentence):
        """A script that proves the fact of its name: its statement in canonical text, and the sentence that says it."""

        def run(script):
            self.step("fact", None, self.run(script, sentence, text))
            return script

        return run

    def makes_type(self, n):
        """A script that shows an element of the type of base definition n, which is made then."""

        def run(script):
            entry = self.run(script, script.__doc__, None)
            self.make(n, entry.result.thm)
            self.step("type", n, entry)
            return script

        return run


def name_of(script):
    return "".join(word.capitalize() for word in script.__name__.split("_"))


LIBRARY = Library()
