"""The tables as Rust source, and back."""

import re
from dataclasses import dataclass

from .build import WHOLE
from .sources import TOP, unescaped
from .table import Table

WIDTH = 100
CALL_WIDTH = 60
FIELD_WIDTH = 18
CRATES = TOP / "crates"
WRITTEN_BY = "Written by `python3 tools/library.py write` from the scripts of tools/library/."
HEAD = """\
// %s
//! TITLE: the proof tables, and the steps of the building. Each line of a table puts
//! one type, term or theorem at the end of its register; the theorems begin with the facts that the table takes.

use crate::facts;
use library_facts::Fact;
use library_steps::Step;
""" % WRITTEN_BY

# The facts of a crate.
FACTS_HEAD = """\
// %s
//! The facts of this library, in the order of proving.

use library_facts::Fact;
""" % WRITTEN_BY

# Their texts, and the facts of each part as lists.
TEXTS_HEAD = """\
-- %s
-- The facts of this library, in the order of proving.
use Rattle.std.specs.Prelude.{List, [], ◌∷◌, ◌++◌, codes}
use Rattle.hol_terms.specs.Text.{Text}
""" % WRITTEN_BY

# What each step gives, by computation.
PROOFS_HEAD = """\
-- %s
-- What the tables give, and which base definitions are constants.
use Rattle.std.proofs.Common.{◌≡◌, true, refl, [], ◌∷◌, codes}
use Rattle.hol_terms.specs.Base.{base}
use Rattle.hol_terms.specs.Text.{Text}
use Rattle.script_core.specs.Tables.{fact_sequent, table_sequent}
use Rattle.library_steps.specs.Closed.{nothing, Proves}
use Rattle.library_steps.specs.Building.{IsConstantAt, IsTypeAt}
use Rattle.library_steps.proofs.Computed.{library_table, agree, proves, constant_at, new_type_at}
CITED""" % WRITTEN_BY

# Why the steps can be taken, a fact's premises by their places among the facts before it.
ANSWERS_HEAD = """\
-- %s
use Rattle.std.proofs.Common.{refl, Some}
use Rattle.library_steps.proofs.Computed.{from_none, from_more}
use Rattle.library_steps.proofs.Taken.{LEMMAS_ON, can_take, made_to, facts_to}
use Rattle.CRATE.proofs.MODULE.{LEMMAS}
CITEDuse Rattle.CRATE.proofs.building.build_NAME.Goals as goal

pub take_steps-requires-clause-rules : goal.take_steps-requires-clause-rules
take_steps-requires-clause-rules c = c.requires.rules

pub take_steps-requires-clause-shelf : goal.take_steps-requires-clause-shelf
take_steps-requires-clause-shelf c = c.requires.shelf

pub take_steps-requires-clause-fit : goal.take_steps-requires-clause-fit
take_steps-requires-clause-fit c = can_take c.requires.defs KNOWN (record { all = """ % WRITTEN_BY

ANSWERS_TAIL = """ })

pub returns-clause-defs : goal.returns-clause-defs
returns-clause-defs c = made_to c.in_ok-take_steps.ensures.defs c.requires.defs refl

pub returns-clause-FACTS : goal.returns-clause-FACTS
returns-clause-FACTS c = facts_to c.in_ok-take_steps.ensures.facts (refl {a = facts.FACTS})

pub returns-clause-shelf : goal.returns-clause-shelf
returns-clause-shelf c = c.take_steps.ensures.shelf

pub returns-clause-more : goal.returns-clause-more
returns-clause-more c = c.take_steps.ensures.more

pub returns-clause-keeps : goal.returns-clause-keeps
returns-clause-keeps c = c.take_steps.ensures.keeps

pub returns-in_err-take_steps-clause-shelf : goal.returns-in_err-take_steps-clause-shelf
returns-in_err-take_steps-clause-shelf c = c.take_steps.ensures.shelf

pub returns-in_err-take_steps-clause-more : goal.returns-in_err-take_steps-clause-more
returns-in_err-take_steps-clause-more c = c.take_steps.ensures.more

pub returns-in_err-take_steps-clause-keeps : goal.returns-in_err-take_steps-clause-keeps
returns-in_err-take_steps-clause-keeps c = c.take_steps.ensures.keeps
"""

@dataclass(frozen=True)
class Made:
    """A step of the building: a base definition, with its number, or a fact (none); and the table that it takes, if it takes one."""

    number: int | None
    entry: object
    table: Table | None


def constant_name(name):
    """The Rust name of a table: ExcludedMiddle has the table EXCLUDED_MIDDLE."""
    return re.sub(r"(?<!^)([A-Z])", r"_\1", name).upper()


def escaped(line):
    return line.replace("\\", "\\\\").replace('"', '\\"')


def cited(entry, crate, of):
    """How code in a crate names a fact; of has the crate of each fact."""
    return "%s::facts::%s" % (of[entry], constant_name(entry)) if of[entry] != crate else "facts::" + constant_name(entry)


def spoken(entry, crate, of):
    """How proofs in a crate name its text."""
    return "%s.%s" % ("facts" if of[entry] == crate else of[entry], constant_name(entry).lower())


# The facts.


def facts(parts):
    """The text of a crate's file of facts."""
    text, names = [FACTS_HEAD], []
    for part in parts:
        text.append("\n// On %s.\n" % part.title)
        for entry in part.proved:
            name, field = constant_name(entry.name), 'statement: "%s"' % escaped(entry.text)
            names.append(name)
            body = "Fact { %s }" % field if len(field) <= FIELD_WIDTH else "Fact {\n    %s,\n}" % field
            text.append("\n/// %s\npub const %s: Fact = %s;\n" % (entry.sentence, name, body))
    text.append("\n/// All of them.\npub const FACTS: &[Fact] = &[\n%s];\n" % "".join("    %s,\n" % name for name in names))
    return "".join(text)


def texts(parts):
    """The text of the specification of a crate's facts."""
    text = [TEXTS_HEAD]
    for part in parts:
        for entry in part.proved:
            name = constant_name(entry.name).lower()
            text.append('\n-- %s\nabbrev pub %s : Text\n%s = codes "%s"\n' % (in_words(entry.sentence), name, name, escaped(entry.text)))
    for part in parts:
        rows = "".join("    %s%s\n" % ("∷ " if i else "", constant_name(entry.name).lower()) for i, entry in enumerate(part.proved))
        text.append("\n-- on %s\nabbrev pub %s : List Text\n%s =\n%s    ∷ []\n" % (part.title, part.facts, part.facts, rows))
    name = WHOLE[parts[0].crate]
    text.append("\n-- all of them\nabbrev pub %s : List Text\n%s = %s\n" % (name, name, " ++ ".join(part.facts for part in parts)))
    return "".join(text)


def in_words(sentence):
    """A sentence as a comment in a specification has it."""
    proper = sentence.startswith(("Knaster", "Functor"))
    return (sentence if proper else sentence[0].lower() + sentence[1:]).removesuffix(".")


# The tables.


def constants(made, crate, of):
    """The text of a table, and the facts that it takes, where it takes any."""
    name, table = constant_name(made.table.name), made.table
    text = [
        "\n// %s\n" % made.entry.sentence,
        'const %s: &str = "\\\n' % name,
        "".join("    %s\\n\\\n" % escaped(line) for line in table.lines),
        '";\n',
    ]
    if made.number is None:
        head = "const %s_FACTS: &[Fact] = &" % name
        text += ["\n// The facts that it takes.\n", fact_list(head, [cited(fact, crate, of) for fact in table.facts])]
    return "".join(text)


def fact_list(head, values):
    """A list as the formatter has it: on one line where there is room."""
    line = "%s[%s];\n" % (head, ", ".join(values))
    if len(line) <= WIDTH + 1:
        return line
    return head + "[\n" + "".join("    %s,\n" % value for value in values) + "];\n"


def step(made):
    """The step of a definition or a fact, as the formatter has it."""
    if made.table is None:
        return "    Step::Constant(%d),\n" % (made.number - 1)
    constant = constant_name(made.table.name)
    if made.number is not None:
        return "    Step::NewType(%d, %s),\n" % (made.number - 1, constant)
    arguments = ["facts::" + constant, "%s_FACTS" % constant, constant]
    if len(", ".join(arguments)) <= CALL_WIDTH:
        return "    Step::Prove(%s),\n" % ", ".join(arguments)
    return "    Step::Prove(\n%s    ),\n" % "".join("        %s,\n" % argument for argument in arguments)


def source(part, made, of):
    """The text of a part's file of tables, from what it makes, in order."""
    tables = "".join(constants(one, part.crate, of) for one in made if one.table)
    steps = "".join(step(one) for one in made)
    return "%s%s\n// The definitions and the facts, in order.\npub(crate) static STEPS: [Step; %d] = [\n%s];\n" % (
        HEAD.replace("TITLE", part.title[0].upper() + part.title[1:]), tables, len(made), steps)


def lemma_name(made):
    """The lemma on a step."""
    if made.table is None:
        return "constant_%d" % (made.number - 1)
    return "%s_%s" % (constant_name(made.table.name).lower(), "proves" if made.number is None else "shows")


def proof(made, so_far, crate, of):
    """The lemma on a step, and what it computes; so_far base definitions are made before it."""
    lemma = lemma_name(made)
    if made.table is None:
        return "\npub %s : IsConstantAt %d\nunfolding library_table\n%s = constant_at refl\n" % (lemma, so_far, lemma)
    name = constant_name(made.table.name).lower()
    text = "".join("%s\\n" % escaped(line) for line in made.table.lines)
    table = '\nabbrev %s : Text\n%s = codes "%s"\n' % (name, name, text)
    if made.number is not None:
        return "%s\npub %s : IsTypeAt %d %s\nunfolding library_table\n%s = new_type_at refl\n" % (table, lemma, so_far, name, lemma)
    taken = "(%s)" % " ∷ ".join([spoken(fact, crate, of) for fact in made.table.facts] + ["[]"]) if made.table.facts else "[]"
    fact = spoken(made.entry.name, crate, of)
    agrees = (
        "\n%s_agrees : agree (table_sequent (base %d) %s nothing %s) (fact_sequent %s) ≡ true\n"
        "unfolding library_table\n%s_agrees = refl\n" % (name, so_far, taken, name, fact, name))
    return "%s%s\npub %s : Proves (base %d) %s %s %s\n%s = proves %s_agrees\n" % (
        table, agrees, lemma, so_far, taken, name, fact, lemma, name)


def imports(part, made, of):
    """The lines that import the texts of the facts that the tables of a part prove or take."""
    named = dict.fromkeys([part.crate] + [of[fact] for one in made if one.table for fact in one.table.facts])
    return "".join("use Rattle.%s.specs.Facts as %s\n" % (crate, "facts" if crate == part.crate else crate) for crate in named)


def proofs(part, made, of):
    """The text of the lemmas on the steps of a part."""
    so_far, rows = part.before, []
    for one in made:
        rows.append(proof(one, so_far, part.crate, of))
        so_far += one.number is not None
    head = PROOFS_HEAD.replace("CITED", imports(part, made, of))
    if not any(one.number is not None and one.table for one in made):
        head = head.replace(", IsTypeAt", "").replace(", new_type_at", "")
    return head + "".join(rows)


def fits(made, place_of, crate, of):
    """Why a step can be taken. The texts of the facts are named, since the check would else write out the list that they are in."""
    if made.number is not None:
        return "(refl, %s)" % lemma_name(made)
    premises = "from_none"
    for fact in reversed(made.table.facts):
        more = premises if premises == "from_none" else "(%s)" % premises
        premises = "from_more %d (refl {a = Some %s}) %s" % (place_of[fact], spoken(fact, crate, of), more)
    return "(%s, %s)" % (premises, lemma_name(made))


def answers(part, made, of):
    """The text of the answers for the steps of a part."""
    known = [fact for earlier in part.earlier for fact in earlier.proved]
    place_of = {fact.name: i for i, fact in enumerate(known + part.proved)}
    rows = "".join("(%s, " % fits(one, place_of, part.crate, of) for one in made)
    on = ["c.requires." + name for name in part.lists] or ["(none_on _)"]
    known_on = on.pop()
    while on:
        known_on = "(both_on %s %s)" % (on.pop(), known_on)
    head = ANSWERS_HEAD.replace("LEMMAS_ON", {0: "none_on", 1: "all_on"}.get(len(part.lists), "both_on"))
    head = head.replace("LEMMAS", ", ".join(lemma_name(one) for one in made)).replace("KNOWN", known_on).replace("all_on, ", "")
    head = head.replace("CITED", imports(part, made, of)).replace("CRATE", part.crate).replace("MODULE", module(part)).replace("NAME", part.name)
    return head + rows + "tt" + ")" * len(made) + ANSWERS_TAIL.replace("FACTS", part.facts)


def module(part):
    """The name of the file of proofs about a part's tables."""
    return part.name.capitalize() + "Tables"


def by_constants(table):
    """The table with the constants of the facts that it takes in place of their names."""
    return Table(table.name, tuple(constant_name(fact) for fact in table.facts), table.lines)


def tables_in(text):
    """By their constants, the tables that stand in a file."""
    found = {}
    for name, body in re.findall(r'const (\w+): &str = "\\\n(.*?)";', text, re.S):
        lines = tuple(unescaped(line.strip().removesuffix("\\n\\")) for line in body.splitlines())
        taken = re.search(r"const %s_FACTS: .*?\];\n" % name, text, re.S)
        found[name] = Table(name, tuple(re.findall(r"facts::(\w+)", taken.group() if taken else "")), lines)
    return found


def facts_in(text):
    """By their constants, the statements of the facts that stand in a file."""
    return {name: unescaped(said) for name, said in re.findall(r'pub const (\w+): Fact = Fact \{\s+statement: "(.*)",?\s+\};', text)}
