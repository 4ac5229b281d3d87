"""A proof becomes a table: the lines that its result stands on, in order, and before them the terms and types that they name."""

from dataclasses import dataclass

from .script import Line
from .terms import Type
from .text import term_text, type_text

MOST_LINES = 40


@dataclass(frozen=True)
class Table:
    name: str
    facts: tuple  # the names of the facts that it takes, in the order of their numbers
    lines: tuple  # the lines of the text

    @property
    def text(self):
        return "".join(line + "\n" for line in self.lines)

    def count(self, *words):
        return sum(line.split(" ", 1)[0] in words for line in self.lines)

    @property
    def theorems(self):
        return len(self.lines) - self.count("term", "type")


def table_of(entry):
    """The table of a fact or of an element of a type."""
    table = table_of_lines(entry.name, lines_under(entry.result))
    if table.theorems > MOST_LINES:
        raise ValueError("%s has %d lines" % (entry.name, table.theorems))
    return table


def table_of_lines(name, live):
    """The table of lines that stand in order."""
    facts = [line for line in live if line.rule == "fact"]
    steps = [line for line in live if line.rule != "fact"]
    theorems = {line: n for n, line in enumerate(facts + steps)}
    types, terms, lines = {}, {}, []

    def word(operand):
        if isinstance(operand, Line):
            return str(theorems[operand])
        if isinstance(operand, (int, str)):
            return str(operand)
        kind, register, text = ("type", types, type_text) if isinstance(operand, Type) else ("term", terms, term_text)
        if operand not in register:
            register[operand] = len(register)
            lines.append("%s %s" % (kind, text(operand)))
        return str(register[operand])

    for line in steps:
        words = [word(operand) for operand in line.operands]
        lines.append(" ".join([line.rule] + words))
    return Table(name, tuple(line.operands[0] for line in facts), tuple(lines))


def lines_under(result):
    """The lines that a line stands on, in the order in which they were made, and itself."""
    found = set()
    left = [result]
    while left:
        line = left.pop()
        if line not in found:
            found.add(line)
            left += [operand for operand in line.operands if isinstance(operand, Line)]
    return sorted(found, key=lambda line: line.number)
