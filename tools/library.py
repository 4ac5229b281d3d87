"""Proof tables of the library, from the scripts in tools/library/.

    python3 tools/library.py check          runs every table that stands in the crates by a reader of its own, from the facts that
                                            stand there alone, and compares the files with what `write` writes
    python3 tools/library.py write          writes the facts, the tables and the proofs about them in th_base, th_num and th_count
    python3 tools/library.py count [FILE]   how long each table is; beside it the numbers of FILE, which has `(N lines` a fact
    python3 tools/library.py show NAME      the lines of one table, each with what it computes
    python3 tools/library.py build          the definitions and facts, in the order in which they are made
    python3 tools/library.py sample         a table with a line of each kind, each with what it computes

It uses the standard library alone."""

import pathlib
import re
import sys

from library import logic, products, sums, numbers, paths, countable, csets  # noqa: F401 (they run when they are read, in this order)
from library import checker, rust, sample
from library.build import LIBRARY, make
from library.kernel import Theory
from library.script import Proof
from library.table import table_of, table_of_lines
from library.text import term_text

ENTRIES = [entry for _, _, entry in LIBRARY.steps if entry]
TABLES = [table_of(entry) for entry in ENTRIES]


def written():
    """By their paths, the texts of the files that the tool writes."""
    of = {entry.name: part.crate for part in LIBRARY.parts for entry in part.proved}
    texts = {}
    for crate in dict.fromkeys(part.crate for part in LIBRARY.parts):
        parts = [part for part in LIBRARY.parts if part.crate == crate]
        texts[rust.CRATES / crate / "src/facts.rt"] = rust.facts(parts)
        texts[rust.CRATES / crate / "specs/Facts.antt"] = rust.texts(parts)
    for part in LIBRARY.parts:
        made = [rust.Made(n, entry, entry and table_of(entry)) for _, n, entry in part.steps]
        crate = rust.CRATES / part.crate
        texts[crate / "src/tables" / (part.name + ".rt")] = rust.source(part, made, of)
        texts[crate / "proofs" / (rust.module(part) + ".antt")] = rust.proofs(part, made, of)
        texts[crate / ("proofs/building/build_%s/Answers.antt" % part.name)] = rust.answers(part, made, of)
    return texts


def runs(tables, statements):
    """Each table, run over the definitions that are made before it and from the statements of its facts, with its entry."""
    theory = Theory()
    for line in LIBRARY.base[:10]:
        make(theory, line)
    proved = set()
    for kind, n, entry in LIBRARY.steps:
        if entry:
            name = rust.constant_name(entry.name)
            table = tables.get(name)
            if table is None:
                raise SystemExit("there is no table %s" % name)
            late = set(table.facts) - proved
            if late:
                raise SystemExit("%s takes %s, which comes later" % (entry.name, late))
            yield entry, table, run_of(theory, [theory.signature.read_term(statements[fact]) for fact in table.facts])
            proved.add(name)
        if kind != "fact":
            make(theory, LIBRARY.base[n - 1], entry and entry.result.thm)


def sampled():
    """The sample's lines by the scripts' kernel, and its table."""
    proof = Proof(LIBRARY)
    sample.every_line(proof)
    lines = list(proof.lines.values())
    return lines, table_of_lines("EveryLine", lines)


def check_sample():
    """Compares the two ways in which a line is computed, on a line of each kind."""
    lines, table = sampled()
    run = run_of(LIBRARY.theory, [])
    checker.ran(run, table.text)
    for line, th in zip(lines, run.theorems):
        if (line.concl, line.thm.hyps) != (th.concl, frozenset(th.hyps)):
            raise SystemExit("%s gives %s where the kernel has %r" % (line.rule, th, line.thm))
    left = set(checker.WORDS) - {line.rule for line in lines}
    if left or len(lines) != len(run.theorems):
        raise SystemExit("the sample has no line of %s" % ", ".join(left))


def run_of(theory, facts):
    said = [[thm.concl for thm in theorems] for theorems in theory.theorems]
    return checker.Run(theory.signature, said, LIBRARY.theory.axioms, facts)


def check():
    check_sample()
    tables, statements, wrong = {}, {}, 0
    for part in LIBRARY.parts:
        tables |= rust.tables_in((rust.CRATES / part.crate / "src/tables" / (part.name + ".rt")).read_text())
        statements |= rust.facts_in((rust.CRATES / part.crate / "src/facts.rt").read_text())
    for entry, table, run in runs(tables, statements):
        try:
            found = str(checker.ran(run, table.text))
        except checker.Fails as fault:
            found = "nothing: %s" % fault
        stated = "|- " + (statements[rust.constant_name(entry.name)] if entry.text else term_text(entry.result.concl))
        if found != stated:
            wrong += 1
            print("%s computes to %s\nwhere %s is stated" % (entry.name, found, stated))
    if wrong:
        raise SystemExit("%d tables are wrong" % wrong)
    for path, text in written().items():
        if path.read_text() != text:
            raise SystemExit("%s is not what the scripts give" % path)


def count(words):
    other = {}
    if words:
        numbers = re.findall(r"\((\d+) lines", pathlib.Path(words[0]).read_text())
        other = dict(zip((entry.name for part in LIBRARY.parts for entry in part.proved), map(int, numbers)))
    rows = [("", "theorems", "terms", "types", "bytes") + (("other",) if other else ())]
    for table in TABLES:
        row = (table.name, table.theorems, table.count("term"), table.count("type"), len(table.text))
        rows.append(row + ((other.get(table.name, 0),) if other else ()))
    rows.append(("all",) + tuple(map(sum, list(zip(*rows[1:]))[1:])))
    for row in rows:
        print("%-20s" % row[0] + "".join("%9s" % cell for cell in row[1:]))


def show(name):
    tables = {rust.constant_name(table.name): rust.by_constants(table) for table in TABLES}
    statements = {rust.constant_name(entry.name): entry.text for entry in ENTRIES}
    for entry, table, run in runs(tables, statements):
        if name in (entry.name, rust.constant_name(entry.name)):
            for fact, th in zip(table.facts, run.theorems):
                print("%-22s %s" % (fact, th))
            show_lines(table, run)


def show_lines(table, run):
    for line in table.lines:
        run.line(line)
        if line.split(" ", 1)[0] in ("term", "type"):
            print(line)
        else:
            print("%-22s %s" % ("%d: %s" % (len(run.theorems) - 1, line), run.theorems[-1]))


def build():
    made = 10
    for kind, n, entry in LIBRARY.steps:
        if kind == "fact":
            facts = table_of(entry).facts
            print("   fact %s over base %d%s" % (entry.name, made, ", takes " + ", ".join(facts) if facts else ""))
        else:
            made = n
            print("%d: %s%s" % (n, LIBRARY.base[n - 1].split(" = ")[0], " by table " + entry.name if entry else ""))


def main(words):
    if words == ["check"]:
        check()
    elif words == ["write"]:
        for path, text in written().items():
            path.parent.mkdir(parents=True, exist_ok=True)
            path.write_text(text)
    elif words[:1] == ["count"]:
        count(words[1:])
    elif words[:1] == ["show"] and len(words) == 2:
        show(words[1])
    elif words == ["build"]:
        build()
    elif words == ["sample"]:
        show_lines(sampled()[1], run_of(LIBRARY.theory, []))
    else:
        raise SystemExit(__doc__)


if __name__ == "__main__":
    main(sys.argv[1:])
