#!/usr/bin/env python3
"""The table of crates in docs/ARCHITECTURE.md, from crates.txt and the crates' READMEs.

    python3 tools/crate_table.py check      fails where the table is another, where a crate has no README, or where its README promises nothing
    python3 tools/crate_table.py write      writes the table

Run from the top of the repository. A row has the crate, the crates that crates.txt lists for it (those of the kit behind them), and the first
sentence of its README. A crate stands behind those that it uses, else by its name. It uses the standard library alone."""

import pathlib
import re
import sys

DOCUMENT = pathlib.Path("docs/ARCHITECTURE.md")
BEGIN, END = "<!-- tools/crate_table.py writes this table -->", "<!-- up to here -->"


def uses():
    """By their names, the libraries that the crates use."""
    lines = [line.partition("#")[0].strip() for line in open("crates.txt", encoding="utf-8")]
    rows = [line.partition(":") for line in lines if line]
    return {name.split()[0]: behind.split() for name, _, behind in rows}


def promise(name):
    """The first sentence of the crate's README, without its full stop."""
    path = pathlib.Path("crates") / name / "README.md"
    if not path.is_file():
        raise SystemExit("%s: there is no README" % name)
    paragraphs = [" ".join(it.split()) for it in path.read_text(encoding="utf-8").split("\n\n")]
    if paragraphs[0] != "# " + name or len(paragraphs) < 2:
        raise SystemExit("%s: it begins with the crate's name as its title, and then its promise" % path)
    sentence = re.match(r"(.*?)\.(?: |$)", paragraphs[1])
    if not sentence or "|" in sentence[1]:
        raise SystemExit("%s: its first paragraph begins with no sentence for the table" % path)
    return sentence[1]


def table():
    below = uses()
    depth = {}

    def deep(name):
        if name not in depth:
            depth[name] = 1 + max((deep(it) for it in below[name] if it in below), default=0)
        return depth[name]

    rows = ["| Crate | Uses | What it promises |", "|---|---|---|"]
    for name in sorted(below, key=lambda it: (deep(it), it)):
        own = ", ".join("`%s`" % it for it in below[name] if it in below)
        kit = ", ".join("`%s`" % it for it in below[name] if it not in below)
        words = own + ("; of the kit " if own else "of the kit ") + kit if kit else own
        rows.append("| `%s` | %s | %s |" % (name, words or "the kit's library alone", promise(name)))
    return "\n".join(rows)


def main(word):
    text = DOCUMENT.read_text(encoding="utf-8")
    before, begin, rest = text.partition(BEGIN)
    now, end, behind = rest.partition(END)
    if not begin or not end:
        raise SystemExit("%s has no lines `%s` and `%s`" % (DOCUMENT, BEGIN, END))
    made = "\n\n%s\n\n" % table()
    if word == "write":
        DOCUMENT.write_text(before + begin + made + end + behind, encoding="utf-8")
    elif now != made:
        one, other = now.split("\n"), made.split("\n")
        at = next((i for i, (a, b) in enumerate(zip(one, other)) if a != b), min(len(one), len(other)))
        raise SystemExit("%s: the table of crates differs from crates.txt and the READMEs; it is to have\n%s\n`python3 tools/crate_table.py write` writes it"
                         % (DOCUMENT, other[at] if at < len(other) else "no more rows"))


if len(sys.argv) != 2 or sys.argv[1] not in ("check", "write"):
    raise SystemExit(__doc__)
main(sys.argv[1])
