#!/usr/bin/env python3
"""Seconds of `rt check` for each table of a part of the library, one after another.

    python3 tools/table_seconds.py CRATE [NAME..]

Run from the top of the repository, where library_steps is built (`rt lib` in crates/library_steps): for each table of the crate, or each one that
is named, it writes a crate `one_table` with a law that the table gives its fact, checks it from nothing with one job, prints the seconds of the
wall and of the processor, and takes the crate away again. The first line is a crate with an equation of truth values in place of a table: what
loading costs."""
import os
import re
import resource
import shutil
import subprocess
import sys
import time

LAW = """//! One table of the library.
#![tactic(auto)]

ghost use Rattle.std.specs.Prelude.{◌≡◌, ℕ};

pub fn one()
    ensures { (n : ℕ) → n ≡ n }
{}
"""


def tables(text):
    """The head of the file, and each table with its lemmas."""
    head, *rest = re.split(r"(?m)^(?=abbrev \w+ : Text$)", text)
    return head, rest


def seconds(proofs):
    shutil.rmtree("crates/one_table/out", ignore_errors=True)
    with open("crates/one_table/proofs/Table.antt", "w") as file:
        file.write(proofs)
    before, start = resource.getrusage(resource.RUSAGE_CHILDREN), time.time()
    ran = subprocess.run(["rt", "check", "--jobs", "1"], cwd="crates/one_table", capture_output=True, text=True)
    after, wall = resource.getrusage(resource.RUSAGE_CHILDREN), time.time() - start
    if "logic=proved" not in ran.stdout:
        sys.exit(ran.stdout + ran.stderr)
    return wall, after.ru_utime - before.ru_utime


def main():
    crate, *only = sys.argv[1:]
    head, lemmas = tables(open("crates/%s/proofs/TableProofs.antt" % crate).read())
    crates = open("crates.txt").read()
    line = next(it for it in crates.splitlines() if it.startswith(crate + ":"))
    os.makedirs("crates/one_table/src")
    os.makedirs("crates/one_table/proofs")
    try:
        with open("crates.txt", "a") as file:
            file.write("one_table: " + line.split(": ")[1] + "\n")
        with open("crates/one_table/src/lib.rt", "w") as file:
            file.write(LAW)
        with open("crates/one_table/proofs/Lib.antt", "w") as file:
            file.write("pub mod Table\n")
        loading = "use Rattle.std.proofs.Common.{◌≡◌, true, refl}\n\npub same : true ≡ true\nsame = refl\n"
        print("%-24s %5.1f %5.1f" % ("loading alone", *seconds(loading)), flush=True)
        for lemma in lemmas:
            name = re.match(r"abbrev (\w+)", lemma)[1]
            if not only or name in only:
                print("%-24s %5.1f %5.1f" % (name, *seconds(head + lemma)), flush=True)
    finally:
        shutil.rmtree("crates/one_table")
        with open("crates.txt", "w") as file:
            file.write(crates)


main()
