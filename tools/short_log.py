#!/usr/bin/env python3
"""Shortens a proof log: of the kernel's steps those alone stay that its definitions and its named theorems need.

    crates/hbnf/out/hbnf log < examples/identity.hbnf | python3 tools/short_log.py > short.log

Steps are numbered anew, of equal steps one stays, and the last line has the new count. What stands in `cases/` as `log_of_identity.log` was made so. It uses the
standard library alone."""

import sys

# Where a line has the numbers of steps, by its first word; an `abs` line has one at its end.
OPERANDS = {"trans": (1, 2), "comb": (1, 2), "mp": (1, 2), "deduct": (1, 2), "insttype": (1,), "inst": (1,), "type": (2,), "name": (2,), "abs": (-1,)}
# How many steps a line gives.
STEPS = {**dict.fromkeys("refl trans comb abs beta assume mp deduct insttype inst axiom const".split(), 1), "type": 2}
DEFINES = ("const", "type")


def short(lines):
    rows = [line.split(" ") for line in lines]
    # The line that gives each step, and the first step of each line.
    giver, first = [], {}
    for at, row in enumerate(rows):
        first[at] = len(giver)
        giver += [at] * STEPS.get(row[0], 0)
    needed, left = set(), [at for at, row in enumerate(rows) if row[0] not in STEPS or row[0] in DEFINES]
    while left:
        at = left.pop()
        if at not in needed:
            needed.add(at)
            left += [giver[int(rows[at][place])] for place in OPERANDS.get(rows[at][0], ())]
    made, number, numbers, known = [], 0, {}, {}
    for at in sorted(needed):
        row = list(rows[at])
        for place in OPERANDS.get(row[0], ()):
            row[place] = str(numbers[int(row[place])])
        if row[0] in ("end", "stop"):
            row[1] = str(len(made))
        line, count = " ".join(row), STEPS.get(row[0], 0)
        if count and row[0] not in DEFINES and line in known:
            numbers[first[at]] = known[line]
            continue
        known[line] = number
        for one in range(count):
            numbers[first[at] + one] = number
            number += 1
        made.append(line)
    return made


print("\n".join(short(sys.stdin.read().rstrip("\n").split("\n"))))
