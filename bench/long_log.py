#!/usr/bin/env python3
"""Extends a proof log to a given number of lines by seeded random steps, for measuring `hbnf replay`.

    hbnf log < theory | python3 bench/long_log.py --lines 200000 --seed 1 > long.log

The steps are put before the log's last line, which gets the new count. Each is one that its rule allows: reflexivity, transitivity,
congruence, abstraction, beta, assumption, modus ponens of equations, deduction and both instantiations, over terms of the logic's start.
"""
import argparse
import random
import sys

TERMS = ["[{v}:bool]", "\\x0:bool. x0", "\\x0:bool. [{v}:bool]", "[{v}:'a]", "\\x0:'a. x0", "[{f}:bool -> bool] [{v}:bool]",
         "[{f}:'a -> bool -> bool] [{v}:'a]", "\\x0:bool. [{f}:bool -> bool] x0", "[{v}:bool] = [{w}:bool]", "\\x0:bool. \\x1:bool. x0 = x1"]


def steps_of(line):
    """How many steps a line adds."""
    word = line.split(" ", 1)[0]
    if word == "type":
        return 2
    return 0 if word in ("hbnf-log", "base", "section", "name", "end", "stop") else 1


class Steps:
    """The lines of random steps, and the numbers of those that others can stand on."""

    def __init__(self, seed, count):
        self.random = random.Random(seed)
        self.count = count
        self.lines = []

    def add(self, text):
        self.lines.append(text)
        self.count += 1
        return self.count - 1

    def name(self, letter):
        return f"{letter}{self.random.randrange(500)}"

    def term(self):
        return self.random.choice(TERMS).format(v=self.name("v"), w=self.name("w"), f=self.name("f"))

    def reflexivity(self):
        i = self.add(f"refl {self.term()}")
        self.add(f"trans {i} {i}")

    def congruence(self):
        i = self.add(f"refl [{self.name('f')}:bool -> bool]")
        j = self.add(f"refl [{self.name('v')}:bool]")
        self.add(f"comb {i} {j}")

    def abstraction(self):
        v = self.name("v")
        i = self.add(f"refl [{self.name('f')}:bool -> bool] [{v}:bool]")
        self.add(f"abs [{v}:bool] {i}")

    def reduction(self):
        self.add(f"beta (\\x0:bool. [{self.name('f')}:bool -> bool] x0) [{self.name('v')}:bool]")

    def deduction(self):
        p, q = self.name("p"), self.name("q")
        i = self.add(f"assume [{p}:bool]")
        j = self.add(f"assume [{q}:bool]")
        k = self.add(f"deduct {i} {j}")
        self.add(f"mp {k} {i}")

    def instances(self):
        v = self.name("v")
        i = self.add(f"refl [{v}:'a]")
        j = self.add(f"insttype {i} 'a := bool -> bool")
        self.add(f"inst {j} [{v}:bool -> bool] := \\x0:bool. x0")


def main():
    arguments = argparse.ArgumentParser(description=__doc__)
    arguments.add_argument("--lines", type=int, default=200_000, help="how many lines the log is to have")
    arguments.add_argument("--seed", type=int, default=1)
    arguments = arguments.parse_args()
    log = sys.stdin.read().split("\n")
    if log[-1] != "" or not log[-2].startswith("end "):
        sys.exit("long_log: no log that ends in an `end` line")
    front = log[:-2]
    steps = Steps(arguments.seed, sum(map(steps_of, front)))
    kinds = [steps.reflexivity, steps.congruence, steps.abstraction, steps.reduction, steps.deduction, steps.instances]
    while len(front) + len(steps.lines) + 1 < arguments.lines:
        steps.random.choice(kinds)()
    lines = (front + steps.lines)[:arguments.lines - 1]
    sys.stdout.write("\n".join(lines) + f"\nend {len(lines)}\n")


if __name__ == "__main__":
    main()
