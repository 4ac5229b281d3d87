#!/usr/bin/env python3
"""Writes proof logs whose types and terms are doubled step by step, and times `hbnf replay` on them.

    python3 bench/doubled.py PROGRAM [--base LOG] [--times 60] [--limit SECONDS] [--memory BYTES] [--before] [--show CASE]

Each log is short and names something whose tree has about 2^60 nodes; shared, it has some hundred. Those before the base line stand by
themselves. Those behind it are put into LOG, which `hbnf log` wrote for the empty text: without `--base` PROGRAM writes it. For each case
the milliseconds of the fastest of three runs are printed, with the exit code and what was said; a run that takes longer than the limit is
ended and told as such. Behind the base line a new type of a doubled type is good, and its report would have 2^60 bytes: that run
ends with status 5 at the limit of memory, which is set for each run. With `--before` only those before the base line are run. With `--show` the log of that case is printed, and nothing is run.
"""
import argparse
import resource
import subprocess
import sys
import time

FUNCTION = "'a -> 'a"
STEPS = {"type": 2, "hbnf-log": 0, "base": 0, "section": 0, "name": 0, "end": 0, "stop": 0}


def steps_of(line):
    """How many steps a line adds."""
    return STEPS.get(line.split(" ", 1)[0], 1)


class Log:
    """Lines behind a front, and the number of the next step."""

    def __init__(self, front):
        self.lines = list(front)
        self.count = sum(map(steps_of, front))

    def add(self, line):
        self.lines.append(line)
        self.count += steps_of(line)
        return self.count - 1

    def end(self):
        self.lines.append(f"end {len(self.lines)}")

    def text(self):
        return "".join(line + "\n" for line in self.lines)


def double_type(log, step, times):
    """The step with a type variable that was replaced by a function type of itself, so many times."""
    for _ in range(times):
        step = log.add(f"insttype {step} 'a := {FUNCTION}")
    return step


def double_term(log, step, times):
    """The step with a variable that was replaced by an application of two of itself, so many times."""
    for _ in range(times):
        step = log.add(f"inst {step} [p:bool] := [g:bool -> bool -> bool] [p:bool] [p:bool]")
    return step


def doubled_equation(log, times):
    """`|- (\\x. x) = (\\x. x)` at a doubled type: the predicate `(=) (\\x. x)` is closed, and its type variable is in all of it."""
    variable = log.add("refl [x:'a]")
    equation = log.add(f"abs [x:'a] {variable}")
    return double_type(log, equation, times)


def types_by_steps(log, times):
    step = double_type(log, log.add("refl [x:'a]"), times)
    log.add(f"trans {step} {step}")


def new_type_of_doubled(log, times):
    """A new type: its type variables are looked for in a predicate of a doubled type."""
    log.add(f"type doubled {doubled_equation(log, times)}")


def two_new_types_of_doubled(log, times):
    """The same, where the type variable of the second predicate stands behind a doubled type that has none."""
    step = doubled_equation(log, times)
    step = log.add(f"insttype {step} 'a := bool")
    log.add(f"type doubled {step}")


def terms_by_steps(log, times):
    step = log.add("refl [p:bool]")
    step = double_term(log, step, times)
    log.add(f"trans {step} {step}")


def closed_terms_by_steps(log, times):
    """An equation of doubled terms whose variable is bound at last, and a new type of it: free variables and type variables are looked for."""
    step = log.add("refl [p:bool]")
    step = double_term(log, step, times)
    step = log.add(f"abs [p:bool] {step}")
    step = log.add(f"abs [g:bool -> bool -> bool] {step}")
    log.add(f"type doubled {step}")


def named_with_another_text(log, times):
    """A name line that is bad: the doubled conclusion isn't what the line says."""
    step = doubled_equation(log, times)
    log.add(f"name doubled {step} (\\x0:'a. x0) = (\\x0:'a. x0)")


def assumed(log, times):
    """Hypotheses of doubled terms, which are put in order."""
    left = double_term(log, log.add("assume [p:bool]"), times)
    right = double_term(log, log.add("assume [p:bool]"), times - 1)
    log.add(f"deduct {left} {right}")


CASES = {
    "types by steps": types_by_steps,
    "a new type of a doubled type": new_type_of_doubled,
    "a new type of a doubled type without variables": two_new_types_of_doubled,
    "terms by steps": terms_by_steps,
    "a new type of doubled terms": closed_terms_by_steps,
    "a name line with another text": named_with_another_text,
    "hypotheses": assumed,
}


def run(program, log, limit, memory):
    """The seconds of a replay, its exit code and what it said, or None where it took longer than the limit."""
    bounded = (lambda: resource.setrlimit(resource.RLIMIT_AS, (memory, memory))) if memory else None
    begun = time.perf_counter()
    try:
        done = subprocess.run([*program, "replay"], input=log, capture_output=True, timeout=limit, preexec_fn=bounded)
    except subprocess.TimeoutExpired:
        return None
    return time.perf_counter() - begun, done.returncode, (done.stdout + done.stderr).decode(errors="replace").strip().split("\n")[-1]


def main():
    arguments = argparse.ArgumentParser(description=__doc__, formatter_class=argparse.RawDescriptionHelpFormatter)
    arguments.add_argument("program", nargs="+", help="the program, and words to put before `replay`")
    arguments.add_argument("--base", help="a log of the empty text, as `hbnf log` writes it")
    arguments.add_argument("--times", type=int, default=60)
    arguments.add_argument("--limit", type=float, default=20)
    arguments.add_argument("--memory", type=int, default=2**31, help="bytes of address space of a run, or 0 for no limit")
    arguments.add_argument("--before", action="store_true", help="only the logs before the base line")
    arguments.add_argument("--show", choices=CASES)
    arguments = arguments.parse_args()
    if arguments.before or arguments.show:
        base = ""
    elif arguments.base:
        with open(arguments.base, encoding="utf-8") as file:
            base = file.read()
    else:
        base = subprocess.run([*arguments.program, "log"], input=b"", capture_output=True, check=True).stdout.decode()
    front = base.split("\n")[:-2]
    for place, lines in (("before the base line", ["hbnf-log 1"]), ("behind it", front)):
        if place == "behind it" and not front:
            break
        for name, build in CASES.items():
            log = Log(lines)
            build(log, arguments.times)
            log.end()
            if arguments.show:
                if arguments.show == name:
                    sys.stdout.write(log.text())
                continue
            again = lambda: run(arguments.program, log.text().encode(), arguments.limit, arguments.memory)
            runs = [again()]
            if runs[0] is not None:
                runs += [again() for _ in range(2)]
            told = "more than %g s" % arguments.limit if runs[0] is None else "%7.1f ms  exit %d  %s" % (1000 * min(r[0] for r in runs), runs[0][1], runs[0][2][:80])
            print(f"{name}, {place}: {told}", flush=True)


if __name__ == "__main__":
    main()
