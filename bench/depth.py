#!/usr/bin/env python3
"""Finds to what depth a proof log may nest before `hbnf replay` runs out of stack.

    python3 bench/depth.py PROGRAM [--stack BYTES] [--most 400000]

Each form is one line of a log that nests to some depth. Printed is the greatest depth that ended with an exit code, to within a sixteenth,
or that all depths up to the most did.
"""
import argparse
import resource
import subprocess

FORMS = {
    "a function type, nested in its range": lambda n: "refl [x:" + "bool -> " * n + "bool]",
    "a function type, nested in its domain": lambda n: "refl [x:" + "(" * (n - 1) + "bool -> bool" + ") -> bool" * (n - 1) + "]",
    "an application, nested in its argument": lambda n: "refl " + "[f:bool -> bool] (" * (n - 1) + "[f:bool -> bool] [x:bool]" + ")" * (n - 1),
    "abstractions": lambda n: "refl " + "".join(f"\\x{k}:bool. " for k in range(n)) + "x0",
    "open parentheses of terms": lambda n: "refl " + "(" * n,
    "open parentheses of types": lambda n: "refl [x:" + "(" * n,
}


def ends(program, log, stack):
    """Whether the program ends with an exit code, and not by a signal."""
    limit = lambda: resource.setrlimit(resource.RLIMIT_STACK, (stack, stack))
    done = subprocess.run([*program, "replay"], input=log.encode(), capture_output=True, preexec_fn=limit)
    return 0 <= done.returncode <= 7 and not (done.returncode == 1 and b"stack-overflow" in done.stderr)


def main():
    arguments = argparse.ArgumentParser(description=__doc__, formatter_class=argparse.RawDescriptionHelpFormatter)
    arguments.add_argument("program", nargs="+", help="the program, and words to put before `replay`")
    arguments.add_argument("--stack", type=int, default=8 * 1024 * 1024)
    arguments.add_argument("--most", type=int, default=400_000)
    arguments = arguments.parse_args()
    for name, line in FORMS.items():
        holds = lambda n: ends(arguments.program, f"hbnf-log 1\n{line(n)}\nend 2\n", arguments.stack)
        low, high = 0, 1000
        while high <= arguments.most and holds(high):
            low, high = high, 2 * high
        if high > arguments.most:
            print(f"{name}: {low} and more", flush=True)
            continue
        while high - low > max(low // 16, 1):
            middle = (low + high) // 2
            low, high = (middle, high) if holds(middle) else (low, middle)
        print(f"{name}: {low}", flush=True)


if __name__ == "__main__":
    main()
