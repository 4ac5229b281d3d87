#!/usr/bin/env python3
"""Runs the proved program on the texts and logs of cases/, and compares what it says with the files beside them.

    python3 tools/cases.py [--program FILE] [NAME ..]

Run from the top of the repository. The program is crates/hbnf/out/hbnf, which `rt ci` leaves there (and `rt run` in crates/hbnf), or FILE.
With names only these cases are run. One line a case, `ok NAME` or `FAIL NAME: the first difference`, and a count at the end; the status is 1
where a case failed, where a case has no answer, or where an answer has no case. `cases/README.md` says which files make a case.

It uses the standard library alone."""

import concurrent.futures
import functools
import os
import pathlib
import subprocess
import sys

CASES = pathlib.Path("cases")
PROGRAM = "crates/hbnf/out/hbnf"
SECONDS = 120
NO_CASES = ("README.md", ".gitattributes")
# What a case is made of, by the ending of its input: its answer, and what may stand beside it.
THEORY, LOG = ".hbnf", ".log"
ANSWERS = {THEORY: ".out", LOG: ".report"}
BESIDE = {THEORY: (".status",), LOG: (".status", ".err")}
REPEAT = ".repeat"


class Fault(Exception):
    """What a case differs in."""


def pieces(path):
    """A text that is written as lines `COUNT PIECE`: each piece that many times, one after the other, without newlines."""
    lines = path.read_bytes().split(b"\n")
    if lines.pop() != b"":
        raise Fault("%s has no newline at its end" % path.name)
    made = []
    for line in lines:
        count, space, piece = line.partition(b" ")
        if not space or not count.isdigit():
            raise Fault("%s has a line that is not a count and a piece" % path.name)
        made.append(int(count) * piece)
    return b"".join(made)


def given(name, kind):
    """The bytes of a case's input."""
    plain = CASES / (name + kind)
    return plain.read_bytes() if plain.is_file() else pieces(CASES / (name + kind + REPEAT))


def beside(name, ending):
    path = CASES / (name + ending)
    return path.read_bytes() if path.is_file() else None


def shown(line):
    text = line.decode(errors="backslashreplace")
    return text if len(text) <= 120 else "%s.. (%d bytes)" % (text[:100], len(line))


def differ(what, got, want):
    """Says where two texts differ first, if they do."""
    if got == want:
        return
    one, other = got.split(b"\n"), want.split(b"\n")
    at = next((i for i, (a, b) in enumerate(zip(one, other)) if a != b), min(len(one), len(other)))
    end = "the end"
    first = "`%s`" % shown(one[at]) if at < len(one) else end
    second = "`%s`" % shown(other[at]) if at < len(other) else end
    raise Fault("%s: line %d is %s, and not %s" % (what, at + 1, first, second))


def call(program, mode, text):
    try:
        ran = subprocess.run([program, mode], input=text, capture_output=True, timeout=SECONDS)
    except subprocess.TimeoutExpired:
        raise Fault("%s: it had not ended after %d seconds" % (mode, SECONDS))
    return ran.returncode, ran.stdout, ran.stderr


@functools.lru_cache(maxsize=32)
def replay(program, log):
    """What `replay` does with a log. Theories that are refused by one test have one log, which is replayed once."""
    return call(program, "replay", log)


def expect(what, ran, want):
    """Compares a run's status, output and standard error with what they are to be."""
    (status, out, err), (want_status, want_out, want_err) = ran, want
    differ("%s, output" % what, out, want_out)
    differ("%s, standard error" % what, err, want_err)
    if status != want_status:
        raise Fault("%s: the status is %d, and not %d" % (what, status, want_status))


def status_beside(name, usual):
    text = beside(name, ".status")
    if text is None:
        return usual
    if not text.strip().isdigit() or int(text) == usual:
        raise Fault("its file .status holds no number, or the usual one, %d" % usual)
    return int(text)


def last_line(text):
    return text.rstrip(b"\n").rpartition(b"\n")[2]


def theory_case(program, name):
    """`check` prints the answer. `log` ends with the same status, and `replay` of that log prints the same answer, byte for byte, and finds it
    good. Where the theory isn't refused, the log without its last line is cut, and one with another theorem in its `name` line is bad there."""
    text, answer = given(name, THEORY), beside(name, ".out")
    is_refused = last_line(answer).startswith(b"refused ")
    status = status_beside(name, 1 if is_refused else 0)
    expect("check", call(program, "check", text), (status, answer, b""))
    if status not in (0, 1):
        return
    ended, log, said = call(program, "log", text)
    expect("log", (ended, b"", said), (status, b"", b""))
    lines = log.split(b"\n")
    if lines.pop() != b"" or lines[:1] != [b"hbnf-log 1"]:
        raise Fault("log: it does not begin with `hbnf-log 1` and end with a newline")
    last = b"stop %d %s" % (len(lines) - 1, last_line(answer).partition(b" ")[2]) if is_refused else b"end %d" % (len(lines) - 1)
    differ("log, last line", lines[-1], last)
    expect("replay of its log", replay(program, log), (0, answer, b""))
    if is_refused:
        return
    cut = b"".join(line + b"\n" for line in lines[:-1])
    expect("replay of its log without the last line", call(program, "replay", cut), (7, answer, b"badlog %d cut\n" % len(lines)))
    named = [at for at, line in enumerate(lines) if line.startswith(b"name ")]
    if named:
        at = named[0]
        changed = [*lines[:at], b" ".join([*lines[at].split(b" ")[:3], b"T"]), *lines[at + 1 :]]
        report = answer[: answer.index(b"\nthm ") + 1]
        ran = call(program, "replay", b"".join(line + b"\n" for line in changed))
        expect("replay of its log with another theorem", ran, (7, report, b"badlog %d text\n" % (at + 1)))


def log_case(program, name):
    """`replay` prints the report, and says why the log is bad where it is to be."""
    said = beside(name, ".err")
    status = status_beside(name, 0 if said is None else 7)
    expect("replay", call(program, "replay", given(name, LOG)), (status, beside(name, ".report"), said or b""))


def listed():
    """The cases by their names, and what is wrong with the files of the folder."""
    files = sorted(path.name for path in CASES.iterdir() if path.name not in NO_CASES)
    cases, faults = {}, {}
    for file in files:
        name, _, ending = file.partition(".")
        kind = "." + ending.removesuffix(REPEAT)
        if kind in ANSWERS:
            if name in cases:
                faults[name] = "it has two inputs"
            elif "%s%s" % (name, ANSWERS[kind]) not in files:
                faults[name] = "it has no answer, cases/%s%s" % (name, ANSWERS[kind])
            cases[name] = kind
    for file in files:
        name, _, ending = file.partition(".")
        kind, ending = cases.get(name), "." + ending
        if kind is None:
            faults[name] = "cases/%s is the answer of no case" % file
        elif ending not in (kind, kind + REPEAT, ANSWERS[kind], *BESIDE[kind]):
            faults[name] = "cases/%s is no file of such a case" % file
    return cases, faults


def judged(program, name, kind, fault):
    """The line of a case, and whether it passed."""
    try:
        if fault:
            raise Fault(fault)
        (theory_case if kind == THEORY else log_case)(program, name)
    except Fault as why:
        return "FAIL %s: %s" % (name, why), False
    return "ok %s" % name, True


def main(words):
    program = PROGRAM
    if words[:1] == ["--program"]:
        program, words = words[1], words[2:]
    if not os.access(program, os.X_OK):
        print("there is no program %s: `rt ci` leaves it, and so does `rt run` in crates/hbnf" % program)
        return 1
    program = os.path.abspath(program)
    cases, faults = listed()
    names = words or sorted({*cases, *faults})
    for name in names:
        if name not in cases and name not in faults:
            faults[name] = "there is no such case"
    passed = 0
    with concurrent.futures.ThreadPoolExecutor(os.cpu_count()) as pool:
        for line, well in pool.map(lambda it: judged(program, it, cases.get(it), faults.get(it)), names):
            print(line, flush=True)
            passed += well
    print("%d cases passed, %d failed" % (passed, len(names) - passed))
    return 0 if names and passed == len(names) else 1


if __name__ == "__main__":
    sys.exit(main(sys.argv[1:]))
