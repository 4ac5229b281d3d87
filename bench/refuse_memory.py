#!/usr/bin/env python3
"""Runs the proved program with its N-th request for memory refused, and compares what it printed with the run that got all.

    python3 bench/refuse_memory.py MODE FILE..

For each file, given as standard input, and each N from 1 to 64 and each power of two from 128 to 2^21 the status, the standard error and how much of
the output stood there: all of it, none, or a part from its front. `OTHER` would be something else. It wants a C compiler.
"""
import os
import pathlib
import subprocess
import sys
import tempfile

PROGRAM = pathlib.Path(__file__).resolve().parent.parent / "crates/hbnf/out/hbnf"
REFUSING = r"""
#include <errno.h>
#include <stddef.h>
#include <stdlib.h>
extern void *__libc_malloc(size_t);
extern void *__libc_realloc(void *, size_t);
static long which = -1, count = 0;
static int refused(void) {
    if (which < 0) which = atol(getenv("REFUSE"));
    return ++count == which;
}
void *malloc(size_t size) { if (refused()) { errno = ENOMEM; return 0; } return __libc_malloc(size); }
void *realloc(void *old, size_t size) { if (refused()) { errno = ENOMEM; return 0; } return __libc_realloc(old, size); }
"""


def run(mode, file, library=None, number=0):
    """The status, what was printed, and what was said."""
    environment = dict(os.environ)
    if library:
        environment |= {"LD_PRELOAD": library, "REFUSE": str(number)}
    with open(file, "rb") as text:
        done = subprocess.run([PROGRAM, mode], stdin=text, capture_output=True, env=environment)
    return done.returncode, done.stdout, done.stderr.decode().strip()


def main():
    mode, files = sys.argv[1], sys.argv[2:]
    with tempfile.TemporaryDirectory() as folder:
        source, library = pathlib.Path(folder, "refuse.c"), str(pathlib.Path(folder, "refuse.so"))
        source.write_text(REFUSING)
        subprocess.run(["cc", "-shared", "-fPIC", "-O2", "-o", library, source], check=True)
        for file in files:
            _, whole, _ = run(mode, file)
            seen = {}
            for number in [*range(1, 65), *(2**k for k in range(7, 22))]:
                status, out, said = run(mode, file, library, number)
                part = "all" if out == whole else "none" if not out else "a front" if whole.startswith(out) else "OTHER"
                seen.setdefault((status, said, part), []).append(number)
            print(f"{mode} {file}:")
            for (status, said, part), numbers in seen.items():
                print(f"  status {status}, said {said!r}, printed {part}: N = {numbers[0]} .. {numbers[-1]}, {len(numbers)} of them")


if __name__ == "__main__":
    main()
