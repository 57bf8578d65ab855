#!/usr/bin/env python3
"""Refuses each allocation of a run in turn, and says how the runs end.

Usage: bench/memory.py [--program PROGRAM] [--words WORDS] [TEXT ..]

PROGRAM is crates/hls_prog/out/hls_prog, which the gate leaves, if no other is given. WORDS is run, for scenarios, or
check, for reports, or others in quotes. With no TEXT it runs the scenarios of two worked reports, makes a trial, and
checks a worked report. A run in which an allocation was refused has to end with status 6 and nothing written, or with
the output that is written where none is. The last line of each case counts them; the status is 1 where one run ended
otherwise. It needs a C compiler and glibc.

The calls of the manager have a program of their own, which reads no text: it carries a command out once more where
memory was wanting for it, and writes something else if the tree or the kit had changed. `rt run` in its folder builds
it.

    bench/memory.py --program crates/hls_test_manager/out/hls_test_manager /dev/null
"""
import argparse
import collections
import os
import re
import subprocess
import sys
import tempfile

TOP = os.path.dirname(os.path.dirname(os.path.abspath(__file__)))

REPORTS = os.path.join(TOP, "crates", "hls_test_rows", "data")

MEMORY = 6

# Lines of a report that its scenario has not: answers, derivations, and what comes after the commands.
ANSWERS = re.compile(rb"^(= |by ).*\n|^schedule\n[^\0]*", re.M)

# Counts the calls that take memory, and answers one of them as if there were none.
REFUSING = r"""
#include <errno.h>
#include <stdio.h>
#include <stdlib.h>
extern void *__libc_malloc(size_t), *__libc_calloc(size_t, size_t), *__libc_realloc(void *, size_t);
static long calls, refused = -1;
static int is_refused(void) {
    if (refused < 0) { char *at = getenv("REFUSED"); refused = at ? atol(at) : 0; }
    if (++calls != refused) return 0;
    errno = ENOMEM;
    return 1;
}
void *malloc(size_t size) { return is_refused() ? NULL : __libc_malloc(size); }
void *calloc(size_t count, size_t size) { return is_refused() ? NULL : __libc_calloc(count, size); }
void *realloc(void *old, size_t size) { return is_refused() ? NULL : __libc_realloc(old, size); }
__attribute__((destructor)) static void tell(void) {
    char *path = getenv("CALLS");
    long counted = calls;
    FILE *file = path ? fopen(path, "w") : NULL;
    if (file) { fprintf(file, "%ld\n", counted); fclose(file); }
}
"""


def build(folder):
    """The library that refuses."""
    source, library = os.path.join(folder, "refusing.c"), os.path.join(folder, "refusing.so")
    with open(source, "w") as file:
        file.write(REFUSING)
    subprocess.run(["cc", "-O1", "-fno-builtin", "-shared", "-fPIC", "-o", library, source], check=True)
    return library


class Runs:
    """Runs of a program on a scenario."""

    def __init__(self, command, text, library, folder):
        self.command, self.text, self.library = command, text, library
        self.told = os.path.join(folder, "calls")

    def run(self, refused):
        """Status and output where the call of this number, from 1, is refused; 0 for none."""
        here = dict(os.environ, LD_PRELOAD=self.library, REFUSED=str(refused), CALLS=self.told)
        done = subprocess.run(self.command, input=self.text, capture_output=True, env=here)
        return done.returncode, done.stdout

    def calls(self):
        """How many calls the last run made."""
        with open(self.told) as file:
            return int(file.read())


def try_each(runs):
    """How the runs end, and which of them as they should not."""
    whole = runs.run(0)
    calls = runs.calls()
    ends, others = collections.Counter(), []
    for refused in range(1, calls + 1):
        end = runs.run(refused)
        if end == (MEMORY, b""):
            ends["out of memory"] += 1
        elif end == whole:
            ends["the same output"] += 1
        else:
            ends["otherwise"] += 1
            others.append((refused, end[0], len(end[1])))
    return whole[0], calls, ends, others


def read(path):
    with open(path, "rb") as file:
        return file.read()


def worked(name):
    """A worked report."""
    return read(os.path.join(REPORTS, f"{name}.report"))


def scenario_of(report):
    """The scenario whose commands a report tells."""
    return ANSWERS.sub(b"", report.replace(b"hls-report", b"hls", 1))


def cases():
    """What is tried where no text is given: a title, words, and what is read."""
    for name in ["settling", "desktop"]:
        yield name, ["run"], scenario_of(worked(name))
    yield "trial 0", ["trial", "0"], b""
    yield "check of two-reservations", ["check"], worked("two-reservations")


def main():
    given = argparse.ArgumentParser()
    given.add_argument("--program", default=os.path.join(TOP, "crates", "hls_prog", "out", "hls_prog"))
    given.add_argument("--words", type=str.split, default=["run"])
    given.add_argument("texts", nargs="*")
    args = given.parse_args()
    bad = False
    with tempfile.TemporaryDirectory() as folder:
        library = build(folder)
        for title, words, text in [(path, args.words, read(path)) for path in args.texts] or cases():
            status, calls, ends, others = try_each(Runs([args.program] + words, text, library, folder))
            for refused, end, written in others:
                print(f"{title}: call {refused} refused: status {end}, {written} bytes written")
            counts = ", ".join(f"{count} {how}" for how, count in sorted(ends.items()))
            print(f"{title}: status {status}, {calls} calls, each refused in turn: {counts}", flush=True)
            bad = bad or bool(others) or calls == 0
    return 1 if bad else 0


if __name__ == "__main__":
    sys.exit(main())
