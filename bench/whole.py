#!/usr/bin/env python3
"""Measures programs that do the job of `hls run` and `hls check` on the same texts, by turns.

Usage: bench/whole.py [--prog NAME=COMMAND].. [--cases a1,b,..] [--reps N] [--timeout SECONDS] [--instructions]
                      [--markdown]
(default: proved=crates/hls_prog/out/hls_prog, which the gate leaves; all cases; 5 repetitions; 120 s of processor time)

Of each program the median processor time (user and system), the whole time by the ticks and by the commands, and the
most memory are told, and the ratios to the first program (x). Cases that begin with h are `check` on reports that the
first program wrote; those with an i, of a million ticks, are of version 2. Outputs are compared in a run that does not
count; the derivations of `by` lines may differ.
--instructions counts instructions besides, by valgrind, which takes long; they do not depend on what else the machine
does. --markdown writes the table of docs/SPEED.md.
"""
import argparse
import os
import sys
import tempfile

from runs import PROVED, count, digest, program, repeat, run
from texts import SCENARIOS

# Audits, each of the report of a scenario.
CHECKS = {"ha": "a1", "hb": "b", "hb2": "b2", "hc": "c", "he": "e", "hf": "f1", "hg": "g", "hi1": "i1",
          "hi2": "i2", "hi4": "i4", "hi5": "i5"}

CASES = list(SCENARIOS) + list(CHECKS)


class Case:
    """A text that is given to each program, and the word that says what to do with it."""

    def __init__(self, name, folder):
        self.name, self.folder = name, folder
        self.word = "check" if name in CHECKS else "run"
        self.title, self.ticks, self.make = SCENARIOS[CHECKS.get(name, name)]
        if name in CHECKS:
            self.title = f"check of {CHECKS[name]}"
        self.source = os.path.join(folder, "source")

    def write(self, command, limit):
        """Writes the text; for a check, the report of this command. Says whether there is one."""
        text = self.make()
        self.commands = text.count("\nat ")
        path = os.path.join(self.folder, "scenario") if self.word == "check" else self.source
        with open(path, "w") as file:
            file.write(text)
        if self.word == "run":
            return True
        made = run(command + ["run"], path, self.source, limit)
        return made is not None and made[0] == 0


class Result:
    """What was measured of a program on a case; numbers are nothing where it took too long."""

    def __init__(self, name):
        self.name = name
        self.status = self.seconds = self.mebibytes = self.instructions = self.output = None

    def same(self, first):
        """A word on the output, beside that of the first program."""
        if self.output is None or first.output is None:
            return ""
        if (self.status, self.output) == (first.status, first.output):
            return "equal"
        return "derivations differ" if self.output[1] == first.output[1] else "DIFFERENT"


def first_run(name, command, case, args):
    """A run that is not timed: its status, its output, and what instructions it takes."""
    result, sink = Result(name), os.path.join(case.folder, "sink")
    done = run(command, case.source, sink, args.timeout)
    if done is not None:
        result.status, result.output = done[0], digest(sink)
        result.instructions = count(command, case.source, args.timeout) if args.instructions else None
    os.unlink(sink)
    return result


def measure(case, args):
    """The results of all programs."""
    commands = [command + [case.word] for _, command in args.prog]
    results = [first_run(name, command, case, args) for (name, _), command in zip(args.prog, commands)]
    ended = [place for place, result in enumerate(results) if result.status is not None]
    times = repeat([commands[place] for place in ended], case.source, args.timeout, args.reps)
    for place, taken in zip(ended, times):
        if taken is not None:
            results[place].seconds, results[place].mebibytes = taken
    return results


def ratio(one, other):
    return f"{one / max(other, 1e-6):.1f}" if one is not None and other is not None else ""


def number(value, form):
    return "" if value is None else format(value, form)


def columns(result, first, case, args):
    """What is told of a program: pairs of a heading and a number."""
    taken = result.seconds
    told = [("s", number(taken, ".3f") or f"over {args.timeout}"), ("MiB", number(result.mebibytes, ".1f"))]
    if result is not first:
        told.insert(1, ("us/tick", number(taken and 1e6 * taken / case.ticks, ".2f")))
        told.insert(2, ("us/command", number(taken and 1e6 * taken / case.commands, ".2f")))
        told.insert(3, ("time x", ratio(taken, first.seconds)))
        told.append(("memory x", ratio(result.mebibytes, first.mebibytes)))
    if args.instructions:
        told.append(("instr/tick", number(result.instructions and result.instructions / case.ticks, ",.0f")))
    if args.instructions and result is not first:
        told.append(("instr x", ratio(result.instructions, first.instructions)))
    return told + ([("output", result.same(first))] if result is not first else [])


def row(case, results, args):
    """Headings and numbers of a case; the first heading of a program bears its name."""
    told = [("Case", f"{case.name}: {case.title}")]
    for result in results:
        (head, value), *others = columns(result, results[0], case, args)
        told += [(f"{result.name} {head}", value)] + others
    return told


def tell(told, args, is_first):
    """Prints the results of a case."""
    if not args.markdown:
        print("; ".join([told[0][1]] + [f"{head} {value}" for head, value in told[1:]]), flush=True)
        return
    if is_first:
        print("| " + " | ".join(head for head, _ in told) + " |")
        print("|---" * len(told) + "|")
    print("| " + " | ".join(value for _, value in told) + " |", flush=True)


def read_words():
    words = argparse.ArgumentParser(description=__doc__, formatter_class=argparse.RawDescriptionHelpFormatter)
    words.add_argument("--prog", action="append", type=program, metavar="NAME=COMMAND")
    words.add_argument("--cases", default=",".join(CASES))
    words.add_argument("--reps", type=int, default=5)
    words.add_argument("--timeout", type=int, default=120)
    words.add_argument("--instructions", action="store_true")
    words.add_argument("--markdown", action="store_true")
    args = words.parse_args()
    args.prog = args.prog or [("proved", [PROVED])]
    unknown = [case for case in args.cases.split(",") if case not in CASES]
    if unknown or args.reps < 1:
        words.error(f"no such case: {unknown[0]}" if unknown else "one repetition at least")
    return args


def main():
    args = read_words()
    print(f"load of the machine at the start: {os.getloadavg()[0]:.1f}; repetitions: {args.reps}\n")
    is_first = True
    for name in args.cases.split(","):
        with tempfile.TemporaryDirectory() as folder:
            case = Case(name, folder)
            if case.write(args.prog[0][1], args.timeout):
                tell(row(case, measure(case, args), args), args, is_first)
                is_first = False
            else:
                print(f"{name}: {args.prog[0][0]} wrote no report in {args.timeout} s", file=sys.stderr)


if __name__ == "__main__":
    main()
