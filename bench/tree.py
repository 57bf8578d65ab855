#!/usr/bin/env python3
"""Times ticks and commands of the whole program on large hierarchies.

Usage: bench/tree.py [--prog NAME=COMMAND].. [--instructions] [--markdown]
(default: proved=crates/hls_prog/out/hls_prog, which the gate leaves)

Each case is run with few and with many ticks or commands, several times each, and what is printed are the microseconds
of processor time that one more tick or command takes: the least time of the greater less that of the smaller, by how
many more there are. --instructions counts instructions too, by valgrind. A move and the move back are two commands, and
so are a load and an unload. --markdown writes a table of docs/SPEED.md.
"""
import argparse
import os
import sys
import tempfile

from runs import PROVED, count, program, run
from texts import at_first, scenario

RUNS = 5

LIMIT = 120

# Schedulers by turns on three levels, so that there are 64 of them.
BRANCHES = 7
LEAVES = 8

THREADS = 256


def wide():
    """64 schedulers and 256 threads, all of them ready."""
    lines = ["load root rr 2 on cpu as ALL"]
    leaves = []
    for branch in range(BRANCHES):
        lines.append(f"load b{branch} rr 2 on root turn as NULL")
        for leaf in range(LEAVES):
            leaves.append(f"l{branch}_{leaf}")
            lines.append(f"load {leaves[-1]} rr 2 on b{branch} turn as NULL")
    for number in range(THREADS):
        lines.append(f"thread t{number} on {leaves[number % len(leaves)]} turn as NULL")
        lines.append(f"wake t{number}")
    return at_first(*lines)


def tall():
    """A scheduler m above eight others, with 32 threads on each of them, and two places for it."""
    lines = ["load root fp on cpu as ALL", "load one rr 1 on root prio 0 as NULL"]
    lines += ["load two rr 1 on root prio 1 as NULL", "load m rr 1 on one turn as NULL"]
    for leaf in range(THREADS // 32):
        lines.append(f"load l{leaf} rr 1 on m turn as NULL")
        for number in range(32):
            lines.append(f"thread t{leaf}_{number} on l{leaf} turn as NULL")
            lines.append(f"wake t{leaf}_{number}")
    return at_first(*lines)


def joined():
    """Joins down to level 7, each of which sits on all schedulers above it that have room for it."""
    lines = ["load root rr 1 on cpu as ALL", "load x rr 1 on root turn as NULL"]
    above = ["root", "x"]
    for level in (3, 5, 7):
        perches = " , ".join(f"{name} turn as NULL" for name in above)
        lines.append(f"load j{level} join on {perches}")
        if level < 7:
            lines.append(f"load r{level} rr 1 on j{level} sole as NULL")
            above.append(f"r{level}")
    return at_first(*lines, "load y rr 1 on root turn as NULL", "thread t on r5 turn as NULL", "wake t")


def to_and_fro(name, first, second, pairs):
    """So many moves to a place and back."""
    return at_first(f"move {name} to {first} as NULL", f"move {name} to {second} as NULL") * pairs


def loads(pairs):
    """So many loads at the deepest level, each of which is unloaded again."""
    return at_first("load z fp on j7 sole as NULL", "unload z") * pairs


def least_seconds(command, source, sink):
    """The least time of some runs on a text, none of which may refuse a command."""
    runs = [run(command, source, sink, LIMIT) for _ in range(RUNS)]
    if None in runs or any(status for status, _, _ in runs):
        sys.exit(f"{command[0]} took too long or ended with another status than 0")
    with open(sink, "rb") as report:
        if b"= refused" in report.read():
            sys.exit("a command was refused")
    return min(seconds for _, seconds, _ in runs)


def measure(command, text, counting):
    """The seconds and the instructions of a run on a text."""
    with tempfile.TemporaryDirectory() as folder:
        source, sink = os.path.join(folder, "source"), os.path.join(folder, "sink")
        with open(source, "w") as file:
            file.write(text)
        taken = least_seconds(command, source, sink)
        return taken, count(command, source, LIMIT) if counting else None


def of_one(command, few, many, more, counting):
    """The microseconds and the instructions of one more tick or command, of so many."""
    few, many = measure(command, few, counting), measure(command, many, counting)
    told = [f"{(many[0] - few[0]) / more * 1e6:.1f}"]
    if counting:
        told.append("" if None in (few[1], many[1]) else f"{(many[1] - few[1]) / more:,.0f}")
    return told


def ticks(items, few=500, many=20500):
    """Two texts, and how many more ticks the second has."""
    return scenario(items, few), scenario(items, many), many - few


def commands(items, more):
    """Two texts, and how many more commands the second has."""
    return scenario(items, 1), scenario(items + more, 1), len(more)


CASES = {
    "tick, 64 schedulers, 256 threads": lambda: ticks(wide()),
    "tick, joins down to level 7": lambda: ticks(joined()),
    "move above 256 threads": lambda: commands(tall(), to_and_fro("m", "two turn", "one turn", 50)),
    "move above joins": lambda: commands(joined(), to_and_fro("x", "root turn", "root turn", 500)),
    "move below joins, to level 8": lambda: commands(joined(), to_and_fro("y", "j7 sole", "root turn", 500)),
    "load below joins, at level 8": lambda: commands(joined(), loads(50)),
    "wake, 256 threads": lambda: commands(wide(), at_first("wake t0", "block t0") * 15000),
}


def row(cells, is_marked):
    """A line of the table."""
    if is_marked:
        return "| " + " | ".join(cells) + " |"
    return f"{cells[0]:<36}" + "".join(f"{cell:>20}" for cell in cells[1:])


def read_words():
    words = argparse.ArgumentParser(description=__doc__, formatter_class=argparse.RawDescriptionHelpFormatter)
    words.add_argument("--prog", action="append", type=program, metavar="NAME=COMMAND")
    words.add_argument("--instructions", action="store_true")
    words.add_argument("--markdown", action="store_true")
    args = words.parse_args()
    args.prog = args.prog or [("proved", [PROVED])]
    return args


def main():
    args = read_words()
    heads = ["us", "instructions"] if args.instructions else ["us"]
    heads = ["One more"] + [f"{name} {head}" for name, _ in args.prog for head in heads]
    print(row(heads, args.markdown))
    if args.markdown:
        print("|---" * len(heads) + "|")
    for title, make in CASES.items():
        told = [of_one(command + ["run"], *make(), args.instructions) for _, command in args.prog]
        print(row([title] + [cell for cells in told for cell in cells], args.markdown), flush=True)


if __name__ == "__main__":
    main()
