#!/usr/bin/env python3
"""Measures everything of docs/SPEED.md and writes its tables anew.

Usage: bench/tables.py [--other COMMAND] [--proved COMMAND] [--view COMMAND] [--offer COMMAND]
                       [--reps N] [--instructions]
(default: the programs that the gate leaves in crates/*/out, measured alone, 7 repetitions)

COMMAND is a program that does the same job as `hls`; it stands first, and ratios are to it. A table stands in the page
between a line `<!-- table: NAME -->` and a line `<!-- end -->`.
"""
import argparse
import os
import re
import subprocess
import sys

from runs import TOP

PAGE = os.path.join(TOP, "docs", "SPEED.md")


def left(crate):
    """The program that the gate leaves of a crate."""
    return os.path.join(TOP, "crates", crate, "out", crate)


def table(script, *words):
    """The table that a script prints."""
    command = [sys.executable, os.path.join(TOP, "bench", script), "--markdown", *words]
    printed = subprocess.run(command, stdout=subprocess.PIPE, check=True, text=True).stdout
    return "".join(line for line in printed.splitlines(True) if line.startswith("|"))


def put(text, name, rows):
    """The text of the page with these rows between the lines of a table."""
    place = re.compile(rf"(<!-- table: {name} -->\n).*?(<!-- end -->)", re.S)
    if not place.search(text):
        sys.exit(f"docs/SPEED.md has no table {name}")
    return place.sub(lambda found: f"{found[1]}\n{rows}\n{found[2]}", text)


def main():
    words = argparse.ArgumentParser(description=__doc__, formatter_class=argparse.RawDescriptionHelpFormatter)
    words.add_argument("--other")
    words.add_argument("--proved", default=left("hls_prog"))
    words.add_argument("--view", default=left("hls_view_prog"))
    words.add_argument("--offer", default=left("hls_offer_prog"))
    words.add_argument("--reps", default="7")
    words.add_argument("--instructions", action="store_true")
    args = words.parse_args()
    programs = ["--prog", f"cpp={args.other}"] if args.other else []
    programs += ["--prog", f"proved={args.proved}"]
    with open(PAGE) as page:
        text = page.read()
    text = put(text, "whole", table("whole.py", "--reps", args.reps, *programs))
    text = put(text, "tree", table("tree.py", *programs, *["--instructions"] * args.instructions))
    asked = ["--run", args.proved, "--view", args.view, "--offer", args.offer]
    text = put(text, "asking", table("asking.py", "--reps", args.reps, *asked))
    with open(PAGE, "w") as page:
        page.write(text)


if __name__ == "__main__":
    main()
