#!/usr/bin/env python3
"""Counts, for each crate, the paths of libraries down from it: what the toolchain reckons anew for each crate above.

    docs/paths.py       the sum over all libraries, and the ten crates with the most
"""
from functools import cache
from pathlib import Path

TOP = Path(__file__).resolve().parent.parent
LINES = [line.split(":") for line in (TOP / "crates.txt").read_text(encoding="utf-8").splitlines()
         if ":" in line and not line.startswith("#")]
LIBRARIES = {name: below.split() for name, below in LINES}


@cache
def paths(name):
    return 1 + sum(paths(it) for it in LIBRARIES[name] if it in LIBRARIES)


def is_library(name):
    return (TOP / "crates" / name / "src" / "lib.rt").is_file()


def main():
    print(sum(paths(it) for it in LIBRARIES if is_library(it)), "paths below", len(LIBRARIES), "crates")
    for name in sorted(LIBRARIES, key=paths, reverse=True)[:10]:
        print(f"{paths(name):8} {name}")


if __name__ == "__main__":
    main()
