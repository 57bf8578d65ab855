#!/usr/bin/env python3
"""Writes the wakes of periodic jobs, as lines of a scenario.

    wakes.py HORIZON JOB..        a job is NAME:PERIOD:TICKS, or NAME:PERIOD:TICKS:FIRST

NAME is woken for TICKS at FIRST (0 if left out), FIRST + PERIOD, and so on below HORIZON. PERIOD and FIRST may be
fractions, as 100/3; a wake then comes at the first tick that is not before its time. The lines are in order of ticks,
and those of one tick in the order of the jobs.
"""
import sys
from fractions import Fraction
from math import ceil


def wakes(job, horizon):
    """The wakes of one job, as pairs of tick and command."""
    name, period, ticks, *first = job.split(":")
    period, ticks, time = Fraction(period), int(ticks), Fraction(*first or "0")
    if period < 1 or ticks < 1 or time < 0:
        raise ValueError
    while ceil(time) < horizon:
        yield ceil(time), f"wake {name} for {ticks}"
        time += period


def main(words):
    if len(words) < 2 or not words[0].isdigit():
        sys.exit(__doc__)
    lines = []
    for job in words[1:]:
        try:
            lines.extend(wakes(job, int(words[0])))
        except (ValueError, TypeError, ZeroDivisionError):
            sys.exit(f"{job}: no NAME:PERIOD:TICKS or NAME:PERIOD:TICKS:FIRST")
    for tick, command in sorted(lines, key=lambda line: line[0]):
        print(f"at {tick} {command}")


main(sys.argv[1:])
