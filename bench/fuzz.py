#!/usr/bin/env python3
"""Gives random scenarios and changed reports to the program, and to any other that does the same job.

Usage: bench/fuzz.py [--prog COMMAND] [--other COMMAND] [--cases N] [--from NUMBER] [--profiles P,P] [--jobs N]
                     [--version N] [--keep FOLDER]
(default: crates/hls_prog/out/hls_prog, which the gate leaves, and no other; 1,000 cases from 0; all profiles; as many
jobs as processors; version 1 of the language; nothing is kept)

The profiles are those of bench/drawn.py, and `report`: the report of one of their scenarios, with a few changes. A
COMMAND is followed by the word `run` or `check`. What is asked of each case:

run      a scenario has status 0, and `check` of each program writes `kept` of each report; any other text has status
         3; both programs end alike and write the same, but for derivations where there are several
check    status 0, 1 or 3, one line; both programs end alike and write the same

Every difference is told, with the profile and the number that make the text again, and with --keep the text is
written to a folder. The last line counts the cases; the status is 1 where there was a difference.
"""
import argparse
import collections
import concurrent.futures
import os
import random
import re
import shlex
import subprocess
import sys

from drawn import PROFILES, changed_text, drawn
from runs import DERIVATION, PROVED

# Seconds, after which a run counts as one that does not end.
LATE = 120

RUN = re.compile(rb"^(\d+)\.\.(\d+) (\S+)$", re.M)


def answer(command, word, text):
    """The status of a run, and what it writes."""
    try:
        done = subprocess.run(command + [word], input=text, capture_output=True, timeout=LATE)
    except subprocess.TimeoutExpired:
        return None, b""
    return done.returncode, done.stdout


def changed_run(draw, report):
    """A report in which a run goes to someone else, or is cut in two."""
    runs = list(RUN.finditer(report))
    if not runs:
        return report
    run, path = draw.choice(runs), draw.choice(runs)[3]
    first, last = sorted((int(run[1]), int(run[2])))
    cut = draw.randint(first, last)
    pieces = [b"%d..%d %s" % (first, cut, run[3])] + ([b"%d..%d %s" % (cut + 1, last, path)] if cut < last else [])
    if draw.random() < 0.5:
        pieces = [b"%d..%d %s" % (first, last, draw.choice([path, b"idle"]))]
    return report[:run.start()] + b"\n".join(pieces) + report[run.end():]


def changed_number(draw, report):
    """A report in which a number is one more or one less."""
    number = draw.choice(list(re.finditer(rb"\b\d+\b", report)))
    other = max(0, int(number[0]) + draw.choice([-1, 1]))
    return report[:number.start()] + b"%d" % other + report[number.end():]


def changed_answer(draw, report):
    """A report in which a command is answered otherwise, or without a derivation."""
    answers = list(re.finditer(rb"^(= refused \d+ .*|= done(?=\nat )|by .*\n)", report, re.M))
    if not answers:
        return report
    found = draw.choice(answers)
    other = b"" if found[0].startswith(b"by") else b"= done" if b"refused" in found[0] else b"= refused 11 NoSuchName a"
    return report[:found.start()] + other + report[found.end():]


def changed_report(command, number, version):
    """The report of a scenario, with up to three changes."""
    draw = random.Random(f"report {number}")
    profile = draw.choice(["kinds", "kinds", "hard", "hard", "derive", "settle", "limits"])
    report = answer(command, "run", drawn(profile, number, version))[1]
    for _ in range(draw.choice([0, 1, 1, 1, 2, 3])):
        kind = draw.choice([changed_run, changed_run, changed_run, changed_number, changed_answer, None])
        report = kind(draw, report) if kind else changed_text(draw, report, 1)
    return report


def on_scenario(commands, text):
    """How a run ended, and what is wrong with it."""
    runs = [answer(command, "run", text) for command in commands]
    status, report = runs[0]
    wrong = [] if status in (0, 3) else [f"status {status}"]
    for other, written in runs[1:]:
        if other != status or DERIVATION.sub(rb"\1", written) != DERIVATION.sub(rb"\1", report):
            wrong.append(f"run: status {status}, of the other {other}, and what they write differs")
    for _, written in {run for run in runs if run[0] == 0}:
        for command in commands:
            verdict = answer(command, "check", written)
            if verdict != (0, b"kept\n"):
                wrong.append(f"check: {verdict[1].decode().strip() or verdict[0]}")
    return f"run {status}", wrong


def on_report(commands, text):
    """How a check ended, and what is wrong with it."""
    checks = [answer(command, "check", text) for command in commands]
    status, verdict = checks[0]
    wrong = [] if status in (0, 1, 3) and verdict.count(b"\n") == 1 else [f"status {status}"]
    if len(set(checks)) > 1:
        wrong.append("check: " + ", ".join(f"{status} {words.decode().strip()}" for status, words in checks))
    return f"check {status}", wrong


def on_case(commands, version, profile, number):
    """The text of a case, how it ended, and what is wrong."""
    if profile == "report":
        text = changed_report(commands[-1], number, version)
        return text, *on_report(commands, text)
    text = drawn(profile, number, version)
    return text, *on_scenario(commands, text)


def keep(folder, profile, number, text):
    os.makedirs(folder, exist_ok=True)
    with open(os.path.join(folder, f"{profile}-{number}"), "wb") as file:
        file.write(text)


def options():
    words = argparse.ArgumentParser(formatter_class=argparse.RawDescriptionHelpFormatter, epilog=__doc__)
    words.add_argument("--prog", type=shlex.split, default=[PROVED])
    words.add_argument("--other", type=shlex.split)
    words.add_argument("--cases", type=int, default=1000)
    words.add_argument("--from", type=int, default=0, dest="first")
    words.add_argument("--profiles", default=",".join([*PROFILES, "report"]))
    words.add_argument("--jobs", type=int, default=os.cpu_count())
    words.add_argument("--version", type=int, choices=[1, 2], default=1)
    words.add_argument("--keep")
    return words.parse_args()


def main():
    given = options()
    commands = [given.prog] + ([given.other] if given.other else [])
    profiles = given.profiles.split(",")
    ends, differences = collections.Counter(), 0
    with concurrent.futures.ProcessPoolExecutor(given.jobs) as pool:
        cases = [(profiles[number % len(profiles)], number) for number in range(given.first, given.first + given.cases)]
        each = pool.map(on_case, [commands] * len(cases), [given.version] * len(cases), *zip(*cases), chunksize=16)
        for (profile, number), (text, end, wrong) in zip(cases, each):
            ends[f"{profile}: {end}"] += 1
            for word in wrong:
                print(f"{profile} {number}: {word}", flush=True)
            if wrong and given.keep:
                keep(given.keep, profile, number, text)
            differences += bool(wrong)
    for end, count in sorted(ends.items()):
        print(f"{end}: {count}")
    print(f"{given.cases} cases, {differences} with a difference")
    return 1 if differences else 0


if __name__ == "__main__":
    sys.exit(main())
