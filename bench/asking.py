#!/usr/bin/env python3
"""Measures views of reports and questions about scenarios, beside the run that they belong to.

Usage: bench/asking.py [--run COMMAND] [--view COMMAND] [--offer COMMAND] [--reps N] [--markdown]
(default: the launchers ./hls, ./hlsview and ./hlsoffer, 5 repetitions)

Of each case the median processor time (user and system), the most memory, and the bytes that are read are told, beside
the time of `run` on the scenario. A word that a program does not know (status 2) is left out. --markdown writes a table
of docs/SPEED.md.
"""
import argparse
import os
import shlex
import sys
import tempfile

from runs import TOP, repeat, run
from texts import SCENARIOS, at_first, scenario

LIMIT = 120

USAGE = 2


def schedulers():
    """64 schedulers: one of reservations with a free seat, 31 fair queues on it, and others on these."""
    items = at_first("load root edf on cpu as ALL")
    items += at_first(*(f"load s{number} sfq 10 4 on root res 1 100 soft as RESBS 1 100" for number in range(31)))
    items += at_first(*(f"load r{number} rr 10 on s{number % 31} weight 1 as NULL" for number in range(32)))
    return scenario(items, 10)


def periods():
    return " ".join(str(20 + 7 * number) for number in range(64))


VIEWS = [(case, words) for case in ("b", "c", "d", "l1", "l2") for words in ("margins", "jobs", "tree", "trace", "svg")]

QUESTIONS = {
    "what is left, 64 schedulers": "spare",
    "where a guarantee can be had, 64 schedulers": "need x as RESCS 1 400",
    "where anything can be had, 64 schedulers": "need x as NULL",
    "what a seat can be promised, 64 periods": f"offer x on root res 2 50 soft over {periods()}",
}


def shown(title, beside, taken, size):
    seconds, mebibytes = taken
    return [title, f"{size / 2 ** 20:.2f}", f"{beside:.3f}", f"{seconds:.3f}", f"{mebibytes:.1f}"]


class Bench:
    """The programs, a folder for texts, and how often each is run."""

    def __init__(self, args, folder):
        self.args, self.folder = args, folder

    def at(self, name):
        return os.path.join(self.folder, name)

    def report_of(self, text):
        """Writes a text and its report; the seconds of the run."""
        with open(self.at("scenario"), "w") as file:
            file.write(text)
        done = run(self.args.run + ["run"], self.at("scenario"), self.at("report"), LIMIT)
        if done is None or done[0]:
            sys.exit(f"{self.args.run[0]} run ended with another status than 0")
        return repeat([self.args.run + ["run"]], self.at("scenario"), LIMIT, self.args.reps)[0][0]

    def measured(self, command, source):
        """Seconds and MiB, or nothing where the program does not know the words."""
        done = run(command, source, self.at("sink"), LIMIT)
        if done is None or done[0] == USAGE:
            return None
        return repeat([command], source, LIMIT, self.args.reps)[0]

    def views(self):
        beside = None
        for case, words in VIEWS:
            title, _, make = SCENARIOS[case]
            if words == "margins":
                beside = self.report_of(make())
            taken = self.measured(self.args.view + words.split(), self.at("report"))
            if taken:
                yield shown(f"{words}: {title}", beside, taken, os.path.getsize(self.at("report")))

    def questions(self):
        beside = self.report_of(schedulers())
        for title, words in QUESTIONS.items():
            taken = self.measured(self.args.offer + words.split(), self.at("scenario"))
            if taken:
                yield shown(title, beside, taken, os.path.getsize(self.at("scenario")))


def read_words():
    words = argparse.ArgumentParser(description=__doc__, formatter_class=argparse.RawDescriptionHelpFormatter)
    for name, launcher in (("run", "hls"), ("view", "hlsview"), ("offer", "hlsoffer")):
        words.add_argument(f"--{name}", type=shlex.split, default=[os.path.join(TOP, launcher)])
    words.add_argument("--reps", type=int, default=5)
    words.add_argument("--markdown", action="store_true")
    return words.parse_args()


def main():
    args = read_words()
    heads = ["Case", "MiB read", "run s", "s", "MiB"]
    print("| " + " | ".join(heads) + " |\n" + "|---" * len(heads) + "|" if args.markdown else "; ".join(heads))
    with tempfile.TemporaryDirectory() as folder:
        bench = Bench(args, folder)
        for rows in (bench.views(), bench.questions()):
            for cells in rows:
                print("| " + " | ".join(cells) + " |" if args.markdown else "; ".join(cells), flush=True)


if __name__ == "__main__":
    main()
