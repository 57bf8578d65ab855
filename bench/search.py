#!/usr/bin/env python3
"""Times searches for derivations of at most six conversions.

Usage: bench/search.py [PROGRAM]

Without PROGRAM it proves and builds a small one in a copy of the repository, which takes some minutes. The
program makes a book of the eleven rules, repeats each search, and prints its name, whether it finds a derivation,
and the nanoseconds that one search takes.
"""
import os
import shutil
import subprocess
import sys
import tempfile

from copies import copied

CITED = ["hls_search", "hls_rules2", "hls_rules", "hls_derive", "hls_guarantee", "hls_chron"]

MAIN = """//! Times searches for derivations.
#![tactic(auto)]

mod timing;

use crate::timing::time_all;
use std::io;
use std::process::ExitCode;

fn main(rt: HostRuntime) -> io::Result<ExitCode> {
    let alloc = rt.alloc();
    time_all(&rt, alloc)?;
    Ok(ExitCode::from(0))
}
"""

TIMING = """// Searches at places of each kind, over a book of all rules.
ghost use Rattle.std.specs.Prelude.{◌≡◌, IfSome};
ghost use Rattle.hls_guarantee.specs.Limits.{IsNarrow, IsValid};
ghost use Rattle.hls_search.specs.Search.{CanSearch};

use hls_chron::{Config, Terms};
use hls_derive::Place;
use hls_guarantee::{Guarantee, narrow, read_guarantee};
use hls_rules::{RULES, Rule, RuleBook};
use hls_rules2::answer_of;
use hls_search::search;
use std::alloc::Global;
use std::io;
use std::rt::Clock;
use std::time::Instant;

const ROUNDS: u32 = 100_000;

/// The guarantee of that text, or nothing.
fn read(text: &str) -> Guarantee
    ensures { IsNarrow result }
{
    match read_guarantee(text.as_bytes()) {
        Some(g) if narrow(&g) => g,
        _ => Guarantee::Null,
    }
}

/// Prints the name, how many searches found something, and the nanoseconds of one.
fn timed(
    rt: &(impl Clock + Print),
    alloc: Global,
    book: &RuleBook,
    name: &str,
    place: &Place,
    haves: &[Guarantee],
    want: &Guarantee,
) -> io::Result<()>
    requires { CanSearch place.now haves.now want.now }
{
    let mut found: u32 = 0;
    let start = Instant::now(rt)?;
    for _ in 0..ROUNDS {
        if let Ok(Some(_)) = search(alloc, book, place, haves, want, 6) {
            found = found.saturating_add(1);
        }
    }
    let took = start.elapsed(rt)?.as_nanos() / 100_000;
    let is_found = found == ROUNDS;
    println!(rt; "{name} {is_found} {took}")
}

fn fixed_priority(rt: &(impl Clock + Print), alloc: Global, book: &RuleBook) -> io::Result<()> {
    let place = Place {
        config: Config::Fp,
        terms: Terms::Prio(0),
    };
    timed(rt, alloc, book, "fp", &place, &[read("RESBS 3 10")], &read("RESCS 3 17"))?;
    timed(rt, alloc, book, "fp", &place, &[read("RESCH 1 3")], &read("RESBS 1 4"))?;
    timed(rt, alloc, book, "fp", &place, &[read("RESBS 3 10")], &read("RESCS 3 16"))?;
    timed(rt, alloc, book, "fp", &place, &[read("RESCH 3 10")], &read("RESCH 2 10"))?;
    timed(rt, alloc, book, "fp", &place, &[read("PSBE 1/2 20")], &read("RESCS 30 60"))
}

fn joins(rt: &(impl Clock + Print), alloc: Global, book: &RuleBook) -> io::Result<()> {
    let place = Place {
        config: Config::Join { ports: 4 },
        terms: Terms::Sole,
    };
    let lesser = read("RESBS 1 100");
    let last = [lesser, lesser, lesser, read("RESCH 1 3")];
    timed(rt, alloc, book, "join", &place, &last, &read("RESBS 1 4"))?;
    timed(rt, alloc, book, "join", &place, &[lesser; 4], &read("RESBS 1 4"))
}

fn of_all(rt: &(impl Clock + Print), alloc: Global, book: &RuleBook) -> io::Result<()> {
    let all = [Guarantee::All];
    let processor = Place {
        config: Config::Cpu,
        terms: Terms::Cpu,
    };
    timed(rt, alloc, book, "cpu", &processor, &all, &Guarantee::All)?;
    timed(rt, alloc, book, "cpu", &processor, &all, &read("RESBH 1 2"))?;
    let turn = Place {
        config: Config::Rr { quantum: 1 },
        terms: Terms::Turn,
    };
    timed(rt, alloc, book, "rr", &turn, &all, &Guarantee::Null)?;
    timed(rt, alloc, book, "rr", &turn, &all, &read("RESBS 1 2"))
}

fn reserved(rt: &(impl Clock + Print), alloc: Global, book: &RuleBook) -> io::Result<()> {
    let all = [Guarantee::All];
    let reserved = Place {
        config: Config::Edf,
        terms: Terms::Res { hard: true, x: 20, y: 40 },
    };
    timed(rt, alloc, book, "edf", &reserved, &all, &read("PSBE 1/2 21"))?;
    timed(rt, alloc, book, "edf", &reserved, &all, &read("PSBE 1/2 19"))?;
    let framed = Place {
        config: Config::Wheel { frame: 5 },
        terms: Terms::Slots(2),
    };
    timed(rt, alloc, book, "wheel", &framed, &all, &read("RESBS 2 6"))?;
    timed(rt, alloc, book, "wheel", &framed, &all, &read("RESBS 3 5"))
}

fn fair_queueing(rt: &(impl Clock + Print), alloc: Global, book: &RuleBook) -> io::Result<()> {
    let place = Place {
        config: Config::Sfq { total: 4, most: 2, quantum: 1 },
        terms: Terms::Weight(3),
    };
    timed(rt, alloc, book, "sfq", &place, &[read("RESBS 3 10")], &read("PSBE 9/40 83/20"))?;
    timed(rt, alloc, book, "sfq", &place, &[Guarantee::All], &read("PSBE 3/8 3/4"))?;
    timed(rt, alloc, book, "sfq", &place, &[read("RESBS 3 10")], &read("PSBE 9/40 4"))?;
    timed(rt, alloc, book, "sfq", &place, &[Guarantee::All], &read("PSBE 3/4 1/4"))
}

/// All of them, with the names of their places.
pub fn time_all(rt: &(impl Clock + Print), alloc: Global) -> io::Result<()> {
    let mut rules = Vec::new(alloc);
    for name in RULES {
        let step = Box::new(
            alloc,
            move |have: Guarantee, want: Guarantee| -> Option<Guarantee>
                requires have { IsValid have }
                requires want { IsValid want }
            { answer_of(name, have, want) },
        )?;
        rules.push(Rule::new(name, step))?;
    }
    let book = RuleBook::new(rules);
    fixed_priority(rt, alloc, &book)?;
    joins(rt, alloc, &book)?;
    of_all(rt, alloc, &book)?;
    reserved(rt, alloc, &book)?;
    fair_queueing(rt, alloc, &book)
}
"""

# That each rule is in the book once: what the loop keeps, and the one goal of its end.
PROOFS = {
    "Invariants.antt": """use Rattle.std.proofs.Common.{◌≡◌, map, take}
use Rattle.search_times.proofs.timing.time_all.Given as goal

abbrev pub invariant-loop-name : goal.invariant-loop-name
invariant-loop-name g l = map (λ (rule : _). rule.name) l.rules.items ≡ take l.name-index l.name-items
""",
    "Answers.antt": """use Rattle.std.proofs.Common.{arith}
use Rattle.hls_rules.proofs.Eleven.{once}
use Rattle.search_times.proofs.timing.time_all.Goals as goal

pub new-book-requires : goal.new-book-requires
new-book-requires g c =
    let last = c.loop-name.auto.name-index-end in
    let end = c.loop-name-test.false in
    once _ c.loop-name.name-index c.loop-name.invariant (omega (arith, last, end))
""",
}


def build(folder):
    """Builds the program in a copy of what the search and the rules stand on."""
    texts = {"src/main.rt": MAIN, "src/timing.rt": TIMING}
    texts.update({f"proofs/timing/time_all/{name}": text for name, text in PROOFS.items()})
    crate = copied(folder, "search_times", CITED, texts)
    subprocess.run(["rt", "run"], cwd=crate, input=b"", capture_output=True)
    return os.path.join(crate, "out", "search_times")


def main():
    folder = tempfile.mkdtemp()
    program = sys.argv[1] if len(sys.argv) > 1 else build(folder)
    done = subprocess.run([program], capture_output=True, text=True)
    if done.returncode:
        sys.exit(f"the program ended with status {done.returncode}")
    print(f"{'place':>8} {'found':>8} {'microseconds':>14} {'searches/s':>14}")
    for line in done.stdout.splitlines():
        name, found, took = line.split()
        print(f"{name:>8} {found:>8} {int(took) / 1000:>14.2f} {1e9 / max(int(took), 1):>14.0f}")
    shutil.rmtree(folder)


if __name__ == "__main__":
    main()
