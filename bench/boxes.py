#!/usr/bin/env python3
"""Times each call of a box of each kind, on a book of 1,000 and of 100,000 marks.

Usage: bench/boxes.py

It builds a small program in a copy of the crates that boxes stand on, and runs it with nothing proved (rt try),
which takes some minutes. What it prints are nanoseconds a call (or a pair of calls), on the smaller and on the
greater book. A cost that grew with the book would show in the second number.
"""
import subprocess
import sys
import tempfile

from copies import copied

BOXES = ["hls_fp", "hls_edf", "hls_sfq", "hls_rr", "hls_wheel", "hls_join"]

CALLS = ["seat+leave", "fits", "free_slot", "parts_used", "asks", "choice", "release+request", "grant+revoke", "turn",
         "settle"]

MAIN = """//! Times the calls of boxes.
#![tactic(auto)]

use hls_chron::{Config, Terms};
use hls_edf::Edf;
use hls_fp::Fp;
use hls_join::Join;
use hls_rr::Rr;
use hls_sched::Scheduler;
use hls_sfq::Sfq;
use hls_wheel::Wheel;
use std::io;
use std::time::Instant;

/// Calls are timed in batches of so many, and the quickest of so many batches is told.
const ROUNDS: u128 = 40;

const BATCHES: u32 = 5;

macro_rules! timed {
    ($rt:ident, $name:expr, $marks:expr, $call:expr, $body:block) => {
        let mut least = u128::MAX;
        for _batch in 0..BATCHES {
            let start = Instant::now(&$rt)?;
            for _round in 0..ROUNDS $body
            least = least.min(start.elapsed(&$rt)?.as_nanos() / ROUNDS);
        }
        println!($rt; "{} {} {} {}", $name, $marks, $call, least)?;
    };
}

macro_rules! measure {
    ($rt:ident, $name:expr, $blank:expr, $config:expr, $terms:expr, $seats:expr, $marks:expr) => {
        let mut the_box = $blank;
        let the_box: &mut dyn Scheduler = &mut the_box;
        let terms: [Terms; 3] = $terms;
        let mut told: u128 = 0;
        if the_box.setup(&$config, 0, 10_000, 65_536).is_ok() {
            for _mark in 0..$marks / 2 {
                the_box.seat(0, &terms[0]);
                the_box.leave(0);
            }
            timed!($rt, $name, $marks, "seat+leave", { the_box.seat(0, &terms[0]); the_box.leave(0); });
            for slot in 0..$seats {
                the_box.seat(slot, &terms[slot as usize]);
                the_box.request(slot);
            }
            timed!($rt, $name, $marks, "fits", { told += u128::from(the_box.fits(&terms[0]).is_some()); });
            timed!($rt, $name, $marks, "free_slot", { told += u128::from(the_box.free_slot().is_some()); });
            timed!($rt, $name, $marks, "parts_used", { told += the_box.parts_used() % 7; });
            timed!($rt, $name, $marks, "asks", { told += u128::from(the_box.asks()); });
            timed!($rt, $name, $marks, "choice", { told += u128::from(the_box.choice().is_some()); });
            timed!($rt, $name, $marks, "release+request", { the_box.release(0); the_box.request(0); });
            timed!($rt, $name, $marks, "grant+revoke", { the_box.grant(0); the_box.revoke(); });
            the_box.grant(0);
            timed!($rt, $name, $marks, "turn", { the_box.turn(); });
            the_box.revoke();
            timed!($rt, $name, $marks, "settle", { the_box.settle(); });
        }
        println!($rt; "{} {} told {}", $name, $marks, told)?;
    };
}

fn main(rt: HostRuntime) -> io::Result<()> {
    let hard = true;
    let res = Terms::Res { hard, x: 1, y: 10 };
    for marks in [1_000u32, 100_000] {
        let alloc = rt.alloc();
        measure!(rt, "fp", Fp::blank(alloc), Config::Fp, [Terms::Prio(0), Terms::Prio(1), Terms::Prio(2)], 3u32, marks);
        measure!(rt, "edf", Edf::blank(alloc), Config::Edf, [res, res, res], 3u32, marks);
        measure!(rt, "sfq", Sfq::blank(alloc), Config::Sfq { total: 100, most: 20, quantum: 1 }, [Terms::Weight(1), Terms::Weight(2), Terms::Weight(3)], 3u32, marks);
        measure!(rt, "rr", Rr::blank(alloc), Config::Rr { quantum: 2 }, [Terms::Turn, Terms::Turn, Terms::Turn], 3u32, marks);
        measure!(rt, "wheel", Wheel::blank(alloc), Config::Wheel { frame: 1000 }, [Terms::Slots(5), Terms::Slots(5), Terms::Slots(5)], 3u32, marks);
        measure!(rt, "join", Join::blank(alloc), Config::Join { ports: 2 }, [Terms::Sole, Terms::Sole, Terms::Sole], 1u32, marks);
    }
    Ok(())
}
"""


def build(folder):
    """The program, in a copy of what boxes stand on."""
    return copied(folder, "box_times", BOXES + ["hls_sched", "hls_chron"], {"src/main.rt": MAIN})


def main():
    with tempfile.TemporaryDirectory() as folder:
        run = subprocess.run(["rt", "try", "--seconds", "1200"], cwd=build(folder), capture_output=True, text=True)
    times = {}
    for line in run.stdout.splitlines():
        words = line.removeprefix("| ").split()
        if len(words) == 4 and words[2] in CALLS:
            times[words[0], words[2], words[1]] = int(words[3])
    if not times:
        sys.exit(run.stdout[-3000:] + run.stderr[-3000:])
    kinds = [name[4:] for name in BOXES]
    print(" " * 16 + "".join(f"{kind:>22}" for kind in kinds))
    for call in CALLS:
        pairs = [f"{times.get((kind, call, '1000'), '-')} / {times.get((kind, call, '100000'), '-')}" for kind in kinds]
        print(f"{call:<16}" + "".join(f"{pair:>22}" for pair in pairs))


main()
