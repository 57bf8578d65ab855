#!/usr/bin/env python3
"""Times reading and writing large reports.

Usage: bench/report.py [PROGRAM]

Without PROGRAM it proves and builds a small one in a copy of the repository, which takes some minutes. The
program reads a report from standard input, and prints the microseconds of reading it and of writing it again.
"""
import os
import random
import shutil
import subprocess
import sys
import tempfile

from copies import copied

MAIN = """//! Times reading a report and writing it again.
#![tactic(auto)]

use hls_report::{read_report, write_report};
use std::io;
use std::io::Read;
use std::process::ExitCode;
use std::time::Instant;

fn main(rt: HostRuntime) -> io::Result<ExitCode> {
    let alloc = rt.alloc();
    let mut text = Vec::new(alloc);
    rt.stdin().read_to_end(&mut text)?;
    if text.len() > 4_000_000_000 {
        return Ok(ExitCode::from(1));
    }
    let start = Instant::now(&rt)?;
    let Ok(report) = read_report(alloc, &text) else {
        return Ok(ExitCode::from(2));
    };
    let reading = start.elapsed(&rt)?.as_micros();
    let start = Instant::now(&rt)?;
    let Ok(again) = write_report(alloc, &report) else {
        return Ok(ExitCode::from(3));
    };
    let writing = start.elapsed(&rt)?.as_micros();
    println!(rt; "{reading} {writing}")?;
    Ok(ExitCode::from(if again.as_slice() == text.as_slice() { 0 } else { 4 }))
}
"""


def build(folder):
    """Builds the program in a copy of what the crate of reports stands on."""
    crate = copied(folder, "report_times", ["hls_report"], {"src/main.rt": MAIN})
    subprocess.run(["rt", "run"], cwd=crate, input=b"", capture_output=True)
    return os.path.join(crate, "out", "report_times")


def report(commands, runs, names, accounts, seed):
    """A report of 100000 ticks."""
    draw = random.Random(seed)
    known = [f"name_{i:05}" for i in range(names)]
    lines = ["hls-report 1", "horizon 100000", "depth 6"]
    for tick in range(commands):
        child = draw.choice(known)
        lines += [f"at {tick} thread {child} on e res 3 10 hard as RESBH 3 10", "= done"]
        lines.append(f"by {child} 0 RESBS 3 10 R4 PSBE 3/10 21/5 SFQ PSBE 9/40 83/20")
    lines.append("schedule")
    for tick in range(runs):
        last = tick if tick < runs - 1 else 99999
        path = "/".join(draw.choice(known) for _ in range(9)) if tick % 4 else ""
        lines.append(f"{tick}..{last} cpu/{path}" if path else f"{tick}..{last} idle")
    lines.append("accounts")
    for _ in range(accounts):
        first = draw.randrange(100000)
        lines.append(f"{draw.choice(known)} {first}..99999 PSBE 3/10 42 ready {first} served 7")
    lines += [f"idle {runs // 4}", "end"]
    return ("\n".join(lines) + "\n").encode()


def main():
    folder = tempfile.mkdtemp()
    program = sys.argv[1] if len(sys.argv) > 1 else build(folder)
    heads = ["commands", "runs", "names", "accounts", "MB", "read MB/s", "write MB/s"]
    print(" ".join(f"{head:>10}" for head in heads))
    sizes = [
        (0, 100000, 65536, 0),
        (0, 100000, 8, 0),
        (65536, 1, 8, 0),
        (0, 1, 8, 600000),
        (65536, 100000, 65536, 400000),
    ]
    for commands, runs, names, accounts in sizes:
        text = report(commands, runs, names, accounts, 1)
        done = subprocess.run([program], input=text, capture_output=True)
        if done.returncode:
            sys.exit(f"the program ended with status {done.returncode}")
        reading, writing = (len(text) / int(time) for time in done.stdout.split())
        rates = " ".join(f"{number:>10.1f}" for number in [len(text) / 1e6, reading, writing])
        print(f"{commands:>10} {runs:>10} {names:>10} {accounts:>10} {rates}")
    shutil.rmtree(folder)


if __name__ == "__main__":
    main()
