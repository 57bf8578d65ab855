"""Runs of programs: processor time, memory, instructions, and whether outputs are the same."""
import ctypes
import hashlib
import os
import re
import shlex
import signal
import statistics
import subprocess
import tempfile

TOP = os.path.dirname(os.path.dirname(os.path.abspath(__file__)))

# What the gate leaves.
PROVED = os.path.join(TOP, "crates", "hls_prog", "out", "hls_prog")

# The most memory of a process begins with what its parent held when it was made. So a shell, which is small, makes the
# program's process and goes, and this process, which is not small, becomes the one that waits for it.
STARTER = 'ulimit -t "$1"; from=$2; to=$3; shift 3; "$@" <"$from" >"$to" 2>/dev/null &'
PR_SET_CHILD_SUBREAPER = 36

# What ends a run that is past its limit.
LATE = (-signal.SIGXCPU, -signal.SIGKILL)

# Valgrind takes about so many times the time.
COUNTING = 60

DERIVATION = re.compile(rb"^(by [a-z0-9_]+ [0-3] )[A-Z].*$", re.M)


def run(command, source, sink, limit):
    """Status, seconds of processor time and MiB of one run; nothing where it took more seconds than the limit."""
    ctypes.CDLL(None).prctl(PR_SET_CHILD_SUBREAPER, 1)
    subprocess.run(["sh", "-c", STARTER, "sh", str(limit), source, sink] + command, check=True)
    _, status, usage = os.wait4(-1, 0)
    status = os.waitstatus_to_exitcode(status)
    return None if status in LATE else (status, usage.ru_utime + usage.ru_stime, usage.ru_maxrss / 1024)


def program(text):
    """A name and a command, of NAME=COMMAND."""
    name, _, command = text.partition("=")
    return name, shlex.split(command)


def count(command, source, limit):
    """How many instructions a run takes, or nothing where counting took too long."""
    with tempfile.NamedTemporaryFile("r") as counts, open(source, "rb") as text:
        valgrind = ["valgrind", "--tool=callgrind", f"--callgrind-out-file={counts.name}"]
        try:
            subprocess.run(valgrind + command, stdin=text, stdout=subprocess.DEVNULL, stderr=subprocess.DEVNULL,
                           timeout=COUNTING * limit)
        except subprocess.TimeoutExpired:
            return None
        totals = [line for line in counts if line.startswith("totals:")]
        return int(totals[-1].split()[1]) if totals else None


def digest(path):
    """Numbers for an output, and for what is left of it without derivations."""
    with open(path, "rb") as file:
        output = file.read()
    return hashlib.sha256(output).digest(), hashlib.sha256(DERIVATION.sub(rb"\1", output)).digest()


def repeat(commands, source, limit, reps):
    """The median seconds and the most MiB of runs of each command, by turns; nothing where one took too long."""
    runs = [[] for _ in commands]
    for _ in range(reps):
        for taken, command in zip(runs, commands):
            if None not in taken:
                taken.append(run(command, source, os.devnull, limit))
    return [None if None in taken else middle(taken) for taken in runs]


def middle(taken):
    return statistics.median(seconds for _, seconds, _ in taken), max(most for _, _, most in taken)
