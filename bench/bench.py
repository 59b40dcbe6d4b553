#!/usr/bin/env python3
"""Measures `udp check` over large cases and proofs, and prints the figures beside the goals. README.md says what a row shows."""

import os
import subprocess
import sys
import tempfile
import time
from dataclasses import dataclass
from pathlib import Path

import inputs

UDP = Path(__file__).resolve().parent.parent / "bin" / "udp"
GNU_TIME = "/usr/bin/time"
RUNS = 3
MEGABYTE = 1_000_000
SHORTEST = 0.001

FEW, SOME, MANY = 10_000, 100_000, 1_000_000

ROWS = [
    (f"{FEW:,} short steps", inputs.short_steps, FEW),
    (f"{SOME:,} short steps", inputs.short_steps, SOME),
    (f"{MANY:,} short steps", inputs.short_steps, MANY),
    ("beside 1 argument", inputs.beside_large_term, 1),
    ("beside 190,000 arguments", inputs.beside_large_term, 190_000),
    ("paths of 1,000 turns", inputs.long_paths, 996),
    ("paths of 2,000 turns", inputs.long_paths, 1_996),
    ("opposite leaves, once", inputs.opposite_leaves, 1),
    ("opposite leaves, 20 times", inputs.opposite_leaves, 20),
    ("depth 2,048, 500 times", inputs.deep_sums, 500),
    ("long lists, once", inputs.long_lists, 1),
    ("long lists, in 60 places", inputs.long_lists, 60),
    ("widest case", inputs.widest_case, 114),
]


@dataclass
class Cost:
    """What a run took: processor and elapsed seconds, and the most bytes of resident memory."""

    processor: float
    elapsed: float
    memory: int


def cost(command, output, status_wanted=0):
    """The cost of one run, which must end with this status, and write this output where one is given."""
    with tempfile.TemporaryFile() as written, tempfile.NamedTemporaryFile("r") as peak:
        began = time.monotonic()
        # A child of Python begins with Python's own peak. A child of `time` does not.
        run = subprocess.Popen([GNU_TIME, "-q", "-f", "%M", "-o", peak.name, *command], stdout=written)
        _, status, used = os.wait4(run.pid, 0)
        elapsed = time.monotonic() - began
        run.returncode = os.waitstatus_to_exitcode(status)
        written.seek(0)
        got = written.read()
        if run.returncode != status_wanted or output not in (None, got):
            sys.exit(f"{command} ended with {run.returncode} and wrote {got!r}")
        return Cost(used.ru_utime + used.ru_stime, elapsed, int(peak.read()) * 1024)


def least(command, output=None):
    """The cost of the run that took the least processor time of a few."""
    return min((cost(command, output) for _ in range(RUNS)), key=lambda it: it.processor)


def check(case, proof):
    return least([UDP, "check", case, proof], b"proved\n")


def line(name, text="", elapsed="", seconds="", rate="", memory="", share="", counted="", hashed=""):
    cells = [(text, 8), (elapsed, 9), (seconds, 9), (rate, 9), (memory, 9), (share, 9), (counted, 7), (hashed, 7)]
    print(f"{name:28}" + "".join(f"{cell:>{width}}" for cell, width in cells), flush=True)


def row(name, folder, write, size, start):
    """Prints the figures of one case and proof, and answers the processor seconds of its check beyond those of a start."""
    case, proof = folder / "case.sql", folder / "proof"
    write(case, proof, size)
    text = case.stat().st_size + proof.stat().st_size
    checked = check(case, proof)
    seconds = max(checked.processor - start.processor, SHORTEST)
    times = lambda other: f"{seconds / max(other.processor, SHORTEST):.1f}"
    line(
        name,
        f"{text / MEGABYTE:.2f}",
        f"{checked.elapsed:.3f}",
        f"{seconds:.3f}",
        f"{text / MEGABYTE / seconds:.1f}",
        f"{checked.memory / MEGABYTE:.1f}",
        f"{checked.memory / text:.1f}" if checked.memory > 1.1 * start.memory else "-",
        times(least(["wc", "-l", case, proof])),
        times(least(["sha256sum", case, proof])),
    )
    return seconds


def main():
    load = ", ".join(f"{it:.1f}" for it in os.getloadavg())
    print(f"{os.cpu_count()} processors, load {load}; of {RUNS} runs the one with the least processor time\n")
    with tempfile.TemporaryDirectory(prefix="udp-bench-") as room:
        folder = Path(room)
        inputs.short_steps(folder / "case.sql", folder / "proof", 1)
        start = check(folder / "case.sql", folder / "proof")
        line("", "MB", "elapsed", "seconds", "MB/s", "peak MB", "x text", "x wc", "x sha")
        line(
            "start",
            elapsed=f"{start.elapsed:.3f}",
            seconds=f"{start.processor:.3f}",
            memory=f"{start.memory / MEGABYTE:.1f}",
        )
        seconds = {name: row(name, folder, write, size, start) for name, write, size in ROWS}
    growth = seconds[f"{MANY:,} short steps"] / seconds[f"{FEW:,} short steps"]
    print(f"\nfrom {FEW:,} to {MANY:,} short steps: {growth:.0f} times the seconds (goal: about {MANY // FEW} times)")


if __name__ == "__main__":
    main()
