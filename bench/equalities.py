#!/usr/bin/env python3
"""Measures the classes of products, chains in them, and what is derived by them. README.md says what a row shows."""

import os
import tempfile
from pathlib import Path

from bench import least
from steps import ROOT, built, libraries_in, program_in

TEMPLATE = ROOT / "bench" / "equalities.txt"

# What the product is, its number in the program, and how large it is there.
ROWS = [
    ("chain of 10,000", 0, 100),
    ("chain of 100,000", 0, 1_000),
    ("chain of 500,000", 0, 5_000),
    ("turned, 10,000", 5, 100),
    ("turned, 100,000", 5, 1_000),
    ("turned, 500,000", 5, 5_000),
    ("towers of 1,000", 1, 1_000),
    ("towers of 2,000", 1, 2_000),
    ("180,000 nodes", 2, 900),
    ("1,000 levels", 3, 10),
    ("10,000 levels", 3, 100),
    ("100,000 levels", 3, 1_000),
    ("1,000 arguments", 4, 10),
    ("10,000 arguments", 4, 100),
]

# 16 equalities in 182,000 nodes, as the program of rows reads them, and calls on them. Each takes what the first one takes too.
WIDE = "*({916:*(}1{16:,=(f{#0},f{#1}))}{900:,R0(F7(f{#0}){99:,F7(f{#1})}))},R1(F9(f0),F9(f16)))"
CALLS = [
    ("read, classes", f"entails {WIDE} f0 f16 => yes"),
    ("derive", f"derive {WIDE} f0 f16 => 19 steps"),
    ("append", f"append {WIDE} P0(f0) f0 f16 => 18 steps"),
    ("copy", f"copy {WIDE} P0(f0) 917 P0(f16) => 20 steps"),
]


def measure_calls(room):
    files = [(name, room / f"{name.split(',')[0]}.rows") for name, _ in CALLS]
    for (_, file), (_, call) in zip(files, CALLS):
        file.write_text(call + "\n", encoding="ascii")
    program = built(ROOT / "crates" / "call_rows", [str(file) for _, file in files])
    for name, file in files:
        seconds = least([program, str(file)], b"1 of 1 rows as expected\n").processor
        print(f"{name:18}{seconds:>8.3f} s", flush=True)


def main():
    load = ", ".join(f"{it:.1f}" for it in os.getloadavg())
    print(f"{os.cpu_count()} processors, load {load}\n")
    with tempfile.TemporaryDirectory(prefix="udp-equalities-") as room:
        used = libraries_in(Path(room), ROOT, ["u_equal"])
        program = built(program_in(Path(room), "equalities", TEMPLATE, used), ["0", "1"])
        for name, kind, size in ROWS:
            print(f"{name:18}{least([program, str(kind), str(size)], b'').processor:>8.3f} s", flush=True)
        measure_calls(Path(room))


if __name__ == "__main__":
    main()
