#!/usr/bin/env python3
"""Measures the search for a pairing of entries at the size up to which a proof is promised. README.md says what a row shows.

It copies the libraries to a temporary folder, puts a program over them there, and has it proved and built.
"""

import os
import tempfile
from dataclasses import dataclass
from pathlib import Path

from bench import least
from steps import ROOT, built, libraries_in, program_in

TEMPLATE = ROOT / "bench" / "pairings.txt"
USED = ["bag_search"]


@dataclass
class Row:
    """The program's number of a row, how often it is searched in one run, and how many lists a search tries."""

    name: str
    number: int
    times: int
    lists: int


ROWS = [
    Row("the first pairing", 0, 4_096, 9),
    Row("the last pairing", 1, 1, 986_409),
    Row("none, by the outputs", 2, 1, 986_409),
    Row("none, by the marks", 3, 1, 986_409),
]


def measure(program, row):
    """Prints the seconds of a run, and how long a search and one of its lists take."""
    start = least([program, str(row.number), "0"], b"").processor
    seconds = least([program, str(row.number), str(row.times)], b"").processor - start
    search = seconds / row.times
    print(f"{row.name:24}{row.times:>8,}{row.lists:>12,}{seconds:>10.3f}{search * 1e3:>12.3f}{search / row.lists * 1e9:>10.0f}", flush=True)


def main():
    load = ", ".join(f"{it:.1f}" for it in os.getloadavg())
    print(f"{os.cpu_count()} processors, load {load}\n")
    with tempfile.TemporaryDirectory(prefix="udp-pairings-") as room:
        used = libraries_in(Path(room), ROOT, USED)
        program = built(program_in(Path(room), "pairings", TEMPLATE, used), ["0", "0"])
        print(f"{'':24}{'times':>8}{'lists':>12}{'seconds':>10}{'ms/search':>12}{'ns/list':>10}")
        for row in ROWS:
            measure(program, row)


if __name__ == "__main__":
    main()
