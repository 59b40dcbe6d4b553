#!/usr/bin/env python3
"""Measures `udp prove` on large cases, has each proof checked, and prints the figures. README.md says what a row shows."""

import random
import subprocess
import sys
import tempfile
from pathlib import Path

from bench import MEGABYTE, RUNS, UDP, cost

MOST_BLOCKS = 64
MOST_ENTRIES = 9
TABLES = "CREATE TABLE r (a INT, b INT, c INT);\nCREATE TABLE s (a INT, b INT, c INT);\n"


def shuffled(parts, seed):
    order = list(parts)
    random.Random(seed).shuffle(order)
    return order


def block(number, conditions):
    return f"SELECT x.a, y.b FROM r x, s y WHERE {' AND '.join(conditions)} AND x.c = {number}"


def conditions(number):
    return ["x.b = y.a", f"y.c < {number}", f"NOT x.a = {number}", "x.b < y.c"]


def union(blocks):
    return "\nUNION ALL ".join(blocks)


def blocks_in_another_order(count):
    blocks = [block(number, conditions(number)) for number in range(count)]
    return union(blocks), union(shuffled(blocks, 1))


def conditions_in_another_order(count):
    left = [block(number, conditions(number)) for number in range(count)]
    right = [block(number, shuffled(conditions(number), number)) for number in range(count)]
    return union(left), union(shuffled(right, 2))


def tables_derived(count):
    left = [block(number, conditions(number)) for number in range(count)]
    right = [f"SELECT z{number}.a, z{number}.b FROM ({text}) z{number}" for number, text in enumerate(left)]
    return union(left), union(shuffled(right, 3))


def a_union_in_from(count):
    inner = union(f"SELECT a, b FROM r WHERE c = {number}" for number in range(count))
    left = f"SELECT z.a, y.b FROM ({inner}) z, s y WHERE z.b = y.a"
    blocks = [f"SELECT z.a, y.b FROM (SELECT a, b FROM r WHERE c = {number}) z, s y WHERE z.b = y.a" for number in range(count)]
    return left, union(shuffled(blocks, 4))


def block_of_three(number, entries, comparison="<"):
    return f"SELECT x.a, z.b FROM {entries} WHERE x.b = y.a AND y.b {comparison} z.a AND x.c = {number}"


def entries_in_another_order(count):
    """All entries are of one table. They come backwards in the right union, and so do the blocks."""
    left = [block_of_three(number, "r x, r y, r z") for number in range(count)]
    right = [block_of_three(number, "r z, r y, r x") for number in reversed(range(count))]
    return union(left), union(right)


def entries_not_alike(count):
    """The last block of the left union has none that is alike, after all others have been paired."""
    left, right = entries_in_another_order(count - 1)
    last, other = count - 1, "r z, r y, r x"
    return union([left, block_of_three(last, "r x, r y, r z", "<=")]), union([block_of_three(last, other), right])


def of_one_table(count, conditions, outputs):
    """A block over so many entries of one table."""
    entries = ", ".join(f"r x{number}" for number in range(count))
    return f"SELECT {', '.join(outputs)} FROM {entries} WHERE {' AND '.join(conditions)}"


def backwards(count, last):
    """Each output of the left block is of one entry, and of the right one of its opposite: the last list of entries is the one that is found."""
    outputs = [f"x{number}.a" for number in range(count)]
    left = of_one_table(count, [f"x0.b < x{count - 1}.b"], outputs)
    right = of_one_table(count, [f"x{count - 1}.b {last} x0.b"], outputs[::-1])
    return left, right


def entries_found_last(count):
    return backwards(count, "<")


def entries_found_nowhere(count):
    """The same, but for the last condition: all lists are tried."""
    return backwards(count, "<=")


def alternatives(count):
    """Each OR doubles the sums under one squash: with so many the normal form is too large."""
    both = [f"(a = {number} OR b = {number})" for number in range(count)]
    text = "SELECT a FROM r WHERE {}"
    return text.format(" AND ".join(both)), text.format(" AND ".join(reversed(both)) + " AND a = a")


FOUND, UNKNOWN = "found", "unknown"

ROWS = [
    ("blocks in another order", blocks_in_another_order, MOST_BLOCKS, FOUND),
    ("conditions in another order", conditions_in_another_order, MOST_BLOCKS, FOUND),
    ("tables derived", tables_derived, MOST_BLOCKS, FOUND),
    ("a union in FROM", a_union_in_from, MOST_BLOCKS // 2, FOUND),
    ("entries in another order", entries_in_another_order, MOST_BLOCKS, FOUND),
    ("entries not alike", entries_not_alike, MOST_BLOCKS, UNKNOWN),
    ("nine entries found last", entries_found_last, MOST_ENTRIES, FOUND),
    ("nine entries found nowhere", entries_found_nowhere, MOST_ENTRIES, UNKNOWN),
    ("6 alternatives", alternatives, 6, FOUND),
    ("20 alternatives", alternatives, 20, UNKNOWN),
]


def line(name, *cells):
    print(f"{name:30}" + "".join(f"{cell:>12}" for cell in cells), flush=True)


def row(name, folder, write, size, wanted):
    """Prints the figures of one case, which must be answered so: the run of a few that took the least processor time."""
    case, proof = folder / "case.sql", folder / "proof"
    case.write_text(TABLES + "\n" + ";\n".join(write(size)) + ";\n")
    with proof.open("wb") as out:
        found = subprocess.run([UDP, "prove", case], stdout=out).returncode
    if {0: FOUND, 1: UNKNOWN}.get(found) != wanted:
        sys.exit(f"{name}: ended with {found}")
    runs = [cost([UDP, "prove", case], None, found) for _ in range(RUNS)]
    best = min(runs, key=lambda it: it.processor)
    text = proof.read_bytes()
    steps = text.count(b"\n") - 3 if found == 0 else 0
    line(name, wanted, f"{best.processor:.2f}", steps, len(text) if found == 0 else 0, f"{best.memory / MEGABYTE:.1f}")
    if found == 0 and subprocess.run([UDP, "check", case, proof], capture_output=True).stdout != b"proved\n":
        sys.exit(f"{name}: the proof does not hold")


def main():
    line("", "answer", "seconds", "steps", "bytes", "peak MB")
    with tempfile.TemporaryDirectory() as folder:
        for name, write, size, wanted in ROWS:
            row(name, Path(folder), write, size, wanted)


if __name__ == "__main__":
    main()
