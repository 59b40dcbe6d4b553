#!/usr/bin/env python3
"""Measures steps that are made in place, small ones in large and in deep terms. README.md says what a row shows.

It copies the libraries to a temporary folder, puts a program over them there, and has it proved and built.
"""

import os
import shutil
import subprocess
import sys
import tempfile
from dataclasses import dataclass
from pathlib import Path

from bench import SHORTEST, least

ROOT = Path(__file__).resolve().parent.parent
TEMPLATE = ROOT / "bench" / "small_steps.txt"
PROGRAM = "small_steps"
USED = ["u_terms", "u_rules", "u_deriv"]

FEW, MANY = 10_000, 100_000


@dataclass
class Row:
    """How often the tree beside the place of the steps doubles, and how many negations stand around the place."""

    name: str
    doublings: int
    negations: int

    def nodes(self):
        """Those of the square that the steps are made in."""
        return 2 * (2 ** (self.doublings + 1) - 1 + self.negations + 5) + 1

    def turns(self):
        return 3 + self.negations


ROWS = [
    Row("few nodes", 0, 0),
    Row("many nodes", 15, 0),
    Row("more nodes", 16, 0),
    Row("1,000 turns", 0, 997),
    Row("2,000 turns", 0, 1_997),
]


def read_crates(root):
    """The crates of a repository, each with those that it stands on."""
    lines = (line.split("#")[0] for line in (root / "crates.txt").read_text().splitlines())
    return {name.strip(): words.split() for name, words in (line.split(":") for line in lines if line.strip())}


def below(crates, names):
    """These crates of the repository and those below them."""
    found = []
    for name in names:
        if name in crates:
            found += [it for it in below(crates, crates[name]) + [name] if it not in found]
    return found


def libraries_in(room, root, names):
    """Copies these libraries and those below them from one folder to another, and answers the crates that a program over them stands on."""
    crates = read_crates(root)
    libraries = below(crates, names)
    for name in libraries:
        shutil.copytree(root / "crates" / name, room / "crates" / name, ignore=shutil.ignore_patterns("out", "must-fail"))
    (room / "crates.txt").write_text("".join(f"{name}: {' '.join(crates[name])}\n" for name in libraries))
    return libraries + sorted({it for name in libraries for it in crates[name]} - set(libraries))


def program_in(room, name, main, used):
    """Puts a program of one file over these crates."""
    with open(room / "crates.txt", "a", encoding="ascii") as crates:
        crates.write(f"{name}: {' '.join(used)}\n")
    crate = room / "crates" / name
    for part in ("src", "specs", "proofs"):
        (crate / part).mkdir(parents=True)
    shutil.copy(main, crate / "src" / "main.rt")
    for part in ("specs", "proofs"):
        (crate / part / "Lib.antt").touch()
    return crate


def built(crate, words):
    """Has a program proved and built, and run once on these words. Answers where it is."""
    ran = subprocess.run(["rt", "run", "--", *words], cwd=crate, stdin=subprocess.DEVNULL, capture_output=True, text=True)
    if ran.returncode != 0:
        sys.exit(f"the build failed:\n{ran.stdout}{ran.stderr}")
    return crate / "out" / crate.name


def seconds(program, row, steps):
    return least([program, str(row.doublings), str(row.negations), str(steps)], b"").processor


def measure(program, row):
    """Prints the seconds of few and of many steps, those of the term alone taken off."""
    alone = seconds(program, row, 0)
    few, many = (max(seconds(program, row, steps) - alone, SHORTEST) for steps in (FEW, MANY))
    print(
        f"{row.name:12}{row.nodes():>10,}{row.turns():>8,}{few:>10.3f}{many:>10.3f}{many / few:>8.1f}"
        f"{many / MANY * 1e6:>10.2f}",
        flush=True,
    )


def main():
    load = ", ".join(f"{it:.1f}" for it in os.getloadavg())
    print(f"{os.cpu_count()} processors, load {load}\n")
    with tempfile.TemporaryDirectory(prefix="udp-steps-") as room:
        used = libraries_in(Path(room), ROOT, USED)
        program = built(program_in(Path(room), PROGRAM, TEMPLATE, used), ["0", "0", "0"])
        print(f"{'':12}{'nodes':>10}{'turns':>8}{f'{FEW:,}':>10}{f'{MANY:,}':>10}{'growth':>8}{'us/step':>10}")
        for row in ROWS:
            measure(program, row)


if __name__ == "__main__":
    main()
