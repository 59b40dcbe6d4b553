#!/usr/bin/env python3
"""Measures the reader of proof lines beside the one that stood in the program before it. README.md says what a row shows.

Each is put under a program that reads a proof, in a temporary folder, and that is proved and built there: the one reads each line over the step of the line before,
the other drops what each line says.
"""

import os
import subprocess
import sys
import tempfile
from pathlib import Path

import inputs
from bench import MEGABYTE, SHORTEST, least
from steps import ROOT, built, libraries_in, program_in

# The last commit whose program has a reader of its own, and what that one is made of.
BEFORE = "4975c01"
READER = ["src/argument.rt", "src/fault.rt", "src/lines.rt", "src/step.rt", "proofs/argument", "proofs/Loops.antt"]
DEFINITIONS = ["Reading", "Steps", "Unread"]

GOAL = 2

ROWS = [
    ("100,000 short steps", inputs.short_steps, 100_000),
    ("1,000,000 short steps", inputs.short_steps, 1_000_000),
    ("opposite leaves, 20 times", inputs.opposite_leaves, 20),
]


def run(command, folder):
    ran = subprocess.run(command, cwd=folder, capture_output=True, text=True)
    if ran.returncode != 0:
        sys.exit(f"{command} failed:\n{ran.stdout}{ran.stderr}")


def program(room, proof):
    """The program over `proof_text`."""
    used = libraries_in(room, ROOT, ["proof_text", "udp_io"])
    return built(program_in(room, "read_lines", ROOT / "bench" / "read_lines.txt", used), [proof])


def program_before(room, proof):
    """The program over the reader that stood in `udp_prog`."""
    old = room / "before"
    old.mkdir()
    run(["sh", "-c", f"git archive {BEFORE} crates crates.txt | tar -x -C {old}"], ROOT)
    used = libraries_in(room, old, ["u_rules", "udp_io"])
    crate = program_in(room, "udp_prog", ROOT / "bench" / "read_lines_before.txt", used)
    parts = READER + [f"specs/{name}.antt" for name in DEFINITIONS]
    run(["cp", "-r", "--parents", *parts, str(crate)], old / "crates" / "udp_prog")
    (crate / "specs" / "Lib.antt").write_text("".join(f"pub mod {name}\n" for name in DEFINITIONS))
    (crate / "proofs" / "Lib.antt").write_text("pub mod Loops\n")
    return built(crate, [proof])


def rate(reader, proof, start):
    """Megabytes of a proof a second, the start of the program taken off."""
    seconds = least([reader, proof], b"").processor - least([reader, start], b"").processor
    return proof.stat().st_size / MEGABYTE / max(seconds, SHORTEST)


def main():
    load = ", ".join(f"{it:.1f}" for it in os.getloadavg())
    print(f"{os.cpu_count()} processors, load {load}\n")
    with tempfile.TemporaryDirectory(prefix="udp-read-") as room:
        folder = Path(room)
        case, proof, start = folder / "case.sql", folder / "proof", folder / "start"
        inputs.short_steps(case, start, 1)
        rooms = [folder / "now", folder / "then"]
        for it in rooms:
            it.mkdir()
        now, then = program(rooms[0], start), program_before(rooms[1], start)
        print(f"{'':28}{'MB':>8}{'MB/s':>9}{'before':>9}{'times':>8}   (goal: {GOAL} times)")
        for name, write, size in ROWS:
            write(case, proof, size)
            fast, slow = rate(now, proof, start), rate(then, proof, start)
            print(f"{name:28}{proof.stat().st_size / MEGABYTE:>8.2f}{fast:>9.1f}{slow:>9.1f}{fast / slow:>8.1f}", flush=True)


if __name__ == "__main__":
    main()
