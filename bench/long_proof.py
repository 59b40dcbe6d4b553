#!/usr/bin/env python3
"""Shows the limit on a proof's bytes, which no row can hold: the answers to a proof that is a line short of the most bytes, and to a text
with a byte more than these. README.md says more."""

import subprocess
import sys
import tempfile
from pathlib import Path

from bench import UDP

MOST_BYTES = 1_073_741_824
BLOCKS = 64
HEADING = b"udp-proof 1\nouts 1\n"
END = b"end\n"


def case():
    """A union, and the same with its last block first: one step leads from the one to the other."""
    blocks = [f"SELECT a FROM r WHERE a = {number}" for number in range(BLOCKS)]
    queries = ["\nUNION ALL ".join(it) for it in (blocks, blocks[-1:] + blocks[:-1])]
    return "CREATE TABLE r (a INT);\n" + ";\n".join(queries) + ";\n"


def step(folder):
    """The line of the step from the one term to the other."""
    written = subprocess.run([UDP, "prove", folder / "case.sql"], capture_output=True, check=True).stdout
    if not written.startswith(HEADING) or written.count(b"\n") != 4:
        sys.exit("the case is not proved by one step")
    return written[len(HEADING) : -len(END)]


def write(proof, forth):
    """Writes the step forth and back as often as the most bytes hold it, and once more forth. Answers how many bytes are left."""
    back = forth.replace(b"/ > ", b"/ < ", 1)
    times = (MOST_BYTES - len(HEADING) - len(END) - len(forth)) // (len(forth) + len(back))
    with proof.open("wb") as out:
        out.write(HEADING)
        for _ in range(times):
            out.write(forth)
            out.write(back)
        out.write(forth)
    return MOST_BYTES - proof.stat().st_size


def check(folder, proof, wanted):
    answer = subprocess.run([UDP, "check", folder / "case.sql", proof], capture_output=True).stdout.decode().strip()
    print(f"{proof.stat().st_size:>14} bytes: {answer}", flush=True)
    if answer != wanted:
        sys.exit(f"wanted: {wanted}")


def main():
    with tempfile.TemporaryDirectory() as name:
        folder = Path(name)
        proof = folder / "proof"
        (folder / "case.sql").write_text(case())
        left = write(proof, step(folder))
        whole = proof.stat().st_size
        with proof.open("ab") as out:
            out.write(END)
        check(folder, proof, "proved")
        # The same lines, and behind them the front of one more step, up to a byte beyond the most bytes.
        with proof.open("r+b") as out:
            out.truncate(whole)
            out.seek(whole)
            out.write(step(folder).replace(b"/ > ", b"/ < ", 1)[: left + 1])
        check(folder, proof, f"limit proof {MOST_BYTES}")


if __name__ == "__main__":
    main()
