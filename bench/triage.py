#!/usr/bin/env python3
"""Counts the instructions that the built `cvss triage` takes for a line, and refuses its memory.

Makes random v4 base vectors, runs the program on some of them and on all, and checks that the rows are
those of the lines, the scores falling and ties by the bytes of the given texts. Then each request for
memory of a short run is refused in turn: nothing may be written then. The status is 2 and standard
error says `out of memory`, or it is 1 and standard error has the rejection.
It needs cc and python3, and valgrind for the counts.

usage: bench/triage.py [COUNT]
"""
import random
import re
import subprocess
import sys
import tempfile
from pathlib import Path

ROOT = Path(__file__).resolve().parents[1]
sys.path[:0] = [str(ROOT / "tests"), str(ROOT / "tests/checks")]

import refused_memory
from skipping import has

PROGRAM = ROOT / "crates/cvss_command/out/cvss_command"
ARGUMENTS = ["triage", "--set", "MSI:S", "--set", "cr:h"]
BASE = {"AV": "NALP", "AC": "LH", "AT": "NP", "PR": "NLH", "UI": "NPA", "VC": "HLN", "VI": "HLN",
        "VA": "HLN", "SC": "HLN", "SI": "HLN", "SA": "HLN"}


def drawn(count):
    draw = random.Random(7)
    return ["/".join(["CVSS:4.0"] + [f"{name}:{draw.choice(values)}"
                                     for name, values in BASE.items()]) for _ in range(count)]


def are_ranked(lines, written):
    rows = [row.replace("\t", " ").split(" ") for row in written.splitlines()]
    order = [(-float(row[0]), row[3].encode()) for row in rows]
    scored = all(row[2] == row[3] + "/CR:H/MSI:S" for row in rows)
    return scored and order == sorted(order) and sorted(row[3] for row in rows) == sorted(lines)


def instructions(room, lines):
    done = subprocess.run(
        ["valgrind", "--tool=callgrind", f"--callgrind-out-file={room}/profile", PROGRAM, *ARGUMENTS],
        input="".join(line + "\n" for line in lines), capture_output=True, text=True, check=True)
    if not are_ranked(lines, done.stdout):
        sys.exit("the rows are wrong")
    return int(re.search(r"Collected : (\d+)", done.stderr).group(1))


def refuse(room):
    """Refuses each request of a short run, and of one whose last line is rejected."""
    shim = refused_memory.build(room)
    lacking = (2, "cvss: out of memory\n")
    rejected = "cvss: line 31: invalid CVSSv4 AV (Attack Vector) metric: `Q`\n"
    total = 0
    for lines, ends in ((drawn(30), [lacking]),
                        (drawn(30) + ["CVSS:4.0/AV:N/AV:q"], [lacking, (1, rejected)])):
        given = "\n".join(lines).encode()
        _, *others = refused_memory.runs(shim, "cvss_command", given, *ARGUMENTS)
        for turn, (status, written, message) in enumerate(others, 1):
            if written or (status, message.decode()) not in ends:
                sys.exit(f"turn {turn}: status {status}, wrote {written[:500]!r}, "
                         f"standard error {message[:500]!r}")
        if not others:
            sys.exit("no request of cvss triage was refused: nothing was tried")
        total += len(others)
    return total


def main():
    count = int(sys.argv[1]) if len(sys.argv) > 1 else 100_000
    lines = drawn(count)
    with tempfile.TemporaryDirectory() as room:
        if has("valgrind", "the instructions of cvss triage"):
            start = instructions(room, [])
            for size in (count // 10, count):
                taken = instructions(room, lines[:size]) - start
                print(f"{size} lines: {taken // size} instructions a line")
        print(f"cvss triage: {refuse(room)} requests refused in turn: nothing was written")


if __name__ == "__main__":
    main()
