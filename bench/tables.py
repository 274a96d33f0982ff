#!/usr/bin/env python3
"""Measures how many rows of CSV a second the built `cvss score --csv` answers, next to Python's csv module, which only reads
and writes them. Each by the least processor time of RUNS runs.

usage: bench/tables.py [ROWS]
"""
import os
import resource
import subprocess
import sys
import tempfile
from pathlib import Path

ROOT = Path(__file__).resolve().parents[1]
PROGRAM = ROOT / "crates/cvss_command/out/cvss_command"
RUNS = 5
VECTOR = "CVSS:3.1/AV:N/AC:L/PR:N/UI:N/S:U/C:H/I:H/A:H"
COPY = "import csv, sys; csv.writer(sys.stdout).writerows(csv.reader(sys.stdin))"


def seconds(command, path):
    least = float("inf")
    for _ in range(RUNS):
        before = resource.getrusage(resource.RUSAGE_CHILDREN)
        with open(path, "rb") as file:
            subprocess.run(command, stdin=file, stdout=subprocess.DEVNULL, check=True)
        after = resource.getrusage(resource.RUSAGE_CHILDREN)
        least = min(least, after.ru_utime + after.ru_stime - before.ru_utime - before.ru_stime)
    return least


def main():
    count = int(sys.argv[1]) if len(sys.argv) > 1 else 1_000_000
    with tempfile.TemporaryDirectory() as room:
        path = os.path.join(room, "rows.csv")
        with open(path, "w", encoding="ascii") as file:
            file.write("id,vector,note\n")
            file.writelines(f'CVE-2024-{number},{VECTOR},"a note, quoted"\n' for number in range(count))
        for name, command in (("cvss score --csv", [PROGRAM, "score", "--csv"]), ("Python's csv", [sys.executable, "-c", COPY])):
            print(f"{name}: {count / seconds(command, path):,.0f} rows a second")


if __name__ == "__main__":
    main()
