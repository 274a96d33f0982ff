#!/usr/bin/env python3
"""Measures how many lines a second the built programs answer, and compares `cvss find` with `grep -oE` over prose.

Prints a row of a table for each program and input: lines a second, nanoseconds a line and megabytes a second, by the
least processor time of RUNS runs, which other work has disturbed least. The prose has a vector in every hundredth line;
`grep` runs over bytes and over the characters of UTF-8, and each program has to find all of the vectors.

usage: bench/rates.py [FOLDER]

FOLDER has the programs, such as PREFIX/bin of an installation; without it they are those that `rt run` has built.
"""
import os
import random
import resource
import subprocess
import sys
import tempfile
from pathlib import Path

ROOT = Path(__file__).resolve().parents[1]
sys.path[:0] = [str(ROOT / "tests/inputs"), str(ROOT / "bench")]

import growth
import lines

RUNS = 7
GREP = ["grep", "-aoE", r"(CVSS:(3\.[01]|4\.0)/)?[A-Z]{1,3}:[A-Za-z]+(/[A-Za-z]{1,3}:[A-Za-z]+)+"]


def drawn(version, kind, count):
    draw = random.Random(1)
    return [lines.line(draw, version, kind).encode() for _ in range(count)]


def prose(count):
    """Lines of prose, and the vectors in them, in order."""
    vectors = drawn("all", "full", count // 100)
    text = [growth.PROSE.rstrip(b"\n")] * count
    for index, vector in enumerate(vectors):
        text[100 * index + 99] = text[0].replace(b"a client", b"(" + vector + b")", 1)
    return text, vectors


def documents(count):
    script = [sys.executable, "-B", ROOT / "tests/inputs/documents.py", str(count)]
    return subprocess.run(script, stdout=subprocess.PIPE, check=True).stdout.splitlines()


def program(crate):
    """The program of a crate: in the folder that is given by its installed name, else as `rt run` has built it."""
    if not sys.argv[1:]:
        return str(ROOT / f"crates/{crate}/out/{crate}")
    listed = (ROOT / "release/programs").read_text().splitlines()
    names = dict(line.split() for line in listed if not line.startswith("#"))
    return str(Path(sys.argv[1]) / names[crate])


def measure(name, command, text, locale="C"):
    """Prints the row of a command over some lines, and returns what it writes."""
    least = float("inf")
    with tempfile.TemporaryFile() as file:
        file.write(b"".join(line + b"\n" for line in text))
        size = file.tell()
        for _ in range(RUNS):
            file.seek(0)
            before = resource.getrusage(resource.RUSAGE_CHILDREN)
            written = subprocess.run(command, stdin=file, stdout=subprocess.PIPE, check=False,
                                     env=dict(os.environ, LC_ALL=locale)).stdout
            after = resource.getrusage(resource.RUSAGE_CHILDREN)
            least = min(least, after.ru_utime + after.ru_stime - before.ru_utime - before.ru_stime)
    print(f"| {name} | {len(text) / least:,.0f} | {least / len(text) * 1e9:,.0f} | {size / least / 1e6:,.0f} |", flush=True)
    return written


def main():
    for version in "v2", "v3.1", "v4":
        measure(f"`cvss_tool`, {version} base vectors", [program("cvss_tool")], drawn(version, "base", 200_000))
    mixed = drawn("all", "mixed", 500_000)
    measure("`cvss_tool`, mixed lines", [program("cvss_tool")], mixed)
    measure("`cvss explain --json`, mixed lines", [program("cvss_command"), "explain", "--json"], mixed[:100_000])
    measure("`cvss triage --set MSI:S --set CR:H`, v4 base vectors",
            [program("cvss_command"), "triage", "--set", "MSI:S", "--set", "CR:H"],
            drawn("v4", "base", 200_000))
    measure("`cvss audit`, documents", [program("cvss_command"), "audit", "--json"], documents(20_000))
    text, vectors = prose(100_000)
    found = measure("`cvss find`, prose", [program("cvss_command"), "find"], text)
    for locale in "C", "C.UTF-8":
        if measure(f"`grep`, prose, `LC_ALL={locale}`", GREP, text, locale).split() != vectors:
            sys.exit("grep finds other vectors")
    if [line.split()[1] for line in found.splitlines()] != vectors:
        sys.exit("cvss find finds other vectors")


if __name__ == "__main__":
    main()
